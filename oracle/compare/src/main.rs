//! Compares the proved library with the oracle, and measures how its time grows.

mod case;
mod damage;
mod growth;
mod jobs;
mod lent;
mod library;
mod lists;
mod meaning;
mod members;
mod memory;
mod orders;
mod pairs;
mod records;
mod rules;
mod said;
mod sequence;
mod texts;

use case::Difference;
use lent::Guard;
use oracle::draw::Part;
use std::process::ExitCode;

const USAGE: &str = "usage: compare calls SEED COUNT [sets | relations | both | policies]
       compare damage SEED COUNT [sets | relations | both | policies]
       compare bare SEED COUNT [sets | relations | both | policies]
       compare orders SEED COUNT
       compare texts SEED COUNT
       compare pairs SEED COUNT
       compare triples LEVEL WORK
       compare members SEED ROUNDS
       compare jobs SEED ROUNDS [bare]
       compare sequence
       compare growth";

fn main() -> ExitCode {
    let arguments: Vec<String> = std::env::args().skip(1).collect();
    let words: Vec<&str> = arguments.iter().map(String::as_str).collect();
    match run(&words) {
        Some(Ok(summary)) => {
            println!("{summary}");
            ExitCode::SUCCESS
        }
        Some(Err(difference)) => {
            println!("{difference}");
            ExitCode::FAILURE
        }
        None => {
            eprintln!("{USAGE}");
            ExitCode::from(2)
        }
    }
}

/// The summary of a command, or the first difference; nothing where the words are no command.
fn run(words: &[&str]) -> Option<Result<String, Difference>> {
    match *words {
        ["calls", seed, count, ref kind @ ..] => {
            Some(lists::compare(seed.parse().ok()?, count.parse().ok()?, part(kind)?))
        }
        ["damage", ref words @ ..] => damaged(words, Guard::Words),
        ["bare", ref words @ ..] => damaged(words, Guard::Bare),
        ["orders", seed, count] => Some(orders::compare(seed.parse().ok()?, count.parse().ok()?)),
        ["texts", seed, count] => Some(texts::compare(seed.parse().ok()?, count.parse().ok()?)),
        ["pairs", seed, count] => Some(pairs::compare(seed.parse().ok()?, count.parse().ok()?)),
        ["triples", level @ ("0" | "1" | "2"), work] => {
            Some(pairs::all(level.parse().ok()?, work.parse().ok()?))
        }
        ["members", seed, rounds] => {
            Some(members::compare(seed.parse().ok()?, rounds.parse().ok()?))
        }
        ["jobs", seed, rounds] => {
            Some(jobs::compare(seed.parse().ok()?, rounds.parse().ok()?, Guard::Words))
        }
        ["jobs", seed, rounds, "bare"] => {
            Some(jobs::compare(seed.parse().ok()?, rounds.parse().ok()?, Guard::Bare))
        }
        ["sequence"] => Some(Ok(sequence::printed())),
        ["growth"] => Some(Ok(growth::measure())),
        _ => None,
    }
}

/// The comparison on damaged memories, so guarded.
fn damaged(words: &[&str], guard: Guard) -> Option<Result<String, Difference>> {
    let [seed, count, ref kind @ ..] = *words else { return None };
    Some(damage::compare(seed.parse().ok()?, count.parse().ok()?, part(kind)?, guard))
}

/// The operations to draw; all where none are named.
fn part(words: &[&str]) -> Option<Part> {
    match *words {
        ["sets"] => Some(Part::Sets),
        ["relations"] => Some(Part::Relations),
        ["both"] => Some(Part::Both),
        ["policies"] => Some(Part::Policies),
        [] => Some(Part::All),
        _ => None,
    }
}
