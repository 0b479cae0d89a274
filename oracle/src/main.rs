//! The commands: replay a list of calls, check the meanings, draw a list of calls.

use oracle::check::{check, Effort};
use oracle::draw::{Draw, Part};
use oracle::replay::replay;
use std::io::{self, BufWriter, Write};
use std::process::ExitCode;

const USAGE: &str = "usage: oracle replay
       oracle check
       oracle draw SEED COUNT [sets | relations | both | policies]";

const EFFORT: Effort =
    Effort { all_up_to: 65536, random_lists: 5000, all_pairs_to: 2, all_members_to: 3 };

fn main() -> ExitCode {
    let arguments: Vec<String> = std::env::args().skip(1).collect();
    let words: Vec<&str> = arguments.iter().map(String::as_str).collect();
    let result = match words[..] {
        ["replay"] => replay(io::stdin().lock(), BufWriter::new(io::stdout())).map(|()| true),
        ["check"] => check(&EFFORT, io::stdout()),
        ["draw", ref words @ ..] => draw(words).map(|()| true),
        _ => Err(io::Error::other(USAGE)),
    };
    match result {
        Ok(true) => ExitCode::SUCCESS,
        Ok(false) => ExitCode::FAILURE,
        Err(error) => {
            eprintln!("{error}");
            ExitCode::from(2)
        }
    }
}

fn draw(words: &[&str]) -> io::Result<()> {
    let (seed, count, part) = match *words {
        [seed, count] => (seed, count, Part::All),
        [seed, count, "sets"] => (seed, count, Part::Sets),
        [seed, count, "relations"] => (seed, count, Part::Relations),
        [seed, count, "both"] => (seed, count, Part::Both),
        [seed, count, "policies"] => (seed, count, Part::Policies),
        _ => return Err(io::Error::other(USAGE)),
    };
    let (Ok(seed), Ok(count)) = (seed.parse(), count.parse()) else {
        return Err(io::Error::other(USAGE));
    };
    let mut output = BufWriter::new(io::stdout());
    for call in Draw::new(seed, part).take(count) {
        writeln!(output, "{call}")?;
    }
    output.flush()
}
