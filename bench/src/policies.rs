//! Whole policies from `new` on, the proved store beside the Rust, and beside BuDDy where it is installed.

use crate::buddy::Buddy;
use crate::rounds::{least, rounds, Round, Text, Times, OURS, RUST};
use crate::sides::{median, run_rust, Lent, MOST_PLACES};
use crate::tables;
use oracle::policy::judge;
use oracle::random::Random;
use std::collections::HashSet;

/// What is drawn: the fields, how many texts, their least bytes and the least relation nodes that each ends with.
#[derive(Clone, Copy)]
pub struct Draw {
    pub fields: u32,
    pub count: usize,
    pub bytes: usize,
    pub nodes: u32,
}

const ROUNDS: usize = 9;
const MOST_BYTES: usize = 4096;
/// The working memory by which texts are chosen; which ones fit does not depend on it.
const CHOOSING: usize = 256 << 10;

/// Different policies that fit 4,096 places, the same for the same seed.
pub fn draw(seed: u64, what: Draw) -> Vec<Text> {
    let mut random = Random::new(seed);
    let mut lent = Lent::new(MOST_PLACES, CHOOSING);
    let mut seen = HashSet::new();
    let mut drawn = vec![];
    while drawn.len() < what.count {
        let text = tables::text(what.fields, what.bytes, &mut random);
        let fits = text.len() <= MOST_BYTES && lent.run(what.fields, &text).is_ok();
        if fits && lent.count() >= what.nodes && seen.insert(text.clone()) {
            drawn.push(Text::new(what.fields, text));
        }
    }
    drawn
}

/// What was drawn, and the times for each working memory. `ratio` is the median of the rounds' ratios, `least` the ratio of
/// each policy's least times together, on which other work of the machine has less influence.
pub fn table(seed: u64, what: Draw, works: &[usize]) -> String {
    let drawn = draw(seed, what);
    let buddy = Buddy::of(what.fields, &drawn);
    let mut table = format!("k = {}, {} policies of seed {seed}\n", what.fields, what.count);
    table += &spread("bytes", drawn.iter().map(|drawn| drawn.text.len() as f64));
    table += &spread("nodes", drawn.iter().map(|drawn| f64::from(drawn.nodes)));
    table += "working memory      ours, ms      Rust, ms   ratio   least";
    table += if buddy.is_some() { "     BuDDy, ms   ratio   least\n" } else { "\n" };
    for &bytes in works {
        let with_buddy = |mut round: Round| {
            round.extend(buddy.as_ref().map(Buddy::times));
            round
        };
        let rounds: Vec<Round> =
            rounds(&drawn, what.fields, bytes, ROUNDS).map(with_buddy).collect();
        let milliseconds =
            |side: usize| median(rounds.iter().map(|round| total(&round[side]) / 1e6));
        table += &format!("{:>10} KiB{:>14.2}", bytes >> 10, milliseconds(OURS));
        for other in RUST..rounds[0].len() {
            let ratio =
                median(rounds.iter().map(|round| total(&round[OURS]) / total(&round[other])));
            let least = total(&least(&rounds, OURS)) / total(&least(&rounds, other));
            table += &format!("{:>14.2}{ratio:>8.2}{least:>8.2}", milliseconds(other));
        }
        table += "\n";
    }
    table
}

fn total(times: &Times) -> f64 {
    times.iter().sum()
}

/// The least, the median and the greatest of some numbers.
fn spread(title: &str, numbers: impl Iterator<Item = f64> + Clone) -> String {
    let least = numbers.clone().fold(f64::INFINITY, f64::min);
    let greatest = numbers.clone().fold(0.0, f64::max);
    format!("{title}: {least} to {greatest}, median {}\n", median(numbers))
}

/// One of the two stores.
pub enum Side {
    Ours,
    Rust,
}

/// Runs the texts of standard input once on one side, for a profiler.
pub fn once(side: Side, fields: u32) {
    let mut lent = Lent::new(MOST_PLACES, CHOOSING);
    for line in std::io::stdin().lines() {
        let text = line.expect("standard input is text");
        let handle = match side {
            Side::Ours => lent.run(fields, &text).expect("the text fits"),
            Side::Rust => {
                let policy = judge(text.as_bytes(), fields).expect("the text is a policy");
                run_rust(fields, &policy).1
            }
        };
        println!("{handle}");
    }
}
