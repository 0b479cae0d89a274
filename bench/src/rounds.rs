//! Rounds in which policies run from `new` on, on the proved store and on the Rust.

use crate::sides::{run_rust, timed, Lent, MOST_PLACES};
use oracle::policy::{judge, Policy};
use packet_store::{PolicyRefusal, Refusal};

/// A policy as both sides take it, and the relation nodes that it ends with in the Rust, which has no bound.
pub struct Text {
    pub text: String,
    pub policy: Policy,
    pub nodes: u32,
}

impl Text {
    pub fn new(fields: u32, text: String) -> Text {
        let policy = judge(text.as_bytes(), fields).expect("the text is a policy");
        let (store, _) = run_rust(fields, &policy);
        Text { text, policy, nodes: store.nodes().len() as u32 }
    }
}

/// The nanoseconds of each policy on one side.
pub type Times = Vec<f64>;

/// The times of each side: ours, the Rust's, and others' after them.
pub type Round = Vec<Times>;
pub const OURS: usize = 0;
pub const RUST: usize = 1;

/// The times of so many rounds; the round before them only warms up.
pub fn rounds(
    texts: &[Text],
    fields: u32,
    work_bytes: usize,
    count: usize,
) -> impl Iterator<Item = Round> + '_ {
    let mut lent = Lent::new(MOST_PLACES, work_bytes);
    one_round(texts, fields, &mut lent, 0);
    (1..=count).map(move |round| one_round(texts, fields, &mut lent, round))
}

/// The least times of one side.
pub fn least(rounds: &[Round], side: usize) -> Times {
    let of = |policy: usize| {
        rounds.iter().map(|round| round[side][policy]).fold(f64::INFINITY, f64::min)
    };
    (0..rounds[0][side].len()).map(of).collect()
}

/// Runs each policy once on both sides, which take turns in being first.
fn one_round(texts: &[Text], fields: u32, lent: &mut Lent, round: usize) -> Round {
    let (mut our_times, mut rust_times) = (vec![], vec![]);
    for (number, Text { text, policy, nodes }) in texts.iter().enumerate() {
        let rust_first = (number + round).is_multiple_of(2);
        let rust = rust_first.then(|| timed(|| run_rust(fields, policy)));
        let (ours, our_time) = timed(|| lent.run(fields, text));
        let (rust, rust_time) = rust.unwrap_or_else(|| timed(|| run_rust(fields, policy)));
        let (store, handle) = rust;
        assert_eq!(store.nodes().len(), *nodes as usize, "policy {number}");
        if *nodes as usize <= MOST_PLACES {
            assert_eq!((ours, lent.count()), (Ok(handle), *nodes), "policy {number}");
        } else {
            assert_eq!(ours, Err(PolicyRefusal::Store(Refusal::UsedUp)), "policy {number}");
        }
        our_times.push(our_time.as_nanos() as f64);
        rust_times.push(rust_time.as_nanos() as f64);
    }
    vec![our_times, rust_times]
}
