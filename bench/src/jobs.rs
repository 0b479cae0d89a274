//! A list of jobs made by one call, beside the same calls made singly. Every job's answer is held, so that a call does little more than what every call does: the
//! check of both memories and the clearing of the working memory.

use crate::fill;
use crate::sides::{timed, Lent, MOST_PLACES};
use oracle::random::Random;
use packet_store as library;
use packet_store::jobs::{Answer, JobList, Ran, MOST_JOBS};
use packet_store::{Added, SET_COUNT};
use std::time::Duration;

const FIELDS: u32 = 32;
/// How many nodes of each kind the store has.
const SIZE: u32 = 4000;
/// The working memory with which the store is built.
const BUILDING: usize = 1 << 20;
/// Each time is the least of so many.
const ROUNDS: usize = 9;

/// Of which kinds the jobs are: what the job at a place tests.
type Tests = fn(usize) -> Test;

enum Test {
    Relation,
    Set,
}

const KINDS: [(&str, Tests); 3] = [
    ("relations", |_| Test::Relation),
    ("sets", |_| Test::Set),
    ("in turn", |place| if place.is_multiple_of(2) { Test::Relation } else { Test::Set }),
];

/// A table of the jobs of each kind, with each working memory.
pub fn table(seed: u64, works: &[usize]) -> String {
    let mut random = Random::new(seed);
    let mut lent = Lent::new(MOST_PLACES, BUILDING);
    lent.run(FIELDS, "1").expect("a new store");
    // All that the jobs will ask for.
    for (_, kind) in KINDS {
        singly(&mut lent, kind);
    }
    fill::relations(&mut lent, SIZE, &mut random);
    fill::sets(&mut lent, SIZE, &mut random);
    let (relations, sets) = (lent.count(), lent.sets[SET_COUNT]);
    let mut table = format!(
        "k = {FIELDS}, {MOST_JOBS} jobs on a store of {relations} relation nodes and {sets} set nodes\n"
    );
    table += "jobs         working memory  one list, ms  singly, ms  ratio  a job, us\n";
    for (name, kind) in KINDS {
        for &work in works {
            let mut lent = Lent { work: vec![0; work / 4], ..lent.clone() };
            let [list, single] = least(&mut lent, kind).map(|time| time.as_secs_f64() * 1e3);
            table += &format!(
                "{name:<13}{:>10} KiB{list:>14.2}{single:>12.2}{:>7.2}{:>11.2}\n",
                work >> 10,
                list / single,
                list * 1e3 / MOST_JOBS as f64
            );
        }
    }
    table
}

/// The least times of one list and of the same calls made singly, whose answers have to agree. The two take turns in being first.
fn least(lent: &mut Lent, kind: Tests) -> [Duration; 2] {
    let [mut list, mut single] = [Duration::MAX; 2];
    for round in 0..ROUNDS {
        let mut jobs = listed(kind);
        let before = round.is_multiple_of(2).then(|| timed(|| singly(lent, kind)));
        let Lent { relations, sets, work } = lent;
        let (ran, time) = timed(|| jobs.run(relations, sets, work, u32::MAX));
        let (answers, single_time) = before.unwrap_or_else(|| timed(|| singly(lent, kind)));
        assert_eq!(ran, Ok(Ran { jobs: MOST_JOBS as u32, added: Added::default() }));
        assert!(jobs.answers().eq(answers));
        list = list.min(time);
        single = single.min(single_time);
    }
    [list, single]
}

/// What the job at a place tests: the fields in turn, each for 0 and for 1.
fn tested(place: usize) -> (u32, u32) {
    let number = place as u32;
    (number / 2 % FIELDS, number / 2 / FIELDS % 2)
}

/// The jobs as a list.
fn listed(kind: Tests) -> JobList {
    let mut list = JobList::new();
    for place in 0..MOST_JOBS {
        let (field, value) = tested(place);
        match kind(place) {
            Test::Relation => {
                list.relation_test(field, value);
            }
            Test::Set => {
                list.set_test(field, value);
            }
        }
    }
    list
}

/// The answers of the same calls, each made by itself.
fn singly(lent: &mut Lent, kind: Tests) -> Vec<Answer> {
    let Lent { relations, sets, work } = lent;
    let call = |place| {
        let (field, value) = tested(place);
        match kind(place) {
            Test::Relation => {
                let made = library::relation_test(relations, sets, work, field, value);
                Answer::Relation(made.expect("fits").handle)
            }
            Test::Set => {
                let made = library::set_test(relations, sets, work, field, value);
                Answer::Set(made.expect("fits").handle)
            }
        }
    };
    (0..MOST_JOBS).map(call).collect()
}
