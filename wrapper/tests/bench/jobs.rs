//! Jobs for the tests, and lists of them run on a store.

use super::{grown, Bench};
use packet_store::jobs::{Answer, Job, Operand, Ran, OPERATIONS};
use packet_store::*;

/// Spare operands of noise: a job that is not there, and any numbers.
pub const NOISE: [Operand; 2] =
    [Operand { job: 1, number: 300 }, Operand { job: u32::MAX, number: u32::MAX }];

/// A limit that is none.
pub const ALL: u32 = u32::MAX;

/// The number of an operation.
pub fn number(name: &str) -> u32 {
    OPERATIONS.iter().find(|operation| operation.0 == name).unwrap().1
}

/// A job of an operation on these operands, the others of noise.
pub fn job(name: &str, operands: &[Operand]) -> Job {
    let spare = NOISE.into_iter().cycle();
    let mut all = operands.iter().copied().chain(spare);
    Job::new(number(name), [(); 3].map(|()| all.next().unwrap()))
}

/// A number.
pub fn at(number: u32) -> Operand {
    number.into()
}

/// The answer of the job at a place.
pub fn of(place: u32) -> Operand {
    Operand::answer_of(place)
}

/// A record that was run.
pub fn lent(kind: u32, value: u32) -> Job {
    Job { kind, value, ..job("relation_is_zero", &[of(99)]) }
}

pub fn refused(refusal: Refusal) -> Answer {
    Answer::Refused(refusal.into())
}

/// Runs jobs on a store. What they say they added is how much the counts grew, and the working memory is zero after; a list that is declined
/// changes nothing.
pub fn run(bench: &mut Bench, jobs: &mut [Job], limit: u32) -> Result<Ran, Refusal> {
    let (before, records) = (bench.copy(), jobs.to_vec());
    let Bench { relations, sets, work } = bench;
    let ran = run_jobs(relations, sets, work, jobs, limit);
    bench.spoil_work();
    match ran {
        Ok(ran) => assert_eq!(ran.added, grown(before.held(), bench.held())),
        Err(_) => {
            assert_eq!(jobs, records);
            assert_eq!((&bench.relations, &bench.sets), (&before.relations, &before.sets));
        }
    }
    ran
}

/// The answers of a list on a store, all of whose jobs are not run yet.
pub fn answers(bench: &mut Bench, mut jobs: Vec<Job>) -> Vec<Answer> {
    let count = jobs.len() as u32;
    assert_eq!(run(bench, &mut jobs, ALL).map(|ran| ran.jobs), Ok(count));
    jobs.iter().map(Job::answer).collect()
}

/// The answer of the last job of a list.
pub fn last(bench: &mut Bench, mut jobs: Vec<Job>) -> Answer {
    run(bench, &mut jobs, ALL).unwrap();
    jobs.last().unwrap().answer()
}

/// So many jobs run, and so many nodes added.
pub fn ran(jobs: u32, relations: u32, sets: u32) -> Result<Ran, Refusal> {
    Ok(Ran { jobs, added: Added { relations, sets } })
}
