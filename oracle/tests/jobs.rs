//! Lists of jobs: document 02's worked lists, and what is drawn.

use oracle::answer::Refusal;
use oracle::draw::handles::Handles;
use oracle::draw::jobs::list;
use oracle::jobs::{self, run, Job, Operand, NOT_RUN, NUMBERED, RELATION, SET, YES_NO};
use oracle::operations::Sort;
use oracle::random::Random;
use oracle::store::Store;
use std::collections::HashSet;

/// The operand that a job takes: a number, or the answer of the job at this place.
#[derive(Clone, Copy)]
enum Takes {
    Number(u32),
    AnswerOf(u32),
}

use Takes::{AnswerOf, Number};

/// A job of the operation of this name, or of one that is not there. Spare operands name what is not there.
fn job(name: &str, takes: &[Takes]) -> Job {
    let place = NUMBERED.iter().position(|(numbered, _)| *numbered == name);
    let mut operands = [Operand { job: 7, number: 99 }; 3];
    for (operand, takes) in operands.iter_mut().zip(takes) {
        *operand = match *takes {
            Number(number) => Operand { job: 0, number },
            AnswerOf(place) => Operand { job: 1, number: place },
        };
    }
    Job { operation: place.map_or(0, |place| place as u32 + 1), operands, kind: NOT_RUN, value: 5 }
}

/// The answers of jobs: their kinds and values.
fn answers(list: &[Job]) -> Vec<(u32, u32)> {
    list.iter().map(|job| (job.kind, job.value)).collect()
}

fn refused(number: u32) -> (u32, u32) {
    (jobs::REFUSED, number)
}

#[test]
fn the_worked_lists() {
    let mut list = [
        job("rel.test", &[Number(0), Number(1)]),
        job("rel.test", &[Number(0), Number(0)]),
        job("rel.union", &[AnswerOf(0), AnswerOf(1)]),
        job("sequence", &[AnswerOf(0), Number(4)]),
        job("fwd", &[AnswerOf(3)]),
        job("rel.is_zero", &[AnswerOf(4)]),
        job("set.is_zero", &[AnswerOf(4)]),
        job("rel.union", &[AnswerOf(6), Number(99)]),
        job("rel.test", &[AnswerOf(0), Number(1)]),
        job("none of them", &[AnswerOf(99)]),
        job("rel.test", &[Number(0), Number(2)]),
    ];
    let mut store = Store::new(1, 99, 99).unwrap();
    assert_eq!(run(&mut store, &mut list, 3), Ok(3));
    assert_eq!(store.counts(), (5, 1));
    assert_eq!(list[3].kind, NOT_RUN);
    assert_eq!(run(&mut store, &mut list, 99), Ok(8));
    let relation = |handle| (RELATION, handle);
    let expected = [relation(5), relation(6), relation(3), relation(7), (SET, 3), refused(11)];
    let others = [(YES_NO, 0), refused(11), refused(11), refused(12), refused(5)];
    assert_eq!(answers(&list), [&expected[..], &others].concat());
    let mut list = [
        job("rel.complement", &[Number(3)]),
        job("rel.test", &[Number(0), Number(1)]),
        job("star", &[AnswerOf(1)]),
        job("rel.complement", &[AnswerOf(0)]),
        job("set.test", &[Number(0), Number(1)]),
    ];
    let mut store = Store::new(1, 4, 1).unwrap();
    assert_eq!(run(&mut store, &mut list, u32::MAX), Ok(5));
    let expected = [relation(5), refused(6), refused(11), relation(3), refused(6)];
    assert_eq!(answers(&list), expected);
    assert_eq!(store.counts(), (4, 1));
}

#[test]
fn more_than_256_jobs_are_declined() {
    let mut store = Store::new(1, 99, 99).unwrap();
    let mut many = vec![job("top", &[]); 257];
    assert_eq!(run(&mut store, &mut many, 1), Err(Refusal::OutOfRange));
    assert!(many.iter().all(|job| job.kind == NOT_RUN));
    many.pop();
    assert_eq!(run(&mut store, &mut many, 999), Ok(256));
}

/// Document 02: operations "of at most three operands and answering a handle, yes or no"; `first_path` and `set.next` are its own.
#[test]
fn the_38_operations_are_all_that_may_be_jobs() {
    let may = |operation: &&oracle::operations::Operation| {
        let others = ["set.get", "rel.get", "first_path", "set.next"];
        operation.sorts.len() <= 3 && !others.contains(&operation.name)
    };
    let names: HashSet<&str> = oracle::operations::all().filter(may).map(|x| x.name).collect();
    assert_eq!(names, NUMBERED.iter().map(|(name, _)| *name).collect());
    // Numbered by their operands: those of one list of sorts stand together.
    let mut seen: Vec<&[Sort]> = vec![];
    for number in 1..=38 {
        let sorts = jobs::numbered(number).unwrap().0.sorts;
        if seen.last() != Some(&sorts) {
            assert!(!seen.contains(&sorts), "{number}");
            seen.push(sorts);
        }
    }
    assert!(jobs::numbered(0).is_none() && jobs::numbered(39).is_none());
}

#[test]
fn drawn_lists_have_every_operation_and_answer() {
    let mut random = Random::new(1);
    let (mut accepted, mut refused, mut lent) = (HashSet::new(), HashSet::new(), 0);
    for _ in 0..60 {
        let mut store = Store::new(2, 20, 8).unwrap();
        let mut jobs = list(100, &store, &Handles::new(&store), &mut random);
        let before = jobs.clone();
        run(&mut store, &mut jobs, u32::MAX).unwrap();
        for (before, after) in before.iter().zip(jobs) {
            if before.kind != NOT_RUN {
                assert_eq!(*before, after);
                lent += 1;
            } else if after.kind == jobs::REFUSED {
                refused.insert(after.value);
            } else {
                accepted.insert(after.operation);
            }
        }
    }
    assert_eq!(accepted.len(), 38);
    assert_eq!(refused, HashSet::from([2, 3, 4, 5, 6, 11, 12]));
    assert!(lent > 100);
}
