//! Lists of jobs (document 02, M-106). The reference has none: this makes the calls of a list one by one, by the request's words.

use crate::answer::{Answer, Refusal};
use crate::operations::{self, Operation, Sort};
use crate::store::Store;
use std::fmt;

/// "A lent list of job records holds up to 256 jobs".
pub const MOST_JOBS: usize = 256;

/// The kinds of an answer in a record; one of any other kind was run too, and is no handle.
pub const NOT_RUN: u32 = 0;
pub const SET: u32 = 1;
pub const RELATION: u32 = 2;
pub const YES_NO: u32 = 3;
pub const REFUSED: u32 = 4;

/// The refusals of a job alone.
pub const NO_ANSWER: u32 = 11;
pub const UNKNOWN: u32 = 12;

/// A number, or where `job` is not 0 the answer of the job at that place.
#[derive(Clone, Copy, Debug, PartialEq, Eq)]
pub struct Operand {
    pub job: u32,
    pub number: u32,
}

#[derive(Clone, Copy, Debug, PartialEq, Eq)]
pub struct Job {
    pub operation: u32,
    pub operands: [Operand; 3],
    pub kind: u32,
    pub value: u32,
}

/// The operations that a job may be, with the kind of their answers; they are numbered from 1 on, as docs/JOBS.md has them.
pub static NUMBERED: [(&str, u32); 38] = [
    ("set.zero", SET),
    ("set.one", SET),
    ("rel.zero", RELATION),
    ("rel.one", RELATION),
    ("top", RELATION),
    ("set.complement", SET),
    ("set.is_zero", YES_NO),
    ("diagonal", RELATION),
    ("ifwd", RELATION),
    ("ibwd", RELATION),
    ("rel.complement", RELATION),
    ("star", RELATION),
    ("flip", RELATION),
    ("naive_forward", RELATION),
    ("backward", RELATION),
    ("fwd", SET),
    ("bwd", SET),
    ("rel.is_zero", YES_NO),
    ("set.mk", SET),
    ("set.union", SET),
    ("set.intersect", SET),
    ("set.xor", SET),
    ("set.difference", SET),
    ("intersects", YES_NO),
    ("rel.union", RELATION),
    ("rel.intersect", RELATION),
    ("rel.xor", RELATION),
    ("rel.difference", RELATION),
    ("sequence", RELATION),
    ("push", SET),
    ("has_image", YES_NO),
    ("pull", SET),
    ("set.test", SET),
    ("rel.test", RELATION),
    ("assign", RELATION),
    ("ifelse", SET),
    ("relates", YES_NO),
    ("has_path", YES_NO),
];

/// The operation of a number, and the kind of its answers.
pub fn numbered(number: u32) -> Option<(&'static Operation, u32)> {
    let place = (number as usize).checked_sub(1)?;
    let &(name, kind) = NUMBERED.get(place)?;
    Some((operations::find(name).expect("the table has the oracle's names"), kind))
}

/// Runs the jobs that are not run, the first `limit` of them: how many that were, or why the whole list is declined.
pub fn run(store: &mut Store, jobs: &mut [Job], limit: u32) -> Result<u32, Refusal> {
    if jobs.len() > MOST_JOBS {
        return Err(Refusal::OutOfRange);
    }
    let not_run = (0..jobs.len()).filter(|&place| jobs[place].kind == NOT_RUN);
    let due: Vec<usize> = not_run.take(limit as usize).collect();
    for &place in &due {
        let (kind, value) = answer(store, jobs, place);
        jobs[place] = Job { kind, value, ..jobs[place] };
    }
    Ok(due.len() as u32)
}

/// The answer of the job at a place, by its kind and its value; those before it are run.
fn answer(store: &mut Store, jobs: &[Job], place: usize) -> (u32, u32) {
    let Job { operation, operands, .. } = jobs[place];
    let Some((operation, kind)) = numbered(operation) else {
        return (REFUSED, UNKNOWN);
    };
    let in_use = operation.sorts.iter().zip(operands);
    let arguments: Option<Vec<u32>> =
        in_use.map(|(&sort, operand)| argument(sort, operand, &jobs[..place])).collect();
    let Some(arguments) = arguments else {
        return (REFUSED, NO_ANSWER);
    };
    match store.call(operation, &arguments) {
        Answer::Handle(handle) => (kind, handle),
        Answer::YesNo(yes) => (kind, u32::from(yes)),
        Answer::Refused(refusal) => (REFUSED, refusal as u32),
        other => panic!("{} answers {other}", operation.name),
    }
}

/// What an operand stands for: a number, or a handle of the kind needed that an earlier job answered.
fn argument(sort: Sort, operand: Operand, earlier: &[Job]) -> Option<u32> {
    if operand.job == 0 {
        return Some(operand.number);
    }
    let needed = match sort {
        Sort::Set => SET,
        Sort::Relation => RELATION,
        _ => return None,
    };
    let named = earlier.get(operand.number as usize)?;
    (named.kind == needed).then_some(named.value)
}

/// The operation's number; the operands, a place of the list after `#`, with the mark of a job where that is not 1; the answer's kind and value.
impl fmt::Display for Job {
    fn fmt(&self, f: &mut fmt::Formatter<'_>) -> fmt::Result {
        write!(f, "{}(", self.operation)?;
        for (number, operand) in self.operands.iter().enumerate() {
            let before = if number == 0 { "" } else { ", " };
            match operand.job {
                0 => write!(f, "{before}{}", operand.number)?,
                1 => write!(f, "{before}#{}", operand.number)?,
                mark => write!(f, "{before}#{} ({mark})", operand.number)?,
            }
        }
        write!(f, ") = {} {}", self.kind, self.value)
    }
}
