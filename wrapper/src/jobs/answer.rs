//! The answer in a job's record, by its kind.

use crate::JobRefusal;

/// A job's answer.
#[derive(Clone, Copy, Debug, PartialEq, Eq, Hash)]
pub enum Answer {
    /// The job is not run yet.
    NotRun,
    /// A set's handle.
    Set(u32),
    /// A relation's handle.
    Relation(u32),
    /// Yes or no.
    Truth(bool),
    /// Why the job was refused.
    Refused(JobRefusal),
    /// What no run leaves: the job counts as run, and its answer is no handle.
    Other {
        /// The record's kind.
        kind: u32,
        /// The record's value.
        value: u32,
    },
}

impl Answer {
    /// The answer in a record of this kind and value.
    pub(super) fn of(kind: u32, value: u32) -> Answer {
        let other = Answer::Other { kind, value };
        match (kind, value) {
            (0, _) => Answer::NotRun,
            (1, handle) => Answer::Set(handle),
            (2, handle) => Answer::Relation(handle),
            (3, 0 | 1) => Answer::Truth(value == 1),
            (4, number) => JobRefusal::of(number).map_or(other, Answer::Refused),
            _ => other,
        }
    }
}
