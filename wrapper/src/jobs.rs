//! Lists of jobs: calls that one call makes in their order, each with its answer in its record. docs/JOBS.md says what a job may be.
//!
//! A [`JobList`] is made by the operations' names, run, and read. Records of any numbers are lent to [`run_jobs`] itself.

mod answer;
mod list;

pub use answer::Answer;
pub use list::{
    JobList, NumberOperand, RelationJob, RelationOperand, SetJob, SetOperand, TruthJob, OPERATIONS,
};

use crate::lend::ask;
use crate::{Added, Refusal};

/// The library's function.
pub(crate) mod declared {
    use crate::jobs::Job;
    use crate::raw::Reply;
    extern "C" {
        crate::lend::exported! {
            run_jobs(relations: &mut [u32], sets: &mut [u32], jobs: *mut Job, jobs_len: usize, limit: u32) -> Reply
        }
    }
}

/// The most jobs of a list.
pub const MOST_JOBS: usize = 256;

/// What a job takes: `packet_store_operand`. Any two numbers are one.
#[repr(C)]
#[derive(Clone, Copy, Debug, Default, PartialEq, Eq, Hash)]
pub struct Operand {
    /// 0 for the number itself; any other number for the answer of a job.
    pub job: u32,
    /// A handle, a field, a packet or a value; or the place of an earlier job in the list, from 0.
    pub number: u32,
}

impl Operand {
    /// The answer of the job at this place.
    pub fn answer_of(place: u32) -> Operand {
        Operand { job: 1, number: place }
    }
}

/// The number itself.
impl From<u32> for Operand {
    fn from(number: u32) -> Operand {
        Operand { job: 0, number }
    }
}

/// A job and its answer: `packet_store_job`. Any nine numbers are one.
#[repr(C)]
#[derive(Clone, Copy, Debug, Default, PartialEq, Eq, Hash)]
pub struct Job {
    /// The operation's number.
    pub operation: u32,
    /// The operands, as many as the operation takes; the others are ignored, whatever they hold.
    pub a: Operand,
    pub b: Operand,
    pub c: Operand,
    /// What the answer is: 0 before the job is run, then 1 for a set, 2 for a relation, 3 for yes or no, 4 for a refusal. A job of any kind
    /// but 0 counts as run.
    pub kind: u32,
    /// The handle, 1 or 0 for yes or no, or the refusal's number.
    pub value: u32,
}

impl Job {
    /// A job that is not run.
    pub fn new(operation: u32, [a, b, c]: [Operand; 3]) -> Job {
        Job { operation, a, b, c, kind: 0, value: 0 }
    }

    /// Its answer.
    pub fn answer(&self) -> Answer {
        Answer::of(self.kind, self.value)
    }
}

/// What [`run_jobs`] gives.
#[derive(Clone, Copy, Debug, PartialEq, Eq, Hash)]
pub struct Ran {
    /// How many jobs the call ran, refused ones included.
    pub jobs: u32,
    /// The nodes that all of them added.
    pub added: Added,
}

/// Runs, in list order, the jobs that are not yet run, `limit` of them at most, and writes each one's answer into its record.
///
/// Each job run is a call of its own, on the memories as the job before it left them; one that is refused with `UsedUp` leaves them as
/// they were. A refused job keeps its refusal as its answer, and the list goes on. How many are run is the smaller of `limit` and the
/// jobs not run before. Running a list by several calls, with no other call or writing between, leaves the same answers and memories as
/// one call that runs as many jobs.
///
/// A job is refused with `UnknownOperation`; else with `NoAnswer` if one of the operands that it takes asks for a job's answer and is a
/// field, a packet or a value, or names the job itself, a later one, one past the list's end, or an earlier one whose answer is no
/// handle of the kind needed; else as its call, but never with `NotStore`.
///
/// Refuses the whole with `NotStore`; `OutOfRange` if there are more than [`MOST_JOBS`]. Then no job changes.
pub fn run_jobs(
    relations: &mut [u32],
    sets: &mut [u32],
    work: &mut [u32],
    jobs: &mut [Job],
    limit: u32,
) -> Result<Ran, Refusal> {
    ask!(run_jobs(relations, sets, work, jobs.as_mut_ptr(), jobs.len(), limit)).ran()
}
