//! A list of jobs, made by the operations' names.

use crate::jobs::{run_jobs, Answer, Job, Operand, Ran};
use crate::Refusal;

/// The place in its list of a job that answers with a set.
#[derive(Clone, Copy, Debug, PartialEq, Eq, Hash)]
pub struct SetJob(u32);

/// The place in its list of a job that answers with a relation.
#[derive(Clone, Copy, Debug, PartialEq, Eq, Hash)]
pub struct RelationJob(u32);

/// The place in its list of a job that answers yes or no.
#[derive(Clone, Copy, Debug, PartialEq, Eq, Hash)]
pub struct TruthJob(u32);

/// A set that a job takes: a handle, or the answer of an earlier job.
#[derive(Clone, Copy, Debug, PartialEq, Eq, Hash)]
pub struct SetOperand(Operand);

/// A relation that a job takes: a handle, or the answer of an earlier job.
#[derive(Clone, Copy, Debug, PartialEq, Eq, Hash)]
pub struct RelationOperand(Operand);

/// A field, a packet or a value that a job takes, which no job answers.
#[derive(Clone, Copy, Debug, PartialEq, Eq, Hash)]
pub struct NumberOperand(Operand);

/// An operand from a number, and from a job that answers with what it is.
macro_rules! operands {
    ($($operand:ident $(: $job:ident)?;)*) => {$(
        impl From<u32> for $operand {
            fn from(number: u32) -> $operand {
                $operand(number.into())
            }
        }

        $(impl From<$job> for $operand {
            fn from(job: $job) -> $operand {
                $operand(Operand::answer_of(job.0))
            }
        })?
    )*};
}

operands! {
    SetOperand: SetJob;
    RelationOperand: RelationJob;
    NumberOperand;
}

/// The place in its list.
macro_rules! places {
    ($($job:ident)*) => {$(
        impl From<$job> for usize {
            fn from(job: $job) -> usize {
                job.0 as usize
            }
        }
    )*};
}

places! { SetJob RelationJob TruthJob }

/// Jobs in the order in which they are run. A method of an operation's name adds a job of it.
///
/// ```
/// use packet_store::jobs::{Answer, JobList, Ran};
/// use packet_store::{new, relations_len, sets_len, Added, WORK_LEN};
/// let (relations, sets) = (&mut [0; relations_len(64)], &mut [0; sets_len(16)]);
/// let work = &mut vec![0; WORK_LEN];
/// new(relations, sets, work, 2)?;
/// // What is 0 in field 0 gets 1 in field 1. Which packets are sent on, and are those all?
/// let mut list = JobList::new();
/// let (low, up) = (list.relation_test(0, 0), list.relation_assign(1, 1));
/// let table = list.relation_sequence(low, up);
/// let sent = list.relation_bwd(table);
/// let others = list.set_complement(sent);
/// let all = list.set_is_zero(others);
/// // Half of the jobs first.
/// assert_eq!(list.run(relations, sets, work, 3)?.jobs, 3);
/// assert_eq!((list.answer(table), list.answer(sent)), (Answer::Relation(11), Answer::NotRun));
/// assert_eq!(list.run(relations, sets, work, 99)?, Ran { jobs: 3, added: Added { relations: 0, sets: 1 } });
/// assert_eq!(list.answer(all), Answer::Truth(false));
/// # Ok::<(), packet_store::Refusal>(())
/// ```
#[derive(Clone, Debug, Default, PartialEq, Eq)]
pub struct JobList {
    /// The records; any others may be added, and those there changed.
    pub jobs: Vec<Job>,
}

impl JobList {
    /// A list of no jobs.
    pub fn new() -> JobList {
        JobList::default()
    }

    /// Adds a record of any numbers: its place.
    pub fn push(&mut self, job: Job) -> u32 {
        self.jobs.push(job);
        self.jobs.len() as u32 - 1
    }

    /// Adds a job of these operands.
    fn add(&mut self, operation: u32, operands: &[Operand]) -> u32 {
        let mut all = [Operand::default(); 3];
        all[..operands.len()].copy_from_slice(operands);
        self.push(Job::new(operation, all))
    }

    /// Runs the jobs not yet run, `limit` of them at most: [`run_jobs`].
    pub fn run(
        &mut self,
        relations: &mut [u32],
        sets: &mut [u32],
        work: &mut [u32],
        limit: u32,
    ) -> Result<Ran, Refusal> {
        run_jobs(relations, sets, work, &mut self.jobs, limit)
    }

    /// The answer of the job at this place, or of one that was added by name.
    pub fn answer(&self, job: impl Into<usize>) -> Answer {
        self.jobs[job.into()].answer()
    }

    /// The answers of all jobs.
    pub fn answers(&self) -> impl Iterator<Item = Answer> + '_ {
        self.jobs.iter().map(Job::answer)
    }
}

/// A method for each operation from its number, its name, which is that of its call, its operands in the call's order and what it answers.
macro_rules! operations {
    ($($number:literal $name:ident($($x:ident: $operand:ident),*) -> $gives:ident;)*) => {
        /// The operations' names and numbers: docs/JOBS.md and include/packet_store.h have the same.
        pub const OPERATIONS: &[(&str, u32)] = &[$((stringify!($name), $number)),*];

        impl JobList {$(
            #[doc = concat!("Operation ", $number, ": [`", stringify!($name), "`](crate::", stringify!($name), ").")]
            pub fn $name(&mut self $(, $x: impl Into<$operand>)*) -> $gives {
                $gives(self.add($number, &[$($x.into().0),*]))
            }
        )*}
    };
}

operations! {
    1 set_zero() -> SetJob;
    2 set_one() -> SetJob;
    3 relation_zero() -> RelationJob;
    4 relation_one() -> RelationJob;
    5 relation_top() -> RelationJob;

    6 set_complement(a: SetOperand) -> SetJob;
    7 set_is_zero(a: SetOperand) -> TruthJob;
    8 relation_diagonal(p: SetOperand) -> RelationJob;
    9 relation_ifwd(p: SetOperand) -> RelationJob;
    10 relation_ibwd(p: SetOperand) -> RelationJob;

    11 relation_complement(a: RelationOperand) -> RelationJob;
    12 relation_star(a: RelationOperand) -> RelationJob;
    13 relation_flip(a: RelationOperand) -> RelationJob;
    14 relation_naive_forward(a: RelationOperand) -> RelationJob;
    15 relation_backward(a: RelationOperand) -> RelationJob;
    16 relation_fwd(a: RelationOperand) -> SetJob;
    17 relation_bwd(a: RelationOperand) -> SetJob;
    18 relation_is_zero(a: RelationOperand) -> TruthJob;

    19 set_mk(x0: SetOperand, x1: SetOperand) -> SetJob;
    20 set_union(a: SetOperand, b: SetOperand) -> SetJob;
    21 set_intersect(a: SetOperand, b: SetOperand) -> SetJob;
    22 set_xor(a: SetOperand, b: SetOperand) -> SetJob;
    23 set_difference(a: SetOperand, b: SetOperand) -> SetJob;
    24 set_intersects(a: SetOperand, b: SetOperand) -> TruthJob;

    25 relation_union(a: RelationOperand, b: RelationOperand) -> RelationJob;
    26 relation_intersect(a: RelationOperand, b: RelationOperand) -> RelationJob;
    27 relation_xor(a: RelationOperand, b: RelationOperand) -> RelationJob;
    28 relation_difference(a: RelationOperand, b: RelationOperand) -> RelationJob;
    29 relation_sequence(a: RelationOperand, b: RelationOperand) -> RelationJob;

    30 relation_push(p: SetOperand, a: RelationOperand) -> SetJob;
    31 relation_has_image(p: SetOperand, a: RelationOperand) -> TruthJob;
    32 relation_pull(a: RelationOperand, p: SetOperand) -> SetJob;

    33 set_test(var: NumberOperand, value: NumberOperand) -> SetJob;
    34 relation_test(var: NumberOperand, value: NumberOperand) -> RelationJob;
    35 relation_assign(var: NumberOperand, value: NumberOperand) -> RelationJob;

    36 set_ifelse(var: NumberOperand, then_branch: SetOperand, else_branch: SetOperand) -> SetJob;
    37 relation_relates(a: RelationOperand, input: NumberOperand, output: NumberOperand) -> TruthJob;
    38 relation_has_path(p: SetOperand, a: RelationOperand, q: SetOperand) -> TruthJob;
}
