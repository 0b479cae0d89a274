//! Job records to lend, between two others that no call may change.

use crate::lent::Guard;
use oracle::jobs::{Job, Operand, NOT_RUN};
use packet_store::jobs as library;

pub struct Records {
    records: Box<[library::Job]>,
    /// The records before the list, and as many after it: none where the list is a heap block of its own, whose ends valgrind watches.
    edge: usize,
}

impl Records {
    /// The records of a list, so guarded.
    pub fn new(list: &[Job], guard: Guard) -> Records {
        let edge = usize::from(guard == Guard::Words);
        // Not run, so that a call that went too far would run it.
        let operands = [Operand { job: 0xfeed, number: 0xface }; 3];
        let other = record(&Job { operation: 5, operands, kind: NOT_RUN, value: 0xcafe });
        let others = || std::iter::repeat_n(other, edge);
        let records = others().chain(list.iter().map(record)).chain(others()).collect();
        Records { records, edge }
    }

    pub fn lent(&mut self) -> &mut [library::Job] {
        let end = self.records.len() - self.edge;
        &mut self.records[self.edge..end]
    }

    /// Where two lists of one length differ first, and the records there.
    pub fn difference(&self, other: &Records) -> Option<String> {
        let at = (0..self.records.len()).find(|&at| self.records[at] != other.records[at])?;
        let place = at as isize - self.edge as isize;
        Some(format!("job {place} is {:?}, not {:?}", self.records[at], other.records[at]))
    }
}

/// The library's record of a job.
fn record(job: &Job) -> library::Job {
    let operand = |operand: Operand| library::Operand { job: operand.job, number: operand.number };
    let [a, b, c] = job.operands.map(operand);
    library::Job { operation: job.operation, a, b, c, kind: job.kind, value: job.value }
}
