//! Draws lists of jobs for a store: most jobs are within the rules, with handles of the store and answers of earlier jobs as operands; then some are spoiled,
//! and some are lent as run.

use super::handles::Handles;
use crate::jobs::{self, Job, Operand, NOT_RUN, NUMBERED, RELATION, SET};
use crate::operations::{Operation, Sort};
use crate::random::Random;
use crate::store::Store;

/// What a job will answer, if it is not refused: a handle of this kind and level, or none.
type Promise = Option<(u32, u32)>;

/// A list of so many jobs.
pub fn list(len: usize, store: &Store, handles: &Handles, random: &mut Random) -> Vec<Job> {
    let mut promised: Vec<Promise> = vec![];
    let mut list: Vec<Job> = vec![];
    for _ in 0..len {
        let number = 1 + random.below(NUMBERED.len() as u32);
        let (operation, kind) = jobs::numbered(number).expect("it is one of them");
        let level = level(operation, store, random);
        let mut draw = Draw { level, store, handles, promised: &promised, random };
        let operands = draw.operands(operation);
        let answered = if operation.name == "set.mk" { level + 1 } else { level };
        let handle = kind == SET || kind == RELATION;
        promised.push(handle.then_some((kind, answered)));
        // What stands in a record that is not run is not looked at.
        let value = any(random);
        list.push(Job { operation: number, operands, kind: NOT_RUN, value });
    }
    for place in 0..len {
        if random.once_in(7) {
            spoil(place, &mut list, store, random);
        }
        if random.once_in(9) {
            lend(&mut list[place], store, random);
        }
    }
    list
}

/// The level of a job's operands, for those without handles that of its answer.
fn level(operation: &Operation, store: &Store, random: &mut Random) -> u32 {
    let fields = store.fields();
    let handles = operation.sorts.iter().any(|sort| matches!(sort, Sort::Set | Sort::Relation));
    if operation.name == "set.mk" {
        fields.saturating_sub(1 + random.below(2))
    } else if handles && random.once_in(6) {
        random.below(fields + 1)
    } else {
        fields
    }
}

/// The drawing of one job's operands.
struct Draw<'a> {
    level: u32,
    store: &'a Store,
    handles: &'a Handles,
    promised: &'a [Promise],
    random: &'a mut Random,
}

impl Draw<'_> {
    /// An operand for each that the operation takes, the others of noise.
    fn operands(&mut self, operation: &Operation) -> [Operand; 3] {
        let mut operands = [(); 3].map(|()| self.noise());
        for (operand, sort) in operands.iter_mut().zip(operation.sorts) {
            *operand = self.operand(*sort);
        }
        operands
    }

    /// An operand within the rules.
    fn operand(&mut self, sort: Sort) -> Operand {
        let fields = self.store.fields();
        let number = match sort {
            Sort::Set => match self.earlier(SET) {
                Some(place) => return answer_of(place, self.random),
                None => self.handles.pick_set(self.level, self.random),
            },
            Sort::Relation => match self.earlier(RELATION) {
                Some(place) => return answer_of(place, self.random),
                None => self.handles.pick_relation(self.level, self.random),
            },
            Sort::Field => self.random.below(fields.max(1)),
            Sort::Packet => (self.random.bits() & ((1 << self.level) - 1)) as u32,
            Sort::Value | Sort::Mark => self.random.below(2),
        };
        Operand { job: 0, number }
    }

    /// An earlier job that will answer a handle of this kind and of the level, two times of three.
    fn earlier(&mut self, kind: u32) -> Option<u32> {
        let promised = self.promised.iter().enumerate();
        let places: Vec<u32> = promised
            .filter(|(_, promise)| **promise == Some((kind, self.level)))
            .map(|(place, _)| place as u32)
            .collect();
        let taken = !places.is_empty() && !self.random.once_in(3);
        taken.then(|| self.random.pick(&places))
    }

    /// An operand that is not looked at: the job itself, an earlier or a later one, or any bits.
    fn noise(&mut self) -> Operand {
        let place = self.promised.len() as u32;
        match self.random.below(4) {
            0 => Operand { job: 0, number: 0 },
            1 => Operand { job: 1, number: place },
            2 => Operand { job: 1, number: self.random.below(2 * place + 2) },
            _ => Operand { job: any(self.random), number: any(self.random) },
        }
    }
}

/// The answer of the job at a place; any mark but 0 says so.
fn answer_of(place: u32, random: &mut Random) -> Operand {
    let job = if random.once_in(4) { any(random).max(1) } else { 1 };
    Operand { job, number: place }
}

/// Makes the job at a place break the rules: an operation that is not there, an operand that names what it must not, a number that is not held or out of
/// range. Now and then several at once, and now and then what is left is within the rules all the same.
fn spoil(place: usize, list: &mut [Job], store: &Store, random: &mut Random) {
    let len = list.len() as u32;
    let job = &mut list[place];
    let place = place as u32;
    let (n, m) = store.counts();
    for _ in 0..1 + random.below(2) {
        if random.once_in(6) {
            let past = NUMBERED.len() as u32 + 1;
            job.operation = random.pick(&[0, past, past + 1, 256, 1 << 31, u32::MAX]);
        }
        let operand = &mut job.operands[random.below(3) as usize];
        *operand = match random.below(16) {
            // The job itself, a later one, the last, past the list's end, far past it.
            0 => answer_of(place, random),
            1 => answer_of(place + 1 + random.below(len - place), random),
            2 => answer_of(len - 1, random),
            3 => answer_of(len + random.below(2), random),
            4 => answer_of(random.pick(&[256, 1 << 16, 1 << 31, u32::MAX]), random),
            // Any earlier one, and the operand's own number as a place.
            5 | 6 => answer_of(random.below(place + 1), random),
            7 => Operand { job: 1, ..*operand },
            // Numbers that are just not held or just out of range, handles of any level, any numbers.
            8..=10 => {
                let beyond = [n + 2, 2 * (m + 1), store.fields(), 2, 1 << store.fields().min(31)];
                Operand { job: 0, number: random.pick(&beyond) }
            }
            11..=14 => Operand { job: 0, number: random.below(n.max(2 * m) + 2) },
            _ => Operand { job: 0, number: any(random) },
        };
    }
}

/// Makes a record one that was run: of a kind that a run leaves, with a handle that is held, one that is not, or any value; or of another kind.
fn lend(job: &mut Job, store: &Store, random: &mut Random) {
    let (n, m) = store.counts();
    job.kind = match random.below(8) {
        0..=2 => SET,
        3..=5 => RELATION,
        6 => random.pick(&[jobs::YES_NO, jobs::REFUSED, 5]),
        _ => any(random).max(1),
    };
    job.value = match random.below(4) {
        0..=2 => random.below(if job.kind == SET { 2 * m + 3 } else { n + 3 }),
        _ => any(random),
    };
}

/// A small number, or any.
fn any(random: &mut Random) -> u32 {
    if random.once_in(2) {
        random.below(40)
    } else {
        random.bits() as u32
    }
}
