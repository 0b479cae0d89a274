//! The library's calls by the oracle's names.

use oracle::answer::{Answer, Fault, Refusal};
use oracle::operations::{self, Operation};
use packet_store as library;
use packet_store::raw::{self, Reply};
use packet_store::Cursor;
use std::fmt;

/// The three memories of a call.
pub struct Memories<'a> {
    pub relations: &'a mut [u32],
    pub sets: &'a mut [u32],
    pub work: &'a mut [u32],
}

/// A call with its arguments: numbers, or a policy's text.
#[derive(Clone, Copy)]
pub enum Asked<'a> {
    Numbers(&'a str, &'a [u32]),
    Policy(&'a [u8]),
}

/// The call as the oracle writes it, `new` with its number of fields alone; a text with its odd bytes escaped.
impl fmt::Display for Asked<'_> {
    fn fmt(&self, f: &mut fmt::Formatter<'_>) -> fmt::Result {
        match self {
            Asked::Numbers(name, numbers) => {
                f.write_str(name)?;
                numbers.iter().try_for_each(|number| write!(f, " {number}"))
            }
            Asked::Policy(text) => write!(f, "policy {}", text.escape_ascii()),
        }
    }
}

/// What a call gives.
pub struct Given {
    pub answer: Answer,
    /// The relation nodes and set nodes that a call which may add some says that it added, by the C struct, refused or not.
    pub added: Option<(u32, u32)>,
    /// Whether an accepted `mk` says that it appended its node.
    pub appended: Option<bool>,
    /// The record that a call was lent, as `guarded` has it, after the call.
    pub record: Option<[Cursor; 3]>,
}

/// A record of these numbers as it is lent: between two others, which no call may change.
pub fn guarded([handle, last, given, ended]: [u32; 4]) -> [Cursor; 3] {
    let guard = Cursor { handle: 0xfeed, last: 0xface, given: 0xcafe, ended: 0xdeaf };
    [guard, Cursor { handle, last, given, ended }, guard]
}

/// The four numbers of a record.
pub fn record(numbers: &[u32]) -> [u32; 4] {
    numbers.try_into().expect("a record has four numbers")
}

impl Given {
    fn read(given: Result<Answer, library::Refusal>) -> Given {
        let answer = given.unwrap_or_else(|refusal| Answer::Refused(oracles(refusal)));
        Given { answer, added: None, appended: None, record: None }
    }

    fn made(reply: Reply) -> Given {
        let read = Given::read(reply.made().map(|made| Answer::Handle(made.handle)));
        Given { added: Some((reply.relations, reply.sets)), ..read }
    }

    fn node(reply: Reply) -> Given {
        Given { appended: reply.node().ok().map(|node| node.appended), ..Given::made(reply) }
    }
}

/// Calls the C function of this name.
macro_rules! ask {
    ($memories:expr, $name:ident $(, $x:expr)*) => {{
        let Memories { relations, sets, work } = $memories;
        let (r, s, w) = (relations.as_mut_ptr(), sets.as_mut_ptr(), work.as_mut_ptr());
        // SAFETY: the pointers are those of slices of these lengths, none of which overlaps another.
        unsafe { raw::$name(r, relations.len(), s, sets.len(), w, work.len() $(, $x)*) }
    }};
}

/// A call that may add nodes, with the places of its arguments in the list.
macro_rules! adds {
    ($name:ident($($x:literal)*)) => {
        |m, _x| Given::made(ask!(m, $name $(, _x[$x])*))
    };
}

/// A `mk`.
macro_rules! appends {
    ($name:ident($($x:literal)*)) => {
        |m, x| Given::node(ask!(m, $name $(, x[$x])*))
    };
}

/// A call that only reads, and the oracle's answer for what it gives.
macro_rules! reads {
    ($name:ident($($x:literal)*), $answer:expr) => {
        |m, x| Given::read(library::$name(m.relations, m.sets, m.work $(, x[$x])*).map($answer))
    };
}

/// A call that only reads and is lent a record of its numbers.
macro_rules! steps {
    ($name:ident, $answer:expr) => {
        |m, x| {
            let mut lent = guarded(record(x));
            let given = library::$name(m.relations, m.sets, m.work, &mut lent[1]).map($answer);
            Given { record: Some(lent), ..Given::read(given) }
        }
    };
}

type Run = fn(Memories, &[u32]) -> Given;

/// The call that begins a store, on the number of fields.
pub const NEW: Run = adds!(new(0));

/// All other calls.
pub static CALLS: [(&str, Run); 43] = [
    ("set.mk", appends!(set_mk(0 1))),
    ("set.get", reads!(set_get(0), |x| Answer::Children(x.to_vec()))),
    ("set.union", adds!(set_union(0 1))),
    ("set.intersect", adds!(set_intersect(0 1))),
    ("set.xor", adds!(set_xor(0 1))),
    ("set.difference", adds!(set_difference(0 1))),
    ("set.complement", reads!(set_complement(0), Answer::Handle)),
    ("set.is_zero", reads!(set_is_zero(0), Answer::YesNo)),
    ("set.test", adds!(set_test(0 1))),
    ("set.zero", adds!(set_zero())),
    ("set.one", adds!(set_one())),
    ("intersects", reads!(set_intersects(0 1), Answer::YesNo)),
    ("ifelse", adds!(set_ifelse(0 1 2))),
    ("set.next", steps!(set_next, Answer::Member)),
    ("rel.mk", appends!(relation_mk(0 1 2 3))),
    ("rel.get", reads!(relation_get(0), |x| Answer::Children(x.to_vec()))),
    ("rel.union", adds!(relation_union(0 1))),
    ("rel.intersect", adds!(relation_intersect(0 1))),
    ("rel.xor", adds!(relation_xor(0 1))),
    ("rel.difference", adds!(relation_difference(0 1))),
    ("rel.complement", adds!(relation_complement(0))),
    ("rel.is_zero", reads!(relation_is_zero(0), Answer::YesNo)),
    ("rel.test", adds!(relation_test(0 1))),
    ("rel.zero", adds!(relation_zero())),
    ("rel.one", adds!(relation_one())),
    ("top", adds!(relation_top())),
    ("sequence", adds!(relation_sequence(0 1))),
    ("star", adds!(relation_star(0))),
    ("flip", adds!(relation_flip(0))),
    ("assign", adds!(relation_assign(0 1))),
    ("naive_forward", adds!(relation_naive_forward(0))),
    ("backward", adds!(relation_backward(0))),
    ("relates", reads!(relation_relates(0 1 2), Answer::YesNo)),
    ("fwd", adds!(relation_fwd(0))),
    ("bwd", adds!(relation_bwd(0))),
    ("ifwd", adds!(relation_ifwd(0))),
    ("ibwd", adds!(relation_ibwd(0))),
    ("push", adds!(relation_push(0 1))),
    ("pull", adds!(relation_pull(0 1))),
    ("diagonal", adds!(relation_diagonal(0))),
    ("has_image", reads!(relation_has_image(0 1), Answer::YesNo)),
    ("has_path", reads!(relation_has_path(0 1 2), Answer::YesNo)),
    ("first_path", reads!(relation_first_path(0 1 2), Answer::Pair)),
];

/// Makes a call of the library.
pub fn make(asked: Asked, memories: Memories) -> Given {
    let (name, numbers) = match asked {
        Asked::Policy(text) => return policy(text, memories),
        Asked::Numbers(name, numbers) => (name, numbers),
    };
    let run = match name {
        "new" => NEW,
        _ => {
            let found = CALLS.iter().find(|call| call.0 == name);
            found.unwrap_or_else(|| panic!("the library has no call {name}")).1
        }
    };
    run(memories, numbers)
}

/// The text is lent as a heap block of its own, whose ends valgrind watches.
fn policy(text: &[u8], memories: Memories) -> Given {
    let text = text.to_vec().into_boxed_slice();
    let reply = ask!(memories, policy, text.as_ptr(), text.len());
    let answer = match reply.policy() {
        Ok(made) => Answer::Handle(made.handle),
        Err(library::PolicyRefusal::Store(refusal)) => Answer::Refused(oracles(refusal)),
        Err(library::PolicyRefusal::At(fault, offset)) => {
            let fault = match fault {
                library::Fault::NoField => Fault::NoField,
                library::Fault::NotPolicy => Fault::NotPolicy,
                library::Fault::NotPredicate => Fault::NotPredicate,
                library::Fault::TooDeep => Fault::TooDeep,
            };
            Answer::RefusedAt(fault, offset as usize)
        }
    };
    Given { answer, added: Some((reply.relations, reply.sets)), appended: None, record: None }
}

/// Whether an operation takes or makes relations.
pub fn on_relations(operation: &Operation) -> bool {
    !operations::SETS.iter().any(|other| other.name == operation.name)
}

/// The oracle's name of a refusal.
fn oracles(refusal: library::Refusal) -> Refusal {
    match refusal {
        library::Refusal::NotStore => Refusal::NotAStore,
        library::Refusal::NotHeld => Refusal::NotHeld,
        library::Refusal::LevelsDiffer => Refusal::LevelsDiffer,
        library::Refusal::NoChildren => Refusal::NoChildren,
        library::Refusal::OutOfRange => Refusal::OutOfRange,
        library::Refusal::UsedUp => Refusal::UsedUp,
        library::Refusal::TooLong => Refusal::TooLong,
    }
}
