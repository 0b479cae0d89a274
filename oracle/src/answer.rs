//! What a call answers.

use std::fmt;

/// The refusals of document 01 that a store's calls can give, with its numbers.
#[derive(Clone, Copy, Debug, PartialEq, Eq)]
pub enum Refusal {
    NotAStore = 1,
    NotHeld = 2,
    LevelsDiffer = 3,
    NoChildren = 4,
    OutOfRange = 5,
    UsedUp = 6,
    TooLong = 10,
}

/// The refusals that carry a place in a text.
#[derive(Clone, Copy, Debug, PartialEq, Eq)]
pub enum Fault {
    NoField = 5,
    NotPolicy = 7,
    NotPredicate = 8,
    TooDeep = 9,
}

#[derive(Clone, Debug, PartialEq, Eq)]
pub enum Answer {
    /// An accepted `new`.
    Opened,
    Handle(u32),
    YesNo(bool),
    /// The children of a node: two of a set, four of a relation.
    Children(Vec<u32>),
    /// An input and an output, or none.
    Pair(Option<(u32, u32)>),
    /// The next packet of a set, or the end.
    Member(Option<u32>),
    Refused(Refusal),
    /// A policy with a fault at this offset.
    RefusedAt(Fault, usize),
}

impl Answer {
    /// The refusal's number, where there is one.
    pub fn refusal(&self) -> Option<usize> {
        match self {
            Answer::Refused(refusal) => Some(*refusal as usize),
            Answer::RefusedAt(fault, _) => Some(*fault as usize),
            _ => None,
        }
    }
}

/// A letter for the kind of answer, then its numbers.
impl fmt::Display for Answer {
    fn fmt(&self, f: &mut fmt::Formatter<'_>) -> fmt::Result {
        match self {
            Answer::Opened => write!(f, "o"),
            Answer::Handle(handle) => write!(f, "h {handle}"),
            Answer::YesNo(yes) => write!(f, "b {}", u32::from(*yes)),
            Answer::Children(children) => {
                write!(f, "c")?;
                children.iter().try_for_each(|child| write!(f, " {child}"))
            }
            Answer::Pair(Some((input, output))) => write!(f, "p {input} {output}"),
            Answer::Member(Some(packet)) => write!(f, "m {packet}"),
            Answer::Pair(None) | Answer::Member(None) => write!(f, "n"),
            Answer::Refused(refusal) => write!(f, "r {}", *refusal as u32),
            Answer::RefusedAt(fault, offset) => write!(f, "r {} {offset}", *fault as u32),
        }
    }
}
