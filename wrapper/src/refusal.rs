//! Why a call is refused, by the numbers of documents 01 and 02.

use std::error::Error;
use std::fmt;

/// The refusals in words, from 1 on; docs/CALLS.md and include/packet_store.h have the same.
const TEXTS: [&str; 12] = [
    "not a store",
    "handle not held",
    "levels differ",
    "no children there",
    "number out of range",
    "places used up",
    "not a policy",
    "`!` over a non-predicate",
    "nested too deep",
    "text too long",
    "no such answer",
    "unknown operation",
];

/// The words of a refusal's number.
fn text(number: u32) -> &'static str {
    TEXTS[number as usize - 1]
}

/// The store's own refusals.
#[derive(Clone, Copy, Debug, PartialEq, Eq, Hash)]
pub enum Refusal {
    /// The memories do not hold a store.
    NotStore = 1,
    /// A handle is not held.
    NotHeld = 2,
    /// The operands' levels differ.
    LevelsDiffer = 3,
    /// There are no children there.
    NoChildren = 4,
    /// A number is out of range.
    OutOfRange = 5,
    /// The places of a kind are used up.
    UsedUp = 6,
    /// A text is too long.
    TooLong = 10,
}

impl Refusal {
    /// All refusals, in the order of their numbers.
    pub const ALL: [Refusal; 7] = [
        Refusal::NotStore,
        Refusal::NotHeld,
        Refusal::LevelsDiffer,
        Refusal::NoChildren,
        Refusal::OutOfRange,
        Refusal::UsedUp,
        Refusal::TooLong,
    ];

    /// The refusal's number.
    pub fn number(self) -> u32 {
        self as u32
    }

    /// The refusal of a number.
    pub(crate) fn of(number: u32) -> Option<Refusal> {
        Refusal::ALL.into_iter().find(|refusal| refusal.number() == number)
    }
}

/// The refusal in words.
impl fmt::Display for Refusal {
    fn fmt(&self, f: &mut fmt::Formatter<'_>) -> fmt::Result {
        f.write_str(text(self.number()))
    }
}

impl Error for Refusal {}

/// What is wrong at a place in a text.
#[derive(Clone, Copy, Debug, PartialEq, Eq, Hash)]
pub enum Fault {
    /// A field is not there.
    NoField = 5,
    /// The text is not a policy.
    NotPolicy = 7,
    /// `!` stands over a non-predicate.
    NotPredicate = 8,
    /// An atom is nested too deep.
    TooDeep = 9,
}

impl Fault {
    /// All faults, in the order of their numbers.
    pub const ALL: [Fault; 4] =
        [Fault::NoField, Fault::NotPolicy, Fault::NotPredicate, Fault::TooDeep];

    /// The number of the refusal.
    pub fn number(self) -> u32 {
        self as u32
    }
}

/// The fault in words.
impl fmt::Display for Fault {
    fn fmt(&self, f: &mut fmt::Formatter<'_>) -> fmt::Result {
        f.write_str(text(self.number()))
    }
}

/// Why a policy is refused.
#[derive(Clone, Copy, Debug, PartialEq, Eq, Hash)]
pub enum PolicyRefusal {
    /// A fault, and its offset in the text.
    At(Fault, u32),
    /// The store's own refusal.
    Store(Refusal),
}

impl PolicyRefusal {
    /// The refusal's number.
    pub fn number(self) -> u32 {
        match self {
            PolicyRefusal::At(fault, _) => fault.number(),
            PolicyRefusal::Store(refusal) => refusal.number(),
        }
    }
}

/// The refusal in words, with the offset of a fault.
impl fmt::Display for PolicyRefusal {
    fn fmt(&self, f: &mut fmt::Formatter<'_>) -> fmt::Result {
        match self {
            PolicyRefusal::At(fault, offset) => write!(f, "{fault} at {offset}"),
            PolicyRefusal::Store(refusal) => refusal.fmt(f),
        }
    }
}

impl Error for PolicyRefusal {}

impl From<Refusal> for PolicyRefusal {
    fn from(refusal: Refusal) -> PolicyRefusal {
        PolicyRefusal::Store(refusal)
    }
}

/// Why a job of a list is refused.
#[derive(Clone, Copy, Debug, PartialEq, Eq, Hash)]
pub enum JobRefusal {
    /// An operand asks for an answer that is not there, or that cannot stand there.
    NoAnswer,
    /// No operation has this number.
    UnknownOperation,
    /// The refusal of its call.
    Store(Refusal),
}

impl JobRefusal {
    /// The refusal's number.
    pub fn number(self) -> u32 {
        match self {
            JobRefusal::NoAnswer => 11,
            JobRefusal::UnknownOperation => 12,
            JobRefusal::Store(refusal) => refusal.number(),
        }
    }

    /// The refusal of a number.
    pub(crate) fn of(number: u32) -> Option<JobRefusal> {
        match number {
            11 => Some(JobRefusal::NoAnswer),
            12 => Some(JobRefusal::UnknownOperation),
            _ => Refusal::of(number).map(JobRefusal::Store),
        }
    }
}

/// The refusal in words.
impl fmt::Display for JobRefusal {
    fn fmt(&self, f: &mut fmt::Formatter<'_>) -> fmt::Result {
        f.write_str(text(self.number()))
    }
}

impl Error for JobRefusal {}

impl From<Refusal> for JobRefusal {
    fn from(refusal: Refusal) -> JobRefusal {
        JobRefusal::Store(refusal)
    }
}
