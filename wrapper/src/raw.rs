//! The library's functions as C has them: they show what stands beside a refusal. The safe functions of the same names call
//! them; their C names have `packet_store_` before these.
//!
//! Each pointer must lead to as many numbers as the length after it says, and may be null where that is 0; `children` leads to two
//! numbers for a set and to four for a relation, `cursor` to a [`Cursor`](crate::Cursor), `jobs` to as many [`Job`](crate::jobs::Job)s as
//! the length after it says. What is written must not overlap anything else that is lent.

pub use crate::calls::declared::*;
pub use crate::jobs::declared::*;
pub use crate::members::declared::*;
pub use crate::policy_call::declared::*;

/// An answer, and the nodes that its call added: `packet_store_reply`.
#[repr(C)]
#[derive(Clone, Copy, Debug, PartialEq, Eq, Hash)]
pub struct Reply {
    /// The refusal's number, or 0, in the high half; the value in the low half.
    pub answer: u64,
    /// The relation nodes that the call added, for `new` those held after it; 0 beside a refusal.
    pub relations: u32,
    /// The set nodes likewise.
    pub sets: u32,
}

/// An answer, and a pair of packets beside it: `packet_store_pair`.
#[repr(C)]
#[derive(Clone, Copy, Debug, PartialEq, Eq, Hash)]
pub struct Pair {
    /// As of a [`Reply`]; the value is 1 where there is a pair and 0 where there is none.
    pub answer: u64,
    /// The pair's input, or 0.
    pub input: u32,
    /// The pair's output, or 0.
    pub output: u32,
}
