//! Policy texts, judged from the words of documents 01 and 02: a grammar that says yes or no, offsets by what can be gone on with.

mod build;
mod grammar;
mod offsets;

use crate::answer::{Answer, Fault, Refusal};
pub use build::build;

const MOST_BYTES: usize = 4096;
const MOST_NESTING: usize = 32;

/// A policy; tests, assignments and negations know where in the text they begin.
#[derive(Clone, Debug, PartialEq, Eq)]
pub enum Policy {
    Zero,
    One,
    Full,
    Test { at: usize, field: u32, value: u32 },
    Assign { at: usize, field: u32, value: u32 },
    Not { at: usize, operand: Box<Policy> },
    Sum(Box<Policy>, Box<Policy>),
    Mix(Mix, Box<Policy>, Box<Policy>),
    Product(Box<Policy>, Box<Policy>),
    Star(Box<Policy>),
}

/// How `&`, `-` and `^` join two policies: the pairs of both, those of the left one alone, those of exactly one.
#[derive(Clone, Copy, Debug, PartialEq, Eq)]
pub enum Mix {
    Both,
    Minus,
    Either,
}

/// The policy of a text for this many fields, or the refusal, in document 01's order from 10 to 8.
pub fn judge(text: &[u8], fields: u32) -> Result<Policy, Answer> {
    if text.len() > MOST_BYTES {
        return Err(Answer::Refused(Refusal::TooLong));
    }
    let policy = grammar::policy(text, MOST_NESTING).ok_or_else(|| offsets::fault(text))?;
    if let Some(at) = policy.missing_field(fields) {
        return Err(Answer::RefusedAt(Fault::NoField, at));
    }
    match policy.offending_negation() {
        Some(at) => Err(Answer::RefusedAt(Fault::NotPredicate, at)),
        None => Ok(policy),
    }
}

impl Policy {
    /// The policy itself and all parts of it.
    fn parts(&self) -> Vec<&Policy> {
        let mut parts = vec![self];
        let mut at = 0;
        while let Some(&part) = parts.get(at) {
            match part {
                Policy::Not { operand, .. } | Policy::Star(operand) => parts.push(operand),
                Policy::Sum(left, right)
                | Policy::Mix(_, left, right)
                | Policy::Product(left, right) => {
                    parts.push(left);
                    parts.push(right);
                }
                _ => {}
            }
            at += 1;
        }
        parts
    }

    /// The first `x` whose field is not there.
    fn missing_field(&self, fields: u32) -> Option<usize> {
        let missing = |part: &Policy| match *part {
            Policy::Test { at, field, .. } | Policy::Assign { at, field, .. } => {
                (field >= fields).then_some(at)
            }
            _ => None,
        };
        self.parts().into_iter().filter_map(missing).min()
    }

    /// The first `!` whose operand has an assignment, a star or the full relation.
    fn offending_negation(&self) -> Option<usize> {
        let offending = |part: &Policy| match part {
            Policy::Not { at, operand } => {
                let other = |part: &&Policy| {
                    matches!(part, Policy::Assign { .. } | Policy::Star(_) | Policy::Full)
                };
                operand.parts().iter().any(other).then_some(*at)
            }
            _ => None,
        };
        self.parts().into_iter().filter_map(offending).min()
    }
}
