//! One call of the library on lent memory, compared with what the oracle says.

use crate::lent::{Guard, Lent};
use crate::library::{self, guarded, record, Asked, Memories};
use crate::memory::encode;
use crate::said::Said;
use oracle::next_member::moved;
use oracle::random::Random;
use oracle::store::Store;
use std::fmt;

/// Both memories of a store, and the length of the working memory for the next call.
#[derive(Clone)]
pub struct Case {
    pub relations: Lent,
    pub sets: Lent,
    pub work: usize,
}

/// What differs, and where.
pub struct Difference {
    pub context: String,
    pub call: String,
    pub what: String,
}

impl fmt::Display for Difference {
    fn fmt(&self, f: &mut fmt::Formatter<'_>) -> fmt::Result {
        write!(f, "DIFFERS {}\n  call: {}\n  {}", self.context, self.call, self.what)
    }
}

impl Case {
    /// Memories of these lengths, full of noise.
    pub fn noise(lengths: (usize, usize), guard: Guard, random: &mut Random) -> Case {
        let relations = Lent::noise(lengths.0, guard, random);
        Case { relations, sets: Lent::noise(lengths.1, guard, random), work: 0 }
    }

    /// Writes a store into the memories.
    pub fn encode(&mut self, store: &Store) {
        encode(store, self.relations.numbers_mut(), self.sets.numbers_mut());
    }

    /// Makes a call. The answer, the nodes added and what is left in a lent record must be those of the oracle, the
    /// memories as `lend` says.
    pub fn make(
        &mut self,
        asked: Asked,
        said: &Said,
        after: Option<&Store>,
        random: &mut Random,
    ) -> Result<(), String> {
        let (given, memories) = self.lend(after, random, |memories| library::make(asked, memories));
        let Said { answer, added } = said;
        if given.answer != *answer {
            return Err(format!("answer: {}, the oracle's: {answer}", given.answer));
        }
        // A call that only reads has no numbers, and adds nothing in the oracle.
        let counts = given.added.unwrap_or((0, 0));
        if counts != *added {
            return Err(format!(
                "answer of both: {answer}; added: {counts:?}, the oracle's: {added:?}"
            ));
        }
        if given.appended.is_some_and(|appended| appended != said.grew()) {
            return Err(format!("answer of both: {answer}; whether it appended is the other way"));
        }
        if let (Some(found), Asked::Numbers(_, numbers)) = (given.record, asked) {
            let left = guarded(moved(record(numbers), answer));
            if found != left {
                return Err(format!("answer of both: {answer}; record: {found:?}, not {left:?}"));
            }
        }
        memories.map_err(|what| format!("answer of both: {answer}; {what}"))
    }

    /// Lends the memories, and working memory full of noise, for a call: what it gives, and what is wrong in the memories after it. They must be
    /// those of `after`, or stay where there is none, and the working memory all zeros.
    pub fn lend<T>(
        &mut self,
        after: Option<&Store>,
        random: &mut Random,
        call: impl FnOnce(Memories) -> T,
    ) -> (T, Result<(), String>) {
        let mut expected = self.clone();
        if let Some(store) = after {
            expected.encode(store);
        }
        let mut work = Lent::noise(self.work, self.sets.guard(), random);
        let mut zeros = work.clone();
        zeros.numbers_mut().fill(0);
        let given = call(Memories {
            relations: self.relations.numbers_mut(),
            sets: self.sets.numbers_mut(),
            work: work.numbers_mut(),
        });
        let parts = [
            ("relation memory", &self.relations, &expected.relations),
            ("set memory", &self.sets, &expected.sets),
            ("working memory", &work, &zeros),
        ];
        for (part, found, expected) in parts {
            if let Some(what) = found.difference(expected) {
                return (given, Err(format!("{part}: {what}")));
            }
        }
        (given, Ok(()))
    }
}
