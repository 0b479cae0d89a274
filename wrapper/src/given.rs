//! What a call gives, from what the library returns.

use crate::jobs::Ran;
use crate::raw::{Pair, Reply};
use crate::{Fault, PolicyRefusal, Refusal};

/// The nodes that a call added: those held after it less those held before it, for [`new`](crate::new) those held after it.
#[derive(Clone, Copy, Debug, Default, PartialEq, Eq, Hash)]
pub struct Added {
    /// Relation nodes.
    pub relations: u32,
    /// Set nodes.
    pub sets: u32,
}

/// What a call that may add nodes gives.
///
/// The handle does not say whether nodes were added: it may be an old one beside new nodes.
#[derive(Clone, Copy, Debug, PartialEq, Eq, Hash)]
pub struct Made {
    /// The set or the relation.
    pub handle: u32,
    /// The nodes that the call added.
    pub added: Added,
}

/// What [`set_mk`](crate::set_mk) and [`relation_mk`](crate::relation_mk) give.
#[derive(Clone, Copy, Debug, PartialEq, Eq, Hash)]
pub struct Node {
    /// The set or the relation.
    pub handle: u32,
    /// Whether the call appended its node: not where it was held.
    pub appended: bool,
    /// The nodes that the call added: one of its kind, or none.
    pub added: Added,
}

impl Reply {
    /// The handle and the nodes added, or the refusal.
    pub fn made(self) -> Result<Made, Refusal> {
        unpack(self.answer).map(|handle| Made { handle, added: self.added() })
    }

    /// The same of `set_mk` and `relation_mk`, which add one node or none.
    pub fn node(self) -> Result<Node, Refusal> {
        let Made { handle, added } = self.made()?;
        Ok(Node { handle, appended: added != Added::default(), added })
    }

    /// The same of a policy, for which 5 is a fault in its text.
    pub fn policy(self) -> Result<Made, PolicyRefusal> {
        let (number, value) = halves(self.answer);
        match Fault::ALL.into_iter().find(|fault| fault.number() == number) {
            Some(fault) => Err(PolicyRefusal::At(fault, value)),
            None => self.made().map_err(PolicyRefusal::Store),
        }
    }

    /// The jobs run and the nodes that they added, or the refusal of the whole list.
    pub fn ran(self) -> Result<Ran, Refusal> {
        unpack(self.answer).map(|jobs| Ran { jobs, added: self.added() })
    }

    fn added(self) -> Added {
        Added { relations: self.relations, sets: self.sets }
    }
}

impl Pair {
    /// The input and the output, where there is a pair, or the refusal.
    pub fn pair(self) -> Result<Option<(u32, u32)>, Refusal> {
        let found = unpack(self.answer)?;
        Ok((found == 1).then_some((self.input, self.output)))
    }
}

/// The two halves of an answer: the refusal's number, or 0, and the value.
fn halves(answer: u64) -> (u32, u32) {
    ((answer >> 32) as u32, answer as u32)
}

/// The value of an answer, or its refusal.
pub(crate) fn unpack(answer: u64) -> Result<u32, Refusal> {
    match halves(answer) {
        (0, value) => Ok(value),
        (number, _) => {
            Err(Refusal::of(number).expect("the library returns document 01's numbers alone"))
        }
    }
}
