//! What the oracle says of a call: its answer, and how much the Rust's own counts of nodes grew.

use oracle::answer::{Answer, Refusal};
use oracle::store::Store;

pub struct Said {
    pub answer: Answer,
    /// The relation nodes and set nodes that the call added; of a refused one 0 and 0.
    pub added: (u32, u32),
}

impl Said {
    /// Makes a call on a store.
    pub fn of(store: &mut Store, call: impl FnOnce(&mut Store) -> Answer) -> Said {
        let before = store.counts();
        let answer = call(store);
        let after = store.counts();
        let added = match answer.refusal() {
            Some(_) => (0, 0),
            None => (after.0 - before.0, after.1 - before.1),
        };
        Said { answer, added }
    }

    /// Of the `new` that made this store.
    pub fn opened(store: &mut Store) -> Said {
        let added = store.counts();
        Said { answer: store.ask("top", &[]), added }
    }

    pub fn refused(refusal: Refusal) -> Said {
        Said { answer: Answer::Refused(refusal), added: (0, 0) }
    }

    /// The store after an accepted call.
    pub fn after<'a>(&self, store: &'a Store) -> Option<&'a Store> {
        self.answer.refusal().is_none().then_some(store)
    }

    pub fn grew(&self) -> bool {
        self.added != (0, 0)
    }
}
