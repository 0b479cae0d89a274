//! The handles of a store by level, to pick operands from.

use crate::random::Random;
use crate::store::Store;

pub struct Handles {
    /// For each level, the handles in the order of their creation.
    relations: Vec<Vec<u32>>,
    sets: Vec<Vec<u32>>,
    /// How many handles of each kind are entered.
    entered: (u32, u32),
}

impl Handles {
    pub fn new(store: &Store) -> Handles {
        let levels = store.fields() as usize + 1;
        let none = vec![vec![]; levels];
        let mut handles = Handles { relations: none.clone(), sets: none, entered: (0, 0) };
        handles.grow(store);
        handles
    }

    /// Enters the handles that the store has got since.
    pub fn grow(&mut self, store: &Store) {
        while let Some(level) = store.relation_level(self.entered.0) {
            self.relations[level as usize].push(self.entered.0);
            self.entered.0 += 1;
        }
        while let Some(level) = store.set_level(self.entered.1) {
            self.sets[level as usize].push(self.entered.1);
            self.entered.1 += 1;
        }
    }

    pub fn pick_relation(&self, level: u32, random: &mut Random) -> u32 {
        pick(&self.relations[level as usize], random)
    }

    pub fn pick_set(&self, level: u32, random: &mut Random) -> u32 {
        pick(&self.sets[level as usize], random)
    }
}

/// Any of the handles, or one of the last few.
fn pick(handles: &[u32], random: &mut Random) -> u32 {
    let last = &handles[handles.len().saturating_sub(8)..];
    if random.once_in(2) {
        random.pick(handles)
    } else {
        random.pick(last)
    }
}
