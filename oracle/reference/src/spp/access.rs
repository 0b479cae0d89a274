//! A relation store's private parts, as far as the oracle needs them.

use super::{SPPnode, SPPstore, SPP};
use crate::sp::{SPnode, SPstore};

impl SPPstore {
    /// The nodes held, in the order of their creation.
    pub fn nodes(&self) -> &[SPPnode] {
        &self.nodes
    }

    pub fn level(&self, relation: SPP) -> u32 {
        self.depth(relation)
    }

    /// The empty relation over all fields, built where it is not held.
    pub fn zero_at_k(&mut self) -> SPP {
        self.zero()
    }

    /// The identity over all fields, built where it is not held.
    pub fn one_at_k(&mut self) -> SPP {
        self.one()
    }

    /// The full relation over all fields, built where it is not held.
    pub fn top_at_k(&mut self) -> SPP {
        self.top()
    }

    /// A store that holds these nodes, in this order, and no others.
    /// Its fields `zero`, `one` and `top` are not set: ask `zero_at_k` and its fellows.
    pub fn with_nodes(fields: u32, relations: &[SPPnode], sets: &[SPnode]) -> Self {
        let mut store = Self::new(0);
        store.num_vars = fields;
        store.test_memo = vec![[None; 2]; fields as usize];
        store.assign_memo = vec![[None; 2]; fields as usize];
        store.sp = SPstore::with_nodes(fields, sets);
        for node in relations {
            store.mk(node.x00, node.x01, node.x10, node.x11);
        }
        store
    }
}
