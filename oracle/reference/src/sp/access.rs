//! A set store's private parts, as far as the oracle needs them.

use super::{SPnode, SPstore, SP};

impl SPstore {
    /// The nodes held, in the order of their creation.
    pub fn nodes(&self) -> &[SPnode] {
        &self.nodes
    }

    pub fn level(&self, set: SP) -> u32 {
        self.depth(set)
    }

    /// The empty set over all fields, built where it is not held.
    pub fn zero_at_k(&mut self) -> SP {
        self.zero()
    }

    /// The full set over all fields, built where it is not held.
    pub fn one_at_k(&mut self) -> SP {
        self.one()
    }

    /// A store that holds these nodes, in this order, and no others.
    pub fn with_nodes(fields: u32, nodes: &[SPnode]) -> Self {
        let mut store = Self::new(0);
        store.num_vars = fields;
        store.test_memo = vec![[None; 2]; fields as usize];
        for node in nodes {
            store.mk(node.x0, node.x1);
        }
        store
    }
}
