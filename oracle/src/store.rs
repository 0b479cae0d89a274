//! The reference as document 01's store: with places, and with refusals where it would panic.

use crate::answer::{Answer, Refusal};
use crate::operations::{self, Operation, Sort};
use crate::policy;
use reference::sp::{SPnode, SP};
use reference::spp::{SPPnode, SPPstore, SPP};
use std::collections::HashSet;

const MOST_FIELDS: u32 = 32;
const MOST_PLACES: u32 = 4096;

pub struct Store {
    rust: SPPstore,
    fields: u32,
    relation_places: u32,
    set_places: u32,
}

impl Store {
    /// The store that `new` makes. More than 4096 places of a kind count as 4096.
    pub fn new(fields: u32, relation_places: u32, set_places: u32) -> Result<Store, Refusal> {
        if fields > MOST_FIELDS {
            return Err(Refusal::OutOfRange);
        }
        let rust = SPPstore::new(fields);
        Store::fitting(rust, fields, relation_places, set_places).ok_or(Refusal::UsedUp)
    }

    /// A store that begins with these nodes, in this order, in place of those of `new`.
    pub fn with_nodes(
        fields: u32,
        relation_places: u32,
        set_places: u32,
        relations: &[[u32; 4]],
        sets: &[[u32; 2]],
    ) -> Result<Store, Refusal> {
        let formed = fields <= MOST_FIELDS
            && well_formed(fields, relations, 2, |handle| handle as usize)
            && well_formed(fields, sets, 1, |handle| handle as usize / 2)
            && sets.iter().all(|children| children[0] % 2 == 0);
        if !formed {
            return Err(Refusal::NotAStore);
        }
        let relations: Vec<_> = relations.iter().map(relation_node).collect();
        let sets: Vec<_> = sets.iter().map(set_node).collect();
        let rust = SPPstore::with_nodes(fields, &relations, &sets);
        Store::fitting(rust, fields, relation_places, set_places).ok_or(Refusal::NotAStore)
    }

    fn fitting(
        rust: SPPstore,
        fields: u32,
        relation_places: u32,
        set_places: u32,
    ) -> Option<Store> {
        let relation_places = relation_places.min(MOST_PLACES);
        let set_places = set_places.min(MOST_PLACES);
        let store = Store { rust, fields, relation_places, set_places };
        store.fits().then_some(store)
    }

    pub fn fields(&self) -> u32 {
        self.fields
    }

    /// How many relation nodes and set nodes are held.
    pub fn counts(&self) -> (u32, u32) {
        let relations = self.rust.nodes().len();
        let sets = self.rust.sp.nodes().len();
        (relations as u32, sets as u32)
    }

    /// How many relation places and set places there are.
    pub fn places(&self) -> (u32, u32) {
        (self.relation_places, self.set_places)
    }

    /// The relation nodes, in the order of their creation.
    pub fn relation_nodes(&self) -> impl Iterator<Item = [u32; 4]> + '_ {
        let children = |node: &SPPnode| [node.x00, node.x01, node.x10, node.x11].map(|x| x.0);
        self.rust.nodes().iter().map(children)
    }

    /// The set nodes, in the order of their creation.
    pub fn set_nodes(&self) -> impl Iterator<Item = [u32; 2]> + '_ {
        self.rust.sp.nodes().iter().map(|node| [node.x0.0, node.x1.0])
    }

    /// The level of a relation handle, if it is held.
    pub fn relation_level(&self, handle: u32) -> Option<u32> {
        let held = u64::from(handle) < u64::from(self.counts().0) + 2;
        held.then(|| self.rust.level(SPP(handle)))
    }

    /// The level of a set handle, if it is held.
    pub fn set_level(&self, handle: u32) -> Option<u32> {
        let held = handle / 2 <= self.counts().1;
        held.then(|| self.rust.sp.level(SP(handle)))
    }

    /// Runs the operation of this name.
    pub fn ask(&mut self, name: &str, arguments: &[u32]) -> Answer {
        let operation = operations::find(name).unwrap_or_else(|| panic!("no operation {name}"));
        self.call(operation, arguments)
    }

    /// Runs one operation, or refuses it and leaves the store as it was.
    pub fn call(&mut self, operation: &Operation, arguments: &[u32]) -> Answer {
        assert_eq!(arguments.len(), operation.sorts.len(), "{}", operation.name);
        match self.refusal(operation, arguments) {
            Some(refusal) => Answer::Refused(refusal),
            None => self.run(|rust| (operation.run)(rust, arguments)),
        }
    }

    /// Builds a policy, or refuses it and leaves the store as it was.
    pub fn policy(&mut self, text: &[u8]) -> Answer {
        match policy::judge(text, self.fields) {
            Err(refusal) => refusal,
            Ok(policy) => self.run(|rust| Answer::Handle(policy::build(&policy, rust).0)),
        }
    }

    /// Runs what is within its rules; where the nodes do not fit, the store is as it was.
    fn run(&mut self, run: impl FnOnce(&mut SPPstore) -> Answer) -> Answer {
        let (relations, sets) = self.counts();
        let answer = run(&mut self.rust);
        if self.fits() {
            return answer;
        }
        self.roll_back(relations as usize, sets as usize);
        Answer::Refused(Refusal::UsedUp)
    }

    /// The refusal that the arguments alone decide. Document 01's orders agree in one:
    /// fields and values, handles held, levels alike, children there, numbers in range.
    fn refusal(&self, operation: &Operation, arguments: &[u32]) -> Option<Refusal> {
        let sorted = || operation.sorts.iter().zip(arguments);
        let out_of_range = |(sort, &x): (&Sort, &u32)| match sort {
            Sort::Field => x >= self.fields,
            Sort::Value => x > 1,
            _ => false,
        };
        if sorted().any(out_of_range) {
            return Some(Refusal::OutOfRange);
        }
        let levels: Option<Vec<u32>> = sorted()
            .filter_map(|(sort, &handle)| match sort {
                Sort::Relation => Some(self.relation_level(handle)),
                Sort::Set => Some(self.set_level(handle)),
                _ => None,
            })
            .collect();
        let Some(levels) = levels else {
            return Some(Refusal::NotHeld);
        };
        let level = *levels.first()?;
        if levels.iter().any(|&other| other != level) {
            return Some(Refusal::LevelsDiffer);
        }
        match operation.name {
            "set.get" | "rel.get" => (level == 0).then_some(Refusal::NoChildren),
            "ifelse" => (level <= arguments[0]).then_some(Refusal::NoChildren),
            "set.mk" | "rel.mk" => (level == self.fields).then_some(Refusal::OutOfRange),
            // With none given the last packet is not looked at.
            "set.next" if arguments[2] == 0 => None,
            _ => sorted()
                .any(|(&sort, &x)| sort == Sort::Packet && u64::from(x) >> level != 0)
                .then_some(Refusal::OutOfRange),
        }
    }

    fn fits(&self) -> bool {
        let (relations, sets) = self.counts();
        relations <= self.relation_places && sets <= self.set_places
    }

    /// Keeps the first nodes of each kind. The reference cannot drop nodes, so it is rebuilt.
    fn roll_back(&mut self, relations: usize, sets: usize) {
        let relations = &self.rust.nodes()[..relations];
        let sets = &self.rust.sp.nodes()[..sets];
        self.rust = SPPstore::with_nodes(self.fields, relations, sets);
    }
}

fn relation_node(children: &[u32; 4]) -> SPPnode {
    let [x00, x01, x10, x11] = children.map(SPP);
    SPPnode { x00, x01, x10, x11 }
}

fn set_node(children: &[u32; 2]) -> SPnode {
    let [x0, x1] = children.map(SP);
    SPnode { x0, x1 }
}

/// Whether each node's children come earlier and share a level below `fields`,
/// and no two nodes are equal. `index` numbers a handle among the constants and the nodes.
fn well_formed<const N: usize>(
    fields: u32,
    nodes: &[[u32; N]],
    constants: usize,
    index: fn(u32) -> usize,
) -> bool {
    let mut levels = vec![0; constants];
    let mut seen = HashSet::new();
    nodes.iter().all(|children| {
        let level = levels.get(index(children[0])).copied().unwrap_or(fields);
        let alike = children.iter().all(|&x| levels.get(index(x)) == Some(&level));
        levels.push(level + 1);
        alike && level < fields && seen.insert(children)
    })
}
