//! Lent memory for the tests: a refusal must leave it as it was, and an accepted call adds the nodes that it says. And the fields of a packet.

// No test file uses all of it.
#![allow(dead_code)]

pub mod jobs;

use packet_store::*;

/// What a call that may add nodes gives, in one form.
pub trait Gives {
    fn made(self) -> Made;
}

impl Gives for Made {
    fn made(self) -> Made {
        self
    }
}

impl Gives for Node {
    fn made(self) -> Made {
        let Node { handle, appended, added } = self;
        assert_eq!(appended, added.relations + added.sets == 1);
        Made { handle, added }
    }
}

/// Two memories with this many places of each kind, and some working memory.
pub struct Bench {
    pub relations: Vec<u32>,
    pub sets: Vec<u32>,
    pub work: Vec<u32>,
}

impl Bench {
    pub fn raw(relation_places: usize, set_places: usize) -> Bench {
        let relations = vec![7; relations_len(relation_places)];
        Bench { relations, sets: vec![7; sets_len(set_places)], work: vec![7; 4096] }
    }

    /// A store of k fields.
    pub fn new(k: u32, relation_places: usize, set_places: usize) -> Bench {
        let mut bench = Bench::raw(relation_places, set_places);
        assert!(bench.open(k).is_ok());
        bench
    }

    /// A store of k fields that holds no node.
    pub fn bare(k: u32, relation_places: usize, set_places: usize) -> Bench {
        let mut bench = Bench::raw(relation_places, set_places);
        bench.relations.fill(0);
        bench.relations[FIELDS] = k;
        bench.sets.fill(0);
        bench
    }

    /// The same memories, with other working memory.
    pub fn copy(&self) -> Bench {
        Bench { relations: self.relations.clone(), sets: self.sets.clone(), work: vec![7; 9] }
    }

    /// The nodes held.
    pub fn held(&self) -> Added {
        Added { relations: self.relations[RELATION_COUNT], sets: self.sets[SET_COUNT] }
    }

    /// Begins a store of k fields: the handle.
    pub fn open(&mut self, k: u32) -> Result<u32, Refusal> {
        self.add(|b| new(&mut b.relations, &mut b.sets, &mut b.work, k), |_, after| after)
    }

    /// Makes a call that may add sets: the handle.
    pub fn add_set<G: Gives>(
        &mut self,
        call: impl FnOnce(&[u32], &mut [u32], &mut [u32]) -> Result<G, Refusal>,
    ) -> Result<u32, Refusal> {
        self.add(|b| call(&b.relations, &mut b.sets, &mut b.work), grown)
    }

    /// Makes a call that may add relations: the handle.
    pub fn add_relation<G: Gives, E>(
        &mut self,
        call: impl FnOnce(&mut [u32], &[u32], &mut [u32]) -> Result<G, E>,
    ) -> Result<u32, E> {
        self.add(|b| call(&mut b.relations, &b.sets, &mut b.work), grown)
    }

    /// Makes a call; what it says it added must be this of the nodes held before and after.
    fn add<G: Gives, E>(
        &mut self,
        call: impl FnOnce(&mut Bench) -> Result<G, E>,
        added: fn(Added, Added) -> Added,
    ) -> Result<u32, E> {
        let before = (self.relations.clone(), self.sets.clone());
        let answer = call(self).map(Gives::made);
        match &answer {
            Ok(made) => {
                let counts =
                    Added { relations: before.0[RELATION_COUNT], sets: before.1[SET_COUNT] };
                assert_eq!(made.added, added(counts, self.held()));
            }
            Err(_) => assert_eq!(before, (self.relations.clone(), self.sets.clone())),
        }
        self.spoil_work();
        answer.map(|made| made.handle)
    }

    /// Judges a policy.
    pub fn judge(&mut self, text: impl AsRef<[u8]>) -> Result<u32, PolicyRefusal> {
        self.add_relation(|r, s, w| policy(r, s, w, text.as_ref()))
    }

    /// Makes a call that adds nothing.
    pub fn read<T>(
        &mut self,
        call: impl FnOnce(&[u32], &[u32], &mut [u32]) -> Result<T, Refusal>,
    ) -> Result<T, Refusal> {
        let answer = call(&self.relations, &self.sets, &mut self.work);
        self.spoil_work();
        answer
    }

    /// The working memory must be all zeros; the next call finds other numbers in it.
    fn spoil_work(&mut self) {
        assert!(self.work.iter().all(|&x| x == 0));
        self.work.fill(7);
    }
}

/// The nodes held after a call less those before it.
fn grown(before: Added, after: Added) -> Added {
    Added { relations: after.relations - before.relations, sets: after.sets - before.sets }
}

/// A packet's fields, field 0 first: bit f of its number is field f. So two packets of one level compare in field order.
pub fn fields(level: u32, packet: u32) -> Vec<bool> {
    (0..level).map(|field| packet >> field & 1 == 1).collect()
}

/// Ways to damage a store of 2 fields with 6 and 4 places, right after `new`: its set nodes are (0, 0) and (2, 2).
pub const DAMAGES: [fn(&mut Bench); 18] = [
    // Lengths, k and counts.
    |b| drop(b.sets.drain(..)),
    |b| drop(b.relations.drain(..)),
    |b| b.relations.truncate(RELATION_HEAD - 1),
    |b| b.relations.truncate(relations_len(6) - 1),
    |b| b.sets.truncate(sets_len(2) - 1),
    |b| b.relations[FIELDS] = 33,
    |b| b.relations[RELATION_COUNT] = 7,
    |b| b.sets[SET_COUNT] = 5,
    // A free place that is not zero, and an odd first child.
    |b| b.sets[SET_COUNT] = 1,
    |b| b.sets[sets_len(3) + 1] = 1,
    |b| b.sets[SET_HEAD] = 1,
    // A child that is the node itself, that comes later, that is not held.
    |b| b.sets[sets_len(1)] = 4,
    |b| b.sets[SET_HEAD] = 4,
    |b| b.relations[RELATION_HEAD] = u32::MAX,
    // Children of two levels, a level above k, equal nodes of each kind.
    |b| b.sets[sets_len(1) + 1] = 0,
    |b| {
        b.sets[SET_COUNT] = 3;
        b.sets[sets_len(2)..sets_len(3)].fill(4);
    },
    |b| b.sets[sets_len(1)..sets_len(2)].fill(0),
    |b| b.relations.copy_within(RELATION_HEAD..relations_len(1), relations_len(1)),
];
