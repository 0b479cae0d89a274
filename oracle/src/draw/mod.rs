//! Draws random lists of calls. It makes them as it draws, to know which handles there are.

pub mod handles;
pub mod jobs;
mod spoil;
pub mod texts;

use crate::answer::Answer;
use crate::call::Call;
use crate::operations::{self, Operation, Sort};
use crate::random::Random;
use crate::replay::empty_store;
use crate::store::Store;
use handles::Handles;

/// Which operations to draw.
#[derive(Clone, Copy, Debug, PartialEq, Eq)]
pub enum Part {
    All,
    Sets,
    Relations,
    /// Those on sets alone and those on relations alone.
    Both,
    /// All, and as many policies.
    Policies,
}

/// An endless list of calls, the same for the same seed. The first is an accepted `new`.
pub struct Draw {
    random: Random,
    part: Part,
    store: Store,
    handles: Handles,
    /// The operations to draw from, each as often as it weighs.
    weighed: Vec<&'static Operation>,
    /// The calls left until another store begins.
    left: u32,
}

impl Draw {
    pub fn new(seed: u64, part: Part) -> Draw {
        let store = empty_store();
        let handles = Handles::new(&store);
        Draw { random: Random::new(seed), part, store, handles, weighed: vec![], left: 0 }
    }

    /// A `new` that is accepted: mostly of few fields, at times with hardly any places to spare.
    fn accepted_new(&mut self) -> Call {
        let random = &mut self.random;
        let fields = match self.part {
            Part::Policies if random.once_in(4) => random.below(33),
            _ if random.once_in(5) => random.pick(&[8, 16, 32]),
            _ => random.below(7),
        };
        let (relations, sets) = match random.below(8) {
            0..=2 => (4096, 4096),
            3 | 4 => (random.below(60), random.below(30)),
            5 => (random.below(30), 4096),
            6 => (4096, random.below(10)),
            _ => (random.below(1000), random.below(500)),
        };
        let long = if random.once_in(8) { 8 } else { 1 };
        self.left = 20 + random.below(long * 40 * (1 + fields.min(8)));
        self.weighed = weighed(self.part, fields);
        Call::New { fields, relation_places: 3 * fields + relations, set_places: fields + sets }
    }

    /// A `new` that is refused: too many fields, or too few places for them.
    fn refused_new(&mut self) -> Call {
        let random = &mut self.random;
        let many = random.pick(&[33, 34, 64, 1 << 31, u32::MAX]);
        let few = 1 + random.below(32);
        let (fields, relation_places, set_places) = match random.below(4) {
            0 => (many, 4096, 4096),
            1 => (many, 0, 0),
            2 => (few, random.below(3 * few), 4096),
            _ => (few, 4096, random.below(few)),
        };
        Call::New { fields, relation_places, set_places }
    }

    /// An operation on operands of one level, which now and then are spoiled.
    fn operation(&mut self) -> Call {
        let operation = self.random.pick(&self.weighed);
        let mut arguments = self.arguments(operation);
        if self.random.once_in(8) {
            spoil::spoil(operation, &mut arguments, &self.store, &self.handles, &mut self.random);
        }
        Call::Operation(operation, arguments)
    }

    fn arguments(&mut self, operation: &Operation) -> Vec<u32> {
        let Draw { random, store, handles, .. } = self;
        let fields = store.fields();
        let level = if operation.name.ends_with(".mk") {
            random.below(fields.max(1))
        } else if random.once_in(4) {
            random.below(fields + 1)
        } else {
            fields
        };
        let argument = |sort: &Sort| match sort {
            Sort::Set => handles.pick_set(level, random),
            Sort::Relation => handles.pick_relation(level, random),
            // Low fields more often, for they cost fewer nodes.
            Sort::Field => {
                let highest = random.below(fields.max(1));
                random.below(highest + 1)
            }
            Sort::Value => random.below(2),
            Sort::Packet => (random.bits() & ((1 << level) - 1)) as u32,
            Sort::Mark if random.once_in(8) => random.bits() as u32,
            Sort::Mark => random.below(2),
        };
        operation.sorts.iter().map(argument).collect()
    }
}

impl Iterator for Draw {
    type Item = Call;

    fn next(&mut self) -> Option<Call> {
        let call = if self.left == 0 {
            self.accepted_new()
        } else if self.random.once_in(100) {
            self.refused_new()
        } else if self.part == Part::Policies && self.random.once_in(2) {
            Call::Policy(texts::text(self.store.fields(), &mut self.random))
        } else {
            self.operation()
        };
        if call.make(&mut self.store) == Answer::Opened {
            self.handles = Handles::new(&self.store);
        } else {
            self.handles.grow(&self.store);
            self.left -= 1;
        }
        Some(call)
    }
}

/// The operations of a part, each as often as it weighs. With few fields `mk` makes any
/// relation; with many they are made of tests and assignments, sums, products and stars.
fn weighed(part: Part, fields: u32) -> Vec<&'static Operation> {
    let operations: Vec<_> = match part {
        Part::All | Part::Policies => operations::all().collect(),
        Part::Sets => operations::SETS.iter().collect(),
        Part::Relations => operations::RELATIONS.iter().collect(),
        Part::Both => operations::SETS.iter().chain(&operations::RELATIONS).collect(),
    };
    let few = fields <= 6;
    let weight = |name| match name {
        "set.mk" | "rel.mk" if few => 8,
        "set.mk" | "rel.mk" => 1,
        "set.test" | "rel.test" | "assign" if !few => 10,
        "set.union" | "rel.union" | "sequence" | "star" if !few => 6,
        "set.zero" | "set.one" | "rel.zero" | "rel.one" | "top" => 1,
        _ => 3,
    };
    operations.into_iter().flat_map(|x| std::iter::repeat_n(x, weight(x.name))).collect()
}
