//! A store on the bench: plain values are held in it, its handles read, its results compared.

use super::meaning::{meaning, Value};
use super::plain::{PacketRelation, PacketSet};
use crate::answer::Answer;
use crate::operations::Operation;
use crate::store::Store;
use std::collections::HashSet;

pub struct Bench {
    pub store: Store,
    /// What each handle read so far means, by the walks down from it.
    relations: Vec<PacketRelation>,
    sets: Vec<PacketSet>,
}

impl Bench {
    pub fn new(fields: u32) -> Bench {
        let store = Store::new(fields, 4096, 4096).expect("the places suffice");
        Bench { store, relations: vec![], sets: vec![] }
    }

    /// Whether so few places are left that a case might not fit.
    pub fn is_full(&self) -> bool {
        let (relations, sets) = self.store.counts();
        relations.max(sets) > 3000
    }

    /// Whether the store's answer is the plain result.
    pub fn agrees(&mut self, operation: &Operation, operands: &[Value]) -> bool {
        let arguments: Vec<u32> = operands.iter().map(|value| self.hold(value)).collect();
        let answer = self.store.call(operation, &arguments);
        self.read();
        match (answer, meaning(operation.name, self.store.fields(), operands)) {
            (Answer::YesNo(yes), Value::YesNo(expected)) => yes == expected,
            (Answer::Pair(pair), Value::Pair(expected)) => pair == expected,
            (Answer::Member(packet), Value::Member(expected)) => packet == expected,
            (Answer::Handle(handle), expected) => self.is_handle_of(handle, &expected),
            (Answer::Children(children), Value::Children(expected)) => {
                let mut pairs = children.iter().zip(&expected);
                children.len() == expected.len()
                    && pairs.all(|(&child, part)| self.is_handle_of(child, part))
            }
            _ => false,
        }
    }

    /// Whether the handle has the value's level and meaning, and building the value gives it.
    fn is_handle_of(&mut self, handle: u32, value: &Value) -> bool {
        let right = match value {
            Value::Set(set) => {
                self.store.set_level(handle) == Some(set.level)
                    && self.sets.get(handle as usize) == Some(set)
            }
            Value::Relation(relation) => {
                self.store.relation_level(handle) == Some(relation.level)
                    && self.relations.get(handle as usize) == Some(relation)
            }
            _ => false,
        };
        right && self.hold(value) == handle
    }

    /// The argument for an operand: a number itself, or the handle that `mk` gives from level 0 up.
    pub fn hold(&mut self, value: &Value) -> u32 {
        match value {
            Value::Number(number) => *number,
            Value::Set(set) if set.level == 0 => u32::from(!set.is_empty()),
            Value::Set(set) => {
                let children = set.split().map(|part| self.hold(&Value::Set(part)));
                self.make("set.mk", &children)
            }
            Value::Relation(relation) if relation.level == 0 => u32::from(!relation.is_empty()),
            Value::Relation(relation) => {
                let children = relation.split().map(|part| self.hold(&Value::Relation(part)));
                self.make("rel.mk", &children)
            }
            _ => panic!("{value:?} is no operand"),
        }
    }

    fn make(&mut self, name: &str, children: &[u32]) -> u32 {
        match self.store.ask(name, children) {
            Answer::Handle(handle) => handle,
            other => panic!("{name} {children:?} answers {other}"),
        }
    }

    /// Reads the handles added since the last time. Children come earlier.
    fn read(&mut self) {
        let (relations, sets) = self.store.counts();
        for handle in self.relations.len() as u32..relations + 2 {
            let meaning = match self.children(handle, "rel.get") {
                Some(x) => PacketRelation::join(x.map(|x| self.relations[x as usize].clone())),
                None => PacketRelation::of(0, |_, _| handle == 1),
            };
            self.relations.push(meaning);
        }
        for handle in self.sets.len() as u32..2 * (sets + 1) {
            let meaning = match self.children(handle, "set.get") {
                Some(x) => PacketSet::join(x.map(|x| self.sets[x as usize].clone())),
                None => PacketSet::of(0, |_| handle == 1),
            };
            self.sets.push(meaning);
        }
    }

    fn children<const N: usize>(&mut self, handle: u32, get: &str) -> Option<[u32; N]> {
        match self.store.ask(get, &[handle]) {
            Answer::Children(children) => children.try_into().ok(),
            _ => None,
        }
    }

    /// How many handles the store holds, and how many of them mean what an earlier one means.
    pub fn count_doubles(mut self) -> (usize, usize) {
        self.read();
        let held = self.relations.len() + self.sets.len();
        let relations: HashSet<_> = self.relations.into_iter().collect();
        let sets: HashSet<_> = self.sets.into_iter().collect();
        (held, held - relations.len() - sets.len())
    }
}
