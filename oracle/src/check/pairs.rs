//! `first_path` on every set, relation and set of small levels, against brute force.

use super::bench::Bench;
use super::meaning::{meaning, Value};
use super::plain::{PacketRelation, PacketSet};
use crate::answer::Answer;
use crate::store::Store;
use std::io::{self, Write};

/// A set, a relation and a set, by their handles, and the first pair that is meant.
pub struct Triple {
    pub handles: [u32; 3],
    pub pair: Option<(u32, u32)>,
}

/// All triples of one level: for each relation a store of as many fields that holds it and all sets, and its triples.
pub fn each_relation(level: u32, mut each: impl FnMut(&mut Store, &[Triple])) {
    let sets: Vec<Value> = PacketSet::all(level).map(Value::Set).collect();
    for relation in PacketRelation::all(level).map(Value::Relation) {
        let mut bench = Bench::new(level);
        let a = bench.hold(&relation);
        let handles: Vec<u32> = sets.iter().map(|set| bench.hold(set)).collect();
        let mut operands = [sets[0].clone(), relation, sets[0].clone()];
        let mut triples = vec![];
        for (&p, inputs) in handles.iter().zip(&sets) {
            operands[0].clone_from(inputs);
            for (&q, outputs) in handles.iter().zip(&sets) {
                operands[2].clone_from(outputs);
                let Value::Pair(pair) = meaning("first_path", level, &operands) else {
                    panic!("a pair or none is meant");
                };
                triples.push(Triple { handles: [p, a, q], pair });
            }
        }
        each(&mut bench.store, &triples);
    }
}

/// Compares all triples of each level up to this one, writes how many there were, and returns whether all agreed.
pub fn check(levels: u32, output: &mut impl Write) -> io::Result<bool> {
    let mut agreed = true;
    for level in 0..=levels {
        let (mut cases, mut pairs, mut differ) = (0_u64, 0, 0);
        each_relation(level, |store, triples| {
            for Triple { handles, pair } in triples {
                cases += 1;
                pairs += u64::from(pair.is_some());
                differ += u64::from(store.ask("first_path", handles) != Answer::Pair(*pair));
            }
        });
        writeln!(
            output,
            "first_path at level {level}: {cases} triples, {pairs} with a pair, {differ} differ"
        )?;
        agreed &= differ == 0;
    }
    Ok(agreed)
}
