//! Operands for the check: all of a level, or random ones.

use super::meaning::Value;
use super::plain::{packets, PacketRelation, PacketSet};
use crate::operations::{Operation, Sort};
use crate::random::Random;
use std::slice::from_ref;

/// The marks of a record.
const MARKS: [u32; 3] = [0, 1, 7];

/// All lists of operands of one level, if there are at most `most`.
pub fn all(operation: &Operation, level: u32, most: u64) -> Option<Vec<Vec<Value>>> {
    let sizes = operation.sorts.iter().map(|sort| match sort {
        Sort::Set => 1_u64.checked_shl(packets(level)),
        Sort::Relation => 1_u64.checked_shl(packets(2 * level)),
        Sort::Field => Some(u64::from(level)),
        Sort::Value => Some(2),
        Sort::Packet => Some(u64::from(packets(level))),
        Sort::Mark => Some(MARKS.len() as u64),
    });
    let size = sizes.reduce(|a, b| a?.checked_mul(b?)).unwrap_or(Some(1))?;
    (size <= most).then(|| lists(operation.sorts, level))
}

fn lists(sorts: &[Sort], level: u32) -> Vec<Vec<Value>> {
    let Some((last, earlier)) = sorts.split_last() else {
        return vec![vec![]];
    };
    let values: Vec<Value> = match last {
        Sort::Set => PacketSet::all(level).map(Value::Set).collect(),
        Sort::Relation => PacketRelation::all(level).map(Value::Relation).collect(),
        Sort::Field => (0..level).map(Value::Number).collect(),
        Sort::Value => (0..2).map(Value::Number).collect(),
        Sort::Packet => (0..packets(level)).map(Value::Number).collect(),
        Sort::Mark => MARKS.map(Value::Number).to_vec(),
    };
    let mut longer = vec![];
    for list in lists(earlier, level) {
        longer.extend(values.iter().map(|value| [&list[..], from_ref(value)].concat()));
    }
    longer
}

/// One random list of operands of one level.
pub fn random(operation: &Operation, level: u32, random: &mut Random) -> Vec<Value> {
    let mut list: Vec<Value> = vec![];
    for sort in operation.sorts {
        let value = match (sort, list.last()) {
            // Equal and complementary operands take shortcuts of their own.
            (Sort::Set, Some(Value::Set(last))) if random.once_in(4) => {
                let turn = random.once_in(2);
                Value::Set(PacketSet::of(level, |p| last.has(p) != turn))
            }
            (Sort::Relation, Some(Value::Relation(last))) if random.once_in(4) => {
                let turn = random.once_in(2);
                Value::Relation(PacketRelation::of(level, |p, q| last.has(p, q) != turn))
            }
            (Sort::Set, _) => Value::Set(random_set(level, random)),
            (Sort::Relation, _) => Value::Relation(random_relation(level, random)),
            (Sort::Field, _) => Value::Number(random.below(level)),
            (Sort::Value, _) => Value::Number(random.below(2)),
            (Sort::Packet, _) => Value::Number(random.below(packets(level))),
            (Sort::Mark, _) => Value::Number(random.pick(&MARKS)),
        };
        list.push(value);
    }
    list
}

/// Empty and full now and then, else two random halves, which may be equal.
fn random_set(level: u32, random: &mut Random) -> PacketSet {
    if level == 0 || random.once_in(5) {
        let full = random.once_in(2);
        return PacketSet::of(level, |_| full);
    }
    let low = random_set(level - 1, random);
    let high = if random.once_in(6) { low.clone() } else { random_set(level - 1, random) };
    PacketSet::join([low, high])
}

/// Empty, full and identity now and then, else four random parts, which may be equal.
/// Empty is the most likely of them, for the star of a dense relation is mostly full.
fn random_relation(level: u32, random: &mut Random) -> PacketRelation {
    if level == 0 || random.once_in(4) {
        let kind = random.below(5);
        return PacketRelation::of(level, |p, q| kind == 0 || kind == 1 && p == q);
    }
    let [x00, mut x01, mut x10, mut x11] = [(); 4].map(|()| random_relation(level - 1, random));
    for part in [&mut x01, &mut x10, &mut x11] {
        if random.once_in(6) {
            part.clone_from(&x00);
        }
    }
    PacketRelation::join([x00, x01, x10, x11])
}
