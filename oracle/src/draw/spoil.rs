//! Spoils the arguments of a call, so that most such calls are refused.

use super::handles::Handles;
use crate::operations::{Operation, Sort};
use crate::random::Random;
use crate::store::Store;

/// Spoils one argument, or now and then all of them.
pub fn spoil(
    operation: &Operation,
    arguments: &mut [u32],
    store: &Store,
    handles: &Handles,
    random: &mut Random,
) {
    let all = random.once_in(4);
    let only = random.below(arguments.len().max(1) as u32) as usize;
    for (place, (sort, argument)) in operation.sorts.iter().zip(arguments).enumerate() {
        if all || place == only {
            *argument = spoiled(*sort, *argument, store, handles, random);
        }
    }
}

fn spoiled(
    sort: Sort,
    argument: u32,
    store: &Store,
    handles: &Handles,
    random: &mut Random,
) -> u32 {
    let fields = store.fields();
    let (relations, sets) = store.counts();
    let level = random.below(fields + 1);
    let any = random.bits() as u32;
    match (sort, random.below(4)) {
        // A handle of some level, a constant, the first ones that are not held.
        (Sort::Relation, 0) => handles.pick_relation(level, random),
        (Sort::Set, 0) => handles.pick_set(level, random),
        (Sort::Relation | Sort::Set, 1) => random.below(2),
        (Sort::Relation, 2) => relations + 2 + random.below(2),
        (Sort::Set, 2) => 2 * (sets + 1) + random.below(3),
        (Sort::Field, 0..=2) => fields + random.below(2),
        (Sort::Packet, 0..=2) => 1 << level.min(31),
        (Sort::Value, _) => argument,
        _ => random.pick(&[1 << 31, u32::MAX - 1, u32::MAX, any]),
    }
}
