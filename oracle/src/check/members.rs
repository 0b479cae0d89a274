//! `set.next` on every set of small levels with every record, against brute force.

use super::bench::Bench;
use super::meaning::{meaning, Value};
use super::plain::{packets, PacketSet};
use crate::answer::{Answer, Refusal};
use crate::store::Store;
use std::io::{self, Write};

/// The marks of the records: whether a packet was given, and whether the end was met.
const GIVEN: [u32; 3] = [0, 1, 7];
const ENDED: [u32; 3] = [0, 1, 9];

/// A record, and the answer that is meant.
pub struct Step {
    pub record: [u32; 4],
    pub answer: Answer,
}

/// All sets of one level: a store of as many fields that holds them, and for each set all records, the last packet being any of the level's or one of the two
/// numbers after them.
pub fn each_set(level: u32, mut each: impl FnMut(&mut Store, &[Step])) {
    let mut bench = Bench::new(level);
    for set in PacketSet::all(level) {
        let handle = bench.hold(&Value::Set(set.clone()));
        let mut steps = vec![];
        for last in 0..packets(level) + 2 {
            for given in GIVEN {
                for ended in ENDED {
                    let answer = meant(&set, [last, given, ended]);
                    steps.push(Step { record: [handle, last, given, ended], answer });
                }
            }
        }
        each(&mut bench.store, &steps);
    }
}

/// The answer to a record of this set with these other numbers.
fn meant(set: &PacketSet, numbers: [u32; 3]) -> Answer {
    let [last, given, _] = numbers;
    if given != 0 && last >= packets(set.level) {
        return Answer::Refused(Refusal::OutOfRange);
    }
    let [last, given, ended] = numbers.map(Value::Number);
    match meaning("set.next", set.level, &[Value::Set(set.clone()), last, given, ended]) {
        Value::Member(packet) => Answer::Member(packet),
        other => panic!("{other:?} is no packet of a set"),
    }
}

/// Compares all records of each level up to this one, writes how many there were, and returns whether all agreed.
pub fn check(levels: u32, output: &mut impl Write) -> io::Result<bool> {
    let mut agreed = true;
    for level in 0..=levels {
        let (mut cases, mut given, mut refused, mut differ) = (0_u64, 0_u64, 0_u64, 0_u64);
        each_set(level, |store, steps| {
            for Step { record, answer } in steps {
                cases += 1;
                given += u64::from(matches!(answer, Answer::Member(Some(_))));
                refused += u64::from(answer.refusal().is_some());
                differ += u64::from(store.ask("set.next", record) != *answer);
            }
        });
        writeln!(
            output,
            "set.next at level {level}: {cases} records, {given} with a packet, {refused} refused, {differ} differ"
        )?;
        agreed &= differ == 0;
    }
    Ok(agreed)
}
