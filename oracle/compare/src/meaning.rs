//! What an accepted text means, by brute force, against the walks in the memory and the library's `relates`.

use crate::case::Case;
use crate::library::{self, Asked, Memories};
use crate::memory::RELATION_HEAD;
use oracle::answer::Answer;
use oracle::check::text_relation;
use oracle::packet::field_is_one;
use oracle::policy::judge;

/// The fields up to which all pairs are compared.
pub const MOST_FIELDS: u32 = 3;

/// The text's handle must relate exactly the pairs that the text means.
pub fn compare(text: &[u8], handle: u32, fields: u32, case: &mut Case) -> Result<(), String> {
    let policy = judge(text, fields).expect("an accepted text");
    let relation = text_relation(&policy, fields);
    for input in 0..1 << fields {
        for output in 0..1 << fields {
            let meant = relation.has(input, output);
            let walked = walk(case.relations.numbers(), handle, fields, input, output);
            if walked != meant {
                return Err(format!("{handle} relates {input} to {output}: {walked}, not {meant}"));
            }
            let memories = Memories {
                relations: case.relations.numbers_mut(),
                sets: case.sets.numbers_mut(),
                work: &mut [],
            };
            let numbers = [handle, input, output];
            let told = library::make(Asked::Numbers("relates", &numbers), memories).answer;
            if told != Answer::YesNo(meant) {
                return Err(format!("relates {handle} {input} {output}: {told}, not {meant}"));
            }
        }
    }
    Ok(())
}

/// Whether the walk from a handle ends at 1, by the pair's fields from field 0 on.
fn walk(relations: &[u32], handle: u32, fields: u32, input: u32, output: u32) -> bool {
    let down = |at: u32, field: u32| {
        let [input, output] = [input, output].map(|packet| u32::from(field_is_one(packet, field)));
        relations[RELATION_HEAD + (4 * (at - 2) + 2 * input + output) as usize]
    };
    (0..fields).fold(handle, down) == 1
}
