//! The packets of sets in turn, and first pairs, field by field from field 0 on: their order, however packets are numbered. `sequence.txt` has what was printed
//! of the library from before document 02's M-105, in which field 0 was the most significant bit.

use crate::case::Case;
use crate::members::{drawn, few, holding, MANY_FIELDS};
use crate::pairs::triple;
use crate::rules;
use oracle::packet::field_is_one;
use oracle::random::Random;
use packet_store::{members, relation_first_path, WORK_LEN};

/// Sets are listed in stores of up to so many fields, so many of each level, and so many of few packets of 32 fields.
const LISTED_TO: u32 = 5;
const SETS: usize = 4;
const FEW: usize = 6;
/// Pairs are asked for in stores of these fields, so many in each.
const PAIRED: [u32; 6] = [2, 3, 4, 8, 16, 32];
const PAIRS: usize = 20;
/// The characters of a row of packets, at most.
const ROW: u32 = 140;
/// No set here has so many packets.
const ENDLESS: usize = 64;

/// A line for each set and each pair, with the fields of its store and its handles; a long set takes several.
pub fn printed() -> String {
    let mut random = Random::new(1);
    let mut lines = sets(&mut random);
    lines.extend(pairs(&mut random));
    lines.join("\n")
}

/// Drawn sets of each level of small stores, and sets of few packets.
fn sets(random: &mut Random) -> Vec<String> {
    let mut lines = vec![];
    for fields in 1..=LISTED_TO {
        let (store, handles) = drawn(fields, random);
        let case = holding(&store, random);
        for level in 0..=fields {
            for _ in 0..SETS {
                lines.push(set(&case, fields, level, handles.pick_set(level, random)));
            }
        }
    }
    for _ in 0..FEW {
        let (case, handle, _) = few(random);
        lines.push(set(&case, MANY_FIELDS, MANY_FIELDS, handle));
    }
    lines
}

/// First pairs through relay tables, of level k and below.
fn pairs(random: &mut Random) -> Vec<String> {
    let mut lines = vec![];
    for fields in PAIRED {
        let store = rules::draw(fields, random).store;
        let case = holding(&store, random);
        for _ in 0..PAIRS {
            let handles = triple(&store, random).expect("each level has sets and relations");
            let level = store.relation_level(handles[1]).expect("a held relation");
            lines.push(pair(&case, fields, level, handles));
        }
    }
    lines
}

/// A set's packets in turn.
fn set(case: &Case, fields: u32, level: u32, handle: u32) -> String {
    let mut work = vec![0; WORK_LEN];
    let packets = members(case.relations.numbers(), case.sets.numbers(), &mut work, handle);
    let packets: Result<Vec<u32>, _> = packets.take(ENDLESS).collect();
    line(&format!("set {fields} {handle}"), level, &packets.expect("a held set"))
}

/// The first pair between two sets, or nothing where there is none.
fn pair(case: &Case, fields: u32, level: u32, [p, a, q]: [u32; 3]) -> String {
    let (relations, sets) = (case.relations.numbers(), case.sets.numbers());
    let pair = relation_first_path(relations, sets, &mut vec![0; WORK_LEN], p, a, q);
    let packets = pair.expect("held").map_or(vec![], |(input, output)| vec![input, output]);
    line(&format!("pair {fields} {p} {a} {q}"), level, &packets)
}

/// A name, and packets in rows.
fn line(name: &str, level: u32, packets: &[u32]) -> String {
    let word = |&packet: &u32| format!(" {}", shown(level, packet));
    let rows = packets.chunks((ROW / (level + 1)) as usize);
    let rows: Vec<String> = rows.map(|row| row.iter().map(word).collect()).collect();
    format!("{name}:{}", rows.join("\n "))
}

/// A packet's fields, field 0 first; one of no fields is a dash.
fn shown(level: u32, packet: u32) -> String {
    match level {
        0 => "-".into(),
        _ => (0..level).map(|field| if field_is_one(packet, field) { '1' } else { '0' }).collect(),
    }
}
