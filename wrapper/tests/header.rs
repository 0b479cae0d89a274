//! The header, docs/CALLS.md, docs/JOBS.md and this crate have the same numbers and the same words.

use packet_store::jobs::{Answer, Job, Operand, MOST_JOBS, OPERATIONS};
use packet_store::*;
use std::mem::{offset_of, size_of};

const HEADER: &str = include_str!("../../include/packet_store.h");
const CALLS: &str = include_str!("../../docs/CALLS.md");
const JOBS: &str = include_str!("../../docs/JOBS.md");

/// What the header defines a name as.
fn defined(name: &str) -> usize {
    let line = HEADER.lines().find_map(|line| line.strip_prefix(&format!("#define {name} ")));
    line.unwrap_or_else(|| panic!("no {name}")).parse().unwrap()
}

#[test]
fn lengths_are_the_headers() {
    assert_eq!(defined("PACKET_STORE_RELATION_HEAD"), RELATION_HEAD);
    assert_eq!(defined("PACKET_STORE_FIELDS"), FIELDS);
    assert_eq!(defined("PACKET_STORE_RELATION_COUNT"), RELATION_COUNT);
    assert_eq!(defined("PACKET_STORE_SET_HEAD"), SET_HEAD);
    assert_eq!(defined("PACKET_STORE_SET_COUNT"), SET_COUNT);
    assert_eq!(defined("PACKET_STORE_WORK_LEN"), WORK_LEN);
    assert_eq!(defined("PACKET_STORE_MOST_JOBS"), MOST_JOBS);
}

/// The fields of a struct that the header defines, each a number or a struct.
fn fields(name: &str) -> Vec<&'static str> {
    let (_, rest) = HEADER.split_once(&format!("typedef struct {name} {{")).unwrap();
    let (fields, _) = rest.split_once('}').unwrap();
    let declared = fields.lines().filter_map(|line| line.trim().split_once(';'));
    declared.map(|(field, _)| field.split_once(' ').unwrap().1).collect()
}

/// The crate's fields, each with its offset, are the header's, in its order.
fn same_fields<const N: usize>(name: &str, offsets: [(&str, usize); N], expected: [usize; N]) {
    assert_eq!(offsets.map(|(field, _)| field), fields(name)[..]);
    assert_eq!(offsets.map(|(_, offset)| offset), expected);
}

#[test]
fn a_cursor_has_the_headers_numbers() {
    let (_, rest) = HEADER.split_once("typedef struct packet_store_cursor {").unwrap();
    let (fields, _) = rest.split_once('}').unwrap();
    let fields = fields.lines().filter_map(|line| line.trim().strip_prefix("uint32_t "));
    let names: Vec<&str> = fields.map(|field| field.split(';').next().unwrap()).collect();
    let offsets = [
        ("handle", offset_of!(Cursor, handle)),
        ("last", offset_of!(Cursor, last)),
        ("given", offset_of!(Cursor, given)),
        ("ended", offset_of!(Cursor, ended)),
    ];
    assert_eq!(offsets.map(|(name, _)| name), names[..]);
    assert_eq!(offsets.map(|(_, offset)| offset), [0, 4, 8, 12]);
    assert_eq!(size_of::<Cursor>(), 16);
}

#[test]
fn a_job_has_the_headers_numbers() {
    let offsets = [("job", offset_of!(Operand, job)), ("number", offset_of!(Operand, number))];
    same_fields("packet_store_operand", offsets, [0, 4]);
    let offsets = [
        ("operation", offset_of!(Job, operation)),
        ("a", offset_of!(Job, a)),
        ("b", offset_of!(Job, b)),
        ("c", offset_of!(Job, c)),
        ("kind", offset_of!(Job, kind)),
        ("value", offset_of!(Job, value)),
    ];
    same_fields("packet_store_job", offsets, [0, 4, 12, 20, 28, 32]);
    assert_eq!((size_of::<Operand>(), size_of::<Job>()), (8, 36));
}

#[test]
fn the_kinds_of_an_answer_are_the_headers() {
    let answer = |name: &str, value| {
        let kind = defined(&format!("PACKET_STORE_KIND_{name}")) as u32;
        Job { kind, value, ..Job::default() }.answer()
    };
    assert_eq!(answer("NOT_RUN", 3), Answer::NotRun);
    assert_eq!(answer("SET", 3), Answer::Set(3));
    assert_eq!(answer("RELATION", 3), Answer::Relation(3));
    assert_eq!(answer("YES_OR_NO", 1), Answer::Truth(true));
    assert_eq!(answer("REFUSED", 2), Answer::Refused(Refusal::NotHeld.into()));
}

#[test]
fn operations_have_one_set_of_numbers() {
    let defined = HEADER.lines().filter_map(|line| line.strip_prefix("#define PACKET_STORE_JOB_"));
    let header: Vec<(String, u32)> = defined
        .map(|line| {
            let (name, number) = line.split_once(' ').unwrap();
            (name.to_lowercase(), number.parse().unwrap())
        })
        .collect();
    // The rows of the page's table: a number, a name, three operands and an answer.
    let rows = JOBS.lines().map(|line| line.split(" | ").collect::<Vec<&str>>());
    let page: Vec<(String, u32)> = rows
        .filter_map(|row| {
            let number = row[0].trim_start_matches("| ").parse().ok()?;
            let name = row.get(1)?.strip_prefix('`')?.strip_suffix('`')?;
            Some((name.to_string(), number))
        })
        .filter(|(name, _)| !name.contains('('))
        .collect();
    let crates: Vec<_> =
        OPERATIONS.iter().map(|&(name, number)| (name.to_string(), number)).collect();
    assert_eq!(header, crates);
    assert_eq!(page, crates);
    assert!(crates.iter().map(|&(_, number)| number).eq(1..=38));
}

#[test]
fn refusals_have_one_set_of_words() {
    // The numbers and words of the header's function, in its order.
    let cases = HEADER.lines().filter_map(|line| line.trim().strip_prefix("case "));
    let texts: Vec<(usize, &str)> = cases
        .map(|case| {
            let (name, text) = case.split_once(": return ").unwrap();
            (defined(name), text.trim_matches(['"', ';']))
        })
        .collect();
    let numbers: Vec<usize> = texts.iter().map(|&(number, _)| number).collect();
    assert_eq!(numbers[..10], Vec::from_iter(1..=10));
    // Those of jobs alone.
    assert_eq!(numbers[10..], [11, 12]);
    let listed = texts.iter().map(|(number, text)| format!("{number} {text}"));
    let listed = listed.collect::<Vec<String>>().join(", ");
    assert!(CALLS.replace('\n', " ").contains(&format!(" {listed}. ")), "{listed}");
    for refusal in Refusal::ALL {
        assert_eq!(refusal.to_string(), texts[refusal.number() as usize - 1].1);
    }
    for fault in Fault::ALL {
        assert_eq!(fault.to_string(), texts[fault.number() as usize - 1].1);
    }
    for refusal in [JobRefusal::NoAnswer, JobRefusal::UnknownOperation, Refusal::UsedUp.into()] {
        assert_eq!(refusal.to_string(), texts[refusal.number() as usize - 1].1);
    }
}
