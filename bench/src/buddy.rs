//! BuDDy, a library of binary decision diagrams, on the same policies: runs the program of buddy.c where `run` has compiled it.

use crate::rounds::{Text, Times};
use crate::sides::{run_rust, Lent, MOST_PLACES};
use oracle::policy::{Mix, Policy};
use oracle::random::Random;
use packet_store::{relation_is_zero, relation_relates};
use reference::spp::SPP;
use std::fs::{self, File};
use std::path::{Path, PathBuf};
use std::process::Command;

/// The fields that buddy.c is written for.
const FIELDS: u32 = 32;

/// The groups of its variables.
const INPUT: u32 = 0;
const OUTPUT: u32 = 2;

/// How many pairs of each kind are asked of a policy.
const PAIRS: usize = 8;
const WORK: usize = 256 << 10;

/// The program, the policies and pairs that it reads, and the answers that it has to give.
pub struct Buddy {
    program: PathBuf,
    input: PathBuf,
    answers: Vec<String>,
}

impl Buddy {
    /// Where the program is there, and made for so many fields.
    pub fn of(fields: u32, drawn: &[Text]) -> Option<Buddy> {
        let built = Path::new(env!("CARGO_MANIFEST_DIR")).join("target");
        let [program, input] = ["buddy", "buddy-input"].map(|name| built.join(name));
        if fields != FIELDS || !program.is_file() {
            return None;
        }
        let mut random = Random::new(0);
        let mut lent = Lent::new(MOST_PLACES, WORK);
        let mut text = String::new();
        let mut answers = vec![];
        for Text { text: policy_text, policy, .. } in drawn {
            let pairs = pairs(policy, &mut random);
            write(policy, INPUT, OUTPUT, &mut text);
            text.extend(pairs.iter().map(|[from, to]| format!("? {from} {to} ")));
            text += ".\n";
            let handle = lent.run(FIELDS, policy_text).expect("the text fits");
            answers.push(answers_of(&mut lent, handle, &pairs));
        }
        fs::write(&input, text).expect("target can be written");
        Some(Buddy { program, input, answers })
    }

    /// The nanoseconds of each policy; every pair that is asked has our answer.
    pub fn times(&self) -> Times {
        let input = File::open(&self.input).expect("it was written");
        let output = Command::new(&self.program).stdin(input).output().expect("BuDDy starts");
        assert!(output.status.success(), "BuDDy fails");
        let lines = String::from_utf8(output.stdout).expect("digits");
        let lines: Vec<(&str, &str)> =
            lines.lines().map(|line| line.split_once(' ').expect("two words")).collect();
        assert!(lines.iter().map(|line| line.1).eq(&self.answers), "BuDDy relates other pairs");
        lines.iter().map(|line| line.0.parse().expect("a number")).collect()
    }
}

/// Whether a relation of ours relates anything, and whether it relates each pair, as digits.
fn answers_of(lent: &mut Lent, handle: u32, pairs: &[[u32; 2]]) -> String {
    let Lent { relations, sets, work } = lent;
    let empty = relation_is_zero(relations, sets, work, handle).expect("it is held");
    let related = |&[from, to]: &[u32; 2]| {
        relation_relates(relations, sets, work, handle, from, to).expect("it is held")
    };
    let answers = [!empty].into_iter().chain(pairs.iter().map(related));
    answers.map(|yes| if yes { '1' } else { '0' }).collect()
}

/// A policy's operations for buddy.c, operands first, from one group of variables to another.
fn write(policy: &Policy, x: u32, y: u32, text: &mut String) {
    match policy {
        Policy::Zero => *text += "0 ",
        Policy::One => *text += &format!("1 {x} {y} "),
        Policy::Full => *text += "T ",
        Policy::Test { field, value, .. } => *text += &format!("= {field} {value} {x} {y} "),
        Policy::Assign { field, value, .. } => *text += &format!(": {field} {value} {x} {y} "),
        Policy::Not { operand, .. } => {
            write(operand, x, y, text);
            *text += &format!("! {x} {y} ");
        }
        Policy::Star(operand) => {
            write(operand, x, y, text);
            *text += &format!("* {x} {y} ");
        }
        Policy::Sum(left, right) | Policy::Mix(_, left, right) => {
            write(left, x, y, text);
            write(right, x, y, text);
            *text += match policy {
                Policy::Mix(Mix::Both, ..) => "& ",
                Policy::Mix(Mix::Minus, ..) => "- ",
                Policy::Mix(Mix::Either, ..) => "^ ",
                _ => "+ ",
            };
        }
        Policy::Product(left, right) => {
            let between = 3 - x - y;
            write(left, x, between, text);
            write(right, between, y, text);
            *text += &format!("; {between} ");
        }
    }
}

/// Pairs to ask of a policy: some that it relates, the same with one field of the output changed, and any.
fn pairs(policy: &Policy, random: &mut Random) -> Vec<[u32; 2]> {
    let (mut store, handle) = run_rust(FIELDS, policy);
    let number =
        |packet: Vec<bool>| packet.iter().rev().fold(0, |all, &bit| all * 2 + u32::from(bit));
    let related = (0..PAIRS).filter_map(|_| store.random_packet_pair(SPP(handle)));
    let related: Vec<[u32; 2]> =
        related.map(|(input, output)| [number(input), number(output)]).collect();
    let changed: Vec<[u32; 2]> =
        related.iter().map(|&[from, to]| [from, to ^ (1 << random.below(FIELDS))]).collect();
    let any = (0..PAIRS).map(|_| [random.bits() as u32, random.bits() as u32]);
    related.into_iter().chain(changed).chain(any).collect()
}
