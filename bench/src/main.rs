//! Times the proved store beside the Rust; README.md says what each command prints.

mod buddy;
mod call;
mod calls;
mod fill;
mod first;
mod first_hard;
mod jobs;
mod lister;
mod members;
mod policies;
mod rounds;
mod rows;
mod sides;
mod slow;
mod slow_calls;
mod slow_texts;
mod stack;
mod tables;
mod worst;

use policies::{Draw, Side};
use std::env;
use std::path::Path;
use std::process::ExitCode;

/// The policies of the first table: k = 32, from 1,000 bytes and 1,000 relation nodes on.
const LARGE: Draw = Draw { fields: 32, count: 200, bytes: 1000, nodes: 1000 };

/// The policies of small k, for which no working memory is needed.
const SMALL: [u32; 4] = [2, 4, 6, 8];
const SMALL_WORKS: [usize; 3] = [0, 64 << 10, 256 << 10];

/// How long the tables of k = 32 are at least through which first pairs are sought.
const FIRST_BYTES: [usize; 2] = [300, 1000];
/// The fields at which first pairs are sought without working memory too.
const FIRST_SMALL: [u32; 3] = [4, 6, 8];
const FIRST_SMALL_WORKS: [usize; 4] = [0, 64 << 10, 256 << 10, 1 << 20];

const CALL_WORKS: [usize; 2] = [64 << 10, 256 << 10];

fn main() -> ExitCode {
    let words: Vec<String> = env::args().skip(1).collect();
    let words: Vec<&str> = words.iter().map(String::as_str).collect();
    match words[..] {
        [] => tables(1),
        ["policies", seed] => large(number(seed)),
        ["worst"] => worst(),
        ["slow"] => slow(),
        ["slow", case, kib] => slow::once(case, (number(kib) as usize) << 10),
        ["small", seed] => small(number(seed)),
        ["calls", seed] => calls(number(seed)),
        ["first", seed] => first(number(seed)),
        ["first", case, call, kib] => first_hard::once(case, call, (number(kib) as usize) << 10),
        ["members", seed] => members(number(seed)),
        ["jobs", seed] => jobs(number(seed)),
        ["stack", seed] => stack(number(seed)),
        ["lister", seed] => lister(number(seed)),
        ["texts", seed, count] => texts(number(seed), number(count) as usize),
        ["once", "ours"] => policies::once(Side::Ours, LARGE.fields),
        ["once", "rust"] => policies::once(Side::Rust, LARGE.fields),
        _ => {
            eprintln!(
                "usage: bench [policies SEED | worst | slow [CASE KIB] | small SEED | calls SEED | first SEED | first CASE CALL KIB | members SEED \
                 | jobs SEED | stack SEED | lister SEED | texts SEED COUNT | once (ours | rust)]"
            );
            return ExitCode::from(2);
        }
    }
    ExitCode::SUCCESS
}

fn number(word: &str) -> u64 {
    word.parse().unwrap_or_else(|_| panic!("{word} is no number"))
}

/// All tables.
fn tables(seed: u64) {
    large(seed);
    worst();
    slow();
    small(seed);
    calls(seed);
    first(seed);
    members(seed);
    jobs(seed);
    stack(seed);
    lister(seed);
}

fn large(seed: u64) {
    println!("{}", policies::table(seed, LARGE, &rows::WORKS));
}

fn worst() {
    println!("{}", worst::table());
}

fn slow() {
    println!("{}", slow::table());
}

fn small(seed: u64) {
    for fields in SMALL {
        let what = Draw { fields, count: 200, bytes: 100, nodes: 0 };
        println!("{}", policies::table(seed, what, &SMALL_WORKS));
    }
}

fn calls(seed: u64) {
    for work in CALL_WORKS {
        println!("{}", calls::table(seed, work));
    }
}

fn first(seed: u64) {
    for bytes in FIRST_BYTES {
        println!("{}", first::table(seed, Draw { count: 40, bytes, ..LARGE }, &rows::WORKS));
    }
    for fields in FIRST_SMALL {
        let what = Draw { fields, count: 40, bytes: 100, nodes: 0 };
        println!("{}", first::table(seed, what, &FIRST_SMALL_WORKS));
    }
    println!("{}", first_hard::table());
}

fn members(seed: u64) {
    println!("{}", members::table(seed, &rows::WORKS));
}

fn jobs(seed: u64) {
    println!("{}", jobs::table(seed, &rows::WORKS));
}

fn stack(seed: u64) {
    println!("{}", stack::table(seed, LARGE));
}

fn lister(seed: u64) {
    let program = Path::new(env!("CARGO_MANIFEST_DIR")).join("../crates/lister/out/lister");
    println!("{}", lister::table(seed, &program));
}

fn texts(seed: u64, count: usize) {
    for drawn in policies::draw(seed, Draw { count, ..LARGE }) {
        println!("{}", drawn.text);
    }
}
