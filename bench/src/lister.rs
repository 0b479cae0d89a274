//! The lister on the longest input that it takes, beside the Rust on the same policies.

use crate::sides::{timed, Lent};
use crate::tables;
use oracle::policy::{build, judge, Policy};
use oracle::random::Random;
use reference::spp::SPPstore;
use std::io::Write;
use std::path::Path;
use std::process::{Command, Stdio};

const FIELDS: u32 = 8;
/// The lister's own sizes.
const MOST_BYTES: usize = 16384;
const PLACES: usize = 2048;
const TRIES: usize = 31;

/// The least times of the program at this path, or why there are none.
pub fn table(seed: u64, program: &Path) -> String {
    if !program.is_file() {
        return "the lister is not there: `rt run` in crates/lister builds it\n".into();
    }
    let lines = lines(seed);
    let input = format!("{FIELDS}\n{}\n", lines.join("\n"));
    let policies: Vec<Policy> =
        lines.iter().map(|line| judge(line.as_bytes(), FIELDS).expect("a policy")).collect();
    let milliseconds = |work: &mut dyn FnMut()| {
        let times = (0..TRIES).map(|_| timed(&mut *work).1.as_nanos() as f64 / 1e6);
        times.fold(f64::INFINITY, f64::min)
    };
    let whole = milliseconds(&mut || run(program, &input));
    let start = milliseconds(&mut || run(program, "0\n"));
    let rust = milliseconds(&mut || {
        let mut store = SPPstore::new(FIELDS);
        policies.iter().map(|policy| build(policy, &mut store).0).max();
    });
    let ours = whole - start;
    format!(
        "the lister, k = {FIELDS}: {} policies, {} bytes\nours, ms  start of the program, ms  Rust, ms   ratio\n{ours:>8.2}{start:>26.2}{rust:>10.2}{:>8.1}\n",
        lines.len(), input.len(), ours / rust
    )
}

/// Policies, nearly as many bytes as the lister takes, that fit its places together.
fn lines(seed: u64) -> Vec<String> {
    let mut random = Random::new(seed);
    let mut lent = Lent::new(PLACES, 256 << 10);
    lent.run(FIELDS, "1").expect("a new store");
    let mut lines: Vec<String> = vec![];
    let mut left = MOST_BYTES - 3;
    loop {
        let text = tables::text(FIELDS, 50, &mut random);
        if text.len() + 1 > left {
            return lines;
        }
        if lent.policy(&text).is_ok() {
            left -= text.len() + 1;
            lines.push(text);
        }
    }
}

fn run(program: &Path, input: &str) {
    let mut child = Command::new(program)
        .stdin(Stdio::piped())
        .stdout(Stdio::null())
        .spawn()
        .expect("the lister starts");
    child.stdin.take().expect("a pipe").write_all(input.as_bytes()).expect("the lister reads");
    assert!(child.wait().expect("the lister ends").success());
}
