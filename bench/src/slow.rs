//! Texts and calls that are slow with a memo too small for them. A process of its own takes the time of each, and is ended where that is too long.

use crate::call::Call;
use crate::rows::{self, WORKS};
use crate::sides::{Lent, MOST_PLACES};
use crate::{slow_calls, slow_texts};
use std::env;
use std::process::{Command, Stdio};
use std::thread::sleep;
use std::time::{Duration, Instant};

const FIELDS: u32 = 32;
/// The steps and the toggled fields of the texts.
const TEXTS: [(u32, u32); 6] = [(12, 6), (13, 6), (14, 6), (15, 6), (16, 6), (13, 7)];

const ROUNDS: usize = 41;
/// No round begins after this time.
const ENOUGH: Duration = Duration::from_secs(1);
/// A process is ended after this time.
pub const LIMIT: Duration = Duration::from_secs(5);

/// A call and the store that it is made on.
struct Case {
    lent: Lent,
    call: Call,
}

/// The least times of each case. After one that is too long less working memory is not tried.
pub fn table() -> String {
    let mut table = rows::head("k = 32, slow texts and calls: least times, ms");
    for Case { lent, call } in cases() {
        let ([_, nodes, _], _) = call.rust(&lent);
        let rust = least(|| call.rust(&lent).1);
        let mut cells = WORKS.map(|_| String::from("-"));
        for (cell, work) in cells.iter_mut().zip(WORKS).rev() {
            let Some(ours) = in_time(&["slow", &call.name, &(work >> 10).to_string()]) else {
                *cell = format!("over {} s", LIMIT.as_secs());
                break;
            };
            *cell = rows::cell(ours, rust);
        }
        table += &rows::row(&call.name, nodes, rust, &cells);
    }
    table
}

/// Prints our least time for one case, however long it is.
pub fn once(name: &str, work: usize) {
    let case = cases().into_iter().find(|case| case.call.name == name);
    let Case { mut lent, call } = case.unwrap_or_else(|| panic!("{name} is no case"));
    lent.work = vec![0; work / 4];
    println!("{:.3}", least(|| call.time(&mut lent)[0]));
}

fn cases() -> Vec<Case> {
    let mut new = Lent::new(MOST_PLACES, WORKS[0]);
    new.run(FIELDS, "1").expect("a new store");
    let text = |(steps, bits)| {
        let name = format!("text-{steps}-{bits}");
        Case { lent: new.clone(), call: Call::policy(name, FIELDS, slow_texts::text(steps, bits)) }
    };
    let (lent, calls) = slow_calls::calls();
    let calls = calls.into_iter().map(|call| Case { lent: lent.clone(), call });
    TEXTS.into_iter().map(text).chain(calls).collect()
}

/// The least milliseconds of some rounds.
pub fn least(mut round: impl FnMut() -> Duration) -> f64 {
    let start = Instant::now();
    let rounds = (0..ROUNDS).take_while(|_| start.elapsed() < ENOUGH).map(|_| round());
    rounds.min().expect("there is a first round").as_secs_f64() * 1e3
}

/// The number that a command of the benchmark prints in another process, if it ends in time.
pub fn in_time(words: &[&str]) -> Option<f64> {
    let program = env::current_exe().expect("the benchmark is there");
    let mut command = Command::new(program);
    command.args(words).stdout(Stdio::piped());
    let mut process = command.spawn().expect("the benchmark starts");
    let start = Instant::now();
    while process.try_wait().expect("it was started").is_none() {
        if start.elapsed() > LIMIT {
            process.kill().expect("it runs");
            process.wait().expect("it ends");
            return None;
        }
        sleep(Duration::from_millis(10));
    }
    let output = process.wait_with_output().expect("it has ended");
    assert!(output.status.success(), "{words:?} fails");
    let printed = String::from_utf8(output.stdout).expect("a number");
    Some(printed.trim().parse().expect("a number"))
}
