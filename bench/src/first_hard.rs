//! First pairs that take a large memo: the question whether there is a pair at all meets very many sets and relations together, and so does the first one.
//!
//! The store is as that of the slow calls. Pairs that a divisor divides lead nowhere where field 0 of the input is 0, since their last field is 1 and the
//! sets' is 0; where it is 1, their last field is 0, and there is a pair. So the first pair is found only after all that comes before it is refuted.

use crate::rows::WORKS;
use crate::sides::{timed, Lent, MOST_PLACES};
use crate::slow::{in_time, least, LIMIT};
use crate::slow_calls::root;
use oracle::packet::field_is_one;
use packet_store as library;

const FIELDS: u32 = 32;
/// The working memory with which a store is built.
const BUILDING: usize = 1 << 20;
/// The divisors of the pairs and of the sets' packets.
const CASES: [[usize; 2]; 4] = [[31, 5], [59, 5], [59, 9], [59, 17]];
const CALLS: [&str; 2] = ["has_path", "first_path"];

/// The least times of both calls with each working memory, and with four times the most. After one that is too long less working memory is not tried.
pub fn table() -> String {
    let mut table = String::from("k = 32, first pairs after many refuted: least times, ms\n");
    let works: Vec<usize> = WORKS.into_iter().chain([4 << 20]).collect();
    let head: String = works.iter().map(|bytes| format!("{:>8} KiB", bytes >> 10)).collect();
    table += &format!("{:<12}{:<12}{:>6}{head}\n", "", "", "nodes");
    for case in CASES {
        let nodes = store(case).0.count();
        let name = name(case);
        for call in CALLS {
            let mut cells: Vec<String> = works.iter().map(|_| String::from("-")).collect();
            for (cell, work) in cells.iter_mut().zip(&works).rev() {
                let kib = (work >> 10).to_string();
                let Some(time) = in_time(&["first", &name, call, &kib]) else {
                    *cell = format!("over {} s", LIMIT.as_secs());
                    break;
                };
                *cell = format!("{time:.2}");
            }
            let cells: String = cells.iter().map(|cell| format!("{cell:>12}")).collect();
            table += &format!("{name:<12}{call:<12}{nodes:>6}{cells}\n");
        }
    }
    table
}

/// Prints our least time for one call, however long it is.
pub fn once(case: &str, call: &str, work: usize) {
    let found = CASES.into_iter().find(|&other| name(other) == case);
    let (mut lent, [p, a]) = store(found.unwrap_or_else(|| panic!("{case} is no case")));
    lent.work = vec![0; work / 4];
    let Lent { relations, sets, work } = &mut lent;
    let time = least(|| match call {
        "has_path" => {
            let (found, time) =
                timed(|| library::relation_has_path(relations, sets, work, p, a, p));
            assert_eq!(found, Ok(true));
            time
        }
        "first_path" => {
            let (pair, time) =
                timed(|| library::relation_first_path(relations, sets, work, p, a, p));
            let (input, _) = pair.expect("held").expect("there is a pair");
            assert!(field_is_one(input, 0));
            time
        }
        _ => panic!("{call} is no call"),
    });
    println!("{time:.3}");
}

fn name([pairs, packets]: [usize; 2]) -> String {
    format!("div-{pairs}-{packets}")
}

/// The store, and the set and the relation in it.
fn store([pairs, packets]: [usize; 2]) -> (Lent, [u32; 2]) {
    let mut lent = Lent::new(MOST_PLACES, BUILDING);
    lent.run(FIELDS, "1").expect("a new store");
    let Lent { relations, sets, work } = &mut lent;
    let p = root(packets, 0, |[x0, x1]| {
        library::set_mk(relations, sets, work, x0, x1).expect("fits").handle
    });
    let halves = [(0, 3), (1, 0)].map(|(value, last)| {
        let divided = root(pairs, last, |[x00, x01, x10, x11]| {
            library::relation_mk(relations, sets, work, x00, x01, x10, x11).expect("fits").handle
        });
        let test = library::relation_test(relations, sets, work, 0, value).expect("fits").handle;
        library::relation_sequence(relations, sets, work, test, divided).expect("fits").handle
    });
    let a = library::relation_union(relations, sets, work, halves[0], halves[1]).expect("fits");
    (lent, [p, a.handle])
}
