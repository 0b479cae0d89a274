//! The first pair through relay tables, beside the question whether there is any: `first_path` and `has_path` on the same operands.

use crate::policies::{self, Draw};
use crate::sides::{timed, Lent, MOST_PLACES};
use oracle::random::Random;
use packet_store as library;
use std::time::Duration;

/// The working memory with which stores are built.
const BUILDING: usize = 1 << 20;
/// Each time is the least of so many.
const ROUNDS: usize = 9;

/// Operands of one kind, on the stores that hold them.
struct Kind {
    name: &'static str,
    cases: Vec<Case>,
}

/// A store, and an input set, a relation and an output set in it.
struct Case {
    lent: Lent,
    p: u32,
    a: u32,
    q: u32,
}

/// What was measured of one kind of operands with one working memory, in milliseconds.
#[derive(Default)]
struct Sums {
    path: f64,
    first: f64,
    /// The longest `first_path`, and the largest share that it has of its `has_path`.
    longest: f64,
    ratio: f64,
}

/// A table of all kinds of operands on tables so drawn, with each working memory.
pub fn table(seed: u64, what: Draw, works: &[usize]) -> String {
    let kinds = kinds(seed, what);
    let mut table =
        format!("k = {}, first_path beside has_path, tables of seed {seed}\n", what.fields);
    table += "operands  cases    pairs       nodes  working memory  has_path, ms  first_path, ms   ratio  longest, ms  largest ratio\n";
    for Kind { name, mut cases } in kinds {
        let nodes = || cases.iter().map(|case| case.lent.count());
        let spread = format!("{}..{}", nodes().min().unwrap_or(0), nodes().max().unwrap_or(0));
        let pairs = cases.iter_mut().filter_map(|case| case.first()).count();
        for &work in works {
            let sums = sums(&mut cases, work);
            table += &format!(
                "{name:<8}{:>7}{pairs:>9}{spread:>12}{:>12} KiB{:>14.3}{:>16.3}{:>8.2}{:>13.3}{:>15.2}\n",
                cases.len(),
                work >> 10,
                sums.path,
                sums.first,
                sums.first / sums.path,
                sums.longest,
                sums.ratio
            );
        }
    }
    table
}

/// Each drawn table from all packets to all, from some to some, and where it differs from one with another digit.
fn kinds(seed: u64, what: Draw) -> Vec<Kind> {
    let mut random = Random::new(seed);
    let [mut all, mut some, mut differ] = [vec![], vec![], vec![]];
    for drawn in policies::draw(seed, what) {
        let mut lent = Lent::new(MOST_PLACES, BUILDING);
        let a = lent.run(what.fields, &drawn.text).expect("fits");
        let full = library::set_one(&lent.relations, &mut lent.sets, &mut lent.work).expect("fits");
        let full = full.handle;
        all.push(Case { lent: lent.clone(), p: full, a, q: full });
        let mut with_sets = lent.clone();
        let [p, q] = [(); 2].map(|()| set(&mut with_sets, what.fields, &mut random));
        some.push(Case { lent: with_sets, p, a, q });
        let xor = lent.policy(&other(&drawn.text, &mut random)).ok().and_then(|b| {
            library::relation_xor(&mut lent.relations, &lent.sets, &mut lent.work, a, b).ok()
        });
        if let Some(xor) = xor {
            differ.push(Case { lent, p: full, a: xor.handle, q: full });
        }
    }
    vec![
        Kind { name: "all", cases: all },
        Kind { name: "some", cases: some },
        Kind { name: "differ", cases: differ },
    ]
}

/// The packets that pass three tests, or three others, or are left out by three more.
fn set(lent: &mut Lent, fields: u32, random: &mut Random) -> u32 {
    let Lent { relations, sets, work } = lent;
    let mut tests = || {
        let test = |sets: &mut [u32], work: &mut [u32], random: &mut Random| {
            let (var, value) = (random.below(fields), random.below(2));
            library::set_test(relations, sets, work, var, value).expect("fits").handle
        };
        (0..2).fold(test(sets, work, random), |set, _| {
            let next = test(sets, work, random);
            library::set_intersect(relations, sets, work, set, next).expect("fits").handle
        })
    };
    let [a, b, c] = [tests(), tests(), tests()];
    let either = library::set_union(relations, sets, work, a, b).expect("fits").handle;
    let rest = library::set_complement(relations, sets, work, c).expect("held");
    library::set_union(relations, sets, work, either, rest).expect("fits").handle
}

/// The text with the value of one test or assignment turned.
fn other(text: &str, random: &mut Random) -> String {
    let mut bytes = text.as_bytes().to_vec();
    let values: Vec<usize> = (1..bytes.len()).filter(|&at| bytes[at - 1] == b'=').collect();
    bytes[random.pick(&values)] ^= 1;
    String::from_utf8(bytes).expect("text")
}

impl Case {
    fn first(&mut self) -> Option<(u32, u32)> {
        let Lent { relations, sets, work } = &mut self.lent;
        library::relation_first_path(relations, sets, work, self.p, self.a, self.q).expect("held")
    }

    fn path(&mut self) -> bool {
        let Lent { relations, sets, work } = &mut self.lent;
        library::relation_has_path(relations, sets, work, self.p, self.a, self.q).expect("held")
    }
}

/// The least times of each case, added up.
fn sums(cases: &mut [Case], work: usize) -> Sums {
    let mut sums = Sums::default();
    for case in cases {
        case.lent.work = vec![0; work / 4];
        let [mut path, mut first] = [Duration::MAX; 2];
        for _ in 0..ROUNDS {
            let (found, time) = timed(|| case.path());
            path = path.min(time);
            let (pair, time) = timed(|| case.first());
            first = first.min(time);
            assert_eq!(pair.is_some(), found);
        }
        let [path, first] = [path, first].map(|time| time.as_secs_f64() * 1e3);
        sums.path += path;
        sums.first += first;
        sums.longest = sums.longest.max(first);
        sums.ratio = sums.ratio.max(first / path);
    }
    sums
}
