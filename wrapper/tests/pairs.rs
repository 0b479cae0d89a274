//! The first pair that a relation relates between two sets: each refusal in its order, none, level 0, worked cases and all packets of small stores.

mod bench;

use bench::{fields, Bench, DAMAGES};
use packet_store::*;
use Refusal::{LevelsDiffer, NotHeld, NotStore};

/// A packet of 00 is sent to 10, one of 01 to 00, field 0 first: 0 to 1 and 2 to 0.
const TWO_PAIRS: &str = "x0=0;x1=0;x0:=1+x0=0;x1=1;x1:=0";

/// The first pair, with several lengths of working memory; both memories stay.
fn first(bench: &mut Bench, p: u32, a: u32, q: u32) -> Result<Option<(u32, u32)>, Refusal> {
    let before = (bench.relations.clone(), bench.sets.clone());
    let mut ask = |len: usize| {
        bench.work = vec![7; len];
        let answer = bench.read(|r, s, w| relation_first_path(r, s, w, p, a, q));
        assert_eq!(before, (bench.relations.clone(), bench.sets.clone()));
        answer
    };
    let answer = ask(WORK_LEN);
    assert_eq!(ask(20_480), answer);
    answer
}

#[test]
fn each_operand_is_held_and_of_one_level() {
    // Relations 2, 4 and 6 have level 1, 3, 5 and 7 level 2; sets 2 and 3 level 1, 4 and 5 level 2. No place is left.
    let mut bench = Bench::new(2, 6, 2);
    let paths = [
        ([6, 7, 5], Err(NotHeld)),
        ([5, 8, 5], Err(NotHeld)),
        ([5, 7, 6], Err(NotHeld)),
        ([u32::MAX, 7, 5], Err(NotHeld)),
        ([5, u32::MAX, 5], Err(NotHeld)),
        ([5, 7, u32::MAX], Err(NotHeld)),
        // One is not held and the levels of the others differ.
        ([6, 6, 5], Err(NotHeld)),
        ([2, 8, 5], Err(NotHeld)),
        ([2, 7, 6], Err(NotHeld)),
        ([2, 7, 5], Err(LevelsDiffer)),
        ([5, 6, 5], Err(LevelsDiffer)),
        ([5, 7, 2], Err(LevelsDiffer)),
        ([3, 7, 3], Err(LevelsDiffer)),
        // Levels differ, and there would be none.
        ([4, 6, 5], Err(LevelsDiffer)),
        ([0, 7, 5], Err(LevelsDiffer)),
        ([5, 7, 5], Ok(Some((0, 0)))),
        ([5, 5, 5], Ok(Some((0, 0)))),
        ([3, 6, 3], Ok(Some((0, 0)))),
        ([4, 7, 5], Ok(None)),
        ([5, 3, 5], Ok(None)),
        ([5, 7, 4], Ok(None)),
        ([2, 6, 3], Ok(None)),
    ];
    for ([p, a, q], answer) in paths {
        assert_eq!(first(&mut bench, p, a, q), answer, "{p} {a} {q}");
    }
}

#[test]
fn memory_that_is_no_store_is_refused() {
    for damage in DAMAGES {
        let mut bench = Bench::new(2, 6, 4);
        damage(&mut bench);
        // Handles that would be good, not held, and of two levels.
        for [p, a, q] in [[5, 7, 5], [99, 7, 5], [5, 99, 5], [2, 7, 5]] {
            assert_eq!(first(&mut bench, p, a, q), Err(NotStore));
        }
    }
}

#[test]
fn level_0_has_one_packet() {
    for k in 0..3 {
        let mut bench = Bench::new(k, 3 * k as usize, k as usize);
        for number in 0..8 {
            let [p, a, q] = [number / 4, number / 2 % 2, number % 2];
            let pair = (number == 7).then_some((0, 0));
            assert_eq!(first(&mut bench, p, a, q), Ok(pair));
        }
    }
}

#[test]
fn the_whole_input_comes_before_the_output() {
    let mut bench = Bench::new(2, 64, 16);
    assert_eq!(bench.judge(TWO_PAIRS), Ok(21));
    // By the children in the order 00, 01, 10, 11 the pair from 01 to 00 would come first.
    assert_eq!(first(&mut bench, 5, 21, 5), Ok(Some((0, 1))));
    assert_eq!(bench.add_set(|r, s, w| set_test(r, s, w, 0, 0)), Ok(7));
    assert_eq!(first(&mut bench, 5, 21, 7), Ok(Some((2, 0))));
    assert_eq!(first(&mut bench, 7, 21, 5), Ok(Some((0, 1))));
    assert_eq!(first(&mut bench, 6, 21, 5), Ok(None));
    assert_eq!(first(&mut bench, 4, 21, 5), Ok(None));
    // No working memory is needed.
    bench.work.clear();
    assert_eq!(bench.read(|r, s, w| relation_first_path(r, s, w, 5, 21, 7)), Ok(Some((2, 0))));
}

#[test]
fn packets_of_32_fields_are_whole() {
    let mut bench = Bench::new(32, 4096, 256);
    let all = bench.add_set(set_one).unwrap();
    let mut pair_of = |text: &str| {
        let a = bench.judge(text).unwrap();
        first(&mut bench, all, a, all)
    };
    assert_eq!(pair_of("1"), Ok(Some((0, 0))));
    assert_eq!(pair_of("0"), Ok(None));
    assert_eq!(pair_of("x0=1"), Ok(Some((1, 1))));
    assert_eq!(pair_of("x31=1"), Ok(Some((1 << 31, 1 << 31))));
    assert_eq!(pair_of("x31=1;x0:=1"), Ok(Some((1 << 31, 1 << 31 | 1))));
    assert_eq!(pair_of("x0=1;x0:=0"), Ok(Some((1, 0))));
    let every =
        |value: u32| (0..32).map(|field| format!("x{field}={value}")).collect::<Vec<_>>().join(";");
    assert_eq!(pair_of(&every(1)), Ok(Some((u32::MAX, u32::MAX))));
    assert_eq!(pair_of(&every(0)), Ok(Some((0, 0))));
    assert_eq!(pair_of(&format!("({});x0:=0;x31:=0", every(1))), Ok(Some((u32::MAX, 0x7fff_fffe))));
    assert_eq!(pair_of(&format!("({});x0:=0", every(1))), Ok(Some((u32::MAX, u32::MAX - 1))));
}

#[test]
fn no_pair_comes_before_it() {
    let mut bench = Bench::new(3, 512, 64);
    // Relations of level 3, and sets of it with what they hold.
    let texts = [
        "1",
        "0",
        "x0=1;x2:=1+x1=0;x0:=1",
        "x0=0;x1=0;x0:=1+x0=0;x1=1;x1:=0",
        "x2=1;(x0:=1+x0:=0);x1:=1",
        "(x0=0;x0:=1+x0=1;x0:=0;(x1=0;x1:=1+x1=1;x1:=0;x2:=1))*;x2=1",
        "!(x0=1+x1=1);(x1:=1+x2:=1)",
    ];
    let relations = texts.map(|text| bench.judge(text).unwrap());
    let mut sets = vec![];
    for [field, value] in [[0, 0], [0, 1], [1, 1], [2, 0], [2, 1]] {
        sets.push(bench.add_set(|r, s, w| set_test(r, s, w, field, value)).unwrap());
    }
    let (x, y) = (sets[1], sets[3]);
    sets.push(bench.add_set(|r, s, w| set_xor(r, s, w, x, y)).unwrap());
    sets.push(bench.add_set(|r, s, w| set_union(r, s, w, x, y)).unwrap());
    sets.push(bench.add_set(|r, s, w| set_intersect(r, s, w, x, y)).unwrap());
    sets.push(bench.add_set(set_zero).unwrap());
    sets.push(bench.add_set(set_one).unwrap());
    let members: Vec<Vec<u32>> = sets.iter().map(|&p| members(&mut bench, p)).collect();
    for a in relations {
        for (&p, inputs) in sets.iter().zip(&members) {
            for (&q, outputs) in sets.iter().zip(&members) {
                let mut pairs = inputs.iter().flat_map(|&x| outputs.iter().map(move |&y| (x, y)));
                let pair = pairs.find(|&(x, y)| {
                    bench.read(|r, s, w| relation_relates(r, s, w, a, x, y)).unwrap()
                });
                assert_eq!(first(&mut bench, p, a, q), Ok(pair), "{p} {a} {q}");
                let path = bench.read(|r, s, w| relation_has_path(r, s, w, p, a, q));
                assert_eq!(path, Ok(pair.is_some()));
            }
        }
    }
}

/// The packets of a set of three fields, in field order.
fn members(bench: &mut Bench, p: u32) -> Vec<u32> {
    let filter = bench.add_relation(|r, s, w| relation_diagonal(r, s, w, p)).unwrap();
    let mut has = |x| bench.read(|r, s, w| relation_relates(r, s, w, filter, x, x)).unwrap();
    let mut members: Vec<u32> = (0..8).filter(|&x| has(x)).collect();
    members.sort_by_key(|&x| fields(3, x));
    members
}
