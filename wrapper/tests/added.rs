//! How much a call added: worked answers, `new`, every call on all arguments of a small store, and 0 and 0 beside every refusal, as C
//! has it.

mod bench;

use bench::{Bench, DAMAGES};
use packet_store::raw::{self, Reply};
use packet_store::*;
use std::collections::BTreeSet;

/// Makes a call by its C function.
macro_rules! ask {
    ($bench:expr, $name:ident $(, $x:expr)*) => {{
        let Bench { relations, sets, work } = &mut *$bench;
        let (r, s, w) = (relations.as_mut_ptr(), sets.as_mut_ptr(), work.as_mut_ptr());
        // SAFETY: the pointers are those of vectors of these lengths.
        unsafe { raw::$name(r, relations.len(), s, sets.len(), w, work.len() $(, $x)*) }
    }};
}

type Ask = fn(&mut Bench, [u32; 4]) -> Reply;

/// A call that may add nodes and takes numbers alone, how many it takes, and the refusals that it has after 1.
struct Call {
    name: &'static str,
    arguments: usize,
    refusals: &'static [u32],
    ask: Ask,
}

macro_rules! calls {
    ($($name:ident($($x:literal)*) $refusals:expr;)*) => {
        [$(Call {
            name: stringify!($name),
            arguments: <[usize]>::len(&[$($x),*]),
            refusals: &$refusals,
            ask: |bench, _x| ask!(bench, $name $(, _x[$x])*),
        }),*]
    };
}

/// All but `new` and `policy`.
const CALLS: [Call; 32] = calls! {
    set_mk(0 1) [2, 3, 5, 6];
    set_zero() [6];
    set_one() [6];
    set_union(0 1) [2, 3, 6];
    set_intersect(0 1) [2, 3, 6];
    set_xor(0 1) [2, 3, 6];
    set_difference(0 1) [2, 3, 6];
    set_test(0 1) [5, 6];
    set_ifelse(0 1 2) [2, 3, 4, 5, 6];
    relation_mk(0 1 2 3) [2, 3, 5, 6];
    relation_zero() [6];
    relation_one() [6];
    relation_top() [6];
    relation_union(0 1) [2, 3, 6];
    relation_intersect(0 1) [2, 3, 6];
    relation_xor(0 1) [2, 3, 6];
    relation_difference(0 1) [2, 3, 6];
    relation_complement(0) [2, 6];
    relation_sequence(0 1) [2, 3, 6];
    relation_star(0) [2, 6];
    relation_flip(0) [2, 6];
    relation_test(0 1) [5, 6];
    relation_assign(0 1) [5, 6];
    relation_naive_forward(0) [2, 6];
    relation_backward(0) [2, 6];
    relation_fwd(0) [2, 6];
    relation_bwd(0) [2, 6];
    relation_push(0 1) [2, 3, 6];
    relation_pull(0 1) [2, 3, 6];
    relation_diagonal(0) [2, 6];
    relation_ifwd(0) [2, 6];
    relation_ibwd(0) [2, 6];
};

fn policy_reply(bench: &mut Bench, text: &str) -> Reply {
    ask!(bench, policy, text.as_ptr(), text.len())
}

/// The reply of a refused call.
fn refused(number: u64) -> Reply {
    Reply { answer: number << 32, relations: 0, sets: 0 }
}

/// All lists of so many small numbers and the largest.
fn lists(count: usize) -> impl Iterator<Item = [u32; 4]> {
    const NUMBERS: usize = 15;
    (0..NUMBERS.pow(count as u32)).map(|list| {
        let number = |i: u32| match list / NUMBERS.pow(i) % NUMBERS {
            14 => u32::MAX,
            small => small as u32,
        };
        [0, 1, 2, 3].map(number)
    })
}

/// A store of two fields with some relations and sets, and so many places to spare of each kind.
fn two_fields(spare: usize) -> Bench {
    let mut bench = Bench::new(2, 64, 64);
    bench.judge("x0=1;x1=1").unwrap();
    bench.judge("x0:=0").unwrap();
    for field in [0, 1] {
        bench.add_set(|r, s, w| set_test(r, s, w, field, 1)).unwrap();
    }
    let held = bench.held();
    bench.relations.resize(relations_len(held.relations as usize + spare), 0);
    bench.sets.resize(sets_len(held.sets as usize + spare), 0);
    bench.work.clear();
    bench
}

/// Two fields and no node.
fn bare(places: usize) -> Bench {
    let mut bench = Bench::bare(2, places, places);
    bench.work.clear();
    bench
}

#[test]
fn worked_answers() {
    let Bench { mut relations, mut sets, mut work } = Bench::raw(64, 64);
    let (relations, sets, work) = (&mut relations, &mut sets, &mut work);
    let made = |handle, r, s| Ok(Made { handle, added: Added { relations: r, sets: s } });
    let node = |handle, appended, r, s| {
        Ok(Node { handle, appended, added: Added { relations: r, sets: s } })
    };
    assert_eq!(new(relations, sets, work, 1), made(4, 3, 1));
    let sum = b"x0=0+x0=1";
    assert_eq!(Ok(policy(relations, sets, work, sum).unwrap()), made(3, 2, 0));
    assert_eq!(Ok(policy(relations, sets, work, sum).unwrap()), made(3, 0, 0));
    assert_eq!(relation_mk(relations, sets, work, 0, 1, 1, 0), node(7, true, 1, 0));
    assert_eq!(relation_mk(relations, sets, work, 0, 1, 1, 0), node(7, false, 0, 0));
    assert_eq!(set_mk(relations, sets, work, 0, 1), node(4, true, 0, 1));
    // The complement of a set that is held.
    assert_eq!(set_mk(relations, sets, work, 1, 0), node(5, false, 0, 0));
    assert_eq!(relation_star(relations, sets, work, 7), made(4, 0, 0));
    assert_eq!(relation_fwd(relations, sets, work, 7), made(3, 0, 0));
    assert_eq!(relation_ifwd(relations, sets, work, 4), made(8, 1, 0));
    assert_eq!(relation_push(relations, sets, work, 4, 8), made(4, 0, 0));
    assert_eq!((relations[RELATION_COUNT], sets[SET_COUNT]), (7, 2));
}

#[test]
fn a_text_whose_nodes_do_not_fit_adds_none() {
    let mut bench = Bench::new(1, 4, 1);
    assert_eq!(policy_reply(&mut bench, "x0=0+x0=1"), refused(6));
    // Its first node alone does.
    let answer = 5;
    assert_eq!(policy_reply(&mut bench, "x0=0"), Reply { answer, relations: 1, sets: 0 });
    assert_eq!(policy_reply(&mut bench, "x0=0+x0=1"), refused(6));
}

#[test]
fn new_returns_what_it_holds() {
    for k in 0..=32 {
        let answer = if k == 0 { 1 } else { 3 * u64::from(k) + 1 };
        let opened = Reply { answer, relations: 3 * k, sets: k };
        let mut bench = Bench::raw(96, 32);
        assert_eq!(ask!(&mut bench, new, k), opened);
        // The same over a store, its own or another.
        assert_eq!(ask!(&mut bench, new, k), opened);
        assert_eq!(ask!(&mut two_fields(100), new, k), opened);
    }
}

#[test]
fn a_refused_new_returns_nothing_held() {
    for mut bench in [two_fields(0), Bench::raw(16, 8), bare(16)] {
        let before = bench.copy();
        assert_eq!(ask!(&mut bench, new, 33), refused(5));
        assert_eq!(ask!(&mut bench, new, u32::MAX), refused(5));
        assert_eq!(ask!(&mut bench, new, 32), refused(6));
        assert_eq!((bench.relations, bench.sets), (before.relations, before.sets));
    }
    for (relations, sets) in [(0, 0), (RELATION_HEAD - 1, 9), (99, SET_HEAD - 1)] {
        let mut bench = Bench { relations: vec![7; relations], sets: vec![7; sets], work: vec![] };
        assert_eq!(ask!(&mut bench, new, 0), refused(1));
        assert_eq!(ask!(&mut bench, new, 1), refused(1));
        assert_eq!(ask!(&mut bench, new, 33), refused(5));
    }
}

#[test]
fn calls_on_memory_that_is_no_store_add_nothing() {
    let damaged = DAMAGES.into_iter().map(|damage| {
        let mut bench = Bench::new(2, 6, 4);
        damage(&mut bench);
        bench
    });
    for mut bench in damaged.chain([Bench { relations: vec![], sets: vec![], work: vec![] }]) {
        for Call { name, ask, .. } in CALLS {
            assert_eq!(ask(&mut bench, [0; 4]), refused(1), "{name}");
            assert_eq!(ask(&mut bench, [2, 3, 99, 7]), refused(1), "{name}");
        }
        for text in ["1", "x0=1;x1:=0", "", "x9=1"] {
            assert_eq!(policy_reply(&mut bench, text), refused(1));
        }
    }
}

#[test]
fn a_full_store_gains_nothing_by_any_call() {
    for Call { name, arguments, refusals, ask } in CALLS {
        let mut seen = BTreeSet::new();
        for mut bench in [two_fields(0), bare(0)] {
            for list in lists(arguments) {
                let Reply { answer, relations, sets } = ask(&mut bench, list);
                assert_eq!((relations, sets), (0, 0), "{name} {list:?}");
                seen.insert((answer >> 32) as u32);
            }
        }
        seen.remove(&0);
        assert_eq!(seen, BTreeSet::from_iter(refusals.iter().copied()), "{name}");
    }
}

#[test]
fn what_is_added_is_the_growth() {
    for Call { name, arguments, ask, .. } in CALLS {
        let mut grew = false;
        for store in [two_fields(20), bare(20)] {
            for list in lists(arguments) {
                let mut bench = store.copy();
                let reply = ask(&mut bench, list);
                let (before, after) = (store.held(), bench.held());
                let growth = (after.relations - before.relations, after.sets - before.sets);
                assert_eq!((reply.relations, reply.sets), growth, "{name} {list:?}");
                assert!(reply.answer >> 32 == 0 || growth == (0, 0), "{name} {list:?}");
                grew |= growth != (0, 0);
            }
        }
        assert!(grew, "{name}");
    }
}

#[test]
fn a_refused_policy_adds_nothing() {
    let mut bench = two_fields(0);
    let deep = format!("{}1", "!".repeat(33));
    let long = "1".repeat(4097);
    let texts = [
        ("x0=0", 6, 0),
        ("x0=0+x0=1", 6, 0),
        ("x1=1;x2=0", 5, 5),
        ("", 7, 0),
        ("x1:=0+", 7, 6),
        ("x1:=0;!x0:=1", 8, 6),
        (&deep, 9, 32),
        (&long, 10, 0),
    ];
    for (text, number, offset) in texts {
        let answer = number << 32 | offset;
        assert_eq!(policy_reply(&mut bench, text), Reply { answer, ..refused(number) }, "{text}");
    }
    // The same store with room.
    let mut bench = two_fields(20);
    let Reply { answer, relations, sets } = policy_reply(&mut bench, "x0=0+x0=1");
    assert_eq!((answer, relations, sets), (5, 1, 0));
}
