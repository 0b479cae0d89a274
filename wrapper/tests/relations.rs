//! Each refusal of the calls on relations in its order, and memory that is exactly full.

mod bench;

use bench::{Bench, DAMAGES};
use packet_store::*;
use Refusal::{LevelsDiffer, NoChildren, NotHeld, NotStore, OutOfRange, UsedUp};

#[test]
fn refusals_come_in_order() {
    // After `new`: relations 2 and 3 are the empty ones of levels 1 and 2, 4 and 5 the identities, 6 and 7 the full ones.
    let mut bench = Bench::new(2, 6, 2);
    assert_eq!(bench.read(|r, s, w| relation_get(r, s, w, 8)), Err(NotHeld));
    assert_eq!(bench.read(|r, s, w| relation_get(r, s, w, 1)), Err(NoChildren));
    assert_eq!(bench.read(|r, s, w| relation_get(r, s, w, 7)), Ok([6, 6, 6, 6]));
    assert_eq!(bench.add_relation(|r, s, w| relation_mk(r, s, w, 7, 8, 0, 0)), Err(NotHeld));
    assert_eq!(bench.add_relation(|r, s, w| relation_mk(r, s, w, 7, 7, 7, 6)), Err(LevelsDiffer));
    assert_eq!(bench.add_relation(|r, s, w| relation_mk(r, s, w, 7, 7, 7, 7)), Err(OutOfRange));
    assert_eq!(bench.add_relation(|r, s, w| relation_mk(r, s, w, 2, 2, 2, 6)), Err(UsedUp));
    assert_eq!(bench.add_relation(|r, s, w| relation_mk(r, s, w, 6, 6, 6, 6)), Ok(7));
    let two =
        [relation_union, relation_intersect, relation_xor, relation_difference, relation_sequence];
    for call in two {
        assert_eq!(bench.add_relation(|r, s, w| call(r, s, w, u32::MAX, 2)), Err(NotHeld));
        assert_eq!(bench.add_relation(|r, s, w| call(r, s, w, 7, 8)), Err(NotHeld));
        assert_eq!(bench.add_relation(|r, s, w| call(r, s, w, 7, 2)), Err(LevelsDiffer));
    }
    let one = [
        relation_complement,
        relation_star,
        relation_flip,
        relation_naive_forward,
        relation_backward,
    ];
    for call in one {
        assert_eq!(bench.add_relation(|r, s, w| call(r, s, w, 8)), Err(NotHeld));
    }
    for call in [relation_test, relation_assign] {
        assert_eq!(bench.add_relation(|r, s, w| call(r, s, w, 2, 0)), Err(OutOfRange));
        assert_eq!(bench.add_relation(|r, s, w| call(r, s, w, 0, 2)), Err(OutOfRange));
        assert_eq!(bench.add_relation(|r, s, w| call(r, s, w, 0, 0)), Err(UsedUp));
    }
    assert_eq!(bench.read(|r, s, w| relation_is_zero(r, s, w, 8)), Err(NotHeld));
    assert_eq!(bench.read(|r, s, w| relation_relates(r, s, w, 8, 9, 9)), Err(NotHeld));
    assert_eq!(bench.read(|r, s, w| relation_relates(r, s, w, 5, 4, 0)), Err(OutOfRange));
    assert_eq!(bench.read(|r, s, w| relation_relates(r, s, w, 4, 0, 2)), Err(OutOfRange));
    assert_eq!(bench.read(|r, s, w| relation_relates(r, s, w, 1, 0, 1)), Err(OutOfRange));
    assert_eq!(bench.read(|r, s, w| relation_relates(r, s, w, 5, 2, 2)), Ok(true));
}

#[test]
fn each_call_that_adds_is_refused_where_places_are_used_up() {
    // 5 is the test of field 0 for 1, 6 the assignment of 0 to it, and no place is left.
    let mut bench = Bench::new(1, 5, 1);
    assert_eq!(bench.add_relation(|r, s, w| relation_test(r, s, w, 0, 1)), Ok(5));
    assert_eq!(bench.add_relation(|r, s, w| relation_assign(r, s, w, 0, 0)), Ok(6));
    assert_eq!(bench.add_relation(|r, s, w| relation_mk(r, s, w, 0, 1, 1, 0)), Err(UsedUp));
    assert_eq!(bench.add_relation(|r, s, w| relation_union(r, s, w, 5, 6)), Err(UsedUp));
    assert_eq!(bench.add_relation(|r, s, w| relation_intersect(r, s, w, 3, 6)), Err(UsedUp));
    assert_eq!(bench.add_relation(|r, s, w| relation_xor(r, s, w, 5, 6)), Err(UsedUp));
    assert_eq!(bench.add_relation(|r, s, w| relation_difference(r, s, w, 3, 5)), Err(UsedUp));
    assert_eq!(bench.add_relation(|r, s, w| relation_complement(r, s, w, 5)), Err(UsedUp));
    assert_eq!(bench.add_relation(|r, s, w| relation_sequence(r, s, w, 5, 6)), Err(UsedUp));
    assert_eq!(bench.add_relation(|r, s, w| relation_star(r, s, w, 6)), Err(UsedUp));
    assert_eq!(bench.add_relation(|r, s, w| relation_flip(r, s, w, 6)), Err(UsedUp));
    assert_eq!(bench.add_relation(|r, s, w| relation_test(r, s, w, 0, 0)), Err(UsedUp));
    assert_eq!(bench.add_relation(|r, s, w| relation_assign(r, s, w, 0, 1)), Err(UsedUp));
    assert_eq!(bench.add_relation(|r, s, w| relation_naive_forward(r, s, w, 5)), Err(UsedUp));
    assert_eq!(bench.add_relation(|r, s, w| relation_backward(r, s, w, 5)), Err(UsedUp));
    assert_eq!(bench.add_relation(|r, s, w| relation_naive_forward(r, s, w, 6)), Ok(6));
    // A store that holds no node, in memory without places.
    let mut bench = Bench::bare(1, 0, 0);
    for call in [relation_zero, relation_one, relation_top] {
        assert_eq!(bench.add_relation(call), Err(UsedUp));
    }
}

#[test]
fn memory_that_is_no_store_is_refused() {
    let mut bench = Bench::new(2, 6, 4);
    for damage in DAMAGES {
        let mut bench = bench.copy();
        damage(&mut bench);
        assert_eq!(bench.add_relation(relation_one), Err(NotStore));
        assert_eq!(bench.add_relation(|r, s, w| relation_union(r, s, w, 99, 2)), Err(NotStore));
        assert_eq!(bench.add_relation(|r, s, w| relation_assign(r, s, w, 9, 9)), Err(NotStore));
        assert_eq!(bench.read(|r, s, w| relation_get(r, s, w, 0)), Err(NotStore));
        assert_eq!(bench.read(|r, s, w| relation_relates(r, s, w, 99, 0, 0)), Err(NotStore));
    }
    assert_eq!(bench.add_relation(relation_one), Ok(5));
}

#[test]
fn packets_of_32_fields_are_never_out_of_range() {
    let mut bench = Bench::new(32, 96, 32);
    let one = bench.add_relation(relation_one).unwrap();
    assert_eq!(bench.read(|r, s, w| relation_relates(r, s, w, one, u32::MAX, u32::MAX)), Ok(true));
    assert_eq!(bench.read(|r, s, w| relation_relates(r, s, w, one, u32::MAX, 1 << 31)), Ok(false));
}

#[test]
fn no_working_memory_is_needed() {
    let mut bench = Bench::new(3, 64, 3);
    bench.work.clear();
    let a = bench.add_relation(|r, s, w| relation_assign(r, s, w, 2, 1)).unwrap();
    let b = bench.add_relation(|r, s, w| relation_test(r, s, w, 0, 0)).unwrap();
    let c = bench.add_relation(|r, s, w| relation_sequence(r, s, w, a, b)).unwrap();
    let d = bench.add_relation(|r, s, w| relation_star(r, s, w, c)).unwrap();
    bench.work.resize(WORK_LEN, 7);
    assert_eq!(bench.add_relation(|r, s, w| relation_sequence(r, s, w, a, b)), Ok(c));
    assert_eq!(bench.add_relation(|r, s, w| relation_star(r, s, w, c)), Ok(d));
}
