//! Handles of sets at one field, each refusal of the calls on sets in its order, and memory that is exactly full.

mod bench;

use bench::{Bench, DAMAGES};
use packet_store::*;
use Refusal::{LevelsDiffer, NoChildren, NotHeld, NotStore, OutOfRange, UsedUp};

#[test]
fn handles_at_one_field() {
    let mut bench = Bench::new(1, 3, 64);
    assert_eq!(bench.add_set(set_zero), Ok(2));
    assert_eq!(bench.add_set(set_one), Ok(3));
    assert_eq!(bench.add_set(|r, s, w| set_test(r, s, w, 0, 1)), Ok(4));
    assert_eq!(bench.add_set(|r, s, w| set_test(r, s, w, 0, 0)), Ok(5));
    assert_eq!(bench.add_set(|r, s, w| set_union(r, s, w, 4, 5)), Ok(3));
    assert_eq!(bench.add_set(|r, s, w| set_intersect(r, s, w, 4, 5)), Ok(2));
    assert_eq!(bench.add_set(|r, s, w| set_xor(r, s, w, 3, 4)), Ok(5));
    assert_eq!(bench.add_set(|r, s, w| set_difference(r, s, w, 3, 5)), Ok(4));
    assert_eq!(bench.add_set(|r, s, w| set_ifelse(r, s, w, 0, 3, 2)), Ok(4));
    assert_eq!(bench.add_set(|r, s, w| set_mk(r, s, w, 1, 0)), Ok(5));
    assert_eq!(bench.read(|r, s, w| set_get(r, s, w, 5)), Ok([1, 0]));
    assert_eq!(bench.read(|r, s, w| set_complement(r, s, w, 5)), Ok(4));
    assert_eq!(bench.read(|r, s, w| set_is_zero(r, s, w, 2)), Ok(true));
    assert_eq!(bench.read(|r, s, w| set_is_zero(r, s, w, 4)), Ok(false));
    assert_eq!(bench.read(|r, s, w| set_intersects(r, s, w, 4, 5)), Ok(false));
    assert_eq!(bench.read(|r, s, w| set_intersects(r, s, w, 4, 3)), Ok(true));
    assert_eq!(bench.sets[..sets_len(2)], [2, 0, 0, 0, 1]);
}

#[test]
fn refusals_come_in_order() {
    // After `new`: sets 2 and 4 are the empty sets of levels 1 and 2.
    let mut bench = Bench::new(2, 6, 2);
    assert_eq!(bench.read(|r, s, w| set_get(r, s, w, 6)), Err(NotHeld));
    assert_eq!(bench.read(|r, s, w| set_get(r, s, w, 0)), Err(NoChildren));
    assert_eq!(bench.read(|r, s, w| set_get(r, s, w, 5)), Ok([3, 3]));
    assert_eq!(bench.add_set(|r, s, w| set_mk(r, s, w, 4, u32::MAX)), Err(NotHeld));
    assert_eq!(bench.add_set(|r, s, w| set_mk(r, s, w, 4, 2)), Err(LevelsDiffer));
    assert_eq!(bench.add_set(|r, s, w| set_mk(r, s, w, 4, 5)), Err(OutOfRange));
    assert_eq!(bench.add_set(|r, s, w| set_mk(r, s, w, 3, 2)), Err(UsedUp));
    assert_eq!(bench.add_set(|r, s, w| set_mk(r, s, w, 3, 3)), Ok(5));
    for call in [set_union, set_intersect, set_xor, set_difference] {
        assert_eq!(bench.add_set(|r, s, w| call(r, s, w, 6, 2)), Err(NotHeld));
        assert_eq!(bench.add_set(|r, s, w| call(r, s, w, 4, 2)), Err(LevelsDiffer));
    }
    assert_eq!(bench.add_set(|r, s, w| set_test(r, s, w, 2, 0)), Err(OutOfRange));
    assert_eq!(bench.add_set(|r, s, w| set_test(r, s, w, u32::MAX, 0)), Err(OutOfRange));
    assert_eq!(bench.add_set(|r, s, w| set_test(r, s, w, 0, 2)), Err(OutOfRange));
    assert_eq!(bench.add_set(|r, s, w| set_test(r, s, w, 1, 1)), Err(UsedUp));
    assert_eq!(bench.add_set(|r, s, w| set_ifelse(r, s, w, 2, 99, 99)), Err(OutOfRange));
    assert_eq!(bench.add_set(|r, s, w| set_ifelse(r, s, w, 1, 99, 2)), Err(NotHeld));
    assert_eq!(bench.add_set(|r, s, w| set_ifelse(r, s, w, 1, 4, 2)), Err(LevelsDiffer));
    assert_eq!(bench.add_set(|r, s, w| set_ifelse(r, s, w, 1, 2, 3)), Err(NoChildren));
    assert_eq!(bench.add_set(|r, s, w| set_ifelse(r, s, w, 1, 4, 5)), Err(UsedUp));
    assert_eq!(bench.add_set(|r, s, w| set_ifelse(r, s, w, 1, 4, 4)), Ok(4));
    assert_eq!(bench.read(|r, s, w| set_complement(r, s, w, 6)), Err(NotHeld));
    assert_eq!(bench.read(|r, s, w| set_is_zero(r, s, w, 7)), Err(NotHeld));
    assert_eq!(bench.read(|r, s, w| set_intersects(r, s, w, 8, 0)), Err(NotHeld));
    assert_eq!(bench.read(|r, s, w| set_intersects(r, s, w, 4, 1)), Err(LevelsDiffer));
}

#[test]
fn memory_that_is_no_store_is_refused() {
    let mut bench = Bench::new(2, 6, 4);
    for damage in DAMAGES {
        let mut bench = bench.copy();
        damage(&mut bench);
        assert_eq!(bench.add_set(set_zero), Err(NotStore));
        assert_eq!(bench.add_set(|r, s, w| set_union(r, s, w, 99, 2)), Err(NotStore));
        assert_eq!(bench.read(|r, s, w| set_get(r, s, w, 0)), Err(NotStore));
        assert_eq!(bench.read(|r, s, w| set_is_zero(r, s, w, 0)), Err(NotStore));
    }
    assert_eq!(bench.add_set(set_zero), Ok(4));
}

#[test]
fn a_store_without_constants_builds_them_from_level_0_up() {
    let mut bench = Bench::bare(2, 6, 4);
    assert_eq!(bench.add_set(set_zero), Ok(4));
    assert_eq!(bench.sets, [2, 0, 0, 2, 2, 0, 0, 0, 0]);
}

#[test]
fn the_last_place_is_used_and_no_more() {
    // A test on field 1 of 2 makes two nodes more than `new`'s two.
    for places in [3, 4] {
        let mut bench = Bench::new(2, 6, places);
        let answer = bench.add_set(|r, s, w| set_test(r, s, w, 1, 1));
        assert_eq!(answer, if places == 4 { Ok(8) } else { Err(UsedUp) });
        assert_eq!(bench.sets[SET_COUNT], if places == 4 { 4 } else { 2 });
    }
}

#[test]
fn numbers_beyond_the_last_place_stay() {
    let mut bench = Bench::new(1, 3, 1);
    bench.relations.extend([11, 12, 13]);
    bench.sets.push(14);
    assert_eq!(bench.add_set(|r, s, w| set_test(r, s, w, 0, 1)), Err(UsedUp));
    assert_eq!(bench.open(1), Ok(4));
    assert_eq!(bench.relations[relations_len(3)..], [11, 12, 13]);
    assert_eq!(bench.sets[sets_len(1)..], [14]);
}

#[test]
fn no_working_memory_is_needed() {
    let mut bench = Bench::new(6, 18, 64);
    bench.work.clear();
    let a = bench.add_set(|r, s, w| set_test(r, s, w, 5, 1)).unwrap();
    let b = bench.add_set(|r, s, w| set_test(r, s, w, 0, 0)).unwrap();
    let c = bench.add_set(|r, s, w| set_xor(r, s, w, a, b)).unwrap();
    bench.work.resize(WORK_LEN, 7);
    assert_eq!(bench.add_set(|r, s, w| set_xor(r, s, w, a, b)), Ok(c));
}
