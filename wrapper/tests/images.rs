//! The calls between relations and sets: each refusal in its order, memory that is exactly full, and `bwd` after `ibwd`.

mod bench;

use bench::{Bench, DAMAGES};
use packet_store::*;
use Refusal::{LevelsDiffer, NotHeld, NotStore, UsedUp};

/// After `new` of two fields: relations 2, 4 and 6 have level 1, 3, 5 and 7 level 2; sets 2 and 3 level 1, 4 and 5 level 2.
fn two_fields() -> Bench {
    Bench::new(2, 6, 2)
}

#[test]
fn one_operand_is_held_or_refused() {
    let mut bench = two_fields();
    for call in [relation_fwd, relation_bwd] {
        assert_eq!(bench.add_set(|r, s, w| call(r, s, w, 8)), Err(NotHeld));
        assert_eq!(bench.add_set(|r, s, w| call(r, s, w, u32::MAX)), Err(NotHeld));
        assert_eq!(bench.add_set(|r, s, w| call(r, s, w, 7)), Ok(5));
        assert_eq!(bench.add_set(|r, s, w| call(r, s, w, 2)), Ok(2));
    }
    for call in [relation_diagonal, relation_ifwd, relation_ibwd] {
        assert_eq!(bench.add_relation(|r, s, w| call(r, s, w, 6)), Err(NotHeld));
        assert_eq!(bench.add_relation(|r, s, w| call(r, s, w, u32::MAX)), Err(NotHeld));
        assert_eq!(bench.add_relation(|r, s, w| call(r, s, w, 4)), Ok(3));
    }
    assert_eq!(bench.add_relation(|r, s, w| relation_diagonal(r, s, w, 3)), Ok(4));
    assert_eq!(bench.add_relation(|r, s, w| relation_ifwd(r, s, w, 5)), Ok(7));
}

#[test]
fn a_set_and_a_relation_are_of_one_level() {
    let mut bench = two_fields();
    // A set and a relation, with what each call that takes them in any order answers.
    let pairs = [
        (6, 7, Err(NotHeld)),
        (4, 8, Err(NotHeld)),
        (6, 2, Err(NotHeld)),
        (2, 8, Err(NotHeld)),
        (2, 7, Err(LevelsDiffer)),
        (4, 6, Err(LevelsDiffer)),
        (1, 7, Err(LevelsDiffer)),
        (5, 1, Err(LevelsDiffer)),
        (5, 7, Ok(5)),
        (3, 6, Ok(3)),
    ];
    for (p, a, answer) in pairs {
        assert_eq!(bench.add_set(|r, s, w| relation_push(r, s, w, p, a)), answer);
        assert_eq!(bench.add_set(|r, s, w| relation_pull(r, s, w, a, p)), answer);
        let yes = answer.map(|_| true);
        assert_eq!(bench.read(|r, s, w| relation_has_image(r, s, w, p, a)), yes);
    }
}

#[test]
fn each_operand_of_has_path_is_held_and_of_one_level() {
    let mut bench = two_fields();
    let paths = [
        ([6, 7, 5], Err(NotHeld)),
        ([5, 8, 5], Err(NotHeld)),
        ([5, 7, 6], Err(NotHeld)),
        // One is not held and the levels of the others differ.
        ([6, 6, 5], Err(NotHeld)),
        ([2, 8, 5], Err(NotHeld)),
        ([2, 7, 6], Err(NotHeld)),
        ([2, 7, 5], Err(LevelsDiffer)),
        ([5, 6, 5], Err(LevelsDiffer)),
        ([5, 7, 2], Err(LevelsDiffer)),
        ([3, 7, 3], Err(LevelsDiffer)),
        ([5, 7, 5], Ok(true)),
        ([4, 7, 5], Ok(false)),
        ([5, 3, 5], Ok(false)),
        ([5, 7, 4], Ok(false)),
        ([3, 4, 3], Ok(true)),
    ];
    for ([p, a, q], answer) in paths {
        assert_eq!(bench.read(|r, s, w| relation_has_path(r, s, w, p, a, q)), answer);
    }
}

#[test]
fn each_call_that_adds_is_refused_where_places_are_used_up() {
    // Relation 5 is the test of field 0 for 1, 6 the assignment of 0 to it; no place for a set is left.
    let mut bench = Bench::new(1, 5, 1);
    assert_eq!(bench.add_relation(|r, s, w| relation_test(r, s, w, 0, 1)), Ok(5));
    assert_eq!(bench.add_relation(|r, s, w| relation_assign(r, s, w, 0, 0)), Ok(6));
    assert_eq!(bench.add_set(|r, s, w| relation_fwd(r, s, w, 5)), Err(UsedUp));
    assert_eq!(bench.add_set(|r, s, w| relation_bwd(r, s, w, 5)), Err(UsedUp));
    assert_eq!(bench.add_set(|r, s, w| relation_push(r, s, w, 3, 6)), Err(UsedUp));
    assert_eq!(bench.add_set(|r, s, w| relation_pull(r, s, w, 5, 3)), Err(UsedUp));
    assert_eq!(bench.add_set(|r, s, w| relation_pull(r, s, w, 6, 3)), Ok(3));
    assert_eq!(bench.read(|r, s, w| relation_has_image(r, s, w, 3, 5)), Ok(true));
    assert_eq!(bench.read(|r, s, w| relation_has_path(r, s, w, 3, 6, 3)), Ok(true));
    // Set 4 is the test of field 0 for 1; no place for a relation is left.
    let mut bench = Bench::new(1, 3, 2);
    assert_eq!(bench.add_set(|r, s, w| set_test(r, s, w, 0, 1)), Ok(4));
    for call in [relation_diagonal, relation_ifwd, relation_ibwd] {
        assert_eq!(bench.add_relation(|r, s, w| call(r, s, w, 4)), Err(UsedUp));
        assert_eq!(bench.add_relation(|r, s, w| call(r, s, w, 2)), Ok(2));
    }
}

#[test]
fn memory_that_is_no_store_is_refused() {
    for damage in DAMAGES {
        let mut bench = Bench::new(2, 6, 4);
        damage(&mut bench);
        assert_eq!(bench.add_set(|r, s, w| relation_fwd(r, s, w, 99)), Err(NotStore));
        assert_eq!(bench.add_set(|r, s, w| relation_bwd(r, s, w, 0)), Err(NotStore));
        assert_eq!(bench.add_set(|r, s, w| relation_push(r, s, w, 0, 7)), Err(NotStore));
        assert_eq!(bench.add_set(|r, s, w| relation_pull(r, s, w, 0, 0)), Err(NotStore));
        for call in [relation_diagonal, relation_ifwd, relation_ibwd] {
            assert_eq!(bench.add_relation(|r, s, w| call(r, s, w, 0)), Err(NotStore));
        }
        assert_eq!(bench.read(|r, s, w| relation_has_image(r, s, w, 0, 0)), Err(NotStore));
        assert_eq!(bench.read(|r, s, w| relation_has_path(r, s, w, 0, 0, 99)), Err(NotStore));
    }
}

#[test]
fn bwd_after_ibwd_is_the_identity() {
    // All sets of two fields.
    let mut bench = Bench::new(2, 64, 64);
    let x = bench.add_set(|r, s, w| set_mk(r, s, w, 0, 1)).unwrap();
    for x0 in [2, 3, x, x + 1] {
        for x1 in [2, 3, x, x + 1] {
            let p = bench.add_set(|r, s, w| set_mk(r, s, w, x0, x1)).unwrap();
            let a = bench.add_relation(|r, s, w| relation_ibwd(r, s, w, p)).unwrap();
            assert_eq!(bench.add_set(|r, s, w| relation_bwd(r, s, w, a)), Ok(p));
        }
    }
    assert_eq!(bench.sets[SET_COUNT], 10);
}

#[test]
fn ibwd_after_bwd_is_not() {
    let mut bench = Bench::new(1, 3, 1);
    assert_eq!(bench.add_set(|r, s, w| relation_bwd(r, s, w, 3)), Ok(3));
    assert_eq!(bench.add_relation(|r, s, w| relation_ibwd(r, s, w, 3)), Ok(4));
}

#[test]
fn no_working_memory_is_needed() {
    let mut bench = Bench::new(3, 64, 64);
    bench.work.clear();
    let a = bench.add_relation(|r, s, w| relation_assign(r, s, w, 2, 1)).unwrap();
    let p = bench.add_set(|r, s, w| set_test(r, s, w, 0, 0)).unwrap();
    let q = bench.add_set(|r, s, w| relation_push(r, s, w, p, a)).unwrap();
    let b = bench.add_relation(|r, s, w| relation_ifwd(r, s, w, q)).unwrap();
    bench.work.resize(WORK_LEN, 7);
    assert_eq!(bench.add_set(|r, s, w| relation_push(r, s, w, p, a)), Ok(q));
    assert_eq!(bench.add_relation(|r, s, w| relation_ifwd(r, s, w, q)), Ok(b));
    assert_eq!(bench.read(|r, s, w| relation_has_path(r, s, w, p, a, q)), Ok(true));
}
