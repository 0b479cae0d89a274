//! Document 01's worked cases: `new`, P1 to P14 and what stands beside them.

mod bench;

use bench::Bench;
use packet_store::*;
use Refusal::{NotStore, OutOfRange, UsedUp};

/// The store of P1 to P14, each compared.
fn after_p14() -> Bench {
    let mut bench = Bench::new(1, 64, 64);
    assert_eq!(bench.add_relation(relation_zero), Ok(2));
    assert_eq!(bench.add_relation(relation_one), Ok(3));
    assert_eq!(bench.add_relation(relation_top), Ok(4));
    assert_eq!(bench.add_relation(|r, s, w| relation_test(r, s, w, 0, 1)), Ok(5));
    assert_eq!(bench.add_relation(|r, s, w| relation_test(r, s, w, 0, 0)), Ok(6));
    assert_eq!(bench.add_relation(|r, s, w| relation_assign(r, s, w, 0, 1)), Ok(7));
    assert_eq!(bench.add_relation(|r, s, w| relation_assign(r, s, w, 0, 0)), Ok(8));
    assert_eq!(bench.add_relation(|r, s, w| relation_union(r, s, w, 5, 6)), Ok(3));
    assert_eq!(bench.add_relation(|r, s, w| relation_sequence(r, s, w, 5, 8)), Ok(9));
    assert_eq!(bench.add_relation(|r, s, w| relation_flip(r, s, w, 9)), Ok(10));
    assert_eq!(bench.add_relation(|r, s, w| relation_star(r, s, w, 9)), Ok(11));
    assert_eq!(bench.read(|r, s, w| relation_get(r, s, w, 11)), Ok([1, 0, 1, 1]));
    assert_eq!(bench.add_relation(|r, s, w| relation_complement(r, s, w, 3)), Ok(12));
    assert_eq!(bench.add_relation(|r, s, w| relation_star(r, s, w, 12)), Ok(4));
    // The sets are still those of `new`.
    assert_eq!(bench.sets[..3], [1, 0, 0]);
    assert_eq!(bench.add_set(|r, s, w| set_test(r, s, w, 0, 1)), Ok(4));
    assert_eq!(bench.add_set(|r, s, w| relation_push(r, s, w, 4, 8)), Ok(5));
    assert_eq!(bench.add_set(|r, s, w| relation_pull(r, s, w, 8, 4)), Ok(2));
    bench
}

#[test]
fn p1_to_p14_and_the_calls_beside_them() {
    let mut bench = after_p14();
    assert_eq!(bench.add_set(|r, s, w| relation_fwd(r, s, w, 9)), Ok(5));
    assert_eq!(bench.add_set(|r, s, w| relation_bwd(r, s, w, 9)), Ok(4));
    assert_eq!(bench.add_relation(|r, s, w| relation_ifwd(r, s, w, 5)), Ok(8));
    assert_eq!((bench.relations[RELATION_COUNT], bench.sets[SET_COUNT]), (11, 2));
}

#[test]
fn other_calls_on_these_handles() {
    let mut bench = after_p14();
    assert_eq!(bench.add_relation(|r, s, w| relation_mk(r, s, w, 1, 0, 1, 1)), Ok(11));
    assert_eq!(bench.add_relation(|r, s, w| relation_intersect(r, s, w, 3, 7)), Ok(5));
    assert_eq!(bench.add_relation(|r, s, w| relation_xor(r, s, w, 5, 6)), Ok(3));
    assert_eq!(bench.add_relation(|r, s, w| relation_difference(r, s, w, 3, 5)), Ok(6));
    assert_eq!(bench.add_relation(|r, s, w| relation_naive_forward(r, s, w, 5)), Ok(7));
    assert_eq!(bench.add_relation(|r, s, w| relation_naive_forward(r, s, w, 6)), Ok(8));
    assert_eq!(bench.add_relation(|r, s, w| relation_star(r, s, w, 2)), Ok(3));
    assert_eq!(bench.add_relation(|r, s, w| relation_diagonal(r, s, w, 4)), Ok(5));
    assert_eq!(bench.add_relation(|r, s, w| relation_diagonal(r, s, w, 5)), Ok(6));
    assert_eq!(bench.add_relation(|r, s, w| relation_ifwd(r, s, w, 4)), Ok(7));
    assert_eq!(bench.read(|r, s, w| relation_is_zero(r, s, w, 2)), Ok(true));
    assert_eq!(bench.read(|r, s, w| relation_is_zero(r, s, w, 9)), Ok(false));
    assert_eq!(bench.read(|r, s, w| relation_relates(r, s, w, 9, 1, 0)), Ok(true));
    assert_eq!(bench.read(|r, s, w| relation_relates(r, s, w, 9, 0, 1)), Ok(false));
    assert_eq!(bench.read(|r, s, w| relation_has_image(r, s, w, 4, 9)), Ok(true));
    assert_eq!(bench.read(|r, s, w| relation_has_image(r, s, w, 5, 9)), Ok(false));
    assert_eq!(bench.read(|r, s, w| relation_has_path(r, s, w, 4, 9, 5)), Ok(true));
    assert_eq!(bench.read(|r, s, w| relation_has_path(r, s, w, 4, 9, 4)), Ok(false));
    assert_eq!((bench.relations[RELATION_COUNT], bench.sets[SET_COUNT]), (11, 2));
}

#[test]
fn no_fields_need_no_nodes() {
    let mut bench = Bench::new(0, 0, 0);
    assert_eq!(bench.add_relation(relation_zero), Ok(0));
    assert_eq!(bench.add_relation(relation_one), Ok(1));
    assert_eq!(bench.add_relation(relation_top), Ok(1));
    for handle in [0, 1] {
        for call in [relation_fwd, relation_bwd] {
            assert_eq!(bench.add_set(|r, s, w| call(r, s, w, handle)), Ok(handle));
        }
        for call in [relation_diagonal, relation_ifwd, relation_ibwd] {
            assert_eq!(bench.add_relation(|r, s, w| call(r, s, w, handle)), Ok(handle));
        }
        for call in [relation_push, relation_pull] {
            assert_eq!(bench.add_set(|r, s, w| call(r, s, w, 1, handle)), Ok(handle));
            assert_eq!(bench.add_set(|r, s, w| call(r, s, w, handle, 1)), Ok(handle));
        }
        let yes = Ok(handle == 1);
        assert_eq!(bench.read(|r, s, w| relation_has_image(r, s, w, 1, handle)), yes);
        assert_eq!(bench.read(|r, s, w| relation_has_path(r, s, w, 1, 1, handle)), yes);
    }
}

#[test]
fn new_makes_the_nodes_of_document_01() {
    let mut bench = Bench::raw(4, 2);
    assert_eq!(bench.open(1), Ok(4));
    assert_eq!(bench.relations[..RELATION_HEAD], [1, 3]);
    let nodes = [0, 0, 0, 0, 1, 0, 0, 1, 1, 1, 1, 1, 0, 0, 0, 0];
    assert_eq!(bench.relations[RELATION_HEAD..], nodes);
    assert_eq!(bench.sets, [1, 0, 0, 0, 0]);
    assert_eq!(Bench::raw(0, 0).open(0), Ok(1));
    assert_eq!(Bench::raw(96, 32).open(32), Ok(97));
}

#[test]
fn new_refuses_in_order() {
    assert_eq!(Bench::raw(4096, 4096).open(33), Err(OutOfRange));
    let empty = |relations: usize, sets: usize, k: u32| {
        let made = new(&mut vec![0; relations], &mut vec![0; sets], &mut [], k);
        made.map(|made| made.handle)
    };
    assert_eq!(empty(0, 0, 33), Err(OutOfRange));
    assert_eq!(empty(RELATION_HEAD - 1, SET_HEAD, 0), Err(NotStore));
    assert_eq!(empty(RELATION_HEAD, SET_HEAD - 1, 0), Err(NotStore));
    assert_eq!(empty(RELATION_HEAD, SET_HEAD, 0), Ok(1));
    assert_eq!(empty(relations_len(3), sets_len(1), 1), Ok(4));
    assert_eq!(empty(relations_len(3) - 1, sets_len(1), 1), Err(UsedUp));
    assert_eq!(empty(relations_len(3), sets_len(1) - 1, 1), Err(UsedUp));
}

#[test]
fn memory_of_zeros_is_a_store_of_no_fields() {
    let mut bench = Bench::bare(0, 4, 4);
    // A refused `new` leaves it so, and the call after it is accepted.
    assert_eq!(bench.open(33), Err(OutOfRange));
    assert_eq!(bench.judge("1"), Ok(1));
}
