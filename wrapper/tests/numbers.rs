//! Packets as numbers: bit f of a packet is field f of the handle that it is asked of, and its order is by fields.

mod bench;

use bench::Bench;
use packet_store::*;
use Refusal::OutOfRange;

/// Whether a relation relates each of the packets 0 to 4 to itself.
fn passes(bench: &mut Bench, a: u32) -> [Result<bool, Refusal>; 5] {
    [0, 1, 2, 3, 4].map(|packet| relates(bench, a, packet, packet))
}

fn relates(bench: &mut Bench, a: u32, input: u32, output: u32) -> Result<bool, Refusal> {
    bench.read(|r, s, w| relation_relates(r, s, w, a, input, output))
}

fn first_pair(bench: &mut Bench, p: u32, a: u32) -> Result<Option<(u32, u32)>, Refusal> {
    bench.read(|r, s, w| relation_first_path(r, s, w, p, a, p))
}

/// The packets of a set in turn, up to the end or one more than any set here has.
fn listed(bench: &mut Bench, set: u32) -> Vec<u32> {
    let Bench { relations, sets, work } = bench;
    let packets: Result<_, _> = members(relations, sets, work, set).take(9).collect();
    packets.unwrap()
}

#[test]
fn field_0_is_the_least_significant_bit() {
    let mut bench = Bench::new(2, 8, 3);
    let odd = [Ok(false), Ok(true), Ok(false), Ok(true), Err(OutOfRange)];
    assert_eq!(bench.judge("x0=1"), Ok(8));
    assert_eq!(passes(&mut bench, 8), odd);
    assert_eq!(bench.judge("x0:=1"), Ok(9));
    assert_eq!(relates(&mut bench, 9, 2, 3), Ok(true));
    assert_eq!(relates(&mut bench, 9, 0, 2), Ok(false));
    assert_eq!(first_pair(&mut bench, 5, 8), Ok(Some((1, 1))));
    assert_eq!(first_pair(&mut bench, 5, 9), Ok(Some((0, 1))));
    // The full set, and the packets that have 1 in field 0.
    assert_eq!(listed(&mut bench, 5), [0, 2, 1, 3]);
    let set = bench.add_set(|r, s, w| set_test(r, s, w, 0, 1)).unwrap();
    assert_eq!(listed(&mut bench, set), [1, 3]);
}

#[test]
fn a_level_below_k_has_fields_of_its_own() {
    // At k = 3 relations 2 and 5 are the empty one and the identity of level 1, sets 2 and 3 its empty and full ones, set 5 the full one of level 2.
    let mut bench = Bench::new(3, 12, 4);
    // Of level 2, with 1 in field 0, and with 1 in field 1.
    let a = bench.add_relation(|r, s, w| relation_mk(r, s, w, 2, 2, 2, 5)).unwrap();
    let high = bench.add_relation(|r, s, w| relation_mk(r, s, w, 0, 0, 0, 1)).unwrap();
    let b = bench.add_relation(|r, s, w| relation_mk(r, s, w, high, 2, 2, high)).unwrap();
    let out = Err(OutOfRange);
    assert_eq!(passes(&mut bench, a), [Ok(false), Ok(true), Ok(false), Ok(true), out]);
    assert_eq!(passes(&mut bench, b), [Ok(false), Ok(false), Ok(true), Ok(true), out]);
    assert_eq!(passes(&mut bench, high), [Ok(false), Ok(true), out, out, out]);
    assert_eq!(first_pair(&mut bench, 5, a), Ok(Some((1, 1))));
    assert_eq!(first_pair(&mut bench, 5, b), Ok(Some((2, 2))));
    let p = bench.add_set(|r, s, w| set_mk(r, s, w, 2, 3)).unwrap();
    assert_eq!(listed(&mut bench, p), [1, 3]);
    assert_eq!(listed(&mut bench, 5), [0, 2, 1, 3]);
    let mut beyond = Cursor { last: 4, given: 1, ..Cursor::new(5) };
    assert_eq!(bench.read(|r, s, w| set_next(r, s, w, &mut beyond)), Err(OutOfRange));
    // Level k itself: field 2 is bit 2.
    assert_eq!(listed(&mut bench, 7), [0, 4, 2, 6, 1, 5, 3, 7]);
}

#[test]
fn every_field_has_its_bit() {
    for k in [1, 2, 5, 31, 32] {
        let mut bench = Bench::new(k, 4096, 4096);
        let all = bench.add_set(set_one).unwrap();
        for field in 0..k {
            let bit = 1 << field;
            let test = bench.judge(format!("x{field}=1")).unwrap();
            assert_eq!(first_pair(&mut bench, all, test), Ok(Some((bit, bit))));
            let assign = bench.judge(format!("x{field}:=1")).unwrap();
            assert_eq!(first_pair(&mut bench, all, assign), Ok(Some((0, bit))));
            for other in 0..k {
                let packet = 1 << other;
                assert_eq!(relates(&mut bench, test, packet, packet), Ok(other == field));
                assert_eq!(relates(&mut bench, assign, packet, packet | bit), Ok(true));
                assert_eq!(relates(&mut bench, assign, packet, bit), Ok(other == field));
            }
            let set = bench.add_set(|r, s, w| set_test(r, s, w, field, 1)).unwrap();
            let mut cursor = Cursor::new(set);
            assert_eq!(bench.read(|r, s, w| set_next(r, s, w, &mut cursor)), Ok(Some(bit)));
        }
    }
}
