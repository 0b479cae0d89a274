//! The packets of a set in turn: worked cases, each refusal in its order, what is left in the cursor, every cursor on all sets of two fields, 32 fields, and
//! the iterator.

mod bench;

use bench::{fields, Bench, DAMAGES};
use packet_store::*;
use Refusal::{NotHeld, NotStore, OutOfRange};

/// The most packets of a set here.
const MOST: usize = 7;

fn cursor(handle: u32, last: u32, given: u32, ended: u32) -> Cursor {
    Cursor { handle, last, given, ended }
}

/// The next packet of the cursor's set, the same with several lengths of working memory; both memories stay.
fn next(bench: &mut Bench, cursor: &mut Cursor) -> Result<Option<u32>, Refusal> {
    let before = (bench.relations.clone(), bench.sets.clone());
    let start = *cursor;
    let mut ask = |len: usize| {
        bench.work = vec![7; len];
        let mut moved = start;
        let answer = bench.read(|r, s, w| set_next(r, s, w, &mut moved));
        assert_eq!(before, (bench.relations.clone(), bench.sets.clone()));
        (answer, moved)
    };
    let (answer, moved) = ask(WORK_LEN);
    assert_eq!(ask(20_480), (answer, moved));
    *cursor = moved;
    answer
}

/// The answer to a cursor, and the cursor after it.
fn step(bench: &mut Bench, mut cursor: Cursor) -> (Result<Option<u32>, Refusal>, Cursor) {
    (next(bench, &mut cursor), cursor)
}

/// What is given from a cursor on, up to the end or one packet more than any set here has.
fn rest(bench: &mut Bench, mut cursor: Cursor) -> Vec<u32> {
    std::iter::from_fn(|| next(bench, &mut cursor).unwrap()).take(MOST + 1).collect()
}

#[test]
fn every_packet_comes_once_and_then_the_end() {
    // Set 5 is the full set of level 2.
    let mut bench = Bench::new(2, 6, 2);
    let mut at = Cursor::new(5);
    assert_eq!(at, cursor(5, 0, 0, 0));
    for packet in [0, 2, 1, 3] {
        assert_eq!(next(&mut bench, &mut at), Ok(Some(packet)));
        assert_eq!(at, cursor(5, packet, 1, 0));
    }
    for _ in 0..2 {
        assert_eq!(next(&mut bench, &mut at), Ok(None));
        assert_eq!(at, cursor(5, 3, 1, 1));
    }
    // No working memory is needed.
    bench.work.clear();
    let mut at = cursor(5, 2, 1, 0);
    assert_eq!(bench.read(|r, s, w| set_next(r, s, w, &mut at)), Ok(Some(1)));
}

#[test]
fn the_end_sets_its_mark_alone() {
    let mut bench = Bench::new(2, 6, 2);
    let cases = [
        // The empty set: no packet was given, and none is.
        (cursor(4, 77, 0, 0), cursor(4, 77, 0, 1)),
        (cursor(4, 3, 1, 0), cursor(4, 3, 1, 1)),
        (cursor(5, 3, 8, 0), cursor(5, 3, 8, 1)),
        // The end was met before.
        (cursor(5, 1, 1, 1), cursor(5, 1, 1, 1)),
        (cursor(5, 77, 0, 1), cursor(5, 77, 0, 1)),
        (cursor(4, 2, 9, 7), cursor(4, 2, 9, 7)),
        (cursor(5, 0, u32::MAX, u32::MAX), cursor(5, 0, u32::MAX, u32::MAX)),
    ];
    for (before, after) in cases {
        assert_eq!(step(&mut bench, before), (Ok(None), after));
    }
}

#[test]
fn any_mark_but_0_is_yes() {
    let mut bench = Bench::new(2, 6, 2);
    for mark in [1, 2, 7, 1 << 31, u32::MAX] {
        assert_eq!(step(&mut bench, cursor(5, 2, mark, 0)), (Ok(Some(1)), cursor(5, 1, 1, 0)));
        assert_eq!(step(&mut bench, cursor(5, 1, 0, mark)), (Ok(None), cursor(5, 1, 0, mark)));
    }
    // With none given the last packet is not looked at.
    for last in [0, 3, 4, u32::MAX] {
        assert_eq!(step(&mut bench, cursor(5, last, 0, 0)), (Ok(Some(0)), cursor(5, 0, 1, 0)));
    }
}

#[test]
fn refusals_come_in_order_and_before_the_end() {
    // Sets 2 and 3 have level 1, 4 and 5 level 2.
    let mut bench = Bench::new(2, 6, 2);
    let cases = [
        (cursor(6, 0, 0, 0), NotHeld),
        (cursor(u32::MAX, 0, 1, 1), NotHeld),
        // Not held, and out of range at any level.
        (cursor(6, 77, 1, 0), NotHeld),
        (cursor(7, u32::MAX, 3, 3), NotHeld),
        (cursor(5, 4, 1, 0), OutOfRange),
        (cursor(5, 4, 1, 1), OutOfRange),
        (cursor(4, u32::MAX, 7, 9), OutOfRange),
        // The limit is that of the set's own level.
        (cursor(3, 2, 1, 0), OutOfRange),
        (cursor(2, 2, 1, 1), OutOfRange),
        (cursor(1, 1, 1, 0), OutOfRange),
    ];
    for (before, refusal) in cases {
        assert_eq!(step(&mut bench, before), (Err(refusal), before));
    }
    for (before, packet) in [(cursor(3, 0, 1, 0), Some(1)), (cursor(3, 1, 1, 0), None)] {
        assert_eq!(step(&mut bench, before).0, Ok(packet));
    }
}

#[test]
fn memory_that_is_no_store_is_refused() {
    for damage in DAMAGES {
        let mut bench = Bench::new(2, 6, 4);
        damage(&mut bench);
        // Cursors that would give a packet, not be held, be out of range and meet the end.
        for before in
            [cursor(5, 0, 0, 0), cursor(99, 1, 1, 0), cursor(5, 4, 1, 1), cursor(4, 9, 0, 6)]
        {
            assert_eq!(step(&mut bench, before), (Err(NotStore), before));
        }
    }
}

#[test]
fn level_0_has_one_packet() {
    for k in 0..3 {
        let mut bench = Bench::new(k, 3 * k as usize, k as usize);
        assert_eq!(step(&mut bench, Cursor::new(0)), (Ok(None), cursor(0, 0, 0, 1)));
        assert_eq!(step(&mut bench, Cursor::new(1)), (Ok(Some(0)), cursor(1, 0, 1, 0)));
        for handle in [0, 1] {
            let given = cursor(handle, 0, 1, 0);
            assert_eq!(step(&mut bench, given), (Ok(None), cursor(handle, 0, 1, 1)));
            let beyond = cursor(handle, 1, 1, 0);
            assert_eq!(step(&mut bench, beyond), (Err(OutOfRange), beyond));
        }
    }
}

#[test]
fn the_first_member_after_any_packet() {
    let mut bench = Bench::new(2, 6, 64);
    let mut mk = |x0, x1| bench.add_set(|r, s, w| set_mk(r, s, w, x0, x1)).unwrap();
    // Every set of two fields, with its packets in field order.
    let halves = [0b00, 0b01, 0b10, 0b11].map(|bits| (bits, mk(bits >> 1, bits & 1)));
    let sets: Vec<(u32, Vec<u32>)> = halves
        .iter()
        .flat_map(|&(low, x0)| halves.map(|(high, x1)| (low << 2 | high, x0, x1)))
        .map(|(bits, x0, x1)| {
            let packets = [0, 2, 1, 3].into_iter().enumerate();
            let members = packets.filter(|(place, _)| bits << place & 8 != 0);
            (mk(x0, x1), members.map(|(_, packet)| packet).collect())
        })
        .collect();
    assert_eq!(sets.iter().map(|(_, packets)| packets.len()).sum::<usize>(), 32);
    for (handle, packets) in sets {
        assert_eq!(rest(&mut bench, Cursor::new(handle)), packets);
        for last in 0..4 {
            let comes_after = |&p: &u32| fields(2, p) > fields(2, last);
            let after: Vec<u32> = packets.iter().copied().filter(comes_after).collect();
            assert_eq!(rest(&mut bench, cursor(handle, last, 1, 0)), after, "{handle} {last}");
        }
    }
}

#[test]
fn packets_of_32_fields_are_whole() {
    let mut bench = Bench::new(32, 96, 1024);
    let packets = [0, 0x8000_0000, 0xffff_fffe, 1, 0x0080_0001, 0xbfff_ffff, u32::MAX];
    let mut set = bench.add_set(set_zero).unwrap();
    for packet in packets {
        let only = only(&mut bench, packet);
        set = bench.add_set(|r, s, w| set_union(r, s, w, set, only)).unwrap();
    }
    assert_eq!(rest(&mut bench, Cursor::new(set)), packets);
    // No packet is out of range.
    assert_eq!(rest(&mut bench, cursor(set, 0x4000_0000, 1, 0)), packets[2..]);
    assert_eq!(rest(&mut bench, cursor(set, u32::MAX - 1, 1, 0)), packets[3..]);
    assert_eq!(rest(&mut bench, cursor(set, 0x7fff_ffff, 1, 0)), [u32::MAX]);
    assert_eq!(rest(&mut bench, cursor(set, u32::MAX, 1, 0)), [] as [u32; 0]);
    let all_others = bench.read(|r, s, w| set_complement(r, s, w, set)).unwrap();
    let others = [
        (0, 0x4000_0000),
        (0x7fff_fffe, 0x8000_0001),
        (0xff00_0001, 0x8080_0001),
        (0x3fff_ffff, 0x7fff_ffff),
    ];
    for (last, other) in others {
        assert_eq!(step(&mut bench, cursor(all_others, last, 1, 0)).0, Ok(Some(other)));
    }
    assert_eq!(step(&mut bench, cursor(all_others, 0x7fff_ffff, 1, 0)).0, Ok(None));
}

/// The set of one packet of 32 fields, from its last field up.
fn only(bench: &mut Bench, packet: u32) -> u32 {
    let mut mk = |x0, x1| bench.add_set(|r, s, w| set_mk(r, s, w, x0, x1)).unwrap();
    let (mut set, mut empty) = (1, 0);
    for one in fields(32, packet).into_iter().rev() {
        set = if one { mk(empty, set) } else { mk(set, empty) };
        empty = mk(empty, empty);
    }
    set
}

#[test]
fn calls_between_two_steps_alter_nothing() {
    let mut bench = Bench::new(3, 512, 64);
    let mut test = |var, value| bench.add_set(|r, s, w| set_test(r, s, w, var, value)).unwrap();
    let (a, b) = (test(0, 1), test(2, 0));
    let set = bench.add_set(|r, s, w| set_xor(r, s, w, a, b)).unwrap();
    let packets = [0b000, 0b010, 0b101, 0b111];
    assert_eq!(rest(&mut bench, Cursor::new(set)), packets);
    let mut at = Cursor::new(set);
    for (number, packet) in packets.into_iter().enumerate() {
        assert_eq!(next(&mut bench, &mut at), Ok(Some(packet)));
        let value = number as u32 % 2;
        let c = bench.add_set(|r, s, w| set_test(r, s, w, 1, value)).unwrap();
        let union = bench.add_set(|r, s, w| set_union(r, s, w, c, set)).unwrap();
        bench.add_set(|r, s, w| set_difference(r, s, w, a, union)).unwrap();
        bench.add_relation(|r, s, w| relation_diagonal(r, s, w, union)).unwrap();
        let table = bench.judge(format!("x{number}=1;x0:={value}+!x1=0").as_bytes());
        assert_eq!(table.is_ok(), number < 3);
        assert!(bench.open(33).is_err());
        assert_eq!(rest(&mut bench, Cursor::new(set)), packets);
    }
    assert_eq!(next(&mut bench, &mut at), Ok(None));
}

#[test]
fn the_iterator_ends_after_the_end_and_after_a_refusal() {
    let mut bench = Bench::new(2, 6, 2);
    let Bench { relations, sets, work } = &mut bench;
    let packets: Vec<_> = members(relations, sets, work, 5).take(MOST + 1).collect();
    assert_eq!(packets, [Ok(0), Ok(2), Ok(1), Ok(3)]);
    let mut level_1 = members(relations, sets, work, 3);
    assert_eq!([level_1.next(), level_1.next()], [Some(Ok(0)), Some(Ok(1))]);
    assert_eq!([level_1.next(), level_1.next()], [None, None]);
    assert_eq!(members(relations, sets, work, 4).count(), 0);
    let mut not_held = members(relations, sets, work, 6);
    assert_eq!([not_held.next(), not_held.next()], [Some(Err(NotHeld)), None]);
    let mut cut = members(relations, &sets[..4], work, 5);
    assert_eq!([cut.next(), cut.next()], [Some(Err(NotStore)), None]);
    assert!(work.iter().all(|&x| x == 0));
}
