//! The store's refusals, their order, and what they leave.

use oracle::answer::{Answer, Refusal};
use oracle::call::Call;
use oracle::draw::{Draw, Part};
use oracle::replay::empty_store;
use oracle::store::Store;

/// Makes the calls in order and compares the answers.
fn answers(store: &mut Store, expected: &[(&str, &str)]) {
    for (line, answer) in expected {
        let call: Call = line.parse().expect(line);
        assert_eq!(call.make(store).to_string(), *answer, "{line}");
    }
}

#[test]
fn refusals_come_in_document_01s_order() {
    // After `new`: relations 2 and 3 zero, 4 and 5 one, 6 and 7 top; sets 2 and 4 zero.
    let mut store = Store::new(2, 6, 2).unwrap();
    answers(
        &mut store,
        &[
            ("rel.get 8", "r 2"),
            ("rel.get 1", "r 4"),
            ("rel.get 7", "c 6 6 6 6"),
            ("set.get 6", "r 2"),
            ("set.get 0", "r 4"),
            ("set.get 5", "c 3 3"),
            ("rel.mk 7 8 0 0", "r 2"),
            ("rel.mk 7 7 7 6", "r 3"),
            ("rel.mk 7 7 7 7", "r 5"),
            ("rel.mk 2 2 2 6", "r 6"),
            ("rel.mk 6 6 6 6", "h 7"),
            ("set.mk 4 4294967295", "r 2"),
            ("set.mk 4 2", "r 3"),
            ("set.mk 4 5", "r 5"),
            ("set.mk 3 2", "r 6"),
            ("rel.union 4294967295 2", "r 2"),
            ("rel.union 7 2", "r 3"),
            ("rel.complement 5", "r 6"),
            ("set.complement 5", "h 4"),
            ("has_path 4 8 2", "r 2"),
            ("has_path 4 7 2", "r 3"),
            ("push 2 7", "r 3"),
            ("pull 7 6", "r 2"),
            ("rel.test 2 0", "r 5"),
            ("rel.test 0 0", "r 6"),
            ("assign 4294967295 1", "r 5"),
            ("assign 0 2", "r 5"),
            ("set.test 1 1", "r 6"),
            ("ifelse 2 99 99", "r 5"),
            ("ifelse 1 99 2", "r 2"),
            ("ifelse 1 4 2", "r 3"),
            ("ifelse 1 2 3", "r 4"),
            ("ifelse 1 4 5", "r 6"),
            ("ifelse 1 4 4", "h 4"),
            ("relates 8 9 9", "r 2"),
            ("relates 5 4 0", "r 5"),
            ("relates 4 0 2", "r 5"),
            ("relates 1 0 1", "r 5"),
            ("relates 5 2 2", "b 1"),
            ("set.next 6 9 1 1", "r 2"),
            ("set.next 5 4 1 1", "r 5"),
            ("set.next 5 4 0 1", "n"),
            ("set.next 5 2 1 0", "m 1"),
        ],
    );
    assert_eq!(store.counts(), (6, 2));
}

#[test]
fn a_packet_of_32_fields_is_never_out_of_range() {
    let mut store = Store::new(32, 4096, 4096).unwrap();
    let Answer::Handle(one) = store.ask("rel.one", &[]) else { panic!() };
    answers(
        &mut store,
        &[
            (&format!("relates {one} 4294967295 4294967295"), "b 1"),
            (&format!("relates {one} 4294967295 2147483647"), "b 0"),
            ("set.one", "h 65"),
            ("set.next 65 2147483647 1 0", "m 4294967295"),
            ("set.next 65 4294967295 1 0", "n"),
            ("set.next 65 4294967294 1 0", "m 1"),
            ("set.next 65 0 1 0", "m 2147483648"),
        ],
    );
}

#[test]
fn refused_calls_leave_no_trace() {
    // Beside each drawn store stands one with all places that is given the accepted calls only.
    let mut store = empty_store();
    let mut ample = empty_store();
    let mut used_up = 0;
    for call in Draw::new(5, Part::All).take(20_000) {
        let answer = call.make(&mut store);
        match (&call, &answer) {
            (_, Answer::Refused(refusal)) => used_up += u32::from(*refusal == Refusal::UsedUp),
            (Call::New { fields, .. }, _) => ample = Store::new(*fields, 4096, 4096).unwrap(),
            _ => assert_eq!(call.make(&mut ample), answer, "{call}"),
        }
        assert_eq!(store.counts(), ample.counts(), "{call}");
    }
    assert!(used_up > 100);
}

#[test]
fn a_store_may_begin_with_any_nodes() {
    // The identity of level 1 stands before its zero, and nothing stands at level 2.
    let relations = [[1, 0, 0, 1], [0, 0, 0, 0]];
    let mut store = Store::with_nodes(2, 100, 100, &relations, &[[0, 1]]).unwrap();
    answers(
        &mut store,
        &[
            ("rel.one", "h 4"),
            ("rel.get 4", "c 2 3 3 2"),
            ("rel.zero", "h 5"),
            ("top", "h 7"),
            ("set.zero", "h 6"),
            ("set.test 0 0", "h 9"),
            ("set.get 9", "c 5 4"),
            ("ifelse 0 7 6", "h 8"),
            ("rel.test 1 1", "h 9"),
            ("assign 0 1", "h 10"),
            ("relates 10 2 3", "b 1"),
        ],
    );
}

#[test]
fn a_store_tells_its_nodes_in_order() {
    let relations = [[1, 0, 0, 1], [0, 0, 0, 0]];
    let mut store = Store::with_nodes(1, 3, 2, &relations, &[[0, 1]]).unwrap();
    answers(&mut store, &[("top", "h 4"), ("set.zero", "h 4"), ("set.one", "h 5")]);
    let relations: Vec<_> = store.relation_nodes().collect();
    assert_eq!(relations, [[1, 0, 0, 1], [0, 0, 0, 0], [1, 1, 1, 1]]);
    assert_eq!(store.set_nodes().collect::<Vec<_>>(), [[0, 1], [0, 0]]);
    assert_eq!(store.places(), (3, 2));
}

#[test]
fn a_refusal_keeps_the_nodes_it_began_with() {
    let mut store = Store::with_nodes(1, 2, 0, &[[1, 0, 0, 1]], &[]).unwrap();
    answers(&mut store, &[("top", "h 3"), ("rel.zero", "r 6"), ("set.zero", "r 6")]);
    assert_eq!(store.counts(), (2, 0));
    answers(&mut store, &[("rel.get 3", "c 1 1 1 1"), ("star 2", "h 2"), ("top", "h 3")]);
}

#[test]
fn ill_formed_nodes_are_not_a_store() {
    let relations = |nodes: &[[u32; 4]]| Store::with_nodes(2, 9, 9, nodes, &[]).err();
    let sets = |nodes: &[[u32; 2]]| Store::with_nodes(2, 9, 9, &[], nodes).err();
    let ill = Some(Refusal::NotAStore);
    assert_eq!(relations(&[[0, 0, 0, 0], [2, 2, 2, 2]]), None);
    assert_eq!(relations(&[[0, 0, 0, 2]]), ill, "a child not held earlier");
    assert_eq!(relations(&[[0, 0, 0, 0], [2, 2, 2, 0]]), ill, "children of two levels");
    assert_eq!(relations(&[[0, 0, 0, 0], [0, 0, 0, 0]]), ill, "two equal nodes");
    assert_eq!(relations(&[[1; 4], [2; 4], [3; 4]]), ill, "a level above k");
    assert_eq!(sets(&[[0, 1], [2, 3]]), None);
    assert_eq!(sets(&[[1, 0]]), ill, "an odd first child");
    assert_eq!(sets(&[[2, 2]]), ill, "its own child");
    assert_eq!(Store::with_nodes(33, 9, 9, &[], &[]).err(), ill);
    assert_eq!(Store::with_nodes(1, 0, 9, &[[1; 4]], &[]).err(), ill, "more nodes than places");
}

#[test]
fn more_than_4096_places_count_as_4096() {
    let mut store = Store::new(4, u32::MAX, u32::MAX).unwrap();
    let mut full = false;
    for low in 0..300 {
        for high in 0..300 {
            full |= store.ask("set.mk", &[low, high]) == Answer::Refused(Refusal::UsedUp);
        }
    }
    assert!(full);
    assert_eq!(store.counts().1, 4096);
}
