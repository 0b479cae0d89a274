//! Worked answers: document 01's, P1 to P14 and what stands beside them, and document 02's: signs in texts (M-104), and packets as numbers (M-105), first pairs
//! (M-100) and packets in turn (M-103) among them.

use crate::call::Call;
use crate::replay::empty_store;

/// Calls in the replay format with their answers.
const LISTS: [&[(&str, &str)]; 9] = [
    &[
        // P1
        ("new 1 4096 4096", "o"),
        ("rel.zero", "h 2"),
        ("rel.one", "h 3"),
        ("top", "h 4"),
        // P2 to P14
        ("rel.test 0 1", "h 5"),
        ("rel.test 0 0", "h 6"),
        ("assign 0 1", "h 7"),
        ("assign 0 0", "h 8"),
        ("rel.union 5 6", "h 3"),
        ("sequence 5 8", "h 9"),
        ("flip 9", "h 10"),
        ("star 9", "h 11"),
        ("rel.get 11", "c 1 0 1 1"),
        ("rel.complement 3", "h 12"),
        ("star 12", "h 4"),
        ("set.test 0 1", "h 4"),
        ("push 4 8", "h 5"),
        ("pull 8 4", "h 2"),
        // also
        ("fwd 9", "h 5"),
        ("bwd 9", "h 4"),
        ("ifwd 5", "h 8"),
    ],
    &[("new 0 0 0", "o"), ("rel.zero", "h 0"), ("rel.one", "h 1"), ("top", "h 1")],
    &[("new 32 4096 4096", "o"), ("new 33 4096 4096", "r 5")],
    // At k = 1 three relation places and one set place suffice, one less of either does not.
    &[("new 1 3 1", "o"), ("new 1 2 1", "r 6"), ("new 1 3 0", "r 6")],
    // `T-1&1` is `(T-1)&1`, `0;T^T` is `(0;T)^T`; under `!` a `T` counts by its presence.
    &[
        ("new 1 4096 4096", "o"),
        ("policy T", "h 4"),
        ("policy T-1", "h 5"),
        ("policy T-1&1", "h 2"),
        ("policy T-(1&1)", "h 5"),
        ("policy 0;T^T", "h 4"),
        ("policy !(1&T)", "r 8 0"),
        ("policy !x0=1&!T", "r 8 6"),
        ("policy x0=1&", "r 7 5"),
        ("policy 1&-1", "r 7 2"),
        ("policy -1", "r 7 0"),
        ("policy T=", "r 7 1"),
        ("policy x1=1-!T", "r 5 0"),
        // The test of 1 is 6, that of 0 is 7.
        ("policy !x0=1&T", "h 7"),
    ],
    &[("new 0 0 0", "o"), ("policy T", "h 1"), ("policy T-1", "h 0"), ("policy 0^T", "h 1")],
    // Field 0 is a packet's least significant bit: 1 and 3 have 1 in it.
    &[
        ("new 2 4096 4096", "o"),
        ("policy x0=1", "h 8"),
        ("relates 8 0 0", "b 0"),
        ("relates 8 1 1", "b 1"),
        ("relates 8 2 2", "b 0"),
        ("relates 8 3 3", "b 1"),
        ("policy x0:=1", "h 9"),
        ("relates 9 2 3", "b 1"),
        ("relates 9 0 2", "b 0"),
        ("set.next 5 77 0 0", "m 0"),
        ("set.next 5 0 1 0", "m 2"),
        ("set.next 5 2 1 0", "m 1"),
        ("set.next 5 1 1 0", "m 3"),
        ("set.next 5 3 1 0", "n"),
    ],
    &[
        ("new 2 4096 4096", "o"),
        ("policy x0=0;x1=0;x0:=1+x0=0;x1=1;x1:=0", "h 21"),
        ("first_path 5 21 5", "p 0 1"),
        ("set.test 0 0", "h 7"),
        ("first_path 5 21 7", "p 2 0"),
        ("first_path 4 21 5", "n"),
    ],
    // At a level below k field 0 is that of the handle. Relation 11 and set 8, of level 2, have 1 in it.
    &[
        ("new 3 4096 4096", "o"),
        ("rel.mk 2 2 2 5", "h 11"),
        ("relates 11 1 1", "b 1"),
        ("relates 11 2 2", "b 0"),
        ("relates 11 3 3", "b 1"),
        ("relates 11 4 4", "r 5"),
        ("set.mk 2 3", "h 8"),
        ("set.next 8 0 0 0", "m 1"),
        ("set.next 8 2 1 0", "m 1"),
        ("set.next 8 1 1 0", "m 3"),
        ("set.next 8 4 1 0", "r 5"),
        ("first_path 8 11 8", "p 1 1"),
    ],
];

/// How many answers were compared, and the calls that answered otherwise.
pub fn compare() -> (usize, Vec<&'static str>) {
    let mut differ = vec![];
    for list in LISTS {
        let mut store = empty_store();
        for (line, expected) in list {
            let call: Call = line.parse().expect("a call");
            if call.make(&mut store).to_string() != *expected {
                differ.push(*line);
            }
        }
    }
    (LISTS.iter().map(|list| list.len()).sum(), differ)
}
