//! A store of k = 32 on which single calls meet more pairs of nodes than a small memo holds.
//!
//! Here the fields of a packet, field 0 first, are the digits of a number in base 2, and those of a pair the digits of one in base 4, each the input's field
//! times 2 and the output's added. The relation a has the pairs that 61 divides, b those that 59 divides, and the set p the packets that 17 divides. A node
//! stands for the remainder that the fields before it leave, so all levels but the lowest have 61, 59 and 17 nodes of them, and a call that goes down two of
//! them together meets all pairs at most levels. The last field is 0 in a's and p's packets and 1 in b's, so every result is empty; but nothing shows it
//! before the last field.

use crate::call::Call;
use crate::sides::{Lent, MOST_PLACES};
use packet_store as library;
use reference::sp::SP;
use reference::spp::{SPPstore, SPP};

const FIELDS: u32 = 32;
/// The working memory with which the store is built.
const WORK: usize = 64 << 10;

/// The store and the calls on it.
pub fn calls() -> (Lent, Vec<Call>) {
    let mut lent = Lent::new(MOST_PLACES, WORK);
    lent.run(FIELDS, "1").expect("a new store");
    let Lent { relations, sets, work } = &mut lent;
    let [a, b] = [(61, 0), (59, 3)].map(|(divisor, last)| {
        root(divisor, last, |[x00, x01, x10, x11]| {
            library::relation_mk(relations, sets, work, x00, x01, x10, x11).expect("fits").handle
        })
    });
    let p = root(17, 0, |[x0, x1]| {
        library::set_mk(relations, sets, work, x0, x1).expect("fits").handle
    });
    let calls = vec![
        Call::binary("sequence", library::relation_sequence, SPPstore::sequence, a, b),
        Call::binary("intersect", library::relation_intersect, SPPstore::intersect, a, b),
        Call::new(
            "push",
            move |m| {
                let image = library::relation_push(&m.relations, &mut m.sets, &mut m.work, p, b);
                image.expect("fits").handle
            },
            move |s| s.push(SP(p), SPP(b)).0,
        ),
        Call::new(
            "has_image",
            move |m| {
                let some = library::relation_has_image(&m.relations, &m.sets, &mut m.work, p, b);
                some.expect("held").into()
            },
            move |s| s.has_image(SP(p), SPP(b)).into(),
        ),
        Call::new(
            "has_path",
            move |m| {
                let some = library::relation_has_path(&m.relations, &m.sets, &mut m.work, p, b, p);
                some.expect("held").into()
            },
            move |s| s.has_path(SP(p), SPP(b), SP(p)).into(),
        ),
    ];
    (lent, calls)
}

/// The handle of the numbers with this last digit that the divisor divides; the base is how many children a node has.
pub fn root<const BASE: usize>(
    divisor: usize,
    last: usize,
    mut mk: impl FnMut([u32; BASE]) -> u32,
) -> u32 {
    let mut nodes: Vec<u32> = (0..divisor).map(|remainder| u32::from(remainder == 0)).collect();
    let mut weight = 1;
    for level in 1..=FIELDS {
        let child = |remainder, digit| match level {
            1 if digit != last => 0,
            _ => nodes[(remainder + digit * weight) % divisor],
        };
        let node = |remainder| mk(std::array::from_fn(|digit| child(remainder, digit)));
        nodes = (0..divisor).map(node).collect();
        weight = weight * BASE % divisor;
    }
    nodes[0]
}
