//! The first pair that a relation relates between two sets. The reference has no such call: this follows the request's
//! words, with the reference's `has_path` on ever smaller sets.

use reference::sp::SP;
use reference::spp::{SPPstore, SPP};

/// The first packet of p, compared field by field from field 0 on, 0 before 1, that the relation relates to some packet of
/// q; and the first packet of q that it relates that input to. The smaller sets are made in a copy of the store.
pub fn first_path(store: &SPPstore, p: SP, relation: SPP, q: SP) -> Option<(u32, u32)> {
    let mut copy = copy(store);
    if !copy.has_path(p, relation, q) {
        return None;
    }
    let (input, only) = first(&mut copy, p, |copy, part| copy.has_path(part, relation, q));
    let (output, _) = first(&mut copy, q, |copy, part| copy.has_path(only, relation, part));
    Some((input, output))
}

/// A store with the same nodes, to make others in.
pub fn copy(store: &SPPstore) -> SPPstore {
    SPPstore::with_nodes(store.sp.num_vars(), store.nodes(), store.sp.nodes())
}

/// The first packet of a set that will do, as a number and as a set. Some packet does: `any` says of a set whether one of
/// its packets does. Field 0 is the number's least significant bit.
pub fn first(store: &mut SPPstore, set: SP, any: impl Fn(&mut SPPstore, SP) -> bool) -> (u32, SP) {
    let level = store.sp.level(set);
    let (mut packet, mut left) = (0, set);
    for field in 0..level {
        let zero = with_zero(store, level, field);
        let low = store.sp.intersect(left, zero);
        let one = !any(store, low);
        left = if one { store.sp.difference(left, zero) } else { low };
        packet |= u32::from(one) << field;
    }
    (packet, left)
}

/// The packets of a level whose field is 0. The reference's `test` has them at level k alone.
fn with_zero(store: &mut SPPstore, level: u32, field: u32) -> SP {
    let full = (field + 1..level).fold(SP(1), |below, _| store.sp.mk(below, below));
    let empty = store.sp.complement(full);
    let set = store.sp.mk(full, empty);
    (0..field).fold(set, |below, _| store.sp.mk(below, below))
}
