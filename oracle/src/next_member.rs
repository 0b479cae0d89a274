//! The packets of a set in turn. The reference has no such call: this follows the request's words, with the reference's `intersect` and
//! `is_zero` on ever smaller sets.

use crate::answer::Answer;
use crate::first_path::{copy, first};
use crate::packet::field_is_one;
use reference::sp::SP;
use reference::spp::SPPstore;

/// The first packet of a set in field order, of those after `last` where there is one; none where no packet is left. The smaller sets are
/// made in a copy of the store.
pub fn next_member(store: &SPPstore, set: SP, last: Option<u32>) -> Option<u32> {
    let mut copy = copy(store);
    let left = match last {
        Some(last) => {
            let after = after(&mut copy, store.sp.level(set), last);
            copy.sp.intersect(set, after)
        }
        None => set,
    };
    if copy.sp.is_zero(left) {
        return None;
    }
    Some(first(&mut copy, left, |copy, part| !copy.sp.is_zero(part)).0)
}

/// The packets of a level that come after this one in field order, made from the last field up.
fn after(store: &mut SPPstore, level: u32, packet: u32) -> SP {
    let (mut set, mut empty, mut full) = (SP(0), SP(0), SP(1));
    for field in (0..level).rev() {
        let one = field_is_one(packet, field);
        set = if one { store.sp.mk(empty, set) } else { store.sp.mk(set, full) };
        empty = store.sp.mk(empty, empty);
        full = store.sp.mk(full, full);
    }
    set
}

/// What a call leaves in its record: a packet is the last and was given, the end sets its mark where it was not set, a refusal leaves all.
pub fn moved([handle, last, given, ended]: [u32; 4], answer: &Answer) -> [u32; 4] {
    match *answer {
        Answer::Member(Some(packet)) => [handle, packet, 1, ended],
        Answer::Member(None) => [handle, last, given, ended.max(1)],
        _ => [handle, last, given, ended],
    }
}
