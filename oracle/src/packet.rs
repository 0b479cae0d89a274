//! Packets as numbers: bit f is field f.

use std::cmp::Ordering;

/// Whether a field of a packet is 1; field 0 is the least significant bit.
pub fn field_is_one(packet: u32, field: u32) -> bool {
    packet >> field & 1 == 1
}

/// How two packets of `level` fields compare in field order: field by field from field 0 on, 0 before 1.
pub fn field_order(level: u32, p: u32, q: u32) -> Ordering {
    let fields = |packet| (0..level).map(move |field| field_is_one(packet, field));
    fields(p).cmp(fields(q))
}
