//! The operations: name, arguments, and how the reference runs each.
//! A run assumes what `Store::call` has checked, for the reference panics otherwise.

use crate::answer::Answer;
use crate::first_path::first_path;
use crate::next_member::next_member;
use crate::packet::field_is_one;
use reference::sp::SP;
use reference::spp::{SPPstore, SPP};

/// What an argument stands for.
#[derive(Clone, Copy, Debug, PartialEq, Eq)]
pub enum Sort {
    /// A handle of a set.
    Set,
    /// A handle of a relation.
    Relation,
    Field,
    /// A field's value, 0 or 1.
    Value,
    Packet,
    /// Of a record: 0 is no, any other number yes.
    Mark,
}

use Sort::{Field, Mark, Packet, Relation, Set, Value};

pub struct Operation {
    pub name: &'static str,
    pub sorts: &'static [Sort],
    pub(crate) run: Run,
}

type Run = fn(&mut SPPstore, &[u32]) -> Answer;

const fn op(name: &'static str, sorts: &'static [Sort], run: Run) -> Operation {
    Operation { name, sorts, run }
}

/// The operation of this name.
pub fn find(name: &str) -> Option<&'static Operation> {
    all().find(|operation| operation.name == name)
}

pub fn all() -> impl Iterator<Item = &'static Operation> {
    SETS.iter().chain(&RELATIONS).chain(&BETWEEN)
}

/// Operations on sets alone.
pub static SETS: [Operation; 14] = [
    op("set.mk", &[Set, Set], |s, x| set(s.sp.mk(SP(x[0]), SP(x[1])))),
    op("set.get", &[Set], |s, x| {
        let node = s.sp.get(SP(x[0]));
        Answer::Children(vec![node.x0.0, node.x1.0])
    }),
    op("set.union", &[Set, Set], |s, x| set(s.sp.union(SP(x[0]), SP(x[1])))),
    op("set.intersect", &[Set, Set], |s, x| set(s.sp.intersect(SP(x[0]), SP(x[1])))),
    op("set.xor", &[Set, Set], |s, x| set(s.sp.xor(SP(x[0]), SP(x[1])))),
    op("set.difference", &[Set, Set], |s, x| set(s.sp.difference(SP(x[0]), SP(x[1])))),
    op("set.complement", &[Set], |s, x| set(s.sp.complement(SP(x[0])))),
    op("set.is_zero", &[Set], |s, x| Answer::YesNo(s.sp.is_zero(SP(x[0])))),
    op("set.test", &[Field, Value], |s, x| set(s.sp.test(x[0], x[1] == 1))),
    op("set.zero", &[], |s, _| set(s.sp.zero_at_k())),
    op("set.one", &[], |s, _| set(s.sp.one_at_k())),
    op("intersects", &[Set, Set], |s, x| Answer::YesNo(s.sp.intersects(SP(x[0]), SP(x[1])))),
    op("ifelse", &[Field, Set, Set], |s, x| set(s.sp.ifelse(x[0], SP(x[1]), SP(x[2])))),
    // The numbers of the record: the set, the last packet given, whether any was given, whether the end was met.
    op("set.next", &[Set, Packet, Mark, Mark], |s, x| {
        let last = (x[2] != 0).then_some(x[1]);
        Answer::Member(if x[3] != 0 { None } else { next_member(s, SP(x[0]), last) })
    }),
];

/// Operations on relations alone.
pub static RELATIONS: [Operation; 19] = [
    op("rel.mk", &[Relation, Relation, Relation, Relation], |s, x| {
        relation(s.mk(SPP(x[0]), SPP(x[1]), SPP(x[2]), SPP(x[3])))
    }),
    op("rel.get", &[Relation], |s, x| {
        let node = s.get(SPP(x[0]));
        Answer::Children(vec![node.x00.0, node.x01.0, node.x10.0, node.x11.0])
    }),
    op("rel.union", &[Relation, Relation], |s, x| relation(s.union(SPP(x[0]), SPP(x[1])))),
    op("rel.intersect", &[Relation, Relation], |s, x| relation(s.intersect(SPP(x[0]), SPP(x[1])))),
    op("rel.xor", &[Relation, Relation], |s, x| relation(s.xor(SPP(x[0]), SPP(x[1])))),
    op("rel.difference", &[Relation, Relation], |s, x| {
        relation(s.difference(SPP(x[0]), SPP(x[1])))
    }),
    op("rel.complement", &[Relation], |s, x| relation(s.complement(SPP(x[0])))),
    op("rel.is_zero", &[Relation], |s, x| Answer::YesNo(s.is_zero(SPP(x[0])))),
    op("rel.test", &[Field, Value], |s, x| relation(s.test(x[0], x[1] == 1))),
    op("rel.zero", &[], |s, _| relation(s.zero_at_k())),
    op("rel.one", &[], |s, _| relation(s.one_at_k())),
    op("top", &[], |s, _| relation(s.top_at_k())),
    op("sequence", &[Relation, Relation], |s, x| relation(s.sequence(SPP(x[0]), SPP(x[1])))),
    op("star", &[Relation], |s, x| relation(s.star(SPP(x[0])))),
    op("flip", &[Relation], |s, x| relation(s.flip(SPP(x[0])))),
    op("assign", &[Field, Value], |s, x| relation(s.assign(x[0], x[1] == 1))),
    op("naive_forward", &[Relation], |s, x| relation(s.naive_forward(SPP(x[0])))),
    op("backward", &[Relation], |s, x| relation(s.backward(SPP(x[0])))),
    op("relates", &[Relation, Packet, Packet], |s, x| {
        Answer::YesNo(relates(s, SPP(x[0]), x[1], x[2]))
    }),
];

/// Operations on sets and relations together.
pub static BETWEEN: [Operation; 10] = [
    op("fwd", &[Relation], |s, x| set(s.fwd(SPP(x[0])))),
    op("bwd", &[Relation], |s, x| set(s.bwd(SPP(x[0])))),
    op("ifwd", &[Set], |s, x| relation(s.ifwd(SP(x[0])))),
    op("ibwd", &[Set], |s, x| relation(s.ibwd(SP(x[0])))),
    op("push", &[Set, Relation], |s, x| set(s.push(SP(x[0]), SPP(x[1])))),
    op("pull", &[Relation, Set], |s, x| set(s.pull(SPP(x[0]), SP(x[1])))),
    op("diagonal", &[Set], |s, x| relation(s.diagonal(SP(x[0])))),
    op("has_image", &[Set, Relation], |s, x| Answer::YesNo(s.has_image(SP(x[0]), SPP(x[1])))),
    op("has_path", &[Set, Relation, Set], |s, x| {
        Answer::YesNo(s.has_path(SP(x[0]), SPP(x[1]), SP(x[2])))
    }),
    op("first_path", &[Set, Relation, Set], |s, x| {
        Answer::Pair(first_path(s, SP(x[0]), SPP(x[1]), SP(x[2])))
    }),
];

fn set(handle: SP) -> Answer {
    Answer::Handle(handle.0)
}

fn relation(handle: SPP) -> Answer {
    Answer::Handle(handle.0)
}

/// Walks down from a relation, at each node by the pair's next field, from field 0 on.
fn relates(store: &SPPstore, relation: SPP, input: u32, output: u32) -> bool {
    let mut at = relation;
    for field in 0..store.level(relation) {
        let node = store.get(at);
        at = match (field_is_one(input, field), field_is_one(output, field)) {
            (false, false) => node.x00,
            (false, true) => node.x01,
            (true, false) => node.x10,
            (true, true) => node.x11,
        };
    }
    at == SPP(1)
}
