//! What document 01 says each operation means, on plain sets and relations.

use super::plain::{packets, PacketRelation, PacketSet};
use crate::packet::{field_is_one, field_order};

/// An operand or a result.
#[derive(Clone, Debug, PartialEq, Eq)]
pub enum Value {
    Set(PacketSet),
    Relation(PacketRelation),
    /// A field, a field's value, a packet or a mark.
    Number(u32),
    YesNo(bool),
    Children(Vec<Value>),
    Pair(Option<(u32, u32)>),
    Member(Option<u32>),
}

impl Value {
    fn set(&self) -> &PacketSet {
        match self {
            Value::Set(set) => set,
            other => panic!("not a set: {other:?}"),
        }
    }

    fn relation(&self) -> &PacketRelation {
        match self {
            Value::Relation(relation) => relation,
            other => panic!("not a relation: {other:?}"),
        }
    }

    fn number(&self) -> u32 {
        match self {
            Value::Number(number) => *number,
            other => panic!("not a number: {other:?}"),
        }
    }
}

/// The result of the operation `name` on operands `x`, in a store of `fields` fields.
pub fn meaning(name: &str, fields: u32, x: &[Value]) -> Value {
    let s = |i: usize| x[i].set();
    let r = |i: usize| x[i].relation();
    let n = |i: usize| x[i].number();
    let exists = |level, holds: &dyn Fn(u32) -> bool| (0..packets(level)).any(holds);
    match name {
        "set.mk" => Value::Set(PacketSet::join([0, 1].map(|i| s(i).clone()))),
        "set.get" => Value::Children(s(0).split().map(Value::Set).to_vec()),
        "set.union" => set(s(0).level, |p| s(0).has(p) || s(1).has(p)),
        "set.intersect" => set(s(0).level, |p| s(0).has(p) && s(1).has(p)),
        "set.xor" => set(s(0).level, |p| s(0).has(p) != s(1).has(p)),
        "set.difference" => set(s(0).level, |p| s(0).has(p) && !s(1).has(p)),
        "set.complement" => set(s(0).level, |p| !s(0).has(p)),
        "set.is_zero" => Value::YesNo(s(0).is_empty()),
        "set.test" => set(fields, |p| field_is_one(p, n(0)) == (n(1) == 1)),
        "set.zero" => set(fields, |_| false),
        "set.one" => set(fields, |_| true),
        "intersects" => Value::YesNo(exists(s(0).level, &|p| s(0).has(p) && s(1).has(p))),
        "ifelse" => set(s(1).level, |p| {
            let branch = if field_is_one(p, n(0)) { 1 } else { 2 };
            s(branch).has(p)
        }),
        "set.next" => {
            let level = s(0).level;
            let after = |p| n(2) == 0 || field_order(level, n(1), p).is_lt();
            let left = (0..packets(level)).filter(|&p| n(3) == 0 && s(0).has(p) && after(p));
            Value::Member(left.min_by(|&p, &q| field_order(level, p, q)))
        }

        "rel.mk" => Value::Relation(PacketRelation::join([0, 1, 2, 3].map(|i| r(i).clone()))),
        "rel.get" => Value::Children(r(0).split().map(Value::Relation).to_vec()),
        "rel.union" => relation(r(0).level, |p, q| r(0).has(p, q) || r(1).has(p, q)),
        "rel.intersect" => relation(r(0).level, |p, q| r(0).has(p, q) && r(1).has(p, q)),
        "rel.xor" => relation(r(0).level, |p, q| r(0).has(p, q) != r(1).has(p, q)),
        "rel.difference" => relation(r(0).level, |p, q| r(0).has(p, q) && !r(1).has(p, q)),
        "rel.complement" => relation(r(0).level, |p, q| !r(0).has(p, q)),
        "rel.is_zero" => Value::YesNo(r(0).is_empty()),
        "rel.test" => relation(fields, |p, q| p == q && field_is_one(p, n(0)) == (n(1) == 1)),
        "rel.zero" => relation(fields, |_, _| false),
        "rel.one" => relation(fields, |p, q| p == q),
        "top" => relation(fields, |_, _| true),
        "sequence" => relation(r(0).level, |p, q| {
            exists(r(0).level, &|between| r(0).has(p, between) && r(1).has(between, q))
        }),
        "star" => Value::Relation(r(0).star()),
        "flip" => relation(r(0).level, |p, q| r(0).has(q, p)),
        "assign" => relation(fields, |p, q| {
            let bit = 1 << n(0);
            q == if n(1) == 1 { p | bit } else { p & !bit }
        }),
        "naive_forward" => {
            relation(r(0).level, |_, q| exists(r(0).level, &|input| r(0).has(input, q)))
        }
        "backward" => relation(r(0).level, |p, _| r(0).has_output(p)),
        "relates" => Value::YesNo(r(0).has(n(1), n(2))),

        "fwd" => set(r(0).level, |q| exists(r(0).level, &|p| r(0).has(p, q))),
        "bwd" => set(r(0).level, |p| r(0).has_output(p)),
        "ifwd" => relation(s(0).level, |_, q| s(0).has(q)),
        "ibwd" => relation(s(0).level, |p, _| s(0).has(p)),
        "push" => set(s(0).level, |q| exists(s(0).level, &|p| s(0).has(p) && r(1).has(p, q))),
        "pull" => set(s(1).level, |p| exists(s(1).level, &|q| r(0).has(p, q) && s(1).has(q))),
        "diagonal" => relation(s(0).level, |p, q| p == q && s(0).has(p)),
        "has_image" => Value::YesNo(exists(s(0).level, &|p| s(0).has(p) && r(1).has_output(p))),
        "has_path" => Value::YesNo(exists(s(0).level, &|p| {
            s(0).has(p) && exists(s(0).level, &|q| r(1).has(p, q) && s(2).has(q))
        })),
        "first_path" => {
            let level = s(0).level;
            let all = 0..packets(level);
            let pairs = all.clone().flat_map(|p| all.clone().map(move |q| (p, q)));
            let related = |&(p, q): &(u32, u32)| s(0).has(p) && r(1).has(p, q) && s(2).has(q);
            Value::Pair(pairs.filter(related).min_by(|x, y| {
                field_order(level, x.0, y.0).then_with(|| field_order(level, x.1, y.1))
            }))
        }
        _ => panic!("no meaning for {name}"),
    }
}

fn set(level: u32, member: impl Fn(u32) -> bool) -> Value {
    Value::Set(PacketSet::of(level, member))
}

fn relation(level: u32, related: impl Fn(u32, u32) -> bool) -> Value {
    Value::Relation(PacketRelation::of(level, related))
}
