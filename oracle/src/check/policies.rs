//! What a policy means, on plain relations.

use super::meaning::{meaning, Value};
use super::plain::PacketRelation;
use crate::policy::{Mix, Policy};

/// The pairs that a policy relates, of packets of so many fields.
pub fn text_relation(policy: &Policy, fields: u32) -> PacketRelation {
    let of = |policy: &Policy| Value::Relation(text_relation(policy, fields));
    let numbers = |field: &u32, value: &u32| [Value::Number(*field), Value::Number(*value)];
    let means = match policy {
        Policy::Zero => meaning("rel.zero", fields, &[]),
        Policy::One => meaning("rel.one", fields, &[]),
        Policy::Full => meaning("top", fields, &[]),
        Policy::Test { field, value, .. } => meaning("rel.test", fields, &numbers(field, value)),
        Policy::Assign { field, value, .. } => meaning("assign", fields, &numbers(field, value)),
        Policy::Not { operand, .. } => {
            let operand = text_relation(operand, fields);
            return PacketRelation::of(fields, |p, q| p == q && !operand.has(p, p));
        }
        Policy::Sum(left, right) => meaning("rel.union", fields, &[of(left), of(right)]),
        Policy::Mix(mix, left, right) => {
            let name = match mix {
                Mix::Both => "rel.intersect",
                Mix::Minus => "rel.difference",
                Mix::Either => "rel.xor",
            };
            meaning(name, fields, &[of(left), of(right)])
        }
        Policy::Product(left, right) => meaning("sequence", fields, &[of(left), of(right)]),
        Policy::Star(operand) => meaning("star", fields, &[of(operand)]),
    };
    match means {
        Value::Relation(relation) => relation,
        other => panic!("{other:?} is no relation"),
    }
}
