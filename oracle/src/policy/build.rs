//! A policy's operations on the reference: operands first, left before right.

use super::{Mix, Policy};
use reference::spp::{SPPstore, SPP};

pub fn build(policy: &Policy, store: &mut SPPstore) -> SPP {
    match policy {
        Policy::Zero => store.zero_at_k(),
        Policy::One => store.one_at_k(),
        Policy::Full => store.top_at_k(),
        Policy::Test { field, value, .. } => store.test(*field, *value == 1),
        Policy::Assign { field, value, .. } => store.assign(*field, *value == 1),
        Policy::Not { operand, .. } => {
            let operand = build(operand, store);
            let one = store.one_at_k();
            store.difference(one, operand)
        }
        Policy::Sum(left, right) => {
            let (left, right) = (build(left, store), build(right, store));
            store.union(left, right)
        }
        Policy::Mix(mix, left, right) => {
            let (left, right) = (build(left, store), build(right, store));
            match mix {
                Mix::Both => store.intersect(left, right),
                Mix::Minus => store.difference(left, right),
                Mix::Either => store.xor(left, right),
            }
        }
        Policy::Product(left, right) => {
            let (left, right) = (build(left, store), build(right, store));
            store.sequence(left, right)
        }
        Policy::Star(operand) => {
            let operand = build(operand, store);
            store.star(operand)
        }
    }
}
