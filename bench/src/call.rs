//! One call on a store that is held, as the proved store and as the Rust make it.

use crate::sides::{timed, Lent};
use oracle::policy::{build, judge};
use packet_store::{Made, Refusal, FIELDS, RELATION_COUNT, RELATION_HEAD, SET_COUNT, SET_HEAD};
use reference::sp::{SPnode, SP};
use reference::spp::{SPPnode, SPPstore, SPP};
use std::time::Duration;

/// A call's name, how the library makes it and how the Rust does; either gives a handle, or 1 for yes and 0 for no.
pub struct Call {
    pub name: String,
    ours: Box<dyn Fn(&mut Lent) -> u32>,
    rust: Box<dyn Fn(&mut SPPstore) -> u32>,
}

/// How the library and the Rust make a relation from two.
type OurBinary = fn(&mut [u32], &[u32], &mut [u32], u32, u32) -> Result<Made, Refusal>;
type RustBinary = fn(&mut SPPstore, SPP, SPP) -> SPP;

/// What a call gives, and the relation nodes and set nodes that are held after it.
type Outcome = [u32; 3];

impl Call {
    pub fn new(
        name: impl Into<String>,
        ours: impl Fn(&mut Lent) -> u32 + 'static,
        rust: impl Fn(&mut SPPstore) -> u32 + 'static,
    ) -> Call {
        Call { name: name.into(), ours: Box::new(ours), rust: Box::new(rust) }
    }

    /// A relation made from two others.
    pub fn binary(name: &str, ours: OurBinary, rust: RustBinary, a: u32, b: u32) -> Call {
        Call::new(
            name,
            move |m| ours(&mut m.relations, &m.sets, &mut m.work, a, b).expect("fits").handle,
            move |s| rust(s, SPP(a), SPP(b)).0,
        )
    }

    /// A policy; the Rust has its text as it was read before.
    pub fn policy(name: impl Into<String>, fields: u32, text: String) -> Call {
        let policy = judge(text.as_bytes(), fields).expect("the text is a policy");
        Call::new(name, move |m| m.policy(&text).expect("fits"), move |s| build(&policy, s).0)
    }

    /// The time of the call on either side, whose outcomes have to agree; the nodes stay as they were.
    pub fn time(&self, lent: &mut Lent) -> [Duration; 2] {
        let nodes = (lent.relations.clone(), lent.sets.clone());
        let (given, our_time) = timed(|| (self.ours)(lent));
        let ours = [given, lent.relations[RELATION_COUNT], lent.sets[SET_COUNT]];
        (lent.relations, lent.sets) = nodes;
        let (rust, rust_time) = self.rust(lent);
        assert_eq!(ours, rust, "{}", self.name);
        [our_time, rust_time]
    }

    /// The outcome in the Rust, which begins with the nodes lent and empty memo tables, and its time.
    pub fn rust(&self, lent: &Lent) -> (Outcome, Duration) {
        let mut store = rust_store(lent);
        let (given, time) = timed(|| (self.rust)(&mut store));
        let [relations, sets] = [store.nodes().len(), store.sp.nodes().len()];
        ([given, relations as u32, sets as u32], time)
    }
}

/// A store of the Rust with the nodes lent.
fn rust_store(lent: &Lent) -> SPPstore {
    let relations = lent.relations[RELATION_HEAD..]
        .chunks_exact(4)
        .take(lent.relations[RELATION_COUNT] as usize);
    let sets = lent.sets[SET_HEAD..].chunks_exact(2).take(lent.sets[SET_COUNT] as usize);
    let relation =
        |x: &[u32]| SPPnode { x00: SPP(x[0]), x01: SPP(x[1]), x10: SPP(x[2]), x11: SPP(x[3]) };
    let set = |x: &[u32]| SPnode { x0: SP(x[0]), x1: SP(x[1]) };
    let (relations, sets): (Vec<_>, Vec<_>) =
        (relations.map(relation).collect(), sets.map(set).collect());
    SPPstore::with_nodes(lent.relations[FIELDS], &relations, &sets)
}
