//! The two stores that are timed: the proved one in lent memory, and the Rust.

use oracle::policy::{self, Policy};
use packet_store::{relations_len, sets_len, PolicyRefusal, RELATION_COUNT};
use reference::spp::SPPstore;
use std::time::{Duration, Instant};

pub const MOST_PLACES: usize = 4096;

/// The memory that the proved store is lent, allocated once for many policies.
#[derive(Clone)]
pub struct Lent {
    pub relations: Vec<u32>,
    pub sets: Vec<u32>,
    pub work: Vec<u32>,
}

impl Lent {
    /// Room for so many nodes of each kind, and working memory of so many bytes.
    pub fn new(places: usize, work_bytes: usize) -> Lent {
        Lent {
            relations: vec![0; relations_len(places)],
            sets: vec![0; sets_len(places)],
            work: vec![0; work_bytes / 4],
        }
    }

    /// A policy's handle in a new store; reading the text is part of it.
    #[inline(never)]
    pub fn run(&mut self, fields: u32, text: &str) -> Result<u32, PolicyRefusal> {
        packet_store::new(&mut self.relations, &mut self.sets, &mut self.work, fields)?;
        self.policy(text)
    }

    /// A policy's handle in the store held.
    pub fn policy(&mut self, text: &str) -> Result<u32, PolicyRefusal> {
        let made =
            packet_store::policy(&mut self.relations, &self.sets, &mut self.work, text.as_bytes())?;
        Ok(made.handle)
    }

    /// How many relation nodes are held.
    pub fn count(&self) -> u32 {
        self.relations[RELATION_COUNT]
    }
}

/// A policy's handle in a new store of the Rust, whose memory is given back after the time is taken.
#[inline(never)]
pub fn run_rust(fields: u32, policy: &Policy) -> (SPPstore, u32) {
    let mut store = SPPstore::new(fields);
    let handle = policy::build(policy, &mut store).0;
    (store, handle)
}

/// What a piece of work gives, and its time.
pub fn timed<T>(work: impl FnOnce() -> T) -> (T, Duration) {
    let start = Instant::now();
    let given = std::hint::black_box(work());
    (given, start.elapsed())
}

pub fn median(numbers: impl Iterator<Item = f64>) -> f64 {
    let mut numbers: Vec<f64> = numbers.collect();
    numbers.sort_by(f64::total_cmp);
    numbers[numbers.len() / 2]
}
