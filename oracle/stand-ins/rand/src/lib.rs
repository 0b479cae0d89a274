//! A stand-in for `rand`: what the reference uses of it.
//! The oracle calls nothing random of the reference, so any fixed stream will do.

use std::sync::atomic::{AtomicU64, Ordering};

static STATE: AtomicU64 = AtomicU64::new(0);

pub struct Rng;

pub fn rng() -> Rng {
    Rng
}

pub fn random<T: Random>() -> T {
    T::from_bits(rng().next())
}

impl Rng {
    /// The next number of splitmix64.
    fn next(&mut self) -> u64 {
        const STEP: u64 = 0x9e3779b97f4a7c15;
        let mut x = STATE.fetch_add(STEP, Ordering::Relaxed).wrapping_add(STEP);
        x = (x ^ (x >> 30)).wrapping_mul(0xbf58476d1ce4e5b9);
        x = (x ^ (x >> 27)).wrapping_mul(0x94d049bb133111eb);
        x ^ (x >> 31)
    }
}

pub trait Random {
    fn from_bits(bits: u64) -> Self;
}

impl Random for bool {
    fn from_bits(bits: u64) -> Self {
        bits >> 63 == 1
    }
}

/// From 0 up to but not including 1.
impl Random for f64 {
    fn from_bits(bits: u64) -> Self {
        (bits >> 11) as f64 / (1_u64 << 53) as f64
    }
}

pub mod seq {
    pub trait SliceRandom {
        fn shuffle(&mut self, rng: &mut super::Rng);
    }

    impl<T> SliceRandom for [T] {
        fn shuffle(&mut self, rng: &mut super::Rng) {
            for last in (1..self.len()).rev() {
                self.swap(last, (rng.next() % (last as u64 + 1)) as usize);
            }
        }
    }
}

#[cfg(test)]
mod tests {
    use super::seq::SliceRandom;
    use super::*;

    #[test]
    fn both_truth_values_come() {
        let drawn: Vec<bool> = (0..100).map(|_| random()).collect();
        assert!(drawn.contains(&true) && drawn.contains(&false));
    }

    #[test]
    fn fractions_are_below_one() {
        assert!((0..100).all(|_| (0.0..1.0).contains(&random::<f64>())));
    }

    #[test]
    fn a_shuffle_keeps_the_elements() {
        let mut numbers: Vec<u32> = (0..50).collect();
        numbers.shuffle(&mut rng());
        assert_ne!(numbers, (0..50).collect::<Vec<_>>());
        numbers.sort();
        assert_eq!(numbers, (0..50).collect::<Vec<_>>());
    }
}
