//! A stand-in for `rustc-hash` 2: what the reference uses of it, on 64-bit targets.

use std::collections::HashMap;
use std::hash::{BuildHasher, Hasher};

pub type FxHashMap<K, V> = HashMap<K, V, FxBuildHasher>;

#[derive(Clone, Copy, Default)]
pub struct FxBuildHasher;

impl BuildHasher for FxBuildHasher {
    type Hasher = FxHasher;

    fn build_hasher(&self) -> FxHasher {
        FxHasher::default()
    }
}

#[derive(Clone, Copy, Default)]
pub struct FxHasher {
    hash: u64,
}

impl Hasher for FxHasher {
    /// The reference never hashes bytes; this only completes the trait.
    fn write(&mut self, bytes: &[u8]) {
        for &byte in bytes {
            self.write_u64(u64::from(byte));
        }
    }

    fn write_u32(&mut self, number: u32) {
        self.write_u64(u64::from(number));
    }

    fn write_u64(&mut self, number: u64) {
        let sum = self.hash.wrapping_add(number);
        self.hash = sum.wrapping_mul(0xf1357aea2e62a9c5);
    }

    fn finish(&self) -> u64 {
        self.hash.rotate_left(26)
    }
}

#[cfg(test)]
mod tests {
    use super::*;

    #[test]
    fn adds_multiplies_and_rotates_once_at_the_end() {
        let mut hasher = FxHasher::default();
        assert_eq!(hasher.finish(), 0);
        hasher.write_u64(1);
        assert_eq!(hasher.finish(), 0xf1357aea2e62a9c5_u64.rotate_left(26));
        hasher.write_u32(2);
        let second = 0xf1357aea2e62a9c5_u64.wrapping_add(2);
        let second = second.wrapping_mul(0xf1357aea2e62a9c5);
        assert_eq!(hasher.finish(), second.rotate_left(26));
    }

    #[test]
    fn a_map_finds_what_it_holds() {
        let mut map = FxHashMap::default();
        for key in 0..1000_u64 {
            map.insert(key << 32, key);
        }
        assert!((0..1000).all(|key| map.get(&(key << 32)) == Some(&key)));
        assert_eq!(map.get(&1), None);
    }
}
