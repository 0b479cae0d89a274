//! A stand-in for `hashbrown`: what the reference uses of `HashTable`.
//! Open addressing with linear probing; at most three quarters of the slots are taken.

#[derive(Debug)]
pub struct HashTable<T> {
    slots: Vec<Option<T>>,
    taken: usize,
}

impl<T> HashTable<T> {
    pub const fn new() -> Self {
        HashTable { slots: Vec::new(), taken: 0 }
    }

    /// The slot of the value that `eq` accepts, or the free one where it would go.
    pub fn entry(
        &mut self,
        hash: u64,
        eq: impl FnMut(&T) -> bool,
        hasher: impl Fn(&T) -> u64,
    ) -> Entry<'_, T> {
        if 4 * (self.taken + 1) > 3 * self.slots.len() {
            self.grow(hasher);
        }
        let place = self.place(hash, eq);
        Entry { slot: &mut self.slots[place], taken: &mut self.taken }
    }

    fn place(&self, hash: u64, mut eq: impl FnMut(&T) -> bool) -> usize {
        let mask = self.slots.len() - 1;
        let mut place = hash as usize & mask;
        while let Some(value) = &self.slots[place] {
            if eq(value) {
                break;
            }
            place = (place + 1) & mask;
        }
        place
    }

    fn grow(&mut self, hasher: impl Fn(&T) -> u64) {
        let larger = (2 * self.slots.len()).max(8);
        let old = std::mem::take(&mut self.slots);
        self.slots.resize_with(larger, || None);
        for value in old.into_iter().flatten() {
            let place = self.place(hasher(&value), |_| false);
            self.slots[place] = Some(value);
        }
    }
}

impl<T> Default for HashTable<T> {
    fn default() -> Self {
        Self::new()
    }
}

pub struct Entry<'a, T> {
    slot: &'a mut Option<T>,
    taken: &'a mut usize,
}

impl<'a, T> Entry<'a, T> {
    pub fn or_insert_with(self, default: impl FnOnce() -> T) -> OccupiedEntry<'a, T> {
        if self.slot.is_none() {
            *self.taken += 1;
        }
        OccupiedEntry { value: self.slot.get_or_insert_with(default) }
    }
}

pub struct OccupiedEntry<'a, T> {
    value: &'a T,
}

impl<T> OccupiedEntry<'_, T> {
    pub fn get(&self) -> &T {
        self.value
    }
}

#[cfg(test)]
mod tests {
    use super::*;

    /// Inserts `key` with the number `value` unless it is held; returns the number held.
    fn number(
        table: &mut HashTable<(u64, u64)>,
        hash: fn(u64) -> u64,
        key: u64,
        value: u64,
    ) -> u64 {
        let entry = table.entry(hash(key), |held| held.0 == key, |held| hash(held.0));
        entry.or_insert_with(|| (key, value)).get().1
    }

    fn keeps_the_first(hash: fn(u64) -> u64) {
        let mut table = HashTable::new();
        for key in 0..500 {
            assert_eq!(number(&mut table, hash, key, key + 7), key + 7);
        }
        for key in 0..500 {
            assert_eq!(number(&mut table, hash, key, 0), key + 7);
        }
        assert_eq!(table.taken, 500);
    }

    #[test]
    fn keeps_the_first_value_as_it_grows() {
        keeps_the_first(|key| key.wrapping_mul(0x9e3779b97f4a7c15).rotate_left(26));
    }

    #[test]
    fn keeps_the_first_value_where_all_hashes_collide() {
        keeps_the_first(|_| u64::MAX);
    }
}
