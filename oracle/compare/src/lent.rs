//! Memory to lend, with guard words around it that no call may change.

use oracle::random::Random;

/// The guard words before the numbers, and as many after them.
#[derive(Clone, Copy, PartialEq, Eq)]
pub enum Guard {
    Words = 8,
    /// None: the numbers are a heap block of their own, whose ends valgrind watches.
    Bare = 0,
}

#[derive(Clone, PartialEq, Eq)]
pub struct Lent {
    words: Vec<u32>,
    guard: Guard,
}

impl Lent {
    /// This many numbers, all of them noise.
    pub fn noise(len: usize, guard: Guard, random: &mut Random) -> Lent {
        let words = (0..len + 2 * guard as usize).map(|_| random.bits() as u32).collect();
        Lent { words, guard }
    }

    pub fn guard(&self) -> Guard {
        self.guard
    }

    pub fn numbers(&self) -> &[u32] {
        let guard = self.guard as usize;
        &self.words[guard..self.words.len() - guard]
    }

    pub fn numbers_mut(&mut self) -> &mut [u32] {
        let guard = self.guard as usize;
        let end = self.words.len() - guard;
        &mut self.words[guard..end]
    }

    /// The first numbers alone, with the guard words after them.
    pub fn cut(&self, len: usize) -> Lent {
        let guard = self.guard as usize;
        let end = self.words.len() - guard;
        Lent { words: [&self.words[..guard + len], &self.words[end..]].concat(), ..*self }
    }

    /// Where two memories of one length differ first, and the numbers there.
    pub fn difference(&self, other: &Lent) -> Option<String> {
        let at = (0..self.words.len()).find(|&at| self.words[at] != other.words[at])?;
        let place = at as isize - self.guard as isize;
        Some(format!("number {place} is {}, not {}", self.words[at], other.words[at]))
    }
}

/// The lengths of working memory that calls are lent in turn.
pub struct WorkLengths(usize);

pub const WORK: [usize; 6] = [0, 1, 7, 4096, 16384, 40000];

/// The fields up to which any of them is lent: above, a call without memo may take very long.
const ANY_WORK_FOR_SETS: u32 = 8;
const ANY_WORK_FOR_RELATIONS: u32 = 3;

impl WorkLengths {
    pub fn new() -> WorkLengths {
        WorkLengths(0)
    }

    /// The next length, for a call on sets or on relations in a store of this many fields.
    pub fn next(&mut self, fields: u32, on_relations: bool) -> usize {
        self.0 += 1;
        let any = if on_relations { ANY_WORK_FOR_RELATIONS } else { ANY_WORK_FOR_SETS };
        let lengths = if fields <= any { &WORK[..] } else { &WORK[3..] };
        lengths[self.0 % lengths.len()]
    }
}
