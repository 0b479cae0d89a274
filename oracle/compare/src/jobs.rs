//! Lists of jobs, drawn for stores that run out of places and for damaged memories: each by one call without a limit, by calls of no job and of one, and by calls
//! of any numbers of jobs. After each call the number run, the nodes added, all records and the memories are compared with the oracle's.

use crate::case::{Case, Difference};
use crate::damage;
use crate::lent::{Guard, WorkLengths};
use crate::library::Memories;
use crate::memory::{decode, lengths};
use crate::records::Records;
use oracle::answer::Refusal;
use oracle::draw::handles::Handles;
use oracle::draw::{jobs as draw, Part};
use oracle::jobs::{self, Job, MOST_JOBS, NOT_RUN, NUMBERED, REFUSED};
use oracle::random::Random;
use oracle::store::Store;
use packet_store::jobs as library;
use packet_store::raw;
use std::collections::BTreeMap;

/// The lists on each store of a round, on each damaged memory, and the ways in which a list is split.
const LISTS: usize = 8;
const DAMAGED_LISTS: usize = 2;
const SPLITS: usize = 2;
/// The fields of the larger stores, and of how many jobs at most each of the lists is that make them.
const LARGER: [u32; 4] = [7, 8, 16, 32];
const LARGER_JOBS: u32 = 60;

/// A limit that is none.
const ALL: u32 = u32::MAX;

/// A comparison under way, on memories and records so guarded.
struct Run {
    guard: Guard,
    random: Random,
    work: WorkLengths,
    counts: Counts,
}

/// What was compared.
#[derive(Default)]
struct Counts {
    lists: u64,
    /// The calls, and those that were declined, with 1 and with 5.
    calls: u64,
    declined: [u64; 6],
    /// The jobs that a call without a limit ran, those that it passed over, those refused, by the refusal's number, and the accepted ones of each operation.
    ran: u64,
    passed: u64,
    refused: [u64; 13],
    accepted: BTreeMap<&'static str, u64>,
    /// The calls that added nodes of one kind, and of both.
    grew: u64,
    grew_both: u64,
    /// The damaged memories, and those that are stores all the same.
    memories: u64,
    stores: u64,
}

/// What differs, by the call and the first record in which it shows.
type Differs = (String, String);

/// Compares so many rounds of what is drawn, on memories and records so guarded.
pub fn compare(seed: u64, rounds: u64, guard: Guard) -> Result<String, Difference> {
    let (random, work) = (Random::new(seed), WorkLengths::new());
    let mut run = Run { guard, random, work, counts: Counts::default() };
    for round in 1..=rounds {
        let parts: [(&str, fn(&mut Run) -> Result<(), Differs>); 2] =
            [("drawn stores", Run::drawn), ("damaged memories", Run::damaged)];
        for (part, compare) in parts {
            compare(&mut run).map_err(|(call, what)| Difference {
                context: format!("seed {seed}, round {round}, {part}"),
                call,
                what,
            })?;
        }
    }
    Ok(run.counts.summary(seed))
}

impl Run {
    /// Lists on a store that a drawn list of calls leaves, with few places free or with many.
    fn drawn(&mut self) -> Result<(), Differs> {
        let store = self.store();
        let (n, m) = store.counts();
        for _ in 0..LISTS {
            let free = self.random.pick(&[1, 4, 20, 100, 4096]);
            let places = [n, m].map(|held| (held + self.random.below(free)) as usize);
            let lengths = lengths(places[0], places[1], (1, 1));
            let mut case = Case::noise(lengths, self.guard, &mut self.random);
            case.encode(&store);
            let list = self.list(&store);
            self.every_way(&case, &list)?;
        }
        Ok(())
    }

    /// Lists for a store on its memories, which are damaged in many ways.
    fn damaged(&mut self) -> Result<(), Differs> {
        let store = damage::drawn(&mut self.random, Part::All);
        let whole = damage::lent(&store, self.guard, &mut self.random);
        for (damage, case) in damage::damages(&whole, &mut self.random) {
            let damaged = decode(case.relations.numbers(), case.sets.numbers());
            self.counts.memories += 1;
            self.counts.stores += u64::from(damaged.is_some());
            for _ in 0..DAMAGED_LISTS {
                let (mut list, limit) = (self.list(&store), self.limit());
                let ran = self.call(&mut case.clone(), &mut list, limit);
                ran.map_err(|(call, what)| (call, format!("{what}; damage: {damage}")))?;
            }
        }
        Ok(())
    }

    /// A store of at most six fields that drawn calls leave, or a larger one that drawn jobs leave.
    fn store(&mut self) -> Store {
        if !self.random.once_in(4) {
            return damage::drawn(&mut self.random, Part::All);
        }
        let fields = self.random.pick(&LARGER);
        let mut store = Store::new(fields, 4096, 4096).expect("the places suffice");
        for _ in 0..1 + self.random.below(3) {
            let len = self.random.below(LARGER_JOBS) as usize;
            let mut list = draw::list(len, &store, &Handles::new(&store), &mut self.random);
            jobs::run(&mut store, &mut list, ALL).expect("few jobs");
        }
        store
    }

    /// A list for a store: mostly short, at times of as many jobs as are accepted and some more.
    fn list(&mut self, store: &Store) -> Vec<Job> {
        let most = MOST_JOBS as u32;
        let len = match self.random.below(12) {
            0 => most - 1 + self.random.below(4),
            1 => self.random.below(most + 3),
            _ => self.random.below(24),
        };
        draw::list(len as usize, store, &Handles::new(store), &mut self.random)
    }

    /// A limit of a few jobs, of none, or of any number.
    fn limit(&mut self) -> u32 {
        match self.random.below(4) {
            0 => self.random.pick(&[0, 1, 255, 256, 257, ALL - 1, ALL]),
            _ => self.random.below(12),
        }
    }

    /// Makes a list, on the same memories each time, without a limit, in calls of no job and of one, and in calls of any numbers: all leave the same.
    fn every_way(&mut self, case: &Case, list: &[Job]) -> Result<(), Differs> {
        self.counts.lists += 1;
        let (mut whole, mut jobs) = (case.clone(), list.to_vec());
        let ran = self.call(&mut whole, &mut jobs, ALL)?;
        self.counts.enter(list, &jobs, ran);
        let Some(ran) = ran else {
            // Declined, whatever the limit.
            for limit in [0, 1, self.limit()] {
                self.call(&mut case.clone(), &mut jobs, limit)?;
            }
            return Ok(());
        };
        for way in 0..1 + SPLITS {
            let (mut case, mut parts) = (case.clone(), list.to_vec());
            let mut left = ran;
            while left > 0 {
                // The first way is a call of no job before each one of one job.
                let limits = if way == 0 { vec![0, 1] } else { vec![self.limit()] };
                for limit in limits {
                    left -= self.call(&mut case, &mut parts, limit)?.expect("it was accepted");
                }
            }
            let parts = (&parts, &case.relations, &case.sets);
            if parts != (&jobs, &whole.relations, &whole.sets) {
                let what = "several calls leave other than one".into();
                return Err((shown(list), what));
            }
        }
        Ok(())
    }

    /// One call, compared with the oracle's run of the same jobs on the store that the memories hold: how many it ran, none where it is declined.
    fn call(
        &mut self,
        case: &mut Case,
        list: &mut [Job],
        limit: u32,
    ) -> Result<Option<u32>, Differs> {
        let mut store = decode(case.relations.numbers(), case.sets.numbers());
        let before = list.to_vec();
        let (ran, added) = match &mut store {
            None => (Err(Refusal::NotAStore), (0, 0)),
            Some(store) => {
                let (n, m) = store.counts();
                let ran = jobs::run(store, list, limit);
                let after = store.counts();
                (ran, (after.0 - n, after.1 - m))
            }
        };
        self.counts.calls += 1;
        self.counts.grew += u64::from(added != (0, 0));
        self.counts.grew_both += u64::from(added.0 > 0 && added.1 > 0);
        if let Err(refusal) = ran {
            self.counts.declined[refusal as usize] += 1;
        }
        case.work = self.work.next(store.as_ref().map_or(0, |store| store.fields()), true);
        let mut records = Records::new(&before, self.guard);
        let after = store.as_ref().filter(|_| ran.is_ok());
        let (reply, memories) = case
            .lend(after, &mut self.random, |memories| run_jobs(memories, records.lent(), limit));
        let differs = |what| (format!("limit {limit} of {}", shown(&before)), what);
        let answer = ran.map_or_else(|refusal| (refusal as u64) << 32, u64::from);
        if reply.answer != answer {
            return Err(differs(format!("answer: {:#x}, the oracle's: {answer:#x}", reply.answer)));
        }
        if let Some(what) = records.difference(&Records::new(list, self.guard)) {
            return Err(differs(what));
        }
        if (reply.relations, reply.sets) != added {
            let counts = (reply.relations, reply.sets);
            return Err(differs(format!("added: {counts:?}, the oracle's: {added:?}")));
        }
        memories.map_err(differs)?;
        Ok(ran.ok())
    }
}

/// The library's call.
fn run_jobs(memories: Memories, jobs: &mut [library::Job], limit: u32) -> raw::Reply {
    let Memories { relations, sets, work } = memories;
    let (r, s, w) = (relations.as_mut_ptr(), sets.as_mut_ptr(), work.as_mut_ptr());
    let (j, j_len) = (jobs.as_mut_ptr(), jobs.len());
    // SAFETY: the pointers are those of slices of these lengths, none of which overlaps another.
    unsafe { raw::run_jobs(r, relations.len(), s, sets.len(), w, work.len(), j, j_len, limit) }
}

/// A list, one job after the other.
fn shown(list: &[Job]) -> String {
    let jobs: Vec<String> =
        list.iter().enumerate().map(|(place, job)| format!("#{place} {job}")).collect();
    format!("{} jobs: {}", list.len(), jobs.join("; "))
}

impl Counts {
    /// Enters what the oracle made of a whole list.
    fn enter(&mut self, before: &[Job], after: &[Job], ran: Option<u32>) {
        let Some(ran) = ran else { return };
        self.ran += u64::from(ran);
        self.passed += before.len() as u64 - u64::from(ran);
        let run = before.iter().zip(after).filter(|(before, _)| before.kind == NOT_RUN);
        for (_, job) in run {
            if job.kind == REFUSED {
                self.refused[job.value as usize] += 1;
            } else {
                let (name, _) = NUMBERED[job.operation as usize - 1];
                *self.accepted.entry(name).or_default() += 1;
            }
        }
    }

    fn summary(&self, seed: u64) -> String {
        let refused = [2, 3, 4, 5, 6, 11, 12].map(|n| format!("{n}: {}", self.refused[n]));
        let least = self.accepted.iter().min_by_key(|(_, times)| **times);
        let least =
            least.map_or(String::new(), |(name, times)| format!("{name} accepted {times} times"));
        format!(
            "AGREES seed {seed}: {} lists, {} jobs run, {} that were run before; refused {}; accepted of {} operations, {least} and the others no less; \
             {} calls, of which {} declined with 1 and {} with 5, {} that added nodes, {} of both kinds; {} damaged memories, {} of them stores",
            self.lists,
            self.ran,
            self.passed,
            refused.join(", "),
            self.accepted.len(),
            self.calls,
            self.declined[1],
            self.declined[5],
            self.grew,
            self.grew_both,
            self.memories,
            self.stores
        )
    }
}
