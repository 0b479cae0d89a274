//! Damaged memory: one number changed or some numbers cut off, then every call with any arguments.

use crate::case::{Case, Difference};
use crate::lent::{Guard, WorkLengths};
use crate::library::{self, Asked};
use crate::memory::{decode, headed, lengths, places_in};
use crate::said::Said;
use oracle::answer::{Answer, Refusal};
use oracle::call::Call;
use oracle::draw::{texts, Draw, Part};
use oracle::operations::{self, Operation, Sort};
use oracle::random::Random;
use oracle::replay::empty_store;
use oracle::store::Store;

/// The numbers of one memory that are damaged: all of them, or as many at random.
const PLACES: usize = 60;

/// What was compared.
#[derive(Default)]
pub struct Counts {
    pub calls: u64,
    memories: u64,
    /// Of the memories, those that are a store all the same.
    stores: u64,
    used_up: u64,
    /// The calls that added nodes.
    grew: u64,
}

impl Counts {
    fn enter(&mut self, said: &Said) {
        self.calls += 1;
        self.used_up += u64::from(said.answer == Answer::Refused(Refusal::UsedUp));
        self.grew += u64::from(said.grew());
    }
}

/// Damages this many stores, each in many ways, in memories so guarded.
pub fn compare(seed: u64, count: usize, part: Part, guard: Guard) -> Result<String, Difference> {
    let mut counts = Counts::default();
    let mut random = Random::new(seed);
    let mut work = WorkLengths::new();
    for number in 0..count {
        let store = drawn(&mut random, part);
        let whole = lent(&store, guard, &mut random);
        for (damage, case) in damages(&whole, &mut random) {
            every_call(case, part, &mut counts, &mut work, &mut random).map_err(
                |(call, what)| {
                    let context = format!("seed {seed}, store {}, damage: {damage}", number + 1);
                    Difference { context, call, what }
                },
            )?;
        }
    }
    let Counts { calls, memories, stores, used_up, grew } = counts;
    Ok(format!(
        "AGREES seed {seed}: {calls} calls on {memories} damaged memories, {stores} of them stores, \
         {used_up} refused with 6, {grew} that added nodes"
    ))
}

/// A small store that a drawn list leaves.
pub fn drawn(random: &mut Random, part: Part) -> Store {
    let list = random.bits();
    let calls = 1 + random.below(120) as usize;
    let mut store = empty_store();
    for call in Draw::new(list, part).take(calls) {
        if !matches!(call, Call::New { fields: 7.., .. }) {
            call.make(&mut store);
        }
    }
    store
}

/// Memories that hold the store, with few free places or none, and some numbers beyond the last.
pub fn lent(store: &Store, guard: Guard, random: &mut Random) -> Case {
    let (n, m) = store.counts();
    let places = (n + random.below(3), m + random.below(6));
    let beyond = (random.below(4) as usize, random.below(2) as usize);
    let lengths = lengths(places.0 as usize, places.1 as usize, beyond);
    let mut case = Case::noise(lengths, guard, random);
    case.encode(store);
    case
}

/// The memories as they are, with one number changed, and cut, each with a word on what was done.
pub fn damages(whole: &Case, random: &mut Random) -> Vec<(String, Case)> {
    let mut all = vec![("none".into(), whole.clone())];
    for relations in [true, false] {
        let kind = if relations { "relation" } else { "set" };
        let part = |case: &Case| if relations { case.relations.clone() } else { case.sets.clone() };
        let len = part(whole).numbers().len();
        for at in chosen(len, random) {
            let old = part(whole).numbers()[at];
            for new in [old.wrapping_add(1), old.wrapping_sub(1), other(old, random)] {
                let mut case = whole.clone();
                let memory = if relations { &mut case.relations } else { &mut case.sets };
                memory.numbers_mut()[at] = new;
                all.push((format!("{kind} number {at} is {new} for {old}"), case));
            }
        }
        for left in [0, 1, 2, len.saturating_sub(2), len.saturating_sub(1)] {
            let mut case = whole.clone();
            let memory = if relations { &mut case.relations } else { &mut case.sets };
            *memory = memory.cut(left.min(len));
            all.push((format!("{kind} memory cut to {left} numbers"), case));
        }
    }
    all
}

/// The places to damage: the first ones, the last ones and some between.
fn chosen(len: usize, random: &mut Random) -> Vec<usize> {
    if len <= PLACES {
        return (0..len).collect();
    }
    let some = (0..PLACES).map(|i| match i {
        0..8 => i,
        8..20 => len - 1 - (i - 8),
        _ => random.below(len as u32) as usize,
    });
    some.collect()
}

/// Another number: a constant, a small handle, one with another sign, or any.
fn other(old: u32, random: &mut Random) -> u32 {
    match random.below(5) {
        0 => old ^ 1,
        1 => random.below(2),
        2 => random.below(old.saturating_add(2)),
        3 => random.pick(&[32, 33, 4096, 4097, 1 << 31, u32::MAX]),
        _ => random.bits() as u32,
    }
}

/// Makes every call of a part, and `new`, each on these memories.
pub fn every_call(
    case: Case,
    part: Part,
    counts: &mut Counts,
    work: &mut WorkLengths,
    random: &mut Random,
) -> Result<(), (String, String)> {
    let (relations, sets) = (case.relations.numbers(), case.sets.numbers());
    let fields = decode(relations, sets).map(|store| store.fields());
    counts.memories += 1;
    counts.stores += u64::from(fields.is_some());
    for operation in library::CALLS.iter().filter_map(|call| operations::find(call.0)) {
        if !of_part(operation, part) {
            continue;
        }
        let mut case = case.clone();
        case.work = work.next(fields.unwrap_or(0), library::on_relations(operation));
        let mut store = decode(case.relations.numbers(), case.sets.numbers());
        let arguments = arguments(operation, store.as_ref(), random);
        let said = match &mut store {
            Some(store) => Said::of(store, |store| store.call(operation, &arguments)),
            None => Said::refused(Refusal::NotAStore),
        };
        counts.enter(&said);
        let asked = Asked::Numbers(operation.name, &arguments);
        let after = store.as_ref().and_then(|store| said.after(store));
        let made = case.make(asked, &said, after, random);
        made.map_err(|what| (asked.to_string(), what))?;
    }
    if part == Part::Policies {
        policy(case.clone(), counts, work, random)?;
    }
    begin(case, counts, random)
}

/// Makes a policy call on these memories.
fn policy(
    mut case: Case,
    counts: &mut Counts,
    work: &mut WorkLengths,
    random: &mut Random,
) -> Result<(), (String, String)> {
    let mut store = decode(case.relations.numbers(), case.sets.numbers());
    let fields = store.as_ref().map_or(2, |store| store.fields());
    case.work = work.next(fields, true);
    let text = texts::text(fields, random);
    let said = match &mut store {
        Some(store) => Said::of(store, |store| store.policy(&text)),
        None => Said::refused(Refusal::NotAStore),
    };
    counts.enter(&said);
    let asked = Asked::Policy(&text);
    let after = store.as_ref().and_then(|store| said.after(store));
    let made = case.make(asked, &said, after, random);
    made.map_err(|what| (asked.to_string(), what))
}

/// Makes a `new` with any number of fields on these memories, which may hold anything.
fn begin(mut case: Case, counts: &mut Counts, random: &mut Random) -> Result<(), (String, String)> {
    let fields = if random.once_in(4) { random.below(40) } else { random.below(4) };
    let (relations, sets) = (case.relations.numbers(), case.sets.numbers());
    let places = places_in(relations, sets);
    let opened = if fields <= 32 && !headed(relations, sets) {
        Err(Refusal::NotAStore)
    } else {
        Store::new(fields, places.0 as u32, places.1 as u32)
    };
    let (said, after) = match opened {
        Ok(mut store) => (Said::opened(&mut store), Some(store)),
        Err(refusal) => (Said::refused(refusal), None),
    };
    counts.enter(&said);
    let numbers = [fields];
    let asked = Asked::Numbers("new", &numbers);
    let made = case.make(asked, &said, after.as_ref(), random);
    made.map_err(|what| (asked.to_string(), what))
}

/// Whether an operation is of this part.
fn of_part(operation: &Operation, part: Part) -> bool {
    let within = |list: &[Operation]| list.iter().any(|other| other.name == operation.name);
    match part {
        Part::All | Part::Policies => true,
        Part::Sets => within(&operations::SETS),
        Part::Relations => within(&operations::RELATIONS),
        Part::Both => within(&operations::SETS) || within(&operations::RELATIONS),
    }
}

/// Arguments of any worth: mostly handles that are held, fields and values that are there.
fn arguments(operation: &Operation, store: Option<&Store>, random: &mut Random) -> Vec<u32> {
    let (n, m) = store.map_or((3, 3), |store| store.counts());
    let fields = store.map_or(3, |store| store.fields());
    let argument = |sort: &Sort| {
        if random.once_in(10) {
            return random.pick(&[0, 1, 33, 1 << 31, u32::MAX - 1, u32::MAX]);
        }
        match sort {
            Sort::Set => random.below(2 * m + 4),
            Sort::Relation => random.below(n + 3),
            Sort::Field => random.below(fields + 1),
            Sort::Value | Sort::Mark => random.below(3),
            Sort::Packet => random.below(1 << fields.min(31)),
        }
    };
    operation.sorts.iter().map(argument).collect()
}
