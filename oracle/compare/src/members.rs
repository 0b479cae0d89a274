//! `set.next`: all records of small levels by brute force; whole sets, packet by packet, by the walks down from their handles or by how they were made, with
//! other calls between the steps too; and records of any bits on damaged memories.

use crate::case::{Case, Difference};
use crate::damage;
use crate::lent::{Guard, WorkLengths};
use crate::library::{self, Asked, Memories};
use crate::memory::{decode, lengths};
use crate::said::Said;
use oracle::answer::{Answer, Refusal};
use oracle::call::Call;
use oracle::check::members::{each_set, Step};
use oracle::draw::handles::Handles;
use oracle::draw::{Draw, Part};
use oracle::next_member::moved;
use oracle::packet::{field_is_one, field_order};
use oracle::random::Random;
use oracle::store::Store;
use std::collections::BTreeSet;

/// All records are compared of the sets up to this level.
const ALL_TO: u32 = 3;
/// The levels up to which the packets of a set are found by walks.
const WALKED_TO: u32 = 8;
/// In a round, how many drawn sets are taken, and how many with other calls between.
const SETS: usize = 6;
const BETWEEN: usize = 3;
/// Of the other calls those before the sets are chosen, and those with the steps between them, at most.
const CALLS_BEFORE: usize = 40;
const CALLS: usize = 160;
/// The fields of the sets of few packets, the places of their store, for relations as many as `new` needs, and the most packets.
pub const MANY_FIELDS: u32 = 32;
const PLACES: (usize, usize) = (96, 4096);
const FEW: u32 = 24;
/// The working memory with which they are made.
const WORK: usize = 16384;
/// The records on each damaged memory.
const RECORDS: usize = 4;

/// A comparison under way.
struct Run {
    random: Random,
    work: WorkLengths,
    counts: Counts,
}

/// What was compared.
#[derive(Default)]
struct Counts {
    /// The steps that gave a packet, that gave the end, and that were refused, by the refusal's number.
    given: u64,
    ended: u64,
    refused: [u64; 6],
    /// The steps on all records of small levels.
    all: u64,
    drawn: Taken,
    few: Taken,
    between: Taken,
    /// The other calls, their names, and the steps that came after one.
    calls: u64,
    names: BTreeSet<&'static str>,
    after_call: u64,
    /// The damaged memories, and those that are stores all the same.
    memories: u64,
    stores: u64,
}

/// How many times a set was taken to its end, and the packets that came.
#[derive(Default)]
struct Taken {
    times: u64,
    packets: u64,
}

impl Taken {
    fn enter(&mut self, packets: &[u32]) {
        self.times += 1;
        self.packets += packets.len() as u64;
    }
}

/// A call that differs, and what differs.
type Differs = (String, String);

/// A part of a round.
type RoundPart = fn(&mut Run) -> Result<(), Differs>;

/// The parts of every round, with a word for each.
const ROUND: [(&str, RoundPart); 4] = [
    ("drawn sets", Run::drawn_sets),
    ("sets of few packets", Run::few_packets),
    ("calls between two steps", Run::calls_between),
    ("damaged memories", Run::damaged),
];

/// Compares all records of small levels, and then so many rounds of what is drawn.
pub fn compare(seed: u64, rounds: u64) -> Result<String, Difference> {
    let mut run =
        Run { random: Random::new(seed), work: WorkLengths::new(), counts: Counts::default() };
    for level in 0..=ALL_TO {
        run.all_records(level).map_err(|(call, what)| Difference {
            context: format!("all records of level {level}"),
            call,
            what,
        })?;
    }
    for round in 1..=rounds {
        for (part, compare) in ROUND {
            compare(&mut run).map_err(|(call, what)| Difference {
                context: format!("seed {seed}, round {round}, {part}"),
                call,
                what,
            })?;
        }
    }
    Ok(run.counts.summary(seed))
}

impl Run {
    /// One step on memories that hold a store of so many fields, or none. It must give this answer and leave the record as that
    /// moves it on.
    fn step(
        &mut self,
        case: &mut Case,
        fields: u32,
        record: &mut [u32; 4],
        answer: Answer,
    ) -> Result<(), Differs> {
        match answer {
            Answer::Member(Some(_)) => self.counts.given += 1,
            Answer::Member(None) => self.counts.ended += 1,
            _ => {
                self.counts.refused[answer.refusal().expect("a member, the end or a refusal")] += 1
            }
        }
        case.work = self.work.next(fields, false);
        let said = Said { answer, added: (0, 0) };
        let asked = Asked::Numbers("set.next", &*record);
        let made = case.make(asked, &said, None, &mut self.random);
        made.map_err(|what| (asked.to_string(), what))?;
        *record = moved(*record, &said.answer);
        Ok(())
    }

    /// Takes a set to its end: these packets must come, and then the end for ever.
    fn whole(
        &mut self,
        case: &mut Case,
        fields: u32,
        mut record: [u32; 4],
        packets: &[u32],
    ) -> Result<(), Differs> {
        for answer in answers(packets) {
            self.step(case, fields, &mut record, answer)?;
        }
        Ok(())
    }

    /// All sets of a level with all records.
    fn all_records(&mut self, level: u32) -> Result<(), Differs> {
        let mut found = Ok(());
        each_set(level, |store, steps| {
            let mut case = holding(store, &mut self.random);
            for &Step { mut record, ref answer } in steps {
                if found.is_ok() {
                    self.counts.all += 1;
                    found = self.step(&mut case, level, &mut record, answer.clone());
                }
            }
        });
        found
    }

    /// Drawn sets of a store of at most 8 fields, each from its beginning, from any packet of its level and from the level's last.
    fn drawn_sets(&mut self) -> Result<(), Differs> {
        let fields = self.random.below(WALKED_TO + 1);
        let (store, handles) = drawn(fields, &mut self.random);
        let mut case = holding(&store, &mut self.random);
        for _ in 0..SETS {
            let (handle, packets) = self.walked(&store, &handles);
            let level = store.set_level(handle).expect("a held set");
            self.counts.drawn.enter(&packets);
            self.whole(&mut case, fields, [handle, 0, 0, 0], &packets)?;
            for last in [self.random.below(1 << level), (1 << level) - 1] {
                let left = after(level, last, &packets);
                self.counts.drawn.enter(&left);
                let given = 1 + self.random.below(9);
                self.whole(&mut case, fields, [handle, last, given, 0], &left)?;
            }
        }
        Ok(())
    }

    /// A set of a level of at most 8, and its packets in field order, by the walks down from it.
    fn walked(&mut self, store: &Store, handles: &Handles) -> (u32, Vec<u32>) {
        let most = store.fields().min(WALKED_TO);
        let level = if self.random.once_in(3) { self.random.below(most + 1) } else { most };
        let handle = handles.pick_set(level, &mut self.random);
        let nodes: Vec<[u32; 2]> = store.set_nodes().collect();
        // A handle's parity is kept in its children.
        let down = |at: u32, packet: u32, field: u32| {
            nodes[at as usize / 2 - 1][usize::from(field_is_one(packet, field))] ^ (at & 1)
        };
        let has = |&packet: &u32| (0..level).fold(handle, |at, field| down(at, packet, field)) == 1;
        let mut packets: Vec<u32> = (0..1 << level).filter(has).collect();
        packets.sort_by(|&p, &q| field_order(level, p, q));
        (handle, packets)
    }

    /// A set of few packets of 32 fields, made by the library, from its beginning and from packets in it, beside them and others.
    fn few_packets(&mut self) -> Result<(), Differs> {
        let (mut case, set, packets) = few(&mut self.random);
        self.counts.few.enter(&packets);
        self.whole(&mut case, MANY_FIELDS, [set, 0, 0, 0], &packets)?;
        let one = self.random.pick(&packets);
        let any = self.random.bits() as u32;
        for last in [one, beside(one, -1), beside(one, 1), any, 0, u32::MAX] {
            let left = after(MANY_FIELDS, last, &packets);
            self.counts.few.enter(&left);
            self.whole(&mut case, MANY_FIELDS, [set, last, 1, 0], &left)?;
        }
        Ok(())
    }

    /// Sets in a store that a drawn list goes on with: after each of its calls one of them is taken a step further.
    fn calls_between(&mut self) -> Result<(), Differs> {
        let mut list = Draw::new(self.random.bits(), Part::Policies);
        let Some(Call::New { fields, relation_places, set_places }) = list.next() else {
            panic!("a list begins with new");
        };
        let mut store = Store::new(fields, relation_places, set_places).expect("an accepted new");
        let places = lengths(relation_places as usize, set_places as usize, (1, 1));
        let mut case = Case::noise(places, Guard::Words, &mut self.random);
        case.encode(&store);
        // Up to the next store; a `new` that is refused is left out too.
        let calls: Vec<Call> = list
            .take_while(|call| !begins_store(call))
            .filter(|call| !matches!(call, Call::New { .. }))
            .take(CALLS_BEFORE + CALLS)
            .collect();
        let (before, between) = calls.split_at(calls.len().min(CALLS_BEFORE));
        for call in before {
            self.other(call, &mut store, &mut case)?;
        }
        let handles = Handles::new(&store);
        let mut taken: Vec<([u32; 4], _)> = (0..BETWEEN)
            .map(|_| {
                let (handle, packets) = self.walked(&store, &handles);
                self.counts.between.enter(&packets);
                ([handle, 0, 0, 0], answers(&packets))
            })
            .collect();
        for (number, call) in between.iter().enumerate() {
            self.other(call, &mut store, &mut case)?;
            let (record, answers) = &mut taken[number % BETWEEN];
            if let Some(answer) = answers.next() {
                self.counts.after_call += 1;
                self.step(&mut case, fields, record, answer)?;
            }
        }
        for (mut record, answers) in taken {
            for answer in answers {
                self.step(&mut case, fields, &mut record, answer)?;
            }
        }
        Ok(())
    }

    /// Makes another call, which is compared as in a list.
    fn other(&mut self, call: &Call, store: &mut Store, case: &mut Case) -> Result<(), Differs> {
        let (asked, name, on_relations) = match call {
            Call::Operation(operation, numbers) => {
                let asked = Asked::Numbers(operation.name, numbers);
                (asked, operation.name, library::on_relations(operation))
            }
            Call::Policy(text) => (Asked::Policy(text), "policy", true),
            Call::New { .. } => panic!("new is left out"),
        };
        self.counts.calls += 1;
        self.counts.names.insert(name);
        case.work = self.work.next(store.fields(), on_relations);
        let said = Said::of(store, |store| call.make(store));
        let made = case.make(asked, &said, said.after(store), &mut self.random);
        made.map_err(|what| (asked.to_string(), what))
    }

    /// Records of any bits on a store that is damaged in many ways: where the memories are no store, each is refused with 1.
    fn damaged(&mut self) -> Result<(), Differs> {
        let store = damage::drawn(&mut self.random, Part::Sets);
        let whole = damage::lent(&store, Guard::Words, &mut self.random);
        for (damage, mut case) in damage::damages(&whole, &mut self.random) {
            let mut store = decode(case.relations.numbers(), case.sets.numbers());
            self.counts.memories += 1;
            self.counts.stores += u64::from(store.is_some());
            for _ in 0..RECORDS {
                let mut record = self.any_record(store.as_ref());
                let (fields, answer) = match &mut store {
                    Some(store) => (store.fields(), store.ask("set.next", &record)),
                    None => (0, Answer::Refused(Refusal::NotAStore)),
                };
                let made = self.step(&mut case, fields, &mut record, answer);
                made.map_err(|(call, what)| (call, format!("{what}; damage: {damage}")))?;
            }
        }
        Ok(())
    }

    /// Numbers that may belong to the store, or any.
    fn any_record(&mut self, store: Option<&Store>) -> [u32; 4] {
        let (sets, fields) = store.map_or((3, 3), |store| (store.counts().1, store.fields()));
        [2 * sets + 4, (1 << fields.min(31)) + 2, 2, 2].map(|limit| {
            if self.random.once_in(3) {
                self.random.bits() as u32
            } else {
                self.random.below(limit)
            }
        })
    }
}

/// The answers to a set taken to its end, with the end met once more.
fn answers(packets: &[u32]) -> impl Iterator<Item = Answer> {
    let given = packets.iter().copied().map(Some).collect::<Vec<_>>();
    given.into_iter().chain([None; 2]).map(Answer::Member)
}

/// The packets that come after this one, of packets in field order.
fn after(level: u32, last: u32, packets: &[u32]) -> Vec<u32> {
    packets.iter().copied().filter(|&packet| field_order(level, last, packet).is_lt()).collect()
}

/// A store of so many fields with drawn sets.
pub fn drawn(fields: u32, random: &mut Random) -> (Store, Handles) {
    let mut store = Store::new(fields, 3 * fields, 4096).expect("the places suffice");
    let mut handles = Handles::new(&store);
    for _ in 0..fields * random.below(40) {
        let level = random.below(fields);
        let children = [(); 2].map(|()| handles.pick_set(level, random));
        store.ask("set.mk", &children);
        handles.grow(&store);
    }
    (store, handles)
}

/// A store of 32 fields, a set of few packets that the library made in it, and these packets in field order.
pub fn few(random: &mut Random) -> (Case, u32, Vec<u32>) {
    let mut packets = vec![];
    for _ in 0..1 + random.below(FEW) {
        let near = packets.last().copied().unwrap_or(0);
        packets.push(match random.below(6) {
            0 => random.pick(&[0, 1, 1 << 31, u32::MAX >> 1, u32::MAX - 1, u32::MAX]),
            1 => near ^ 1 << random.below(MANY_FIELDS),
            2 => beside(near, 1),
            _ => random.bits() as u32,
        });
    }
    let lengths = lengths(PLACES.0, PLACES.1, (1, 1));
    let mut case = Case::noise(lengths, Guard::Words, random);
    handle(&mut case, "new", &[MANY_FIELDS]);
    let mut set = handle(&mut case, "set.zero", &[]);
    for &packet in &packets {
        let only = only(&mut case, packet);
        set = handle(&mut case, "set.union", &[set, only]);
    }
    packets.sort_by(|&p, &q| field_order(MANY_FIELDS, p, q));
    packets.dedup();
    (case, set, packets)
}

/// The packet of 32 fields that stands so many places after this one in field order, in which packets go by their number with the bits reversed.
fn beside(packet: u32, places: i32) -> u32 {
    packet.reverse_bits().wrapping_add_signed(places).reverse_bits()
}

/// Memories with a store and no place left.
pub fn holding(store: &Store, random: &mut Random) -> Case {
    let (n, m) = store.counts();
    let mut case = Case::noise(lengths(n as usize, m as usize, (1, 1)), Guard::Words, random);
    case.encode(store);
    case
}

/// Whether a call is a `new` that is accepted.
fn begins_store(call: &Call) -> bool {
    match call {
        Call::New { fields, relation_places, set_places } => {
            Store::new(*fields, *relation_places, *set_places).is_ok()
        }
        _ => false,
    }
}

/// The set of one packet of 32 fields, from its last field up.
fn only(case: &mut Case, packet: u32) -> u32 {
    let (mut set, mut empty) = (1, 0);
    for field in (0..MANY_FIELDS).rev() {
        let children = if field_is_one(packet, field) { [empty, set] } else { [set, empty] };
        set = handle(case, "set.mk", &children);
        empty = handle(case, "set.mk", &[empty, empty]);
    }
    set
}

/// The handle that a call of the library gives.
fn handle(case: &mut Case, name: &str, numbers: &[u32]) -> u32 {
    let memories = Memories {
        relations: case.relations.numbers_mut(),
        sets: case.sets.numbers_mut(),
        work: &mut vec![0; WORK],
    };
    match library::make(Asked::Numbers(name, numbers), memories).answer {
        Answer::Handle(handle) => handle,
        other => panic!("{name} {numbers:?} answers {other}"),
    }
}

impl Counts {
    fn summary(&self, seed: u64) -> String {
        let refused = [1, 2, 5].map(|number| format!("{number}: {}", self.refused[number]));
        let taken = |taken: &Taken| format!("{} times, {} packets", taken.times, taken.packets);
        format!(
            "AGREES seed {seed}: {} steps that gave a packet, {} the end, refused {}; {} of them on all records of all sets of levels 0 to {ALL_TO}; \
             sets taken to their ends: drawn ones up to level {WALKED_TO} {}, those of few packets of {MANY_FIELDS} fields {}, with other calls between {}; \
             {} steps after another call, {} such calls of {} names; {} steps on {} damaged memories, {} of them stores",
            self.given,
            self.ended,
            refused.join(", "),
            self.all,
            taken(&self.drawn),
            taken(&self.few),
            taken(&self.between),
            self.after_call,
            self.calls,
            self.names.len(),
            self.memories * RECORDS as u64,
            self.memories,
            self.stores
        )
    }
}
