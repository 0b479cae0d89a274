//! `first_path`: all triples of small levels by brute force, and drawn ones of 8, 16 and 32 fields by what the Rust says of
//! the pair and of everything before it.

use crate::case::{Case, Difference};
use crate::lent::Guard;
use crate::library::{self, Asked, Memories};
use crate::memory::lengths;
use crate::rules::{self, Rules};
use crate::said::Said;
use oracle::answer::Answer;
use oracle::check::pairs::each_relation;
use oracle::draw::{Draw, Part};
use oracle::packet::field_is_one;
use oracle::random::Random;
use oracle::replay::empty_store;
use oracle::store::Store;
use std::collections::BTreeMap;

/// The lengths of working memory that each triple is asked with; without memo only where there are few fields.
const WORK: [usize; 5] = [4096, 16384, 40000, 65536, 262144];
const LITTLE_WORK: [usize; 3] = [0, 7, 64];
const FEW_FIELDS: u32 = 8;

/// The fields of the stores.
const FIELDS: [u32; 3] = [8, 16, 32];

/// Stores with more sets than this have no room for the sets that are made beside them.
const MOST_SETS: u32 = 2500;

/// What was compared.
#[derive(Default)]
struct Counts {
    triples: u64,
    calls: u64,
    none: u64,
    /// The pairs whose input is not the first packet of p, and whose output is not the first of q.
    later_input: u64,
    later_output: u64,
    /// The triples on stores of each number of fields, and at levels below it.
    fields: BTreeMap<u32, u64>,
    below: u64,
    most_nodes: u32,
}

/// All sets, relations and sets of a level, with so much working memory.
pub fn all(level: u32, work: usize) -> Result<String, Difference> {
    let mut random = Random::new(1);
    let (mut triples, mut pairs) = (0_u64, 0_u64);
    let mut found = Ok(());
    let mut lent = vec![0; work];
    each_relation(level, |store, asked| {
        let (n, m) = store.counts();
        let lengths = lengths(n as usize, m as usize, (1, 1));
        let mut case = Case::noise(lengths, Guard::Words, &mut random);
        case.encode(store);
        let before = case.clone();
        for triple in asked {
            if found.is_err() {
                return;
            }
            triples += 1;
            pairs += u64::from(triple.pair.is_some());
            lent.fill(random.bits() as u32);
            let memories = Memories {
                relations: case.relations.numbers_mut(),
                sets: case.sets.numbers_mut(),
                work: &mut lent,
            };
            let call = Asked::Numbers("first_path", &triple.handles);
            let given = library::make(call, memories).answer;
            let meant = Answer::Pair(triple.pair);
            let kept = case.relations == before.relations && case.sets == before.sets;
            if given != meant || !kept || lent.iter().any(|&number| number != 0) {
                let context = format!("level {level}, relations {:?}", before.relations.numbers());
                let what =
                    format!("answer: {given}, not {meant}, or a memory is not as it should be");
                found = Err(Difference { context, call: call.to_string(), what });
            }
        }
    });
    found.map(|()| {
        format!(
            "AGREES level {level}, working memory {work}: {triples} triples, {pairs} with a pair"
        )
    })
}

/// Asks for so many pairs on stores of 8, 16 and 32 fields: half on what drawn lists leave, half on tables and sets over a few fields.
pub fn compare(seed: u64, count: u64) -> Result<String, Difference> {
    let mut counts = Counts::default();
    let mut random = Random::new(!seed);
    let mut store = empty_store();
    let ask = |store: &Store, handles: [u32; 3], counts: &mut Counts, random: &mut Random| {
        one(store, handles, counts, random).map_err(|what| {
            let (n, m) = store.counts();
            let k = store.fields();
            let triple = counts.triples;
            let context =
                format!("seed {seed}, triple {triple}, store of {k} fields with {n} and {m} nodes");
            let call = Asked::Numbers("first_path", &handles).to_string();
            Difference { context, call, what }
        })
    };
    for call in Draw::new(seed, Part::Policies) {
        if 2 * counts.triples >= count {
            break;
        }
        let refused = call.make(&mut store).refusal().is_some();
        if refused || !FIELDS.contains(&store.fields()) || store.counts().1 > MOST_SETS {
            continue;
        }
        if let Some(handles) = triple(&store, &mut random) {
            ask(&store, handles, &mut counts, &mut random)?;
        }
    }
    while counts.triples < count {
        let fields = random.pick(&FIELDS);
        let Rules { store, relations, sets } = rules::draw(fields, &mut random);
        for _ in 0..(count - counts.triples).min(30) {
            let handles = [random.pick(&sets), random.pick(&relations), random.pick(&sets)];
            ask(&store, handles, &mut counts, &mut random)?;
        }
    }
    Ok(counts.summary(seed))
}

/// A set, a relation and a set of one level, mostly of the highest, often among the last made.
pub fn triple(store: &Store, random: &mut Random) -> Option<[u32; 3]> {
    let (n, m) = store.counts();
    let fields = store.fields();
    let level = if random.once_in(4) { random.below(fields + 1) } else { fields };
    let of_level = |end: u32, level_of: &dyn Fn(u32) -> Option<u32>| -> Vec<u32> {
        (0..end).filter(|&handle| level_of(handle) == Some(level)).collect()
    };
    let relations = of_level(n + 2, &|handle| store.relation_level(handle));
    let sets = of_level(2 * (m + 1), &|handle| store.set_level(handle));
    if relations.is_empty() || sets.is_empty() {
        return None;
    }
    let mut pick = |handles: &[u32]| {
        let some = if random.once_in(2) { handles.len() } else { handles.len().min(8) };
        random.pick(&handles[handles.len() - some..])
    };
    Some([pick(&sets), pick(&relations), pick(&sets)])
}

/// Asks for one pair with every length of working memory.
fn one(
    store: &Store,
    handles: [u32; 3],
    counts: &mut Counts,
    random: &mut Random,
) -> Result<(), String> {
    let (n, m) = store.counts();
    let fields = store.fields();
    let [p, a, q] = handles;
    let level = store.relation_level(a).expect("a held relation");
    let mut beside = Beside::new(store, level);
    let said = Said::of(&mut beside.store, |store| store.ask("first_path", &handles));
    counts.triples += 1;
    *counts.fields.entry(fields).or_default() += 1;
    counts.below += u64::from(level < fields);
    counts.most_nodes = counts.most_nodes.max(n);
    let mut case = Case::noise(lengths(n as usize, m as usize, (1, 1)), Guard::Words, random);
    case.encode(store);
    let little: &[usize] = if level <= FEW_FIELDS { &LITTLE_WORK } else { &[] };
    for &work in WORK.iter().chain(little) {
        case.work = work;
        counts.calls += 1;
        case.make(Asked::Numbers("first_path", &handles), &said, None, random)
            .map_err(|what| format!("working memory {work}: {what}"))?;
    }
    let Answer::Pair(pair) = said.answer else {
        return Err(format!("the oracle answers {}", said.answer));
    };
    let Some((x, y)) = pair else {
        counts.none += 1;
        return beside.expect(false, "has_path", &handles);
    };
    // The pair is one, and nothing before it is.
    beside.expect(true, "relates", &[a, x, y])?;
    let (only_x, before_x) = (beside.only(x), beside.before(x));
    let (only_y, before_y) = (beside.only(y), beside.before(y));
    beside.expect(true, "intersects", &[p, only_x])?;
    beside.expect(true, "intersects", &[q, only_y])?;
    let earlier = beside.make("set.intersect", &[p, before_x]);
    beside.expect(false, "has_path", &[earlier, a, q])?;
    counts.later_input += u64::from(!beside.yes("set.is_zero", &[earlier]));
    let earlier = beside.make("set.intersect", &[q, before_y]);
    beside.expect(false, "has_path", &[only_x, a, earlier])?;
    counts.later_output += u64::from(!beside.yes("set.is_zero", &[earlier]));
    Ok(())
}

/// A copy of a store, to make sets of one level in.
struct Beside {
    store: Store,
    level: u32,
}

impl Beside {
    fn new(store: &Store, level: u32) -> Beside {
        let relations: Vec<[u32; 4]> = store.relation_nodes().collect();
        let sets: Vec<[u32; 2]> = store.set_nodes().collect();
        let copy = Store::with_nodes(store.fields(), 4096, 4096, &relations, &sets);
        Beside { store: copy.unwrap_or_else(|_| panic!("a store")), level }
    }

    fn make(&mut self, name: &str, arguments: &[u32]) -> u32 {
        match self.store.ask(name, arguments) {
            Answer::Handle(handle) => handle,
            other => panic!("{name} {arguments:?} answers {other}"),
        }
    }

    fn yes(&mut self, name: &str, arguments: &[u32]) -> bool {
        self.store.ask(name, arguments) == Answer::YesNo(true)
    }

    fn expect(&mut self, yes: bool, name: &str, arguments: &[u32]) -> Result<(), String> {
        let answer = self.store.ask(name, arguments);
        if answer == Answer::YesNo(yes) {
            return Ok(());
        }
        Err(format!("{name} {arguments:?} answers {answer} on the Rust"))
    }

    /// The set of this packet alone.
    fn only(&mut self, packet: u32) -> u32 {
        self.walk(packet, 1, |below, empty, _, one| match one {
            true => [empty, below],
            false => [below, empty],
        })
    }

    /// The set of the packets before this one.
    fn before(&mut self, packet: u32) -> u32 {
        self.walk(packet, 0, |below, empty, full, one| match one {
            true => [full, below],
            false => [below, empty],
        })
    }

    /// A set made from its last field up: the children from what is below, the empty and the full set there, and the
    /// packet's field.
    fn walk(&mut self, packet: u32, last: u32, children: Children) -> u32 {
        let (mut below, mut empty, mut full) = (last, 0, 1);
        for field in (0..self.level).rev() {
            let made = children(below, empty, full, field_is_one(packet, field));
            below = self.make("set.mk", &made);
            empty = self.make("set.mk", &[empty, empty]);
            full = self.make("set.mk", &[full, full]);
        }
        below
    }
}

type Children = fn(u32, u32, u32, bool) -> [u32; 2];

impl Counts {
    fn summary(&self, seed: u64) -> String {
        let fields: Vec<String> =
            self.fields.iter().map(|(fields, triples)| format!("{fields}: {triples}")).collect();
        format!(
            "AGREES seed {seed}: {} triples in {} calls, by fields {}, {} of them at a level below, at most {} relation \
             nodes; none: {}, a pair with a later input than the first of its set: {}, with a later output: {}",
            self.triples,
            self.calls,
            fields.join(", "),
            self.below,
            self.most_nodes,
            self.none,
            self.later_input,
            self.later_output
        )
    }
}
