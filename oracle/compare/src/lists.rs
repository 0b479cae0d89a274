//! Random lists of calls: after each call the answer and both memories are compared.

use crate::case::{Case, Difference};
use crate::lent::{Guard, WorkLengths};
use crate::library::{self, Asked};
use crate::meaning;
use crate::memory::lengths;
use crate::said::Said;
use oracle::answer::{Answer, Refusal};
use oracle::call::Call;
use oracle::draw::{Draw, Part};
use oracle::random::Random;
use oracle::replay::empty_store;
use oracle::store::Store;
use std::collections::BTreeMap;

/// What was compared.
#[derive(Default)]
pub struct Counts {
    calls: u64,
    pub stores: u64,
    refused: [u64; 11],
    /// The calls that added nodes.
    grew: u64,
    /// The accepted calls of each name.
    accepted: BTreeMap<&'static str, u64>,
    /// The calls on stores of each number of fields.
    fields: BTreeMap<u32, u64>,
    most_nodes: (u32, u32),
    /// The policies, and those of them whose pairs were compared.
    pub policies: u64,
    pub walked: u64,
}

/// Draws a list as `oracle draw` does and makes its calls on the library and on the oracle.
pub fn compare(seed: u64, count: usize, part: Part) -> Result<String, Difference> {
    let mut counts = Counts::default();
    let mut noise = Random::new(!seed);
    let mut work = WorkLengths::new();
    let mut store = empty_store();
    let mut case = Case::noise(lengths(0, 0, (0, 0)), Guard::Words, &mut noise);
    case.encode(&store);
    for (number, call) in Draw::new(seed, part).take(count).enumerate() {
        let on_relations = match &call {
            Call::Operation(operation, _) => library::on_relations(operation),
            Call::Policy(_) => true,
            Call::New { .. } => false,
        };
        case.work = work.next(store.fields(), on_relations);
        let made = match &call {
            Call::New { fields, relation_places, set_places } => {
                let places = (*relation_places, *set_places);
                open(*fields, places, &mut store, &mut case, &mut counts, &mut noise)
            }
            Call::Operation(operation, arguments) => {
                let said = Said::of(&mut store, |store| store.call(operation, arguments));
                counts.enter(operation.name, &said, &store);
                let asked = Asked::Numbers(operation.name, arguments);
                case.make(asked, &said, said.after(&store), &mut noise)
            }
            Call::Policy(text) => policy(text, &mut store, &mut case, &mut counts, &mut noise),
        };
        made.map_err(|what| {
            let (n, m) = store.counts();
            let k = store.fields();
            let context = format!(
                "seed {seed}, call {}, store of {k} fields with {n} and {m} nodes, working memory {}",
                number + 1,
                case.work
            );
            let call = match &call {
                Call::Policy(text) => Asked::Policy(text).to_string(),
                call => call.to_string(),
            };
            Difference { context, call, what }
        })?;
    }
    Ok(counts.summary(seed))
}

/// Judges a policy; in a store of few fields its handle must relate the pairs that the text means.
pub fn policy(
    text: &[u8],
    store: &mut Store,
    case: &mut Case,
    counts: &mut Counts,
    noise: &mut Random,
) -> Result<(), String> {
    let said = Said::of(store, |store| store.policy(text));
    counts.enter("policy", &said, store);
    counts.policies += 1;
    case.make(Asked::Policy(text), &said, said.after(store), noise)?;
    let Answer::Handle(handle) = said.answer else { return Ok(()) };
    if store.fields() > meaning::MOST_FIELDS {
        return Ok(());
    }
    counts.walked += 1;
    meaning::compare(text, handle, store.fields(), case)
}

/// Makes a `new` on memories full of noise that have these places; where it is accepted they take
/// the place of those before.
fn open(
    fields: u32,
    places: (u32, u32),
    store: &mut Store,
    case: &mut Case,
    counts: &mut Counts,
    noise: &mut Random,
) -> Result<(), String> {
    let beyond = (noise.below(4) as usize, noise.below(2) as usize);
    let lengths = lengths(places.0 as usize, places.1 as usize, beyond);
    let mut fresh = Case::noise(lengths, Guard::Words, noise);
    fresh.work = case.work;
    match Store::new(fields, places.0, places.1) {
        Ok(mut opened) => {
            let said = Said::opened(&mut opened);
            counts.stores += 1;
            counts.enter("new", &said, &opened);
            fresh.make(Asked::Numbers("new", &[fields]), &said, Some(&opened), noise)?;
            *store = opened;
            *case = fresh;
            Ok(())
        }
        Err(refusal) => {
            let said = Said::refused(refusal);
            counts.enter("new", &said, store);
            let asked = Asked::Numbers("new", &[fields]);
            fresh.make(asked, &said, None, noise)?;
            // Too many fields are refused on the memories in use too.
            if refusal == Refusal::OutOfRange {
                case.make(asked, &said, None, noise)?;
            }
            Ok(())
        }
    }
}

impl Counts {
    /// Enters a call that the oracle answered, and the store after it.
    fn enter(&mut self, name: &'static str, said: &Said, store: &Store) {
        self.calls += 1;
        self.grew += u64::from(said.grew());
        match said.answer.refusal() {
            Some(number) => self.refused[number] += 1,
            None => *self.accepted.entry(name).or_default() += 1,
        }
        *self.fields.entry(store.fields()).or_default() += 1;
        let (n, m) = store.counts();
        self.most_nodes = (self.most_nodes.0.max(n), self.most_nodes.1.max(m));
    }

    pub fn summary(&self, seed: u64) -> String {
        let refused: Vec<String> =
            (1..11).map(|number| format!("{number}: {}", self.refused[number])).collect();
        let fields: Vec<String> =
            self.fields.iter().map(|(fields, calls)| format!("{fields}: {calls}")).collect();
        let least = self.accepted.iter().min_by_key(|(_, calls)| **calls);
        let (name, times) = least.expect("a list begins with an accepted new");
        format!(
            "AGREES seed {seed}: {} calls of {} names, {name} accepted {times} times and the others no less, {} stores, \
             refused {}, {} that added nodes, calls by fields {}, at most {} and {} nodes; {} policies, the pairs of {} compared",
            self.calls,
            self.accepted.len(),
            self.stores,
            refused.join(", "),
            self.grew,
            fields.join(", "),
            self.most_nodes.0,
            self.most_nodes.1,
            self.policies,
            self.walked
        )
    }
}
