//! Stores whose relations stand in another order than `new` and later calls leave, or lack some: `test` and
//! `assign` go by the handles at which `new` puts the identity and the empty relation, and a text with a `T` or a
//! sign makes the full and the empty relations where they are not held.

use crate::case::{Case, Difference};
use crate::damage;
use crate::lent::{Guard, WorkLengths, WORK};
use crate::library::Asked;
use crate::lists::{self, policy};
use crate::memory::{decode, lengths};
use crate::said::Said;
use oracle::answer::Answer;
use oracle::draw::Part;
use oracle::random::Random;
use oracle::store::Store;

/// Takes this many stores that drawn lists leave, each in an order of its own, and makes on each every
/// `test` and `assign` and short texts with every length of working memory, and then every call.
pub fn compare(seed: u64, count: usize) -> Result<String, Difference> {
    let mut random = Random::new(seed);
    let mut work = WorkLengths::new();
    let mut counts = damage::Counts::default();
    let mut texts = lists::Counts::default();
    let mut fields = 0;
    let mut constants = [0; 3];
    for number in 0..count {
        let case = reordered(&damage::drawn(&mut random, Part::All), &mut random);
        constants[in_place(&case)] += 1;
        let made = every_field(&case, &mut random).and_then(|calls| {
            fields += calls;
            every_sign(&case, &mut texts, &mut random)?;
            damage::every_call(case, Part::Policies, &mut counts, &mut work, &mut random)
        });
        made.map_err(|(call, what)| {
            let context = format!("seed {seed}, store {} in another order", number + 1);
            Difference { context, call, what }
        })?;
    }
    let [none, one, both] = constants;
    Ok(format!(
        "AGREES seed {seed}: {fields} calls of rel.test and assign, {} short texts, the pairs of {} compared, and {} \
         calls of all names on {count} stores in other orders, with the identity and the empty relation where new \
         puts them: {both}, with one of them: {one}, with neither: {none}",
        texts.policies, texts.walked, counts.calls
    ))
}

/// The store in another order, in memories with few free places or enough.
fn reordered(store: &Store, random: &mut Random) -> Case {
    let relations = other_order(store, random);
    let sets: Vec<[u32; 2]> = store.set_nodes().collect();
    let places = (relations.len() as u32 + random.pick(&[0, 2, 40]), sets.len() as u32 + 9);
    let whole = Store::with_nodes(store.fields(), places.0, places.1, &relations, &sets);
    let lengths = lengths(places.0 as usize, places.1 as usize, (1, 1));
    let mut case = Case::noise(lengths, Guard::Words, random);
    case.encode(&whole.unwrap_or_else(|_| panic!("another order is a store")));
    case
}

/// The store's relations, some of them left out, each after its children but else in any order. In every other
/// store the identity comes where `new` puts it, whatever came before, if its children did.
fn other_order(store: &Store, random: &mut Random) -> Vec<[u32; 4]> {
    let nodes: Vec<[u32; 4]> = store.relation_nodes().collect();
    let k = store.fields() as usize;
    let (empty, identity) = (k.wrapping_sub(1), (2 * k).wrapping_sub(1));
    let (no_empty, placed) = (random.once_in(3), random.once_in(2));
    // Once in so many a node is left out, or the next is any that may come; 0 for never.
    let missing = random.pick(&[0, 0, 20, 2]);
    let disorder = random.pick(&[0, 20, 3, 1]);
    let mut waiting: Vec<usize> = (0..nodes.len()).collect();
    waiting.retain(|_| missing == 0 || !random.once_in(missing));
    waiting.retain(|&node| !(no_empty && node == empty));
    let mut handles: Vec<Option<u32>> = vec![None; nodes.len() + 2];
    (handles[0], handles[1]) = (Some(0), Some(1));
    let mut order: Vec<[u32; 4]> = Vec::new();
    loop {
        let mut ready = waiting.clone();
        ready.retain(|&node| nodes[node].iter().all(|&x| handles[x as usize].is_some()));
        if placed && ready.len() > 1 && ready.contains(&identity) {
            let due = order.len() >= identity;
            ready.retain(|&node| (node == identity) == due);
        }
        let Some(&first) = ready.first() else { return order };
        let any = disorder != 0 && random.once_in(disorder);
        let node = if any { random.pick(&ready) } else { first };
        waiting.retain(|&other| other != node);
        handles[node + 2] = Some(order.len() as u32 + 2);
        order.push(nodes[node].map(|x| handles[x as usize].expect("a child that is held")));
    }
}

/// How many of the two constants stand where `new` puts them.
fn in_place(case: &Case) -> usize {
    let at = |name, handle| {
        let mut store = held(case);
        let n = store.counts().0;
        handle < n + 2 && store.ask(name, &[]) == Answer::Handle(handle)
    };
    let k = held(case).fields();
    usize::from(at("rel.zero", k + 1)) + usize::from(at("rel.one", 2 * k + 1))
}

/// The store that these memories hold.
fn held(case: &Case) -> Store {
    decode(case.relations.numbers(), case.sets.numbers()).expect("a store")
}

/// `test` and `assign` of every field and value, with every length of working memory.
fn every_field(case: &Case, random: &mut Random) -> Result<u64, (String, String)> {
    let mut calls = 0;
    for name in ["rel.test", "assign"] {
        for number in 0..2 * held(case).fields() {
            for work in WORK {
                let mut case = Case { work, ..case.clone() };
                let mut store = held(&case);
                let numbers = [number / 2, number % 2];
                let said = Said::of(&mut store, |store| store.ask(name, &numbers));
                let asked = Asked::Numbers(name, &numbers);
                let made = case.make(asked, &said, said.after(&store), random);
                made.map_err(|what| (asked.to_string(), what))?;
                calls += 1;
            }
        }
    }
    Ok(calls)
}

/// The texts of `short_texts`, with every length of working memory.
fn every_sign(
    case: &Case,
    counts: &mut lists::Counts,
    random: &mut Random,
) -> Result<(), (String, String)> {
    for text in short_texts(held(case).fields(), random) {
        for work in WORK {
            let mut case = Case { work, ..case.clone() };
            let made = policy(text.as_bytes(), &mut held(&case), &mut case, counts, random);
            made.map_err(|what| (Asked::Policy(text.as_bytes()).to_string(), what))?;
        }
    }
    Ok(())
}

/// `T`, and with each of the three signs `T` and an item, the item and `T`, the item twice, and it and another.
fn short_texts(fields: u32, random: &mut Random) -> Vec<String> {
    let mut texts = vec!["T".to_string()];
    for sign in ["&", "-", "^"] {
        let [one, other] = [(); 2].map(|()| item(fields, random));
        let pairs = [("T", &*one), (&one, "T"), (&one, &one), (&one, &other)];
        texts.extend(pairs.map(|(left, right)| format!("{left}{sign}{right}")));
    }
    texts
}

/// A constant, a test or an assignment.
fn item(fields: u32, random: &mut Random) -> String {
    if fields == 0 || random.once_in(3) {
        return random.pick(&["0", "1"]).into();
    }
    format!("x{}{}{}", random.below(fields), random.pick(&["=", ":="]), random.below(2))
}
