//! A store with some relay tables and sets over a few of its fields, so that they meet: what a rule tests or assigns, a set often asks for otherwise.

use oracle::answer::Answer;
use oracle::random::Random;
use oracle::store::Store;

/// How many relations and sets a store gets.
const RELATIONS: usize = 6;
const SETS: usize = 8;

/// A store, and handles of level k in it.
pub struct Rules {
    pub store: Store,
    pub relations: Vec<u32>,
    pub sets: Vec<u32>,
}

/// A store of this many fields, some of the first and some of any named in it.
pub fn draw(fields: u32, random: &mut Random) -> Rules {
    let mut store = Store::new(fields, 4096, 4096).expect("the places suffice");
    let named: Vec<u32> = (0..6)
        .map(|i| if i < 3 { random.below(fields.min(4)) } else { random.below(fields) })
        .collect();
    let mut relations = vec![];
    while relations.len() < RELATIONS {
        let rules: Vec<String> = (0..2 + random.below(4)).map(|_| rule(&named, random)).collect();
        if let Answer::Handle(handle) = store.policy(rules.join("+").as_bytes()) {
            relations.push(handle);
        }
    }
    let sets = (0..SETS).map(|_| set(&mut store, &named, random)).collect();
    Rules { store, relations, sets }
}

/// One to four tests, then at most three assignments.
fn rule(named: &[u32], random: &mut Random) -> String {
    let (tests, assignments) = (1 + random.below(4), random.below(4));
    let mut items = vec![];
    for (sign, count) in [("=", tests), (":=", assignments)] {
        for _ in 0..count {
            items.push(format!("x{}{sign}{}", random.pick(named), random.below(2)));
        }
    }
    items.join(";")
}

/// One to three times the packets that pass one to four tests, together, or all others.
fn set(store: &mut Store, named: &[u32], random: &mut Random) -> u32 {
    let mut ask = |name: &str, arguments: &[u32]| match store.ask(name, arguments) {
        Answer::Handle(handle) => handle,
        other => panic!("{name} {arguments:?} answers {other}"),
    };
    let mut union = ask("set.zero", &[]);
    for _ in 0..1 + random.below(3) {
        let mut passing = ask("set.one", &[]);
        for _ in 0..1 + random.below(4) {
            let test = ask("set.test", &[random.pick(named), random.below(2)]);
            passing = ask("set.intersect", &[passing, test]);
        }
        union = ask("set.union", &[union, passing]);
    }
    if random.once_in(4) {
        union = ask("set.complement", &[union]);
    }
    union
}
