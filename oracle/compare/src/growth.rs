//! How the time of a call grows with the nodes of a full store.

use crate::library::{self, Asked, Memories};
use crate::memory::{encode, lengths};
use oracle::answer::{Answer, Refusal};
use oracle::random::Random;
use oracle::store::Store;
use std::time::Instant;

/// The nodes of the stores measured.
const SIZES: [usize; 4] = [512, 1024, 2048, 4096];
const FIELDS: u32 = 8;
/// 64 KiB.
const WORK: usize = 16384;
/// Each time is the least of so many.
const TRIES: usize = 15;

/// A full store of sets, and operands of level k for a call whose answer is held and one whose is not.
struct Full {
    relations: Vec<u32>,
    sets: Vec<u32>,
    operands: [u32; 2],
    others: [u32; 2],
}

/// The arguments of a call on such a store.
type Arguments = fn(&Full) -> Vec<u32>;

/// A table of the times, each with its ratio to the one before.
pub fn measure() -> String {
    let stores: Vec<Full> = SIZES.iter().map(|&size| full(size)).collect();
    let mut table = format!("{:<24}{}\n", "set nodes", SIZES.map(|x| format!("{x:>20}")).concat());
    let calls: [(&str, &str, Arguments); 8] = [
        ("set.is_zero", "set.is_zero", |_| vec![2]),
        ("set.zero", "set.zero", |_| vec![]),
        ("set.mk", "set.mk", |_| vec![0, 0]),
        ("set.test", "set.test", |_| vec![0, 1]),
        ("intersects", "intersects", |full| full.operands.to_vec()),
        ("set.union", "set.union", |full| full.operands.to_vec()),
        ("set.union, 6", "set.union", |full| full.others.to_vec()),
        ("set.xor, 6", "set.xor", |full| full.others.to_vec()),
    ];
    for (title, name, arguments) in calls {
        table += &format!("{title:<24}");
        let mut before = None;
        for full in &stores {
            let arguments = arguments(full);
            let nanoseconds = time(full, name, &arguments);
            let ratio = before.map_or(String::new(), |b| format!("x{:.2}", nanoseconds / b));
            table += &format!("{:>11.1} us{ratio:>6}", nanoseconds / 1000.0);
            before = Some(nanoseconds);
        }
        table += "\n";
    }
    table + "GROWTH: each ratio is to the store of half as many nodes"
}

/// The least time of a call, in nanoseconds.
fn time(full: &Full, name: &str, arguments: &[u32]) -> f64 {
    let mut relations = full.relations.clone();
    let mut sets = full.sets.clone();
    let mut work = vec![0; WORK];
    let mut least = f64::INFINITY;
    for _ in 0..TRIES {
        let start = Instant::now();
        let memories = Memories { relations: &mut relations, sets: &mut sets, work: &mut work };
        let given = std::hint::black_box(library::make(Asked::Numbers(name, arguments), memories));
        least = least.min(start.elapsed().as_nanos() as f64);
        assert!(given.added.unwrap_or((0, 0)) == (0, 0), "a call on a full store adds nothing");
    }
    assert!(sets == full.sets, "a call on a full store adds nothing");
    least
}

/// A store with as many set nodes as places: some tests and a union first, then random nodes.
fn full(size: usize) -> Full {
    let mut random = Random::new(size as u64);
    let mut store = Store::new(FIELDS, 3 * FIELDS, size as u32).expect("places for new");
    let test = |store: &mut Store, field| handle(store.ask("set.test", &[field, 1]));
    let [a, b, c] = [1, 4, 6].map(|field| test(&mut store, field));
    test(&mut store, 0);
    let x = handle(store.ask("set.xor", &[a, b]));
    let y = handle(store.ask("set.xor", &[b, c]));
    handle(store.ask("set.union", &[x, y]));
    // Random nodes on the lower levels first, so that those above have children to choose from.
    let mut levels = vec![vec![]; FIELDS as usize + 1];
    let mut entered = 0;
    while (store.counts().1 as usize) < size {
        while let Some(level) = store.set_level(entered) {
            levels[level as usize].push(entered);
            entered += 1;
        }
        let level = random.below(FIELDS) as usize;
        let children = [random.pick(&levels[level]), random.pick(&levels[level])];
        store.ask("set.mk", &children);
    }
    while let Some(level) = store.set_level(entered) {
        levels[level as usize].push(entered);
        entered += 1;
    }
    let (relations_len, sets_len) = lengths(3 * FIELDS as usize, size, (0, 0));
    let (mut relations, mut sets) = (vec![0; relations_len], vec![0; sets_len]);
    encode(&store, &mut relations, &mut sets);
    let others = std::iter::repeat_with(|| {
        [random.pick(&levels[FIELDS as usize]), random.pick(&levels[FIELDS as usize])]
    })
    .find(|others| {
        let used_up = Answer::Refused(Refusal::UsedUp);
        store.ask("set.union", others) == used_up && store.ask("set.xor", others) == used_up
    });
    Full { relations, sets, operands: [x, y], others: others.expect("an endless list") }
}

fn handle(answer: Answer) -> u32 {
    match answer {
        Answer::Handle(handle) => handle,
        other => panic!("no handle: {other}"),
    }
}
