//! One call on stores of growing size: its time beside that of the entry check alone and of the Rust.

use crate::call::Call;
use crate::fill;
use crate::sides::{Lent, MOST_PLACES};
use crate::tables;
use oracle::random::Random;
use packet_store as library;
use reference::spp::{SPPstore, SPP};

/// The relation nodes of the stores.
const SIZES: [u32; 3] = [100, 1000, 4000];
const FIELDS: u32 = 8;
const TRIES: usize = 101;

/// A store of the least size, before other nodes are added, and the calls that are made on it.
struct Base {
    lent: Lent,
    calls: Vec<Call>,
}

/// The calls on relations of level k. The first adds nothing, so its time is that of the entry check and of clearing the working memory.
fn calls(a: u32, b: u32, text: String) -> Vec<Call> {
    vec![
        Call::new(
            "is_zero",
            move |m| {
                let zero = library::relation_is_zero(&m.relations, &m.sets, &mut m.work, a);
                zero.expect("held").into()
            },
            move |s| s.is_zero(SPP(a)).into(),
        ),
        Call::binary("union", library::relation_union, SPPstore::union, a, b),
        Call::binary("sequence", library::relation_sequence, SPPstore::sequence, a, b),
        Call::new(
            "star",
            move |m| {
                let star = library::relation_star(&mut m.relations, &m.sets, &mut m.work, a);
                star.expect("fits").handle
            },
            move |s| s.star(SPP(a)).0,
        ),
        Call::policy("policy", FIELDS, text),
    ]
}

/// A table for one working memory.
pub fn table(seed: u64, work_bytes: usize) -> String {
    let mut random = Random::new(seed);
    let mut base = base(&mut random, work_bytes);
    let mut times = vec![];
    for size in SIZES {
        fill::relations(&mut base.lent, size, &mut random);
        times.push(least(&mut base));
    }
    let title = format!("k = {FIELDS}, working memory {} KiB", work_bytes >> 10);
    let mut table =
        format!("{title}\ncall        nodes  ours, us  growth   check  Rust, us   ratio\n");
    for (row, Call { name, .. }) in base.calls.iter().enumerate() {
        let mut before = None;
        for (size, times) in SIZES.iter().zip(&times) {
            let [ours, rust] = times[row];
            let growth = before.map_or(String::new(), |before| format!("x{:.1}", ours / before));
            let check = 100.0 * times[0][0] / ours;
            table += &format!(
                "{name:<10}{size:>7}{ours:>10.1}{growth:>8}{check:>7.0}%{rust:>10.2}{:>8.1}\n",
                ours / rust
            );
            before = Some(ours);
        }
    }
    table
}

/// Microseconds of each call on either side, the least of many tries from the same nodes; the calls take turns.
fn least(Base { lent, calls }: &mut Base) -> Vec<[f64; 2]> {
    let mut least = vec![[f64::INFINITY; 2]; calls.len()];
    for _ in 0..TRIES {
        for (call, least) in calls.iter().zip(&mut least) {
            let [ours, rust] = call.time(lent).map(|time| time.as_nanos() as f64 / 1e3);
            *least = [least[0].min(ours), least[1].min(rust)];
        }
    }
    least
}

/// Two relations whose union, product and star are new, and a policy, in a store of at most 100 nodes.
fn base(random: &mut Random, work_bytes: usize) -> Base {
    loop {
        let text = tables::rules(FIELDS, 10, random);
        let mut lent = Lent::new(MOST_PLACES, work_bytes);
        let a = lent.run(FIELDS, &tables::rules(FIELDS, 2, random)).expect("fits");
        let b = lent.policy(&tables::rules(FIELDS, 2, random)).expect("fits");
        let calls = calls(a, b, text);
        let adds = |call: &Call| {
            let ([_, relations, _], _) = call.rust(&lent);
            (4..=MOST_PLACES as u32 - SIZES[2]).contains(&(relations - lent.count()))
        };
        if lent.count() <= SIZES[0] && calls[1..].iter().all(adds) {
            return Base { lent, calls };
        }
    }
}
