//! The packets of a set in turn, each by a call of `set_next`, beside `set_is_zero` on the same store: it does little more than what every call does, the
//! check of both memories and the clearing of the working memory.

use crate::fill;
use crate::sides::{timed, Lent, MOST_PLACES};
use oracle::random::Random;
use packet_store as library;
use packet_store::SET_COUNT;
use std::time::Duration;

const FIELDS: u32 = 32;
/// The packets of the set, and the fields in which they differ.
const PACKETS: usize = 1000;
const FREE: usize = 10;
/// How many nodes of each kind the stores have, at least.
const SIZES: [u32; 2] = [100, 4000];
/// The working memory with which stores are built.
const BUILDING: usize = 1 << 20;
/// The time of all steps is the least of so many, that of one `set_is_zero` the least of so many.
const ROUNDS: usize = 5;
const CALLS: usize = 101;

/// A table of stores of each size, with each working memory.
pub fn table(seed: u64, works: &[usize]) -> String {
    let mut random = Random::new(seed);
    let mut lent = Lent::new(MOST_PLACES, BUILDING);
    lent.run(FIELDS, "1").expect("a new store");
    let set = set(&mut lent, &mut random);
    let mut table =
        format!("k = {FIELDS}, a set of {PACKETS} packets to its end, {} steps\n", PACKETS + 1);
    table += "relations    sets  working memory  all steps, ms  a step, us  packets a second  set_is_zero, us  its share\n";
    for size in SIZES {
        fill::relations(&mut lent, size, &mut random);
        fill::sets(&mut lent, size, &mut random);
        for &work in works {
            let mut lent = Lent { work: vec![0; work / 4], ..lent.clone() };
            let [all, check] = least(&mut lent, set).map(|time| time.as_secs_f64());
            let step = all / (PACKETS + 1) as f64;
            table += &format!(
                "{:>9}{:>8}{:>12} KiB{:>15.2}{:>12.2}{:>18.0}{:>17.2}{:>10.0}%\n",
                lent.count(),
                lent.sets[SET_COUNT],
                work >> 10,
                all * 1e3,
                step * 1e6,
                PACKETS as f64 / all,
                check * 1e6,
                100.0 * check / step
            );
        }
    }
    table
}

/// The least times of all steps and of one `set_is_zero`.
fn least(lent: &mut Lent, set: u32) -> [Duration; 2] {
    let Lent { relations, sets, work } = lent;
    let [mut all, mut check] = [Duration::MAX; 2];
    for _ in 0..ROUNDS {
        let (packets, time) =
            timed(|| library::members(relations, sets, work, set).flatten().count());
        assert_eq!(packets, PACKETS);
        all = all.min(time);
    }
    for _ in 0..CALLS {
        let (empty, time) = timed(|| library::set_is_zero(relations, sets, work, set));
        assert_eq!(empty, Ok(false));
        check = check.min(time);
    }
    [all, check]
}

/// The packets with drawn values in all fields but ten, in which they have, field by field, the numbers below 1,000. It is made from the last field up, from
/// such sets of numbers without a limit, and of none.
fn set(lent: &mut Lent, random: &mut Random) -> u32 {
    let mut fields: Vec<u32> = (0..FIELDS).collect();
    let free: Vec<u32> =
        (0..FREE).map(|_| fields.swap_remove(random.below(fields.len() as u32) as usize)).collect();
    let Lent { relations, sets, work } = lent;
    let mut mk = |x0, x1| library::set_mk(relations, sets, work, x0, x1).expect("fits").handle;
    let (mut none, mut any, mut below, mut limit) = (0, 1, 0, PACKETS);
    for field in (0..FIELDS).rev() {
        if free.contains(&field) {
            below = if limit % 2 == 1 { mk(any, below) } else { mk(below, none) };
            any = mk(any, any);
            limit /= 2;
        } else if random.once_in(2) {
            (below, any) = (mk(none, below), mk(none, any));
        } else {
            (below, any) = (mk(below, none), mk(any, none));
        }
        none = mk(none, none);
    }
    below
}
