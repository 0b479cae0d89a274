//! Random nodes, by which a store grows to a size.

use crate::sides::Lent;
use oracle::random::Random;
use packet_store as library;
use packet_store::{relations_len, sets_len, FIELDS, RELATION_COUNT, SET_COUNT};

/// How the nodes of a kind are counted, read and made.
struct Kind<const CHILDREN: usize> {
    count: fn(&Lent) -> u32,
    /// How many handles a node has.
    handles: u32,
    /// The first child of the node at a place.
    child: fn(&Lent, usize) -> u32,
    mk: fn(&mut Lent, [u32; CHILDREN]),
}

const RELATIONS: Kind<4> = Kind {
    count: |lent| lent.relations[RELATION_COUNT],
    handles: 1,
    child: |lent, place| lent.relations[relations_len(place)],
    mk: |lent, [x00, x01, x10, x11]| {
        let Lent { relations, sets, work } = lent;
        library::relation_mk(relations, sets, work, x00, x01, x10, x11).expect("fits");
    },
};

const SETS: Kind<2> = Kind {
    count: |lent| lent.sets[SET_COUNT],
    handles: 2,
    child: |lent, place| lent.sets[sets_len(place)],
    mk: |lent, [x0, x1]| {
        let Lent { relations, sets, work } = lent;
        library::set_mk(relations, sets, work, x0, x1).expect("fits");
    },
};

/// Adds random relation nodes until so many are held.
pub fn relations(lent: &mut Lent, size: u32, random: &mut Random) {
    fill(&RELATIONS, lent, size, random);
}

/// Adds random set nodes until so many are held.
pub fn sets(lent: &mut Lent, size: u32, random: &mut Random) {
    fill(&SETS, lent, size, random);
}

fn fill<const CHILDREN: usize>(
    kind: &Kind<CHILDREN>,
    lent: &mut Lent,
    size: u32,
    random: &mut Random,
) {
    let fields = lent.relations[FIELDS];
    let mut levels: Vec<Vec<u32>> = vec![vec![]; fields as usize + 1];
    let mut level_of = vec![0, 0];
    let mut entered = 0;
    while (kind.count)(lent) < size {
        while entered < kind.handles * (kind.count)(lent) + 2 {
            if entered >= 2 {
                let child = (kind.child)(lent, ((entered - 2) / kind.handles) as usize);
                level_of.push(level_of[child as usize] + 1);
            }
            levels[level_of[entered as usize]].push(entered);
            entered += 1;
        }
        let level = &levels[random.below(fields) as usize];
        let children = [(); CHILDREN].map(|()| random.pick(level));
        (kind.mk)(lent, children);
    }
}
