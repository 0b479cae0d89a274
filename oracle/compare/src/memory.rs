//! Document 01's memory layout: a store written into two memories, and read from them.

use oracle::store::Store;

const MOST_PLACES: usize = 4096;
const MOST_FIELDS: u32 = 32;

/// The numbers before the nodes, and the places of k and of the counts among them.
pub const RELATION_HEAD: usize = 2;
const FIELDS: usize = 0;
const RELATION_COUNT: usize = 1;
const SET_HEAD: usize = 1;
const SET_COUNT: usize = 0;

/// How many nodes of this many numbers fit after the head.
fn places(numbers: &[u32], head: usize, node: usize) -> usize {
    (numbers.len().saturating_sub(head) / node).min(MOST_PLACES)
}

/// The relation places and set places of two memories.
pub fn places_in(relations: &[u32], sets: &[u32]) -> (usize, usize) {
    (places(relations, RELATION_HEAD, 4), places(sets, SET_HEAD, 2))
}

/// How many numbers two memories have with these places and this many numbers beyond the last.
pub fn lengths(relations: usize, sets: usize, beyond: (usize, usize)) -> (usize, usize) {
    let relations = relations.min(MOST_PLACES);
    let sets = sets.min(MOST_PLACES);
    (RELATION_HEAD + 4 * relations + beyond.0, SET_HEAD + 2 * sets + beyond.1)
}

/// Whether both memories have their heads.
pub fn headed(relations: &[u32], sets: &[u32]) -> bool {
    relations.len() >= RELATION_HEAD && sets.len() >= SET_HEAD
}

/// Writes a store: the heads, the nodes, and zeros in the free places. Numbers beyond the last stay.
pub fn encode(store: &Store, relations: &mut [u32], sets: &mut [u32]) {
    let (n, m) = store.counts();
    relations[FIELDS] = store.fields();
    relations[RELATION_COUNT] = n;
    sets[SET_COUNT] = m;
    fill(relations, RELATION_HEAD, store.relation_nodes());
    fill(sets, SET_HEAD, store.set_nodes());
}

fn fill<const N: usize>(
    memory: &mut [u32],
    head: usize,
    mut nodes: impl Iterator<Item = [u32; N]>,
) {
    let end = head + N * places(memory, head, N);
    for place in memory[head..end].chunks_exact_mut(N) {
        place.copy_from_slice(&nodes.next().unwrap_or([0; N]));
    }
}

/// The store that two memories hold, if they hold one. The oracle judges the nodes.
pub fn decode(relations: &[u32], sets: &[u32]) -> Option<Store> {
    if !headed(relations, sets) || relations[FIELDS] > MOST_FIELDS {
        return None;
    }
    let (relation_places, set_places) = places_in(relations, sets);
    let relation_nodes = nodes::<4>(relations, RELATION_HEAD, relations[RELATION_COUNT] as usize)?;
    let set_nodes = nodes::<2>(sets, SET_HEAD, sets[SET_COUNT] as usize)?;
    let (p, q) = (relation_places as u32, set_places as u32);
    Store::with_nodes(relations[FIELDS], p, q, &relation_nodes, &set_nodes).ok()
}

/// The first nodes, if there are as many places and the other places are zero.
fn nodes<const N: usize>(memory: &[u32], head: usize, count: usize) -> Option<Vec<[u32; N]>> {
    let places = memory[head..].chunks_exact(N).take(MOST_PLACES);
    let mut nodes: Vec<[u32; N]> = places.map(|node| node.try_into().unwrap()).collect();
    if count > nodes.len() || nodes[count..].iter().any(|node| *node != [0; N]) {
        return None;
    }
    nodes.truncate(count);
    Some(nodes)
}
