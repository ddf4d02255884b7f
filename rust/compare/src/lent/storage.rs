//! Storage in slices, and slices in storage.

use super::cells::{Cell, Slice};
use crate::rng::Rng;
use biidhaqun::slices::{Certifier, Graph, Level, Tables};
use reference::{ACTIONS, BUILT_POINTS, NODES, OBSERVATIONS, POINTS, VECTORS};

/// The first cells of storage in a slice of its type. A number that the type does not hold cannot be lent; the largest of the
/// type stands for it, which is outside of the same limits.
pub fn narrowed<Of: Cell + TryFrom<u64>>(cells: &[u64], count: usize) -> Vec<Of> {
    front(cells, count).iter().map(|&cell| Of::try_from(cell).unwrap_or(Of::MOST)).collect()
}

/// The first cells, or all if there are fewer.
pub fn front<Of>(cells: &[Of], count: usize) -> &[Of] {
    &cells[..count.min(cells.len())]
}

/// The first cells of a slice in storage of so many; what is missing is 0.
pub fn stored<Of: Copy, To: Clone + Default + From<Of>>(slice: &[Of], count: usize, cells: usize) -> Vec<To> {
    let mut storage: Vec<To> = slice.iter().take(count).map(|&cell| To::from(cell)).collect();
    storage.resize(cells, To::default());
    storage
}

fn size(count: u64) -> usize {
    usize::try_from(count).unwrap_or(usize::MAX)
}

/// How many there are of something, or the most that are lent.
fn count(number: u64, most: usize) -> usize {
    size(number).min(most)
}

/// The counts by which objects of these tables are packed; any, where the tables are refused whatever the limits.
pub fn counts(tables: &reference::Tables) -> (usize, usize) {
    if tables.counts_nearly_fit() {
        (tables.states as usize, tables.observations as usize)
    } else {
        (1, 1)
    }
}

/// How many entries each kind of rows has; any number, where the tables are refused whatever the limits.
pub fn rows(tables: &reference::Tables) -> usize {
    if tables.counts_nearly_fit() {
        (tables.actions * tables.states) as usize
    } else {
        1
    }
}

pub fn tables(storage: &reference::Tables) -> Tables {
    let all = (storage.transitions.len(), storage.sights.len(), storage.rewards.len());
    let (t, o, r) = if storage.counts_nearly_fit() { storage.cells_used() } else { all };
    Tables {
        states: size(storage.states),
        actions: size(storage.actions),
        observations: size(storage.observations),
        discount: storage.discount,
        transition: narrowed(&storage.transitions, t),
        observation: narrowed(&storage.sights, o),
        reward: front(&storage.rewards, r).to_vec(),
    }
}

pub fn level(storage: &reference::Level, n: usize, k: usize) -> Level {
    // One vector past the limit is lent, so that nothing but the limit refuses it.
    let (vectors, points) = (count(storage.vectors, VECTORS + 1), count(storage.points, POINTS + 1));
    Level {
        vectors: size(storage.vectors),
        points: size(storage.points),
        actions: narrowed(&storage.actions, vectors),
        choices: narrowed(&storage.choices, vectors * k),
        masks: front(&storage.masks, vectors).to_vec(),
        entries: front(&storage.entries, vectors * n).to_vec(),
        corners: front(&storage.corners, n).to_vec(),
        weights: narrowed(&storage.weights, points * n),
        values: front(&storage.values, points).to_vec(),
    }
}

pub fn certifier(storage: &reference::Certifier) -> Certifier {
    let (n, k) = counts(&storage.tables);
    let mut level = level(&storage.standing, n, k);
    if !storage.tables.counts_fit() {
        // Of as many states as the tables name, so that nothing but their limit refuses them.
        let (vectors, points) = (level.actions.len(), level.values.len());
        level.entries.resize(vectors * n, 0);
        level.corners.resize(n, 0);
        level.weights.resize(points * n, 0);
    }
    let rows = rows(&storage.tables);
    Certifier {
        state: vec![size(storage.level), level.vectors, level.points],
        actions: level.actions,
        choices: level.choices,
        masks: level.masks,
        entries: level.entries,
        corners: level.corners,
        weights: level.weights,
        values: level.values,
        informed: stored(&storage.informed, rows, rows),
        qmdp: stored(&storage.qmdp, rows, rows),
    }
}

pub fn points(storage: &reference::Points, n: usize) -> (usize, Vec<u32>) {
    (size(storage.count), narrowed(&storage.weights, count(storage.count, BUILT_POINTS + 1) * n))
}

pub fn mixture(storage: &[u64], n: usize) -> Vec<u32> {
    narrowed(storage, n)
}

/// All of a list of weights.
pub fn weights(storage: &[u64]) -> Vec<u32> {
    narrowed(storage, storage.len())
}

pub fn graph(storage: &reference::Graph, k: usize) -> Graph {
    // One node past the limit is lent, so that nothing but the limit refuses it.
    let nodes = count(storage.nodes, NODES + 1);
    Graph {
        nodes: size(storage.nodes),
        actions: narrowed(&storage.actions, nodes),
        next: narrowed(&storage.next, nodes * k),
    }
}

/// Certifier's slices with room for every level of so many states and vectors, and for a point more, and anything in it.
pub fn roomy(rng: &mut Rng, mut certifier: Certifier, n: usize, vectors: usize) -> Certifier {
    fn grow(rng: &mut Rng, slice: &mut dyn Slice, length: usize) {
        let length = slice.length().max(length) + rng.index(3);
        slice.sized(length, rng);
    }
    let vectors = vectors.max(certifier.actions.len());
    certifier.state.sized(certifier.state.len().max(3), rng);
    grow(rng, &mut certifier.actions, vectors);
    grow(rng, &mut certifier.choices, vectors * OBSERVATIONS);
    grow(rng, &mut certifier.masks, vectors);
    grow(rng, &mut certifier.entries, vectors * n);
    grow(rng, &mut certifier.corners, n);
    grow(rng, &mut certifier.weights, (POINTS + 1) * n);
    grow(rng, &mut certifier.values, POINTS + 1);
    grow(rng, &mut certifier.informed, ACTIONS * n);
    grow(rng, &mut certifier.qmdp, ACTIONS * n);
    certifier
}

/// Slices for a level of so many states to be built, with anything in them.
pub fn roomy_level(rng: &mut Rng, n: usize) -> Level {
    to_be_made(roomy(rng, Certifier::default(), n, n + BUILT_POINTS))
}

/// The slices of a level to be made, of which the counts and weights are not lent, from a certifier's.
pub fn to_be_made(room: Certifier) -> Level {
    let Certifier { actions, choices, masks, entries, corners, values, .. } = room;
    Level { actions, choices, masks, entries, corners, values, ..Level::default() }
}
