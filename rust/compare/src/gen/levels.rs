//! Levels: built ones, those that the document accepts with them, and those that it may refuse.

use super::cells::{at_ends, junk, litter, signed_junk, trail};
use super::shapes::{Shape, FEW};
use super::weights::{point, points, spoil_weights};
use crate::rng::Rng;
use num_bigint::BigInt;
use reference::{
    build, full_mask, scale, Certifier, Level, Model, Points, DOCUMENT, LEVELS, POINTS, POINT_TOTAL, REWARD,
};

/// A level by its vectors, corners and points.
#[derive(Clone, Debug)]
struct Unpacked {
    vectors: Vec<Vector>,
    corners: Vec<i64>,
    points: Vec<Point>,
}

#[derive(Clone, Debug)]
struct Vector {
    action: u64,
    choices: Vec<u64>,
    mask: u64,
    entries: Vec<i64>,
}

#[derive(Clone, Debug)]
struct Point {
    weights: Vec<u64>,
    value: i64,
}

impl Unpacked {
    /// A level within the limits, taken apart.
    fn of(level: &Level, n: usize, k: usize) -> Unpacked {
        let vector = |v: usize| Vector {
            action: level.actions[v],
            choices: level.choices[v * k..(v + 1) * k].to_vec(),
            mask: level.masks[v],
            entries: level.entries[v * n..(v + 1) * n].to_vec(),
        };
        let point = |j: usize| Point { weights: level.weights[j * n..(j + 1) * n].to_vec(), value: level.values[j] };
        Unpacked {
            vectors: (0..level.vectors as usize).map(vector).collect(),
            corners: level.corners[..n].to_vec(),
            points: (0..level.points as usize).map(point).collect(),
        }
    }

    /// Put together in lists, with anything past the counts.
    fn packed(&self, rng: &mut Rng) -> Level {
        let mut level = Level {
            vectors: self.vectors.len() as u64,
            actions: self.vectors.iter().map(|vector| vector.action).collect(),
            choices: self.vectors.iter().flat_map(|vector| vector.choices.clone()).collect(),
            masks: self.vectors.iter().map(|vector| vector.mask).collect(),
            entries: self.vectors.iter().flat_map(|vector| vector.entries.clone()).collect(),
            corners: self.corners.clone(),
            points: self.points.len() as u64,
            weights: self.points.iter().flat_map(|point| point.weights.clone()).collect(),
            values: self.points.iter().map(|point| point.value).collect(),
        };
        trail(rng, &mut level.actions, junk);
        trail(rng, &mut level.choices, junk);
        trail(rng, &mut level.masks, junk);
        trail(rng, &mut level.entries, signed_junk);
        trail(rng, &mut level.corners, signed_junk);
        trail(rng, &mut level.weights, junk);
        trail(rng, &mut level.values, signed_junk);
        level
    }
}

/// What entries and corners of level t lie within.
pub(super) fn range(t: u64) -> i64 {
    REWARD * t.min(LEVELS + 1) as i64
}

/// What a point's value lies within, by its weights, where entries lie within `ticks`.
pub(super) fn value_range(weights: &[u64], ticks: i64) -> i64 {
    let total = weights.iter().fold(0, |sum: u64, &weight| sum.saturating_add(weight));
    total.min(POINT_TOTAL + 1) as i64 * ticks
}

/// The mask of any states: all, none, one, all but one, or any, half of them with bits past the states.
pub fn mask(rng: &mut Rng, n: usize) -> u64 {
    let (full, one, any) = (full_mask(n), 1 << rng.index(n), rng.next());
    let within = rng.pick(&[full, full, 0, one, full & !one, any & full, any & full]);
    let past = junk(rng) & !full;
    rng.pick(&[within, within | past])
}

/// Puts anything into the entries of states that a mask leaves out: in the range of level t or not.
pub(super) fn hide(rng: &mut Rng, mask: u64, entries: &mut [i64], t: u64) {
    let ticks = range(t);
    for (s, entry) in entries.iter_mut().enumerate() {
        if mask >> s & 1 == 0 {
            let anything = signed_junk(rng);
            *entry = rng.pick(&[0, ticks, -ticks, ticks, ticks + 1, -ticks - 1, anything]);
        }
    }
}

/// What is built upon the certifier; where no standing vector covers all states, its ceiling over a vector that covers none.
pub fn above(certifier: &Certifier, points: &Points, shape: Shape) -> Level {
    let Shape { n, k, .. } = shape;
    build(certifier, points, &DOCUMENT).unwrap_or_else(|_| {
        let mut wide = certifier.clone();
        wide.standing = Level { vectors: 1, ..wide.standing };
        wide.standing.masks[0] = full_mask(n);
        wide.standing.entries[..n].fill(0);
        let ceiling = build(&wide, points, &DOCUMENT).expect("a vector that covers all is built upon");
        let mut level = Level { vectors: 1, ..ceiling };
        level.actions.truncate(1);
        level.choices.truncate(k);
        level.choices.fill(0);
        level.masks = vec![0];
        level.entries.truncate(n);
        level
    })
}

/// A built level upon the certifier, at up to so many points.
pub(super) fn built(rng: &mut Rng, certifier: &Certifier, shape: Shape, most_points: usize) -> Level {
    let count = rng.index(most_points + 1);
    let points = points(rng, shape.n, count);
    above(certifier, &points, shape)
}

/// The level with some of its vectors cut to part of the states, and with others that go on with any standing vectors; now and
/// then without those that cover all. It is accepted where the given one is, but for some of the others.
pub fn masked(rng: &mut Rng, certifier: &Certifier, level: &Level, shape: Shape) -> Level {
    let mut parts = Unpacked::of(level, shape.n, shape.k);
    for vector in &mut parts.vectors {
        if rng.once_in(2) {
            vector.mask &= mask(rng, shape.n);
            hide(rng, vector.mask, &mut vector.entries, certifier.level + 1);
        }
    }
    for _ in 0..rng.index(4) {
        let at = rng.index(parts.vectors.len() + 1);
        parts.vectors.insert(at, going_on(rng, certifier, shape));
    }
    let wide = |vector: &Vector| vector.mask & full_mask(shape.n) == full_mask(shape.n);
    if rng.once_in(4) && !parts.vectors.iter().all(wide) {
        parts.vectors.retain(|vector| !wide(vector));
    }
    parts.packed(rng)
}

/// A vector that goes on with any standing ones, covers all states from which it can, and has its backups for entries; now and
/// then it covers fewer states or one more, which may be out of range, or an entry is a tick higher.
fn going_on(rng: &mut Rng, certifier: &Certifier, shape: Shape) -> Vector {
    let Shape { n, m, k } = shape;
    let model = Model::of(&certifier.tables, &DOCUMENT).expect("the tables open");
    let standing = &certifier.standing;
    let a = rng.index(m);
    let choices: Vec<u64> = (0..k).map(|_| rng.below(standing.vectors)).collect();
    let covered = |o: usize, s2: usize| standing.masks[choices[o] as usize] >> s2 & 1 == 1;
    let reached = |s: usize, s2: usize, o: usize| model.t(s, a, s2) * model.o(a, s2, o) > BigInt::from(0);
    let closed = |s: &usize| (0..n).all(|s2| (0..k).all(|o| covered(o, s2) || !reached(*s, s2, o)));
    let mut mask = (0..n).filter(closed).fold(0, |mask, s| mask | 1 << s);
    let chosen: Vec<Vec<BigInt>> = choices
        .iter()
        .map(|&v| standing.entries[v as usize * n..(v as usize + 1) * n].iter().map(|&entry| entry.into()).collect())
        .collect();
    let entry = |s: usize| {
        let backup = model.backup(s, a, |o, s2| &chosen[o][s2]);
        let down = &backup / scale(1);
        let down = if &down * scale(1) > backup { down - 1 } else { down };
        i64::try_from(&down).unwrap_or(i64::MIN)
    };
    let mut entries: Vec<i64> = (0..n).map(entry).collect();
    match rng.below(8) {
        0 | 1 => mask &= self::mask(rng, n),
        2 | 3 => mask |= 1 << rng.index(n),
        4 => {
            let entry = &mut entries[rng.index(n)];
            *entry = entry.saturating_add(1);
        }
        5 => {
            let s = rng.index(n);
            mask |= 1 << s;
            entries[s] = range(certifier.level + 1) + 1;
        }
        _ => {}
    }
    hide(rng, mask, &mut entries, certifier.level + 1);
    Vector { action: a as u64, choices, mask: mask | self::mask(rng, n) & !full_mask(n), entries }
}

/// A level that the document accepts where it accepts the given one: vectors lowered, left out, doubled or put in another
/// order, corners and points raised, points left out or doubled. Points may come to lie above the corners.
pub fn loosened(rng: &mut Rng, level: &Level, shape: Shape, t: u64) -> Level {
    let Shape { n, k, .. } = shape;
    let ticks = range(t);
    let mut parts = Unpacked::of(level, n, k);
    let most = rng.pick(&[0, 1, 7, 300]);
    for vector in &mut parts.vectors {
        for entry in &mut vector.entries {
            *entry = entry.saturating_sub(rng.within(0, most)).max(-ticks);
        }
    }
    if rng.once_in(3) {
        let twin = rng.index(parts.vectors.len());
        let copies = rng.pick(&[1, 1, 2, FEW]);
        for _ in 0..copies {
            if parts.vectors.len() < FEW {
                let at = rng.index(parts.vectors.len() + 1);
                parts.vectors.insert(at, parts.vectors[twin.min(parts.vectors.len() - 1)].clone());
            }
        }
    }
    if rng.once_in(3) && parts.vectors.len() > 1 {
        parts.vectors.remove(rng.index(parts.vectors.len()));
    }
    if rng.once_in(3) {
        let (one, other) = (rng.index(parts.vectors.len()), rng.index(parts.vectors.len()));
        parts.vectors.swap(one, other);
    }
    let most = rng.pick(&[0, 0, 1, 50]);
    for corner in &mut parts.corners {
        *corner = (*corner + rng.within(0, most)).min(ticks);
    }
    let most = rng.pick(&[0, 0, 1, 5_000, 100_000]);
    for point in &mut parts.points {
        if !rng.once_in(3) {
            point.value = (point.value + rng.within(0, most)).min(value_range(&point.weights, ticks));
        }
    }
    if !parts.points.is_empty() && rng.once_in(4) {
        parts.points.remove(rng.index(parts.points.len()));
    }
    if !parts.points.is_empty() && rng.once_in(4) {
        let twin = rng.index(parts.points.len());
        let copies = rng.pick(&[1, 1, POINTS]);
        for _ in 0..copies {
            if parts.points.len() < POINTS {
                parts.points.push(parts.points[twin].clone());
            }
        }
    }
    parts.packed(rng)
}

/// A level that differs by one in an entry (more), corner or point value (less), or in a few of them, so that it may break their
/// inequalities.
pub fn nudged(rng: &mut Rng, level: &Level, shape: Shape) -> Level {
    let mut level = level.clone();
    let kinds = if level.points > 0 { 3 } else { 2 };
    for _ in 0..rng.pick(&[1, 1, 1, 2, 4]) {
        match rng.below(kinds) {
            0 => {
                let entry = &mut level.entries[rng.index(level.vectors as usize * shape.n)];
                *entry = entry.wrapping_add(1);
            }
            1 => level.corners[rng.index(shape.n)] -= 1,
            _ => level.values[rng.index(level.points as usize)] -= 1,
        }
    }
    level
}

/// Puts one number of a level for t at a limit, or past it, or anywhere. `below` is the previous level's vector count.
pub(super) fn spoil_level(rng: &mut Rng, level: &mut Level, shape: Shape, t: u64, below: u64) {
    let Shape { n, m, k } = shape;
    let ticks = range(t);
    // Those that are wholly there, whatever the counts say: at least one vector.
    let vectors = level.actions.len().min(level.choices.len() / k).min(level.masks.len()).min(level.entries.len() / n);
    let points = level.values.len().min(level.weights.len() / n);
    let anything = junk(rng);
    if rng.once_in(12) {
        // Anything everywhere.
        litter(rng, &mut level.actions, 0, junk);
        litter(rng, &mut level.choices, 0, junk);
        litter(rng, &mut level.masks, 0, junk);
        litter(rng, &mut level.entries, 0, signed_junk);
        litter(rng, &mut level.corners, 0, signed_junk);
        litter(rng, &mut level.weights, 0, junk);
        litter(rng, &mut level.values, 0, signed_junk);
    }
    match rng.below(if points > 0 { 11 } else { 8 }) {
        0 => {
            let vectors = rng.pick(&[0, 1, 32, 33, 33, 999, 1_000, 1_001, u64::MAX, anything]);
            lengthen(rng, level, shape, (vectors, level.points));
        }
        1 => {
            let points = rng.pick(&[0, 1, 32, 33, 33, u64::MAX, anything]);
            lengthen(rng, level, shape, (level.vectors, points));
        }
        2 => level.actions[rng.index(vectors)] = rng.pick(&[m as u64 - 1, m as u64, u64::MAX, anything]),
        3 => {
            let choice = rng.pick(&[below.wrapping_sub(1), below, level.vectors.wrapping_sub(1), u64::MAX]);
            level.choices[rng.index(vectors * k)] = choice;
        }
        4 | 5 => {
            let entry = rng.pick(&[ticks, -ticks, ticks + 1, -ticks - 1, i64::MIN, i64::MAX, anything as i64]);
            level.entries[rng.index(vectors * n)] = entry;
        }
        6 => {
            let corner = rng.pick(&[ticks, -ticks, ticks + 1, -ticks - 1, i64::MIN, i64::MAX, anything as i64]);
            level.corners[rng.index(n)] = corner;
            if points > 0 && rng.once_in(3) {
                level.values[rng.index(points)] = POINT_TOTAL as i64 * ticks + 1;
            }
        }
        7 => {
            level.masks[rng.index(vectors)] = mask(rng, n);
            if points > 0 && rng.once_in(2) {
                let point = rng.index(points);
                spoil_weights(rng, &mut level.weights[point * n..(point + 1) * n]);
            }
        }
        8 => {
            // At the ends of its own range, and of the widest.
            let point = rng.index(points);
            let own = value_range(&level.weights[point * n..(point + 1) * n], ticks);
            let end = rng.pick(&[own, own, POINT_TOTAL as i64 * ticks]);
            level.values[point] = rng.pick(&[end, -end, end + 1, -end - 1, i64::MIN, i64::MAX, anything as i64]);
        }
        _ => {
            let point = rng.index(points);
            spoil_weights(rng, &mut level.weights[point * n..(point + 1) * n]);
        }
    }
}

/// Gives a level other counts, and fills up lists that are too short for them, if these are small: with anything, or with vectors
/// that cover no state and points of weight 1 and value 0, which break no limit but that of their number.
fn lengthen(rng: &mut Rng, level: &mut Level, shape: Shape, (vectors, points): (u64, u64)) {
    fn fill<Cell>(cells: &mut Vec<Cell>, length: usize, mut cell: impl FnMut(usize) -> Cell) {
        while cells.len() < length {
            cells.push(cell(cells.len()));
        }
    }
    let Shape { n, k, .. } = shape;
    let plain = rng.once_in(2);
    let few = |count: u64| usize::try_from(count).ok().filter(|&count| count <= FEW);
    // One vector stays in any case.
    if let (true, Some(stood)) = (plain, few(level.vectors.max(1))) {
        level.actions.truncate(stood);
        level.choices.truncate(stood * k);
        level.masks.truncate(stood);
        level.entries.truncate(stood * n);
    }
    if let (true, Some(stood)) = (plain, few(level.points)) {
        level.weights.truncate(stood * n);
        level.values.truncate(stood);
    }
    (level.vectors, level.points) = (vectors, points);
    let mut cell = |least: u64| if plain { least } else { junk(rng) };
    if let Some(vectors) = few(vectors) {
        fill(&mut level.actions, vectors, |_| cell(0));
        fill(&mut level.choices, vectors * k, |_| cell(0));
        fill(&mut level.masks, vectors, |_| cell(0));
        fill(&mut level.entries, vectors * n, |_| cell(0) as i64);
    }
    if let Some(points) = few(points) {
        fill(&mut level.weights, points * n, |at| cell(u64::from(at % n == 0)));
        fill(&mut level.values, points, |_| cell(0) as i64);
    }
}

/// Adds points of weight 1 and value 0 to a level within the limits, up to one more than fits.
pub(super) fn crowd(level: &mut Level, n: usize) {
    let stood = level.points as usize;
    level.weights.truncate(stood * n);
    level.values.truncate(stood);
    for _ in stood..=POINTS {
        level.weights.push(1);
        level.weights.resize(level.weights.len() + n - 1, 0);
        level.values.push(0);
    }
    level.points = POINTS as u64 + 1;
}

/// A level for t whose every number is at an end of its range; where there are as many states as can be, it has as many vectors
/// and points as levels have here.
pub(super) fn level_at_ends(rng: &mut Rng, shape: Shape, t: u64) -> Level {
    let Shape { n, m, k } = shape;
    let ticks = range(t);
    let (vectors, points) = match shape {
        Shape::LARGEST | Shape::WIDEST => (FEW, POINTS),
        _ => (rng.pick(&[1, 2, FEW]), rng.pick(&[0, 1, 2, POINTS])),
    };
    let mut level = Level::zeros(vectors, points, n, k);
    for action in &mut level.actions {
        *action = rng.below(m as u64);
    }
    at_ends(rng, &mut level.entries, ticks);
    at_ends(rng, &mut level.corners, ticks);
    at_ends(rng, &mut level.values, 1);
    if rng.once_in(4) {
        for (mask, entries) in level.masks.iter_mut().zip(level.entries.chunks_exact_mut(n)) {
            *mask = self::mask(rng, n);
            hide(rng, *mask, entries, t);
        }
    }
    for j in 0..points {
        let weights = &mut level.weights[j * n..(j + 1) * n];
        weights.copy_from_slice(&point(rng, n));
        level.values[j] *= value_range(weights, ticks);
    }
    // Choices stay at 0: the level below has at least one vector.
    level
}
