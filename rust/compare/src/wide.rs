//! Single calls on models of 33 to 64 states: what is wrong with them, if anything, lies late in a slice.

use crate::gen::{self, Question, Shape, DOCUMENT};
use crate::lent::{self, Call};
use crate::rng::Rng;
use crate::{pricing, single};
use reference::{full_mask, Certifier, Level, Points, Tables, ACTIONS, POINT_TOTAL, REWARD, STATES, WEIGHT};

/// A random call. Half of the certifiers and of the tables have something wrong.
pub fn random(rng: &mut Rng) -> Call {
    let n = rng.pick(&[STATES / 2 + 1, 3 * STATES / 4, STATES - 1, STATES, STATES]);
    let shape = Shape { n, m: 1 + rng.index(2), k: 1 + rng.index(2) };
    match rng.below(12) {
        0 | 1 => {
            // So many have more than 128 rows, most of the time.
            let m = 3 + rng.index(ACTIONS - 2);
            on_tables(rng, Shape { m, ..shape })
        }
        2 => totals(rng, shape),
        3 => within(rng, shape),
        4..=6 => offering(rng, shape),
        7 | 8 => pricing(rng, shape),
        9 | 10 => adopting(rng, shape),
        _ => building(rng, Shape { m: 1, k: 1, ..shape }),
    }
}

/// An index in the upper half of so many cells: the last, or one of the last few, or any.
fn late(rng: &mut Rng, cells: usize) -> usize {
    let few = rng.pick(&[1, 1, 2, cells / 8 + 1, cells / 2]);
    cells - 1 - rng.index(few)
}

/// A number one past the end of a range, or at it.
fn past(rng: &mut Rng, end: i64) -> i64 {
    rng.pick(&[end, end + 1, end + 1, -end, -end - 1, -end - 1])
}

/// Changes a number of tables: a row then does not total 1,000, or a number is past its limit.
fn damage(rng: &mut Rng, tables: &mut Tables) {
    let (t, o, r) = tables.cells_used();
    let (t, o, r) = (late(rng, t), late(rng, o), late(rng, r));
    let other = |cell: u64| if cell > 0 { cell - 1 } else { 1 };
    match rng.below(8) {
        0..=2 => tables.transitions[t] = other(tables.transitions[t]),
        3..=5 => tables.sights[o] = other(tables.sights[o]),
        6 => tables.transitions[t] = 1_001,
        _ => tables.rewards[r] = past(rng, REWARD),
    }
}

/// A thousandth of a row of T or of O moved to another cell of it, where it can be.
fn moved(rng: &mut Rng, cells: &mut [u64], width: usize) {
    let row = late(rng, cells.len() / width) * width;
    let from = (row..row + width).rev().find(|&cell| cells[cell] > 0).unwrap_or(row);
    let to = row + late(rng, width.max(2)).min(width - 1);
    cells[from] -= 1;
    cells[to] += 1;
}

/// Tables alone: opened, listed, or asked for a plan's worth.
fn on_tables(rng: &mut Rng, shape: Shape) -> Call {
    let mut tables = gen::tables_of(rng, shape, true);
    for _ in 0..rng.pick(&[0, 1, 1, 2]) {
        damage(rng, &mut tables);
    }
    match rng.below(3) {
        0 => {
            let graph = gen::graph_of(rng, shape, 2);
            let state = (late(rng, shape.n) + rng.index(2)) as u64;
            single::worth(&tables, &graph, Question { node: 1, state, steps: rng.below(3) })
        }
        1 => {
            let list = vec![7; shape.m * shape.n * 3 + 1];
            Call::List { tables: lent::tables(&tables), list }
        }
        _ => single::opening(rng, &tables),
    }
}

/// A certifier with up to three vectors and two points, and any numbers within its range in them: whether they stand by their
/// inequalities is not asked.
fn standing(rng: &mut Rng, shape: Shape) -> Certifier {
    let Shape { n, m, k } = shape;
    let tables = gen::tables_of(rng, shape, true);
    let mut certifier = reference::open(&tables, &DOCUMENT).expect("generated tables open");
    certifier.level = rng.pick(&[0, 1, 1, 2, 99]);
    if certifier.level == 0 {
        return certifier;
    }
    let ticks = REWARD * certifier.level as i64;
    let (vectors, points) = (1 + rng.index(3), rng.index(3));
    let mut level = Level::zeros(vectors, points, n, k);
    level.actions.iter_mut().for_each(|action| *action = rng.below(m as u64));
    level.weights.copy_from_slice(&gen::points(rng, n, points).weights[..points * n]);
    for cells in [&mut level.entries, &mut level.corners] {
        cells.iter_mut().for_each(|cell| *cell = rng.within(-ticks, ticks));
    }
    for (value, weights) in level.values.iter_mut().zip(level.weights.chunks_exact(n)) {
        let end = ticks * weights.iter().sum::<u64>() as i64;
        *value = rng.within(-end, end);
    }
    for cells in [&mut certifier.informed, &mut certifier.qmdp] {
        cells[..m * n].iter_mut().for_each(|cell| *cell = rng.within(-ticks, ticks));
    }
    certifier.standing = level;
    certifier
}

/// Lets the standing vectors leave out a state each, but for some.
fn narrow(rng: &mut Rng, certifier: &mut Certifier, n: usize) {
    for mask in &mut certifier.standing.masks {
        if !rng.once_in(3) {
            *mask &= !(1 << late(rng, n));
        }
    }
}

/// Puts a number of a certifier at the end of its range or past it, or of its tables, in one of four.
fn worn(rng: &mut Rng, mut certifier: Certifier, shape: Shape) -> Certifier {
    let Shape { n, m, .. } = shape;
    if !rng.once_in(4) {
        return certifier;
    }
    let end = past(rng, REWARD * certifier.level as i64);
    let (state, row) = (late(rng, n), late(rng, m * n));
    let level = &mut certifier.standing;
    match rng.below(8) {
        0 | 1 => {
            let first = level.entries.len() - n;
            level.entries[first + state] = end;
        }
        2 | 3 => level.corners[state] = end,
        4 => certifier.informed[row] = end,
        5 => certifier.qmdp[row] = end,
        6 if level.points > 0 => {
            let first = level.weights.len() - n;
            level.weights[first + state] += POINT_TOTAL;
        }
        _ => damage(rng, &mut certifier.tables),
    }
    certifier
}

/// Weights of late states alone, or of all; now and then one past its limit, or all of them 0.
fn mixture(rng: &mut Rng, n: usize) -> Vec<u64> {
    let mut mixture = if rng.once_in(2) { gen::mixture(rng, n)[..n].to_vec() } else { vec![0; n] };
    let weight = rng.pick(&[0, 1, WEIGHT, WEIGHT + 1]);
    mixture[late(rng, n)] = weight;
    mixture
}

fn totals(rng: &mut Rng, shape: Shape) -> Call {
    let mut certifier = standing(rng, shape);
    if rng.once_in(2) {
        narrow(rng, &mut certifier, shape.n);
    }
    let mixture = mixture(rng, shape.n);
    let certifier = worn(rng, certifier, shape);
    single::totals(&certifier, lent::weights(&mixture))
}

fn within(rng: &mut Rng, shape: Shape) -> Call {
    let mut certifier = standing(rng, shape);
    if rng.once_in(3) {
        narrow(rng, &mut certifier, shape.n);
    }
    let mut lows = mixture(rng, shape.n);
    let mut highs = lows.clone();
    let at = late(rng, shape.n);
    match rng.below(5) {
        0 => lows[at] = highs[at] + 1,
        1 => highs[at] += 1,
        2 => highs[at] = WEIGHT + 1,
        3 => lows.truncate(at),
        _ => lows.fill(0),
    }
    let certifier = worn(rng, certifier, shape);
    single::within(shape, &certifier, &lows, &highs)
}

/// The two files of some vectors: decimals above every backup, but for one at a late state now and then.
fn files(rng: &mut Rng, certifier: &Certifier, shape: Shape, low: bool) -> (Vec<u8>, Vec<u8>) {
    let (mut alpha, mut graph) = (String::new(), String::new());
    let vectors = 1 + rng.index(3);
    let (worst, at) = (rng.index(vectors), late(rng, shape.n));
    let lowest = REWARD * (certifier.level as i64 + 1) + rng.within(-1, 1);
    for v in 0..vectors {
        let action = rng.index(shape.m);
        alpha.push_str(&format!("{}\n", action));
        for s in 0..shape.n {
            let here = low && (v, s) == (worst, at);
            let decimal = if here { format!("-{}.{:02}", lowest / 100, lowest % 100) } else { "999999".to_string() };
            alpha.push_str(&format!("{} ", decimal));
        }
        graph.push_str(&format!("\n{} {}", v, action));
        for _ in 0..shape.k {
            graph.push_str(&format!(" {}", rng.below(certifier.standing.vectors)));
        }
    }
    (alpha.into_bytes(), graph.into_bytes())
}

/// Up to two points, of which now and then one has a late weight too many.
fn points(rng: &mut Rng, n: usize) -> Points {
    let count = rng.index(3);
    let mut points = gen::points(rng, n, count);
    if count > 0 && rng.once_in(6) {
        points.weights[(count - 1) * n + late(rng, n)] += POINT_TOTAL;
    }
    points
}

/// A level whose every number is its backup, which one of them may miss.
fn offering(rng: &mut Rng, shape: Shape) -> Call {
    let Shape { n, .. } = shape;
    let mut certifier = standing(rng, shape);
    let (alpha, graph) = files(rng, &certifier, shape, false);
    let count = rng.index(3);
    let points = gen::points(rng, n, count);
    let made = reference::adopt(&certifier, &alpha, &graph, &points, &DOCUMENT);
    let mut level = made.expect("the files are adopted");
    let end = past(rng, REWARD * (certifier.level as i64 + 1));
    let (last, state) = (level.entries.len() - n, late(rng, n));
    match rng.below(9) {
        0 => level.entries[last + state] += 1,
        1 => level.entries[last + state] = end,
        2 => level.corners[state] -= 1,
        3 => level.corners[state] = end,
        4 if count > 0 => level.values[count - 1] -= 1,
        5 if count > 0 => level.weights[(count - 1) * n + state] += POINT_TOTAL,
        6 => {
            // What is not covered is not read.
            level.masks[0] = full_mask(n) & !(1 << state);
            level.entries[state] = end;
        }
        _ => {}
    }
    if rng.once_in(3) {
        narrow(rng, &mut certifier, n);
    }
    let certifier = worn(rng, certifier, shape);
    let mut call = single::offering(rng, shape, &certifier, &level);
    if let Call::Offer { list, .. } = &mut call {
        if list.len() > 1 && rng.once_in(4) {
            let word = late(rng, list.len());
            list[word] += 1;
        }
    }
    call
}

/// Other prices at one state, or tables that differ in one place or have something wrong.
fn pricing(rng: &mut Rng, shape: Shape) -> Call {
    let certifier = standing(rng, shape);
    let mut new = certifier.tables.clone();
    let (_, _, rewards) = new.cells_used();
    match rng.below(6) {
        0 => moved(rng, &mut new.transitions, shape.n),
        1 => moved(rng, &mut new.sights, shape.k),
        2 => damage(rng, &mut new),
        _ => {}
    }
    let reward = &mut new.rewards[late(rng, rewards)];
    *reward = (*reward + rng.within(-300, 300)).clamp(-REWARD, REWARD);
    pricing::call(&worn(rng, certifier, shape), &new)
}

fn adopting(rng: &mut Rng, shape: Shape) -> Call {
    let mut certifier = standing(rng, shape);
    let low = rng.once_in(2);
    let (alpha, graph) = files(rng, &certifier, shape, low);
    let points = points(rng, shape.n);
    if rng.once_in(3) {
        narrow(rng, &mut certifier, shape.n);
    }
    let certifier = worn(rng, certifier, shape);
    single::adoption(rng, &certifier, (&alpha, &graph), &points, 3)
}

fn building(rng: &mut Rng, shape: Shape) -> Call {
    let mut certifier = standing(rng, shape);
    if rng.once_in(2) {
        narrow(rng, &mut certifier, shape.n);
    }
    let points = points(rng, shape.n);
    let certifier = worn(rng, certifier, shape);
    single::building(rng, shape, &certifier, &points)
}

#[cfg(test)]
mod tests {
    use super::*;
    use crate::copied::BY_THE_DOCUMENT;
    use std::collections::BTreeSet;

    #[test]
    fn every_end_of_a_wide_call_occurs() {
        let mut seen = BTreeSet::new();
        for number in 0..400 {
            let call = random(&mut Rng::for_case(9, "wide", number));
            assert!(!call.to_string().is_empty());
            seen.insert(call.number(&BY_THE_DOCUMENT));
        }
        let all = [0, 3, 5, 6, 7, 11, 12, 13, 14, 15, 16, 17, 18, 21, 22, 23, 24];
        assert_eq!(seen, all.into_iter().collect());
    }
}
