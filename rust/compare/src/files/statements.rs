//! The statements of files that read.

use super::lines::{words, Lines};
use super::numerals::{index, reward_text, some_index, typed};
use crate::gen::{self, Shape};
use crate::rng::Rng;
use reference::{Tables, THOUSAND};

/// The lines of a file that reads, if it is not too long: mostly of few states, seldom of as many as can be.
pub(super) fn any_lines(rng: &mut Rng) -> (Shape, Lines) {
    let shape = if rng.once_in(400) { gen::wide_shape(rng) } else { gen::shape(rng) };
    let lines = if shape.n > 20 && !rng.once_in(4) { starred(rng, shape) } else { valid(rng, shape) };
    (shape, lines)
}

/// The lines of a file that reads: any statements first, then rows for all that are not yet right.
pub(super) fn valid(rng: &mut Rng, shape: Shape) -> Lines {
    let model = gen::tables(rng, shape);
    let start = gen::shares(rng, shape.n, 100);
    let mut lines = header(rng, &model, &start);
    let mut stated = Tables::zeros(model.states, model.actions, model.observations);
    for _ in 0..rng.below(8) {
        let line = statement(rng, shape, &mut stated);
        lines.push(line);
    }
    // Rewards that are left unstated, or that a statement above left, are as good as any.
    let Shape { n, m, k } = shape;
    for a in 0..m {
        for s in 0..n {
            if !rng.once_in(5) {
                let reward = model.rewards[model.reward_cell(a, s)];
                lines.push(words(&[
                    "R",
                    ":",
                    &index(rng, a),
                    ":",
                    &index(rng, s),
                    ":",
                    "*",
                    ":",
                    "*",
                    &reward_text(rng, reward),
                ]));
            }
        }
    }
    if rng.once_in(4) {
        // One row for all states, or for all actions too.
        let row = gen::shares(rng, n, THOUSAND);
        let of_all = rng.once_in(2);
        let action = rng.index(m);
        for a in (0..m).filter(|&a| of_all || a == action) {
            for s in 0..n {
                let at = model.transition_cell(a, s, 0);
                stated.transitions[at..at + n].copy_from_slice(&row);
            }
        }
        let action = if of_all { "*".to_string() } else { index(rng, action) };
        lines.push(row_line(rng, "T", &action, "*", &row));
    }
    for a in 0..m {
        for s in 0..n {
            let at = model.transition_cell(a, s, 0);
            let row = model.transitions[at..at + n].to_vec();
            if stated.transitions[at..at + n].iter().sum::<u64>() != THOUSAND {
                let old = stated.transitions[at..at + n].to_vec();
                state_row(rng, &mut lines, "T", a, s, &old, &row);
            }
            let at = model.sight_cell(a, s, 0);
            let row = model.sights[at..at + k].to_vec();
            if stated.sights[at..at + k].iter().sum::<u64>() != THOUSAND {
                let old = stated.sights[at..at + k].to_vec();
                state_row(rng, &mut lines, "O", a, s, &old, &row);
            }
        }
    }
    lines
}

/// The lines of a file that reads, by stars and a few rows: short, however many states there are.
pub(super) fn starred(rng: &mut Rng, shape: Shape) -> Lines {
    let Shape { n, m, k } = shape;
    let model = gen::tables_of(rng, shape, true);
    let start = gen::shares(rng, n, 100);
    let mut lines = header(rng, &model, &start);
    let reached = rng.index(n);
    lines.push(words(&["T", ":", "*", ":", "*", ":", &index(rng, reached), "1"]));
    let seen = gen::shares(rng, k, THOUSAND);
    lines.push(row_line(rng, "O", "*", "*", &seen));
    for _ in 0..rng.below(10) {
        let (a, s) = (rng.index(m), rng.index(n));
        let (t, o) = (model.transition_cell(a, s, 0), model.sight_cell(a, s, 0));
        state_row(rng, &mut lines, "O", a, s, &seen, &model.sights[o..o + k]);
        // Entry by entry: a row may have been stated before, and is then cleared first.
        lines.push(words(&["T", ":", &index(rng, a), ":", &index(rng, s), ":", "*", "0"]));
        for (s2, &chance) in model.transitions[t..t + n].iter().enumerate().filter(|(_, &chance)| chance > 0) {
            let (action, left, reached) = (index(rng, a), index(rng, s), index(rng, s2));
            lines.push(words(&["T", ":", &action, ":", &left, ":", &reached, &typed(rng, chance, 1, 3)]));
        }
        let (_, action) = some_index(rng, m);
        let (_, state) = some_index(rng, n);
        let reward = reward_text(rng, model.rewards[model.reward_cell(a, s)]);
        lines.push(words(&["R", ":", &action, ":", &state, ":", "*", ":", "*", &reward]));
    }
    lines
}

/// The lines of a file without rewards, with rows in tenths: rewards of whole units are then expected as whole ticks.
pub(super) fn coarse_lines(rng: &mut Rng, shape: Shape) -> Lines {
    let Shape { n, m, k } = shape;
    let model = Tables { discount: rng.below(THOUSAND + 1), ..Tables::zeros(n as u64, m as u64, k as u64) };
    let start = gen::shares(rng, n, 100);
    let mut lines = header(rng, &model, &start);
    for (name, width) in [("T", n), ("O", k)] {
        for a in 0..m {
            for s in 0..n {
                let row: Vec<u64> = gen::shares(rng, width, 10).iter().map(|tenths| 100 * tenths).collect();
                let (old, whole) = (vec![0; width], width < 20);
                if whole {
                    state_row(rng, &mut lines, name, a, s, &old, &row);
                } else {
                    let (action, state) = (index(rng, a), index(rng, s));
                    for (at, &chance) in row.iter().enumerate().filter(|(_, &chance)| chance > 0) {
                        let (last, chance) = (index(rng, at), typed(rng, chance, 1, 3));
                        lines.push(words(&[name, ":", &action, ":", &state, ":", &last, &chance]));
                    }
                }
            }
        }
    }
    lines
}

/// The six lines in front.
fn header(rng: &mut Rng, model: &Tables, start: &[u64]) -> Lines {
    let mut first = words(&["start", ":"]);
    for &number in start {
        first.push(typed(rng, number, 1, 2).into_bytes());
    }
    vec![
        words(&["discount", ":", &typed(rng, model.discount, 1, 3)]),
        words(&["values", ":", "reward"]),
        words(&["states", ":", &index(rng, model.states as usize)]),
        words(&["actions", ":", &index(rng, model.actions as usize)]),
        words(&["observations", ":", &index(rng, model.observations as usize)]),
        first,
    ]
}

/// Any statement with any indices or stars. What it states of T and O is noted.
fn statement(rng: &mut Rng, shape: Shape, stated: &mut Tables) -> Vec<Vec<u8>> {
    let Shape { n, m, k } = shape;
    let (actions, action) = some_index(rng, m);
    let (states, state) = some_index(rng, n);
    let kind = rng.below(5);
    if kind == 4 {
        let reward = rng.within(-100_000, 100_000);
        return words(&["R", ":", &action, ":", &state, ":", "*", ":", "*", &reward_text(rng, reward)]);
    }
    let (name, count) = if kind < 2 { ("T", n) } else { ("O", k) };
    let mut line = words(&[name, ":", &action, ":", &state]);
    let mut row = Vec::new();
    if kind % 2 == 0 {
        let (indices, last) = some_index(rng, count);
        let probability = rng.below(THOUSAND + 1);
        line.extend(words(&[":", &last, &typed(rng, probability, 1, 3)]));
        row.extend(indices.into_iter().map(|index| (index, probability)));
    } else {
        for index in 0..count {
            let probability = rng.below(THOUSAND + 1);
            line.push(typed(rng, probability, 1, 3).into_bytes());
            row.push((index, probability));
        }
    }
    for &a in &actions {
        for &s in &states {
            for &(index, probability) in &row {
                if name == "T" {
                    let at = stated.transition_cell(a, s, index);
                    stated.transitions[at] = probability;
                } else {
                    let at = stated.sight_cell(a, s, index);
                    stated.sights[at] = probability;
                }
            }
        }
    }
    line
}

/// States a row: whole, or entry by entry where it differs from what was stated, or both.
fn state_row(rng: &mut Rng, lines: &mut Lines, name: &str, a: usize, s: usize, old: &[u64], row: &[u64]) {
    let whole = rng.once_in(2);
    if whole {
        let (action, state) = (index(rng, a), index(rng, s));
        lines.push(row_line(rng, name, &action, &state, row));
    }
    if !whole || rng.once_in(5) {
        for (at, &probability) in row.iter().enumerate() {
            if probability != old[at] || rng.once_in(4) {
                let (action, state, last) = (index(rng, a), index(rng, s), index(rng, at));
                lines.push(words(&[name, ":", &action, ":", &state, ":", &last, &typed(rng, probability, 1, 3)]));
            }
        }
    }
}

/// `T: a : s` and numbers.
fn row_line(rng: &mut Rng, name: &str, action: &str, state: &str, row: &[u64]) -> Vec<Vec<u8>> {
    let mut line = words(&[name, ":", action, ":", state]);
    for &probability in row {
        line.push(typed(rng, probability, 1, 3).into_bytes());
    }
    line
}

/// `R: a : s : s' : o r` with any indices or stars; seldom a word of it is missing. Rewards of coarse models are whole units, seldom
/// a tick more.
pub(super) fn outcome(rng: &mut Rng, shape: Shape, coarse: bool) -> Vec<Vec<u8>> {
    let mut line = words(&["R"]);
    for count in [shape.m, shape.n, shape.n, shape.k] {
        let (_, index) = some_index(rng, count);
        line.extend(words(&[":", &index]));
    }
    let reward = match coarse {
        true => 100 * rng.within(-1_000, 1_000),
        false => rng.within(-100_000, 100_000),
    };
    let reward = if rng.once_in(60) { (reward + 1).min(100_000) } else { reward };
    line.extend(words(&[&reward_text(rng, reward)]));
    if rng.once_in(200) {
        line.remove(rng.index(line.len()));
    }
    line
}
