//! The builder.

use crate::backup::{ceiling_backup, vector_backup};
use crate::certifier::{examine, full, Certifier};
use crate::exact::{corner, dot, first_largest, k, last_largest, round_down, round_up, stored, weights};
use crate::level::{first_untotalled, full_mask, kept_choice, Level, Lists};
use crate::model::{Model, STATES};
use crate::refusal::Refusal;
use crate::rules::{Rules, Trap};
use num_bigint::BigInt;

/// The builder is given at most so many points.
pub const BUILT_POINTS: usize = 16;

/// Points to build upon, in storage: their number, and their weights by point and state.
#[derive(Clone, Debug, PartialEq, Eq)]
pub struct Points {
    pub count: u64,
    pub weights: Vec<u64>,
}

impl Points {
    /// No points.
    pub fn none() -> Points {
        Points { count: 0, weights: vec![0; BUILT_POINTS * STATES] }
    }

    /// One point with these weights.
    pub fn one(weights: &[u64]) -> Points {
        let mut points = Points { count: 1, ..Points::none() };
        points.weights[..weights.len()].copy_from_slice(weights);
        points
    }
}

/// A vector that the builder made: its action, the vectors chosen for each observation, its entries, and the exact backups
/// of which the entries are the roundings.
struct Made {
    action: usize,
    choices: Vec<usize>,
    entries: Vec<BigInt>,
    backups: Vec<BigInt>,
}

/// Builds a level upon the standing one, or refuses with 7, 8, 9 (over 16 points), 12 or 22 (no standing vector covers all
/// states).
///
/// It has a vector made at each corner and then at each point, all of which cover all states, and keeps the points in their
/// order.
pub fn build(certifier: &Certifier, points: &Points, rules: &Rules) -> Result<Level, Refusal> {
    let (model, standing) = examine(certifier, rules)?;
    let most = BUILT_POINTS as u64 + u64::from(rules.has(Trap::SeventeenPoints) && model.n < STATES);
    let mut counts = [(8, full(certifier, rules)), (9, points.count > most)];
    if rules.has(Trap::NineBeforeEight) {
        counts.reverse();
    }
    for (number, broken) in counts {
        if broken {
            return Err(Refusal::at(number, 0));
        }
    }
    let (n, count) = (model.n, points.count as usize);
    let mut wide: Vec<usize> = (0..standing.vectors.len()).filter(|&v| standing.covers_all(v)).collect();
    match rules.trap {
        Some(Trap::MaskedChosen) if !wide.is_empty() => wide = (0..standing.vectors.len()).collect(),
        Some(Trap::FullMaskExact) => {
            let masks = &certifier.standing.masks;
            wide.retain(|&v| masks[v] == full_mask(n));
        }
        Some(Trap::BuiltUponNone) if wide.is_empty() => wide.push(0),
        _ => {}
    }
    let none = if wide.is_empty() { Err(Refusal::at(22, 0)) } else { Ok(()) };
    if rules.has(Trap::TwentyTwoBeforeTwelve) {
        none?;
    }
    if let Some(point) = first_untotalled(&points.weights, count, n, rules) {
        return Err(Refusal::at_index(12, point));
    }
    none?;

    let mut level = Level::zeros(n + count, count, n, model.k);
    let kept = (0..count).map(|j| weights(&points.weights[j * n..(j + 1) * n]));
    for (v, p) in (0..n).map(|s| corner(n, s)).chain(kept).enumerate() {
        let made = best_vector(&model, &standing, &wide, &p, rules);
        level.actions[v] = made.action as u64;
        for (o, &choice) in made.choices.iter().enumerate() {
            level.choices[v * model.k + o] = kept_choice(choice as u64, rules);
        }
        for (s, entry) in made.entries.iter().enumerate() {
            level.entries[v * n + s] = stored(entry);
        }
    }
    least_ceiling(&model, &standing, points, &mut level, rules);
    Ok(level)
}

/// Gives a level of as many points the builder's ceiling: at the corners and at these points, which it keeps, the least values.
pub fn least_ceiling(model: &Model, standing: &Lists, points: &Points, level: &mut Level, rules: &Rules) {
    let n = model.n;
    for s in 0..n {
        level.corners[s] = stored(&least_value(model, standing, &corner(n, s), rules));
    }
    for j in 0..points.count as usize {
        let given = &points.weights[j * n..(j + 1) * n];
        level.weights[j * n..(j + 1) * n].copy_from_slice(given);
        level.values[j] = stored(&least_value(model, standing, &weights(given), rules));
    }
}

/// The vector of one action at weights p: for each observation the first of the `wide` standing vectors with the largest
/// product with q, and for each state the backup over K rounded towards minus infinity.
fn action_vector(model: &Model, standing: &Lists, wide: &[usize], p: &[BigInt], a: usize, rules: &Rules) -> Made {
    let choice = |o| {
        let q = model.successor(p, a, o);
        let products: Vec<BigInt> = wide.iter().map(|&v| dot(&standing.vectors[v], &q)).collect();
        wide[if rules.has(Trap::LastLargestChoice) { last_largest(&products) } else { first_largest(&products) }]
    };
    let choices: Vec<usize> = (0..model.k).map(choice).collect();
    let backup = |s| vector_backup(model, standing, s, a, &choices, rules);
    let backups: Vec<BigInt> = (0..model.n).map(backup).collect();
    let lower = u8::from(rules.has(Trap::EntriesTickLower));
    let entries = backups.iter().map(|backup| round_down(backup, &k(), rules) - lower).collect();
    Made { action: a, choices, entries, backups }
}

/// Of the actions' vectors at weights p, the first with the largest product with p.
fn best_vector(model: &Model, standing: &Lists, wide: &[usize], p: &[BigInt], rules: &Rules) -> Made {
    let vectors = (0..model.m).map(|a| action_vector(model, standing, wide, p, a, rules));
    let mut vectors: Vec<Made> = vectors.collect();
    let product = |made: &Made| {
        let exact = rules.has(Trap::ExactProducts);
        dot(if exact { &made.backups } else { &made.entries }, p)
    };
    let products: Vec<BigInt> = vectors.iter().map(product).collect();
    let largest = if rules.has(Trap::LastLargestAction) { last_largest(&products) } else { first_largest(&products) };
    vectors.swap_remove(largest)
}

/// The least whole number that meets the inequality of a corner or a point for every action.
fn least_value(model: &Model, standing: &Lists, p: &[BigInt], rules: &Rules) -> BigInt {
    let least = |a| {
        let backup = ceiling_backup(model, standing, p, a, rules);
        if rules.has(Trap::CornersRoundedDown) {
            round_down(&backup, &k(), &Rules::default())
        } else {
            round_up(&backup, &k())
        }
    };
    let largest = (0..model.m).map(least).max();
    largest.expect("a model has an action")
}
