//! Ceilings and backups: what the numbers of a level are compared with.

use crate::exact::{dot, k, round_down, round_up, zero};
use crate::level::{Lists, POINT_TOTAL};
use crate::model::{Model, THOUSAND};
use crate::rows;
use crate::rules::{Rules, Trap};
use num_bigint::BigInt;

/// The ceiling of a level at weights q: corners·q less the largest drop of a point, or less 0.
///
/// A point with weights p and value w has G = corners·p - w. Above 0, its drop is the smallest of q(s) × G / p(s) over the
/// states with p(s) above 0, rounded down; else it has none.
pub fn ceiling(lists: &Lists, q: &[BigInt], rules: &Rules) -> BigInt {
    let mut drops = Vec::new();
    for point in &lists.points {
        let p = &point.weights;
        let gain = dot(&lists.corners, p) - &point.value;
        if gain <= zero() && !rules.has(Trap::NegativeGainLifts) {
            continue;
        }
        let weighted = p.iter().zip(q).filter(|(p, _)| **p > zero());
        let over = |p: &BigInt| if rules.has(Trap::DropOverHundred) { BigInt::from(POINT_TOTAL) } else { p.clone() };
        let ratio = |(p, q): (&BigInt, &BigInt)| match rules.trap {
            Some(Trap::DropRoundedUp) => round_up(&(q * &gain), &over(p)),
            _ => round_down(&(q * &gain), &over(p), &Rules::default()),
        };
        let mut ratios: Vec<BigInt> = weighted.map(ratio).collect();
        if rules.has(Trap::RatioOverZeroWeights) && ratios.len() < p.len() {
            ratios.push(zero());
        }
        let drop = if rules.has(Trap::LargestRatio) { ratios.into_iter().max() } else { ratios.into_iter().min() };
        drops.extend(drop);
    }
    let drop = if rules.has(Trap::SmallestDrop) { drops.into_iter().min() } else { drops.into_iter().max() };
    dot(&lists.corners, q) - drop.unwrap_or_else(zero)
}

/// K × p·R(·, a) + g × the sum over o of the previous level's ceiling at q: what a point's value is compared with, and a
/// corner's with weight 1 on its state. The informed rows have no part in it.
pub fn ceiling_backup(model: &Model, standing: &Lists, p: &[BigInt], a: usize, rules: &Rules) -> BigInt {
    let ceilings = (0..model.k).map(|o| {
        let q = model.successor(p, a, o);
        let sawtooth = ceiling(standing, &q, rules);
        if rules.has(Trap::InformedInBackups) {
            sawtooth.min(rows::ceiling(&standing.informed, &q, rules))
        } else {
            sawtooth
        }
    });
    k() * model.rewarded(p, a) + model.g() * ceilings.sum::<BigInt>()
}

/// The backup of a vector at a state: for each observation, the entries of the vector chosen for it.
pub fn vector_backup(model: &Model, standing: &Lists, s: usize, a: usize, choices: &[usize], rules: &Rules) -> BigInt {
    model.backup(s, a, |o, s2| {
        if rules.has(Trap::NextStateByState) {
            let at_state = standing.vectors.iter().map(|vector| &vector[s2]);
            at_state.max().unwrap_or(&standing.vectors[choices[o]][s2])
        } else {
            &standing.vectors[choices[o]][s2]
        }
    })
}

/// 21: whether from a covered state, by the vector's action, a state is reached with an observation (T × O above 0) for which
/// the vector chosen does not cover it.
pub fn reaches_uncovered(
    model: &Model,
    standing: &Lists,
    covered: &[bool],
    a: usize,
    choices: &[usize],
    rules: &Rules,
) -> bool {
    let reached = |s: usize, s2: usize, o: usize| match rules.trap {
        Some(Trap::ReachedWithoutSight) => *model.t(s, a, s2) > zero(),
        Some(Trap::ReachedByThousandths) => model.t(s, a, s2) * model.o(a, s2, o) >= BigInt::from(THOUSAND),
        Some(Trap::ReachedSeenAtStateLeft) => model.t(s, a, s2) * model.o(a, s, o) > zero(),
        _ => model.t(s, a, s2) * model.o(a, s2, o) > zero(),
    };
    let loses = |s: usize, s2: usize, o: usize| !standing.covered[choices[o]][s2] && reached(s, s2, o);
    let looked = rules.some_states(model.n, Trap::LostOfHalf);
    let from = |s: usize| (0..looked).any(|s2| (0..model.k).any(|o| loses(s, s2, o)));
    match rules.trap {
        Some(Trap::WithoutTwentyOne) => false,
        Some(Trap::EmptyMaskRefused) if !covered.contains(&true) => true,
        _ => (0..model.n).any(|s| covered[s] && from(s)),
    }
}
