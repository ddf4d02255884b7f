//! Totals at a mixture.

use crate::backup::ceiling;
use crate::certifier::{examine, Certifier};
use crate::exact::{dot, first_largest, last_largest, weights, zero};
use crate::refusal::Refusal;
use crate::rows;
use crate::rules::{Rules, Trap};
use num_bigint::BigInt;

/// A mixture's weight is at most this.
pub const WEIGHT: u64 = 1_000_000;

/// What is answered at a mixture.
#[derive(Clone, Debug, PartialEq, Eq)]
pub struct Totals {
    pub lower: BigInt,
    pub upper: BigInt,
    pub gap: BigInt,
    pub action: u64,
    /// The two ceilings apart: the upper total is the lower one.
    pub sawtooth: BigInt,
    pub informed: BigInt,
}

/// The totals at a mixture, or the refusal 7, 16 (at level 0), 17 (a weight above 1,000,000, or all of them 0) or 22 (no vector
/// counts there).
///
/// A vector counts where all weight lies on states that it covers. The lower total is the largest product of one that counts
/// with the mixture, and the action is that of the first such vector; the upper total is the lower of the sawtooth and the best
/// informed row; the gap is upper less lower.
pub fn totals(certifier: &Certifier, mixture: &[u64], rules: &Rules) -> Result<Totals, Refusal> {
    let (model, standing) = examine(certifier, rules)?;
    let at_zero = certifier.level == 0 || (certifier.level == 1 && rules.has(Trap::LevelZeroEarly));
    let sixteen = if at_zero { Err(Refusal::at(16, 0)) } else { Ok(()) };
    if !rules.has(Trap::SeventeenFirst) {
        sixteen?;
    }
    let mixture = &mixture[..model.n];
    let mut b = weights(mixture);
    if rules.has(Trap::LowestTerms) {
        b = in_lowest_terms(&b);
    }
    let counts = |v: &usize| match rules.trap {
        Some(Trap::AllCount) => true,
        Some(Trap::SomeWeightCounts) => {
            b.iter().zip(&standing.covered[*v]).any(|(weight, &covered)| covered && *weight > zero())
        }
        _ => standing.counts(*v, &b),
    };
    let mut counting: Vec<usize> = (0..standing.vectors.len()).filter(counts).collect();
    if counting.is_empty() && rules.has(Trap::FirstForNone) {
        counting.push(0);
    }
    let none = if counting.is_empty() { Err(Refusal::at(22, 0)) } else { Ok(()) };
    if rules.has(Trap::TwentyTwoFirst) {
        none?;
    }
    let most = most_weight(rules);
    let read = &mixture[..rules.some_states(model.n, Trap::WeightsOfHalf)];
    let zeros = read.iter().all(|&weight| weight == 0) && !rules.has(Trap::ZerosPass);
    if read.iter().any(|&weight| weight > most) || zeros {
        return Err(Refusal::at(17, 0));
    }
    sixteen?;
    none?;

    let products: Vec<BigInt> = counting.iter().map(|&v| dot(&standing.vectors[v], &b)).collect();
    let largest = if rules.has(Trap::LastLargestVector) { last_largest(&products) } else { first_largest(&products) };
    let mut lower = products[largest].clone();
    let sawtooth = ceiling(&standing, &b, rules);
    let informed = rows::ceiling(&standing.informed, &b, rules);
    let (low, high) = if informed < sawtooth { (&informed, &sawtooth) } else { (&sawtooth, &informed) };
    let mut upper = match rules.trap {
        Some(Trap::HigherCeiling) => high.clone(),
        Some(Trap::SawtoothAlone) => sawtooth.clone(),
        Some(Trap::InformedAlone) => informed.clone(),
        _ => low.clone(),
    };
    if rules.has(Trap::RangeEndTotals) {
        upper = BigInt::from(100_000 * certifier.level) * b.iter().sum::<BigInt>();
        lower = -&upper;
    }
    let gap = if rules.has(Trap::GapOfSawtooth) { &sawtooth - &lower } else { &upper - &lower };
    Ok(Totals { lower, upper, gap, action: standing.actions[counting[largest]], sawtooth, informed })
}

/// The most that a weight is.
pub(crate) fn most_weight(rules: &Rules) -> u64 {
    match rules.trap {
        Some(Trap::MillionRefused) => WEIGHT - 1,
        Some(Trap::MillionAndOne) => WEIGHT + 1,
        _ => WEIGHT,
    }
}

/// Weights over their largest common divisor.
fn in_lowest_terms(b: &[BigInt]) -> Vec<BigInt> {
    let common = |x: BigInt, y: &BigInt| {
        let (mut x, mut y) = (x, y.clone());
        while y > zero() {
            let rest = &x % &y;
            x = std::mem::replace(&mut y, rest);
        }
        x
    };
    match b.iter().fold(zero(), common) {
        divisor if divisor > zero() => b.iter().map(|weight| weight / &divisor).collect(),
        _ => b.to_vec(),
    }
}
