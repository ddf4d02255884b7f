//! Totals over weights that are known within ranges.

use crate::backup::ceiling;
use crate::certifier::{examine, Certifier};
use crate::exact::{dot, weights, zero};
use crate::refusal::Refusal;
use crate::rules::{Rules, Trap};
use crate::totals::most_weight;
use num_bigint::BigInt;

/// What is answered of all mixtures inside ranges.
#[derive(Clone, Debug, PartialEq, Eq)]
pub struct Within {
    pub lower: BigInt,
    pub upper: BigInt,
}

/// The totals over all mixtures of which each weight lies between its low and its high, or the refusal 7, 16 (at level 0), 24 (a
/// low exceeds its high), 17 (a high above 1,000,000, all highs 0, or fewer lows or highs than states) or 22 (no vector counts at
/// the highs). For 24 a weight that is missing is 0.
///
/// The lower total is the best, over vectors whose mask covers every state with a high above 0, of the sum of low × entry for
/// entries of 0 or more and of high × entry otherwise. The upper total is the sum of high × corner for corners of 0 or more and
/// of low × corner otherwise.
pub fn within(certifier: &Certifier, lows: &[u64], highs: &[u64], rules: &Rules) -> Result<Within, Refusal> {
    let (model, standing) = examine(certifier, rules)?;
    let n = model.n;
    let passes = |held: bool, number: u8| if held { Ok(()) } else { Err(Refusal::at(number, 0)) };
    let ordered = (0..rules.some_states(n, Trap::LowsOfHalf)).all(|s| match (lows.get(s), highs.get(s)) {
        (Some(low), Some(high)) => low <= high,
        _ if rules.has(Trap::MissingUncompared) => true,
        (low, high) => low.unwrap_or(&0) <= high.unwrap_or(&0),
    });
    if rules.has(Trap::TwentyFourFirst) {
        passes(ordered, 24)?;
    }
    passes(certifier.level > 0, 16)?;
    if !rules.has(Trap::TwentyFourLate) {
        passes(ordered, 24)?;
    }
    passes(lows.len() >= n && highs.len() >= n, 17)?;
    let (lows, highs) = (&lows[..n], &highs[..n]);
    let read = if rules.has(Trap::SeventeenOfLows) { lows } else { highs };
    let some = read.iter().any(|&weight| weight > 0) || rules.has(Trap::ZerosPass);
    passes(read.iter().all(|&weight| weight <= most_weight(rules)) && some, 17)?;
    passes(ordered, 24)?;
    let (low, high) = (weights(lows), weights(highs));
    let counted = if rules.has(Trap::CountsAtLows) { &low } else { &high };
    let counting: Vec<usize> = (0..standing.vectors.len()).filter(|&v| standing.counts(v, counted)).collect();
    let under = if rules.has(Trap::LowUnderNegative) { &low } else { &high };
    let least = counting.iter().map(|&v| product(&low, under, &standing.vectors[v]));
    let lower = if rules.has(Trap::FirstWithin) { least.take(1).max() } else { least.max() };
    let lower = lower.ok_or(Refusal::at(22, 0))?;
    let most = product(&high, &low, &standing.corners);
    let upper = match rules.trap {
        Some(Trap::CornersExchanged) => product(&low, &high, &standing.corners),
        Some(Trap::PointsWithin) => most - (dot(&standing.corners, &high) - ceiling(&standing, &high, rules)),
        Some(Trap::RowsWithin) => {
            let rows = standing.informed.iter().map(|row| product(&high, &low, row));
            rows.max().map_or(most.clone(), |row| most.min(row))
        }
        _ => most,
    };
    Ok(Within { lower, upper })
}

/// The sum of the products of entries with weights: one kind of weights for entries of 0 or more, another for the others.
fn product(over: &[BigInt], under: &[BigInt], entries: &[BigInt]) -> BigInt {
    entries
        .iter()
        .enumerate()
        .map(|(s, entry)| if *entry >= zero() { &over[s] * entry } else { &under[s] * entry })
        .sum()
}

#[cfg(test)]
mod tests {
    use super::*;
    use crate::*;

    /// The dough at level 1, upon vectors that cover part of the states. Corners are -100 and 600.
    fn dough(vectors: u64) -> Certifier {
        let mut certifier = dough::standing(0);
        offer(&mut certifier, &dough::masked(vectors), &DOCUMENT).unwrap();
        certifier
    }

    fn at(certifier: &Certifier, lows: &[u64], highs: &[u64]) -> Result<(i64, i64), (u8, u64)> {
        let whole = |value: &BigInt| i64::try_from(value).unwrap();
        let found = within(certifier, lows, highs, &DOCUMENT);
        found.map(|at| (whole(&at.lower), whole(&at.upper))).map_err(|refusal| (refusal.number, refusal.place))
    }

    #[test]
    fn both_totals() {
        let both = dough(2);
        // 3 × -1000 + 2 × 600, and 1 × -100 + 4 × 600.
        assert_eq!(at(&both, &[1, 2], &[3, 4]), Ok((-1_800, 2_300)));
        // Where the dough is ready for sure, both vectors count: 4 × -100, and 2 × 600.
        assert_eq!(at(&both, &[0, 2], &[0, 4]), Ok((1_200, 2_400)));
        assert_eq!(at(&dough(1), &[0, 2], &[0, 4]), Ok((-400, 2_400)));
        assert_eq!(at(&both, &[0, 0], &[1, 1]), Ok((-1_000, 600)));
        // What lies past the states is not read.
        assert_eq!(at(&both, &[1, 2, 9], &[3, 4, 0]), Ok((-1_800, 2_300)));
    }

    /// At a range of one mixture the lower total is the one there, the upper that of the corners.
    #[test]
    fn one_mixture() {
        let both = dough(2);
        for mixture in [[1, 0], [0, 1], [3, 5], [1_000_000, 1]] {
            let there = totals(&both, &mixture, &DOCUMENT).unwrap();
            let found = within(&both, &mixture, &mixture, &DOCUMENT).unwrap();
            assert_eq!((found.lower, found.upper), (there.lower, there.sawtooth));
        }
    }

    /// 7, 16, 24, 17, 22.
    #[test]
    fn the_order() {
        let (both, ready) = (dough(2), dough(1));
        assert_eq!(at(&Certifier { level: 101, ..both.clone() }, &[2, 0], &[1, 0]), Err((7, 0)));
        assert_eq!(at(&dough::standing(0), &[2, 0], &[1, 1]), Err((16, 0)));
        assert_eq!(at(&both, &[2, 0], &[1, 1_000_001]), Err((24, 0)));
        assert_eq!(at(&both, &[1_000_001, 0], &[1_000_001, 1]), Err((17, 0)));
        assert_eq!(at(&ready, &[0, 0], &[1_000_001, 1]), Err((17, 0)));
        assert_eq!(at(&both, &[0, 0], &[0, 0]), Err((17, 0)));
        assert_eq!(at(&ready, &[0, 1], &[1, 1]), Err((22, 0)));
        assert_eq!(at(&ready, &[0, 0], &[0, 1_000_000]), Ok((-100_000_000, 600_000_000)));
    }

    /// A weight that is missing is 0 for 24; then it gets 17.
    #[test]
    fn missing_weights() {
        let both = dough(2);
        assert_eq!(at(&both, &[0, 1], &[1]), Err((24, 0)));
        assert_eq!(at(&both, &[0, 0], &[1]), Err((17, 0)));
        assert_eq!(at(&both, &[0], &[1, 1]), Err((17, 0)));
        assert_eq!(at(&both, &[2], &[1, 1]), Err((24, 0)));
        assert_eq!(at(&both, &[], &[]), Err((17, 0)));
    }
}
