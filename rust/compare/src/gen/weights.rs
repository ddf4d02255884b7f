//! Points to build upon, mixtures, and ranges of weights.

use super::cells::{junk, litter, shares, trail};
use crate::rng::Rng;
use reference::{Points, BUILT_POINTS, POINT_TOTAL, STATES, WEIGHT};

/// Points to build upon; as many as are asked for.
pub fn points(rng: &mut Rng, n: usize, count: usize) -> Points {
    let mut points = Points { count: count as u64, weights: vec![0; (BUILT_POINTS + 1) * STATES] };
    for j in 0..count {
        points.weights[j * n..(j + 1) * n].copy_from_slice(&point(rng, n));
    }
    litter(rng, &mut points.weights, count * n, junk);
    points
}

/// The weights of a point: totals at the limits, of three and of any other number.
pub(super) fn point(rng: &mut Rng, n: usize) -> Vec<u64> {
    let any = 1 + rng.below(POINT_TOTAL);
    let total = rng.pick(&[1, 2, 3, POINT_TOTAL - 1, POINT_TOTAL, POINT_TOTAL, any, any]);
    shares(rng, n, total)
}

/// Puts the number of points, or one weight, at a limit or past it.
pub fn spoil_points(rng: &mut Rng, n: usize, points: &mut Points) {
    if points.count == 0 || rng.once_in(3) {
        points.count = rng.pick(&[0, 16, 17, 32, 33, u64::MAX]);
    } else {
        let point = rng.index(points.count as usize);
        spoil_weights(rng, &mut points.weights[point * n..(point + 1) * n]);
    }
}

/// Weights that total one more or one less, 0, 1, 100 or 101, or as before only in 32 or in 64 bits, or anything.
pub(super) fn spoil_weights(rng: &mut Rng, weights: &mut [u64]) {
    let at = rng.index(weights.len());
    match rng.below(7) {
        0 => weights[at] = weights[at].wrapping_add(1),
        1 => weights[at] = weights[at].wrapping_sub(1),
        2 => {
            let other = rng.index(weights.len());
            let half = rng.pick(&[1 << 31, 1 << 63]);
            weights[at] = weights[at].wrapping_add(half);
            weights[other] = weights[other].wrapping_add(half);
        }
        3 => weights.fill(0),
        4 => {
            let total = rng.pick(&[1, POINT_TOTAL, POINT_TOTAL + 1, POINT_TOTAL + 1]);
            weights.copy_from_slice(&shares(rng, weights.len(), total));
        }
        5 => weights[at] = u64::from(u32::MAX) + rng.below(3) - 1,
        _ => weights[at] = junk(rng),
    }
}

/// A mixture within the limits.
pub fn mixture(rng: &mut Rng, n: usize) -> Vec<u64> {
    let mut mixture = match rng.below(4) {
        0 => shares(rng, n, 1),
        1 => shares(rng, n, POINT_TOTAL),
        2 => shares(rng, n, WEIGHT),
        _ => (0..n).map(|_| rng.below(WEIGHT + 1)).collect(),
    };
    if mixture.iter().all(|&weight| weight == 0) {
        mixture[0] = WEIGHT;
    }
    mixture.resize(STATES, 0);
    litter(rng, &mut mixture, n, junk);
    mixture
}

/// Puts one weight of a mixture at a limit or past it, or all of them at 0.
pub fn spoil_mixture(rng: &mut Rng, n: usize, mixture: &mut [u64]) {
    if rng.once_in(4) {
        for weight in &mut mixture[..n] {
            *weight = 0;
        }
    } else {
        let anything = junk(rng);
        mixture[rng.index(n)] = rng.pick(&[0, WEIGHT, WEIGHT + 1, u64::MAX, anything]);
    }
}

/// Lows and highs within the limits: the same, from 0 on, or anything between.
pub fn ranges(rng: &mut Rng, n: usize) -> (Vec<u64>, Vec<u64>) {
    let mut highs = mixture(rng, n)[..n].to_vec();
    let style = rng.below(4);
    let low = |rng: &mut Rng, &high: &u64| match style {
        0 => high,
        1 => 0,
        _ => rng.below(high + 1),
    };
    let mut lows: Vec<u64> = highs.iter().map(|high| low(rng, high)).collect();
    let weight = |rng: &mut Rng| rng.below(2 * WEIGHT);
    trail(rng, &mut lows, weight);
    trail(rng, &mut highs, weight);
    (lows, highs)
}

/// Puts one low or one high at a limit or past it or past the other, or all highs at 0, or leaves some out.
pub fn spoil_ranges(rng: &mut Rng, n: usize, (lows, highs): (&mut Vec<u64>, &mut Vec<u64>)) {
    let at = rng.index(n);
    let weight = rng.pick(&[0, 1, WEIGHT, WEIGHT + 1, u64::from(u32::MAX)]);
    match rng.below(7) {
        0 => lows[at] = highs[at] + 1,
        1 => lows[at] = weight,
        2 => highs[at] = weight,
        3 => highs[..n].fill(0),
        4 => {
            lows[..n].fill(0);
            highs[..n].fill(0);
        }
        5 => lows.truncate(at),
        _ => highs.truncate(at),
    }
}
