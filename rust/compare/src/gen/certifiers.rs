//! Certifiers of any content, and calls on them.

use super::cells::{at_ends, junk, litter, signed_junk};
use super::levels::{built, crowd, hide, level_at_ends, loosened, mask, masked, range, spoil_level, value_range};
use super::lists::Step;
use super::models::{repriced, spoil_tables, tables, unpriced};
use super::shapes::Shape;
use super::weights::{mixture, points, ranges, spoil_mixture, spoil_points, spoil_ranges, spoil_weights};
use crate::rng::Rng;
use reference::{offer, open, Certifier, BUILT_POINTS, DOCUMENT, LEVELS, REWARD, ROWS, STATES, THOUSAND, WEIGHT};

/// Lets the standing vectors cover any states, half of them all; now and then each leaves out a state.
pub fn uncover(rng: &mut Rng, certifier: &mut Certifier, shape: Shape) {
    let narrow = rng.once_in(4);
    let standing = &mut certifier.standing;
    for (mask, entries) in standing.masks.iter_mut().zip(standing.entries.chunks_exact_mut(shape.n)) {
        if rng.once_in(2) {
            *mask = self::mask(rng, shape.n);
        }
        if narrow {
            *mask &= !(1 << rng.index(shape.n));
        }
        hide(rng, *mask, entries, certifier.level);
    }
}

/// Puts entries of the rows of a certifier at a limit, or past it, or anywhere; some past the counts too.
fn spoil_rows(rng: &mut Rng, certifier: &mut Certifier, shape: Shape) {
    let used = shape.m * shape.n;
    let ticks = range(certifier.level);
    for rows in [&mut certifier.informed, &mut certifier.qmdp] {
        litter(rng, rows, used, signed_junk);
        if rng.once_in(3) {
            at_ends(rng, &mut rows[..used], ticks);
        }
        if rng.once_in(3) {
            for cell in &mut rows[..used] {
                *cell = rng.within(-ticks, ticks);
            }
        }
        if rng.once_in(6) {
            let anything = signed_junk(rng);
            rows[rng.index(used)] =
                rng.pick(&[ticks, -ticks, ticks + 1, -ticks - 1, ticks + REWARD, i64::MIN, i64::MAX, anything]);
        }
    }
}

/// A certifier after up to two built levels.
pub fn climbed(rng: &mut Rng, shape: Shape) -> Certifier {
    let mut certifier = open(&tables(rng, shape), &DOCUMENT).expect("generated tables open");
    for _ in 0..rng.below(3) {
        let level = built(rng, &certifier, shape, 2);
        offer(&mut certifier, &level, &DOCUMENT).expect("a built level is accepted");
    }
    certifier
}

/// A certifier of any content, and calls on it: one that was climbed to, with some of its numbers at a limit, past it or
/// anywhere.
pub fn handed(rng: &mut Rng, shape: Shape) -> (Certifier, Vec<Step>) {
    let mut certifier = climbed(rng, shape);
    if rng.once_in(3) {
        certifier.standing = loosened(rng, &certifier.standing.clone(), shape, certifier.level);
    }
    if rng.once_in(2) {
        uncover(rng, &mut certifier, shape);
    }
    let mut offered = built(rng, &certifier, shape, 2);
    if rng.once_in(2) {
        offered = masked(rng, &certifier, &offered, shape);
    }
    for choice in &mut certifier.standing.choices {
        *choice = junk(rng);
    }
    if rng.once_in(2) {
        certifier.level = rng.pick(&[0, 1, 2, 98, 99, 100, 101, u64::MAX]);
    }
    if rng.once_in(40) {
        crowd(&mut certifier.standing, shape.n);
    }
    if rng.once_in(3) {
        let t = certifier.level;
        spoil_level(rng, &mut certifier.standing, shape, t, 1);
    }
    if rng.once_in(40) {
        certifier.standing.vectors = 0;
    }
    if rng.once_in(2) {
        spoil_rows(rng, &mut certifier, shape);
    }
    let new = repriced(rng, &certifier.tables);
    let other = unpriced(rng, &certifier.tables, shape);
    if rng.once_in(6) {
        spoil_tables(rng, &mut certifier.tables);
    }
    if rng.once_in(2) {
        certifier.tables.transitions.push(7);
    }
    let mut level = offered.clone();
    if level.points > 0 && rng.once_in(6) {
        spoil_weights(rng, &mut level.weights[..shape.n]);
    }
    for _ in 0..rng.index(3) {
        spoil_level(rng, &mut level, shape, certifier.level.saturating_add(1), certifier.standing.vectors);
    }
    let mut few = points(rng, shape.n, 2);
    let mixed = mixture(rng, shape.n);
    let mut spoilt = mixed.clone();
    spoil_mixture(rng, shape.n, &mut spoilt);
    if rng.once_in(2) {
        spoil_points(rng, shape.n, &mut few);
    }
    let count = BUILT_POINTS + rng.index(2);
    let many = points(rng, shape.n, count);
    let mut steps = vec![Step::Totals(mixed), Step::Totals(spoilt), Step::Build(few)];
    let (mut lows, mut highs) = ranges(rng, shape.n);
    steps.push(Step::Within(lows.clone(), highs.clone()));
    spoil_ranges(rng, shape.n, (&mut lows, &mut highs));
    steps.push(Step::Within(lows, highs));
    if shape.n <= 4 {
        steps.push(Step::Build(many));
    }
    steps.push(Step::Offer(level));
    steps.push(Step::Offer(offered));
    steps.push(Step::Reprice(new));
    steps.push(Step::Reprice(other));
    (certifier, steps)
}

/// A certifier whose rewards, standing level and rows are at the ends of their ranges, and calls on it with such levels: the
/// largest sums that can occur.
pub fn ends(rng: &mut Rng, shape: Shape) -> (Certifier, Vec<Step>) {
    let n = shape.n;
    let mut tables = tables(rng, shape);
    tables.discount = rng.pick(&[THOUSAND, THOUSAND, THOUSAND - 1]);
    at_ends(rng, &mut tables.rewards[..shape.m * n], REWARD);
    let level = rng.pick(&[0, 1, 50, LEVELS - 2, LEVELS - 1, LEVELS - 1, LEVELS - 1, LEVELS]);
    let standing = level_at_ends(rng, shape, level);
    let mut rows = || {
        let mut rows = vec![0; ROWS];
        at_ends(rng, &mut rows[..shape.m * n], range(level));
        rows
    };
    let (informed, qmdp) = (rows(), rows());
    let certifier = Certifier { tables, standing, level, informed, qmdp };
    let mut most = vec![WEIGHT; STATES];
    most[rng.index(STATES)] = 0;
    let count = match shape {
        Shape::LARGEST | Shape::WIDEST => BUILT_POINTS,
        _ if n > 4 => 1,
        _ => rng.pick(&[0, 1, 3, BUILT_POINTS]),
    };
    let mut lowest = level_at_ends(rng, shape, level + 1);
    let ticks = range(level + 1);
    let any = lowest.clone();
    // The loosest level of all passes.
    lowest.entries.fill(-ticks);
    lowest.corners.fill(ticks);
    for (value, weights) in lowest.values.iter_mut().zip(lowest.weights.chunks_exact(n)) {
        *value = value_range(weights, ticks);
    }
    let new = repriced(rng, &certifier.tables);
    let steps = vec![
        Step::Totals(vec![WEIGHT; STATES]),
        Step::Totals(most.clone()),
        Step::Within(vec![0; STATES], vec![WEIGHT; STATES]),
        Step::Within(most, vec![WEIGHT; STATES]),
        Step::Build(self::points(rng, n, count)),
        Step::Offer(any),
        if rng.once_in(2) { Step::Offer(lowest) } else { Step::Raise(self::points(rng, n, count)) },
        Step::Totals(vec![WEIGHT; STATES]),
        Step::Reprice(new),
        Step::Totals(vec![WEIGHT; STATES]),
    ];
    (certifier, steps)
}
