//! The counts of models.

use crate::rng::Rng;
use reference::{ACTIONS, BUILT_POINTS, OBSERVATIONS, STATES};

/// The most vectors of a level here, where it has no more for its states.
pub const FEW: usize = 40;

/// More states than most models have here, and fewer than can be.
pub(super) const SOME_STATES: usize = 15;

/// The counts of a model.
#[derive(Clone, Copy, Debug, PartialEq, Eq)]
pub struct Shape {
    pub n: usize,
    pub m: usize,
    pub k: usize,
}

impl Shape {
    /// As many states, actions and observations as can be.
    pub const LARGEST: Shape = Shape { n: STATES, m: ACTIONS, k: OBSERVATIONS };

    /// As many states as can be, and few actions and observations.
    pub const WIDEST: Shape = Shape { n: STATES, m: 2, k: 2 };
}

/// Counts so small that all plans of three steps can be listed: at most some thousands.
pub fn tiny_shape(rng: &mut Rng) -> Shape {
    let (m, k) = rng.pick(&[(1, 1), (1, 3), (2, 1), (3, 1), (2, 2), (2, 2), (2, 2), (2, 2), (3, 2), (2, 3)]);
    Shape { n: 1 + rng.index(3), m, k }
}

/// Counts that are mostly small; now and then one of them is at its limit, or there are some more states.
pub fn shape(rng: &mut Rng) -> Shape {
    let mut count = |small: usize, limit: usize| if rng.once_in(12) { limit } else { 1 + rng.index(small) };
    let (n, m, k) = (count(4, SOME_STATES), count(3, ACTIONS), count(3, OBSERVATIONS));
    match n {
        SOME_STATES if rng.once_in(24) => wide_shape(rng),
        SOME_STATES => Shape { n: n + rng.index(3), m: m.min(3), k: k.min(2) },
        _ => Shape { n, m, k },
    }
}

/// As many states as can be, or one less or half of them, and few actions and observations.
pub fn wide_shape(rng: &mut Rng) -> Shape {
    let n = rng.pick(&[STATES / 2, STATES / 2 + 1, STATES - 1, STATES, STATES, STATES]);
    Shape { n, m: 1 + rng.index(2), k: 1 + rng.index(2) }
}

/// The most vectors that levels have here, over so many states: built ones have one for each state and point.
pub fn most_vectors(n: usize) -> usize {
    FEW.max(n + BUILT_POINTS)
}
