//! Lists of calls on a certifier, from its opening on.

use super::levels::{above, built, loosened, masked, nudged, spoil_level};
use super::models::{repriced, tables, unpriced};
use super::shapes::{tiny_shape, Shape};
use super::weights::{mixture, points, ranges};
use crate::rng::Rng;
use reference::{build, offer, open, reprice, Certifier, Level, Points, Tables, DOCUMENT, LEVELS, STATES};

/// One call on a certifier, or two.
#[derive(Clone, Debug)]
pub enum Step {
    Offer(Level),
    Totals(Vec<u64>),
    /// Totals within ranges: lows and highs.
    Within(Vec<u64>, Vec<u64>),
    Build(Points),
    /// Build, and offer what was built.
    Raise(Points),
    /// New prices.
    Reprice(Tables),
}

impl Step {
    /// Makes the step by the document; whether a level was accepted.
    pub fn follow(&self, certifier: &mut Certifier) -> bool {
        match self {
            Step::Offer(level) => offer(certifier, level, &DOCUMENT).is_ok(),
            Step::Raise(points) => {
                build(certifier, points, &DOCUMENT).and_then(|level| offer(certifier, &level, &DOCUMENT)).is_ok()
            }
            Step::Reprice(new) => {
                // Whether they are accepted or refused, the certifier goes on.
                let _ = reprice(certifier, new, &DOCUMENT);
                false
            }
            Step::Totals(_) | Step::Within(..) | Step::Build(_) => false,
        }
    }
}

/// Tables, and a list of calls on the certifier that opens on them.
#[derive(Clone, Debug)]
pub struct List {
    pub tables: Tables,
    pub steps: Vec<Step>,
}

/// A list of events until so many levels are accepted: offers of built, masked, loosened, off by one and spoiled levels, and new
/// prices, with totals and buildings in between.
pub fn list(rng: &mut Rng, shape: Shape, levels: u64) -> List {
    let tables = tables(rng, shape);
    let mut certifier = open(&tables, &DOCUMENT).expect("generated tables open");
    let mut steps = Vec::new();
    let most_points = if shape.n > 4 { 2 } else { 4 };
    while certifier.level < levels {
        if rng.once_in(4) {
            steps.push(Step::Build(points(rng, shape.n, most_points)));
        }
        let count = rng.index(most_points + 1);
        let upon = points(rng, shape.n, count);
        let mut level = above(&certifier, &upon, shape);
        if rng.once_in(2) {
            level = masked(rng, &certifier, &level, shape);
        }
        let t = certifier.level + 1;
        let step = match rng.below(11) {
            0 | 1 => Step::Raise(upon),
            2 | 3 => Step::Offer(level),
            4..=6 => Step::Offer(loosened(rng, &level, shape, t)),
            7 | 8 => Step::Offer(nudged(rng, &level, shape)),
            9 => {
                let loose = loosened(rng, &level, shape, t);
                Step::Offer(nudged(rng, &loose, shape))
            }
            _ => {
                for _ in 0..1 + rng.index(3) {
                    spoil_level(rng, &mut level, shape, t, certifier.standing.vectors);
                }
                Step::Offer(level)
            }
        };
        let accepted = step.follow(&mut certifier);
        steps.push(step);
        for _ in 0..if accepted { 2 } else { 1 } {
            steps.push(Step::Totals(mixture(rng, shape.n)));
        }
        let (lows, highs) = ranges(rng, shape.n);
        steps.push(Step::Within(lows, highs));
        if rng.once_in(4) {
            let new = repriced(rng, &certifier.tables);
            let new = if rng.once_in(3) { unpriced(rng, &new, shape) } else { new };
            let step = Step::Reprice(new);
            step.follow(&mut certifier);
            steps.push(step);
            steps.push(Step::Totals(mixture(rng, shape.n)));
        }
    }
    List { tables, steps }
}

/// So many levels upon a small model of three states thought equally likely.
pub fn thirds(rng: &mut Rng, levels: u64) -> List {
    let shape = Shape { n: 3, ..tiny_shape(rng) };
    at_thirds(tables(rng, shape), levels)
}

/// So many levels upon three states, each built and offered at the point (1, 1, 1), and the totals there.
pub fn at_thirds(tables: Tables, levels: u64) -> List {
    let points = Points::one(&[1; 3]);
    let mut mixture = vec![0; STATES];
    mixture[..3].fill(1);
    let level = |_| [Step::Raise(points.clone()), Step::Totals(mixture.clone())];
    List { tables, steps: (0..levels).flat_map(level).collect() }
}

/// A list of built levels only, up to level 100 and past it.
pub fn climb(rng: &mut Rng, shape: Shape) -> List {
    let tables = tables(rng, shape);
    let mut certifier = open(&tables, &DOCUMENT).expect("generated tables open");
    let mut steps = Vec::new();
    let mut level = Level::default();
    for _ in 0..LEVELS + 2 {
        if certifier.level < LEVELS {
            level = built(rng, &certifier, shape, 1);
        }
        steps.push(Step::Offer(level.clone()));
        // The hundredth is the last that is accepted.
        let _ = offer(&mut certifier, &level, &DOCUMENT);
        if rng.once_in(10) {
            steps.push(Step::Totals(mixture(rng, shape.n)));
            steps.push(Step::Build(points(rng, shape.n, 1)));
        }
    }
    List { tables, steps }
}
