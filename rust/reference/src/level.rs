//! Levels, and their limits.

use crate::exact::{ticks, weights, zero};
use crate::model::Model;
use crate::rules::{Rules, Trap};
use num_bigint::BigInt;

/// A level has at most so many vectors.
pub const VECTORS: usize = 1_000;
/// A level has at most so many points.
pub const POINTS: usize = 32;
/// The weights of a point total 1 to this.
pub const POINT_TOTAL: u64 = 100;
/// At most so many levels are accepted.
pub const LEVELS: u64 = 100;
/// Entries and corners of level t lie within t times this of 0, a point's value within that times its weights' total.
pub const TICKS: u64 = 100_000;

/// A level of any content, in lists of any length: what lies past its counts is not read. By default every part is 0, and the
/// lists are empty: that of a refusing builder.
#[derive(Clone, Debug, Default, PartialEq, Eq)]
pub struct Level {
    /// The number of vectors.
    pub vectors: u64,
    /// Each vector's action.
    pub actions: Vec<u64>,
    /// The chosen vectors of the previous level, by vector and observation.
    pub choices: Vec<u64>,
    /// Each vector's mask of the states that it covers: bit s is 1 where state s is. Bits past the states are not read.
    pub masks: Vec<u64>,
    /// Entries in ticks, by vector and state; those of states that are not covered are not read.
    pub entries: Vec<i64>,
    /// Corner values in ticks, by state.
    pub corners: Vec<i64>,
    /// The number of points.
    pub points: u64,
    /// Weights, by point and state.
    pub weights: Vec<u64>,
    /// Each point's value, in ticks times the total of its weights.
    pub values: Vec<i64>,
}

/// A level as lists: what is read of it once its counts have passed.
pub struct Lists {
    pub actions: Vec<u64>,
    /// By vector and state, whether it is covered.
    pub covered: Vec<Vec<bool>>,
    pub vectors: Vec<Vec<BigInt>>,
    pub corners: Vec<BigInt>,
    pub points: Vec<Point>,
    /// The informed rows that stand beside it; an offered level has none.
    pub informed: Vec<Vec<BigInt>>,
}

/// A point's weights and its value.
pub struct Point {
    pub weights: Vec<BigInt>,
    pub value: BigInt,
}

impl Level {
    /// A level of so many vectors and points over `n` states and `k` observations: the vectors cover all states, and every
    /// other number is 0.
    pub fn zeros(vectors: usize, points: usize, n: usize, k: usize) -> Level {
        Level {
            vectors: vectors as u64,
            actions: vec![0; vectors],
            choices: vec![0; vectors * k],
            masks: vec![full_mask(n); vectors],
            entries: vec![0; vectors * n],
            corners: vec![0; n],
            points: points as u64,
            weights: vec![0; points * n],
            values: vec![0; points],
        }
    }

    /// Level 0: one zero vector with action and choices 0 that covers all states, zero corners, no points.
    pub fn fresh(n: usize, k: usize) -> Level {
        Level::zeros(1, 0, n, k)
    }

    /// 9: at least one vector, no more vectors or points than fit, and no list shorter than what is read of it. The choices
    /// are asked of an offered level alone.
    pub(crate) fn counts_fit(&self, model: &Model, offered: bool, rules: &Rules) -> bool {
        let (none, more) = if offered {
            (Trap::NoVectorPasses, Trap::PointMorePasses)
        } else {
            (Trap::SevenPassesNone, Trap::SevenPassesPoint)
        };
        let most_points = POINTS as u64 + u64::from(rules.has(more));
        let no_vector = self.vectors < 1 && !rules.has(none);
        if no_vector || self.vectors > most_vectors(rules) || self.points > most_points {
            return false;
        }
        let (vectors, points) = (self.vectors as usize, self.points as usize);
        self.actions.len() >= vectors
            && (self.choices.len() >= vectors * model.k || !offered)
            && self.masks.len() >= vectors
            && self.entries.len() >= vectors * model.n
            && self.corners.len() >= model.n
            && self.weights.len() >= points * model.n
            && self.values.len() >= points
    }

    /// 10: the first vector whose action or chosen vector does not exist.
    pub(crate) fn first_dangling(&self, model: &Model, standing: u64, rules: &Rules) -> Option<usize> {
        rules.offender(self.vectors as usize, Trap::LastDangling, |v| {
            self.actions[v] >= model.m as u64 || (0..model.k).any(|o| self.choices[v * model.k + o] >= standing)
        })
    }

    /// 11: the number of the first vector, else corner, else point that is outside the range of level t.
    pub(crate) fn first_outside(&self, n: usize, t: u64, all: bool, rules: &Rules) -> Option<usize> {
        let [vector, corner, point] = self.outside(n, t, all, rules);
        match rules.trap {
            Some(Trap::CornersBeforeVectors) => corner.or(vector).or(point),
            Some(Trap::PointsBeforeCorners) => vector.or(point).or(corner),
            _ => vector.or(corner).or(point),
        }
    }

    /// The first vector, the first corner and the first point that are outside the range of level t. Entries of states that are
    /// not covered are passed over, unless a trap wants `all`, and so is the value of a point whose total is outside 1 to 100.
    pub(crate) fn outside(&self, n: usize, t: u64, all: bool, rules: &Rules) -> [Option<usize>; 3] {
        let outside = |value: i64, times: &BigInt| {
            let end = BigInt::from(TICKS) * t * times + u8::from(rules.has(Trap::RangeOffByOne));
            let value = BigInt::from(value);
            value < -&end || value > end
        };
        let one = BigInt::from(1);
        let vector = (0..self.vectors as usize).find(|&v| {
            let read = |s: &usize| all || covers(self.masks[v], *s);
            (0..rules.some_states(n, Trap::RangesOfHalf)).filter(read).any(|s| outside(self.entries[v * n + s], &one))
        });
        let corner = (0..rules.some_states(n, Trap::CornersOfHalf)).find(|&s| outside(self.corners[s], &one));
        let point = (0..self.points as usize).find(|&j| {
            let total = total(&self.weights[j * n..(j + 1) * n], rules);
            if !total_fits(&total, rules) && !rules.has(Trap::ValuesOfRefusedTotals) {
                return false;
            }
            let times = if rules.has(Trap::ValuesTimesHundred) { BigInt::from(POINT_TOTAL) } else { total };
            outside(self.values[j], &times)
        });
        [vector, corner, point]
    }

    /// 12: the first point whose weights total less than 1 or more than 100.
    pub(crate) fn first_untotalled(&self, n: usize, rules: &Rules) -> Option<usize> {
        first_untotalled(&self.weights, self.points as usize, n, rules)
    }

    /// The level as lists for `n` states; the counts have passed.
    pub(crate) fn lists(&self, n: usize) -> Lists {
        let vectors = self.vectors as usize;
        let points = self.points as usize;
        let point = |j: usize| Point {
            weights: weights(&self.weights[j * n..(j + 1) * n]),
            value: BigInt::from(self.values[j]),
        };
        Lists {
            actions: self.actions[..vectors].to_vec(),
            covered: self.masks[..vectors].iter().map(|&mask| (0..n).map(|s| covers(mask, s)).collect()).collect(),
            vectors: (0..vectors).map(|v| ticks(&self.entries[v * n..(v + 1) * n])).collect(),
            corners: ticks(&self.corners[..n]),
            points: (0..points).map(point).collect(),
            informed: Vec::new(),
        }
    }

    /// What is stored of an accepted level: what the rules read, and 0 for an entry that is not covered.
    pub(crate) fn stored(&self, model: &Model, rules: &Rules) -> Level {
        let (n, vectors, points) = (model.n, self.vectors as usize, self.points as usize);
        let read = if rules.has(Trap::MasksPastStates) { u64::MAX } else { full_mask(n) };
        let entry = |(cell, &entry): (usize, &i64)| {
            let kept = covers(self.masks[cell / n], cell % n) || rules.has(Trap::UncoveredKept);
            if kept {
                entry
            } else {
                0
            }
        };
        Level {
            vectors: self.vectors,
            actions: self.actions[..vectors].to_vec(),
            choices: self.choices[..vectors * model.k].iter().map(|&choice| kept_choice(choice, rules)).collect(),
            masks: self.masks[..vectors].iter().map(|mask| mask & read).collect(),
            entries: self.entries[..vectors * n].iter().enumerate().map(entry).collect(),
            corners: self.corners[..n].to_vec(),
            points: self.points,
            weights: self.weights[..points * n].to_vec(),
            values: self.values[..points].to_vec(),
        }
    }
}

/// The mask that covers all of `n` states, 1 to 64.
pub fn full_mask(n: usize) -> u64 {
    u64::MAX >> (64 - n)
}

/// Whether a mask covers a state.
pub fn covers(mask: u64, s: usize) -> bool {
    mask >> s & 1 == 1
}

impl Lists {
    /// Whether a vector counts at weights: all of them lie on states that it covers.
    pub fn counts(&self, v: usize, weights: &[BigInt]) -> bool {
        weights.iter().zip(&self.covered[v]).all(|(weight, &covered)| covered || *weight == zero())
    }

    /// Whether a vector covers all states.
    pub fn covers_all(&self, v: usize) -> bool {
        self.covered[v].iter().all(|&covered| covered)
    }
}

/// How many vectors a level has at most.
pub fn most_vectors(rules: &Rules) -> u64 {
    match rules.trap {
        Some(Trap::ThirtyTwoVectors) => 32,
        Some(Trap::ThousandAndOne) => VECTORS as u64 + 1,
        _ => VECTORS as u64,
    }
}

/// The number of a chosen vector, as a level keeps it.
pub fn kept_choice(choice: u64, rules: &Rules) -> u64 {
    if rules.has(Trap::ChoicesInEightBits) {
        choice % 256
    } else {
        choice
    }
}

/// What the weights of a point total.
fn total(point: &[u64], rules: &Rules) -> BigInt {
    if rules.has(Trap::SumsWrap) {
        BigInt::from(point.iter().fold(0, |sum: u32, &weight| sum.wrapping_add(weight as u32)))
    } else {
        weights(point).iter().sum()
    }
}

/// Whether a total is 1 to 100.
fn total_fits(total: &BigInt, rules: &Rules) -> bool {
    let least = match rules.trap {
        Some(Trap::TotalOfZero) => 0,
        Some(Trap::HundredOnly) => POINT_TOTAL,
        _ => 1,
    };
    let most = POINT_TOTAL + u64::from(rules.has(Trap::TotalOf101));
    *total >= BigInt::from(least) && *total <= BigInt::from(most)
}

/// The first of `count` points over `n` states whose weights total less than 1 or more than 100.
pub fn first_untotalled(cells: &[u64], count: usize, n: usize, rules: &Rules) -> Option<usize> {
    let wrong = |j: usize| !total_fits(&total(&cells[j * n..(j + 1) * n], rules), rules);
    rules.offender(count, Trap::LastUntotalled, wrong)
}
