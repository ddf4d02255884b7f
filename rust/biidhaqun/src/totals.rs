//! Totals, in ticks and in units of reward.

use crate::parts::Mixture;
use std::fmt;

/// What is certified at a mixture, in ticks times the mixture's total weight; [`Totals::bracket`] has it in units of reward.
///
/// What is proved, where a [`Certifier`](crate::Certifier) gave it: no plan earns more than the upper total that has as many
/// steps as levels were accepted, and some such plan that opens with the action earns the lower one. It is given where some
/// vector of the standing level counts: all weight lies on states that it covers.
#[derive(Clone, Copy, Debug, PartialEq, Eq, Hash)]
pub struct Totals {
    /// Some plan that opens with the action earns at least this.
    pub lower: i64,
    /// No plan earns more than this: the lower of the two ceilings.
    pub upper: i64,
    /// The upper total less the lower one.
    pub gap: i64,
    /// The action to open with.
    pub action: usize,
    /// The ceiling of the standing level's corners and points.
    pub sawtooth: i64,
    /// The ceiling of the fast informed bound: the largest product of an action's row with the mixture.
    pub informed: i64,
}

/// The totals without the two ceilings apart, as they are asked for at many mixtures.
#[derive(Clone, Copy, Debug, PartialEq, Eq, Hash)]
pub struct Bounds {
    /// Some plan that opens with the action earns at least this.
    pub lower: i64,
    /// No plan earns more than this.
    pub upper: i64,
    /// The upper total less the lower one.
    pub gap: i64,
    /// The action to open with.
    pub action: usize,
}

/// What is certified of every mixture inside ranges of weights, in ticks times the mixture's total weight.
///
/// What is proved, where a [`Certifier`](crate::Certifier) gave it: at each mixture of which every weight is at least its low
/// and at most its high, some plan earns the lower total that has as many steps as levels were accepted, and none earns more
/// than the upper.
#[derive(Clone, Copy, Debug, PartialEq, Eq, Hash)]
pub struct TotalsWithin {
    /// At every mixture inside some plan earns at least this.
    pub lower: i64,
    /// At no mixture inside does a plan earn more than this.
    pub upper: i64,
}

/// A ceiling: what no plan earns more than.
#[derive(Clone, Copy, Debug, PartialEq, Eq, Hash)]
pub enum Ceiling {
    /// That of the corners and points that were offered.
    Sawtooth,
    /// That of the rows that the certifier steps: the fast informed bound.
    Informed,
}

impl fmt::Display for Ceiling {
    fn fmt(&self, f: &mut fmt::Formatter) -> fmt::Result {
        f.pad(match self {
            Ceiling::Sawtooth => "sawtooth",
            Ceiling::Informed => "informed",
        })
    }
}

/// Ten-thousandths in a unit, and in a tick.
const UNIT: i64 = 10_000;
const TICK: i128 = 100;

/// Units of reward, in ten-thousandths.
#[derive(Clone, Copy, Debug, PartialEq, Eq, PartialOrd, Ord, Hash)]
pub struct Units(i64);

impl Units {
    /// How many ten-thousandths they are.
    pub fn ten_thousandths(self) -> i64 {
        self.0
    }
}

impl From<Units> for f64 {
    /// The nearest floating-point number.
    fn from(units: Units) -> f64 {
        units.0 as f64 / UNIT as f64
    }
}

impl fmt::Display for Units {
    /// With four decimals.
    fn fmt(&self, f: &mut fmt::Formatter) -> fmt::Result {
        let size = self.0.unsigned_abs();
        let (whole, rest) = (size / UNIT as u64, size % UNIT as u64);
        f.pad(&format!("{}{}.{:04}", if self.0 < 0 { "-" } else { "" }, whole, rest))
    }
}

/// What is certified at a mixture, in units of reward for one unit of weight.
#[derive(Clone, Copy, Debug, PartialEq, Eq, Hash)]
pub struct Bracket {
    /// Some plan earns at least this on average: the lower total, rounded down.
    pub floor: Units,
    /// No plan earns more than this on average: the upper total, rounded up.
    pub ceiling: Units,
}

impl Bounds {
    /// The bounds in units of reward, over the weight of the mixture that they were asked at; rounded outwards to
    /// ten-thousandths, which is exact where the weights total 100.
    ///
    /// ```
    /// use biidhaqun::{Bounds, Mixture};
    ///
    /// let bounds = Bounds { lower: 10_000, upper: 12_500, gap: 2_500, action: 0 };
    /// let bracket = bounds.bracket(&Mixture::new(&[50, 50]));
    /// assert_eq!((bracket.floor.to_string(), bracket.ceiling.to_string()), ("1.0000".to_string(), "1.2500".to_string()));
    /// ```
    pub fn bracket(&self, mixture: &Mixture) -> Bracket {
        Bracket { floor: rounded_down(self.lower, mixture), ceiling: rounded_up(self.upper, mixture) }
    }
}

impl Totals {
    /// Lower, upper, gap and action alone.
    pub fn bounds(&self) -> Bounds {
        let Totals { lower, upper, gap, action, .. } = *self;
        Bounds { lower, upper, gap, action }
    }

    /// As [`Bounds::bracket`].
    pub fn bracket(&self, mixture: &Mixture) -> Bracket {
        self.bounds().bracket(mixture)
    }

    /// The ceiling that the upper total is; the sawtooth, where both are the same.
    pub fn speaks(&self) -> Ceiling {
        if self.informed < self.sawtooth {
            Ceiling::Informed
        } else {
            Ceiling::Sawtooth
        }
    }

    /// One of the ceilings in units of reward, over the weight of the mixture, rounded up.
    pub fn ceiling(&self, of: Ceiling, mixture: &Mixture) -> Units {
        let total = match of {
            Ceiling::Sawtooth => self.sawtooth,
            Ceiling::Informed => self.informed,
        };
        rounded_up(total, mixture)
    }
}

/// A total over the mixture's weight, rounded down.
fn rounded_down(total: i64, mixture: &Mixture) -> Units {
    units((i128::from(total) * TICK).div_euclid(weight(mixture)))
}

/// A total over the mixture's weight, rounded up.
fn rounded_up(total: i64, mixture: &Mixture) -> Units {
    units(-(-i128::from(total) * TICK).div_euclid(weight(mixture)))
}

fn weight(mixture: &Mixture) -> i128 {
    i128::from(mixture.total().max(1))
}

/// A total is at most 10^7 ticks times the weight, so that a certifier's fit.
fn units(number: i128) -> Units {
    Units(i64::try_from(number).unwrap_or(if number < 0 { i64::MIN } else { i64::MAX }))
}
