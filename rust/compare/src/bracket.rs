//! The totals against the best of all plans, over lists of offers and new prices to small models.

use crate::calls::Calls;
use crate::gen::{self, List, Step, DOCUMENT};
use crate::rng::Rng;
use num_bigint::BigInt;
use reference::{
    all_plans, best, full_mask, scale, Certifier, Earned, Level, Model, Points, Refusal, Tables, Totals, STATES, WEIGHT,
};
use std::fmt::Debug;

/// No list is followed further than this many levels.
const LEVELS: u64 = 3;

/// How many times a mixture its multiples are.
const MULTIPLES: [u64; 3] = [2, 3, 7];

/// A list of offers upon a small model; one in four is of three states thought equally likely.
pub fn random(rng: &mut Rng) -> List {
    if rng.once_in(4) {
        return gen::thirds(rng, LEVELS);
    }
    let shape = gen::tiny_shape(rng);
    let levels = 1 + rng.below(LEVELS);
    gen::list(rng, shape, levels)
}

/// What was seen in a list.
#[derive(Clone, Copy, Debug, Default)]
pub struct Seen {
    pub accepted: u64,
    pub refused: u64,
    pub compared: u64,
    /// Those at the mixture (1, 1, 1).
    pub thirds: u64,
    pub above_corners: u64,
    /// Those at which the informed ceiling was the lower one.
    pub informed: u64,
    /// Those upon a level with a vector that leaves out a state.
    pub masked: u64,
    /// Mixtures, and highs, at which no vector counted.
    pub uncounted: u64,
    /// Ranges of which mixtures inside were compared.
    pub ranges: u64,
    /// New prices that were accepted, and those that were refused.
    pub priced: u64,
    pub unpriced: u64,
}

impl Seen {
    /// Adds what was seen in another list.
    pub fn add(&mut self, other: &Seen) {
        self.accepted += other.accepted;
        self.refused += other.refused;
        self.compared += other.compared;
        self.thirds += other.thirds;
        self.above_corners += other.above_corners;
        self.informed += other.informed;
        self.masked += other.masked;
        self.uncounted += other.uncounted;
        self.ranges += other.ranges;
        self.priced += other.priced;
        self.unpriced += other.unpriced;
    }
}

/// Follows a list, and at each step compares what is answered with all plans of as many steps as levels were accepted:
/// no plan is above the upper total, nor above either ceiling, some plan that opens with the action is at or above the lower
/// one, no plan is above its own action's informed row, which is nowhere above the QMDP row, a built level is accepted, a
/// refused one changes nothing. Totals are given exactly where a vector counts, and a level is built exactly where one covers all
/// states. New prices put another model in force, of which the plans are from then on. The totals at multiples of a mixture and
/// at its sum with another are held against those at the mixture, and those within ranges against all plans at mixtures inside.
pub fn check(list: &List, by: &dyn Calls) -> Result<Seen, String> {
    let model = Model::of(&list.tables, &DOCUMENT).map_err(|refusal| refusal.to_string())?;
    let certifier = by.open(&list.tables).map_err(|refusal| format!("opening is {}", refusal))?;
    let mut run = Run { by, model, certifier, plans: Vec::new(), seen: Seen::default() };
    for (at, step) in list.steps.iter().enumerate() {
        run.step(step).map_err(|message| format!("step {}: {}", at, message))?;
        if run.seen.accepted > LEVELS {
            // Only a trap accepts more than the list was made for.
            break;
        }
    }
    Ok(run.seen)
}

/// A list that is being followed.
struct Run<'a> {
    by: &'a dyn Calls,
    model: Model,
    certifier: Certifier,
    /// All plans of as many steps as levels were accepted.
    plans: Vec<Earned>,
    seen: Seen,
}

impl Run<'_> {
    fn step(&mut self, step: &Step) -> Result<(), String> {
        match step {
            Step::Offer(level) => self.offer(level).map(|_| ()),
            Step::Raise(points) => match self.build(points)? {
                Some(level) if !self.offer(&level)? => Err("a built level is refused".to_string()),
                _ => Ok(()),
            },
            Step::Build(points) => match self.build(points)? {
                Some(level) => {
                    let offered = self.by.offer(&mut self.certifier.clone(), &level);
                    offered.map_err(|refusal| format!("a built level is {}", refusal))
                }
                None => Ok(()),
            },
            Step::Reprice(new) => self.reprice(new),
            Step::Totals(_) | Step::Within(..) if self.seen.accepted == 0 => Ok(()),
            Step::Totals(mixture) => self.compare(mixture),
            Step::Within(lows, highs) => self.inside(lows, highs),
        }
    }

    /// The masks of the standing vectors, as far as there are states.
    fn masks(&self) -> impl Iterator<Item = u64> + '_ {
        self.certifier.standing.masks.iter().map(move |mask| mask & full_mask(self.model.n))
    }

    /// A built level; none, where no standing vector covers all states.
    fn build(&self, points: &Points) -> Result<Option<Level>, String> {
        let wide = self.masks().any(|mask| mask == full_mask(self.model.n));
        match self.by.build(&self.certifier, points) {
            Ok(level) if wide => Ok(Some(level)),
            Ok(_) => Err("a level is built although no vector covers all states".to_string()),
            Err(Refusal { number: 22, .. }) if !wide => Ok(None),
            Err(refusal) => Err(format!("building is {}", refusal)),
        }
    }

    /// Offers a level; whether it was accepted. If so, the totals at each corner are compared.
    fn offer(&mut self, level: &Level) -> Result<bool, String> {
        let before = self.certifier.clone();
        if self.by.offer(&mut self.certifier, level).is_err() {
            if self.certifier != before {
                return Err("a refused offer changed the certifier".to_string());
            }
            self.seen.refused += 1;
            return Ok(false);
        }
        self.seen.accepted += 1;
        if self.seen.accepted > LEVELS {
            return Ok(true);
        }
        if self.certifier.level != self.seen.accepted {
            return Err(format!("level {} after {} acceptances", self.certifier.level, self.seen.accepted));
        }
        self.seen.above_corners += u64::from(above_corners(&self.certifier, self.model.n));
        self.corners()?;
        Ok(true)
    }

    /// The rows and the totals at each corner, against all plans of the model in force.
    fn corners(&mut self) -> Result<(), String> {
        self.plans = all_plans(&self.model, self.seen.accepted as u32);
        self.rows()?;
        for s in 0..self.model.n {
            let mut mixture = vec![0; STATES];
            mixture[s] = 1;
            self.compare(&mixture)?;
        }
        Ok(())
    }

    /// New prices: where they are not refused, the plans are from then on those of the new model.
    fn reprice(&mut self, new: &Tables) -> Result<(), String> {
        let before = self.certifier.clone();
        if self.by.reprice(&mut self.certifier, new).is_err() {
            if self.certifier != before {
                return Err("new prices that are refused changed the certifier".to_string());
            }
            self.seen.unpriced += 1;
            return Ok(());
        }
        if self.certifier.level != self.seen.accepted {
            return Err(format!("level {} after {} acceptances", self.certifier.level, self.seen.accepted));
        }
        self.model = Model::of(new, &DOCUMENT).map_err(|refusal| format!("new tables that are {} pass", refusal))?;
        self.seen.priced += 1;
        if self.seen.accepted == 0 {
            return Ok(());
        }
        self.corners()
    }

    /// Each entry of the rows, against the plans that open with its action.
    fn rows(&self) -> Result<(), String> {
        let unit = scale(self.seen.accepted as u32);
        for a in 0..self.model.m {
            for s in 0..self.model.n {
                let cell = a * self.model.n + s;
                let (informed, qmdp) = (self.certifier.informed[cell], self.certifier.qmdp[cell]);
                if informed > qmdp {
                    return Err(format!("action {}, state {}: informed {} is above QMDP {}", a, s, informed, qmdp));
                }
                let plans = self.plans.iter().filter(|plan| plan.action == a);
                let most = plans.map(|plan| &plan.n[s]).max().ok_or("no plan opens with the action")?;
                if *most > &unit * informed {
                    return Err(format!(
                        "action {}, state {}: a plan earns {} / {}, above {}",
                        a, s, most, unit, informed
                    ));
                }
            }
        }
        Ok(())
    }

    /// Whether a standing vector counts at weights.
    fn counts(&self, weights: &[u64]) -> bool {
        let weighty = (0..self.model.n).filter(|&s| weights[s] > 0).fold(0, |mask, s| mask | 1 << s);
        self.masks().any(|mask| weighty & !mask == 0)
    }

    /// What is answered at weights, which must be totals where a vector counts, and 22 where none does.
    fn where_one_counts<Answer: Debug>(
        &mut self,
        weights: &[u64],
        answer: Result<Answer, Refusal>,
        what: &str,
    ) -> Result<Option<Answer>, String> {
        match (answer, self.counts(weights)) {
            (Ok(answer), true) => Ok(Some(answer)),
            (Ok(answer), false) => Err(format!("no vector counts at {:?}, and yet {:?}", weights, answer)),
            (Err(Refusal { number: 22, .. }), false) => {
                self.seen.uncounted += 1;
                Ok(None)
            }
            (Err(refusal), _) => Err(format!("{} are {}", what, refusal)),
        }
    }

    /// The totals within ranges, against all plans at mixtures inside: each weight at its low or its high, or all between.
    fn inside(&mut self, lows: &[u64], highs: &[u64]) -> Result<(), String> {
        let within = self.by.within(&self.certifier, lows, highs);
        let within = match self.where_one_counts(highs, within, "totals within ranges")? {
            Some(within) => within,
            None => return Ok(()),
        };
        let n = self.model.n;
        let unit = scale(self.seen.accepted as u32);
        let (lower, upper) = (&within.lower * &unit, &within.upper * &unit);
        let ends =
            (0..1 << n).map(|ends: u64| (0..n).map(|s| if ends >> s & 1 == 0 { lows[s] } else { highs[s] }).collect());
        let middle = (0..n).map(|s| (lows[s] + highs[s]) / 2).collect();
        for mixture in ends.chain([middle]) {
            let mixture: Vec<u64> = mixture;
            let earned = best(&self.plans, &mixture, None).ok_or("there is no plan")?;
            if earned < lower || earned > upper {
                return Err(format!(
                    "at {:?} inside {:?} and {:?} the best plan earns {} / {}, not within {:?}",
                    mixture, lows, highs, earned, unit, within
                ));
            }
        }
        self.seen.ranges += 1;
        Ok(())
    }

    /// The totals at one mixture, against all plans.
    fn compare(&mut self, mixture: &[u64]) -> Result<(), String> {
        let totals = self.by.totals(&self.certifier, mixture);
        let totals = match self.where_one_counts(mixture, totals, "totals")? {
            Some(totals) => totals,
            None => return Ok(()),
        };
        let mixture = &mixture[..self.model.n];
        let unit = scale(self.seen.accepted as u32);
        let earned = best(&self.plans, mixture, None).ok_or("there is no plan")?;
        let lowest = (&totals.sawtooth).min(&totals.informed).min(&totals.upper);
        if earned > lowest * &unit {
            return Err(format!("at {:?} a plan earns {} / {}, above {:?}", mixture, earned, unit, totals));
        }
        let opening = Some(totals.action as usize);
        let opened = best(&self.plans, mixture, opening).ok_or("no plan opens with the action")?;
        if opened < &totals.lower * &unit {
            return Err(format!(
                "at {:?} plans with the action earn {} / {}, below {:?}",
                mixture, opened, unit, totals
            ));
        }
        if totals.upper != *lowest {
            return Err(format!("the upper total of {:?} is not the lower ceiling", totals));
        }
        if totals.gap != &totals.upper - &totals.lower {
            return Err(format!("the gap of {:?} is wrong", totals));
        }
        self.multiples(mixture, &totals)?;
        self.seen.informed += u64::from(totals.informed < totals.sawtooth);
        self.seen.compared += 1;
        let masked = self.masks().any(|mask| mask != full_mask(self.model.n));
        self.seen.masked += u64::from(masked);
        self.seen.thirds += u64::from(mixture == [1, 1, 1]);
        Ok(())
    }
}

impl Run<'_> {
    /// The totals at so many times a mixture: the lower one is so many times as large, the upper one at most. And at its sum
    /// with the mixture (1, 1, ..): the lower one is at most the sum of the two lower ones.
    fn multiples(&self, mixture: &[u64], totals: &Totals) -> Result<(), String> {
        for times in MULTIPLES {
            let multiple: Vec<u64> = mixture.iter().map(|weight| weight * times).collect();
            if multiple.iter().any(|&weight| weight > WEIGHT) {
                continue;
            }
            let at = self.asked(&multiple).map_err(|refusal| format!("at {:?}: {}", multiple, refusal))?;
            if at.lower != &totals.lower * times || at.upper > &totals.upper * times {
                return Err(format!("at {} times {:?} there is {:?}, at the mixture {:?}", times, mixture, at, totals));
            }
        }
        let sum: Vec<u64> = mixture.iter().map(|weight| weight + 1).collect();
        match (self.asked(&vec![1; mixture.len()]), self.asked(&sum)) {
            (Ok(other), Ok(at)) if at.lower > &totals.lower + &other.lower => {
                Err(format!("at {:?} the lower total is above those at {:?} and at 1s: {:?}", sum, mixture, at))
            }
            _ => Ok(()),
        }
    }

    /// The totals at weights of the model's states.
    fn asked(&self, weights: &[u64]) -> Result<Totals, Refusal> {
        let mut mixture = weights.to_vec();
        mixture.resize(STATES, 0);
        self.by.totals(&self.certifier, &mixture)
    }
}

/// Whether a standing point lies above its corners, so that its G is below 0.
fn above_corners(certifier: &Certifier, n: usize) -> bool {
    let level = &certifier.standing;
    (0..level.points as usize).any(|j| {
        let weights = &level.weights[j * n..(j + 1) * n];
        let corners: BigInt = weights.iter().zip(&level.corners).map(|(&p, &c)| BigInt::from(p) * c).sum();
        BigInt::from(level.values[j]) > corners
    })
}

#[cfg(test)]
mod tests {
    use super::*;

    /// Three crystal forms thought equally likely: what is certified at (1, 1, 1) brackets the exact best of all plans, here
    /// in thousandths, rounded down.
    #[test]
    fn the_tempering_example() {
        let file = include_bytes!("../../../examples/tempering.pomdp");
        let tables = reference::read(file, &DOCUMENT).unwrap().tables;
        let list = gen::at_thirds(tables.clone(), LEVELS);
        let seen = check(&list, &DOCUMENT).unwrap();
        assert_eq!((seen.accepted, seen.thirds), (3, 3));

        let model = Model::of(&tables, &DOCUMENT).unwrap();
        let mut certifier = DOCUMENT.open(&tables).unwrap();
        let whole = |number: &BigInt| i64::try_from(number).unwrap();
        let mut figures = Vec::new();
        for step in &list.steps {
            match step {
                Step::Raise(points) => {
                    let level = DOCUMENT.build(&certifier, points).unwrap();
                    DOCUMENT.offer(&mut certifier, &level).unwrap();
                }
                Step::Totals(mixture) => {
                    let steps = certifier.level as u32;
                    let totals = DOCUMENT.totals(&certifier, mixture).unwrap();
                    let most = best(&all_plans(&model, steps), &mixture[..3], None).unwrap() * 1_000 / scale(steps);
                    let ceilings = (whole(&totals.sawtooth), whole(&totals.informed));
                    figures.push((whole(&totals.lower), whole(&most), ceilings, totals.action));
                }
                _ => {}
            }
        }
        assert_eq!(
            figures,
            [(-100, -100_000, (-100, -100), 2), (78, 78_000, (586, 482), 0), (417, 419_088, (1_279, 1_003), 0)]
        );
    }

    /// A drop that is rounded up, and weights that are reduced, break what holds of multiples.
    #[test]
    fn multiples_are_noticed() {
        for trap in [reference::Trap::DropRoundedUp, reference::Trap::LowestTerms] {
            let by = reference::Rules::broken(trap);
            let found = (0..200).find_map(|number| {
                let list = random(&mut Rng::for_case(1, "plans", number));
                check(&list, &by).err().filter(|message| message.contains(" times "))
            });
            assert!(found.is_some(), "{:?}", trap);
        }
    }

    /// Whatever a model, up to level 100 no informed entry is above the QMDP one.
    #[test]
    fn rows_up_to_level_100() {
        for number in 0..12 {
            let mut rng = Rng::for_case(1, "rows", number);
            let shape = if number % 3 == 0 { gen::shape(&mut rng) } else { gen::tiny_shape(&mut rng) };
            let tables = gen::tables(&mut rng, shape);
            let mut certifier = DOCUMENT.open(&tables).unwrap();
            for t in 1..=reference::LEVELS as i64 {
                // The loosest level of all, so that only the rows are worked for.
                let mut level = Level::fresh(shape.n, shape.k);
                level.entries.fill(-100_000 * t);
                level.corners.fill(100_000 * t);
                DOCUMENT.offer(&mut certifier, &level).unwrap();
                let both = || certifier.informed.iter().zip(&certifier.qmdp);
                assert!(both().all(|(informed, qmdp)| informed <= qmdp), "rows:{} at level {}", number, t);
                assert!(both().all(|(informed, qmdp)| informed.abs().max(qmdp.abs()) <= 100_000 * t));
            }
        }
    }
}
