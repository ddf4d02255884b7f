//! What is wrong with a refused level: the counts, the number that does not exist or is out of range, how far an entry is from
//! its backup and in which state or action, or which state a vector loses.
//!
//! The library says which vector, corner or point is refused (9 to 15, 21); this works out the rest from the model and the level
//! below, by the same rules, and decides nothing.

use biidhaqun::{Certifier, Level, Model, Refusal, Rule};
use command::names::Named;
use command::told::{self, counted, or_more};
use std::ops::RangeInclusive;

/// The denominator of backups: T x O x discount are thousandths each.
const K: i128 = 1_000_000_000;

/// Entries of level t lie within t times this of 0, in ticks.
const TICKS: i128 = 100_000;
/// What the weights of a point may total.
const TOTALS: RangeInclusive<u64> = 1..=100;

/// A level that was refused, the model, and the level below.
struct Offer<'a> {
    model: &'a Model,
    standing: &'a Level,
    level: &'a Level,
}

/// What is wrong, in a sentence, where it can be told more closely than the refusal does.
pub fn told(named: &Named, certifier: &Certifier, level: &Level, refusal: &Refusal) -> Option<String> {
    let standing = certifier.standing();
    let offer = Offer { model: certifier.model(), standing: &standing, level };
    let at = refusal.place.number();
    match refusal.rule {
        Rule::LevelSize => Some(format!(
            "it has {} and {}",
            counted(level.vectors().count(), "vector"),
            counted(level.points().count(), "point")
        )),
        Rule::Numbers => offer.missing(at, named),
        Rule::Range => offer.outside(TICKS * (certifier.level() as i128 + 1), named),
        Rule::PointTotal => Some(format!("point {}: its weights total {}", at, told::total(level.point(at)?.weights))),
        Rule::VectorBackup => {
            let (state, ticks) = offer.vector(at)?;
            let entry = level.vector(at)?.entries.get(state)?;
            Some(format!(
                "vector {}: the entry of state {} is {}, {} above its backup; {} would pass",
                at,
                named.states.or_number(state),
                entry,
                counted(ticks, "tick"),
                i128::from(*entry) - ticks
            ))
        }
        Rule::CornerBackup => {
            let (action, ticks) = offer.corner(at)?;
            let corner = level.corners().get(at)?;
            Some(format!(
                "corner {}: {} is {} below the backup of action {}; {} would pass",
                named.states.or_number(at),
                corner,
                counted(ticks, "tick"),
                named.actions.or_number(action),
                i128::from(*corner) + ticks
            ))
        }
        Rule::PointBackup => {
            let (action, short) = offer.point(at)?;
            let point = level.point(at)?;
            Some(format!(
                "point {}: its value {} (ticks x its total weight, {}) is {} below the backup of action {}; {} would pass",
                at,
                point.value,
                total(point.weights),
                short,
                named.actions.or_number(action),
                i128::from(point.value) + short
            ))
        }
        Rule::Covered => {
            let vector = level.vector(at)?;
            let Lost { state, reached, observation } = offer.lost(at)?;
            Some(format!(
                "vector {}: state {} is covered, from which action {} leads to state {} with observation {}; vector {}, chosen \
                 there, does not cover it",
                at,
                named.states.or_number(state),
                named.actions.or_number(usize::from(vector.action)),
                named.states.or_number(reached),
                named.observations.or_number(observation),
                vector.choices.get(observation)?
            ))
        }
        _ => None,
    }
}

/// A covered state, and what is reached from there that is not covered.
struct Lost {
    state: usize,
    reached: usize,
    observation: usize,
}

fn total(weights: &[u32]) -> u64 {
    weights.iter().map(|&weight| u64::from(weight)).sum()
}

impl Offer<'_> {
    /// The action or the choice of a vector that does not exist. Of numbers that their types do not hold the largest stands here.
    fn missing(&self, number: usize, named: &Named) -> Option<String> {
        let vector = self.level.vector(number)?;
        let actions = self.model.shape().actions;
        if usize::from(vector.action) >= actions {
            let action = or_more(vector.action, u8::MAX);
            return Some(format!("vector {}: it has action {}, and the last one is {}", number, action, actions - 1));
        }
        let last = self.standing.vectors().count() - 1;
        let (observation, &choice) =
            vector.choices.iter().enumerate().find(|(_, &choice)| usize::from(choice) > last)?;
        Some(format!(
            "vector {}: with observation {} it goes on with vector {}, and the last one of the level below is {}",
            number,
            named.observations.or_number(observation),
            or_more(choice, u16::MAX),
            last
        ))
    }

    /// The first entry of a covered state, else the first corner, else the first value that is further from 0 than its level
    /// allows. A point whose weights are refused by themselves is passed over.
    fn outside(&self, range: i128, named: &Named) -> Option<String> {
        let told = |what: String, value: i64, range: i128| {
            let far = i128::from(value).abs() > range;
            far.then(|| format!("{} is {}, further than {} from 0", what, value, range))
        };
        let entry = |vector: usize, state: usize, entry: i64| {
            told(format!("vector {}: the entry of state {}", vector, named.states.or_number(state)), entry, range)
        };
        let mut entries = self.level.vectors().enumerate().filter_map(|(number, vector)| {
            vector.covered().find_map(|state| entry(number, state, vector.entries[state]))
        });
        let mut corners =
            self.level.corners().iter().enumerate().filter_map(|(state, &corner)| {
                told(format!("corner {}", named.states.or_number(state)), corner, range)
            });
        let mut values = self.level.points().enumerate().filter_map(|(number, point)| {
            let total = Some(total(point.weights)).filter(|total| TOTALS.contains(total))?;
            told(format!("point {}: its value", number), point.value, range * i128::from(total))
        });
        entries.next().or_else(|| corners.next()).or_else(|| values.next())
    }

    /// The first covered state of a vector from which a state is reached that the vector chosen there does not cover.
    fn lost(&self, number: usize) -> Option<Lost> {
        let vector = self.level.vector(number)?;
        let shape = self.model.shape();
        for state in vector.covered() {
            for reached in 0..shape.states {
                for observation in 0..shape.observations {
                    let chosen = self.standing.vector(usize::from(*vector.choices.get(observation)?))?;
                    let likely = self.successor(usize::from(vector.action), state, reached, observation);
                    if likely > 0 && !chosen.covers(reached) {
                        return Some(Lost { state, reached, observation });
                    }
                }
            }
        }
        None
    }

    /// The covered state at which a vector's entry is furthest above its backup, and by how many ticks.
    fn vector(&self, number: usize) -> Option<(usize, i128)> {
        let vector = self.level.vector(number)?;
        let action = usize::from(vector.action);
        let shape = self.model.shape();
        let above = |state: usize| -> Option<(usize, i128)> {
            let mut next = 0;
            for reached in 0..shape.states {
                for observation in 0..shape.observations {
                    let chosen = self.standing.vector(usize::from(*vector.choices.get(observation)?))?;
                    let likely = self.successor(action, state, reached, observation);
                    next += likely * i128::from(*chosen.entries.get(reached)?);
                }
            }
            let reward = i128::from(self.model.reward(state, action));
            let backup = K * reward + i128::from(self.model.discount()) * next;
            Some((state, i128::from(*vector.entries.get(state)?) - backup.div_euclid(K)))
        };
        let all: Option<Vec<(usize, i128)>> = vector.covered().map(above).collect();
        first_largest(all?)
    }

    /// The action whose backup a corner is furthest below, and by how many ticks.
    fn corner(&self, state: usize) -> Option<(usize, i128)> {
        let mut weights = vec![0; self.model.shape().states];
        *weights.get_mut(state)? = 1;
        self.below(&weights, *self.level.corners().get(state)?)
    }

    /// The action whose backup a point's value is furthest below, and by how much: ticks times its total weight.
    fn point(&self, number: usize) -> Option<(usize, i128)> {
        let point = self.level.point(number)?;
        self.below(point.weights, point.value)
    }

    /// K x R + g x the sum over o of the ceiling at q, for every action; how far the value is below the largest, rounded up.
    fn below(&self, weights: &[u32], value: i64) -> Option<(usize, i128)> {
        let shape = self.model.shape();
        let short = |action: usize| -> Option<(usize, i128)> {
            let mut next = 0;
            for observation in 0..shape.observations {
                let weight = |reached: usize| -> i128 {
                    let from = |(state, &weight): (usize, &u32)| {
                        i128::from(weight) * self.successor(action, state, reached, observation)
                    };
                    weights.iter().enumerate().map(from).sum()
                };
                next += self.ceiling(&(0..shape.states).map(weight).collect::<Vec<_>>())?;
            }
            let reward =
                |(state, &weight): (usize, &u32)| i128::from(weight) * i128::from(self.model.reward(state, action));
            let now: i128 = weights.iter().enumerate().map(reward).sum();
            let backup = K * now + i128::from(self.model.discount()) * next;
            // Rounded up: minus the floor of minus the backup.
            Some((action, -(-backup).div_euclid(K) - i128::from(value)))
        };
        let all: Option<Vec<(usize, i128)>> = (0..shape.actions).map(short).collect();
        first_largest(all?)
    }

    /// T x O, in millionths.
    fn successor(&self, action: usize, state: usize, reached: usize, observation: usize) -> i128 {
        i128::from(self.model.transition(state, action, reached))
            * i128::from(self.model.observation(action, reached, observation))
    }

    /// The standing level's sawtooth at some weights.
    fn ceiling(&self, weights: &[i128]) -> Option<i128> {
        let corners = |with: &mut dyn Iterator<Item = i128>| -> i128 {
            self.standing.corners().iter().zip(with).map(|(&corner, weight)| i128::from(corner) * weight).sum()
        };
        let flat = corners(&mut weights.iter().copied());
        let mut largest = 0;
        for point in self.standing.points() {
            let gain = corners(&mut point.weights.iter().map(|&weight| i128::from(weight))) - i128::from(point.value);
            if gain > 0 {
                let ratios = point.weights.iter().zip(weights).filter(|(&part, _)| part > 0);
                let drop = ratios.map(|(&part, weight)| (weight * gain).div_euclid(i128::from(part))).min()?;
                largest = largest.max(drop);
            }
        }
        Some(flat - largest)
    }
}

/// The first of the largest that are above 0.
fn first_largest(all: Vec<(usize, i128)>) -> Option<(usize, i128)> {
    let most = all.iter().map(|&(_, amount)| amount).max().filter(|&most| most > 0)?;
    all.into_iter().find(|&(_, amount)| amount == most)
}

#[cfg(test)]
mod tests {
    use super::*;
    use biidhaqun::{Error, Points};

    const MODELS: [&[u8]; 3] = [
        include_bytes!("../../../../examples/dough.pomdp"),
        include_bytes!("../../../../examples/tiger.pomdp"),
        include_bytes!("../../../../examples/crying-baby.pomdp"),
    ];

    /// How a level is refused.
    fn refused(certifier: &Certifier, level: &Level) -> Option<(u64, usize)> {
        match certifier.clone().offer(level) {
            Ok(()) => None,
            Err(Error::Refused(refusal)) => Some((refusal.number(), refusal.place.number())),
            Err(Error::Length(length)) => panic!("{}", length),
        }
    }

    /// The library is the judge: moved by the shortfall, a number passes; by one less, it is refused as before.
    #[test]
    fn what_is_missing_is_what_is_missing() {
        let mut tried = 0;
        for file in MODELS {
            let (model, start) = Model::read(file).unwrap();
            let mut certifier = Certifier::open(&model).unwrap();
            for _ in 0..6 {
                let built = certifier.build(&Points { weights: vec![start.weights.clone(), vec![1, 2]] }).unwrap();
                let standing = certifier.standing();
                for by in [1, 2, 57, 1_000] {
                    for (v, s) in (0..built.vectors().count()).flat_map(|v| [(v, 0), (v, 1)]) {
                        let mut level = built.clone();
                        level.entries_mut(v)[s] += by;
                        let offer = Offer { model: &model, standing: &standing, level: &level };
                        assert_eq!(refused(&certifier, &level), Some((13, v)));
                        let (state, short) = offer.vector(v).unwrap();
                        assert_eq!(state, s);
                        let mut moved = level.clone();
                        moved.entries_mut(v)[s] -= short as i64;
                        assert_eq!(refused(&certifier, &moved), None);
                        moved.entries_mut(v)[s] += 1;
                        assert_eq!(refused(&certifier, &moved), Some((13, v)));
                        tried += 1;
                    }
                    for s in 0..2 {
                        let mut level = built.clone();
                        level.corners_mut()[s] -= by;
                        assert_eq!(refused(&certifier, &level), Some((14, s)));
                        let offer = Offer { model: &model, standing: &standing, level: &level };
                        let (_, short) = offer.corner(s).unwrap();
                        level.corners_mut()[s] += short as i64;
                        assert_eq!(refused(&certifier, &level), None);
                        level.corners_mut()[s] -= 1;
                        assert_eq!(refused(&certifier, &level), Some((14, s)));
                    }
                    for j in 0..2 {
                        let mut level = built.clone();
                        *level.value_mut(j) -= by;
                        assert_eq!(refused(&certifier, &level), Some((15, j)));
                        let offer = Offer { model: &model, standing: &standing, level: &level };
                        let (_, short) = offer.point(j).unwrap();
                        *level.value_mut(j) += short as i64;
                        assert_eq!(refused(&certifier, &level), None);
                        *level.value_mut(j) -= 1;
                        assert_eq!(refused(&certifier, &level), Some((15, j)));
                    }
                }
                certifier.offer(&built).unwrap();
            }
        }
        assert!(tried > 100);
    }

    /// So it is for ranges: what is told to be outside is refused by 11, and at the end of its range it is not.
    #[test]
    fn what_is_outside_is_outside() {
        for file in MODELS {
            let (model, start) = Model::read(file).unwrap();
            let mut certifier = Certifier::open(&model).unwrap();
            for t in 1..=3 {
                let built = certifier.build(&Points { weights: vec![start.weights.clone(), vec![1, 2]] }).unwrap();
                let standing = certifier.standing();
                let far = TICKS as i64 * t;
                let told = |level: &Level| {
                    let offer = Offer { model: &model, standing: &standing, level };
                    offer.outside(far.into(), &Named::default())
                };
                let each = |about: &str, end: i64, set: &dyn Fn(&mut Level, i64)| {
                    for sign in [1, -1] {
                        let mut level = built.clone();
                        set(&mut level, sign * (end + 1));
                        assert_eq!(refused(&certifier, &level), Some((11, 1)));
                        let wanted = format!("{} is {}, further than {} from 0", about, sign * (end + 1), end);
                        assert_eq!(told(&level), Some(wanted));
                        set(&mut level, sign * end);
                        assert_ne!(refused(&certifier, &level), Some((11, 1)));
                        assert_eq!(told(&level), None);
                    }
                };
                each("vector 1: the entry of state 1", far, &|level, value| level.entries_mut(1)[1] = value);
                each("corner 1", far, &|level, value| level.corners_mut()[1] = value);
                each("point 1: its value", 3 * far, &|level, value| *level.value_mut(1) = value);
                certifier.offer(&built).unwrap();
            }
        }
    }

    /// The library is the judge here, too: a vector without the state that is told passes, or loses another one.
    #[test]
    fn what_is_lost_is_what_is_lost() {
        let mut told = 0;
        for file in MODELS {
            let (model, _) = Model::read(file).unwrap();
            let shape = model.shape();
            let mut certifier = Certifier::open(&model).unwrap();
            let mut first = certifier.build(&Points::default()).unwrap();
            *first.mask_mut(0) = 1;
            certifier.offer(&first).unwrap();
            let standing = certifier.standing();
            for action in 0..shape.actions {
                for choice in 0..2 {
                    let mut level = Level::new(shape);
                    let entries = vec![-200_000; shape.states];
                    level.add_vector(action as u8, &vec![choice; shape.observations], &entries).unwrap();
                    level.corners_mut().fill(200_000);
                    while let Some(refusal) = refused(&certifier, &level) {
                        assert_eq!((refusal, choice), ((21, 0), 0));
                        let offer = Offer { model: &model, standing: &standing, level: &level };
                        let Lost { state, reached, .. } = offer.lost(0).unwrap();
                        assert!(level.vector(0).unwrap().covers(state) && reached != 0);
                        *level.mask_mut(0) &= !(1 << state);
                        told += 1;
                    }
                    let offer = Offer { model: &model, standing: &standing, level: &level };
                    assert!(offer.lost(0).is_none());
                }
            }
        }
        assert!(told > 5);
    }
}
