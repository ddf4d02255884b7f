//! How much rounding costs: levels that are built and offered in turn, each entry held against what the plan earns that its
//! vector names.

use crate::calls::Calls;
use crate::gen::{self, DOCUMENT};
use crate::rng::Rng;
use crate::show;
use num_bigint::BigInt;
use reference::{earned, scale, Level, Model, Points, Tables};

/// No run has more point lists than this.
const LISTS: u64 = 12;

/// The unit in which losses are told: so many make a tick.
pub const PARTS: u64 = 1_000;

/// Tables, and the point lists to build at; some of them are refused.
pub struct Climb {
    pub tables: Tables,
    pub points: Vec<Points>,
}

/// A run upon a model of any size, the larger ones with few lists.
pub fn random(rng: &mut Rng) -> Climb {
    let shape = gen::shape(rng);
    let lists = if shape.n > 4 { 1 + rng.below(3) } else { 1 + rng.below(LISTS) };
    let tables = gen::tables(rng, shape);
    let mut points = Vec::new();
    for _ in 0..lists {
        let count = rng.index(3);
        let mut given = gen::points(rng, shape.n, count);
        if rng.once_in(8) {
            gen::spoil_points(rng, shape.n, &mut given);
        }
        points.push(given);
    }
    Climb { tables, points }
}

impl Climb {
    pub fn show(&self) -> String {
        let points: Vec<String> = self.points.iter().map(show::points).collect();
        show::tables(&self.tables) + &points.concat()
    }
}

/// Follows a run. At level t each entry e of a vector is at most what its plan earns, N / K^t, and less than t ticks below it:
/// K^t × e ≤ N < K^t × (e + t). Gives the largest loss at each level, in parts of a tick, rounded down.
pub fn check(climb: &Climb, by: &dyn Calls) -> Result<Vec<BigInt>, String> {
    let model = Model::of(&climb.tables, &DOCUMENT).map_err(|refusal| refusal.to_string())?;
    let mut certifier = by.open(&climb.tables).map_err(|refusal| format!("opening is {}", refusal))?;
    // N of the plan that each vector of the standing level names, from each state.
    let mut plans = vec![vec![BigInt::from(0); model.n]];
    let mut losses = Vec::new();
    for points in &climb.points {
        let built = by.build(&certifier, points);
        let level = built.as_ref().map_or_else(|_| Level::default(), Level::clone);
        let offered = by.offer(&mut certifier, &level);
        if offered.is_ok() != built.is_ok() {
            return Err(format!("building answers {:?}, the offer {:?}", built.map(|_| ()), offered));
        }
        if built.is_err() {
            continue;
        }
        let t = losses.len() as u32 + 1;
        let mut largest = BigInt::from(0);
        let mut named = Vec::new();
        for v in 0..level.vectors as usize {
            let chosen = &level.choices[v * model.k..(v + 1) * model.k];
            let next: Vec<&[BigInt]> = chosen.iter().map(|&choice| plans[choice as usize].as_slice()).collect();
            let n = earned(&model, level.actions[v] as usize, t, &next);
            for (s, earns) in n.iter().enumerate() {
                let lost = earns - scale(t) * level.entries[v * model.n + s];
                if lost < BigInt::from(0) || lost >= scale(t) * t {
                    return Err(format!(
                        "at level {} vector {} loses {} / {} ticks at state {}",
                        t,
                        v,
                        lost,
                        scale(t),
                        s
                    ));
                }
                largest = largest.max(lost * PARTS / scale(t));
            }
            named.push(n);
        }
        plans = named;
        losses.push(largest);
    }
    Ok(losses)
}
