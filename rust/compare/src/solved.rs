//! Levels that a solver found, one upon the other: each must be certified, and how far below the floats is measured.

use crate::calls::Calls;
use crate::files::{self, TIGER};
use crate::gen::{self, Shape};
use crate::rng::Rng;
use crate::show;
use reference::{Points, Tables};
use solver::{alpha_file, graph_file, Vector};
use std::path::Path;
use std::{fs, io};

/// How many steps an example is solved for.
const STEPS: usize = 8;
/// How many vectors a step has at most: more take long.
const VECTORS: usize = 32;

/// A model, points for the ceilings, and the solver's steps upon the model.
pub struct Climb {
    pub tables: Tables,
    pub points: Points,
    pub steps: Vec<Vec<Vector>>,
}

impl Climb {
    /// So many steps, or as many as have no more vectors than that.
    pub fn of(tables: Tables, points: Points, count: usize) -> Climb {
        Climb::up_to(VECTORS, tables, points, count)
    }

    fn up_to(most: usize, tables: Tables, points: Points, count: usize) -> Climb {
        let steps = solver::steps(&solver::Model::of(&tables), count, most);
        Climb { tables, points, steps }
    }

    /// The alpha file and the graph of a step.
    pub fn files(&self, step: usize) -> (Vec<u8>, Vec<u8>) {
        (alpha_file(&self.steps[step]).into_bytes(), graph_file(&self.steps[step]).into_bytes())
    }

    pub fn show(&self) -> String {
        let mut text = show::tables(&self.tables) + &show::points(&self.points);
        for (t, vectors) in (1..).zip(&self.steps) {
            text.push_str(&format!("step {}:\n{}{}", t, alpha_file(vectors), graph_file(vectors)));
        }
        text
    }
}

/// Steps upon a random model of a few states.
pub fn random(rng: &mut Rng) -> Climb {
    let shape = Shape { n: 1 + rng.index(4), m: 1 + rng.index(3), k: 1 + rng.index(3) };
    let tables = gen::tables(rng, shape);
    let count = rng.index(3);
    let points = gen::points(rng, shape.n, count);
    Climb::of(tables, points, 1 + rng.index(5))
}

/// The tiger over forty steps: the last has over 100 vectors.
pub fn long() -> Climb {
    let tables = reference::read(TIGER.as_bytes(), &gen::DOCUMENT).expect("the model is read").tables;
    Climb::up_to(reference::VECTORS, tables, Points::none(), 40)
}

/// Steps upon each model file of a folder that is read, at its start mixture.
pub fn examples(folder: &Path) -> io::Result<Vec<(String, Climb)>> {
    let mut climbs = Vec::new();
    for path in files::models(folder)? {
        if let Ok(read) = reference::read(&fs::read(&path)?, &gen::DOCUMENT) {
            let points = Points::one(&read.start);
            climbs.push((path.display().to_string(), Climb::of(read.tables, points, STEPS)));
        }
    }
    Ok(climbs)
}

/// Certifies each step; for each level the largest loss of an entry against its float, in ticks. Each level must be made and
/// accepted, and lose less than a tick for each step, as a built level does.
pub fn check(climb: &Climb, by: &dyn Calls) -> Result<Vec<f64>, String> {
    let n = climb.tables.states as usize;
    let mut certifier = by.open(&climb.tables).map_err(|refusal| format!("the tables are {}", refusal))?;
    let mut losses = Vec::new();
    for (step, vectors) in climb.steps.iter().enumerate() {
        let (alpha, graph) = climb.files(step);
        let refused = |what: &str, refusal| format!("step {} is not {}: {}", step + 1, what, refusal);
        let level = by.adopt(&certifier, &alpha, &graph, &climb.points);
        let level = level.map_err(|refusal| refused("made a level", refusal))?;
        by.offer(&mut certifier, &level).map_err(|refusal| refused("accepted", refusal))?;
        if level.vectors != vectors.len() as u64 || certifier.level != step as u64 + 1 {
            return Err(format!("step {} has {} vectors, at level {}", step + 1, level.vectors, certifier.level));
        }
        let floats = vectors.iter().flat_map(|vector| &vector.values).map(|value| value * 100.0);
        let entries = level.entries[..vectors.len() * n].iter().map(|&entry| entry as f64);
        let loss = floats.zip(entries).map(|(float, entry)| float - entry).fold(0.0, f64::max);
        // Floats of some thousand units are exact to a millionth of a tick.
        if loss > step as f64 + 1.0 + 1e-4 {
            return Err(format!("step {} loses {} ticks", step + 1, loss));
        }
        losses.push(loss);
    }
    Ok(losses)
}

/// The largest of losses by level.
#[derive(Clone, Debug, Default)]
pub struct Losses(pub Vec<f64>);

impl Losses {
    pub fn with(&mut self, losses: &[f64]) {
        self.0.resize(self.0.len().max(losses.len()), 0.0);
        for (largest, loss) in self.0.iter_mut().zip(losses) {
            *largest = largest.max(*loss);
        }
    }

    /// `1: 0.000, 2: 0.995`.
    pub fn shown(&self) -> String {
        let one = |(t, loss): (usize, &f64)| format!("{}: {:.3}", t, loss);
        (1..).zip(&self.0).map(one).collect::<Vec<_>>().join(", ")
    }
}

#[cfg(test)]
mod tests {
    use super::*;
    use crate::gen::DOCUMENT;
    use reference::{Rules, Trap};

    #[test]
    fn every_step_is_certified() {
        let mut largest = Losses::default();
        for number in 0..100 {
            let climb = random(&mut Rng::for_case(1, "solved", number));
            largest.with(
                &check(&climb, &DOCUMENT).unwrap_or_else(|found| panic!("{}: {}\n{}", number, found, climb.show())),
            );
        }
        assert!(largest.0.len() >= 4, "{}", largest.shown());
    }

    #[test]
    fn the_examples_are_certified() {
        let folder = Path::new(env!("CARGO_MANIFEST_DIR")).join("../../examples");
        let climbs = examples(&folder).unwrap();
        assert!(climbs.len() >= 4);
        for (name, climb) in climbs {
            assert!(climb.steps.len() >= 5, "{}", name);
            let losses = check(&climb, &DOCUMENT).unwrap_or_else(|found| panic!("{}: {}", name, found));
            println!("{}: {:?}", name, losses);
        }
    }

    #[test]
    fn a_hundred_vectors_are_certified() {
        let climb = long();
        assert!(climb.steps.len() == 40 && climb.steps[39].len() > 100);
        assert!(check(&climb, &DOCUMENT).is_ok());
    }

    #[test]
    fn decimals_without_their_backup_are_refused() {
        let caught = |number| {
            let climb = random(&mut Rng::for_case(1, "solved", number));
            check(&climb, &Rules::broken(Trap::DecimalAlone)).is_err()
        };
        assert!((0..100).any(caught));
    }
}
