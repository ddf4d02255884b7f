//! How often the informed ceiling is lower than the sawtooth, and by how much: levels built in turn upon the model files of a
//! folder, asked at some dozens of mixtures.

use crate::files;
use crate::gen::{self, DOCUMENT};
use crate::rng::Rng;
use num_bigint::BigInt;
use reference::{
    build, offer, open, read, totals, Certifier, Points, Reading, Refusal, BUILT_POINTS, POINT_TOTAL, STATES,
};
use std::path::Path;
use std::{fs, io};

/// Levels that are built.
const LEVELS: u64 = 12;
/// Random mixtures that are asked at, beside the corners, the start and equal weights.
const MIXTURES: usize = 48;

/// What was seen at the mixtures of one model's levels.
#[derive(Clone, Copy, Debug, Default, PartialEq)]
pub struct Seen {
    pub asked: u64,
    /// Where the informed ceiling is the lower one.
    pub lower: u64,
    /// How far it is below the sawtooth there in all, and at most, in ticks for a weight of 1.
    pub ticks: f64,
    pub most: f64,
    /// Which part of the sawtooth's gap that takes away, in all.
    pub part: f64,
}

/// Builds levels at the start mixture and so many more points, and asks at each.
pub fn seen(rng: &mut Rng, reading: &Reading, more: usize) -> Result<Seen, Refusal> {
    let n = reading.tables.states as usize;
    let mut points = Points { count: 1 + more as u64, weights: vec![0; (BUILT_POINTS + 1) * STATES] };
    points.weights[..n].copy_from_slice(&reading.start[..n]);
    for weights in points.weights[n..].chunks_exact_mut(n).take(more) {
        weights.copy_from_slice(&gen::shares(rng, n, POINT_TOTAL));
    }
    let corner = |s: usize| (0..n).map(|at| u64::from(at == s)).collect();
    let mut mixtures: Vec<Vec<u64>> = (0..n).map(corner).collect();
    mixtures.push(reading.start[..n].to_vec());
    mixtures.push(vec![1; n]);
    mixtures.extend((0..MIXTURES).map(|_| gen::shares(rng, n, POINT_TOTAL)));

    let mut certifier = open(&reading.tables, &DOCUMENT)?;
    let mut seen = Seen::default();
    for _ in 0..LEVELS {
        let level = build(&certifier, &points, &DOCUMENT)?;
        offer(&mut certifier, &level, &DOCUMENT)?;
        for mixture in &mixtures {
            seen.ask(&certifier, mixture)?;
        }
    }
    Ok(seen)
}

impl Seen {
    fn ask(&mut self, certifier: &Certifier, mixture: &[u64]) -> Result<(), Refusal> {
        let mut weights = mixture.to_vec();
        weights.resize(STATES, 0);
        let at = totals(certifier, &weights, &DOCUMENT)?;
        self.asked += 1;
        if at.informed < at.sawtooth {
            let whole = |number: &BigInt| i64::try_from(number).unwrap_or(i64::MAX) as f64;
            let ticks = whole(&(&at.sawtooth - &at.informed)) / mixture.iter().sum::<u64>() as f64;
            self.lower += 1;
            self.ticks += ticks;
            self.most = self.most.max(ticks);
            self.part += whole(&(&at.sawtooth - &at.informed)) / whole(&(&at.sawtooth - &at.lower));
        }
        Ok(())
    }

    /// How often it is lower, by how many ticks on average and at most, and which part of the gap it takes away there.
    fn line(&self) -> String {
        let each = self.lower.max(1) as f64;
        format!(
            "{:>6} of {:>6} {:>6.1}% {:>10.1} {:>10.1} {:>9.1}%",
            self.lower,
            self.asked,
            100.0 * self.lower as f64 / self.asked.max(1) as f64,
            self.ticks / each,
            self.most,
            100.0 * self.part / each
        )
    }
}

/// Prints a line for each model file of a folder, built at the start alone and at more points.
pub fn run(examples: &Path, seed: u64) -> io::Result<bool> {
    println!("levels 1 to {}, at each corner, the start, equal weights and {} random mixtures", LEVELS, MIXTURES);
    println!(
        "where the informed ceiling is below the sawtooth: how often, ticks on average and at most, part of the gap"
    );
    let mut well = true;
    for path in files::models(examples)? {
        let name = path.file_stem().map_or(String::new(), |name| name.to_string_lossy().into_owned());
        let file = fs::read(&path)?;
        for more in [0, BUILT_POINTS - 1] {
            let mut rng = Rng::for_case(seed, "ceilings", more as u64);
            match read(&file, &DOCUMENT).and_then(|reading| seen(&mut rng, &reading, more)) {
                Ok(seen) => println!("{:<14} {:>2} points {}", name, more + 1, seen.line()),
                Err(refusal) => {
                    println!("{:<14} {}", name, refusal);
                    well = false;
                }
            }
        }
    }
    Ok(well)
}

#[cfg(test)]
mod tests {
    use super::*;

    /// On the tempering model, three states behind a probe, the informed rows take something away.
    #[test]
    fn the_tempering_example() {
        let file = include_bytes!("../../../examples/tempering.pomdp");
        let reading = read(file, &DOCUMENT).unwrap();
        let found = seen(&mut Rng::for_case(1, "ceilings", 0), &reading, 0).unwrap();
        assert_eq!(found.asked, LEVELS * (3 + 2 + MIXTURES as u64));
        assert!(found.lower > 0 && found.lower < found.asked);
        assert!(found.most >= found.ticks / found.lower as f64 && found.part <= found.lower as f64);
    }
}
