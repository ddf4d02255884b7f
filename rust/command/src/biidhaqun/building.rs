//! Levels that are built at points, offered, and asked at mixtures.

use crate::stop::Stop;
use biidhaqun::slices::FILE_BYTES;
use biidhaqun::{Certifier, Error, Mixture, Model, Points, Refusal, Rule, Shape, TotalsWithin};
use command::files;
use command::names::{self, Named};
use command::options::{Built, Ranges, Weights, LEVELS};
use command::told::{self, counted, or_more};
use indicatif::{ProgressBar, ProgressFinish, ProgressStyle};
use std::path::Path;

/// A model file that was accepted, and what is asked of it.
pub struct Building {
    pub model: Model,
    pub named: Named,
    pub start: Mixture,
    /// Where levels are built.
    pub points: Vec<Mixture>,
    /// Where totals are asked.
    pub mixtures: Vec<Mixture>,
    pub levels: u64,
}

/// Weights that are known within ranges.
pub struct Known {
    pub lows: Mixture,
    pub highs: Mixture,
    /// As they are written in options: `40..60,40..60`.
    pub text: String,
}

impl Known {
    /// Those of the option, if there is a range for each state.
    pub fn all(list: &[Ranges], states: usize) -> Result<Vec<Known>, Stop> {
        let one = |Ranges(ranges): &Ranges| {
            let words: Vec<String> =
                ranges.iter().map(|&(low, high)| format!("{}..{}", shown(low), shown(high))).collect();
            let (lows, highs): (Vec<u32>, Vec<u32>) = ranges.iter().copied().unzip();
            let known = Known { lows: Mixture::new(&lows), highs: Mixture::new(&highs), text: words.join(",") };
            if ranges.len() == states {
                return Ok(known);
            }
            Err(unfitting("--within", &known.text, counted(ranges.len(), "range"), states))
        };
        list.iter().map(one).collect()
    }

    /// What is certified of all mixtures inside; none where no vector counts at the highs.
    pub fn totals(&self, certifier: &Certifier) -> Result<Option<TotalsWithin>, Stop> {
        match certifier.totals_within(&self.lows, &self.highs) {
            Ok(totals) => Ok(Some(totals)),
            Err(Error::Refused(Refusal { rule: Rule::Counting, .. })) => Ok(None),
            Err(Error::Refused(refusal)) => {
                Err(Stop::Refused { refusal, note: format!("the ranges are {}", self.text) })
            }
            Err(Error::Length(length)) => Err(Stop::Usage(length.to_string())),
        }
    }
}

/// What is read of a model file: the model, its start mixture, and the names in its comments.
pub struct Read {
    pub model: Model,
    pub start: Mixture,
    pub named: Named,
    /// Why other names in its comments do not count.
    pub passed_over: Vec<String>,
}

/// Reads a model file, if the library accepts it.
pub fn read(path: &Path) -> Result<Read, Stop> {
    let file = files::front(path, FILE_BYTES).map_err(Stop::File)?;
    match Model::read(&file) {
        Ok((model, start)) => {
            let Shape { states, actions, observations } = model.shape();
            let named = Named::of(&file, states, actions, observations);
            let passed_over = names::passed_over(&file, states, actions, observations);
            Ok(Read { model, start, named, passed_over })
        }
        Err(refusal) => Err(Stop::Model { path: path.to_path_buf(), file, refusal }),
    }
}

impl Building {
    /// Reads the file. Levels are built at the points asked for; totals are asked there, and at the mixtures asked for. Where
    /// nothing is said, the start mixture serves.
    pub fn of(built: &Built, at: &[Weights]) -> Result<Building, Stop> {
        let Read { model, start, named, .. } = read(&built.file)?;
        let states = model.shape().states;
        let points = fitting("--point", &built.points, states)?;
        let asked = fitting("--at", at, states)?;
        let mixtures = or_start([&points[..], &asked[..]].concat(), &start);
        let points = or_start(points, &start);
        Ok(Building { model, named, start, points, mixtures, levels: built.levels.unwrap_or(LEVELS) })
    }

    /// Builds and offers the levels one upon the other, and shows the certifier after each; the last is given back.
    pub fn climb(&self, mut each: impl FnMut(&Certifier) -> Result<(), Stop>) -> Result<Certifier, Stop> {
        let points = Points { weights: self.points.iter().map(|point| point.weights.clone()).collect() };
        let mut certifier = Certifier::open(&self.model).map_err(|refusal| self.refused(refusal.into()))?;
        let bar = progress(self.levels, "levels");
        for _ in 0..self.levels {
            let level = certifier.build(&points).map_err(|error| self.refused(error))?;
            certifier.offer(&level).map_err(|error| self.refused(error))?;
            each(&certifier)?;
            bar.inc(1);
        }
        Ok(certifier)
    }

    /// What is certified at a mixture.
    pub fn totals(&self, certifier: &Certifier, mixture: &Mixture) -> Result<biidhaqun::Totals, Stop> {
        certifier.totals(mixture).map_err(|error| refused_at(mixture, error))
    }

    /// A refusal, with what it is about.
    fn refused(&self, error: Error) -> Stop {
        let refusal = match error {
            Error::Refused(refusal) => refusal,
            Error::Length(length) => return Stop::Usage(length.to_string()),
        };
        let ours = "this command should not meet such a refusal, which is an error of ours: please report it";
        let note = about_points(&self.points, &refusal).unwrap_or_else(|| ours.to_string());
        Stop::Refused { refusal, note }
    }
}

/// What is wrong with points that levels were to be made at, where they are refused.
pub fn about_points(points: &[Mixture], refusal: &Refusal) -> Option<String> {
    let at = refusal.place.number();
    match (refusal.rule, points.get(at)) {
        (Rule::PointTotal, Some(point)) => {
            Some(format!("point {} is {}, which total {}", at, joined(&point.weights), told::total(&point.weights)))
        }
        (Rule::LevelSize, _) => Some(format!("there are {} points, and levels are made at 16 at most", points.len())),
        _ => None,
    }
}

/// Why there are no totals at a mixture.
pub fn refused_at(mixture: &Mixture, error: Error) -> Stop {
    match error {
        Error::Refused(refusal) => {
            Stop::Refused { refusal, note: format!("the mixture is {}", joined(&mixture.weights)) }
        }
        Error::Length(length) => Stop::Usage(length.to_string()),
    }
}

/// The mixtures that are asked for, or else the start mixture.
pub fn or_start(asked: Vec<Mixture>, start: &Mixture) -> Vec<Mixture> {
    if asked.is_empty() {
        vec![start.clone()]
    } else {
        asked
    }
}

/// The weights of an option, if there is one for each state.
pub fn fitting(option: &str, list: &[Weights], states: usize) -> Result<Vec<Mixture>, Stop> {
    let one = |weights: &Weights| {
        let found = weights.0.len();
        if found == states {
            return Ok(Mixture::new(&weights.0));
        }
        Err(unfitting(option, &joined(&weights.0), counted(found, "weight"), states))
    };
    list.iter().map(one).collect()
}

/// An option that does not have something for each state.
fn unfitting(option: &str, given: &str, found: String, states: usize) -> Stop {
    Stop::Usage(format!("{} {} has {}, and the model has {}", option, given, found, counted(states, "state")))
}

/// Weights as they are written in options: `50,50`.
pub fn joined(weights: &[u32]) -> String {
    let words: Vec<String> = weights.iter().copied().map(shown).collect();
    words.join(",")
}

/// A weight; of the largest, that it may be more.
fn shown(weight: u32) -> String {
    or_more(weight, u32::MAX)
}

/// A bar on a terminal, gone when it is dropped; nothing elsewhere.
pub fn progress(length: u64, what: &'static str) -> ProgressBar {
    let style = ProgressStyle::with_template("{bar:40} {pos} of {len} {msg}");
    let bar = ProgressBar::new(length).with_message(what).with_finish(ProgressFinish::AndClear);
    match style {
        Ok(style) => bar.with_style(style),
        Err(_) => bar,
    }
}
