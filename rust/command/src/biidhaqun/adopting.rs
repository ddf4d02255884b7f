//! `certify` with a solver's files: for each step a level, offered in turn.

use crate::building::{self, about_points, or_start};
use crate::offering::{self, Asked};
use crate::stop::Stop;
use biidhaqun::slices::SOLVER_BYTES;
use biidhaqun::{Certifier, Error, Mixture, Points, Refusal, Rule};
use command::files;
use command::options::Weights;
use command::solver_files::{judge, Step, Trouble, Which};
use command::told::Told;
use std::path::{Path, PathBuf};

/// The files of one step.
struct Files {
    paths: [PathBuf; 2],
    alpha: Vec<u8>,
    graph: Vec<u8>,
}

pub fn run(path: &Path, files: &[PathBuf], points: &[Weights], asked: &Asked, json: bool) -> Result<(), Stop> {
    if files.len() % 2 == 1 {
        let message = "a solver's files come in pairs, an alpha file and a policy graph for each step";
        return Err(Stop::Usage(format!("{}; here are {}", message, files.len())));
    }
    let model = building::read(path)?;
    let steps = files.chunks(2).map(read).collect::<Result<Vec<_>, _>>()?;
    let points = or_start(building::fitting("--point", points, model.model.shape().states)?, &model.start);
    offering::run(&model, steps.len(), asked, json, |certifier, number| step(certifier, &steps[number], &points))
}

fn read(paths: &[PathBuf]) -> Result<Files, Stop> {
    let paths = [paths[0].clone(), paths[1].clone()];
    let file = |path: &Path| files::front(path, SOLVER_BYTES).map_err(Stop::File);
    let (alpha, graph) = (file(&paths[0])?, file(&paths[1])?);
    Ok(Files { paths, alpha, graph })
}

/// Makes the level of one step, and offers it.
fn step(certifier: &mut Certifier, files: &Files, points: &[Mixture]) -> Result<(), Stop> {
    let given = Points { weights: points.iter().map(|point| point.weights.clone()).collect() };
    let level = certifier.adopt(&files.alpha, &files.graph, &given).map_err(|error| match error {
        Error::Length(length) => Stop::Usage(length.to_string()),
        Error::Refused(refusal) => refused(certifier, files, points, refusal),
    })?;
    certifier.offer(&level).map_err(|error| Stop::Ours(format!("an adopted level is not accepted: {}", error)))
}

/// A refusal with the file and the word that it is about, or the points.
fn refused(certifier: &Certifier, files: &Files, points: &[Mixture], refusal: Refusal) -> Stop {
    let shape = certifier.model().shape();
    let asked = Step {
        alpha: &files.alpha,
        graph: &files.graph,
        states: shape.states,
        actions: shape.actions,
        observations: shape.observations,
        level: certifier.level() + 1,
        below: certifier.standing().vectors().count(),
        points: points.len(),
    };
    let solver = |which: Which, told| {
        let (path, file) = match which {
            Which::Alpha => (&files.paths[0], &files.alpha),
            Which::Graph => (&files.paths[1], &files.graph),
        };
        Stop::Solver { path: path.clone(), file: file.clone(), refusal, told }
    };
    let same = |trouble: &Trouble| (trouble.number, trouble.place) == (refusal.number(), refusal.place.number());
    match (refusal.rule, judge(&asked).err().filter(same)) {
        (Rule::Levels, _) => {
            let title = "100 levels already stand".to_string();
            solver(Which::Alpha, Some(Told { title, marks: Vec::new(), notes: Vec::new() }))
        }
        (_, Some(Trouble { which: Some(which), told, .. })) => solver(which, Some(told)),
        (_, Some(Trouble { told, .. })) => Stop::Refused { refusal, note: told.title },
        (Rule::PointTotal, None) => Stop::Refused { refusal, note: about_points(points, &refusal).unwrap_or_default() },
        (_, None) => solver(Which::Alpha, None),
    }
}
