//! The command `biidhaqun`: asks the proved library, and shows what it answers.

mod adopting;
mod building;
mod certify;
mod check;
mod convert;
mod import;
mod levels;
mod offering;
mod picture;
mod prices;
mod report;
mod shortfall;
mod stop;

use command::options::{self, exit, Request};
use command::{explain, files, streams};
use offering::Asked;
use std::process;
use stop::Stop;

fn main() {
    process::exit(options::ended(serve));
}

/// Serves a request; the exit status, or a sentence where an output cannot be written or the library is of another version.
fn serve(request: Request) -> Result<i32, String> {
    if biidhaqun::version() != biidhaqun::VERSION {
        let versions = format!("version {}, and the command is for {}", biidhaqun::version(), biidhaqun::VERSION);
        return Err(format!("the library libbiidhaqun.a that was linked has {}", versions));
    }
    if let Some(message) = files::clash(&request) {
        return told(&message, exit::USAGE);
    }
    let form = Form::of(&request);
    let ended = match request {
        Request::Explain { number } => return explain::run(number),
        Request::Levels { built, at, within, prices, json } => {
            levels::run(&built, &Asked { at: &at, within: &within }, prices.as_deref(), json)
        }
        Request::Certify { file, levels, points, at, within, json } => match &levels[..] {
            [levels] if points.is_empty() => certify::run(&file, levels, &Asked { at: &at, within: &within }, json),
            [_] => {
                Err(Stop::Usage("--point is for a solver's files: levels in JSON have points of their own".to_string()))
            }
            files => adopting::run(&file, files, &points, &Asked { at: &at, within: &within }, json),
        },
        Request::Check { file } => check::run(&file),
        Request::Import { file, round, out } => import::run(&file, round, out.as_deref()),
        Request::Convert { file, out } => convert::run(&file, out.as_deref()),
        Request::Picture { built, at, out } => picture::run(&built, at.as_ref(), &out),
    };
    match ended {
        Ok(()) => Ok(exit::SERVED),
        Err(stop) => stopped(&stop, form),
    }
}

/// What standard output has of a refusal.
#[derive(Clone, Copy, PartialEq, Eq)]
enum Form {
    /// The line of the program `ladder`.
    Line,
    /// A JSON object.
    Object,
    Nothing,
}

impl Form {
    fn of(request: &Request) -> Form {
        match request {
            Request::Levels { json: true, .. } | Request::Certify { json: true, .. } => Form::Object,
            Request::Levels { .. } | Request::Certify { .. } => Form::Line,
            _ => Form::Nothing,
        }
    }
}

/// Says why the request was not served; the exit status.
fn stopped(stop: &Stop, form: Form) -> Result<i32, String> {
    match (form, stop.refusal()) {
        (Form::Line, Some(refusal)) => {
            streams::put(&format!("refused {} at {}\n", refusal.number(), refusal.place.number()))?;
        }
        (Form::Object, _) => levels::refused(stop).map_or(Ok(()), |text| streams::put(&text))?,
        _ => {}
    }
    explained(stop)
}

/// The same, on standard error.
fn explained(stop: &Stop) -> Result<i32, String> {
    match stop {
        Stop::Model { path, file, refusal } => {
            report::model(path, file, refusal)?;
            Ok(exit::REFUSED)
        }
        Stop::Conversion { path, file, refusal } => {
            report::conversion(path, file, refusal)?;
            Ok(exit::REFUSED)
        }
        Stop::Solver { path, file, refusal, told } => {
            match told {
                Some(told) => report::solver(path, file, refusal, told)?,
                None => report::unexplained(path, file, refusal)?,
            }
            Ok(exit::REFUSED)
        }
        Stop::Refused { refusal, note } => {
            let more = format!("  {}\n  `biidhaqun explain {}` says more", note, refusal.number());
            told(&format!("{}\n{}", refusal, more), exit::REFUSED)
        }
        Stop::Source { path, file, told } => {
            report::source(path, file, told)?;
            Ok(exit::REFUSED)
        }
        Stop::Levels(message) => told(message, exit::REFUSED),
        Stop::Ours(message) => {
            told(&format!("{}, which is an error of ours: please report it", message), exit::REFUSED)
        }
        Stop::Usage(message) => told(message, exit::USAGE),
        Stop::File(message) => told(message, exit::FILE),
        Stop::Printed(stop) => explained(stop),
    }
}

/// A message on standard error; the exit status beside it.
fn told(message: &str, status: i32) -> Result<i32, String> {
    streams::tell(&format!("biidhaqun: {}\n", message)).map(|()| status)
}
