//! Why a request is not served.

use crate::report;
use biidhaqun::Refusal;
use command::streams;
use command::told::Told;
use std::path::PathBuf;

#[derive(Debug)]
pub enum Stop {
    /// The library refused a model file.
    Model { path: PathBuf, file: Vec<u8>, refusal: Refusal },
    /// The library refused a file to convert.
    Conversion { path: PathBuf, file: Vec<u8>, refusal: Refusal },
    /// The library refused a solver's files: this one of them, for what is told, if the shell finds the same.
    Solver { path: PathBuf, file: Vec<u8>, refusal: Refusal, told: Option<Told> },
    /// The library refused something else.
    Refused { refusal: Refusal, note: String },
    /// A file in Cassandra's format cannot be turned into a model file.
    Source { path: PathBuf, file: Vec<u8>, told: Vec<Told> },
    /// A file of levels has another form.
    Levels(String),
    /// The command itself is wrong.
    Ours(String),
    /// The command line does not fit the model.
    Usage(String),
    /// A file cannot be read or written.
    File(String),
    /// One of the others, of which standard output has all that it is to have.
    Printed(Box<Stop>),
}

impl Stop {
    /// The library's refusal, if it is one.
    pub fn refusal(&self) -> Option<&Refusal> {
        match self {
            Stop::Model { refusal, .. }
            | Stop::Conversion { refusal, .. }
            | Stop::Solver { refusal, .. }
            | Stop::Refused { refusal, .. } => Some(refusal),
            _ => None,
        }
    }

    /// What is told beside the refusal, in a line.
    pub fn detail(&self) -> Option<String> {
        match self {
            Stop::Model { path, file, refusal } => report::model_in_brief(path, file, refusal),
            Stop::Solver { path, file, told, .. } => told.as_ref().map(|told| report::brief(path, file, told)),
            Stop::Refused { note, .. } => Some(note.clone()),
            _ => None,
        }
    }
}

/// Writes on standard output.
pub fn put(text: &str) -> Result<(), Stop> {
    streams::put(text).map_err(Stop::File)
}
