//! The command line.

use crate::streams;
use clap::{Parser, Subcommand};
use std::io::{self, Write};
use std::path::{Path, PathBuf};

/// How the command ends.
pub mod exit {
    /// The request was served.
    pub const SERVED: i32 = 0;
    /// The certifier or the importer refused what it was given.
    pub const REFUSED: i32 = 1;
    /// The command line does not fit.
    pub const USAGE: i32 = 2;
    /// A file, or an output, cannot be read or written.
    pub const FILE: i32 = 3;
}

const ENDS: &str =
    "Exit status: 0 served, 1 refused, 2 wrong usage, 3 a file or an output that cannot be read or written.";

/// Certified floors and ceilings for plans over hidden states.
///
/// A model file is a POMDP in a subset of Cassandra's format. The certifier, whose every call is proved, accepts levels of
/// bounds on it; this command asks it and shows what it answers.
#[derive(Debug, Parser)]
#[command(name = "biidhaqun", bin_name = "biidhaqun", version, after_help = ENDS)]
pub struct Options {
    #[command(subcommand)]
    pub request: Request,
}

#[derive(Debug, Subcommand)]
pub enum Request {
    /// Build levels, offer them, and print what is certified
    ///
    /// With no option: a line for each of three levels at the start mixture, with the level, the lower and the upper total,
    /// their gap, and the action. Totals are in ticks (hundredths of a unit of reward) times the mixture's total weight. With
    /// options, tables that say too which ceiling the upper total is: the sawtooth or the fast informed bound.
    Levels {
        #[command(flatten)]
        built: Built,
        /// A mixture to ask at, beside the points that are given: a weight for each state, up to 1000000 [default: the start
        /// mixture, where no point is given]
        #[arg(long = "at", value_name = "W,W,..", value_parser = weights, allow_hyphen_values = true)]
        at: Vec<Weights>,
        /// Ranges of weights to ask within: a low and a high for each state, of all mixtures inside
        #[arg(long = "within", value_name = "L..H,L..H,..", value_parser = ranges, allow_hyphen_values = true)]
        within: Vec<Ranges>,
        /// A model file that differs in its rewards alone: after the last level they are in force, and what is then certified is
        /// printed too
        #[arg(long, value_name = "FILE")]
        prices: Option<PathBuf>,
        /// Print one JSON object
        #[arg(long)]
        json: bool,
    },
    /// Offer levels from a solver's files, or from a JSON file, in turn, and print what is certified
    ///
    /// A POMDP solver saves an alpha file and a policy graph for each step: given in turn, ALPHA GRAPH ALPHA GRAPH .., they are
    /// made into levels, with the start mixture as their only point where no other is given, and offered. For each a line is
    /// printed, as `levels` does; a refusal is the last line.
    ///
    /// One file alone is a JSON object as `levels --json` prints it: of each level its vectors, corners and points are read. A
    /// level that is refused is shown with the part at fault, the state or action, and the ticks that are missing.
    Certify {
        /// A model file
        file: PathBuf,
        /// An alpha file and a policy graph for each step, in turn; or one file of levels, in JSON
        #[arg(required = true)]
        levels: Vec<PathBuf>,
        /// A point of each level from a solver: a weight for each state, 1 to 100 in total; up to 16 times [default: the start
        /// mixture]
        #[arg(long = "point", value_name = "W,W,..", value_parser = weights, allow_hyphen_values = true)]
        points: Vec<Weights>,
        /// A mixture to ask at: a weight for each state, up to 1000000 [default: the start mixture]
        #[arg(long = "at", value_name = "W,W,..", value_parser = weights, allow_hyphen_values = true)]
        at: Vec<Weights>,
        /// Ranges of weights to ask within: a low and a high for each state, of all mixtures inside
        #[arg(long = "within", value_name = "L..H,L..H,..", value_parser = ranges, allow_hyphen_values = true)]
        within: Vec<Ranges>,
        /// Print one JSON object
        #[arg(long)]
        json: bool,
    },
    /// Say whether a model file is accepted, or what is wrong with it and where
    Check {
        /// A model file
        file: PathBuf,
    },
    /// Turn a file in Cassandra's format into a model file
    ///
    /// Names, matrices, identity, uniform, every form of start, costs, and rewards that depend on what follows are written
    /// out in numbers. Probabilities are rounded to thousandths, start numbers to hundredths; what had to be rounded is
    /// listed on standard error.
    Import {
        /// A file in Cassandra's format
        file: PathBuf,
        /// Round expected rewards that are no whole ticks to the nearest tick
        #[arg(long)]
        round: bool,
        /// Where to write the model file (standard output if not given)
        #[arg(long, value_name = "FILE.pomdp")]
        out: Option<PathBuf>,
    },
    /// Turn a file whose rewards depend on what follows into a model file
    ///
    /// The file is a model file with rewards in full, `R: a : s : s' : o r`. What is written has the same T, O, discount and start,
    /// and the expected reward of each action and state, exactly. By the proved library; at most 16 states.
    Convert {
        /// A model file with rewards in full
        file: PathBuf,
        /// Where to write the model file, with the comments in front that name states, actions and observations (if not given:
        /// standard output, without them)
        #[arg(long, value_name = "FILE.pomdp")]
        out: Option<PathBuf>,
    },
    /// Draw what is certified, as an SVG image
    ///
    /// The floor and both ceilings (the sawtooth and the fast informed bound) over the levels at a mixture; with two states
    /// also these and the actions over all mixtures, with three the gap below the lower ceiling over all mixtures.
    Picture {
        #[command(flatten)]
        built: Built,
        /// The mixture at which the levels are drawn: a weight for each state, up to 1000000 [default: the start mixture]
        #[arg(long = "at", value_name = "W,W,..", value_parser = weights, allow_hyphen_values = true)]
        at: Option<Weights>,
        /// Where to write the image
        #[arg(long, value_name = "FILE.svg")]
        out: PathBuf,
    },
    /// Explain a refusal
    Explain {
        /// The number of the refusal: 1 to 27, or 100
        #[arg(value_parser = refusal)]
        number: u64,
    },
}

/// A model file, and the levels to be built upon it.
#[derive(Clone, Debug, clap::Args)]
#[group(skip)]
pub struct Built {
    /// A model file
    pub file: PathBuf,
    /// How many levels to build, 1 to 100 [default: 3]
    #[arg(long, value_name = "N", value_parser = levels, allow_hyphen_values = true)]
    pub levels: Option<u64>,
    /// A point to build at: a weight for each state, 1 to 100 in total; up to 16 times [default: the start mixture]
    #[arg(long = "point", value_name = "W,W,..", value_parser = weights, allow_hyphen_values = true)]
    pub points: Vec<Weights>,
}

/// Serves the command line, and gives the exit status. A line that does not fit is told, help that it asks for is printed; an
/// output that cannot be written is the end of it.
pub fn ended(serve: impl FnOnce(Request) -> Result<i32, String>) -> i32 {
    let ended = match Options::try_parse() {
        Ok(options) => serve(options.request),
        Err(error) => {
            let (stream, status) =
                if error.use_stderr() { ("standard error", exit::USAGE) } else { ("standard output", exit::SERVED) };
            streams::shown(stream, error.print().and_then(|()| io::stdout().flush())).map(|()| status)
        }
    };
    ended.unwrap_or_else(|message| {
        // Where standard error cannot be written either, the exit status is left to say so.
        let _ = streams::tell(&format!("biidhaqun: {}\n", message));
        exit::FILE
    })
}

/// How many levels are built where nothing is said.
pub const LEVELS: u64 = 3;

fn levels(word: &str) -> Result<u64, String> {
    let number = word.parse().ok().filter(|number| (1..=100).contains(number));
    number.ok_or_else(|| format!("`{}` is no number from 1 to 100", word))
}

fn refusal(word: &str) -> Result<u64, String> {
    word.parse().map_err(|_| format!("`{}` is no number of a refusal; they are 1 to 27 and 100", word))
}

/// A weight for each state.
#[derive(Clone, Debug, PartialEq, Eq)]
pub struct Weights(pub Vec<u32>);

fn weights(text: &str) -> Result<Weights, String> {
    text.split(',').map(weight).collect::<Result<_, _>>().map(Weights)
}

/// A weight. One that its type does not hold is above every limit, as the largest of the type is: the library refuses both.
fn weight(word: &str) -> Result<u32, String> {
    let word = word.trim();
    let digits = |text: &str| !text.is_empty() && text.bytes().all(|byte| byte.is_ascii_digit());
    let wrong = |what: &str| Err(format!("`{}` is {}: weights are whole numbers, 0 or more", word, what));
    match (word, word.strip_prefix('-')) {
        ("", _) => Err("a weight is missing".to_string()),
        (_, Some(rest)) if digits(rest) => wrong("below 0"),
        (_, None) if digits(word.strip_prefix('+').unwrap_or(word)) => Ok(word.parse().unwrap_or(u32::MAX)),
        _ => wrong("no weight"),
    }
}

/// A low and a high for each state.
#[derive(Clone, Debug, PartialEq, Eq)]
pub struct Ranges(pub Vec<(u32, u32)>);

fn ranges(text: &str) -> Result<Ranges, String> {
    let range = |word: &str| match word.split_once("..") {
        Some((low, high)) => Ok((weight(low)?, weight(high)?)),
        None => Err(format!("`{}` is no range; one is written as 40..60", word)),
    };
    text.split(',').map(range).collect::<Result<_, _>>().map(Ranges)
}

impl Request {
    /// The files that are read.
    pub fn inputs(&self) -> Vec<&Path> {
        match self {
            Request::Levels { built, prices, .. } => {
                std::iter::once(&built.file).chain(prices).map(PathBuf::as_path).collect()
            }
            Request::Picture { built, .. } => vec![&built.file],
            Request::Check { file } | Request::Import { file, .. } | Request::Convert { file, .. } => vec![file],
            Request::Certify { file, levels, .. } => {
                std::iter::once(file).chain(levels).map(PathBuf::as_path).collect()
            }
            Request::Explain { .. } => Vec::new(),
        }
    }

    /// The file that is written.
    pub fn output(&self) -> Option<&Path> {
        match self {
            Request::Picture { out, .. } => Some(out),
            Request::Import { out, .. } | Request::Convert { out, .. } => out.as_deref(),
            _ => None,
        }
    }
}

#[cfg(test)]
mod tests {
    use super::*;

    #[test]
    fn weights_of_any_size() {
        assert_eq!(weights(" 0,1000001, 4294967295"), Ok(Weights(vec![0, 1_000_001, u32::MAX])));
        assert_eq!(weights(&format!("4294967296,1{}", "0".repeat(60))), Ok(Weights(vec![u32::MAX; 2])));
        assert_eq!(weights("1,"), Err("a weight is missing".to_string()));
        assert_eq!(weights("-0"), Err("`-0` is below 0: weights are whole numbers, 0 or more".to_string()));
        assert_eq!(weights("+1"), Ok(Weights(vec![1])));
        for word in ["-", "+", "1e3", "0.5", "x"] {
            assert_eq!(weights(word), Err(format!("`{}` is no weight: weights are whole numbers, 0 or more", word)));
        }
    }
}
