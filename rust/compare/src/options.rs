//! The command line.

use std::path::PathBuf;

/// How the command is used.
pub const USAGE: &str = "\
usage: compare LADDER [OPTIONS]     compare the program at the path LADDER with the reference
       compare --library [OPTIONS]  compare the linked library with the reference
       compare --self [OPTIONS]     compare the reference with itself
  --seed N         the seed of the random cases (default 1)
  --seconds N      go on with random cases until so many seconds have passed (default: a fixed number of cases)
  --traps          show that deliberate mistakes are noticed: a copy of the rules, or of the interface, with one of them must
                   differ from the program in files, and from the reference in calls; with --library, from the library
  --ceilings       tell how often the informed ceiling is lower than the sawtooth, and by how much, on the model files of
                   --examples; by the reference alone, so with --self
  --only SUITE:N   one case alone: fixed:N, random:N, plans:N, ticks:N or solved:N; with --library also calls:N, ends:N,
                   slices:N, lengths:N, adopted:N, many:N, wide:N, adopt:N, replay:N, lists:N, prices:N, converted:N
                   or convert:N
  --file PATH      one file alone
  --save PATH      where to write the case that differs (the file, or the case as text)
  --examples DIR   model files to compare as well (default: examples)";

/// What was asked for.
#[derive(Debug)]
pub struct Options {
    /// The program to compare with, or none for the library or the reference itself.
    pub program: Option<PathBuf>,
    pub linked: bool,
    pub seed: u64,
    pub seconds: Option<u64>,
    pub traps: bool,
    pub ceilings: bool,
    pub only: Option<(String, u64)>,
    pub file: Option<PathBuf>,
    pub save: Option<PathBuf>,
    pub examples: PathBuf,
}

impl Options {
    /// Reads the words of the command line.
    pub fn parse(words: impl Iterator<Item = String>) -> Result<Options, String> {
        let mut options = Options {
            program: None,
            linked: false,
            seed: 1,
            seconds: None,
            traps: false,
            ceilings: false,
            only: None,
            file: None,
            save: None,
            examples: PathBuf::from("examples"),
        };
        let mut itself = false;
        let mut words = words;
        while let Some(word) = words.next() {
            let mut value = || words.next().ok_or_else(|| format!("{} wants a value", word));
            match word.as_str() {
                "--self" => itself = true,
                "--library" => options.linked = true,
                "--traps" => options.traps = true,
                "--ceilings" => options.ceilings = true,
                "--seed" => options.seed = number(&value()?)?,
                "--seconds" => options.seconds = Some(number(&value()?)?),
                "--only" => options.only = Some(case(&value()?)?),
                "--file" => options.file = Some(PathBuf::from(value()?)),
                "--save" => options.save = Some(PathBuf::from(value()?)),
                "--examples" => options.examples = PathBuf::from(value()?),
                _ if word.starts_with('-') => return Err(format!("no option {}", word)),
                _ if options.program.is_some() => return Err(format!("a second program {}", word)),
                _ => options.program = Some(PathBuf::from(word)),
            }
        }
        if usize::from(options.program.is_some()) + usize::from(options.linked) + usize::from(itself) != 1 {
            return Err("either a program's path, --library or --self is wanted".to_string());
        }
        if options.ceilings && !itself {
            return Err("--ceilings goes with --self".to_string());
        }
        Ok(options)
    }
}

/// A number in decimal.
fn number(word: &str) -> Result<u64, String> {
    word.parse().map_err(|_| format!("{} is no number", word))
}

/// `SUITE:NUMBER`.
fn case(word: &str) -> Result<(String, u64), String> {
    let (suite, at) = word.split_once(':').ok_or_else(|| format!("{} is no SUITE:NUMBER", word))?;
    Ok((suite.to_string(), number(at)?))
}
