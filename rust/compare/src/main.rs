//! Compares the program `ladder` with the reference on many model files, and the reference with all plans of small models;
//! or the linked library with both.
//!
//! Everything is repeatable: a random case depends on the seed, its suite and its number alone. The suites are
//! - `fixed`: files that are the same for every seed (each word and byte of a model damaged in turn, cut at every byte, lengths at and
//!   past the longest),
//! - `random`: random models in random dress, half of them damaged,
//! - `plans`: lists of offers and new prices upon small models, the totals held against the best of all plans; a quarter of them are of three
//!   states thought equally likely, at the point (1, 1, 1); the rows against the plans that open with their action; where vectors
//!   cover part of the states, there are totals exactly where one counts,
//! - `ticks`: levels built and offered in turn, each entry held against what the plan named by its vector earns,
//! - `calls`: storage of any content, lists of offers up to level 100 and past it, used with `--library` and `--traps`,
//! - `ends`: storage with every number at an end of its range, for the largest sums, used with `--library`,
//! - `slices`: one call on slices of any content and length, each compared whole, used with `--library`,
//! - `lengths`: served calls with each slice in turn one short, empty, exact and longer, used with `--library`,
//! - `adopted`: a solver's files that are the same for every seed: each word and byte damaged in turn, cut at every byte, counts at
//!   and past the largest, used with `--library`,
//! - `many`: levels of up to 1,001 vectors, offered, read, built upon, listed and adopted, and files of up to a byte over 4 MiB; the
//!   same for every seed, used with `--library`,
//! - `wide`: single calls on models of 33 to 64 states, of which what is wrong lies late in a slice, used likewise,
//! - `adopt`: random files of a solver, most of them damaged, upon certifiers of any content, used likewise,
//! - `replay`: lists of offers in blocks, refused ones among them, upon certifiers of any content, used likewise,
//! - `lists`: lists of transitions made and turned back, and offers and buildings that are handed a list of any content: with the
//!   tables' own list they answer and leave the same as without, used likewise,
//! - `prices`: new tables, accepted and refused, upon certifiers of any content, used likewise,
//! - `converted`: files to convert that are the same for every seed, used likewise,
//! - `convert`: random files whose rewards depend on what follows, half of them damaged, into outputs of any length; what is written
//!   is read back by the reference, used likewise,
//! - `solved`: the steps that a float solver finds, each adopted and accepted, and what their entries lose.
//!
//! From the root of the repository: `rust/target/release/compare crates/ladder/out/ladder`; with the feature `library`,
//! `rust/target/release/compare --library`. How often the informed ceiling is lower than the sawtooth on the examples, and by how
//! much: `rust/target/release/compare --self --ceilings`.
//!
//! The command ends with 0 if nothing differs, with 1 after the first difference, with 2 if it could not run.

use compare::gen::DOCUMENT;
use compare::options::{Options, USAGE};
use compare::program::Answerer;
use compare::rng::Rng;
use compare::{bracket, ceilings, files, show, solved, suites, ticks, traps};
use num_bigint::BigInt;
use reference::{ladder, Rules};
use std::collections::BTreeMap;
use std::process::ExitCode;
use std::time::{Duration, Instant};
use std::{env, fs, io};

/// How many random cases there are unless a time is given.
const FILES: u64 = 4_000;
const PLANS: u64 = 600;
const CLIMBS: u64 = 300;
const SOLVED: u64 = 300;

fn main() -> ExitCode {
    let options = match Options::parse(env::args().skip(1)) {
        Ok(options) => options,
        Err(message) => {
            eprintln!("compare: {}\n{}", message, USAGE);
            return ExitCode::from(2);
        }
    };
    println!("seed {}", options.seed);
    match run(&options) {
        Ok(true) => ExitCode::SUCCESS,
        Ok(false) => ExitCode::from(1),
        Err(error) => {
            eprintln!("compare: {}", error);
            ExitCode::from(2)
        }
    }
}

/// Does what was asked for; whether all was well.
fn run(options: &Options) -> io::Result<bool> {
    if options.linked {
        return library(options);
    }
    if options.ceilings {
        return ceilings::run(&options.examples, options.seed);
    }
    let answerer = match &options.program {
        Some(path) => Answerer::Program(path.clone()),
        None => Answerer::Copy(Rules::default()),
    };
    let mut comparison = Comparison { options, answerer, tally: BTreeMap::new(), plans: bracket::Seen::default() };
    if options.traps {
        return traps::run(&comparison.answerer, options.seed);
    }
    let well = if let Some(path) = &options.file {
        let case = files::Case { about: path.display().to_string(), file: fs::read(path)? };
        comparison.file("file", &case)?
    } else if let Some((suite, number)) = &options.only {
        comparison.only(suite, *number)?
    } else {
        comparison.all()?
    };
    if well {
        println!("no difference");
    }
    Ok(well)
}

/// Compares the linked library.
#[cfg(feature = "library")]
fn library(options: &Options) -> io::Result<bool> {
    compare::suites::run(options, &compare::linked::Linked)
}

#[cfg(not(feature = "library"))]
fn library(_: &Options) -> io::Result<bool> {
    Err(io::Error::new(io::ErrorKind::Unsupported, "built without the feature `library`"))
}

/// A comparison under way.
struct Comparison<'a> {
    options: &'a Options,
    answerer: Answerer,
    /// How many files were answered in which way: by refusal, or read.
    tally: BTreeMap<String, u64>,
    plans: bracket::Seen,
}

impl Comparison<'_> {
    /// The fixed files, the examples, then random cases by number or by time.
    fn all(&mut self) -> io::Result<bool> {
        let start = Instant::now();
        let fixed = files::fixed();
        for (number, case) in fixed.iter().enumerate() {
            if !self.file(&format!("fixed:{}", number), case)? {
                return Ok(false);
            }
        }
        println!("fixed files: {}, {} s", fixed.len(), start.elapsed().as_secs());
        let examples = files::examples(&self.options.examples, self.options.seed)?;
        for (name, case) in &examples {
            if !self.file(name, case)? {
                return Ok(false);
            }
        }
        println!("examples: {}", examples.len());

        let limit = self.options.seconds.map(Duration::from_secs);
        let mut lists = 0;
        let mut random = 0;
        loop {
            let done = match limit {
                Some(limit) => start.elapsed() >= limit,
                None => random >= FILES && lists >= PLANS,
            };
            if done {
                break;
            }
            if !self.random_file(random)? {
                return Ok(false);
            }
            random += 1;
            // Lists of offers take turns with files.
            if lists * FILES < random * PLANS {
                if !self.random_list(lists)? {
                    return Ok(false);
                }
                lists += 1;
            }
        }
        println!("random files: {}", random);
        for (answer, count) in &self.tally {
            println!("  {}: {}", answer, count);
        }
        println!("lists of offers against all plans: {}", lists);
        println!(
            "  {} levels accepted ({} with a point above the corners), {} refused, {} totals compared ({} at equal thirds, {} where \
             the informed ceiling is the lower, {} where a vector covers part of the states), {} ranges of \
             which mixtures inside are compared, {} mixtures and highs at which no vector counts, {} new prices accepted and {} \
             refused",
            self.plans.accepted,
            self.plans.above_corners,
            self.plans.refused,
            self.plans.compared,
            self.plans.thirds,
            self.plans.informed,
            self.plans.masked,
            self.plans.ranges,
            self.plans.uncounted,
            self.plans.priced,
            self.plans.unpriced
        );
        if !self.climbs()? || !self.solved()? {
            return Ok(false);
        }
        println!("{} s in all", start.elapsed().as_secs());
        Ok(true)
    }

    /// Levels built and offered in turn, and the largest loss by rounding at each level.
    fn climbs(&mut self) -> io::Result<bool> {
        let mut largest: BTreeMap<usize, u64> = BTreeMap::new();
        for number in 0..CLIMBS {
            let climb = ticks::random(&mut Rng::for_case(self.options.seed, "ticks", number));
            match self.climbed(&climb, number)? {
                Some(losses) => {
                    for (at, loss) in losses.iter().enumerate() {
                        let seen = largest.entry(at + 1).or_insert(0);
                        *seen = (*seen).max(u64::try_from(loss).unwrap_or(u64::MAX));
                    }
                }
                None => return Ok(false),
            }
        }
        println!("levels built in turn: {}; the largest loss by rounding at level t, in ticks:", CLIMBS);
        for (t, loss) in &largest {
            println!("  {}: {:.3}", t, *loss as f64 / ticks::PARTS as f64);
        }
        Ok(true)
    }

    /// What levels built and offered in turn lose by rounding, in parts of a tick; none, if they differ.
    fn climbed(&self, climb: &ticks::Climb, number: u64) -> io::Result<Option<Vec<BigInt>>> {
        let losses = ticks::check(climb, &DOCUMENT);
        self.well(&format!("ticks:{}", number), losses, || climb.show())
    }

    /// What was found well of a case; a difference is told.
    fn well<Of>(&self, name: &str, found: Result<Of, String>, shown: impl Fn() -> String) -> io::Result<Option<Of>> {
        match found {
            Ok(found) => Ok(Some(found)),
            Err(message) => {
                println!("DIFFERENCE in {} (seed {}): {}\n{}", name, self.options.seed, message, shown());
                self.saved(shown().as_bytes())?;
                Ok(None)
            }
        }
    }

    /// The steps of a solver upon the examples and upon random models: each is certified, and what it loses is told.
    fn solved(&self) -> io::Result<bool> {
        let mut largest = solved::Losses::default();
        let random = |number| {
            let climb = solved::random(&mut Rng::for_case(self.options.seed, "solved", number));
            (format!("solved:{}", number), climb)
        };
        let examples = solved::examples(&self.options.examples)?;
        for (name, climb) in examples.into_iter().chain((0..SOLVED).map(random)) {
            let losses = match self.well(&name, solved::check(&climb, &DOCUMENT), || climb.show())? {
                Some(losses) => losses,
                None => return Ok(false),
            };
            if name.starts_with("solved:") {
                largest.with(&losses);
            } else {
                let mut own = solved::Losses::default();
                own.with(&losses);
                println!("{} as a solver has it, ticks lost at level t: {}", name, own.shown());
            }
        }
        println!("random models as a solver has them: {}; the largest loss at level t, in ticks:", SOLVED);
        println!("  {}", largest.shown());
        Ok(true)
    }

    /// One case alone. It is shown whether it differs or not.
    fn only(&mut self, suite: &str, number: u64) -> io::Result<bool> {
        let mut rng = Rng::for_case(self.options.seed, suite, number);
        match suite {
            "fixed" => match files::fixed().get(number as usize) {
                Some(case) => {
                    println!("{}\n{}", case.about, files::escaped(&case.file));
                    self.file(&format!("fixed:{}", number), case)
                }
                None => Err(io::Error::new(io::ErrorKind::InvalidInput, "there is no such fixed file")),
            },
            "random" => {
                let case = files::random(&mut rng);
                println!("{}\n{}", case.about, files::escaped(&case.file));
                self.random_file(number)
            }
            "plans" => {
                print!("{}", show::list(&bracket::random(&mut rng)));
                self.random_list(number)
            }
            "ticks" => {
                let climb = ticks::random(&mut rng);
                print!("{}", climb.show());
                let losses = self.climbed(&climb, number)?;
                if let Some(losses) = &losses {
                    println!("losses in parts of a tick: {:?}", losses);
                }
                Ok(losses.is_some())
            }
            "solved" => {
                let climb = solved::random(&mut rng);
                print!("{}", climb.show());
                let losses =
                    self.well(&format!("solved:{}", number), solved::check(&climb, &DOCUMENT), || climb.show())?;
                if let Some(losses) = &losses {
                    println!("{:?}", losses);
                }
                Ok(losses.is_some())
            }
            _ if suites::NAMES.contains(&suite) => {
                Err(io::Error::new(io::ErrorKind::InvalidInput, format!("{} goes with --library", suite)))
            }
            _ => Err(io::Error::new(io::ErrorKind::InvalidInput, "there is no such suite")),
        }
    }

    /// The random file of this number.
    fn random_file(&mut self, number: u64) -> io::Result<bool> {
        let case = files::random(&mut Rng::for_case(self.options.seed, "random", number));
        self.file(&format!("random:{}", number), &case)
    }

    /// The random list of offers of this number.
    fn random_list(&mut self, number: u64) -> io::Result<bool> {
        let list = bracket::random(&mut Rng::for_case(self.options.seed, "plans", number));
        let seen = self.well(&format!("plans:{}", number), bracket::check(&list, &DOCUMENT), || show::list(&list))?;
        if let Some(seen) = &seen {
            self.plans.add(seen);
        }
        Ok(seen.is_some())
    }

    /// Whether the answer for a file is the reference's.
    fn file(&mut self, name: &str, case: &files::Case) -> io::Result<bool> {
        let ours = ladder(&case.file, &Rules::default());
        let theirs = self.answerer.answer(&case.file)?;
        let kind = match ours.split(" at ").next() {
            Some(refused) if refused.starts_with("refused") => refused,
            _ => "read",
        };
        *self.tally.entry(kind.to_string()).or_insert(0) += 1;
        if ours == theirs {
            return Ok(true);
        }
        println!("DIFFERENCE in {} (seed {}): {}", name, self.options.seed, case.about);
        println!("the file, {} bytes: {}", case.file.len(), files::escaped(&case.file));
        println!("the reference prints:\n{}", ours);
        println!("the program prints:\n{}", theirs);
        self.saved(&case.file)?;
        Ok(false)
    }

    /// Writes a case to the path that was given for it.
    fn saved(&self, case: &[u8]) -> io::Result<()> {
        match &self.options.save {
            Some(path) => {
                fs::write(path, case)?;
                println!("written to {}", path.display());
            }
            None => println!("(--save PATH writes it to a file)"),
        }
        Ok(())
    }
}
