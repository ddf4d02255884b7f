//! The suites of calls, run against a library: files, storage, slices, and all plans of small models.

mod hunting;

use crate::copied::BY_THE_DOCUMENT;
use crate::lent::{Call, Library};
use crate::options::Options;
use crate::rng::Rng;
use crate::through::{self, Through};
use crate::{
    adopting, bracket, calls, converting, files, listing, many, pricing, replaying, show, single, solved, ticks, wide,
};
use std::collections::BTreeMap;
use std::time::{Duration, Instant};
use std::{fs, io};

/// How many random cases there are unless a time is given.
const FILES: u64 = 10_000;
const CALLS: u64 = 5_000;
const ENDS: u64 = 1_500;
const SLICES: u64 = 15_000;
const LENGTHS: u64 = 750;
const PLANS: u64 = 1_000;
const CLIMBS: u64 = 500;
const ADOPTIONS: u64 = 5_000;
const REPLAYS: u64 = 4_000;
const LISTS: u64 = 4_000;
const PRICES: u64 = 4_000;
const CONVERSIONS: u64 = 4_000;
const SOLVED: u64 = 300;
const WIDE: u64 = 600;

/// The suites of which one case can be asked for.
pub const NAMES: &[&str] = &[
    "fixed",
    "random",
    "calls",
    "plans",
    "ticks",
    "ends",
    "slices",
    "lengths",
    "adopted",
    "many",
    "adopt",
    "replay",
    "lists",
    "prices",
    "converted",
    "convert",
    "solved",
    "wide",
];

/// Does what was asked for; whether all was well.
pub fn run(options: &Options, library: &dyn Library) -> io::Result<bool> {
    let (tally, losses) = (BTreeMap::new(), solved::Losses::default());
    let (adopted, many, converted) = (adopting::fixed(), many::fixed(), files::fixed_outcomes());
    let mut suites = Suites { options, linked: library, tally, losses, adopted, many, converted };
    let well = if options.traps {
        suites.traps()
    } else if let Some(path) = &options.file {
        suites.call("file", &single::reading(&fs::read(path)?))?
    } else if let Some((suite, number)) = &options.only {
        suites.only(suite, *number)?
    } else {
        suites.all()?
    };
    if well && !options.traps {
        println!("no difference");
    }
    Ok(well)
}

struct Suites<'a> {
    options: &'a Options,
    linked: &'a dyn Library,
    /// How many single calls ended in which way.
    tally: BTreeMap<u64, u64>,
    /// What entries of solved levels have lost.
    losses: solved::Losses,
    /// The fixed files of a solver.
    adopted: Vec<adopting::Case>,
    /// The calls with many vectors and long files.
    many: Vec<many::Case>,
    /// The fixed files to convert.
    converted: Vec<files::Case>,
}

impl Suites<'_> {
    fn rng(&self, suite: &str, number: u64) -> Rng {
        Rng::for_case(self.options.seed, suite, number)
    }

    /// Fixed files, examples, then random cases of all suites in turn.
    fn all(&mut self) -> io::Result<bool> {
        let start = Instant::now();
        let fixed = files::fixed_to_read();
        for (number, case) in fixed.iter().enumerate() {
            if !self.call(&format!("fixed:{}", number), &single::reading(&case.file))? {
                return Ok(false);
            }
        }
        let examples = files::examples(&self.options.examples, self.options.seed)?;
        for (name, case) in &examples {
            if !self.call(name, &single::reading(&case.file))? {
                return Ok(false);
            }
        }
        println!("fixed files: {}, examples: {}, {} s", fixed.len(), examples.len(), start.elapsed().as_secs());
        let fixed = self.adopted.len() as u64;
        for number in 0..fixed {
            if !self.one("adopted", number)? {
                return Ok(false);
            }
        }
        println!("fixed files of a solver: {}, {} s", fixed, start.elapsed().as_secs());
        let fixed = self.converted.len() as u64;
        for number in 0..fixed {
            if !self.one("converted", number)? {
                return Ok(false);
            }
        }
        println!("fixed files to convert: {}, {} s", fixed, start.elapsed().as_secs());
        let large = self.many.len() as u64;
        for number in 0..large {
            if !self.one("many", number)? {
                return Ok(false);
            }
        }
        println!("calls with many vectors and long files: {}, {} s", large, start.elapsed().as_secs());
        for (name, climb) in solved::examples(&self.options.examples)? {
            let losses = solved::check(&climb, &Through(self.linked));
            if !self.told(&name, losses.as_ref().err().cloned(), || climb.show())? {
                return Ok(false);
            }
            let mut shown = solved::Losses::default();
            shown.with(&losses.unwrap_or_default());
            println!("{} as a solver has it, ticks lost at level t: {}", name, shown.shown());
        }

        let climb = solved::long();
        let found = solved::check(&climb, &Through(self.linked)).err();
        if !self.told("the tiger over forty steps", found, || climb.show())? {
            return Ok(false);
        }

        let limit = self.options.seconds.map(Duration::from_secs);
        let shares = [
            ("random", FILES),
            ("calls", CALLS),
            ("ends", ENDS),
            ("slices", SLICES),
            ("lengths", LENGTHS),
            ("plans", PLANS),
            ("ticks", CLIMBS),
            ("adopt", ADOPTIONS),
            ("replay", REPLAYS),
            ("lists", LISTS),
            ("prices", PRICES),
            ("convert", CONVERSIONS),
            ("solved", SOLVED),
            ("wide", WIDE),
        ];
        let all: u64 = shares.iter().map(|(_, share)| share).sum();
        let mut done = shares.map(|(suite, share)| (suite, share, 0));
        let mut turn = 0;
        while limit.map_or(turn < all, |limit| start.elapsed() < limit) {
            for (suite, share, count) in &mut done {
                // Each suite keeps its share of the turns.
                if *count * all <= turn * *share {
                    if !self.one(suite, *count)? {
                        return Ok(false);
                    }
                    *count += 1;
                }
            }
            turn += 1;
        }
        for (suite, _, count) in done {
            println!("{}: {}", suite, count);
        }
        println!("solved: the largest loss at level t, in ticks: {}", self.losses.shown());
        println!("single calls, by the number that they end with:");
        for (number, count) in &self.tally {
            println!("  {}: {}", number, count);
        }
        println!("{} s in all", start.elapsed().as_secs());
        Ok(true)
    }

    /// One case alone. It is shown whether it differs or not.
    fn only(&mut self, suite: &str, number: u64) -> io::Result<bool> {
        let mut rng = self.rng(suite, number);
        match suite {
            "fixed" => {
                let fixed = files::fixed_to_read();
                let case = numbered(&fixed, number, "fixed file")?;
                println!("{}\n{}", case.about, files::escaped(&case.file));
                return self.call(&format!("fixed:{}", number), &single::reading(&case.file));
            }
            "random" => println!("{}", files::escaped(&files::random(&mut rng).file)),
            "calls" => print!("{}", calls::random(&mut rng, number).show()),
            "ends" => print!("{}", calls::at_ends(&mut rng, number).show()),
            "plans" => print!("{}", show::list(&bracket::random(&mut rng))),
            "slices" => print!("{}", single::random(&mut rng)),
            "lengths" => print!("{}", single::lengths(&mut rng, number)[0].0),
            "ticks" => print!("{}", ticks::random(&mut rng).show()),
            "adopted" => print!("{}", numbered(&self.adopted, number, "fixed case")?.show()),
            "many" => {
                let case = numbered(&self.many, number, "call")?;
                print!("{}\n{}", case.about, case.call);
            }
            "adopt" => print!("{}", adopting::random(&mut rng).show()),
            "replay" => print!("{}", replaying::random(&mut rng)),
            "wide" => print!("{}", wide::random(&mut rng)),
            "lists" => print!("{}", listing::random(&mut rng)),
            "prices" => print!("{}", priced(&mut rng, number)),
            "convert" => print!("{}", converting::random(&mut rng)),
            "converted" => {
                let case = numbered(&self.converted, number, "fixed file")?;
                println!("{}\n{}", case.about, files::escaped(&case.file));
            }
            "solved" => print!("{}", solved::random(&mut rng).show()),
            _ => return Err(unknown("suite")),
        }
        self.one(suite, number)
    }

    /// The random case of this number.
    fn one(&mut self, suite: &str, number: u64) -> io::Result<bool> {
        let mut rng = self.rng(suite, number);
        let name = format!("{}:{}", suite, number);
        match suite {
            "random" => self.call(&name, &single::reading(&files::random(&mut rng).file)),
            "slices" => self.call(&name, &single::random(&mut rng)),
            "lengths" => {
                for (call, ends) in single::lengths(&mut rng, number) {
                    if !self.ending(&name, &call, ends)? {
                        return Ok(false);
                    }
                }
                Ok(true)
            }
            "many" => {
                let many = std::mem::take(&mut self.many);
                let told =
                    numbered(&many, number, "call").and_then(|case| self.ending(&name, &case.call, Some(case.ends)));
                self.many = many;
                told
            }
            "calls" | "ends" => {
                let case =
                    if suite == "calls" { calls::random(&mut rng, number) } else { calls::at_ends(&mut rng, number) };
                let found = through::difference(&case, &BY_THE_DOCUMENT, self.linked, &mut rng);
                self.told(&name, found, || case.show())
            }
            "adopted" => {
                let call = numbered(&self.adopted, number, "fixed case")?.call(&mut rng);
                self.call(&name, &call)
            }
            "adopt" => {
                let call = adopting::random(&mut rng).call(&mut rng);
                self.call(&name, &single::half_touched(&mut rng, call))
            }
            "replay" => {
                let call = replaying::random(&mut rng);
                self.call(&name, &single::half_touched(&mut rng, call))
            }
            "wide" => self.call(&name, &wide::random(&mut rng)),
            "lists" => {
                let call = listing::random(&mut rng);
                *self.tally.entry(call.number(self.linked)).or_insert(0) += 1;
                self.told(&name, listing::difference(&call, self.linked), || call.to_string())
            }
            "prices" => self.call(&name, &priced(&mut rng, number)),
            "convert" => self.conversion(&name, &converting::random(&mut rng)),
            "converted" => match converting::fixed(&self.converted, number as usize) {
                Some(call) => self.conversion(&name, &call),
                None => Err(unknown("fixed file")),
            },
            "solved" => {
                let climb = solved::random(&mut rng);
                let losses = solved::check(&climb, &Through(self.linked));
                self.losses.with(losses.as_deref().unwrap_or(&[]));
                self.told(&name, losses.err(), || climb.show())
            }
            "ticks" => {
                let climb = ticks::random(&mut rng);
                let found = ticks::check(&climb, &Through(self.linked)).err();
                self.told(&name, found, || climb.show())
            }
            _ => {
                let list = bracket::random(&mut rng);
                let found = bracket::check(&list, &Through(self.linked)).err();
                self.told(&name, found, || show::list(&list))
            }
        }
    }

    /// Whether a call ends as it must, where that is known, and as by the reference.
    fn ending(&mut self, name: &str, call: &Call, ends: Option<(u64, usize)>) -> io::Result<bool> {
        let (answer, _) = call.made(self.linked);
        let wrong = ends.filter(|&(number, place)| answer[..2] != [number.into(), place as i128]);
        let wrong = wrong.map(|ends| format!("it ends with {:?}, not with {:?}", &answer[..2], ends));
        Ok(self.told(name, wrong, || call.to_string())? && self.call(name, call)?)
    }

    /// Whether a call ends as by the reference, and leaves the same in every slice.
    fn call(&mut self, name: &str, call: &Call) -> io::Result<bool> {
        *self.tally.entry(call.number(self.linked)).or_insert(0) += 1;
        self.told(name, call.difference(&BY_THE_DOCUMENT, self.linked), || call.to_string())
    }

    /// Whether a file is converted as by the reference, and what is written reads back.
    fn conversion(&mut self, name: &str, call: &Call) -> io::Result<bool> {
        *self.tally.entry(call.number(self.linked)).or_insert(0) += 1;
        self.told(name, converting::difference(call, self.linked), || call.to_string())
    }

    /// Tells a difference, if there is one.
    fn told(&self, name: &str, found: Option<String>, shown: impl Fn() -> String) -> io::Result<bool> {
        let found = match found {
            Some(found) => found,
            None => return Ok(true),
        };
        let seed = self.options.seed;
        println!("DIFFERENCE in {}: {}\n{}", name, found, shown());
        println!("again: compare --library --seed {} --only {}", seed, name);
        if let Some(path) = &self.options.save {
            fs::write(path, shown())?;
            println!("written to {}", path.display());
        }
        Ok(false)
    }
}

/// New prices of this number: now and then upon the largest model at the ends of all ranges, half of the others with slices that
/// are touched.
fn priced(rng: &mut Rng, number: u64) -> Call {
    if number % 100 == 99 {
        return pricing::largest(rng);
    }
    let call = pricing::random(rng);
    single::half_touched(rng, call)
}

/// The case of this number.
fn numbered<'a, Case>(cases: &'a [Case], number: u64, what: &str) -> io::Result<&'a Case> {
    cases.get(usize::try_from(number).unwrap_or(usize::MAX)).ok_or_else(|| unknown(what))
}

fn unknown(what: &str) -> io::Error {
    io::Error::new(io::ErrorKind::InvalidInput, format!("there is no such {}", what))
}

#[cfg(test)]
mod tests {
    use super::*;
    use crate::copied::{Copied, Slip};
    use std::collections::BTreeSet;

    #[test]
    fn a_copy_passes_each_suite_and_one_that_slips_does_not() {
        let words = ["--library", "--examples", "nowhere"].iter().map(|word| word.to_string());
        let mut options = Options::parse(words).unwrap();
        let one = [("fixed", 3), ("random", 5), ("calls", 7), ("ends", 1), ("plans", 2), ("slices", 11), ("ticks", 3)];
        let solver =
            [("adopted", 4), ("adopt", 9), ("solved", 2), ("replay", 6), ("many", 3), ("lists", 4), ("prices", 5)];
        let solver = solver.into_iter().chain([("convert", 3), ("converted", 1), ("wide", 6)]);
        let lengths = (0..13).map(|number| ("lengths", number));
        let mut left: BTreeSet<&str> = NAMES.iter().copied().collect();
        for (suite, number) in one.into_iter().chain(solver).chain(lengths) {
            left.remove(suite);
            options.only = Some((suite.to_string(), number));
            assert!(run(&options, &BY_THE_DOCUMENT).unwrap(), "{}:{}", suite, number);
        }
        assert!(left.is_empty(), "{:?}", left);
        options.only = None;
        assert!(!run(&options, &Copied::slipping(Slip::PastCleared)).unwrap());
    }

    #[test]
    fn every_end_of_a_single_call_occurs() {
        let mut seen = BTreeSet::new();
        for number in 0..3_000 {
            let call = single::random(&mut Rng::for_case(3, "slices", number));
            assert!(!call.to_string().is_empty());
            seen.insert(call.number(&BY_THE_DOCUMENT));
        }
        // 1 and 4 are of files alone, which have tests of their own.
        let all: BTreeSet<u64> = [0, 2, 3, 100].into_iter().chain(5..=18).chain(21..=27).collect();
        assert!(seen.is_superset(&all), "{:?}", seen);
    }

    #[test]
    fn the_copy_answers_as_the_reference() {
        for number in 0..300 {
            let case = calls::random(&mut Rng::for_case(3, "calls", number), number);
            assert_eq!(case.difference(&Through(&BY_THE_DOCUMENT)), None, "calls:{}", number);
        }
        for number in 0..40 {
            let list = bracket::random(&mut Rng::for_case(3, "plans", number));
            assert!(bracket::check(&list, &Through(&BY_THE_DOCUMENT)).is_ok());
        }
    }
}
