//! Proof that the comparison can fail: a copy of the rules with one trap must be told from the document.

use crate::files;
use crate::program::Answerer;
use crate::rng::Rng;
use crate::{bracket, calls, ticks};
use reference::{ladder, Rules, Trap};
use std::io;

/// How many random cases of each suite are tried; of calls, until all that can show in them were noticed.
const FILES: u64 = 500;
const CALLS: u64 = 6_000;
const PLANS: u64 = 250;
const CLIMBS: u64 = 30;

/// A trap, and the first case of each suite that caught it.
struct Hunt {
    trap: Trap,
    /// Which suites can show it.
    shown: Shown,
    files: Option<String>,
    calls: Option<String>,
    plans: Option<String>,
    ticks: Option<String>,
}

/// Where a trap can show: in files alone, in calls alone, or in all suites.
#[derive(Clone, Copy, Debug, PartialEq, Eq)]
enum Shown {
    Files,
    Calls,
    All,
}

impl Hunt {
    fn rules(&self) -> Rules {
        Rules::broken(self.trap)
    }
}

/// Runs the suites against every trap; false if one is caught by none of them.
///
/// Files are answered by the program that is compared, and by the copy in the reference's stead. The other suites show what
/// the comparison notices, not what the program does: calls are compared between the copy and the reference, in the third
/// suite the copy is held against all plans of small models, in the fourth against the plans that its vectors name. With
/// `--library` there is a hunt in which the library itself is told from the copies (`suites/hunting.rs`).
pub fn run(answerer: &Answerer, seed: u64) -> io::Result<bool> {
    let hunt = |trap: Trap, shown: Shown| Hunt { trap, shown, files: None, calls: None, plans: None, ticks: None };
    let judging = Trap::JUDGING.iter().chain(Trap::RUNNING).map(|&trap| hunt(trap, Shown::All));
    let ordering = Trap::ORDERING.iter().map(|&trap| hunt(trap, Shown::Calls));
    let reading = Trap::READING.iter().map(|&trap| hunt(trap, Shown::Files));
    let mut hunts: Vec<Hunt> = judging.chain(ordering).chain(reading).collect();

    for (number, case) in files::fixed().iter().enumerate() {
        if !catch_in_file(answerer, &mut hunts, &format!("fixed:{}", number), case)? {
            return Ok(false);
        }
    }
    for number in 0..FILES {
        let case = files::random(&mut Rng::for_case(seed, "random", number));
        if !catch_in_file(answerer, &mut hunts, &format!("random:{}", number), &case)? {
            return Ok(false);
        }
    }
    for number in 0..CALLS {
        let left = |hunt: &Hunt| hunt.shown != Shown::Files && hunt.calls.is_none();
        if !hunts.iter().any(left) {
            break;
        }
        let case = calls::random(&mut Rng::for_case(seed, "calls", number), number);
        for hunt in hunts.iter_mut().filter(|hunt| left(hunt)) {
            if case.difference(&hunt.rules()).is_some() {
                hunt.calls = Some(format!("calls:{}", number));
            }
        }
    }
    for number in 0..PLANS {
        let list = bracket::random(&mut Rng::for_case(seed, "plans", number));
        for hunt in hunts.iter_mut().filter(|hunt| hunt.shown == Shown::All && hunt.plans.is_none()) {
            if bracket::check(&list, &hunt.rules()).is_err() {
                hunt.plans = Some(format!("plans:{}", number));
            }
        }
    }
    for number in 0..CLIMBS {
        let climb = ticks::random(&mut Rng::for_case(seed, "ticks", number));
        for hunt in hunts.iter_mut().filter(|hunt| hunt.shown == Shown::All && hunt.ticks.is_none()) {
            if ticks::check(&climb, &hunt.rules()).is_err() {
                hunt.ticks = Some(format!("ticks:{}", number));
            }
        }
    }

    let mut all = true;
    for hunt in &hunts {
        let caught: Vec<&str> =
            [&hunt.files, &hunt.calls, &hunt.plans, &hunt.ticks].into_iter().flatten().map(String::as_str).collect();
        if caught.is_empty() {
            all = false;
            println!("NOT CAUGHT  {}", hunt.trap);
        } else {
            println!("caught  {}: {}", hunt.trap, caught.join(", "));
        }
    }
    let caught_by = |suite: fn(&Hunt) -> bool| hunts.iter().filter(|hunt| suite(hunt)).count();
    println!(
        "{} traps: {} told from the program by files; copy against reference: {} by calls, {} by plans, {} by ticks",
        hunts.len(),
        caught_by(|hunt| hunt.files.is_some()),
        caught_by(|hunt| hunt.calls.is_some()),
        caught_by(|hunt| hunt.plans.is_some()),
        caught_by(|hunt| hunt.ticks.is_some())
    );
    Ok(all)
}

/// Looks at one file with all traps that it can show and that no file has caught yet. A file on which the program differs from
/// the document is no catch but a difference of its own: false.
fn catch_in_file(answerer: &Answerer, hunts: &mut [Hunt], name: &str, case: &files::Case) -> io::Result<bool> {
    let answer = answerer.answer(&case.file)?;
    if answer != ladder(&case.file, &Rules::default()) {
        println!("DIFFERENCE between the program and the reference in {}; run without --traps", name);
        return Ok(false);
    }
    let shows = |shown: Shown| shown == Shown::Files || shown == Shown::All && is_judged(&answer);
    for hunt in hunts.iter_mut().filter(|hunt| shows(hunt.shown) && hunt.files.is_none()) {
        if ladder(&case.file, &hunt.rules()) != answer {
            hunt.files = Some(name.to_string());
        }
    }
    Ok(true)
}

/// Whether every word of a file fits, so that more than the reader's rules decide what is answered: there are levels, or what is
/// refused is a total.
fn is_judged(answer: &str) -> bool {
    !answer.starts_with("refused") || ["refused 5 ", "refused 6 "].iter().any(|total| answer.starts_with(total))
}
