//! How the library compares with other forms of the same calls: its time, and ratios from one run, on the same inputs.
//!
//! `bench [ROUNDS]`, or from this workspace's folder `cargo run --release -p bench --features library`. A ratio below 1 means
//! that the library takes less time. Each is the median over rounds in which all forms take turns. The library and the forms
//! in whole numbers are lent the same slices, test all that they are handed in each call, and write the same; the floating
//! form keeps structures of its own, trusts its tables and tests no range. Where the forms in whole numbers do not answer
//! alike, or leave something else in a slice, the command ends with 1. So it does where a call takes more stack than the C
//! header says; `bench --stack` tests that alone.

mod calls;
mod floats;
mod forms;
mod linked;
mod stacks;
mod timing;

use bench::inputs::{self, Counts};
use bench::limits::{NODES, POINTS, STEPS};
use calls::{calls, offering, rng, valuing, wide_calls, FEW, LARGEST, USUAL};
use compare::lent::Call;
use stacks::stacks;
use std::env;
use std::process::ExitCode;
use timing::{measure, Measured};

/// As many rounds as are run if no number is given.
const ROUNDS: usize = 41;

fn head(title: &str, last: &str) {
    println!("\n{:<44} {:>10} {:>9} {:>9} {:>9}  {}", title, "time (us)", "obvious", "tuned", "floating", last);
}

fn line(name: &str, measured: &Measured, first: Option<f64>) {
    let [obvious, tuned, floating] = measured.ratios;
    let growth = first.map_or(String::new(), |first| format!("{:>6.2}", measured.ours / first));
    let micros = measured.ours * 1e6;
    println!("{:<44} {:>10.1} {:>9.2} {:>9.2} {:>9.2}  {}", name, micros, obvious, tuned, floating, growth);
}

/// A call over a list of sizes.
fn growth(title: &str, rounds: usize, sizes: &[usize], call: impl Fn(usize) -> Call) -> Result<(), String> {
    head(title, "growth");
    let mut first = None;
    for &size in sizes {
        let measured = measure(&call(size), rounds)?;
        let least = *first.get_or_insert(measured.ours);
        line(&size.to_string(), &measured, Some(least));
    }
    Ok(())
}

/// The name of a call; of a reading or a conversion, with the length of its file.
fn titled(name: &str, call: &Call) -> String {
    match call {
        Call::Read { file, .. } | Call::Convert { file, .. } => format!("{} a file of {} bytes", name, file.len()),
        _ => name.to_string(),
    }
}

fn run(rounds: usize) -> Result<(), String> {
    println!("the library's time, and over that of the same call in Rust: medians of {} rounds", rounds);
    head("16 states, 8 actions, 8 observations", "");
    for (name, call) in calls() {
        line(&titled(name, &call), &measure(&call, rounds)?, None);
        let first = matches!(&call, Call::Offer { tables, list, level, .. }
            if level.vectors == FEW && list.is_empty() && !tables.transition.contains(&0));
        if first {
            let steep = offering(inputs::offer(&mut rng(), USUAL, FEW, POINTS, true));
            line("the same, no point left early", &measure(&steep, rounds)?, None);
        }
    }

    // These calls take long, so that fewer rounds do.
    let few = rounds / 2 + 1;
    head(&format!("64 states, 8 actions, 8 observations: {} rounds", few), "");
    for (name, call) in wide_calls() {
        line(&titled(name, &call), &measure(&call, few)?, None);
    }

    let offer = |counts, vectors, points| offering(inputs::offer(&mut rng(), counts, vectors, points, false));
    let states = [2, 4, 8, 16, 32, 64];
    growth("an offer by states, 32 vectors, 32 points", few, &states, |states| {
        offer(Counts { states, ..LARGEST }, FEW, POINTS)
    })?;
    growth("an offer by vectors, no points", rounds, &[1, 10, 100, 1_000], |vectors| offer(USUAL, vectors, 0))?;
    growth("an offer by points, 32 vectors", rounds, &[0, 8, 16, 32], |points| offer(USUAL, FEW, points))?;
    growth("a worth by steps, 32 nodes", rounds, &[1, 2, 3, 4], |steps| valuing(USUAL, NODES, steps))?;
    growth("a worth by nodes, 4 steps", rounds, &[4, 8, 16, 32], |nodes| valuing(USUAL, nodes, STEPS))?;
    growth("a worth by states, 32 nodes, 4 steps", rounds, &states, |states| {
        valuing(Counts { states, ..LARGEST }, NODES, STEPS)
    })?;

    stacks()
}

fn main() -> ExitCode {
    let words: Vec<String> = env::args().skip(1).collect();
    let words: Vec<&str> = words.iter().map(String::as_str).collect();
    let done = match (&words[..], words.last().map(|word| word.parse())) {
        ([], _) => run(ROUNDS),
        ([_], Some(Ok(rounds))) if rounds > 0 => run(rounds),
        (["--stack"], _) => stacks(),
        _ => {
            eprintln!("usage: bench [ROUNDS | --stack]");
            return ExitCode::from(2);
        }
    };
    match done {
        Ok(()) => ExitCode::SUCCESS,
        Err(message) => {
            eprintln!("bench: {}", message);
            ExitCode::FAILURE
        }
    }
}
