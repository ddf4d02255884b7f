//! `solver MODEL STEPS PREFIX`: solves a model file for so many steps, and writes for each step t the files PREFIX.alpha<t>
//! and PREFIX.pg<t>.

use solver::{alpha_file, graph_file, steps, Model};
use std::process::ExitCode;
use std::{env, fs};

/// A level that is certified has at most so many vectors.
const VECTORS: usize = reference::VECTORS;

fn main() -> ExitCode {
    match run(&env::args().skip(1).collect::<Vec<_>>()) {
        Ok(()) => ExitCode::SUCCESS,
        Err(message) => {
            eprintln!("solver: {}", message);
            ExitCode::from(2)
        }
    }
}

fn run(words: &[String]) -> Result<(), String> {
    let (model, count, prefix) = match words {
        [model, count, prefix] => (model, count, prefix),
        _ => return Err("usage: solver MODEL STEPS PREFIX".to_string()),
    };
    let count: usize = count.parse().map_err(|_| format!("{} is no number of steps", count))?;
    let file = fs::read(model).map_err(|error| format!("{}: {}", model, error))?;
    let read = reference::read(&file, &reference::Rules::default()).map_err(|refusal| refusal.to_string())?;
    let found = steps(&Model::of(&read.tables), count, VECTORS);
    for (t, vectors) in (1..).zip(&found) {
        for (kind, text) in [("alpha", alpha_file(vectors)), ("pg", graph_file(vectors))] {
            let path = format!("{}.{}{}", prefix, kind, t);
            fs::write(&path, text).map_err(|error| format!("{}: {}", path, error))?;
        }
        println!("step {}: {} vectors", t, vectors.len());
    }
    if found.len() < count {
        return Err(format!("step {} would have over {} vectors, or far more in between", found.len() + 1, VECTORS));
    }
    Ok(())
}
