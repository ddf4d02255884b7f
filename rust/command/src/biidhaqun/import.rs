//! `import`: a file in Cassandra's format as a model file that the library reads.

use crate::stop::{put, Stop};
use biidhaqun::slices::FILE_BYTES;
use biidhaqun::{Model, Rule};
use command::cassandra::{self, Fitted};
use command::files;
use command::model_file::Counts;
use command::streams;
use command::told::counted;
use std::path::Path;

/// The most of a file in Cassandra's format. The largest model has 8 x 64 x 64 x 8 = 262,144 rewards; each stated by itself, with
/// names, takes some 100 bytes.
const MEBIBYTES: usize = 64;

pub fn run(path: &Path, round: bool, out: Option<&Path>) -> Result<(), Stop> {
    let file = files::whole(path, MEBIBYTES).map_err(Stop::File)?;
    let fitted = match cassandra::read(&file).and_then(|source| cassandra::fit(&source, round)) {
        Ok(fitted) => fitted,
        Err(told) => return Err(Stop::Source { path: path.to_path_buf(), file, told }),
    };
    let name = path.file_name().map_or_else(|| "a file".to_string(), |name| name.to_string_lossy().to_string());
    let text = cassandra::write(&fitted, &name);
    tested(&fitted, &text)?;
    match out {
        Some(out) => files::write(out, text.as_bytes()).map_err(Stop::File)?,
        None => put(&text)?,
    }
    let Counts { states, actions, observations } = fitted.counts;
    let counts = [(states, "state"), (actions, "action"), (observations, "observation")];
    let counts = counts.map(|(count, what)| counted(count, what)).join(", ");
    let mut told = format!("{}: {}\n", path.display(), counts);
    if fitted.changes.is_empty() {
        told.push_str("  nothing was rounded\n");
    }
    for change in &fitted.changes {
        told.push_str(&format!("  {}\n", change));
    }
    streams::tell(&told).map_err(Stop::File)
}

/// What helps where a model file would be too long.
fn too_long(text: &str) -> String {
    let comments: usize = text.lines().filter(|line| line.starts_with('#')).map(|line| line.len() + 1).sum();
    let help = if text.len() - comments > FILE_BYTES {
        "without them too it is too long: its rows have too many numbers above 0, and too few states have the same row"
    } else {
        "shorter names help"
    };
    format!("the model file would have {} bytes, {} of them in comments; {}", text.len(), comments, help)
}

/// What was written is read by the library, with the same numbers.
fn tested(fitted: &Fitted, text: &str) -> Result<(), Stop> {
    let (model, start) = Model::read(text.as_bytes()).map_err(|refusal| {
        let note = match refusal.rule {
            Rule::FileLength => too_long(text),
            _ => "the importer wrote a file that is not read, which is an error of ours: please report it".to_string(),
        };
        Stop::Refused { refusal, note }
    })?;
    let Counts { states, actions, observations } = fitted.counts;
    let mut same = start.weights.iter().map(|&weight| i64::from(weight)).eq(fitted.start.iter().copied());
    same &= model.discount() as i64 == fitted.discount;
    for action in 0..actions {
        for state in 0..states {
            let row = action * states + state;
            let left = (0..states).map(|to| model.transition(state, action, to) as i64);
            let seen = (0..observations).map(|seen| model.observation(action, state, seen) as i64);
            same &= left.eq(fitted.transitions[row].iter().copied());
            same &= seen.eq(fitted.observations[row].iter().copied());
            same &= model.reward(state, action) == fitted.rewards[row];
        }
    }
    if same {
        return Ok(());
    }
    Err(Stop::Ours("the file written reads otherwise than meant".to_string()))
}
