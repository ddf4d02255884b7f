//! `check`: whether the library reads a model file, or what is wrong with it.

use crate::building::{self, Read};
use crate::stop::{put, Stop};
use command::names::Names;
use command::numerals::shown;
use command::told::counted;
use std::path::Path;

pub fn run(path: &Path) -> Result<(), Stop> {
    let Read { model, start, named, passed_over } = building::read(path)?;
    let shape = model.shape();
    let start: Vec<String> = start.weights.iter().map(|&weight| shown(i64::from(weight), 2)).collect();
    let mut text = format!(
        "{}: accepted\n  {}\n  {}\n  {}\n  discount {}, start {}\n",
        path.display(),
        listed(shape.states, "state", &named.states),
        listed(shape.actions, "action", &named.actions),
        listed(shape.observations, "observation", &named.observations),
        shown(model.discount() as i64, 3),
        start.join(" ")
    );
    for passed in passed_over {
        text.push_str(&format!("  {}\n", passed));
    }
    put(&text)
}

/// `2 states: tiger-left, tiger-right`.
fn listed(count: usize, kind: &str, names: &Names) -> String {
    let mut text = counted(count, kind);
    if !names.all().is_empty() {
        text.push_str(&format!(": {}", names.all().join(", ")));
    }
    text
}
