//! `certify` with levels in JSON, offered in turn.

use crate::building;
use crate::offering::{self, Asked};
use crate::shortfall;
use crate::stop::Stop;
use biidhaqun::slices::full_mask;
use biidhaqun::{Error, Length, Level, Shape};
use command::files;
use num_traits::Bounded;
use serde_json::Value;
use std::fmt;
use std::path::Path;

/// The most of a file of levels. As `levels --json` prints it, an entry of a vector takes at most 23 bytes (12 blanks, a minus and
/// 8 digits, comma and line end), a state of a mask 16 and a choice 17: a vector of 64 entries, 63 states and 8 choices less than
/// 2,800, a level of 1,000 vectors, 64 corners and 32 points less than 2.9 million, and 100 of them less than 290 million bytes. The
/// rest is room for totals.
pub const MEBIBYTES: usize = 320;

/// What else the file may have been meant for.
const ALONE: &str = "one file alone is read as levels in JSON; a solver's files come in pairs, ALPHA GRAPH";

pub fn run(path: &Path, offers: &Path, asked: &Asked, json: bool) -> Result<(), Stop> {
    let read = building::read(path)?;
    let file = files::whole(offers, MEBIBYTES).map_err(Stop::File)?;
    let wrong = |message: String| Stop::Levels(format!("{}: {}", offers.display(), message));
    let levels = parsed(&file, read.model.shape()).map_err(wrong)?;
    offering::run(&read, levels.len(), asked, json, |certifier, number| {
        let level = &levels[number];
        certifier.offer(level).map_err(|error| match error {
            Error::Length(length) => wrong(format!("level {}: {}", number + 1, length)),
            Error::Refused(refusal) => {
                let short = shortfall::told(&read.named, certifier, level, &refusal);
                let note = short.map_or(String::new(), |short| format!("; {}", short));
                Stop::Refused { refusal, note: format!("level {} is not accepted{}", number + 1, note) }
            }
        })
    })
}

/// The levels of a JSON object, as `levels --json` prints them: `levels`, each with `vectors`, `corners` and `points`.
fn parsed(file: &[u8], shape: Shape) -> Result<Vec<Level>, String> {
    let value: Value = serde_json::from_slice(file).map_err(|error| format!("it is no JSON: {}; {}", error, ALONE))?;
    let list = value.get("levels").and_then(Value::as_array);
    let one = |(number, value): (usize, &Value)| {
        level(value, shape).map_err(|wrong| format!("level {}: {}; `levels --json` prints the form", number + 1, wrong))
    };
    match list {
        None => Err(format!("it has no list `levels`; {}", ALONE)),
        Some(list) if list.is_empty() => Err("it has no level: its list `levels` is empty".to_string()),
        Some(list) => list.iter().enumerate().map(one).collect(),
    }
}

/// What is wrong with a part of a level, and the path to it.
struct Wrong {
    path: String,
    text: String,
}

impl Wrong {
    /// Another value was wanted.
    fn not(value: &Value, wanted: &str) -> Wrong {
        const LONGEST: usize = 40;
        let found = match value {
            Value::Array(_) => "a list".to_string(),
            Value::Object(_) => "an object".to_string(),
            other => other.to_string().chars().take(LONGEST).collect(),
        };
        Wrong { path: String::new(), text: format!("is {}, {}", found, wanted) }
    }

    /// The same, seen from the value that holds it.
    fn under(self, part: &str) -> Wrong {
        Wrong { path: format!("{}{}", part, self.path), text: self.text }
    }
}

impl fmt::Display for Wrong {
    fn fmt(&self, f: &mut fmt::Formatter) -> fmt::Result {
        match self.path.trim_start_matches('.') {
            "" => write!(f, "{}", self.text),
            path => write!(f, "{} {}", path, self.text),
        }
    }
}

impl From<Length> for Wrong {
    fn from(length: Length) -> Wrong {
        Wrong { path: String::new(), text: length.to_string() }
    }
}

/// A vector of a level file.
struct Vector {
    action: u8,
    choices: Vec<u16>,
    mask: u64,
    entries: Vec<i64>,
}

/// The level of a value, if it is of the form, and its lists are as long as the model wants.
fn level(value: &Value, shape: Shape) -> Result<Level, Wrong> {
    let vector = |value: &Value| {
        Ok(Vector {
            action: field(value, "action", natural)?,
            choices: field(value, "choices", |choices| list(choices, natural))?,
            mask: match value.get("mask") {
                Some(_) => field(value, "mask", |mask| covered(mask, shape.states))?,
                None => full_mask(shape.states),
            },
            entries: field(value, "entries", |entries| list(entries, ticks))?,
        })
    };
    let point =
        |value: &Value| Ok((field(value, "weights", |weights| list(weights, natural))?, field(value, "value", ticks)?));
    let vectors: Vec<Vector> = field(value, "vectors", |vectors| list(vectors, vector))?;
    let corners = field(value, "corners", |corners| list(corners, ticks))?;
    let points: Vec<(Vec<u32>, i64)> = field(value, "points", |points| list(points, point))?;
    let mut level = Level::new(shape);
    for Vector { action, choices, mask, entries } in &vectors {
        level.add_masked_vector(*action, choices, *mask, entries)?;
    }
    level.set_corners(&corners)?;
    for (weights, value) in &points {
        level.add_point(weights, *value)?;
    }
    Ok(level)
}

/// A mask: the list of the states that are covered, or a number with bit s for state s.
fn covered(value: &Value, states: usize) -> Result<u64, Wrong> {
    let bit = |value: &Value| match natural::<u64>(value)? {
        state if state < states as u64 => Ok(1 << state),
        _ => Err(Wrong::not(value, &format!("and the last state is {}", states - 1))),
    };
    if value.is_array() {
        return Ok(list(value, bit)?.into_iter().fold(0, |mask, bit: u64| mask | bit));
    }
    natural(value)
}

/// A part of an object.
fn field<Item>(value: &Value, key: &str, read: impl Fn(&Value) -> Result<Item, Wrong>) -> Result<Item, Wrong> {
    let missing = || Wrong { path: String::new(), text: "is missing".to_string() };
    let found = value.get(key).ok_or_else(missing).and_then(read);
    found.map_err(|wrong| wrong.under(&format!(".{}", key)))
}

fn list<Item>(value: &Value, item: impl Fn(&Value) -> Result<Item, Wrong>) -> Result<Vec<Item>, Wrong> {
    let all = value.as_array().ok_or_else(|| Wrong::not(value, "no list"))?;
    let one = |(number, value)| item(value).map_err(|wrong| wrong.under(&format!("[{}]", number)));
    all.iter().enumerate().map(one).collect()
}

/// A whole number that is not below 0. One that its type does not hold is outside every limit, as the largest of the type is.
fn natural<Number: TryFrom<u64> + Bounded>(value: &Value) -> Result<Number, Wrong> {
    match (value.as_u64(), value.as_i64()) {
        (Some(number), _) => Ok(Number::try_from(number).unwrap_or_else(|_| Number::max_value())),
        (None, Some(_)) => Err(Wrong::not(value, "below 0")),
        (None, None) => Err(unwhole(value)),
    }
}

/// A whole number.
fn ticks(value: &Value) -> Result<i64, Wrong> {
    value.as_i64().ok_or_else(|| unwhole(value))
}

/// A value that is no whole number, or not written as one, or far beyond every limit of a level.
fn unwhole(value: &Value) -> Wrong {
    const FAR: f64 = (1_u64 << 62) as f64;
    Wrong::not(
        value,
        match value.as_f64() {
            Some(number) if number.abs() > FAR => "beyond every limit",
            Some(number) if number.fract() == 0.0 => "written with a point or an exponent: digits alone are wanted",
            _ => "no whole number",
        },
    )
}
