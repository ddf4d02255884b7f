//! Calls of the floating form, to be timed.

use crate::forms::Form;
use bench::tuned::TUNED;
use bench::{convert, floating, floating_file, limits};
use compare::lent::Call;

/// A call of the floating form, on a certifier that it may change.
struct Floating<Call: FnMut(&mut floating::Certifier) -> i64> {
    before: floating::Certifier,
    certifier: floating::Certifier,
    changes: bool,
    call: Call,
}

impl<Call: FnMut(&mut floating::Certifier) -> i64> Form for Floating<Call> {
    fn prepare(&mut self) {
        self.certifier = self.before.clone();
    }

    fn changes(&self) -> bool {
        self.changes
    }

    fn call(&mut self) -> i64 {
        (self.call)(&mut self.certifier)
    }
}

/// The floating form of a call, or why there is none.
type Made<'a> = Result<Box<dyn Form + 'a>, String>;

/// A call upon this certifier that leaves it as it is.
fn asking<'a>(certifier: floating::Certifier, call: impl FnMut(&mut floating::Certifier) -> i64 + 'a) -> Made<'a> {
    Ok(Box::new(Floating { before: certifier.clone(), certifier, changes: false, call }))
}

/// A call that changes it.
fn changing<'a>(certifier: floating::Certifier, call: impl FnMut(&mut floating::Certifier) -> i64 + 'a) -> Made<'a> {
    Ok(Box::new(Floating { before: certifier.clone(), certifier, changes: true, call }))
}

fn opened(tables: &floating::Tables) -> Result<floating::Certifier, String> {
    floating::open(tables).ok_or_else(|| "the floating form does not open".to_string())
}

fn close(exact: f64, float: f64) -> Result<(), String> {
    if (exact - float).abs() <= 2.0 {
        Ok(())
    } else {
        Err(format!("the floating form is at {}, not {}", float, exact))
    }
}

fn beliefs(weights: &[u32], states: usize) -> Vec<Vec<f64>> {
    weights.chunks(states).map(convert::belief).collect()
}

/// The floating form of a call, if it comes about as far.
pub fn floating_form(call: &Call) -> Made<'_> {
    let (answer, after) = call.made(&TUNED);
    match call {
        Call::Read { file, .. } => reading(file, &after),
        Call::Convert { file, .. } => converting(file, &answer, &after),
        Call::Open { tables, .. } => {
            let float = convert::floating_tables(tables);
            asking(opened(&float)?, move |_| floating::open(&float).map_or(-1, |opened| opened.number as i64))
        }
        Call::List { tables, .. } => {
            let float = convert::floating_tables(tables);
            asking(opened(&float)?, move |_| floating::listed(&float).len() as i64)
        }
        Call::Reprice { tables, new, certifier } => {
            repricing(convert::floating_certifier(tables, certifier), convert::floating_tables(new), &after)
        }
        Call::Offer { tables, certifier, level, .. } => {
            let level = convert::floating_level(level, tables.states, tables.observations);
            offering(convert::floating_certifier(tables, certifier), level)
        }
        Call::Replay { tables, certifier, offers } => {
            let (n, k) = (tables.states, tables.observations);
            let level = |at| limits::block(offers, at, n, k).map(|level| convert::floating_level(&level, n, k));
            let levels: Vec<floating::Level> = (0..offers.count).filter_map(level).collect();
            changing(convert::floating_certifier(tables, certifier), move |certifier| {
                levels.iter().filter(|level| floating::offer(certifier, level)).count() as i64
            })
        }
        Call::Totals { tables, certifier, mixture } => {
            totals(convert::floating_certifier(tables, certifier), mixture, &answer)
        }
        Call::Each { tables, certifier, mixtures, .. } => {
            let beliefs = beliefs(mixtures, tables.states);
            asking(convert::floating_certifier(tables, certifier), move |certifier| {
                beliefs.iter().map(|belief| floating::totals(certifier, belief).upper as i64).sum()
            })
        }
        Call::Within { tables, certifier, lows, highs } => {
            within(convert::floating_certifier(tables, certifier), lows, highs, &answer)
        }
        Call::Build { tables, certifier, points, .. } => {
            building(convert::floating_certifier(tables, certifier), beliefs(points, tables.states), &after)
        }
        Call::Adopt { tables, certifier, alpha, graph, points, .. } => {
            let files = [alpha, graph].map(|file| String::from_utf8_lossy(file).into_owned());
            adopting(convert::floating_certifier(tables, certifier), files, beliefs(points, tables.states), &after)
        }
        Call::Worth { tables, graph, asked } => {
            let float = convert::floating_tables(tables);
            let (node, state, steps) = (asked.node as usize, asked.state as usize, asked.steps as usize);
            close(answer[2] as f64, floating::worth(&float, graph, node, state, steps))?;
            asking(opened(&float)?, move |_| floating::worth(&float, graph, node, state, steps) as i64)
        }
    }
}

fn reading<'a>(file: &'a [u8], after: &Call) -> Made<'a> {
    let (read, _) = floating_file::read(file).ok_or("the floating form does not read the file")?;
    if let Call::Read { tables, .. } = after {
        close(tables.reward[0] as f64, read.rewards[0])?;
    }
    asking(opened(&read)?, move |_| floating_file::read(file).map_or(-1, |(read, _)| read.rewards[0] as i64))
}

fn converting<'a>(file: &'a [u8], answer: &[i128], after: &Call) -> Made<'a> {
    let text = floating_file::convert(file).ok_or("the floating form does not convert the file")?;
    let (tables, _) = floating_file::read(text.as_bytes()).ok_or("the floating form does not read what it wrote")?;
    if let Call::Convert { output, .. } = after {
        let (exact, _) = floating_file::read(&output[..answer[2] as usize]).ok_or("what is written is not read")?;
        close(exact.rewards[0], tables.rewards[0])?;
    }
    asking(opened(&tables)?, move |_| floating_file::convert(file).map_or(-1, |text| text.len() as i64))
}

fn repricing<'a>(standing: floating::Certifier, new: floating::Tables, after: &Call) -> Made<'a> {
    let mut moved = standing.clone();
    floating::reprice(&mut moved, &new);
    if let Call::Reprice { certifier, .. } = after {
        close(certifier.corners[0] as f64, moved.level.corners[0])?;
    }
    changing(standing, move |certifier| {
        floating::reprice(certifier, &new);
        certifier.level.corners[0] as i64
    })
}

fn offering<'a>(standing: floating::Certifier, level: floating::Level) -> Made<'a> {
    if !floating::offer(&mut standing.clone(), &level) {
        return Err("the floating form does not accept the level".to_string());
    }
    changing(standing, move |certifier| i64::from(floating::offer(certifier, &level)))
}

fn totals<'a>(standing: floating::Certifier, mixture: &[u32], answer: &[i128]) -> Made<'a> {
    let belief = convert::belief(mixture);
    let total: f64 = mixture.iter().map(|&weight| f64::from(weight)).sum();
    close(answer[3] as f64 / total, floating::totals(&standing, &belief).upper)?;
    asking(standing, move |certifier| floating::totals(certifier, &belief).upper as i64)
}

fn within<'a>(standing: floating::Certifier, lows: &[u32], highs: &[u32], answer: &[i128]) -> Made<'a> {
    let floats = |weights: &[u32]| weights.iter().map(|&weight| f64::from(weight)).collect::<Vec<_>>();
    let (low, high) = (floats(lows), floats(highs));
    let (lower, upper) = floating::within(&standing, &low, &high);
    close(answer[2] as f64, lower)?;
    close(answer[3] as f64, upper)?;
    asking(standing, move |certifier| floating::within(certifier, &low, &high).0 as i64)
}

fn building<'a>(standing: floating::Certifier, beliefs: Vec<Vec<f64>>, after: &Call) -> Made<'a> {
    if let Call::Build { level, .. } = after {
        close(level.corners[0] as f64, floating::build(&standing, &beliefs).corners[0])?;
    }
    asking(standing, move |certifier| floating::build(certifier, &beliefs).corners[0] as i64)
}

fn adopting<'a>(
    standing: floating::Certifier,
    [alpha, graph]: [String; 2],
    beliefs: Vec<Vec<f64>>,
    after: &Call,
) -> Made<'a> {
    let made = floating::adopt(&standing, &alpha, &graph, &beliefs);
    let made = made.ok_or("the floating form does not read the files")?;
    if let Call::Adopt { level, .. } = after {
        close(level.entries[0] as f64, made.vectors[0].entries[0])?;
    }
    asking(standing, move |certifier| {
        floating::adopt(certifier, &alpha, &graph, &beliefs).map_or(-1, |level| level.corners[0] as i64)
    })
}
