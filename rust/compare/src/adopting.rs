//! A solver's two files, whole and damaged, upon certifiers of any content.

mod fixed;
mod random;

pub use fixed::fixed;
pub use random::random;

use crate::files::escaped;
use crate::gen::DOCUMENT;
use crate::lent::Call;
use crate::rng::Rng;
use crate::single;
use crate::solved::Climb;
use reference::{Certifier, Points, VECTORS};

/// A certifier, the two files of a step, and points.
#[derive(Clone, Debug)]
pub struct Case {
    pub about: String,
    pub certifier: Certifier,
    pub alpha: Vec<u8>,
    pub graph: Vec<u8>,
    pub points: Points,
}

/// One of the two files.
#[derive(Clone, Copy, Debug, PartialEq, Eq)]
enum File {
    Alpha,
    Graph,
}

const BOTH: [File; 2] = [File::Alpha, File::Graph];

/// Words of every kind that a file may have in a wrong place: near the limits of actions, nodes and decimals, of other
/// forms, and of none.
const WORDS: &[&str] = &[
    "0",
    "1",
    "2",
    "3",
    "00",
    "01",
    "07",
    "08",
    "7",
    "8",
    "9",
    "99",
    "000",
    "001",
    "007",
    "099",
    "100",
    "999",
    "0000",
    "1000",
    "-",
    "--",
    "-0",
    "-1",
    "-00",
    "+1",
    "x",
    "X",
    "*",
    ":",
    "-:",
    "0:",
    "#",
    "0#",
    "\u{b}",
    "1 1",
    ".",
    "-.",
    "1.",
    ".5",
    "-.5",
    "1.5",
    "-1.5",
    "0.0",
    "-0.0",
    "0.001",
    "-0.001",
    "-0.01",
    "0.009",
    "1.0.0",
    "1e0",
    "1E1",
    "5e-1",
    "1,5",
    "123456",
    "999999",
    "-999999",
    "1234567",
    "-1234567",
    "0.123456789012",
    "-0.123456789012",
    "0.1234567890123",
    "123456.123456789012",
    "-123456.123456789012",
    "1234567.1",
    "-1000",
    "-1000.0",
    "-1000.000000000001",
    "-1000.01",
    "-2000",
    "-2000.001",
    "1000",
    "NaN",
    "inf",
    "31",
    "32",
    "33",
];

impl Case {
    fn file(&mut self, file: File) -> &mut Vec<u8> {
        match file {
            File::Alpha => &mut self.alpha,
            File::Graph => &mut self.graph,
        }
    }

    /// The case with one file changed.
    fn with(&self, about: String, file: File, bytes: Vec<u8>) -> Case {
        let mut case = Case { about: format!("{}: {}", self.about, about), ..self.clone() };
        *case.file(file) = bytes;
        case
    }

    /// The call, with slices as long as they must be: for as many vectors as the files have, whether they are refused later on or
    /// not.
    pub fn call(&self, rng: &mut Rng) -> Call {
        let read = reference::adopted_vectors(&self.certifier, &self.alpha, &self.graph, &DOCUMENT);
        let vectors = read.map_or(2, |vectors| vectors.min(VECTORS));
        single::adoption(rng, &self.certifier, (&self.alpha, &self.graph), &self.points, vectors)
    }

    pub fn show(&self) -> String {
        format!("{}\nalpha {}\ngraph {}\n", self.about, escaped(&self.alpha), escaped(&self.graph))
    }
}

/// The certifier upon so many steps of a climb, and the files of another step.
fn at_step(climb: &Climb, below: usize, step: usize) -> Case {
    let mut certifier = reference::open(&climb.tables, &DOCUMENT).expect("generated tables open");
    for at in 0..below {
        let (alpha, graph) = climb.files(at);
        let level = reference::adopt(&certifier, &alpha, &graph, &climb.points, &DOCUMENT).expect("a step is adopted");
        reference::offer(&mut certifier, &level, &DOCUMENT).expect("an adopted level is accepted");
    }
    let (alpha, graph) = climb.files(step);
    let about = format!("step {} upon level {}", step + 1, below);
    Case { about, certifier, alpha, graph, points: climb.points.clone() }
}

/// The spans of a file's words, which are parted by spaces and line ends alone.
fn spans(bytes: &[u8]) -> Vec<(usize, usize)> {
    let mut spans: Vec<(usize, usize)> = Vec::new();
    let mut inside = false;
    for (at, byte) in bytes.iter().enumerate() {
        let word = !byte.is_ascii_whitespace();
        match (word, inside) {
            (true, false) => spans.push((at, at + 1)),
            (true, true) => spans.last_mut().into_iter().for_each(|span| span.1 = at + 1),
            _ => {}
        }
        inside = word;
    }
    spans
}

/// A file with one span replaced.
fn replaced(bytes: &[u8], (from, to): (usize, usize), by: &[u8]) -> Vec<u8> {
    [&bytes[..from], by, &bytes[to..]].concat()
}

#[cfg(test)]
mod tests {
    use super::*;
    use crate::copied::BY_THE_DOCUMENT;
    use std::collections::BTreeSet;

    #[test]
    fn every_refusal_occurs_among_random_files() {
        let mut seen = BTreeSet::new();
        for number in 0..1_500 {
            let mut rng = Rng::for_case(1, "adopt", number);
            let case = random(&mut rng);
            assert!(!case.show().is_empty());
            seen.insert(case.call(&mut rng).number(&BY_THE_DOCUMENT));
        }
        assert_eq!(seen, [0, 1, 7, 8, 9, 10, 11, 12, 19, 20, 21].into_iter().collect());
    }

    /// Whatever is made of files is accepted.
    #[test]
    fn what_is_adopted_is_accepted() {
        let mut accepted = 0;
        for number in 0..1_500 {
            let Case { certifier, alpha, graph, points, .. } = random(&mut Rng::for_case(2, "adopt", number));
            if let Ok(level) = reference::adopt(&certifier, &alpha, &graph, &points, &DOCUMENT) {
                let mut certifier = certifier.clone();
                assert_eq!(reference::offer(&mut certifier, &level, &DOCUMENT), Ok(()), "adopt:{}", number);
                accepted += 1;
            }
        }
        assert!(accepted > 300, "{}", accepted);
    }
}
