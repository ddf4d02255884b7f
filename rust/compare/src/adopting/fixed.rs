//! The cases that are the same for every seed.

use super::{at_step, replaced, spans, Case, File, BOTH, WORDS};
use crate::files::DOUGH;
use crate::gen::DOCUMENT;
use crate::solved::Climb;
use reference::{Points, BUILT_POINTS, FILE_BYTES, SOLVER_BYTES, STATES, VECTORS};

/// A model of one state, action and observation.
const SINGLE: &str =
    "discount: 0.5 values: reward states: 1 actions: 1 observations: 1 start: 1 T: 0 : 0 1 O: 0 : 0 1 \
                      R: 0 : 0 : * : * -0.01";

/// The cases that are the same for every seed: the files of two models with each word in turn replaced, left out, doubled and
/// put behind the next, with a byte inserted at each place, and cut at each byte; lengths; counts.
pub fn fixed() -> Vec<Case> {
    let climb = |text: &str| {
        let read = reference::read(text.as_bytes(), &DOCUMENT).expect("the model is read");
        Climb::of(read.tables, Points::one(&read.start), 3)
    };
    let mut cases = Vec::new();
    for (name, climb) in [("dough", climb(DOUGH)), ("single", climb(SINGLE))] {
        for (below, step) in [(0, 0), (1, 1), (0, 1), (1, 0), (2, 2)] {
            let mut case = at_step(&climb, below, step);
            case.about = format!("{}, {}", name, case.about);
            if below == step && step < 2 {
                for file in BOTH {
                    cases.extend(each_word(&case, file));
                    cases.extend(each_byte(&case, file));
                    cases.extend(lengths(&case, file));
                }
            }
            cases.push(case);
        }
    }
    cases.extend(counts(&at_step(&climb(DOUGH), 0, 0)));
    cases
}

fn each_word(case: &Case, file: File) -> Vec<Case> {
    let bytes = case.clone().file(file).clone();
    let spans = spans(&bytes);
    let mut cases = Vec::new();
    for (at, &span) in spans.iter().enumerate() {
        let mut add = |about: &str, changed: Vec<u8>| {
            cases.push(case.with(format!("word {} of the {:?} {}", at, file, about), file, changed));
        };
        for word in WORDS {
            add(&format!("is {:?}", word), replaced(&bytes, span, word.as_bytes()));
        }
        let word = &bytes[span.0..span.1];
        add("is left out", replaced(&bytes, span, b""));
        add("stands twice", replaced(&bytes, span, &[word, b" ", word].concat()));
        add("has a comment in it", replaced(&bytes, span, &[&word[..1], b"# ", &word[1..], b"\n"].concat()));
        if let Some(&next) = spans.get(at + 1) {
            let swapped = [&bytes[next.0..next.1], b" ", word].concat();
            add("is behind the next", replaced(&bytes, (span.0, next.1), &swapped));
        }
    }
    cases
}

fn each_byte(case: &Case, file: File) -> Vec<Case> {
    let bytes = case.clone().file(file).clone();
    let mut cases = Vec::new();
    for at in 0..=bytes.len() {
        cases.push(case.with(format!("the {:?} cut at {}", file, at), file, bytes[..at].to_vec()));
        for byte in *b"-.0:# \0\r\n" {
            let changed = replaced(&bytes, (at, at), &[byte]);
            cases.push(case.with(format!("{:?} inserted at {} of the {:?}", byte as char, at, file), file, changed));
        }
    }
    cases
}

/// Lengths around the longest of a model file, which is not that of a solver's.
fn lengths(case: &Case, file: File) -> Vec<Case> {
    let bytes = case.clone().file(file).clone();
    let mut cases = Vec::new();
    for length in [FILE_BYTES - 1, FILE_BYTES, FILE_BYTES + 1, 2 * FILE_BYTES] {
        for filler in [b' ', b'#', b'0'] {
            let mut long = bytes.clone();
            long.resize(length, filler);
            let case = case.with(format!("the {:?} of {} bytes, filled with {}", file, length, filler), file, long);
            let mut broken = case.clone();
            broken.certifier.level = 101;
            cases.extend([case, broken]);
        }
    }
    cases
}

/// Files of many vectors, of none, and of different counts; of a byte too many; with many points.
fn counts(case: &Case) -> Vec<Case> {
    let alpha = |count: usize| "0\n-1.000 -1.000 \n\n".repeat(count).into_bytes();
    let node = |at: usize| format!("{} 0  - - \n", at);
    let graph = |count: usize| (0..count).map(node).collect::<String>().into_bytes();
    let mut cases = Vec::new();
    for (one, other) in [
        (0, 0),
        (0, 1),
        (1, 0),
        (31, 31),
        (32, 32),
        (33, 33),
        (33, 34),
        (32, 33),
        (33, 32),
        (99, 99),
        (100, 100),
        (101, 101),
        (VECTORS - 1, VECTORS - 1),
        (VECTORS, VECTORS),
        (VECTORS + 1, VECTORS + 1),
        (VECTORS, VECTORS + 1),
        (VECTORS + 1, VECTORS),
    ] {
        let about = format!("{} vectors and {} nodes", one, other);
        let whole = Case { about, alpha: alpha(one), graph: graph(other), ..case.clone() };
        // A word that does not fit behind either file.
        for file in BOTH {
            let mut bytes = whole.clone().file(file).clone();
            bytes.push(b'x');
            cases.push(whole.with(format!("an x behind the {:?}", file), file, bytes));
        }
        cases.push(whole);
    }
    // One byte too long, upon a certifier that is broken or not.
    for file in BOTH {
        let mut bytes = case.clone().file(file).clone();
        bytes.resize(SOLVER_BYTES + 1, b' ');
        let long = case.with(format!("the {:?} a byte too long", file), file, bytes);
        let mut broken = long.clone();
        broken.certifier.level = 101;
        cases.extend([long, broken]);
    }
    for count in [BUILT_POINTS, BUILT_POINTS + 1] {
        let points = Points { count: count as u64, weights: vec![1; (BUILT_POINTS + 1) * STATES] };
        cases.push(Case { about: format!("{} points", count), points, ..case.clone() });
    }
    cases
}
