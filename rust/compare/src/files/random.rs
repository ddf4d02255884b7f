//! Random files, about half of them damaged.

use super::lines::{dressed, nudge, replaced, some_word, Lines};
use super::models::DOUGH;
use super::statements::{any_lines, coarse_lines, outcome, starred, valid};
use super::wrong::{wrong_words, BYTES};
use super::Case;
use crate::gen::Shape;
use crate::rng::Rng;
use reference::{ACTIONS, OBSERVATIONS};

/// A random file: about half of them read.
pub fn random(rng: &mut Rng) -> Case {
    let (shape, lines) = any_lines(rng);
    damaged(rng, lines, &format!("a random model, {:?}", shape))
}

/// A random file whose rewards may depend on what follows: most of them read, and of most of those all expected rewards are whole.
pub fn outcomes(rng: &mut Rng) -> Case {
    let mut shape = Shape { n: 1 + rng.index(4), m: 1 + rng.index(3), k: 1 + rng.index(3) };
    if rng.once_in(8) {
        let n = rng.pick(&[15, 16, 16, 17, 17, 63, 64]);
        shape = Shape { n, m: shape.m.min(2), k: shape.k.min(2) };
    } else if rng.once_in(12) {
        shape = Shape { n: shape.n.min(3), m: ACTIONS, k: OBSERVATIONS };
    }
    let coarse = !rng.once_in(3);
    let mut lines = match coarse {
        true => coarse_lines(rng, shape),
        false if shape.n > 20 => starred(rng, shape),
        false => valid(rng, shape),
    };
    let rewards = lines.len() / 3 + rng.index(12);
    for _ in 0..rewards.min(40) {
        // Anywhere behind the headers.
        let at = 6 + rng.index(lines.len() - 5);
        let line = outcome(rng, shape, coarse);
        lines.insert(at, line);
    }
    let about = format!("a model with outcomes, {:?}", shape);
    if rng.once_in(2) {
        return Case { about, file: dressed(rng, &lines) };
    }
    damaged(rng, lines, &about)
}

/// The lines in any dress, half of them with something wrong.
fn damaged(rng: &mut Rng, mut lines: Lines, what: &str) -> Case {
    let how = match rng.below(12) {
        0..=5 => "valid",
        6 | 7 => {
            let (line, at) = some_word(rng, &lines);
            let word = rng.pick(&wrong_words());
            lines = replaced(&lines, line, at, word);
            "one word replaced"
        }
        8 => {
            let (line, at) = some_word(rng, &lines);
            let word = lines[line][at].clone();
            lines[line].insert(at, word);
            "one word doubled"
        }
        9 => {
            let (line, at) = some_word(rng, &lines);
            let (other_line, other_at) = some_word(rng, &lines);
            let word = lines[line][at].clone();
            lines[line][at] = std::mem::replace(&mut lines[other_line][other_at], word);
            "two words swapped"
        }
        10 if rng.once_in(2) => {
            nudge(rng, &mut lines);
            "one number changed in its last digit"
        }
        10 => {
            let line = rng.index(lines.len());
            if rng.once_in(2) {
                lines.remove(line);
                "one line left out"
            } else {
                let other = rng.index(lines.len());
                let line = lines.remove(line);
                lines.insert(other, line);
                "one line moved"
            }
        }
        _ => {
            let (line, at) = some_word(rng, &lines);
            let word = &mut lines[line][at];
            let byte = rng.index(word.len());
            word[byte] = rng.pick(BYTES);
            "one byte of a word changed"
        }
    };
    let mut file = dressed(rng, &lines);
    let mut about = format!("{}, {}", what, how);
    match rng.below(16) {
        0 => {
            file.truncate(rng.index(file.len() + 1));
            about.push_str(", cut");
        }
        1 => {
            let at = rng.index(file.len());
            file[at] = rng.pick(BYTES);
            about.push_str(", one byte changed");
        }
        2 => {
            let at = rng.index(file.len() + 1);
            file.insert(at, rng.next() as u8);
            about.push_str(", one byte put in");
        }
        _ => {}
    }
    Case { about, file }
}

/// Words and bytes at random.
pub fn noise(rng: &mut Rng) -> Vec<u8> {
    let mut file = DOUGH.as_bytes()[..rng.index(DOUGH.len())].to_vec();
    for _ in 0..rng.index(40) {
        match rng.below(4) {
            0 => file.push(rng.next() as u8),
            1 => file.push(rng.pick(BYTES)),
            _ => {
                file.push(b' ');
                file.extend_from_slice(rng.pick(&wrong_words()));
            }
        }
    }
    file
}
