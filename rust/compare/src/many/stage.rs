//! Certifiers upon which there are many vectors, and calls on them.

use super::rng;
use crate::files::TIGER;
use crate::gen::{Shape, DOCUMENT};
use crate::lent::Call;
use crate::{pricing, single};
use reference::{Certifier, Level, Points, VECTORS};

/// The two files of a level.
pub(super) type Files = (Vec<u8>, Vec<u8>);

/// Files of so many vectors upon so many, or upon level 0 if none. Next nodes are spread over all that stand, the first one is
/// 255. Decimals are above every backup, so that the entries are the backups.
pub(super) fn files(shape: Shape, vectors: usize, below: Option<usize>) -> Files {
    let action = |v: usize| v % shape.m;
    let next = |v: usize, o: usize| match below {
        Some(below) => format!(" {}", (255 + 37 * v + 256 * o) % below),
        None => " -".to_string(),
    };
    let alpha = |v: usize| format!("{}\n{}\n\n", action(v), "999999 ".repeat(shape.n));
    let node = |v: usize| format!("{} {} {}\n", v, action(v), (0..shape.k).map(|o| next(v, o)).collect::<String>());
    let text = |of: &dyn Fn(usize) -> String| (0..vectors).map(of).collect::<String>().into_bytes();
    (text(&alpha), text(&node))
}

/// Two points.
pub(super) fn points() -> Points {
    let mut points = Points { count: 2, ..Points::none() };
    points.weights[..4].copy_from_slice(&[1, 1, 3, 97]);
    points
}

/// The level of files upon a certifier.
pub(super) fn adopted(certifier: &Certifier, (alpha, graph): &Files) -> Level {
    reference::adopt(certifier, alpha, graph, &points(), &DOCUMENT).expect("the files are adopted")
}

/// The certifier upon which a level was accepted.
pub(super) fn raised(certifier: &Certifier, level: &Level) -> Certifier {
    let mut raised = certifier.clone();
    reference::offer(&mut raised, level, &DOCUMENT).expect("the level is accepted");
    raised
}

/// Certifiers to call: a fresh one, and one upon 1,000 vectors that differ.
pub(super) struct Stage {
    pub(super) shape: Shape,
    pub(super) fresh: Certifier,
    pub(super) wide: Certifier,
}

impl Stage {
    pub(super) fn new() -> Stage {
        let tables = reference::read(TIGER.as_bytes(), &DOCUMENT).expect("the model is read").tables;
        let (n, m, k) = (tables.states as usize, tables.actions as usize, tables.observations as usize);
        let shape = Shape { n, m, k };
        let fresh = reference::open(&tables, &DOCUMENT).expect("its tables open");
        let mut level = adopted(&fresh, &files(shape, VECTORS, None));
        for (cell, entry) in level.entries.iter_mut().enumerate() {
            *entry -= cell as i64 % 7;
        }
        let wide = raised(&fresh, &level);
        Stage { shape, fresh, wide }
    }

    /// A level of so many vectors upon either certifier; the thousand and first is a copy.
    pub(super) fn level(&self, upon: &Certifier, vectors: usize) -> Level {
        let below = Some(VECTORS).filter(|_| upon.level > 0);
        let mut level = adopted(upon, &files(self.shape, vectors.min(VECTORS), below));
        while level.vectors < vectors as u64 {
            level.vectors += 1;
            level.actions.extend_from_within(..1);
            level.choices.extend_from_within(..self.shape.k);
            level.masks.extend_from_within(..1);
            level.entries.extend_from_within(..self.shape.n);
        }
        level
    }

    /// The certifier at level 1 upon 1,000 vectors of which this one is the largest everywhere, and alone has action 0.
    pub(super) fn peaked(&self, peak: usize) -> Certifier {
        let Shape { n, k, .. } = self.shape;
        let mut level = self.level(&self.fresh, VECTORS);
        for v in 0..VECTORS {
            level.actions[v] = if v == peak { 0 } else { 1 + v as u64 % 2 };
            for s in 0..n {
                level.entries[v * n + s] = if v == peak { -100 } else { -20_000 - v as i64 };
            }
        }
        level.choices[..VECTORS * k].fill(0);
        raised(&self.fresh, &level)
    }

    pub(super) fn offer(&self, upon: &Certifier, level: &Level) -> Call {
        single::offering(&mut rng(), self.shape, upon, level)
    }

    pub(super) fn totals(&self, upon: &Certifier) -> Call {
        single::totals(upon, vec![1; self.shape.n])
    }

    pub(super) fn within(&self, upon: &Certifier) -> Call {
        single::within(self.shape, upon, &vec![1; self.shape.n], &vec![2; self.shape.n])
    }

    pub(super) fn adopt(&self, upon: &Certifier, (alpha, graph): &Files, room: usize) -> Call {
        single::adoption(&mut rng(), upon, (alpha, graph), &points(), room)
    }

    /// New prices upon a certifier: each reward 7 ticks higher than the one before, the last one 42.
    pub(super) fn reprice(&self, upon: &Certifier) -> Call {
        let mut new = upon.tables.clone();
        let (_, _, used) = new.cells_used();
        new.rewards[..used].iter_mut().enumerate().for_each(|(at, reward)| *reward += 7 * (at as i64 + 1));
        pricing::call(upon, &new)
    }
}
