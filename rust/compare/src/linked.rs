//! The linked library, lent copies that have something behind their ends.

use crate::gen::Question;
use crate::lent::{Cell, Library};
use biidhaqun::slices::{
    self, Adopted, Answers, Certifier, Conversion, Graph, Level, Offers, Reading, Refusal, Replayed, Tables, Totals,
    TotalsWithin, Worth,
};

/// The number of a call that wrote past the end of a slice: none ends with it.
const OUTSIDE: u64 = u64::MAX;
/// What lies behind a slice, in as many cells.
const EDGE: (u64, usize) = (0x5ee5_5ee5_5ee5_5ee5, 64);

pub struct Linked;

/// A copy with an edge behind it.
fn edged<Of: Cell>(slice: &[Of]) -> Vec<Of> {
    let mut copy = Vec::with_capacity(slice.len() + EDGE.1);
    copy.extend_from_slice(slice);
    for cell in copy.spare_capacity_mut() {
        cell.write(Of::cut(EDGE.0));
    }
    copy
}

/// Whether the edge is as it was.
fn kept<Of: Cell>(copy: &mut Vec<Of>) -> bool {
    // Every cell of the edge was written when the copy was made, which has not grown since.
    copy.spare_capacity_mut().iter().all(|cell| unsafe { cell.assume_init() } == Of::cut(EDGE.0))
}

fn edged_certifier(certifier: &Certifier) -> Certifier {
    Certifier {
        state: edged(&certifier.state),
        actions: edged(&certifier.actions),
        choices: edged(&certifier.choices),
        masks: edged(&certifier.masks),
        entries: edged(&certifier.entries),
        corners: edged(&certifier.corners),
        weights: edged(&certifier.weights),
        values: edged(&certifier.values),
        informed: edged(&certifier.informed),
        qmdp: edged(&certifier.qmdp),
    }
}

fn kept_certifier(certifier: &mut Certifier) -> bool {
    kept(&mut certifier.state)
        && kept(&mut certifier.actions)
        && kept(&mut certifier.choices)
        && kept(&mut certifier.masks)
        && kept(&mut certifier.entries)
        && kept(&mut certifier.corners)
        && kept(&mut certifier.weights)
        && kept(&mut certifier.values)
        && kept(&mut certifier.informed)
        && kept(&mut certifier.qmdp)
}

/// A level to be written, with edges.
fn edged_level(level: &Level) -> Level {
    Level {
        actions: edged(&level.actions),
        choices: edged(&level.choices),
        masks: edged(&level.masks),
        entries: edged(&level.entries),
        corners: edged(&level.corners),
        values: edged(&level.values),
        ..level.clone()
    }
}

fn kept_level(level: &mut Level) -> bool {
    kept(&mut level.actions)
        && kept(&mut level.choices)
        && kept(&mut level.masks)
        && kept(&mut level.entries)
        && kept(&mut level.corners)
        && kept(&mut level.values)
}

/// Makes a call on a copy of a certifier with edges.
fn lend(certifier: &mut Certifier, call: impl FnOnce(&mut Certifier) -> Refusal) -> Refusal {
    let mut copy = edged_certifier(certifier);
    let ended = call(&mut copy);
    let number = if kept_certifier(&mut copy) { ended.number } else { OUTSIDE };
    *certifier = copy;
    Refusal { number, ..ended }
}

impl Library for Linked {
    fn read(&self, file: &[u8], tables: &mut Tables, start: &mut [u16]) -> Reading {
        let mut transition = edged(&tables.transition);
        let mut observation = edged(&tables.observation);
        let mut reward = edged(&tables.reward);
        let mut numbers = edged(start);
        let read = slices::read(file, &mut transition, &mut observation, &mut reward, &mut numbers);
        let all = kept(&mut transition) && kept(&mut observation) && kept(&mut reward) && kept(&mut numbers);
        *tables = Tables { transition, observation, reward, ..*tables };
        start.copy_from_slice(&numbers);
        Reading { number: if all { read.number } else { OUTSIDE }, ..read }
    }

    fn convert(&self, file: &[u8], output: &mut [u8]) -> Conversion {
        let mut copy = edged(output);
        let ended = slices::convert(file, &mut copy);
        let number = if kept(&mut copy) { ended.number } else { OUTSIDE };
        output.copy_from_slice(&copy);
        Conversion { number, ..ended }
    }

    fn open(&self, tables: &Tables, certifier: &mut Certifier) -> Refusal {
        lend(certifier, |certifier| slices::open(tables, certifier))
    }

    fn list(&self, tables: &Tables, list: &mut [u32]) -> Refusal {
        let mut copy = edged(list);
        let ended = slices::list(tables, &mut copy);
        let number = if kept(&mut copy) { ended.number } else { OUTSIDE };
        list.copy_from_slice(&copy);
        Refusal { number, ..ended }
    }

    fn offer(&self, tables: &Tables, list: &[u32], certifier: &mut Certifier, level: &Level) -> Refusal {
        lend(certifier, |certifier| slices::offer(tables, list, certifier, level))
    }

    fn reprice(&self, tables: &Tables, new: &Tables, certifier: &mut Certifier) -> Refusal {
        lend(certifier, |certifier| slices::reprice(tables, new, certifier))
    }

    fn replay(&self, tables: &Tables, certifier: &mut Certifier, offers: &Offers) -> Replayed {
        let mut accepted = 0;
        let Refusal { number, place } = lend(certifier, |certifier| {
            let ended = slices::replay(tables, certifier, offers);
            accepted = ended.accepted;
            Refusal { number: ended.number, place: ended.place }
        });
        Replayed { number, place, accepted }
    }

    fn totals(&self, tables: &Tables, certifier: &Certifier, mixture: &[u32]) -> Totals {
        slices::totals(tables, certifier, mixture)
    }

    fn each(
        &self,
        tables: &Tables,
        certifier: &Certifier,
        mixtures: &[u32],
        count: usize,
        answers: &mut Answers,
    ) -> Refusal {
        let mut copy = Answers {
            numbers: edged(&answers.numbers),
            lower: edged(&answers.lower),
            upper: edged(&answers.upper),
            actions: edged(&answers.actions),
        };
        let ended = slices::each(tables, certifier, mixtures, count, &mut copy);
        let all = kept(&mut copy.numbers) && kept(&mut copy.lower) && kept(&mut copy.upper) && kept(&mut copy.actions);
        *answers = copy;
        Refusal { number: if all { ended.number } else { OUTSIDE }, ..ended }
    }

    fn within(&self, tables: &Tables, certifier: &Certifier, lows: &[u32], highs: &[u32]) -> TotalsWithin {
        slices::within(tables, certifier, lows, highs)
    }

    fn build(
        &self,
        tables: &Tables,
        list: &[u32],
        certifier: &Certifier,
        (count, points): (usize, &[u32]),
        level: &mut Level,
    ) -> Refusal {
        let mut copy = edged_level(level);
        let ended = slices::build(tables, list, certifier, count, points, &mut copy);
        let all = kept_level(&mut copy);
        *level = copy;
        Refusal { number: if all { ended.number } else { OUTSIDE }, ..ended }
    }

    fn adopt(
        &self,
        tables: &Tables,
        certifier: &Certifier,
        (alpha, graph): (&[u8], &[u8]),
        (points, count): (&[u32], usize),
        level: &mut Level,
    ) -> Adopted {
        let mut copy = edged_level(level);
        let made = slices::adopt(tables, certifier, alpha, graph, points, count, &mut copy);
        let all = kept_level(&mut copy);
        *level = copy;
        Adopted { number: if all { made.number } else { OUTSIDE }, ..made }
    }

    fn worth(&self, tables: &Tables, graph: &Graph, asked: Question) -> Worth {
        slices::worth(tables, graph, asked.node as usize, asked.state as usize, asked.steps as usize)
    }
}
