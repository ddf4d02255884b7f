//! The calls of the library as it is linked.

use biidhaqun::slices::{
    self, Adopted, Answers, Certifier, Conversion, Graph, Level, Offers, Reading, Refusal, Replayed, Tables, Totals,
    TotalsWithin, Worth,
};
use compare::gen::Question;
use compare::lent::{Call, Library};

/// The library as it is linked.
pub struct Linked;

/// Whether the library serves a call; else what it is refused by.
pub fn served(call: &Call) -> Result<(), String> {
    match call.number(&Linked) {
        0 => Ok(()),
        number => Err(format!("the library refuses by {}", number)),
    }
}

impl Library for Linked {
    fn read(&self, file: &[u8], tables: &mut Tables, start: &mut [u16]) -> Reading {
        let Tables { transition, observation, reward, .. } = tables;
        slices::read(file, transition, observation, reward, start)
    }

    fn convert(&self, file: &[u8], output: &mut [u8]) -> Conversion {
        slices::convert(file, output)
    }

    fn open(&self, tables: &Tables, certifier: &mut Certifier) -> Refusal {
        slices::open(tables, certifier)
    }

    fn list(&self, tables: &Tables, list: &mut [u32]) -> Refusal {
        slices::list(tables, list)
    }

    fn offer(&self, tables: &Tables, list: &[u32], certifier: &mut Certifier, level: &Level) -> Refusal {
        slices::offer(tables, list, certifier, level)
    }

    fn reprice(&self, tables: &Tables, new: &Tables, certifier: &mut Certifier) -> Refusal {
        slices::reprice(tables, new, certifier)
    }

    fn replay(&self, tables: &Tables, certifier: &mut Certifier, offers: &Offers) -> Replayed {
        slices::replay(tables, certifier, offers)
    }

    fn totals(&self, tables: &Tables, certifier: &Certifier, mixture: &[u32]) -> Totals {
        slices::totals(tables, certifier, mixture)
    }

    fn within(&self, tables: &Tables, certifier: &Certifier, lows: &[u32], highs: &[u32]) -> TotalsWithin {
        slices::within(tables, certifier, lows, highs)
    }

    fn each(
        &self,
        tables: &Tables,
        certifier: &Certifier,
        mixtures: &[u32],
        count: usize,
        answers: &mut Answers,
    ) -> Refusal {
        slices::each(tables, certifier, mixtures, count, answers)
    }

    fn build(
        &self,
        tables: &Tables,
        list: &[u32],
        certifier: &Certifier,
        (count, points): (usize, &[u32]),
        level: &mut Level,
    ) -> Refusal {
        slices::build(tables, list, certifier, count, points, level)
    }

    fn adopt(
        &self,
        tables: &Tables,
        certifier: &Certifier,
        (alpha, graph): (&[u8], &[u8]),
        (points, count): (&[u32], usize),
        level: &mut Level,
    ) -> Adopted {
        slices::adopt(tables, certifier, alpha, graph, points, count, level)
    }

    fn worth(&self, tables: &Tables, graph: &Graph, asked: Question) -> Worth {
        slices::worth(tables, graph, asked.node as usize, asked.state as usize, asked.steps as usize)
    }
}
