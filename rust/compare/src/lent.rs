//! Calls on lent slices of any content and length: each is compared whole, before and after.

mod call;
mod cells;
mod storage;

pub use call::Call;
pub use cells::{Cell, Slice};
pub use storage::{
    certifier, counts, front, graph, level, mixture, narrowed, points, roomy, roomy_level, rows, stored, tables,
    to_be_made, weights,
};

use crate::gen::Question;
use biidhaqun::slices::{
    Adopted, Answers, Certifier, Conversion, Graph, Level, Offers, Reading, Refusal, Replayed, Tables, Totals,
    TotalsWithin, Worth,
};

/// The library's calls.
pub trait Library {
    fn read(&self, file: &[u8], tables: &mut Tables, start: &mut [u16]) -> Reading;
    fn convert(&self, file: &[u8], output: &mut [u8]) -> Conversion;
    fn open(&self, tables: &Tables, certifier: &mut Certifier) -> Refusal;
    fn list(&self, tables: &Tables, list: &mut [u32]) -> Refusal;
    fn offer(&self, tables: &Tables, list: &[u32], certifier: &mut Certifier, level: &Level) -> Refusal;
    fn reprice(&self, tables: &Tables, new: &Tables, certifier: &mut Certifier) -> Refusal;
    fn replay(&self, tables: &Tables, certifier: &mut Certifier, offers: &Offers) -> Replayed;
    fn totals(&self, tables: &Tables, certifier: &Certifier, mixture: &[u32]) -> Totals;
    fn each(
        &self,
        tables: &Tables,
        certifier: &Certifier,
        mixtures: &[u32],
        count: usize,
        answers: &mut Answers,
    ) -> Refusal;
    fn within(&self, tables: &Tables, certifier: &Certifier, lows: &[u32], highs: &[u32]) -> TotalsWithin;
    /// The number of points and their weights.
    fn build(
        &self,
        tables: &Tables,
        list: &[u32],
        certifier: &Certifier,
        points: (usize, &[u32]),
        level: &mut Level,
    ) -> Refusal;
    /// The alpha file and the graph; the points' weights and their count.
    fn adopt(
        &self,
        tables: &Tables,
        certifier: &Certifier,
        files: (&[u8], &[u8]),
        points: (&[u32], usize),
        level: &mut Level,
    ) -> Adopted;
    fn worth(&self, tables: &Tables, graph: &Graph, asked: Question) -> Worth;
}
