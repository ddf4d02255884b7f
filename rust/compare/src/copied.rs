//! The library's calls by the reference, or by a copy of it with one deliberate mistake.
//!
//! A slice that is too short counts as one whose object breaks its first limit: tables without counts (3, or 7), a level
//! without vectors (7 where it stands or its rows are too short, 9 where it is offered or has no room), too many points (9), no
//! weights (17), no nodes (18); lows and highs are handed on as they lie. What is written is written at the front of the
//! slices; the rest stays.

mod adopting;
mod files;
mod levels;
mod replaying;
mod slips;
mod storage;
mod totals;

pub use slips::Slip;

use crate::gen::{Question, DOCUMENT};
use crate::lent::{stored, Library};
use biidhaqun::slices::{
    Adopted, Answers, Certifier, Conversion, Graph, Level, Offers, Reading, Refusal, Replayed, Tables, Totals,
    TotalsWithin, Worth,
};
use reference::{Rules, NODES, OBSERVATIONS};

/// The library's calls by the reference with these rules; by default they are the document's, and nothing slips.
#[derive(Clone, Copy, Debug, Default)]
pub struct Copied {
    pub rules: Rules,
    pub slip: Option<Slip>,
}

const NINE: reference::Refusal = reference::Refusal { number: 9, place: 0 };

fn refused(refusal: reference::Refusal) -> Refusal {
    Refusal { number: refusal.number.into(), place: refusal.place as usize }
}

impl Copied {
    /// The copy with one slip.
    pub fn slipping(slip: Slip) -> Copied {
        Copied { slip: Some(slip), ..Copied::default() }
    }

    /// The copy with one trap.
    pub fn trapped(trap: reference::Trap) -> Copied {
        Copied { rules: Rules::broken(trap), ..Copied::default() }
    }

    fn has(&self, slip: Slip) -> bool {
        self.slip == Some(slip)
    }

    /// How a call on a certifier ends.
    fn ended(&self, answer: Result<(), reference::Refusal>, lent: &mut Certifier) -> Refusal {
        if answer.is_err() && self.has(Slip::RefusalClears) {
            lent.state.fill(0);
            lent.entries.fill(0);
        }
        answer.err().map_or(Refusal::default(), refused)
    }
}

impl Library for Copied {
    fn read(&self, file: &[u8], lent: &mut Tables, start: &mut [u16]) -> Reading {
        let left = usize::from(self.has(Slip::RefusedReading));
        let refused = |Refusal { number, place }| Reading { number, place, states: left, ..Reading::default() };
        self.taken(file, lent, start).unwrap_or_else(refused)
    }

    fn convert(&self, file: &[u8], output: &mut [u8]) -> Conversion {
        self.converted(file, output)
    }

    fn open(&self, tables: &Tables, certifier: &mut Certifier) -> Refusal {
        let answer = self.opened(tables, certifier);
        self.ended(answer, certifier)
    }

    fn list(&self, tables: &Tables, list: &mut [u32]) -> Refusal {
        match self.listed(tables, list) {
            Ok(()) => Refusal::default(),
            Err(refusal) => {
                if self.has(Slip::RefusalClears) {
                    list.fill(0);
                }
                refused(refusal)
            }
        }
    }

    fn offer(&self, tables: &Tables, list: &[u32], certifier: &mut Certifier, level: &Level) -> Refusal {
        let answer = self.offered(tables, list, certifier, level);
        self.ended(answer, certifier)
    }

    fn reprice(&self, tables: &Tables, new: &Tables, certifier: &mut Certifier) -> Refusal {
        let answer = self.repriced(tables, new, certifier);
        self.ended(answer, certifier)
    }

    fn replay(&self, tables: &Tables, certifier: &mut Certifier, offers: &Offers) -> Replayed {
        let answer = self.replayed(tables, certifier, offers);
        let left = usize::from(self.has(Slip::RefusedReplay));
        let accepted = *answer.as_ref().unwrap_or(&left);
        let Refusal { number, place } = self.ended(answer.map(|_| ()), certifier);
        Replayed { number, place, accepted }
    }

    fn totals(&self, tables: &Tables, certifier: &Certifier, mixture: &[u32]) -> Totals {
        self.totals_at(tables, certifier, mixture)
    }

    fn each(
        &self,
        tables: &Tables,
        certifier: &Certifier,
        mixtures: &[u32],
        count: usize,
        answers: &mut Answers,
    ) -> Refusal {
        self.each_of(tables, certifier, (count, mixtures), answers).err().map_or(Refusal::default(), refused)
    }

    fn within(&self, tables: &Tables, certifier: &Certifier, lows: &[u32], highs: &[u32]) -> TotalsWithin {
        self.totals_within(tables, certifier, lows, highs)
    }

    fn build(
        &self,
        tables: &Tables,
        list: &[u32],
        certifier: &Certifier,
        points: (usize, &[u32]),
        level: &mut Level,
    ) -> Refusal {
        match self.built(tables, list, certifier, points, level) {
            Ok(()) => Refusal::default(),
            Err(refusal) => {
                if self.has(Slip::RefusalClears) {
                    level.corners.fill(0);
                }
                refused(refusal)
            }
        }
    }

    fn adopt(
        &self,
        tables: &Tables,
        certifier: &Certifier,
        files: (&[u8], &[u8]),
        points: (&[u32], usize),
        level: &mut Level,
    ) -> Adopted {
        match self.adopted(tables, certifier, files, points, level) {
            Ok(vectors) => Adopted { vectors, ..Adopted::default() },
            Err(refusal) => {
                if self.has(Slip::RefusalClears) {
                    level.corners.fill(0);
                }
                let Refusal { number, place } = refused(refusal);
                Adopted { number, place, vectors: usize::from(self.has(Slip::RefusedAdoption)) }
            }
        }
    }

    fn worth(&self, tables: &Tables, graph: &Graph, asked: Question) -> Worth {
        let tables = self.tables(tables);
        let (nodes, k) = (graph.nodes.min(NODES + 1), tables.observations as usize);
        let long = self.long(&graph.actions, nodes) && self.long(&graph.next, nodes * k);
        let graph = reference::Graph {
            nodes: if long { graph.nodes as u64 } else { 0 },
            actions: stored(&graph.actions, nodes, NODES + 1),
            next: stored(&graph.next, nodes * k, (NODES + 1) * OBSERVATIONS),
        };
        match reference::worth(&tables, &graph, asked.node, asked.state, asked.steps, &self.rules) {
            Ok(ticks) => Worth { ticks: totals::ticks(&ticks), ..Worth::default() },
            Err(refusal) => {
                let Refusal { number, place } = refused(refusal);
                Worth { number, place, ticks: i64::from(self.has(Slip::RefusedWorth)) }
            }
        }
    }
}

/// The document, through slices.
pub const BY_THE_DOCUMENT: Copied = Copied { rules: DOCUMENT, slip: None };
