//! The calls of a form in whole numbers, from what each form does in its own way.

use crate::limits::*;
use crate::moved;
use crate::solver_file::{self, Files};
use crate::whole_file::{converted, laid, outcome_zeros, zeros, Read, Zeros};
use biidhaqun::slices::{
    Adopted, Answers, Certifier, Conversion, Graph, Level, Offers, Reading, Refusal, Replayed, Tables, Totals,
    TotalsWithin, Worth,
};
use compare::gen::Question;
use compare::lent::Library;

/// A form in whole numbers: what it does of its own.
pub struct Whole {
    /// Reads a file, or one whose rewards depend on what follows, into zeros for its counts.
    pub read: fn(&[u8], bool, &Zeros) -> Answer<Read>,
    /// Writes the file with expected rewards; its length, or 26.
    pub write: fn(&Read, &mut [u8]) -> Answer<usize>,
    /// Tables within the limits, of which each row totals 1,000.
    pub judge: for<'a> fn(&'a Tables) -> Answer<Model<'a>>,
    /// A certifier within the limits, with its number; or 7.
    pub examine: for<'a> fn(&'a Tables, &'a Certifier) -> Answer<Examined<'a>>,
    pub offer: fn(&Tables, &mut Certifier, &Level) -> Answer<()>,
    pub totals: fn(&Tables, &Certifier, &[u32]) -> Answer<Totals>,
    pub within: fn(&Tables, &Certifier, &[u32], &[u32]) -> Answer<TotalsWithin>,
    pub each: fn(&Tables, &Certifier, Weighed, &mut Answers) -> Answer<()>,
    pub build: fn(&Tables, &Certifier, Weighed, &mut Level) -> Answer<()>,
    pub adopt: fn(&Examined, &Files, Weighed, &mut Level) -> Answer<usize>,
    pub worth: fn(&Tables, &Graph, Question) -> Answer<i64>,
}

impl Whole {
    /// A model file's tables and start numbers, if the slices that are lent have room for its counts.
    pub fn read_into(&self, file: &[u8], lent: &Tables) -> Answer<Read> {
        (self.read)(file, false, &|states, actions, observations| zeros(states, actions, observations, lent))
    }

    /// 7: whether no list is handed in, or it is that of the tables.
    fn handed(&self, tables: &Tables, list: &[u32]) -> Answer<()> {
        moved::handed(|| (self.judge)(tables).map(|model| moved::words(&model)), list)
    }
}

impl Library for Whole {
    fn read(&self, file: &[u8], tables: &mut Tables, start: &mut [u16]) -> Reading {
        laid(self.read_into(file, tables), tables, start)
    }

    fn convert(&self, file: &[u8], output: &mut [u8]) -> Conversion {
        let zeros = |states, actions, observations| Ok(outcome_zeros(states, actions, observations));
        converted(output, || (self.read)(file, true, &zeros), self.write)
    }

    fn open(&self, tables: &Tables, certifier: &mut Certifier) -> Refusal {
        ended((self.judge)(tables).and_then(|model| open(model, certifier)))
    }

    fn list(&self, tables: &Tables, list: &mut [u32]) -> Refusal {
        ended((self.judge)(tables).and_then(|model| moved::list(&model, list)))
    }

    fn offer(&self, tables: &Tables, list: &[u32], certifier: &mut Certifier, level: &Level) -> Refusal {
        ended(self.handed(tables, list).and_then(|()| (self.offer)(tables, certifier, level)))
    }

    fn reprice(&self, tables: &Tables, new: &Tables, certifier: &mut Certifier) -> Refusal {
        let examined = (self.examine)(tables, certifier).map(|_| ());
        moved::repriced(examined, tables, (self.judge)(new), certifier)
    }

    fn replay(&self, tables: &Tables, certifier: &mut Certifier, offers: &Offers) -> Replayed {
        let examined = (self.examine)(tables, certifier).map(|(model, ..)| (model.n, model.k));
        replay(examined, offers, |level| (self.offer)(tables, certifier, level))
    }

    fn totals(&self, tables: &Tables, certifier: &Certifier, mixture: &[u32]) -> Totals {
        (self.totals)(tables, certifier, mixture).unwrap_or_else(|Refusal { number, place }| Totals {
            number,
            place,
            ..Totals::default()
        })
    }

    fn within(&self, tables: &Tables, certifier: &Certifier, lows: &[u32], highs: &[u32]) -> TotalsWithin {
        (self.within)(tables, certifier, lows, highs).unwrap_or_else(|Refusal { number, place }| TotalsWithin {
            number,
            place,
            ..TotalsWithin::default()
        })
    }

    fn each(
        &self,
        tables: &Tables,
        certifier: &Certifier,
        mixtures: &[u32],
        count: usize,
        answers: &mut Answers,
    ) -> Refusal {
        ended((self.each)(tables, certifier, (count, mixtures), answers))
    }

    fn build(
        &self,
        tables: &Tables,
        list: &[u32],
        certifier: &Certifier,
        points: (usize, &[u32]),
        level: &mut Level,
    ) -> Refusal {
        ended(self.handed(tables, list).and_then(|()| (self.build)(tables, certifier, points, level)))
    }

    fn adopt(
        &self,
        tables: &Tables,
        certifier: &Certifier,
        (alpha, graph): (&[u8], &[u8]),
        (points, count): (&[u32], usize),
        level: &mut Level,
    ) -> Adopted {
        let mut adopt = || {
            solver_file::lengths(alpha, graph)?;
            let upon = (self.examine)(tables, certifier)?;
            let files = solver_file::read(alpha, graph, upon.0.n, upon.0.k)?;
            (self.adopt)(&upon, &files, (count, points), level)
        };
        match adopt() {
            Ok(vectors) => Adopted { vectors, ..Adopted::default() },
            Err(Refusal { number, place }) => Adopted { number, place, vectors: 0 },
        }
    }

    fn worth(&self, tables: &Tables, graph: &Graph, asked: Question) -> Worth {
        match (self.worth)(tables, graph, asked) {
            Ok(ticks) => Worth { ticks, ..Worth::default() },
            Err(Refusal { number, place }) => Worth { number, place, ticks: 0 },
        }
    }
}
