//! Calls of the library and of the forms in whole numbers, to be timed.

use compare::lent::{Call, Library};

/// One form of a call, ready to be made again and again.
pub trait Form {
    /// Brings back what a call changes; only called where a call changes something.
    fn prepare(&mut self) {}
    /// Whether a call changes what it is handed.
    fn changes(&self) -> bool {
        false
    }
    /// Makes the call; something of its answer, so that none of it can be left out.
    fn call(&mut self) -> i64;
}

/// A call of the library, or of a form in whole numbers.
pub struct Lent {
    by: &'static dyn Library,
    before: Call,
    call: Call,
}

impl Lent {
    pub fn new(by: &'static dyn Library, call: &Call) -> Lent {
        Lent { by, before: call.clone(), call: call.clone() }
    }
}

impl Form for Lent {
    fn prepare(&mut self) {
        self.call = self.before.clone();
    }

    fn changes(&self) -> bool {
        matches!(self.call, Call::Offer { .. } | Call::Replay { .. } | Call::Reprice { .. })
    }

    fn call(&mut self) -> i64 {
        made(self.by, &mut self.call)
    }
}

/// Makes a call of the library, or of a form in whole numbers.
pub fn made(by: &dyn Library, call: &mut Call) -> i64 {
    match call {
        Call::Read { file, tables, start } => by.read(file, tables, start).number as i64,
        Call::Convert { file, output } => by.convert(file, output).length as i64,
        Call::Open { tables, certifier } => by.open(tables, certifier).number as i64,
        Call::List { tables, list } => by.list(tables, list).number as i64,
        Call::Offer { tables, list, certifier, level } => by.offer(tables, list, certifier, level).number as i64,
        Call::Reprice { tables, new, certifier } => by.reprice(tables, new, certifier).number as i64,
        Call::Replay { tables, certifier, offers } => by.replay(tables, certifier, offers).accepted as i64,
        Call::Totals { tables, certifier, mixture } => by.totals(tables, certifier, mixture).gap,
        Call::Each { tables, certifier, mixtures, count, answers } => {
            by.each(tables, certifier, mixtures, *count, answers).number as i64
        }
        Call::Within { tables, certifier, lows, highs } => by.within(tables, certifier, lows, highs).lower,
        Call::Build { tables, list, certifier, count, points, level } => {
            by.build(tables, list, certifier, (*count, points), level).number as i64
        }
        Call::Adopt { tables, certifier, alpha, graph, points, count, level } => {
            by.adopt(tables, certifier, (alpha, graph), (points, *count), level).number as i64
        }
        Call::Worth { tables, graph, asked } => by.worth(tables, graph, *asked).ticks,
    }
}
