//! Cases on storage, through lent slices.

use crate::calls::{Calls, Case};
use crate::gen::{self, List, Question, Step};
use crate::lent::{self, stored, Call, Library};
use crate::listing;
use crate::rng::Rng;
use crate::single;
use biidhaqun::slices::{Certifier, Level, Tables};
use num_bigint::BigInt;
use reference::{Graph, Points, Refusal, Totals, Within, ROWS, STATES};

/// The first call of a case in which the other's answer, or what it leaves in a slice, differs from the one's. The slices
/// are handed from call to call as the one left them.
pub fn difference(case: &Case, one: &dyn Library, other: &dyn Library, rng: &mut Rng) -> Option<String> {
    let named = |name: &str, found: Option<String>| found.map(|found| format!("{}: {}", name, found));
    match case {
        Case::Open(tables) => named("open", opening(rng, tables).difference(one, other)),
        Case::Worth(tables, graph, asked) => {
            named("worth", single::worth(tables, graph, *asked).difference(one, other))
        }
        Case::Handed(certifier, steps) => {
            let (n, k) = lent::counts(&certifier.tables);
            let standing = lent::roomy(rng, lent::certifier(certifier), n, gen::most_vectors(n));
            Walk { tables: lent::tables(&certifier.tables), certifier: standing, n, k, one, other }.all(rng, steps)
        }
        Case::List(List { tables, steps }) => {
            let open = opening(rng, tables);
            if let Some(found) = named("open", open.difference(one, other)) {
                return Some(found);
            }
            let (n, k) = lent::counts(tables);
            match open.made(one) {
                (answer, Call::Open { tables, certifier }) if answer[0] == 0 => {
                    Walk { tables, certifier, n, k, one, other }.all(rng, steps)
                }
                _ => None,
            }
        }
    }
}

fn opening(rng: &mut Rng, tables: &reference::Tables) -> Call {
    let (n, _) = lent::counts(tables);
    let certifier = lent::roomy(rng, Certifier::default(), n, gen::most_vectors(n));
    Call::Open { tables: lent::tables(tables), certifier }
}

/// Steps that are being made by two.
struct Walk<'a> {
    tables: Tables,
    certifier: Certifier,
    n: usize,
    k: usize,
    one: &'a dyn Library,
    other: &'a dyn Library,
}

impl Walk<'_> {
    fn all(mut self, rng: &mut Rng, steps: &[Step]) -> Option<String> {
        for (at, step) in steps.iter().enumerate() {
            let found = match step {
                Step::Offer(level) => self.offer(rng, lent::level(level, self.n, self.k)),
                Step::Totals(mixture) => {
                    let mixture = lent::mixture(mixture, self.n + rng.index(STATES.saturating_sub(self.n) + 1));
                    let (tables, certifier) = (self.tables.clone(), self.certifier.clone());
                    Call::Totals { tables, certifier, mixture }.difference(self.one, self.other)
                }
                Step::Within(lows, highs) => {
                    let (tables, certifier) = (self.tables.clone(), self.certifier.clone());
                    let (lows, highs) = (lent::weights(lows), lent::weights(highs));
                    Call::Within { tables, certifier, lows, highs }.difference(self.one, self.other)
                }
                Step::Reprice(new) => self.reprice(lent::tables(new)),
                Step::Build(points) => self.build(rng, points).err(),
                Step::Raise(points) => match self.build(rng, points) {
                    Ok(Some(level)) => self.offer(rng, level),
                    Ok(None) => None,
                    Err(found) => Some(found),
                },
            };
            if let Some(found) = found {
                return Some(format!("step {}: {}", at, found));
            }
        }
        None
    }

    fn offer(&mut self, rng: &mut Rng, level: Level) -> Option<String> {
        let (tables, list, certifier) = (self.tables.clone(), listing::some(rng, &self.tables), self.certifier.clone());
        let call = Call::Offer { tables, list, certifier, level };
        let found = call.difference(self.one, self.other);
        if let (_, Call::Offer { certifier, .. }) = call.made(self.one) {
            self.certifier = certifier;
        }
        found
    }

    /// New prices, which the one puts in force if they are not refused.
    fn reprice(&mut self, new: Tables) -> Option<String> {
        let call = Call::Reprice { tables: self.tables.clone(), new, certifier: self.certifier.clone() };
        let found = call.difference(self.one, self.other);
        if let (answer, Call::Reprice { new, certifier, .. }) = call.made(self.one) {
            self.certifier = certifier;
            if answer[0] == 0 {
                self.tables = new;
            }
        }
        found
    }

    /// The level that the one builds, if it is served.
    fn build(&self, rng: &mut Rng, points: &Points) -> Result<Option<Level>, String> {
        let (count, points) = lent::points(points, self.n);
        let (tables, list, certifier) = (self.tables.clone(), listing::some(rng, &self.tables), self.certifier.clone());
        let call = Call::Build { tables, list, certifier, count, points, level: lent::roomy_level(rng, self.n) };
        if let Some(found) = call.difference(self.one, self.other) {
            return Err(found);
        }
        Ok(match call.made(self.one) {
            (answer, Call::Build { count, points, level, .. }) if answer[0] == 0 => {
                Some(Level { vectors: self.n + count, points: count, weights: points, ..level })
            }
            _ => None,
        })
    }
}

/// The calls on storage, made through slices.
pub struct Through<'a>(pub &'a dyn Library);

fn served(number: u64, place: usize) -> Result<(), Refusal> {
    match number {
        0 => Ok(()),
        _ => Err(Refusal::at(u8::try_from(number).unwrap_or(u8::MAX), place as u64)),
    }
}

/// A level that the library wrote, in storage.
fn storage(level: &Level, n: usize, k: usize) -> reference::Level {
    let Level { vectors, points, .. } = *level;
    reference::Level {
        vectors: vectors as u64,
        actions: stored(&level.actions, vectors, vectors),
        choices: stored(&level.choices, vectors * k, vectors * k),
        masks: stored(&level.masks, vectors, vectors),
        entries: stored(&level.entries, vectors * n, vectors * n),
        corners: stored(&level.corners, n, n),
        points: points as u64,
        weights: stored(&level.weights, points * n, points * n),
        values: stored(&level.values, points, points),
    }
}

/// The certifier in storage.
fn standing(lent: Certifier, tables: reference::Tables) -> reference::Certifier {
    let (n, k) = lent::counts(&tables);
    let rows = lent::rows(&tables);
    let Certifier { state, actions, choices, masks, entries, corners, weights, values, informed, qmdp } = lent;
    let (vectors, points) = (state[1], state[2]);
    let level = Level { vectors, points, actions, choices, masks, entries, corners, weights, values };
    reference::Certifier {
        tables,
        standing: storage(&level, n, k),
        level: state[0] as u64,
        informed: stored(&informed, rows, ROWS),
        qmdp: stored(&qmdp, rows, ROWS),
    }
}

impl Calls for Through<'_> {
    fn open(&self, tables: &reference::Tables) -> Result<reference::Certifier, Refusal> {
        let (n, _) = lent::counts(tables);
        let mut certifier = lent::roomy(&mut Rng::for_case(0, "room", 0), Certifier::default(), n, 1);
        let ended = self.0.open(&lent::tables(tables), &mut certifier);
        served(ended.number, ended.place)?;
        Ok(standing(certifier, tables.stored()))
    }

    fn offer(&self, certifier: &mut reference::Certifier, level: &reference::Level) -> Result<(), Refusal> {
        let (n, k) = lent::counts(&certifier.tables);
        let level = lent::level(level, n, k);
        let mut rng = Rng::for_case(0, "room", 0);
        let before = lent::roomy(&mut rng, lent::certifier(certifier), n, level.actions.len());
        let mut slices = before.clone();
        let ended = self.0.offer(&lent::tables(&certifier.tables), &[], &mut slices, &level);
        // What a refusal changes shows, too.
        if slices != before {
            *certifier = standing(slices, certifier.tables.clone());
        }
        served(ended.number, ended.place)
    }

    fn totals(&self, certifier: &reference::Certifier, mixture: &[u64]) -> Result<Totals, Refusal> {
        let (n, _) = lent::counts(&certifier.tables);
        let (tables, slices) = (lent::tables(&certifier.tables), lent::certifier(certifier));
        let at = self.0.totals(&tables, &slices, &lent::mixture(mixture, n));
        served(at.number, at.place)?;
        let whole = BigInt::from;
        Ok(Totals {
            lower: whole(at.lower),
            upper: whole(at.upper),
            gap: whole(at.gap),
            action: at.action as u64,
            sawtooth: whole(at.sawtooth),
            informed: whole(at.informed),
        })
    }

    fn within(&self, certifier: &reference::Certifier, lows: &[u64], highs: &[u64]) -> Result<Within, Refusal> {
        let (tables, slices) = (lent::tables(&certifier.tables), lent::certifier(certifier));
        let at = self.0.within(&tables, &slices, &lent::weights(lows), &lent::weights(highs));
        served(at.number, at.place)?;
        Ok(Within { lower: BigInt::from(at.lower), upper: BigInt::from(at.upper) })
    }

    fn build(&self, certifier: &reference::Certifier, points: &Points) -> Result<reference::Level, Refusal> {
        let (n, k) = lent::counts(&certifier.tables);
        let (tables, slices) = (lent::tables(&certifier.tables), lent::certifier(certifier));
        let (count, weights) = lent::points(points, n);
        let mut level = lent::roomy_level(&mut Rng::for_case(0, "room", 0), n);
        let ended = self.0.build(&tables, &[], &slices, (count, &weights), &mut level);
        served(ended.number, ended.place)?;
        Ok(storage(&Level { vectors: n + count, points: count, weights, ..level }, n, k))
    }

    fn reprice(&self, certifier: &mut reference::Certifier, new: &reference::Tables) -> Result<(), Refusal> {
        fn lay(slice: &[i64], cells: &mut [i64]) {
            let length = slice.len().min(cells.len());
            cells[..length].copy_from_slice(&slice[..length]);
        }
        let mut slices = lent::certifier(certifier);
        let ended = self.0.reprice(&lent::tables(&certifier.tables), &lent::tables(new), &mut slices);
        // What a refusal changes shows, too.
        lay(&slices.entries, &mut certifier.standing.entries);
        lay(&slices.corners, &mut certifier.standing.corners);
        lay(&slices.values, &mut certifier.standing.values);
        lay(&slices.informed, &mut certifier.informed);
        lay(&slices.qmdp, &mut certifier.qmdp);
        certifier.level = slices.state[0] as u64;
        served(ended.number, ended.place)?;
        certifier.tables = new.stored();
        Ok(())
    }

    fn adopt(
        &self,
        certifier: &reference::Certifier,
        alpha: &[u8],
        graph: &[u8],
        points: &Points,
    ) -> Result<reference::Level, Refusal> {
        let (n, k) = lent::counts(&certifier.tables);
        let (tables, slices) = (lent::tables(&certifier.tables), lent::certifier(certifier));
        let (count, weights) = lent::points(points, n);
        let mut level = Level::roomy(n, k);
        let made = self.0.adopt(&tables, &slices, (alpha, graph), (&weights, count), &mut level);
        served(made.number, made.place)?;
        Ok(storage(&Level { vectors: made.vectors, points: count, weights, ..level }, n, k))
    }

    fn worth(&self, tables: &reference::Tables, graph: &Graph, asked: Question) -> Result<BigInt, Refusal> {
        let (_, k) = lent::counts(tables);
        let worth = self.0.worth(&lent::tables(tables), &lent::graph(graph, k), asked);
        served(worth.number, worth.place)?;
        Ok(BigInt::from(worth.ticks))
    }
}
