//! Calls on storage of any content: opening, offers, new prices, totals, totals within ranges, building, the worth of plan graphs.

use crate::gen::{self, List, Question, Shape, Step, DOCUMENT};
use crate::rng::Rng;
use crate::show;
use num_bigint::BigInt;
use reference::{Certifier, Graph, Level, Points, Refusal, Rules, Tables, Totals, Within, NODES, REWARD, STEPS};

/// What can be called. A library is compared with the reference by having these functions.
pub trait Calls {
    fn open(&self, tables: &Tables) -> Result<Certifier, Refusal>;
    fn offer(&self, certifier: &mut Certifier, level: &Level) -> Result<(), Refusal>;
    fn totals(&self, certifier: &Certifier, mixture: &[u64]) -> Result<Totals, Refusal>;
    fn within(&self, certifier: &Certifier, lows: &[u64], highs: &[u64]) -> Result<Within, Refusal>;
    fn build(&self, certifier: &Certifier, points: &Points) -> Result<Level, Refusal>;
    fn reprice(&self, certifier: &mut Certifier, new: &Tables) -> Result<(), Refusal>;
    fn adopt(&self, certifier: &Certifier, alpha: &[u8], graph: &[u8], points: &Points) -> Result<Level, Refusal>;
    fn worth(&self, tables: &Tables, graph: &Graph, asked: Question) -> Result<BigInt, Refusal>;
}

/// The reference by these rules.
impl Calls for Rules {
    fn open(&self, tables: &Tables) -> Result<Certifier, Refusal> {
        reference::open(tables, self)
    }

    fn offer(&self, certifier: &mut Certifier, level: &Level) -> Result<(), Refusal> {
        reference::offer(certifier, level, self)
    }

    fn totals(&self, certifier: &Certifier, mixture: &[u64]) -> Result<Totals, Refusal> {
        reference::totals(certifier, mixture, self)
    }

    fn within(&self, certifier: &Certifier, lows: &[u64], highs: &[u64]) -> Result<Within, Refusal> {
        reference::within(certifier, lows, highs, self)
    }

    fn build(&self, certifier: &Certifier, points: &Points) -> Result<Level, Refusal> {
        reference::build(certifier, points, self)
    }

    fn reprice(&self, certifier: &mut Certifier, new: &Tables) -> Result<(), Refusal> {
        reference::reprice(certifier, new, self)
    }

    fn adopt(&self, certifier: &Certifier, alpha: &[u8], graph: &[u8], points: &Points) -> Result<Level, Refusal> {
        reference::adopt(certifier, alpha, graph, points, self)
    }

    fn worth(&self, tables: &Tables, graph: &Graph, asked: Question) -> Result<BigInt, Refusal> {
        reference::worth(tables, graph, asked.node, asked.state, asked.steps, self)
    }
}

/// One case.
pub enum Case {
    /// Tables to open.
    Open(Tables),
    /// Tables, and calls on the certifier that opens on them.
    List(List),
    /// Calls on a certifier of any content.
    Handed(Certifier, Vec<Step>),
    /// What a plan graph is worth.
    Worth(Tables, Graph, Question),
}

/// A random case.
pub fn random(rng: &mut Rng, number: u64) -> Case {
    if number % 250 == 249 {
        let shape = gen::tiny_shape(rng);
        return Case::List(gen::climb(rng, shape));
    }
    let shape = gen::shape(rng);
    match rng.below(8) {
        0 => {
            let mut tables = gen::tables(rng, shape);
            if rng.once_in(3) {
                // Rows of T and of O, so that both have wrong totals now and then.
                for _ in 0..3 {
                    gen::spoil_row(rng, &mut tables);
                }
            } else {
                for _ in 0..rng.below(3) {
                    gen::spoil_tables(rng, &mut tables);
                }
            }
            Case::Open(tables)
        }
        1 | 2 => {
            let mut tables = gen::tables(rng, shape);
            if rng.once_in(8) {
                gen::spoil_tables(rng, &mut tables);
            }
            let mut graph = gen::graph(rng, shape);
            for _ in 0..rng.pick(&[0, 0, 0, 0, 1, 2]) {
                gen::spoil_graph(rng, &mut graph, shape);
            }
            let asked = gen::question(rng, &graph, shape);
            Case::Worth(tables, graph, asked)
        }
        3..=5 => {
            let levels = 1 + rng.below(4);
            Case::List(gen::list(rng, shape, levels))
        }
        _ => {
            let (certifier, steps) = gen::handed(rng, shape);
            Case::Handed(certifier, steps)
        }
    }
}

/// A random case at the ends of all ranges; now and then with as many states as can be.
pub fn at_ends(rng: &mut Rng, number: u64) -> Case {
    let largest = number % 250 == 0 || number % 300 == 5;
    let shape = if largest { Shape::WIDEST } else { gen::shape(rng) };
    if number % 6 == 5 {
        let mut tables = gen::tables(rng, shape);
        gen::at_ends(rng, &mut tables.rewards, REWARD);
        let graph = if largest { gen::graph_of(rng, shape, NODES) } else { gen::graph(rng, shape) };
        let asked = Question { steps: STEPS, ..gen::question(rng, &graph, shape) };
        return Case::Worth(tables, graph, asked);
    }
    let (certifier, steps) = gen::ends(rng, shape);
    Case::Handed(certifier, steps)
}

impl Case {
    /// The whole case.
    pub fn show(&self) -> String {
        match self {
            Case::Open(tables) => format!("open on {}", show::tables(tables)),
            Case::List(list) => format!("open on {}", show::list(list)),
            Case::Handed(certifier, steps) => format!("{}{}", show::certifier(certifier), show::steps(steps)),
            Case::Worth(tables, graph, asked) => {
                format!("worth by {}{}{:?}\n", show::tables(tables), show::graph(graph), asked)
            }
        }
    }

    /// The first answer in which the other differs from the document.
    pub fn difference(&self, other: &dyn Calls) -> Option<String> {
        match self {
            Case::Open(tables) => differ("open", &DOCUMENT.open(tables), &other.open(tables)),
            Case::Worth(tables, graph, asked) => {
                differ("worth", &DOCUMENT.worth(tables, graph, *asked), &other.worth(tables, graph, *asked))
            }
            Case::Handed(certifier, steps) => steps_differ(certifier, certifier, steps, other),
            Case::List(list) => {
                let (ours, theirs) = (DOCUMENT.open(&list.tables), other.open(&list.tables));
                if let Some(difference) = differ("open", &ours, &theirs) {
                    return Some(difference);
                }
                steps_differ(&ours.ok()?, &theirs.ok()?, &list.steps, other)
            }
        }
    }
}

/// The first of these calls whose answers, or certifiers after it, differ.
fn steps_differ(ours: &Certifier, theirs: &Certifier, steps: &[Step], other: &dyn Calls) -> Option<String> {
    let (mut ours, mut theirs) = (ours.clone(), theirs.clone());
    for (at, step) in steps.iter().enumerate() {
        let found = match step {
            Step::Offer(level) => differ("offer", &DOCUMENT.offer(&mut ours, level), &other.offer(&mut theirs, level)),
            Step::Totals(mixture) => {
                differ("totals", &DOCUMENT.totals(&ours, mixture), &other.totals(&theirs, mixture))
            }
            Step::Within(lows, highs) => {
                differ("within", &DOCUMENT.within(&ours, lows, highs), &other.within(&theirs, lows, highs))
            }
            Step::Reprice(new) => {
                differ("new prices", &DOCUMENT.reprice(&mut ours, new), &other.reprice(&mut theirs, new))
            }
            Step::Build(points) => differ("build", &DOCUMENT.build(&ours, points), &other.build(&theirs, points)),
            Step::Raise(points) => {
                differ("build and offer", &raise(&DOCUMENT, &mut ours, points), &raise(other, &mut theirs, points))
            }
        };
        let found = found.or_else(|| differ("certifier", &ours, &theirs));
        if let Some(found) = found {
            return Some(format!("step {}: {}", at, found));
        }
    }
    None
}

/// Builds, and offers what was built.
fn raise(by: &dyn Calls, certifier: &mut Certifier, points: &Points) -> Result<Level, Refusal> {
    let level = by.build(certifier, points)?;
    by.offer(certifier, &level)?;
    Ok(level)
}

/// Both answers, if they are not equal.
fn differ<Answer: PartialEq + std::fmt::Debug>(call: &str, ours: &Answer, theirs: &Answer) -> Option<String> {
    if ours == theirs {
        return None;
    }
    Some(format!("{}\n  the reference: {:?}\n  the other:     {:?}", call, ours, theirs))
}

#[cfg(test)]
mod tests {
    use super::*;
    use std::collections::BTreeSet;

    /// The refusals among the answers to a case, and 0 for one that is served.
    fn numbers(case: &Case) -> Vec<u8> {
        fn number<Answer>(answer: Result<Answer, Refusal>) -> u8 {
            answer.err().map_or(0, |refusal| refusal.number)
        }
        let follow = |certifier: &Certifier, steps: &[Step]| {
            let mut certifier = certifier.clone();
            let step = |step: &Step| match step {
                Step::Offer(level) => number(DOCUMENT.offer(&mut certifier, level)),
                Step::Totals(mixture) => number(DOCUMENT.totals(&certifier, mixture)),
                Step::Within(lows, highs) => number(DOCUMENT.within(&certifier, lows, highs)),
                Step::Reprice(new) => number(DOCUMENT.reprice(&mut certifier, new)),
                Step::Build(points) => number(DOCUMENT.build(&certifier, points)),
                Step::Raise(points) => number(raise(&DOCUMENT, &mut certifier, points)),
            };
            steps.iter().map(step).collect()
        };
        match case {
            Case::Open(tables) => vec![number(DOCUMENT.open(tables))],
            Case::List(list) => follow(&DOCUMENT.open(&list.tables).unwrap(), &list.steps),
            Case::Handed(certifier, steps) => follow(certifier, steps),
            Case::Worth(tables, graph, asked) => vec![number(DOCUMENT.worth(tables, graph, *asked))],
        }
    }

    #[test]
    fn every_refusal_of_a_call_occurs() {
        let mut seen = BTreeSet::new();
        for at in 0..300 {
            let case = random(&mut Rng::for_case(1, "calls", at), at);
            assert!(!case.show().is_empty());
            seen.extend(numbers(&case));
        }
        let all: BTreeSet<u8> = [0, 3, 21, 22, 23, 24].into_iter().chain(5..=18).collect();
        assert_eq!(seen, all);
    }

    #[test]
    fn cases_at_the_ends_are_served_and_refused() {
        let mut seen = BTreeSet::new();
        for at in 1..200 {
            seen.extend(numbers(&at_ends(&mut Rng::for_case(1, "ends", at), at)));
        }
        assert!(seen.is_superset(&BTreeSet::from([0, 8, 13, 14, 15, 16])));
        assert!(!seen.contains(&7));
    }

    #[test]
    fn the_reference_does_not_differ_from_itself() {
        for at in 0..50 {
            let case = random(&mut Rng::for_case(2, "calls", at), at);
            assert_eq!(case.difference(&DOCUMENT), None);
        }
    }
}
