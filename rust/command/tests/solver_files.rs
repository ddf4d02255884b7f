//! The reference and the shell that explains a solver's refused files, held against each other over the comparison's files.

use command::solver_files::{judge, Step};
use compare::adopting::{self, Case};
use compare::gen::DOCUMENT;
use compare::rng::Rng;
use reference::LEVELS;

/// Random files, and the seed that they come from.
const RANDOM: u64 = 10_000;
const SEED: u64 = 7;

/// What is refused for a word, or for the number of vectors or points, is so by both, by the same number at the same place; the
/// shell says nothing of certifiers and of the points' weights. It reads files upon levels that it made of files, which cover all
/// states, and so never meets 21.
fn agree(case: &Case) {
    let Case { about, certifier, alpha, graph, points } = case;
    let answer = reference::adopt(certifier, alpha, graph, points, &DOCUMENT);
    let number = answer.as_ref().err().map_or(0, |refusal| refusal.number);
    if number == 7 || number == 21 || certifier.level == LEVELS {
        return;
    }
    let step = Step {
        alpha,
        graph,
        states: certifier.tables.states as usize,
        actions: certifier.tables.actions as usize,
        observations: certifier.tables.observations as usize,
        level: (certifier.level as usize).saturating_add(1),
        below: certifier.standing.vectors as usize,
        points: points.count as usize,
    };
    match (answer, judge(&step)) {
        (Err(refusal), Err(trouble)) => {
            let theirs = (u64::from(refusal.number), refusal.place as usize);
            assert_eq!((trouble.number, trouble.place), theirs, "{}", about);
            for mark in &trouble.told.marks {
                assert!(mark.span.end <= alpha.len().max(graph.len()), "{}", about);
            }
        }
        (Ok(_), Ok(())) => {}
        // The weights of a point are at fault.
        (Err(_), Ok(())) if number == 12 => {}
        (answer, judged) => panic!("{}: {:?} and {:?}\n{}", about, answer.err(), judged.err(), case.show()),
    }
}

#[test]
fn on_the_fixed_files() {
    adopting::fixed().iter().filter(|case| case.certifier.level <= LEVELS).for_each(agree);
}

#[test]
fn on_random_files() {
    for number in 0..RANDOM {
        agree(&adopting::random(&mut Rng::for_case(SEED, "agreement", number)));
    }
}
