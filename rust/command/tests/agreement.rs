//! The proved reader and the shell that explains its refusals, held against each other over the comparison's files.

use biidhaqun::Model;
use command::model_file::judge;
use compare::files::{self, Case};
use compare::rng::Rng;
use std::path::Path;

/// Random files, and the seed that they come from.
const RANDOM: u64 = 20_000;
const SEED: u64 = 7;

/// What is refused is refused by both, by the same number at the same place; what is read has the same numbers.
fn agree(case: &Case) {
    match (Model::read(&case.file), judge(&case.file)) {
        (Err(refusal), Err(trouble)) => {
            assert_eq!((refusal.number(), refusal.place.number()), (trouble.number, trouble.place), "{}", case.about);
            for mark in &trouble.told.marks {
                assert!(mark.span.end <= case.file.len(), "{}", case.about);
            }
        }
        (Ok((model, start)), Ok(draft)) => {
            let counts = draft.counts;
            let shape = model.shape();
            assert_eq!(
                (shape.states, shape.actions, shape.observations),
                (counts.states, counts.actions, counts.observations),
                "{}",
                case.about
            );
            let stated: Vec<i64> = start.weights.iter().map(|&weight| weight as i64).collect();
            assert_eq!(stated, draft.start, "{}", case.about);
            assert_eq!(model.discount() as i64, draft.discount, "{}", case.about);
            for action in 0..shape.actions {
                for state in 0..shape.states {
                    let row: Vec<i64> =
                        (0..shape.states).map(|to| model.transition(state, action, to) as i64).collect();
                    assert_eq!(row, draft.transitions.numbers(action, state), "{}", case.about);
                    let row: Vec<i64> =
                        (0..shape.observations).map(|seen| model.observation(action, state, seen) as i64).collect();
                    assert_eq!(row, draft.observations.numbers(action, state), "{}", case.about);
                    assert_eq!([model.reward(state, action)], draft.rewards.numbers(action, state), "{}", case.about);
                }
            }
        }
        (read, judged) => panic!("{}: {:?} and {:?}", case.about, read.err(), judged.err()),
    }
}

#[test]
fn on_the_files_of_the_tree() {
    let root = Path::new(env!("CARGO_MANIFEST_DIR")).join("../..");
    for folder in ["examples", "tests/files"] {
        let cases = files::examples(&root.join(folder), SEED).unwrap();
        assert!(!cases.is_empty());
        cases.iter().for_each(|(_, case)| agree(case));
    }
}

#[test]
fn on_the_fixed_files() {
    files::fixed_to_read().iter().for_each(agree);
}

#[test]
fn on_random_files() {
    for number in 0..RANDOM {
        agree(&files::random(&mut Rng::for_case(SEED, "agreement", number)));
    }
}
