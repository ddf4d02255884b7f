//! Levels of hundreds of vectors and files of megabytes, at their limits and one past them. They are the same for every seed.

mod solver;
mod stage;
mod states;
mod vectors;

use crate::lent::Call;
use crate::rng::Rng;
use stage::Stage;
use states::{largest, wide_masks};

/// A call, and how it ends: the number and the place.
pub struct Case {
    pub about: String,
    pub call: Call,
    pub ends: (u64, usize),
}

const SERVED: (u64, usize) = (0, 0);

fn rng() -> Rng {
    Rng::for_case(0, "many", 0)
}

/// All of them.
pub fn fixed() -> Vec<Case> {
    let stage = Stage::new();
    let mut cases = stage.counts();
    cases.extend(stage.numbers());
    cases.extend(stage.readers());
    cases.extend(stage.masks());
    cases.extend(stage.lengths());
    cases.extend(stage.lists());
    cases.extend(stage.adoptions());
    cases.extend(stage.long_files());
    cases.extend(wide_masks());
    cases.extend(largest());
    cases
}

#[cfg(test)]
mod tests {
    use super::*;
    use crate::copied::BY_THE_DOCUMENT;

    /// Each case ends as it says.
    #[test]
    fn ends() {
        for case in fixed() {
            let (answer, _) = case.call.made(&BY_THE_DOCUMENT);
            let (number, place) = case.ends;
            assert_eq!(answer[..2], [number.into(), place as i128], "{}", case.about);
        }
    }
}
