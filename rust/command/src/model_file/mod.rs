//! A model file once more, for the words to tell a person what is wrong with it.
//!
//! The proved reader decides; this one only explains its refusals, and a test holds the two against each other over the
//! comparison's damaged files (`tests/agreement.rs`).

mod draft;
mod hints;
mod reading;

pub use draft::Draft;
pub use reading::{judge, judge_outcomes};

use crate::told::Told;

/// The counts of a model.
#[derive(Clone, Copy, Debug, PartialEq, Eq)]
pub struct Counts {
    pub states: usize,
    pub actions: usize,
    pub observations: usize,
}

/// Why a file is refused: the library's number and place, and what a person is told.
#[derive(Clone, Debug, PartialEq, Eq)]
pub struct Trouble {
    pub number: u64,
    pub place: usize,
    pub told: Told,
}
