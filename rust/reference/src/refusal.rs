//! What is turned down.

use std::fmt;

/// A refusal: its number in the document's list, and its place.
#[derive(Clone, Copy, Debug, PartialEq, Eq)]
pub struct Refusal {
    pub number: u8,
    pub place: u64,
}

impl Refusal {
    /// The refusal of this number at this place.
    pub fn at(number: u8, place: u64) -> Refusal {
        Refusal { number, place }
    }

    /// The refusal of this number at the place of the `index`th vector, corner, point, node, row or byte.
    pub fn at_index(number: u8, index: usize) -> Refusal {
        Refusal::at(number, index as u64)
    }
}

/// As the program prints it: `refused 5 at 235`.
impl fmt::Display for Refusal {
    fn fmt(&self, f: &mut fmt::Formatter) -> fmt::Result {
        write!(f, "refused {} at {}", self.number, self.place)
    }
}
