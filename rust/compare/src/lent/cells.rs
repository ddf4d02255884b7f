//! Cells, and slices of them that are cut, filled up and spoilt.

use crate::rng::Rng;
use std::fmt;

/// What slices hold.
pub trait Cell: Copy + Default + PartialEq + fmt::Debug + 'static {
    /// The largest of the type.
    const MOST: Self;
    /// The number with the same low bits.
    fn cut(number: u64) -> Self;
}

macro_rules! cells {
    ($($cell:ty)*) => {
        $(impl Cell for $cell {
            const MOST: $cell = <$cell>::MAX;

            fn cut(number: u64) -> $cell {
                number as $cell
            }
        })*
    };
}

cells!(u8 u16 u32 u64 usize i64);

/// Any number: near limits, near the ends of types, and plain random ones.
fn any<Of: Cell>(rng: &mut Rng) -> Of {
    let number = rng.next();
    Of::cut(rng.pick(&[0, 1, 2, 8, 9, 16, 17, 32, 33, 99, 100, 101, 1_000, 1_001, 1_000_001, u64::MAX, number, number]))
}

/// A slice of any type.
pub trait Slice {
    fn length(&self) -> usize;
    /// Cuts it to a length, or fills it up with anything.
    fn sized(&mut self, length: usize, rng: &mut Rng);
    /// Puts anything into one cell.
    fn spoilt(&mut self, rng: &mut Rng);
}

impl<Of: Cell> Slice for Vec<Of> {
    fn length(&self) -> usize {
        self.len()
    }

    fn sized(&mut self, length: usize, rng: &mut Rng) {
        self.truncate(length);
        while self.len() < length {
            self.push(any(rng));
        }
    }

    fn spoilt(&mut self, rng: &mut Rng) {
        if !self.is_empty() {
            let at = rng.index(self.len());
            self[at] = any(rng);
        }
    }
}
