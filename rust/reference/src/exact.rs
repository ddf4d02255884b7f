//! Sums, products and quotients of whole numbers of any size.

use crate::rules::{Rules, Trap};
use num_bigint::BigInt;

/// The document's K, in which products of two thousandths and a discount are counted.
pub fn k() -> BigInt {
    BigInt::from(1_000_000_000)
}

/// Nothing.
pub fn zero() -> BigInt {
    BigInt::from(0)
}

/// The sum of the products of two lists, cell by cell.
pub fn dot(left: &[BigInt], right: &[BigInt]) -> BigInt {
    left.iter().zip(right).map(|(x, y)| x * y).sum()
}

/// The quotient rounded towards minus infinity, for a divisor above 0.
pub fn round_down(value: &BigInt, divisor: &BigInt, rules: &Rules) -> BigInt {
    let towards_zero = value / divisor;
    let below = value % divisor < zero() && !rules.has(Trap::DivisionTowardsZero);
    if below {
        towards_zero - 1
    } else {
        towards_zero
    }
}

/// The quotient rounded towards plus infinity, for a divisor above 0.
pub fn round_up(value: &BigInt, divisor: &BigInt) -> BigInt {
    -round_down(&-value, divisor, &Rules::default())
}

/// The number of the first largest of a list that is not empty.
pub fn first_largest(values: &[BigInt]) -> usize {
    let mut first = 0;
    for (number, value) in values.iter().enumerate() {
        if *value > values[first] {
            first = number;
        }
    }
    first
}

/// The number of the last largest of a list that is not empty: what the traps about ties take.
pub fn last_largest(values: &[BigInt]) -> usize {
    let mut last = 0;
    for (number, value) in values.iter().enumerate() {
        if *value >= values[last] {
            last = number;
        }
    }
    last
}

/// Whole weights as big integers.
pub fn weights(cells: &[u64]) -> Vec<BigInt> {
    cells.iter().map(|&cell| BigInt::from(cell)).collect()
}

/// Ticks as big integers.
pub fn ticks(cells: &[i64]) -> Vec<BigInt> {
    cells.iter().map(|&cell| BigInt::from(cell)).collect()
}

/// Weight 1 on one of `count` states.
pub fn corner(count: usize, state: usize) -> Vec<BigInt> {
    (0..count).map(|s| BigInt::from(u8::from(s == state))).collect()
}

/// An entry or a value in storage. By the document all of them are within the range of level 100; what a trap makes, and the value of
/// a point that gets 12, may be too large for storage, and is then as large as can be.
pub fn stored(value: &BigInt) -> i64 {
    i64::try_from(value).unwrap_or(i64::MAX)
}
