//! Numbers of any size, and lists of them.

use crate::rng::Rng;
use reference::THOUSAND;

/// Anything: numbers near limits and ends, and plain random ones.
pub(super) fn junk(rng: &mut Rng) -> u64 {
    let any = rng.next();
    rng.pick(&[0, 1, 99, 100, 101, 1_000, 1_001, 1_000_001, 1 << 32, 1 << 63, u64::MAX, any])
}

/// Anything signed.
pub(super) fn signed_junk(rng: &mut Rng) -> i64 {
    junk(rng) as i64
}

/// Fills the cells past the ones in use, most of the time.
pub(super) fn litter<Cell>(rng: &mut Rng, cells: &mut [Cell], used: usize, any: impl Fn(&mut Rng) -> Cell) {
    if !rng.once_in(4) {
        for cell in &mut cells[used..] {
            *cell = any(rng);
        }
    }
}

/// Adds a few cells past the ones in use, most of the time.
pub(super) fn trail<Cell>(rng: &mut Rng, cells: &mut Vec<Cell>, any: impl Fn(&mut Rng) -> Cell) {
    if !rng.once_in(4) {
        for _ in 0..rng.index(4) {
            cells.push(any(rng));
        }
    }
}

/// Whole weights with this total: one cell, an even share, a few cells or all of them.
pub fn shares(rng: &mut Rng, cells: usize, total: u64) -> Vec<u64> {
    let mut row = vec![0; cells];
    match rng.below(4) {
        0 => row[rng.index(cells)] = total,
        1 => {
            for (at, cell) in row.iter_mut().enumerate() {
                *cell = total / cells as u64 + u64::from((at as u64) < total % cells as u64);
            }
        }
        style => {
            let parts = if style == 2 { 2 } else { cells };
            let mut left = total;
            for _ in 1..parts {
                let part = rng.below(left + 1);
                row[rng.index(cells)] += part;
                left -= part;
            }
            row[rng.index(cells)] += left;
        }
    }
    row
}

/// A row of thousandths: shares, or one thousandth in a cell and the others in another, always in a `thin` table and else now and
/// then.
pub(super) fn chances(rng: &mut Rng, cells: usize, thin: bool) -> Vec<u64> {
    if !thin && !rng.once_in(8) {
        return shares(rng, cells, THOUSAND);
    }
    let mut row = vec![0; cells];
    row[rng.index(cells)] += 1;
    row[rng.index(cells)] += THOUSAND - 1;
    row
}

/// Whole weights with this total, 1 or more, in one cell or two.
pub(super) fn few_shares(rng: &mut Rng, cells: usize, total: u64) -> Vec<u64> {
    let mut row = vec![0; cells];
    let any = rng.below(total + 1);
    let part = rng.pick(&[total, any, 1]);
    row[rng.index(cells)] += part;
    row[rng.index(cells)] += total - part;
    row
}

/// Cells at one end of a range or the other: all at the upper, all at the lower, or each at either.
pub fn at_ends(rng: &mut Rng, cells: &mut [i64], end: i64) {
    let style = rng.below(4);
    for cell in cells {
        let up = match style {
            0 => true,
            1 => false,
            _ => rng.once_in(2),
        };
        *cell = if up { end } else { -end };
    }
}
