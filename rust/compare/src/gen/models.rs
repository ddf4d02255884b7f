//! Tables that open, those that nearly do, and other prices for them.

use super::cells::{chances, few_shares, junk, signed_junk, trail};
use super::shapes::{self, Shape, SOME_STATES};
use crate::rng::Rng;
use reference::{Tables, REWARD, THOUSAND};

/// Tables that open; of many states, mostly sparse ones.
pub fn tables(rng: &mut Rng, shape: Shape) -> Tables {
    let sparse = shape.n > SOME_STATES + 2 && !rng.once_in(8);
    tables_of(rng, shape, sparse)
}

/// Tables that open, of which each row of T has one cell above 0 or two if they are sparse.
pub fn tables_of(rng: &mut Rng, shape: Shape, sparse: bool) -> Tables {
    let Shape { n, m, k } = shape;
    let thin = rng.once_in(8);
    let discount = rng.below(THOUSAND + 1);
    let mut tables = Tables {
        discount: rng.pick(&[0, 1, 500, 900, 950, 999, 1_000, discount]),
        ..Tables::zeros(n as u64, m as u64, k as u64)
    };
    for row in 0..m * n {
        let reached = if sparse { few_shares(rng, n, THOUSAND) } else { chances(rng, n, thin) };
        tables.transitions[row * n..(row + 1) * n].copy_from_slice(&reached);
        tables.sights[row * k..(row + 1) * k].copy_from_slice(&chances(rng, k, thin));
    }
    let most = rng.pick(&[1, 20, 999, 10_000, REWARD]);
    // Now and then costs alone: then 0 is more than any plan earns.
    let highest = if rng.once_in(4) { 0 } else { most };
    for reward in &mut tables.rewards {
        *reward = if rng.once_in(6) { rng.pick(&[-most, 0, highest]) } else { rng.within(-most, highest) };
    }
    trail(rng, &mut tables.transitions, junk);
    trail(rng, &mut tables.sights, junk);
    trail(rng, &mut tables.rewards, signed_junk);
    tables
}

/// Puts one number of tables at a limit, or one past it, or anywhere.
pub fn spoil_tables(rng: &mut Rng, tables: &mut Tables) {
    let anything = junk(rng);
    match rng.below(8) {
        0 => {
            tables.states = rng.pick(&[0, 1, 63, 64, 65, 65, 65, u64::MAX, anything]);
            refit(rng, tables);
        }
        1 => {
            tables.actions = rng.pick(&[0, 1, 8, 9, 9, 9, u64::MAX, anything]);
            refit(rng, tables);
        }
        2 => {
            tables.observations = rng.pick(&[0, 1, 8, 9, 9, 9, u64::MAX, anything]);
            refit(rng, tables);
        }
        3 => tables.discount = rng.pick(&[0, 1_000, 1_001, 1_001, 1_001, u64::MAX, anything]),
        kind => {
            let used = if tables.counts_fit() { tables.cells_used() } else { (1, 1, 1) };
            // The counts may want more cells than there are.
            let Tables { transitions, sights, rewards, .. } = tables;
            let used = (used.0.min(transitions.len()), used.1.min(sights.len()), used.2.min(rewards.len()));
            let step = |cell: u64| if anything % 2 == 0 { cell.saturating_sub(1) } else { cell.saturating_add(1) };
            match kind {
                4 | 5 => {
                    let cell = &mut transitions[rng.index(used.0)];
                    *cell = rng.pick(&[step(*cell), 1_000, 1_001, u64::MAX]);
                }
                6 => {
                    let cell = &mut sights[rng.index(used.1)];
                    *cell = rng.pick(&[step(*cell), 1_000, 1_001, u64::MAX]);
                }
                _ => {
                    let cell = rng.index(used.2);
                    rewards[cell] =
                        rng.pick(&[REWARD, -REWARD, REWARD + 1, -REWARD - 1, i64::MIN, i64::MAX, anything as i64]);
                }
            }
        }
    }
}

/// Most of the time, makes lists as long as counts want that are at most one past their limits: with rows that total 1,000, so that
/// nothing but a limit refuses them.
fn refit(rng: &mut Rng, tables: &mut Tables) {
    if !tables.counts_nearly_fit() || rng.once_in(4) {
        return;
    }
    let (t, o, r) = tables.cells_used();
    for (cells, used, width) in
        [(&mut tables.transitions, t, tables.states), (&mut tables.sights, o, tables.observations)]
    {
        *cells = vec![0; used];
        for row in cells.chunks_exact_mut(width as usize) {
            row[rng.index(width as usize)] = THOUSAND;
        }
    }
    tables.rewards = (0..r).map(|_| rng.within(-REWARD, REWARD)).collect();
}

/// Takes a thousandth from a row of T or of O, which then does not total 1,000.
pub fn spoil_row(rng: &mut Rng, tables: &mut Tables) {
    let (t, o, _) = tables.cells_used();
    let cells = if rng.once_in(2) { &mut tables.transitions[..t] } else { &mut tables.sights[..o] };
    let above: Vec<usize> = (0..cells.len()).filter(|&cell| cells[cell] > 0).collect();
    if !above.is_empty() {
        cells[rng.pick(&above)] -= 1;
    }
}

/// The tables at other prices: no reward changed, one, or all, up, down or either way, by little or much, or at the ends.
pub fn repriced(rng: &mut Rng, tables: &Tables) -> Tables {
    let (_, _, used) = tables.cells_used();
    let mut new = tables.clone();
    let most = rng.pick(&[1, 5, 100, 5_000, 2 * REWARD]);
    let (style, one) = (rng.below(7), rng.index(used));
    for (at, reward) in new.rewards[..used].iter_mut().enumerate() {
        let by = match style {
            0 => 0,
            1 if at != one => 0,
            1 | 2 => rng.within(-most, most),
            3 => rng.within(0, most),
            4 => rng.within(-most, 0),
            5 => most,
            _ => -most,
        };
        *reward = (*reward + by).clamp(-REWARD, REWARD);
    }
    trail(rng, &mut new.rewards, signed_junk);
    new
}

/// New tables that are refused, or nearly: spoiled, of another model with the same counts, or with one number of T, of O or the
/// discount changed.
pub fn unpriced(rng: &mut Rng, tables: &Tables, shape: Shape) -> Tables {
    let mut new = tables.clone();
    let moved = |rng: &mut Rng, cells: &mut [u64], width: usize| {
        let row = rng.index(shape.m * shape.n) * width;
        let (from, to) = (row + rng.index(width), row + rng.index(width));
        let by = cells[from].min(1);
        cells[from] -= by;
        cells[to] = cells[to].saturating_add(by);
    };
    match rng.below(7) {
        0 => new.discount = new.discount.saturating_sub(1),
        4 if new.counts_fit() => {
            spoil_row(rng, &mut new);
            new.discount = rng.pick(&[new.discount, 1]);
        }
        1 => moved(rng, &mut new.transitions, shape.n),
        2 => moved(rng, &mut new.sights, shape.k),
        3 => {
            let other = shapes::shape(rng);
            let shape = rng.pick(&[shape, other]);
            new = self::tables(rng, shape);
        }
        _ => {
            for _ in 0..1 + rng.index(2) {
                spoil_tables(rng, &mut new);
            }
            if rng.once_in(2) {
                new.discount = 1;
            }
        }
    }
    new
}
