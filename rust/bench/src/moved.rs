//! Lists of transitions, and new prices, for both forms in whole numbers. They test a list that is handed in, and work from the
//! table.

use crate::limits::*;
use biidhaqun::slices::{Certifier, Refusal, Tables};

/// A state is counted in these within a cell of a list.
const STATE: u32 = 65_536;

/// The list of a model's transitions.
pub fn words(model: &Model) -> Vec<u32> {
    let (n, columns) = (model.n, model.m * model.n);
    let (mut begins, mut cells) = (Vec::with_capacity(columns + 1), Vec::new());
    for block in model.t.chunks_exact(n * n) {
        for s2 in 0..n {
            begins.push((columns + 1 + cells.len()) as u32);
            let column = block.chunks_exact(n).map(|row| row[s2]).enumerate().filter(|&(_, t)| t > 0);
            cells.extend(column.map(|(s, t)| s as u32 * STATE + u32::from(t)));
        }
    }
    begins.push((columns + 1 + cells.len()) as u32);
    begins.extend(cells);
    begins
}

/// Writes a list; or 9.
pub fn list(model: &Model, list: &mut [u32]) -> Answer<()> {
    let words = words(model);
    match list.get_mut(..words.len()) {
        Some(room) => room.copy_from_slice(&words),
        None => return refused(9, 0),
    }
    Ok(())
}

/// 7: whether no list is meant, or it is that of the tables.
pub fn handed(judged: impl FnOnce() -> Answer<Vec<u32>>, list: &[u32]) -> Answer<()> {
    if list.is_empty() || judged().map_or(false, |words| list.starts_with(&words)) {
        Ok(())
    } else {
        refused(7, 0)
    }
}

/// 23: whether two models have the same counts, discount, T and O.
fn same(old: &Model, new: &Model) -> bool {
    (old.n, old.m, old.k, old.g) == (new.n, new.m, new.k, new.g) && old.t == new.t && old.o == new.o
}

/// Moves a certifier to new prices, once 7 has passed; or the new tables' own refusals, then 23.
fn reprice(old: &Tables, new: Answer<Model>, certifier: &mut Certifier) -> Answer<()> {
    let (old, new) = match (Model::of(old), new?) {
        (Some(old), new) if same(&old, &new) => (old, new),
        _ => return refused(23, 0),
    };
    let (n, rows) = (old.n, old.m * old.n);
    let d = old.r.iter().zip(new.r).map(|(old, new)| (new - old).abs()).max().unwrap_or(0);
    let t = certifier.state[0] as i64;
    let (by, end) = (d * t, REWARD * t);
    let (vectors, points) = (certifier.state[1], certifier.state[2]);
    for (mask, row) in certifier.masks[..vectors].iter().zip(certifier.entries.chunks_exact_mut(n)) {
        for (_, entry) in row.iter_mut().enumerate().filter(|&(s, _)| covers(*mask, s)) {
            *entry = (*entry - by).max(-end);
        }
    }
    let rise = |cells: &mut [i64]| cells.iter_mut().for_each(|cell| *cell = (*cell + by).min(end));
    rise(&mut certifier.corners[..n]);
    rise(&mut certifier.informed[..rows]);
    rise(&mut certifier.qmdp[..rows]);
    let weights = certifier.weights.chunks_exact(n);
    for (value, weights) in certifier.values[..points].iter_mut().zip(weights) {
        let total: i64 = weights.iter().map(|&weight| i64::from(weight)).sum();
        *value = (*value + total * by).min(total * end);
    }
    Ok(())
}

/// How a call on new prices ends: 7 of what stands, then the rest.
pub fn repriced(examined: Answer<()>, tables: &Tables, new: Answer<Model>, certifier: &mut Certifier) -> Refusal {
    ended(examined.and_then(|()| reprice(tables, new, certifier)))
}
