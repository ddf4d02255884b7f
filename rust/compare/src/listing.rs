//! Lists of transitions of any content, made, and handed in with offers and buildings.

use crate::copied::BY_THE_DOCUMENT;
use crate::gen::{self, Shape};
use crate::lent::{self, narrowed, Call, Library, Slice};
use crate::rng::Rng;
use crate::single;
use biidhaqun::slices::{Tables, LIST_WORDS};
use reference::{Rules, Trap, LIST};

/// A state is counted in these within a cell.
const STATE: u32 = 65_536;

/// The list of tables; no words, where they are refused.
pub fn exact(tables: &Tables) -> Vec<u32> {
    let mut words = vec![0; LIST_WORDS];
    let columns = tables.actions.saturating_mul(tables.states);
    match BY_THE_DOCUMENT.list(tables, &mut words).number {
        0 => words[..words[columns] as usize].to_vec(),
        _ => Vec::new(),
    }
}

/// No list, or that of the tables.
pub fn some(rng: &mut Rng, tables: &Tables) -> Vec<u32> {
    if rng.once_in(2) {
        exact(tables)
    } else {
        Vec::new()
    }
}

/// The list that a copy with one mistake makes.
fn mistaken(rng: &mut Rng, tables: &reference::Tables) -> Vec<u32> {
    let words = reference::list(tables, LIST, &Rules::broken(rng.pick(Trap::LISTING))).unwrap_or_default();
    narrowed(&words, words.len())
}

/// Words for tables that open: their list, with words past it or without; a list with one thing wrong in it; the list of another
/// table; or any words.
pub fn any(rng: &mut Rng, tables: &reference::Tables, shape: Shape) -> Vec<u32> {
    let columns = shape.m * shape.n;
    let mut words = exact(&lent::tables(tables));
    if words.len() <= columns {
        words.sized(columns + 2, rng);
    }
    let cell = columns + 1 + rng.index(words.len() - columns);
    let cell = cell.min(words.len() - 1);
    // The word at which the column of a cell begins, and those behind it.
    let behind = |words: &[u32]| words[..=columns].iter().position(|&begin| begin as usize > cell).unwrap_or(columns);
    match rng.below(20) {
        0..=6 => {}
        7 | 8 => words.sized(words.len() + 1 + rng.index(4), rng),
        9 => words.sized(words.len() - 1, rng),
        10 => words.sized(1 + rng.index(words.len()), rng),
        11 => words = mistaken(rng, tables),
        12 => words = exact(&lent::tables(&gen::tables(rng, shape))),
        13 => {
            // One chance moved between two states that are reached: each row still totals 1,000.
            let mut other = tables.clone();
            let row = rng.index(columns) * shape.n;
            let (from, to) = (row + rng.index(shape.n), row + rng.index(shape.n));
            if other.transitions[from] > 0 {
                other.transitions[from] -= 1;
                other.transitions[to] += 1;
            }
            words = exact(&lent::tables(&other));
        }
        14 => {
            // A cell more: of 0, or the same state twice.
            let first = behind(&words);
            let more = if rng.once_in(2) { words[cell] } else { words[cell] / STATE * STATE };
            words.insert(cell, more);
            words[first..=columns].iter_mut().for_each(|begin| *begin += 1);
        }
        15 => {
            // A cell less.
            let first = behind(&words);
            words.remove(cell);
            words[first..=columns].iter_mut().for_each(|begin| *begin = begin.saturating_sub(1));
        }
        16 => words[cell] = rng.pick(&[words[cell] + 1, words[cell] - 1, words[cell] + STATE, words[cell] % STATE, 0]),
        17 => {
            let any = rng.index(columns + 1);
            let at = rng.pick(&[0, any, columns]);
            words[at] = rng.pick(&[words[at] + 1, words[at].saturating_sub(1), 0, u32::MAX]);
        }
        18 => {
            let other = words.len() - 1;
            words.swap(cell, other);
        }
        _ => words.spoilt(rng),
    }
    words
}

/// A list to be made, over a slice that is as long as it must be, longer or too short; or an offer or a building that is handed
/// one.
pub fn random(rng: &mut Rng) -> Call {
    let shape = gen::shape(rng);
    match rng.below(3) {
        0 => making(rng, shape),
        1 => {
            let levels = rng.below(3);
            let certifier = single::followed(&gen::list(rng, shape, levels));
            let points = gen::points(rng, shape.n, 2);
            let level = gen::above(&certifier, &points, shape);
            let level = if rng.once_in(2) { level } else { gen::masked(rng, &certifier, &level, shape) };
            let level = if rng.once_in(3) { gen::nudged(rng, &level, shape) } else { level };
            let words = any(rng, &certifier.tables, shape);
            let mut call = single::offering(rng, shape, &certifier, &level);
            if let Call::Offer { list, certifier, .. } = &mut call {
                *list = words;
                if rng.once_in(8) {
                    certifier.state[0] = 100;
                }
            }
            call
        }
        _ => {
            let levels = rng.below(3);
            let certifier = single::followed(&gen::list(rng, shape, levels));
            let count = rng.index(4);
            let points = gen::points(rng, shape.n, count);
            let words = any(rng, &certifier.tables, shape);
            let mut call = single::building(rng, shape, &certifier, &points);
            if let Call::Build { list, .. } = &mut call {
                *list = words;
            }
            call
        }
    }
}

/// A list to be made.
fn making(rng: &mut Rng, shape: Shape) -> Call {
    let mut tables = gen::tables(rng, shape);
    let needed = exact(&lent::tables(&tables)).len();
    match rng.below(5) {
        0 => gen::spoil_tables(rng, &mut tables),
        1 => gen::spoil_row(rng, &mut tables),
        _ => {}
    }
    let mut list = Vec::new();
    list.sized(rng.pick(&[0, needed - 1, needed, needed, needed + 1, LIST_WORDS]), rng);
    Call::List { tables: lent::tables(&tables), list }
}

/// A list that is made, over a slice that is as long as it must be.
pub fn served(rng: &mut Rng, shape: Shape) -> Call {
    let tables = lent::tables(&gen::tables(rng, shape));
    let mut list = Vec::new();
    list.sized(exact(&tables).len(), rng);
    Call::List { tables, list }
}

/// The same call without a list, where it is handed the list of its tables.
pub fn without(call: &Call) -> Option<Call> {
    let mut other = call.clone();
    if let Call::Offer { tables, list, .. } | Call::Build { tables, list, .. } = &mut other {
        let own = exact(tables);
        if !own.is_empty() && list.starts_with(&own) {
            list.clear();
            return Some(other);
        }
    }
    None
}

/// How a library's answer to an offer or a building, or what it leaves, differs with a list from without.
pub fn apart(call: &Call, by: &dyn Library) -> Option<String> {
    let plain = without(call)?;
    let ((found, mut after), (expected, before)) = (call.made(by), plain.made(by));
    if let Call::Offer { list, .. } | Call::Build { list, .. } = &mut after {
        list.clear();
    }
    (found != expected || after != before)
        .then(|| format!("with the list {:?}, without {:?}; the slices after it\n{}{}", found, expected, after, before))
}

/// How the list that a library makes, turned back, differs from the table.
pub fn turned(call: &Call, by: &dyn Library) -> Option<String> {
    let (answer, after) = call.made(by);
    match &after {
        Call::List { tables, list } if answer[0] == 0 => {
            let table = BY_THE_DOCUMENT.tables(tables);
            let words: Vec<u64> = list.iter().map(|&word| word.into()).collect();
            let turned = reference::turned_back(&table, &words);
            (turned != Some(table.stored())).then(|| format!("turned back it is {:?}", turned))
        }
        _ => None,
    }
}

/// What is wrong with a call by a library: it differs from the document, from itself without the list, or is no list.
pub fn difference(call: &Call, by: &dyn Library) -> Option<String> {
    call.difference(&BY_THE_DOCUMENT, by).or_else(|| apart(call, by)).or_else(|| turned(call, by))
}

#[cfg(test)]
mod tests {
    use super::*;
    use crate::files::DOUGH;
    use crate::gen::DOCUMENT;
    use std::collections::BTreeMap;

    /// Lists are made and refused, and those that are handed in are accepted and refused, each often.
    #[test]
    fn every_end_of_a_list_occurs() {
        let mut seen: BTreeMap<(bool, i128), u64> = BTreeMap::new();
        let mut plain = 0;
        for number in 0..900 {
            let call = random(&mut Rng::for_case(6, "lists", number));
            assert!(!call.to_string().is_empty());
            assert_eq!(difference(&call, &BY_THE_DOCUMENT), None, "lists:{}", number);
            plain += u64::from(without(&call).is_some());
            let made = matches!(call, Call::List { .. });
            *seen.entry((made, call.made(&BY_THE_DOCUMENT).0[0])).or_insert(0) += 1;
        }
        let often = |made: bool, number: i128| seen.get(&(made, number)).map_or(false, |&count| count > 20);
        assert!([0, 3, 5, 6, 9].iter().all(|&number| often(true, number)), "{:?}", seen);
        assert!([0, 7].iter().all(|&number| often(false, number)), "{:?}", seen);
        assert!(plain > 150, "{}", plain);
    }

    /// What is handed in by hand: the dough's list, and others.
    #[test]
    fn the_list_of_the_dough() {
        let tables = reference::read(DOUGH.as_bytes(), &DOCUMENT).unwrap().tables;
        let words = [5, 6, 8, 10, 10, 500, 500, STATE + 1_000, 1_000, STATE + 1_000];
        assert_eq!(exact(&lent::tables(&tables)), words);
    }
}
