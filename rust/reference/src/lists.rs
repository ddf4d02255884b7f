//! Transitions kept as lists: document 02, Job 9.
//!
//! A list has words. The first m × n + 1 of them say at which word of the list the cells of each column begin, column by column,
//! and where the last one ends. Column a × n + s' is that of the action a and of the state s' that is reached. Behind them lie
//! the cells, column by column, each by rising state: for every T(s, a, s') above 0 the word s × 65,536 + T(s, a, s').

use crate::certifier::Certifier;
use crate::model::{Model, Tables, ACTIONS, STATES};
use crate::refusal::Refusal;
use crate::rules::{Rules, Trap};

/// A state is counted in these within a cell.
const STATE: u64 = 65_536;

/// The most words that a list has.
pub const LIST: usize = ACTIONS * STATES + 1 + ACTIONS * STATES * STATES;

/// The list of tables whose counts fit.
fn list_of(tables: &Tables, rules: &Rules) -> Vec<u64> {
    let (n, m) = (tables.states as usize, tables.actions as usize);
    let words = m * n + usize::from(!rules.has(Trap::EndMissing));
    let (mut begins, mut cells) = (Vec::new(), Vec::new());
    for a in 0..m {
        for s2 in 0..n {
            begins.push((words + cells.len()) as u64);
            let t = |s: usize| match rules.trap {
                Some(Trap::ColumnsByStateLeft) => tables.transitions[tables.transition_cell(a, s2, s)],
                _ => tables.transitions[tables.transition_cell(a, s, s2)],
            };
            let mut kept: Vec<usize> = (0..n).filter(|&s| t(s) > 0 || rules.has(Trap::ZerosStored)).collect();
            if rules.has(Trap::FallingStates) {
                kept.reverse();
            }
            cells.extend(kept.into_iter().map(|s| s as u64 * STATE + t(s)));
        }
    }
    if !rules.has(Trap::EndMissing) {
        begins.push((words + cells.len()) as u64);
    }
    [begins, cells].concat()
}

/// The list of tables for a slice with room for so many words, or the tables' refusal (3, 5, 6), then 9 where the list has more.
pub fn list(tables: &Tables, room: usize, rules: &Rules) -> Result<Vec<u64>, Refusal> {
    let fits = |list: &[u64]| if list.len() <= room { Ok(()) } else { Err(Refusal::at(9, 0)) };
    if rules.has(Trap::NineBeforeFive) && tables.counts_fit() {
        fits(&list_of(tables, rules))?;
    }
    Model::of(tables, rules)?;
    let list = list_of(tables, rules);
    fits(&list)?;
    Ok(list)
}

/// The tables that a list says in place of these; none, where it is no list with their counts.
pub fn turned_back(tables: &Tables, list: &[u64]) -> Option<Tables> {
    let (n, m) = (tables.states as usize, tables.actions as usize);
    let mut turned = tables.stored();
    turned.transitions.fill(0);
    let begins = |column: usize| list.get(column).map(|&word| word as usize);
    for a in 0..m {
        for s2 in 0..n {
            let cells = list.get(begins(a * n + s2)?..begins(a * n + s2 + 1)?)?;
            for cell in cells {
                let (s, t) = ((cell / STATE) as usize, cell % STATE);
                if s >= n {
                    return None;
                }
                turned.transitions[tables.transition_cell(a, s, s2)] = t;
            }
        }
    }
    list.starts_with(&list_of(&turned, &Rules::default())).then_some(turned)
}

/// The tables that a call works from, which is handed a list with them: the same, where there are no words and no list is meant;
/// else those that the list says. 7 where the tables are refused, or the words do not begin with their list.
fn handed(tables: &Tables, list: &[u64], rules: &Rules) -> Result<Tables, Refusal> {
    let seven = Refusal::at(7, 0);
    if list.is_empty() {
        return Ok(tables.clone());
    }
    Model::of(tables, rules).map_err(|_| seven)?;
    if rules.has(Trap::OtherListAccepted) {
        return turned_back(tables, list).ok_or(seven);
    }
    if !list.starts_with(&list_of(tables, rules)) {
        return Err(seven);
    }
    Ok(turned_back(tables, list).unwrap_or_else(|| tables.clone()))
}

/// A call on a certifier that is handed a list with its tables, and works from the list; 7 before all else.
pub fn by_list<Answer>(
    certifier: &mut Certifier,
    list: &[u64],
    rules: &Rules,
    call: impl FnOnce(&mut Certifier) -> Result<Answer, Refusal>,
) -> Result<Answer, Refusal> {
    let tables = handed(&certifier.tables, list, rules)?;
    let kept = std::mem::replace(&mut certifier.tables, tables);
    let answer = call(certifier);
    certifier.tables = kept;
    answer
}

#[cfg(test)]
mod tests {
    use super::*;
    use crate::*;

    /// Four columns: of waiting to either state, then of baking to either.
    #[test]
    fn the_dough_by_hand() {
        let words = [5, 6, 8, 10, 10, 500, 500, STATE + 1_000, 1_000, STATE + 1_000];
        assert_eq!(list(&dough::tables(), 10, &DOCUMENT).unwrap(), words);
        assert_eq!(list(&dough::tables(), 9, &DOCUMENT), Err(Refusal::at(9, 0)));
        assert_eq!(turned_back(&dough::tables(), &words), Some(dough::tables().stored()));
    }

    /// 3, 5, 6, 9.
    #[test]
    fn the_order() {
        let refused = |change: &dyn Fn(&mut Tables)| {
            let mut tables = dough::tables();
            change(&mut tables);
            list(&tables, 0, &DOCUMENT).map_err(|refusal| (refusal.number, refusal.place))
        };
        assert_eq!(refused(&|tables| (tables.discount, tables.transitions[2]) = (1_001, 1)), Err((3, 0)));
        assert_eq!(refused(&|tables| (tables.transitions[2], tables.sights[0]) = (1, 1)), Err((5, 1)));
        assert_eq!(refused(&|tables| tables.sights[2] = 1), Err((6, 1)));
        assert_eq!(refused(&|_| {}), Err((9, 0)));
    }

    /// A list must be that of the tables handed in with it, word by word; what lies past it is not read.
    #[test]
    fn lists_that_are_handed_in() {
        let mut certifier = open(&dough::tables(), &DOCUMENT).unwrap();
        let mut asked = |change: &dyn Fn(&mut Vec<u64>)| {
            let mut words = list(&dough::tables(), LIST, &DOCUMENT).unwrap();
            change(&mut words);
            let built = by_list(&mut certifier, &words, &DOCUMENT, |by| build(by, &Points::none(), &DOCUMENT));
            built.map(|level| level.corners).map_err(|refusal| (refusal.number, refusal.place))
        };
        let served = Ok(vec![-100, 600]);
        assert_eq!(asked(&|_| {}), served);
        assert_eq!(asked(&|words| words.clear()), served);
        assert_eq!(asked(&|words| words.push(7)), served);
        let seven = Err((7, 0));
        assert_eq!(asked(&|words| words.truncate(9)), seven);
        assert_eq!(asked(&|words| words[4] = 9), seven);
        assert_eq!(asked(&|words| words.swap(6, 7)), seven);
        assert_eq!(asked(&|words| words[5] = 499), seven);
        // A cell of 0 stored, and the ends moved.
        assert_eq!(
            asked(&|words| {
                words.insert(6, STATE);
                words[1..5].iter_mut().for_each(|end| *end += 1);
            }),
            seven
        );
        certifier.tables.discount = 1_001;
        let words = list(&dough::tables(), LIST, &DOCUMENT).unwrap();
        let built = by_list(&mut certifier, &words, &DOCUMENT, |by| build(by, &Points::none(), &DOCUMENT));
        assert_eq!(built, Err(Refusal::at(7, 0)));
    }

    /// The list of every example turned back is its T.
    #[test]
    fn turned_back_is_the_table() {
        for name in ["dough", "tiger", "crying-baby", "tempering", "seeding", "four-by-three"] {
            let file = std::fs::read(format!("../../examples/{}.pomdp", name)).unwrap();
            let tables = read(&file, &DOCUMENT).unwrap().tables;
            let words = list(&tables, LIST, &DOCUMENT).unwrap();
            assert_eq!(turned_back(&tables, &words), Some(tables.stored()), "{}", name);
        }
    }
}
