//! The fast informed bound and the QMDP rows: a row of ticks for each action, all 0 at level 0, stepped by the certifier from
//! its own tables whenever a level is accepted, whatever was offered.
//!
//! An informed entry is no less than what any plan earns from its state that opens with its action; a QMDP entry, which has
//! the state known after each step, is no less than the informed one.

use crate::exact::{dot, k, round_down, round_up, stored, ticks, zero};
use crate::model::{Model, ACTIONS, STATES, THOUSAND};
use crate::rules::{Rules, Trap};
use num_bigint::BigInt;

/// Storage for the rows of any model: by action and state, packed by the counts.
pub const ROWS: usize = ACTIONS * STATES;

/// The rows of level 0, in storage.
pub fn fresh() -> Vec<i64> {
    vec![0; ROWS]
}

/// The rows in storage, as lists.
pub fn lists(cells: &[i64], model: &Model) -> Vec<Vec<BigInt>> {
    cells[..model.m * model.n].chunks(model.n).map(ticks).collect()
}

/// The informed rows of the next level: K × R(s, a) + g × the sum over o of the largest over a' of the sum over s' of
/// T × O × (the row of a' at s'), over K and rounded up.
pub fn informed(cells: &[i64], model: &Model, rules: &Rules) -> Vec<i64> {
    stepped(cells, model, rules, |rows, s, a| {
        if rules.has(Trap::QmdpForInformed) {
            return known(rows, model, s, a, rules);
        }
        let follows = |row: &[BigInt], o: usize| -> BigInt {
            let seen_at = |s2| if rules.has(Trap::RowsSightAtStateLeft) { s } else { s2 };
            let sights = |s2| model.t(s, a, s2) * model.o(a, seen_at(s2), o);
            (0..model.n).map(|s2| sights(s2) * &row[s2]).sum()
        };
        if rules.has(Trap::RowsBlind) {
            let all = |row: &Vec<BigInt>| (0..model.k).map(|o| follows(row, o)).sum();
            return largest(rows.iter().map(all), rules);
        }
        (0..model.k).map(|o| largest(rows.iter().map(|row| follows(row, o)), rules)).sum()
    })
}

/// The QMDP rows of the next level: K × R(s, a) + g × the sum over s' of T × 1,000 × (the largest over a' of the row of a' at
/// s'), over K and rounded up.
pub fn qmdp(cells: &[i64], model: &Model, rules: &Rules) -> Vec<i64> {
    stepped(cells, model, rules, |rows, s, a| known(rows, model, s, a, rules))
}

/// What follows where the state reached is known.
fn known(rows: &[Vec<BigInt>], model: &Model, s: usize, a: usize, rules: &Rules) -> BigInt {
    let best = |s2: usize| largest(rows.iter().map(|row| row[s2].clone()), rules);
    (0..model.n).map(|s2| model.t(s, a, s2) * THOUSAND * best(s2)).sum()
}

/// Rows of the next level, in storage, with 0 past the counts.
fn stepped(
    cells: &[i64],
    model: &Model,
    rules: &Rules,
    follows: impl Fn(&[Vec<BigInt>], usize, usize) -> BigInt,
) -> Vec<i64> {
    let before = lists(cells, model);
    let mut after = before.clone();
    for a in 0..model.m {
        for s in 0..model.n {
            let rows = if rules.has(Trap::RowsInPlace) { &after } else { &before };
            let backup = k() * model.r(s, a) + model.g() * follows(rows, s, a);
            after[a][s] = match rules.trap {
                Some(Trap::RowsRoundedDown) => round_down(&backup, &k(), &Rules::default()),
                Some(Trap::RowsTowardsZero) => backup / k(),
                _ => round_up(&backup, &k()),
            };
        }
    }
    let mut storage: Vec<i64> = after.concat().iter().map(stored).collect();
    storage.resize(ROWS, 0);
    storage
}

/// The largest of what the rows have.
fn largest(values: impl Iterator<Item = BigInt>, rules: &Rules) -> BigInt {
    let found = if rules.has(Trap::SmallestRowFollows) { values.min() } else { values.max() };
    found.unwrap_or_else(zero)
}

/// The informed ceiling at weights b: the largest product of a row with them.
pub fn ceiling(rows: &[Vec<BigInt>], b: &[BigInt], rules: &Rules) -> BigInt {
    let products = rows.iter().map(|row| dot(row, b));
    let found = if rules.has(Trap::SmallestRow) { products.min() } else { products.max() };
    found.unwrap_or_else(zero)
}

#[cfg(test)]
mod tests {
    use super::*;
    use crate::*;

    fn model(tables: &Tables) -> Model {
        Model::of(tables, &DOCUMENT).unwrap()
    }

    fn example(name: &str) -> Tables {
        let file = std::fs::read(format!("../../examples/{}.pomdp", name)).unwrap();
        read(&file, &DOCUMENT).unwrap().tables
    }

    /// Both kinds of rows after so many levels, built at no point.
    fn after(tables: &Tables, levels: u64) -> (Vec<i64>, Vec<i64>) {
        let mut certifier = open(tables, &DOCUMENT).unwrap();
        for _ in 0..levels {
            let level = build(&certifier, &Points::none(), &DOCUMENT).unwrap();
            offer(&mut certifier, &level, &DOCUMENT).unwrap();
        }
        (certifier.informed, certifier.qmdp)
    }

    /// By hand, for action 0 from state 0 of the dough at level 2. Informed: -100 + 0.9 × (-55 + 110) = -50.5, where after
    /// observation 0 the row of action 0 is best, 0.4 × -100 + 0.15 × -100, and after 1 that of action 1, 0.1 × -1000 +
    /// 0.35 × 600. QMDP: -100 + 0.9 × (0.5 × -100 + 0.5 × 600) = 125.
    #[test]
    fn the_dough_by_hand() {
        let dough = example("dough");
        assert_eq!(after(&dough, 0), (fresh(), fresh()));
        let (one, known) = after(&dough, 1);
        assert_eq!(one[..4], [-100, -100, -1_000, 600]);
        assert_eq!(one, known);
        let (two, known) = after(&dough, 2);
        assert_eq!(two[..4], [-50, 440, -1_090, 510]);
        assert_eq!(known[..4], [125, 440, -1_090, 510]);
        assert!(two[4..].iter().chain(&known[4..]).all(|&cell| cell == 0));
    }

    /// Rounded towards plus infinity on both sides of 0: half a tick each way.
    #[test]
    fn rounded_up() {
        let mut tables = Tables { discount: 500, ..Tables::zeros(1, 1, 1) };
        tables.transitions[0] = 1_000;
        tables.sights[0] = 1_000;
        for (reward, second) in [(1, 2), (-1, -1), (-3, -4), (3, 5)] {
            tables.rewards[0] = reward;
            let (informed, qmdp) = after(&tables, 2);
            assert_eq!((informed[0], qmdp[0]), (second, second), "{}", reward);
        }
    }

    /// What is offered does not matter: the loosest level steps the rows as the built one does, and a refused one does not.
    #[test]
    fn stepped_whatever_is_offered() {
        let tables = example("tiger");
        let mut loose = open(&tables, &DOCUMENT).unwrap();
        for t in 1..=4 {
            let mut level = Level::fresh(tables.states as usize, tables.observations as usize);
            level.entries.fill(-100_000 * t);
            level.corners.fill(100_000 * t);
            let mut wrong = level.clone();
            wrong.entries.fill(100_000 * t);
            let before = loose.clone();
            assert_eq!(offer(&mut loose, &wrong, &DOCUMENT), Err(Refusal::at(13, 0)));
            assert_eq!(loose, before);
            offer(&mut loose, &level, &DOCUMENT).unwrap();
            assert_eq!((loose.informed.clone(), loose.qmdp.clone()), after(&tables, t as u64));
        }
    }

    /// Up to level 100 no informed entry is above the QMDP one, and all keep to their range.
    #[test]
    fn informed_below_qmdp_up_to_level_100() {
        for name in ["dough", "tiger", "crying-baby", "tempering"] {
            let model = model(&example(name));
            let (mut low, mut high) = (fresh(), fresh());
            for t in 1..=100 {
                low = informed(&low, &model, &DOCUMENT);
                high = qmdp(&high, &model, &DOCUMENT);
                assert!(low.iter().zip(&high).all(|(low, high)| low <= high), "{} at level {}", name, t);
                assert!(low.iter().chain(&high).all(|cell| cell.abs() <= 100_000 * t), "{} at level {}", name, t);
            }
        }
    }

    /// The rows of a certifier handed in are within the range of its level; past the counts they are not read.
    #[test]
    fn rows_that_are_handed_in() {
        let tables = example("dough");
        let mut one = open(&tables, &DOCUMENT).unwrap();
        let level = build(&one, &Points::none(), &DOCUMENT).unwrap();
        let totals_with =
            |certifier: &Certifier| totals(certifier, &[1, 1], &DOCUMENT).map_err(|refusal| refusal.number);
        let seven = |change: &dyn Fn(&mut Certifier)| {
            let mut certifier = one.clone();
            change(&mut certifier);
            offer(&mut certifier, &level, &DOCUMENT).err().map(|refusal| (refusal.number, refusal.place))
        };
        assert_eq!(seven(&|certifier| certifier.informed[3] = 1), Some((7, 0)));
        assert_eq!(seven(&|certifier| certifier.qmdp[0] = -1), Some((7, 0)));
        assert_eq!(seven(&|certifier| certifier.informed[4] = i64::MIN), None);
        offer(&mut one, &level, &DOCUMENT).unwrap();
        for (cell, served) in [(100_000, true), (-100_000, true), (100_001, false), (i64::MIN, false)] {
            for at in 0..4 {
                let mut informed = one.clone();
                informed.informed[at] = cell;
                assert_eq!(totals_with(&informed).is_ok(), served);
                let mut known = one.clone();
                known.qmdp[at] = cell;
                assert_eq!(totals_with(&known).is_ok(), served);
            }
        }
    }
}
