//! New prices in mid-plan: document 02, Job 10.

use crate::certifier::{examine, Certifier};
use crate::exact::{stored, weights};
use crate::level::{covers, TICKS};
use crate::model::{Model, Tables};
use crate::refusal::Refusal;
use crate::rules::{Rules, Trap};
use num_bigint::BigInt;

/// Moves a certifier to new tables that differ in their rewards at most, or refuses with 7, the new tables' own 3, 5 or 6, or
/// 23.
///
/// At level t, with d the largest change of any reward, up or down: each entry of a covered state falls by d × t, each corner
/// and each entry of the rows rises by d × t, and a point's value by d × t times the total of its weights; each is held at the
/// end of its range. The new tables are then in force, and the level is t as before.
pub fn reprice(certifier: &mut Certifier, new: &Tables, rules: &Rules) -> Result<(), Refusal> {
    let seven = examine(certifier, rules).map(|(model, _)| model);
    let same = || if same_plans(&certifier.tables, new, rules) { Ok(()) } else { Err(Refusal::at(23, 0)) };
    if rules.has(Trap::SevenAfterPrices) {
        Model::of(new, rules)?;
    }
    let model = seven?;
    if rules.has(Trap::TwentyThreeBeforeFive) && new.counts_fit() {
        same()?;
    }
    let next = Model::of(new, rules);
    if matches!(next, Err(Refusal { number: 6, .. })) && rules.has(Trap::TwentyThreeBeforeSix) {
        same()?;
    }
    let next = next?;
    same()?;

    let d = change(&model, &next, rules);
    let t = certifier.level;
    let by = if rules.has(Trap::FallByChangeAlone) { d } else { d * t };
    let end = BigInt::from(TICKS) * t;
    let held = !rules.has(Trap::NotHeld);
    let fallen = |cell: i64| {
        let fallen = BigInt::from(cell) - &by;
        stored(&if held { fallen.max(-&end) } else { fallen })
    };
    let risen = |cell: i64, times: &BigInt| {
        let risen = BigInt::from(cell) + &by * times;
        stored(&if held { risen.min(&end * times) } else { risen })
    };
    let one = BigInt::from(1);

    let (n, level) = (model.n, &mut certifier.standing);
    for (v, &mask) in level.masks[..level.vectors as usize].iter().enumerate() {
        for s in (0..n).filter(|&s| covers(mask, s) || rules.has(Trap::UncoveredMoved)) {
            level.entries[v * n + s] = fallen(level.entries[v * n + s]);
        }
    }
    if !rules.has(Trap::CornersNotRaised) {
        level.corners[..n].iter_mut().for_each(|corner| *corner = risen(*corner, &one));
    }
    for j in 0..level.points as usize {
        let total = match rules.trap {
            Some(Trap::ValuesWithoutTotal) => one.clone(),
            _ => weights(&level.weights[j * n..(j + 1) * n]).iter().sum(),
        };
        level.values[j] = risen(level.values[j], &total);
    }
    if !rules.has(Trap::RowsNotRaised) {
        certifier.informed[..model.m * n].iter_mut().for_each(|cell| *cell = risen(*cell, &one));
    }
    if !rules.has(Trap::QmdpNotRaised) {
        certifier.qmdp[..model.m * n].iter_mut().for_each(|cell| *cell = risen(*cell, &one));
    }
    certifier.level += u64::from(rules.has(Trap::PricesCounted));
    if !rules.has(Trap::OldTablesStay) {
        certifier.tables = new.stored();
    }
    Ok(())
}

/// 23: whether two tables have the same counts, discount, T and O. Those of the first are within their limits, and the counts of
/// the second are.
fn same_plans(old: &Tables, new: &Tables, rules: &Rules) -> bool {
    let counts = |tables: &Tables| (tables.states, tables.actions, tables.observations);
    if counts(old) != counts(new) {
        return false;
    }
    let (t, o, _) = old.cells_used();
    let t = if rules.has(Trap::SameByThousand) { t.min(1_000) } else { t };
    (old.discount == new.discount || rules.has(Trap::OtherDiscountPasses))
        && (old.transitions[..t] == new.transitions[..t] || rules.has(Trap::OtherTransitionsPass))
        && (old.sights[..o] == new.sights[..o] || rules.has(Trap::OtherSightsPass))
}

/// d: the largest change of any reward, up or down.
fn change(old: &Model, new: &Model, rules: &Rules) -> BigInt {
    let mut largest = BigInt::from(0);
    for a in 0..old.m {
        for s in 0..old.n {
            let rise = new.r(s, a) - old.r(s, a);
            let fall = -&rise;
            if !rules.has(Trap::FallsOnly) {
                largest = largest.max(rise);
            }
            if !rules.has(Trap::RisesOnly) {
                largest = largest.max(fall);
            }
        }
    }
    largest
}

#[cfg(test)]
mod tests {
    use super::*;
    use crate::*;

    /// The certifier's tables with rewards that are changed: waiting at either state, then baking.
    fn priced(certifier: &Certifier, rewards: [i64; 4]) -> Tables {
        let mut tables = certifier.tables.clone();
        tables.rewards[..4].copy_from_slice(&rewards);
        tables
    }

    fn refused(certifier: &Certifier, new: &Tables) -> Option<(u8, u64)> {
        let mut moved = certifier.clone();
        let answer = reprice(&mut moved, new, &DOCUMENT);
        assert!(answer.is_ok() || moved == *certifier);
        answer.err().map(|refusal| (refusal.number, refusal.place))
    }

    /// Butter gets dearer by 0.30: the largest change is 30, at level 2 by 60.
    #[test]
    fn the_dough_by_hand() {
        let two = dough::standing(2);
        assert_eq!((&two.standing.corners[..], two.standing.values[0]), (&[-32, 510][..], 12_500));
        let mut moved = two.clone();
        reprice(&mut moved, &priced(&two, [-100, -110, -1_000, 570]), &DOCUMENT).unwrap();
        assert_eq!((&moved.standing.corners[..], moved.standing.values[0]), (&[28, 570][..], 18_500));
        let fallen: Vec<i64> = two.standing.entries.iter().map(|entry| entry - 60).collect();
        assert_eq!(moved.standing.entries, fallen);
        assert_eq!(moved.informed[..4], [10, 500, -1_030, 570]);
        assert_eq!(moved.qmdp[..4], [185, 500, -1_030, 570]);
        assert_eq!((moved.level, moved.tables.rewards[3]), (2, 570));
        // Levels are built upon it under the new prices.
        let level = build(&moved, &Points::none(), &DOCUMENT).unwrap();
        assert_eq!(offer(&mut moved, &level, &DOCUMENT), Ok(()));
    }

    /// What would leave its range is held at the end of it; at level 0 only the tables change.
    #[test]
    fn held_at_the_ends() {
        let one = dough::standing(1);
        let mut moved = one.clone();
        reprice(&mut moved, &priced(&one, [100_000, -100, -1_000, 600]), &DOCUMENT).unwrap();
        assert_eq!(moved.standing.entries, [-100_000, -100_000, -100_000, -99_500, -100_000, -100_000]);
        assert_eq!((&moved.standing.corners[..], moved.standing.values[0]), (&[100_000; 2][..], 10_000_000));
        let mut fresh = dough::standing(0);
        let new = priced(&fresh, [5, 6, 7, 8]);
        let before = fresh.clone();
        reprice(&mut fresh, &new, &DOCUMENT).unwrap();
        assert_eq!(fresh, Certifier { tables: new, ..before });
    }

    /// Entries of states that are not covered stay.
    #[test]
    fn uncovered_entries_stay() {
        let mut one = dough::standing(0);
        offer(&mut one, &dough::masked(2), &DOCUMENT).unwrap();
        let new = priced(&one, [-100, -100, -1_000, 620]);
        reprice(&mut one, &new, &DOCUMENT).unwrap();
        assert_eq!(one.standing.entries, [0, -120, -1_020, 580]);
        assert_eq!(one.standing.masks, [2, 3]);
    }

    /// 7, 3, 5, 6, 23.
    #[test]
    fn the_order() {
        let one = dough::standing(1);
        let with = |change: &dyn Fn(&mut Tables)| {
            let mut tables = one.tables.clone();
            change(&mut tables);
            tables
        };
        let spoilt = |tables: &mut Tables| (tables.rewards[0], tables.transitions[3]) = (100_001, 1);
        assert_eq!(refused(&Certifier { level: 101, ..one.clone() }, &with(&spoilt)), Some((7, 0)));
        assert_eq!(refused(&one, &with(&spoilt)), Some((3, 0)));
        let rows = |tables: &mut Tables| (tables.transitions[3], tables.sights[0], tables.discount) = (1, 1, 0);
        assert_eq!(refused(&one, &with(&rows)), Some((5, 1)));
        let sights = |tables: &mut Tables| (tables.sights[0], tables.discount) = (1, 0);
        assert_eq!(refused(&one, &with(&sights)), Some((6, 0)));
        assert_eq!(refused(&one, &with(&|tables| tables.discount = 899)), Some((23, 0)));
        let other = |tables: &mut Tables| tables.transitions[..2].copy_from_slice(&[499, 501]);
        assert_eq!(refused(&one, &with(&other)), Some((23, 0)));
        let seen = |tables: &mut Tables| tables.sights[..2].copy_from_slice(&[801, 199]);
        assert_eq!(refused(&one, &with(&seen)), Some((23, 0)));
        // One action less is a model of its own, and its rows are its own.
        assert_eq!(refused(&one, &with(&|tables| tables.actions = 1)), Some((23, 0)));
        assert_eq!(refused(&one, &with(&|tables| tables.states = 1)), Some((5, 0)));
        assert_eq!(refused(&one, &with(&|tables| tables.rewards.push(i64::MAX))), None);
    }
}
