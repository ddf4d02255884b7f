//! The certifier, and offers to it.

use crate::backup::{ceiling_backup, reaches_uncovered, vector_backup};
use crate::exact::{corner, k, ticks};
use crate::level::{first_untotalled, Level, Lists, LEVELS, TICKS, VECTORS};
use crate::model::{Model, Tables};
use crate::refusal::Refusal;
use crate::rows;
use crate::rules::{Rules, Trap};
use num_bigint::BigInt;

/// The rule for totals as it was when hundredths were all that a point could say.
const HUNDRED_ONLY: Rules = Rules { trap: Some(Trap::HundredOnly) };

/// The certifier: its tables, the standing level, the number of levels that were accepted, and the rows that it steps.
#[derive(Clone, Debug, PartialEq, Eq)]
pub struct Certifier {
    pub tables: Tables,
    pub standing: Level,
    pub level: u64,
    /// The fast informed bound in ticks, by action and state.
    pub informed: Vec<i64>,
    /// The QMDP rows in ticks, by action and state.
    pub qmdp: Vec<i64>,
}

/// Opens a certifier on tables, or refuses them with 3, 5 or 6. It stands at level 0.
pub fn open(tables: &Tables, rules: &Rules) -> Result<Certifier, Refusal> {
    let Model { n, k, .. } = Model::of(tables, rules)?;
    let (informed, qmdp) = (rows::fresh(), rows::fresh());
    Ok(Certifier { tables: tables.stored(), standing: Level::fresh(n, k), level: 0, informed, qmdp })
}

impl Certifier {
    /// Steps both kinds of rows.
    fn step_rows(&mut self, rules: &Rules) {
        if let Ok(model) = Model::of(&self.tables, rules) {
            self.informed = rows::informed(&self.informed, &model, rules);
            if !rules.has(Trap::QmdpKept) {
                self.qmdp = rows::qmdp(&self.qmdp, &model, rules);
            }
        }
    }

    /// 7: whether the entries of the rows keep to the range of a vector's at this level.
    fn rows_fit(&self, model: &Model, rules: &Rules) -> bool {
        let t = self.level + u64::from(rules.has(Trap::RowsRangeOfNext));
        let end = BigInt::from(TICKS) * t;
        let used = model.m * model.n;
        let tested = if rules.has(Trap::RowCellsOfFirst) { used.min(64) } else { used };
        let fit = |cells: &[i64]| ticks(&cells[..tested]).iter().all(|cell| *cell >= -&end && *cell <= end);
        (fit(&self.informed) || rules.has(Trap::SevenForgetsInformed))
            && (fit(&self.qmdp) || rules.has(Trap::SevenForgetsQmdp))
    }
}

/// 7: the certifier handed in is within the limits of 3, 5, 6, 9, 11 and 12, each standing vector has an action, its level is
/// at most 100, and the entries of its rows keep to a vector entry's range. Its choices, and entries of states that a vector
/// does not cover, are not read, and its inequalities are not asked. The place is 0 whatever is broken.
pub fn examine(certifier: &Certifier, rules: &Rules) -> Result<(Model, Lists), Refusal> {
    let seven = Refusal::at(7, 0);
    let model = Model::of(&certifier.tables, rules).map_err(|_| seven)?;
    let standing = &certifier.standing;
    let in_range = || {
        let all = rules.has(Trap::SevenReadsUncovered);
        let [vector, corner, point] = standing.outside(model.n, certifier.level, all, rules);
        (vector.is_none() || rules.has(Trap::SevenForgetsEntries))
            && (corner.is_none() || rules.has(Trap::SevenForgetsCorners))
            && (point.is_none() || rules.has(Trap::SevenForgetsValues))
    };
    let acts = || standing.actions[..standing.vectors as usize].iter().all(|&a| a < model.m as u64);
    let fits = certifier.level <= LEVELS + u64::from(rules.has(Trap::SevenPassesLevel))
        && standing.counts_fit(&model, false, rules)
        && in_range()
        && (standing.first_untotalled(model.n, rules).is_none() || rules.has(Trap::SevenForgetsTotals))
        && certifier.rows_fit(&model, rules)
        && (acts() || rules.has(Trap::SevenForgetsActions));
    if !fits {
        return Err(seven);
    }
    let mut choices = standing.choices.iter().take(standing.vectors as usize * model.k);
    if rules.has(Trap::StandingChoicesRead) && choices.any(|&v| v >= VECTORS as u64) {
        return Err(seven);
    }
    let hundred = || first_untotalled(&standing.weights, standing.points as usize, model.n, &HUNDRED_ONLY).is_none();
    if rules.has(Trap::StandingHundredOnly) && !hundred() {
        return Err(seven);
    }
    if rules.has(Trap::FreshOnly) && certifier.level == 0 && *standing != Level::fresh(model.n, model.k) {
        return Err(seven);
    }
    let lists = Lists { informed: rows::lists(&certifier.informed, &model), ..standing.lists(model.n) };
    Ok((model, lists))
}

/// 8: whether 100 levels already stand.
pub fn full(certifier: &Certifier, rules: &Rules) -> bool {
    certifier.level == LEVELS || (certifier.level == LEVELS - 1 && rules.has(Trap::HundredEarly))
}

/// Offers a level: accepted, it stands, the level number is one more, and the rows are stepped; refused with 7 to 12, 21, 13,
/// 14 or 15, the certifier stays.
pub fn offer(certifier: &mut Certifier, offered: &Level, rules: &Rules) -> Result<(), Refusal> {
    let answer = judge(certifier, offered, rules);
    match &answer {
        Ok(stored) => {
            if !rules.has(Trap::NothingStored) {
                certifier.standing = stored.clone();
            }
            certifier.level += if rules.has(Trap::LevelMadeUp) { 2 } else { 1 };
            if !rules.has(Trap::RowsKept) {
                certifier.step_rows(rules);
            }
        }
        Err(_) if rules.has(Trap::RefusalChanges) => certifier.standing = offered.clone(),
        Err(_) if rules.has(Trap::RefusalStepsRows) => certifier.step_rows(rules),
        Err(_) => {}
    }
    answer.map(|_| ())
}

/// The level to store, or the first refusal in checking order. One number is tested throughout before the next.
fn judge(certifier: &Certifier, offered: &Level, rules: &Rules) -> Result<Level, Refusal> {
    let refuse_at = |number: u8, offender: Option<usize>| match offender {
        Some(place) => Err(Refusal::at_index(number, place)),
        None => Ok(()),
    };
    let (model, standing) = examine(certifier, rules)?;
    let mut counts = [(8, full(certifier, rules)), (9, !offered.counts_fit(&model, true, rules))];
    if rules.has(Trap::NineBeforeEight) {
        counts.reverse();
    }
    for (number, broken) in counts {
        refuse_at(number, Some(0).filter(|_| broken))?;
    }
    let stored = offered.stored(&model, rules);
    if rules.has(Trap::AcceptAll) {
        return Ok(stored);
    }
    if rules.has(Trap::RefuseAll) {
        return Err(Refusal::at(13, 0));
    }

    let dangling = offered.first_dangling(&model, certifier.standing.vectors, rules);
    let excused = offered.first_dangling(&model, offered.vectors, rules).is_none() && rules.has(Trap::ChoicesOfOffered);
    if dangling.is_some() && excused {
        return Ok(stored);
    }
    refuse_at(10, dangling)?;

    let lists = offered.lists(model.n);
    let t = if rules.has(Trap::RangeOfStanding) { certifier.level } else { certifier.level + 1 };
    let below = |value: &BigInt, p: &[BigInt]| {
        (0..model.m).any(|a| k() * value < ceiling_backup(&model, &standing, p, a, rules))
    };
    let corner_below = |s: usize| below(&lists.corners[s], &corner(model.n, s));
    let point_below = |j: usize| below(&lists.points[j].value, &lists.points[j].weights);
    for number in order(rules) {
        let offender = match number {
            11 => offered.first_outside(model.n, t, rules.has(Trap::ElevenReadsUncovered), rules),
            12 => offered.first_untotalled(model.n, rules),
            _ if rules.has(Trap::LaterLevelsWaved) && certifier.level >= 1 => None,
            21 => first_uncovered(&model, &standing, offered, &lists, rules),
            13 if !rules.has(Trap::WithoutThirteen) => first_above(&model, &standing, offered, &lists, rules),
            14 if !rules.has(Trap::WithoutFourteen) => {
                let tested = rules.some_states(model.n, Trap::FourteenOfHalf);
                rules.offender(tested, Trap::LastCornerBelow, corner_below)
            }
            15 if !rules.has(Trap::WithoutFifteen) => {
                rules.offender(lists.points.len(), Trap::LastPointBelow, point_below)
            }
            _ => None,
        };
        refuse_at(number, offender)?;
    }
    Ok(stored)
}

/// The numbers that are tested on an offered level from 11 on, in order.
fn order(rules: &Rules) -> [u8; 6] {
    match rules.trap {
        Some(Trap::TotalsBeforeRanges) => [12, 11, 21, 13, 14, 15],
        Some(Trap::TwentyOneFirst) => [21, 11, 12, 13, 14, 15],
        Some(Trap::TwentyOneBeforeTwelve) => [11, 21, 12, 13, 14, 15],
        Some(Trap::ThirteenFirst) => [11, 12, 13, 21, 14, 15],
        Some(Trap::FourteenBeforeThirteen) => [11, 12, 21, 14, 13, 15],
        Some(Trap::FifteenBeforeFourteen) => [11, 12, 21, 13, 15, 14],
        _ => [11, 12, 21, 13, 14, 15],
    }
}

/// 21: the first vector that reaches from a covered state one that the vector chosen does not cover.
fn first_uncovered(model: &Model, standing: &Lists, offered: &Level, lists: &Lists, rules: &Rules) -> Option<usize> {
    rules.offender(lists.actions.len(), Trap::LastUncovered, |v| {
        let choices = chosen(&offered.choices, v, model.k);
        reaches_uncovered(model, standing, &lists.covered[v], lists.actions[v] as usize, &choices, rules)
    })
}

/// The vectors that a vector chooses.
fn chosen(choices: &[u64], v: usize, k: usize) -> Vec<usize> {
    choices[v * k..(v + 1) * k].iter().map(|&choice| choice as usize).collect()
}

/// 13: the first vector with an entry of a covered state above its backup. Both are compared exactly, K times the entry with
/// the backup.
fn first_above(model: &Model, standing: &Lists, offered: &Level, lists: &Lists, rules: &Rules) -> Option<usize> {
    rules.offender(lists.vectors.len(), Trap::LastAbove, |v| {
        let action = lists.actions[v] as usize;
        let choices = chosen(&offered.choices, v, model.k);
        let tested = |s: &usize| lists.covered[v][*s] || rules.has(Trap::ThirteenReadsUncovered);
        (0..rules.some_states(model.n, Trap::ThirteenOfHalf)).filter(tested).any(|s| {
            let backup = vector_backup(model, standing, s, action, &choices, rules);
            k() * &lists.vectors[v][s] > backup
        })
    })
}
