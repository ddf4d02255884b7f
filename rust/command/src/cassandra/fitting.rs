//! Exact numbers brought to thousandths, hundredths and ticks.
//!
//! A row of probabilities is divided by its total and cut to whole thousandths; what is left over goes to the entries that
//! lost most, so that the row totals 1. Start numbers likewise, in hundredths.

use super::decimal::text;
use super::Source;
use crate::model_file::Counts;
use crate::names::Named;
use crate::numerals::shown;
use crate::table::Table;
use crate::told::{counted, Mark, Told};
use num_bigint::BigInt;
use num_rational::BigRational;
use num_traits::{One, Signed, ToPrimitive, Zero};
use std::ops::Range;

const THOUSAND: i64 = 1_000;
const HUNDRED: i64 = 100;
/// The largest reward, in ticks.
const TICKS: i64 = 100_000;

/// A model in the numbers of a model file.
#[derive(Clone, Debug)]
pub struct Fitted {
    pub counts: Counts,
    pub named: Named,
    /// In thousandths.
    pub discount: i64,
    /// In hundredths.
    pub start: Vec<i64>,
    /// In thousandths, rows by action and state left.
    pub transitions: Vec<Vec<i64>>,
    /// In thousandths, rows by action and state reached.
    pub observations: Vec<Vec<i64>>,
    /// In ticks, by action and state.
    pub rewards: Vec<i64>,
    /// What was changed, a sentence each; none if nothing was.
    pub changes: Vec<String>,
}

/// Fits a model, or says what does not fit. Expected rewards that are no whole ticks are rounded only if that is asked for.
pub fn fit(source: &Source, round: bool) -> Result<Fitted, Vec<Told>> {
    let Counts { states, actions, .. } = source.counts;
    let named = &source.named;
    let mut wrong = Vec::new();
    let mut changes = Vec::new();

    let mut start = Rows::new("start", "hundredths", HUNDRED);
    let from = source.start_from.iter().cloned().collect();
    let start_row = start
        .fit(&source.start, "the start", from, &mut wrong, |state| format!("state {}", named.states.or_number(state)));
    changes.extend(start.changes());
    if source.start_from.is_none() {
        changes.push("start: not stated, so all states are equally likely".to_string());
    }

    let mut table = |key: &'static str, cells: &Table<BigRational>| -> Vec<Vec<i64>> {
        let (side, kind, far) = match key {
            "T" => ("from", "to state", &named.states),
            _ => ("at", "observation", &named.observations),
        };
        let mut rows = Rows::new(key, "thousandths", THOUSAND);
        let all = (0..actions).flat_map(|action| (0..states).map(move |state| (action, state)));
        let fitted = all
            .map(|(action, state)| {
                let act = named.actions.or_number(action);
                let here = named.states.or_number(state);
                let about = format!("{} of action {} {} state {}", key, act, side, here);
                let from = cells.statements(action, state);
                let cell =
                    |index: usize| format!("action {} {} state {}, {} {}", act, side, here, kind, far.or_number(index));
                rows.fit(cells.numbers(action, state), &about, from, &mut wrong, cell)
            })
            .collect();
        changes.extend(rows.changes());
        fitted
    };
    let transitions = table("T", &source.transitions);
    let observations = table("O", &source.observations);

    let scaled = &source.discount * BigRational::from(BigInt::from(THOUSAND));
    let discount = scaled.round().to_integer().to_i64().unwrap_or(0);
    if !scaled.is_integer() {
        changes.push(format!("discount: {} became {}", text(&source.discount), shown(discount, 3)));
    }
    if !wrong.is_empty() {
        return Err(wrong);
    }
    let (rewards, more) = rewards(source, round)?;
    changes.extend(more);
    Ok(Fitted {
        counts: source.counts,
        named: named.clone(),
        discount,
        start: start_row,
        transitions,
        observations,
        rewards,
        changes,
    })
}

/// Rows of probabilities of one kind, and what fitting them changed.
struct Rows {
    key: &'static str,
    unit: &'static str,
    whole: i64,
    rows: usize,
    rounded: usize,
    /// The largest change, and where.
    largest: Option<(BigRational, String)>,
    scaled: usize,
    /// The total that is furthest from 1, and where.
    furthest: Option<(BigRational, String)>,
    vanished: usize,
}

impl Rows {
    fn new(key: &'static str, unit: &'static str, whole: i64) -> Rows {
        Rows { key, unit, whole, rows: 0, rounded: 0, largest: None, scaled: 0, furthest: None, vanished: 0 }
    }

    /// A row in whole parts. Entries below 0, or a total that is off by more than a thousandth, are wrong.
    fn fit(
        &mut self,
        row: &[BigRational],
        about: &str,
        from: Vec<Range<usize>>,
        wrong: &mut Vec<Told>,
        cell: impl Fn(usize) -> String,
    ) -> Vec<i64> {
        self.rows += 1;
        let one = BigRational::one();
        let total: BigRational = row.iter().sum();
        let off = (&total - &one).abs();
        let below = row.iter().position(BigRational::is_negative);
        if below.is_some() || off > BigRational::new(BigInt::one(), BigInt::from(THOUSAND)) {
            let title = match below {
                Some(at) => format!("a probability of {} is below 0: {}", about, text(&row[at])),
                None => format!("{} totals {}", about, text(&total)),
            };
            let marks: Vec<Mark> =
                from.into_iter().rev().map(|span| Mark::new(span, "numbers of the row come from here")).collect();
            let mut notes = vec!["wanted: a total of 1, give or take 0.001, of numbers from 0 on".to_string()];
            if marks.is_empty() {
                notes.push("no statement gives the row, and what is not stated is 0".to_string());
            }
            wrong.push(Told { title, marks, notes });
            return Vec::new();
        }
        if !off.is_zero() {
            self.scaled += 1;
            let further = self.furthest.as_ref().map_or(true, |(other, _)| off > (other - &one).abs());
            if further {
                self.furthest = Some((total.clone(), about.to_string()));
            }
        }
        let fitted = shared(row, &total, self.whole);
        let mut moved = false;
        for (at, (old, &new)) in row.iter().zip(&fitted).enumerate() {
            let change = (old - BigRational::new(BigInt::from(new), BigInt::from(self.whole))).abs();
            moved |= !change.is_zero();
            self.vanished += usize::from(new == 0 && !old.is_zero());
            if !change.is_zero() && self.largest.as_ref().map_or(true, |(other, _)| change > *other) {
                let decimals = if self.whole == THOUSAND { 3 } else { 2 };
                let place = format!("{}: {} became {}", cell(at), text(old), shown(new, decimals));
                self.largest = Some((change, place));
            }
        }
        self.rounded += usize::from(moved);
        fitted
    }

    /// What was changed, in sentences.
    fn changes(&self) -> Vec<String> {
        let mut changes = Vec::new();
        if let Some((change, place)) = &self.largest {
            let rows = match self.rows {
                1 => String::new(),
                rows => format!("{} of {} rows ", self.rounded, rows),
            };
            changes.push(format!(
                "{}: {}rounded to {} that total 1; the largest change is {} ({})",
                self.key,
                rows,
                self.unit,
                text(change),
                place
            ));
        }
        if let Some((total, about)) = &self.furthest {
            changes.push(format!(
                "{}: {} did not total 1, and the numbers were divided by their total; the furthest is {} ({})",
                self.key,
                counted(self.scaled, "row"),
                text(total),
                about
            ));
        }
        if self.vanished > 0 {
            changes.push(format!("{}: {} above 0 became 0", self.key, counted(self.vanished, "number")));
        }
        changes
    }
}

/// A row over its total in whole parts: each rounded down, and what is left over given to those that lost most, the first
/// of equals first.
fn shared(row: &[BigRational], total: &BigRational, whole: i64) -> Vec<i64> {
    let exact: Vec<BigRational> =
        row.iter().map(|number| number / total * BigRational::from(BigInt::from(whole))).collect();
    let mut parts: Vec<i64> = exact.iter().map(|number| number.floor().to_integer().to_i64().unwrap_or(0)).collect();
    let left = whole - parts.iter().sum::<i64>();
    let mut order: Vec<usize> = (0..row.len()).collect();
    order.sort_by(|&one, &other| exact[other].fract().cmp(&exact[one].fract()));
    for &at in order.iter().take(usize::try_from(left).unwrap_or(0)) {
        parts[at] += 1;
    }
    parts
}

/// The expected reward of each action and state in ticks: the sum over s' and o of T x O x R, with the author's own T and O.
fn rewards(source: &Source, round: bool) -> Result<(Vec<i64>, Vec<String>), Vec<Told>> {
    let Counts { states, actions, observations } = source.counts;
    let named = &source.named;
    let hundred = BigRational::from(BigInt::from(HUNDRED));
    let mut ticks = Vec::new();
    let mut parts: Option<(BigRational, String, String, String)> = None;
    let (mut uneven, mut large) = (0, Vec::new());
    for action in 0..actions {
        for state in 0..states {
            let stated = source.rewards.numbers(action, state);
            let mut expected = BigRational::zero();
            let reached = normal(source.transitions.numbers(action, state));
            for (to, likely) in reached.iter().enumerate() {
                let seen = normal(source.observations.numbers(action, to));
                for (observation, often) in seen.iter().enumerate() {
                    expected += likely * often * &stated[to * observations + observation];
                }
            }
            let exact = &expected * &hundred;
            let nearest = exact.round();
            let about =
                format!("action {} in state {}", named.actions.or_number(action), named.states.or_number(state));
            if exact.abs() > BigRational::from(BigInt::from(TICKS)) {
                large.push(Told {
                    title: format!("the expected reward of {} is {}, outside -1000 to 1000", about, text(&expected)),
                    marks: marks(&source.rewards, action, state),
                    notes: vec!["divide all rewards by one number, and multiply the totals by it".to_string()],
                });
            }
            let change = (&exact - &nearest).abs() / &hundred;
            if !change.is_zero() {
                uneven += 1;
                if parts.as_ref().map_or(true, |(other, ..)| change > *other) {
                    let became = shown(nearest.to_integer().to_i64().unwrap_or(0), 2);
                    parts = Some((change, about, text(&expected), became));
                }
            }
            ticks.push(nearest.to_integer().to_i64().unwrap_or(0));
        }
    }
    if !large.is_empty() {
        return Err(large);
    }
    match parts {
        Some((change, about, old, new)) if round => {
            let count = counted(uneven, "expected reward");
            let place = format!("{}: {} became {}", about, old, new);
            let note = format!("R: {} rounded to ticks; the largest change is {} ({})", count, text(&change), place);
            Ok((ticks, vec![note]))
        }
        Some((change, about, old, new)) => {
            let title = match uneven {
                1 => "1 expected reward is no whole hundredth".to_string(),
                count => format!("{} expected rewards are no whole hundredths", count),
            };
            let far = format!("the furthest is that of {}: {}, which is {} from {}", about, old, text(&change), new);
            let help = "help: --round takes the nearest hundredth; or multiply all rewards by one number".to_string();
            Err(vec![Told { title, marks: Vec::new(), notes: vec![far, help] }])
        }
        None => Ok((ticks, Vec::new())),
    }
}

/// A row over its total.
fn normal(row: &[BigRational]) -> Vec<BigRational> {
    let total: BigRational = row.iter().sum();
    row.iter().map(|number| number / &total).collect()
}

/// Where the rewards of an action and a state come from.
fn marks(table: &Table<BigRational>, action: usize, state: usize) -> Vec<Mark> {
    table.statements(action, state).into_iter().rev().map(|span| Mark::new(span, "rewards come from here")).collect()
}
