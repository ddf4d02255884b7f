//! Rewards that depend on what follows: document 02, Job 14.

use crate::exact::stored;
use crate::file::{read, read_outcomes, stated, Reading, FILE_BYTES};
use crate::model::{Tables, THOUSAND};
use crate::refusal::Refusal;
use crate::rules::{Rules, Trap};
use num_bigint::BigInt;
use std::cell::Cell;

/// At most so many states are written.
pub const WRITTEN_STATES: u64 = 16;

/// The model file that is written of a file whose rewards may depend on the state reached and on the observation, into an output
/// of so many bytes: with the same T, O, discount and start, and the expected reward of each action and state. Refused with 27
/// (an output of less than 32,768 bytes), 1 to 6, 25 (over 16 states) or 26 (an expected reward that is no whole number of ticks,
/// at action × n + state, first by action, then by state).
pub fn convert(file: &[u8], output: usize, rules: &Rules) -> Result<Vec<u8>, Refusal> {
    let enough = FILE_BYTES - usize::from(rules.has(Trap::OutputShorter));
    let room = if output < enough { Err(Refusal::at(27, 0)) } else { Ok(()) };
    match rules.trap {
        Some(Trap::TwentySevenLast) => {}
        Some(Trap::TwentySevenAfterOne) if file.len() > FILE_BYTES => {}
        _ => room?,
    }
    if rules.has(Trap::OutcomesRefused) {
        read(file, rules)?;
    }
    let (reading, outcomes) = match early(file, rules) {
        Some(refusal) => return Err(refusal),
        None => read_outcomes(file, rules)?,
    };
    let states = states_fit(&reading.tables, rules);
    let rewards = expected(&reading.tables, &outcomes, rules);
    if rules.has(Trap::TwentySixFirst) {
        rewards.as_ref().map_err(|&refusal| refusal)?;
    }
    states?;
    let rewards = rewards?;
    room?;
    Ok(text(&reading, &rewards, rules).into_bytes())
}

/// What the traps about 25 refuse a file by before its words, or its totals, are tested.
fn early(file: &[u8], rules: &Rules) -> Option<Refusal> {
    let wide = Cell::new(false);
    let counted = |tables: &Tables| {
        wide.set(states_fit(tables, rules).is_err());
        true
    };
    let read = stated(file, counted, true, rules);
    let totals = matches!(read, Err(Refusal { number: 4..=6, .. }));
    let found = rules.has(Trap::TwentyFiveAtCounts) || (rules.has(Trap::TwentyFiveBeforeSix) && totals);
    (wide.get() && found).then(|| Refusal::at(25, 0))
}

/// 25: at most 16 states.
fn states_fit(tables: &Tables, rules: &Rules) -> Result<(), Refusal> {
    let most = match rules.trap {
        Some(Trap::SeventeenWritten) => WRITTEN_STATES + 1,
        Some(Trap::FifteenWritten) => WRITTEN_STATES - 1,
        _ => WRITTEN_STATES,
    };
    if tables.states > most {
        Err(Refusal::at(25, 0))
    } else {
        Ok(())
    }
}

/// The expected rewards by action and state: the sum over s' and o of T × O × the reward, over 1,000,000; or 26.
fn expected(tables: &Tables, outcomes: &[i64], rules: &Rules) -> Result<Vec<i64>, Refusal> {
    let (n, m, k) = (tables.states as usize, tables.actions as usize, tables.observations as usize);
    let whole = BigInt::from(THOUSAND * THOUSAND);
    let mut rewards = vec![0; m * n];
    let mut wrong = Vec::new();
    for a in 0..m {
        for s in 0..n {
            let mut sum = BigInt::from(0);
            for s2 in 0..n {
                for o in 0..k {
                    let seen_at = if rules.has(Trap::ExpectedSightAtStateLeft) { s } else { s2 };
                    let seen = if rules.has(Trap::ExpectedFirstSight) { 0 } else { o };
                    let t = tables.transitions[tables.transition_cell(a, s, s2)];
                    let weight = BigInt::from(t * tables.sights[tables.sight_cell(a, seen_at, o)]);
                    let reward = outcomes[tables.outcome_cell(a, s, s2, seen)];
                    sum += match rules.trap {
                        Some(Trap::ExpectedUnweighed) => &whole * reward / (n * k),
                        _ => weight * reward,
                    };
                }
            }
            let rest = ((&sum % &whole) + &whole) % &whole;
            if rest != BigInt::from(0) && !rules.has(Trap::ExpectedRounded) {
                wrong.push((a, s));
            }
            rewards[a * n + s] = stored(&((sum - rest) / &whole));
        }
    }
    if rules.has(Trap::TwentySixByState) {
        wrong.sort_by_key(|&(a, s)| (s, a));
    }
    match wrong.first() {
        Some(&(a, s)) if rules.has(Trap::TwentySixPlace) => Err(Refusal::at_index(26, s * m + a)),
        Some(&(a, s)) => Err(Refusal::at_index(26, a * n + s)),
        None => Ok(rewards),
    }
}

/// The model file, line by line.
fn text(reading: &Reading, rewards: &[i64], rules: &Rules) -> String {
    let tables = &reading.tables;
    let (n, m, k) = (tables.states as usize, tables.actions as usize, tables.observations as usize);
    let numbers = |row: &[u64], decimals: usize| -> String {
        row.iter().map(|&number| format!(" {}", decimal(number, decimals, rules))).collect()
    };
    let mut lines = vec![
        format!("discount: {}", decimal(tables.discount, 3, rules)),
        "values: reward".to_string(),
        format!("states: {}", n),
        format!("actions: {}", m),
        format!("observations: {}", k),
        format!("start:{}", numbers(&reading.start, 2)),
    ];
    for (key, cells, width) in [("T", &tables.transitions, n), ("O", &tables.sights, k)] {
        for (at, row) in cells.chunks(width).enumerate() {
            lines.push(format!("{}: {} : {}{}", key, at / n, at % n, numbers(row, 3)));
        }
    }
    for (at, &ticks) in rewards.iter().enumerate() {
        let unsigned = rules.has(Trap::RewardsUnsigned) && ticks > -100;
        let sign = if ticks < 0 && !unsigned { "-" } else { "" };
        if ticks != 0 || !rules.has(Trap::ZerosLeftOut) {
            let reward = decimal(ticks.unsigned_abs(), 2, rules);
            lines.push(format!("R: {} : {} : * : * {}{}", at / n, at % n, sign, reward));
        }
    }
    lines.iter().map(|line| format!("{}\n", line)).collect()
}

/// A number counted in its last of so many decimals.
fn decimal(number: u64, decimals: usize, rules: &Rules) -> String {
    let unit = 10_u64.pow(decimals as u32);
    let text = format!("{}.{:0width$}", number / unit, number % unit, width = decimals);
    if rules.has(Trap::DecimalsCut) {
        return text.trim_end_matches('0').trim_end_matches('.').to_string();
    }
    text
}

#[cfg(test)]
mod tests {
    use super::*;
    use crate::DOCUMENT;

    /// Two states, an action and two observations: it stays or goes with equal chances, and is seen with 8 in 10 and 3 in 10.
    const HEADER: &str = "discount: 0.9 values: reward states: 2 actions: 1 observations: 2 start: 0.5 0.5 \
                          T: 0 : 0 0.5 0.5 T: 0 : 1 0 1 O: 0 : 0 0.8 0.2 O: 0 : 1 0.3 0.7 ";

    fn converted(rewards: &str) -> Result<String, (u8, u64)> {
        let file = format!("{}{}", HEADER, rewards);
        let written = convert(file.as_bytes(), FILE_BYTES, &DOCUMENT);
        written.map(|bytes| String::from_utf8(bytes).unwrap()).map_err(|refusal| (refusal.number, refusal.place))
    }

    #[test]
    fn every_byte() {
        let text = "discount: 0.900\nvalues: reward\nstates: 2\nactions: 1\nobservations: 2\nstart: 0.50 0.50\n\
                    T: 0 : 0 0.500 0.500\nT: 0 : 1 0.000 1.000\nO: 0 : 0 0.800 0.200\nO: 0 : 1 0.300 0.700\n\
                    R: 0 : 0 : * : * -1.00\nR: 0 : 1 : * : * -1.00\n";
        assert_eq!(converted("R: 0 : * : * : * -1"), Ok(text.to_string()));
    }

    /// The rewards at the end of what is written.
    fn rewards(stated: &str) -> Result<[String; 2], (u8, u64)> {
        let text = converted(stated)?;
        let mut last = text.lines().rev().map(|line| line.rsplit(' ').next().unwrap().to_string());
        let (second, first) = (last.next().unwrap(), last.next().unwrap());
        Ok([first, second])
    }

    #[test]
    fn expected_rewards() {
        let both = |first: &str, second: &str| Ok([first.to_string(), second.to_string()]);
        // Unstated ones are 0: half of 8 in 10 of -5, and nothing from state 1.
        assert_eq!(rewards("R: 0 : 0 : 0 : 0 -5"), both("-2.00", "0.00"));
        assert_eq!(rewards("R: * : * : 1 : 1 10"), both("3.50", "7.00"));
        // Later ones supersede outcome by outcome.
        assert_eq!(rewards("R: 0 : * : * : * 1 R: 0 : 0 : 0 : 0 -0.25"), both("0.50", "1.00"));
        assert_eq!(rewards("R: 0 : 0 : 0 : 0 -0.25 R: 0 : * : * : * 1"), both("1.00", "1.00"));
        // The last T and O count, wherever they stand.
        assert_eq!(rewards("R: 0 : * : 0 : * 1 T: 0 : * 1 0"), both("1.00", "1.00"));
        assert_eq!(rewards("R: 0 : 0 : 0 : 0 -0.05"), both("-0.02", "0.00"));
    }

    #[test]
    fn what_is_refused() {
        // 4 in 10 of a tick, from either state.
        assert_eq!(rewards("R: 0 : 0 : 0 : 0 0.01"), Err((26, 0)));
        assert_eq!(rewards("R: 0 : 1 : 1 : 0 0.01"), Err((26, 1)));
        assert_eq!(rewards("R: 0 : 0 : 0 : 2 1"), Err((3, HEADER.len() as u64 + 15)));
        assert_eq!(rewards("R: 0 : 0 : 2 : 0 1"), Err((3, HEADER.len() as u64 + 11)));
        assert_eq!(rewards("R: 0 : 0 : 0 1"), Err((2, HEADER.len() as u64 + 13)));
        assert_eq!(rewards("R: 0 : 0 1"), Err((2, HEADER.len() as u64 + 9)));
        assert_eq!(rewards("T: 0 : 0 1 1 R: 0 : 0 : 0 : 0 0.01"), Err((5, HEADER.len() as u64 + 34)));
        let short = convert(b"x", FILE_BYTES - 1, &DOCUMENT);
        assert_eq!(short, Err(Refusal::at(27, 0)));
        assert_eq!(convert(&[b' '; FILE_BYTES + 1], FILE_BYTES, &DOCUMENT), Err(Refusal::at(1, 0)));
    }

    #[test]
    fn sixteen_states_are_written() {
        let file = |states: usize, row: &str| {
            let start = "0 ".repeat(states - 1);
            let counts = format!("states: {} actions: 1 observations: 1 start: 1 {}", states, start);
            format!("discount: 1 values: reward {} T: * : * : 0 {} O: * : * 1 R: 0 : 0 : 0 : 0 0.01", counts, row)
        };
        let ended = |states: usize, row: &str| {
            let written = convert(file(states, row).as_bytes(), FILE_BYTES, &DOCUMENT);
            written.map(|_| ()).map_err(|refusal| (refusal.number, refusal.place))
        };
        assert_eq!((ended(16, "1"), ended(17, "1"), ended(64, "1")), (Ok(()), Err((25, 0)), Err((25, 0))));
        assert_eq!(ended(17, "0.5"), Err((5, file(17, "0.5").len() as u64)));
        assert_eq!(ended(65, "1"), Err((3, 35)));
    }
}
