//! A fitted model as a model file, with comments that name what the numbers stand for.

use super::Fitted;
use crate::model_file::Counts;
use crate::names::Names;
use crate::numerals::shown;
use std::fmt::Write;

/// Rows of more numbers are written entry by entry where that is shorter: a file has at most 32,768 bytes.
const WIDE: usize = 16;

/// The model file. `name` is what it was imported from.
pub fn write(fitted: &Fitted, name: &str) -> String {
    let Counts { states, actions, observations } = fitted.counts;
    let named = &fitted.named;
    // A comment ends with its line, whatever the file is called.
    let mut text = format!("# Imported from {}.\n", name.replace(char::is_control, " "));
    text.push_str(&named.comments());
    for change in &fitted.changes {
        line(&mut text, format_args!("# {}", change));
    }
    line(&mut text, format_args!("discount: {}", shown(fitted.discount, 3)));
    line(&mut text, format_args!("values: reward"));
    line(&mut text, format_args!("states: {}\nactions: {}\nobservations: {}", states, actions, observations));
    line(&mut text, format_args!("start: {}", numbers(&fitted.start, 2)));
    for (key, rows) in [("T", &fitted.transitions), ("O", &fitted.observations)] {
        for (action, rows) in rows.chunks(states).enumerate() {
            heading(&mut text, key, action, &named.actions);
            statements(&mut text, rows, |text, state, row| {
                let whole = format!("{}: {} : {} {}\n", key, action, state, numbers(row, 3));
                let entry = |(index, &number): (usize, &i64)| match number {
                    0 => String::new(),
                    _ => format!("{}: {} : {} : {} {}\n", key, action, state, index, shown(number, 3)),
                };
                let entries: String = row.iter().enumerate().map(entry).collect();
                text.push_str(if row.len() > WIDE && entries.len() < whole.len() { &entries } else { &whole });
            });
        }
    }
    for (action, ticks) in fitted.rewards.chunks(states).enumerate() {
        if ticks.iter().any(|&ticks| ticks != 0) {
            heading(&mut text, "R", action, &named.actions);
            statements(&mut text, ticks, |text, state, &ticks| {
                if ticks != 0 {
                    line(text, format_args!("R: {} : {} : * : * {}", action, state, shown(ticks, 2)));
                }
            });
        }
    }
    text
}

fn line(text: &mut String, arguments: std::fmt::Arguments) {
    // Writing to a string does not fail.
    let _ = writeln!(text, "{}", arguments);
}

/// An empty line, and the action's name where it has one.
fn heading(text: &mut String, key: &str, action: usize, names: &Names) {
    match names.get(action) {
        Some(name) => line(text, format_args!("\n# {} of {}", key, name)),
        None => text.push('\n'),
    }
}

/// A statement for each state, or one with a star where all are alike.
fn statements<Row: PartialEq>(text: &mut String, rows: &[Row], mut one: impl FnMut(&mut String, &str, &Row)) {
    if rows.len() > 1 && rows.iter().all(|row| *row == rows[0]) {
        return one(text, "*", &rows[0]);
    }
    for (state, row) in rows.iter().enumerate() {
        one(text, &state.to_string(), row);
    }
}

fn numbers(row: &[i64], decimals: u32) -> String {
    let words: Vec<String> = row.iter().map(|&number| shown(number, decimals)).collect();
    words.join(" ")
}

#[cfg(test)]
mod tests {
    use crate::cassandra::{fit, read, write};
    use reference::Rules;

    #[test]
    fn sixty_four_states_of_which_each_stays() {
        let text = "discount: 0.95 values: reward states: 64 actions: 8 observations: 2 T: * identity O: * uniform R: 7 : 63 : * : * 5";
        let written = write(&fit(&read(text.as_bytes()).unwrap(), false).unwrap(), "a test");
        let tables = reference::read(written.as_bytes(), &Rules::default()).unwrap().tables;
        let stays = |a: usize, s: usize| tables.transitions[tables.transition_cell(a, s, s)] == 1_000;
        assert!((0..8).all(|a| (0..64).all(|s| stays(a, s))));
        assert_eq!(tables.rewards[tables.reward_cell(7, 63)], 500);
    }
}
