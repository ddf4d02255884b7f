//! The program `ladder`.

use crate::build::{build, Points};
use crate::certifier::{offer, open};
use crate::file::read;
use crate::refusal::Refusal;
use crate::rules::Rules;
use crate::totals::totals;

/// What the program prints for a model file: for levels 1 to 3, built upon the one point that the start numbers make and
/// then offered, the level, lower total, upper total, gap at that point, and action; or the file's refusal.
pub fn ladder(file: &[u8], rules: &Rules) -> String {
    let mut printed = String::new();
    if let Err(refusal) = climb(file, rules, &mut printed) {
        printed.push_str(&format!("{}\n", refusal));
    }
    printed
}

/// Prints the three levels. By the document only the file can be refused; a trap may refuse what it built itself.
fn climb(file: &[u8], rules: &Rules, printed: &mut String) -> Result<(), Refusal> {
    let reading = read(file, rules)?;
    let mut certifier = open(&reading.tables, rules)?;
    let points = Points::one(&reading.start);
    for _ in 0..3 {
        let level = build(&certifier, &points, rules)?;
        offer(&mut certifier, &level, rules)?;
        let at = totals(&certifier, &reading.start, rules)?;
        printed.push_str(&format!("{} {} {} {} {}\n", certifier.level, at.lower, at.upper, at.gap, at.action));
    }
    Ok(())
}
