//! Numbers and indices as a file may print them.

use crate::rng::Rng;

/// An index as one or two digits.
pub(super) fn index(rng: &mut Rng, index: usize) -> String {
    if rng.once_in(4) {
        format!("{:02}", index)
    } else {
        index.to_string()
    }
}

/// An index below the count, or a star for all of them.
pub(super) fn some_index(rng: &mut Rng, count: usize) -> (Vec<usize>, String) {
    if rng.once_in(3) {
        ((0..count).collect(), "*".to_string())
    } else {
        let chosen = rng.index(count);
        (vec![chosen], index(rng, chosen))
    }
}

/// A number counted in its last of so many decimals; zeros at its end may be left out.
fn decimal(rng: &mut Rng, value: u64, decimals: usize) -> String {
    let unit = 10_u64.pow(decimals as u32);
    let mut text = format!("{}.{:0width$}", value / unit, value % unit, width = decimals);
    let least = text.find('.').map_or(0, |point| point + 1 + usize::from(rng.once_in(2)));
    while !rng.once_in(5) && text.ends_with('0') && text.len() > least {
        text.pop();
    }
    text.trim_end_matches('.').to_string()
}

/// The same in any form, with so many digits before the point: a part may be missing, and an exponent follow.
pub(super) fn typed(rng: &mut Rng, value: u64, digits: usize, decimals: usize) -> String {
    if !rng.once_in(4) {
        return decimal(rng, value, decimals);
    }
    let (power, minus) = (rng.index(4) as u32, rng.once_in(2));
    let scale = 10_u64.pow(power);
    let scaled = if minus { value * scale } else { value / scale };
    let fits = scaled < 10_u64.pow((digits + decimals) as u32) && (minus || value % scale == 0);
    let (number, exponent) = match (fits && rng.once_in(2), minus) {
        (true, true) => (scaled, format!("e-{}", power)),
        (true, false) => (scaled, format!("e{}", power)),
        _ => (value, String::new()),
    };
    let mut text = decimal(rng, number, decimals);
    if !text.contains('.') && rng.once_in(2) {
        text.push('.');
    } else if text.starts_with("0.") && rng.once_in(2) {
        text.remove(0);
    }
    text + &exponent
}

/// A reward in ticks, with a minus also for 0, and up to four digits.
pub(super) fn reward_text(rng: &mut Rng, ticks: i64) -> String {
    let minus = if ticks < 0 || (ticks == 0 && rng.once_in(2)) { "-" } else { "" };
    let text = typed(rng, ticks.unsigned_abs(), 4, 2);
    let digits = text.find(['.', 'e']).unwrap_or(text.len());
    let zeros = if digits < 4 && rng.once_in(5) { 4 - digits } else { 0 };
    format!("{}{}{}", minus, "0".repeat(zeros), text)
}
