//! Reading a model file the obvious way: all words first, then the grammar over them.

use crate::limits::*;
use crate::whole_file::{Read, Zeros};
use biidhaqun::slices::{Refusal, Tables};

/// The words of a file with the bytes before each.
fn words(file: &[u8]) -> Vec<(usize, &[u8])> {
    let mut words = Vec::new();
    let mut start = None;
    let mut comment = false;
    for (at, byte) in file.iter().enumerate() {
        if comment {
            comment = *byte != b'\n';
            continue;
        }
        if let b' ' | b'\t' | b'\r' | b'\n' | b':' | b'#' = byte {
            if let Some(start) = start.take() {
                words.push((start, &file[start..at]));
            }
            match byte {
                b':' => words.push((at, &file[at..at + 1])),
                b'#' => comment = true,
                _ => {}
            }
        } else if start.is_none() {
            start = Some(at);
        }
    }
    if let Some(start) = start {
        words.push((start, &file[start..]));
    }
    words
}

/// Whether all of a text is digits.
fn digits(text: &str) -> bool {
    text.bytes().all(|byte| byte.is_ascii_digit())
}

/// A count or an index.
fn index(word: &[u8]) -> Option<i64> {
    let text = std::str::from_utf8(word).ok()?;
    if text.len() > 2 || !digits(text) {
        return None;
    }
    text.parse().ok()
}

/// The value of a whole part, a point and decimals, and an exponent, in units of the last possible decimal.
fn amount(word: &[u8], most_digits: usize, most_decimals: usize) -> Option<i64> {
    let text = std::str::from_utf8(word).ok()?;
    let (number, exponent) = match text.split_once('e') {
        Some((number, exponent)) => (number, power(exponent)?),
        None => (text, 0),
    };
    let (whole, decimals) = number.split_once('.').unwrap_or((number, ""));
    if whole.is_empty() && decimals.is_empty() || whole.len() > most_digits || decimals.len() > most_decimals {
        return None;
    }
    if !digits(whole) || !digits(decimals) {
        return None;
    }
    let units: i64 = format!("{}{:0<width$}", whole, decimals, width = most_decimals).parse().ok()?;
    let scale = 10_i64.pow(exponent.unsigned_abs());
    if exponent >= 0 {
        return Some(units * scale);
    }
    (units % scale == 0).then_some(units / scale)
}

/// What follows an `e`.
fn power(text: &str) -> Option<i32> {
    let (sign, digit) = match text.strip_prefix('-') {
        Some(digit) => (-1, digit),
        None => (1, text),
    };
    match digit {
        "0" | "1" | "2" | "3" => digit.parse::<i32>().ok().map(|power| sign * power),
        _ => None,
    }
}

struct Reader<'a> {
    words: Vec<(usize, &'a [u8])>,
    next: usize,
    length: usize,
    /// Whether rewards go by outcome.
    outcomes: bool,
}

impl<'a> Reader<'a> {
    fn word(&mut self) -> Answer<(usize, &'a [u8])> {
        let word = self.words.get(self.next).copied().ok_or(Refusal { number: 2, place: self.length })?;
        self.next += 1;
        Ok(word)
    }

    fn key(&mut self, key: &str) -> Answer<()> {
        let (place, word) = self.word()?;
        if word == key.as_bytes() {
            Ok(())
        } else {
            refused(2, place)
        }
    }

    fn keys(&mut self, keys: &[&str]) -> Answer<()> {
        keys.iter().try_for_each(|key| self.key(key))
    }

    fn count(&mut self, most: usize) -> Answer<usize> {
        let (place, word) = self.word()?;
        match index(word) {
            None => refused(2, place),
            Some(count) if (1..=most as i64).contains(&count) => Ok(count as usize),
            Some(_) => refused(3, place),
        }
    }

    /// The indices that a word stands for.
    fn indices(&mut self, count: usize) -> Answer<std::ops::Range<usize>> {
        let (place, word) = self.word()?;
        if word == b"*" {
            return Ok(0..count);
        }
        match index(word) {
            None => refused(2, place),
            Some(index) if index < count as i64 => Ok(index as usize..index as usize + 1),
            Some(_) => refused(3, place),
        }
    }

    /// A number up to 1.
    fn share(&mut self, decimals: usize) -> Answer<i64> {
        let (place, word) = self.word()?;
        match amount(word, 1, decimals) {
            None => refused(2, place),
            Some(share) if share <= 10_i64.pow(decimals as u32) => Ok(share),
            Some(_) => refused(3, place),
        }
    }

    fn reward(&mut self) -> Answer<i64> {
        let (place, word) = self.word()?;
        let (sign, digits) = match word.strip_prefix(b"-") {
            Some(digits) => (-1, digits),
            None => (1, word),
        };
        match amount(digits, 4, 2) {
            None => refused(2, place),
            Some(reward) if reward <= REWARD => Ok(sign * reward),
            Some(_) => refused(3, place),
        }
    }

    /// A colon, indices and one number, or a number for each index.
    fn shares(&mut self, count: usize) -> Answer<Vec<(usize, i64)>> {
        let single = self.words.get(self.next).map_or(false, |(_, word)| *word == b":");
        if single {
            self.next += 1;
            let indices = self.indices(count)?;
            let share = self.share(3)?;
            return Ok(indices.map(|index| (index, share)).collect());
        }
        (0..count).map(|index| Ok((index, self.share(3)?))).collect()
    }

    fn statement(&mut self, tables: &mut Tables) -> Answer<()> {
        let (n, k) = (tables.states, tables.observations);
        let (place, kind) = self.word()?;
        if !matches!(kind, b"T" | b"O" | b"R") {
            return refused(2, place);
        }
        self.key(":")?;
        let actions = self.indices(tables.actions)?;
        self.key(":")?;
        let states = self.indices(n)?;
        let (width, row) = match kind {
            b"T" => (n, self.shares(n)?),
            b"O" => (k, self.shares(k)?),
            _ if self.outcomes => {
                self.key(":")?;
                let reached = self.indices(n)?;
                self.key(":")?;
                let seen = self.indices(k)?;
                let reward = self.reward()?;
                let cells = reached.flat_map(|s2| seen.clone().map(move |o| (s2 * k + o, reward)));
                (n * k, cells.collect())
            }
            _ => {
                self.keys(&[":", "*", ":", "*"])?;
                (1, vec![(0, self.reward()?)])
            }
        };
        for a in actions {
            for s in states.clone() {
                for &(index, number) in &row {
                    let cell = (a * n + s) * width + index;
                    match kind {
                        b"T" => tables.transition[cell] = number as u16,
                        b"O" => tables.observation[cell] = number as u16,
                        _ => tables.reward[cell] = number,
                    }
                }
            }
        }
        Ok(())
    }
}

/// Writes the model file with the rewards that are expected.
pub fn write(read: &Read, output: &mut [u8]) -> Answer<usize> {
    let text = text(read, &expected(&read.tables)?);
    output[..text.len()].copy_from_slice(text.as_bytes());
    Ok(text.len())
}

/// The expected rewards by action and state; or 26.
fn expected(tables: &Tables) -> Answer<Vec<i64>> {
    let Tables { states: n, actions: m, observations: k, .. } = *tables;
    let mut rewards = Vec::new();
    for a in 0..m {
        for s in 0..n {
            let mut sum = 0;
            for s2 in 0..n {
                for o in 0..k {
                    let t = i64::from(tables.transition[(a * n + s) * n + s2]);
                    let seen = i64::from(tables.observation[(a * n + s2) * k + o]);
                    sum += t * seen * tables.reward[((a * n + s) * n + s2) * k + o];
                }
            }
            if sum % (THOUSAND * THOUSAND) != 0 {
                return refused(26, a * n + s);
            }
            rewards.push(sum / (THOUSAND * THOUSAND));
        }
    }
    Ok(rewards)
}

/// The model file.
fn text(read: &Read, rewards: &[i64]) -> String {
    let Tables { states: n, actions, observations, discount, .. } = read.tables;
    let thousandths = |cell: u64| format!("{}.{:03}", cell / 1_000, cell % 1_000);
    let row = |cells: &[u16]| cells.iter().map(|&cell| format!(" {}", thousandths(cell.into()))).collect::<String>();
    let mut text = format!("discount: {}\nvalues: reward\nstates: {}\n", thousandths(discount), n);
    text += &format!("actions: {}\nobservations: {}\nstart:", actions, observations);
    for number in &read.start {
        text += &format!(" {}.{:02}", number / 100, number % 100);
    }
    text += "\n";
    for (at, cells) in read.tables.transition.chunks(n).enumerate() {
        text += &format!("T: {} : {}{}\n", at / n, at % n, row(cells));
    }
    for (at, cells) in read.tables.observation.chunks(observations).enumerate() {
        text += &format!("O: {} : {}{}\n", at / n, at % n, row(cells));
    }
    for (at, &reward) in rewards.iter().enumerate() {
        let (minus, size) = (if reward < 0 { "-" } else { "" }, reward.abs());
        text += &format!("R: {} : {} : * : * {}{}.{:02}\n", at / n, at % n, minus, size / 100, size % 100);
    }
    text
}

/// Reads a file, with rewards by action and state or by outcome, into tables that begin as zeros.
pub fn read(file: &[u8], outcomes: bool, zeros: &Zeros) -> Answer<Read> {
    if file.len() > FILE_BYTES {
        return refused(1, 0);
    }
    let mut reader = Reader { words: words(file), next: 0, length: file.len(), outcomes };
    reader.keys(&["discount", ":"])?;
    let discount = reader.share(3)?;
    reader.keys(&["values", ":", "reward", "states", ":"])?;
    let states = reader.count(STATES)?;
    reader.keys(&["actions", ":"])?;
    let actions = reader.count(ACTIONS)?;
    reader.keys(&["observations", ":"])?;
    let observations = reader.count(OBSERVATIONS)?;
    let mut tables = Tables { discount: discount as u64, ..zeros(states, actions, observations)? };
    reader.keys(&["start", ":"])?;
    let start = (0..states).map(|_| reader.share(2).map(|share| share as u16)).collect::<Answer<Vec<u16>>>()?;
    while reader.next < reader.words.len() {
        reader.statement(&mut tables)?;
    }
    let total = |cells: &[u16]| cells.iter().map(|&cell| i64::from(cell)).sum::<i64>();
    let wrong = |cells: &[u16], width: usize| cells.chunks(width).any(|row| total(row) != THOUSAND);
    if total(&start) != TOTAL {
        return refused(4, file.len());
    }
    if wrong(&tables.transition, states) {
        return refused(5, file.len());
    }
    if wrong(&tables.observation, observations) {
        return refused(6, file.len());
    }
    Ok(Read { tables, start })
}
