//! Reading a model file as well as we can: word by word, digits as they come, and nothing allocated but the tables.

use crate::limits::*;
use crate::whole_file::{Read, Zeros};
use biidhaqun::slices::{Refusal, Tables};

/// The file and the offset that was reached.
struct Reader<'a> {
    file: &'a [u8],
    offset: usize,
}

/// A word and the bytes before it.
#[derive(Clone, Copy)]
struct Word<'a> {
    bytes: &'a [u8],
    place: usize,
}

impl Word<'_> {
    fn refused(&self, number: u64) -> Refusal {
        Refusal { number, place: self.place }
    }

    /// Form, then limit.
    fn within(&self, value: Option<i64>, least: i64, most: i64) -> Answer<i64> {
        match value {
            None => Err(self.refused(2)),
            Some(value) if (least..=most).contains(&value) => Ok(value),
            Some(_) => Err(self.refused(3)),
        }
    }
}

/// A count or an index.
fn index(bytes: &[u8]) -> Option<i64> {
    let digit = |byte: &u8| byte.is_ascii_digit().then(|| i64::from(byte - b'0'));
    match bytes {
        [one] => digit(one),
        [ten, one] => Some(10 * digit(ten)? + digit(one)?),
        _ => None,
    }
}

/// The value of a whole part, a point and decimals, and an exponent, in units of the last possible decimal.
fn amount(bytes: &[u8], most_digits: usize, most_decimals: usize) -> Option<i64> {
    let mut value = 0;
    let mut digits = 0;
    let mut decimals = None;
    let mut exponent = None;
    for (at, &byte) in bytes.iter().enumerate() {
        match (byte, &mut decimals) {
            (b'0'..=b'9', None) if digits < most_digits => digits += 1,
            (b'0'..=b'9', Some(decimals)) if *decimals < most_decimals => *decimals += 1,
            (b'.', None) => {
                decimals = Some(0);
                continue;
            }
            (b'e', _) => {
                exponent = Some(&bytes[at + 1..]);
                break;
            }
            _ => return None,
        }
        value = value * 10 + i64::from(byte - b'0');
    }
    let decimals = decimals.unwrap_or(0);
    if digits + decimals == 0 {
        return None;
    }
    for _ in decimals..most_decimals {
        value *= 10;
    }
    match exponent {
        Some(exponent) => scaled(value, exponent),
        None => Some(value),
    }
}

/// The value by what follows its `e`.
fn scaled(value: i64, exponent: &[u8]) -> Option<i64> {
    let (down, digit) = match exponent {
        [digit] => (false, digit),
        [b'-', digit] => (true, digit),
        _ => return None,
    };
    let scale = match digit {
        b'0'..=b'3' => 10_i64.pow(u32::from(digit - b'0')),
        _ => return None,
    };
    if !down {
        return Some(value * scale);
    }
    (value % scale == 0).then_some(value / scale)
}

impl<'a> Reader<'a> {
    /// The next word, if any is left.
    fn next(&mut self) -> Option<Word<'a>> {
        let mut rest = &self.file[self.offset..];
        loop {
            match rest.first()? {
                b' ' | b'\t' | b'\r' | b'\n' => rest = &rest[1..],
                b'#' => rest = &rest[rest.iter().position(|&byte| byte == b'\n')?..],
                _ => break,
            }
        }
        let ends = |byte: &u8| matches!(byte, b' ' | b'\t' | b'\r' | b'\n' | b':' | b'#');
        let length = rest.iter().position(ends).unwrap_or(rest.len()).max(1);
        let place = self.file.len() - rest.len();
        self.offset = place + length;
        Some(Word { bytes: &rest[..length], place })
    }

    fn word(&mut self) -> Answer<Word<'a>> {
        self.next().ok_or(Refusal { number: 2, place: self.file.len() })
    }

    fn key(&mut self, key: &[u8]) -> Answer<()> {
        let word = self.word()?;
        if word.bytes == key {
            Ok(())
        } else {
            Err(word.refused(2))
        }
    }

    fn header(&mut self, key: &[u8]) -> Answer<()> {
        self.key(key)?;
        self.key(b":")
    }

    fn count(&mut self, most: usize) -> Answer<usize> {
        let word = self.word()?;
        word.within(index(word.bytes), 1, most as i64).map(|count| count as usize)
    }

    /// The first of the indices that a word stands for, and the one after the last.
    fn indices(&mut self, count: usize) -> Answer<(usize, usize)> {
        self.key(b":")?;
        let word = self.word()?;
        if word.bytes == b"*" {
            return Ok((0, count));
        }
        let index = word.within(index(word.bytes), 0, count as i64 - 1)? as usize;
        Ok((index, index + 1))
    }

    /// Rows of T or of O: a colon, indices and one number, or a number for each cell.
    fn rows(&mut self, cells: &mut [u16], n: usize, width: usize, actions: usize) -> Answer<()> {
        let (first_action, after_action) = self.indices(actions)?;
        let (first_state, after_state) = self.indices(n)?;
        let mut row = [0; STATES];
        let before = self.offset;
        let word = self.word()?;
        let (first, after) = if word.bytes == b":" {
            self.offset = before;
            let (first, after) = self.indices(width)?;
            row[first..after].fill(self.share()?);
            (first, after)
        } else {
            row[0] = word.within(amount(word.bytes, 1, 3), 0, THOUSAND)? as u16;
            for cell in &mut row[1..width] {
                *cell = self.share()?;
            }
            (0, width)
        };
        for a in first_action..after_action {
            for s in first_state..after_state {
                let at = (a * n + s) * width;
                cells[at + first..at + after].copy_from_slice(&row[first..after]);
            }
        }
        Ok(())
    }

    fn share(&mut self) -> Answer<u16> {
        let word = self.word()?;
        word.within(amount(word.bytes, 1, 3), 0, THOUSAND).map(|share| share as u16)
    }

    fn rewards(&mut self, cells: &mut [i64], n: usize, actions: usize) -> Answer<()> {
        let (first_action, after_action) = self.indices(actions)?;
        let (first_state, after_state) = self.indices(n)?;
        for key in [b":", b"*", b":", b"*"] {
            self.key(key)?;
        }
        let reward = self.reward()?;
        for a in first_action..after_action {
            cells[a * n + first_state..a * n + after_state].fill(reward);
        }
        Ok(())
    }

    /// Rewards by outcome.
    fn outcomes(&mut self, cells: &mut [i64], n: usize, k: usize, actions: usize) -> Answer<()> {
        let (first_action, after_action) = self.indices(actions)?;
        let (first_state, after_state) = self.indices(n)?;
        let (first_reached, after_reached) = self.indices(n)?;
        let (first_seen, after_seen) = self.indices(k)?;
        let reward = self.reward()?;
        for a in first_action..after_action {
            for s in first_state..after_state {
                let row = (a * n + s) * n;
                for cells in cells[(row + first_reached) * k..(row + after_reached) * k].chunks_exact_mut(k) {
                    cells[first_seen..after_seen].fill(reward);
                }
            }
        }
        Ok(())
    }

    fn reward(&mut self) -> Answer<i64> {
        let word = self.word()?;
        match word.bytes.strip_prefix(b"-") {
            Some(digits) => Ok(-word.within(amount(digits, 4, 2), 0, REWARD)?),
            None => word.within(amount(word.bytes, 4, 2), 0, REWARD),
        }
    }
}

/// Writes the model file with the rewards that are expected: each partial sum is over the observations of one state reached, and
/// the text goes straight to the output.
pub fn write(read: &Read, output: &mut [u8]) -> Answer<usize> {
    let tables = &read.tables;
    let Tables { states: n, observations: k, .. } = *tables;
    let mut rewards = [0; ACTIONS * WRITTEN_STATES];
    for (row, (reached, outcomes)) in
        tables.transition.chunks_exact(n).zip(tables.reward.chunks_exact(n * k)).enumerate()
    {
        let seen = tables.observation[row / n * n * k..].chunks_exact(k).zip(outcomes.chunks_exact(k));
        let sum: i64 = reached
            .iter()
            .zip(seen)
            .filter(|(&t, _)| t > 0)
            .map(|(&t, (seen, rewards))| {
                i64::from(t) * seen.iter().zip(rewards).map(|(&o, r)| i64::from(o) * r).sum::<i64>()
            })
            .sum();
        if sum % (THOUSAND * THOUSAND) != 0 {
            return refused(26, row);
        }
        rewards[row] = sum / (THOUSAND * THOUSAND);
    }
    Ok(Writer { output, length: 0 }.file(read, &rewards))
}

/// An output and the bytes that were written.
struct Writer<'a> {
    output: &'a mut [u8],
    length: usize,
}

impl Writer<'_> {
    fn put(&mut self, bytes: &[u8]) {
        self.output[self.length..self.length + bytes.len()].copy_from_slice(bytes);
        self.length += bytes.len();
    }

    /// A whole number, with so many digits at least.
    fn whole(&mut self, number: u64, digits: usize) {
        let mut reversed = [b'0'; 20];
        let (mut rest, mut count) = (number, 0);
        while rest > 0 {
            reversed[count] += (rest % 10) as u8;
            rest /= 10;
            count += 1;
        }
        let count = count.max(digits);
        reversed[..count].reverse();
        self.put(&reversed[..count]);
    }

    /// A number counted in its last of so many decimals.
    fn decimal(&mut self, number: u64, decimals: usize) {
        let unit = 10_u64.pow(decimals as u32);
        self.whole(number / unit, 1);
        self.put(b".");
        self.whole(number % unit, decimals);
    }

    fn opening(&mut self, key: &[u8], row: usize, n: usize) {
        self.put(key);
        self.put(b": ");
        self.whole((row / n) as u64, 1);
        self.put(b" : ");
        self.whole((row % n) as u64, 1);
    }

    fn rows(&mut self, key: &[u8], cells: &[u16], width: usize, n: usize) {
        for (row, cells) in cells.chunks_exact(width).enumerate() {
            self.opening(key, row, n);
            for &cell in cells {
                self.put(b" ");
                self.decimal(cell.into(), 3);
            }
            self.put(b"\n");
        }
    }

    /// All of a file; its length.
    fn file(mut self, read: &Read, rewards: &[i64]) -> usize {
        let Tables { states: n, actions: m, observations: k, discount, .. } = read.tables;
        self.put(b"discount: ");
        self.decimal(discount, 3);
        for (key, count) in [(&b"\nvalues: reward\nstates: "[..], n), (b"\nactions: ", m), (b"\nobservations: ", k)] {
            self.put(key);
            self.whole(count as u64, 1);
        }
        self.put(b"\nstart:");
        for &number in &read.start {
            self.put(b" ");
            self.decimal(number.into(), 2);
        }
        self.put(b"\n");
        self.rows(b"T", &read.tables.transition, n, n);
        self.rows(b"O", &read.tables.observation, k, n);
        for (row, reward) in rewards[..m * n].iter().enumerate() {
            self.opening(b"R", row, n);
            self.put(if *reward < 0 { b" : * : * -" } else { b" : * : * " });
            self.decimal(reward.unsigned_abs(), 2);
            self.put(b"\n");
        }
        self.length
    }
}

/// Reads a file, with rewards by action and state or by outcome, into tables that begin as zeros.
pub fn read(file: &[u8], outcomes: bool, zeros: &Zeros) -> Answer<Read> {
    if file.len() > FILE_BYTES {
        return refused(1, 0);
    }
    let mut reader = Reader { file, offset: 0 };
    reader.header(b"discount")?;
    let discount = reader.share()?;
    reader.header(b"values")?;
    reader.key(b"reward")?;
    reader.header(b"states")?;
    let states = reader.count(STATES)?;
    reader.header(b"actions")?;
    let actions = reader.count(ACTIONS)?;
    reader.header(b"observations")?;
    let observations = reader.count(OBSERVATIONS)?;
    let mut tables = Tables { discount: discount.into(), ..zeros(states, actions, observations)? };
    reader.header(b"start")?;
    let mut start = vec![0; states];
    for number in &mut start {
        let word = reader.word()?;
        *number = word.within(amount(word.bytes, 1, 2), 0, TOTAL)? as u16;
    }
    while let Some(word) = reader.next() {
        match word.bytes {
            b"T" => reader.rows(&mut tables.transition, states, states, actions)?,
            b"O" => reader.rows(&mut tables.observation, states, observations, actions)?,
            b"R" if outcomes => reader.outcomes(&mut tables.reward, states, observations, actions)?,
            b"R" => reader.rewards(&mut tables.reward, states, actions)?,
            _ => return Err(word.refused(2)),
        }
    }
    let total = |cells: &[u16]| cells.iter().map(|&cell| i64::from(cell)).sum::<i64>();
    let wrong = |cells: &[u16], width: usize| cells.chunks_exact(width).any(|row| total(row) != THOUSAND);
    let tests = [
        (4, total(&start) != TOTAL),
        (5, wrong(&tables.transition, states)),
        (6, wrong(&tables.observation, observations)),
    ];
    match tests.iter().find(|(_, wrong)| *wrong) {
        Some(&(number, _)) => refused(number, file.len()),
        None => Ok(Read { tables, start }),
    }
}
