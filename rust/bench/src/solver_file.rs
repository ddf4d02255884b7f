//! A solver's two files, read and made into a level by a form's own backups.

use crate::limits::*;
use biidhaqun::slices::Level;

/// Digits of actions, of nodes, and of decimals before and behind the point.
const ACTION: usize = 2;
const NODE: usize = 3;
const WHOLE: usize = 6;
const DECIMALS: usize = 12;

/// What the files say: by vector its action, its decimals in ticks, and its next nodes, none for a hyphen.
pub struct Files {
    actions: Vec<u8>,
    ticks: Vec<i64>,
    next: Vec<Option<u16>>,
}

/// 1.
pub fn lengths(alpha: &[u8], graph: &[u8]) -> Answer<()> {
    if alpha.len() > SOLVER_BYTES || graph.len() > SOLVER_BYTES {
        return refused(1, 0);
    }
    Ok(())
}

/// 19 and 20.
pub fn read(alpha: &[u8], graph: &[u8], n: usize, k: usize) -> Answer<Files> {
    let mut files = Files { actions: Vec::new(), ticks: Vec::new(), next: Vec::new() };
    let mut words = Words { file: alpha, at: 0 };
    while let Some(word) = words.next() {
        files.actions.push(fitting(word, |word| digits(word, ACTION))? as u8);
        for _ in 0..n {
            files.ticks.push(words.value(decimal)?);
        }
    }
    let mut words = Words { file: graph, at: 0 };
    let mut actions = Vec::new();
    while let Some(word) = words.next() {
        let number = actions.len() as i64;
        fitting(word, |word| digits(word, NODE).filter(|&node| node == number))?;
        actions.push(words.value(|word| digits(word, ACTION))? as u8);
        for _ in 0..k {
            let next = |word: &[u8]| if word == b"-" { Some(None) } else { digits(word, NODE).map(Some) };
            files.next.push(words.value(next)?.map(|node| node as u16));
        }
    }
    if files.actions != actions {
        return refused(20, 0);
    }
    Ok(files)
}

/// 8, 9, 10, 21, 11 and 12, and the level: whether a vector `loses` a state, its entries by `backups`, which writes those of an
/// action and choices over K, its corners and values by `least`.
pub fn adopt(
    (model, number, below): (&Model, usize, usize),
    files: &Files,
    (count, points): Weighed,
    level: &mut Level,
    loses: impl Fn(usize, &[u16]) -> bool,
    backups: impl Fn(usize, &[u16], &mut [i64]),
    least: impl Fn(&[u32]) -> i64,
) -> Answer<usize> {
    let (n, k) = (model.n, model.k);
    let vectors = files.actions.len();
    if number == LEVELS {
        return refused(8, 0);
    }
    let fits = (1..=VECTORS).contains(&vectors) && count <= BUILT_POINTS && points.len() >= count * n;
    if !fits || !has_room(level, n, k, vectors, count) {
        return refused(9, 0);
    }
    let chosen = |next: &Option<u16>| match next {
        Some(next) if usize::from(*next) < below => Some(*next),
        None if number == 0 => Some(0),
        _ => None,
    };
    let named = |(&action, next): (&u8, &[Option<u16>])| {
        let choices = next.iter().map(chosen).collect::<Option<Vec<u16>>>()?;
        Some((usize::from(action), choices)).filter(|&(action, _)| action < model.m)
    };
    let named: Vec<Option<(usize, Vec<u16>)>> = files.actions.iter().zip(files.next.chunks(k)).map(named).collect();
    refuse(10, named.iter().position(Option::is_none))?;
    refuse(21, named.iter().flatten().position(|(action, choices)| loses(*action, choices)))?;
    let mut entries = vec![0; vectors * n];
    for ((action, choices), row) in named.iter().flatten().zip(entries.chunks_mut(n)) {
        backups(*action, choices, row);
    }
    for (entry, ticks) in entries.iter_mut().zip(&files.ticks) {
        *entry = (*entry).min(*ticks);
    }
    let lowest = -REWARD * (number as i64 + 1);
    refuse(11, entries.chunks(n).position(|row| row.iter().any(|&entry| entry < lowest)))?;
    let totals = |p: &[u32]| p.iter().map(|&weight| i64::from(weight)).sum::<i64>();
    refuse(12, points[..count * n].chunks(n).position(|p| !(1..=TOTAL).contains(&totals(p))))?;
    for (v, (action, choices)) in named.iter().flatten().enumerate() {
        level.actions[v] = *action as u8;
        level.choices[v * k..(v + 1) * k].copy_from_slice(choices);
    }
    level.masks[..vectors].fill(full_mask(n));
    level.entries[..vectors * n].copy_from_slice(&entries);
    for s in 0..n {
        let mut corner = [0; STATES];
        corner[s] = 1;
        level.corners[s] = least(&corner[..n]);
    }
    for (value, p) in level.values.iter_mut().zip(points[..count * n].chunks(n)) {
        *value = least(p);
    }
    Ok(vectors)
}

/// The words of a file, each with the bytes before it.
struct Words<'a> {
    file: &'a [u8],
    at: usize,
}

impl<'a> Words<'a> {
    fn next(&mut self) -> Option<(usize, &'a [u8])> {
        let parts = |byte: u8| matches!(byte, b' ' | b'\t' | b'\r' | b'\n');
        while let Some(&byte) = self.file.get(self.at) {
            match byte {
                b'#' => self.at += self.file[self.at..].iter().take_while(|&&byte| byte != b'\n').count(),
                _ if parts(byte) => self.at += 1,
                _ => break,
            }
        }
        let start = self.at;
        let ends = |byte: u8| parts(byte) || byte == b':' || byte == b'#';
        self.at += match self.file.get(start)? {
            b':' => 1,
            _ => self.file[start..].iter().take_while(|&&byte| !ends(byte)).count(),
        };
        Some((start, &self.file[start..self.at]))
    }

    /// The value of the next word, or 19 at the file's length.
    fn value<Of>(&mut self, form: impl Fn(&[u8]) -> Option<Of>) -> Answer<Of> {
        match self.next() {
            Some(word) => fitting(word, form),
            None => refused(19, self.file.len()),
        }
    }
}

/// The value of a word, or 19.
fn fitting<Of>((place, word): (usize, &[u8]), form: impl Fn(&[u8]) -> Option<Of>) -> Answer<Of> {
    form(word).map_or(refused(19, place), Ok)
}

fn digits(word: &[u8], most: usize) -> Option<i64> {
    if word.is_empty() || word.len() > most {
        return None;
    }
    let digit = |number: i64, &byte: &u8| byte.is_ascii_digit().then_some(10 * number + i64::from(byte - b'0'));
    word.iter().try_fold(0, digit)
}

/// A decimal in ticks, rounded down: its first two decimals, and one tick less where more follows a minus.
fn decimal(word: &[u8]) -> Option<i64> {
    let unsigned = word.strip_prefix(b"-").unwrap_or(word);
    let (whole, decimals) = match unsigned.iter().position(|&byte| byte == b'.') {
        Some(point) => (&unsigned[..point], &unsigned[point + 1..]),
        None => (unsigned, &b"00"[..]),
    };
    let whole = digits(whole, WHOLE)?;
    digits(decimals, DECIMALS)?;
    let at = |place: usize| decimals.get(place).map_or(0, |digit| i64::from(digit - b'0'));
    let size = 100 * whole + 10 * at(0) + at(1);
    if word.len() == unsigned.len() {
        return Some(size);
    }
    let more = decimals.iter().skip(2).any(|&digit| digit != b'0');
    Some(-size - i64::from(more))
}
