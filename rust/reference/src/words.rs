//! The words of a model file and their forms.

use crate::refusal::Refusal;
use crate::rules::{Rules, Trap};
use num_bigint::BigInt;

/// The eight kinds that bytes fall into.
#[derive(Clone, Copy, Debug, PartialEq, Eq)]
enum Class {
    Space,
    Colon,
    Hash,
    Digit,
    Point,
    Minus,
    Star,
    Rest,
}

/// The kind of a byte. Only space, tab, CR and LF are space; a byte that is in no list is of the rest.
fn class(byte: u8, rules: &Rules) -> Class {
    match byte {
        b' ' | b'\t' | b'\r' | b'\n' => Class::Space,
        b':' => Class::Colon,
        b'#' => Class::Hash,
        b'0'..=b'9' => Class::Digit,
        b'.' => Class::Point,
        b'-' => Class::Minus,
        b'*' => Class::Star,
        11 | 12 if rules.has(Trap::FormFeedIsSpace) => Class::Space,
        _ => Class::Rest,
    }
}

/// A word, with the number of bytes before it.
#[derive(Clone, Copy, Debug, PartialEq, Eq)]
pub struct Word<'a> {
    pub bytes: &'a [u8],
    pub place: usize,
}

/// The first word at or after an offset, if there is more than spaces and comments.
///
/// Spaces part words, a colon is a word by itself, and a hash ends a word and opens a comment up to the next LF or the
/// file's end.
fn word_after<'a>(file: &'a [u8], offset: usize, rules: &Rules) -> Option<Word<'a>> {
    let place = after_spaces_and_comments(file, offset, rules);
    let rest = &file[place..];
    let first = class(*rest.first()?, rules);
    let length = if first == Class::Colon {
        1
    } else {
        let ends_word = |&byte: &u8| match class(byte, rules) {
            Class::Space | Class::Colon => true,
            Class::Hash => !rules.has(Trap::HashInsideWord),
            _ => false,
        };
        rest.iter().position(ends_word).unwrap_or(rest.len())
    };
    Some(Word { bytes: &rest[..length], place })
}

/// The offset of the first byte, at or after this one, that is neither a space nor in a comment.
fn after_spaces_and_comments(file: &[u8], offset: usize, rules: &Rules) -> usize {
    let mut in_comment = false;
    for (at, &byte) in file.iter().enumerate().skip(offset) {
        let ends_comment = byte == b'\n' || (byte == b'\r' && rules.has(Trap::CommentEndedByCr));
        match class(byte, rules) {
            _ if in_comment => in_comment = !ends_comment,
            Class::Space => {}
            Class::Hash => in_comment = true,
            _ => return at,
        }
    }
    file.len()
}

/// A file, and the offset that was reached in it.
pub struct Reader<'a> {
    pub file: &'a [u8],
    offset: usize,
    pub rules: &'a Rules,
}

impl<'a> Reader<'a> {
    /// At the file's beginning.
    pub fn new(file: &'a [u8], rules: &'a Rules) -> Reader<'a> {
        Reader { file, offset: 0, rules }
    }

    /// The next word, if any is left.
    pub fn next(&mut self) -> Option<Word<'a>> {
        let word = word_after(self.file, self.offset, self.rules)?;
        self.offset = word.place + word.bytes.len();
        Some(word)
    }

    /// The next word; a missing one gets this number, at the file's length.
    pub fn word_or(&mut self, number: u8) -> Result<Word<'a>, Refusal> {
        let last_word_end = self.offset;
        let missing = if self.rules.has(Trap::MissingAtLastWord) { last_word_end } else { self.file.len() };
        self.next().ok_or_else(|| Refusal::at_index(number, missing))
    }

    /// A refusal at a word: the place is the number of bytes before it.
    pub fn at(&self, number: u8, word: &Word) -> Refusal {
        let past = if self.rules.has(Trap::PlaceAtWordEnd) { word.bytes.len() } else { 0 };
        Refusal::at_index(number, word.place + past)
    }
}

/// Whether a word is this keyword, byte by byte.
pub fn is_keyword(word: &Word, keyword: &str, rules: &Rules) -> bool {
    if rules.has(Trap::CaseIgnored) {
        word.bytes.eq_ignore_ascii_case(keyword.as_bytes())
    } else {
        word.bytes == keyword.as_bytes()
    }
}

/// The value of one or more digits, if all bytes are digits.
fn digits(bytes: &[u8]) -> Option<BigInt> {
    let all = !bytes.is_empty() && bytes.iter().all(u8::is_ascii_digit);
    if all {
        BigInt::parse_bytes(bytes, 10)
    } else {
        None
    }
}

/// An index or a count: one or two digits.
pub fn index_form(bytes: &[u8], rules: &Rules) -> Option<BigInt> {
    if rules.has(Trap::CountsAsNumbers) {
        return number_form(bytes, Form { whole: 2, decimals: 0 }, rules);
    }
    let leading_zero = bytes.len() == 2 && bytes[0] == b'0';
    if bytes.len() > 2 || (leading_zero && rules.has(Trap::LeadingZeroRefused)) {
        return None;
    }
    digits(bytes)
}

/// How many digits a number may have before and after the point.
#[derive(Clone, Copy, Debug, PartialEq, Eq)]
pub struct Form {
    pub whole: usize,
    pub decimals: usize,
}

/// Discount and probabilities, in thousandths.
pub const PROBABILITY: Form = Form { whole: 1, decimals: 3 };

/// Start numbers, in hundredths.
pub const START: Form = Form { whole: 1, decimals: 2 };

/// Rewards without their minus, in hundredths.
pub const REWARD: Form = Form { whole: 4, decimals: 2 };

/// A number without a sign: a whole part, a point and decimals, and an exponent. The whole part or the decimals may be
/// missing, not both, and the exponent may be. Its value is counted in units of the form's last decimal, and must be a
/// whole number of them.
pub fn number_form(bytes: &[u8], form: Form, rules: &Rules) -> Option<BigInt> {
    let opens_exponent = |&byte: &u8| byte == b'e' || (byte == b'E' && rules.has(Trap::CapitalExponent));
    let (number, power) = match bytes.iter().position(opens_exponent) {
        Some(mark) => (&bytes[..mark], exponent_form(&bytes[mark + 1..], rules)?),
        None => (bytes, 0),
    };
    let (whole, decimals) = match number.iter().position(|&byte| byte == b'.') {
        Some(point) => (&number[..point], Some(&number[point + 1..])),
        None => (number, None),
    };
    let (unpointed, decimals) = (decimals.is_none(), decimals.unwrap_or(&[]));
    if bytes.is_empty()
        || !parts_fit(whole, decimals, unpointed, rules)
        || !counts_fit(bytes, whole, decimals, form, rules)
    {
        return None;
    }
    let mut all = [whole, decimals].concat();
    if whole.is_empty() && rules.has(Trap::MissingWholeIsOne) {
        all.insert(0, b'1');
    }
    if all.is_empty() {
        all.push(b'0');
    }
    let (up, down) = (power.max(0) as u32, power.min(0).unsigned_abs());
    let ten = BigInt::from(10);
    let numerator = digits(&all)? * ten.pow(up + form.decimals as u32);
    let denominator = ten.pow(down + decimals.len() as u32);
    let whole_units = (&numerator % &denominator) == BigInt::from(0);
    let small_zero = numerator == BigInt::from(0) && down as usize + decimals.len() > form.decimals;
    if (small_zero && rules.has(Trap::SmallZeroRefused)) || !(whole_units || rules.has(Trap::NumbersRounded)) {
        return None;
    }
    Some(numerator / denominator)
}

/// Whether a number has the parts that it must have: a whole part or decimals.
fn parts_fit(whole: &[u8], decimals: &[u8], unpointed: bool, rules: &Rules) -> bool {
    let decimals_missing = decimals.is_empty() && !unpointed;
    if (whole.is_empty() && rules.has(Trap::WholePartWanted)) || (decimals_missing && rules.has(Trap::DecimalsWanted)) {
        return false;
    }
    let none = whole.is_empty() && decimals.is_empty();
    let read_as_zero = if unpointed { Trap::BareExponentIsZero } else { Trap::BarePointIsZero };
    !none || rules.has(read_as_zero)
}

/// Whether a number has no more digits than its form.
fn counts_fit(bytes: &[u8], whole: &[u8], decimals: &[u8], form: Form, rules: &Rules) -> bool {
    let one_more = rules.has(Trap::FourthDecimal) || (rules.has(Trap::StartThreeDecimals) && form == START);
    let uncounted = rules.has(Trap::ExponentUncounted) && bytes.contains(&b'e');
    uncounted || (whole.len() <= form.whole && decimals.len() <= form.decimals + usize::from(one_more))
}

/// What follows an `e`: an optional minus and one digit from 0 to 3.
fn exponent_form(bytes: &[u8], rules: &Rules) -> Option<i32> {
    let (minus, rest) = match bytes {
        [b'-', rest @ ..] => (true, rest),
        [b'+', rest @ ..] if rules.has(Trap::ExponentPlus) => (false, rest),
        _ => (false, bytes),
    };
    if rest.is_empty() && rules.has(Trap::EmptyExponent) {
        return Some(0);
    }
    let most_digits = if rules.has(Trap::ExponentTwoDigits) { 2 } else { 1 };
    let most = if rules.has(Trap::ExponentFour) { 4 } else { 3 };
    let power = digits(rest).filter(|power| rest.len() <= most_digits && *power <= BigInt::from(most))?;
    let power = i32::try_from(&power).ok()?;
    Some(if minus && !rules.has(Trap::ExponentSignDropped) { -power } else { power })
}

/// A reward: an optional minus and a number.
pub fn reward_form(bytes: &[u8], rules: &Rules) -> Option<BigInt> {
    match bytes.strip_prefix(b"-") {
        Some(rest) => {
            let value = -number_form(rest, REWARD, rules)?;
            if value == BigInt::from(0) && rules.has(Trap::MinusZeroRefused) {
                return None;
            }
            Some(value)
        }
        None => number_form(bytes, REWARD, rules),
    }
}

/// The part before the point of what looks like a number, however long: what a reader that tests limits first looks at.
pub fn whole_part(bytes: &[u8]) -> Option<BigInt> {
    let unsigned = bytes.strip_prefix(b"-").unwrap_or(bytes);
    digits(unsigned.split(|&byte| byte == b'.' || byte == b'e').next()?)
}
