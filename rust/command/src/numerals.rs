//! Numbers as a model file has them: so many digits, so many decimals, an exponent; and their way back to text.

use crate::told::counted;

/// A form of numbers: the most digits before and behind the point, and whether a minus may stand in front. With decimals
/// one of the two parts may be missing, and an exponent may follow.
#[derive(Clone, Copy, Debug)]
pub struct Form {
    pub digits: usize,
    pub decimals: usize,
    pub minus: bool,
}

/// Counts and indices.
pub const INDEX: Form = Form { digits: 2, decimals: 0, minus: false };
/// Probabilities and the discount, in thousandths.
pub const PROBABILITY: Form = Form { digits: 1, decimals: 3, minus: false };
/// Start numbers, in hundredths.
pub const START: Form = Form { digits: 1, decimals: 2, minus: false };
/// Rewards, in hundredths.
pub const REWARD: Form = Form { digits: 4, decimals: 2, minus: true };

impl Form {
    /// The value of a word times 10^decimals, or why it does not fit.
    pub fn value(&self, word: &[u8]) -> Result<i64, String> {
        let (negative, magnitude) = match word.strip_prefix(b"-") {
            Some(rest) if self.minus => (true, rest),
            Some(_) => return Err("no minus may stand here".to_string()),
            None => (false, word),
        };
        let units = if self.decimals == 0 { self.whole(magnitude)? } else { self.units(magnitude)? };
        Ok(if negative { -units } else { units })
    }

    /// Digits alone.
    fn whole(&self, word: &[u8]) -> Result<i64, String> {
        if word.is_empty() || !word.iter().all(u8::is_ascii_digit) {
            return Err("a whole number in digits is wanted".to_string());
        }
        self.few(word)?;
        Ok(number(word))
    }

    /// A whole part or decimals or both, and an exponent or none.
    fn units(&self, word: &[u8]) -> Result<i64, String> {
        let (mantissa, exponent) = split(word, b'e');
        let (whole, fraction) = split(mantissa, b'.');
        let fraction = fraction.unwrap_or(&[]);
        if ![whole, fraction].concat().iter().all(u8::is_ascii_digit) {
            if mantissa.contains(&b'E') {
                return Err("the e of an exponent is small".to_string());
            }
            return Err("only digits, one point and an exponent make a number here".to_string());
        }
        if whole.is_empty() && fraction.is_empty() {
            return Err("a digit must stand before or behind the point, and before an exponent".to_string());
        }
        self.few(whole)?;
        if fraction.len() > self.decimals {
            return Err(format!("it has {} decimals, and at most {} are read", fraction.len(), self.decimals));
        }
        let stated = number(&[whole, fraction].concat()) * 10_i64.pow((self.decimals - fraction.len()) as u32);
        match exponent.map(power).transpose()? {
            Some((true, scale)) if stated % scale != 0 => Err(format!("it is no whole number of {}", self.unit())),
            Some((true, scale)) => Ok(stated / scale),
            Some((false, scale)) => Ok(stated * scale),
            None => Ok(stated),
        }
    }

    /// No more digits before the point than fit.
    fn few(&self, whole: &[u8]) -> Result<(), String> {
        if whole.len() > self.digits {
            let place = if self.decimals == 0 { "" } else { " before the point" };
            return Err(format!("it has {}{}, and at most {} fit", counted(whole.len(), "digit"), place, self.digits));
        }
        Ok(())
    }

    fn unit(&self) -> &'static str {
        if self.decimals == 3 {
            "thousandths"
        } else {
            "hundredths"
        }
    }
}

/// What stands before a byte and, if it is there, behind it.
fn split(word: &[u8], byte: u8) -> (&[u8], Option<&[u8]>) {
    match word.iter().position(|&other| other == byte) {
        Some(at) => (&word[..at], Some(&word[at + 1..])),
        None => (word, None),
    }
}

/// Whether what follows an `e` has a minus, and the power of ten that it says.
fn power(exponent: &[u8]) -> Result<(bool, i64), String> {
    let (minus, digits) = match exponent.strip_prefix(b"-") {
        Some(rest) => (true, rest),
        None => (false, exponent),
    };
    match digits {
        [digit @ b'0'..=b'3'] => Ok((minus, 10_i64.pow(u32::from(digit - b'0')))),
        _ => Err("behind the e stands an optional minus and one digit from 0 to 3".to_string()),
    }
}

/// The number that digits write.
fn number(digits: &[u8]) -> i64 {
    digits.iter().fold(0, |value, digit| 10 * value + i64::from(digit - b'0'))
}

/// A number of 10^-decimals as text, without zeros at its end: 900 thousandths are 0.9.
pub fn shown(value: i64, decimals: u32) -> String {
    let unit = 10_u64.pow(decimals);
    let (whole, rest) = (value.unsigned_abs() / unit, value.unsigned_abs() % unit);
    let sign = if value < 0 { "-" } else { "" };
    if rest == 0 {
        return format!("{}{}", sign, whole);
    }
    let fraction = format!("{:01$}", rest, decimals as usize);
    format!("{}{}.{}", sign, whole, fraction.trim_end_matches('0'))
}

#[cfg(test)]
mod tests {
    use super::*;

    #[test]
    fn forms() {
        let value = |form: Form, word: &str| form.value(word.as_bytes()).ok();
        assert_eq!(value(PROBABILITY, "0.85"), Some(850));
        assert_eq!(value(PROBABILITY, "1"), Some(1_000));
        assert_eq!(value(PROBABILITY, "9.999"), Some(9_999));
        assert_eq!(value(REWARD, "-1000.5"), Some(-100_050));
        assert_eq!(value(REWARD, "-0"), Some(0));
        assert_eq!(value(INDEX, "07"), Some(7));
        for (word, thousandths) in
            [(".5", 500), ("1.", 1_000), ("5e-1", 500), (".5e0", 500), ("1.e-3", 1), ("1e3", 1_000_000)]
        {
            assert_eq!(value(PROBABILITY, word), Some(thousandths), "{}", word);
        }
        assert_eq!(value(START, "0e-3"), Some(0));
        assert_eq!(value(START, "1e-3"), None);
        assert_eq!(value(REWARD, "-12.5e1"), Some(-12_500));
        for word in
            ["", ".", "e1", ".e1", "1e", "1e4", "1e00", "1e+0", "1E0", "10e-1", "1.5e-3", "0.1234", "10", "-0.5"]
        {
            assert_eq!(value(PROBABILITY, word), None, "{}", word);
        }
        for word in ["+1", "0,5", "1.0.0", "1e0e0", "1e.", "x"] {
            assert_eq!(value(PROBABILITY, word), None, "{}", word);
        }
        assert_eq!(PROBABILITY.value(b"9E-1"), Err("the e of an exponent is small".to_string()));
        for word in ["007", "1.0", "1.", "1e0", "*", "-1"] {
            assert_eq!(value(INDEX, word), None, "{}", word);
        }
    }

    #[test]
    fn text() {
        assert_eq!(shown(900, 3), "0.9");
        assert_eq!(shown(1_000, 3), "1");
        assert_eq!(shown(-50, 2), "-0.5");
        assert_eq!(shown(-123_405, 2), "-1234.05");
        assert_eq!(shown(7, 3), "0.007");
    }
}
