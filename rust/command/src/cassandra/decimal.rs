//! Decimals of any length, as exact fractions.

use num_bigint::BigInt;
use num_rational::BigRational;
use num_traits::{pow, Signed, Zero};

/// The largest exponent that is read, and the most digits: no number of a model has as many.
const EXPONENT: usize = 400;
const DIGITS: usize = 10_000;

/// The value of a word: a sign, digits with a point somewhere among them, an exponent; all but a digit optional.
pub fn parse(word: &[u8]) -> Option<BigRational> {
    let text = std::str::from_utf8(word).ok()?;
    let (mantissa, exponent) = match text.find(['e', 'E']) {
        Some(at) => (&text[..at], text[at + 1..].parse::<i64>().ok()?),
        None => (text, 0),
    };
    let (negative, magnitude) = match mantissa.strip_prefix('-') {
        Some(rest) => (true, rest),
        None => (false, mantissa.strip_prefix('+').unwrap_or(mantissa)),
    };
    let (whole, fraction) = magnitude.split_once('.').unwrap_or((magnitude, ""));
    let digits = format!("{}{}", whole, fraction);
    let plain = !digits.is_empty() && digits.len() <= DIGITS && digits.bytes().all(|byte| byte.is_ascii_digit());
    let size = usize::try_from(exponent.unsigned_abs()).ok().filter(|&size| size <= EXPONENT)?;
    if !plain {
        return None;
    }
    let ten = BigInt::from(10);
    let stated = BigRational::new(digits.parse().ok()?, pow(ten.clone(), fraction.len()));
    let power = BigRational::from(pow(ten, size));
    let value = if exponent < 0 { stated / power } else { stated * power };
    Some(if negative { -value } else { value })
}

/// A fraction as a decimal: all of it if it is short, else its first digits and two points.
pub fn text(value: &BigRational) -> String {
    const WHOLE: usize = 12;
    const PLACES: usize = 9;
    let scaled = value.abs() * BigRational::from(pow(BigInt::from(10), PLACES));
    let digits = format!("{:0>width$}", scaled.to_integer().to_string(), width = PLACES + 1);
    let (whole, fraction) = digits.split_at(digits.len() - PLACES);
    let sign = if value.is_negative() { "-" } else { "" };
    if whole.len() > WHOLE {
        return format!("{}{}.. ({} digits)", sign, &whole[..WHOLE], whole.len());
    }
    if !scaled.is_integer() {
        return format!("{}{}.{}..", sign, whole, fraction);
    }
    match fraction.trim_end_matches('0') {
        "" if value.is_zero() => "0".to_string(),
        "" => format!("{}{}", sign, whole),
        fraction => format!("{}{}.{}", sign, whole, fraction),
    }
}

#[cfg(test)]
mod tests {
    use super::*;

    #[test]
    fn decimals() {
        let shown = |word: &str| parse(word.as_bytes()).map(|value| text(&value));
        for (word, value) in [
            ("1", "1"),
            ("-0", "0"),
            ("+.5", "0.5"),
            ("1.", "1"),
            ("-100.250", "-100.25"),
            ("5e-1", "0.5"),
            ("1.5E2", "150"),
            ("0.33333333333333333333", "0.333333333.."),
            ("-1e20", "-100000000000.. (21 digits)"),
            ("1e-300", "0.000000000.."),
        ] {
            assert_eq!(shown(word).as_deref(), Some(value), "{}", word);
        }
        assert!(parse(&[b'1'; DIGITS]).is_some());
        assert!(parse(&[b'1'; DIGITS + 1]).is_none());
        for word in ["", ".", "-", "e1", "1e", "1e1.5", "1e9999", "0x1", "1.2.3", "--1", "listen", "1_0"] {
            assert_eq!(shown(word), None, "{}", word);
        }
    }
}
