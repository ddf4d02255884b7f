//! What a person is told about a file.

use std::fmt;
use std::ops::Range;

/// What is wrong with a file, without a verdict.
#[derive(Clone, Debug, PartialEq, Eq)]
pub struct Told {
    /// What is wrong, in a line.
    pub title: String,
    /// Places in the file and what is said of them; the first is the one that matters most.
    pub marks: Vec<Mark>,
    /// What was wanted, and what to do.
    pub notes: Vec<String>,
}

/// A place in the file and what is said of it.
#[derive(Clone, Debug, PartialEq, Eq)]
pub struct Mark {
    pub span: Range<usize>,
    pub text: String,
}

impl Mark {
    pub fn new(span: Range<usize>, text: impl Into<String>) -> Mark {
        Mark { span, text: text.into() }
    }
}

/// A number; of the largest that its type holds, which stands for those that it does not hold, that it may be more.
pub fn or_more<Number: fmt::Display + PartialEq>(number: Number, most: Number) -> String {
    format!("{}{}", number, if number == most { " or more" } else { "" })
}

/// The total of weights, likewise.
pub fn total(weights: &[u32]) -> String {
    let total: u64 = weights.iter().map(|&weight| u64::from(weight)).sum();
    format!("{}{}", total, if weights.contains(&u32::MAX) { " or more" } else { "" })
}

/// `1 vector`, `2 vectors`.
pub fn counted<Count: fmt::Display + From<u8> + PartialEq>(count: Count, what: &str) -> String {
    format!("{} {}{}", count, what, if count == Count::from(1) { "" } else { "s" })
}
