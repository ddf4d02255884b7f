//! What is wanted in a place of a model file, and what to do about a word that does not fit, where the cause is a known one.

use crate::words::Word;

/// What is wanted in a place.
#[derive(Clone, Copy, Debug, PartialEq, Eq)]
pub enum Want {
    /// This word.
    Word(&'static str),
    /// A colon: of a statement of this form, up to its numbers, or of a header.
    Colon(Option<&'static str>),
    /// A count of states, actions or observations, and the most.
    Count(&'static str, usize),
    /// The number of an action, state or observation, or a star, and how many there are.
    Index(&'static str, usize),
    Discount,
    Start,
    Probability,
    Reward,
    /// T, O, R or the end, behind what has this key.
    Statement(&'static str),
}

impl Want {
    /// What is wanted, as the end of a sentence.
    pub fn text(&self) -> String {
        match self {
            Want::Colon(_) => "a colon".to_string(),
            Want::Word("*") => "a star: rewards depend on the action and the state left alone".to_string(),
            Want::Word(word) => format!("the word `{}`", word),
            Want::Count(kind, most) => format!("a count of {}: 1 to {}", kind, most),
            Want::Index(kind, 1) => format!("the {} 0, or `*`", kind),
            Want::Index(kind, count) => format!("one of the {}s 0 to {}, or `*` for all", kind, count - 1),
            Want::Discount => "a discount: 0 to 1 with at most three decimals, such as 0.95".to_string(),
            Want::Start => "a start number: 0 to 1 with at most two decimals, such as 0.25".to_string(),
            Want::Probability => "a probability: 0 to 1 with at most three decimals, such as 0.125".to_string(),
            Want::Reward => "a reward: -1000 to 1000 with at most two decimals, such as -0.5".to_string(),
            Want::Statement(_) => "a statement (`T:`, `O:` or `R:`), or the end of the file".to_string(),
        }
    }

    /// What usually helps.
    pub fn hint(&self, word: &Word) -> Option<String> {
        let text = String::from_utf8_lossy(word.bytes);
        let letters = text.starts_with(|first: char| first.is_ascii_alphabetic());
        let number = is_number_like(word.bytes);
        let import = |what: &str| format!("{}, or let `biidhaqun import` do it", what);
        if let Some(hint) = word.encoding() {
            return Some(hint.to_string());
        }
        let hint = match self {
            Want::Word(wanted) if text.to_lowercase() == *wanted => "small and capital letters differ".to_string(),
            Want::Statement(_) if matches!(&text[..], "t" | "o" | "r") => {
                "small and capital letters differ".to_string()
            }
            Want::Word("reward") if text == "cost" => import("state rewards, each with the other sign"),
            Want::Word("discount" | "values" | "states" | "actions" | "observations" | "start") => {
                "the headers stand in this order: discount, values, states, actions, observations, start".to_string()
            }
            Want::Colon(None) if text == "include" || text == "exclude" => import("give a start number for each state"),
            Want::Colon(Some(form)) if form.starts_with('R') && number => {
                import(&format!("write each reward by itself, as `{}` and its number", form))
            }
            Want::Colon(Some(form)) if number || matches!(&text[..], "identity" | "uniform") => {
                import(&format!("write a matrix row by row, as `{}` and its numbers", form))
            }
            Want::Word("*") if number => {
                "write `R: a : s : * : *` and the expected reward, or let `biidhaqun convert` do it".to_string()
            }
            Want::Word("*") => import("write `R: a : s : * : *` and the expected reward"),
            Want::Count(..) if letters => import("give how many there are, and their names in a comment"),
            Want::Index(..) if letters => import("give the number, which starts at 0, in place of a name"),
            Want::Start if text == "T" => "there are fewer start numbers than states".to_string(),
            Want::Start if letters => import("give a start number for each state"),
            Want::Probability if matches!(&text[..], "identity" | "uniform" | "reset") => {
                import("write the row out in numbers")
            }
            Want::Probability if text == ":" => "the number follows the last index with no colon between".to_string(),
            Want::Probability if matches!(&text[..], "T" | "O" | "R") => {
                "the row before this statement is too short".to_string()
            }
            Want::Discount | Want::Start | Want::Probability | Want::Reward if number && readable(&text, *self) => {
                "`biidhaqun import` reads decimals of any form and length, and rounds them".to_string()
            }
            Want::Statement("start") if number => "there are more start numbers than states".to_string(),
            Want::Statement("R") if number => "the statement before it has one number, its reward".to_string(),
            Want::Statement(_) if number => "the statement before it has too many numbers".to_string(),
            _ => return None,
        };
        Some(hint)
    }
}

/// Whether the importer takes a number: one that it reads, within the limits of what is wanted.
fn readable(text: &str, want: Want) -> bool {
    let limits = if want == Want::Reward { -1_000.0..=1_000.0 } else { 0.0..=1.0 };
    text.parse::<f64>().map_or(false, |number| limits.contains(&number))
}

/// Whether a word is made like a number, in whatever form.
pub fn is_number_like(word: &[u8]) -> bool {
    word.iter().any(u8::is_ascii_digit) && word.iter().all(|byte| byte.is_ascii_digit() || b"+-.,eE".contains(byte))
}
