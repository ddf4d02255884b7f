//! Names of states, actions and observations, as comments of a model file give them.
//!
//! An imported file keeps the names of its source in comments of the form `# states: tiger-left tiger-right`. They mean
//! nothing to the reader; the command shows them in place of the numbers.

use crate::told::counted;
use crate::words::Word;

/// Names for the numbers 0, 1, .. of one kind, or none.
#[derive(Clone, Debug, Default, PartialEq, Eq)]
pub struct Names(Vec<String>);

impl Names {
    pub fn new(names: Vec<String>) -> Names {
        Names(names)
    }

    /// The name of a number.
    pub fn get(&self, number: usize) -> Option<&str> {
        self.0.get(number).map(String::as_str)
    }

    /// All of them, in order.
    pub fn all(&self) -> &[String] {
        &self.0
    }

    /// The name, or else the number.
    pub fn or_number(&self, number: usize) -> String {
        self.get(number).map_or_else(|| number.to_string(), str::to_string)
    }
}

/// The names of all three kinds.
#[derive(Clone, Debug, Default, PartialEq, Eq)]
pub struct Named {
    pub states: Names,
    pub actions: Names,
    pub observations: Names,
}

impl Named {
    /// These names, and of kinds that have none those of others.
    pub fn or(self, others: Named) -> Named {
        let or = |names: Names, other: Names| if names.all().is_empty() { other } else { names };
        Named {
            states: or(self.states, others.states),
            actions: or(self.actions, others.actions),
            observations: or(self.observations, others.observations),
        }
    }

    /// Comments that give the names, a line for each kind that has some.
    pub fn comments(&self) -> String {
        let kinds = [("states", &self.states), ("actions", &self.actions), ("observations", &self.observations)];
        let named = kinds.iter().filter(|(_, names)| !names.all().is_empty());
        named.map(|(kind, names)| format!("# {}: {}\n", kind, names.all().join(" "))).collect()
    }

    /// The names that a file's comments give. Names of one kind count where there are as many as numbers.
    pub fn of(file: &[u8], states: usize, actions: usize, observations: usize) -> Named {
        let text = String::from_utf8_lossy(file);
        let find = |kind: &str, count: usize| {
            let fitting = lists(&text, kind).find(|names| passed(names, kind, count).is_none());
            Names(fitting.unwrap_or_default().into_iter().map(str::to_string).collect())
        };
        Named {
            states: find("states", states),
            actions: find("actions", actions),
            observations: find("observations", observations),
        }
    }
}

/// Why names that a file's comments give do not count, a sentence for each kind that has such names and no others.
pub fn passed_over(file: &[u8], states: usize, actions: usize, observations: usize) -> Vec<String> {
    let text = String::from_utf8_lossy(file);
    let kinds = [("states", states), ("actions", actions), ("observations", observations)];
    let told = kinds.iter().filter_map(|&(kind, count)| {
        let mut all = lists(&text, kind).map(|names| passed(&names, kind, count));
        let first = all.next()??;
        all.all(|other| other.is_some()).then(|| format!("the comment `# {}:` is passed over: {}", kind, first))
    });
    told.collect()
}

/// What each comment lists that has the form of names of a kind.
fn lists<'a>(text: &'a str, kind: &'a str) -> impl Iterator<Item = Vec<&'a str>> + 'a {
    text.lines().filter_map(move |line| {
        let list = line.trim().strip_prefix('#')?.trim_start().strip_prefix(kind)?.trim_start();
        Some(list.strip_prefix(':')?.split_whitespace().collect())
    })
}

/// Why a list does not name each of so many, if it does not.
fn passed(names: &[&str], kind: &str, count: usize) -> Option<String> {
    if names.len() != count {
        return Some(format!("{}, and the {} are {}", counted(names.len(), "name"), kind, count));
    }
    let other = names.iter().find(|name| !is_name(name))?;
    let word = Word { place: 0, bytes: other.as_bytes() };
    Some(format!("{} is no name: a letter, then letters, digits, `-` and `_`, all of ASCII", word.quoted()))
}

/// Cassandra's names: a letter, then letters, digits, minus and underscore.
pub fn is_name(word: &str) -> bool {
    let mut bytes = word.bytes();
    bytes.next().map_or(false, |first| first.is_ascii_alphabetic())
        && bytes.all(|byte| byte.is_ascii_alphanumeric() || byte == b'-' || byte == b'_')
}

#[cfg(test)]
mod tests {
    use super::*;

    #[test]
    fn names_in_comments() {
        let file = b"# states: left right\n#actions:one two three\n# observations: 0 1\nstates: 2\n";
        let named = Named::of(file, 2, 2, 2);
        assert_eq!(named.states.or_number(1), "right");
        assert_eq!(named.actions, Names::default());
        assert_eq!(named.observations.or_number(1), "1");
        assert_eq!(named.states.or_number(2), "2");
        assert_eq!(named.comments(), "# states: left right\n");
        let passed = passed_over(file, 2, 2, 2);
        assert_eq!(passed.len(), 2);
        assert_eq!(passed[0], "the comment `# actions:` is passed over: 3 names, and the actions are 2");
        assert!(
            passed[1].starts_with("the comment `# observations:` is passed over: `0` is no name: "),
            "{:?}",
            passed
        );
        assert!(passed_over(b"# states: either\n# states: wet dry\n", 2, 2, 2).is_empty());
        let others = Named::of(b"# states: wet dry\n# actions: go\n", 2, 1, 2);
        let both = named.or(others);
        assert_eq!(both.comments(), "# states: left right\n# actions: go\n");
        assert_eq!(Named::of(both.comments().as_bytes(), 2, 1, 2), both);
    }
}
