//! A solver's two files once more, for the words to tell a person what is wrong with them, in which of them and where.
//!
//! The proved reader decides; this one only explains its refusals 1, 19, 20, 9, 10 and 11, and a test holds it against the
//! reference over the comparison's damaged files (`tests/solver_files.rs`).

use crate::told::{counted, Mark, Told};
use crate::words::{end, Word, Words};

const SOLVER_BYTES: usize = 4 << 20;
const VECTORS: usize = 1_000;
const BUILT_POINTS: usize = 16;
const ACTION_DIGITS: usize = 2;
const NODE_DIGITS: usize = 3;
const WHOLE_DIGITS: usize = 6;
const DECIMALS: usize = 12;
/// Entries of level t lie within t times this of 0, in ticks.
const TICKS: i128 = 100_000;

/// The two files of a step, and what they are read by: the model's counts, the level to be made, how many vectors the level
/// below it has, and at how many points it is to be made.
#[derive(Clone, Copy, Debug)]
pub struct Step<'a> {
    pub alpha: &'a [u8],
    pub graph: &'a [u8],
    pub states: usize,
    pub actions: usize,
    pub observations: usize,
    pub level: usize,
    pub below: usize,
    pub points: usize,
}

/// Which of the two files.
#[derive(Clone, Copy, Debug, PartialEq, Eq)]
pub enum Which {
    Alpha,
    Graph,
}

/// Why a step is refused: the number and the place, the file that it is in, and what a person is told. It is in none where
/// there are too many points.
#[derive(Clone, Debug, PartialEq, Eq)]
pub struct Trouble {
    pub number: u64,
    pub place: usize,
    pub which: Option<Which>,
    pub told: Told,
}

/// A vector of the alpha file: its action, and its decimals in ticks, with their words.
struct Alpha<'a> {
    action: (usize, Word<'a>),
    ticks: Vec<(i128, Word<'a>)>,
}

/// A node of the graph: its number's word, its action, and its next nodes, none for a hyphen.
struct Node<'a> {
    number: Word<'a>,
    action: (usize, Word<'a>),
    next: Vec<(Option<usize>, Word<'a>)>,
}

/// Why a step is refused, if it is so for one of its words, their number, or the number of points.
pub fn judge(step: &Step) -> Result<(), Trouble> {
    for (which, file) in [(Which::Alpha, step.alpha), (Which::Graph, step.graph)] {
        if file.len() > SOLVER_BYTES {
            let title = "the file has more than 4,194,304 bytes".to_string();
            let notes = vec!["leave out comments, and digits behind the point that say nothing".to_string()];
            return Err(Trouble {
                number: 1,
                place: 0,
                which: Some(which),
                told: Told { title, marks: Vec::new(), notes },
            });
        }
    }
    let alphas = Reading::of(Which::Alpha, step.alpha).alphas(step.states)?;
    let nodes = Reading::of(Which::Graph, step.graph).nodes(step.observations)?;
    agree(step, &alphas, &nodes)?;
    if alphas.is_empty() {
        let told = Told { title: "the files have no vector".to_string(), marks: Vec::new(), notes: Vec::new() };
        return Err(Trouble { number: 9, place: 0, which: Some(Which::Alpha), told });
    }
    if step.points > BUILT_POINTS {
        let title = format!("there are {} points, and levels are made at {} at most", step.points, BUILT_POINTS);
        return Err(Trouble {
            number: 9,
            place: 0,
            which: None,
            told: Told { title, marks: Vec::new(), notes: Vec::new() },
        });
    }
    exist(step, &nodes)?;
    in_range(step, &alphas)
}

/// One of the files while it is read.
struct Reading<'a> {
    which: Which,
    file: &'a [u8],
    words: Words<'a>,
}

impl<'a> Reading<'a> {
    fn of(which: Which, file: &'a [u8]) -> Reading<'a> {
        Reading { which, file, words: Words::of(file) }
    }

    /// 19 at a word.
    fn misfit(&self, word: &Word, wanted: &str, reason: String) -> Trouble {
        let mut notes = vec![format!("wanted: {}", wanted)];
        notes.extend(hint(word, self.which).map(|hint| format!("help: {}", hint)));
        let title = format!("{} does not fit here", word.quoted());
        let told = Told { title, marks: vec![Mark::new(word.span(), reason)], notes };
        Trouble { number: 19, place: word.place, which: Some(self.which), told }
    }

    /// 19 at the first word behind the last node that there may be: its number has more digits than fit.
    fn too_many(&self, word: &Word) -> Trouble {
        let title = "the graph has more than 1,000 nodes, and a level at most 1,000 vectors".to_string();
        let marks = vec![Mark::new(word.span(), "the first that is too many")];
        let notes = vec!["help: let the solver prune its vectors".to_string()];
        Trouble { number: 19, place: word.place, which: Some(self.which), told: Told { title, marks, notes } }
    }

    /// The value of a word by its form.
    fn fitting<Of>(&self, word: Word<'a>, form: &Form<Of>) -> Result<(Of, Word<'a>), Trouble> {
        match (form.read)(word.bytes) {
            Ok(value) => Ok((value, word)),
            Err(reason) => Err(self.misfit(&word, &form.wanted, reason)),
        }
    }

    /// The first word of a vector or a node. Where it does not fit, those before it may be of a model with other counts.
    fn first<Of>(&self, word: Word<'a>, form: &Form<Of>, counts: String) -> Result<(Of, Word<'a>), Trouble> {
        self.fitting(word, form).map_err(|mut trouble| {
            if !trouble.told.notes.iter().any(|note| note.starts_with("help: ")) {
                trouble.told.notes.push(format!("help: {}", counts));
            }
            trouble
        })
    }

    /// The value of the next word; a missing one gets 19 at the file's length.
    fn value<Of>(&mut self, form: &Form<Of>) -> Result<(Of, Word<'a>), Trouble> {
        match self.words.next() {
            Some(word) => self.fitting(word, form),
            None => {
                let marks = vec![Mark::new(end(self.file), "a word is missing here")];
                let notes = vec![format!("wanted: {}", form.wanted)];
                let told = Told { title: "the file ends too early".to_string(), marks, notes };
                Err(Trouble { number: 19, place: self.file.len(), which: Some(self.which), told })
            }
        }
    }

    fn alphas(mut self, states: usize) -> Result<Vec<Alpha<'a>>, Trouble> {
        let mut alphas = Vec::new();
        while let Some(word) = self.words.next() {
            let counts = format!("here a vector is an action and {}, one for each state", counted(states, "value"));
            let action = self.first(word, &action_form(alphas.len()), counts)?;
            let ticks = (0..states).map(|state| self.value(&decimal_form(alphas.len(), state)));
            alphas.push(Alpha { action, ticks: ticks.collect::<Result<_, _>>()? });
        }
        Ok(alphas)
    }

    fn nodes(mut self, observations: usize) -> Result<Vec<Node<'a>>, Trouble> {
        let mut nodes = Vec::new();
        while let Some(word) = self.words.next() {
            if nodes.len() == VECTORS {
                return Err(self.too_many(&word));
            }
            let next = counted(observations, "next node");
            let counts = format!("here a node is its number, an action and {}, one for each observation", next);
            let ((), number) = self.first(word, &node_form(nodes.len()), counts)?;
            let action = self.value(&action_form(nodes.len()))?;
            let next = (0..observations).map(|seen| self.value(&next_form(nodes.len(), seen)));
            nodes.push(Node { number, action, next: next.collect::<Result<_, _>>()? });
        }
        Ok(nodes)
    }
}

/// What is wanted in a place, and how it is read there; or why it cannot be.
struct Form<Of> {
    wanted: String,
    read: Box<dyn Fn(&[u8]) -> Result<Of, String>>,
}

fn action_form(vector: usize) -> Form<usize> {
    let wanted = format!("the action of vector {}: one or two digits", vector);
    Form { wanted, read: Box::new(|word| digits(word, ACTION_DIGITS)) }
}

fn decimal_form(vector: usize, state: usize) -> Form<i128> {
    let wanted = format!(
        "the value of vector {} at state {}: an optional minus, 1 to 6 digits, and optionally a point and 1 to 12 digits",
        vector, state
    );
    Form { wanted, read: Box::new(decimal) }
}

fn node_form(number: usize) -> Form<()> {
    let read = move |word: &[u8]| match digits(word, NODE_DIGITS)? {
        found if found == number => Ok(()),
        found => Err(format!("this is node {}, out of order", found)),
    };
    Form { wanted: format!("the number {}: nodes are numbered 0, 1, .. in order", number), read: Box::new(read) }
}

fn next_form(node: usize, seen: usize) -> Form<Option<usize>> {
    let wanted = format!(
        "the node to go on with from node {} after observation {}: one to three digits, or `-` for none",
        node, seen
    );
    let read = |word: &[u8]| if word == b"-" { Ok(None) } else { digits(word, NODE_DIGITS).map(Some) };
    Form { wanted, read: Box::new(read) }
}

/// The number of a few digits.
fn digits(word: &[u8], most: usize) -> Result<usize, String> {
    if word.is_empty() || !word.iter().all(u8::is_ascii_digit) {
        return Err("digits alone are wanted".to_string());
    }
    if word.len() > most {
        return Err(format!("it has {} digits, and at most {} fit", word.len(), most));
    }
    Ok(word.iter().fold(0, |number, digit| 10 * number + usize::from(digit - b'0')))
}

/// A decimal in ticks, rounded down.
fn decimal(word: &[u8]) -> Result<i128, String> {
    let unsigned = word.strip_prefix(b"-").unwrap_or(word);
    let point = unsigned.iter().position(|&byte| byte == b'.');
    let (whole, fraction) = match point {
        Some(point) => (&unsigned[..point], &unsigned[point + 1..]),
        None => (unsigned, &b"0"[..]),
    };
    if ![whole, fraction].concat().iter().all(u8::is_ascii_digit) {
        return Err("only digits, a minus in front and one point make a decimal".to_string());
    }
    if whole.is_empty() || fraction.is_empty() {
        return Err("a digit must stand before the point, and behind it".to_string());
    }
    if whole.len() > WHOLE_DIGITS {
        return Err(format!("it has {} digits before the point, and at most {} fit", whole.len(), WHOLE_DIGITS));
    }
    if fraction.len() > DECIMALS {
        return Err(format!("it has {} digits behind the point, and at most {} fit", fraction.len(), DECIMALS));
    }
    let number = |digits: &[u8]| digits.iter().fold(0, |number, digit| 10 * number + i128::from(digit - b'0'));
    let unit = 10_i128.pow(fraction.len() as u32);
    let size = 100 * (number(whole) * unit + number(fraction));
    Ok(if word.len() > unsigned.len() { -size } else { size }.div_euclid(unit))
}

/// What usually helps.
fn hint(word: &Word, which: Which) -> Option<String> {
    if let Some(hint) = word.encoding() {
        return Some(hint.to_string());
    }
    let fraction = word.bytes.iter().rev().take_while(|byte| byte.is_ascii_digit()).count();
    let hint = match (which, word.bytes) {
        (Which::Alpha, bytes) if fraction > DECIMALS && bytes.contains(&b'.') => {
            "cut the decimals to 12: sed -E 's/(\\.[0-9]{12})[0-9]+/\\1/g'"
        }
        (_, [b'{', ..]) => "this may be levels in JSON: such a file is given alone",
        (Which::Alpha, b"-") => "this may be the policy graph: for each step the alpha file comes first",
        (Which::Graph, bytes) if bytes.contains(&b'.') => {
            "this may be the alpha file: for each step the policy graph comes second"
        }
        (Which::Graph, b"X" | b"x" | b"*") => "write `-` where there is no next node",
        _ => return None,
    };
    Some(hint.to_string())
}

/// 20: as many vectors as nodes, with the same actions.
fn agree(step: &Step, alphas: &[Alpha], nodes: &[Node]) -> Result<(), Trouble> {
    let differ = |title: String, mark: Mark| {
        let notes =
            vec!["wanted: for each vector of the alpha file one node of the graph, with its action".to_string()];
        let told = Told { title, marks: vec![mark], notes };
        Err(Trouble { number: 20, place: 0, which: Some(Which::Graph), told })
    };
    if alphas.len() != nodes.len() {
        let title = format!(
            "the alpha file has {}, the graph {}",
            counted(alphas.len(), "vector"),
            counted(nodes.len(), "node")
        );
        let mark = match nodes.get(alphas.len()) {
            Some(node) => Mark::new(node.number.span(), format!("the alpha file has no vector {}", alphas.len())),
            None => Mark::new(end(step.graph), format!("node {} is missing here", nodes.len())),
        };
        return differ(title, mark);
    }
    for (number, (alpha, node)) in alphas.iter().zip(nodes).enumerate() {
        let (ours, (theirs, word)) = (alpha.action.0, node.action);
        if ours != theirs {
            let title = format!("vector {} has action {} in the alpha file, and {} in the graph", number, ours, theirs);
            return differ(title, Mark::new(word.span(), format!("the alpha file has {}", ours)));
        }
    }
    Ok(())
}

/// 10: actions and next nodes exist, and a hyphen stands upon level 0 alone.
fn exist(step: &Step, nodes: &[Node]) -> Result<(), Trouble> {
    for (number, node) in nodes.iter().enumerate() {
        let refused = |word: &Word, text: String, wanted: String| {
            let title = format!("vector {} names what does not exist", number);
            let told =
                Told { title, marks: vec![Mark::new(word.span(), text)], notes: vec![format!("wanted: {}", wanted)] };
            Err(Trouble { number: 10, place: number, which: Some(Which::Graph), told })
        };
        let (action, word) = node.action;
        if action >= step.actions {
            let wanted = format!("an action from 0 to {}", step.actions - 1);
            return refused(&word, "there is no such action".to_string(), wanted);
        }
        for (next, word) in &node.next {
            let wanted = format!("a vector of level {}, from 0 to {}", step.level - 1, step.below - 1);
            match next {
                None if step.level > 1 => {
                    return refused(word, format!("a hyphen at level {}", step.level), wanted);
                }
                Some(next) if *next >= step.below => {
                    return refused(word, format!("level {} has no vector {}", step.level - 1, next), wanted);
                }
                _ => {}
            }
        }
    }
    Ok(())
}

/// 11: no decimal below the range. The lesser of it and its backup is below only where it is itself.
fn in_range(step: &Step, alphas: &[Alpha]) -> Result<(), Trouble> {
    let lowest = -TICKS * step.level as i128;
    for (number, alpha) in alphas.iter().enumerate() {
        if let Some((_, word)) = alpha.ticks.iter().find(|(ticks, _)| *ticks < lowest) {
            let title = format!("vector {} has a value below the range of level {}", number, step.level);
            let notes = vec![format!("wanted: {} or more, the range of level {}", lowest / 100, step.level)];
            let told = Told { title, marks: vec![Mark::new(word.span(), "below the range")], notes };
            return Err(Trouble { number: 11, place: number, which: Some(Which::Alpha), told });
        }
    }
    Ok(())
}

#[cfg(test)]
mod tests {
    use super::*;

    #[test]
    fn decimals() {
        for (word, ticks) in
            [("-0.001", -1), ("-0", 0), ("0.009", 0), ("-1.000000000001", -101), ("999999", 99_999_900)]
        {
            assert_eq!(decimal(word.as_bytes()), Ok(ticks), "{}", word);
        }
        for word in ["", "-", ".5", "5.", "+1", "1e0", "1234567", "0.1234567890123", "--1", "1.2.3"] {
            assert!(decimal(word.as_bytes()).is_err(), "{}", word);
        }
    }

    #[test]
    fn what_is_told() {
        let told_at = |points: usize, alpha: &str, graph: &str| {
            let (alpha, graph) = (alpha.as_bytes(), graph.as_bytes());
            let step = Step { alpha, graph, states: 2, actions: 2, observations: 1, level: 2, below: 1, points };
            let trouble = judge(&step).unwrap_err();
            (trouble.number, trouble.place, trouble.which, trouble.told)
        };
        let told = |alpha: &str, graph: &str| told_at(16, alpha, graph);
        let (number, place, which, told_of) = told("0 1 0.1234567890123\n", "");
        assert_eq!((number, place, which), (19, 4, Some(Which::Alpha)));
        assert!(told_of.notes[1].contains("sed -E"), "{:?}", told_of);
        let (number, place, which, told_of) = told("0 1 1", "1 0 0");
        assert_eq!((number, place, which), (19, 0, Some(Which::Graph)));
        assert_eq!(told_of.marks[0].text, "this is node 1, out of order");
        assert_eq!(
            told_of.notes[1],
            "help: here a node is its number, an action and 1 next node, one for each observation"
        );
        // An alpha file of a model with one state.
        let (number, place, _, told_of) = told("0 -1.5 1 -2.5", "");
        assert_eq!((number, place), (19, 9));
        assert_eq!(told_of.notes[1], "help: here a vector is an action and 2 values, one for each state");
        assert!(told("{\"levels\": []}", "").3.notes[1].contains("levels in JSON"));
        let (number, _, _, told_of) = told("0 1 1", "0 1 0");
        assert_eq!((number, &told_of.title[..]), (20, "vector 0 has action 0 in the alpha file, and 1 in the graph"));
        let (number, _, _, told_of) = told("0 1 1 0 2 2", "0 0 0");
        assert_eq!((number, &told_of.title[..]), (20, "the alpha file has 2 vectors, the graph 1 node"));
        let (number, place, _, told_of) = told("0 1 1", "0 0 -");
        assert_eq!((number, place, &told_of.marks[0].text[..]), (10, 0, "a hyphen at level 2"));
        let (number, place, which, told_of) = told("0 1 1 0 0 -2000.01", "0 0 0 1 0 0");
        assert_eq!((number, place, which), (11, 1, Some(Which::Alpha)));
        assert_eq!(told_of.notes, ["wanted: -2000 or more, the range of level 2"]);
        assert_eq!(told("", "").0, 9);
        for file in ["\u{feff}0 1 1", "0\0 \x001\0", "0 1 1\0"] {
            assert!(told(file, "").3.notes[1].contains("; save "), "{:?}", file);
        }
        // The words of a thousand vectors fit, a thousand and first does not, whatever it is.
        let many = |count: usize| -> (String, String) {
            let nodes = (0..count).map(|number| format!("{} 0 0\n", number));
            ("0 0 0\n".repeat(count), nodes.collect())
        };
        let (alpha, graph) = many(1_000);
        assert_eq!(told_at(17, &alpha, &graph).2, None);
        for (alpha, graph) in [many(1_001), (alpha, graph.clone() + "000 0 0")] {
            let (number, place, which, told_of) = told(&alpha, &graph);
            assert_eq!((number, place, which), (19, 7_890, Some(Which::Graph)));
            assert!(told_of.title.starts_with("the graph has more than 1,000 nodes"), "{:?}", told_of);
        }
        // Too many points are told behind what does not fit, and before what does not exist.
        let (number, _, which, told_of) = told_at(17, "0 1 1", "0 0 -");
        let many = "there are 17 points, and levels are made at 16 at most";
        assert_eq!((number, which, &told_of.title[..]), (9, None, many));
        assert_eq!((told_at(17, "0 1", "0 0 -").0, told_at(17, "", "").2), (19, Some(Which::Alpha)));
    }
}
