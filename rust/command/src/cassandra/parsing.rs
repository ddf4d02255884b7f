//! Reading Cassandra's format: headers in any order, then start, T, O and R; later statements supersede earlier ones.

use super::decimal;
use super::Source;
use crate::model_file::Counts;
use crate::names::{is_name, Named, Names};
use crate::table::Table;
use crate::told::{Mark, Told};
use crate::words::{end, Word, Words};
use num_bigint::BigInt;
use num_rational::BigRational;
use num_traits::{One, Zero};
use std::iter::Peekable;
use std::ops::Range;

/// What a model file has room for.
const MOST: [(&str, usize); 3] = [("states", 64), ("actions", 8), ("observations", 8)];
/// Words that are no names: each opens a header or a statement.
const KEYS: [&str; 9] = ["discount", "values", "states", "actions", "observations", "start", "T", "O", "R"];

/// An answer, or what is wrong.
type Read<Answer> = Result<Answer, Vec<Told>>;

/// The model that a file states.
pub fn read(file: &[u8]) -> Read<Source> {
    let (words, headers, end) = (Words::of(file).peekable(), Headers::default(), end(file));
    let mut parser = Parser { words, last: 0, headers, reset: None, end };
    let mut source = None;
    while let Some(key) = parser.next_if(|_| true) {
        match key.bytes {
            b"discount" | b"values" | b"states" | b"actions" | b"observations" if source.is_none() => {
                parser.header(&key)?
            }
            b"start" | b"T" | b"O" | b"R" => {
                let stated = match source.take() {
                    Some(stated) => stated,
                    None => parser.headers.source(parser.end.clone())?,
                };
                source = Some(parser.statement(&key, stated)?);
            }
            _ => {
                let wanted = if source.is_none() { "a header or a statement" } else { "a statement: start, T, O or R" };
                return Err(misfit(&key, wanted, None));
            }
        }
    }
    let mut source = match source {
        Some(source) => source,
        None => parser.headers.source(parser.end)?,
    };
    // A model file is such a file too, and has its names in comments.
    let Counts { states, actions, observations } = source.counts;
    source.named = source.named.or(Named::of(file, states, actions, observations));
    Ok(source)
}

/// A word that does not fit.
fn misfit(word: &Word, wanted: &str, note: Option<String>) -> Vec<Told> {
    let help = word.encoding().map(|help| format!("help: {}", help));
    let notes = std::iter::once(format!("wanted: {}", wanted)).chain(note).chain(help).collect();
    let mark = Mark::new(word.span(), format!("found {}", word.quoted()));
    vec![Told { title: format!("{} does not fit here", word.quoted()), marks: vec![mark], notes }]
}

/// `start` behind a `reset`, which stands for the start numbers.
fn behind_reset(start: &Word, reset: &Range<usize>) -> Vec<Told> {
    vec![Told {
        title: "`start` stands behind a `reset`".to_string(),
        marks: vec![
            Mark::new(start.span(), "stated here"),
            Mark::new(reset.clone(), "this row is the start numbers, as they stand before it"),
        ],
        notes: vec!["wanted: `start` before the first `reset`".to_string()],
    }]
}

/// A list of states, actions or observations: how many, their names, and where it stands.
#[derive(Clone, Debug)]
struct List {
    count: usize,
    names: Names,
    span: Range<usize>,
}

/// The headers so far.
#[derive(Clone, Debug, Default)]
struct Headers {
    discount: Option<BigRational>,
    costs: bool,
    /// States, actions, observations.
    lists: [Option<List>; 3],
}

impl Headers {
    /// The model of which nothing but the headers is stated.
    fn source(&self, end: Range<usize>) -> Read<Source> {
        let missing = |key: &str, form: &str| Told {
            title: format!("the header `{}` is missing", key),
            marks: vec![Mark::new(end.clone(), "not found up to here")],
            notes: vec![format!("wanted: {}, before the first statement", form)],
        };
        let mut wrong = Vec::new();
        if self.discount.is_none() {
            wrong.push(missing("discount", "`discount:` and a number, such as 0.95"));
        }
        for ((key, most), list) in MOST.iter().zip(&self.lists) {
            match list {
                None => wrong.push(missing(key, &format!("`{}:` and how many there are, or their names", key))),
                Some(list) if list.count == 0 || list.count > *most => wrong.push(Told {
                    title: format!("the model has {} {}, and 1 to {} fit into a model file", list.count, key, most),
                    marks: vec![Mark::new(list.span.clone(), format!("{} {}", list.count, key))],
                    notes: vec!["the limits are 64 states, 8 actions and 8 observations".to_string()],
                }),
                Some(_) => {}
            }
        }
        match (&self.discount, &self.lists) {
            (Some(discount), [Some(states), Some(actions), Some(observations)]) if wrong.is_empty() => {
                let (n, m, k) = (states.count, actions.count, observations.count);
                let zero = BigRational::zero;
                Ok(Source {
                    counts: Counts { states: n, actions: m, observations: k },
                    named: Named {
                        states: states.names.clone(),
                        actions: actions.names.clone(),
                        observations: observations.names.clone(),
                    },
                    discount: discount.clone(),
                    start: uniform(n),
                    start_from: None,
                    transitions: Table::new(m, n, n, zero()),
                    observations: Table::new(m, n, k, zero()),
                    rewards: Table::new(m, n, n * k, zero()),
                })
            }
            _ => Err(wrong),
        }
    }
}

/// 1/n, n times.
fn uniform(count: usize) -> Vec<BigRational> {
    vec![BigRational::new(BigInt::one(), BigInt::from(count)); count]
}

struct Parser<'a> {
    words: Peekable<Words<'a>>,
    /// Where the last word that was taken ends.
    last: usize,
    headers: Headers,
    /// The first word `reset`, if there was one.
    reset: Option<Range<usize>>,
    /// Behind the last word of the file.
    end: Range<usize>,
}

impl<'a> Parser<'a> {
    /// Takes the next word, if there is one that meets a test.
    fn next_if(&mut self, test: impl Fn(&Word) -> bool) -> Option<Word<'a>> {
        let word = self.words.next_if(|word| test(word))?;
        self.last = word.span().end;
        Some(word)
    }

    fn word(&mut self, wanted: &str) -> Read<Word<'a>> {
        self.next_if(|_| true).ok_or_else(|| {
            vec![Told {
                title: "the file ends too early".to_string(),
                marks: vec![Mark::new(self.end.clone(), "a word is missing here")],
                notes: vec![format!("wanted: {}", wanted)],
            }]
        })
    }

    fn colon(&mut self) -> Read<()> {
        let word = self.word("a colon")?;
        if word.is(":") {
            Ok(())
        } else {
            Err(misfit(&word, "a colon", None))
        }
    }

    /// Whether the next word is this one; then it is taken.
    fn takes(&mut self, text: &str) -> bool {
        self.next_if(|word| word.is(text)).is_some()
    }

    fn number(&mut self, wanted: &str) -> Read<BigRational> {
        let word = self.word(wanted)?;
        decimal::parse(word.bytes).ok_or_else(|| misfit(&word, wanted, None))
    }

    /// So many numbers.
    fn numbers(&mut self, count: usize, wanted: &str) -> Read<Vec<BigRational>> {
        (1..=count).map(|at| self.number(&format!("{} ({} of {})", wanted, at, count))).collect()
    }

    fn header(&mut self, key: &Word<'a>) -> Read<()> {
        self.colon()?;
        match key.bytes {
            b"discount" => {
                let word = self.word("a discount, such as 0.95")?;
                let value = decimal::parse(word.bytes).filter(|value| !negative(value) && *value <= BigRational::one());
                self.headers.discount = Some(value.ok_or_else(|| misfit(&word, "a discount: 0 to 1", None))?);
            }
            b"values" => {
                let word = self.word("`reward` or `cost`")?;
                match word.bytes {
                    b"reward" => self.headers.costs = false,
                    b"cost" => self.headers.costs = true,
                    _ => return Err(misfit(&word, "`reward` or `cost`", None)),
                }
            }
            _ => {
                let kind = MOST.iter().position(|(name, _)| key.is(name)).unwrap_or(0);
                self.headers.lists[kind] = Some(self.list(key)?);
            }
        }
        Ok(())
    }

    /// A count, or names up to the next header or statement.
    fn list(&mut self, key: &Word<'a>) -> Read<List> {
        let wanted = "how many there are, or their names";
        let first = self.word(wanted)?;
        if let Some(count) = whole(first.bytes) {
            return Ok(List { count, names: Names::default(), span: key.place..first.span().end });
        }
        let mut names: Vec<String> = Vec::new();
        let mut word = first;
        loop {
            let text = String::from_utf8_lossy(word.bytes).to_string();
            if !is_name(&text) || KEYS.contains(&&text[..]) {
                return Err(misfit(
                    &word,
                    wanted,
                    Some("a name has a letter, then letters, digits, - and _".to_string()),
                ));
            }
            if names.contains(&text) {
                return Err(misfit(&word, "a name that was not yet given", None));
            }
            names.push(text);
            match self.next_if(|word| !KEYS.iter().any(|key| word.is(key))) {
                Some(next) => word = next,
                None => break,
            }
        }
        Ok(List { count: names.len(), names: Names::new(names), span: key.place..word.span().end })
    }

    /// The indices that a word stands for: a star for all, a number or a name for one.
    fn indices(&mut self, kind: &str, count: usize, names: &Names) -> Read<Range<usize>> {
        let wanted = format!("{} {}", if kind.starts_with(['a', 'o']) { "an" } else { "a" }, kind);
        let word = self.word(&wanted)?;
        if word.is("*") {
            return Ok(0..count);
        }
        let named = names.all().iter().position(|name| word.is(name));
        match named.or_else(|| whole(word.bytes)).filter(|&index| index < count) {
            Some(index) => Ok(index..index + 1),
            None => {
                let known = match names.all() {
                    [] => format!("the {}s are 0 to {}", kind, count - 1),
                    all => format!("the {}s are {}", kind, all.join(", ")),
                };
                Err(misfit(&word, &wanted, Some(known)))
            }
        }
    }

    /// A statement, of which the key was taken.
    fn statement(&mut self, key: &Word<'a>, mut source: Source) -> Read<Source> {
        if key.is("start") {
            if let Some(reset) = &self.reset {
                return Err(behind_reset(key, reset));
            }
            source.start = self.start(&source)?;
            source.start_from = Some(key.place..self.last);
            return Ok(source);
        }
        let Counts { states, actions, observations } = source.counts;
        self.colon()?;
        let acts = self.indices("action", actions, &source.named.actions)?;
        // The rows that are meant, the cells in each, and a number for each cell of each row.
        let (rows, cells, numbers) = match key.bytes {
            b"T" => self.probabilities(states, states, "state", &source)?,
            b"O" => self.probabilities(states, observations, "observation", &source)?,
            _ => self.rewards(&source)?,
        };
        let span = key.place..self.last;
        let table = match key.bytes {
            b"T" => &mut source.transitions,
            b"O" => &mut source.observations,
            _ => &mut source.rewards,
        };
        for action in acts {
            for row in rows.clone() {
                for (at, &cell) in cells.iter().enumerate() {
                    let number = numbers.of(row - rows.start, at);
                    table.state(action, row, cell, number, &span);
                }
            }
        }
        Ok(source)
    }

    /// What follows `T: a` or `O: a`: a matrix; or a state and a row; or a state, an index and a number.
    fn probabilities(&mut self, states: usize, width: usize, kind: &str, source: &Source) -> Read<Block> {
        let all = || (0..width).collect::<Vec<usize>>();
        let wanted = "a probability";
        if !self.takes(":") {
            let numbers = if self.takes("uniform") {
                Numbers::Row(uniform(width))
            } else if states == width && self.takes("identity") {
                let one = |cell: usize| if cell % (states + 1) == 0 { BigRational::one() } else { BigRational::zero() };
                Numbers::Matrix(width, (0..states * width).map(one).collect())
            } else {
                Numbers::Matrix(width, self.numbers(states * width, wanted)?)
            };
            return Ok((0..states, all(), numbers));
        }
        let rows = self.indices("state", states, &source.named.states)?;
        if !self.takes(":") {
            let row = if self.takes("uniform") {
                uniform(width)
            } else if kind == "state" && self.takes("reset") {
                self.reset = self.reset.take().or(Some(self.last - "reset".len()..self.last));
                source.start.clone()
            } else {
                self.numbers(width, wanted)?
            };
            return Ok((rows, all(), Numbers::Row(row)));
        }
        let names = if kind == "state" { &source.named.states } else { &source.named.observations };
        let cells = self.indices(kind, width, names)?.collect();
        Ok((rows, cells, Numbers::One(self.number(wanted)?)))
    }

    /// What follows `R: a`: `: s`, then a matrix by state reached and observation; or `: s'`, then a row by observation; or
    /// `: o` and a number.
    fn rewards(&mut self, source: &Source) -> Read<Block> {
        let Counts { states, observations, .. } = source.counts;
        let wanted = "a reward";
        self.colon()?;
        let rows = self.indices("state", states, &source.named.states)?;
        let cell = |reached: usize, seen: usize| reached * observations + seen;
        let (cells, numbers) = if !self.takes(":") {
            let numbers = self.numbers(states * observations, wanted)?;
            ((0..states * observations).collect(), Numbers::Row(numbers))
        } else {
            let reached = self.indices("state", states, &source.named.states)?;
            if !self.takes(":") {
                let row = self.numbers(observations, wanted)?;
                let cells = reached.clone().flat_map(|to| (0..observations).map(move |seen| cell(to, seen))).collect();
                let repeated = reached.flat_map(|_| row.clone()).collect();
                (cells, Numbers::Row(repeated))
            } else {
                let seen = self.indices("observation", observations, &source.named.observations)?;
                let cells = reached.flat_map(|to| seen.clone().map(move |seen| cell(to, seen))).collect();
                (cells, Numbers::One(self.number(wanted)?))
            }
        };
        let numbers = if self.headers.costs { numbers.negated() } else { numbers };
        Ok((rows, cells, numbers))
    }

    /// What follows `start`: a number for each state, one state, `uniform`, or `include` and `exclude` with states.
    fn start(&mut self, source: &Source) -> Read<Vec<BigRational>> {
        let states = source.counts.states;
        let names = &source.named.states;
        let included = self.takes("include");
        if included || self.takes("exclude") {
            self.colon()?;
            let mut listed = vec![false; states];
            loop {
                for state in self.indices("state", states, names)? {
                    listed[state] = true;
                }
                if self.words.peek().map_or(true, |word| KEYS.iter().any(|key| word.is(key))) {
                    break;
                }
            }
            let kept: Vec<bool> = listed.into_iter().map(|state| state == included).collect();
            let count = kept.iter().filter(|&&state| state).count();
            let share = |state: bool| match state {
                true => BigRational::new(BigInt::one(), BigInt::from(count)),
                false => BigRational::zero(),
            };
            return Ok(kept.into_iter().map(share).collect());
        }
        self.colon()?;
        if self.takes("uniform") {
            return Ok(uniform(states));
        }
        let wanted = "a number for each state, a state, or `uniform`";
        let first = self.word(wanted)?;
        let follows = self.words.peek().map_or(false, |word| decimal::parse(word.bytes).is_some());
        let named = names.all().iter().position(|name| first.is(name));
        // A number alone is a state, save that a model of one state may be given its probability.
        let alone = whole(first.bytes).filter(|&state| !follows && state < states);
        if let Some(at) = named.or(alone) {
            return Ok((0..states)
                .map(|state| if state == at { BigRational::one() } else { BigRational::zero() })
                .collect());
        }
        let number = decimal::parse(first.bytes).ok_or_else(|| misfit(&first, wanted, None))?;
        let mut numbers = vec![number];
        numbers.extend(self.numbers(states - 1, "a start number for each state")?);
        Ok(numbers)
    }
}

/// Rows, the cells in each that are stated, and their numbers.
type Block = (Range<usize>, Vec<usize>, Numbers);

/// The numbers of a statement.
#[derive(Clone, Debug)]
enum Numbers {
    /// For every cell of every row.
    One(BigRational),
    /// One for each cell, alike in every row.
    Row(Vec<BigRational>),
    /// Row after row, of this width.
    Matrix(usize, Vec<BigRational>),
}

impl Numbers {
    fn of(&self, row: usize, at: usize) -> BigRational {
        match self {
            Numbers::One(number) => number.clone(),
            Numbers::Row(row) => row[at].clone(),
            Numbers::Matrix(width, all) => all[row * width + at].clone(),
        }
    }

    fn negated(self) -> Numbers {
        let all = |numbers: Vec<BigRational>| numbers.into_iter().map(|number| -number).collect();
        match self {
            Numbers::One(number) => Numbers::One(-number),
            Numbers::Row(row) => Numbers::Row(all(row)),
            Numbers::Matrix(width, numbers) => Numbers::Matrix(width, all(numbers)),
        }
    }
}

/// A whole number in plain digits.
fn whole(word: &[u8]) -> Option<usize> {
    let digits = !word.is_empty() && word.iter().all(u8::is_ascii_digit);
    std::str::from_utf8(word).ok().filter(|_| digits)?.parse().ok()
}

fn negative(value: &BigRational) -> bool {
    *value < BigRational::zero()
}
