//! The reader that explains: words in order, form before limit, totals after the last statement.

use super::draft::Draft;
use super::hints::{is_number_like, Want};
use super::{Counts, Trouble};
use crate::names::Named;
use crate::numerals::{shown, Form, INDEX, PROBABILITY, REWARD, START};
use crate::table::Table;
use crate::told::{Mark, Told};
use crate::words::{end, Word, Words};
use std::ops::Range;

/// The most bytes of a file.
const FILE_BYTES: usize = 32_768;
const STATES: usize = 64;
const ACTIONS: usize = 8;
const OBSERVATIONS: usize = 8;
/// The most states of a model that is converted.
const WRITTEN_STATES: usize = 16;
/// The largest reward, in ticks.
const TICKS: i64 = 100_000;
const THOUSAND: i64 = 1_000;
const HUNDRED: i64 = 100;

/// What a file states, or why it is refused.
pub fn judge(file: &[u8]) -> Result<Draft, Trouble> {
    judged(file, false)
}

/// What a file states whose rewards may depend on what follows, or why it is not converted.
pub fn judge_outcomes(file: &[u8]) -> Result<Draft, Trouble> {
    let draft = judged(file, true)?;
    if draft.counts.states > WRITTEN_STATES {
        return Err(Trouble {
            number: 25,
            place: 0,
            told: Told {
                title: format!("the model has {} states, and at most 16 are converted", draft.counts.states),
                marks: Vec::new(),
                notes: vec![
                    "wanted: expected rewards, as `R: a : s : * : *` and a number, which need no conversion: then up to \
                     64 states are read"
                        .to_string(),
                    "help: `biidhaqun import` works them out for up to 64 states; it is not proved, but says what it rounds"
                        .to_string(),
                ],
            },
        });
    }
    expected(&draft, file)?;
    Ok(draft)
}

/// What a file states, with rewards by action and state or by outcome.
fn judged(file: &[u8], outcomes: bool) -> Result<Draft, Trouble> {
    if file.len() > FILE_BYTES {
        return Err(Trouble {
            number: 1,
            place: 0,
            told: Told {
                title: "the file has more than 32,768 bytes".to_string(),
                marks: Vec::new(),
                notes: vec!["leave out comments and blanks; one star stands for many statements".to_string()],
            },
        });
    }
    let mut reading = Reading { words: Words::of(file), file, outcomes, before: "start" };
    let mut draft = reading.headers()?;
    while let Some(word) = reading.words.next() {
        reading.statement(&word, &mut draft)?;
    }
    totals(&draft, file)?;
    Ok(draft)
}

/// Indices with their numbers.
type Cells = Vec<(usize, i64)>;

struct Reading<'a> {
    words: Words<'a>,
    file: &'a [u8],
    /// Whether rewards go by outcome.
    outcomes: bool,
    /// The key of the header or statement that was read last.
    before: &'static str,
}

impl<'a> Reading<'a> {
    /// The next word, or 2 at the file's length.
    fn word(&mut self, want: Want) -> Result<Word<'a>, Trouble> {
        let length = self.file.len();
        self.words.next().ok_or_else(|| Trouble {
            number: 2,
            place: length,
            told: Told {
                title: "the file ends too early".to_string(),
                marks: vec![Mark::new(end(self.file), "a word is missing here")],
                notes: vec![format!("wanted: {}", want.text())],
            },
        })
    }

    /// A word that must be this one.
    fn fixed(&mut self, wanted: &'static str) -> Result<Word<'a>, Trouble> {
        self.wanted(wanted, Want::Word(wanted))
    }

    /// A colon of a statement of this form, or of a header.
    fn colon(&mut self, form: Option<&'static str>) -> Result<Word<'a>, Trouble> {
        self.wanted(":", Want::Colon(form))
    }

    fn wanted(&mut self, text: &str, want: Want) -> Result<Word<'a>, Trouble> {
        let word = self.word(want)?;
        if word.is(text) {
            Ok(word)
        } else {
            Err(misfit(&word, want, None))
        }
    }

    /// `key :`.
    fn header(&mut self, key: &'static str) -> Result<Word<'a>, Trouble> {
        let word = self.fixed(key)?;
        self.colon(None)?;
        Ok(word)
    }

    fn count(&mut self, kind: &'static str, most: usize) -> Result<usize, Trouble> {
        let want = Want::Count(kind, most);
        let word = self.word(want)?;
        Ok(value(&word, INDEX, 1, most as i64, want)? as usize)
    }

    /// The numbers that a word stands for: a star for all, or one.
    fn indices(&mut self, kind: &'static str, count: usize) -> Result<Range<usize>, Trouble> {
        let want = Want::Index(kind, count);
        let word = self.word(want)?;
        if word.is("*") {
            return Ok(0..count);
        }
        let index = value(&word, INDEX, 0, count as i64 - 1, want)? as usize;
        Ok(index..index + 1)
    }

    fn headers(&mut self) -> Result<Draft, Trouble> {
        self.header("discount")?;
        let word = self.word(Want::Discount)?;
        let discount = value(&word, PROBABILITY, 0, THOUSAND, Want::Discount)?;
        self.header("values")?;
        self.fixed("reward")?;
        self.header("states")?;
        let states = self.count("states", STATES)?;
        self.header("actions")?;
        let actions = self.count("actions", ACTIONS)?;
        self.header("observations")?;
        let observations = self.count("observations", OBSERVATIONS)?;
        let mut span = self.header("start")?.span();
        let mut start = Vec::new();
        for _ in 0..states {
            let word = self.word(Want::Start)?;
            start.push(value(&word, START, 0, HUNDRED, Want::Start)?);
            span.end = word.span().end;
        }
        let counts = Counts { states, actions, observations };
        Ok(Draft::new(counts, discount, start, span, self.outcomes))
    }

    /// A statement, of which the first word was taken.
    fn statement(&mut self, key: &Word, draft: &mut Draft) -> Result<(), Trouble> {
        let Counts { states, actions, observations } = draft.counts;
        let (table, form) = match key.bytes {
            b"T" => (&mut draft.transitions, "T: a : s"),
            b"O" => (&mut draft.observations, "O: a : s"),
            b"R" if self.outcomes => (&mut draft.rewards, "R: a : s : s' : o"),
            b"R" => (&mut draft.rewards, "R: a : s : * : *"),
            _ => return Err(misfit(key, Want::Statement(self.before), None)),
        };
        self.colon(Some(form))?;
        let actions = self.indices("action", actions)?;
        self.colon(Some(form))?;
        let lefts = self.indices("state", states)?;
        let (cells, end) = match key.bytes {
            b"T" => self.single_or_row("state", states)?,
            b"O" => self.single_or_row("observation", observations)?,
            _ if self.outcomes => self.outcome(form, states, observations)?,
            _ => self.reward(form)?,
        };
        self.before = &form[..1];
        let span = key.place..end;
        for action in actions {
            for state in lefts.clone() {
                for &(index, number) in &cells {
                    table.state(action, state, index, number, &span);
                }
            }
        }
        Ok(())
    }

    /// A colon, an index and one number, or a number for each index: the indices stated with their numbers, and the end.
    fn single_or_row(&mut self, kind: &'static str, count: usize) -> Result<(Cells, usize), Trouble> {
        let mut word = self.word(Want::Probability)?;
        if word.is(":") {
            let indices = self.indices(kind, count)?;
            let word = self.word(Want::Probability)?;
            let number = value(&word, PROBABILITY, 0, THOUSAND, Want::Probability)?;
            return Ok((indices.map(|index| (index, number)).collect(), word.span().end));
        }
        let mut numbers = Vec::new();
        loop {
            numbers.push(value(&word, PROBABILITY, 0, THOUSAND, Want::Probability)?);
            if numbers.len() == count {
                return Ok((numbers.into_iter().enumerate().collect(), word.span().end));
            }
            word = self.word(Want::Probability)?;
        }
    }

    /// `: * : * r`.
    fn reward(&mut self, form: &'static str) -> Result<(Cells, usize), Trouble> {
        for _ in 0..2 {
            self.colon(Some(form))?;
            self.fixed("*")?;
        }
        let (ticks, end) = self.ticks()?;
        Ok((vec![(0, ticks)], end))
    }

    /// `: s' : o r`.
    fn outcome(&mut self, form: &'static str, states: usize, observations: usize) -> Result<(Cells, usize), Trouble> {
        self.colon(Some(form))?;
        let reached = self.indices("state", states)?;
        self.colon(Some(form))?;
        let seen = self.indices("observation", observations)?;
        let (ticks, end) = self.ticks()?;
        let cells = reached.flat_map(|state| seen.clone().map(move |seen| (state * observations + seen, ticks)));
        Ok((cells.collect(), end))
    }

    /// A reward, and the end.
    fn ticks(&mut self) -> Result<(i64, usize), Trouble> {
        let word = self.word(Want::Reward)?;
        Ok((value(&word, REWARD, -TICKS, TICKS, Want::Reward)?, word.span().end))
    }
}

/// The number of a word: form (2), then limit (3).
fn value(word: &Word, form: Form, least: i64, most: i64, want: Want) -> Result<i64, Trouble> {
    let value = form.value(word.bytes).map_err(|reason| misfit(word, want, Some(reason)))?;
    if (least..=most).contains(&value) {
        return Ok(value);
    }
    Err(Trouble {
        number: 3,
        place: word.place,
        told: Told {
            title: format!("{} is outside its limit", word.quoted()),
            marks: vec![Mark::new(word.span(), "outside its limit")],
            notes: vec![format!("wanted: {}", want.text())],
        },
    })
}

/// A word that does not fit (2).
fn misfit(word: &Word, want: Want, reason: Option<String>) -> Trouble {
    let mut notes = vec![format!("wanted: {}", want.text())];
    notes.extend(want.hint(word).map(|hint| format!("help: {}", hint)));
    let text = match reason {
        Some(reason) if is_number_like(word.bytes) => reason,
        _ => format!("found {}", word.quoted()),
    };
    Trouble {
        number: 2,
        place: word.place,
        told: Told {
            title: format!("{} does not fit here", word.quoted()),
            marks: vec![Mark { span: word.span(), text }],
            notes,
        },
    }
}

/// Totals: the start numbers (4), the rows of T (5), the rows of O (6).
fn totals(draft: &Draft, file: &[u8]) -> Result<(), Trouble> {
    let sum: i64 = draft.start.iter().sum();
    if sum != HUNDRED {
        return Err(Trouble {
            number: 4,
            place: file.len(),
            told: Told {
                title: format!("the start numbers total {}", shown(sum, 2)),
                marks: vec![Mark { span: draft.start_from.clone(), text: added(&draft.start, 2) }],
                notes: vec!["wanted: a total of 1".to_string()],
            },
        });
    }
    let Counts { states, actions, observations } = draft.counts;
    let named = Named::of(file, states, actions, observations);
    let row = |number: u64, table: &Table<i64>, about: &dyn Fn(usize, usize) -> String| match table.off(THOUSAND) {
        Some((action, state)) => Err(row_off(number, table, action, state, about(action, state), file)),
        None => Ok(()),
    };
    row(5, &draft.transitions, &|action, state| {
        format!("T of action {} from state {}", named.actions.or_number(action), named.states.or_number(state))
    })?;
    row(6, &draft.observations, &|action, state| {
        format!("O of action {} at state {}", named.actions.or_number(action), named.states.or_number(state))
    })
}

/// Expected rewards that are no whole ticks: 26.
fn expected(draft: &Draft, file: &[u8]) -> Result<(), Trouble> {
    let Counts { states, actions, observations } = draft.counts;
    for action in 0..actions {
        for state in 0..states {
            let reached = draft.transitions.numbers(action, state).iter().enumerate();
            let sum: i64 = reached
                .map(|(to, chance)| {
                    let seen = draft.observations.numbers(action, to);
                    let rewards = &draft.rewards.numbers(action, state)[to * observations..];
                    chance * seen.iter().zip(rewards).map(|(seen, reward)| seen * reward).sum::<i64>()
                })
                .sum();
            if sum % (THOUSAND * THOUSAND) != 0 {
                return Err(unwhole(draft, action, state, sum, file));
            }
        }
    }
    Ok(())
}

/// An expected reward that is no whole number of ticks.
fn unwhole(draft: &Draft, action: usize, state: usize, sum: i64, file: &[u8]) -> Trouble {
    let Counts { states, actions, observations } = draft.counts;
    let named = Named::of(file, states, actions, observations);
    let of = (named.actions.or_number(action), named.states.or_number(state));
    let statements = draft.rewards.statements(action, state).into_iter().rev();
    let marks = statements.map(|span| Mark { span, text: "rewards that make it up come from here".to_string() });
    Trouble {
        number: 26,
        place: action * states + state,
        told: Told {
            title: format!("the expected reward of action {} at state {} is {}", of.0, of.1, shown(sum, 8)),
            marks: marks.collect(),
            notes: vec![
                "wanted: at most two decimals; the reward of each outcome counts by T x O, and what is not stated \
                         earns 0. `biidhaqun import --round` rounds"
                    .to_string(),
            ],
        },
    }
}

/// A row whose total is not 1: 5 or 6.
fn row_off(number: u64, table: &Table<i64>, action: usize, state: usize, about: String, file: &[u8]) -> Trouble {
    let numbers = table.numbers(action, state);
    let sum: i64 = numbers.iter().sum();
    let mut marks: Vec<Mark> = table
        .statements(action, state)
        .into_iter()
        .rev()
        .map(|span| Mark { span, text: "numbers of the row come from here".to_string() })
        .collect();
    match marks.first_mut() {
        Some(mark) => mark.text = format!("the row is {}", added(numbers, 3)),
        None => marks.push(Mark::new(end(file), "no statement gave the row up to here")),
    }
    Trouble {
        number,
        place: file.len(),
        told: Told {
            title: format!("{} totals {}", about, shown(sum, 3)),
            marks,
            notes: vec!["wanted: a total of 1; later statements supersede earlier ones, and what is not stated is 0"
                .to_string()],
        },
    }
}

/// Numbers and their total: `0.5 + 0.4 = 0.9`.
fn added(numbers: &[i64], decimals: u32) -> String {
    let terms: Vec<String> = numbers.iter().map(|&number| shown(number, decimals)).collect();
    format!("{} = {}", terms.join(" + "), shown(numbers.iter().sum(), decimals))
}
