//! Reading the model file.

use crate::model::{Tables, ACTIONS, OBSERVATIONS, REWARD, STATES, THOUSAND};
use crate::refusal::Refusal;
use crate::rules::{Rules, Trap};
use crate::words::{
    index_form, is_keyword, number_form, reward_form, whole_part, Form, Reader, Word, PROBABILITY, START,
};
use num_bigint::BigInt;

/// A file has at most this many bytes.
pub const FILE_BYTES: usize = 32_768;

/// What a file that reads holds: its tables, and its start numbers in hundredths, one for each state.
#[derive(Clone, Debug, PartialEq, Eq)]
pub struct Reading {
    pub tables: Tables,
    pub start: Vec<u64>,
}

/// Reads a model file, or refuses it with 1 to 6.
///
/// Words are taken in order, and each is tested for its form (2) before its limit (3). Totals (4 to 6) are tested after
/// the last statement, and their place is the file's length.
pub fn read(file: &[u8], rules: &Rules) -> Result<Reading, Refusal> {
    read_into(file, |_| true, rules)
}

/// The same into slices that may be too short: 3 at 0 where they have no room for tables of the file's counts, once these are
/// read.
pub fn read_into(file: &[u8], has_room: impl Fn(&Tables) -> bool, rules: &Rules) -> Result<Reading, Refusal> {
    Ok(stated(file, has_room, false, rules)?.0)
}

/// A file whose rewards may depend on the state reached and on the observation: what it holds, with no rewards among its tables,
/// and the rewards by action, state left, state reached and observation.
pub fn read_outcomes(file: &[u8], rules: &Rules) -> Result<(Reading, Vec<i64>), Refusal> {
    stated(file, |_| true, true, rules)
}

/// What a file states, and its rewards by outcome if these are asked for; or 1 to 6.
pub fn stated(
    file: &[u8],
    has_room: impl Fn(&Tables) -> bool,
    outcomes: bool,
    rules: &Rules,
) -> Result<(Reading, Vec<i64>), Refusal> {
    let too_long = file.len() > FILE_BYTES || (file.len() == FILE_BYTES && rules.has(Trap::LengthOffByOne));
    if too_long {
        return Err(Refusal::at(1, 0));
    }
    let end = match file.iter().position(|&byte| byte == 0) {
        Some(nul) if rules.has(Trap::NulEndsFile) => nul,
        _ => file.len(),
    };
    let mut reader = Reader::new(&file[..end], rules);
    let mut stated = reader.header(has_room)?;
    if outcomes {
        stated.outcomes = Some(Outcomes::zeros(&stated.tables));
    }
    while let Some(word) = reader.next() {
        reader.statement(&word, &mut stated)?;
    }
    stated.finished(end, rules)
}

/// Rewards by outcome, as they are stated.
struct Outcomes {
    /// By action, state left, state reached and observation.
    rewards: Vec<i64>,
    /// Which of them were stated, and by action and state what was stated last: only traps ask.
    stated: Vec<bool>,
    last: Vec<i64>,
}

impl Outcomes {
    fn zeros(tables: &Tables) -> Outcomes {
        let (_, sights, rewards) = tables.cells_used();
        let cells = sights * tables.states as usize;
        Outcomes { rewards: vec![0; cells], stated: vec![false; cells], last: vec![0; rewards] }
    }

    /// A statement's reward for one outcome: it supersedes what stood there.
    fn supersede(&mut self, at: usize, reward: i64, rules: &Rules) {
        if !(self.stated[at] && rules.has(Trap::EarlierRewardWins)) {
            self.rewards[at] = reward;
        }
        self.stated[at] = true;
    }

    /// The rewards after the last statement.
    fn finished(self, rules: &Rules) -> Vec<i64> {
        let Outcomes { mut rewards, stated, last } = self;
        if rules.has(Trap::UnstatedFromBefore) {
            let width = rewards.len() / last.len();
            for (at, reward) in rewards.iter_mut().enumerate().filter(|(at, _)| !stated[*at]) {
                *reward = last[at / width];
            }
        }
        rewards
    }
}

/// What was stated up to some word.
struct Stated {
    tables: Tables,
    start: Vec<u64>,
    /// Which entries of T, O and R were stated: only the trap about earlier statements asks.
    transitions: Vec<bool>,
    sights: Vec<bool>,
    rewards: Vec<bool>,
    /// The rewards, where they may depend on the outcome.
    outcomes: Option<Outcomes>,
}

impl Stated {
    /// The totals, in order: start, the rows of T, the rows of O.
    fn finished(self, length: usize, rules: &Rules) -> Result<(Reading, Vec<i64>), Refusal> {
        let started = start_total(&self.start, length);
        if !rules.has(Trap::RowsBeforeStart) {
            started?;
        }
        let mut tests = [(5, self.tables.wrong_transition_row(rules)), (6, self.tables.wrong_sight_row(rules))];
        if rules.has(Trap::UnstatedRowsPass) {
            tests = [
                (5, self.tables.wrong_transition_row_but_zeros(rules)),
                (6, self.tables.wrong_sight_row_but_zeros(rules)),
            ];
        }
        if rules.has(Trap::SightRowsFirst) {
            tests.reverse();
        }
        for (number, wrong) in tests {
            if let Some((action, state)) = wrong {
                let row = action * self.tables.states as usize + state;
                let place = if rules.has(Trap::RowPlaceInFile) { row } else { length };
                return Err(Refusal::at_index(number, place));
            }
        }
        started?;
        let outcomes = self.outcomes.map_or(Vec::new(), |outcomes| outcomes.finished(rules));
        Ok((Reading { tables: self.tables, start: self.start }, outcomes))
    }
}

/// The start numbers total 1, or 4 at the file's length.
fn start_total(start: &[u64], length: usize) -> Result<(), Refusal> {
    if start.iter().sum::<u64>() == 100 {
        Ok(())
    } else {
        Err(Refusal::at_index(4, length))
    }
}

/// A statement's value for one entry: it supersedes what stood there.
fn supersede<Cell: Copy + std::ops::AddAssign>(
    cells: &mut [Cell],
    stated: &mut [bool],
    at: usize,
    value: Cell,
    rules: &Rules,
) {
    if rules.has(Trap::StatementsAdd) {
        cells[at] += value;
    } else if !(stated[at] && rules.has(Trap::EarlierStatementWins)) {
        cells[at] = value;
    }
    stated[at] = true;
}

impl<'a> Reader<'a> {
    /// The next word; a missing one gets 2.
    fn word(&mut self) -> Result<Word<'a>, Refusal> {
        self.word_or(2)
    }

    /// This word and no other, or 2.
    fn keyword(&mut self, keyword: &str) -> Result<(), Refusal> {
        let word = self.word()?;
        if is_keyword(&word, keyword, self.rules) {
            Ok(())
        } else {
            Err(self.at(2, &word))
        }
    }

    /// The form of a word (2), then its limits (3).
    fn within(&self, word: &Word, value: Option<BigInt>, unit: i64, least: i64, most: i64) -> Result<i64, Refusal> {
        let whole_part_large = whole_part(word.bytes).map_or(false, |whole| whole * unit > BigInt::from(most));
        if self.rules.has(Trap::LimitBeforeForm) && whole_part_large {
            return Err(self.at(3, word));
        }
        let value = value.ok_or_else(|| self.at(2, word))?;
        let large = if self.rules.has(Trap::LimitBeforeExponent) && word.bytes.contains(&b'e') {
            whole_part_large
        } else {
            value > BigInt::from(most)
        };
        if value < BigInt::from(least) || large {
            return Err(self.at(3, word));
        }
        i64::try_from(&value).map_err(|_| self.at(3, word))
    }

    /// A count: one or two digits, 1 to its limit.
    fn count(&mut self, limit: usize) -> Result<u64, Refusal> {
        let word = self.word()?;
        let value = index_form(word.bytes, self.rules);
        let most = limit as i64 + i64::from(self.rules.has(Trap::CountsOneMore));
        self.within(&word, value, 1, 1, most).map(|count| count as u64)
    }

    /// The indices that a word stands for: a star for all below the count, or one or two digits for one of them.
    fn indices(&mut self, count: u64) -> Result<Vec<usize>, Refusal> {
        let word = self.word()?;
        if word.bytes == b"*" {
            let all = if self.rules.has(Trap::StarMeansZero) { 1 } else { count as usize };
            return Ok((0..all).collect());
        }
        let last = count as i64 - 1 - i64::from(self.rules.has(Trap::LastIndexRefused));
        let value = index_form(word.bytes, self.rules);
        let index = self.within(&word, value, 1, 0, last)?;
        Ok(vec![index as usize])
    }

    /// The number that a word states in a form of one whole digit: 0 to 1, unless this trap wants no limit but the form.
    fn up_to_one(&self, word: &Word, form: Form, open: Trap) -> Result<u64, Refusal> {
        let unit = 10_i64.pow(form.decimals as u32);
        let most = if self.rules.has(open) { 9_999 * unit } else { unit };
        if self.rules.has(Trap::MinusInProbability) {
            if let Some(rest) = word.bytes.strip_prefix(b"-") {
                let value = number_form(rest, form, self.rules).map(|value| -value);
                return self.within(word, value, unit, 0, unit).map(|number| number as u64);
            }
        }
        let value = number_form(word.bytes, form, self.rules);
        self.within(word, value, unit, 0, most).map(|number| number as u64)
    }

    /// `count` probabilities, of which the first word was already taken.
    fn row(&mut self, first: Word, count: u64) -> Result<Vec<u64>, Refusal> {
        let mut row = vec![self.up_to_one(&first, PROBABILITY, Trap::ProbabilityAboveOne)?];
        while (row.len() as u64) < count {
            let word = self.word()?;
            row.push(self.up_to_one(&word, PROBABILITY, Trap::ProbabilityAboveOne)?);
        }
        Ok(row)
    }

    /// A reward in ticks: -1000.00 to 1000.00.
    fn reward(&mut self) -> Result<i64, Refusal> {
        let word = self.word()?;
        let value = reward_form(word.bytes, self.rules);
        let least = if self.rules.has(Trap::RewardLowEndOpen) { -999_999 } else { -REWARD };
        let most = if self.rules.has(Trap::RewardHighEndOpen) { 999_999 } else { REWARD };
        self.within(&word, value, 100, least, most)
    }

    /// The six lines that come first and in order: discount, values, the counts, start.
    fn header(&mut self, has_room: impl Fn(&Tables) -> bool) -> Result<Stated, Refusal> {
        self.keyword("discount")?;
        self.keyword(":")?;
        let word = self.word()?;
        let discount = self.up_to_one(&word, PROBABILITY, Trap::DiscountAboveOne)?;
        self.keyword("values")?;
        self.keyword(":")?;
        self.keyword("reward")?;
        self.keyword("states")?;
        self.keyword(":")?;
        let states = self.count(STATES)?;
        self.keyword("actions")?;
        self.keyword(":")?;
        let actions = self.count(ACTIONS)?;
        self.keyword("observations")?;
        self.keyword(":")?;
        let observations = self.count(OBSERVATIONS)?;
        let tables = Tables { discount, ..Tables::zeros(states, actions, observations) };
        if !has_room(&tables) {
            return Err(Refusal::at(3, 0));
        }
        self.keyword("start")?;
        self.keyword(":")?;
        let mut start = vec![0; states as usize];
        for number in &mut start {
            let word = self.word()?;
            *number = self.up_to_one(&word, START, Trap::StartAboveOne)?;
        }
        if self.rules.has(Trap::StartTotalEarly) {
            start_total(&start, self.file.len())?;
        }
        Ok(Stated {
            transitions: vec![false; tables.transitions.len()],
            sights: vec![false; tables.sights.len()],
            rewards: vec![false; tables.rewards.len()],
            outcomes: None,
            tables,
            start,
        })
    }

    /// One statement, of which the first word was already taken.
    fn statement(&mut self, first: &Word, stated: &mut Stated) -> Result<(), Refusal> {
        if is_keyword(first, "T", self.rules) {
            self.transition(stated)
        } else if is_keyword(first, "O", self.rules) {
            self.sight(stated)
        } else if is_keyword(first, "R", self.rules) && stated.outcomes.is_some() {
            self.outcome(stated)
        } else if is_keyword(first, "R", self.rules) {
            self.rewarded(stated)
        } else {
            Err(self.at(2, first))
        }
    }

    /// `T: a : s : s' p`, or `T: a : s` and n numbers. After s, a colon opens the first form.
    fn transition(&mut self, stated: &mut Stated) -> Result<(), Refusal> {
        let tables = &mut stated.tables;
        let (actions, states) = self.action_and_state(tables)?;
        let (reached, row) = self.single_or_row(tables.states, 5)?;
        for &a in &actions {
            for &s in &states {
                for &s2 in &reached {
                    let at = tables.transition_cell(a, s, s2);
                    supersede(&mut tables.transitions, &mut stated.transitions, at, row[s2], self.rules);
                }
            }
        }
        Ok(())
    }

    /// `O: a : s' : o p`, or `O: a : s'` and k numbers.
    fn sight(&mut self, stated: &mut Stated) -> Result<(), Refusal> {
        let tables = &mut stated.tables;
        let (actions, reached) = self.action_and_state(tables)?;
        let (seen, row) = self.single_or_row(tables.observations, 6)?;
        for &a in &actions {
            for &s2 in &reached {
                for &o in &seen {
                    let at = tables.sight_cell(a, s2, o);
                    supersede(&mut tables.sights, &mut stated.sights, at, row[o], self.rules);
                }
            }
        }
        Ok(())
    }

    /// `R: a : s : * : * r`.
    fn rewarded(&mut self, stated: &mut Stated) -> Result<(), Refusal> {
        let tables = &mut stated.tables;
        let (actions, states) = self.action_and_state(tables)?;
        for count in [tables.states, tables.observations] {
            self.keyword(":")?;
            if self.rules.has(Trap::RewardIndices) {
                self.indices(count)?;
            } else {
                self.keyword("*")?;
            }
        }
        let reward = self.reward()?;
        for &a in &actions {
            for &s in &states {
                let at = tables.reward_cell(a, s);
                supersede(&mut tables.rewards, &mut stated.rewards, at, reward, self.rules);
            }
        }
        Ok(())
    }

    /// `R: a : s : s' : o r`.
    fn outcome(&mut self, stated: &mut Stated) -> Result<(), Refusal> {
        let Stated { tables, outcomes, .. } = stated;
        let (actions, states) = self.action_and_state(tables)?;
        self.keyword(":")?;
        let reached = self.indices(tables.states)?;
        self.keyword(":")?;
        let seen = self.indices(tables.observations)?;
        let reward = self.reward()?;
        if let Some(outcomes) = outcomes {
            for &a in &actions {
                for &s in &states {
                    outcomes.last[tables.reward_cell(a, s)] = reward;
                    for &s2 in &reached {
                        for &o in &seen {
                            outcomes.supersede(tables.outcome_cell(a, s, s2, o), reward, self.rules);
                        }
                    }
                }
            }
        }
        Ok(())
    }

    /// `: a : s`, with which all statements begin.
    fn action_and_state(&mut self, tables: &Tables) -> Result<(Vec<usize>, Vec<usize>), Refusal> {
        self.keyword(":")?;
        let actions = self.indices(tables.actions)?;
        self.keyword(":")?;
        let states = self.indices(tables.states)?;
        Ok((actions, states))
    }

    /// A colon, indices and one number for them, or a number for each index: the indices that are stated, and a row that
    /// holds their numbers. `number` is the refusal of a wrong total of such a row.
    fn single_or_row(&mut self, count: u64, number: u8) -> Result<(Vec<usize>, Vec<u64>), Refusal> {
        let word = self.word()?;
        if word.bytes == b":" {
            let indices = self.indices(count)?;
            let word = self.word()?;
            let probability = self.up_to_one(&word, PROBABILITY, Trap::ProbabilityAboveOne)?;
            return Ok((indices, vec![probability; count as usize]));
        }
        let row = self.row(word, count)?;
        if self.rules.has(Trap::RowTotalEarly) && row.iter().sum::<u64>() != THOUSAND {
            return Err(Refusal::at_index(number, self.file.len()));
        }
        Ok(((0..count as usize).collect(), row))
    }
}
