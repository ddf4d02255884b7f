//! The model: tables as they are handed in, and the model that they state.

use crate::exact::{k, weights};
use crate::refusal::Refusal;
use crate::rules::{Rules, Trap};
use num_bigint::BigInt;

/// At most so many states.
pub const STATES: usize = 64;
/// At most so many actions.
pub const ACTIONS: usize = 8;
/// At most so many observations.
pub const OBSERVATIONS: usize = 8;
/// What a row of T or of O totals, and the most that the discount is.
pub const THOUSAND: u64 = 1_000;
/// Rewards lie within this many ticks of 0.
pub const REWARD: i64 = 100_000;

/// Tables of any content, in lists of any length: the cells in use come first.
#[derive(Clone, Debug, Default, PartialEq, Eq)]
pub struct Tables {
    pub states: u64,
    pub actions: u64,
    pub observations: u64,
    pub discount: u64,
    /// T by action, state left, state reached.
    pub transitions: Vec<u64>,
    /// O by action, state reached, observation.
    pub sights: Vec<u64>,
    /// R by action, state left.
    pub rewards: Vec<i64>,
}

impl Tables {
    /// Tables with these counts, which are within their limits, and zeros.
    pub fn zeros(states: u64, actions: u64, observations: u64) -> Tables {
        let counts = Tables { states, actions, observations, ..Tables::default() };
        let (transitions, sights, rewards) = counts.cells_used();
        Tables { transitions: vec![0; transitions], sights: vec![0; sights], rewards: vec![0; rewards], ..counts }
    }

    /// Where T(s, a, s') lies.
    pub fn transition_cell(&self, a: usize, s: usize, s2: usize) -> usize {
        let n = self.states as usize;
        (a * n + s) * n + s2
    }

    /// Where O(a, s', o) lies.
    pub fn sight_cell(&self, a: usize, s2: usize, o: usize) -> usize {
        (a * self.states as usize + s2) * self.observations as usize + o
    }

    /// Where R(s, a) lies.
    pub fn reward_cell(&self, a: usize, s: usize) -> usize {
        a * self.states as usize + s
    }

    /// Where the reward of an outcome lies: by action, state left, state reached, observation.
    pub fn outcome_cell(&self, a: usize, s: usize, s2: usize, o: usize) -> usize {
        self.transition_cell(a, s, s2) * self.observations as usize + o
    }

    /// Whether the counts are within their limits. Nothing else is looked into unless they are.
    pub fn counts_fit(&self) -> bool {
        self.counts_within(0)
    }

    /// Whether the counts are within their limits or one past them: whoever tries the limits lends as much as these need.
    pub fn counts_nearly_fit(&self) -> bool {
        self.counts_within(1)
    }

    fn counts_within(&self, past: u64) -> bool {
        let fits = |count: u64, limit: usize| count >= 1 && count <= limit as u64 + past;
        fits(self.states, STATES) && fits(self.actions, ACTIONS) && fits(self.observations, OBSERVATIONS)
    }

    /// How many cells of T, of O and of R are in use.
    pub fn cells_used(&self) -> (usize, usize, usize) {
        let (n, m, k) = (self.states as usize, self.actions as usize, self.observations as usize);
        (m * n * n, m * n * k, m * n)
    }

    /// 3 on tables: counts, discount, probabilities and rewards within their limits, and no list shorter than the counts need.
    fn within_limits(&self, rules: &Rules) -> bool {
        if !self.counts_fit() || self.discount > THOUSAND + u64::from(rules.has(Trap::DiscountOneMore)) {
            return false;
        }
        let (transitions, sights, rewards) = self.cells_used();
        if self.transitions.len() < transitions || self.sights.len() < sights || self.rewards.len() < rewards {
            return false;
        }
        let reward = REWARD + i64::from(rules.has(Trap::RewardTickMore));
        let probability = |&cell: &u64| cell <= THOUSAND || rules.has(Trap::ProbabilityUnlimited);
        self.transitions[..transitions].iter().all(probability)
            && self.sights[..sights].iter().all(probability)
            && self.rewards[..rewards].iter().all(|&cell| (-reward..=reward).contains(&cell))
    }

    /// The first row that `wrong` picks, by action and then by state; by a trap the other way round.
    fn first_row(&self, rules: &Rules, wrong: impl Fn(usize, usize) -> bool) -> Option<(usize, usize)> {
        let (n, m) = (self.states as usize, self.actions as usize);
        let row = |at: usize| if rules.has(Trap::RowsByState) { (at % m, at / m) } else { (at / n, at % n) };
        (0..m * n).map(row).find(|&(a, s)| wrong(a, s))
    }

    /// The row of T for an action and a state left.
    fn transition_row(&self, a: usize, s: usize) -> &[u64] {
        let at = self.transition_cell(a, s, 0);
        &self.transitions[at..at + self.states as usize]
    }

    /// The row of O for an action and a state reached.
    fn sight_row(&self, a: usize, s2: usize) -> &[u64] {
        let at = self.sight_cell(a, s2, 0);
        &self.sights[at..at + self.observations as usize]
    }

    /// 5: the first row of T that does not total 1,000.
    pub fn wrong_transition_row(&self, rules: &Rules) -> Option<(usize, usize)> {
        self.first_row(rules, |a, s| total(self.transition_row(a, s)) != BigInt::from(THOUSAND))
    }

    /// 6: the first row of O that does not total 1,000.
    pub fn wrong_sight_row(&self, rules: &Rules) -> Option<(usize, usize)> {
        self.first_row(rules, |a, s2| total(self.sight_row(a, s2)) != BigInt::from(THOUSAND))
    }

    /// 5 for a reader that passes rows of zeros.
    pub fn wrong_transition_row_but_zeros(&self, rules: &Rules) -> Option<(usize, usize)> {
        self.first_row(rules, |a, s| wrong_but_zeros(self.transition_row(a, s)))
    }

    /// 6 for a reader that passes rows of zeros.
    pub fn wrong_sight_row_but_zeros(&self, rules: &Rules) -> Option<(usize, usize)> {
        self.first_row(rules, |a, s2| wrong_but_zeros(self.sight_row(a, s2)))
    }

    /// What is kept of tables within the limits: the cells in use.
    pub fn stored(&self) -> Tables {
        let (transitions, sights, rewards) = self.cells_used();
        Tables {
            transitions: self.transitions[..transitions].to_vec(),
            sights: self.sights[..sights].to_vec(),
            rewards: self.rewards[..rewards].to_vec(),
            ..*self
        }
    }
}

/// What a row totals.
fn total(row: &[u64]) -> BigInt {
    weights(row).iter().sum()
}

/// Whether a row is neither 0 throughout nor 1,000 in total.
fn wrong_but_zeros(row: &[u64]) -> bool {
    let total = total(row);
    total != BigInt::from(0) && total != BigInt::from(THOUSAND)
}

/// The model that tables within the limits state.
#[derive(Clone, Debug)]
pub struct Model {
    pub n: usize,
    pub m: usize,
    pub k: usize,
    discount: BigInt,
    transitions: Vec<BigInt>,
    sights: Vec<BigInt>,
    rewards: Vec<BigInt>,
    rules: Rules,
}

impl Model {
    /// The model of tables, or their refusal: 3 at 0, then 5 and 6 at action × n + state.
    pub fn of(tables: &Tables, rules: &Rules) -> Result<Model, Refusal> {
        if !tables.within_limits(rules) {
            return Err(Refusal::at(3, 0));
        }
        let n = if rules.has(Trap::RowsByLimit) { STATES } else { tables.states as usize };
        let mut tests = [(5, tables.wrong_transition_row(rules)), (6, tables.wrong_sight_row(rules))];
        if rules.has(Trap::SightRowsFirst) {
            tests.reverse();
        }
        for (number, wrong) in tests {
            let late = |&(action, state): &(usize, usize)| action * n + state >= 128 && rules.has(Trap::RowsOfFirst);
            if let Some((action, state)) = wrong.filter(|row| !late(row)) {
                return Err(Refusal::at_index(number, action * n + state));
            }
        }
        let (transitions, sights, rewards) = tables.cells_used();
        Ok(Model {
            n: tables.states as usize,
            m: tables.actions as usize,
            k: tables.observations as usize,
            discount: BigInt::from(tables.discount),
            transitions: weights(&tables.transitions[..transitions]),
            sights: weights(&tables.sights[..sights]),
            rewards: tables.rewards[..rewards].iter().map(|&cell| BigInt::from(cell)).collect(),
            rules: *rules,
        })
    }

    /// T(s, a, s').
    pub fn t(&self, s: usize, a: usize, s2: usize) -> &BigInt {
        &self.transitions[(a * self.n + s) * self.n + s2]
    }

    /// O(a, s', o).
    pub fn o(&self, a: usize, s2: usize, o: usize) -> &BigInt {
        &self.sights[(a * self.n + s2) * self.k + o]
    }

    /// R(s, a).
    pub fn r(&self, s: usize, a: usize) -> &BigInt {
        &self.rewards[a * self.n + s]
    }

    /// The discount g.
    pub fn g(&self) -> &BigInt {
        &self.discount
    }

    /// T × O: from s by a to s' with o seen there.
    fn step(&self, s: usize, a: usize, s2: usize, o: usize) -> BigInt {
        let seen_at = if self.rules.has(Trap::SightAtStateLeft) { s } else { s2 };
        self.t(s, a, s2) * self.o(a, seen_at, o)
    }

    /// Successor weights: q(s') is the sum over s of p(s) × T(s, a, s') × O(a, s', o). States without weight add nothing.
    pub fn successor(&self, p: &[BigInt], a: usize, o: usize) -> Vec<BigInt> {
        let weighed: Vec<usize> = (0..self.n).filter(|&s| p[s] != BigInt::from(0)).collect();
        let q = |s2| weighed.iter().map(|&s| &p[s] * self.step(s, a, s2, o)).sum();
        (0..self.n).map(q).collect()
    }

    /// p·R(·, a).
    pub fn rewarded(&self, p: &[BigInt], a: usize) -> BigInt {
        (0..self.n).map(|s| &p[s] * self.r(s, a)).sum()
    }

    /// K × R(s, a) + g × the sum over s' and o of T × O × (what `next` has for o and s'). States that are not reached add
    /// nothing.
    pub fn backup<'a>(&self, s: usize, a: usize, next: impl Fn(usize, usize) -> &'a BigInt) -> BigInt {
        let mut sum = BigInt::from(0);
        for s2 in (0..self.n).filter(|&s2| *self.t(s, a, s2) != BigInt::from(0)) {
            for o in 0..self.k {
                sum += self.step(s, a, s2, o) * next(o, s2);
            }
        }
        k() * self.r(s, a) + self.g() * sum
    }
}
