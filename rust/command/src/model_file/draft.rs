//! What the statements of a file have said so far.

use super::Counts;
use crate::table::Table;
use std::ops::Range;

/// All that a file states.
#[derive(Clone, Debug)]
pub struct Draft {
    pub counts: Counts,
    /// In thousandths.
    pub discount: i64,
    /// In hundredths.
    pub start: Vec<i64>,
    pub start_from: Range<usize>,
    /// In thousandths, by action, state left, state reached.
    pub transitions: Table<i64>,
    /// In thousandths, by action, state reached, observation.
    pub observations: Table<i64>,
    /// In ticks, by action and state; or by action, state and (state reached) x observations + observation.
    pub rewards: Table<i64>,
}

impl Draft {
    /// Nothing but the headers, with rewards by action and state or by outcome.
    pub fn new(counts: Counts, discount: i64, start: Vec<i64>, start_from: Range<usize>, outcomes: bool) -> Draft {
        let Counts { states, actions, observations } = counts;
        Draft {
            counts,
            discount,
            start,
            start_from,
            transitions: Table::new(actions, states, states, 0),
            observations: Table::new(actions, states, observations, 0),
            rewards: Table::new(actions, states, if outcomes { states * observations } else { 1 }, 0),
        }
    }
}
