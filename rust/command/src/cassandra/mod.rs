//! Files in Cassandra's POMDP format as the literature uses it, turned into model files.
//!
//! [`read`] takes such a file with numbers of any length, exactly; [`fit`] brings them to the model file's thousandths,
//! hundredths and ticks and lists what it changed; [`write`] puts them down. Whether the outcome is read is asked of the
//! library by whoever calls this.

mod decimal;
mod fitting;
mod parsing;
mod writing;

pub use fitting::{fit, Fitted};
pub use parsing::read;
pub use writing::write;

use crate::model_file::Counts;
use crate::names::Named;
use crate::table::Table;
use num_rational::BigRational;
use std::ops::Range;

/// A model as its author stated it.
#[derive(Clone, Debug)]
pub struct Source {
    pub counts: Counts,
    pub named: Named,
    pub discount: BigRational,
    /// One number for each state, and the statement that it comes from; uniform if there is none.
    pub start: Vec<BigRational>,
    pub start_from: Option<Range<usize>>,
    /// By action, state left, state reached.
    pub transitions: Table<BigRational>,
    /// By action, state reached, observation.
    pub observations: Table<BigRational>,
    /// By action, state left, and (state reached) x observations + observation. A cost is a negative reward.
    pub rewards: Table<BigRational>,
}
