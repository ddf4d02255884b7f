//! The counts of a model.

use crate::slices::Tables;

/// The counts of a model.
#[derive(Clone, Copy, Debug, PartialEq, Eq, Hash)]
pub struct Shape {
    /// 1 to 64.
    pub states: usize,
    /// 1 to 8.
    pub actions: usize,
    /// 1 to 8.
    pub observations: usize,
}

impl Shape {
    /// The counts that tables state.
    pub fn of(tables: &Tables) -> Shape {
        Shape { states: tables.states, actions: tables.actions, observations: tables.observations }
    }
}
