//! Tables of which each cell knows the statement that it comes from.

use std::ops::Range;

/// A table by action, state and a third index: its cells, the last index fastest.
#[derive(Clone, Debug)]
pub struct Table<Cell> {
    states: usize,
    width: usize,
    cells: Vec<Cell>,
    /// The statement that a cell was last stated by.
    from: Vec<Option<Range<usize>>>,
}

impl<Cell: Clone> Table<Cell> {
    /// A table of which no cell is stated.
    pub fn new(actions: usize, states: usize, width: usize, unstated: Cell) -> Table<Cell> {
        let size = actions * states * width;
        Table { states, width, cells: vec![unstated; size], from: vec![None; size] }
    }

    fn row(&self, action: usize, state: usize) -> Range<usize> {
        let first = (action * self.states + state) * self.width;
        first..first + self.width
    }

    /// A statement about one cell: it supersedes what stood there.
    pub fn state(&mut self, action: usize, state: usize, index: usize, value: Cell, statement: &Range<usize>) {
        let at = self.row(action, state).start + index;
        self.cells[at] = value;
        self.from[at] = Some(statement.clone());
    }

    /// The numbers of a row.
    pub fn numbers(&self, action: usize, state: usize) -> &[Cell] {
        &self.cells[self.row(action, state)]
    }

    /// The statements that a row comes from, in the file's order.
    pub fn statements(&self, action: usize, state: usize) -> Vec<Range<usize>> {
        let mut spans: Vec<Range<usize>> = self.from[self.row(action, state)].iter().flatten().cloned().collect();
        spans.sort_by_key(|span| span.start);
        spans.dedup();
        spans
    }
}

impl Table<i64> {
    /// The first row, by action and then by state, whose numbers do not have this total.
    pub fn off(&self, total: i64) -> Option<(usize, usize)> {
        let rows = self.cells.chunks(self.width);
        let wrong = rows.enumerate().find(|(_, row)| row.iter().sum::<i64>() != total);
        wrong.map(|(row, _)| (row / self.states, row % self.states))
    }
}
