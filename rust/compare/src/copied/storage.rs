//! What is lent, in the storage of the reference, and what is written over it.

use super::{Copied, Slip};
use crate::lent::{self, front, narrowed, stored};
use biidhaqun::slices::{Certifier, Level, Tables};
use reference::{ACTIONS, OBSERVATIONS, POINTS, ROWS, STATES, VECTORS};

/// How long the slices of a level are at least.
pub(super) struct Needed {
    pub(super) vectors: usize,
    pub(super) choices: usize,
    pub(super) entries: usize,
    pub(super) states: usize,
    pub(super) weights: usize,
    pub(super) points: usize,
}

impl Needed {
    pub(super) fn of(vectors: usize, points: usize, n: usize, k: usize) -> Needed {
        Needed { vectors, choices: vectors * k, entries: vectors * n, states: n, weights: points * n, points }
    }
}

impl Copied {
    /// Whether a slice is long enough.
    pub(super) fn long<Of>(&self, slice: &[Of], needed: usize) -> bool {
        match self.slip {
            Some(Slip::ShortPasses) => true,
            Some(Slip::OneShortPasses) => slice.len() + 1 >= needed,
            Some(Slip::OneMoreAsked) => slice.len() > needed,
            Some(Slip::LongerRefused) => slice.len() == needed,
            _ => slice.len() >= needed,
        }
    }

    /// Whether masks are as many as vectors.
    pub(super) fn masks_long(&self, masks: &[u64], vectors: usize) -> bool {
        self.long(masks, vectors) || self.has(Slip::MasksUnasked)
    }

    /// How long the slices of a level are asked to be.
    pub(super) fn asked(&self, vectors: usize, points: usize, n: usize, k: usize) -> Needed {
        let vectors = if self.has(Slip::LengthsOfFirst) { vectors.min(32) } else { vectors };
        Needed::of(vectors, points, n, k)
    }

    pub fn tables(&self, lent: &Tables) -> reference::Tables {
        let mut tables = reference::Tables::default();
        let mut cut = lent.clone();
        match self.slip {
            Some(Slip::StatesCut) => cut.states = cut.states.min(STATES),
            Some(Slip::ActionsCut) => cut.actions = cut.actions.min(ACTIONS),
            Some(Slip::ObservationsCut) => cut.observations = cut.observations.min(OBSERVATIONS),
            _ => {}
        }
        let lent = &cut;
        if !lent.counts_fit() || (lent.states > 16 && self.has(Slip::SixteenStates)) {
            return tables;
        }
        tables.states = lent.states as u64;
        tables.actions = lent.actions as u64;
        tables.observations = lent.observations as u64;
        tables.discount = lent.discount;
        let (t, o, r) = tables.cells_used();
        if !(self.long(&lent.transition, t) && self.long(&lent.observation, o) && self.long(&lent.reward, r)) {
            return reference::Tables::default();
        }
        tables.transitions = stored(&lent.transition, t, t);
        tables.sights = stored(&lent.observation, o, o);
        tables.rewards = stored(&lent.reward, r, r);
        tables
    }

    /// A level in slices, or none where a count is outside its limit or a slice is too short.
    pub(super) fn level(&self, lent: &Level, n: usize, k: usize) -> reference::Level {
        let none = reference::Level::default();
        // The limits are the reference's to test; one vector or point more is enough to break them.
        if lent.vectors > VECTORS + 1 || lent.points > POINTS + 1 {
            return none;
        }
        let asked = self.asked(lent.vectors, lent.points, n, k);
        let long = self.long(&lent.actions, asked.vectors)
            && self.long(&lent.choices, asked.choices)
            && self.masks_long(&lent.masks, asked.vectors)
            && self.long(&lent.entries, asked.entries)
            && self.long(&lent.corners, asked.states)
            && self.long(&lent.weights, asked.weights)
            && self.long(&lent.values, asked.points);
        if !long {
            return none;
        }
        let needed = Needed::of(lent.vectors, lent.points, n, k);
        let mut level = reference::Level {
            vectors: lent.vectors as u64,
            actions: stored(&lent.actions, needed.vectors, needed.vectors),
            choices: stored(&lent.choices, needed.choices, needed.choices),
            masks: stored(&lent.masks, needed.vectors, needed.vectors),
            entries: stored(&lent.entries, needed.entries, needed.entries),
            corners: stored(&lent.corners, needed.states, needed.states),
            points: lent.points as u64,
            weights: stored(&lent.weights, needed.weights, needed.weights),
            values: stored(&lent.values, needed.points, needed.points),
        };
        if self.has(Slip::MasksInHalf) {
            level.masks.iter_mut().for_each(|mask| *mask &= u64::from(u32::MAX));
        }
        if self.has(Slip::VectorsByLimit) {
            for v in 0..lent.vectors {
                for s in 0..n {
                    level.entries[v * n + s] = lent.entries.get(v * STATES + s).copied().unwrap_or(0);
                }
            }
            for j in 0..lent.points {
                for s in 0..n {
                    level.weights[j * n + s] = lent.weights.get(j * STATES + s).copied().unwrap_or(0).into();
                }
            }
        }
        level
    }

    /// Where in a slice an action's entry at a state lies.
    fn row_cell(&self, tables: &reference::Tables, a: usize, s: usize) -> usize {
        match self.slip {
            Some(Slip::RowsByState) => s * tables.actions as usize + a,
            Some(Slip::RowsByLimit) => a * STATES + s,
            _ => a * tables.states as usize + s,
        }
    }

    /// Rows in storage; cells that a slice has not are 0.
    fn rows(&self, tables: &reference::Tables, slice: &[i64]) -> Vec<i64> {
        let mut rows = vec![0; ROWS];
        let n = tables.states as usize;
        for (at, cell) in rows.iter_mut().enumerate().take(tables.actions as usize * n) {
            *cell = slice.get(self.row_cell(tables, at / n, at % n)).copied().unwrap_or(0);
        }
        rows
    }

    /// Writes rows of storage, as far as the slice goes.
    pub(super) fn lay_rows(&self, tables: &reference::Tables, rows: &[i64], slice: &mut [i64]) {
        let n = tables.states as usize;
        let used = tables.actions as usize * n;
        if matches!(self.slip, Some(Slip::RowsByState | Slip::RowsByLimit)) {
            for (at, &row) in rows[..used].iter().enumerate() {
                if let Some(cell) = slice.get_mut(self.row_cell(tables, at / n, at % n)) {
                    *cell = row;
                }
            }
        } else {
            self.lay(&rows[..used], slice);
        }
    }

    /// The informed and the QMDP slice.
    pub(super) fn row_slices<'a>(&self, lent: &'a mut Certifier) -> (&'a mut Vec<i64>, &'a mut Vec<i64>) {
        let Certifier { informed, qmdp, .. } = lent;
        if self.has(Slip::RowsExchanged) {
            (qmdp, informed)
        } else {
            (informed, qmdp)
        }
    }

    /// Whether both kinds of rows are long enough.
    pub(super) fn rows_long(&self, lent: &Certifier, needed: usize) -> bool {
        (self.long(&lent.informed, needed) || self.has(Slip::InformedUnasked))
            && (self.long(&lent.qmdp, needed) || self.has(Slip::QmdpUnasked))
    }

    /// What stands. Its choices are not read, so they are not asked for.
    pub(super) fn standing(&self, tables: &Tables, lent: &Certifier) -> reference::Certifier {
        let tables = self.tables(tables);
        let (n, k) = (tables.states as usize, tables.observations as usize);
        let at = |at: usize| lent.state.get(at).copied().unwrap_or(0);
        let (vectors, points) = if self.has(Slip::StateInOtherOrder) { (at(2), at(1)) } else { (at(1), at(2)) };
        let asked = vectors.min(VECTORS + 1) * k;
        let choices = stored(&lent.choices, asked, asked);
        let rows = tables.actions as usize * n;
        let long = self.long(&lent.state, 3) && (self.rows_long(lent, rows) || self.has(Slip::RowsAskedAsRoom));
        let level = Level {
            vectors: if long { vectors } else { 0 },
            points,
            actions: lent.actions.clone(),
            choices: if self.has(Slip::StandingChoicesAsked) { lent.choices.clone() } else { choices },
            masks: lent.masks.clone(),
            entries: lent.entries.clone(),
            corners: lent.corners.clone(),
            weights: lent.weights.clone(),
            values: lent.values.clone(),
        };
        let mut copy = lent.clone();
        let (informed, qmdp) = self.row_slices(&mut copy);
        let (informed, qmdp) = (self.rows(&tables, informed), self.rows(&tables, qmdp));
        reference::Certifier { standing: self.level(&level, n, k), level: at(0) as u64, tables, informed, qmdp }
    }

    /// Whether a certifier's slices have room for a level.
    pub(super) fn receives(&self, lent: &Certifier, needed: &Needed) -> bool {
        self.long(&lent.state, 3)
            && self.long(&lent.actions, needed.vectors)
            && self.long(&lent.choices, needed.choices)
            && self.masks_long(&lent.masks, needed.vectors)
            && self.long(&lent.entries, needed.entries)
            && self.long(&lent.corners, needed.states)
            && self.long(&lent.weights, needed.weights)
            && self.long(&lent.values, needed.points)
    }

    /// Whether the slices of a level to be made have room for it.
    pub(super) fn has_room(&self, level: &Level, needed: &Needed) -> bool {
        self.long(&level.actions, needed.vectors)
            && self.long(&level.choices, needed.choices)
            && self.masks_long(&level.masks, needed.vectors)
            && self.long(&level.entries, needed.entries)
            && self.long(&level.corners, needed.states)
            && self.long(&level.values, needed.points)
    }

    /// Writes cells at the front of a slice.
    pub(super) fn lay<Of: lent::Cell>(&self, cells: &[Of], slice: &mut [Of]) {
        let (front, past) = slice.split_at_mut(cells.len().min(slice.len()));
        front.copy_from_slice(&cells[..front.len()]);
        if self.has(Slip::PastCleared) {
            past.fill(Of::default());
        }
    }

    /// Writes a level that stands.
    pub(super) fn stand(&self, standing: &reference::Certifier, lent: &mut Certifier) {
        let (n, k) = (standing.tables.states as usize, standing.tables.observations as usize);
        let level = &standing.standing;
        let first = self.has(Slip::FirstCopied) && standing.level > 0;
        let copied = if first { level.vectors.min(32) } else { level.vectors };
        let needed = Needed::of(copied as usize, level.points as usize, n, k);
        let mut state = [standing.level as usize, level.vectors as usize, level.points as usize];
        if self.has(Slip::CountsKept) && standing.level > 0 {
            state[1..].copy_from_slice(&lent.state[1..3]);
        }
        if self.has(Slip::NumberKept) && standing.level > 0 {
            state[0] -= 1;
        }
        self.lay(&state, &mut lent.state);
        self.lay(&narrowed(&level.actions, needed.vectors), &mut lent.actions);
        self.lay(&narrowed(&level.choices, needed.choices), &mut lent.choices);
        let left = if standing.level > 0 { Slip::MasksLeft } else { Slip::OpeningLeavesMask };
        if !self.has(left) {
            self.lay(front(&level.masks, needed.vectors), &mut lent.masks);
        }
        self.lay(front(&level.entries, needed.entries), &mut lent.entries);
        self.lay(front(&level.corners, needed.states), &mut lent.corners);
        if standing.level > 0 {
            self.lay(&narrowed(&level.weights, needed.weights), &mut lent.weights);
            self.lay(front(&level.values, needed.points), &mut lent.values);
        }
        if standing.level > 0 || !self.has(Slip::OpeningLeavesRows) {
            let (informed, qmdp) = self.row_slices(lent);
            self.lay_rows(&standing.tables, &standing.informed, informed);
            self.lay_rows(&standing.tables, &standing.qmdp, qmdp);
        }
    }

    /// Writes a level that was made.
    pub(super) fn write(&self, made: &reference::Level, needed: &Needed, level: &mut Level) {
        self.lay(&narrowed(&made.actions, needed.vectors), &mut level.actions);
        self.lay(&narrowed(&made.choices, needed.choices), &mut level.choices);
        self.lay(&made.masks[..needed.vectors], &mut level.masks);
        self.lay(&made.entries[..needed.entries], &mut level.entries);
        self.lay(&made.corners[..needed.states], &mut level.corners);
        self.lay(&made.values[..needed.points], &mut level.values);
    }
}
