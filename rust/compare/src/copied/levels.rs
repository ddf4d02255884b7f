//! Levels that stand, are offered, are built and are moved to new prices, and lists of transitions, by the reference.

use super::storage::Needed;
use super::{Copied, Slip, NINE};
use crate::lent::{front, narrowed, stored};
use biidhaqun::slices::{Certifier, Level, Tables};
use reference::{ACTIONS, BUILT_POINTS, LIST, OBSERVATIONS, STATES};

impl Copied {
    pub(super) fn opened(&self, tables: &Tables, lent: &mut Certifier) -> Result<(), reference::Refusal> {
        let (n, m) = (tables.states.min(STATES), tables.actions.min(ACTIONS));
        let needed = Needed::of(1, 0, n, tables.observations.min(OBSERVATIONS));
        let rows = self.rows_long(lent, m * n);
        let room = || match self.receives(lent, &needed) && rows {
            true => Ok(()),
            false if self.has(Slip::RowsAskedAtOpening) && !rows => Err(reference::Refusal::at(7, 0)),
            false if self.has(Slip::RoomByHundred) => Err(reference::Refusal::at(100, 0)),
            false => Err(NINE),
        };
        if self.has(Slip::RoomFirst) {
            room()?;
        }
        let opened = reference::open(&self.tables(tables), &self.rules)?;
        room()?;
        self.stand(&opened, lent);
        if self.has(Slip::OpeningClearsPoints) {
            lent.weights.fill(0);
            lent.values.fill(0);
        }
        Ok(())
    }

    /// A call that is handed a list with a certifier's tables.
    fn by_list<Answer>(
        &self,
        standing: &mut reference::Certifier,
        list: &[u32],
        call: impl Fn(&mut reference::Certifier) -> Result<Answer, reference::Refusal>,
    ) -> Result<Answer, reference::Refusal> {
        let words: Vec<u64> = match self.slip {
            Some(Slip::ListUntested) => Vec::new(),
            Some(Slip::ListWanted) if list.is_empty() => vec![0],
            _ => list.iter().map(|&word| word.into()).collect(),
        };
        if self.has(Slip::ListTestedLate) {
            call(&mut standing.clone())?;
        }
        reference::by_list(standing, &words, &self.rules, call)
    }

    /// Writes the list of tables.
    pub(super) fn listed(&self, tables: &Tables, list: &mut [u32]) -> Result<(), reference::Refusal> {
        // A slip about lengths has its own say on the room.
        let room = if self.slip.is_some() { LIST } else { list.len() };
        let words = reference::list(&self.tables(tables), room, &self.rules)?;
        if !self.long(list, words.len()) {
            return Err(NINE);
        }
        self.lay(&narrowed(&words, words.len()), list);
        Ok(())
    }

    /// Moves what stands to new tables.
    pub(super) fn repriced(
        &self,
        tables: &Tables,
        new: &Tables,
        lent: &mut Certifier,
    ) -> Result<(), reference::Refusal> {
        let mut standing = self.standing(tables, lent);
        let mut next = new.clone();
        if self.has(Slip::NewByOldCounts) {
            (next.states, next.actions, next.observations) = (tables.states, tables.actions, tables.observations);
        }
        let moved = reference::reprice(&mut standing, &self.tables(&next), &self.rules);
        moved.map_err(|refusal| match refusal.number {
            3 | 5 | 6 if self.has(Slip::NewTablesBySeven) => reference::Refusal::at(7, 0),
            _ => refusal,
        })?;
        let level = &standing.standing;
        self.lay(&[standing.level as usize], &mut lent.state);
        let few = if self.has(Slip::FirstMoved) { 32 * standing.tables.states as usize } else { level.entries.len() };
        self.lay(front(&level.entries, few), &mut lent.entries);
        self.lay(&level.corners, &mut lent.corners);
        self.lay(&level.values, &mut lent.values);
        let (informed, qmdp) = self.row_slices(lent);
        self.lay_rows(&standing.tables, &standing.informed, informed);
        self.lay_rows(&standing.tables, &standing.qmdp, qmdp);
        Ok(())
    }

    pub(super) fn offered(
        &self,
        tables: &Tables,
        list: &[u32],
        lent: &mut Certifier,
        level: &Level,
    ) -> Result<(), reference::Refusal> {
        let mut standing = self.standing(tables, lent);
        let (n, k) = (standing.tables.states as usize, standing.tables.observations as usize);
        let mut offered = self.level(level, n, k);
        let needed = self.asked(offered.vectors as usize, offered.points as usize, n, k);
        let rows = standing.tables.actions as usize * n;
        let receives = self.receives(lent, &needed) && self.rows_long(lent, rows);
        if !receives && !self.has(Slip::ReceivingAtTheEnd) {
            offered = reference::Level::default();
        }
        let answer = self.by_list(&mut standing, list, |by| reference::offer(by, &offered, &self.rules));
        if answer.is_err() && standing != self.standing(tables, lent) {
            // Only a trap changes a certifier that refuses.
            self.stand(&standing, lent);
        }
        answer?;
        if !receives && self.has(Slip::ReceivingAtTheEnd) {
            return Err(NINE);
        }
        self.stand(&standing, lent);
        if self.has(Slip::PastCopied) {
            let whole = lent.entries.len().min(level.entries.len());
            lent.entries[..whole].copy_from_slice(&level.entries[..whole]);
        }
        Ok(())
    }

    pub(super) fn built(
        &self,
        tables: &Tables,
        list: &[u32],
        lent: &Certifier,
        (count, points): (usize, &[u32]),
        level: &mut Level,
    ) -> Result<(), reference::Refusal> {
        let mut standing = self.standing(tables, lent);
        let (n, k) = (standing.tables.states as usize, standing.tables.observations as usize);
        let few = count.min(BUILT_POINTS + 1);
        let needed = Needed::of(n + few, few, n, k);
        let room = self.has_room(level, &needed);
        let fits = self.long(points, needed.weights) && (room || self.has(Slip::BuiltRoomAtTheEnd));
        let given = reference::Points {
            count: if fits { few as u64 } else { BUILT_POINTS as u64 + 1 },
            weights: stored(points, needed.weights, (BUILT_POINTS + 1) * STATES),
        };
        let built = self.by_list(&mut standing, list, |by| reference::build(by, &given, &self.rules))?;
        if !room {
            return Err(NINE);
        }
        let masks = level.masks.clone();
        self.write(&built, &needed, level);
        if self.has(Slip::BuiltMasksLeft) {
            level.masks = masks;
        }
        Ok(())
    }
}
