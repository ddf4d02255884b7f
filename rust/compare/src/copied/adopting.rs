//! Levels from a solver's files, by the reference.

use super::storage::Needed;
use super::{Copied, Slip, NINE};
use crate::lent::stored;
use biidhaqun::slices::{Certifier, Level, Tables};
use reference::{BUILT_POINTS, STATES, VECTORS};

impl Copied {
    /// How many vectors the level has that is made and written. Where a slice has no room for it, or for so many points, it
    /// is as if too many points were given.
    pub(super) fn adopted(
        &self,
        tables: &Tables,
        lent: &Certifier,
        (alpha, graph): (&[u8], &[u8]),
        (points, count): (&[u32], usize),
        level: &mut Level,
    ) -> Result<usize, reference::Refusal> {
        let standing = self.standing(tables, lent);
        let (n, k) = (standing.tables.states as usize, standing.tables.observations as usize);
        let few = count.min(BUILT_POINTS + 1);
        let read = reference::adopted_vectors(&standing, alpha, graph, &self.rules);
        let needed = |vectors: usize| Needed::of(vectors, few, n, k);
        let wanted = match &read {
            Ok(_) if self.has(Slip::AdoptedRoomForMost) => VECTORS,
            Ok(vectors) => (*vectors).min(VECTORS),
            Err(_) => 0,
        };
        let room = self.has_room(level, &needed(wanted));
        if !room && self.has(Slip::AdoptedRoomFirst) {
            return Err(NINE);
        }
        let fits = self.long(points, few * n) && (room || self.has(Slip::AdoptedRoomAtTheEnd));
        let given = reference::Points {
            count: if fits { few as u64 } else { BUILT_POINTS as u64 + 1 },
            weights: stored(points, few * n, (BUILT_POINTS + 1) * STATES),
        };
        let made = reference::adopt(&standing, alpha, graph, &given, &self.rules)?;
        if !room {
            return Err(NINE);
        }
        let needed = needed(made.vectors as usize);
        self.write(&made, &needed, level);
        let counted = if self.has(Slip::AdoptedPointsCounted) { needed.points } else { 0 };
        Ok(needed.vectors + counted)
    }
}
