//! Lists of offers, by the reference: each is offered upon what the one before left.

use super::storage::Needed;
use super::{Copied, Slip, NINE};
use biidhaqun::slices::{Certifier, Level, Offers, Tables};
use reference::{POINTS, VECTORS};

/// So many cells of a slice, behind so many others.
fn cut<Of: Copy>(slice: &[Of], before: usize, length: usize) -> Vec<Of> {
    slice.iter().skip(before).take(length).copied().collect()
}

impl Copied {
    /// How many offers of a list are accepted.
    pub(super) fn replayed(
        &self,
        tables: &Tables,
        lent: &mut Certifier,
        offers: &Offers,
    ) -> Result<usize, reference::Refusal> {
        let standing = self.standing(tables, lent);
        let (n, k) = (standing.tables.states as usize, standing.tables.observations as usize);
        if self.has(Slip::ListBeforeCertifier) && !self.list_fits(offers, tables.states, tables.observations) {
            return Err(NINE);
        }
        // No vectors are refused in any case: by 7 upon a certifier that breaks its limits, else by 8 or 9.
        let nothing = reference::offer(&mut standing.clone(), &reference::Level::default(), &self.rules);
        nothing.or_else(|refusal| if refusal.number == 7 { Err(refusal) } else { Ok(()) })?;
        if !self.list_fits(offers, n, k) {
            return Err(NINE);
        }
        let block = Needed::of(offers.block_vectors, offers.block_points, n, k);
        if self.has(Slip::RoomForBlocksAsked) && !self.receives(lent, &block) {
            return Err(NINE);
        }
        let before = lent.clone();
        if self.has(Slip::ListReopens) {
            self.opened(tables, lent)?;
        }
        let mut accepted = 0;
        // Only a slip lets a list pass that has fewer counts than offers.
        for at in 0..offers.count.min(offers.vectors.len()) {
            let at = if self.has(Slip::FirstBlockOnly) { 0 } else { at };
            let ended = self.offered(tables, &[], lent, &self.offer_in(offers, at, n, k));
            accepted += usize::from(ended.is_ok() || self.has(Slip::RefusedOfferCounted));
            if ended.is_err() && self.has(Slip::ListStops) {
                break;
            }
            if ended.is_err() && self.has(Slip::ListUndone) {
                *lent = before.clone();
                accepted = 0;
            }
        }
        Ok(accepted)
    }

    /// 9: whether the blocks are no larger than a level may be, and no slice is too short for so many.
    fn list_fits(&self, offers: &Offers, n: usize, k: usize) -> bool {
        let Offers { count, block_vectors, block_points, .. } = *offers;
        let blocks = |rows: usize, cells: usize| count.saturating_mul(rows).saturating_mul(cells);
        let long = || {
            self.long(&offers.vectors, count)
                && self.long(&offers.points, count)
                && self.long(&offers.actions, blocks(block_vectors, 1))
                && self.long(&offers.choices, blocks(block_vectors, k))
                && self.masks_long(&offers.masks, blocks(block_vectors, 1))
                && self.long(&offers.entries, blocks(block_vectors, n))
                && self.long(&offers.corners, blocks(1, n))
                && self.long(&offers.weights, blocks(block_points, n))
                && self.long(&offers.values, blocks(block_points, 1))
        };
        let within = |counts: &[usize], room: usize| counts.iter().take(count).all(|&count| count <= room);
        let fit = || within(&offers.vectors, block_vectors) && within(&offers.points, block_points);
        let most = if self.has(Slip::SmallBlocks) { 32 } else { VECTORS };
        ((block_vectors <= most && block_points <= POINTS) || self.has(Slip::LargeBlocksPass))
            && (long() || self.has(Slip::ShortListPasses))
            && (fit() || !self.has(Slip::LargeOfferRefusesAll))
    }

    /// The level at the front of a block, in slices as long as the block.
    fn offer_in(&self, offers: &Offers, at: usize, n: usize, k: usize) -> Level {
        let count = |counts: &[usize]| counts.get(at).copied().unwrap_or(0);
        let (vectors, points) = (count(&offers.vectors), count(&offers.points));
        let (mut v, mut p) = (offers.block_vectors, offers.block_points);
        let (mut vectors_before, mut points_before) = (at * v, at * p);
        if self.has(Slip::BlocksByCounts) {
            let before = |counts: &[usize]| counts.iter().take(at).map(|&count| count.min(VECTORS)).sum();
            (vectors_before, points_before) = (before(&offers.vectors), before(&offers.points));
        }
        if self.has(Slip::BlocksRunOn) {
            (v, p) = (vectors.min(VECTORS), points.min(POINTS));
        }
        Level {
            vectors,
            points,
            actions: cut(&offers.actions, vectors_before, v),
            choices: cut(&offers.choices, vectors_before * k, v * k),
            masks: cut(&offers.masks, vectors_before, v),
            entries: cut(&offers.entries, vectors_before * n, v * n),
            corners: cut(&offers.corners, at * n, n),
            weights: cut(&offers.weights, points_before * n, p * n),
            values: cut(&offers.values, points_before, p),
        }
    }
}
