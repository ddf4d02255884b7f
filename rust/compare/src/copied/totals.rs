//! Totals at mixtures and within ranges, by the reference.

use super::{refused, Copied, Slip, NINE};
use crate::lent::{front, stored};
use biidhaqun::slices::{Answers, Certifier, Refusal, Tables, Totals, TotalsWithin};
use num_bigint::BigInt;
use reference::STATES;

/// A total as it is answered; the largest number stands for one that has no room.
pub(super) fn ticks(total: &BigInt) -> i64 {
    i64::try_from(total).unwrap_or(i64::MAX)
}

impl Copied {
    /// Totals at a mixture.
    pub(super) fn totals_at(&self, tables: &Tables, certifier: &Certifier, mixture: &[u32]) -> Totals {
        let standing = self.standing(tables, certifier);
        let n = standing.tables.states as usize;
        let count = if self.long(mixture, n) { n } else { 0 };
        match reference::totals(&standing, &stored(mixture, count, STATES), &self.rules) {
            Ok(totals) => {
                let mut ceilings = (ticks(&totals.sawtooth), ticks(&totals.informed));
                if self.has(Slip::CeilingsExchanged) {
                    ceilings = (ceilings.1, ceilings.0);
                }
                Totals {
                    lower: ticks(&totals.lower),
                    upper: ticks(&totals.upper),
                    gap: ticks(&totals.gap),
                    action: totals.action as usize,
                    sawtooth: ceilings.0,
                    informed: ceilings.1,
                    ..Totals::default()
                }
            }
            Err(refusal) => {
                let Refusal { number, place } = refused(refusal);
                let left = i64::from(self.has(Slip::RefusedTotals));
                let ceiling = i64::from(self.has(Slip::RefusedCeilings));
                let (sawtooth, informed) = (ceiling, ceiling);
                Totals { number, place, lower: left, upper: left, sawtooth, informed, ..Totals::default() }
            }
        }
    }

    /// Totals one by one, where 7 and 16 pass: that is asked at a mixture within the limits.
    pub(super) fn each_of(
        &self,
        tables: &Tables,
        lent: &Certifier,
        (count, mixtures): (usize, &[u32]),
        answers: &mut Answers,
    ) -> Result<(), reference::Refusal> {
        let n = self.standing(tables, lent).tables.states as usize;
        let ended = |at: Totals| match at.number {
            0 => Ok(at),
            number => Err(reference::Refusal::at(number as u8, at.place as u64)),
        };
        ended(self.totals_at(tables, lent, &[1; STATES])).or_else(|refusal| match refusal.number {
            7 | 16 => Err(refusal),
            _ => Ok(Totals::default()),
        })?;
        let enough = count.checked_mul(n).map_or(false, |needed| self.long(mixtures, needed));
        let room = self.long(&answers.numbers, count)
            && self.long(&answers.lower, count)
            && self.long(&answers.upper, count)
            && self.long(&answers.actions, count);
        if !room && self.has(Slip::EachRoomFirst) {
            return Err(NINE);
        }
        if !enough {
            return Err(reference::Refusal::at(17, 0));
        }
        if !room {
            return Err(NINE);
        }
        let mut all = Answers::default();
        for mixture in (0..count).map(|at| mixtures.get(at * n..(at + 1) * n).unwrap_or(&[])) {
            let at = self.totals_at(tables, lent, mixture);
            if self.has(Slip::OneRefusesAll) || (at.number == 22 && self.has(Slip::NoneRefusesAll)) {
                ended(at)?;
            }
            all.numbers.push(at.number as u8);
            all.lower.push(at.lower);
            all.upper.push(if self.has(Slip::EachBySawtooth) { at.sawtooth } else { at.upper });
            all.actions.push(at.action as u8);
            if at.number != 0 && self.has(Slip::LaterAnswersLeft) {
                break;
            }
        }
        self.lay(&all.numbers, &mut answers.numbers);
        self.lay(&all.lower, &mut answers.lower);
        self.lay(&all.upper, &mut answers.upper);
        self.lay(&all.actions, &mut answers.actions);
        Ok(())
    }

    /// Lows or highs: one for each state, or fewer where the slice is too short.
    fn bounds(&self, slice: &[u32], n: usize, unasked: Slip) -> Vec<u64> {
        if self.long(slice, n) || self.has(unasked) {
            stored(slice, n, n)
        } else {
            front(slice, n.saturating_sub(1)).iter().map(|&weight| weight.into()).collect()
        }
    }

    /// Totals within ranges.
    pub(super) fn totals_within(
        &self,
        tables: &Tables,
        certifier: &Certifier,
        lows: &[u32],
        highs: &[u32],
    ) -> TotalsWithin {
        let standing = self.standing(tables, certifier);
        let n = standing.tables.states as usize;
        let lows = self.bounds(lows, n, Slip::LowsUnasked);
        let highs = self.bounds(highs, n, Slip::HighsUnasked);
        let (lows, highs) = if self.has(Slip::RangesExchanged) { (highs, lows) } else { (lows, highs) };
        match reference::within(&standing, &lows, &highs, &self.rules) {
            Ok(within) => {
                TotalsWithin { lower: ticks(&within.lower), upper: ticks(&within.upper), ..TotalsWithin::default() }
            }
            Err(refusal) => {
                let Refusal { number, place } = refused(refusal);
                let left = i64::from(self.has(Slip::RefusedWithin));
                TotalsWithin { number, place, lower: left, upper: left }
            }
        }
    }
}
