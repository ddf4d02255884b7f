//! Files that are read and converted, by the reference.

use super::{refused, Copied, Slip};
use crate::lent::narrowed;
use biidhaqun::slices::{Conversion, Reading, Refusal, Tables};
use reference::FILE_BYTES;
use std::cell::Cell;

impl Copied {
    /// Reads a file, and writes what it holds: 3 where a table has no room once the counts are read, and 100 at the end where the
    /// start numbers have none.
    pub(super) fn taken(&self, file: &[u8], lent: &mut Tables, start: &mut [u16]) -> Result<Reading, Refusal> {
        let short = |tables: &reference::Tables| {
            let (t, o, r) = tables.cells_used();
            let others = self.has(Slip::TransitionsRoomAlone);
            let lengths = [
                (self.long(&lent.transition, t), t),
                (others || self.long(&lent.observation, o), o),
                (others || self.long(&lent.reward, r), r),
            ];
            lengths.into_iter().find(|(long, _)| !long).map(|(_, needed)| needed)
        };
        let late = matches!(self.slip, Some(Slip::TablesByHundred | Slip::TablesRoomLast));
        let (table, early) = (Cell::new(None), Cell::new(None));
        let has_room = |tables: &reference::Tables| {
            let n = tables.states as usize;
            table.set(short(tables));
            early.set((self.has(Slip::StartRoomEarly) && !self.long(start, n)).then_some(n));
            (late || table.get().is_none()) && early.get().is_none()
        };
        let hundred = |place: usize| Refusal { number: 100, place };
        let read = reference::read_into(file, has_room, &self.rules).map_err(|refusal| {
            let length = table.get().filter(|_| self.has(Slip::TablesRoomPlace) && refusal.number == 3);
            let place = length.map_or(refusal.place as usize, |length| length);
            early.get().map_or(Refusal { number: refusal.number.into(), place }, hundred)
        })?;
        match table.get() {
            Some(length) if self.has(Slip::TablesByHundred) => return Err(hundred(length)),
            Some(_) => return Err(Refusal { number: 3, place: 0 }),
            None => {}
        }
        let n = read.tables.states as usize;
        let room = self.long(start, n);
        if room || self.has(Slip::ReadInParts) {
            self.lay(&narrowed(&read.tables.transitions, usize::MAX), &mut lent.transition);
            self.lay(&narrowed(&read.tables.sights, usize::MAX), &mut lent.observation);
            self.lay(&read.tables.rewards, &mut lent.reward);
            self.lay(&narrowed(&read.start, n), start);
        }
        match self.slip {
            _ if room => Ok(Reading {
                states: n,
                actions: read.tables.actions as usize,
                observations: read.tables.observations as usize,
                discount: read.tables.discount,
                ..Reading::default()
            }),
            Some(Slip::StartByThree) => Err(Refusal { number: 3, place: 0 }),
            Some(Slip::NoLength) => Err(hundred(0)),
            _ => Err(hundred(n)),
        }
    }

    /// Converts a file into an output.
    pub(super) fn converted(&self, file: &[u8], output: &mut [u8]) -> Conversion {
        // A slip about lengths has its own say on the room.
        let long = self.long(output, FILE_BYTES) || self.has(Slip::OutputByText);
        let room = match self.slip {
            Some(_) if long => FILE_BYTES,
            Some(_) => 0,
            None => output.len(),
        };
        match reference::convert(file, room, &self.rules) {
            Ok(text) if text.len() <= output.len() => {
                self.lay(&text, output);
                if let (true, Some(end)) = (self.has(Slip::OutputEnded), output.get_mut(text.len())) {
                    *end = 0;
                }
                Conversion { length: text.len(), ..Conversion::default() }
            }
            Ok(_) => Conversion { number: 27, ..Conversion::default() },
            Err(refusal) => {
                if self.has(Slip::OutputOnRefusal) {
                    self.lay(b"discount: ", output);
                }
                if self.has(Slip::RefusalClears) {
                    output.fill(0);
                }
                let Refusal { number, place } = refused(refusal);
                Conversion { number, place, length: usize::from(self.has(Slip::RefusedConversion)) }
            }
        }
    }
}
