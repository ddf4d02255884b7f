//! Up to 1,001 vectors: offered, read, masked, built upon, and in lists.

use super::stage::{adopted, files, points, raised, Stage};
use super::{rng, Case, SERVED};
use crate::gen::Shape;
use crate::lent::{self, Call};
use crate::{replaying, single};
use reference::{Level, REWARD, VECTORS};

impl Stage {
    /// Offers of so many vectors.
    pub(super) fn counts(&self) -> Vec<Case> {
        let mut cases = Vec::new();
        for (name, upon) in [("level 0", &self.fresh), ("1,000 vectors", &self.wide)] {
            for vectors in [32, 33, 255, 256, 257, VECTORS - 1, VECTORS, VECTORS + 1] {
                let ends = if vectors > VECTORS { (9, 0) } else { SERVED };
                let call = self.offer(upon, &self.level(upon, vectors));
                cases.push(Case { about: format!("{} vectors upon {}", vectors, name), call, ends });
            }
            let level = Level { vectors: u64::MAX, ..self.level(upon, VECTORS) };
            let about = format!("the most vectors that can be said upon {}", name);
            cases.push(Case { about, call: self.offer(upon, &level), ends: (9, 0) });
        }
        cases
    }

    /// Chosen vectors, and offenders with high numbers.
    pub(super) fn numbers(&self) -> Vec<Case> {
        let Shape { n, m, k } = self.shape;
        let mut cases = Vec::new();
        let mut add = |about: String, level: &Level, ends: (u64, usize)| {
            cases.push(Case { about, call: self.offer(&self.wide, level), ends });
        };
        for chosen in [0, 1, 254, 255, 256, 257, 511, 512, 998, 999] {
            let graph = format!("0 0{}", format!(" {}", chosen).repeat(k)).into_bytes();
            let level = adopted(&self.wide, &(files(self.shape, 1, None).0, graph));
            add(format!("chosen vector {}", chosen), &level, SERVED);
            let mut above = level.clone();
            above.entries[n - 1] += 1;
            add(format!("an entry above its backup by vector {}", chosen), &above, (13, 0));
        }
        let level = self.level(&self.wide, VECTORS);
        let last = VECTORS - 1;
        for (chosen, ends) in [(999, SERVED), (1_000, (10, last)), (1_001, (10, last)), (65_535, (10, last))] {
            // As low as can be, so that any chosen vector will do.
            let mut level = level.clone();
            level.entries[last * n..].fill(-2 * REWARD);
            level.choices[last * k..].fill(chosen);
            add(format!("the last of 1,000 vectors chooses {}", chosen), &level, ends);
        }
        let mut changed = |about: &str, number: u64, change: &dyn Fn(&mut Level)| {
            let mut level = level.clone();
            change(&mut level);
            add(format!("the last of 1,000 vectors has {}", about), &level, (number, last));
        };
        changed("an action that does not exist", 10, &|level| level.actions[last] = m as u64);
        changed("an entry outside its range", 11, &|level| level.entries[last * n] = 2 * REWARD + 1);
        changed("an entry above its backup", 13, &|level| level.entries[last * n + 1] += 1);
        cases
    }

    /// What is read of 1,000 vectors.
    pub(super) fn readers(&self) -> Vec<Case> {
        let mut cases = Vec::new();
        for peak in [0, 31, 32, 99, 100, 255, 256, VECTORS - 1] {
            let upon = self.peaked(peak);
            let mut add = |about: &str, call: Call| {
                cases.push(Case { about: format!("{}, vector {} largest", about, peak), call, ends: SERVED });
            };
            add("totals", self.totals(&upon));
            add("totals within ranges", self.within(&upon));
            add("totals at many", single::asking(&mut rng(), self.shape, &upon, 3));
            add("a built level", single::building(&mut rng(), self.shape, &upon, &points()));
        }
        cases
    }

    /// 1,000 vectors of which one alone covers both states, or none does.
    pub(super) fn masks(&self) -> Vec<Case> {
        let Shape { n, k, .. } = self.shape;
        let last = VECTORS - 1;
        let mut cases = Vec::new();
        let mut add = |about: String, call: Call, ends: (u64, usize)| cases.push(Case { about, call, ends });
        for wide in [0, 31, 32, 63, 64, 255, 256, last] {
            let mut level = self.level(&self.fresh, VECTORS);
            for (v, mask) in level.masks.iter_mut().enumerate() {
                // Bits past the states, too.
                *mask = if v == wide { !0 } else { !2 };
            }
            let upon = raised(&self.fresh, &level);
            add(format!("1,000 masks, {} of all states", wide), self.offer(&self.fresh, &level), SERVED);
            add(format!("totals where vector {} alone counts", wide), self.totals(&upon), SERVED);
            add(format!("totals within ranges where vector {} alone counts", wide), self.within(&upon), SERVED);
            let built = single::building(&mut rng(), self.shape, &upon, &points());
            add(format!("a level built upon vector {} alone", wide), built, SERVED);
            // Whatever its action, a vector that covers both states reaches both: it may go on with that one alone.
            let mut lowest = self.level(&self.wide, VECTORS);
            lowest.entries.fill(-2 * REWARD);
            lowest.choices.fill(wide as u64);
            add(format!("1,000 vectors that go on with {}", wide), self.offer(&upon, &lowest), SERVED);
            lowest.choices[last * k + 1] = (wide as u64 + 1) % VECTORS as u64;
            add(format!("the last goes on with another than {}", wide), self.offer(&upon, &lowest), (21, last));
            lowest.masks[last] = 0;
            lowest.entries[last * n..].fill(i64::MAX);
            add("the last covers nothing".to_string(), self.offer(&upon, &lowest), SERVED);
            let mut narrow = upon.clone();
            narrow.standing.masks[wide] = !2;
            add("totals where no vector of 1,000 counts".to_string(), self.totals(&narrow), (22, 0));
            add("totals within ranges where no vector of 1,000 counts".to_string(), self.within(&narrow), (22, 0));
            let built = single::building(&mut rng(), self.shape, &narrow, &points());
            add("a level built upon 1,000 that leave out a state".to_string(), built, (22, 0));
        }
        cases
    }

    /// Slices that are one short for 1,000 vectors, and counts past that.
    pub(super) fn lengths(&self) -> Vec<Case> {
        let mut cases = Vec::new();
        let mut each = |about: &str, call: &Call, ends: &dyn Fn(&str) -> Option<(u64, usize)>| {
            cases.push(Case { about: about.to_string(), call: call.clone(), ends: SERVED });
            let count = call.clone().slices().len();
            for at in 0..count {
                let mut call = call.clone();
                let (name, slice) = call.slices().swap_remove(at);
                slice.sized(slice.length() - 1, &mut rng());
                if let Some(ends) = ends(name) {
                    cases.push(Case { about: format!("{}: {} one short", about, name), call, ends });
                }
            }
        };
        let level = self.level(&self.fresh, VECTORS);
        each("1,000 vectors offered", &self.offer(&self.fresh, &level), &|name| match name {
            "level's actions" | "level's choices" | "level's masks" | "level's entries" => Some((9, 0)),
            "standing actions" | "standing choices" | "standing masks" | "standing entries" => Some((9, 0)),
            _ => None,
        });
        let standing = |name: &str| match name {
            "standing actions" | "standing masks" | "standing entries" => Some((7, 0)),
            _ => None,
        };
        each("totals upon 1,000 vectors", &self.totals(&self.wide), &standing);
        each("totals within ranges upon 1,000 vectors", &self.within(&self.wide), &standing);
        each("new prices upon 1,000 vectors", &self.reprice(&self.wide), &standing);
        let few = self.level(&self.wide, 2);
        each("2 vectors upon 1,000", &self.offer(&self.wide, &few), &|name| match name {
            "standing choices" => Some(SERVED),
            _ => standing(name),
        });
        let built = single::building(&mut rng(), self.shape, &self.wide, &points());
        each("a level built upon 1,000 vectors", &built, &standing);
        let files = files(self.shape, VECTORS, Some(VECTORS));
        each("1,000 vectors adopted", &self.adopt(&self.wide, &files, VECTORS), &|name| match name {
            "level's actions" | "level's choices" | "level's masks" | "level's entries" => Some((9, 0)),
            _ => standing(name),
        });
        for vectors in [VECTORS + 1, usize::MAX] {
            let mut call = self.totals(&self.wide);
            if let Call::Totals { certifier, .. } = &mut call {
                certifier.state[1] = vectors;
                certifier.actions.extend_from_within(..1);
                certifier.masks.extend_from_within(..1);
                certifier.entries.extend_from_within(..self.shape.n);
            }
            cases.push(Case { about: format!("{} vectors stand", vectors), call, ends: (7, 0) });
        }
        cases
    }

    /// Lists in blocks of up to 1,000 vectors.
    pub(super) fn lists(&self) -> Vec<Case> {
        let Shape { n, k, .. } = self.shape;
        let first = self.level(&self.fresh, VECTORS);
        let below = raised(&self.fresh, &first);
        let mut wrong = self.level(&below, VECTORS);
        wrong.entries[VECTORS * n - 1] += 1;
        let levels = [first, wrong, self.level(&below, VECTORS), self.level(&below, 3)];
        let levels = levels.map(|level| lent::level(&level, n, k));
        let list = |block: usize, room: usize| {
            let offers = replaying::packed(&mut rng(), &levels, (block, 2), self.shape);
            replaying::call(&mut rng(), self.shape, &self.fresh, offers, (room, 2))
        };
        let mut cases = Vec::new();
        for (block, room, ends) in [
            (VECTORS, VECTORS, SERVED),
            (VECTORS, VECTORS - 1, SERVED),
            (VECTORS - 1, VECTORS, SERVED),
            (VECTORS + 1, VECTORS, (9, 0)),
        ] {
            let about = format!("a list in blocks of {}, with room for {}", block, room);
            cases.push(Case { about, call: list(block, room), ends });
        }
        for change in 0..5 {
            let mut call = list(VECTORS, VECTORS);
            if let Call::Replay { offers, .. } = &mut call {
                match change {
                    0 => offers.entries.truncate(4 * VECTORS * n - 1),
                    1 => offers.choices.truncate(4 * VECTORS * k - 1),
                    2 => offers.actions.truncate(4 * VECTORS - 1),
                    3 => offers.masks.truncate(4 * VECTORS - 1),
                    _ => offers.count = 1 << 61,
                }
            }
            cases.push(Case { about: format!("a list too long for its slices ({})", change), call, ends: (9, 0) });
        }
        cases
    }
}
