//! Copies of the calls with one mistake each, which must be told from the library.

use super::Suites;
use crate::copied::{Copied, Slip, BY_THE_DOCUMENT};
use crate::lent::{Call, Library};
use crate::{adopting, calls, converting, files, listing, replaying, single, through, wide};
use reference::Trap;

/// How many random cases a slip or a trap is looked for in.
const HUNTED: u64 = 6_000;

/// A copy with one mistake, and whether a case has told it from the library.
struct Hunted {
    name: String,
    copy: Copied,
    caught: bool,
}

impl Hunted {
    fn new(name: String, copy: Copied) -> Hunted {
        Hunted { name, copy, caught: false }
    }
}

/// How two differ in a case.
type Differs = Box<dyn Fn(&dyn Library, &dyn Library) -> Option<String>>;

/// A case of one call.
fn by_call(name: String, call: Call) -> (String, Differs) {
    (name, Box::new(move |one, other| call.difference(one, other)))
}

impl Suites<'_> {
    /// Whether the library differs from every copy with one mistake: slips of the interface in single calls, traps of the
    /// reader in files, those of the converter in conversions, those of a solver's files in adoptions, traps of the judging
    /// in calls on storage, those of many states in single calls on such models, both kinds in calls with many vectors and long
    /// files. In each case the library itself is held
    /// against the document first.
    pub(super) fn traps(&self) -> bool {
        let slips = |list: &[Slip]| -> Vec<Hunted> {
            let name = |slip: Slip| format!("{:?} ({})", slip, slip.text());
            list.iter().map(|&slip| Hunted::new(name(slip), Copied::slipping(slip))).collect()
        };
        let traps = |list: &[Trap]| -> Vec<Hunted> {
            list.iter().map(|&trap| Hunted::new(trap.to_string(), Copied::trapped(trap))).collect()
        };
        let mut all = true;
        all &= self.hunt("slips of the interface, by single calls", HUNTED, slips(Slip::ANY), &|number| {
            if number % 20 == 10 {
                let mut rng = self.rng("adopt", number);
                let call = adopting::random(&mut rng).call(&mut rng);
                return by_call(format!("adopt:{}", number), single::touched(&mut rng, call));
            }
            if number % 20 == 13 {
                let call = listing::random(&mut self.rng("lists", number));
                return by_call(format!("lists:{}", number), single::touched(&mut self.rng("touched", number), call));
            }
            if number % 10 == 5 {
                let mut rng = self.rng("replay", number);
                let call = replaying::random(&mut rng);
                return by_call(format!("replay:{}", number), single::half_touched(&mut rng, call));
            }
            if number % 20 == 0 {
                let calls = single::lengths(&mut self.rng("lengths", number / 20), number / 20);
                let differs = move |one: &dyn Library, other: &dyn Library| {
                    calls.iter().find_map(|(call, _)| call.difference(one, other))
                };
                return (format!("lengths:{}", number / 20), Box::new(differs));
            }
            by_call(format!("slices:{}", number), single::random(&mut self.rng("slices", number)))
        });
        let fixed = files::fixed_to_read();
        let cases = fixed.len() as u64 + HUNTED;
        all &= self.hunt("traps of the reader, by files", cases, traps(Trap::READING), &|number| {
            let (name, file) = match fixed.get(number as usize) {
                Some(case) => (format!("fixed:{}", number), case.file.clone()),
                None => (format!("random:{}", number), files::random(&mut self.rng("random", number)).file),
            };
            by_call(name, single::reading(&file))
        });
        let cases = self.converted.len() as u64 + HUNTED;
        all &= self.hunt("traps of the converter, by conversions", cases, traps(Trap::CONVERTING), &|number| {
            let random = number.saturating_sub(self.converted.len() as u64);
            let (name, call) = match converting::fixed(&self.converted, number as usize) {
                Some(call) => (format!("converted:{}", number), call),
                None => (format!("convert:{}", random), converting::random(&mut self.rng("convert", random))),
            };
            by_call(name, call)
        });
        let cases = self.adopted.len() as u64 + HUNTED;
        all &= self.hunt("traps of a solver's files, by adoptions", cases, traps(Trap::ADOPTING), &|number| {
            let random = number.saturating_sub(self.adopted.len() as u64);
            let (name, mut rng) = (format!("adopt:{}", random), self.rng("adopt", random));
            let (name, call) = match self.adopted.get(number as usize) {
                Some(case) => (format!("adopted:{}", number), case.call(&mut rng)),
                None => (name, adopting::random(&mut rng).call(&mut rng)),
            };
            by_call(name, call)
        });
        let judging = [Trap::JUDGING, Trap::ORDERING].concat();
        all &= self.hunt("traps of the judging, by calls on storage", HUNTED, traps(&judging), &|number| {
            let mut rng = self.rng("calls", number);
            let case = calls::random(&mut rng, number);
            let differs =
                move |one: &dyn Library, other: &dyn Library| through::difference(&case, one, other, &mut rng.clone());
            (format!("calls:{}", number), Box::new(differs))
        });
        all &= self.hunt("traps of lists, by single calls", HUNTED, traps(Trap::LISTING), &|number| {
            by_call(format!("lists:{}", number), listing::random(&mut self.rng("lists", number)))
        });
        all &= self.hunt("traps of many states, by single calls", HUNTED, traps(Trap::WIDE), &|number| {
            by_call(format!("wide:{}", number), wide::random(&mut self.rng("wide", number)))
        });
        let mut large = traps(Trap::MANY);
        large.extend(slips(Slip::MANY));
        all &= self.hunt("both with many vectors and long files", self.many.len() as u64, large, &|number| {
            by_call(format!("many:{}", number), self.many[number as usize].call.clone())
        });
        all
    }

    /// Whether every copy is told from the library by one of the cases.
    fn hunt(&self, what: &str, cases: u64, mut hunts: Vec<Hunted>, case: &dyn Fn(u64) -> (String, Differs)) -> bool {
        for number in 0..cases {
            if hunts.iter().all(|hunted| hunted.caught) {
                break;
            }
            let (name, differs) = case(number);
            if differs(&BY_THE_DOCUMENT, self.linked).is_some() {
                println!("DIFFERENCE between the library and the reference in {}; run without --traps", name);
                return false;
            }
            for hunted in hunts.iter_mut().filter(|hunted| !hunted.caught) {
                if differs(self.linked, &hunted.copy).is_some() {
                    println!("caught  {}: {}", hunted.name, name);
                    hunted.caught = true;
                }
            }
        }
        let left: Vec<&Hunted> = hunts.iter().filter(|hunted| !hunted.caught).collect();
        for hunted in &left {
            println!("NOT CAUGHT  {}", hunted.name);
        }
        println!("{}: {} of {} caught", what, hunts.len() - left.len(), hunts.len());
        left.is_empty()
    }
}
