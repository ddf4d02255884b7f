//! One call with all its slices.

use super::cells::Slice;
use super::Library;
use crate::files;
use crate::gen::Question;
use biidhaqun::slices::{
    Answers, Certifier, Conversion, Graph, Level, Offers, Reading, Refusal, Replayed, Tables, Totals, TotalsWithin,
    Worth,
};
use std::fmt;

/// A call and what is lent to it; after the call, what it left there.
#[derive(Clone, Debug, PartialEq, Eq)]
pub enum Call {
    /// The counts of the tables are not lent, but answered.
    Read {
        file: Vec<u8>,
        tables: Tables,
        start: Vec<u16>,
    },
    Convert {
        file: Vec<u8>,
        output: Vec<u8>,
    },
    Open {
        tables: Tables,
        certifier: Certifier,
    },
    List {
        tables: Tables,
        list: Vec<u32>,
    },
    Offer {
        tables: Tables,
        list: Vec<u32>,
        certifier: Certifier,
        level: Level,
    },
    Reprice {
        tables: Tables,
        new: Tables,
        certifier: Certifier,
    },
    Replay {
        tables: Tables,
        certifier: Certifier,
        offers: Offers,
    },
    Totals {
        tables: Tables,
        certifier: Certifier,
        mixture: Vec<u32>,
    },
    Each {
        tables: Tables,
        certifier: Certifier,
        mixtures: Vec<u32>,
        count: usize,
        answers: Answers,
    },
    Within {
        tables: Tables,
        certifier: Certifier,
        lows: Vec<u32>,
        highs: Vec<u32>,
    },
    /// The counts and weights of the level are not lent.
    Build {
        tables: Tables,
        list: Vec<u32>,
        certifier: Certifier,
        count: usize,
        points: Vec<u32>,
        level: Level,
    },
    /// The counts and weights of the level are not lent.
    Adopt {
        tables: Tables,
        certifier: Certifier,
        alpha: Vec<u8>,
        graph: Vec<u8>,
        points: Vec<u32>,
        count: usize,
        level: Level,
    },
    Worth {
        tables: Tables,
        graph: Graph,
        asked: Question,
    },
}

/// What a call answers: its numbers in the order of the answer's fields.
pub type Answer = Vec<i128>;

fn ended(refusal: Refusal) -> Answer {
    vec![refusal.number.into(), refusal.place as i128]
}

impl Call {
    /// Makes the call; its answer, and the slices after it.
    pub fn made(&self, by: &dyn Library) -> (Answer, Call) {
        let mut call = self.clone();
        let answer = match &mut call {
            Call::Read { file, tables, start } => {
                let Reading { number, place, states, actions, observations, discount } = by.read(file, tables, start);
                let counts = [place, states, actions, observations].map(|count| count as i128);
                [&[number.into()][..], &counts, &[discount.into()]].concat()
            }
            Call::Convert { file, output } => {
                let Conversion { number, place, length } = by.convert(file, output);
                vec![number.into(), place as i128, length as i128]
            }
            Call::Open { tables, certifier } => ended(by.open(tables, certifier)),
            Call::List { tables, list } => ended(by.list(tables, list)),
            Call::Offer { tables, list, certifier, level } => ended(by.offer(tables, list, certifier, level)),
            Call::Reprice { tables, new, certifier } => ended(by.reprice(tables, new, certifier)),
            Call::Replay { tables, certifier, offers } => {
                let Replayed { number, place, accepted } = by.replay(tables, certifier, offers);
                vec![number.into(), place as i128, accepted as i128]
            }
            Call::Totals { tables, certifier, mixture } => {
                let at = by.totals(tables, certifier, mixture);
                let Totals { number, place, lower, upper, gap, action, sawtooth, informed } = at;
                let bounds = [lower, upper, gap].map(i128::from);
                let ceilings = [sawtooth, informed].map(i128::from);
                [&[number.into(), place as i128][..], &bounds, &[action as i128], &ceilings].concat()
            }
            Call::Each { tables, certifier, mixtures, count, answers } => {
                ended(by.each(tables, certifier, mixtures, *count, answers))
            }
            Call::Within { tables, certifier, lows, highs } => {
                let TotalsWithin { number, place, lower, upper } = by.within(tables, certifier, lows, highs);
                vec![number.into(), place as i128, lower.into(), upper.into()]
            }
            Call::Build { tables, list, certifier, count, points, level } => {
                ended(by.build(tables, list, certifier, (*count, points), level))
            }
            Call::Adopt { tables, certifier, alpha, graph, points, count, level } => {
                let made = by.adopt(tables, certifier, (alpha, graph), (points, *count), level);
                vec![made.number.into(), made.place as i128, made.vectors as i128]
            }
            Call::Worth { tables, graph, asked } => {
                let Worth { number, place, ticks } = by.worth(tables, graph, *asked);
                vec![number.into(), place as i128, ticks.into()]
            }
        };
        (answer, call)
    }

    /// How the other's answer, or what it leaves in a slice, differs from the one's.
    pub fn difference(&self, one: &dyn Library, other: &dyn Library) -> Option<String> {
        let (expected, before) = self.made(one);
        let (found, after) = self.made(other);
        if expected != found {
            return Some(format!("the one answers {:?}, the other {:?}", expected, found));
        }
        if before != after {
            return Some(format!("after the call, the one's slices\n{}the other's\n{}", before, after));
        }
        None
    }

    /// The number with which it ends.
    pub fn number(&self, by: &dyn Library) -> u64 {
        let (answer, _) = self.made(by);
        answer.first().and_then(|&number| u64::try_from(number).ok()).unwrap_or(u64::MAX)
    }

    /// Every slice that is lent, by name.
    pub fn slices(&mut self) -> Vec<(&'static str, &mut dyn Slice)> {
        fn of_tables(tables: &mut Tables) -> Vec<(&'static str, &mut dyn Slice)> {
            vec![
                ("transition", &mut tables.transition),
                ("observation", &mut tables.observation),
                ("reward", &mut tables.reward),
            ]
        }
        fn standing(certifier: &mut Certifier, choices: bool) -> Vec<(&'static str, &mut dyn Slice)> {
            let mut slices: Vec<(&'static str, &mut dyn Slice)> = vec![
                ("standing state", &mut certifier.state),
                ("standing actions", &mut certifier.actions),
                ("standing masks", &mut certifier.masks),
                ("standing entries", &mut certifier.entries),
                ("standing corners", &mut certifier.corners),
                ("standing weights", &mut certifier.weights),
                ("standing values", &mut certifier.values),
                ("informed rows", &mut certifier.informed),
                ("QMDP rows", &mut certifier.qmdp),
            ];
            if choices {
                slices.push(("standing choices", &mut certifier.choices));
            }
            slices
        }
        fn of_level(level: &mut Level, weights: bool) -> Vec<(&'static str, &mut dyn Slice)> {
            let mut slices: Vec<(&'static str, &mut dyn Slice)> = vec![
                ("level's actions", &mut level.actions),
                ("level's choices", &mut level.choices),
                ("level's masks", &mut level.masks),
                ("level's entries", &mut level.entries),
                ("level's corners", &mut level.corners),
                ("level's values", &mut level.values),
            ];
            if weights {
                slices.push(("level's weights", &mut level.weights));
            }
            slices
        }
        // A list of no words is none: it is not to be made one.
        fn meant(list: &mut Vec<u32>) -> Option<(&'static str, &mut dyn Slice)> {
            if list.is_empty() {
                None
            } else {
                Some(("list", list))
            }
        }
        let mut slices: Vec<(&'static str, &mut dyn Slice)> = Vec::new();
        match self {
            Call::Read { tables, start, .. } => {
                slices.extend(of_tables(tables));
                slices.push(("start", start));
            }
            Call::Convert { output, .. } => slices.push(("output", output)),
            Call::Open { tables, certifier } => {
                slices.extend(of_tables(tables));
                slices.extend(standing(certifier, true));
            }
            Call::List { tables, list } => {
                slices.extend(of_tables(tables));
                slices.push(("list", list));
            }
            Call::Reprice { tables, new, certifier } => {
                slices.extend(of_tables(tables));
                slices.push(("new transition", &mut new.transition));
                slices.push(("new observation", &mut new.observation));
                slices.push(("new reward", &mut new.reward));
                slices.extend(standing(certifier, false));
            }
            Call::Offer { tables, list, certifier, level } => {
                slices.extend(of_tables(tables));
                slices.extend(meant(list));
                slices.extend(standing(certifier, true));
                slices.extend(of_level(level, true));
            }
            Call::Replay { tables, certifier, offers } => {
                slices.extend(of_tables(tables));
                slices.extend(standing(certifier, true));
                slices.push(("offers' vectors", &mut offers.vectors));
                slices.push(("offers' points", &mut offers.points));
                slices.push(("offers' actions", &mut offers.actions));
                slices.push(("offers' choices", &mut offers.choices));
                slices.push(("offers' masks", &mut offers.masks));
                slices.push(("offers' entries", &mut offers.entries));
                slices.push(("offers' corners", &mut offers.corners));
                slices.push(("offers' weights", &mut offers.weights));
                slices.push(("offers' values", &mut offers.values));
            }
            Call::Totals { tables, certifier, mixture } => {
                slices.extend(of_tables(tables));
                slices.extend(standing(certifier, false));
                slices.push(("mixture", mixture));
            }
            Call::Each { tables, certifier, mixtures, answers, .. } => {
                slices.extend(of_tables(tables));
                slices.extend(standing(certifier, false));
                slices.push(("mixtures", mixtures));
                slices.push(("answered numbers", &mut answers.numbers));
                slices.push(("answered lower", &mut answers.lower));
                slices.push(("answered upper", &mut answers.upper));
                slices.push(("answered actions", &mut answers.actions));
            }
            Call::Within { tables, certifier, lows, highs } => {
                slices.extend(of_tables(tables));
                slices.extend(standing(certifier, false));
                slices.push(("lows", lows));
                slices.push(("highs", highs));
            }
            Call::Build { tables, list, certifier, points, level, .. } => {
                slices.extend(of_tables(tables));
                slices.extend(meant(list));
                slices.extend(standing(certifier, false));
                slices.push(("points", points));
                slices.extend(of_level(level, false));
            }
            Call::Adopt { tables, certifier, points, level, .. } => {
                slices.extend(of_tables(tables));
                slices.extend(standing(certifier, false));
                slices.push(("points", points));
                slices.extend(of_level(level, false));
            }
            Call::Worth { tables, graph, .. } => {
                slices.extend(of_tables(tables));
                slices.push(("graph's actions", &mut graph.actions));
                slices.push(("graph's next", &mut graph.next));
            }
        }
        slices
    }
}

/// Everything that is lent, as plain numbers.
impl fmt::Display for Call {
    fn fmt(&self, f: &mut fmt::Formatter) -> fmt::Result {
        match self {
            Call::Read { file, tables, start } => {
                writeln!(f, "  read, file of {} bytes: {}", file.len(), files::escaped(file))?;
                writeln!(f, "  {:?}\n  start {:?}", tables, start)
            }
            Call::Convert { file, output } => {
                writeln!(f, "  convert, file of {} bytes: {}", file.len(), files::escaped(file))?;
                writeln!(f, "  output {}", files::escaped(output))
            }
            Call::Open { tables, certifier } => writeln!(f, "  open: {:?}\n  {:?}", tables, certifier),
            Call::List { tables, list } => writeln!(f, "  list: {:?}\n  list {:?}", tables, list),
            Call::Reprice { tables, new, certifier } => {
                writeln!(f, "  new prices: {:?}\n  {:?}\n  {:?}", tables, new, certifier)
            }
            Call::Offer { tables, list, certifier, level } => {
                writeln!(f, "  offer: {:?}\n  list {:?}\n  {:?}\n  {:?}", tables, list, certifier, level)
            }
            Call::Replay { tables, certifier, offers } => {
                writeln!(f, "  replay: {:?}\n  {:?}\n  {:?}", tables, certifier, offers)
            }
            Call::Totals { tables, certifier, mixture } => {
                writeln!(f, "  totals: {:?}\n  {:?}\n  mixture {:?}", tables, certifier, mixture)
            }
            Call::Each { tables, certifier, mixtures, count, answers } => {
                writeln!(
                    f,
                    "  each: {:?}\n  {:?}\n  {} mixtures {:?}\n  {:?}",
                    tables, certifier, count, mixtures, answers
                )
            }
            Call::Within { tables, certifier, lows, highs } => {
                writeln!(f, "  within: {:?}\n  {:?}\n  lows {:?}\n  highs {:?}", tables, certifier, lows, highs)
            }
            Call::Build { tables, list, certifier, count, points, level } => {
                writeln!(f, "  build: {:?}\n  list {:?}\n  {:?}", tables, list, certifier)?;
                writeln!(f, "  {} points {:?}\n  {:?}", count, points, level)
            }
            Call::Adopt { tables, certifier, alpha, graph, points, count, level } => {
                writeln!(f, "  adopt, alpha file of {} bytes: {}", alpha.len(), files::escaped(alpha))?;
                writeln!(f, "  graph of {} bytes: {}", graph.len(), files::escaped(graph))?;
                writeln!(f, "  {:?}\n  {:?}\n  {} points {:?}\n  {:?}", tables, certifier, count, points, level)
            }
            Call::Worth { tables, graph, asked } => {
                writeln!(f, "  worth: {:?}\n  {:?}\n  {:?}", tables, graph, asked)
            }
        }
    }
}
