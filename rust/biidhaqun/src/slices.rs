//! The layout: what the library's calls are lent, in slices of their own types, and what they answer.
//!
//! A slice is packed by the counts, the last index fastest, and may be longer than that: what lies behind is neither read
//! nor written. n stands for the model's states, m for its actions, k for its observations.
//!
//! What is handed in may hold anything and have any length. With the feature `linked`, this module has the calls themselves
//! too: [`version`], [`read`], [`convert`], [`open`], [`list`], [`offer`], [`replay`], [`reprice`], [`totals`], [`each`],
//! [`within`], [`build`], [`adopt`] and [`worth`]. Each is proved to answer, and to leave in what it is lent, what its definitions say; one that is refused leaves all
//! as it was.
//!
//! A vector's mask says which states it covers. Its entries elsewhere bear on no answer, nor do the mask's bits past the states;
//! an acceptance stores both as 0.
//!
//! A list of transitions is m × n + 1 words that say at which word of it the cells of each column begin, the last one where they
//! end, and then the cells: for each T(s, a, s') above 0 the word s × 65,536 + T(s, a, s'), in column a × n + s', each column by
//! rising s. A slice of length 0 says that no list is meant; any other must begin with the list of the tables that it is handed
//! in with, or it is refused by 7.
//!
//! A slice that is too short is refused: one of the tables by 3 at 0 where they are read from a file (once its counts are read),
//! opened, listed or new or a worth is asked, else by 7;
//! one of a certifier by 7 for what stands and for the rows (its choices are read by no call, and not asked for), by 9 for
//! what is to stand;
//! one of an offered level, of a list of offers, of points, of a level to be built or adopted, of answers, or to write a list of
//! transitions over by 9; a mixture, or
//! several, and lows and highs by 17; one of a plan graph by 18; the one that a file's start numbers are read into by 100, at the end, and the
//! place is then the length that it needs; one that a file is converted into by 27, first, if it has less than 32,768 bytes.

#[cfg(feature = "linked")]
pub use crate::ffi::{
    adopt, build, convert, each, list, offer, open, read, replay, reprice, totals, version, within, worth,
};

/// The version of this layout, the C header's too. [`version`] is the linked library's.
pub const VERSION: u64 = 6;

/// Most states of a model.
pub const STATES: usize = 64;
/// Most actions of a model.
pub const ACTIONS: usize = 8;
/// Most observations of a model.
pub const OBSERVATIONS: usize = 8;
/// Most vectors of a level.
pub const VECTORS: usize = 1_000;
/// Most points of a level.
pub const POINTS: usize = 32;
/// Most points to build a level at.
pub const BUILT_POINTS: usize = 16;
/// Most nodes of a plan graph.
pub const NODES: usize = 32;
/// Most steps of a plan graph.
pub const STEPS: usize = 4;
/// Most levels.
pub const LEVELS: usize = 100;
/// Most bytes of a model file.
pub const FILE_BYTES: usize = 32_768;
/// Most bytes of each of a solver's files.
pub const SOLVER_BYTES: usize = 4 << 20;

/// Most states of a model that is written as a model file.
pub const WRITTEN_STATES: usize = 16;

/// Most words of a list of transitions: one for each column and for the end, and one for each cell of T.
pub const LIST_WORDS: usize = ACTIONS * STATES + 1 + ACTIONS * STATES * STATES;

/// The mask of a vector that covers all of so many states, or the first 64 of more: bit s is 1 where state s is covered.
pub fn full_mask(states: usize) -> u64 {
    u64::MAX.checked_shr(STATES.saturating_sub(states) as u32).unwrap_or(0)
}

/// Tables: a model in thousandths and ticks.
#[derive(Clone, Debug, Default, PartialEq, Eq, Hash)]
pub struct Tables {
    /// 1 to 64.
    pub states: usize,
    /// 1 to 8.
    pub actions: usize,
    /// 1 to 8.
    pub observations: usize,
    /// In thousandths.
    pub discount: u64,
    /// T in thousandths, by action, state left and state reached: m × n × n.
    pub transition: Vec<u16>,
    /// O in thousandths, by action, state reached and observation: m × n × k.
    pub observation: Vec<u16>,
    /// R in ticks, by action and state: m × n.
    pub reward: Vec<i64>,
}

impl Tables {
    /// Room for the tables of any model.
    pub fn roomy() -> Tables {
        Tables {
            transition: vec![0; ACTIONS * STATES * STATES],
            observation: vec![0; ACTIONS * STATES * OBSERVATIONS],
            reward: vec![0; ACTIONS * STATES],
            ..Tables::default()
        }
    }

    /// Whether the counts are within their limits.
    pub fn counts_fit(&self) -> bool {
        (1..=STATES).contains(&self.states)
            && (1..=ACTIONS).contains(&self.actions)
            && (1..=OBSERVATIONS).contains(&self.observations)
    }
}

/// What a certifier keeps between calls: how many levels were accepted, the last of them, and the rows that it steps itself at
/// each acceptance.
#[derive(Clone, Debug, Default, PartialEq, Eq, Hash)]
pub struct Certifier {
    /// The number of accepted levels, and the vectors and points of the last of them: 3.
    pub state: Vec<usize>,
    /// By vector.
    pub actions: Vec<u8>,
    /// By vector and observation. They are kept, and read by no call.
    pub choices: Vec<u16>,
    /// The states that a vector covers, by vector.
    pub masks: Vec<u64>,
    /// In ticks, by vector and state; they count where the state is covered.
    pub entries: Vec<i64>,
    /// In ticks, by state.
    pub corners: Vec<i64>,
    /// By point and state.
    pub weights: Vec<u32>,
    /// In ticks times the point's total weight, by point.
    pub values: Vec<i64>,
    /// The fast informed bound in ticks, by action and state: m × n.
    pub informed: Vec<i64>,
    /// The QMDP rows in ticks, by action and state: m × n.
    pub qmdp: Vec<i64>,
}

impl Certifier {
    /// Room for any level of models with so many states, actions and observations.
    pub fn roomy(states: usize, actions: usize, observations: usize) -> Certifier {
        let level = Level::roomy(states, observations);
        Certifier {
            state: vec![0; 3],
            actions: level.actions,
            choices: level.choices,
            masks: level.masks,
            entries: level.entries,
            corners: level.corners,
            weights: level.weights,
            values: level.values,
            informed: vec![0; actions * states],
            qmdp: vec![0; actions * states],
        }
    }
}

/// A level: offered, or to be built.
#[derive(Clone, Debug, Default, PartialEq, Eq, Hash)]
pub struct Level {
    /// 1 to 1,000.
    pub vectors: usize,
    /// 0 to 32.
    pub points: usize,
    /// By vector.
    pub actions: Vec<u8>,
    /// Vectors of the level below, by vector and observation.
    pub choices: Vec<u16>,
    /// The states that a vector covers, by vector: bit s is 1 where state s is. Bits past the states bear on no answer.
    pub masks: Vec<u64>,
    /// In ticks, by vector and state; read where the state is covered.
    pub entries: Vec<i64>,
    /// In ticks, by state.
    pub corners: Vec<i64>,
    /// By point and state.
    pub weights: Vec<u32>,
    /// In ticks times the point's total weight, by point.
    pub values: Vec<i64>,
}

impl Level {
    /// Room for any level of models with so many states and observations.
    pub fn roomy(states: usize, observations: usize) -> Level {
        Level::zeros(states, observations, VECTORS, POINTS)
    }

    /// A level of zeros, without counts, with room for so many vectors and points.
    pub fn zeros(states: usize, observations: usize, vectors: usize, points: usize) -> Level {
        Level {
            vectors: 0,
            points: 0,
            actions: vec![0; vectors],
            choices: vec![0; vectors * observations],
            masks: vec![0; vectors],
            entries: vec![0; vectors * states],
            corners: vec![0; states],
            weights: vec![0; points * states],
            values: vec![0; points],
        }
    }
}

/// A list of levels to be offered in turn, in blocks. The blocks of a slice are all of one length, and block i begins at i times
/// that length. Offer i is the level of `vectors[i]` vectors and `points[i]` points at the front of block i; what lies behind it
/// there is not read. One that has more of them than its block has room for is refused.
#[derive(Clone, Debug, Default, PartialEq, Eq, Hash)]
pub struct Offers {
    /// How many offers there are.
    pub count: usize,
    /// How many vectors each block has room for: 0 to 1,000.
    pub block_vectors: usize,
    /// How many points each block has room for: 0 to 32.
    pub block_points: usize,
    /// By offer.
    pub vectors: Vec<usize>,
    /// By offer.
    pub points: Vec<usize>,
    /// By block and vector.
    pub actions: Vec<u8>,
    /// By block, vector and observation.
    pub choices: Vec<u16>,
    /// By block and vector.
    pub masks: Vec<u64>,
    /// In ticks, by block, vector and state.
    pub entries: Vec<i64>,
    /// In ticks, by block and state.
    pub corners: Vec<i64>,
    /// By block, point and state.
    pub weights: Vec<u32>,
    /// In ticks times the point's total weight, by block and point.
    pub values: Vec<i64>,
}

impl Offers {
    /// The levels in blocks as large as the largest of them, for models with so many states and observations. No block is larger
    /// than a level may be: of one that has more vectors or points than that, the front is kept and the count, so that it is
    /// refused, and the others are not.
    pub fn packed<'a>(
        levels: impl IntoIterator<Item = &'a Level> + Clone,
        states: usize,
        observations: usize,
    ) -> Offers {
        let most = |count: fn(&Level) -> usize| levels.clone().into_iter().map(count).max().unwrap_or(0);
        let mut offers = Offers {
            block_vectors: most(|level| level.vectors).min(VECTORS),
            block_points: most(|level| level.points).min(POINTS),
            ..Offers::default()
        };
        for level in levels {
            offers.push(level, states, observations);
        }
        offers
    }

    /// Adds a level, cut to the size of a block or filled up with zeros; its counts are kept.
    pub fn push(&mut self, level: &Level, states: usize, observations: usize) {
        fn block<Cell: Copy + Default>(cells: &mut Vec<Cell>, of: &[Cell], length: usize) {
            let end = cells.len() + length;
            cells.extend(of.iter().copied().take(length));
            cells.resize(end, Cell::default());
        }
        let (vectors, points) = (self.block_vectors, self.block_points);
        self.count += 1;
        self.vectors.push(level.vectors);
        self.points.push(level.points);
        block(&mut self.actions, &level.actions, vectors);
        block(&mut self.choices, &level.choices, vectors * observations);
        block(&mut self.masks, &level.masks, vectors);
        block(&mut self.entries, &level.entries, vectors * states);
        block(&mut self.corners, &level.corners, states);
        block(&mut self.weights, &level.weights, points * states);
        block(&mut self.values, &level.values, points);
    }
}

/// A plan graph.
#[derive(Clone, Debug, Default, PartialEq, Eq, Hash)]
pub struct Graph {
    /// 1 to 32.
    pub nodes: usize,
    /// By node.
    pub actions: Vec<u8>,
    /// By node and observation.
    pub next: Vec<u16>,
}

/// How a call ended: 0, or the number of a refusal with its place.
#[repr(C)]
#[derive(Clone, Copy, Debug, Default, PartialEq, Eq, Hash)]
pub struct Refusal {
    /// 0 if it was served, or else the refusal's.
    pub number: u64,
    /// Where the refusal is; 0 if it was served.
    pub place: usize,
}

/// How the adoption of a solver's files ended, and how many vectors the level has that was made of them; 0 where they are
/// refused.
#[repr(C)]
#[derive(Clone, Copy, Debug, Default, PartialEq, Eq, Hash)]
pub struct Adopted {
    /// 0 if it was served, or else the refusal's.
    pub number: u64,
    /// Where the refusal is; 0 if it was served.
    pub place: usize,
    /// The vectors of the level.
    pub vectors: usize,
}

/// How a list of offers ended, and how many of them were accepted; 0 where the list is refused.
#[repr(C)]
#[derive(Clone, Copy, Debug, Default, PartialEq, Eq, Hash)]
pub struct Replayed {
    /// 0 if it was served, or else the refusal's.
    pub number: u64,
    /// Where the refusal is; 0 if it was served.
    pub place: usize,
    /// The offers that were accepted.
    pub accepted: usize,
}

/// How reading a file ended, and the counts and discount that it read; these are 0 where it is refused.
#[repr(C)]
#[derive(Clone, Copy, Debug, Default, PartialEq, Eq, Hash)]
pub struct Reading {
    /// 0 if it was served, or else the refusal's.
    pub number: u64,
    /// Where the refusal is; 0 if it was served.
    pub place: usize,
    /// The states of the model.
    pub states: usize,
    /// The actions of the model.
    pub actions: usize,
    /// The observations of the model.
    pub observations: usize,
    /// In thousandths.
    pub discount: u64,
}

/// How a conversion ended, and how many bytes were written; 0 where it is refused.
#[repr(C)]
#[derive(Clone, Copy, Debug, Default, PartialEq, Eq, Hash)]
pub struct Conversion {
    /// 0 if it was served, or else the refusal's.
    pub number: u64,
    /// Where the refusal is; 0 if it was served.
    pub place: usize,
    /// The bytes that were written.
    pub length: usize,
}

/// How totals ended, and what they are, in ticks times the mixture's total weight; 0 where they are refused.
#[repr(C)]
#[derive(Clone, Copy, Debug, Default, PartialEq, Eq, Hash)]
pub struct Totals {
    /// 0 if it was served, or else the refusal's.
    pub number: u64,
    /// Where the refusal is; 0 if it was served.
    pub place: usize,
    /// The largest product of a vector that counts there.
    pub lower: i64,
    /// The lower of the two ceilings.
    pub upper: i64,
    /// The upper total less the lower.
    pub gap: i64,
    /// The action that opens a plan earning the lower total.
    pub action: usize,
    /// The ceiling of the level's corners and points.
    pub sawtooth: i64,
    /// The ceiling of the informed rows.
    pub informed: i64,
}

/// How totals within ranges ended, and what they are, in ticks times a mixture's total weight; 0 where they are refused.
#[repr(C)]
#[derive(Clone, Copy, Debug, Default, PartialEq, Eq, Hash)]
pub struct TotalsWithin {
    /// 0 if it was served, or else the refusal's.
    pub number: u64,
    /// Where the refusal is; 0 if it was served.
    pub place: usize,
    /// The largest least product of a vector that counts at the highs.
    pub lower: i64,
    /// The most product of the corners.
    pub upper: i64,
}

/// The answers at many mixtures, each at its mixture's number: what [`totals`] answers there.
#[derive(Clone, Debug, Default, PartialEq, Eq, Hash)]
pub struct Answers {
    /// 0, or 17 or 22 for a mixture that is refused; the others are then 0.
    pub numbers: Vec<u8>,
    /// The lower totals.
    pub lower: Vec<i64>,
    /// The upper totals.
    pub upper: Vec<i64>,
    /// The actions, each opening a plan that earns the lower total.
    pub actions: Vec<u8>,
}

impl Answers {
    /// Room for so many.
    pub fn roomy(count: usize) -> Answers {
        Answers { numbers: vec![0; count], lower: vec![0; count], upper: vec![0; count], actions: vec![0; count] }
    }
}

/// How a worth ended, and what it is; 0 where it is refused.
#[repr(C)]
#[derive(Clone, Copy, Debug, Default, PartialEq, Eq, Hash)]
pub struct Worth {
    /// 0 if it was served, or else the refusal's.
    pub number: u64,
    /// Where the refusal is; 0 if it was served.
    pub place: usize,
    /// In ticks.
    pub ticks: i64,
}
