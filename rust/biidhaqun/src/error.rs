//! Why a call was not served.

use crate::rule::Rule;
use crate::slices;
use std::error;
use std::fmt;

/// Where a refused call went wrong. [`Place::number`] is the number that the library gives for it.
#[derive(Clone, Copy, Debug, PartialEq, Eq, Hash)]
#[non_exhaustive]
pub enum Place {
    /// Nothing more is said than the rule; the number is 0.
    Whole,
    /// So many bytes of the file stand before the word; or the file's length, where a word is missing or a total is wrong. Of
    /// a solver's two files the place does not tell which: it is the alpha file if that one breaks the rule, else the graph.
    Byte(usize),
    /// The row of T or of O with this number, action × states + state: that of the action and the state left (T) or reached
    /// (O).
    Row {
        /// That of the row.
        number: usize,
        /// The action.
        action: usize,
        /// The state left (T) or reached (O).
        state: usize,
    },
    /// The vector with this number.
    Vector(usize),
    /// The corner of the state with this number.
    Corner(usize),
    /// The point with this number.
    Point(usize),
    /// The first vector that has such an entry; else the first such corner; else the first such point.
    Part(usize),
    /// The node of a plan graph with this number; or 0 for what else was asked of it.
    Node(usize),
    /// The expected reward with this number, action × states + state.
    Reward(usize),
    /// The length that a slice needs.
    Length(usize),
}

impl Place {
    /// The number.
    pub fn number(self) -> usize {
        match self {
            Place::Whole => 0,
            Place::Row { number, .. } => number,
            Place::Byte(number)
            | Place::Vector(number)
            | Place::Corner(number)
            | Place::Point(number)
            | Place::Part(number)
            | Place::Node(number)
            | Place::Reward(number)
            | Place::Length(number) => number,
        }
    }
}

/// A refusal: the rule that was broken, and where.
///
/// What is proved: the rule is the first of docs/RULES.md that does not hold, in the order of its tests, and the place is
/// the first where it does not; nothing that was lent has changed.
///
/// ```
/// use biidhaqun::{Place, Refusal, Rule};
///
/// let refusal = Refusal { rule: Rule::VectorBackup, place: Place::Vector(2) };
/// assert_eq!(refusal.number(), 13);
/// assert_eq!(refusal.to_string(), "refused 13 at 2: vector 2 has an entry above its backup; lower it, or choose other vectors");
/// ```
#[derive(Clone, Copy, Debug, PartialEq, Eq, Hash)]
pub struct Refusal {
    /// What was broken.
    pub rule: Rule,
    /// Where.
    pub place: Place,
}

/// What a refused call was handed.
#[derive(Clone, Copy)]
pub(crate) enum Handed {
    File,
    /// Tables with so many states.
    Tables(usize),
    /// A solver's two files.
    Solver,
    Other,
}

impl Refusal {
    /// The rule's number in docs/RULES.md.
    pub fn number(&self) -> u64 {
        self.rule.number()
    }

    /// Whether a call was served; else its refusal.
    pub(crate) fn unless(ended: slices::Refusal, handed: Handed) -> Result<(), Refusal> {
        if ended.number == 0 {
            return Ok(());
        }
        let at = ended.place;
        // No other number is answered.
        let rule = Rule::of(ended.number).unwrap_or(Rule::Certifier);
        let place = match (rule, handed) {
            (Rule::Room, _) => Place::Length(at),
            (Rule::FileLength | Rule::Wide | Rule::Output, _) => Place::Whole,
            (Rule::ExpectedReward, _) => Place::Reward(at),
            (_, Handed::File) | (Rule::SolverForm, _) => Place::Byte(at),
            (Rule::Range, Handed::Solver) => Place::Vector(at),
            (Rule::TransitionTotal | Rule::ObservationTotal, Handed::Tables(states)) => {
                Place::Row { number: at, action: at / states.max(1), state: at % states.max(1) }
            }
            (Rule::Numbers | Rule::VectorBackup | Rule::Covered, _) => Place::Vector(at),
            (Rule::Range, _) => Place::Part(at),
            (Rule::CornerBackup, _) => Place::Corner(at),
            (Rule::PointTotal | Rule::PointBackup, _) => Place::Point(at),
            (Rule::Graph, _) => Place::Node(at),
            _ => Place::Whole,
        };
        Err(Refusal { rule, place })
    }
}

impl fmt::Display for Refusal {
    fn fmt(&self, f: &mut fmt::Formatter) -> fmt::Result {
        let at = self.place.number();
        write!(f, "refused {} at {}: ", self.number(), at)?;
        match (self.rule, self.place) {
            (Rule::FileLength, _) => {
                write!(f, "a model file has more than 32,768 bytes, or one of a solver's files more than 4,194,304")
            }
            (Rule::Form, _) => write!(f, "the word after {} bytes does not fit its form, or is missing", at),
            (Rule::Limit, Place::Byte(_)) => write!(
                f,
                "a count, index, start number, probability, discount or reward is outside its limit: the word after {} bytes",
                at
            ),
            (Rule::Limit, _) => {
                write!(f, "a count, probability, reward or the discount is outside its limit, or a slice of the tables is too short")
            }
            (Rule::StartTotal, _) => write!(f, "the start numbers do not total 1"),
            (Rule::TransitionTotal, Place::Row { action, state, .. }) => {
                write!(f, "the row of T of action {} from state {} does not total 1", action, state)
            }
            (Rule::TransitionTotal, _) => write!(f, "a row of T does not total 1; the place is the file's length"),
            (Rule::ObservationTotal, Place::Row { action, state, .. }) => {
                write!(f, "the row of O of action {} at state {} does not total 1", action, state)
            }
            (Rule::ObservationTotal, _) => write!(f, "a row of O does not total 1; the place is the file's length"),
            (Rule::Certifier, _) => {
                write!(
                    f,
                    "the certifier handed in is no certifier: its tables, its standing level or its rows break a limit, or a list \
                     handed in with it is not that of its transitions"
                )
            }
            (Rule::Levels, _) => write!(f, "100 levels already stand, and no more are accepted"),
            (Rule::LevelSize, _) => write!(
                f,
                "a level has 1 to 1,000 vectors and at most 32 points, the builder is given at most 16 points, and slices have \
                 room for the level, the list of transitions or the answers"
            ),
            (Rule::Numbers, _) => write!(f, "vector {} names an action or a chosen vector that does not exist", at),
            (Rule::Range, Place::Vector(_)) => write!(f, "an entry of vector {} is outside its level's range", at),
            (Rule::Range, _) => write!(
                f,
                "an entry of vector {0}, or corner {0}, or the value of point {0} is outside its level's range",
                at
            ),
            (Rule::PointTotal, _) => write!(f, "the weights of point {} total less than 1 or more than 100", at),
            (Rule::VectorBackup, _) => {
                write!(f, "vector {} has an entry above its backup; lower it, or choose other vectors", at)
            }
            (Rule::CornerBackup, _) => write!(f, "corner {} is below its backup; raise it", at),
            (Rule::PointBackup, _) => write!(f, "point {} is below its backup; raise its value", at),
            (Rule::NoLevel, _) => write!(f, "no level was accepted yet, so there are no totals; offer one first"),
            (Rule::Mixture, _) => write!(f, "a mixture's weights, and the highs of ranges, are 0 to 1,000,000 each, and not all 0"),
            (Rule::Graph, _) => write!(
                f,
                "the plan graph has no node or over 32, or node {} names an action or next node that does not exist, or \
                 the node, state or steps asked for are outside their limits",
                at
            ),
            (Rule::SolverForm, _) => write!(
                f,
                "of the solver's files the word after {} bytes does not fit its form, or is missing, or a node is out of \
                 order; the alpha file is read first",
                at
            ),
            (Rule::SolverFiles, _) => {
                write!(f, "the solver's two files differ in the number of vectors, or in an action")
            }
            (Rule::Covered, _) => write!(
                f,
                "vector {} covers a state from which one is reached that the vector chosen there does not cover; cover less, or \
                 choose other vectors",
                at
            ),
            (Rule::Counting, _) => write!(
                f,
                "no vector counts: at the mixture each leaves out a state that has weight, or that may have some within the \
                 ranges, or, to build upon, none covers all states"
            ),
            (Rule::Prices, _) => {
                write!(f, "the new tables differ in more than rewards: counts, T, O and discount must be the same")
            }
            (Rule::LowHigh, _) => write!(f, "a low is above its high; within a range of weights the low comes first"),
            (Rule::Wide, _) => {
                write!(
                    f,
                    "the model has over 16 states, and no more are converted; state its expected rewards yourself, by \
                     `R: a : s : * : * r`, or let `biidhaqun import` work them out, and up to 64 states are read"
                )
            }
            (Rule::ExpectedReward, _) => write!(
                f,
                "the expected reward of number {}, counted as action × states + state, is no whole number of ticks \
                 (hundredths of a unit); round the rewards that make it up, or multiply all rewards by one number",
                at
            ),
            (Rule::Output, _) => write!(f, "an output to write a model file into has at least 32,768 bytes; lend more"),
            (Rule::Room, _) => write!(f, "the slice lent for the start numbers is too short; it needs {}", at),
        }
    }
}

impl error::Error for Refusal {}

/// A part that has not as many numbers as the model asks for, so that no call was made.
#[derive(Clone, Copy, Debug, PartialEq, Eq, Hash)]
pub struct Length {
    /// What is too short or too long.
    pub part: &'static str,
    /// The number of the vector, point or node that it belongs to, if there are several.
    pub number: Option<usize>,
    /// How many it has.
    pub found: usize,
    /// How many it should have.
    pub wanted: usize,
}

impl Length {
    /// Whether a part has as many as are wanted.
    pub(crate) fn test(part: &'static str, number: Option<usize>, found: usize, wanted: usize) -> Result<(), Length> {
        if found == wanted {
            Ok(())
        } else {
            Err(Length { part, number, found, wanted })
        }
    }
}

impl fmt::Display for Length {
    fn fmt(&self, f: &mut fmt::Formatter) -> fmt::Result {
        write!(f, "the {}", self.part)?;
        if let Some(number) = self.number {
            write!(f, " {}", number)?;
        }
        write!(f, " are {}, and the model wants {}", self.found, self.wanted)
    }
}

impl error::Error for Length {}

/// Why a call was not served.
#[derive(Clone, Copy, Debug, PartialEq, Eq, Hash)]
pub enum Error {
    /// The library refused it.
    Refused(Refusal),
    /// What was handed in does not fit the model's counts, and the library was not asked.
    Length(Length),
}

impl fmt::Display for Error {
    fn fmt(&self, f: &mut fmt::Formatter) -> fmt::Result {
        match self {
            Error::Refused(refusal) => refusal.fmt(f),
            Error::Length(length) => length.fmt(f),
        }
    }
}

impl error::Error for Error {}

impl From<Refusal> for Error {
    fn from(refusal: Refusal) -> Error {
        Error::Refused(refusal)
    }
}

impl From<Length> for Error {
    fn from(length: Length) -> Error {
        Error::Length(length)
    }
}
