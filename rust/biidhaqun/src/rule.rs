//! The refusals of docs/RULES.md by name.

use std::fmt;

/// Lists the rules: the number of the refusal, the name, and what it says.
macro_rules! rules {
    ($($number:literal $name:ident: $text:literal,)*) => {
        /// The rule that a refusal is about: what holds where it is not refused. [`Rule::number`] is its number in docs/RULES.md.
        #[derive(Clone, Copy, Debug, PartialEq, Eq, PartialOrd, Ord, Hash)]
        #[non_exhaustive]
        pub enum Rule {
            $(#[doc = concat!(stringify!($number), ": ", $text, ".")] $name,)*
        }

        impl Rule {
            /// All of them, by number.
            pub const ALL: &'static [Rule] = &[$(Rule::$name,)*];

            /// The number.
            pub fn number(self) -> u64 {
                match self {
                    $(Rule::$name => $number,)*
                }
            }

            /// The rule in words.
            pub fn text(self) -> &'static str {
                match self {
                    $(Rule::$name => $text,)*
                }
            }
        }
    };
}

rules! {
    1 FileLength: "a model file has at most 32,768 bytes, each of a solver's files at most 4,194,304",
    2 Form: "each word of a file fits its form, and none is missing",
    3 Limit: "counts, indices, start numbers, probabilities, discount and rewards are within their limits, and tables have room",
    4 StartTotal: "the start numbers total 1",
    5 TransitionTotal: "each row of T totals 1",
    6 ObservationTotal: "each row of O totals 1",
    7 Certifier: "the tables, the standing level and the rows of a certifier are within their limits, at most 100 levels stand, and a list is that of its table",
    8 Levels: "at most 100 levels are accepted",
    9 LevelSize: "a level has 1 to 1,000 vectors and at most 32 points, the builder is given at most 16, and slices have room",
    10 Numbers: "actions and chosen vectors exist",
    11 Range: "entries of covered states, corners and point values are within their level's range",
    12 PointTotal: "a point's weights total 1 to 100",
    13 VectorBackup: "no entry of a covered state is above its backup",
    14 CornerBackup: "no corner is below its backup",
    15 PointBackup: "no point is below its backup",
    16 NoLevel: "totals are asked above level 0",
    17 Mixture: "each state has a weight, or a low and a high; weights and highs are at most 1,000,000, and not all are 0",
    18 Graph: "a plan graph, and the node, state and steps asked for, are within their limits",
    19 SolverForm: "each word of a solver's files fits its form, none is missing, and nodes are numbered in order",
    20 SolverFiles: "a solver's two files have as many vectors, and the same actions",
    21 Covered: "what a covered state reaches is covered by the vector that is chosen there",
    22 Counting: "some vector counts at a mixture or at the highs, and some covers all states where a level is built",
    23 Prices: "new tables differ in their rewards at most: counts, T, O and discount are the same",
    24 LowHigh: "no low of a range of weights is above its high",
    25 Wide: "a model that is written as a model file has at most 16 states",
    26 ExpectedReward: "the expected reward of each action and state is a whole number of ticks",
    27 Output: "an output to write a model file into has at least 32,768 bytes",
    100 Room: "the slice that start numbers are read into has room",
}

impl Rule {
    /// The rule of this number.
    pub fn of(number: u64) -> Option<Rule> {
        Rule::ALL.iter().copied().find(|rule| rule.number() == number)
    }
}

impl fmt::Display for Rule {
    fn fmt(&self, f: &mut fmt::Formatter) -> fmt::Result {
        f.write_str(self.text())
    }
}
