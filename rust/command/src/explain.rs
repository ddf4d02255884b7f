//! `explain`: what a refusal means, and what usually causes it.

use crate::options::exit;
use crate::streams;

/// A refusal as a person is told of it.
struct Explanation {
    number: u64,
    means: &'static str,
    place: &'static str,
    causes: &'static [&'static str],
}

const NONE: &str = "none (0)";
const WORD: &str = "the bytes before the word, or the file's length if it is missing";
const LENGTH: &str = "the file's length";

const EXPLANATIONS: &[Explanation] = &[
    Explanation {
        number: 1,
        means: "The model file has more than 32,768 bytes, or one of a solver's files more than 4,194,304 (4 MiB).",
        place: NONE,
        causes: &[
            "Long comments, or columns lined up with blanks: shorten them.",
            "A statement for each entry: give rows (`T: a : s` and n numbers), and `*` where all are alike.",
        ],
    },
    Explanation {
        number: 2,
        means: "A word of the model file does not fit its form, stands where another was wanted, or is missing.",
        place: WORD,
        causes: &[
            "Names for states, actions or observations, matrices, `identity`, `uniform`, costs: `biidhaqun import` reads them.",
            "Rewards in full, `R: a : s : s' : o r`, by the state reached or by what is observed: `biidhaqun convert` writes the expected ones.",
            "Too many decimals: probabilities and the discount have at most three, start numbers and rewards two.",
            "An exponent beyond e-3 to e3, with a plus or a capital E, or one that leaves no whole number of the smallest unit: 5e-1 is read, 5E-1 and 5e-4 are not.",
            "A row with a number too few: then the next statement's key stands where a number was wanted.",
            "A header out of order: discount, values, states, actions, observations, start.",
        ],
    },
    Explanation {
        number: 3,
        means: "A count, index, start number, probability, discount or reward fits its form and is outside its limit.",
        place: "the bytes before the word (0 for tables that a program hands in or lends)",
        causes: &[
            "More than 64 states, 8 actions or 8 observations.",
            "A program lent slices that are too short for the counts: place 0.",
            "An index as large as the count: numbers start at 0, so 2 states are 0 and 1.",
            "A probability in percent, or a reward beyond 1000: divide all rewards by one number, and multiply the totals.",
        ],
    },
    Explanation {
        number: 4,
        means: "The start numbers do not total 1.",
        place: LENGTH,
        causes: &[
            "Thirds: 0.33 0.33 0.33 total 0.99; one of them has to be 0.34 (the point 1,1,1 says thirds).",
            "A start state instead of a mixture: `start: 1 0`, not `start: 0 0`.",
        ],
    },
    Explanation {
        number: 5,
        means: "A row of T does not total 1: the probabilities of the states reached, for one action and one state left.",
        place: "the file's length; for tables that a program hands in, action x states + state left",
        causes: &[
            "A row that no statement gives is 0 throughout: every action needs a row for every state.",
            "A later statement replaced one entry of a row, and the others stayed.",
            "Decimals that were rounded one by one.",
        ],
    },
    Explanation {
        number: 6,
        means: "A row of O does not total 1: the probabilities of the observations, for one action and one state reached.",
        place: "the file's length; for tables that a program hands in, action x states + state reached",
        causes: &[
            "A row that no statement gives is 0 throughout: every action needs a row for every state, reached or not.",
            "O is by the state reached, not by the state left.",
        ],
    },
    Explanation {
        number: 7,
        means: "The certifier that was handed in breaks a limit: its tables, its standing level, its rows (an entry of the fast \
                informed bound or of QMDP beyond 100,000 ticks x the level), or its number above 100. Or a list of transitions \
                that was handed in with it is not that of its table.",
        place: NONE,
        causes: &[
            "A program changed the words of a certifier, or cut them short. This command never does.",
            "A list of transitions that was made of another model, or cut short: make it anew. A slice of no words says that none is meant.",
            "Rows that were not opened with the certifier, or not handed on from call to call: each acceptance steps them, and at level 0 they are 0.",
        ],
    },
    Explanation {
        number: 8,
        means: "100 levels already stand, and no more are accepted.",
        place: NONE,
        causes: &["Levels are steps: 100 is the longest horizon."],
    },
    Explanation {
        number: 9,
        means: "A level has no vector, over 1,000 vectors or over 32 points, or the builder is given over 16 points. Or a slice that \
                a program lent is too short: for a level, for a list of offers or of points, for answers, or for the words of a \
                list of transitions.",
        place: NONE,
        causes: &[
            "`--point` more than 16 times.",
            "A program lent slices that are shorter than the counts of the level say, or a list with fewer words than states x actions + 1 and one for each T above 0.",
        ],
    },
    Explanation {
        number: 10,
        means: "A vector names an action, or a vector of the level below, that does not exist.",
        place: "the vector's number",
        causes: &[
            "Numbers that start at 1: all start at 0.",
            "Choices that point into the level itself.",
            "A solver's files offered out of turn: next nodes are those of the step before, and hyphens stand at the first.",
        ],
    },
    Explanation {
        number: 11,
        means: "An entry of a covered state, a corner or a point's value is outside its level's range: at level t within \
                100,000 x t ticks of 0, for values times the total of the point's weights.",
        place: "the number of the vector, corner or point",
        causes: &["Units of reward were taken for ticks, or the other way round: 1 unit is 100 ticks."],
    },
    Explanation {
        number: 12,
        means: "The weights of a point total less than 1 or more than 100.",
        place: "the point's number",
        causes: &["Weights in thousandths: divide them.", "Weights of a mixture, which may be larger: 1,1,1 says thirds."],
    },
    Explanation {
        number: 13,
        means: "A vector's entry is above its backup, at a state that it covers: no plan is known to earn that much.",
        place: "the vector's number",
        causes: &[
            "Entries that were rounded to the nearest tick: round them down.",
            "Choices that are not those the entry was worked out with.",
            "A level offered upon another one than it was made for.",
            "`biidhaqun certify` says which state it is, and how many ticks are too many.",
        ],
    },
    Explanation {
        number: 14,
        means: "A corner is below its backup: some plan may earn more at that state.",
        place: "the corner's number, which is its state",
        causes: &[
            "Corners that were rounded to the nearest tick: round them up.",
            "`biidhaqun certify` says which action it is, and how many ticks are missing.",
        ],
    },
    Explanation {
        number: 15,
        means: "A point's value is below its backup: some plan may earn more at its weights.",
        place: "the point's number",
        causes: &[
            "Values that were rounded to the nearest: round them up.",
            "A point's value is that of the weights as they stand: in ticks times their total.",
            "`biidhaqun certify` says which action it is, and how many ticks are missing.",
        ],
    },
    Explanation {
        number: 16,
        means: "No level was accepted yet, so there are no totals.",
        place: NONE,
        causes: &["Totals were asked for before the first offer."],
    },
    Explanation {
        number: 17,
        means: "A weight of the mixture is above 1,000,000, or all are 0; of ranges of weights, a high.",
        place: NONE,
        causes: &[
            "Only the proportions of the weights matter: divide them all by one number.",
            "Weights that were rounded to whole numbers and are all 0 now: multiply them first.",
            "A program handed in fewer weights, lows or highs than there are states.",
        ],
    },
    Explanation {
        number: 18,
        means: "A plan graph's node count, an action or a next node, or the node, state or steps asked for are outside their \
                limits.",
        place: "the node's number, or 0",
        causes: &["1 to 32 nodes, steps 0 to 4; every node is tested, reached or not."],
    },
    Explanation {
        number: 19,
        means: "A word of a solver's alpha file or policy graph does not fit its form, or is missing, or a node is out of order.",
        place: "the bytes before the word, or the file's length if it is missing; of the alpha file if it is at fault, else of \
                the policy graph",
        causes: &[
            "More than 12 digits behind a point: sed -E 's/(\\.[0-9]{12})[0-9]+/\\1/g' cuts them.",
            "The policy graph before the alpha file: for each step the alpha file comes first.",
            "Files of another model: the alpha file has a decimal for each state, the graph a next node for each observation.",
            "Next nodes that are missing are written `-`.",
            "More than 1,000 nodes: a level has at most 1,000 vectors, and their numbers at most three digits. Let the solver prune them.",
        ],
    },
    Explanation {
        number: 20,
        means: "A solver's alpha file and policy graph have different numbers of vectors, or different actions.",
        place: NONE,
        causes: &[
            "Files of two steps, or of two runs of the solver.",
            "A policy graph in another order than the alpha file: node 0 is the first vector.",
        ],
    },
    Explanation {
        number: 21,
        means: "A vector covers a state from which its action may lead, with some observation, to a state that the vector \
                chosen for that observation does not cover: nothing is known of how its plan goes on there.",
        place: "the vector's number",
        causes: &[
            "A mask that was copied from the mixture the vector was made at: what is reached from there counts too.",
            "A level offered upon another one than it was made for.",
            "A mask that counts states from 1: bit 0 is state 0.",
            "A solver's files upon a level with masks: their vectors cover all states, and so must what they go on with.",
            "`biidhaqun certify` says which state is reached from which. Leave that state out of the mask, or choose another vector.",
        ],
    },
    Explanation {
        number: 22,
        means: "No vector counts at the mixture: each of them leaves out a state that has weight there, so that no floor is \
                known. Within ranges of weights the highs count: a state whose high is above 0 may have weight. Or, where a level \
                is built: no vector that stands covers all states.",
        place: NONE,
        causes: &[
            "A weight that is small but not 0 on a state that no vector covers.",
            "A level of masked vectors alone: one vector that covers all states, however low, counts at every mixture, and can be built upon.",
        ],
    },
    Explanation {
        number: 23,
        means: "New prices must leave all but the rewards as it is: the new tables differ in the number of states, actions or \
                observations, in T, in O, or in the discount.",
        place: NONE,
        causes: &[
            "A probability that was written anew and rounded otherwise: copy the file, and change its R statements alone.",
            "A state or an action more: that is another model, and its levels are built anew.",
        ],
    },
    Explanation {
        number: 24,
        means: "A low is above its high: there is no weight in that range.",
        place: NONE,
        causes: &[
            "Low and high were exchanged: `--within 40..60` says 40 to 60.",
            "A program handed in fewer highs than there are states: one that is missing counts as 0 here.",
        ],
    },
    Explanation {
        number: 25,
        means: "The model has over 16 states, and at most 16 are converted.",
        place: NONE,
        causes: &[
            "A larger model: `biidhaqun import` writes its expected rewards for up to 64 states. It is not proved, and says what it had to round.",
            "A model with layers: state its expected rewards yourself, by `R: a : s : * : *` and a number. Such a file needs no conversion, and up to 64 states are read.",
        ],
    },
    Explanation {
        number: 26,
        means: "The expected reward of an action and a state is no whole number of ticks (hundredths of a unit): the rewards of \
                what follows, weighed by T and O.",
        place: "action x states + state, the first by action, then by state",
        causes: &[
            "Probabilities of three decimals and rewards of two: their products have more than two. Round a reward of what follows, or multiply all rewards by 10 or 100, and divide the totals.",
            "An outcome that no statement gives: it earns 0.",
            "`biidhaqun import --round` rounds expected rewards to the nearest tick, and lists what it changed.",
        ],
    },
    Explanation {
        number: 27,
        means: "The output that a converted file is written into has less than 32,768 bytes. Only programs that call the library \
                meet this.",
        place: NONE,
        causes: &["32,768 bytes are enough for every file that is written."],
    },
    Explanation {
        number: 100,
        means: "The slice that a file's start numbers are read into is too short. Only programs that call the library meet this.",
        place: "the length that it needs",
        causes: &["Start numbers are as many as states: 64 always do."],
    },
];

/// The text about a refusal, if there is one of this number.
pub fn text(number: u64) -> Option<String> {
    let found = EXPLANATIONS.iter().find(|explanation| explanation.number == number)?;
    let mut text = format!("{}. {}\n\nPlace: {}.\n\nWhat usually causes it:\n", number, found.means, found.place);
    for cause in found.causes {
        text.push_str(&format!("- {}\n", cause));
    }
    Some(text)
}

/// Prints it; the exit status.
pub fn run(number: u64) -> Result<i32, String> {
    match text(number) {
        Some(text) => streams::put(&text).map(|()| exit::SERVED),
        None => {
            streams::tell(&format!("biidhaqun: there is no refusal {}; they are 1 to 27 and 100\n", number))?;
            Ok(exit::USAGE)
        }
    }
}

#[cfg(test)]
mod tests {
    use super::*;

    #[test]
    fn every_refusal_is_explained() {
        for number in (1..=27).chain([100]) {
            assert!(text(number).unwrap().starts_with(&format!("{}. ", number)));
        }
        assert_eq!(text(0), None);
        assert_eq!(text(28), None);
    }
}
