//! Levels from a published solver: document 02, Job 1.
//!
//! The solver saves two files for each step. The alpha file has, for each vector, an action and n decimals; the policy
//! graph file has, for each node, its number, an action, and a next node for each observation. Words part as in the model
//! file.

use crate::backup::{reaches_uncovered, vector_backup};
use crate::build::{least_ceiling, Points, BUILT_POINTS};
use crate::certifier::{examine, full, Certifier};
use crate::exact::{k, round_down, stored, zero};
use crate::file::FILE_BYTES;
use crate::level::{first_untotalled, kept_choice, most_vectors, Level, Lists, TICKS, VECTORS};
use crate::model::Model;
use crate::refusal::Refusal;
use crate::rules::{Rules, Trap};
use crate::words::{Reader, Word};
use num_bigint::BigInt;

/// Each of a solver's files has at most this many bytes: 4 MiB.
pub const SOLVER_BYTES: usize = 4 << 20;
/// A decimal has at most so many digits before the point, and so many behind it.
const WHOLE_DIGITS: usize = 6;
const DECIMALS: usize = 12;
/// An action has at most so many digits, a node so many.
const ACTION_DIGITS: usize = 2;
const NODE_DIGITS: usize = 3;
/// Ticks in a unit of reward.
const UNIT: u32 = 100;

/// A vector of the alpha file: its action, and its decimals in ticks.
#[derive(Clone, Debug, PartialEq, Eq)]
struct Alpha {
    action: BigInt,
    ticks: Vec<BigInt>,
}

/// A node of the graph: its action, and its next nodes; a hyphen is none.
#[derive(Clone, Debug, PartialEq, Eq)]
struct Node {
    action: BigInt,
    next: Vec<Option<BigInt>>,
}

/// What the two files say.
struct Files {
    alphas: Vec<Alpha>,
    nodes: Vec<Node>,
}

/// Makes the level that two files say, or refuses with 1, 7, 19, 20, 8, 9, 10, 21, 11 or 12, in this order.
///
/// Its vectors are the files', in their order, and cover all states, each entry the lesser of the decimal rounded down to
/// ticks and of its own backup over K rounded down; its corners and points are the builder's.
pub fn adopt(
    certifier: &Certifier,
    alpha: &[u8],
    graph: &[u8],
    points: &Points,
    rules: &Rules,
) -> Result<Level, Refusal> {
    let (model, standing, files) = judge_files(certifier, alpha, graph, rules)?;
    if full(certifier, rules) && !rules.has(Trap::EightBeforeFiles) {
        return Err(Refusal::at(8, 0));
    }
    let vectors = files.alphas.len();
    if vectors < 1 || vectors as u64 > most_vectors(rules) || points.count > BUILT_POINTS as u64 {
        return Err(Refusal::at(9, 0));
    }

    let untotalled = || match first_untotalled(&points.weights, points.count as usize, model.n, rules) {
        Some(point) => Err(Refusal::at_index(12, point)),
        None => Ok(()),
    };
    if rules.has(Trap::PointsBeforeEntries) {
        untotalled()?;
    }
    let choices = files.nodes.iter().map(|node| named(&model, &standing, certifier.level, node, rules));
    let choices: Vec<Option<Vec<usize>>> = choices.collect();
    let dangling = match choices.iter().position(Option::is_none) {
        Some(v) => Err(Refusal::at_index(10, v)),
        None => Ok(()),
    };
    if !rules.has(Trap::TenAfterEleven) {
        dangling?;
    }
    let all = vec![true; model.n];
    let uncovered = choices.iter().zip(&files.nodes).position(|(choices, node)| match choices {
        Some(choices) => reaches_uncovered(&model, &standing, &all, action(&model, &node.action), choices, rules),
        // Only a trap comes here with a vector that names what does not exist.
        None => false,
    });
    let uncovered = match uncovered {
        Some(v) => Err(Refusal::at_index(21, v)),
        None => Ok(()),
    };
    if !rules.has(Trap::TwentyOneAfterEleven) {
        uncovered?;
    }

    let mut level = Level::zeros(vectors, points.count as usize, model.n, model.k);
    let lowest = -BigInt::from(TICKS) * (certifier.level + 1);
    for (v, (alpha, choices)) in files.alphas.iter().zip(&choices).enumerate() {
        let choices = match choices {
            Some(choices) => choices,
            None => continue,
        };
        let action = action(&model, &alpha.action);
        level.actions[v] = action as u64;
        for (o, &choice) in choices.iter().enumerate() {
            level.choices[v * model.k + o] = kept_choice(choice as u64, rules);
        }
        for s in 0..model.n {
            let backup = vector_backup(&model, &standing, s, action, choices, rules);
            let backup = match rules.trap {
                Some(Trap::BackupTowardsZero) => backup / k(),
                _ => round_down(&backup, &k(), rules),
            };
            let mut entry = match rules.trap {
                Some(Trap::DecimalAlone) => alpha.ticks[s].clone(),
                Some(Trap::BackupAlone) => backup,
                _ => alpha.ticks[s].clone().min(backup),
            };
            if entry < lowest && rules.has(Trap::EntriesRaised) {
                entry = lowest.clone();
            }
            level.entries[v * model.n + s] = stored(&entry);
        }
    }
    least_ceiling(&model, &standing, points, &mut level, rules);
    if let Some(place) = level.first_outside(model.n, certifier.level + 1, true, rules) {
        return Err(Refusal::at_index(11, place));
    }
    dangling?;
    uncovered?;
    untotalled()?;
    if rules.has(Trap::AdoptedMasksEmpty) {
        level.masks.fill(0);
    }
    Ok(level)
}

/// The action that a file names; by a trap one that does not exist is the last.
fn action(model: &Model, named: &BigInt) -> usize {
    usize::try_from(named).unwrap_or(usize::MAX).min(model.m - 1)
}

/// How many vectors the two files have, or their refusal by 1, 7, 19 or 20: for whoever has to find room for the level.
pub fn adopted_vectors(certifier: &Certifier, alpha: &[u8], graph: &[u8], rules: &Rules) -> Result<usize, Refusal> {
    judge_files(certifier, alpha, graph, rules).map(|(_, _, files)| files.alphas.len())
}

/// 1, 7, 19 and 20.
fn judge_files(
    certifier: &Certifier,
    alpha: &[u8],
    graph: &[u8],
    rules: &Rules,
) -> Result<(Model, Lists, Files), Refusal> {
    let most = match rules.trap {
        Some(Trap::SolverFilesAsModel) => FILE_BYTES,
        Some(Trap::SolverByteMore) => SOLVER_BYTES + 1,
        _ => SOLVER_BYTES,
    };
    let graph_too_long = graph.len() > most && !rules.has(Trap::GraphOfAnyLength);
    let long = if alpha.len() > most || graph_too_long { Err(Refusal::at(1, 0)) } else { Ok(()) };
    if !rules.has(Trap::SevenBeforeOne) {
        long?;
    }
    let examined = examine(certifier, rules);
    // The files are read by the tables' counts, so a reader that tests 7 too late still wants tables.
    let model = match &examined {
        Ok((model, _)) => model.clone(),
        Err(refusal) if rules.has(Trap::SevenAfterFiles) => {
            Model::of(&certifier.tables, rules).map_err(|_| *refusal)?
        }
        Err(refusal) => return Err(*refusal),
    };
    long?;
    if full(certifier, rules) && rules.has(Trap::EightBeforeFiles) {
        return Err(Refusal::at(8, 0));
    }
    let files = read_files(&model, alpha, graph, rules)?;
    let (model, standing) = examined?;
    Ok((model, standing, files))
}

/// 19, the alpha file wholly first, then 20.
fn read_files(model: &Model, alpha: &[u8], graph: &[u8], rules: &Rules) -> Result<Files, Refusal> {
    if rules.has(Trap::TwentyFirst) {
        // The files as far as they read.
        let alphas = Reader::new(alpha, rules).alphas(model.n).0;
        let nodes = Reader::new(graph, rules).nodes(model.k).0;
        agree(&alphas, &nodes, rules)?;
    }
    let nodes = || all(Reader::new(graph, rules).nodes(model.k));
    if rules.has(Trap::GraphFirst) {
        nodes()?;
    }
    let alphas = all(Reader::new(alpha, rules).alphas(model.n))?;
    if alphas.len() > VECTORS && rules.has(Trap::NineBeforeGraph) {
        return Err(Refusal::at(9, 0));
    }
    let nodes = nodes()?;
    agree(&alphas, &nodes, rules)?;
    Ok(Files { alphas, nodes })
}

/// All that was read, unless a word did not fit.
fn all<Item>((items, ended): (Vec<Item>, Result<(), Refusal>)) -> Result<Vec<Item>, Refusal> {
    ended.map(|()| items)
}

/// 20: as many vectors as nodes, and the same actions.
fn agree(alphas: &[Alpha], nodes: &[Node], rules: &Rules) -> Result<(), Refusal> {
    let counts = alphas.len() == nodes.len() || rules.has(Trap::CountsApart);
    let mut pairs = alphas.iter().zip(nodes);
    let actions = rules.has(Trap::ActionsApart) || pairs.all(|(alpha, node)| alpha.action == node.action);
    if counts && actions {
        Ok(())
    } else {
        Err(Refusal::at(20, 0))
    }
}

/// The vectors that a node names for each observation, if its action and all of them exist. A hyphen is vector 0 at the
/// first level, and none at a later one.
fn named(model: &Model, standing: &Lists, level: u64, node: &Node, rules: &Rules) -> Option<Vec<usize>> {
    let hyphen = match level {
        0 => !rules.has(Trap::HyphenRefused),
        _ => rules.has(Trap::LaterHyphen),
    };
    let choice = |next: &Option<BigInt>| match next {
        Some(next) => usize::try_from(next).ok().filter(|&next| next < standing.vectors.len()),
        None => Some(0).filter(|_| hyphen),
    };
    let action = node.action < BigInt::from(model.m);
    node.next.iter().map(choice).collect::<Option<_>>().filter(|_| action)
}

impl Reader<'_> {
    /// The value of the next word by its form; 19 where it does not fit, at the file's length where it is missing.
    fn value<Of>(&mut self, form: impl Fn(&[u8]) -> Option<Of>) -> Result<Of, Refusal> {
        let word = self.word_or(19)?;
        self.fitting(&word, form)
    }

    fn fitting<Of>(&self, word: &Word, form: impl Fn(&[u8]) -> Option<Of>) -> Result<Of, Refusal> {
        form(word.bytes).ok_or_else(|| self.at(19, word))
    }

    /// The vectors or nodes of a file, each from its first word on, and how the reading ended: with the first word that does
    /// not fit, or with the file.
    fn items<Item>(
        &mut self,
        item: impl Fn(&mut Self, &Word, usize) -> Result<Item, Refusal>,
    ) -> (Vec<Item>, Result<(), Refusal>) {
        let mut items = Vec::new();
        while let Some(first) = self.next().filter(|_| wanted(items.len(), self.rules)) {
            match item(self, &first, items.len()) {
                Ok(item) => items.push(item),
                Err(refusal) => return (items, Err(refusal)),
            }
        }
        (items, Ok(()))
    }

    /// The alpha file's vectors.
    fn alphas(&mut self, n: usize) -> (Vec<Alpha>, Result<(), Refusal>) {
        let rules = self.rules;
        self.items(|reader, first, _| {
            let action = reader.fitting(first, |bytes| digits(bytes, action_digits(rules)))?;
            let ticks = (0..n).map(|_| reader.value(|bytes| decimal_form(bytes, rules)));
            Ok(Alpha { action, ticks: ticks.collect::<Result<_, _>>()? })
        })
    }

    /// The graph's nodes.
    fn nodes(&mut self, observations: usize) -> (Vec<Node>, Result<(), Refusal>) {
        let rules = self.rules;
        self.items(|reader, first, number| {
            let in_order = |bytes: &[u8]| {
                let found = digits(bytes, node_digits(rules))?;
                Some(()).filter(|()| found == BigInt::from(number) || rules.has(Trap::NodesUnordered))
            };
            reader.fitting(first, in_order)?;
            let action = reader.value(|bytes| digits(bytes, action_digits(rules)))?;
            let next = (0..observations).map(|_| reader.value(|bytes| next_form(bytes, rules)));
            Ok(Node { action, next: next.collect::<Result<_, _>>()? })
        })
    }
}

/// Whether a further vector or node is read: all are, but by a trap.
fn wanted(read: usize, rules: &Rules) -> bool {
    read < 100 || !rules.has(Trap::HundredRead)
}

fn action_digits(rules: &Rules) -> usize {
    ACTION_DIGITS + usize::from(rules.has(Trap::ActionThreeDigits))
}

fn node_digits(rules: &Rules) -> usize {
    match rules.trap {
        Some(Trap::NodeTwoDigits) => NODE_DIGITS - 1,
        Some(Trap::NodeFourDigits) => NODE_DIGITS + 1,
        _ => NODE_DIGITS,
    }
}

/// The value of one digit or more, up to so many.
fn digits(bytes: &[u8], most: usize) -> Option<BigInt> {
    let fits = (1..=most).contains(&bytes.len()) && bytes.iter().all(u8::is_ascii_digit);
    Some(bytes).filter(|_| fits).and_then(|bytes| BigInt::parse_bytes(bytes, 10))
}

/// A next node: a number, or a hyphen for none.
fn next_form(bytes: &[u8], rules: &Rules) -> Option<Option<BigInt>> {
    match bytes {
        b"-" => Some(None),
        b"X" | b"*" if rules.has(Trap::StarForNone) => Some(None),
        _ => digits(bytes, node_digits(rules)).map(Some),
    }
}

/// A decimal, in ticks rounded down: an optional minus, 1 to 6 digits, and optionally a point and 1 to 12 digits.
fn decimal_form(bytes: &[u8], rules: &Rules) -> Option<BigInt> {
    let (minus, unsigned) = match bytes {
        [b'-', rest @ ..] => (true, rest),
        [b'+', rest @ ..] if rules.has(Trap::DecimalPlus) => (false, rest),
        _ => (false, bytes),
    };
    let mut parts = unsigned.splitn(2, |&byte| byte == b'.');
    let (whole, decimals) = (parts.next()?, parts.next());
    let most_whole = WHOLE_DIGITS + usize::from(rules.has(Trap::DecimalSevenDigits));
    let most_decimals = DECIMALS + usize::from(rules.has(Trap::ThirteenDecimals));
    let typed = rules.has(Trap::DecimalAsTyped);
    let part = |bytes: &[u8], most: usize| match bytes {
        [] if typed => Some(zero()),
        _ => digits(bytes, most),
    };
    let mut size = part(whole, most_whole)?;
    let mut unit = BigInt::from(1);
    if let Some(decimals) = decimals {
        unit = BigInt::from(10).pow(decimals.len() as u32);
        size = size * &unit + part(decimals, most_decimals)?;
    }
    let value = if minus && !rules.has(Trap::MinusDropped) { -size } else { size } * UNIT;
    match rules.trap {
        Some(Trap::DecimalTowardsZero) => Some(value / unit),
        Some(Trap::DecimalUp) => Some(-round_down(&-value, &unit, &Rules::default())),
        Some(Trap::DecimalNearest) => Some(round_down(&(value * 2 + &unit), &(unit * 2), &Rules::default())),
        Some(Trap::DecimalInTicks) => Some(round_down(&value, &(unit * UNIT), &Rules::default())),
        _ => Some(round_down(&value, &unit, &Rules::default())),
    }
}
