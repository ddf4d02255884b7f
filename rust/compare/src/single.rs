//! One call at a time, on slices of any content and length.

use crate::copied::BY_THE_DOCUMENT;
use crate::files;
use crate::gen::{self, Question, Shape, Step};
use crate::lent::{self, Call, Slice};
use crate::rng::Rng;
use crate::{adopting, converting, listing, pricing, replaying};
use biidhaqun::slices::{Answers, Certifier, Level, Tables};
use reference::{Graph, Points, STATES};
use std::cell::Cell;

/// A call with whole objects. Its slices are as long as they must be and no longer, and anything lies in those that are
/// only written.
fn whole(rng: &mut Rng) -> Call {
    let shape = gen::shape(rng);
    match rng.below(14) {
        0 => reading_exactly(rng),
        1 => {
            let mut tables = gen::tables(rng, shape);
            for _ in 0..rng.below(2) {
                gen::spoil_tables(rng, &mut tables);
            }
            opening(rng, &tables)
        }
        2 => {
            let tables = gen::tables(rng, shape);
            let mut graph = gen::graph(rng, shape);
            if rng.once_in(6) {
                gen::spoil_graph(rng, &mut graph, shape);
            }
            let asked = gen::question(rng, &graph, shape);
            worth(&tables, &graph, asked)
        }
        3 | 4 => {
            // A level that grows by a few points, so that the certifier must have room for it.
            let levels = rng.below(3);
            let certifier = followed(&gen::list(rng, shape, levels));
            let count = rng.index(5);
            let points = gen::points(rng, shape.n, count);
            let level = gen::above(&certifier, &points, shape);
            let level = if rng.once_in(2) { level } else { gen::masked(rng, &certifier, &level, shape) };
            let level = if rng.once_in(2) { level } else { gen::loosened(rng, &level, shape, certifier.level + 1) };
            offering(rng, shape, &certifier, &level)
        }
        5 => {
            let levels = 1 + rng.below(2);
            let certifier = followed(&gen::list(rng, shape, levels));
            let count = rng.index(5);
            asking(rng, shape, &certifier, count)
        }
        6 => {
            let levels = 1 + rng.below(2);
            let certifier = followed(&gen::list(rng, shape, levels));
            let (mut lows, mut highs) = gen::ranges(rng, shape.n);
            if rng.once_in(3) {
                gen::spoil_ranges(rng, shape.n, (&mut lows, &mut highs));
            }
            within(shape, &certifier, &lows, &highs)
        }
        7 => listing::random(rng),
        8 => pricing::random(rng),
        9 => converting::random(rng),
        10 => {
            let levels = rng.below(3);
            let certifier = followed(&gen::list(rng, shape, levels));
            let count = rng.index(4);
            let mut points = gen::points(rng, shape.n, count);
            if rng.once_in(2) {
                gen::spoil_points(rng, shape.n, &mut points);
            }
            building(rng, shape, &certifier, &points)
        }
        _ => {
            let (certifier, steps) = gen::handed(rng, shape);
            match rng.pick(&steps) {
                Step::Offer(level) => offering(rng, shape, &certifier, &level),
                Step::Totals(_) if rng.once_in(2) => {
                    let count = rng.index(4);
                    asking(rng, shape, &certifier, count)
                }
                Step::Totals(mixture) => totals(&certifier, lent::mixture(&mixture, shape.n)),
                Step::Within(lows, highs) => within(shape, &certifier, &lows, &highs),
                Step::Reprice(new) => pricing::call(&certifier, &new),
                Step::Build(points) | Step::Raise(points) => building(rng, shape, &certifier, &points),
            }
        }
    }
}

/// Opens tables, with slices for level 0 and its rows.
pub fn opening(rng: &mut Rng, tables: &reference::Tables) -> Call {
    let tables = lent::tables(tables);
    let fit = tables.counts_fit();
    let (n, m, k) = if fit { (tables.states, tables.actions, tables.observations) } else { (1, 1, 1) };
    let mut certifier = sized(rng, Certifier::default(), &Level::zeros(n, k, 1, 0));
    certifier.informed.sized(m * n, rng);
    certifier.qmdp.sized(m * n, rng);
    Call::Open { tables, certifier }
}

/// Slices of a certifier that are as long as a level's, at least.
pub fn sized(rng: &mut Rng, mut certifier: Certifier, level: &Level) -> Certifier {
    fn grow(rng: &mut Rng, slice: &mut dyn Slice, length: usize) {
        slice.sized(slice.length().max(length), rng);
    }
    grow(rng, &mut certifier.state, 3);
    grow(rng, &mut certifier.actions, level.actions.len());
    grow(rng, &mut certifier.choices, level.choices.len());
    grow(rng, &mut certifier.masks, level.masks.len());
    grow(rng, &mut certifier.entries, level.entries.len());
    grow(rng, &mut certifier.corners, level.corners.len());
    grow(rng, &mut certifier.weights, level.weights.len());
    grow(rng, &mut certifier.values, level.values.len());
    certifier
}

pub fn offering(rng: &mut Rng, shape: Shape, certifier: &reference::Certifier, level: &reference::Level) -> Call {
    let level = lent::level(level, shape.n, shape.k);
    let standing = sized(rng, lent::certifier(certifier), &level);
    let tables = lent::tables(&certifier.tables);
    Call::Offer { list: listing::some(rng, &tables), tables, certifier: standing, level }
}

/// Totals at a mixture.
pub fn totals(certifier: &reference::Certifier, mixture: Vec<u32>) -> Call {
    Call::Totals { tables: lent::tables(&certifier.tables), certifier: lent::certifier(certifier), mixture }
}

/// Totals at some mixtures, of which some are refused; now and then as many are asked for as no slice holds.
pub fn asking(rng: &mut Rng, shape: Shape, certifier: &reference::Certifier, count: usize) -> Call {
    let (mut mixtures, mut answers) = (Vec::new(), Answers::default());
    for _ in 0..count {
        let mut mixture = gen::mixture(rng, shape.n);
        if rng.once_in(3) {
            gen::spoil_mixture(rng, shape.n, &mut mixture);
        }
        mixtures.extend(lent::mixture(&mixture, shape.n));
    }
    answers.numbers.sized(count, rng);
    answers.lower.sized(count, rng);
    answers.upper.sized(count, rng);
    answers.actions.sized(count, rng);
    // Of two states or of four, the cells of 2^63 mixtures number 0 in 64 bits.
    let count = if rng.once_in(12) { rng.pick(&[usize::MAX, usize::MAX / 2, 1 << 62, 1 << 63]) } else { count };
    let tables = lent::tables(&certifier.tables);
    Call::Each { tables, certifier: lent::certifier(certifier), mixtures, count, answers }
}

/// Totals within ranges, with no more lows and highs than there are states.
pub fn within(shape: Shape, certifier: &reference::Certifier, lows: &[u64], highs: &[u64]) -> Call {
    let (lows, highs) = (lent::mixture(lows, shape.n), lent::mixture(highs, shape.n));
    Call::Within { tables: lent::tables(&certifier.tables), certifier: lent::certifier(certifier), lows, highs }
}

/// Slices for such a level, to be made.
fn room(rng: &mut Rng, level: &Level) -> Level {
    lent::to_be_made(sized(rng, Certifier::default(), level))
}

pub fn building(rng: &mut Rng, shape: Shape, certifier: &reference::Certifier, points: &Points) -> Call {
    let (count, points) = lent::points(points, shape.n);
    let few = count.min(reference::BUILT_POINTS + 1);
    let level = room(rng, &Level::zeros(shape.n, shape.k, shape.n + few, few));
    let tables = lent::tables(&certifier.tables);
    Call::Build {
        list: listing::some(rng, &tables),
        tables,
        certifier: lent::certifier(certifier),
        count,
        points,
        level,
    }
}

/// Makes a level of so many vectors from a solver's files.
pub fn adoption(
    rng: &mut Rng,
    certifier: &reference::Certifier,
    (alpha, graph): (&[u8], &[u8]),
    points: &Points,
    vectors: usize,
) -> Call {
    let (n, k) = lent::counts(&certifier.tables);
    let (count, points) = lent::points(points, n);
    let few = count.min(reference::BUILT_POINTS + 1);
    let level = room(rng, &Level::zeros(n, k, vectors, few));
    let (tables, certifier) = (lent::tables(&certifier.tables), lent::certifier(certifier));
    Call::Adopt { tables, certifier, alpha: alpha.to_vec(), graph: graph.to_vec(), points, count, level }
}

/// What a graph is worth.
pub fn worth(tables: &reference::Tables, graph: &Graph, asked: Question) -> Call {
    let (_, k) = lent::counts(tables);
    Call::Worth { tables: lent::tables(tables), graph: lent::graph(graph, k), asked }
}

/// Reads a random file, with slices as long as its counts need.
fn reading_exactly(rng: &mut Rng) -> Call {
    let file = files::random(rng).file;
    let needed = Cell::new((0, (0, 0, 0)));
    let counted = |tables: &reference::Tables| {
        needed.set((tables.states as usize, tables.cells_used()));
        true
    };
    // Whether the file reads or not.
    let _ = reference::read_into(&file, counted, &gen::DOCUMENT);
    let (states, (transitions, sights, rewards)) = needed.get();
    let (mut tables, mut start) = (Tables::default(), Vec::new());
    tables.transition.sized(transitions, rng);
    tables.observation.sized(sights, rng);
    tables.reward.sized(rewards, rng);
    start.sized(states, rng);
    Call::Read { file, tables, start }
}

/// Reads a file, with room and more.
pub fn reading(file: &[u8]) -> Call {
    let mut rng = Rng::for_case(0, "room", file.len() as u64);
    let (mut tables, mut start) = (Tables::default(), Vec::new());
    let room = Tables::roomy();
    tables.transition.sized(room.transition.len() + 3, &mut rng);
    tables.observation.sized(room.observation.len() + 3, &mut rng);
    tables.reward.sized(room.reward.len() + 3, &mut rng);
    start.sized(STATES + 3, &mut rng);
    Call::Read { file: file.to_vec(), tables, start }
}

/// The certifier after a list of offers.
pub fn followed(list: &gen::List) -> reference::Certifier {
    let mut certifier = reference::open(&list.tables, &gen::DOCUMENT).expect("generated tables open");
    for step in &list.steps {
        step.follow(&mut certifier);
    }
    certifier
}

/// A random call: most slices are exact or longer, some one short or shorter, some with anything in a cell.
pub fn random(rng: &mut Rng) -> Call {
    let call = whole(rng);
    touched(rng, call)
}

/// The call with some of its slices longer, shorter, or with anything in a cell.
pub fn touched(rng: &mut Rng, mut call: Call) -> Call {
    let count = call.slices().len();
    // One slice in a few is touched, so that calls are served too.
    for (_, slice) in call.slices() {
        let length = slice.length();
        match rng.below(3 * count as u64) {
            0 => slice.sized(length.saturating_sub(1), rng),
            1 => slice.sized(rng.index(length + 1), rng),
            2 => slice.spoilt(rng),
            at if at % 2 == 0 => slice.sized(length + 1 + rng.index(5), rng),
            _ => {}
        }
    }
    call
}

/// The call as it is, or touched.
pub fn half_touched(rng: &mut Rng, call: Call) -> Call {
    if rng.once_in(2) {
        call
    } else {
        touched(rng, call)
    }
}

/// A call that is served, with slices as long as they must be and no longer, of which no one is empty but where it can only
/// be: upon level 0 stands no point.
fn served(rng: &mut Rng, kind: u64) -> Call {
    loop {
        let shape = Shape { n: 1 + rng.index(4), m: 1 + rng.index(3), k: 1 + rng.index(3) };
        let tables = gen::tables(rng, shape);
        let mut certifier = reference::open(&tables, &gen::DOCUMENT).expect("generated tables open");
        let mut raised = |certifier: &mut reference::Certifier, count: usize| {
            let points = gen::points(rng, shape.n, count);
            let level = reference::build(certifier, &points, &gen::DOCUMENT).expect("points within the limits");
            reference::offer(certifier, &level, &gen::DOCUMENT).expect("a built level is accepted");
        };
        raised(&mut certifier, 2);
        let call = match kind {
            0 => reading_exactly(rng),
            1 => opening(rng, &tables),
            2 => {
                // As large as what stands, larger, or smaller.
                let points = 1 + rng.index(3);
                let points = gen::points(rng, shape.n, points);
                let level = reference::build(&certifier, &points, &gen::DOCUMENT).expect("points within the limits");
                let level = if rng.once_in(2) { level } else { gen::masked(rng, &certifier, &level, shape) };
                offering(rng, shape, &certifier, &level)
            }
            3 => {
                let mixture = lent::mixture(&gen::mixture(rng, shape.n), shape.n);
                totals(&certifier, mixture)
            }
            4 => {
                let points = gen::points(rng, shape.n, 2);
                building(rng, shape, &certifier, &points)
            }
            5 => asking(rng, shape, &certifier, 3),
            6 => adopting::random(rng).call(rng),
            7 => replaying::served(rng, shape, &certifier),
            8 => {
                let (lows, highs) = gen::ranges(rng, shape.n);
                within(shape, &certifier, &lows, &highs)
            }
            9 => listing::served(rng, shape),
            10 => pricing::served(rng, &certifier),
            11 => converting::exactly(rng),
            _ => {
                let graph = gen::graph(rng, shape);
                let asked = gen::question(rng, &graph, shape);
                worth(&tables, &graph, asked)
            }
        };
        if call.number(&BY_THE_DOCUMENT) == 0 {
            return call;
        }
    }
}

/// How a call ends that is served, if this slice is one short: the number and the place. None, if the slice needs nothing.
fn if_short(call: &Call, name: &str, length: usize) -> Option<(u64, usize)> {
    let level = name.starts_with("level's");
    // The choices of what stands are not read, so they are not asked for.
    let stands = |certifier: &Certifier, tables: &Tables| {
        let (vectors, points) = (certifier.state[1], certifier.state[2]);
        match name {
            "standing state" => 3,
            "standing choices" => 0,
            "standing actions" | "standing masks" => vectors,
            "standing entries" => vectors * tables.states,
            "standing corners" => tables.states,
            "informed rows" | "QMDP rows" => tables.actions * tables.states,
            "standing weights" => points * tables.states,
            _ => points,
        }
    };
    let of_tables = matches!(name, "transition" | "observation" | "reward");
    let number = match call {
        _ if length == 0 => return None,
        Call::Convert { .. } => 27,
        Call::Read { .. } if of_tables => 3,
        Call::Read { .. } => return Some((100, length)),
        Call::Open { .. } if of_tables => 3,
        Call::Open { .. } => 9,
        Call::Worth { .. } | Call::List { .. } if of_tables => 3,
        Call::Reprice { .. } if name.starts_with("new ") => 3,
        Call::List { .. } => 9,
        _ if of_tables || name == "list" => 7,
        Call::Reprice { .. } => 7,
        Call::Offer { .. } if level => 9,
        Call::Offer { level, .. } if name == "standing choices" && length > level.choices.len() => 0,
        Call::Offer { tables, certifier, .. } if length > stands(certifier, tables) => 9,
        Call::Offer { .. } => 7,
        Call::Replay { .. } if name.starts_with("offers'") => 9,
        // Room for an offer is asked of that offer alone.
        Call::Replay { tables, certifier, .. } if length > stands(certifier, tables) => 0,
        Call::Replay { .. } => 7,
        Call::Totals { .. } if name == "mixture" => 17,
        Call::Totals { .. } => 7,
        Call::Each { .. } if name == "mixtures" => 17,
        Call::Each { .. } if name.starts_with("answered") => 9,
        Call::Each { .. } => 7,
        // A weight that is missing is 0 for 24.
        Call::Within { lows, .. } if name == "highs" && lows[length - 1] > 0 => 24,
        Call::Within { .. } if name == "lows" || name == "highs" => 17,
        Call::Within { .. } => 7,
        Call::Build { .. } | Call::Adopt { .. } if level || name == "points" => 9,
        Call::Build { .. } | Call::Adopt { .. } => 7,
        Call::Worth { .. } => 18,
    };
    Some((number, 0))
}

/// A call that is served, and for each slice the same call with that slice one short, empty, and longer; with how the first
/// of these ends by the header.
pub fn lengths(rng: &mut Rng, number: u64) -> Vec<(Call, Option<(u64, usize)>)> {
    let call = served(rng, number % 13);
    let mut calls = vec![(call.clone(), Some((0, 0)))];
    let count = call.clone().slices().len();
    for at in 0..count {
        let mut variant = |length: &dyn Fn(usize) -> usize| {
            let mut call = call.clone();
            let (name, slice) = call.slices().swap_remove(at);
            let exact = slice.length();
            slice.sized(length(exact), rng);
            (call, name, exact)
        };
        let (short, name, exact) = variant(&|length| length.saturating_sub(1));
        if let Some(ends) = if_short(&call, name, exact) {
            calls.push((short, Some(ends)));
            calls.push((variant(&|_| 0).0, None));
        }
        calls.push((variant(&|length| length + 1).0, Some((0, 0))));
        calls.push((variant(&|length| 2 * length + 7).0, Some((0, 0))));
    }
    calls
}
