//! The calls that are timed, and whose stack is measured.

use bench::inputs::{self, Counts, Standing};
use bench::limits::{self, BUILT_POINTS, FILE_BYTES, NODES, POINTS, STEPS, TOTAL, VECTORS};
use bench::moved;
use biidhaqun::slices::{Answers, Certifier, Level, Offers, Tables};
use compare::gen::Question;
use compare::lent::Call;
use compare::rng::Rng;

/// The vectors of the smaller rows.
pub const FEW: usize = 32;

/// A quarter of the states that can be, and the other counts at their limits.
pub const USUAL: Counts = Counts { states: 16, actions: 8, observations: 8 };

/// All counts at their limits.
pub const LARGEST: Counts = Counts { states: 64, actions: 8, observations: 8 };

/// The numbers with which all inputs begin.
pub fn rng() -> Rng {
    Rng::for_case(1, "bench", 0)
}

fn reading(tables: &Tables) -> Call {
    let start: Vec<u16> = inputs::shares(&mut rng(), tables.states, TOTAL as usize);
    let file = inputs::file(tables, &start, FILE_BYTES).into_bytes();
    Call::Read { file, tables: Tables::roomy(), start: vec![0; tables.states] }
}

fn converting() -> Call {
    let file = inputs::outcome_file(&mut rng(), USUAL, FILE_BYTES).into_bytes();
    Call::Convert { file, output: vec![0; FILE_BYTES] }
}

fn opening(tables: &Tables) -> Call {
    Call::Open {
        tables: tables.clone(),
        certifier: Certifier::roomy(tables.states, tables.actions, tables.observations),
    }
}

pub fn offering((Standing { tables, certifier }, level): (Standing, Level)) -> Call {
    Call::Offer { tables, list: Vec::new(), certifier, level }
}

/// The same call, handed the list of its tables.
pub fn listed(mut call: Call) -> Call {
    if let Call::Offer { tables, list, .. } | Call::Build { tables, list, .. } = &mut call {
        *list = words(tables);
    }
    call
}

/// The list of tables within the limits.
fn words(tables: &Tables) -> Vec<u32> {
    limits::Model::of(tables).map_or(Vec::new(), |model| moved::words(&model))
}

/// The list, to be made.
fn listing(tables: &Tables) -> Call {
    Call::List { tables: tables.clone(), list: vec![0; words(tables).len()] }
}

fn repricing(Standing { tables, certifier }: Standing) -> Call {
    Call::Reprice { new: inputs::repriced(&mut rng(), &tables), tables, certifier }
}

fn asking(Standing { tables, certifier }: Standing) -> Call {
    let mixture = inputs::shares(&mut rng(), tables.states, 1_000);
    Call::Totals { tables, certifier, mixture }
}

/// At a mixture of the first half of the states.
fn asking_in_half(Standing { tables, certifier }: Standing) -> Call {
    let half = tables.states / 2;
    let mut mixture: Vec<u32> = inputs::shares(&mut rng(), half, 1_000);
    mixture.resize(tables.states, 0);
    Call::Totals { tables, certifier, mixture }
}

/// Within a tenth of each weight of a mixture.
fn asking_within(Standing { tables, certifier }: Standing) -> Call {
    let mixture: Vec<u32> = inputs::shares(&mut rng(), tables.states, 10_000);
    let lows = mixture.iter().map(|weight| weight - weight / 10).collect();
    let highs = mixture.iter().map(|weight| weight + weight / 10).collect();
    Call::Within { tables, certifier, lows, highs }
}

fn asking_at(Standing { tables, certifier }: Standing, count: usize) -> Call {
    let mut rng = rng();
    let mixtures = (0..count).flat_map(|_| inputs::shares::<u32>(&mut rng, tables.states, 1_000)).collect();
    Call::Each { tables, certifier, mixtures, count, answers: Answers::roomy(count) }
}

fn building(Standing { tables, certifier }: Standing, count: usize) -> Call {
    let points = inputs::points(&mut rng(), tables.states, count);
    let level = Level::zeros(tables.states, tables.observations, tables.states + count, count);
    Call::Build { tables, list: Vec::new(), certifier, count, points, level }
}

/// A level as a solver saves it, at some points.
fn adopting((Standing { tables, certifier }, level): (Standing, Level), count: usize) -> Call {
    let (alpha, graph) = inputs::solver_files(&level, tables.states, tables.observations);
    let points = inputs::points(&mut rng(), tables.states, count);
    let room = Level::zeros(tables.states, tables.observations, level.vectors, count);
    let (alpha, graph) = (alpha.into_bytes(), graph.into_bytes());
    Call::Adopt { tables, certifier, alpha, graph, points, count, level: room }
}

/// What the first node is worth at the first state.
pub fn valuing(counts: Counts, nodes: usize, steps: usize) -> Call {
    let graph = inputs::graph(&mut rng(), counts, nodes);
    let asked = Question { node: 0, state: 0, steps: steps as u64 };
    Call::Worth { tables: inputs::tables(&mut rng(), counts), graph, asked }
}

/// The level offered in one block.
fn replaying((Standing { tables, certifier }, level): (Standing, Level)) -> Call {
    let mut offers = Offers { block_vectors: level.vectors, block_points: level.points, ..Offers::default() };
    offers.push(&level, tables.states, tables.observations);
    Call::Replay { tables, certifier, offers }
}

/// Every call, by name; those on levels with 32 vectors, and with 1,000.
pub fn calls() -> Vec<(&'static str, Call)> {
    let (standing, level) = inputs::offer(&mut rng(), USUAL, FEW, POINTS, false);
    let (wide, larger) = inputs::offer(&mut rng(), USUAL, VECTORS, POINTS, false);
    let pointless = inputs::offer(&mut rng(), USUAL, VECTORS, 0, false);
    let (halves, masked) = inputs::halved(&mut rng(), USUAL, VECTORS);
    let (sparse, next) = inputs::sparse_offer(&mut rng(), USUAL, FEW, POINTS);
    let (broad, many) = inputs::sparse_offer(&mut rng(), USUAL, VECTORS, POINTS);
    let sparse_offer = offering((sparse.clone(), next));
    let bare_offer = offering(inputs::sparse_offer(&mut rng(), USUAL, VECTORS, 0));
    let broad_offer = offering((broad.clone(), many));
    let broad_build = building(broad.clone(), 16);
    vec![
        ("reading", reading(&standing.tables)),
        ("converting", converting()),
        ("opening", opening(&standing.tables)),
        ("an offer, 32 vectors, 32 points", offering((standing.clone(), level.clone()))),
        ("totals", asking(standing.clone())),
        ("totals at 1,000 mixtures", asking_at(standing.clone(), 1_000)),
        ("totals within ranges", asking_within(standing.clone())),
        ("building at 16 points", building(standing.clone(), 16)),
        ("a solver's 32 vectors, 16 points", adopting((standing, level), 16)),
        ("an offer, 1,000 vectors, no points", offering(pointless)),
        ("an offer, 1,000 vectors of half the states", offering((halves.clone(), masked))),
        ("an offer, 1,000 vectors, 32 points", offering((wide.clone(), larger.clone()))),
        ("totals upon 1,000 vectors", asking(wide.clone())),
        ("totals upon 1,000 of half the states", asking_in_half(halves)),
        ("totals within ranges upon 1,000 vectors", asking_within(wide.clone())),
        ("building at 16 points upon 1,000 vectors", building(wide.clone(), 16)),
        ("a solver's 1,000 vectors, 16 points", adopting((wide, larger), 16)),
        ("mostly zeros: the list", listing(&sparse.tables)),
        ("an offer, 32 vectors, 32 points", sparse_offer.clone()),
        ("the same by the list", listed(sparse_offer)),
        ("an offer, 1,000 vectors, no points", bare_offer.clone()),
        ("the same by the list", listed(bare_offer)),
        ("an offer, 1,000 vectors, 32 points", broad_offer.clone()),
        ("the same by the list", listed(broad_offer)),
        ("building at 16 points upon 1,000 vectors", broad_build.clone()),
        ("the same by the list", listed(broad_build)),
        ("new prices upon 32 vectors, 32 points", repricing(sparse)),
        ("new prices upon 1,000 vectors, 32 points", repricing(broad)),
        ("a plan's worth, 32 nodes, 4 steps", valuing(USUAL, NODES, STEPS)),
    ]
}

/// Calls with as many states as can be; the file is of few actions and observations, so that it is no longer than it may be.
pub fn wide_calls() -> Vec<(&'static str, Call)> {
    let narrow = Counts { actions: 2, observations: 2, ..LARGEST };
    let (standing, level) = inputs::offer(&mut rng(), LARGEST, FEW, POINTS, false);
    let (sparse, next) = inputs::sparse_offer(&mut rng(), LARGEST, FEW, POINTS);
    let sparse_offer = offering((sparse.clone(), next));
    let bare_offer = offering(inputs::sparse_offer(&mut rng(), LARGEST, VECTORS, 0));
    let sparse_build = building(sparse.clone(), 16);
    vec![
        ("reading", reading(&inputs::sparse_tables(&mut rng(), narrow))),
        ("opening", opening(&standing.tables)),
        ("an offer, 32 vectors, 32 points", offering((standing.clone(), level))),
        ("totals", asking(standing.clone())),
        ("totals within ranges", asking_within(standing.clone())),
        ("building at 16 points", building(standing, 16)),
        ("mostly zeros: the list", listing(&sparse.tables)),
        ("an offer, 32 vectors, 32 points", sparse_offer.clone()),
        ("the same by the list", listed(sparse_offer)),
        ("an offer, 1,000 vectors, no points", bare_offer.clone()),
        ("the same by the list", listed(bare_offer)),
        ("building at 16 points", sparse_build.clone()),
        ("the same by the list", listed(sparse_build)),
        ("new prices upon 32 vectors, 32 points", repricing(sparse)),
        ("a plan's worth, 32 nodes, 4 steps", valuing(LARGEST, NODES, STEPS)),
    ]
}

/// Every call upon a model with so many states, actions and observations, and levels of so many vectors and points.
pub fn every_call(counts: Counts, vectors: usize, points: usize) -> Vec<Call> {
    let (standing, level) = inputs::offer(&mut rng(), counts, vectors, points, false);
    let offer = offering((standing.clone(), level.clone()));
    let build = building(standing.clone(), points.min(BUILT_POINTS));
    vec![
        opening(&standing.tables),
        listing(&standing.tables),
        listed(offer.clone()),
        offer,
        replaying((standing.clone(), level.clone())),
        repricing(standing.clone()),
        asking(standing.clone()),
        asking_at(standing.clone(), 10),
        asking_within(standing.clone()),
        listed(build.clone()),
        build,
        adopting((standing, level), points.min(BUILT_POINTS)),
        valuing(counts, NODES, STEPS),
    ]
}
