//! The dough model: its output and the table D1 to D12.

use crate::backup::ceiling;
use crate::certifier::examine;
use crate::exact::weights;
use crate::*;
use num_bigint::BigInt;

pub const FILE: &str = include_str!("../../../examples/dough.pomdp");

/// The start point.
fn start() -> Points {
    Points::one(&[50, 50])
}

pub fn tables() -> Tables {
    read(FILE.as_bytes(), &DOCUMENT).unwrap().tables
}

/// The certifier after so many levels built at the start point.
pub fn standing(levels: u64) -> Certifier {
    let mut certifier = open(&tables(), &DOCUMENT).unwrap();
    for _ in 0..levels {
        let level = build(&certifier, &start(), &DOCUMENT).unwrap();
        offer(&mut certifier, &level, &DOCUMENT).unwrap();
    }
    certifier
}

/// A level 1 of so many vectors: waiting where the dough is ready, and baking anywhere, or waiting alone.
pub fn masked(vectors: u64) -> Level {
    Level {
        vectors,
        actions: vec![0, 1],
        choices: vec![0; 4],
        masks: vec![2, 3],
        entries: vec![0, -100, -1_000, 600],
        corners: vec![-100, 600],
        ..Level::default()
    }
}

/// What the built level 2 gets after a change.
fn second(change: impl Fn(&mut Level)) -> Result<(), Refusal> {
    let mut certifier = standing(1);
    let mut level = build(&certifier, &start(), &DOCUMENT).unwrap();
    change(&mut level);
    offer(&mut certifier, &level, &DOCUMENT)
}

/// What the built level 2 gets with this as its only vector.
fn only_vector(entries: [i64; 2]) -> Result<(), Refusal> {
    second(|level| {
        level.vectors = 1;
        level.actions[0] = 0;
        level.choices[..2].copy_from_slice(&[0, 1]);
        level.entries[..2].copy_from_slice(&entries);
    })
}

/// Lower, upper, gap and action at level 2.
fn at(mixture: [u64; 2]) -> Result<(i64, i64, i64, u64), Refusal> {
    let whole = |value: &BigInt| i64::try_from(value).unwrap();
    totals(&standing(2), &mixture, &DOCUMENT).map(|t| (whole(&t.lower), whole(&t.upper), whole(&t.gap), t.action))
}

#[test]
fn the_whole_output() {
    assert_eq!(FILE.len(), 235);
    let printed = ladder(FILE.as_bytes(), &DOCUMENT);
    assert_eq!(printed, "1 -10000 -10000 0 0\n2 10000 12500 2500 0\n3 13350 18575 5225 0\n");
}

#[test]
fn a_refused_row() {
    let damaged = FILE.replace("T: 0 : 1 0 1", "T: 0 : 1 0 0");
    assert_eq!(ladder(damaged.as_bytes(), &DOCUMENT), "refused 5 at 235\n");
}

#[test]
fn d1_level_1_corners() {
    assert_eq!(standing(1).standing.corners[..2], [-100, 600]);
}

#[test]
fn d2_a_ceiling() {
    let (_, lists) = examine(&standing(1), &DOCUMENT).unwrap();
    let q = weights(&[20_000_000, 22_500_000]);
    assert_eq!(ceiling(&lists, &q, &DOCUMENT), BigInt::from(-2_500_000_000_i64));
}

#[test]
fn d3_and_d4_a_vector() {
    assert_eq!(only_vector([-51, 251]), Ok(()));
    assert_eq!(only_vector([-50, 251]), Err(Refusal::at(13, 0)));
}

#[test]
fn d5_and_d6_a_corner() {
    assert_eq!(second(|level| level.corners[0] = -32), Ok(()));
    assert_eq!(second(|level| level.corners[0] = -33), Err(Refusal::at(14, 0)));
}

#[test]
fn d7_and_d8_a_point() {
    assert_eq!(second(|level| level.values[0] = 12_500), Ok(()));
    assert_eq!(second(|level| level.values[0] = 12_499), Err(Refusal::at(15, 0)));
}

#[test]
fn d9_the_best_two_step_plan() {
    let model = Model::of(&tables(), &DOCUMENT).unwrap();
    let plans = all_plans(&model, 2);
    assert_eq!(plans.len(), 8);
    assert_eq!(best(&plans, &[50, 50], None), Some(BigInt::from(10_025) * scale(2)));
}

#[test]
fn d10_and_d11_totals_at_corners() {
    assert_eq!(at([1, 0]), Ok((-51, -50, 1, 0)));
    assert_eq!(at([0, 1]), Ok((510, 510, 0, 1)));
}

/// Each of the two ceilings is the lower one somewhere.
#[test]
fn the_ceilings_apart() {
    let apart = |mixture: [u64; 2]| {
        let at = totals(&standing(2), &mixture, &DOCUMENT).unwrap();
        assert_eq!(&at.upper, (&at.sawtooth).min(&at.informed));
        (i64::try_from(&at.sawtooth).unwrap(), i64::try_from(&at.informed).unwrap())
    };
    assert_eq!(apart([1, 0]), (-32, -50));
    assert_eq!(apart([0, 1]), (510, 510));
    assert_eq!(apart([50, 50]), (12_500, 19_500));
}

#[test]
fn d12_and_the_limits_of_a_mixture() {
    let seventeen = Err(Refusal::at(17, 0));
    assert_eq!(at([0, 0]), seventeen);
    assert_eq!(at([0, 1_000_001]), seventeen);
    assert!(at([0, 1_000_000]).is_ok());
    assert_eq!(totals(&standing(0), &[0, 0], &DOCUMENT), Err(Refusal::at(16, 0)));
}

#[test]
fn a_plan_alone_earns_what_it_earns_among_all() {
    let model = Model::of(&tables(), &DOCUMENT).unwrap();
    let step = |action| Plan { action, next: Vec::new() };
    let plan = Plan { action: 0, next: vec![step(0), step(1)] };
    assert_eq!(plan.steps(), 2);
    let earned = plan.earned(&model);
    // By hand, from state 0: -100 + 0.9 × (0.55 × -100 + 0.1 × -1000 + 0.35 × 600) = -50.5.
    assert_eq!(earned[0], BigInt::from(-505) * scale(2) / 10);
    assert!(all_plans(&model, 2).iter().any(|other| other.action == 0 && other.n == earned));
}

#[test]
fn a_worth_is_rounded_at_each_step() {
    let tables = tables();
    let mut graph = Graph::zero();
    graph.nodes = 3;
    graph.actions[..3].copy_from_slice(&[0, 0, 1]);
    graph.next[..6].copy_from_slice(&[1, 2, 1, 1, 2, 2]);
    let asked = |node, state, steps| worth(&tables, &graph, node, state, steps, &DOCUMENT);
    assert_eq!(asked(0, 0, 0), Ok(BigInt::from(0)));
    assert_eq!(asked(0, 0, 1), Ok(BigInt::from(-100)));
    // The backup is -50.5.
    assert_eq!(asked(0, 0, 2), Ok(BigInt::from(-51)));
    for (node, state, steps) in [(3, 0, 1), (0, 2, 1), (0, 0, 5)] {
        assert_eq!(asked(node, state, steps), Err(Refusal::at(18, 0)));
    }
    graph.next[5] = 3;
    assert_eq!(worth(&tables, &graph, 0, 0, 0, &DOCUMENT), Err(Refusal::at(18, 2)));
}
