//! Vectors that cover part of the states, upon the dough and upon a probe that tells states apart.
//!
//! Of the dough, waiting (action 0) leads from state 0 to both states, from 1 to 1 alone; baking (action 1) leads to state 0.

use crate::*;
use num_bigint::BigInt;

/// The state moves to 0, 1 or 2 with a third of chance each, or nearly; the probe shows 0 in state 0 and 1 in the others.
const PROBE: &str = "\
discount: 1 values: reward states: 3 actions: 1 observations: 2 start: 1 0 0
T: 0 : * 0.333 0.333 0.334 O: 0 : 0 1 0 O: 0 : 1 0 1 O: 0 : 2 0 1 R: 0 : * : * : * 1
";

const NONE: i64 = i64::MIN;

/// The probe at level 0.
fn probe() -> Certifier {
    open(&read(PROBE.as_bytes(), &DOCUMENT).unwrap().tables, &DOCUMENT).unwrap()
}

/// A vector: its action, its mask, its choices, its entries.
type Vector<'a> = (u64, u64, &'a [u64], &'a [i64]);

/// A level of these vectors, with corners as high as can be and no points.
fn level(upon: &Certifier, vectors: &[Vector]) -> Level {
    let (n, k) = (upon.tables.states as usize, upon.tables.observations as usize);
    let mut level = Level::zeros(0, 0, n, k);
    level.corners.fill(100_000 * (upon.level as i64 + 1));
    for (action, mask, choices, entries) in vectors {
        level.vectors += 1;
        level.actions.push(*action);
        level.masks.push(*mask);
        level.choices.extend_from_slice(choices);
        level.entries.extend_from_slice(entries);
    }
    level
}

fn offered(upon: &Certifier, vectors: &[Vector]) -> Result<Certifier, (u8, u64)> {
    let mut certifier = upon.clone();
    let refused = |refusal: Refusal| (refusal.number, refusal.place);
    offer(&mut certifier, &level(upon, vectors), &DOCUMENT).map_err(refused).map(|()| certifier)
}

fn refused(upon: &Certifier, vectors: &[Vector]) -> Option<(u8, u64)> {
    offered(upon, vectors).err()
}

/// Lower total and action, or the refusal.
fn at(certifier: &Certifier, mixture: &[u64]) -> Result<(i64, u64), (u8, u64)> {
    let whole = |value: &BigInt| i64::try_from(value).unwrap();
    let totals = totals(certifier, mixture, &DOCUMENT);
    totals.map(|at| (whole(&at.lower), at.action)).map_err(|refusal| (refusal.number, refusal.place))
}

fn built(certifier: &Certifier, points: &Points) -> Result<Level, (u8, u64)> {
    build(certifier, points, &DOCUMENT).map_err(|refusal| (refusal.number, refusal.place))
}

/// The dough at level 1: waiting where the dough is ready, baking anywhere.
fn one() -> Certifier {
    offered(&dough::standing(0), &[(0, 2, &[0, 0], &[NONE, -100]), (1, 3, &[0, 0], &[-1_000, 600])]).unwrap()
}

#[test]
fn level_0_built_and_adopted_levels_cover_all() {
    let fresh = dough::standing(0);
    assert_eq!(fresh.standing.masks, [3]);
    assert_eq!(built(&fresh, &Points::none()).unwrap().masks, [3, 3]);
    let files = (b"0 0 0 1 0 0".as_slice(), b"0 0 - - 1 1 - -".as_slice());
    assert_eq!(adopt(&fresh, files.0, files.1, &Points::none(), &DOCUMENT).unwrap().masks, [3, 3]);
    assert_eq!(probe().standing.masks, [7]);
}

/// Past the states a mask is stored as 0, and elsewhere entries are.
#[test]
fn what_is_stored() {
    assert_eq!((one().standing.masks, one().standing.entries), (vec![2, 3], vec![0, -100, -1_000, 600]));
    let wide =
        offered(&dough::standing(0), &[(0, u64::MAX, &[0, 0], &[-100, -100]), (1, !3, &[0, 0], &[7, NONE])]).unwrap();
    assert_eq!((wide.standing.masks, wide.standing.entries), (vec![3, 0], vec![-100, -100, 0, 0]));
}

#[test]
fn a_vector_counts_where_it_covers_all_weight() {
    let one = one();
    assert_eq!(at(&one, &[0, 1]), Ok((600, 1)));
    assert_eq!(at(&one, &[1, 1]), Ok((-400, 1)));
    // Over state 1 alone the masked vector is the larger one.
    let low = offered(&dough::standing(0), &[(1, 3, &[0, 0], &[-1_000, -500]), (0, 2, &[0, 0], &[0, -100])]).unwrap();
    assert_eq!(at(&low, &[0, 7]), Ok((-700, 0)));
    assert_eq!(at(&low, &[1, 7]), Ok((-4_500, 1)));
    // An entry of 0 inside the mask is no hole in it.
    let waiting = offered(&probe(), &[(0, 3, &[0, 0], &[0, 100, 0])]).unwrap();
    assert_eq!(at(&waiting, &[5, 1, 0]), Ok((100, 0)));
    assert_eq!(at(&waiting, &[5, 1, 1]), Err((22, 0)));
}

#[test]
fn inequalities_are_for_covered_states() {
    let fresh = dough::standing(0);
    assert_eq!(refused(&fresh, &[(0, 2, &[0, 0], &[99_999, -100])]), None);
    assert_eq!(refused(&fresh, &[(0, 2, &[0, 0], &[99_999, -99])]), Some((13, 0)));
    assert_eq!(refused(&fresh, &[(0, 2, &[0, 0], &[NONE, -100_000])]), None);
    assert_eq!(refused(&fresh, &[(0, 2, &[0, 0], &[NONE, -100_001])]), Some((11, 0)));
    // D4's vector, whose entry at state 0 is above its backup, passes where it covers state 1 alone.
    let one = offered(&fresh, &[(0, 3, &[0, 0], &[-100, -100]), (1, 3, &[0, 0], &[-1_000, 600])]).unwrap();
    assert_eq!(refused(&one, &[(0, 3, &[0, 1], &[-50, 251])]), Some((13, 0)));
    assert_eq!(refused(&one, &[(0, 2, &[0, 1], &[-50, 251])]), None);
    assert_eq!(refused(&one, &[(0, 2, &[0, 1], &[-51, 252])]), Some((13, 0)));
}

#[test]
fn a_covered_state_reaches_covered_states_only() {
    let one = one();
    // Ready dough stays ready while waiting; other dough may come to either state.
    assert_eq!(refused(&one, &[(0, 2, &[0, 0], &[0, -190])]), None);
    assert_eq!(refused(&one, &[(0, 1, &[0, 0], &[-200, 0])]), Some((21, 0)));
    assert_eq!(refused(&one, &[(0, 3, &[1, 0], &[-2_000, -200])]), Some((21, 0)));
    assert_eq!(refused(&one, &[(0, 3, &[1, 1], &[-2_000, -200])]), None);
    assert_eq!(refused(&one, &[(1, 2, &[1, 1], &[0, -2_000]), (1, 2, &[1, 0], &[0, -2_000])]), Some((21, 1)));
    // What covers nothing reaches nothing, but its numbers must exist.
    assert_eq!(refused(&one, &[(0, 0, &[0, 0], &[NONE, NONE])]), None);
    assert_eq!(refused(&one, &[(2, 0, &[0, 0], &[0, 0])]), Some((10, 0)));
    assert_eq!(refused(&one, &[(0, 0, &[0, 2], &[0, 0])]), Some((10, 0)));
}

/// Where the probe shows 0 the state is 0: what is chosen for it need cover no other.
#[test]
fn reached_with_an_observation() {
    let halves: [Vector; 2] = [(0, 1, &[0, 0], &[100, 0, 0]), (0, 6, &[0, 0], &[0, 100, 100])];
    let one = offered(&probe(), &halves).unwrap();
    assert_eq!(refused(&one, &[(0, 7, &[0, 1], &[200, 200, 200])]), None);
    assert_eq!(refused(&one, &[(0, 7, &[1, 1], &[200, 200, 200])]), Some((21, 0)));
    assert_eq!(refused(&one, &[(0, 7, &[0, 0], &[200, 200, 200])]), Some((21, 0)));
    assert_eq!(refused(&one, &[(0, 4, &[0, 1], &[0, 0, 201])]), Some((13, 0)));
}

/// 11, 12, 21, 13.
#[test]
fn the_order_of_an_offer() {
    let one = one();
    let lost: Vector = (0, 1, &[0, 0], &[0, 0]);
    let high: Vector = (1, 3, &[1, 1], &[0, 0]);
    assert_eq!(refused(&one, &[high, lost]), Some((21, 1)));
    assert_eq!(refused(&one, &[lost, high, (0, 2, &[0, 0], &[0, 200_001])]), Some((11, 2)));
    let mut weightless = level(&one, &[lost]);
    (weightless.points, weightless.weights, weightless.values) = (1, vec![0, 0], vec![0]);
    assert_eq!(offer(&mut one.clone(), &weightless, &DOCUMENT), Err(Refusal::at(12, 0)));
    let mut short = level(&one, &[high]);
    short.masks.clear();
    assert_eq!(offer(&mut one.clone(), &short, &DOCUMENT), Err(Refusal::at(9, 0)));
}

#[test]
fn where_no_vector_counts() {
    let ready = offered(&dough::standing(0), &[(0, 2, &[0, 0], &[0, -100])]).unwrap();
    assert_eq!(at(&ready, &[0, 3]), Ok((-300, 0)));
    assert_eq!(at(&ready, &[1, 3]), Err((22, 0)));
    // 16 and 17 come first.
    assert_eq!(at(&ready, &[1_000_001, 0]), Err((17, 0)));
    assert_eq!(at(&ready, &[0, 0]), Err((17, 0)));
    let mut fresh = dough::standing(0);
    fresh.standing.masks[0] = 0;
    assert_eq!(at(&fresh, &[1, 0]), Err((16, 0)));
}

#[test]
fn the_builder_wants_a_vector_that_covers_all() {
    let one = one();
    let level = built(&one, &Points::none()).unwrap();
    assert_eq!((&level.masks[..], &level.choices[..]), (&[3, 3][..], &[1, 1, 1, 1][..]));
    assert_eq!(offer(&mut one.clone(), &level, &DOCUMENT), Ok(()));
    let ready = offered(&dough::standing(0), &[(0, 2, &[0, 0], &[0, -100])]).unwrap();
    assert_eq!(built(&ready, &Points::none()), Err((22, 0)));
    assert_eq!(built(&ready, &Points { count: 1, ..Points::none() }), Err((12, 0)));
    assert_eq!(built(&ready, &Points { count: 17, ..Points::none() }), Err((9, 0)));
    // Bits past the states are not read.
    let mut past = ready;
    past.standing.masks[0] = u64::MAX;
    assert!(built(&past, &Points::none()).is_ok());
}

#[test]
fn files_of_a_solver() {
    let one = one();
    let made = |alpha: &str, graph: &str| {
        let made = adopt(&one, alpha.as_bytes(), graph.as_bytes(), &Points { count: 1, ..Points::none() }, &DOCUMENT);
        made.map(|level| level.masks).map_err(|refusal| (refusal.number, refusal.place))
    };
    // 10, 21, 11, 12.
    assert_eq!(made("0 0 -9999 0 0 0", "0 0 0 0 1 0 2 0"), Err((10, 1)));
    assert_eq!(made("0 0 -9999 0 0 0", "0 0 1 1 1 0 1 0"), Err((21, 1)));
    assert_eq!(made("0 0 0 0 0 -9999", "0 0 1 1 1 0 1 1"), Err((11, 1)));
    assert_eq!(made("0 0 0 0 0 0", "0 0 1 1 1 0 1 1"), Err((12, 0)));
    // Baking leads to a dough that is not ready, which vector 0 does not cover; no vector that counts there is 22's matter.
    assert_eq!(made("1 0 0", "0 1 0 0"), Err((21, 0)));
    let ready = offered(&dough::standing(0), &[(0, 2, &[0, 0], &[0, -100])]).unwrap();
    let made = adopt(&ready, b"0 0 0", b"0 0 0 0", &Points::none(), &DOCUMENT);
    assert_eq!(made, Err(Refusal::at(21, 0)));
}

/// 7 passes over entries that are not covered, and nothing that is answered depends on them.
#[test]
fn what_stands_is_read_where_it_is_covered() {
    let (one, mut other) = (one(), one());
    other.standing.entries[0] = i64::MAX;
    other.standing.masks.iter_mut().for_each(|mask| *mask |= 1 << 40);
    for mixture in [[1, 0], [0, 1], [3, 4]] {
        assert_eq!(totals(&one, &mixture, &DOCUMENT), totals(&other, &mixture, &DOCUMENT));
    }
    assert_eq!(built(&one, &Points::none()), built(&other, &Points::none()));
    let above: [Vector; 1] = [(0, 2, &[0, 0], &[0, -189])];
    assert_eq!(refused(&one, &above), Some((13, 0)));
    assert_eq!(refused(&other, &above), Some((13, 0)));
    let mut outside = one.clone();
    outside.standing.entries[1] = 100_001;
    assert_eq!(at(&outside, &[0, 1]), Err((7, 0)));
    let mut short = one;
    short.standing.masks.pop();
    assert_eq!(at(&short, &[0, 1]), Err((7, 0)));
}
