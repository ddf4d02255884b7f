//! Up to 64 states: a mask for each of them, and the largest model with 1,000 vectors.

use super::stage::raised;
use super::{rng, Case, SERVED};
use crate::gen::{self, Shape, DOCUMENT};
use crate::lent::Call;
use crate::single;
use reference::{Certifier, Level, Points, Tables, BUILT_POINTS, REWARD, STATES, VECTORS};

/// Tables of so many states, of which each stays where it is; by the second action the last one leads to the first.
fn rings(n: usize) -> Tables {
    let mut tables = Tables { discount: 900, ..Tables::zeros(n as u64, 2, 2) };
    for a in 0..2 {
        for s in 0..n {
            let reached = if a == 1 && s == n - 1 { 0 } else { s };
            let at = tables.transition_cell(a, s, reached);
            tables.transitions[at] = 1_000;
        }
    }
    tables.sights.fill(500);
    tables.rewards.iter_mut().enumerate().for_each(|(at, reward)| *reward = at as i64 % 7);
    tables
}

/// Masks over 63 and 64 states: a vector for each state that covers it alone, and one that covers all.
pub(super) fn wide_masks() -> Vec<Case> {
    let mut cases = Vec::new();
    for n in [STATES - 1, STATES] {
        let shape = Shape { n, m: 2, k: 2 };
        let fresh = reference::open(&rings(n), &DOCUMENT).expect("the tables open");
        let last = n - 1;
        let mut add = |about: &str, call: Call, ends: (u64, usize)| {
            cases.push(Case { about: format!("{} states: {}", n, about), call, ends });
        };
        let mut alone = Level::zeros(n, 0, n, 2);
        alone.corners.fill(REWARD);
        for v in 0..n {
            // A bit past the states, too, where there is one.
            alone.masks[v] = 1 << v | !reference::full_mask(n);
        }
        add("a mask for each", single::offering(&mut rng(), shape, &fresh, &alone), SERVED);
        let narrow = raised(&fresh, &alone);
        let mut wide = narrow.clone();
        wide.standing.masks[last] = reference::full_mask(n);
        let totals = |upon: &Certifier, weighed: &[usize]| {
            let mut mixture = vec![0; n];
            weighed.iter().for_each(|&s| mixture[s] = 1);
            single::totals(upon, mixture)
        };
        for s in [0, 31, 32, last - 1, last] {
            add(&format!("totals at state {}", s), totals(&narrow, &[s]), SERVED);
            add(&format!("totals at state {} and another", s), totals(&narrow, &[s, (s + 1) % n]), (22, 0));
            add(&format!("totals at state {}, another and one of all", s), totals(&wide, &[s, (s + 1) % n]), SERVED);
            let ranges = |s: usize| (0..n).map(|at| u64::from(at == s)).collect::<Vec<u64>>();
            add(&format!("ranges at state {}", s), single::within(shape, &narrow, &ranges(s), &ranges(s)), SERVED);
            // By the first action a state reaches itself alone, by the second the last one reaches the first.
            for (action, chosen, ends) in [(0, s, SERVED), (0, (s + 1) % n, (21, 0)), (1, s, (21, 0))] {
                let ends = if action == 1 && s != last { SERVED } else { ends };
                let mut level = Level::zeros(1, 0, n, 2);
                level.actions[0] = action;
                level.masks[0] = 1 << s;
                level.choices.fill(chosen as u64);
                level.entries.fill(-2 * REWARD);
                level.corners.fill(2 * REWARD);
                let about = format!("state {} goes on with vector {} by action {}", s, chosen, action);
                add(&about, single::offering(&mut rng(), shape, &narrow, &level), ends);
            }
        }
        let mut points = Points { count: BUILT_POINTS as u64, ..Points::none() };
        points.weights.iter_mut().step_by(n + 1).for_each(|weight| *weight = 1);
        add("nothing to build upon", single::building(&mut rng(), shape, &narrow, &points), (22, 0));
        add("a level built at 16 points", single::building(&mut rng(), shape, &wide, &points), SERVED);
        let built = reference::build(&wide, &points, &DOCUMENT).expect("the level is built");
        add("it is accepted", single::offering(&mut rng(), shape, &wide, &built), SERVED);
    }
    cases
}

/// As many vectors, states, actions and observations as can be, with entries as low as can be.
pub(super) fn largest() -> Vec<Case> {
    let shape = Shape::LARGEST;
    let mut rng = rng();
    let tables = gen::tables(&mut rng, shape);
    let loosest = |t: i64| {
        let mut level = Level::zeros(VECTORS, 0, shape.n, shape.k);
        for (v, action) in level.actions.iter_mut().enumerate() {
            *action = v as u64 % shape.m as u64;
        }
        level.entries.fill(-t * REWARD);
        level.corners.fill(t * REWARD);
        level
    };
    let mut certifier = reference::open(&tables, &DOCUMENT).expect("generated tables open");
    certifier.level = 1;
    certifier.standing = loosest(1);
    let mut level = loosest(2);
    for (cell, choice) in level.choices.iter_mut().enumerate() {
        *choice = cell as u64 % VECTORS as u64;
    }
    let call = single::offering(&mut rng, shape, &certifier, &level);
    let offered = Case { about: "1,000 vectors of the largest model".to_string(), call, ends: SERVED };
    let call = single::totals(&certifier, vec![1; shape.n]);
    vec![offered, Case { about: "totals of the largest model".to_string(), call, ends: SERVED }]
}
