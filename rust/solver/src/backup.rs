//! Value iteration: the vectors of each step from those of the step before, by enumeration with pruning in between.

use crate::prune::pruned;
use reference::Tables;

/// Where the vectors in between are so many times more than a step may have, it is given up.
const BETWEEN: usize = 125;

/// A model in floating point. Rewards are in units.
#[derive(Clone, Debug)]
pub struct Model {
    states: usize,
    actions: usize,
    observations: usize,
    discount: f64,
    transitions: Vec<f64>,
    sights: Vec<f64>,
    rewards: Vec<f64>,
}

/// An alpha vector: its action, the vector of the step before to go on with after each observation (none at the first
/// step), and its value at each state, in units of reward.
#[derive(Clone, Debug, PartialEq)]
pub struct Vector {
    pub action: usize,
    pub next: Vec<Option<usize>>,
    pub values: Vec<f64>,
}

impl Model {
    /// The model of tables within the limits.
    pub fn of(tables: &Tables) -> Model {
        let (t, o, r) = tables.cells_used();
        let thousandths = |cells: &[u64]| cells.iter().map(|&cell| cell as f64 / 1_000.0).collect();
        Model {
            states: tables.states as usize,
            actions: tables.actions as usize,
            observations: tables.observations as usize,
            discount: tables.discount as f64 / 1_000.0,
            transitions: thousandths(&tables.transitions[..t]),
            sights: thousandths(&tables.sights[..o]),
            rewards: tables.rewards[..r].iter().map(|&cell| cell as f64 / 100.0).collect(),
        }
    }

    /// What a vector of the step before is worth at each state, if the action is taken there and the observation follows.
    fn projected(&self, action: usize, observation: usize, values: &[f64]) -> Vec<f64> {
        let (n, k) = (self.states, self.observations);
        let from = |s: usize| {
            let to = |s2: usize| {
                let row = action * n + s;
                self.transitions[row * n + s2] * self.sights[(action * n + s2) * k + observation] * values[s2]
            };
            self.discount * (0..n).map(to).sum::<f64>()
        };
        (0..n).map(from).collect()
    }

    /// The vectors of one action that are best somewhere, if there are not too many in between.
    fn of_action(&self, action: usize, before: &[Vector], most: usize) -> Option<Vec<Vector>> {
        let rewards = &self.rewards[action * self.states..(action + 1) * self.states];
        let mut sums = vec![Vector { action, next: Vec::new(), values: rewards.to_vec() }];
        for o in 0..self.observations {
            let onward = |(number, vector): (usize, &Vector)| Vector {
                action,
                next: vec![Some(number)],
                values: self.projected(action, o, &vector.values),
            };
            let onward = pruned(before.iter().enumerate().map(onward).collect());
            if sums.len() * onward.len() > BETWEEN * most {
                return None;
            }
            let both = |one: &Vector, other: &Vector| Vector {
                action,
                next: [&one.next[..], &other.next].concat(),
                values: one.values.iter().zip(&other.values).map(|(one, other)| one + other).collect(),
            };
            let pairs = sums.iter().flat_map(|one| onward.iter().map(move |other| both(one, other)));
            sums = pruned(pairs.collect());
        }
        Some(sums)
    }

    /// The vectors that are best somewhere, over all actions.
    fn step(&self, before: &[Vector], most: usize) -> Option<Vec<Vector>> {
        let of_actions = (0..self.actions).map(|action| self.of_action(action, before, most));
        Some(pruned(of_actions.collect::<Option<Vec<_>>>()?.concat()))
    }
}

/// The vectors of so many steps, one upon the other; fewer, where a step would have more vectors than the most, or far more in
/// between.
pub fn steps(model: &Model, count: usize, most: usize) -> Vec<Vec<Vector>> {
    let zero = Vector { action: 0, next: Vec::new(), values: vec![0.0; model.states] };
    let mut before = vec![zero];
    let mut all: Vec<Vec<Vector>> = Vec::new();
    while all.len() < count {
        let mut vectors = match model.step(&before, most) {
            Some(vectors) if vectors.len() <= most => vectors,
            _ => break,
        };
        if all.is_empty() {
            for vector in &mut vectors {
                vector.next.fill(None);
            }
        }
        before = vectors.clone();
        all.push(vectors);
    }
    all
}

#[cfg(test)]
mod tests {
    use super::*;

    fn example(name: &str) -> Tables {
        let path = format!("{}/../../examples/{}.pomdp", env!("CARGO_MANIFEST_DIR"), name);
        reference::read(&std::fs::read(path).unwrap(), &reference::Rules::default()).unwrap().tables
    }

    /// The counts of the tiger's vectors by step, as the literature has them.
    #[test]
    fn the_tiger_over_six_steps() {
        let steps = steps(&Model::of(&example("tiger")), 6, 32);
        assert_eq!(steps.iter().map(Vec::len).collect::<Vec<_>>()[..3], [3, 5, 9]);
        assert_eq!(steps[0][0], Vector { action: 0, next: vec![None, None], values: vec![-1.0, -1.0] });
    }

    /// The best over all plans, which the reference lists.
    #[test]
    fn the_best_of_all_plans() {
        let tables = example("dough");
        let exact = reference::Model::of(&tables, &reference::Rules::default()).unwrap();
        let steps = steps(&Model::of(&tables), 3, 32);
        for (t, vectors) in (1..).zip(&steps) {
            let plans = reference::all_plans(&exact, t);
            for weight in 0..=10 {
                let best = reference::best(&plans, &[weight, 10 - weight], None).unwrap() / reference::scale(t - 1);
                let best = i64::try_from(&best).unwrap() as f64 / 1e12;
                let belief = [weight as f64 / 10.0, 1.0 - weight as f64 / 10.0];
                let product = |vector: &Vector| -> f64 { vector.values.iter().zip(belief).map(|(v, b)| v * b).sum() };
                let found = vectors.iter().map(product).fold(f64::MIN, f64::max);
                assert!((found - best).abs() < 1e-6, "step {} at {:?}: {} and {}", t, belief, found, best);
            }
        }
    }
}
