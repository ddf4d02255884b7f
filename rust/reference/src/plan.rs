//! What a plan earns, exactly. These sums know no rules but the document's.

use crate::exact::{dot, k, weights, zero};
use crate::model::Model;
use num_bigint::BigInt;

/// A plan of one or more steps: an action and, if more than one step is left, a plan for each observation.
#[derive(Clone, Debug, PartialEq, Eq)]
pub struct Plan {
    pub action: usize,
    pub next: Vec<Plan>,
}

impl Plan {
    /// How many steps it has.
    pub fn steps(&self) -> u32 {
        1 + self.next.first().map_or(0, Plan::steps)
    }

    /// N from each state.
    pub fn earned(&self, model: &Model) -> Vec<BigInt> {
        let next: Vec<Vec<BigInt>> = self.next.iter().map(|plan| plan.earned(model)).collect();
        let next: Vec<&[BigInt]> = next.iter().map(Vec::as_slice).collect();
        earned(model, self.action, self.steps(), &next)
    }
}

/// K^t: what N is counted in after t steps.
pub fn scale(steps: u32) -> BigInt {
    k().pow(steps)
}

/// N of a plan of t+1 steps from each state: K^(t+1) × R(s, a) + g × the sum over s' and o of T × O × N(subplan of o, s').
/// The last step has no subplans, and N is 0 after it.
pub fn earned(model: &Model, a: usize, steps: u32, next: &[&[BigInt]]) -> Vec<BigInt> {
    let from = |s: usize| {
        let mut sum = zero();
        for s2 in 0..model.n {
            for (o, subplan) in next.iter().enumerate() {
                sum += model.t(s, a, s2) * model.o(a, s2, o) * &subplan[s2];
            }
        }
        scale(steps) * model.r(s, a) + model.g() * sum
    };
    (0..model.n).map(from).collect()
}

/// What one of all plans earns: the action that it opens with, and N from each state.
#[derive(Clone, Debug)]
pub struct Earned {
    pub action: usize,
    pub n: Vec<BigInt>,
}

/// All plans of t steps, t above 0: each action with every way to give each observation a plan of t-1 steps. Their number
/// is m × (the number for t-1)^k, so this is for small models.
pub fn all_plans(model: &Model, steps: u32) -> Vec<Earned> {
    let mut plans = Vec::new();
    let shorter = if steps > 1 { all_plans(model, steps - 1) } else { Vec::new() };
    let observations = if steps > 1 { model.k } else { 0 };
    for action in 0..model.m {
        let mut given = vec![0; observations];
        loop {
            let next: Vec<&[BigInt]> = given.iter().map(|&i: &usize| shorter[i].n.as_slice()).collect();
            plans.push(Earned { action, n: earned(model, action, steps, &next) });
            if !count_up(&mut given, shorter.len()) {
                break;
            }
        }
    }
    plans
}

/// The next of all lists of digits below `base`, if there is one.
fn count_up(digits: &mut [usize], base: usize) -> bool {
    for digit in digits {
        *digit += 1;
        if *digit < base {
            return true;
        }
        *digit = 0;
    }
    false
}

/// What a plan earns at a mixture, times K^t.
pub fn at_mixture(n: &[BigInt], mixture: &[u64]) -> BigInt {
    dot(n, &weights(mixture))
}

/// The largest that one of these plans earns at a mixture, times K^t; with an action, of those that open with it.
pub fn best(plans: &[Earned], mixture: &[u64], opening: Option<usize>) -> Option<BigInt> {
    let fitting = plans.iter().filter(|plan| opening.map_or(true, |action| plan.action == action));
    fitting.map(|plan| at_mixture(&plan.n, mixture)).max()
}
