//! The worth of a plan graph.

use crate::exact::{k, round_down, zero};
use crate::model::{Model, Tables, OBSERVATIONS};
use crate::plan::scale;
use crate::refusal::Refusal;
use crate::rules::{Rules, Trap};
use num_bigint::BigInt;

/// A plan graph has at most so many nodes.
pub const NODES: usize = 32;
/// At most so many steps are left.
pub const STEPS: u64 = 4;

/// A plan graph of any content, in storage: each node's action, and its next nodes by node and observation.
#[derive(Clone, Debug, PartialEq, Eq)]
pub struct Graph {
    pub nodes: u64,
    pub actions: Vec<u64>,
    pub next: Vec<u64>,
}

impl Graph {
    /// A graph of which every part is 0, with a node's room past the limit.
    pub fn zero() -> Graph {
        Graph { nodes: 0, actions: vec![0; NODES + 1], next: vec![0; (NODES + 1) * OBSERVATIONS] }
    }

    /// The nodes to go on from a node, by observation.
    fn after<'a>(&'a self, model: &Model, node: usize) -> &'a [u64] {
        &self.next[node * model.k..(node + 1) * model.k]
    }
}

/// The worth of a node at a state with some steps left, or the refusal of the tables (3, 5, 6) or 18: the node count at 0,
/// then by node an action or next node at the node's number, then the asked node, state or steps at 0.
pub fn worth(
    tables: &Tables,
    graph: &Graph,
    node: u64,
    state: u64,
    steps: u64,
    rules: &Rules,
) -> Result<BigInt, Refusal> {
    let model = Model::of(tables, rules)?;
    if graph.nodes < 1 || graph.nodes > NODES as u64 + u64::from(rules.has(Trap::NodeMorePasses)) {
        return Err(Refusal::at(18, 0));
    }
    let most = STEPS + u64::from(rules.has(Trap::FiveSteps));
    let asked = match node >= graph.nodes || state >= model.n as u64 || steps > most {
        true => Err(Refusal::at(18, 0)),
        false => Ok(()),
    };
    if rules.has(Trap::AskedBeforeNodes) {
        asked?;
    }
    let no_action = |at: usize| graph.actions[at] >= model.m as u64;
    let wrong = |at: usize| no_action(at) || graph.after(&model, at).iter().any(|&next| next >= graph.nodes);
    let tested = if rules.has(Trap::ReachedNodesOnly) {
        reached(&model, graph, node, steps)
    } else {
        (0..graph.nodes as usize).collect()
    };
    let first = |wrong: &dyn Fn(usize) -> bool| match tested.iter().find(|&&at| wrong(at)) {
        Some(&at) => Err(Refusal::at_index(18, at)),
        None => Ok(()),
    };
    if rules.has(Trap::ActionsBeforeNext) {
        first(&no_action)?;
    }
    first(&wrong)?;
    asked?;

    // With no step left every node is worth 0 at every state; each further step backs that up and rounds down.
    let mut worths = vec![vec![zero(); model.n]; graph.nodes as usize];
    for left in 1 + u32::from(rules.has(Trap::WorthStepTooFew))..=steps as u32 {
        let mut more = worths.clone();
        for at in 0..graph.nodes as usize {
            let before = if rules.has(Trap::WorthInPlace) { &more } else { &worths };
            more[at] = backed_up(&model, graph, before, at, left, rules);
        }
        worths = more;
    }
    let worth = &worths[node as usize][state as usize];
    if rules.has(Trap::WorthRoundedOnce) {
        return Ok(round_down(worth, &scale(steps as u32), &Rules::default()));
    }
    Ok(worth.clone())
}

/// The worths of a node at each state, from those of all nodes with a step less.
fn backed_up(model: &Model, graph: &Graph, before: &[Vec<BigInt>], at: usize, left: u32, rules: &Rules) -> Vec<BigInt> {
    if !stands(model, graph, at) {
        return vec![zero(); model.n];
    }
    let next = graph.after(model, at);
    let action = graph.actions[at] as usize;
    let worth = |s| {
        let backup = model.backup(s, action, |o, s2| &before[next[o] as usize][s2]);
        if rules.has(Trap::WorthRoundedOnce) {
            backup + (scale(left) - k()) * model.r(s, action)
        } else {
            round_down(&backup, &k(), rules)
        }
    };
    (0..model.n).map(worth).collect()
}

/// Whether a node's action and next nodes exist: untested nodes of the trap about reached nodes may lack them.
fn stands(model: &Model, graph: &Graph, at: usize) -> bool {
    graph.actions[at] < model.m as u64 && graph.after(model, at).iter().all(|&next| next < graph.nodes)
}

/// The nodes that the asked node reaches in the steps left: what the trap about reached nodes tests.
fn reached(model: &Model, graph: &Graph, node: u64, steps: u64) -> Vec<usize> {
    let mut seen = vec![false; graph.nodes as usize];
    let mut now: Vec<u64> = if node < graph.nodes { vec![node] } else { Vec::new() };
    for _ in 0..steps.min(STEPS) {
        let mut then = Vec::new();
        for &at in now.iter().filter(|&&at| at < graph.nodes) {
            if !seen[at as usize] {
                seen[at as usize] = true;
                then.extend_from_slice(graph.after(model, at as usize));
            }
        }
        now = then;
    }
    (0..seen.len()).filter(|&at| seen[at]).collect()
}
