//! Plan graphs, and what they are asked.

use super::cells::{junk, litter};
use super::shapes::Shape;
use crate::rng::Rng;
use reference::{Graph, NODES, STEPS};

/// A plan graph within the limits.
pub fn graph(rng: &mut Rng, shape: Shape) -> Graph {
    let nodes = rng.pick(&[1, 2, 3, 4, NODES]);
    graph_of(rng, shape, nodes)
}

/// One with so many nodes.
pub fn graph_of(rng: &mut Rng, shape: Shape, nodes: usize) -> Graph {
    let mut graph = Graph { nodes: nodes as u64, ..Graph::zero() };
    for node in 0..nodes {
        graph.actions[node] = rng.below(shape.m as u64);
        for o in 0..shape.k {
            graph.next[node * shape.k + o] = rng.below(nodes as u64);
        }
    }
    litter(rng, &mut graph.actions, nodes, junk);
    litter(rng, &mut graph.next, nodes * shape.k, junk);
    graph
}

/// Puts the node count, an action or a next node at a limit or past it.
pub fn spoil_graph(rng: &mut Rng, graph: &mut Graph, shape: Shape) {
    let nodes = (graph.nodes.min(NODES as u64) as usize).max(1);
    let anything = junk(rng);
    match rng.below(4) {
        0 => graph.nodes = rng.pick(&[0, 1, 32, 33, u64::MAX, anything]),
        1 => graph.actions[rng.index(nodes)] = rng.pick(&[shape.m as u64 - 1, shape.m as u64, u64::MAX, anything]),
        _ => {
            let next = rng.pick(&[nodes as u64 - 1, nodes as u64, 31, 32, u64::MAX, anything]);
            graph.next[rng.index(nodes * shape.k)] = next;
        }
    }
}

/// What a plan graph is asked.
#[derive(Clone, Copy, Debug, PartialEq, Eq)]
pub struct Question {
    pub node: u64,
    pub state: u64,
    pub steps: u64,
}

/// A question within the limits or one past them.
pub fn question(rng: &mut Rng, graph: &Graph, shape: Shape) -> Question {
    let mut up_to = |limit: u64, once_past: u64| {
        if rng.once_in(once_past) {
            rng.pick(&[limit, limit + 1, u64::MAX])
        } else {
            rng.below(limit)
        }
    };
    Question {
        node: up_to(graph.nodes.clamp(1, NODES as u64), 20),
        state: up_to(shape.n as u64, 20),
        steps: up_to(STEPS + 1, 10),
    }
}
