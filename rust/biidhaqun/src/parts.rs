//! What else is handed to a certifier: points, mixtures, lists of transitions, plan graphs.

use crate::error::Length;
use crate::slices;

/// The weights of points to build a level at.
#[derive(Clone, Debug, Default, PartialEq, Eq, Hash)]
pub struct Points {
    /// 0 to 16 points, each with a weight for each state; the weights of each total 1 to 100.
    pub weights: Vec<Vec<u32>>,
}

impl Points {
    /// One point.
    pub fn one(weights: &[u32]) -> Points {
        Points { weights: vec![weights.to_vec()] }
    }

    /// The weights one after the other, if each point has one for each state.
    pub(crate) fn packed(&self, states: usize) -> Result<Vec<u32>, Length> {
        for (number, weights) in self.weights.iter().enumerate() {
            Length::test("weights of point", Some(number), weights.len(), states)?;
        }
        Ok(self.weights.concat())
    }
}

/// A mixture of the states: how likely each is thought to be, in whole numbers.
#[derive(Clone, Debug, Default, PartialEq, Eq, Hash)]
pub struct Mixture {
    /// A weight for each state, 0 to 1,000,000, not all 0.
    pub weights: Vec<u32>,
}

impl Mixture {
    /// The mixture with these weights.
    pub fn new(weights: &[u32]) -> Mixture {
        Mixture { weights: weights.to_vec() }
    }

    /// The total of the weights.
    pub fn total(&self) -> u64 {
        self.weights.iter().map(|&weight| u64::from(weight)).sum()
    }
}

/// The transitions of a model as a list, in the layout of [`slices`](crate::slices): of T only what is above 0, by column. It is
/// made by [`Model::list`](crate::Model::list); one that was stored may hold anything, and is tested where a certifier takes it.
#[derive(Clone, Debug, PartialEq, Eq, Hash)]
pub struct List {
    pub(crate) words: Vec<u32>,
}

impl List {
    /// The list of these words, as [`List::words`] gave them.
    pub fn from_words(words: &[u32]) -> List {
        List { words: words.to_vec() }
    }

    /// The words.
    pub fn words(&self) -> &[u32] {
        &self.words
    }
}

/// A plan graph: a plan that goes on from node to node by what is observed.
///
/// Like a [`Level`](crate::Level) it may hold anything, and is tested where its worth is asked.
#[derive(Clone, Debug, PartialEq, Eq, Hash)]
pub struct Graph {
    pub(crate) observations: usize,
    pub(crate) slices: slices::Graph,
}

impl Graph {
    /// A graph without nodes, for models with so many observations.
    pub fn new(observations: usize) -> Graph {
        Graph { observations, slices: slices::Graph::default() }
    }

    /// Adds a node with its action, and for each observation the number of the node to go on with.
    pub fn add_node(&mut self, action: u8, next: &[u16]) -> Result<(), Length> {
        Length::test("next nodes of node", Some(self.slices.nodes), next.len(), self.observations)?;
        self.slices.nodes += 1;
        self.slices.actions.push(action);
        self.slices.next.extend_from_slice(next);
        Ok(())
    }

    /// The action of a node, and the nodes to go on with.
    pub fn node(&self, number: usize) -> Option<(u8, &[u16])> {
        let action = *self.slices.actions.get(number)?;
        let (start, end) = (number * self.observations, (number + 1) * self.observations);
        Some((action, self.slices.next.get(start..end)?))
    }
}
