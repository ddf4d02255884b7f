//! Models, levels, points, mixtures, plan graphs and lists of offers, random and repeatable.
//!
//! What is valid here is so by the reference with the document's rules; anything may stand past the counts. Levels have up to
//! some forty vectors, or one for each state and point: `many` has those of hundreds.

mod cells;
mod certifiers;
mod graphs;
mod levels;
mod lists;
mod models;
mod shapes;
mod weights;

pub use cells::{at_ends, shares};
pub use certifiers::{climbed, ends, handed, uncover};
pub use graphs::{graph, graph_of, question, spoil_graph, Question};
pub use levels::{above, loosened, mask, masked, nudged};
pub use lists::{at_thirds, climb, list, thirds, List, Step};
pub use models::{repriced, spoil_row, spoil_tables, tables, tables_of, unpriced};
pub use reference::DOCUMENT;
pub use shapes::{most_vectors, shape, tiny_shape, wide_shape, Shape, FEW};
pub use weights::{mixture, points, ranges, spoil_mixture, spoil_points, spoil_ranges};
