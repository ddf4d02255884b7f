//! Document 01 in big integers, with the changes of document 02 that were made.
//!
//! Every number that is computed is a [`num_bigint::BigInt`], so nothing can overflow, and every function follows one
//! sentence of the document as it stands. The one shortcut is that sums pass over states without weight and states that are not
//! reached, which add 0 ([`Model`]). It is slow, and meant to be read next to the document.
//!
//! What is handed in is plain storage ([`Tables`], [`Level`], [`Certifier`], [`Points`], [`Graph`]) that may hold
//! anything. The cells in use come first, packed by the counts, the last index fastest. Tables and levels have lists of any
//! length; all other arrays have their full fixed sizes. Storage is looked into only after its counts have passed.
//!
//! [`Rules::default`] is the document. A [`Trap`] is one deliberate departure from it, so that a comparison can be shown
//! to fail.

mod adopt;
#[cfg(test)]
mod adopt_tests;
mod backup;
mod build;
mod certifier;
mod convert;
#[cfg(test)]
mod dough;
mod exact;
mod file;
mod ladder;
mod level;
mod lists;
#[cfg(test)]
mod masks;
mod model;
mod plan;
mod prices;
#[cfg(test)]
mod readings;
mod refusal;
mod rows;
mod rules;
mod totals;
mod within;
mod words;
mod worth;

pub use adopt::{adopt, adopted_vectors, SOLVER_BYTES};
pub use build::{build, Points, BUILT_POINTS};
pub use certifier::{offer, open, Certifier};
pub use convert::{convert, WRITTEN_STATES};
pub use file::{read, read_into, read_outcomes, Reading, FILE_BYTES};
pub use ladder::ladder;
pub use level::{full_mask, Level, LEVELS, POINTS, POINT_TOTAL, VECTORS};
pub use lists::{by_list, list, turned_back, LIST};
pub use model::{Model, Tables, ACTIONS, OBSERVATIONS, REWARD, STATES, THOUSAND};
pub use plan::{all_plans, at_mixture, best, earned, scale, Earned, Plan};
pub use prices::reprice;
pub use refusal::Refusal;
pub use rows::ROWS;
pub use rules::{Rules, Trap, DOCUMENT};
pub use totals::{totals, Totals, WEIGHT};
pub use within::{within, Within};
pub use worth::{worth, Graph, NODES, STEPS};
