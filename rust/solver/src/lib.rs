//! A POMDP solver in floating point: value iteration over a few steps, for models of a few states.
//!
//! It stands for the published solver pomdp-solve, which is not among Debian's packages: for each step it finds the alpha
//! vectors that are best at some belief, and writes them and their policy graph in that solver's layout. Nothing that it
//! computes is trusted: the certifier takes the files, and says what they are worth.

mod backup;
mod prune;
mod write;

pub use backup::{steps, Model, Vector};
pub use write::{alpha_file, graph_file};
