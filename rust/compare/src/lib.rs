//! Cases for whatever answers by document 01, random and repeatable, and their comparison with the reference.

pub mod adopting;
pub mod bracket;
pub mod calls;
pub mod ceilings;
pub mod converting;
pub mod copied;
pub mod files;
pub mod gen;
pub mod lent;
#[cfg(feature = "library")]
pub mod linked;
pub mod listing;
pub mod many;
pub mod options;
pub mod pricing;
pub mod program;
pub mod replaying;
pub mod rng;
pub mod show;
pub mod single;
pub mod solved;
pub mod suites;
pub mod through;
pub mod ticks;
pub mod traps;
pub mod wide;
