//! The parts of the command `biidhaqun` that do without the proved library: its options, the texts of `explain`, and the
//! shells around model files.
//!
//! Nothing here is proved, and nothing here decides: whether a file is read, a level accepted or a total certified is
//! asked of the library. [`model_file`] and [`solver_files`] only find words for its refusals.

pub mod cassandra;
pub mod explain;
pub mod files;
pub mod model_file;
pub mod names;
pub mod numerals;
pub mod options;
pub mod solver_files;
pub mod streams;
pub mod table;
pub mod told;
pub mod words;
