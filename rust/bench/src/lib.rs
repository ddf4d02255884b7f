//! The same calls in other forms, to hold the library against: whole numbers in the obvious form ([`plain`]), whole
//! numbers as well as we can ([`tuned`]), and the form of floating solvers ([`floating`]). [`stack`] measures what stack a call
//! takes.

pub mod convert;
pub mod floating;
pub mod floating_file;
pub mod inputs;
pub mod limits;
pub mod moved;
pub mod plain;
pub mod plain_file;
pub mod solver_file;
pub mod stack;
pub mod tuned;
pub mod tuned_file;
pub mod whole;
pub mod whole_file;
