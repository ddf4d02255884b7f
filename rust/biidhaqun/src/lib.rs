//! Certified floors and ceilings for plans over hidden states.
//!
//! A [`Model`] is a POMDP in whole numbers. A [`Certifier`] opens on it, is offered [`Level`]s of alpha vectors (a floor)
//! and of corner and point values (a sawtooth ceiling) by anyone, and accepts a level exactly where it is within the limits
//! and every backup inequality holds. Beside the level it steps a ceiling of its own, the fast informed bound, at each
//! acceptance. From then on its [`Totals`] at a [`Mixture`] bracket what the best plan earns, of all plans with as many steps
//! as levels were accepted; the upper one is the lower of both ceilings. A vector may cover part of the states: it then counts
//! at mixtures of these alone, and where none counts there are no totals.
//!
//! The calls are those of a static library in which each is proved to meet its contract, never to fault, and to end,
//! whatever it is handed; a [`Refusal`] says which rule was broken and where. What each type promises, and what of it is
//! proved, stands with the type. The library keeps nothing between calls and allocates nothing; its calls may be made from
//! any thread that has the stack for it: 256 kilobytes for all of them, 32 for all but reading, converting and worths.
//!
//! Depend on the crate by its path. `scripts/archive` builds the static library first; the variable `BIIDHAQUN_LIB` names another
//! folder that has `libbiidhaqun.a`, by its full path. A library of another layout is handed nothing: every call asks for its [`version`] first, and
//! panics where that is not the crate's own [`VERSION`].
//!
//! Where most of a model's transitions are 0, a certifier can work from a [`List`] of the others, with the same answers. Rewards
//! may change while it stands at a level ([`Certifier::reprice`]): its bounds are moved so that they hold for the new ones.
//!
//! A file whose rewards depend on what follows is written as a model file by [`convert`].
//!
//! The types are handles over [`slices`], the layout that the library takes: a C program lends the same.
//!
//! ```
//! use biidhaqun::{Certifier, Model, Points};
//!
//! # fn main() -> Result<(), Box<dyn std::error::Error>> {
//! // A dough that is ready or not, behind a camera.
//! let file = std::fs::read("../../examples/dough.pomdp")?;
//! let (model, start) = Model::read(&file)?;
//!
//! let mut certifier = Certifier::open(&model)?;
//! let mut lines = Vec::new();
//! for level in 1..=3 {
//!     // The levels could come from any solver; these are built at the start mixture.
//!     let built = certifier.build(&Points::one(&start.weights))?;
//!     certifier.offer(&built)?;
//!     let at = certifier.totals(&start)?;
//!     assert_eq!(certifier.level(), level);
//!     lines.push((at.lower, at.upper, at.gap, at.action));
//! }
//! assert_eq!(lines, [(-10000, -10000, 0, 0), (10000, 12500, 2500, 0), (13350, 18575, 5225, 0)]);
//!
//! // A level whose floor is too high is refused, and what stands stays.
//! let mut wrong = certifier.build(&Points::default())?;
//! wrong.entries_mut(1)[0] += 1;
//! let refusal = certifier.offer(&wrong).unwrap_err();
//! assert!(refusal.to_string().starts_with("refused 13 at 1"));
//! assert_eq!(certifier.level(), 3);
//! # Ok(())
//! # }
//! ```

#![warn(missing_docs)]
// Without the calls there is the layout; what serves the calls is idle, and what is said of them links to nothing.
#![cfg_attr(not(feature = "linked"), allow(dead_code, rustdoc::broken_intra_doc_links))]

#[cfg(feature = "linked")]
mod certifier;
mod error;
#[cfg(feature = "linked")]
mod ffi;
mod level;
#[cfg(feature = "linked")]
mod model;
mod parts;
mod rule;
mod shape;
pub mod slices;
mod totals;

#[cfg(feature = "linked")]
pub use certifier::Certifier;
pub use error::{Error, Length, Place, Refusal};
#[cfg(feature = "linked")]
pub use ffi::version;
pub use level::{Level, Point, Vector};
#[cfg(feature = "linked")]
pub use model::{convert, Action, Model};
pub use parts::{Graph, List, Mixture, Points};
pub use rule::Rule;
pub use shape::Shape;
pub use slices::VERSION;
pub use totals::{Bounds, Bracket, Ceiling, Totals, TotalsWithin, Units};

#[cfg(all(test, feature = "linked"))]
mod tests;
