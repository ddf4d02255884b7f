//! Levels.

use crate::error::Length;
use crate::parts::Mixture;
use crate::shape::Shape;
use crate::slices;
use std::fmt;

/// A level: floors, and a sawtooth ceiling by corners and points.
///
/// Anyone may make one, of any content; it promises nothing until a [`Certifier`](crate::Certifier) accepts it. What is
/// proved of an accepted one: each vector is a floor, on the states that it covers, under what some plan earns that opens with
/// its action, and the ceiling of its corners and points lies above what every plan earns.
///
/// It lies in slices as the library takes them, and is handed over without being copied.
///
/// ```
/// use biidhaqun::{Level, Shape};
///
/// let mut level = Level::new(Shape { states: 2, actions: 2, observations: 2 });
/// level.add_vector(0, &[0, 0], &[-100, -100])?;
/// level.add_vector(1, &[0, 0], &[-1_000, 600])?;
/// level.set_corners(&[-100, 600])?;
/// level.add_point(&[1, 1], 500)?;
/// // A floor for state 1 alone.
/// level.add_masked_vector(0, &[0, 0], 0b10, &[0, -100])?;
/// assert_eq!(level.vector(1).map(|vector| vector.entries[1]), Some(600));
/// assert_eq!(level.to_string(), "\
/// vector 0: action 0, choices [0, 0], entries [-100, -100]
/// vector 1: action 1, choices [0, 0], entries [-1000, 600]
/// vector 2: action 0, choices [0, 0], covers [1], entries [0, -100]
/// corners [-100, 600]
/// point 0: weights [1, 1], value 500
/// ");
/// # Ok::<(), biidhaqun::Length>(())
/// ```
#[derive(Clone, Debug, PartialEq, Eq, Hash)]
pub struct Level {
    pub(crate) states: usize,
    pub(crate) observations: usize,
    pub(crate) slices: slices::Level,
}

/// An alpha vector of a level.
#[derive(Clone, Copy, Debug, PartialEq, Eq, Hash)]
pub struct Vector<'a> {
    /// The action that a plan of this vector opens with.
    pub action: u8,
    /// For each observation, the number of the level below's vector to go on with.
    pub choices: &'a [u16],
    /// The states that it covers: bit s is 1 where state s is.
    pub mask: u64,
    /// For each state, the floor in ticks (hundredths of a reward unit); it counts where the state is covered.
    pub entries: &'a [i64],
}

impl Vector<'_> {
    /// Whether it covers this state. One past the 64 that a model may have is not covered.
    pub fn covers(&self, state: usize) -> bool {
        state < self.entries.len().min(slices::STATES) && self.mask >> state & 1 == 1
    }

    /// Whether it covers every state.
    pub fn covers_all(&self) -> bool {
        self.covered().count() == self.entries.len()
    }

    /// The states that it covers.
    pub fn covered(&self) -> impl Iterator<Item = usize> + '_ {
        (0..self.entries.len()).filter(move |&state| self.covers(state))
    }

    /// Whether it counts at a mixture: all weight lies on states that it covers.
    pub fn counts_at(&self, mixture: &Mixture) -> bool {
        mixture.weights.iter().enumerate().all(|(state, &weight)| weight == 0 || self.covers(state))
    }
}

/// A point of a level: the ceiling at some weights.
#[derive(Clone, Copy, Debug, PartialEq, Eq, Hash)]
pub struct Point<'a> {
    /// A weight for each state; they total 1 to 100.
    pub weights: &'a [u32],
    /// The ceiling there, in ticks times the total of the weights.
    pub value: i64,
}

impl Level {
    /// A level for models of these counts, with no vectors, no points, and corners of 0.
    pub fn new(shape: Shape) -> Level {
        let Shape { states, observations, .. } = shape;
        Level { states, observations, slices: slices::Level::zeros(states, observations, 0, 0) }
    }

    /// The level in slices. What lies past its counts is cut off, and its room given back.
    pub(crate) fn of(mut slices: slices::Level, states: usize, observations: usize) -> Level {
        fn cut<Cell>(cells: &mut Vec<Cell>, length: usize) {
            cells.truncate(length);
            cells.shrink_to_fit();
        }
        cut(&mut slices.actions, slices.vectors);
        cut(&mut slices.choices, slices.vectors * observations);
        cut(&mut slices.masks, slices.vectors);
        cut(&mut slices.entries, slices.vectors * states);
        cut(&mut slices.corners, states);
        cut(&mut slices.weights, slices.points * states);
        cut(&mut slices.values, slices.points);
        Level { states, observations, slices }
    }

    /// The slices.
    pub fn slices(&self) -> &slices::Level {
        &self.slices
    }

    /// Adds an alpha vector that covers all states, if it has a choice for each observation and an entry for each state.
    pub fn add_vector(&mut self, action: u8, choices: &[u16], entries: &[i64]) -> Result<(), Length> {
        self.add_masked_vector(action, choices, slices::full_mask(self.states), entries)
    }

    /// Adds one that covers the states whose bit in the mask is 1. Its other entries bear on no answer, and are stored as 0 where
    /// the level is accepted.
    pub fn add_masked_vector(&mut self, action: u8, choices: &[u16], mask: u64, entries: &[i64]) -> Result<(), Length> {
        let number = Some(self.slices.vectors);
        Length::test("choices of vector", number, choices.len(), self.observations)?;
        Length::test("entries of vector", number, entries.len(), self.states)?;
        self.slices.vectors += 1;
        self.slices.actions.push(action);
        self.slices.choices.extend_from_slice(choices);
        self.slices.masks.push(mask);
        self.slices.entries.extend_from_slice(entries);
        Ok(())
    }

    /// Sets the corners, if there is one for each state.
    pub fn set_corners(&mut self, corners: &[i64]) -> Result<(), Length> {
        Length::test("corners of the level", None, corners.len(), self.states)?;
        self.slices.corners.copy_from_slice(corners);
        Ok(())
    }

    /// Adds a point, if it has a weight for each state.
    pub fn add_point(&mut self, weights: &[u32], value: i64) -> Result<(), Length> {
        Length::test("weights of point", Some(self.slices.points), weights.len(), self.states)?;
        self.slices.points += 1;
        self.slices.weights.extend_from_slice(weights);
        self.slices.values.push(value);
        Ok(())
    }

    /// The vectors in turn.
    pub fn vectors(&self) -> impl Iterator<Item = Vector<'_>> {
        (0..self.slices.vectors).filter_map(move |number| self.vector(number))
    }

    /// The vector with this number.
    pub fn vector(&self, number: usize) -> Option<Vector<'_>> {
        Some(Vector {
            action: *self.slices.actions.get(number)?,
            choices: row(&self.slices.choices, number, self.observations)?,
            mask: *self.slices.masks.get(number)?,
            entries: row(&self.slices.entries, number, self.states)?,
        })
    }

    /// For each state, the ceiling in ticks where all weight is on it.
    pub fn corners(&self) -> &[i64] {
        &self.slices.corners
    }

    /// The points in turn.
    pub fn points(&self) -> impl Iterator<Item = Point<'_>> {
        (0..self.slices.points).filter_map(move |number| self.point(number))
    }

    /// The point with this number.
    pub fn point(&self, number: usize) -> Option<Point<'_>> {
        Some(Point {
            value: *self.slices.values.get(number)?,
            weights: row(&self.slices.weights, number, self.states)?,
        })
    }

    /// The action of a vector, to be changed. Panics if there is no such vector, as indexing does; so do the others.
    pub fn action_mut(&mut self, vector: usize) -> &mut u8 {
        &mut self.slices.actions[vector]
    }

    /// The choices of a vector, to be changed.
    pub fn choices_mut(&mut self, vector: usize) -> &mut [u16] {
        &mut self.slices.choices[vector * self.observations..(vector + 1) * self.observations]
    }

    /// The mask of a vector, to be changed.
    pub fn mask_mut(&mut self, vector: usize) -> &mut u64 {
        &mut self.slices.masks[vector]
    }

    /// The entries of a vector, to be changed.
    pub fn entries_mut(&mut self, vector: usize) -> &mut [i64] {
        &mut self.slices.entries[vector * self.states..(vector + 1) * self.states]
    }

    /// The corners, to be changed.
    pub fn corners_mut(&mut self) -> &mut [i64] {
        &mut self.slices.corners
    }

    /// The weights of a point, to be changed.
    pub fn weights_mut(&mut self, point: usize) -> &mut [u32] {
        &mut self.slices.weights[point * self.states..(point + 1) * self.states]
    }

    /// The value of a point, to be changed.
    pub fn value_mut(&mut self, point: usize) -> &mut i64 {
        &mut self.slices.values[point]
    }
}

/// A row of cells, with a number that was found among the level's.
fn row<Cell>(cells: &[Cell], number: usize, width: usize) -> Option<&[Cell]> {
    cells.get(number * width..(number + 1) * width)
}

/// A line for each vector, with the states that it covers where these are not all, for the corners, and for each point.
impl fmt::Display for Level {
    fn fmt(&self, f: &mut fmt::Formatter) -> fmt::Result {
        for (number, vector) in self.vectors().enumerate() {
            write!(f, "vector {}: action {}, choices {:?}, ", number, vector.action, vector.choices)?;
            if !vector.covers_all() {
                write!(f, "covers {:?}, ", vector.covered().collect::<Vec<_>>())?;
            }
            writeln!(f, "entries {:?}", vector.entries)?;
        }
        writeln!(f, "corners {:?}", self.corners())?;
        for (number, Point { weights, value }) in self.points().enumerate() {
            writeln!(f, "point {}: weights {:?}, value {}", number, weights, value)?;
        }
        Ok(())
    }
}
