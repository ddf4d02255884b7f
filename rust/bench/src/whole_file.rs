//! Files, for both forms in whole numbers: what they are read into, and how their calls end.

use crate::limits::*;
use biidhaqun::slices::{Conversion, Reading, Refusal, Tables};

/// A file that was read, before it is laid over what is lent.
pub struct Read {
    pub tables: Tables,
    pub start: Vec<u16>,
}

/// Zeros for tables of so many states, actions and observations; or 3.
pub type Zeros<'a> = dyn Fn(usize, usize, usize) -> Answer<Tables> + 'a;

/// 3: zeros for tables of so many states, actions and observations, if the slices lent for them have room.
pub fn zeros(states: usize, actions: usize, observations: usize, lent: &Tables) -> Answer<Tables> {
    let rows = actions * states;
    let (t, o) = (rows * states, rows * observations);
    if lent.transition.len() < t || lent.observation.len() < o || lent.reward.len() < rows {
        return refused(3, 0);
    }
    Ok(with_rewards(states, actions, observations, rows))
}

/// Zeros for tables whose rewards go by action, state, state reached and observation.
pub fn outcome_zeros(states: usize, actions: usize, observations: usize) -> Tables {
    with_rewards(states, actions, observations, actions * states * states * observations)
}

/// Zeros, and so many rewards of 0.
fn with_rewards(states: usize, actions: usize, observations: usize, rewards: usize) -> Tables {
    let rows = actions * states;
    Tables {
        states,
        actions,
        observations,
        discount: 0,
        transition: vec![0; rows * states],
        observation: vec![0; rows * observations],
        reward: vec![0; rewards],
    }
}

/// Lays what was read over the slices lent for it, if the start numbers have room.
pub fn laid(read: Answer<Read>, lent: &mut Tables, start: &mut [u16]) -> Reading {
    let lay = |read: Read| {
        let Tables { states, actions, observations, discount, transition, observation, reward } = read.tables;
        if start.len() < states {
            return refused(100, states);
        }
        lent.transition[..transition.len()].copy_from_slice(&transition);
        lent.observation[..observation.len()].copy_from_slice(&observation);
        lent.reward[..reward.len()].copy_from_slice(&reward);
        start[..states].copy_from_slice(&read.start);
        Ok(Reading { states, actions, observations, discount, ..Reading::default() })
    };
    read.and_then(lay).unwrap_or_else(|Refusal { number, place }| Reading { number, place, ..Reading::default() })
}

/// A conversion: 27, what the form reads of the file or its refusal, 25, and what the form writes or 26.
pub fn converted(
    output: &mut [u8],
    read: impl FnOnce() -> Answer<Read>,
    write: impl FnOnce(&Read, &mut [u8]) -> Answer<usize>,
) -> Conversion {
    let convert = || {
        if output.len() < FILE_BYTES {
            return refused(27, 0);
        }
        let read = read()?;
        if read.tables.states > WRITTEN_STATES {
            return refused(25, 0);
        }
        write(&read, output)
    };
    match convert() {
        Ok(length) => Conversion { length, ..Conversion::default() },
        Err(Refusal { number, place }) => Conversion { number, place, length: 0 },
    }
}
