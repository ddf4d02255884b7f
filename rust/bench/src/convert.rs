//! Objects of the library's layout in floating point.

use crate::floating;
use biidhaqun::slices::{Certifier, Level, Tables};

fn scaled<Of: Copy + Into<f64>>(cells: &[Of], unit: f64) -> Vec<f64> {
    cells.iter().map(|&cell| cell.into() / unit).collect()
}

fn ticks(cells: &[i64]) -> Vec<f64> {
    cells.iter().map(|&cell| cell as f64).collect()
}

/// Tables with probabilities up to 1, and rewards in ticks.
pub fn floating_tables(tables: &Tables) -> floating::Tables {
    floating::Tables {
        states: tables.states,
        actions: tables.actions,
        observations: tables.observations,
        discount: tables.discount as f64 / 1_000.0,
        transitions: scaled(&tables.transition, 1_000.0),
        sights: scaled(&tables.observation, 1_000.0),
        rewards: ticks(&tables.reward),
    }
}

/// A level with beliefs for points, all values in ticks.
pub fn floating_level(level: &Level, n: usize, k: usize) -> floating::Level {
    let vector = |v: usize| floating::Vector {
        action: level.actions[v].into(),
        choices: level.choices[v * k..(v + 1) * k].iter().map(|&choice| choice.into()).collect(),
        mask: level.masks[v],
        entries: ticks(&level.entries[v * n..(v + 1) * n]),
    };
    let point = |j: usize| {
        let weights = &level.weights[j * n..(j + 1) * n];
        floating::Point { weights: belief(weights), value: level.values[j] as f64 / total(weights) }
    };
    floating::Level {
        vectors: (0..level.vectors).map(vector).collect(),
        corners: ticks(&level.corners[..n]),
        points: (0..level.points).map(point).collect(),
    }
}

/// A certifier in floating point.
pub fn floating_certifier(tables: &Tables, certifier: &Certifier) -> floating::Certifier {
    let Certifier { state, actions, choices, masks, entries, corners, weights, values, informed, qmdp } =
        certifier.clone();
    let (vectors, points) = (state[1], state[2]);
    let level = Level { vectors, points, actions, choices, masks, entries, corners, weights, values };
    floating::Certifier {
        tables: floating_tables(tables),
        number: state[0],
        level: floating_level(&level, tables.states, tables.observations),
        informed: ticks(&informed[..tables.actions * tables.states]),
        qmdp: ticks(&qmdp[..tables.actions * tables.states]),
    }
}

fn total(weights: &[u32]) -> f64 {
    weights.iter().map(|&weight| f64::from(weight)).sum()
}

/// Weights as shares of their total.
pub fn belief(weights: &[u32]) -> Vec<f64> {
    scaled(weights, total(weights))
}
