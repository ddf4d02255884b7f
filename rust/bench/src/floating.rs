//! The form that floating solvers use: probabilities and beliefs in f64, the same sums, and a tolerance.
//!
//! Tables are trusted once they are open, rows total 1 up to a tolerance, nothing is rounded, and what a masked vector reaches
//! is not looked at.

use crate::limits::covers;
use biidhaqun::slices::{full_mask, Graph};

/// How far a row may be from 1, or an inequality from holding, in units of the numbers compared.
const TOLERANCE: f64 = 1e-6;

#[derive(Clone, Debug, Default, PartialEq)]
pub struct Tables {
    pub states: usize,
    pub actions: usize,
    pub observations: usize,
    pub discount: f64,
    pub transitions: Vec<f64>,
    pub sights: Vec<f64>,
    pub rewards: Vec<f64>,
}

#[derive(Clone, Debug, PartialEq)]
pub struct Vector {
    pub action: usize,
    pub choices: Vec<usize>,
    /// The states that it covers.
    pub mask: u64,
    pub entries: Vec<f64>,
}

#[derive(Clone, Debug, PartialEq)]
pub struct Point {
    pub weights: Vec<f64>,
    pub value: f64,
}

#[derive(Clone, Debug, Default, PartialEq)]
pub struct Level {
    pub vectors: Vec<Vector>,
    pub corners: Vec<f64>,
    pub points: Vec<Point>,
}

#[derive(Clone, Debug, PartialEq)]
pub struct Certifier {
    pub tables: Tables,
    pub number: usize,
    pub level: Level,
    /// The fast informed bound and the QMDP rows, by action and state.
    pub informed: Vec<f64>,
    pub qmdp: Vec<f64>,
}

/// Lower and upper value of a belief, and the action.
#[derive(Clone, Copy, Debug, PartialEq)]
pub struct Totals {
    pub lower: f64,
    pub upper: f64,
    pub action: usize,
}

fn dot(left: &[f64], right: &[f64]) -> f64 {
    left.iter().zip(right).map(|(x, y)| x * y).sum()
}

impl Tables {
    fn transitions_of(&self, a: usize) -> &[f64] {
        &self.transitions[a * self.states * self.states..(a + 1) * self.states * self.states]
    }

    fn sights_of(&self, a: usize) -> &[f64] {
        &self.sights[a * self.states * self.observations..(a + 1) * self.states * self.observations]
    }

    fn rewards_of(&self, a: usize) -> &[f64] {
        &self.rewards[a * self.states..(a + 1) * self.states]
    }

    /// The belief after an action: b T.
    fn moved(&self, b: &[f64], a: usize) -> Vec<f64> {
        let mut u = vec![0.0; self.states];
        for (b, row) in b.iter().zip(self.transitions_of(a).chunks_exact(self.states)) {
            for (u, t) in u.iter_mut().zip(row) {
                *u += b * t;
            }
        }
        u
    }

    /// The same after an observation, not brought to a total of 1.
    fn seen(&self, u: &[f64], a: usize, o: usize) -> Vec<f64> {
        u.iter().zip(self.sights_of(a).chunks_exact(self.observations)).map(|(u, row)| u * row[o]).collect()
    }

    /// Each state's backup of the vectors chosen.
    fn backups(&self, level: &Level, a: usize, choices: &[usize]) -> Vec<f64> {
        let mut f = vec![0.0; self.states];
        for (o, &choice) in choices.iter().enumerate() {
            let rows = self.sights_of(a).chunks_exact(self.observations);
            for ((f, row), entry) in f.iter_mut().zip(rows).zip(&level.vectors[choice].entries) {
                *f += row[o] * entry;
            }
        }
        let rows = self.transitions_of(a).chunks_exact(self.states).zip(self.rewards_of(a));
        rows.map(|(row, reward)| reward + self.discount * dot(row, &f)).collect()
    }

    /// What an action may earn at a belief, by the ceiling.
    fn ceiling_backup(&self, level: &Level, b: &[f64], a: usize) -> f64 {
        let u = self.moved(b, a);
        let ceilings: f64 = (0..self.observations).map(|o| level.ceiling(&self.seen(&u, a, o))).sum();
        dot(b, self.rewards_of(a)) + self.discount * ceilings
    }

    /// The largest of what the rows have.
    fn best_row(&self, rows: &[f64], value: impl Fn(&[f64]) -> f64) -> f64 {
        rows.chunks_exact(self.states).map(value).fold(f64::NEG_INFINITY, f64::max)
    }

    /// The informed rows of the next level.
    fn informed(&self, rows: &[f64]) -> Vec<f64> {
        let mut next = self.rewards.clone();
        for (a, entries) in next.chunks_exact_mut(self.states).enumerate() {
            for (entry, moved) in entries.iter_mut().zip(self.transitions_of(a).chunks_exact(self.states)) {
                for o in 0..self.observations {
                    let weights = self.seen(moved, a, o);
                    *entry += self.discount * self.best_row(rows, |row| dot(row, &weights));
                }
            }
        }
        next
    }

    /// The QMDP rows of the next level.
    fn qmdp(&self, rows: &[f64]) -> Vec<f64> {
        let best: Vec<f64> = (0..self.states).map(|s| self.best_row(rows, |row| row[s])).collect();
        let moved = self.transitions.chunks_exact(self.states);
        self.rewards.iter().zip(moved).map(|(reward, moved)| reward + self.discount * dot(moved, &best)).collect()
    }

    fn best_ceiling(&self, level: &Level, b: &[f64]) -> f64 {
        (0..self.actions).map(|a| self.ceiling_backup(level, b, a)).fold(f64::NEG_INFINITY, f64::max)
    }
}

impl Level {
    /// The sawtooth bound.
    fn ceiling(&self, b: &[f64]) -> f64 {
        let plain = dot(&self.corners, b);
        let mut least = plain;
        for point in &self.points {
            let gain = dot(&self.corners, &point.weights) - point.value;
            if gain <= 0.0 {
                continue;
            }
            let mut ratio = f64::INFINITY;
            for (b, p) in b.iter().zip(&point.weights) {
                if *p > 0.0 {
                    ratio = ratio.min(b / p);
                }
            }
            least = least.min(plain - ratio * gain);
        }
        least
    }

    /// The first vector with the largest product, of those that cover all weight.
    fn best_vector(&self, b: &[f64]) -> (usize, f64) {
        let weighty = b.iter().enumerate().fold(0, |mask, (s, &weight)| mask | u64::from(weight > 0.0) << s);
        let mut best = (0, f64::NEG_INFINITY);
        for (v, vector) in self.vectors.iter().enumerate().filter(|(_, vector)| weighty & !vector.mask == 0) {
            let product = dot(&vector.entries, b);
            if product > best.1 {
                best = (v, product);
            }
        }
        best
    }
}

/// Opens on tables whose rows total 1.
pub fn open(tables: &Tables) -> Option<Certifier> {
    let (n, k) = (tables.states, tables.observations);
    let total = |row: &[f64]| (row.iter().sum::<f64>() - 1.0).abs() <= TOLERANCE && row.iter().all(|&cell| cell >= 0.0);
    if !tables.transitions.chunks_exact(n).all(total) || !tables.sights.chunks_exact(k).all(total) {
        return None;
    }
    let vector = Vector { action: 0, choices: vec![0; k], mask: full_mask(n), entries: vec![0.0; n] };
    let level = Level { vectors: vec![vector], corners: vec![0.0; n], points: Vec::new() };
    let rows = vec![0.0; tables.actions * n];
    Some(Certifier { tables: tables.clone(), number: 0, level, informed: rows.clone(), qmdp: rows })
}

/// Offers a level; whether it was accepted.
pub fn offer(certifier: &mut Certifier, offered: &Level) -> bool {
    let (tables, standing) = (&certifier.tables, &certifier.level);
    let floors = offered.vectors.iter().all(|vector| {
        let backups = tables.backups(standing, vector.action, &vector.choices);
        let mut pairs = vector.entries.iter().zip(&backups).enumerate();
        pairs.all(|(s, (entry, backup))| *entry <= backup + TOLERANCE || !covers(vector.mask, s))
    });
    let corner = |s: usize| {
        let mut b = vec![0.0; tables.states];
        b[s] = 1.0;
        offered.corners[s] + TOLERANCE >= tables.best_ceiling(standing, &b)
    };
    let point = |point: &Point| point.value + TOLERANCE >= tables.best_ceiling(standing, &point.weights);
    let holds = floors && (0..tables.states).all(corner) && offered.points.iter().all(point);
    if holds {
        certifier.informed = tables.informed(&certifier.informed);
        certifier.qmdp = tables.qmdp(&certifier.qmdp);
        certifier.level = offered.clone();
        certifier.number += 1;
    }
    holds
}

/// The bounds at a belief.
pub fn totals(certifier: &Certifier, b: &[f64]) -> Totals {
    let level = &certifier.level;
    let (first, lower) = level.best_vector(b);
    let informed = certifier.tables.best_row(&certifier.informed, |row| dot(row, b));
    Totals { lower, upper: level.ceiling(b).min(informed), action: level.vectors[first].action }
}

/// Lower and upper value of all weights within ranges.
pub fn within(certifier: &Certifier, low: &[f64], high: &[f64]) -> (f64, f64) {
    let sure = |over: &[f64], under: &[f64], entries: &[f64]| -> f64 {
        let weights = over.iter().zip(under);
        entries.iter().zip(weights).map(|(&entry, (over, under))| if entry < 0.0 { under } else { over } * entry).sum()
    };
    let weighty = high.iter().enumerate().fold(0, |mask, (s, &weight)| mask | u64::from(weight > 0.0) << s);
    let level = &certifier.level;
    let counting = level.vectors.iter().filter(|vector| weighty & !vector.mask == 0);
    let lower = counting.map(|vector| sure(low, high, &vector.entries)).fold(f64::NEG_INFINITY, f64::max);
    (lower, sure(high, low, &level.corners))
}

/// A point-based backup at every corner and some points.
pub fn build(certifier: &Certifier, points: &[Vec<f64>]) -> Level {
    let (tables, standing) = (&certifier.tables, &certifier.level);
    let mut level = Level { vectors: Vec::new(), corners: Vec::new(), points: Vec::new() };
    for s in 0..tables.states {
        let mut b = vec![0.0; tables.states];
        b[s] = 1.0;
        level.vectors.push(best_vector(tables, standing, &b));
        level.corners.push(tables.best_ceiling(standing, &b));
    }
    for b in points {
        level.vectors.push(best_vector(tables, standing, b));
        level.points.push(Point { weights: b.clone(), value: tables.best_ceiling(standing, b) });
    }
    level
}

/// A level of a solver's files, of which only the numbers are read: in ticks, with the builder's ceiling.
pub fn adopt(certifier: &Certifier, alpha: &str, graph: &str, points: &[Vec<f64>]) -> Option<Level> {
    let (tables, standing) = (&certifier.tables, &certifier.level);
    let decimals: Option<Vec<f64>> = alpha.split_whitespace().map(|word| word.parse().ok()).collect();
    let numbers: Option<Vec<usize>> = graph.split_whitespace().map(|word| word.parse().ok()).collect();
    let (decimals, numbers) = (decimals?, numbers?);
    let rows = decimals.chunks_exact(tables.states + 1).zip(numbers.chunks_exact(tables.observations + 2));
    let vector = |(row, node): (&[f64], &[usize])| {
        let (action, choices) = (node[1], node[2..].to_vec());
        let backups = tables.backups(standing, action, &choices);
        let entries = row[1..].iter().zip(backups).map(|(decimal, backup)| backup.min(100.0 * decimal)).collect();
        Vector { action, choices, mask: full_mask(tables.states), entries }
    };
    let corner = |s: usize| {
        let mut b = vec![0.0; tables.states];
        b[s] = 1.0;
        tables.best_ceiling(standing, &b)
    };
    let point = |b: &Vec<f64>| Point { weights: b.clone(), value: tables.best_ceiling(standing, b) };
    Some(Level {
        vectors: rows.map(vector).collect(),
        corners: (0..tables.states).map(corner).collect(),
        points: points.iter().map(point).collect(),
    })
}

fn best_vector(tables: &Tables, standing: &Level, b: &[f64]) -> Vector {
    let mut best = None;
    let mut most = f64::NEG_INFINITY;
    for a in 0..tables.actions {
        let u = tables.moved(b, a);
        let choice = |o| standing.best_vector(&tables.seen(&u, a, o)).0;
        let choices: Vec<usize> = (0..tables.observations).map(choice).collect();
        let entries = tables.backups(standing, a, &choices);
        let product = dot(&entries, b);
        if product > most {
            most = product;
            best = Some(Vector { action: a, choices, mask: full_mask(tables.states), entries });
        }
    }
    best.unwrap_or(Vector { action: 0, choices: Vec::new(), mask: 0, entries: Vec::new() })
}

/// What a node is worth at a state with some steps left.
pub fn worth(tables: &Tables, graph: &Graph, node: usize, state: usize, steps: usize) -> f64 {
    let nodes = graph.actions.iter().zip(graph.next.chunks(tables.observations));
    let nodes: Vec<Vector> = nodes
        .map(|(&action, next)| Vector {
            action: action.into(),
            choices: next.iter().map(|&node| node.into()).collect(),
            mask: full_mask(tables.states),
            entries: vec![0.0; tables.states],
        })
        .collect();
    let mut level = Level { vectors: nodes, ..Level::default() };
    for _ in 0..steps {
        let worths =
            |node: &Vector| Vector { entries: tables.backups(&level, node.action, &node.choices), ..node.clone() };
        level = Level { vectors: level.vectors.iter().map(worths).collect(), ..Level::default() };
    }
    level.vectors[node].entries[state]
}

/// The transitions above 0, by action and state reached: the state left, and the chance.
pub fn listed(tables: &Tables) -> Vec<Vec<(usize, f64)>> {
    let n = tables.states;
    let column = |column: usize| {
        let rows = tables.transitions_of(column / n).chunks_exact(n).map(|row| row[column % n]);
        rows.enumerate().filter(|&(_, chance)| chance > 0.0).collect()
    };
    (0..tables.actions * n).map(column).collect()
}

/// New prices: the floor falls and both ceilings rise by the largest change times the level.
pub fn reprice(certifier: &mut Certifier, new: &Tables) {
    let changes = certifier.tables.rewards.iter().zip(&new.rewards).map(|(old, new)| (new - old).abs());
    let by = changes.fold(0.0, f64::max) * certifier.number as f64;
    let Level { vectors, corners, points } = &mut certifier.level;
    vectors.iter_mut().flat_map(|vector| &mut vector.entries).for_each(|entry| *entry -= by);
    points.iter_mut().for_each(|point| point.value += by);
    let rows = certifier.informed.iter_mut().chain(&mut certifier.qmdp);
    corners.iter_mut().chain(rows).for_each(|cell| *cell += by);
    certifier.tables.rewards.copy_from_slice(&new.rewards);
}
