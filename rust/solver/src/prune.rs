//! Which of many vectors are best at some belief.

use crate::backup::Vector;

/// What is better by less than this, of the largest value, is not better.
const SLACK: f64 = 1e-11;
/// After so many pivots a linear program is left as it stands.
const PIVOTS: usize = 2_000;

/// The vectors that are best at some belief, in their order: first those are left out that another one exceeds at every
/// state, then those for which no belief is found at which they are better than all that are kept.
pub fn pruned(vectors: Vec<Vector>) -> Vec<Vector> {
    let largest = vectors.iter().flat_map(|vector| &vector.values).fold(1.0, |most: f64, value| most.max(value.abs()));
    let slack = largest * SLACK;
    let mut open = undominated(&vectors, slack);
    let mut kept: Vec<usize> = Vec::new();
    while let Some(&candidate) = open.first() {
        match witness(&vectors, candidate, &kept, slack) {
            Some(belief) => {
                let best = best_at(&vectors, &open, &belief);
                open.retain(|&at| at != best);
                kept.push(best);
            }
            None => {
                open.remove(0);
            }
        }
    }
    kept.sort_unstable();
    kept.into_iter().map(|at| vectors[at].clone()).collect()
}

/// The numbers of the vectors that no other one exceeds at every state; of equals the first.
fn undominated(vectors: &[Vector], slack: f64) -> Vec<usize> {
    let under = |one: &Vector, other: &Vector| one.values.iter().zip(&other.values).all(|(a, b)| *a <= b + slack);
    let mut kept: Vec<usize> = Vec::new();
    for (at, vector) in vectors.iter().enumerate() {
        if !kept.iter().any(|&other| under(vector, &vectors[other])) {
            kept.retain(|&other| !under(&vectors[other], vector));
            kept.push(at);
        }
    }
    kept
}

fn dot(vector: &Vector, belief: &[f64]) -> f64 {
    vector.values.iter().zip(belief).map(|(value, weight)| value * weight).sum()
}

/// The first of these vectors with the largest product with a belief.
fn best_at(vectors: &[Vector], among: &[usize], belief: &[f64]) -> usize {
    let mut best = among[0];
    for &at in among {
        if dot(&vectors[at], belief) > dot(&vectors[best], belief) {
            best = at;
        }
    }
    best
}

/// A belief at which a vector is better than all of those that are kept, if there is one.
fn witness(vectors: &[Vector], candidate: usize, kept: &[usize], slack: f64) -> Option<Vec<f64>> {
    let values = &vectors[candidate].values;
    if kept.is_empty() {
        return Some(vec![1.0 / values.len() as f64; values.len()]);
    }
    let row = |s: usize| kept.iter().map(|&at| values[s] - vectors[at].values[s]).collect();
    let belief = best_mixture(&(0..values.len()).map(row).collect::<Vec<Vec<f64>>>());
    let own = dot(&vectors[candidate], &belief);
    kept.iter().all(|&at| own > dot(&vectors[at], &belief) + slack).then_some(belief)
}

/// The weights on the rows of a matrix, in total 1, with the largest smallest column: the row player's best mixture in the
/// game of that matrix. With all cells made positive the column player's program, to maximize Σ y with A y ≤ 1, starts at
/// y = 0; the row player's weights are its dual.
fn best_mixture(matrix: &[Vec<f64>]) -> Vec<f64> {
    let (rows, columns) = (matrix.len(), matrix[0].len());
    let cells = || matrix.iter().flatten().copied();
    let least = cells().fold(f64::INFINITY, f64::min);
    let span = (cells().fold(f64::NEG_INFINITY, f64::max) - least).max(f64::MIN_POSITIVE);
    // Each row: the columns, a slack variable for each row, and the right side. The last row has the costs.
    let width = columns + rows + 1;
    let mut tableau = vec![vec![0.0; width]; rows + 1];
    for (at, row) in matrix.iter().enumerate() {
        for (column, cell) in row.iter().enumerate() {
            tableau[at][column] = (cell - least) / span + 1.0;
        }
        tableau[at][columns + at] = 1.0;
        tableau[at][width - 1] = 1.0;
    }
    for cost in &mut tableau[rows][..columns] {
        *cost = -1.0;
    }
    for pivot in 0..PIVOTS {
        if !improved(&mut tableau, pivot > PIVOTS / 2) {
            break;
        }
    }
    let dual = &tableau[rows][columns..columns + rows];
    let total: f64 = dual.iter().map(|weight| weight.max(0.0)).sum();
    dual.iter().map(|weight| if total > 0.0 { weight.max(0.0) / total } else { 1.0 / rows as f64 }).collect()
}

/// One pivot of the simplex method; false at the optimum. The column is that of the lowest cost or, so that it ends, the
/// first below 0.
fn improved(tableau: &mut [Vec<f64>], first: bool) -> bool {
    const ZERO: f64 = 1e-12;
    let rows = tableau.len() - 1;
    let width = tableau[0].len();
    let costs = &tableau[rows][..width - 1];
    let column = match costs.iter().position(|&cost| cost < -ZERO) {
        Some(at) if first => at,
        Some(at) => (at..width - 1).fold(at, |low, other| if costs[other] < costs[low] { other } else { low }),
        None => return false,
    };
    let mut leaving: Option<(usize, f64)> = None;
    for (at, row) in tableau[..rows].iter().enumerate() {
        let ratio = row[width - 1] / row[column];
        if row[column] > ZERO && leaving.map_or(true, |(_, least)| ratio < least) {
            leaving = Some((at, ratio));
        }
    }
    let at = match leaving {
        Some((at, _)) => at,
        None => return false,
    };
    let scale = tableau[at][column];
    tableau[at].iter_mut().for_each(|cell| *cell /= scale);
    let pivot = tableau[at].clone();
    for (other, row) in tableau.iter_mut().enumerate() {
        let times = row[column];
        if other != at && times != 0.0 {
            row.iter_mut().zip(&pivot).for_each(|(cell, pivot)| *cell -= times * pivot);
        }
    }
    true
}

#[cfg(test)]
mod tests {
    use super::*;

    #[test]
    fn a_mixture() {
        // Matching pennies, and a row that is better than the other.
        let even = best_mixture(&[vec![1.0, -1.0], vec![-1.0, 1.0]]);
        assert!((even[0] - 0.5).abs() < 1e-9, "{:?}", even);
        let one = best_mixture(&[vec![2.0, 1.0], vec![1.0, 0.0]]);
        assert!((one[0] - 1.0).abs() < 1e-9, "{:?}", one);
    }

    #[test]
    fn what_is_best_nowhere_is_left_out() {
        let vectors = |list: &[[f64; 2]]| -> Vec<Vector> {
            list.iter().map(|values| Vector { action: 0, next: Vec::new(), values: values.to_vec() }).collect()
        };
        let kept = |list: &[[f64; 2]]| pruned(vectors(list));
        assert_eq!(kept(&[[0.0, 1.0], [1.0, 0.0]]), vectors(&[[0.0, 1.0], [1.0, 0.0]]));
        assert_eq!(kept(&[[0.0, 1.0], [0.4, 0.4], [1.0, 0.0]]), vectors(&[[0.0, 1.0], [1.0, 0.0]]));
        assert_eq!(kept(&[[0.0, 1.0], [0.6, 0.6], [1.0, 0.0]]).len(), 3);
        assert_eq!(kept(&[[1.0, 1.0], [1.0, 1.0], [0.5, 1.0]]), vectors(&[[1.0, 1.0]]));
    }
}
