//! The two files of a step, in the layout of pomdp-solve.

use crate::backup::Vector;

/// Digits behind the point: as many as a certified decimal may have. pomdp-solve prints 25.
const DECIMALS: usize = 12;

/// The alpha file: for each vector a line with its action, a line with its value at each state, and a blank line.
pub fn alpha_file(vectors: &[Vector]) -> String {
    let vector = |vector: &Vector| {
        let values: String = vector.values.iter().map(|value| format!("{:.*} ", DECIMALS, value)).collect();
        format!("{}\n{}\n\n", vector.action, values)
    };
    vectors.iter().map(vector).collect()
}

/// The policy graph: a line for each vector with its number, its action, and the vector of the step before to go on with
/// after each observation, or hyphens at the first step.
pub fn graph_file(vectors: &[Vector]) -> String {
    let node = |(number, vector): (usize, &Vector)| {
        let next = |next: &Option<usize>| next.map_or("- ".to_string(), |next| format!("{} ", next));
        format!("{} {}  {}\n", number, vector.action, vector.next.iter().map(next).collect::<String>())
    };
    vectors.iter().enumerate().map(node).collect()
}

#[cfg(test)]
mod tests {
    use super::*;

    #[test]
    fn the_layout() {
        let first = Vector { action: 2, next: vec![None, None], values: vec![-1.0, 1.0 / 3.0] };
        assert_eq!(alpha_file(&[first.clone()]), "2\n-1.000000000000 0.333333333333 \n\n");
        assert_eq!(graph_file(&[first.clone()]), "0 2  - - \n");
        let later = Vector { action: 0, next: vec![Some(1), Some(0)], ..first };
        assert_eq!(graph_file(&[later.clone(), later]), "0 0  1 0 \n1 0  1 0 \n");
    }
}
