//! Document 01, "Stand-ins": solve and inverse, by elimination without exchange of rows.

use crate::numbers::{EPSILON, PIVOT_FACTOR};
use crate::sums::{a, g};

/// A square matrix, row by row.
pub type Matrix = Vec<Vec<f64>>;

/// Eliminates below each pivot, or gives up at the first pivot that is not greater than 2⁻⁴⁸ times
/// its starting value. Answers the number of pivots that held.
pub fn eliminate(m: &mut Matrix, b: &mut [f64]) -> usize {
    let k = b.len();
    let starting: Vec<f64> = (0..k).map(|p| m[p][p]).collect();
    for p in 0..k {
        let holds = m[p][p] > PIVOT_FACTOR * starting[p];
        if !holds {
            return p;
        }
        for r in p + 1..k {
            let f = m[r][p] / m[p][p];
            for c in p + 1..k {
                m[r][c] -= f * m[p][c];
            }
            b[r] -= f * b[p];
        }
    }
    k
}

/// From the last row up: b[r] less M[r][c] × coefficient c, c ascending from r+1, divided by M[r][r].
fn substitute_back(m: &Matrix, b: &mut [f64]) {
    let k = b.len();
    for r in (0..k).rev() {
        for c in r + 1..k {
            b[r] -= m[r][c] * b[c];
        }
        b[r] /= m[r][r];
    }
}

/// M × c = b, or none where a pivot fails.
fn solve_system(mut m: Matrix, mut b: Vec<f64>) -> Option<Vec<f64>> {
    if eliminate(&mut m, &mut b) < b.len() {
        return None;
    }
    substitute_back(&m, &mut b);
    Some(b)
}

/// The k by k corner of A.
fn corner(sums: &[f64], k: usize) -> Matrix {
    (0..k).map(|i| (0..k).map(|j| a(sums, i, j)).collect()).collect()
}

/// Solve, on the k by k corner of A and g.
pub fn solve(sums: &[f64], k: usize) -> Option<Vec<f64>> {
    let b = (0..k).map(|i| g(sums, i)).collect();
    solve_system(corner(sums, k), b)
}

/// The pivots that solve compares on the k by k corner, a failing one included (document 02, E8).
pub fn pivots_compared(sums: &[f64], k: usize) -> usize {
    let mut b: Vec<f64> = (0..k).map(|i| g(sums, i)).collect();
    let held = eliminate(&mut corner(sums, k), &mut b);
    let failed = usize::from(held < k);
    held + failed
}

/// Inverse: the same on the corner with 2⁻⁵² first added to each diagonal place, once per unit column.
pub fn inverse(sums: &[f64], k: usize) -> Option<Matrix> {
    let mut m = corner(sums, k);
    for p in 0..k {
        m[p][p] += EPSILON;
    }
    let mut inverse = vec![vec![0.0; k]; k];
    for column in 0..k {
        let mut unit = vec![0.0; k];
        unit[column] = 1.0;
        let solution = solve_system(m.clone(), unit)?;
        for row in 0..k {
            inverse[row][column] = solution[row];
        }
    }
    Some(inverse)
}

#[cfg(test)]
mod tests {
    use super::*;
    use crate::sums::folded_afresh;
    use crate::Sample;

    #[test]
    fn t10_line_through_three() {
        let samples = [(0.0, 1.0), (1.0, 3.0), (2.0, 5.0)].map(|(x, y)| Sample::unweighted(x, y));
        assert_eq!(solve(&folded_afresh(&samples), 2), Some(vec![1.0, 2.0]));
    }

    #[test]
    fn equal_x_has_no_line() {
        let samples = [(2.0, 1.0), (2.0, 5.0)].map(|(x, y)| Sample::unweighted(x, y));
        assert_eq!(solve(&folded_afresh(&samples), 2), None);
        assert_eq!(solve(&folded_afresh(&samples), 1), Some(vec![3.0]));
        let compared = [1, 2, 3].map(|k| pivots_compared(&folded_afresh(&samples), k));
        assert_eq!(compared, [1, 2, 2]);
    }

    /// The pivot must be greater than the bound, not equal to it, and a NaN is not greater.
    #[test]
    fn pivot_at_its_edge() {
        let edge = |pivot: f64, other: f64| {
            let mut m = vec![vec![1.0, 1.0], vec![1.0, pivot]];
            let mut b = vec![0.0, other];
            eliminate(&mut m, &mut b)
        };
        assert_eq!(edge(1.0, 0.0), 1);
        assert_eq!(edge(1.0 + EPSILON, 0.0), 1);
        assert_eq!(edge(1.0 + 16.0 * EPSILON, 0.0), 1);
        assert_eq!(edge(1.0 + 17.0 * EPSILON, 0.0), 2);
        assert_eq!(edge(f64::NAN, 0.0), 1);
        assert_eq!(edge(f64::INFINITY, 0.0), 1);
        // A negative starting value lets a pivot of zero pass.
        let mut m = vec![vec![-1.0]];
        assert_eq!(eliminate(&mut m, &mut [1.0]), 0);
        let mut m = vec![vec![1.0, 1.0], vec![-1.0, -1.0]];
        assert_eq!(eliminate(&mut m, &mut [1.0, 1.0]), 2);
    }
}
