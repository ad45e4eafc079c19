//! Document 01's stand-in for the singular value decomposition: elimination without exchange of
//! rows, abandoned at a pivot that is not greater than 2⁻⁴⁸ times its starting value.

use crate::field::{convert, RealField};
use crate::matrix::{DMatrix, DVector};
use crate::pivots;

/// The name and the methods are nalgebra's; nothing is decomposed, the matrix is kept.
pub struct SVD<T> {
    matrix: DMatrix<T>,
    /// polyfit scales a tolerance by the greatest; the stand-in takes no tolerance.
    pub singular_values: DVector<T>,
}

impl<T: RealField> SVD<T> {
    pub(crate) fn new(matrix: DMatrix<T>) -> Self {
        Self { matrix, singular_values: DVector::zeros(1, 1) }
    }

    /// Always succeeds: what fails, fails in `solve` or `pseudo_inverse`.
    pub fn try_new_unordered(
        matrix: DMatrix<T>,
        _compute_u: bool,
        _compute_v: bool,
        _epsilon: T,
        _max_iterations: usize,
    ) -> Option<Self> {
        Some(Self::new(matrix))
    }

    /// Least squares by the normal equations: XᵀX and Xᵀb, sample by sample from +0 and with the weights of
    /// the rows of X, eliminated.
    pub fn solve(&self, b: &DVector<T>, _epsilon: T) -> Result<DVector<T>, &'static str> {
        let transposed = self.matrix.transpose();
        let mut compared = 0;
        let solution = eliminate(&transposed * &self.matrix, &transposed * b, || compared += 1);
        pivots::note(compared);
        solution
    }

    /// The inverse of a square matrix, one elimination for each unit column. The diagonal has been
    /// added to by the caller.
    pub fn pseudo_inverse(&self, _epsilon: T) -> Result<DMatrix<T>, &'static str> {
        let k = self.matrix.nrows();
        let mut inverse = DMatrix::zeros(k, k);
        for column in 0..k {
            let unit =
                DVector::from_fn(k, 1, |i, _| if i == column { T::one() } else { T::zero() });
            let solution = eliminate(self.matrix.clone(), unit, || {})?;
            for i in 0..k {
                inverse[(i, column)] = solution[i];
            }
        }
        Ok(inverse)
    }
}

/// 2⁻⁴⁸, exactly.
const PIVOT_FACTOR: f64 = 1.0 / (1u64 << 48) as f64;

/// Solves m × c = b in place; says of each pivot that it compares it.
fn eliminate<T: RealField>(
    mut m: DMatrix<T>,
    mut b: DVector<T>,
    mut compare: impl FnMut(),
) -> Result<DVector<T>, &'static str> {
    let k = m.nrows();
    let factor: T = convert(PIVOT_FACTOR);
    let least: Vec<T> = (0..k).map(|p| factor * m[(p, p)]).collect();
    for p in 0..k {
        compare();
        // The order of a NaN is none, and none is not greater.
        if m[(p, p)].partial_cmp(&least[p]) != Some(std::cmp::Ordering::Greater) {
            return Err("pivot too small");
        }
        for r in p + 1..k {
            let f = m[(r, p)] / m[(p, p)];
            for c in p + 1..k {
                let product = f * m[(p, c)];
                m[(r, c)] -= product;
            }
            let product = f * b[p];
            b[r] -= product;
        }
    }
    for r in (0..k).rev() {
        for c in r + 1..k {
            let product = m[(r, c)] * b[c];
            b[r] -= product;
        }
        let pivot = m[(r, r)];
        b[r] /= pivot;
    }
    Ok(b)
}
