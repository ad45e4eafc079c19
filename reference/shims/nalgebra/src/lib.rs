//! Stand-in for the crate `nalgebra`: the types and functions that polyfit's text names.
//!
//! Document 01 says what stands in for the singular value decomposition, for the power, the
//! logarithm and the maximum, and in which order matrix products are summed; document 02's E5, which weights
//! their sums have. The square root is the
//! hardware's, which IEEE 754 makes the nearest double.

mod complex;
mod field;
mod matrix;
mod pivots;
mod stand_ins;
mod svd;
mod weights;

pub use complex::{Complex, Normed};
pub use field::{convert, AbsDiffEq, ComplexField, RealField, Scalar};
pub use matrix::{DMatrix, DVector, Dim, Dyn, MatrixView, MatrixViewMut, OVector, VecStorage};
pub use pivots::count_pivots;
pub use svd::SVD;
pub use weights::with_weights;
