//! What a fit sees: the values of the terms at a place, as many as there are coefficients, and y. The
//! curve is one case of it, a surface (document 02, E9) another; solving, scores, choice, covariance,
//! bands and pruning are the same for both.

use crate::numbers::power;
use crate::{coefficient_count, Sample};

/// Where a fitted value is asked for.
pub trait Place: Copy {
    /// k, from the degree.
    fn coefficient_count(degree: usize) -> usize;

    /// The value of term j.
    fn term(self, j: usize) -> f64;
}

/// A sample without its weight, which the sums alone take.
pub trait Observed {
    type Place: Place;

    fn place(&self) -> Self::Place;

    fn y(&self) -> f64;
}

/// The curve's place is x; its term j is xʲ.
impl Place for f64 {
    fn coefficient_count(degree: usize) -> usize {
        coefficient_count(degree)
    }

    fn term(self, j: usize) -> f64 {
        power(self, j)
    }
}

impl Observed for Sample {
    type Place = f64;

    fn place(&self) -> f64 {
        self.x
    }

    fn y(&self) -> f64 {
        self.y
    }
}

/// k of a sample's terms at a degree.
pub fn count_of<S: Observed>(degree: usize) -> usize {
    S::Place::coefficient_count(degree)
}

/// The fitted value adds coefficient × term j, j ascending, from +0.
pub fn fitted<P: Place>(coefficients: &[f64], place: P) -> f64 {
    let mut value = 0.0;
    for (j, coefficient) in coefficients.iter().enumerate() {
        value += coefficient * place.term(j);
    }
    value
}
