//! The number traits, for f64.

use std::fmt::{Debug, Display};
use std::ops::{AddAssign, DivAssign, MulAssign, Neg, SubAssign};

use num_traits::{FromPrimitive, Num, Signed};

use crate::stand_ins;

/// Whatever a matrix may hold.
pub trait Scalar: 'static + Clone + PartialEq + Debug {}
impl<T: 'static + Clone + PartialEq + Debug> Scalar for T {}

/// A real or complex number.
pub trait ComplexField:
    'static
    + Copy
    + Debug
    + Send
    + Sync
    + Num
    + Neg<Output = Self>
    + AddAssign
    + SubAssign
    + MulAssign
    + DivAssign
{
    type RealField: RealField;

    fn from_real(re: Self::RealField) -> Self;
    fn real(self) -> Self::RealField;
    fn imaginary(self) -> Self::RealField;
    fn abs(self) -> Self::RealField;
    fn powi(self, n: i32) -> Self;
}

/// Has a default tolerance for comparisons.
pub trait AbsDiffEq {
    fn default_epsilon() -> Self;
}

/// A real number.
pub trait RealField:
    ComplexField<RealField = Self> + Signed + FromPrimitive + PartialOrd + AbsDiffEq + Display
{
    fn max(self, other: Self) -> Self;
    fn min(self, other: Self) -> Self;
    fn clamp(self, min: Self, max: Self) -> Self;
    fn is_sign_negative(&self) -> bool;
    fn sqrt(self) -> Self;
    fn ln(self) -> Self;
    fn log10(self) -> Self;
    fn exp(self) -> Self;
    fn sin(self) -> Self;
    fn pi() -> Self;
    fn two_pi() -> Self;
}

impl ComplexField for f64 {
    type RealField = f64;

    fn from_real(re: f64) -> f64 {
        re
    }
    fn real(self) -> f64 {
        self
    }
    fn imaginary(self) -> f64 {
        0.0
    }
    fn abs(self) -> f64 {
        f64::abs(self)
    }
    /// Document 01's power. The text raises to powers 0 to 15 only, never below 0.
    fn powi(self, n: i32) -> f64 {
        stand_ins::power(self, u32::try_from(n).expect("no negative powers"))
    }
}

impl AbsDiffEq for f64 {
    fn default_epsilon() -> f64 {
        f64::EPSILON
    }
}

impl RealField for f64 {
    fn max(self, other: f64) -> f64 {
        stand_ins::maximum(self, other)
    }
    fn min(self, other: f64) -> f64 {
        stand_ins::minimum(self, other)
    }
    fn clamp(self, min: f64, max: f64) -> f64 {
        f64::clamp(self, min, max)
    }
    fn is_sign_negative(&self) -> bool {
        f64::is_sign_negative(*self)
    }
    fn sqrt(self) -> f64 {
        f64::sqrt(self)
    }
    fn ln(self) -> f64 {
        stand_ins::ln(self)
    }
    fn log10(self) -> f64 {
        f64::log10(self)
    }
    fn exp(self) -> f64 {
        f64::exp(self)
    }
    fn sin(self) -> f64 {
        f64::sin(self)
    }
    fn pi() -> f64 {
        std::f64::consts::PI
    }
    fn two_pi() -> f64 {
        2.0 * std::f64::consts::PI
    }
}

/// A constant as a real number.
pub fn convert<T: FromPrimitive>(n: f64) -> T {
    T::from_f64(n).expect("the constant fits")
}
