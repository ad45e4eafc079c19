//! Stand-in for the crate `num-traits`: the traits and functions that polyfit's text names, no more.

use std::ops::{Add, Div, Mul, Neg, Rem, Sub};

/// Has a zero.
pub trait Zero: Sized + Add<Self, Output = Self> {
    fn zero() -> Self;
    fn is_zero(&self) -> bool;
}

/// Has a one.
pub trait One: Sized + Mul<Self, Output = Self> {
    fn one() -> Self;
}

/// The four operations and the remainder.
pub trait Num:
    PartialEq
    + Zero
    + One
    + Sub<Self, Output = Self>
    + Div<Self, Output = Self>
    + Rem<Self, Output = Self>
{
}

/// What `abs` by reference resolves to.
pub trait Signed: Num + Neg<Output = Self> {
    fn abs(&self) -> Self;
}

/// A primitive number on its way between two types.
pub enum Primitive {
    Integer(i128),
    Float(f64),
}

/// Can be given as a primitive number.
pub trait ToPrimitive {
    fn to_primitive(&self) -> Primitive;
}

/// Can be made of a primitive number, where it fits.
pub trait NumCast: Sized + ToPrimitive {
    fn from_primitive(n: Primitive) -> Option<Self>;
}

/// Can be made of an f64, where it fits.
pub trait FromPrimitive: Sized {
    fn from_f64(n: f64) -> Option<Self>;
}

/// Casts between two number types; `None` where the value does not fit.
pub fn cast<T: NumCast, U: NumCast>(n: T) -> Option<U> {
    U::from_primitive(n.to_primitive())
}

/// Has a least and a greatest value.
pub trait Bounded {
    fn min_value() -> Self;
    fn max_value() -> Self;
}

/// The whole number types.
pub trait PrimInt: Copy + Num + NumCast + Bounded + Ord {}

pub mod float {
    use super::{Num, NumCast};
    use std::ops::Neg;

    /// Floating point without the functions of a mathematical library.
    pub trait FloatCore: Num + NumCast + Neg<Output = Self> + PartialOrd + Copy {
        fn infinity() -> Self;
        fn neg_infinity() -> Self;
        fn nan() -> Self;
        fn epsilon() -> Self;
        fn min_value() -> Self;
        fn max_value() -> Self;
        fn is_nan(self) -> bool;
        fn is_finite(self) -> bool;
        fn is_sign_negative(self) -> bool;
        fn ceil(self) -> Self;
        fn floor(self) -> Self;
        fn clamp(self, min: Self, max: Self) -> Self;
    }

    impl FloatCore for f64 {
        fn infinity() -> Self {
            f64::INFINITY
        }
        fn neg_infinity() -> Self {
            f64::NEG_INFINITY
        }
        fn nan() -> Self {
            f64::NAN
        }
        fn epsilon() -> Self {
            f64::EPSILON
        }
        fn min_value() -> Self {
            f64::MIN
        }
        fn max_value() -> Self {
            f64::MAX
        }
        fn is_nan(self) -> bool {
            f64::is_nan(self)
        }
        fn is_finite(self) -> bool {
            f64::is_finite(self)
        }
        fn is_sign_negative(self) -> bool {
            f64::is_sign_negative(self)
        }
        fn ceil(self) -> Self {
            f64::ceil(self)
        }
        fn floor(self) -> Self {
            f64::floor(self)
        }
        fn clamp(self, min: Self, max: Self) -> Self {
            f64::clamp(self, min, max)
        }
    }
}

macro_rules! num {
    ($zero:literal, $one:literal: $($t:ty)*) => {$(
        impl Zero for $t {
            fn zero() -> Self {
                $zero
            }
            fn is_zero(&self) -> bool {
                *self == $zero
            }
        }
        impl One for $t {
            fn one() -> Self {
                $one
            }
        }
        impl Num for $t {}
    )*};
}

num!(0.0, 1.0: f64);
num!(0, 1: i8 i16 i32 i64 isize u8 u16 u32 u64 usize);

impl Signed for f64 {
    fn abs(&self) -> Self {
        f64::abs(*self)
    }
}

impl ToPrimitive for f64 {
    fn to_primitive(&self) -> Primitive {
        Primitive::Float(*self)
    }
}

impl NumCast for f64 {
    fn from_primitive(n: Primitive) -> Option<Self> {
        Some(match n {
            Primitive::Integer(n) => n as f64,
            Primitive::Float(n) => n,
        })
    }
}

impl FromPrimitive for f64 {
    fn from_f64(n: f64) -> Option<Self> {
        Some(n)
    }
}

macro_rules! whole_number {
    ($($t:ty)*) => {$(
        impl ToPrimitive for $t {
            fn to_primitive(&self) -> Primitive {
                Primitive::Integer(*self as i128)
            }
        }
        impl NumCast for $t {
            fn from_primitive(n: Primitive) -> Option<Self> {
                match n {
                    Primitive::Integer(n) => n.try_into().ok(),
                    // Truncates; a NaN becomes 0 by `as`, so it is ruled out first.
                    Primitive::Float(n) if n.is_nan() => None,
                    Primitive::Float(n) => (n as i128).try_into().ok(),
                }
            }
        }
        impl Bounded for $t {
            fn min_value() -> Self {
                <$t>::MIN
            }
            fn max_value() -> Self {
                <$t>::MAX
            }
        }
        impl PrimInt for $t {}
    )*};
}

whole_number!(i8 i16 i32 i64 isize u8 u16 u32 u64 usize);
