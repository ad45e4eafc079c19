//! Complex numbers: polyfit's root finding names them, the comparison never gets there.

use std::ops::{Add, AddAssign, Div, DivAssign, Mul, MulAssign, Neg, Rem, Sub, SubAssign};

use num_traits::{Num, One, Zero};

use crate::field::{ComplexField, RealField};

#[derive(Debug, Clone, Copy, PartialEq)]
pub struct Complex<T> {
    pub re: T,
    pub im: T,
}

impl<T> Complex<T> {
    pub fn new(re: T, im: T) -> Self {
        Self { re, im }
    }
}

/// Has a Euclidean norm.
pub trait Normed {
    type Norm;
    fn norm(&self) -> Self::Norm;
}

impl<T: RealField> Normed for Complex<T> {
    type Norm = T;
    fn norm(&self) -> T {
        (self.re * self.re + self.im * self.im).sqrt()
    }
}

impl<T: RealField> Add for Complex<T> {
    type Output = Self;
    fn add(self, other: Self) -> Self {
        Self::new(self.re + other.re, self.im + other.im)
    }
}

impl<T: RealField> Sub for Complex<T> {
    type Output = Self;
    fn sub(self, other: Self) -> Self {
        Self::new(self.re - other.re, self.im - other.im)
    }
}

impl<T: RealField> Neg for Complex<T> {
    type Output = Self;
    fn neg(self) -> Self {
        Self::new(-self.re, -self.im)
    }
}

impl<T: RealField> Mul for Complex<T> {
    type Output = Self;
    fn mul(self, other: Self) -> Self {
        Self::new(self.re * other.re - self.im * other.im, self.re * other.im + self.im * other.re)
    }
}

impl<T: RealField> Div for Complex<T> {
    type Output = Self;
    fn div(self, other: Self) -> Self {
        let size = other.re * other.re + other.im * other.im;
        let product = self * Self::new(other.re, -other.im);
        Self::new(product.re / size, product.im / size)
    }
}

/// A remainder of complex numbers is asked for by `Num` alone; taken part by part.
impl<T: RealField> Rem for Complex<T> {
    type Output = Self;
    fn rem(self, other: Self) -> Self {
        Self::new(self.re % other.re, self.im % other.im)
    }
}

impl<T: RealField> AddAssign for Complex<T> {
    fn add_assign(&mut self, other: Self) {
        *self = *self + other;
    }
}

impl<T: RealField> SubAssign for Complex<T> {
    fn sub_assign(&mut self, other: Self) {
        *self = *self - other;
    }
}

impl<T: RealField> MulAssign for Complex<T> {
    fn mul_assign(&mut self, other: Self) {
        *self = *self * other;
    }
}

impl<T: RealField> DivAssign for Complex<T> {
    fn div_assign(&mut self, other: Self) {
        *self = *self / other;
    }
}

impl<T: RealField> Zero for Complex<T> {
    fn zero() -> Self {
        Self::new(T::zero(), T::zero())
    }
    fn is_zero(&self) -> bool {
        self.re.is_zero() && self.im.is_zero()
    }
}

impl<T: RealField> One for Complex<T> {
    fn one() -> Self {
        Self::new(T::one(), T::zero())
    }
}

impl<T: RealField> Num for Complex<T> {}

impl<T: RealField> ComplexField for Complex<T> {
    type RealField = T;

    fn from_real(re: T) -> Self {
        Self::new(re, T::zero())
    }
    fn real(self) -> T {
        self.re
    }
    fn imaginary(self) -> T {
        self.im
    }
    fn abs(self) -> T {
        self.norm()
    }
    fn powi(self, n: i32) -> Self {
        (0..n).fold(Self::one(), |product, _| product * self)
    }
}
