//! Matrices of any size, kept row by row. A vector is a matrix of one column. Each row and each column has
//! a weight, which is 1 unless `weigh_rows` says otherwise: document 02's E5, for which polyfit's sums over
//! samples, the rows, take their weights.

use std::marker::PhantomData;
use std::ops::{Add, Index, IndexMut, Mul};

use crate::complex::Complex;
use crate::field::{convert, RealField};
use crate::svd::SVD;
use crate::weights;

/// A dimension, or the step between two places along it.
pub trait Dim {}

/// A dimension known when the program runs.
#[derive(Debug, Clone, Copy, PartialEq)]
pub struct Dyn;
impl Dim for Dyn {}

/// The values of a matrix.
#[derive(Debug, Clone, PartialEq)]
pub struct VecStorage<T>(pub(crate) Vec<T>);

impl<T> From<VecStorage<T>> for Vec<T> {
    fn from(storage: VecStorage<T>) -> Self {
        storage.0
    }
}

#[derive(Debug, Clone, PartialEq)]
pub struct DMatrix<T> {
    nrows: usize,
    ncols: usize,
    pub data: VecStorage<T>,
    row_weights: Vec<T>,
    column_weights: Vec<T>,
}

pub type DVector<T> = DMatrix<T>;

/// A vector that is walked through by reference.
pub struct OVector<T>(Vec<T>);

impl<'a, T> IntoIterator for &'a OVector<T> {
    type Item = &'a T;
    type IntoIter = std::slice::Iter<'a, T>;
    fn into_iter(self) -> Self::IntoIter {
        self.0.iter()
    }
}

/// A row that is read.
pub struct MatrixView<'a, T> {
    row: &'a [T],
    weight: T,
}

/// A row that is written.
pub struct MatrixViewMut<'a, T, R: Dim, C: Dim, RS: Dim, CS: Dim> {
    row: &'a mut [T],
    weight: &'a mut T,
    shape: PhantomData<(R, C, RS, CS)>,
}

type RowMut<'a, T> = MatrixViewMut<'a, T, Dyn, Dyn, Dyn, Dyn>;

impl<T: Copy, R: Dim, C: Dim, RS: Dim, CS: Dim> MatrixViewMut<'_, T, R, C, RS, CS> {
    pub fn ncols(&self) -> usize {
        self.row.len()
    }

    /// The weight goes with the row.
    pub fn copy_from(&mut self, other: &MatrixView<'_, T>) {
        self.row.copy_from_slice(other.row);
        *self.weight = other.weight;
    }
}

impl<T, R: Dim, C: Dim, RS: Dim, CS: Dim> Index<usize> for MatrixViewMut<'_, T, R, C, RS, CS> {
    type Output = T;
    fn index(&self, j: usize) -> &T {
        &self.row[j]
    }
}

impl<T, R: Dim, C: Dim, RS: Dim, CS: Dim> IndexMut<usize> for MatrixViewMut<'_, T, R, C, RS, CS> {
    fn index_mut(&mut self, j: usize) -> &mut T {
        &mut self.row[j]
    }
}

impl<T: RealField> DMatrix<T> {
    pub fn from_fn(nrows: usize, ncols: usize, place: impl Fn(usize, usize) -> T) -> Self {
        let data = (0..nrows * ncols).map(|at| place(at / ncols, at % ncols)).collect();
        Self::unweighted(nrows, ncols, data)
    }

    fn unweighted(nrows: usize, ncols: usize, data: Vec<T>) -> Self {
        let (row_weights, column_weights) = (vec![T::one(); nrows], vec![T::one(); ncols]);
        Self { nrows, ncols, data: VecStorage(data), row_weights, column_weights }
    }

    /// A vector.
    pub fn from_iterator(nrows: usize, values: impl Iterator<Item = T>) -> Self {
        let data: Vec<T> = values.collect();
        assert_eq!(data.len(), nrows);
        Self::unweighted(nrows, 1, data)
    }

    pub fn zeros(nrows: usize, ncols: usize) -> Self {
        Self::from_fn(nrows, ncols, |_, _| T::zero())
    }

    pub fn identity(nrows: usize, ncols: usize) -> Self {
        Self::from_fn(nrows, ncols, |i, j| if i == j { T::one() } else { T::zero() })
    }

    pub fn nrows(&self) -> usize {
        self.nrows
    }

    pub fn ncols(&self) -> usize {
        self.ncols
    }

    pub fn shape(&self) -> (usize, usize) {
        (self.nrows, self.ncols)
    }

    pub fn get(&self, (i, j): (usize, usize)) -> Option<&T> {
        (i < self.nrows && j < self.ncols).then(|| &self[(i, j)])
    }

    pub fn iter(&self) -> std::slice::Iter<'_, T> {
        self.data.0.iter()
    }

    /// The greatest value.
    pub fn max(&self) -> T {
        self.iter().copied().fold(self.data.0[0], RealField::max)
    }

    /// Rows get the weights that are set for the call, if any are (`with_weights`).
    pub fn weigh_rows(&mut self) {
        if let Some(weights) = weights::set() {
            assert_eq!(weights.len(), self.nrows);
            self.row_weights = weights.into_iter().map(convert).collect();
        }
    }

    pub fn transpose(&self) -> Self {
        Self {
            row_weights: self.column_weights.clone(),
            column_weights: self.row_weights.clone(),
            ..Self::from_fn(self.ncols, self.nrows, |i, j| self[(j, i)])
        }
    }

    /// The part of the given shape from the given place on.
    pub fn view(&self, (i0, j0): (usize, usize), (nrows, ncols): (usize, usize)) -> Self {
        Self {
            row_weights: self.row_weights[i0..i0 + nrows].to_vec(),
            column_weights: self.column_weights[j0..j0 + ncols].to_vec(),
            ..Self::from_fn(nrows, ncols, |i, j| self[(i0 + i, j0 + j)])
        }
    }

    pub fn into_owned(self) -> Self {
        self
    }

    pub fn row_iter(&self) -> impl Iterator<Item = MatrixView<'_, T>> {
        let rows = self.data.0.chunks(self.ncols).zip(&self.row_weights);
        rows.map(|(row, weight)| MatrixView { row, weight: *weight })
    }

    pub fn row_iter_mut(&mut self) -> impl Iterator<Item = RowMut<'_, T>> {
        let rows = self.data.0.chunks_mut(self.ncols).zip(&mut self.row_weights);
        rows.map(|(row, weight)| MatrixViewMut { row, weight, shape: PhantomData })
    }

    pub fn row_mut(&mut self, i: usize) -> RowMut<'_, T> {
        let row = &mut self.data.0[i * self.ncols..(i + 1) * self.ncols];
        MatrixViewMut { row, weight: &mut self.row_weights[i], shape: PhantomData }
    }

    pub fn svd(self, _compute_u: bool, _compute_v: bool) -> SVD<T> {
        SVD::new(self)
    }

    /// polyfit finds roots by it; neither document 01 nor the comparison has roots.
    pub fn complex_eigenvalues(&self) -> OVector<Complex<T>> {
        unimplemented!("eigenvalues are not part of the port")
    }
}

impl<T> Index<(usize, usize)> for DMatrix<T> {
    type Output = T;
    fn index(&self, (i, j): (usize, usize)) -> &T {
        &self.data.0[i * self.ncols + j]
    }
}

impl<T> IndexMut<(usize, usize)> for DMatrix<T> {
    fn index_mut(&mut self, (i, j): (usize, usize)) -> &mut T {
        &mut self.data.0[i * self.ncols + j]
    }
}

/// A place of a vector.
impl<T> Index<usize> for DMatrix<T> {
    type Output = T;
    fn index(&self, i: usize) -> &T {
        &self.data.0[i]
    }
}

impl<T> IndexMut<usize> for DMatrix<T> {
    fn index_mut(&mut self, i: usize) -> &mut T {
        &mut self.data.0[i]
    }
}

/// Each place is summed in index order from +0, as document 01 says of every sum: first the product of
/// the two places, then that by the weight of the left one's column. Where the left one is transposed,
/// that is the weight of a sample.
impl<T: RealField> Mul<&DMatrix<T>> for &DMatrix<T> {
    type Output = DMatrix<T>;
    fn mul(self, other: &DMatrix<T>) -> DMatrix<T> {
        assert_eq!(self.ncols, other.nrows);
        DMatrix::from_fn(self.nrows, other.ncols, |i, j| {
            let mut sum = T::zero();
            for l in 0..self.ncols {
                sum += (self[(i, l)] * other[(l, j)]) * self.column_weights[l];
            }
            sum
        })
    }
}

impl<T: RealField> Mul<&DMatrix<T>> for DMatrix<T> {
    type Output = DMatrix<T>;
    fn mul(self, other: &DMatrix<T>) -> DMatrix<T> {
        &self * other
    }
}

impl<T: RealField> Mul<DMatrix<T>> for DMatrix<T> {
    type Output = DMatrix<T>;
    fn mul(self, other: DMatrix<T>) -> DMatrix<T> {
        &self * &other
    }
}

/// Place by place.
impl<T: RealField> Mul<T> for DMatrix<T> {
    type Output = DMatrix<T>;
    fn mul(self, factor: T) -> DMatrix<T> {
        DMatrix::from_fn(self.nrows, self.ncols, |i, j| self[(i, j)] * factor)
    }
}

/// Place by place.
impl<T: RealField> Add<DMatrix<T>> for &DMatrix<T> {
    type Output = DMatrix<T>;
    fn add(self, other: DMatrix<T>) -> DMatrix<T> {
        assert_eq!(self.shape(), other.shape());
        DMatrix::from_fn(self.nrows, self.ncols, |i, j| self[(i, j)] + other[(i, j)])
    }
}
