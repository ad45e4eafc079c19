//! A fit, a report and a validation by GSL's functions, for the benchmark: `gsl_multifit_linear` is a singular value decomposition where the port's is
//! an elimination, so the numbers differ in their last digits, and it solves every degree, by dropping what is too small. Powers are worked out
//! once and the workspace is made once for all degrees of a call. It is there only where `build.rs` found GSL installed.

#[cfg(gsl)]
use judge::statistics::huber_loss;
use judge::surface::SurfaceSample;
#[cfg(gsl)]
use judge::surface::{terms_of, GREATEST_DEGREE, SURFACE_TERMS};
#[cfg(gsl)]
use judge::terms::{Observed, Place};
use judge::Sample;

/// What GSL's functions take and give. The layouts are those of gsl_vector_double.h and gsl_matrix_double.h.
#[cfg(gsl)]
mod sys {
    use std::ffi::{c_int, c_void};

    #[repr(C)]
    pub struct Vector {
        pub size: usize,
        pub stride: usize,
        pub data: *mut f64,
        pub block: *mut c_void,
        pub owner: c_int,
    }

    #[repr(C)]
    pub struct Matrix {
        pub size1: usize,
        pub size2: usize,
        pub tda: usize,
        pub data: *mut f64,
        pub block: *mut c_void,
        pub owner: c_int,
    }

    extern "C" {
        pub fn gsl_set_error_handler_off() -> *mut c_void;
        pub fn gsl_multifit_linear_alloc(n: usize, p: usize) -> *mut c_void;
        pub fn gsl_multifit_linear_free(work: *mut c_void);
        pub fn gsl_multifit_linear(
            x: *const Matrix,
            y: *const Vector,
            c: *mut Vector,
            cov: *mut Matrix,
            chisq: *mut f64,
            work: *mut c_void,
        ) -> c_int;
        pub fn gsl_multifit_linear_residuals(
            x: *const Matrix,
            y: *const Vector,
            c: *const Vector,
            r: *mut Vector,
        ) -> c_int;
        pub fn gsl_stats_mad0(data: *const f64, stride: usize, n: usize, work: *mut f64) -> f64;
        pub fn gsl_multifit_linear_est(
            x: *const Vector,
            c: *const Vector,
            cov: *const Matrix,
            y: *mut f64,
            y_err: *mut f64,
        ) -> c_int;
    }
}

#[cfg(gsl)]
fn vector(places: &mut [f64]) -> sys::Vector {
    let (size, data) = (places.len(), places.as_mut_ptr());
    sys::Vector { size, stride: 1, data, block: std::ptr::null_mut(), owner: 0 }
}

/// The first k columns of rows that have so many.
#[cfg(gsl)]
fn matrix(places: &mut [f64], k: usize, columns: usize) -> sys::Matrix {
    let (size1, data) = (places.len() / columns, places.as_mut_ptr());
    sys::Matrix { size1, size2: k, tda: columns, data, block: std::ptr::null_mut(), owner: 0 }
}

/// Samples as GSL takes them: rows of powers up to the highest degree, and y's.
#[cfg(gsl)]
struct Table {
    rows: Vec<f64>,
    y: Vec<f64>,
    columns: usize,
}

#[cfg(gsl)]
impl Table {
    fn new(samples: &[Sample], columns: usize) -> Self {
        let mut rows = Vec::with_capacity(samples.len() * columns);
        for sample in samples {
            let mut power = 1.0;
            for _ in 0..columns {
                rows.push(power);
                power *= sample.x;
            }
        }
        Self { rows, y: samples.iter().map(|sample| sample.y).collect(), columns }
    }

    /// Rows of a surface's 15 term values.
    fn of_surface(samples: &[SurfaceSample]) -> Self {
        let terms = |sample: &SurfaceSample| {
            let place = sample.place();
            (0..SURFACE_TERMS).map(move |j| place.term(j))
        };
        let rows = samples.iter().flat_map(terms).collect();
        Self { rows, y: samples.iter().map(|sample| sample.y).collect(), columns: SURFACE_TERMS }
    }

    fn len(&self) -> usize {
        self.y.len()
    }

    /// The samples from one to another, and all others in their order.
    fn parted(&self, from: usize, to: usize) -> (Self, Self) {
        let (start, end, columns) = (from * self.columns, to * self.columns, self.columns);
        let own =
            Self { rows: self.rows[start..end].to_vec(), y: self.y[from..to].to_vec(), columns };
        let rows = [&self.rows[..start], &self.rows[end..]].concat();
        let y = [&self.y[..from], &self.y[to..]].concat();
        (own, Self { rows, y, columns })
    }
}

/// A workspace for so many samples and columns.
#[cfg(gsl)]
struct Work(*mut std::ffi::c_void);

#[cfg(gsl)]
impl Work {
    fn new(samples: usize, columns: usize) -> Self {
        // SAFETY: both are plain calls. What fails is told by its status, and does not end the program.
        unsafe {
            sys::gsl_set_error_handler_off();
            Self(sys::gsl_multifit_linear_alloc(samples, columns))
        }
    }
}

#[cfg(gsl)]
impl Drop for Work {
    fn drop(&mut self) {
        // SAFETY: it was made by its `alloc`, and is freed once.
        unsafe { sys::gsl_multifit_linear_free(self.0) };
    }
}

/// A fit of one degree.
#[cfg(gsl)]
pub struct Fit {
    pub coefficients: Vec<f64>,
    covariance: Vec<f64>,
}

/// `gsl_multifit_linear` of the first k columns.
#[cfg(gsl)]
fn fitted(table: &mut Table, k: usize, work: &Work) -> Option<Fit> {
    let mut fit = Fit { coefficients: vec![0.0; k], covariance: vec![0.0; k * k] };
    let columns = table.columns;
    let (x, y) = (matrix(&mut table.rows, k, columns), vector(&mut table.y));
    let mut c = vector(&mut fit.coefficients);
    let mut cov = matrix(&mut fit.covariance, k, k);
    let mut chisq = 0.0;
    // SAFETY: every view has the length of the places it stands for, which live past the call; the workspace is for at least as many
    // rows and columns.
    let status = unsafe { sys::gsl_multifit_linear(&x, &y, &mut c, &mut cov, &mut chisq, work.0) };
    (status == 0).then_some(fit)
}

/// AIC of the Huber losses of a fit on a table's samples, as a report scores a degree; the median deviation is GSL's.
#[cfg(gsl)]
fn score(fit: &mut Fit, table: &mut Table) -> f64 {
    let (n, k) = (table.len(), fit.coefficients.len());
    let (mut residuals, mut work, columns) = (vec![0.0; n], vec![0.0; n], table.columns);
    let (x, y) = (matrix(&mut table.rows, k, columns), vector(&mut table.y));
    let (c, mut r) = (vector(&mut fit.coefficients), vector(&mut residuals));
    // SAFETY: the views have n rows of k, n, k and n places.
    unsafe { sys::gsl_multifit_linear_residuals(&x, &y, &c, &mut r) };
    let sizes: Vec<f64> = residuals.iter().map(|residual| residual.abs()).collect();
    // SAFETY: both have n places.
    let deviation = unsafe { sys::gsl_stats_mad0(sizes.as_ptr(), 1, n, work.as_mut_ptr()) };
    let loss: f64 = residuals.iter().map(|residual| huber_loss(*residual, deviation)).sum();
    n as f64 * (loss / n as f64).ln() + 2.0 * k as f64
}

/// One degree.
#[cfg(gsl)]
pub fn fit(samples: &[Sample], degree: usize) -> Option<Fit> {
    let mut table = Table::new(samples, degree + 1);
    let work = Work::new(table.len(), degree + 1);
    fitted(&mut table, degree + 1, &work)
}

/// Each degree up to the bound fitted and scored; then the best one's value and its error at every sample, which is what a band is drawn from.
#[cfg(gsl)]
pub fn report(samples: &[Sample], bound: usize) -> Option<Vec<(f64, f64)>> {
    reported(Table::new(samples, bound + 1), 1..=bound + 1)
}

/// The same of a surface, over the counts of its total degrees 0 to 4.
#[cfg(gsl)]
pub fn surface_report(samples: &[SurfaceSample]) -> Option<Vec<(f64, f64)>> {
    reported(Table::of_surface(samples), (0..=GREATEST_DEGREE).map(terms_of))
}

#[cfg(gsl)]
fn reported(mut table: Table, counts: impl Iterator<Item = usize>) -> Option<Vec<(f64, f64)>> {
    let columns = table.columns;
    let work = Work::new(table.len(), columns);
    let mut best: Option<(f64, Fit)> = None;
    for k in counts {
        let mut fit = fitted(&mut table, k, &work)?;
        let score = score(&mut fit, &mut table);
        if best.as_ref().map_or(true, |(least, _)| score < *least) {
            best = Some((score, fit));
        }
    }
    let (_, mut best) = best?;
    let k = best.coefficients.len();
    let c = vector(&mut best.coefficients);
    let cov = matrix(&mut best.covariance, k, k);
    let at = |row: &mut [f64]| {
        let x = vector(&mut row[..k]);
        let (mut y, mut error) = (0.0, 0.0);
        // SAFETY: the three views have k places, k places, and k rows of k.
        unsafe { sys::gsl_multifit_linear_est(&x, &c, &cov, &mut y, &mut error) };
        (y, error)
    };
    Some(table.rows.chunks_mut(columns).map(at).collect())
}

/// Each fold left out in turn: each degree fitted to the others and scored on the fold; then the degree with the least mean score fitted to all.
#[cfg(gsl)]
pub fn validate(samples: &[Sample], folds: usize, bound: usize) -> Option<Vec<f64>> {
    let (n, part) = (samples.len(), samples.len() / folds);
    let mut table = Table::new(samples, bound + 1);
    let work = Work::new(n, bound + 1);
    let mut sums = vec![0.0; bound + 1];
    for fold in 0..folds {
        let to = if fold + 1 == folds { n } else { (fold + 1) * part };
        let (mut own, mut others) = table.parted(fold * part, to);
        for k in 1..=bound + 1 {
            let mut fit = fitted(&mut others, k, &work)?;
            sums[k - 1] += score(&mut fit, &mut own);
        }
    }
    let best = (0..=bound).min_by(|&a, &b| sums[a].total_cmp(&sums[b]))?;
    Some(fitted(&mut table, best + 1, &work)?.coefficients)
}

#[cfg(not(gsl))]
pub fn fit(_: &[Sample], _: usize) -> Option<Vec<f64>> {
    None
}

#[cfg(not(gsl))]
pub fn report(_: &[Sample], _: usize) -> Option<Vec<(f64, f64)>> {
    None
}

#[cfg(not(gsl))]
pub fn surface_report(_: &[SurfaceSample]) -> Option<Vec<(f64, f64)>> {
    None
}

#[cfg(not(gsl))]
pub fn validate(_: &[Sample], _: usize, _: usize) -> Option<Vec<f64>> {
    None
}

#[cfg(all(test, gsl))]
mod tests {
    use super::*;

    /// A cubic's coefficients, value and errors come back, so that what is measured is the fit.
    #[test]
    fn gsl_finds_a_cubic() {
        let cubic = |x: f64| 350.0 + 120.0 * x - 40.0 * x * x + 9.0 * x * x * x;
        let samples: Vec<Sample> = (0..50)
            .map(|i| -1.0 + f64::from(i) / 25.0)
            .map(|x| Sample::unweighted(x, cubic(x)))
            .collect();
        let found = fit(&samples, 3).unwrap().coefficients;
        for (have, want) in found.iter().zip([350.0, 120.0, -40.0, 9.0]) {
            assert!((have - want).abs() < 1e-9, "{found:?}");
        }
        let validated = validate(&samples, 5, 3).unwrap();
        assert!((validated[0] - 350.0).abs() < 1e-9, "{validated:?}");
        for ((value, error), sample) in report(&samples, 5).unwrap().iter().zip(&samples) {
            assert!((value - sample.y).abs() < 1e-9 && *error < 1e-9);
        }
    }
}
