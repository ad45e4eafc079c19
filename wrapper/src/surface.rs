//! Surfaces over two coordinates.

use crate::sys;
use crate::{judged, lend, Allowance, Band, Confidence, Refusal, Report, Settings, Tolerance};

/// The terms of total degree 4, the greatest.
const TERMS: usize = 15;

/// Samples with two coordinates x and z, depth and elevation say, and surfaces fitted to them.
///
/// A surface of total degree d has the terms xᵃ zᵇ with a + b at most d, ordered by a + b and then by
/// falling a: 1, x, z, x², xz, z², .. Total degrees 0 to 4 have 1, 3, 6, 10 and 15 terms. Samples
/// have no weights.
///
/// It is made of three columns, or of samples (x, z, y), and judges none of them: each call does.
/// Columns of different lengths, and more than 4,096 samples, are refused by [`Refusal::Memory`], a
/// number among them that is not finite by [`Refusal::NotFinite`].
///
/// Subtract the middle of a coordinate first where it lies far from 0 beside its spread: years 2000 to
/// 2020 left total degrees 3 and 4 unsolved, elevations of 2,400 to 3,300 m none
/// (docs/DIFFERENCES.md).
///
/// ```
/// use stakebook::{Refusal, Surface};
///
/// let sample = |(x, z): (f64, f64)| (x, z, 2.0 + 3.0 * x - z);
/// let corners = [(0.0, 0.0), (1.0, 0.0), (0.0, 1.0), (1.0, 1.0)];
/// let mut surface: Surface = corners.into_iter().map(sample).collect();
/// assert_eq!(surface.fit(1)?.coefficients(), [2.0, 3.0, -1.0]);
/// // A total degree with more terms than samples.
/// assert_eq!(surface.fit(2), Err(Refusal::DegreeTooHigh));
/// # Ok::<(), Refusal>(())
/// ```
#[derive(Debug, Clone)]
pub struct Surface {
    count: usize,
    xs: Vec<f64>,
    zs: Vec<f64>,
    ys: Vec<f64>,
    scratch: Vec<f64>,
    coefficients: [f64; TERMS],
    errors: [f64; TERMS],
    pruned: [u8; TERMS],
    lower: Vec<f64>,
    upper: Vec<f64>,
    outliers: Vec<u8>,
}

/// A surface of some total degree.
#[derive(Debug, Clone, Copy, PartialEq)]
pub struct SurfaceFit {
    pub degree: usize,
    terms: [f64; TERMS],
}

/// How many terms a surface of this total degree has, at most 4: 1, 3, 6, 10, 15.
fn terms_of(degree: usize) -> usize {
    (degree + 1) * (degree + 2) / 2
}

impl SurfaceFit {
    /// The coefficients of 1, x, z, x², xz, z², .., as many as the total degree has terms.
    pub fn coefficients(&self) -> &[f64] {
        &self.terms[..terms_of(self.degree)]
    }
}

impl Surface {
    /// Of three columns, as long as the longest: sample i is `xs[i]`, `zs[i]` and `ys[i]`.
    pub fn new(xs: Vec<f64>, zs: Vec<f64>, ys: Vec<f64>) -> Surface {
        let count = xs.len().max(zs.len()).max(ys.len());
        Surface {
            count,
            xs,
            zs,
            ys,
            scratch: vec![0.0; count],
            coefficients: [0.0; TERMS],
            errors: [0.0; TERMS],
            pruned: [0; TERMS],
            lower: vec![0.0; count],
            upper: vec![0.0; count],
            outliers: vec![0; count],
        }
    }

    /// How many samples there are.
    pub fn len(&self) -> usize {
        self.count
    }

    pub fn is_empty(&self) -> bool {
        self.count == 0
    }

    /// The columns.
    pub fn xs(&self) -> &[f64] {
        &self.xs
    }

    pub fn zs(&self) -> &[f64] {
        &self.zs
    }

    pub fn ys(&self) -> &[f64] {
        &self.ys
    }

    /// The surface of this total degree. Refused by [`Refusal::NoSamples`], [`Refusal::DegreeTooHigh`],
    /// above 4 or where it has more terms than there are samples, and [`Refusal::Unsolved`].
    pub fn fit(&mut self, degree: usize) -> Result<SurfaceFit, Refusal> {
        let answer = lend!(stakebook_surface_fit(
            self.count, degree;
            self.xs, self.zs, self.ys, self.scratch, self.coefficients
        ));
        Ok(SurfaceFit { degree: sys::degree(judged(answer)?), terms: self.coefficients })
    }

    /// The band at x and z around the surface of this total degree. Refused by [`Refusal::NotFinite`],
    /// [`Refusal::NoSamples`], [`Refusal::DegreeTooHigh`], [`Refusal::OutOfRange`], where x lies
    /// outside the x's or z outside the z's, [`Refusal::Unsolved`] and [`Refusal::NoCovariance`].
    pub fn band(
        &mut self,
        (x, z): (f64, f64),
        degree: usize,
        confidence: Confidence,
        tolerance: Tolerance,
    ) -> Result<Band, Refusal> {
        let (confidence, score) = confidence.numbers();
        let (tolerance, value) = tolerance.numbers();
        let mut numbers = [0.0; 3];
        let answer = lend!(stakebook_surface_band(
            self.count, x, z, degree, confidence, score, tolerance, value;
            self.xs, self.zs, self.ys, self.scratch, numbers
        ));
        judged(answer)?;
        let [value, lower, upper] = numbers;
        Ok(Band { value, lower, upper })
    }

    /// Chooses a total degree, fits it, and says how far the surface can be trusted, as
    /// [`Book::report`](crate::Book::report) does for a curve. Refused by [`Refusal::NotFinite`],
    /// [`Refusal::NoSamples`], [`Refusal::DegreeTooHigh`], [`Refusal::NoDegree`] and
    /// [`Refusal::NoCovariance`].
    ///
    /// The bound is the curve's, of the settings and the number of samples, and is refused above 4:
    /// `Relaxed` from 125 samples on, `Aggressive` from 48, `Conservative` from 3,125. Say
    /// `DegreeBound::Custom(4)`. Total degrees with more terms than samples are not tried.
    pub fn report(&mut self, settings: Settings) -> Result<Report<'_>, Refusal> {
        let (words, values) = settings.lists();
        let answer = lend!(stakebook_surface_report(
            self.count, words.as_ptr(), words.len(), values.as_ptr(), values.len();
            self.xs, self.zs, self.ys, self.scratch, self.coefficients, self.errors, self.pruned,
            self.lower, self.upper, self.outliers
        ));
        self.reported(answer)
    }

    /// The report of a group, which takes what it costs from the group's allowance, as
    /// [`Book::group_report`](crate::Book::group_report) does.
    pub fn group_report(
        &mut self,
        group: usize,
        allowance: &mut Allowance,
        settings: Settings,
    ) -> Result<Report<'_>, Refusal> {
        let (words, values) = settings.lists();
        let table = allowance.table();
        let answer = lend!(stakebook_group_surface_report(
            group, self.count, words.as_ptr(), words.len(), values.as_ptr(), values.len();
            self.xs, self.zs, self.ys, self.scratch, self.coefficients, self.errors, self.pruned,
            self.lower, self.upper, self.outliers, table
        ));
        self.reported(answer)
    }

    /// What a report answered and wrote.
    fn reported(&self, answer: u64) -> Result<Report<'_>, Refusal> {
        let answer = judged(answer)?;
        let (n, degree) = (self.count, sys::degree(answer));
        let k = terms_of(degree);
        Ok(Report {
            degree,
            solved: sys::solved(answer),
            coefficients: &self.coefficients[..k],
            errors: &self.errors[..k],
            pruned: &self.pruned[..k],
            lower: &self.lower[..n],
            upper: &self.upper[..n],
            outlying: &self.outliers[..n],
            counts: (sys::outliers(answer), sys::pruned(answer)),
        })
    }
}

/// Of samples x, z and y.
impl FromIterator<(f64, f64, f64)> for Surface {
    fn from_iter<T: IntoIterator<Item = (f64, f64, f64)>>(samples: T) -> Surface {
        let (mut xs, mut zs, mut ys) = (Vec::new(), Vec::new(), Vec::new());
        for (x, z, y) in samples {
            xs.push(x);
            zs.push(z);
            ys.push(y);
        }
        Surface::new(xs, zs, ys)
    }
}
