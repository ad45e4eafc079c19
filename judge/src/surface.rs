//! Document 02, E9: a surface over two coordinates, depth and elevation say. Fit, report and band of it,
//! on lent columns x, z and y with a count; no book is kept, and no sums are lent.

use crate::book::{
    answer_of, clear_scratch, write_report, write_terms, ReportAnswer, ReportMemory,
};
use crate::fit::{self, Band, Settings};
use crate::numbers::power;
use crate::refusals::{self, Lengths};
use crate::statistics::{Confidence, Tolerance};
use crate::sums::{G, PLACES, TERMS};
use crate::terms::{Observed, Place};

/// a + b is at most 4.
pub const GREATEST_DEGREE: usize = 4;

/// The terms of total degree 4, and the places of coefficients, errors and pruned marks.
pub const SURFACE_TERMS: usize = 15;

/// Two coordinates.
#[derive(Debug, Clone, Copy, PartialEq)]
pub struct Site {
    pub x: f64,
    pub z: f64,
}

/// A sample with two coordinates, unweighted.
#[derive(Debug, Clone, Copy, PartialEq)]
pub struct SurfaceSample {
    pub x: f64,
    pub z: f64,
    pub y: f64,
}

/// The a and b of each term xᵃ × zᵇ with a + b at most 4, ordered by a + b and then by falling a.
pub fn exponents() -> Vec<(usize, usize)> {
    let mut exponents = Vec::new();
    for total in 0..=GREATEST_DEGREE {
        for a in (0..=total).rev() {
            exponents.push((a, total - a));
        }
    }
    exponents
}

/// How many terms have a + b at most the total degree: 1, 3, 6, 10 and 15.
pub fn terms_of(degree: usize) -> usize {
    (0..=degree).map(|total| total + 1).sum()
}

/// A term is the product of its two powers.
impl Place for Site {
    fn coefficient_count(degree: usize) -> usize {
        terms_of(degree)
    }

    fn term(self, j: usize) -> f64 {
        let (a, b) = EXPONENTS[j];
        power(self.x, a) * power(self.z, b)
    }
}

/// `exponents` written out, as it is asked for often.
#[rustfmt::skip]
const EXPONENTS: [(usize, usize); SURFACE_TERMS] = [
    (0, 0),
    (1, 0), (0, 1),
    (2, 0), (1, 1), (0, 2),
    (3, 0), (2, 1), (1, 2), (0, 3),
    (4, 0), (3, 1), (2, 2), (1, 3), (0, 4),
];

impl Observed for SurfaceSample {
    type Place = Site;

    fn place(&self) -> Site {
        Site { x: self.x, z: self.z }
    }

    fn y(&self) -> f64 {
        self.y
    }
}

/// The sums, folded from the columns in index order from +0, without weights: of term i × term j at A's
/// places, of term i × y at g's. The sixteenth row and column of the curve's places stay +0.
pub fn folded(samples: &[SurfaceSample]) -> Vec<f64> {
    let mut sums = vec![0.0; PLACES];
    for sample in samples {
        let terms: Vec<f64> = (0..SURFACE_TERMS).map(|j| sample.place().term(j)).collect();
        for i in 0..SURFACE_TERMS {
            for j in 0..SURFACE_TERMS {
                sums[TERMS * i + j] += terms[i] * terms[j];
            }
            sums[G + i] += terms[i] * sample.y;
        }
    }
    sums
}

/// The three columns, which are read only.
#[derive(Clone, Copy)]
pub struct Columns<'a> {
    pub x: &'a [f64],
    pub z: &'a [f64],
    pub y: &'a [f64],
}

impl Columns<'_> {
    pub(crate) fn lengths(&self) -> Lengths {
        Lengths { x: self.x.len(), z: self.z.len(), y: self.y.len(), ..Lengths::default() }
    }

    /// The samples below the count; none where the count is above a column's length, which is
    /// refused by 1 before any sample is looked at.
    pub fn samples(&self, count: usize) -> Vec<SurfaceSample> {
        if count > self.x.len().min(self.z.len()).min(self.y.len()) {
            return Vec::new();
        }
        let sample = |i| SurfaceSample { x: self.x[i], z: self.z[i], y: self.y[i] };
        (0..count).map(sample).collect()
    }
}

/// The single fit. Answers the total degree, writes 15 coefficients.
pub fn fit(
    count: usize,
    columns: Columns,
    degree: usize,
    scratch: &mut [f64],
    coefficients: &mut [f64],
) -> Result<usize, u8> {
    let samples = columns.samples(count);
    let lengths =
        Lengths { scratch: scratch.len(), coefficients: coefficients.len(), ..columns.lengths() };
    refusals::judged(&refusals::surface_fit(&lengths, count, &samples, degree))?;
    clear_scratch(scratch, count);
    let values = fit::fit(&samples, &folded(&samples), degree)?;
    write_terms(coefficients, &values, SURFACE_TERMS);
    Ok(degree)
}

/// The report. Answers total degree, number of solved ones, outliers and pruned terms.
pub fn report(
    count: usize,
    columns: Columns,
    settings: Settings,
    scratch: &mut [f64],
    out: &mut ReportMemory,
) -> Result<ReportAnswer, u8> {
    let samples = columns.samples(count);
    let lengths = out.lengths(scratch, columns.lengths());
    refusals::judged(&refusals::surface_report(&lengths, count, &samples, settings))?;
    clear_scratch(scratch, count);
    let report = fit::report(&samples, &folded(&samples), settings)?;
    write_report(out, &report, SURFACE_TERMS);
    Ok(answer_of(&report))
}

/// The band at one site and total degree.
pub fn band(
    count: usize,
    columns: Columns,
    (site, degree): (Site, usize),
    confidence: Confidence,
    tolerance: Tolerance,
    scratch: &mut [f64],
) -> Result<Band, u8> {
    let samples = columns.samples(count);
    let lengths = Lengths { scratch: scratch.len(), ..columns.lengths() };
    refusals::judged(&refusals::surface_band(
        &lengths,
        count,
        &samples,
        (site, degree),
        confidence,
        tolerance,
    ))?;
    clear_scratch(scratch, count);
    fit::band(&samples, &folded(&samples), site, degree, confidence, tolerance)
}

#[cfg(test)]
mod tests {
    use super::*;
    use crate::fit::{scores, solved, tried, Criterion};
    use crate::terms::fitted;

    const MINUS_ZERO: f64 = -0.0;

    fn samples_of(rows: &[(f64, f64, f64)]) -> Vec<SurfaceSample> {
        rows.iter().map(|&(x, z, y)| SurfaceSample { x, z, y }).collect()
    }

    /// On a grid of m by m whole numbers, by the given y.
    fn grid(m: usize, y: fn(f64, f64) -> f64) -> Vec<SurfaceSample> {
        let of = |i: usize| ((i / m) as f64, (i % m) as f64);
        (0..m * m).map(of).map(|(x, z)| SurfaceSample { x, z, y: y(x, z) }).collect()
    }

    #[test]
    fn exponents_in_order() {
        assert_eq!(exponents(), EXPONENTS);
        assert_eq!([0, 1, 2, 3, 4].map(terms_of), [1, 3, 6, 10, 15]);
        // By 2 and 10 each term shows its exponents: 2ᵃ × 10ᵇ.
        let site = Site { x: 2.0, z: 10.0 };
        let terms: Vec<f64> = (0..SURFACE_TERMS).map(|j| site.term(j)).collect();
        let expected = [
            1.0, 2.0, 10.0, 4.0, 20.0, 100.0, 8.0, 40.0, 200.0, 1000.0, 16.0, 80.0, 400.0, 2000.0,
            10000.0,
        ];
        assert_eq!(terms, expected);
    }

    /// One product of two powers, also where one of them is 1: not x × x × z × z from the left, and a
    /// NaN where an infinite power meets a zero.
    #[test]
    fn a_term_is_one_product() {
        let (x, z) = (1.1, 1.7);
        let term = Site { x, z }.term(12);
        assert_eq!(term, (x * x) * (z * z));
        assert_ne!(term, ((x * x) * z) * z);
        assert!(Site { x: 1e200, z: 0.0 }.term(7).is_nan());
        assert_eq!(Site { x: 1e200, z: 0.0 }.term(6), f64::INFINITY);
        assert_eq!(Site { x: MINUS_ZERO, z: 5.0 }.term(1).to_bits(), 1 << 63);
    }

    /// Sums of products of terms and of terms with y, in index order.
    #[test]
    fn sums_by_hand() {
        let sums = folded(&samples_of(&[(2.0, 3.0, 5.0), (1.0, -1.0, 7.0)]));
        // 1, x, z, x², xz, z² are 1, 2, 3, 4, 6, 9 and 1, 1, −1, 1, −1, 1.
        assert_eq!(sums[..6], [2.0, 3.0, 2.0, 5.0, 5.0, 10.0]);
        assert_eq!(sums[TERMS..TERMS + 6], [3.0, 5.0, 5.0, 9.0, 11.0, 19.0]);
        assert_eq!(sums[2 * TERMS..2 * TERMS + 6], [2.0, 5.0, 10.0, 11.0, 19.0, 26.0]);
        assert_eq!(sums[G..G + 6], [12.0, 17.0, 8.0, 27.0, 23.0, 52.0]);
        assert_eq!((sums[TERMS - 1], sums[PLACES - 1]), (0.0, 0.0));
    }

    /// A surface of each total degree is found again on a grid; of x alone as well.
    #[test]
    fn surfaces_are_found_again() {
        let close = |values: &[f64], expected: &[f64]| {
            let near = |(a, b): (&f64, &f64)| (a - b).abs() < 1e-6;
            assert_eq!(values.len(), expected.len());
            assert!(values.iter().zip(expected).all(near), "{values:?} {expected:?}");
        };
        let samples = grid(3, |x, z| 2.0 + 3.0 * x - z);
        close(&solved(&samples, &folded(&samples), 1).unwrap(), &[2.0, 3.0, -1.0]);
        let samples = grid(4, |x, z| 1.0 - x * x + 4.0 * x * z + 0.5 * z * z);
        close(&solved(&samples, &folded(&samples), 2).unwrap(), &[1.0, 0.0, 0.0, -1.0, 4.0, 0.5]);
        let samples =
            grid(5, |x, z| x * x * x - 2.0 * x * x * z + 3.0 * x * z * z - 4.0 * z * z * z);
        let found = solved(&samples, &folded(&samples), 3).unwrap();
        close(&found, &[0.0, 0.0, 0.0, 0.0, 0.0, 0.0, 1.0, -2.0, 3.0, -4.0]);
        let samples = grid(5, |x, z| x.powi(4) - 2.0 * x * x * z * z + z.powi(4));
        let found = solved(&samples, &folded(&samples), 4).unwrap();
        close(&found[10..], &[1.0, 0.0, -2.0, 0.0, 1.0]);
        assert!((fitted(&found, Site { x: 2.0, z: 3.0 }) - 25.0).abs() < 1e-6);
    }

    /// z the same for all samples: every total degree but 0 is unsolved, at 0 too.
    #[test]
    fn one_z() {
        for z in [2.0, 0.0, MINUS_ZERO] {
            let rows: Vec<_> = (0..20).map(|i| (i as f64, z, (i % 3) as f64)).collect();
            let samples = samples_of(&rows);
            let scores = scores(&samples, &folded(&samples), 4, Criterion::Aic);
            let solved: Vec<bool> = scores.iter().map(Option::is_some).collect();
            assert_eq!(solved, [true, false, false, false, false]);
        }
    }

    /// A total degree with more terms than samples is not tried.
    #[test]
    fn degrees_tried() {
        let tried = |n| tried::<SurfaceSample>(4, n).len();
        assert_eq!([1, 2, 3, 5, 6, 9, 10, 14, 15, 16].map(tried), [1, 1, 2, 2, 3, 3, 4, 4, 5, 5]);
        assert_eq!(super::fit::tried::<SurfaceSample>(1, 100), [0, 1]);
        assert_eq!(super::fit::tried::<crate::Sample>(3, 4), [0, 1, 2, 3]);
    }

    /// k is the number of terms: at nine samples a plane has k 3 and its correction.
    #[test]
    fn k_in_the_score() {
        let samples = grid(3, |x, z| (7.0 * x + 3.0 * z * z) % 5.0);
        let sums = folded(&samples);
        let scores = scores(&samples, &sums, 4, Criterion::Aic);
        for (degree, k) in [(0, 1), (1, 3), (2, 6)] {
            let residuals = fit::residuals(&samples, &solved(&samples, &sums, degree).unwrap());
            assert_eq!(scores[degree], Some(fit::score(Criterion::Aic, &residuals, k)));
            assert_ne!(scores[degree], Some(fit::score(Criterion::Aic, &residuals, k + 1)));
        }
        assert_eq!(scores.len(), 3);
    }
}
