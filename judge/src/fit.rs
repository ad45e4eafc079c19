//! Document 01, "Choice", "Covariance, bands, report" and "Validation, single fit, band": what a
//! fit is, over samples and sums. Of a sample it sees the values of its terms and y, so that curves
//! and surfaces (document 02, E9) have one definition.

use std::ops::Range;

use crate::coefficient_count;
use crate::numbers::{abs, is_finite, ln, maximum, square_root, EPSILON};
use crate::solve::{inverse, pivots_compared, solve, Matrix};
use crate::statistics::{
    huber_loss, max_degree, median_absolute_deviation, residual_variance, stddev_and_mean, t_score,
    z_score, Confidence, DegreeBound, Tolerance,
};
use crate::sums::folded_afresh;
use crate::terms::{count_of, fitted, Observed, Place};
use crate::Sample;

/// The score by which a degree is chosen.
#[derive(Debug, Clone, Copy, PartialEq)]
pub enum Criterion {
    Aic,
    Bic,
}

/// Which terms face the test of pruning: positive ones, as the Rust has it, or all by their size
/// (document 02, E3).
#[derive(Debug, Clone, Copy, PartialEq)]
pub enum PruningRule {
    Positive,
    Size,
}

/// A report's settings.
#[derive(Debug, Clone, Copy, PartialEq)]
pub struct Settings {
    pub bound: DegreeBound,
    pub criterion: Criterion,
    pub confidence: Confidence,
    pub tolerance: Tolerance,
    pub pruning: PruningRule,
}

/// Value, lower and upper.
#[derive(Debug, Clone, Copy, PartialEq)]
pub struct Band {
    pub value: f64,
    pub lower: f64,
    pub upper: f64,
}

/// What a report answers and writes: coefficients, errors and pruned marks for each term of the
/// chosen degree; band and outlier mark for each sample.
#[derive(Debug, Clone, PartialEq)]
pub struct Report {
    pub degree: usize,
    pub solved: usize,
    pub coefficients: Vec<f64>,
    pub errors: Vec<f64>,
    pub pruned: Vec<bool>,
    pub bands: Vec<Band>,
    pub outliers: Vec<bool>,
}

/// y − fitted value, for each sample.
pub fn residuals<S: Observed>(samples: &[S], coefficients: &[f64]) -> Vec<f64> {
    samples.iter().map(|sample| sample.y() - fitted(coefficients, sample.place())).collect()
}

/// The coefficients of a solved degree: no pivot fails and every y − fitted value is finite.
pub fn solved<S: Observed>(samples: &[S], sums: &[f64], degree: usize) -> Option<Vec<f64>> {
    let coefficients = solve(sums, count_of::<S>(degree))?;
    let all_finite = residuals(samples, &coefficients).into_iter().all(is_finite);
    all_finite.then_some(coefficients)
}

/// The Huber loss of each residual.
pub fn losses(residuals: &[f64]) -> Vec<f64> {
    let deviation = median_absolute_deviation(residuals);
    residuals.iter().map(|&r| huber_loss(r, deviation)).collect()
}

/// The losses in index order from +0.
pub fn total_loss(losses: &[f64]) -> f64 {
    let mut total = 0.0;
    for loss in losses {
        total += loss;
    }
    total
}

/// AIC or BIC, with k and the number n of samples scored.
pub fn score(criterion: Criterion, residuals: &[f64], k: usize) -> f64 {
    if residuals.is_empty() {
        return f64::NAN;
    }
    score_of(criterion, total_loss(&losses(residuals)), residuals.len(), k)
}

/// The same of the losses' total.
pub fn score_of(criterion: Criterion, total: f64, n: usize, k: usize) -> f64 {
    let (n, k) = (n as f64, k as f64);
    let likelihood = ln(maximum(total / n, EPSILON));
    match criterion {
        Criterion::Aic => {
            let aic = n * likelihood + 2.0 * k;
            if n / k < 4.0 && n > k + 1.0 {
                aic + 2.0 * k * (k + 1.0) / (n - k - 1.0)
            } else {
                aic
            }
        }
        Criterion::Bic => n * likelihood + k * ln(n),
    }
}

/// The least score starts at +infinity and yields to each smaller one.
pub fn least(scores: &[Option<f64>]) -> f64 {
    let mut least = f64::INFINITY;
    for &score in scores.iter().flatten() {
        if score < least {
            least = score;
        }
    }
    least
}

/// The lowest degree that has a score, with score − least at most 2. A +infinity least chooses none.
pub fn chosen(scores: &[Option<f64>]) -> Option<usize> {
    let least = least(scores);
    (0..scores.len()).find(|&degree| scores[degree].map_or(false, |score| score - least <= 2.0))
}

/// The degrees 0 to the bound but those with more terms than samples, which are not tried (document 02,
/// E9). Of a curve there are none: its bound is below the number of samples.
pub fn tried<S: Observed>(bound: usize, n: usize) -> Vec<usize> {
    (0..=bound).filter(|&degree| count_of::<S>(degree) <= n).collect()
}

/// The scores of the degrees 0 to the bound that are tried; none where the degree is unsolved.
pub fn scores<S: Observed>(
    samples: &[S],
    sums: &[f64],
    bound: usize,
    criterion: Criterion,
) -> Vec<Option<f64>> {
    let score_of = |degree| {
        let coefficients = solved(samples, sums, degree)?;
        let residuals = residuals(samples, &coefficients);
        Some(score(criterion, &residuals, count_of::<S>(degree)))
    };
    tried::<S>(bound, samples.len()).into_iter().map(score_of).collect()
}

/// The pivot tests of a choice (document 02, E8): one for each pivot compared, a failing one included, over
/// every degree that is tried. Solving the chosen degree again and inverting count nothing.
pub fn pivot_tests<S: Observed>(samples: &[S], sums: &[f64], bound: usize) -> usize {
    let compared = |degree| pivots_compared(sums, count_of::<S>(degree));
    tried::<S>(bound, samples.len()).into_iter().map(compared).sum()
}

/// The inverse × residual variance, place by place; none where an inverse pivot fails.
pub fn covariance<S: Observed>(
    samples: &[S],
    sums: &[f64],
    coefficients: &[f64],
) -> Option<Matrix> {
    let k = coefficients.len();
    let mut covariance = inverse(sums, k)?;
    let variance = residual_variance(&residuals(samples, coefficients), k);
    for row in &mut covariance {
        for place in row {
            *place *= variance;
        }
    }
    Some(covariance)
}

/// First each Σᵢ φᵢ × cov[i][j], then Σⱼ of that × φⱼ.
pub fn prediction_variance<P: Place>(covariance: &Matrix, place: P) -> f64 {
    let k = covariance.len();
    let mut variance = 0.0;
    for j in 0..k {
        let mut sum = 0.0;
        for i in 0..k {
            sum += place.term(i) * covariance[i][j];
        }
        variance += sum * place.term(j);
    }
    variance
}

/// The standard deviation of the y's, which a variance tolerance scales.
fn deviation_of_y<S: Observed>(samples: &[S]) -> f64 {
    let ys: Vec<f64> = samples.iter().map(Observed::y).collect();
    stddev_and_mean(&ys).0
}

/// `confidence_band` at a place, of a curve at x.
pub fn confidence_band<P: Place>(
    coefficients: &[f64],
    covariance: &Matrix,
    deviation_of_y: f64,
    place: P,
    confidence: Confidence,
    tolerance: Tolerance,
) -> Band {
    let mut variance = prediction_variance(covariance, place);
    let value = fitted(coefficients, place);
    let width = match tolerance {
        Tolerance::None => 0.0,
        Tolerance::Absolute(width) => width,
        Tolerance::Variance(part) => {
            variance += (deviation_of_y * part) * (deviation_of_y * part);
            0.0
        }
        Tolerance::Measurement(part) => abs(value) * part,
    };
    let error = square_root(variance);
    let z = z_score(confidence);
    let lower = (value - z * error) - width;
    let upper = (value + z * error) + width;
    Band { value, lower, upper }
}

/// An error is the root of a diagonal place.
pub fn errors(covariance: &Matrix) -> Vec<f64> {
    (0..covariance.len()).map(|j| square_root(covariance[j][j])).collect()
}

/// `prune_insignificant`: |c| / error below the t score at n − k, and c above 2⁻⁵². Document 02, E3:
/// by size, "the size of c is above 2⁻⁵² and t, the size of c over its error, is below the critical
/// score".
pub fn pruned(
    rule: PruningRule,
    coefficients: &[f64],
    errors: &[f64],
    n: usize,
    confidence: Confidence,
) -> Vec<bool> {
    let df = n.saturating_sub(coefficients.len());
    let critical = t_score(confidence, df);
    let is_pruned = |(&c, &error): (&f64, &f64)| {
        let t = abs(c) / error;
        match rule {
            PruningRule::Positive => t < critical && c > EPSILON,
            PruningRule::Size => abs(c) > EPSILON && t < critical,
        }
    };
    coefficients.iter().zip(errors).map(is_pruned).collect()
}

/// `outliers`: y outside its own band.
pub fn is_outlier(y: f64, band: Band) -> bool {
    y < band.lower || y > band.upper
}

/// The single fit at a degree; 10 where it is unsolved.
pub fn fit<S: Observed>(samples: &[S], sums: &[f64], degree: usize) -> Result<Vec<f64>, u8> {
    solved(samples, sums, degree).ok_or(10)
}

/// What a report chooses.
struct Choice {
    degree: usize,
    solved: usize,
    coefficients: Vec<f64>,
    covariance: Matrix,
}

/// A report's choice; 11 where no degree is chosen, 12 where an inverse pivot fails.
fn choice<S: Observed>(samples: &[S], sums: &[f64], settings: Settings) -> Result<Choice, u8> {
    let bound = max_degree(settings.bound, samples.len());
    let scores = scores(samples, sums, bound, settings.criterion);
    let degree = chosen(&scores).ok_or(11)?;
    let coefficients = solved(samples, sums, degree).ok_or(11)?;
    let covariance = covariance(samples, sums, &coefficients).ok_or(12)?;
    let solved = scores.iter().flatten().count();
    Ok(Choice { degree, solved, coefficients, covariance })
}

/// A report, or the number by which its choice is refused.
pub fn report<S: Observed>(samples: &[S], sums: &[f64], settings: Settings) -> Result<Report, u8> {
    let Choice { degree, solved, coefficients, covariance } = choice(samples, sums, settings)?;
    let errors = errors(&covariance);
    let (confidence, tolerance) = (settings.confidence, settings.tolerance);
    let pruned = pruned(settings.pruning, &coefficients, &errors, samples.len(), confidence);
    let deviation = deviation_of_y(samples);
    let band_of = |sample: &S| {
        let place = sample.place();
        confidence_band(&coefficients, &covariance, deviation, place, confidence, tolerance)
    };
    let bands: Vec<Band> = samples.iter().map(band_of).collect();
    let outliers = samples.iter().zip(&bands).map(|(s, &band)| is_outlier(s.y(), band)).collect();
    Ok(Report { degree, solved, coefficients, errors, pruned, bands, outliers })
}

/// The losses behind a report's choice (document 02, E12): of each sample at the chosen degree, their
/// total, and the score made of it.
#[derive(Debug, Clone, PartialEq)]
pub struct Losses {
    pub degree: usize,
    pub losses: Vec<f64>,
    pub total: f64,
    pub score: f64,
}

/// The losses behind a report's choice, or the number by which the report is refused.
pub fn chosen_losses(samples: &[Sample], sums: &[f64], settings: Settings) -> Result<Losses, u8> {
    let Choice { degree, coefficients, .. } = choice(samples, sums, settings)?;
    let losses = losses(&residuals(samples, &coefficients));
    let total = total_loss(&losses);
    let score = score_of(settings.criterion, total, samples.len(), coefficient_count(degree));
    Ok(Losses { degree, losses, total, score })
}

/// What is known of the degrees that a report chooses from: of each from 0 to the bound its score, none
/// where it is unsolved; the least of these, the chosen degree, and the pivots compared for all of them.
#[derive(Debug, Clone, PartialEq)]
pub struct Scores {
    pub degree: usize,
    pub bound: usize,
    pub scores: Vec<Option<f64>>,
    pub least: f64,
    pub tests: usize,
}

/// The scores behind a report's choice, or the number by which the report is refused.
pub fn scores_by_degree(
    samples: &[Sample],
    sums: &[f64],
    settings: Settings,
) -> Result<Scores, u8> {
    let Choice { degree, .. } = choice(samples, sums, settings)?;
    let bound = max_degree(settings.bound, samples.len());
    let scores = scores(samples, sums, bound, settings.criterion);
    let least = least(&scores);
    let tests = pivot_tests(samples, sums, bound);
    Ok(Scores { degree, bound, scores, least, tests })
}

/// The band at one place and degree; 10 where the degree is unsolved, 12 where an inverse pivot fails.
pub fn band<S: Observed>(
    samples: &[S],
    sums: &[f64],
    place: S::Place,
    degree: usize,
    confidence: Confidence,
    tolerance: Tolerance,
) -> Result<Band, u8> {
    let coefficients = fit(samples, sums, degree)?;
    let covariance = covariance(samples, sums, &coefficients).ok_or(12)?;
    let deviation = deviation_of_y(samples);
    Ok(confidence_band(&coefficients, &covariance, deviation, place, confidence, tolerance))
}

/// Folds of n / folds samples, the last takes the rest.
pub fn fold_ranges(n: usize, folds: usize) -> Vec<Range<usize>> {
    let size = n / folds;
    let end = |i| if i == folds - 1 { n } else { (i + 1) * size };
    (0..folds).map(|i| i * size..end(i)).collect()
}

/// The score of one degree on one fold: solved from sums over the other samples, scored on its own;
/// none if a pivot fails or y − fitted is not finite for any sample of the book.
fn fold_score(
    samples: &[Sample],
    other_sums: &[f64],
    own: &[Sample],
    degree: usize,
    criterion: Criterion,
) -> Option<f64> {
    let coefficients = solved(samples, other_sums, degree)?;
    let residuals = residuals(own, &coefficients);
    Some(score(criterion, &residuals, coefficient_count(degree)))
}

/// The sum of the solved folds' scores in fold order from +0, divided by their number; none without
/// a solved fold.
fn mean_score(fold_scores: &[Option<f64>]) -> Option<f64> {
    let mut sum = 0.0;
    let mut number = 0.0;
    for score in fold_scores.iter().flatten() {
        sum += score;
        number += 1.0;
    }
    (number > 0.0).then(|| sum / number)
}

/// The mean scores of the degrees 0 to the bound, over the given folds.
pub fn scores_over(
    folds: &[Range<usize>],
    samples: &[Sample],
    bound: usize,
    criterion: Criterion,
) -> Vec<Option<f64>> {
    let mut sums_of_others = Vec::new();
    for own in folds {
        let others = [&samples[..own.start], &samples[own.end..]].concat();
        sums_of_others.push(folded_afresh(&others));
    }
    let mean_of = |degree| {
        let score_of = |(own, sums): (&Range<usize>, &Vec<f64>)| {
            fold_score(samples, sums, &samples[own.clone()], degree, criterion)
        };
        let fold_scores: Vec<Option<f64>> =
            folds.iter().zip(&sums_of_others).map(score_of).collect();
        mean_score(&fold_scores)
    };
    (0..=bound).map(mean_of).collect()
}

/// Validation: the mean scores of the degrees 0 to the bound.
pub fn validation_scores(
    samples: &[Sample],
    folds: usize,
    bound: usize,
    criterion: Criterion,
) -> Vec<Option<f64>> {
    scores_over(&fold_ranges(samples.len(), folds), samples, bound, criterion)
}

/// Validation: the single fit at the chosen degree, from the sums as they are; 11 where none is
/// chosen, 10 where the chosen one is unsolved.
pub fn validate(
    samples: &[Sample],
    sums: &[f64],
    folds: usize,
    bound: DegreeBound,
    criterion: Criterion,
) -> Result<(usize, Vec<f64>), u8> {
    let bound = max_degree(bound, samples.len());
    let scores = validation_scores(samples, folds, bound, criterion);
    let degree = chosen(&scores).ok_or(11)?;
    Ok((degree, fit(samples, sums, degree)?))
}

#[cfg(test)]
mod tests {
    use super::*;

    fn samples_of(pairs: &[(f64, f64)]) -> Vec<Sample> {
        pairs.iter().map(|&(x, y)| Sample::unweighted(x, y)).collect()
    }

    const T11_SETTINGS: Settings = Settings {
        bound: DegreeBound::Custom(1),
        criterion: Criterion::Aic,
        confidence: Confidence::P95,
        tolerance: Tolerance::None,
        pruning: PruningRule::Positive,
    };

    #[test]
    fn t10_fit_of_three() {
        let samples = samples_of(&[(0.0, 1.0), (1.0, 3.0), (2.0, 5.0)]);
        assert_eq!(fit(&samples, &folded_afresh(&samples), 1), Ok(vec![1.0, 2.0]));
    }

    #[test]
    fn t11_degree_0_is_exactly_2_above() {
        let samples = samples_of(&[(0.0, 1.0), (1.0, 3.0), (2.0, 5.0)]);
        let sums = folded_afresh(&samples);
        let scores = scores(&samples, &sums, 1, Criterion::Aic);
        assert_eq!(scores[0].unwrap() - scores[1].unwrap(), 2.0);
        assert_eq!(least(&scores), scores[1].unwrap());
        let report = report(&samples, &sums, T11_SETTINGS).unwrap();
        assert_eq!((report.degree, report.solved), (0, 2));
    }

    #[test]
    fn t12_degree_1_unsolved() {
        let samples = samples_of(&[(2.0, 1.0), (2.0, 5.0)]);
        let sums = folded_afresh(&samples);
        assert_eq!(fit(&samples, &sums, 1), Err(10));
        let report = report(&samples, &sums, T11_SETTINGS).unwrap();
        assert_eq!((report.degree, report.solved), (0, 1));
    }

    #[test]
    fn ten_samples_in_three_folds() {
        assert_eq!(fold_ranges(10, 3), vec![0..3, 3..6, 6..10]);
        assert_eq!(fold_ranges(4, 4), vec![0..1, 1..2, 2..3, 3..4]);
    }

    /// Degree 0 over each half: the other half's weighted mean, and scores that see no weight.
    #[test]
    fn folds_are_weighted() {
        let y_and_weight = [(0.0, 1.0), (3.0, 2.0), (2.0, 1.0), (2.0, 4.0), (3.0, 4.0), (7.0, 1.0)];
        let samples = y_and_weight.map(|(y, weight)| Sample { x: 0.0, y, weight });
        let scores = validation_scores(&samples, 2, 0, Criterion::Aic);
        // By 8 / 4 and by 27 / 9.
        let second = score(Criterion::Aic, &[0.0, 1.0, 5.0], 1);
        let first = score(Criterion::Aic, &[-3.0, 0.0, -1.0], 1);
        assert_eq!(scores, [Some((first + second) / 2.0)]);
        let unweighted = samples.map(|sample| Sample { weight: 1.0, ..sample });
        assert_ne!(scores, validation_scores(&unweighted, 2, 0, Criterion::Aic));
    }

    #[test]
    fn choice_at_its_edges() {
        assert_eq!(chosen(&[Some(f64::INFINITY), Some(f64::INFINITY)]), None);
        assert_eq!(chosen(&[Some(f64::NEG_INFINITY)]), None);
        assert_eq!(chosen(&[None, None]), None);
        assert_eq!(chosen(&[None, Some(3.0), Some(1.0)]), Some(1));
        assert_eq!(chosen(&[Some(3.5), None, Some(1.0)]), Some(2));
        assert_eq!(chosen(&[Some(f64::NAN), Some(1.0)]), Some(1));
    }

    /// The two middle sizes add up to infinity; their median is finite, and every loss 0.
    #[test]
    fn middle_sizes_with_an_infinite_sum() {
        let residuals = [1.5e308, -1.5e308];
        assert_eq!(median_absolute_deviation(&residuals), 0.0);
        assert!(score(Criterion::Aic, &residuals, 1).is_finite());
    }

    #[test]
    fn negative_terms_stay() {
        let pruned = |c: &[f64], errors: &[f64], n| {
            pruned(PruningRule::Positive, c, errors, n, Confidence::P95)
        };
        assert_eq!(pruned(&[1.0, -1.0], &[10.0, 10.0], 3), vec![true, false]);
        // At df 0 a −0 error makes t −infinity, and a +0 error makes it +infinity.
        assert_eq!(pruned(&[1.0, 1.0], &[-0.0, 0.0], 2), vec![true, false]);
    }

    #[test]
    fn negative_terms_by_size() {
        let by_size =
            |c: &[f64], errors: &[f64], n| pruned(PruningRule::Size, c, errors, n, Confidence::P95);
        assert_eq!(by_size(&[1.0, -1.0], &[10.0, 10.0], 3), vec![true, true]);
        assert_eq!(
            by_size(&[-1.0, -1.0, -1.0], &[-0.0, 0.0, f64::NAN], 3),
            vec![true, false, false]
        );
        // t is at the critical score of 10 degrees of freedom, 2.228, and just below it.
        let below = f64::from_bits(2.228_f64.to_bits() - 1);
        assert_eq!(by_size(&[-2.228, -below], &[1.0, 1.0], 12), vec![false, true]);
        // 2⁻⁵² itself, of either sign, and what is just above.
        let above = f64::from_bits(EPSILON.to_bits() + 1);
        let terms = [EPSILON, -EPSILON, above, -above];
        assert_eq!(by_size(&terms, &[1.0; 4], 5), vec![false, false, true, true]);
    }
}
