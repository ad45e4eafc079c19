//! polyfit itself. It folds its own sums, so it can be asked about calls on a ledger's sums that
//! pass refusals 1 to 9, and answers them or refuses by 10, 11 or 12.

use polyfit::error::Error;
use polyfit::score::{Aic, Bic, ModelScoreProvider};
use polyfit::statistics as theirs;
use polyfit::{basis::MonomialBasis, CurveFitCovariance, MonomialFit};

use judge::fit::{Band, Criterion, Losses, PruningRule, Report, Scores, Settings};
use judge::split::{Break, SideFit, Split};
use judge::statistics::{Confidence, DegreeBound, Tolerance};
use judge::Sample;

type Data = Vec<(f64, f64)>;
type Fit<'a> = MonomialFit<'a, f64>;
type Covariance<'a> = CurveFitCovariance<'a, 'a, MonomialBasis<f64>, f64>;

/// Makes a call with the samples' weights, which polyfit's pairs have no place for (patch 6).
fn weighted<R>(samples: &[Sample], call: impl FnOnce() -> R) -> R {
    polyfit::with_weights(samples.iter().map(|sample| sample.weight).collect(), call)
}

fn data_of(samples: &[Sample]) -> Data {
    samples.iter().map(|sample| (sample.x, sample.y)).collect()
}

pub fn confidence_of(confidence: Confidence) -> theirs::Confidence {
    match confidence {
        Confidence::P80 => theirs::Confidence::P80,
        Confidence::P90 => theirs::Confidence::P90,
        Confidence::P95 => theirs::Confidence::P95,
        Confidence::P98 => theirs::Confidence::P98,
        Confidence::P99 => theirs::Confidence::P99,
        Confidence::P999 => theirs::Confidence::P999,
        Confidence::Custom(z) => theirs::Confidence::Custom(z),
    }
}

pub fn bound_of(bound: DegreeBound) -> theirs::DegreeBound {
    match bound {
        DegreeBound::Conservative => theirs::DegreeBound::Conservative,
        DegreeBound::Relaxed => theirs::DegreeBound::Relaxed,
        DegreeBound::Aggressive => theirs::DegreeBound::Aggressive,
        DegreeBound::Custom(degree) => theirs::DegreeBound::Custom(degree),
    }
}

fn tolerance_of(tolerance: Tolerance) -> Option<theirs::Tolerance<f64>> {
    match tolerance {
        Tolerance::None => None,
        Tolerance::Absolute(v) => Some(theirs::Tolerance::Absolute(v)),
        Tolerance::Variance(v) => Some(theirs::Tolerance::Variance(v)),
        Tolerance::Measurement(v) => Some(theirs::Tolerance::Measurement(v)),
    }
}

/// polyfit's error as the book's number; what fails in algebra has the number given.
fn number_of(error: &Error, algebra: u8) -> u8 {
    match error {
        Error::NoData => 7,
        Error::DegreeTooHigh(_) => 8,
        Error::DataRange(..) => 9,
        Error::Algebra(_) | Error::DidNotConverge => algebra,
        Error::NoModel => 11,
        Error::CastFailed | Error::InvalidNumberOfParameters(_) => 0,
    }
}

fn fit_of(data: &Data, degree: usize) -> Result<Fit<'_>, u8> {
    Fit::new(data.as_slice(), degree).map_err(|e| number_of(&e, 10))
}

fn covariance_of<'a>(fit: &'a Fit<'a>) -> Result<Covariance<'a>, u8> {
    fit.covariance().map_err(|e| number_of(&e, 12))
}

/// `CurveFit::new`.
pub fn fit(samples: &[Sample], degree: usize) -> Result<Vec<f64>, u8> {
    let data = data_of(samples);
    let fit = weighted(samples, || fit_of(&data, degree))?;
    Ok(fit.coefficients().to_vec())
}

/// `CurveFit::new` and `model_score` at each degree up to the bound; none where it fails.
pub fn scores(samples: &[Sample], bound: DegreeBound, criterion: Criterion) -> Vec<Option<f64>> {
    let data = data_of(samples);
    let bound = bound_of(bound).max_degree(data.len());
    let score_of = |degree| {
        let fit = fit_of(&data, degree).ok()?;
        Some(match criterion {
            Criterion::Aic => fit.model_score(&Aic),
            Criterion::Bic => fit.model_score(&Bic),
        })
    };
    weighted(samples, || (0..=bound).map(score_of).collect())
}

/// `CurveFit::new_auto`, `covariance`, `solution_confidence`, `outliers`, `prune_insignificant`, by
/// size the one of the patch. The number of solved degrees is not in polyfit; it is counted by
/// `scores`.
pub fn report(samples: &[Sample], settings: Settings) -> Result<Report, u8> {
    weighted(samples, || match settings.criterion {
        Criterion::Aic => report_by(&Aic, samples, settings),
        Criterion::Bic => report_by(&Bic, samples, settings),
    })
}

fn report_by(
    method: &impl ModelScoreProvider<MonomialBasis<f64>, f64>,
    samples: &[Sample],
    settings: Settings,
) -> Result<Report, u8> {
    let data = data_of(samples);
    let confidence = confidence_of(settings.confidence);
    let tolerance = tolerance_of(settings.tolerance);
    let fit = Fit::new_auto(data.as_slice(), bound_of(settings.bound), method)
        .map_err(|e| number_of(&e, 0))?;
    let covariance = covariance_of(&fit)?;
    let bands = covariance.solution_confidence(confidence, tolerance).map_err(|_| 0)?;
    let outliers = covariance.outliers(confidence, tolerance).map_err(|_| 0)?;
    let pruned = match settings.pruning {
        PruningRule::Positive => fit.clone().prune_insignificant(confidence),
        PruningRule::Size => fit.clone().prune_insignificant_by(confidence, true),
    };
    let pruned = pruned.map_err(|_| 0)?;
    Ok(Report {
        degree: fit.degree(),
        solved: scores(samples, settings.bound, settings.criterion).iter().flatten().count(),
        coefficients: fit.coefficients().to_vec(),
        errors: covariance.coefficient_standard_errors(),
        pruned: marks(fit.coefficients().len(), pruned.iter().map(|(j, _)| *j)),
        bands: bands.iter().map(|(_, band)| band_of(band)).collect(),
        outliers: outlier_marks(&data, outliers.iter().map(|(x, y, _)| (*x, *y))),
    })
}

/// polyfit's own calls for a report and nothing else, for the benchmark: no weights, pairs that are there already, and no second scoring for the
/// number of solved degrees. By AIC and polyfit's rule of pruning.
pub fn bare_report(data: &[(f64, f64)], settings: Settings) -> Result<(Vec<f64>, usize), u8> {
    let confidence = confidence_of(settings.confidence);
    let tolerance = tolerance_of(settings.tolerance);
    let mut fit =
        Fit::new_auto(data, bound_of(settings.bound), &Aic).map_err(|e| number_of(&e, 0))?;
    let covariance = covariance_of(&fit)?;
    let bands = covariance.solution_confidence(confidence, tolerance).map_err(|_| 0)?;
    let outliers = covariance.outliers(confidence, tolerance).map_err(|_| 0)?;
    let errors = covariance.coefficient_standard_errors();
    let pruned = fit.prune_insignificant(confidence).map_err(|_| 0)?;
    Ok((errors, bands.len() + outliers.len() + pruned.len()))
}

/// The same for `CurveFit::new`.
pub fn bare_fit(data: &[(f64, f64)], degree: usize) -> Result<Vec<f64>, u8> {
    let fit = Fit::new(data, degree).map_err(|e| number_of(&e, 10))?;
    Ok(fit.coefficients().to_vec())
}

/// The same for `CurveFit::new_kfold_cross_validated`, by AIC.
pub fn bare_validate(
    data: &[(f64, f64)],
    folds: usize,
    bound: DegreeBound,
) -> Result<Vec<f64>, u8> {
    let fit = Fit::new_kfold_cross_validated(data, folds, bound_of(bound), &Aic);
    fit.map(|fit| fit.coefficients().to_vec()).map_err(|e| number_of(&e, 10))
}

/// The losses behind a report, and polyfit's own mean of them: `CurveFit::new_auto`, `covariance` for its
/// refusal, `residuals`, `median_absolute_deviation` and `huber_loss`, added up here; `huber_log_likelihood`,
/// which adds them up itself; `model_score`.
pub fn losses(samples: &[Sample], settings: Settings) -> Result<(Losses, f64), u8> {
    weighted(samples, || match settings.criterion {
        Criterion::Aic => losses_by(&Aic, samples, settings),
        Criterion::Bic => losses_by(&Bic, samples, settings),
    })
}

fn losses_by(
    method: &impl ModelScoreProvider<MonomialBasis<f64>, f64>,
    samples: &[Sample],
    settings: Settings,
) -> Result<(Losses, f64), u8> {
    let data = data_of(samples);
    let fit = Fit::new_auto(data.as_slice(), bound_of(settings.bound), method)
        .map_err(|e| number_of(&e, 0))?;
    covariance_of(&fit)?;
    let ys = || data.iter().map(|(_, y)| *y);
    let fitted: Vec<f64> = fit.solution().iter().map(|(_, y)| *y).collect();
    let deviation = theirs::median_absolute_deviation(ys(), fitted.iter().copied());
    let loss = |r: f64| theirs::huber_loss(r, theirs::huber_const(), deviation);
    let losses: Vec<f64> = fit.residuals().iter().map(|(_, r)| loss(*r)).collect();
    let total = losses.iter().fold(0.0, |total, loss| total + loss);
    let mean = theirs::huber_log_likelihood(ys(), fitted.iter().copied());
    let (degree, score) = (fit.degree(), fit.model_score(method));
    Ok((Losses { degree, losses, total, score }, mean))
}

/// The scores behind a report: `CurveFit::new_auto` for the degree, `covariance` for its refusal, and `scores`,
/// of which the least is taken here. polyfit counts no pivot tests.
pub fn scores_by_degree(samples: &[Sample], settings: Settings) -> Result<Scores, u8> {
    let degree = weighted(samples, || match settings.criterion {
        Criterion::Aic => chosen_degree(&Aic, samples, settings),
        Criterion::Bic => chosen_degree(&Bic, samples, settings),
    })?;
    let scores = scores(samples, settings.bound, settings.criterion);
    let lower = |least: f64, score: &f64| if *score < least { *score } else { least };
    let least = scores.iter().flatten().fold(f64::INFINITY, lower);
    Ok(Scores { degree, bound: scores.len() - 1, scores, least, tests: 0 })
}

fn chosen_degree(
    method: &impl ModelScoreProvider<MonomialBasis<f64>, f64>,
    samples: &[Sample],
    settings: Settings,
) -> Result<usize, u8> {
    let data = data_of(samples);
    let fit = Fit::new_auto(data.as_slice(), bound_of(settings.bound), method)
        .map_err(|e| number_of(&e, 0))?;
    covariance_of(&fit)?;
    Ok(fit.degree())
}

fn band_of(band: &theirs::ConfidenceBand<f64>) -> Band {
    Band { value: band.value(), lower: band.min(), upper: band.max() }
}

fn marks(length: usize, marked: impl Iterator<Item = usize>) -> Vec<bool> {
    let mut marks = vec![false; length];
    for at in marked {
        marks[at] = true;
    }
    marks
}

/// polyfit lists the outliers in order, without their index. Equal samples have equal bands, so the
/// next outlier is the next sample equal to it.
fn outlier_marks(data: &Data, outliers: impl Iterator<Item = (f64, f64)>) -> Vec<bool> {
    let mut marks = vec![false; data.len()];
    let mut at = 0;
    for outlier in outliers {
        while data[at] != outlier {
            at += 1;
        }
        marks[at] = true;
        at += 1;
    }
    marks
}

/// One side of a break: `CurveFit::new_auto` and `model_score` on that part of the list, with the pivots that
/// the shim compared for it.
fn side(samples: &[Sample], settings: Settings) -> (Option<SideFit>, usize) {
    let data = data_of(samples);
    let (slice, bound) = (data.as_slice(), bound_of(settings.bound));
    let fit_of = |fit: Fit, score: f64| SideFit {
        degree: fit.degree(),
        coefficients: fit.coefficients().to_vec(),
        score,
    };
    let choose = || match settings.criterion {
        Criterion::Aic => Fit::new_auto(slice, bound, &Aic).ok().map(|fit| {
            let score = fit.model_score(&Aic);
            fit_of(fit, score)
        }),
        Criterion::Bic => Fit::new_auto(slice, bound, &Bic).ok().map(|fit| {
            let score = fit.model_score(&Bic);
            fit_of(fit, score)
        }),
    };
    weighted(samples, || polyfit::count_pivots(choose))
}

/// The pivots that the shim compared for `CurveFit::new_auto`.
pub fn choice_tests(samples: &[Sample], settings: Settings) -> usize {
    side(samples, settings).1
}

/// Every break with two samples on each side. polyfit has no split: each side is fitted by itself.
pub fn breaks(samples: &[Sample], settings: Settings) -> Vec<Break> {
    let at = |b| {
        let (before, tests_before) = side(&samples[..b], settings);
        let (after, tests_after) = side(&samples[b..], settings);
        Break { b, before, after, tests: tests_before + tests_after }
    };
    (2..samples.len() - 1).map(at).collect()
}

/// The split of breaks: from the last to the first, the least total not above what was found so far.
pub fn split(breaks: Vec<Break>, limit: usize) -> Result<Split, u8> {
    let tests = breaks.iter().map(|at| at.tests).sum();
    if limit < tests {
        return Err(16);
    }
    let mut found: Option<Split> = None;
    for Break { b, before, after, .. } in breaks.into_iter().rev() {
        if let (Some(before), Some(after)) = (before, after) {
            let total = before.score + after.score;
            if !matches!(&found, Some(least) if least.total < total) {
                found = Some(Split { total, b, tests, before, after });
            }
        }
    }
    found.ok_or(11)
}

/// `CurveFit::new_kfold_cross_validated` with `CvStrategy::Custom`.
pub fn validate(
    samples: &[Sample],
    folds: usize,
    bound: DegreeBound,
    criterion: Criterion,
) -> Result<(usize, Vec<f64>), u8> {
    let data = data_of(samples);
    let (slice, bound) = (data.as_slice(), bound_of(bound));
    let fit = weighted(samples, || match criterion {
        Criterion::Aic => Fit::new_kfold_cross_validated(slice, folds, bound, &Aic),
        Criterion::Bic => Fit::new_kfold_cross_validated(slice, folds, bound, &Bic),
    });
    let fit = fit.map_err(|e| number_of(&e, 10))?;
    Ok((fit.degree(), fit.coefficients().to_vec()))
}

/// `CurveFit::new`, `covariance`, `confidence_band`.
pub fn band(
    samples: &[Sample],
    (x, degree): (f64, usize),
    confidence: Confidence,
    tolerance: Tolerance,
) -> Result<Band, u8> {
    let data = data_of(samples);
    let fit = weighted(samples, || fit_of(&data, degree))?;
    let covariance = weighted(samples, || covariance_of(&fit))?;
    covariance
        .confidence_band(x, confidence_of(confidence), tolerance_of(tolerance))
        .map(|band| band_of(&band))
        .map_err(|e| number_of(&e, 0))
}
