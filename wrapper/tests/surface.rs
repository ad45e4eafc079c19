//! Surfaces: what the wrapper owns and hands out, and which refusals it tells.

use stakebook::{
    Band, Confidence, Criterion, DegreeBound, PruningRule, Refusal, Settings, Surface, Tolerance,
};

const UP_TO_4: Settings = Settings {
    bound: DegreeBound::Custom(4),
    criterion: Criterion::Aic,
    confidence: Confidence::P95,
    tolerance: Tolerance::None,
    pruning: PruningRule::Positive,
};

/// y = 20 − 12 x + 12.75 z + xz at the four corners: a plane leaves residuals of 1 and −1, and the error
/// of each of its terms is 1.
fn corners() -> Surface {
    let corners = [(1.0, 1.0, 21.75), (1.0, -1.0, -5.75), (-1.0, 1.0, 43.75), (-1.0, -1.0, 20.25)];
    corners.into_iter().collect()
}

#[test]
fn a_fit_a_report_and_a_band() {
    let mut surface = corners();
    assert_eq!((surface.len(), surface.zs()), (4, &[1.0, -1.0, 1.0, -1.0][..]));
    let fit = surface.fit(1).expect("solved");
    assert_eq!((fit.degree, fit.coefficients()), (1, &[20.0, -12.0, 12.75][..]));
    assert_eq!(surface.fit(0).expect("solved").coefficients(), [20.0]);
    let band = surface.band((0.0, 0.0), 1, Confidence::Custom(2.0), Tolerance::Absolute(0.5));
    assert_eq!(band, Ok(Band { value: 20.0, lower: 17.5, upper: 22.5 }));
    let report = surface.report(UP_TO_4).expect("chosen");
    assert_eq!((report.degree, report.solved), (1, 2));
    assert_eq!((report.coefficients, report.errors), (&[20.0, -12.0, 12.75][..], &[1.0; 3][..]));
    assert_eq!((report.outliers(), report.outlying), (0, &[0; 4][..]));
    assert_eq!((report.pruned_terms(), report.pruned), (0, &[0; 3][..]));
    assert_eq!((report.lower.len(), report.upper.len()), (4, 4));
    // Three terms of four samples leave df 1, whose score is 12.71.
    let by_size = Settings { pruning: PruningRule::Size, ..UP_TO_4 };
    assert_eq!(surface.report(by_size).expect("chosen").pruned, [0, 1, 0]);
    let narrow = Settings { confidence: Confidence::Custom(0.5), ..UP_TO_4 };
    assert_eq!(surface.report(narrow).expect("chosen").outliers(), 4);
}

#[test]
fn as_many_coefficients_as_terms() {
    let sample = |i: usize| ((i % 5) as f64, (i / 5) as f64, (i % 3) as f64);
    let mut surface: Surface = (0..25).map(sample).collect();
    for (degree, terms) in [1, 3, 6, 10, 15].into_iter().enumerate() {
        assert_eq!(surface.fit(degree).expect("solved").coefficients().len(), terms);
        let bound = DegreeBound::Custom(degree);
        let report = surface.report(Settings { bound, ..UP_TO_4 }).expect("chosen");
        let lengths = [report.coefficients.len(), report.errors.len(), report.pruned.len()];
        assert_eq!(lengths, [[1, 3, 6, 10, 15][report.degree]; 3]);
    }
}

#[test]
fn refusals() {
    let (confidence, tolerance) = (Confidence::P95, Tolerance::None);
    let mut empty = Surface::new(Vec::new(), Vec::new(), Vec::new());
    assert!(empty.is_empty());
    assert_eq!(empty.fit(0), Err(Refusal::NoSamples));
    assert_eq!(empty.report(UP_TO_4), Err(Refusal::NoSamples));
    assert_eq!(empty.band((0.0, f64::NAN), 0, confidence, tolerance), Err(Refusal::NotFinite));
    let mut surface = corners();
    assert_eq!(surface.fit(2), Err(Refusal::DegreeTooHigh));
    assert_eq!(surface.fit(5), Err(Refusal::DegreeTooHigh));
    for (x, z) in [(0.0, 1.5), (1.5, 0.0)] {
        assert_eq!(surface.band((x, z), 1, confidence, tolerance), Err(Refusal::OutOfRange));
    }
    let mut level: Surface = (0..6).map(|i| (f64::from(i), 3.0, 1.0)).collect();
    assert_eq!(level.fit(1), Err(Refusal::Unsolved));
    let bound = DegreeBound::Custom(5);
    assert_eq!(level.report(Settings { bound, ..UP_TO_4 }), Err(Refusal::DegreeTooHigh));
    let mut huge: Surface = [(0.0, 0.0, f64::MAX); 2].into_iter().collect();
    assert_eq!(huge.report(UP_TO_4), Err(Refusal::NoDegree));
    // What the columns hold is judged by the calls.
    let mut uneven = Surface::new(vec![0.0, 1.0], vec![0.0], vec![1.0, 2.0]);
    assert_eq!(uneven.fit(0), Err(Refusal::Memory));
    let mut unknown = Surface::new(vec![0.0], vec![f64::NAN], vec![1.0]);
    assert_eq!(unknown.fit(0), Err(Refusal::NotFinite));
    let mut most: Surface = (0..4096).map(|i| (f64::from(i), 1.0, 2.0)).collect();
    assert_eq!(most.fit(0).expect("solved").coefficients(), [2.0]);
    let mut too_many: Surface = (0..4097).map(|i| (f64::from(i), 1.0, 2.0)).collect();
    assert_eq!(too_many.fit(0), Err(Refusal::Memory));
}
