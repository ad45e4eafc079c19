//! Document 02, E8: the list broken in two, melt season and cold season, each with a fit of its own.

use crate::fit::{chosen, pivot_tests, scores, solved, Settings};
use crate::statistics::max_degree;
use crate::sums::folded_afresh;
use crate::Sample;

/// The least samples on each side of a break.
pub const LEAST_ON_A_SIDE: usize = 2;

/// The fewest samples that have a break.
pub const LEAST_SAMPLES: usize = 2 * LEAST_ON_A_SIDE;

/// What is chosen for a side: its degree, the coefficients and the score.
#[derive(Debug, Clone, PartialEq)]
pub struct SideFit {
    pub degree: usize,
    pub coefficients: Vec<f64>,
    pub score: f64,
}

/// A break b: what is chosen for either side, if anything is, and the pivots compared on both.
#[derive(Debug, Clone, PartialEq)]
pub struct Break {
    pub b: usize,
    pub before: Option<SideFit>,
    pub after: Option<SideFit>,
    pub tests: usize,
}

/// What a split answers and writes: the least total, its b, the pivot tests of the whole search, both
/// fits.
#[derive(Debug, Clone, PartialEq)]
pub struct Split {
    pub total: f64,
    pub b: usize,
    pub tests: usize,
    pub before: SideFit,
    pub after: SideFit,
}

/// A degree chosen for one side under the settings: from the sums over its own samples, among the
/// degrees within its own bound.
pub fn side_fit(side: &[Sample], settings: Settings) -> Option<SideFit> {
    let sums = folded_afresh(side);
    let bound = max_degree(settings.bound, side.len());
    let scores = scores(side, &sums, bound, settings.criterion);
    let degree = chosen(&scores)?;
    Some(SideFit { degree, coefficients: solved(side, &sums, degree)?, score: scores[degree]? })
}

/// One for each pivot compared, a failing one included, over every degree within the side's bound.
pub fn side_tests(side: &[Sample], settings: Settings) -> usize {
    pivot_tests(side, &folded_afresh(side), max_degree(settings.bound, side.len()))
}

/// Every break that leaves at least two samples on each side, in list order.
pub fn breaks(samples: &[Sample], settings: Settings) -> Vec<Break> {
    let n = samples.len();
    let leaves_enough = |b: &usize| *b >= LEAST_ON_A_SIDE && n - b >= LEAST_ON_A_SIDE;
    let break_at = |b| {
        let (before, after) = samples.split_at(b);
        Break {
            b,
            before: side_fit(before, settings),
            after: side_fit(after, settings),
            tests: side_tests(before, settings) + side_tests(after, settings),
        }
    };
    (0..=n).filter(leaves_enough).map(break_at).collect()
}

/// The pivot tests of the whole search, both sides of every break, chosen or not.
pub fn tests(breaks: &[Break]) -> usize {
    breaks.iter().map(|a_break| a_break.tests).sum()
}

/// The least total of the two chosen scores and its b, the smallest among equals. A b with an unchosen
/// side is passed over; none where all are.
pub fn least_total(breaks: &[Break]) -> Option<Split> {
    let tests = tests(breaks);
    let mut least: Option<Split> = None;
    for a_break in breaks {
        if let (Some(before), Some(after)) = (&a_break.before, &a_break.after) {
            let total = before.score + after.score;
            if least.as_ref().map_or(true, |least| total < least.total) {
                let (before, after) = (before.clone(), after.clone());
                least = Some(Split { total, b: a_break.b, tests, before, after });
            }
        }
    }
    least
}

/// A split; 16 where the whole search needs more pivot tests than the limit, 11 where every break is
/// passed over.
pub fn split(samples: &[Sample], settings: Settings, limit: usize) -> Result<Split, u8> {
    let breaks = breaks(samples, settings);
    if tests(&breaks) > limit {
        return Err(16);
    }
    least_total(&breaks).ok_or(11)
}

#[cfg(test)]
mod tests {
    use super::*;
    use crate::fit::{Criterion, PruningRule};
    use crate::statistics::{Confidence, DegreeBound, Tolerance};

    fn up_to(degree: usize) -> Settings {
        Settings {
            bound: DegreeBound::Custom(degree),
            criterion: Criterion::Aic,
            confidence: Confidence::P95,
            tolerance: Tolerance::None,
            pruning: PruningRule::Positive,
        }
    }

    fn at_whole_x(ys: &[f64]) -> Vec<Sample> {
        ys.iter().enumerate().map(|(i, &y)| Sample::unweighted(i as f64, y)).collect()
    }

    /// A bend at 4 that every reader sees, and that is not answered: two samples leave residuals of
    /// equal size, so that every loss is 0 and the score that of the floor, whatever the y's.
    #[test]
    fn short_sides_are_favoured() {
        let samples = at_whole_x(&[0.0, 1.1, 1.9, 3.05, 2.95, 2.1, 0.9, 0.02]);
        let breaks = breaks(&samples, up_to(1));
        assert_eq!(breaks.iter().map(|at| at.b).collect::<Vec<_>>(), [2, 3, 4, 5, 6]);
        let score = breaks[0].before.as_ref().unwrap().score;
        assert!((score - -70.087).abs() < 0.001, "{score}");
        let bend = least_total(&breaks[2..3]).unwrap();
        assert!((bend.total - -17.7).abs() < 0.05, "{}", bend.total);
        let split = least_total(&breaks).unwrap();
        assert_eq!((split.total, split.b, split.tests), (-113.35496093152223, 3, 30));
        assert_eq!(super::split(&samples, up_to(1), 30).as_ref(), Ok(&split));
        assert_eq!(super::split(&samples, up_to(1), 29), Err(16));
    }

    /// Each side of two has degrees 0 and 1: one pivot and two, and of equal x's the second of degree
    /// 1 fails and is counted.
    #[test]
    fn failing_pivots_are_counted() {
        let samples = [(1.0, 0.0), (2.0, 1.0), (3.0, 5.0), (3.0, 6.0)];
        let samples = samples.map(|(x, y)| Sample::unweighted(x, y));
        assert_eq!(side_tests(&samples[..2], up_to(9)), 3);
        assert_eq!(side_tests(&samples[2..], up_to(9)), 3);
        assert_eq!(side_tests(&samples[2..], up_to(0)), 1);
        // Of three equal x's degree 2 is abandoned at its second pivot.
        let equal = [Sample::unweighted(1.0, 0.0); 3];
        assert_eq!(side_tests(&equal, up_to(2)), 1 + 2 + 2);
    }

    /// Breaks 2 and 5 of seven total the same, less than those between: the smallest b.
    #[test]
    fn smallest_among_equals() {
        let breaks = breaks(&at_whole_x(&[1.0; 7]), up_to(0));
        let totals: Vec<f64> =
            breaks.iter().map(|at| least_total(&[at.clone()]).unwrap().total).collect();
        assert_eq!(totals[0], totals[3]);
        assert!(totals[0] < totals[1] && totals[0] < totals[2], "{totals:?}");
        assert_eq!(least_total(&breaks).unwrap().b, 2);
    }

    /// A side whose mean overflows has no choice; its pivots are compared all the same.
    #[test]
    fn passed_over() {
        let huge = |ys: &[f64]| -> Vec<Sample> {
            let ys: Vec<f64> = ys.iter().map(|y| y * f64::MAX).collect();
            at_whole_x(&ys)
        };
        // b = 2 leaves M, M before it; b = 3 leaves M after it with a zero.
        let samples = huge(&[1.0, 1.0, 0.0, 0.0, 0.0]);
        let found = breaks(&samples, up_to(0));
        assert_eq!((found[0].before.as_ref(), found[0].tests), (None, 2));
        assert!(found[0].after.is_some());
        let all = huge(&[1.0; 4]);
        assert_eq!(split(&all, up_to(0), 2), Err(11));
        assert_eq!(split(&all, up_to(0), 1), Err(16));
        assert_eq!(split(&all[..3], up_to(0), 0), Err(11));
    }

    /// Sides have their own bounds, and their sums take the weights.
    #[test]
    fn sides_of_their_own() {
        let settings = Settings { bound: DegreeBound::Aggressive, ..up_to(0) };
        let samples = at_whole_x(&[0.5; 32]);
        // 16 samples have degrees 0 and 1, 32 would have 0 to 3.
        assert_eq!(breaks(&samples, settings)[14].tests, 6);
        let weighted = |weights: [f64; 4]| {
            let of = |(i, weight): (usize, f64)| Sample { x: i as f64, y: i as f64, weight };
            weights.into_iter().enumerate().map(of).collect::<Vec<_>>()
        };
        let samples = weighted([1.0, 3.0, 1.0, 1.0]);
        let found = split(&samples, up_to(0), 2).unwrap();
        assert_eq!(
            (&found.before.coefficients[..], &found.after.coefficients[..]),
            (&[0.75][..], &[2.5][..])
        );
    }
}
