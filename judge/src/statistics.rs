//! Document 01, "Statistics", after polyfit's `statistics.rs`; the t score with document 02's E2.

use crate::numbers::{abs, square_root};
use crate::Sample;

/// `Confidence`: six levels, or a score of the caller's own.
#[derive(Debug, Clone, Copy, PartialEq)]
pub enum Confidence {
    P80,
    P90,
    P95,
    P98,
    P99,
    P999,
    Custom(f64),
}

/// The six levels.
pub const LEVELS: [Confidence; 6] = [
    Confidence::P80,
    Confidence::P90,
    Confidence::P95,
    Confidence::P98,
    Confidence::P99,
    Confidence::P999,
];

/// `DegreeBound`: three ways to bound the degree by the number of samples, or a bound of the caller's own.
#[derive(Debug, Clone, Copy, PartialEq)]
pub enum DegreeBound {
    Conservative,
    Relaxed,
    Aggressive,
    Custom(usize),
}

/// `Option<Tolerance>`, with a case for none.
#[derive(Debug, Clone, Copy, PartialEq)]
pub enum Tolerance {
    None,
    Absolute(f64),
    Variance(f64),
    Measurement(f64),
}

/// `T_TABLE`: 30 degrees of freedom by six levels.
#[rustfmt::skip]
#[allow(clippy::approx_constant)] // 2.718 is a quantile here, not e.
pub const T_TABLE: [[f64; 6]; 30] = [
    /* P/DF  0.800     0.900     0.950   0.980     0.990     0.999 */
    /* 1 */ [3.078,    6.314,    12.71,  31.82,    63.66,    636.62],
    /* 2 */ [1.886,    2.92,     4.303,  6.965,    9.925,    31.599],
    /* 3 */ [1.638,    2.353,    3.182,  4.541,    5.841,    12.924],
    /* 4 */ [1.533,    2.132,    2.776,  3.747,    4.604,    8.610],
    /* 5 */ [1.476,    2.015,    2.571,  3.365,    4.032,    6.869],
    /* 6 */ [1.440,    1.943,    2.447,  3.143,    3.707,    5.959],
    /* 7 */ [1.415,    1.895,    2.365,  2.998,    3.499,    5.408],
    /* 8 */ [1.397,    1.86,     2.306,  2.896,    3.355,    5.041],
    /* 9 */ [1.383,    1.833,    2.262,  2.821,    3.25,     4.781],
    /*10 */ [1.372,    1.812,    2.228,  2.764,    3.169,    4.587],
    /*11 */ [1.363,    1.796,    2.201,  2.718,    3.106,    4.437],
    /*12 */ [1.356,    1.782,    2.179,  2.681,    3.055,    4.318],
    /*13 */ [1.350,    1.771,    2.16,   2.65,     3.012,    4.221],
    /*14 */ [1.345,    1.761,    2.145,  2.624,    2.977,    4.140],
    /*15 */ [1.341,    1.753,    2.131,  2.602,    2.947,    4.073],
    /*16 */ [1.337,    1.746,    2.12,   2.583,    2.921,    4.015],
    /*17 */ [1.333,    1.74,     2.11,   2.567,    2.898,    3.965],
    /*18 */ [1.330,    1.734,    2.101,  2.552,    2.878,    3.922],
    /*19 */ [1.328,    1.729,    2.093,  2.539,    2.861,    3.883],
    /*20 */ [1.325,    1.725,    2.086,  2.528,    2.845,    3.850],
    /*21 */ [1.323,    1.721,    2.08,   2.518,    2.831,    3.819],
    /*22 */ [1.321,    1.717,    2.074,  2.508,    2.819,    3.792],
    /*23 */ [1.319,    1.714,    2.069,  2.5,      2.807,    3.768],
    /*24 */ [1.318,    1.711,    2.064,  2.492,    2.797,    3.745],
    /*25 */ [1.316,    1.708,    2.06,   2.485,    2.787,    3.725],
    /*26 */ [1.315,    1.706,    2.056,  2.479,    2.779,    3.707],
    /*27 */ [1.314,    1.703,    2.052,  2.473,    2.771,    3.690],
    /*28 */ [1.313,    1.701,    2.048,  2.467,    2.763,    3.674],
    /*29 */ [1.311,    1.699,    2.045,  2.462,    2.756,    3.659],
    /*30 */ [1.310,    1.697,    2.042,  2.457,    2.75,     3.646],
];

/// `z_score`: the normal quantile, cut to thousandths.
pub fn z_score(confidence: Confidence) -> f64 {
    match confidence {
        Confidence::P80 => 1.281,
        Confidence::P90 => 1.644,
        Confidence::P95 => 1.959,
        Confidence::P98 => 2.326,
        Confidence::P99 => 2.575,
        Confidence::P999 => 3.290,
        Confidence::Custom(z) => z,
    }
}

/// `t_score`: df 0 gives +infinity for every confidence; Custom gives its own score; df 1 to 30
/// gives the table's row; from 31 on it is `z_score`.
pub fn t_score(confidence: Confidence, df: usize) -> f64 {
    if df == 0 {
        return f64::INFINITY;
    }
    if df > 30 {
        return z_score(confidence);
    }
    let row = T_TABLE[df - 1];
    match confidence {
        Confidence::P80 => row[0],
        Confidence::P90 => row[1],
        Confidence::P95 => row[2],
        Confidence::P98 => row[3],
        Confidence::P99 => row[4],
        Confidence::P999 => row[5],
        Confidence::Custom(_) => z_score(confidence),
    }
}

/// df + 1 samples whose mean over its error is the given t, nearly: the mean, with 1 and −1 by turns
/// added.
pub fn with_t(df: usize, t: f64) -> Vec<Sample> {
    let n = df + 1;
    let turned = (n - n % 2) as f64;
    let error = (turned / df as f64 / n as f64).sqrt();
    let turn = |i: usize| match i {
        _ if i + 1 == n && n % 2 == 1 => 0.0,
        _ if i % 2 == 0 => 1.0,
        _ => -1.0,
    };
    (0..n).map(|i| Sample::unweighted(i as f64, t * error + turn(i))).collect()
}

/// The largest whole r with r to the given power at most n.
pub fn whole_root(n: usize, power: u32) -> usize {
    let mut r = 0usize;
    while (r + 1).checked_pow(power).map_or(false, |p| p <= n) {
        r += 1;
    }
    r
}

/// `max_degree`: the least of the root, the samples a coefficient, the cap, and n − 1.
pub fn max_degree(bound: DegreeBound, n: usize) -> usize {
    let theoretical_max = n.saturating_sub(1);
    let (hard_cap, max_n_per_k, root) = match bound {
        DegreeBound::Custom(degree) => return degree.min(theoretical_max),
        DegreeBound::Conservative => (8, 15, whole_root(n, 5)),
        DegreeBound::Relaxed => (15, 8, whole_root(n, 3)),
        // The largest r with r at most n is n itself.
        DegreeBound::Aggressive => (theoretical_max, 8, n),
    };
    let obs_lim = (n / max_n_per_k).saturating_sub(1);
    root.min(obs_lim).min(hard_cap).min(theoretical_max)
}

/// `median`: sorted, then the middle, or what lies between the two middle ones. Of no values, zero.
/// Only sizes of finite residuals and their distances from a median come here, so no NaN does.
pub fn median(values: &[f64]) -> f64 {
    let mut sorted = values.to_vec();
    sorted.sort_by(|a, b| a.partial_cmp(b).unwrap_or(std::cmp::Ordering::Equal));
    let n = sorted.len();
    if n == 0 {
        0.0
    } else if n % 2 == 1 {
        sorted[n / 2]
    } else {
        midpoint(sorted[n / 2 - 1], sorted[n / 2])
    }
}

/// Half the sum of two values; where the sum is infinite, half of one plus half of the other.
fn midpoint(low: f64, high: f64) -> f64 {
    let sum = low + high;
    if sum.is_infinite() {
        low / 2.0 + high / 2.0
    } else {
        sum / 2.0
    }
}

/// `median_absolute_deviation`: the median of the sizes' distances from their median.
pub fn median_absolute_deviation(residuals: &[f64]) -> f64 {
    let sizes: Vec<f64> = residuals.iter().map(|&r| abs(r)).collect();
    let middle = median(&sizes);
    let deviations: Vec<f64> = sizes.iter().map(|&r| abs(r - middle)).collect();
    median(&deviations)
}

/// `huber_const`.
pub const HUBER_CONST: f64 = 1.345;

/// `huber_loss` of one residual.
pub fn huber_loss(residual: f64, median_absolute_deviation: f64) -> f64 {
    let delta = HUBER_CONST * median_absolute_deviation;
    let r = abs(residual);
    if r <= delta {
        (0.5 * r) * r
    } else {
        delta * (r - 0.5 * delta)
    }
}

/// `residual_variance`: the squares' sum over n − k; +0 where n is k.
pub fn residual_variance(residuals: &[f64], k: usize) -> f64 {
    let mut sum = 0.0;
    for r in residuals {
        sum += r * r;
    }
    if residuals.len() == k {
        return 0.0;
    }
    sum / (residuals.len() as f64 - k as f64)
}

/// `stddev_and_mean`: the standard deviation over n, and the mean.
pub fn stddev_and_mean(values: &[f64]) -> (f64, f64) {
    let n = values.len() as f64;
    let mut sum = 0.0;
    for value in values {
        sum += value;
    }
    let mean = sum / n;
    let mut squares = 0.0;
    for value in values {
        squares += (value - mean) * (value - mean);
    }
    (square_root(squares / n), mean)
}

#[cfg(test)]
mod tests {
    use super::*;

    /// In thousandths each column strictly falls by row and each row strictly rises.
    #[test]
    fn table_falls_and_rises() {
        let thousandths = |v: f64| (v * 1000.0).round() as i64;
        for row in 0..30 {
            for column in 0..6 {
                let here = thousandths(T_TABLE[row][column]);
                assert!(row == 29 || here > thousandths(T_TABLE[row + 1][column]));
                assert!(column == 5 || here < thousandths(T_TABLE[row][column + 1]));
            }
        }
    }

    #[test]
    fn t1_conservative_44() {
        assert_eq!(max_degree(DegreeBound::Conservative, 44), 1);
    }

    #[test]
    fn t2_conservative_45() {
        assert_eq!(max_degree(DegreeBound::Conservative, 45), 2);
    }

    #[test]
    fn t3_relaxed_63() {
        assert_eq!(max_degree(DegreeBound::Relaxed, 63), 3);
    }

    #[test]
    fn t4_relaxed_64() {
        assert_eq!(max_degree(DegreeBound::Relaxed, 64), 4);
    }

    #[test]
    fn t5_custom_5_of_3() {
        assert_eq!(max_degree(DegreeBound::Custom(5), 3), 2);
    }

    #[test]
    fn t6_p95_df_8() {
        assert_eq!(t_score(Confidence::P95, 8), 2.306);
    }

    #[test]
    fn t7_p95_df_29() {
        assert_eq!(t_score(Confidence::P95, 29), 2.045);
    }

    #[test]
    fn t8_p95_df_30() {
        assert_eq!(t_score(Confidence::P95, 30), 2.042);
    }

    /// Row 30 comes first at df 30, the z score starts at 31.
    #[test]
    fn thirty_degrees_of_freedom() {
        let row = [1.310, 1.697, 2.042, 2.457, 2.75, 3.646];
        let z = [1.281, 1.644, 1.959, 2.326, 2.575, 3.290];
        for (at, confidence) in LEVELS.into_iter().enumerate() {
            assert_eq!(t_score(confidence, 30), row[at]);
            assert_eq!(t_score(confidence, 31), z[at]);
        }
        assert_eq!(t_score(Confidence::Custom(1.5), 30), 1.5);
    }

    #[test]
    fn t9_median() {
        assert_eq!(median(&[1.0, 2.0, 3.0, 10.0]), 2.5);
        assert_eq!(median(&[10.0, 2.0, 1.0, 3.0]), 2.5);
        assert_eq!(median(&[3.0]), 3.0);
    }

    #[test]
    fn median_near_the_top() {
        assert_eq!(median(&[f64::MAX, f64::MAX]), f64::MAX);
        assert_eq!(median(&[-f64::MAX, -1e308]), -f64::MAX / 2.0 - 5e307);
        assert_eq!(median(&[f64::INFINITY, 1.0]), f64::INFINITY);
        // Halves of the least doubles would be lost.
        assert_eq!(median(&[5e-324, 5e-324]), 5e-324);
    }

    #[test]
    fn no_freedom_is_infinity() {
        for confidence in [Confidence::P80, Confidence::P999, Confidence::Custom(1.5)] {
            assert_eq!(t_score(confidence, 0), f64::INFINITY);
        }
        assert_eq!(t_score(Confidence::Custom(1.5), 8), 1.5);
    }

    #[test]
    fn bounds() {
        assert_eq!(max_degree(DegreeBound::Aggressive, 135), 15);
        assert_eq!(max_degree(DegreeBound::Aggressive, 136), 16);
        assert_eq!(max_degree(DegreeBound::Custom(20), 16), 15);
        assert_eq!(max_degree(DegreeBound::Custom(20), 17), 16);
        assert_eq!(max_degree(DegreeBound::Relaxed, 4096), 15);
        assert_eq!(max_degree(DegreeBound::Conservative, 4096), 5);
        assert_eq!(max_degree(DegreeBound::Aggressive, 0), 0);
        assert_eq!(max_degree(DegreeBound::Custom(usize::MAX), 0), 0);
    }
}
