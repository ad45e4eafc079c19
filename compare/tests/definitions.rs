//! The judge's definitions against polyfit's functions and text, and against the shims, one by one.

use judge::numbers::{bits, ln, maximum, power};
use judge::statistics as ours;
use judge::statistics::{Confidence, DegreeBound};
use nalgebra::{ComplexField, RealField};
use polyfit::statistics as theirs;
use polyfit::{count_pivots, with_weights, MonomialFit};

/// xorshift64 (Marsaglia), with a fixed seed.
struct Random(u64);

impl Random {
    fn next(&mut self) -> u64 {
        self.0 ^= self.0 << 13;
        self.0 ^= self.0 >> 7;
        self.0 ^= self.0 << 17;
        self.0
    }

    /// Few values, so that equal ones meet; now and then any size.
    fn number(&mut self) -> f64 {
        match self.next() % 4 {
            0 => (self.next() % 7) as f64 - 3.0,
            1 => (self.next() % 1000) as f64 / 64.0,
            2 => (self.next() >> 11) as f64 / 1e10,
            _ => f64::from_bits(self.next() & !(0x7FF << 52) | (self.next() % 2047) << 52),
        }
    }

    fn numbers(&mut self) -> Vec<f64> {
        let length = 1 + (self.next() % 12) as usize;
        (0..length).map(|_| self.number()).collect()
    }
}

const CONFIDENCES: [(Confidence, theirs::Confidence); 7] = [
    (Confidence::P80, theirs::Confidence::P80),
    (Confidence::P90, theirs::Confidence::P90),
    (Confidence::P95, theirs::Confidence::P95),
    (Confidence::P98, theirs::Confidence::P98),
    (Confidence::P99, theirs::Confidence::P99),
    (Confidence::P999, theirs::Confidence::P999),
    (Confidence::Custom(1.25), theirs::Confidence::Custom(1.25)),
];

/// All 180 entries.
#[test]
fn table_is_the_text_entry_by_entry() {
    let text = include_str!("../../reference/src/statistics.rs");
    let start = text.find("const T_TABLE").unwrap();
    let end = start + text[start..].find("];").unwrap();
    let rows: Vec<&str> = text[start..end]
        .lines()
        .filter_map(|line| line.split_once("*/ &["))
        .map(|row| row.1)
        .collect();
    assert_eq!(rows.len(), 30);
    for (row, line) in rows.iter().enumerate() {
        let entries: Vec<f64> =
            line.trim_end_matches("],").split(',').map(|e| e.trim().parse().unwrap()).collect();
        assert_eq!(entries, ours::T_TABLE[row], "row {}", row + 1);
    }
}

#[test]
fn scores_of_every_confidence() {
    for (our, their) in CONFIDENCES {
        assert_eq!(ours::z_score(our), their.z_score());
        for df in 0..100 {
            assert_eq!(ours::t_score(our, df), their.t_score(df), "{our:?} {df}");
        }
    }
}

#[test]
fn max_degree_of_every_count() {
    for n in 0..=5000 {
        let bounds = [
            (DegreeBound::Conservative, theirs::DegreeBound::Conservative),
            (DegreeBound::Relaxed, theirs::DegreeBound::Relaxed),
            (DegreeBound::Aggressive, theirs::DegreeBound::Aggressive),
            (DegreeBound::Custom(n / 3), theirs::DegreeBound::Custom(n / 3)),
            (DegreeBound::Custom(n + 1), theirs::DegreeBound::Custom(n + 1)),
        ];
        for (our, their) in bounds {
            assert_eq!(ours::max_degree(our, n), their.max_degree(n), "{our:?} {n}");
        }
    }
}

/// Written twice, once from document 01 and once from fdlibm; equal on every bit, and at most one
/// last bit from the library's.
#[test]
fn ln_of_the_shim() {
    let mut random = Random(0x2545_F491_4F6C_DD1D);
    let mut from_library = 0;
    for i in 0..1_000_000u64 {
        let v = match i % 4 {
            0 => f64::from_bits(random.next() >> 1),
            1 => f64::from_bits(random.next() >> 12),
            2 => f64::from_bits(0x3FE0 << 48 | random.next() >> 11),
            _ => f64::from_bits(random.next()),
        };
        assert_eq!(bits(ln(v)), bits(RealField::ln(v)), "{v:?}");
        if !ln(v).is_nan() {
            let distance = ln(v).to_bits().abs_diff(v.ln().to_bits());
            assert!(distance <= 1, "{v:?}");
            from_library += distance;
        }
    }
    assert!(from_library > 0, "the library's ln is not document 01's");
}

#[test]
fn power_and_maximum_of_the_shim() {
    let mut random = Random(0x9E37_79B9_7F4A_7C15);
    for _ in 0..300_000 {
        let (v, w) = (f64::from_bits(random.next()), random.number());
        for j in 0..16 {
            let ours = power(w, j);
            assert_eq!(bits(ours), bits(ComplexField::powi(w, j as i32)));
            assert_eq!(bits(ours), bits(w.powi(j as i32)), "the library's too: {w:?} {j}");
        }
        assert_eq!(bits(maximum(v, w)), bits(RealField::max(v, w)));
        assert_eq!(bits(maximum(w, v)), bits(RealField::max(w, v)));
    }
}

/// The weights reach the sums of a call that is made with them, and of no other.
#[test]
fn weights_of_the_shim() {
    let data = [(0.0, 1.0), (0.0, 4.0)];
    let mean = || MonomialFit::new(&data[..], 0).unwrap().coefficients()[0];
    assert_eq!(mean(), 2.5);
    assert_eq!(with_weights(vec![1.0, 2.0], mean), 3.0);
    assert_eq!(with_weights(vec![1.0, 2.0], || with_weights(vec![2.0, 1.0], mean)), 2.0);
    assert_eq!(mean(), 2.5);
    assert!(std::panic::catch_unwind(|| with_weights(vec![1.0], mean)).is_err());
    assert_eq!(mean(), 2.5);
}

/// The pivots of each solution, a failing one too; inverting counts nothing.
#[test]
fn pivots_of_the_shim() {
    let fit = |data: &'static [(f64, f64)], degree| count_pivots(|| MonomialFit::new(data, degree));
    assert_eq!(fit(&[(2.0, 1.0), (2.0, 5.0)], 0).1, 1);
    assert_eq!(fit(&[(2.0, 1.0), (2.0, 5.0), (2.0, 6.0)], 2).1, 2);
    let (line, compared) = fit(&[(0.0, 1.0), (1.0, 3.0), (2.0, 5.0)], 1);
    assert_eq!(compared, 2);
    let line = line.unwrap();
    assert_eq!(count_pivots(|| line.covariance().is_ok()), (true, 0));
}

#[test]
fn statistics_of_lists() {
    let mut random = Random(0xD1B5_4A32_D192_ED03);
    for _ in 0..200_000 {
        let values = random.numbers();
        let zeros = vec![0.0; values.len()];
        let (list, fitted) = (|| values.iter().copied(), || zeros.iter().copied());
        let same = |a: f64, b: f64| assert_eq!(bits(a), bits(b), "{values:?}");
        same(ours::median(&values), theirs::median(&values));
        let deviation = ours::median_absolute_deviation(&values);
        same(deviation, theirs::median_absolute_deviation(list(), fitted()));
        same(
            ours::huber_loss(values[0], deviation),
            theirs::huber_loss(values[0], theirs::huber_const(), deviation),
        );
        for k in [1, 2, values.len()] {
            same(
                ours::residual_variance(&values, k),
                theirs::residual_variance(list(), fitted(), k as f64),
            );
        }
        let (ours, theirs) = (ours::stddev_and_mean(&values), theirs::stddev_and_mean(list()));
        same(ours.0, theirs.0);
        same(ours.1, theirs.1);
    }
}
