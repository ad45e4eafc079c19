//! Arguments of calls, most of them fit to be let through, some not.

use journal::Call;
use judge::fit::{Criterion, PruningRule, Settings};
use judge::statistics::{Confidence, DegreeBound, Tolerance};
use judge::Sample;

use crate::random::Random;
use crate::split;
use crate::weights;

/// One in so many arguments is not finite.
const RARE: usize = 60;

pub fn not_finite(random: &mut Random) -> f64 {
    random.pick(&[f64::NAN, f64::INFINITY, f64::NEG_INFINITY])
}

pub fn confidence(random: &mut Random) -> Confidence {
    match random.below(8) {
        0 => Confidence::P80,
        1 => Confidence::P90,
        2 => Confidence::P95,
        3 => Confidence::P98,
        4 => Confidence::P99,
        5 => Confidence::P999,
        _ if random.one_in(RARE / 4) => Confidence::Custom(not_finite(random)),
        _ => Confidence::Custom(random.pick(&[0.0, 1.0, -1.0, 2.5, 1e300, -1e300, 5e-324, 1e-5])),
    }
}

pub fn tolerance(random: &mut Random) -> Tolerance {
    let value = match random.below(RARE) {
        0 => not_finite(random),
        _ => random.pick(&[0.0, -0.0, 0.05, 1.0, -0.5, 1e308, -1e308, 5e-324]),
    };
    match random.below(5) {
        0 => Tolerance::Absolute(value),
        1 => Tolerance::Variance(value),
        2 => Tolerance::Measurement(value),
        _ => Tolerance::None,
    }
}

pub fn bound(random: &mut Random) -> DegreeBound {
    match random.below(10) {
        0 => DegreeBound::Conservative,
        1 => DegreeBound::Relaxed,
        2 => DegreeBound::Aggressive,
        3 => DegreeBound::Custom(random.between(5, 15)),
        4 => DegreeBound::Custom(random.pick(&[15, 16, 20, usize::MAX])),
        _ => DegreeBound::Custom(random.below(5)),
    }
}

pub fn criterion(random: &mut Random) -> Criterion {
    random.pick(&[Criterion::Aic, Criterion::Bic])
}

pub fn pruning(random: &mut Random) -> PruningRule {
    random.pick(&[PruningRule::Positive, PruningRule::Size])
}

pub fn settings(random: &mut Random) -> Settings {
    Settings {
        bound: bound(random),
        criterion: criterion(random),
        confidence: confidence(random),
        tolerance: tolerance(random),
        pruning: pruning(random),
    }
}

/// Mostly below n and at most 15.
pub fn degree(random: &mut Random, n: usize) -> usize {
    if n == 0 || random.one_in(15) {
        return random.pick(&[n, n + 1, 16, 17, usize::MAX]);
    }
    let highest = n.min(16) - 1;
    if random.one_in(3) {
        highest
    } else {
        random.between(0, highest.min(4))
    }
}

/// Mostly from 2 to n.
pub fn folds(random: &mut Random, n: usize) -> usize {
    if n < 2 || random.one_in(15) {
        return random.pick(&[0, 1, n + 1, usize::MAX]);
    }
    match random.below(4) {
        0 if n <= 24 => n,
        1 => 2,
        _ => random.between(2, n.min(8)),
    }
}

/// The least number above a finite one.
fn next_up(v: f64) -> f64 {
    match v.to_bits() {
        bits if v > 0.0 => f64::from_bits(bits + 1),
        bits if v < 0.0 => f64::from_bits(bits - 1),
        _ => f64::from_bits(1),
    }
}

/// Mostly from the least to the greatest x of the samples, its ends among them.
pub fn band_x(random: &mut Random, samples: &[Sample]) -> f64 {
    if samples.is_empty() || random.one_in(RARE) {
        return random.pick(&[0.0, f64::NAN, f64::INFINITY]);
    }
    let least = samples.iter().fold(f64::INFINITY, |least, sample| least.min(sample.x));
    let greatest = samples.iter().fold(f64::NEG_INFINITY, |most, sample| most.max(sample.x));
    match random.below(12) {
        0 => least,
        1 => greatest,
        2 => -least,
        3 => -next_up(-least),
        4 => next_up(greatest),
        5..=7 => samples[random.below(samples.len())].x,
        _ => random.within(least, greatest),
    }
}

pub fn band(random: &mut Random, samples: &[Sample]) -> Call {
    Call::Band {
        x: band_x(random, samples),
        degree: degree(random, samples.len()),
        confidence: confidence(random),
        tolerance: tolerance(random),
    }
}

pub fn validate(random: &mut Random, n: usize) -> Call {
    Call::Validate { folds: folds(random, n), bound: bound(random), criterion: criterion(random) }
}

/// A call that reads a fit.
pub fn reading(random: &mut Random, samples: &[Sample]) -> Call {
    match random.below(13) {
        0 | 1 => Call::Fit { degree: degree(random, samples.len()) },
        2 | 3 => band(random, samples),
        4 => validate(random, samples.len()),
        // Of many samples it takes long.
        5 if samples.len() <= 20 => split::call(random, samples),
        6 => Call::Losses(settings(random)),
        7 => Call::Scores(settings(random)),
        _ => Call::Report(settings(random)),
    }
}

/// Bytes that are nearly a frame of the samples.
pub fn wrong_frame(random: &mut Random, samples: &[Sample]) -> Vec<u8> {
    let mut bytes = weights::frame_of(random, samples);
    match random.below(7) {
        0 => bytes.truncate(random.below(bytes.len())),
        1 => bytes.push(random.next() as u8),
        2 => bytes[random.below(2)] ^= 1 << random.below(8),
        3 => bytes[2] = random.next() as u8,
        5 => bytes[2] = random.pick(&[0, 1, 2, 3]),
        4 => {
            let end = bytes.len() - random.below(25).min(bytes.len() - 3);
            bytes.truncate(end);
            let length = (bytes.len() - 2) as u16;
            bytes[..2].copy_from_slice(&length.to_be_bytes());
        }
        _ => bytes = (0..random.below(40)).map(|_| random.next() as u8).collect(),
    }
    bytes
}
