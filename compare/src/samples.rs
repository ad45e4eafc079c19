//! Samples of many kinds, most of which plain random numbers never make.

use judge::fit::{residuals, solved};
use judge::numbers::is_finite;
use judge::solve::{inverse, solve};
use judge::sums::folded_afresh;
use judge::Sample;

use crate::random::Random;
use crate::weights;

/// The kinds of samples.
#[derive(Debug, Clone, Copy, PartialEq)]
pub enum Kind {
    /// Whole x's and a polynomial in them, so that fits are exact.
    Exact,
    /// Small whole numbers, so that scores and medians tie.
    SmallWhole,
    /// Even in [−1, 1], so that all 16 degrees are solved.
    EvenGrid,
    /// A middle far from 0 for its width, so that degrees are unsolved from some one on.
    Offset,
    /// Years near 2000.
    Years,
    /// Depth and density, with noise.
    Density,
    /// Few different x's.
    EqualX,
    /// Exponents all over.
    Wild,
    /// Any finite bits.
    AnyBits,
    /// y's near the top of the range.
    HugeY,
    /// y's whose squares overflow, or whose halved squares do not.
    SquareEdge,
    /// x's whose powers overflow.
    HugeX,
    /// Subnormals and zeros of both signs.
    Tiny,
    /// Mostly the same y.
    Flat,
    /// Random in [−1, 1].
    Unit,
}

const KINDS: [Kind; 15] = [
    Kind::Exact,
    Kind::SmallWhole,
    Kind::EvenGrid,
    Kind::Offset,
    Kind::Years,
    Kind::Density,
    Kind::EqualX,
    Kind::Wild,
    Kind::AnyBits,
    Kind::HugeY,
    Kind::SquareEdge,
    Kind::HugeX,
    Kind::Tiny,
    Kind::Flat,
    Kind::Unit,
];

/// Makes samples of one kind, one after another.
pub struct Source {
    kind: Kind,
    weights: weights::Kind,
    /// Coefficients of a polynomial that some kinds follow.
    curve: [f64; 4],
    middle: f64,
    width: f64,
    /// How many samples are expected.
    n: usize,
    made: usize,
}

impl Source {
    pub fn new(random: &mut Random, n: usize) -> Self {
        let kind = random.pick(&KINDS);
        Self::of_kind(random, kind, n)
    }

    pub fn of_kind(random: &mut Random, kind: Kind, n: usize) -> Self {
        let mut curve = [0.0; 4];
        for place in curve.iter_mut().take(random.between(1, 4)) {
            *place = random.between(0, 12) as f64 - 6.0;
        }
        let exponent = random.between(0, 24) as i32 - 12;
        let (middle, width) = (random.within(-30.0, 30.0), power_of_two(exponent));
        let weights = weights::Kind::pick(random);
        Self { kind, weights, curve, middle, width, n, made: 0 }
    }

    fn on_curve(&self, x: f64) -> f64 {
        self.curve.iter().rev().fold(0.0, |value, c| value * x + c)
    }

    /// Even over [−1, 1] for the expected number of samples.
    fn even(&self) -> f64 {
        let steps = self.n.max(2) - 1;
        2.0 * ((self.made - 1) % (steps + 1)) as f64 / steps as f64 - 1.0
    }

    pub fn next(&mut self, random: &mut Random) -> Sample {
        self.made += 1;
        let (x, y) = match self.kind {
            Kind::Exact => {
                let x = self.made as f64 - 1.0;
                (x, self.on_curve(x))
            }
            Kind::SmallWhole => (random.below(9) as f64 - 4.0, random.below(9) as f64 - 4.0),
            Kind::EvenGrid => (self.even(), random.within(-3.0, 3.0)),
            Kind::Offset => {
                let x = self.middle + self.width * self.even();
                (x, self.on_curve(x / self.middle) + random.within(-0.1, 0.1))
            }
            Kind::Years => (random.between(1985, 2026) as f64, random.within(300.0, 900.0)),
            Kind::Density => {
                let depth = 0.1 * self.made as f64;
                let density = 320.0 + 60.0 * depth - 2.0 * depth * depth;
                (depth, density + random.within(-15.0, 15.0))
            }
            Kind::EqualX => (random.below(3) as f64 * self.width, random.below(20) as f64),
            Kind::Wild => (wild(random), wild(random)),
            Kind::AnyBits => (any_finite(random), any_finite(random)),
            Kind::HugeY => (random.within(-2.0, 2.0), huge(random)),
            Kind::SquareEdge => (self.even(), random.sign() * random.within(1.0, 2.2) * 1e154),
            Kind::HugeX => (huge_x(random), random.within(-2.0, 2.0)),
            Kind::Tiny => (tiny(random), tiny(random)),
            Kind::Flat => {
                (self.even(), if random.one_in(5) { random.within(-9.0, 9.0) } else { 1.0 })
            }
            Kind::Unit => (random.within(-1.0, 1.0), random.within(-1.0, 1.0)),
        };
        Sample { x, y, weight: self.weights.next(random) }
    }

    pub fn take(&mut self, random: &mut Random, n: usize) -> Vec<Sample> {
        (0..n).map(|_| self.next(random)).collect()
    }
}

/// 2 to a power from −1022 to 1023.
fn power_of_two(exponent: i32) -> f64 {
    f64::from_bits(((1023 + exponent) as u64) << 52)
}

/// A sign and any exponent from −66 to 66.
pub fn wild(random: &mut Random) -> f64 {
    let exponent = random.between(0, 132) as i32 - 66;
    random.sign() * random.within(1.0, 2.0) * power_of_two(exponent)
}

fn any_finite(random: &mut Random) -> f64 {
    loop {
        let v = f64::from_bits(random.next());
        if is_finite(v) {
            return v;
        }
    }
}

fn huge(random: &mut Random) -> f64 {
    random.sign() * f64::MAX * random.within(0.05, 1.0)
}

/// Powers of it overflow from some exponent on.
fn huge_x(random: &mut Random) -> f64 {
    let exponent = 1023 / random.between(1, 32) as i32;
    random.sign() * random.within(0.5, 1.5) * power_of_two(exponent)
}

fn tiny(random: &mut Random) -> f64 {
    let size = match random.below(5) {
        0 => 0.0,
        1 => f64::from_bits(1),
        2 => f64::from_bits(random.next() >> 12),
        3 => f64::MIN_POSITIVE,
        _ => random.within(0.0, 1.0),
    };
    random.sign() * size
}

/// Three samples whose mean leaves a residual that overflows, while their line does not and leaves
/// residuals of sizes a, 2a, a, so that their median absolute deviation and every loss is 0: degree 0
/// is unsolved and degree 1 chosen. All steps are exact in units of 2¹⁰²⁰.
pub fn overflowing_mean(random: &mut Random) -> Vec<Sample> {
    let unit = random.sign() * power_of_two(1020);
    let x = random.sign() * 0.75;
    let pairs = [(-x, 15.0), (0.0, -15.0), (x, -6.0)];
    pairs.iter().map(|&(x, y)| Sample::unweighted(x, y * unit)).collect()
}

/// Seeds from which `at_pivot_edge` finds samples; about one in a hundred does.
const PIVOT_EDGE_SEEDS: [u64; 12] =
    [53, 618, 949, 1009, 1093, 1172, 1570, 1631, 2147, 2164, 2548, 2930];

/// Samples from a seed that finds some, now and then from any seed.
pub fn at_some_pivot_edge(random: &mut Random) -> Option<(Vec<Sample>, usize)> {
    if random.one_in(4) {
        return at_pivot_edge(random);
    }
    at_pivot_edge(&mut Random::new(random.pick(&PIVOT_EDGE_SEEDS)))
}

/// Samples at the edge of the last pivot, where the degree is solved and the inverse fails: n of
/// them, and the degree. Found by bisecting the offset of the x's, then trying around it.
fn at_pivot_edge(random: &mut Random) -> Option<(Vec<Sample>, usize)> {
    let k = random.between(12, 16);
    let n = k + random.pick(&[0, 0, 0, 1]);
    let width = random.within(0.3, 3.0);
    let spread: Vec<f64> = (0..n)
        .map(|i| width * (i as f64 / (n - 1) as f64 - 0.5) + random.within(-0.01, 0.01))
        .collect();
    let ys: Vec<f64> = (0..n).map(|_| random.within(-1.0, 1.0)).collect();
    let shifted = |offset: f64| -> Vec<Sample> {
        spread.iter().zip(&ys).map(|(x, &y)| Sample::unweighted(x + offset, y)).collect()
    };
    let holds = |offset: f64| solve(&folded_afresh(&shifted(offset)), k).is_some();
    let (mut low, mut high) = (0.0, 64.0);
    if !holds(low) || holds(high) {
        return None;
    }
    for _ in 0..40 {
        let middle = (low + high) / 2.0;
        if holds(middle) {
            low = middle;
        } else {
            high = middle;
        }
    }
    for _ in 0..150 {
        let part = random.sign() * random.unit() * power_of_two(-(random.between(6, 40) as i32));
        let samples = shifted(low * (1.0 + part));
        if inverse_fails(&samples, k) {
            return Some((samples, k - 1));
        }
    }
    None
}

/// Solved, and the inverse not.
fn inverse_fails(samples: &[Sample], k: usize) -> bool {
    let sums = folded_afresh(samples);
    inverse(&sums, k).is_none()
        && solved(samples, &sums, k - 1)
            .map_or(false, |c| residuals(samples, &c).into_iter().all(is_finite))
}
