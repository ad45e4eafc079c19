//! How a degree is bounded and scored, how wide a band is, and which terms are pruned.

/// The highest degree that is tried. The bounds by name need many samples: below 30
/// (`Conservative`) or 16 (`Relaxed`, `Aggressive`) they try degree 0 alone.
#[derive(Debug, Clone, Copy, PartialEq)]
pub enum DegreeBound {
    /// At most the fifth root of the number n of samples, n / 15 less 1, and 8: degree 1 from 30
    /// samples, 2 from 45, 3 from 243.
    Conservative,
    /// At most the cube root of n, n / 8 less 1, and 15: degree 1 from 16 samples, 2 from 24, 3
    /// from 32.
    Relaxed,
    /// At most n / 8 less 1: degree 1 from 16 samples, 2 from 24, 3 from 32. Above 15, from 136
    /// samples on, it is refused.
    Aggressive,
    /// At most this degree. Each bound is at most n less 1.
    Custom(usize),
}

/// How a degree is scored. Both are made from the mean of Huber losses, with 1.345 times the median
/// absolute deviation as their scale, as polyfit has it, and not from squares: they are other
/// numbers than R's AIC and BIC, and may choose another degree.
#[derive(Debug, Clone, Copy, PartialEq, Eq)]
pub enum Criterion {
    Aic,
    Bic,
}

/// How sure a band is, by its z score, and pruning, by Student's t for the samples less the
/// coefficients: the table's row up to 30, the z score from 31 on.
#[derive(Debug, Clone, Copy, PartialEq)]
pub enum Confidence {
    P80,
    P90,
    P95,
    P98,
    P99,
    P999,
    /// A z score of one's own.
    Custom(f64),
}

/// What a band allows besides.
#[derive(Debug, Clone, Copy, PartialEq)]
pub enum Tolerance {
    None,
    /// So much on both sides, in the unit of y.
    Absolute(f64),
    /// The square of this share of the standard deviation of all y's is added to the variance of
    /// the curve.
    Variance(f64),
    /// This share of the size of the curve's value, on both sides.
    Measurement(f64),
}

/// Which terms a report marks as insignificant: those whose size over its error is below Student's
/// t, if they are above 2⁻⁵².
#[derive(Debug, Clone, Copy, PartialEq, Eq, Default)]
pub enum PruningRule {
    /// As polyfit has it: the term itself is held against 2⁻⁵², so that a negative term is never
    /// marked, however small. Take this one where answers are to be polyfit's.
    #[default]
    Positive,
    /// As Student's test has it: by its size, so that negative terms face the test too. Take this
    /// one to ask which terms a curve can do without.
    Size,
}

/// The settings of a report or a split.
#[derive(Debug, Clone, Copy, PartialEq)]
pub struct Settings {
    pub bound: DegreeBound,
    pub criterion: Criterion,
    pub confidence: Confidence,
    pub tolerance: Tolerance,
    pub pruning: PruningRule,
}

impl Settings {
    /// The two lists that the C interface takes.
    pub(crate) fn lists(self) -> ([u32; 6], [f64; 2]) {
        let (bound, most) = self.bound.numbers();
        let (confidence, score) = self.confidence.numbers();
        let (tolerance, value) = self.tolerance.numbers();
        // No bound is above the count less 1, so that the greatest degree stands for all above it.
        let most = u32::try_from(most).unwrap_or(u32::MAX);
        let criterion = self.criterion.number();
        let words = [bound, most, criterion, confidence, tolerance, self.pruning.number()];
        (words, [score, value])
    }
}

impl DegreeBound {
    /// The number and the degree that the C interface takes.
    pub fn numbers(self) -> (u32, usize) {
        match self {
            DegreeBound::Conservative => (0, 0),
            DegreeBound::Relaxed => (1, 0),
            DegreeBound::Aggressive => (2, 0),
            DegreeBound::Custom(degree) => (3, degree),
        }
    }
}

impl Criterion {
    /// The number that the C interface takes.
    pub fn number(self) -> u32 {
        match self {
            Criterion::Aic => 0,
            Criterion::Bic => 1,
        }
    }
}

impl Confidence {
    /// The number and the z score that the C interface takes.
    pub fn numbers(self) -> (u32, f64) {
        match self {
            Confidence::P80 => (0, 0.0),
            Confidence::P90 => (1, 0.0),
            Confidence::P95 => (2, 0.0),
            Confidence::P98 => (3, 0.0),
            Confidence::P99 => (4, 0.0),
            Confidence::P999 => (5, 0.0),
            Confidence::Custom(score) => (6, score),
        }
    }
}

impl Tolerance {
    /// The number and the value that the C interface takes.
    pub fn numbers(self) -> (u32, f64) {
        match self {
            Tolerance::None => (0, 0.0),
            Tolerance::Absolute(value) => (1, value),
            Tolerance::Variance(value) => (2, value),
            Tolerance::Measurement(value) => (3, value),
        }
    }
}

impl PruningRule {
    /// The number that the C interface takes.
    pub fn number(self) -> u32 {
        match self {
            PruningRule::Positive => 0,
            PruningRule::Size => 1,
        }
    }
}
