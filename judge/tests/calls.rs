//! Each call on small lent memory: what it answers, what it writes, and by which number it is
//! refused where several would do. The expected values are worked out by hand from the documents.

use judge::book::{
    self, LossesAnswer, Memory, ReportAnswer, ReportMemory, ScoresAnswer, SplitAnswer,
};
use judge::fit::{Band, Criterion, PruningRule, Settings};
use judge::frame::{encode, encode_weighted};
use judge::numbers::bits;
use judge::statistics::{Confidence, DegreeBound, Tolerance};
use judge::sums::{folded_afresh, PLACES, TERMS};
use judge::{two_column, Sample};

const NAN: f64 = f64::NAN;
const INFINITY: f64 = f64::INFINITY;

/// What stands in memory before anything is written.
const MARK: f64 = 77.0;

const AIC_1: Settings = Settings {
    bound: DegreeBound::Custom(1),
    criterion: Criterion::Aic,
    confidence: Confidence::P95,
    tolerance: Tolerance::None,
    pruning: PruningRule::Positive,
};

/// The columns and the sums of a book.
macro_rules! memory {
    ($book:ident) => {
        Memory {
            x: &mut $book.x,
            y: &mut $book.y,
            weight: &mut $book.weight,
            sums: &mut $book.sums,
        }
    };
}

/// A book with memory of its own.
struct Book {
    count: usize,
    x: Vec<f64>,
    y: Vec<f64>,
    weight: Vec<f64>,
    sums: Vec<f64>,
    scratch: Vec<f64>,
    coefficients: Vec<f64>,
    errors: Vec<f64>,
    pruned: Vec<u8>,
    lower: Vec<f64>,
    upper: Vec<f64>,
    outlier: Vec<u8>,
    before: Vec<f64>,
    after: Vec<f64>,
    losses: Vec<f64>,
    solved: Vec<u8>,
    scores: Vec<f64>,
}

impl Book {
    /// Opened, with the given samples added.
    fn new(capacity: usize, samples: &[(f64, f64)]) -> Self {
        let mut book = Self {
            count: 0,
            x: vec![MARK; capacity],
            y: vec![MARK; capacity],
            weight: vec![MARK; capacity],
            sums: vec![MARK; PLACES + 1],
            scratch: vec![MARK; capacity + 1],
            coefficients: vec![MARK; TERMS + 1],
            errors: vec![MARK; TERMS + 1],
            pruned: vec![77; TERMS + 1],
            lower: vec![MARK; capacity + 1],
            upper: vec![MARK; capacity + 1],
            outlier: vec![77; capacity + 1],
            before: vec![MARK; TERMS + 1],
            after: vec![MARK; TERMS + 1],
            losses: vec![MARK; capacity + 1],
            solved: vec![77; TERMS + 1],
            scores: vec![MARK; TERMS + 1],
        };
        book.count = book::open(&mut book.sums).unwrap();
        for &(x, y) in samples {
            assert!(book.add(x, y).is_ok());
        }
        book
    }

    fn memory(&mut self) -> Memory<'_> {
        memory!(self)
    }

    /// The answer; a new count is kept.
    fn keep(&mut self, answer: Result<usize, u8>) -> Result<usize, u8> {
        self.count = answer.unwrap_or(self.count);
        answer
    }

    fn add(&mut self, x: f64, y: f64) -> Result<usize, u8> {
        self.add_weighted(Sample::unweighted(x, y))
    }

    fn add_weighted(&mut self, sample: Sample) -> Result<usize, u8> {
        let count = self.count;
        let answer = book::add(count, &mut self.memory(), sample);
        self.keep(answer)
    }

    fn add_window(&mut self, sample: Sample) -> Result<usize, u8> {
        let count = self.count;
        let answer = book::add_window(count, &mut self.memory(), sample);
        self.keep(answer)
    }

    fn correct(&mut self, index: usize, y: f64) -> Result<usize, u8> {
        let count = self.count;
        book::correct(count, &mut self.memory(), index, y)
    }

    fn withdraw(&mut self, index: usize) -> Result<usize, u8> {
        let count = self.count;
        let answer = book::withdraw(count, &mut self.memory(), index);
        self.keep(answer)
    }

    fn add_frame(&mut self, bytes: &[u8]) -> Result<usize, u8> {
        let count = self.count;
        let answer = book::add_frame(count, &mut self.memory(), bytes);
        self.keep(answer)
    }

    fn add_lines(&mut self, text: &str) -> Result<usize, u8> {
        let count = self.count;
        let answer = book::add_lines(count, &mut self.memory(), text.as_bytes());
        self.keep(answer)
    }

    fn carry(&mut self) -> Result<usize, u8> {
        let answer = book::carry(self.count, &mut self.memory());
        self.keep(answer)
    }

    fn fit(&mut self, degree: usize) -> Result<usize, u8> {
        let memory = memory!(self);
        book::fit(self.count, &memory, degree, &mut self.scratch, &mut self.coefficients)
    }

    fn report(&mut self, settings: Settings) -> Result<ReportAnswer, u8> {
        let memory = memory!(self);
        let mut out = ReportMemory {
            coefficients: &mut self.coefficients,
            errors: &mut self.errors,
            pruned: &mut self.pruned,
            lower: &mut self.lower,
            upper: &mut self.upper,
            outlier: &mut self.outlier,
        };
        book::report(self.count, &memory, settings, &mut self.scratch, &mut out)
    }

    fn losses(&mut self, settings: Settings) -> Result<LossesAnswer, u8> {
        let memory = memory!(self);
        book::losses(self.count, &memory, settings, &mut self.scratch, &mut self.losses)
    }

    fn scores(&mut self, settings: Settings) -> Result<ScoresAnswer, u8> {
        let memory = memory!(self);
        let (solved, scores) = (&mut self.solved, &mut self.scores);
        book::scores(self.count, &memory, settings, &mut self.scratch, solved, scores)
    }

    fn validate(&mut self, folds: usize, bound: usize) -> Result<usize, u8> {
        let memory = memory!(self);
        let by = (DegreeBound::Custom(bound), Criterion::Aic);
        let (scratch, coefficients) = (&mut self.scratch, &mut self.coefficients);
        book::validate(self.count, &memory, folds, by, scratch, coefficients)
    }

    fn band(&mut self, x: f64, degree: usize) -> Result<Band, u8> {
        let memory = memory!(self);
        let (confidence, tolerance) = (Confidence::P95, Tolerance::None);
        book::band(self.count, &memory, (x, degree), confidence, tolerance, &mut self.scratch)
    }

    fn split(&mut self, settings: Settings, limit: usize) -> Result<SplitAnswer, u8> {
        let memory = memory!(self);
        let (before, after) = (&mut self.before, &mut self.after);
        book::split(self.count, &memory, (settings, limit), &mut self.scratch, before, after)
    }

    fn is_folded(&self, samples: &[(f64, f64)]) -> bool {
        let samples: Vec<Sample> = samples.iter().map(|&(x, y)| Sample::unweighted(x, y)).collect();
        self.sums[..PLACES] == folded_afresh(&samples) && self.sums[PLACES] == MARK
    }
}

const LINE: [(f64, f64); 3] = [(0.0, 1.0), (1.0, 3.0), (2.0, 5.0)];

#[test]
fn open_writes_272_places() {
    let mut sums = vec![MARK; PLACES + 1];
    assert_eq!(book::open(&mut sums[..PLACES - 1]), Err(1));
    assert_eq!(sums, vec![MARK; PLACES + 1]);
    assert_eq!(book::open(&mut sums), Ok(0));
    assert!(sums[..PLACES].iter().all(|v| v.to_bits() == 0));
    assert_eq!(sums[PLACES], MARK);
}

#[test]
fn add_at_the_end() {
    let mut book = Book::new(3, &LINE[..2]);
    assert_eq!((book.count, book.x[2]), (2, MARK));
    assert!(book.is_folded(&LINE[..2]));
    assert_eq!(book.add(NAN, 1.0), Err(4));
    assert_eq!(book.add(1.0, INFINITY), Err(4));
    assert_eq!(book.add(2.0, 5.0), Ok(3));
    assert_eq!(book.add(9.0, 9.0), Err(5));
    assert_eq!(book.add(NAN, 9.0), Err(4));
    book.sums.truncate(PLACES - 1);
    assert_eq!(book.add(NAN, 9.0), Err(1));
    assert_eq!(book.x, [0.0, 1.0, 2.0]);
}

#[test]
fn correct_folds_g_alone() {
    let mut book = Book::new(3, &LINE);
    book.sums[0] = MARK;
    assert_eq!(book.correct(3, NAN), Err(4));
    assert_eq!(book.correct(3, 1.0), Err(6));
    assert_eq!(book.correct(2, 8.0), Ok(3));
    assert_eq!((book.sums[0], book.sums[256], book.y[2]), (MARK, 12.0, 8.0));
    book.count = 4;
    assert_eq!(book.correct(0, 1.0), Err(1));
}

#[test]
fn withdraw_moves_down_and_folds() {
    let mut book = Book::new(3, &LINE);
    assert_eq!(book.withdraw(3), Err(6));
    book.sums[0] = MARK;
    assert_eq!(book.withdraw(0), Ok(2));
    // The vacated last place keeps its value.
    assert_eq!(book.x, [1.0, 2.0, 2.0]);
    assert_eq!(book.y, [3.0, 5.0, 5.0]);
    assert!(book.is_folded(&LINE[1..]));
    assert_eq!(book.add(7.0, 8.0), Ok(3));
    assert_eq!(book.x, [1.0, 2.0, 7.0]);
}

#[test]
fn frame_is_that_many_adds() {
    let samples = LINE.map(|(x, y)| Sample::unweighted(x, y));
    let mut book = Book::new(3, &[]);
    assert_eq!(book.add_frame(&encode(&[])), Ok(0));
    assert_eq!(book.add_frame(&encode(&samples)), Ok(3));
    assert!(book.is_folded(&LINE));
    assert_eq!(book.add_frame(&encode(&samples)), Err(5));
    assert_eq!(book.add_frame(&encode(&[Sample::unweighted(NAN, 0.0)])), Err(4));
    let mut wrong = encode(&[Sample::unweighted(NAN, 0.0)]);
    wrong[2] = 3;
    assert_eq!(book.add_frame(&wrong), Err(3));
    wrong.push(0);
    assert_eq!(book.add_frame(&wrong), Err(2));
    book.sums.truncate(0);
    assert_eq!(book.add_frame(&wrong), Err(1));
}

/// More than 15 digits.
const LONG: &str = "1234567890123456";

#[test]
fn lines_are_that_many_adds() {
    let mut book = Book::new(5, &[]);
    assert_eq!(book.add_lines(""), Ok(0));
    assert_eq!(book.add_lines("0 1\n1.0 3.00\n"), Ok(2));
    assert_eq!(book.add_lines("2 5\n"), Ok(3));
    assert!(book.is_folded(&LINE));
    assert_eq!(book.add_lines("-0 -0.0\n0.1 -12.345\n"), Ok(5));
    assert_eq!((bits(book.x[3]), bits(book.y[3])), (1 << 63, 1 << 63));
    assert_eq!((book.x[4], book.y[4]), (0.1, -12.345));
    assert_eq!(book.add_lines(""), Ok(5));
    assert_eq!(book.add_lines("0 0\n"), Err(5));
}

/// 13 and 14 by the first line that has either, 13 first within a line; 1 before and 5 after both.
#[test]
fn lines_are_refused_in_order() {
    let mut book = Book::new(3, &LINE[..1]);
    let cases = [
        ("1 2\n3 4\n5 6\n".to_string(), 5),
        ("1 2\n3 4\n5 6".to_string(), 13),
        (format!("1 2\n3 4\n5 {LONG}\n"), 14),
        (format!("1 2\n3 4\n5 {LONG}"), 13),
        (format!("{LONG} 2\n3\n"), 14),
        (format!("1\n{LONG} 2\n"), 13),
        (format!("{LONG} x\n"), 13),
        (format!("x {LONG}\n"), 13),
        (format!("{LONG} x\n{LONG} 2\n"), 13),
        (format!("1 2\n{LONG} 2\nx {LONG}\n"), 14),
        ("1 2\n\n".to_string(), 13),
        ("\n".to_string(), 13),
        ("1 2\r\n".to_string(), 13),
    ];
    for (text, number) in &cases {
        assert_eq!(book.add_lines(text), Err(*number), "{text:?}");
    }
    // A refused text leaves all as it was.
    assert_eq!((book.count, &book.x[..]), (1, &[0.0, MARK, MARK][..]));
    assert_eq!(book.y, [1.0, MARK, MARK]);
    assert!(book.is_folded(&LINE[..1]));
    book.sums.truncate(PLACES - 1);
    for (text, _) in &cases {
        assert_eq!(book.add_lines(text), Err(1), "{text:?}");
    }
    assert_eq!(book.add_lines(""), Err(1));
}

/// 4,096 lines fill a book; of 5,000 none is added, and a bad one at the end is found before that.
#[test]
fn many_lines() {
    let mut book = Book::new(4100, &[]);
    let line = |i: usize| format!("{}.{:03} -{i}\n", i / 1000, i % 1000);
    let text = |count: usize| (0..count).map(line).collect::<String>();
    assert_eq!(book.add_lines(&text(5000)), Err(5));
    assert_eq!(book.add_lines(&(text(5000) + "1")), Err(13));
    assert_eq!(book.add_lines(&format!("{}1 {LONG}\n", text(5000))), Err(14));
    assert_eq!(book.add_lines(&text(4097)), Err(5));
    assert_eq!((book.count, book.x[0]), (0, MARK));
    assert_eq!(book.add_lines(&text(4096)), Ok(4096));
    assert_eq!((book.x[4095], book.y[4095], book.x[4096]), (4.095, -4095.0, MARK));
    assert_eq!(bits(book.y[0]), 1 << 63);
    assert_eq!(book.add_lines(&text(1)), Err(5));
    assert_eq!(book.add_lines(""), Ok(4096));
    book.count = 4097;
    assert_eq!(book.add_lines(""), Err(1));
}

#[test]
fn reader_hands_out_and_ends() {
    let bytes = encode(&[Sample::unweighted(1.0, NAN)]);
    let mut reader = book::reader(&bytes).unwrap();
    let sample = reader.next_sample().unwrap();
    assert!(sample.x == 1.0 && sample.y.is_nan() && sample.weight == 1.0);
    assert_eq!(reader.next_sample(), None);
    assert_eq!(book::reader(&bytes[1..]).err(), Some(2));
    assert_eq!(book::reader(&[0, 1, 0]).err(), Some(3));
}

#[test]
fn fit_writes_16_coefficients() {
    let mut book = Book::new(4, &LINE);
    assert_eq!(book.fit(1), Ok(1));
    assert_eq!(book.coefficients[..3], [1.0, 2.0, 0.0]);
    assert!(book.coefficients[2..TERMS].iter().all(|v| v.to_bits() == 0));
    assert_eq!(book.coefficients[TERMS], MARK);
    assert_eq!(book.scratch, [0.0, 0.0, 0.0, MARK, MARK]);
}

#[test]
fn fit_is_refused_in_order() {
    let mut book = Book::new(20, &[]);
    assert_eq!(book.fit(0), Err(7));
    for i in 0..17 {
        book.add(f64::from(i), 1.0).unwrap();
    }
    assert_eq!(book.fit(16), Err(8));
    assert_eq!(book.fit(17), Err(8));
    book.y[16] = NAN;
    assert_eq!(book.fit(usize::MAX), Err(4));
    book.coefficients.truncate(TERMS - 1);
    assert_eq!(book.fit(usize::MAX), Err(1));
    assert_eq!(book.scratch, vec![MARK; 21]);
}

#[test]
fn unsolved_fit_clears_scratch_only() {
    let mut book = Book::new(2, &[(2.0, 1.0), (2.0, 5.0)]);
    assert_eq!(book.fit(1), Err(10));
    assert_eq!(book.scratch, [0.0, 0.0, MARK]);
    assert_eq!(book.coefficients, vec![MARK; TERMS + 1]);
}

/// Degree 0 of the line: mean 3, residuals −2, 0, 2, variance 8 / 2, inverse 1 / (3 + 2⁻⁵²).
#[test]
fn report_of_t11() {
    let mut book = Book::new(4, &LINE);
    let answer = book.report(AIC_1).unwrap();
    let expected = ReportAnswer { degree: 0, solved: 2, outliers: 0, pruned: 1 };
    assert_eq!(answer, expected);
    let variance = 1.0 / 3.0 * 4.0;
    assert_eq!(book.coefficients[..2], [3.0, 0.0]);
    assert_eq!(book.errors[..2], [f64::sqrt(variance), 0.0]);
    // t is 3 / 1.15, below 4.303, the score at df 2.
    assert_eq!(book.pruned[..2], [1, 0]);
    assert_eq!(book.lower[..3], [3.0 - 1.959 * f64::sqrt(variance); 3]);
    assert_eq!(book.upper[..3], [3.0 + 1.959 * f64::sqrt(variance); 3]);
    assert_eq!(book.outlier[..3], [0, 0, 0]);
    assert_eq!((book.errors[TERMS], book.pruned[TERMS], book.lower[3]), (MARK, 77, MARK));
    assert_eq!((book.upper[3], book.outlier[3], book.scratch[3]), (MARK, 77, MARK));
}

#[test]
fn report_is_refused_in_order() {
    let mut book = Book::new(17, &[]);
    let nan_score = Settings { confidence: Confidence::Custom(NAN), ..AIC_1 };
    let nan_tolerance = Settings { tolerance: Tolerance::Variance(NAN), ..AIC_1 };
    let wide = Settings { bound: DegreeBound::Custom(20), ..AIC_1 };
    assert_eq!(book.report(AIC_1), Err(7));
    assert_eq!(book.report(nan_score), Err(4));
    assert_eq!(book.report(nan_tolerance), Err(4));
    for i in 0..16 {
        book.add(f64::from(i), 1.0).unwrap();
    }
    assert!(book.report(wide).is_ok(), "bounded by n - 1, which is 15");
    book.add(16.0, 1.0).unwrap();
    assert_eq!(book.report(wide), Err(8));
    book.lower.truncate(16);
    assert_eq!(book.report(wide), Err(1));
}

/// Each memory one place too short, also where the call would be refused later.
#[test]
fn report_on_short_memory() {
    let shorten: [fn(&mut Book); 8] = [
        |book| book.sums.truncate(PLACES - 1),
        |book| book.scratch.truncate(2),
        |book| book.coefficients.truncate(TERMS - 1),
        |book| book.errors.truncate(TERMS - 1),
        |book| book.pruned.truncate(TERMS - 1),
        |book| book.lower.truncate(2),
        |book| book.upper.truncate(2),
        |book| book.outlier.truncate(2),
    ];
    for shorten in shorten {
        let mut book = Book::new(3, &LINE);
        shorten(&mut book);
        assert_eq!(book.report(AIC_1), Err(1));
        assert_eq!(book.report(Settings { tolerance: Tolerance::Absolute(NAN), ..AIC_1 }), Err(1));
        assert!(book.scratch.iter().all(|v| *v == MARK));
    }
}

#[test]
fn report_without_a_choice() {
    let mut book = Book::new(2, &[(0.0, f64::MAX), (0.0, f64::MAX)]);
    assert_eq!(book.report(AIC_1), Err(11));
    assert_eq!(book.scratch, [0.0, 0.0, MARK]);
    assert_eq!(book.coefficients, vec![MARK; TERMS + 1]);
    assert_eq!(book.outlier, [77, 77, 77]);
}

/// Sums as they are: a first pivot of 2⁻⁵², which the inverse doubles, so that its second fails.
#[test]
fn report_without_an_inverse() {
    let mut book = Book::new(2, &LINE[..2]);
    let (p, above) = (1.0 / (1u64 << 26) as f64, 1.0 + 1.0 / 1024.0);
    (book.sums[0], book.sums[1]) = (f64::EPSILON, p);
    (book.sums[16], book.sums[17]) = (-p * above, -1.0);
    (book.sums[256], book.sums[257]) = (f64::EPSILON + 2.0 * p, -p * above - 2.0);
    assert_eq!(book.report(AIC_1), Err(12));
    assert_eq!(book.band(0.5, 1), Err(12));
    assert_eq!(book.errors, vec![MARK; TERMS + 1]);
    assert_eq!(book.fit(1), Ok(1));
    assert_eq!(book.coefficients[..2], [1.0, 2.0]);
}

/// With n = k the variance is +0; a negative place of the inverse makes the error −0, t −infinity,
/// and prunes a positive term at df 0.
#[test]
fn report_with_a_negative_zero_error() {
    let mut book = Book::new(2, &LINE[..2]);
    (book.sums[0], book.sums[1]) = (1.0, 1.0);
    (book.sums[16], book.sums[17]) = (-2.0, -1.0);
    (book.sums[256], book.sums[257]) = (3.0, -4.0);
    let answer = book.report(AIC_1).unwrap();
    assert_eq!((answer.degree, answer.pruned), (1, 1));
    assert_eq!(book.errors[..2].iter().map(|v| bits(*v)).collect::<Vec<_>>(), [1 << 63, 0]);
    assert_eq!(book.pruned[..2], [1, 0]);
}

/// Document 02, E3: nine samples whose own sums make an error −0 at df 0; the negative term with it
/// is pruned by size alone.
#[test]
fn report_by_size_with_a_negative_zero_error() {
    let xs = [1.25, 1.59375, 1.21875, 1.265625, 1.953125, 1.375, 1.734375, 1.203125, 1.890625];
    let ys = [4.0, 6.0, 2.0, 1.0, 2.0, 5.0, 8.0, 5.0, 6.0];
    let samples: Vec<(f64, f64)> = xs.into_iter().zip(ys).collect();
    let mut book = Book::new(9, &samples);
    let up_to_8 = Settings { bound: DegreeBound::Custom(8), ..AIC_1 };
    let by_size = Settings { pruning: PruningRule::Size, ..up_to_8 };
    let (positive, size) = (book.report(up_to_8).unwrap(), book.report(by_size).unwrap());
    assert_eq!((positive.degree, size.degree), (8, 8));
    let at = |marks: &[u8]| marks[..9].iter().filter(|mark| **mark == 1).count();
    assert_eq!(at(&book.pruned), size.pruned);
    let minus_zero = |j: &usize| bits(book.errors[*j]) == 1 << 63 && book.coefficients[*j] < 0.0;
    let places: Vec<usize> = (0..9).filter(minus_zero).collect();
    assert!(!places.is_empty() && places.iter().all(|j| book.pruned[*j] == 1));
    assert_eq!(size.pruned, positive.pruned + places.len());
}

/// Document 02, E12. Of y 0, 0, 4 and 8 the mean is 3: sizes 3, 3, 1 and 5, their median 3, distances 0, 0, 2
/// and 2, their median 1. So 1 is below 1.345 and the rest are above.
#[test]
fn losses_of_the_chosen_degree() {
    let mut book = Book::new(4, &[(0.0, 0.0), (0.0, 0.0), (0.0, 4.0), (0.0, 8.0)]);
    let linear = |size: f64| 1.345 * (size - 0.5 * 1.345);
    let losses = [linear(3.0), linear(3.0), 0.5, linear(5.0)];
    let total = ((losses[0] + losses[1]) + losses[2]) + losses[3];
    let answer = book.losses(AIC_1).unwrap();
    assert_eq!((answer.degree, answer.total), (0, total));
    assert_eq!((&book.losses[..4], book.losses[4]), (&losses[..], MARK));
    let likelihood = judge::numbers::ln(total / 4.0);
    assert_eq!(answer.score, 4.0 * likelihood + 2.0);
    let bic = Settings { criterion: Criterion::Bic, ..AIC_1 };
    let score = 4.0 * likelihood + judge::numbers::ln(4.0);
    assert_eq!(book.losses(bic), Ok(LossesAnswer { degree: 0, total, score }));
    // Scratch as a report leaves it; and no weight is seen by a loss, but by the curve.
    assert_eq!((&book.scratch[..4], book.scratch[4]), (&[0.0; 4][..], MARK));
    book.weight[3] = 5.0;
    assert_eq!(book.losses(AIC_1).map(|answer| answer.total), Ok(total));
    assert!(book.coefficients.iter().all(|c| *c == MARK));
}

/// As a report is refused; each memory of its own one place too short.
#[test]
fn losses_are_refused_as_a_report() {
    let mut book = Book::new(17, &[]);
    let nan_score = Settings { confidence: Confidence::Custom(NAN), ..AIC_1 };
    let nan_tolerance = Settings { tolerance: Tolerance::Variance(NAN), ..AIC_1 };
    let wide = Settings { bound: DegreeBound::Custom(20), ..AIC_1 };
    assert_eq!(book.losses(AIC_1), Err(7));
    assert_eq!(book.losses(nan_score), Err(4));
    assert_eq!(book.losses(nan_tolerance), Err(4));
    for i in 0..17 {
        book.add(f64::from(i), 1.0).unwrap();
    }
    assert_eq!(book.losses(wide), Err(8));
    book.y[3] = INFINITY;
    assert_eq!(book.losses(wide), Err(4));
    assert!(book.scratch.iter().all(|v| *v == MARK));
    let shorten: [fn(&mut Book); 4] = [
        |book| book.sums.truncate(PLACES - 1),
        |book| book.scratch.truncate(2),
        |book| book.losses.truncate(2),
        |book| book.weight.truncate(2),
    ];
    for shorten in shorten {
        let mut book = Book::new(3, &LINE);
        // What only a report writes is not judged.
        (book.coefficients, book.lower, book.outlier) = (vec![], vec![], vec![]);
        assert!(book.losses(AIC_1).is_ok());
        book.scratch.fill(MARK);
        shorten(&mut book);
        assert_eq!(book.losses(nan_score), Err(1));
        assert!(book.scratch.iter().all(|v| *v == MARK));
    }
}

/// 11 and 12 where a report has them; scratch is cleared, and no loss is written.
#[test]
fn losses_without_a_report() {
    let mut book = Book::new(2, &[(0.0, f64::MAX), (0.0, f64::MAX)]);
    assert_eq!((book.report(AIC_1), book.losses(AIC_1)), (Err(11), Err(11)));
    assert_eq!((&book.scratch[..2], &book.losses[..2]), (&[0.0; 2][..], &[MARK; 2][..]));
    let mut book = Book::new(2, &LINE[..2]);
    let (p, above) = (1.0 / (1u64 << 26) as f64, 1.0 + 1.0 / 1024.0);
    (book.sums[0], book.sums[1]) = (f64::EPSILON, p);
    (book.sums[16], book.sums[17]) = (-p * above, -1.0);
    (book.sums[256], book.sums[257]) = (f64::EPSILON + 2.0 * p, -p * above - 2.0);
    assert_eq!((book.losses(AIC_1), book.report(AIC_1)), (Err(12), Err(12)));
    assert_eq!((&book.scratch[..2], &book.losses[..2]), (&[0.0; 2][..], &[MARK; 2][..]));
}

/// Of y 0, 0, 4 and 8 at one x degree 0 has the losses of the test above, and degree 1 is unsolved: its
/// second pivot fails. Of 0 to 4 on a line degree 0 has sizes 2, 1, 0, 1 and 2, whose median is 1, distances
/// 1, 0, 1, 0 and 1, their median 1; degree 1 has no loss, and its score is the floor's.
#[test]
fn scores_of_every_degree() {
    let mut book = Book::new(4, &[(0.0, 0.0), (0.0, 0.0), (0.0, 4.0), (0.0, 8.0)]);
    let linear = |size: f64| 1.345 * (size - 0.5 * 1.345);
    let total = ((linear(3.0) + linear(3.0)) + 0.5) + linear(5.0);
    let score = 4.0 * judge::numbers::ln(total / 4.0) + 2.0;
    let answer = ScoresAnswer { degree: 0, bound: 1, solved: 1, least: score, tests: 3 };
    assert_eq!(book.scores(AIC_1), Ok(answer));
    let (mut solved, mut scores) = ([0; TERMS], [0.0; TERMS]);
    (solved[0], scores[0]) = (1, score);
    assert_eq!((&book.solved[..TERMS], book.solved[TERMS]), (&solved[..], 77));
    assert_eq!((&book.scores[..TERMS], book.scores[TERMS]), (&scores[..], MARK));
    assert!(book.scores[1..TERMS].iter().all(|score| bits(*score) == 0));
    assert_eq!((&book.scratch[..4], book.scratch[4]), (&[0.0; 4][..], MARK));
    assert_eq!(book.losses(AIC_1).map(|losses| losses.score), Ok(score));

    let line: Vec<(f64, f64)> = (0..5).map(|i| (f64::from(i), f64::from(i))).collect();
    let mut book = Book::new(5, &line);
    let total = ((linear(2.0) + 0.5) + 0.5) + linear(2.0);
    let flat = 5.0 * judge::numbers::ln(total / 5.0) + 2.0;
    // 5 / 2 is below 4 and 5 above 3: 2 × 2 × 3 / 2 is added.
    let exact = 5.0 * judge::numbers::ln(f64::EPSILON) + 4.0 + 12.0 / 2.0;
    let answer = ScoresAnswer { degree: 1, bound: 1, solved: 2, least: exact, tests: 3 };
    assert_eq!(book.scores(AIC_1), Ok(answer));
    assert_eq!((&book.solved[..3], &book.scores[..3]), (&[1, 1, 0][..], &[flat, exact, 0.0][..]));
    // The chosen one is at most 2 above the least.
    let aic_3 = Settings { bound: DegreeBound::Custom(3), ..AIC_1 };
    let answer = book.scores(aic_3).unwrap();
    let chosen = book.scores[answer.degree];
    assert_eq!((answer.bound, answer.solved, answer.tests), (3, 4, 10));
    assert!(answer.least <= chosen && chosen - answer.least <= 2.0);
}

/// As a report is refused; each memory of its own one place too short.
#[test]
fn scores_are_refused_as_a_report() {
    let mut book = Book::new(17, &[]);
    let nan_score = Settings { confidence: Confidence::Custom(NAN), ..AIC_1 };
    let wide = Settings { bound: DegreeBound::Custom(20), ..AIC_1 };
    assert_eq!((book.scores(AIC_1), book.scores(nan_score)), (Err(7), Err(4)));
    for i in 0..17 {
        book.add(f64::from(i), 1.0).unwrap();
    }
    assert_eq!(book.scores(wide), Err(8));
    book.y[3] = INFINITY;
    assert_eq!(book.scores(wide), Err(4));
    assert!(book.scratch.iter().all(|v| *v == MARK));
    let shorten: [fn(&mut Book); 5] = [
        |book| book.sums.truncate(PLACES - 1),
        |book| book.scratch.truncate(2),
        |book| book.solved.truncate(TERMS - 1),
        |book| book.scores.truncate(TERMS - 1),
        |book| book.weight.truncate(2),
    ];
    for shorten in shorten {
        let mut book = Book::new(3, &LINE);
        // What only a report writes is not judged.
        (book.coefficients, book.lower, book.outlier) = (vec![], vec![], vec![]);
        assert!(book.scores(AIC_1).is_ok());
        (book.scratch.fill(MARK), book.solved.fill(77), book.scores.fill(MARK));
        shorten(&mut book);
        assert_eq!(book.scores(nan_score), Err(1));
        assert!(book.scratch.iter().chain(&book.scores).all(|v| *v == MARK));
        assert!(book.solved.iter().all(|byte| *byte == 77));
    }
}

/// 11 and 12 where a report has them; scratch is cleared, and neither byte nor score is written.
#[test]
fn scores_without_a_report() {
    let mut book = Book::new(2, &[(0.0, f64::MAX), (0.0, f64::MAX)]);
    assert_eq!((book.report(AIC_1), book.scores(AIC_1)), (Err(11), Err(11)));
    assert_eq!((&book.scratch[..2], &book.scores[..2]), (&[0.0; 2][..], &[MARK; 2][..]));
    let mut book = Book::new(2, &LINE[..2]);
    let (p, above) = (1.0 / (1u64 << 26) as f64, 1.0 + 1.0 / 1024.0);
    (book.sums[0], book.sums[1]) = (f64::EPSILON, p);
    (book.sums[16], book.sums[17]) = (-p * above, -1.0);
    (book.sums[256], book.sums[257]) = (f64::EPSILON + 2.0 * p, -p * above - 2.0);
    assert_eq!((book.scores(AIC_1), book.report(AIC_1)), (Err(12), Err(12)));
    assert_eq!((&book.scratch[..2], &book.scores[..2]), (&[0.0; 2][..], &[MARK; 2][..]));
    assert!(book.solved.iter().all(|byte| *byte == 77));
}

#[test]
fn validate_answers_the_single_fit() {
    let mut book = Book::new(5, &[(0.0, 0.0), (1.0, 1.0), (2.0, 2.0), (3.0, 3.0), (4.0, 4.0)]);
    assert_eq!(book.validate(2, 1), Ok(1));
    assert_eq!(book.coefficients[..3], [0.0, 1.0, 0.0]);
    // A fold of one sample has no deviation, so no loss at any degree: the lowest degree is chosen.
    assert_eq!(book.validate(5, 1), Ok(0));
    assert_eq!(book.scratch, [0.0, 0.0, 0.0, 0.0, 0.0, MARK]);
    for folds in [0, 1, 6] {
        assert_eq!(book.validate(folds, 1), Err(7));
    }
    // The folds solve from the columns, the answer from the lent sums.
    book.sums[0] = 0.0;
    assert_eq!(book.validate(2, 1), Err(10));
    book.x[4] = INFINITY;
    assert_eq!(book.validate(0, 1), Err(4));
}

/// A fold without the far x solves degree 2, the whole list does not: 10 from the ledger's own sums.
#[test]
fn validate_chooses_an_unsolved_degree() {
    let near = [(0.0, 0.0), (1.0, 1.0), (2.0, 4.0), (3.0, 9.0), (4.0, 16.0)];
    let mut book = Book::new(6, &near);
    book.add(1e9, 0.0).unwrap();
    assert_eq!(book.validate(2, 2), Err(10));
    assert_eq!(book.fit(2), Err(10));
}

#[test]
fn validate_without_a_choice() {
    let mut book = Book::new(4, &[(0.0, f64::MAX); 4]);
    assert_eq!(book.validate(2, 1), Err(11));
    assert_eq!(book.coefficients, vec![MARK; TERMS + 1]);
}

#[test]
fn band_is_refused_in_order() {
    let mut book = Book::new(3, &[]);
    assert_eq!(book.band(0.0, 0), Err(7));
    assert_eq!(book.band(NAN, 0), Err(4));
    for (x, y) in LINE {
        book.add(x, y).unwrap();
    }
    assert_eq!(book.band(9.0, 3), Err(8));
    assert_eq!(book.band(9.0, 2), Err(9));
    assert_eq!(book.band(2.0 + 2.0 * f64::EPSILON, 1), Err(9));
    assert_eq!(book.scratch, vec![MARK; 4]);
    // Zeros of both signs lie within each other.
    let band = book.band(-0.0, 1).unwrap();
    assert_eq!((band.value, band.lower, band.upper), (1.0, 1.0, 1.0));
    assert_eq!(book.scratch, [0.0, 0.0, 0.0, MARK]);
}

#[test]
fn count_above_capacity() {
    let mut book = Book::new(3, &LINE);
    book.y.truncate(2);
    assert_eq!(book.add(0.0, 0.0), Err(1));
    assert_eq!(book.withdraw(0), Err(1));
    assert_eq!(book.fit(0), Err(1));
    assert_eq!(book.report(AIC_1), Err(1));
    assert_eq!(book.validate(2, 1), Err(1));
    assert_eq!(book.band(0.0, 0), Err(1));
    book.count = 2;
    assert_eq!(book.add(0.0, 0.0), Err(5));
}

/// At most 4,096 samples, however long the columns.
#[test]
fn count_above_4096() {
    let mut book = Book::new(4100, &[]);
    book.count = 4096;
    assert_eq!(book.add(0.0, 0.0), Err(5));
    assert_eq!(book.add_frame(&encode(&[Sample::unweighted(0.0, 0.0)])), Err(5));
    book.sums[0] = 4096.0;
    assert_eq!(book.fit(0), Ok(0));
    book.count = 4097;
    assert_eq!(book.add(0.0, 0.0), Err(1));
    assert_eq!(book.fit(0), Err(1));
    assert_eq!(book.withdraw(4096), Err(1));
}

/// A sample of the given weight.
fn weighing(x: f64, y: f64, weight: f64) -> Sample {
    Sample { x, y, weight }
}

/// All powers of 1 are 1: A is the sum of the weights, g that of the weighted y's.
#[test]
fn sums_of_weighted_samples() {
    let mut book = Book::new(3, &[]);
    assert_eq!(book.add_weighted(weighing(1.0, 2.0, 3.0)), Ok(1));
    assert_eq!(book.sums[..256], [3.0; 256]);
    assert_eq!(book.sums[256..], [[6.0; 16].as_slice(), &[MARK]].concat());
    assert_eq!(book.add_weighted(weighing(1.0, 2.0, 3.0)), Ok(2));
    assert_eq!(book.sums[..256], [6.0; 256]);
    assert_eq!(book.add_weighted(weighing(2.0, 3.0, 0.5)), Ok(3));
    assert_eq!((book.sums[0], book.sums[1], book.sums[17]), (6.5, 7.0, 8.0));
    assert_eq!((book.sums[255], book.sums[256], book.sums[257]), (536870918.0, 13.5, 15.0));
    assert_eq!(book.weight, [3.0, 3.0, 0.5]);
}

/// First the two factors, whose product is 0 here, then the weight.
#[test]
fn grouping_of_a_product() {
    let mut book = Book::new(1, &[]);
    assert_eq!(book.add_weighted(weighing(1e-200, 1e-200, 1e300)), Ok(1));
    assert_eq!((book.sums[0], book.sums[1], book.sums[17]), (1e300, 1e-200 * 1e300, 0.0));
    assert_eq!((book.sums[256], book.sums[257]), (1e-200 * 1e300, 0.0));
}

/// 4 where a weight is not finite, 15 where it is not above zero, in this order and before 5.
#[test]
fn weights_are_refused_in_order() {
    let mut book = Book::new(1, &[]);
    let weights = [
        (0.0, 15),
        (-0.0, 15),
        (-5e-324, 15),
        (-1.0, 15),
        (-f64::MAX, 15),
        (NAN, 4),
        (INFINITY, 4),
        (-INFINITY, 4),
    ];
    for full in [false, true] {
        for (weight, number) in weights {
            let sample = weighing(1.0, 2.0, weight);
            assert_eq!(book.add_weighted(sample), Err(number));
            assert_eq!(book.add_frame(&encode_weighted(&[sample])), Err(number));
            assert_eq!(book.add_weighted(weighing(NAN, 2.0, weight)), Err(4));
            assert_eq!(book.add_weighted(weighing(1.0, INFINITY, weight)), Err(4));
        }
        assert_eq!(book.count, usize::from(full));
        // The least weight of all passes.
        let least = weighing(1.0, 2.0, 5e-324);
        assert_eq!(book.add_weighted(least), if full { Err(5) } else { Ok(1) });
    }
    assert_eq!((book.weight[0], book.sums[0]), (5e-324, 5e-324));
    book.sums.truncate(PLACES - 1);
    assert_eq!(book.add_weighted(weighing(NAN, 2.0, 0.0)), Err(1));
}

/// All samples of a frame by 4, then all by 15; 5 comes later, and 2 and 3 come first.
#[test]
fn frames_with_weights() {
    let [right, heavy] = [weighing(1.0, 2.0, 3.0), weighing(2.0, 3.0, 0.5)];
    let [zero, bad] = [weighing(1.0, 2.0, 0.0), weighing(NAN, 2.0, 3.0)];
    let mut book = Book::new(2, &[]);
    assert_eq!(book.add_frame(&encode_weighted(&[])), Ok(0));
    assert_eq!(book.add_frame(&encode_weighted(&[zero, bad])), Err(4));
    assert_eq!(book.add_frame(&encode_weighted(&[bad, zero])), Err(4));
    assert_eq!(book.add_frame(&encode_weighted(&[right, right, zero])), Err(15));
    assert_eq!(book.add_frame(&encode_weighted(&[zero, right, right])), Err(15));
    assert_eq!(book.add_frame(&encode_weighted(&[right, right, right])), Err(5));
    // A third version has no weights: 24 bytes are 2, 48 are 3.
    let mut third = encode_weighted(&[zero]);
    third[2] = 3;
    assert_eq!(book.add_frame(&third), Err(2));
    let mut third = encode_weighted(&[zero, bad]);
    third[2] = 3;
    assert_eq!(book.add_frame(&third), Err(3));
    // A frame of version 1 with the bytes of one of version 2, and the other way round.
    let mut first = encode_weighted(&[right, heavy]);
    first[2] = 1;
    assert_eq!(book.add_frame(&first), Err(5));
    let mut second = encode(&[right]);
    second[2] = 2;
    assert_eq!(book.add_frame(&second), Err(2));

    assert_eq!((book.count, book.weight[0]), (0, MARK));
    assert_eq!(book.add_frame(&encode_weighted(&[right])), Ok(1));
    assert_eq!(book.add_frame(&encode(&[heavy])), Ok(2));
    assert_eq!((&book.weight[..], book.sums[0]), (&[3.0, 1.0][..], 4.0));
}

/// A correction keeps the weight and judges none; a withdrawal moves it with its sample.
#[test]
fn changes_of_weighted_samples() {
    let mut book = Book::new(3, &[]);
    for sample in [weighing(1.0, 2.0, 3.0), weighing(2.0, 3.0, 0.5), weighing(3.0, 1.0, 2.0)] {
        book.add_weighted(sample).unwrap();
    }
    assert_eq!((book.sums[0], book.sums[1], book.sums[256]), (5.5, 10.0, 9.5));
    assert_eq!(book.correct(1, 7.0), Ok(3));
    assert_eq!((book.sums[1], book.sums[256], book.sums[257]), (10.0, 11.5, 19.0));
    assert_eq!(book.weight, [3.0, 0.5, 2.0]);
    assert_eq!(book.withdraw(0), Ok(2));
    // The vacated last place keeps its value.
    assert_eq!(book.weight, [0.5, 2.0, 2.0]);
    assert_eq!((book.sums[0], book.sums[1], book.sums[256]), (2.5, 7.0, 5.5));
    book.weight[0] = -1.0;
    assert_eq!(book.correct(0, 7.0), Ok(2));
    assert_eq!(book.sums[256], -5.0);
    book.weight[1] = NAN;
    assert_eq!(book.correct(0, 7.0), Ok(2));
    assert!(book.sums[256].is_nan());
    assert_eq!(book.withdraw(1), Ok(1));
    assert_eq!((book.sums[0], book.sums[256]), (-1.0, -7.0));
}

/// The calls that read judge weights below the count by 4 alone.
#[test]
fn weights_below_the_count() {
    let mut book = Book::new(4, &LINE);
    book.weight[3] = NAN;
    assert_eq!(book.fit(1), Ok(1));
    for weight in [NAN, INFINITY, -INFINITY] {
        book.weight[2] = weight;
        assert_eq!(book.fit(usize::MAX), Err(4));
        assert_eq!(book.report(AIC_1), Err(4));
        assert_eq!(book.validate(0, 1), Err(4));
        assert_eq!(book.band(9.0, 9), Err(4));
    }
    // One that is not above zero is read as it is; the sums are, too.
    for weight in [0.0, -0.0, -1.0] {
        book.weight[2] = weight;
        assert_eq!(book.fit(1), Ok(1));
        assert_eq!(book.report(AIC_1).map(|answer| answer.degree), Ok(0));
        assert!(book.band(1.0, 1).is_ok());
    }
    assert_eq!(book.validate(3, 0), Ok(0));
}

/// Of (0, 1) and twice (0, 4): mean 3, residuals −2 and 1, which no weight touches; variance 5, and the
/// inverse of the weights' sum.
#[test]
fn report_of_weighted_samples() {
    let mut book = Book::new(2, &[(0.0, 1.0)]);
    book.add_weighted(weighing(0.0, 4.0, 2.0)).unwrap();
    let answer = book.report(AIC_1).unwrap();
    assert_eq!((answer.degree, answer.solved, answer.outliers), (0, 1, 0));
    let error = f64::sqrt(1.0 / 3.0 * 5.0);
    assert_eq!((book.coefficients[0], book.errors[0]), (3.0, error));
    assert_eq!(book.lower[..2], [3.0 - 1.959 * error; 2]);
    assert_eq!(book.upper[..2], [3.0 + 1.959 * error; 2]);
}

/// The shortest of the three columns is the capacity.
#[test]
fn capacity_by_the_weights() {
    let mut book = Book::new(3, &LINE[..2]);
    book.weight.truncate(2);
    assert_eq!(book.add(2.0, 5.0), Err(5));
    assert_eq!(book.add_weighted(weighing(2.0, 5.0, 0.0)), Err(15));
    assert_eq!(book.add_frame(&encode(&[Sample::unweighted(2.0, 5.0)])), Err(5));
    assert_eq!(book.add_lines("2 5\n"), Err(5));
    assert_eq!(book.fit(1), Ok(1));
    book.weight.truncate(1);
    assert_eq!(book.add_weighted(weighing(NAN, 5.0, 0.0)), Err(1));
    assert_eq!(book.add_frame(&[]), Err(1));
    assert_eq!(book.add_lines("x"), Err(1));
    assert_eq!((book.correct(0, 1.0), book.withdraw(0)), (Err(1), Err(1)));
    assert_eq!((book.fit(1), book.validate(2, 1)), (Err(1), Err(1)));
    assert_eq!((book.report(AIC_1), book.band(0.0, 1)), (Err(1), Err(1)));
}

/// Document 02, E11: with room it is an add; at a full book sample 0 goes first, and all sums are folded afresh.
#[test]
fn window_keeps_the_newest() {
    let mut book = Book::new(3, &[]);
    for (i, &(x, y)) in LINE.iter().enumerate() {
        assert_eq!(book.add_window(Sample::unweighted(x, y)), Ok(i + 1));
    }
    assert!(book.is_folded(&LINE));
    book.sums[0] = MARK;
    assert_eq!(book.add_window(weighing(7.0, 8.0, 1.0)), Ok(3));
    assert_eq!((&book.x[..], &book.y[..]), (&[1.0, 2.0, 7.0][..], &[3.0, 5.0, 8.0][..]));
    assert!(book.is_folded(&[LINE[1], LINE[2], (7.0, 8.0)]));
    // Frames, lines and plain adds still find no room.
    assert_eq!(book.add(9.0, 9.0), Err(5));
    assert_eq!(book.add_frame(&encode(&[Sample::unweighted(9.0, 9.0)])), Err(5));
    assert_eq!(book.add_lines("9 9\n"), Err(5));
    // Room again: the place past the count held what the withdrawal left.
    assert_eq!((book.withdraw(1), book.x[2]), (Ok(2), 7.0));
    assert_eq!(book.add_window(weighing(9.0, 9.0, 0.5)), Ok(3));
    assert_eq!((&book.x[..], &book.weight[..]), (&[1.0, 7.0, 9.0][..], &[1.0, 1.0, 0.5][..]));
}

/// A refused one withdraws nothing; 5 comes where capacity is zero, and nowhere else.
#[test]
fn window_is_refused_in_order() {
    let mut book = Book::new(2, &LINE[..2]);
    let wrong = [
        (weighing(NAN, 1.0, 0.0), 4),
        (weighing(1.0, INFINITY, 1.0), 4),
        (weighing(1.0, 1.0, NAN), 4),
        (weighing(1.0, 1.0, 0.0), 15),
        (weighing(1.0, 1.0, -1.0), 15),
    ];
    for (sample, number) in wrong {
        assert_eq!(book.add_window(sample), Err(number));
    }
    assert_eq!((book.count, &book.x[..]), (2, &[0.0, 1.0][..]));
    assert!(book.is_folded(&LINE[..2]));
    book.count = 3;
    assert_eq!(book.add_window(weighing(NAN, 1.0, 0.0)), Err(1));
    book.count = 2;
    book.sums.truncate(PLACES - 1);
    assert_eq!(book.add_window(weighing(1.0, 1.0, 1.0)), Err(1));
    assert_eq!(book.x, [0.0, 1.0]);
    let mut none = Book::new(0, &[]);
    assert_eq!(none.add_window(weighing(1.0, 1.0, 1.0)), Err(5));
    assert_eq!(none.add_window(weighing(1.0, 1.0, 0.0)), Err(15));
    assert_eq!(none.add_window(weighing(1.0, NAN, 0.0)), Err(4));
}

/// A window of one holds the last sample, and one of 4,096 in longer columns leaves the places past them.
#[test]
fn windows_of_1_and_4096() {
    let mut book = Book::new(1, &[]);
    for i in 0..3 {
        let sample = weighing(f64::from(i), 2.0, 3.0);
        assert_eq!(book.add_window(sample), Ok(1));
        assert_eq!((book.x[0], book.sums[..PLACES].to_vec()), (sample.x, folded_afresh(&[sample])));
    }
    let mut book = Book::new(4100, &[]);
    for i in 0..4098 {
        assert_eq!(book.add_window(weighing(f64::from(i), 1.0, 1.0)), Ok(4096.min(i as usize + 1)));
    }
    assert_eq!((book.x[0], book.x[4095], book.x[4096]), (2.0, 4097.0, MARK));
}

/// Document 02, E6: the weights below the count become 1, and nothing else changes, whatever stands there.
#[test]
fn carry_writes_the_weights_below_the_count() {
    let mut book = Book::new(4, &LINE);
    book.weight = vec![NAN, 0.0, -3.0, MARK, INFINITY];
    book.sums[5] = MARK;
    book.y[1] = NAN;
    let (x, y, sums) = (book.x.clone(), book.y.clone(), book.sums.clone());
    assert_eq!(book.carry(), Ok(3));
    assert_eq!(book.weight, [1.0, 1.0, 1.0, MARK, INFINITY]);
    let same = |a: &[f64], b: &[f64]| a.iter().zip(b).all(|(a, b)| bits(*a) == bits(*b));
    assert!(same(&book.x, &x) && same(&book.y, &y) && same(&book.sums, &sums));
    // No sample, no weight.
    let mut none = Book::new(2, &[]);
    assert_eq!(none.carry(), Ok(0));
    assert_eq!(none.weight, [MARK, MARK]);
}

/// A full book is carried; one above the capacity of the three columns, or on short sums, is not.
#[test]
fn carry_is_refused_by_1_alone() {
    let mut book = Book::new(3, &LINE);
    book.weight = vec![NAN; 3];
    assert_eq!(book.carry(), Ok(3));
    assert_eq!(book.weight, [1.0; 3]);
    book.weight = vec![MARK; 2];
    assert_eq!((book.carry(), &book.weight[..]), (Err(1), &[MARK; 2][..]));
    book.weight = vec![MARK; 3];
    for column in [0, 1] {
        let mut book = Book::new(3, &LINE);
        [&mut book.x, &mut book.y][column].truncate(2);
        assert_eq!(book.carry(), Err(1));
    }
    book.sums.truncate(PLACES - 1);
    assert_eq!((book.carry(), &book.weight[..]), (Err(1), &[MARK; 3][..]));
    let mut book = Book::new(4100, &[]);
    book.count = 4096;
    assert_eq!(book.carry(), Ok(4096));
    assert_eq!(book.weight[4095..4097], [1.0, MARK]);
    book.count = 4097;
    assert_eq!((book.carry(), book.weight[4096]), (Err(1), MARK));
}

/// E6's sentence on one book: two-column calls, a refused one too, then carried; beside it a weighted book
/// given those not refused at weight 1.
#[test]
fn carry_of_a_two_column_book() {
    let mut carried = Book::new(4, &[]);
    for (x, y) in [(0.5, 2.0), (NAN, 0.0), (1.1, -0.3), (1.7, 5.0)] {
        let mut memory =
            two_column::Memory { x: &mut carried.x, y: &mut carried.y, sums: &mut carried.sums };
        carried.count = two_column::add(carried.count, &mut memory, x, y).unwrap_or(carried.count);
    }
    assert_eq!(carried.weight, [MARK; 4]);
    assert_eq!(carried.carry(), Ok(3));
    let mut book = Book::new(4, &[(0.5, 2.0), (1.1, -0.3), (1.7, 5.0)]);
    for book in [&mut carried, &mut book] {
        assert_eq!(book.correct(1, 0.25), Ok(3));
        assert_eq!(book.add_weighted(weighing(2.0, 1.0, 0.5)), Ok(4));
        assert_eq!(book.withdraw(0), Ok(3));
    }
    assert_eq!(carried.report(AIC_1), book.report(AIC_1));
    assert_eq!((&carried.x[..3], &carried.y[..3]), (&book.x[..3], &book.y[..3]));
    assert_eq!((&carried.weight[..3], carried.sums), (&book.weight[..3], book.sums));
    assert_eq!((carried.coefficients, carried.errors), (book.coefficients, book.errors));
}

/// A step: 1, 1, 1 and then 5, 5, 5, at whole x.
const STEP: [(f64, f64); 6] =
    [(0.0, 1.0), (1.0, 1.0), (2.0, 1.0), (3.0, 5.0), (4.0, 5.0), (5.0, 5.0)];

const AIC_0: Settings = Settings { bound: DegreeBound::Custom(0), ..AIC_1 };

/// Document 02, E8: three breaks, each side one pivot. After 2 the rest leaves −3, 1, 1, 1, whose median absolute
/// deviation is 0, so that both sides score as if they were exact, as at 3; but three samples on a side cost
/// 2 × 1 × 2 / 1 more, n / k being below 4. The lent sums are not read.
#[test]
fn split_writes_both_fits() {
    let mut book = Book::new(7, &STEP);
    book.sums.fill(NAN);
    let answer = book.split(AIC_0, 6).unwrap();
    let floor = judge::numbers::ln(f64::EPSILON);
    let total = (2.0 * floor + 2.0) + (4.0 * floor + 2.0);
    let expected = SplitAnswer { total, b: 2, tests: 6, degree_before: 0, degree_after: 0 };
    assert_eq!(answer, expected);
    let terms = |first: f64| {
        let mut terms = vec![0.0; TERMS];
        terms[0] = first;
        terms.push(MARK);
        terms.iter().map(|v| bits(*v)).collect::<Vec<_>>()
    };
    let places = |places: &[f64]| places.iter().map(|v| bits(*v)).collect::<Vec<_>>();
    assert_eq!((places(&book.before), places(&book.after)), (terms(1.0), terms(4.0)));
    assert_eq!(book.scratch, [0.0, 0.0, 0.0, 0.0, 0.0, 0.0, MARK, MARK]);
    assert_eq!((book.coefficients[0], book.errors[0], book.lower[0]), (MARK, MARK, MARK));
}

/// One test too few gives 16, before 11; scratch is cleared, and nothing is written.
#[test]
fn split_past_its_limit() {
    let mut book = Book::new(6, &STEP);
    let none = Book::new(6, &[(0.0, f64::MAX); 4]);
    assert_eq!(book.split(AIC_0, 5), Err(16));
    assert_eq!(book.scratch, [0.0, 0.0, 0.0, 0.0, 0.0, 0.0, MARK]);
    assert_eq!((&book.before, &book.after), (&none.before, &none.after));
    assert!(book.split(AIC_0, usize::MAX).is_ok());
    let mut book = none;
    assert_eq!((book.split(AIC_0, 1), book.split(AIC_0, 2)), (Err(16), Err(11)));
    assert_eq!(book.scratch[..5], [0.0, 0.0, 0.0, 0.0, MARK]);
    assert_eq!((book.before, book.after), (vec![MARK; TERMS + 1], vec![MARK; TERMS + 1]));
}

#[test]
fn split_is_refused_in_order() {
    let mut book = Book::new(17, &LINE);
    let nan_score = Settings { confidence: Confidence::Custom(NAN), ..AIC_1 };
    let nan_tolerance = Settings { tolerance: Tolerance::Variance(NAN), ..AIC_1 };
    let wide = Settings { bound: DegreeBound::Custom(20), ..AIC_1 };
    assert_eq!(book.split(AIC_1, 0), Err(7));
    assert_eq!((book.split(nan_score, 0), book.split(nan_tolerance, 0)), (Err(4), Err(4)));
    for i in 3..16 {
        book.add(f64::from(i), 1.0).unwrap();
    }
    assert_eq!(book.split(wide, 0), Err(16), "bounded by n - 1, which is 15");
    book.scratch.fill(MARK);
    book.add(16.0, 1.0).unwrap();
    assert_eq!(book.split(wide, 0), Err(8));
    book.weight[16] = INFINITY;
    assert_eq!(book.split(wide, 0), Err(4));
    book.before.truncate(TERMS - 1);
    assert_eq!(book.split(wide, 0), Err(1));
    assert_eq!(book.scratch, vec![MARK; 18]);
}

/// Each memory one place too short, also where the call would be refused later.
#[test]
fn split_on_short_memory() {
    let shorten: [fn(&mut Book); 6] = [
        |book| book.sums.truncate(PLACES - 1),
        |book| book.scratch.truncate(5),
        |book| book.before.truncate(TERMS - 1),
        |book| book.after.truncate(TERMS - 1),
        |book| book.weight.truncate(5),
        |book| book.count = 7,
    ];
    for shorten in shorten {
        let mut book = Book::new(6, &STEP);
        shorten(&mut book);
        let nan_tolerance = Settings { tolerance: Tolerance::Absolute(NAN), ..AIC_0 };
        assert_eq!((book.split(AIC_0, 6), book.split(nan_tolerance, 6)), (Err(1), Err(1)));
        assert!(book.scratch.iter().all(|v| *v == MARK));
    }
}
