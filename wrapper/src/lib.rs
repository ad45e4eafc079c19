//! The stake book: the samples of one season, curves fitted to them, the degree chosen for them, and
//! bands around them.
//!
//! The work is done by the static library `libcapi.a`, each of whose functions is proved to answer
//! and to write what its definition says, for every input. [`Book`] owns all memory that these
//! functions are lent, so that none of it is too short and none overlaps.
//!
//! A book of capacity n is a window of the latest n samples, where they are added by
//! [`Book::add_window`].
//!
//! [`TwoColumnBook`] is for a season that was begun before samples had weights; it is carried into a
//! [`Book`]. [`Surface`] fits samples with two coordinates. An [`Allowance`] bounds what each of eight
//! course groups may ask of one machine. A [`Season`] holds the 32 stakes of a glacier.
//!
//! A call needs at most 40 KB of stack. What it takes in time, and how both were measured, is said
//! in `include/stakebook.h`.
//!
//! ```
//! use stakebook::{
//!     Book, Confidence, Criterion, DegreeBound, PruningRule, Refusal, Settings, Tolerance,
//! };
//!
//! let mut book = Book::with_capacity(100);
//! for i in 0..4 {
//!     book.add(f64::from(i), 1.0 + 2.0 * f64::from(i))?;
//! }
//! // A pit dug by two people counts twice.
//! book.add_weighted(1.5, 3.5, 2.0)?;
//! book.correct(4, 4.0)?;
//! let fit = book.fit(1)?;
//! assert_eq!(fit.coefficients(), [1.0, 2.0]);
//!
//! let settings = Settings {
//!     bound: DegreeBound::Custom(2),
//!     criterion: Criterion::Aic,
//!     confidence: Confidence::P95,
//!     tolerance: Tolerance::None,
//!     pruning: PruningRule::default(),
//! };
//! let report = book.report(settings)?;
//! assert_eq!((report.degree, report.solved, report.outliers()), (1, 3, 0));
//! assert_eq!(book.add(f64::NAN, 0.0), Err(Refusal::NotFinite));
//! assert_eq!(book.add_weighted(5.0, 11.0, 0.0), Err(Refusal::WeightNotAboveZero));
//! assert_eq!(book.len(), 5);
//! # Ok::<(), Refusal>(())
//! ```

mod groups;
mod refusal;
mod season;
mod settings;
mod surface;
pub mod sys;
mod two_column;

pub use groups::Allowance;
pub use refusal::Refusal;
pub use season::{Season, SeasonReport};
pub use settings::{Confidence, Criterion, DegreeBound, PruningRule, Settings, Tolerance};
pub use surface::{Surface, SurfaceFit};
pub use two_column::{NotCarried, TwoColumnBook};

/// The most samples that a book can hold.
pub const MOST: usize = 4096;

/// The places of the sums.
pub const SUMS: usize = 272;

/// The places of coefficients, errors and pruning bytes.
const TERMS: usize = 16;

/// The samples of one season, with the sums over them.
#[derive(Debug, Clone)]
pub struct Book {
    count: usize,
    xs: Vec<f64>,
    ys: Vec<f64>,
    ws: Vec<f64>,
    sums: [f64; SUMS],
    scratch: Vec<f64>,
    coefficients: [f64; TERMS],
    errors: [f64; TERMS],
    pruned: [u8; TERMS],
    lower: Vec<f64>,
    upper: Vec<f64>,
    outliers: Vec<u8>,
    losses: Vec<f64>,
}

/// A curve of some degree.
#[derive(Debug, Clone, Copy, PartialEq)]
pub struct Fit {
    pub degree: usize,
    terms: [f64; TERMS],
}

/// The curve's value at some x, and the band around it: where the curve lies, not single readings.
#[derive(Debug, Clone, Copy, PartialEq)]
pub struct Band {
    pub value: f64,
    pub lower: f64,
    pub upper: f64,
}

/// A list broken in two, each side with a curve of its own.
#[derive(Debug, Clone, Copy, PartialEq)]
pub struct Split {
    /// The sum of the two chosen scores, the least of all breaks.
    pub total: f64,
    /// How many samples lie before the break: the index of the first one after it.
    pub samples_before: usize,
    /// The pivot tests of the whole search: a limit of so many lets the same split through.
    pub tests: usize,
    /// The curves before the break and after it.
    pub before: Fit,
    pub after: Fit,
}

/// What a report found. Its lists are the book's, until the next call.
#[derive(Debug, Clone, Copy, PartialEq)]
pub struct Report<'a> {
    /// The chosen degree, and how many of the degrees from 0 to the bound were solved.
    pub degree: usize,
    pub solved: usize,
    /// The coefficients of the curve and their errors, degree + 1 of each, or of the surface, as many
    /// as its total degree has terms.
    pub coefficients: &'a [f64],
    pub errors: &'a [f64],
    /// For each coefficient 1 if it is pruned as insignificant, else 0.
    pub pruned: &'a [u8],
    /// For each sample the band of the curve, and 1 if its y lies outside of it, else 0. Many good
    /// readings do: see [`Book::report`].
    pub lower: &'a [f64],
    pub upper: &'a [f64],
    pub outlying: &'a [u8],
    counts: (usize, usize),
}

/// The losses behind a report's choice. Their list is the book's, until the next call.
#[derive(Debug, Clone, Copy, PartialEq)]
pub struct Losses<'a> {
    /// The chosen degree.
    pub degree: usize,
    /// The Huber loss of each sample's distance from the curve, in the order in which they were
    /// added.
    pub losses: &'a [f64],
    /// The losses added up in that order from +0, and the score made of this total.
    pub total: f64,
    pub score: f64,
}

/// The degrees that a report chooses from, with their scores.
#[derive(Debug, Clone, Copy, PartialEq)]
pub struct Scores {
    /// The chosen degree: the lowest solved one whose score is at most 2 above the least.
    pub degree: usize,
    /// The highest degree that was tried.
    pub bound: usize,
    /// How many degrees were solved.
    pub solved: usize,
    /// The least score of a solved degree.
    pub least: f64,
    /// The pivot tests that all degrees took.
    pub tests: usize,
    marks: [u8; TERMS],
    values: [f64; TERMS],
}

impl Scores {
    /// What scores answered and wrote.
    fn of(answer: u64, marks: [u8; TERMS], values: [f64; TERMS], [least]: [f64; 1]) -> Scores {
        Scores {
            degree: sys::degree(answer),
            bound: sys::bound(answer),
            solved: sys::solved(answer),
            least,
            tests: sys::tests(answer),
            marks,
            values,
        }
    }

    /// The score of a degree; none where it is unsolved or past the bound.
    pub fn score(&self, degree: usize) -> Option<f64> {
        match self.marks.get(degree) {
            Some(1) => Some(self.values[degree]),
            _ => None,
        }
    }

    /// The scores of the degrees from 0 to the bound.
    pub fn all(&self) -> impl Iterator<Item = Option<f64>> + '_ {
        (0..=self.bound).map(|degree| self.score(degree))
    }
}

impl Fit {
    /// The coefficients, degree + 1 of them, the constant one first.
    pub fn coefficients(&self) -> &[f64] {
        &self.terms[..=self.degree]
    }
}

impl Split {
    /// What a split answered and wrote.
    fn of(answer: u64, before: [f64; TERMS], after: [f64; TERMS], [total]: [f64; 1]) -> Split {
        Split {
            total,
            samples_before: sys::samples_before(answer),
            tests: sys::tests(answer),
            before: Fit { degree: sys::degree(answer), terms: before },
            after: Fit { degree: sys::degree_after(answer), terms: after },
        }
    }
}

impl Report<'_> {
    /// How many samples lie outside their bands: not how many are bad, see [`Book::report`].
    pub fn outliers(&self) -> usize {
        self.counts.0
    }

    /// How many terms are pruned.
    pub fn pruned_terms(&self) -> usize {
        self.counts.1
    }
}

/// Calls a function of the library: its numbers, then the slices that it is lent.
macro_rules! lend {
    ($function:ident($($number:expr),*; $($slice:expr),*)) => {
        // SAFETY: the slices are the book's or the surface's own or local, so they are apart, and each has the
        // length given. A frame, a text or a list of settings, which stands among the numbers,
        // is only read.
        unsafe { sys::$function($($number),*, $($slice.as_mut_ptr(), $slice.len()),*) }
    };
}
pub(crate) use lend;

/// The answer, unless it is a refusal.
fn judged(answer: u64) -> Result<u64, Refusal> {
    match Refusal::of(sys::refusal(answer)) {
        Some(refusal) => Err(refusal),
        None => Ok(answer),
    }
}

impl Book {
    /// An empty book with room for so many samples, at most 4,096.
    pub fn with_capacity(capacity: usize) -> Book {
        let room = capacity.min(MOST);
        let column = || vec![0.0; room];
        let mut book = Book::carried(0, [column(), column(), column()], [0.0; SUMS]);
        book.clear();
        book
    }

    /// The samples below the count in these columns, with their sums, and room for all that is read.
    fn carried(count: usize, [xs, ys, ws]: [Vec<f64>; 3], sums: [f64; SUMS]) -> Book {
        let room = xs.len().min(ys.len()).min(ws.len()).min(MOST);
        Book {
            count,
            xs,
            ys,
            ws,
            sums,
            scratch: vec![0.0; room],
            coefficients: [0.0; TERMS],
            errors: [0.0; TERMS],
            pruned: [0; TERMS],
            lower: vec![0.0; room],
            upper: vec![0.0; room],
            outliers: vec![0; room],
            losses: vec![0.0; room],
        }
    }

    /// Takes all samples out.
    pub fn clear(&mut self) {
        // SAFETY: the sums are this book's own, of the length given.
        let answer = unsafe { sys::stakebook_open(self.sums.as_mut_ptr(), SUMS) };
        self.count = sys::count(answer);
    }

    /// How many samples the book holds.
    pub fn len(&self) -> usize {
        self.count
    }

    pub fn is_empty(&self) -> bool {
        self.count == 0
    }

    pub fn capacity(&self) -> usize {
        self.scratch.len()
    }

    /// The x's of the samples, in the order in which they were added.
    pub fn xs(&self) -> &[f64] {
        &self.xs[..self.count]
    }

    /// The y's of the samples.
    pub fn ys(&self) -> &[f64] {
        &self.ys[..self.count]
    }

    /// The weights of the samples.
    pub fn ws(&self) -> &[f64] {
        &self.ws[..self.count]
    }

    /// The 272 sums: A by rows, then g.
    pub fn sums(&self) -> &[f64] {
        &self.sums
    }

    fn changed(&mut self, answer: u64) -> Result<(), Refusal> {
        self.count = sys::count(judged(answer)?);
        Ok(())
    }

    /// One sample of weight 1 at the end. Refused by [`Refusal::NotFinite`] and [`Refusal::Full`].
    pub fn add(&mut self, x: f64, y: f64) -> Result<(), Refusal> {
        self.add_weighted(x, y, 1.0)
    }

    /// One sample at the end, which pulls the curve as much as its weight says. Refused by
    /// [`Refusal::NotFinite`], [`Refusal::WeightNotAboveZero`] and [`Refusal::Full`].
    ///
    /// Residuals, scores, the variance and tolerances don't see the weight. Errors and bands see it
    /// in the sums alone, so that its size counts: four times all weights leave the curve where it
    /// is and halve its errors, as long as they are large beside 2⁻⁵². Take 1 for a plain sample.
    pub fn add_weighted(&mut self, x: f64, y: f64, weight: f64) -> Result<(), Refusal> {
        let answer =
            lend!(stakebook_add(self.count, x, y, weight; self.xs, self.ys, self.ws, self.sums));
        self.changed(answer)
    }

    /// One sample of weight 1 at the end of a book that is a window of as many samples as its
    /// capacity: where it is full, sample 0 goes first and the others move down one, so that the
    /// newest stay. Refused by [`Refusal::NotFinite`]; by [`Refusal::Full`] only in a book of no
    /// places. A refused one takes no sample out. [`add`](Book::add), [`add_frame`](Book::add_frame)
    /// and [`add_lines`](Book::add_lines) make no room: they are refused where there is none.
    ///
    /// At a full book it takes as long as a [withdrawal](Book::withdraw).
    ///
    /// ```
    /// let mut latest = stakebook::Book::with_capacity(3);
    /// for day in 0..5 {
    ///     latest.add_window(f64::from(day), 0.5 * f64::from(day))?;
    /// }
    /// assert_eq!((latest.xs(), latest.ys()), (&[2.0, 3.0, 4.0][..], &[1.0, 1.5, 2.0][..]));
    /// # Ok::<(), stakebook::Refusal>(())
    /// ```
    pub fn add_window(&mut self, x: f64, y: f64) -> Result<(), Refusal> {
        self.add_window_weighted(x, y, 1.0)
    }

    /// The same with a weight. Refused by [`Refusal::WeightNotAboveZero`] too.
    pub fn add_window_weighted(&mut self, x: f64, y: f64, weight: f64) -> Result<(), Refusal> {
        let answer = lend!(stakebook_add_window(
            self.count, x, y, weight;
            self.xs, self.ys, self.ws, self.sums
        ));
        self.changed(answer)
    }

    /// Sample `i` gets a new y and keeps its weight. Refused by [`Refusal::NotFinite`] and
    /// [`Refusal::NoSuchSample`].
    pub fn correct(&mut self, i: usize, y: f64) -> Result<(), Refusal> {
        let answer =
            lend!(stakebook_correct(self.count, i, y; self.xs, self.ys, self.ws, self.sums));
        self.changed(answer)
    }

    /// Sample `i` goes, and later ones move down one, each with its weight. Refused by
    /// [`Refusal::NoSuchSample`].
    pub fn withdraw(&mut self, i: usize) -> Result<(), Refusal> {
        let answer = lend!(stakebook_withdraw(self.count, i; self.xs, self.ys, self.ws, self.sums));
        self.changed(answer)
    }

    /// All samples of a frame at the end, or none: of version 1, with weight 1, or of version 2, which
    /// has the weights. Refused by [`Refusal::FrameLength`], [`Refusal::FrameVersion`],
    /// [`Refusal::NotFinite`], [`Refusal::WeightNotAboveZero`] and [`Refusal::Full`].
    pub fn add_frame(&mut self, frame: &[u8]) -> Result<(), Refusal> {
        let answer = lend!(stakebook_add_frame(
            self.count, frame.as_ptr(), frame.len();
            self.xs, self.ys, self.ws, self.sums
        ));
        self.changed(answer)
    }

    /// All samples of a text at the end with weight 1, or none: readings as written in the field book,
    /// one sample a line. Refused by [`Refusal::MalformedLine`], [`Refusal::TooManyDigits`] and
    /// [`Refusal::Full`].
    ///
    /// A line is x, one space, y and a newline, the last one too. A reading is an optional minus,
    /// digits, and optionally a point with a digit on either side, so that `.5`, `5.`, `+1` and `1e3`
    /// are none, and a line that ends in CR LF is malformed. The sample gets the doubles nearest to
    /// what is written.
    ///
    /// ```
    /// let mut book = stakebook::Book::with_capacity(10);
    /// book.add_lines(b"0.10 212\n0.30 240.5\n")?;
    /// assert_eq!((book.xs(), book.ys()), (&[0.1, 0.3][..], &[212.0, 240.5][..]));
    /// # Ok::<(), stakebook::Refusal>(())
    /// ```
    pub fn add_lines(&mut self, text: &[u8]) -> Result<(), Refusal> {
        let answer = lend!(stakebook_add_lines(
            self.count, text.as_ptr(), text.len();
            self.xs, self.ys, self.ws, self.sums
        ));
        self.changed(answer)
    }

    fn fitted(&self, answer: u64) -> Result<Fit, Refusal> {
        Ok(Fit { degree: sys::degree(judged(answer)?), terms: self.coefficients })
    }

    /// The curve of this degree. Refused by [`Refusal::NoSamples`], [`Refusal::DegreeTooHigh`] and
    /// [`Refusal::Unsolved`].
    ///
    /// A degree is unsolved where the x's lie far from 0 beside their spread: years 2000 to 2020,
    /// or the Unix seconds of a year, from degree 3 on. Subtract the middle of the x's first.
    pub fn fit(&mut self, degree: usize) -> Result<Fit, Refusal> {
        let answer = lend!(stakebook_fit(
            self.count, degree;
            self.xs, self.ys, self.ws, self.sums, self.scratch, self.coefficients
        ));
        self.fitted(answer)
    }

    /// The curve of the degree that k-fold cross-validation chooses. Refused by
    /// [`Refusal::NoSamples`], [`Refusal::DegreeTooHigh`], [`Refusal::Unsolved`] and
    /// [`Refusal::NoDegree`].
    ///
    /// In as many folds as samples it is slow: seconds for 4,096 up to degree 15.
    pub fn validate(
        &mut self,
        folds: usize,
        bound: DegreeBound,
        criterion: Criterion,
    ) -> Result<Fit, Refusal> {
        let (bound, most) = bound.numbers();
        let answer = lend!(stakebook_validate(
            self.count, folds, bound, most, criterion.number();
            self.xs, self.ys, self.ws, self.sums, self.scratch, self.coefficients
        ));
        self.fitted(answer)
    }

    /// The band at x around the curve of this degree. Refused by [`Refusal::NotFinite`],
    /// [`Refusal::NoSamples`], [`Refusal::DegreeTooHigh`], [`Refusal::OutOfRange`],
    /// [`Refusal::Unsolved`] and [`Refusal::NoCovariance`].
    pub fn band(
        &mut self,
        x: f64,
        degree: usize,
        confidence: Confidence,
        tolerance: Tolerance,
    ) -> Result<Band, Refusal> {
        let (confidence, score) = confidence.numbers();
        let (tolerance, value) = tolerance.numbers();
        let mut numbers = [0.0; 3];
        let answer = lend!(stakebook_band(
            self.count, x, degree, confidence, score, tolerance, value;
            self.xs, self.ys, self.ws, self.sums, self.scratch, numbers
        ));
        judged(answer)?;
        let [value, lower, upper] = numbers;
        Ok(Band { value, lower, upper })
    }

    /// Chooses a degree, fits it, and says how far the curve can be trusted. Refused by
    /// [`Refusal::NotFinite`], [`Refusal::NoSamples`], [`Refusal::DegreeTooHigh`],
    /// [`Refusal::NoDegree`] and [`Refusal::NoCovariance`].
    ///
    /// An outlier is a reading outside the band of the curve, polyfit's definition, and not a bad
    /// reading: of clean Gaussian readings about a line (P95, no tolerance, Custom 1) 38 % are
    /// marked at 10 samples and 79 % at 100, as `examples/c/measure.c` measures. A [`Tolerance`]
    /// that covers the scatter of single readings mends it: twice their standard deviation,
    /// `Absolute`, left 0.1 % and 2.2 %.
    ///
    /// By polyfit's rule of pruning, the default, a negative term is never marked, however small;
    /// [`PruningRule::Size`] lets it face the test too.
    pub fn report(&mut self, settings: Settings) -> Result<Report<'_>, Refusal> {
        let (words, values) = settings.lists();
        let answer = lend!(stakebook_report_by(
            self.count, words.as_ptr(), words.len(), values.as_ptr(), values.len();
            self.xs, self.ys, self.ws, self.sums, self.scratch, self.coefficients, self.errors,
            self.pruned, self.lower, self.upper, self.outliers
        ));
        self.reported(answer)
    }

    /// What a report answered and wrote.
    fn reported(&self, answer: u64) -> Result<Report<'_>, Refusal> {
        let answer = judged(answer)?;
        let (n, k) = (self.count, sys::degree(answer) + 1);
        Ok(Report {
            degree: sys::degree(answer),
            solved: sys::solved(answer),
            coefficients: &self.coefficients[..k],
            errors: &self.errors[..k],
            pruned: &self.pruned[..k],
            lower: &self.lower[..n],
            upper: &self.upper[..n],
            outlying: &self.outliers[..n],
            counts: (sys::outliers(answer), sys::pruned(answer)),
        })
    }

    /// Breaks the list in two, melt season and cold season, each with a curve of its own: of every break
    /// that leaves at least two samples on each side, in list order, the one with the least total of the
    /// two chosen scores, the first among equals. Refused by [`Refusal::NotFinite`],
    /// [`Refusal::NoSamples`] below 4 samples, [`Refusal::DegreeTooHigh`] by the bound for the whole
    /// list, [`Refusal::LimitPassed`] and [`Refusal::NoDegree`].
    ///
    /// The limit bounds the time: a search that needs more pivot tests than it is refused, and ends
    /// there. `usize::MAX` is no limit. Of the settings only bound and criterion count.
    ///
    /// On short lists the least total favours short sides: two samples of equal weight leave residuals of
    /// one size, whose median absolute deviation is 0 or next to it, so that they score as if they were
    /// exact. Believe a break with many samples on both sides; `include/stakebook.h` says more.
    ///
    /// ```
    /// # use stakebook::{
    /// #     Book, Confidence, Criterion, DegreeBound, PruningRule, Refusal, Settings, Tolerance,
    /// # };
    /// let mut book = Book::with_capacity(8);
    /// book.add_lines(b"0 0\n1 1.1\n2 1.9\n3 3.05\n4 2.95\n5 2.1\n6 0.9\n7 0.02\n")?;
    /// let settings = Settings {
    ///     bound: DegreeBound::Custom(1),
    ///     criterion: Criterion::Aic,
    ///     confidence: Confidence::P95,
    ///     tolerance: Tolerance::None,
    ///     pruning: PruningRule::default(),
    /// };
    /// let split = book.split(settings, usize::MAX)?;
    /// // The bend is at 4.
    /// assert_eq!((split.samples_before, split.tests), (3, 30));
    /// assert_eq!(book.split(settings, 29), Err(Refusal::LimitPassed));
    /// # Ok::<(), Refusal>(())
    /// ```
    pub fn split(&mut self, settings: Settings, limit: usize) -> Result<Split, Refusal> {
        let (words, values) = settings.lists();
        let (mut before, mut after, mut total) = ([0.0; TERMS], [0.0; TERMS], [0.0]);
        let answer = lend!(stakebook_split(
            self.count, words.as_ptr(), words.len(), values.as_ptr(), values.len(), limit;
            self.xs, self.ys, self.ws, self.sums, self.scratch, before, after, total
        ));
        Ok(Split::of(judged(answer)?, before, after, total))
    }

    /// The losses from which the score of the report's chosen degree is made: to check the score by
    /// adding them up. Takes a report's settings, and is refused where the report is.
    ///
    /// ```
    /// # use stakebook::{Book, Confidence, Criterion, DegreeBound, PruningRule, Settings, Tolerance};
    /// # let settings = Settings {
    /// #     bound: DegreeBound::Custom(1),
    /// #     criterion: Criterion::Aic,
    /// #     confidence: Confidence::P95,
    /// #     tolerance: Tolerance::None,
    /// #     pruning: PruningRule::default(),
    /// # };
    /// let mut book = Book::with_capacity(10);
    /// book.add_lines(b"1 212\n2 209.5\n3 208\n4 203.5\n5 202\n")?;
    /// let losses = book.losses(settings)?;
    /// assert_eq!(losses.losses.iter().fold(0.0, |sum, loss| sum + loss), losses.total);
    /// # Ok::<(), stakebook::Refusal>(())
    /// ```
    pub fn losses(&mut self, settings: Settings) -> Result<Losses<'_>, Refusal> {
        let (words, values) = settings.lists();
        let mut numbers = [0.0; 2];
        let answer = lend!(stakebook_losses(
            self.count, words.as_ptr(), words.len(), values.as_ptr(), values.len();
            self.xs, self.ys, self.ws, self.sums, self.scratch, self.losses, numbers
        ));
        let degree = sys::degree(judged(answer)?);
        let [total, score] = numbers;
        Ok(Losses { degree, losses: &self.losses[..self.count], total, score })
    }

    /// Why a report takes the degree that it takes: of each degree within the bound its score, the
    /// least of them, and what is chosen. Takes a report's settings, and is refused where the report
    /// is.
    ///
    /// ```
    /// # use stakebook::{Book, Confidence, Criterion, DegreeBound, PruningRule, Settings, Tolerance};
    /// # let settings = Settings {
    /// #     bound: DegreeBound::Custom(1),
    /// #     criterion: Criterion::Aic,
    /// #     confidence: Confidence::P95,
    /// #     tolerance: Tolerance::None,
    /// #     pruning: PruningRule::default(),
    /// # };
    /// let mut book = Book::with_capacity(10);
    /// book.add_lines(b"1 212\n2 209.5\n3 208\n4 203.5\n5 202\n")?;
    /// let scores = book.scores(settings)?;
    /// assert_eq!((scores.degree, scores.bound, scores.solved), (1, 1, 2));
    /// assert!(scores.score(0) > scores.score(1) && scores.score(1) == Some(scores.least));
    /// # Ok::<(), stakebook::Refusal>(())
    /// ```
    pub fn scores(&mut self, settings: Settings) -> Result<Scores, Refusal> {
        let (words, values) = settings.lists();
        let (mut marks, mut told, mut least) = ([0u8; TERMS], [0.0; TERMS], [0.0]);
        let answer = lend!(stakebook_scores(
            self.count, words.as_ptr(), words.len(), values.as_ptr(), values.len();
            self.xs, self.ys, self.ws, self.sums, self.scratch, marks, told, least
        ));
        Ok(Scores::of(judged(answer)?, marks, told, least))
    }
}
