//! The stakes of a whole glacier.

use crate::sys;
use crate::{
    judged, lend, Band, Confidence, Criterion, DegreeBound, Fit, Losses, NotCarried, Refusal,
    Report, Scores, Settings, Split, Tolerance, TwoColumnBook, MOST, SUMS, TERMS,
};

/// The 32 stakes of a glacier, numbered 0 to 31, each of which is a book of its own, with one report over
/// all of them.
///
/// Every call that names a stake is [`Book`](crate::Book)'s own on that stake alone: it answers, and is
/// refused, as for a book with the stake's samples, and changes no other stake. A stake above 31 is
/// refused by [`Refusal::NoSuchStake`] before everything else. Stakes that are not used are empty.
///
/// ```
/// use stakebook::{
///     Confidence, Criterion, DegreeBound, PruningRule, Refusal, Season, Settings, Tolerance,
/// };
///
/// let settings = Settings {
///     bound: DegreeBound::Custom(1),
///     criterion: Criterion::Aic,
///     confidence: Confidence::P95,
///     tolerance: Tolerance::None,
///     pruning: PruningRule::default(),
/// };
/// let mut season = Season::with_capacity(100);
/// season.add_lines(3, b"1 212\n2 209.5\n3 208\n4 203.5\n5 202\n")?;
/// season.add_lines(31, b"1 98\n2 97\n3 95.5\n")?;
/// let before: Vec<f64> = season.report_stake(31, settings)?.coefficients.to_vec();
/// // Correct one stake between two reports: the others keep their bits.
/// season.correct(3, 0, 211.0)?;
/// let report = season.report(settings);
/// assert_eq!(report.answered, 2);
/// assert_eq!(report.stake(31)?.coefficients, before);
/// assert_eq!(report.stake(0), Err(Refusal::NoSamples));
/// assert_eq!(report.stake(32), Err(Refusal::NoSuchStake));
/// # Ok::<(), Refusal>(())
/// ```
#[derive(Debug, Clone)]
pub struct Season {
    counts: [usize; Season::STAKES],
    // Each is cut into 32 parts.
    xs: Vec<f64>,
    ys: Vec<f64>,
    ws: Vec<f64>,
    sums: Vec<f64>,
    scratch: Vec<f64>,
    coefficients: Vec<f64>,
    errors: Vec<f64>,
    pruned: Vec<u8>,
    lower: Vec<f64>,
    upper: Vec<f64>,
    outliers: Vec<u8>,
    // Of one call.
    losses: Vec<f64>,
}

/// What a season report found. Its lists are the season's, until the next call.
#[derive(Debug, Clone, Copy)]
pub struct SeasonReport<'a> {
    /// How many stakes are not refused.
    pub answered: usize,
    answers: [u64; Season::STAKES],
    season: &'a Season,
}

impl<'a> SeasonReport<'a> {
    /// The report of a stake, or why there is none: [`Refusal::NoSamples`] for an empty one.
    pub fn stake(&self, stake: usize) -> Result<Report<'a>, Refusal> {
        let answer = self.answers.get(stake).ok_or(Refusal::NoSuchStake)?;
        self.season.reported(stake, *answer)
    }

    /// Those of all stakes, in order.
    pub fn all(&self) -> impl Iterator<Item = Result<Report<'a>, Refusal>> + '_ {
        (0..Season::STAKES).map(|stake| self.stake(stake))
    }
}

/// A stake's part of a memory that is lent whole.
fn part<T>(whole: &[T], stake: usize) -> &[T] {
    let places = whole.len() / Season::STAKES;
    &whole[stake * places..][..places]
}

fn part_mut<T>(whole: &mut [T], stake: usize) -> &mut [T] {
    let places = whole.len() / Season::STAKES;
    &mut whole[stake * places..][..places]
}

impl Season {
    /// How many stakes there are.
    pub const STAKES: usize = 32;

    /// An empty season with room for so many samples at each stake, at most 4,096.
    pub fn with_capacity(capacity: usize) -> Season {
        let room = capacity.min(MOST);
        let floats = |places: usize| vec![0.0; Season::STAKES * places];
        let bytes = |places: usize| vec![0; Season::STAKES * places];
        let mut season = Season {
            counts: [0; Season::STAKES],
            xs: floats(room),
            ys: floats(room),
            ws: floats(room),
            sums: floats(SUMS),
            scratch: floats(room),
            coefficients: floats(TERMS),
            errors: floats(TERMS),
            pruned: bytes(TERMS),
            lower: floats(room),
            upper: floats(room),
            outliers: bytes(room),
            losses: vec![0.0; room],
        };
        season.clear();
        season
    }

    /// Takes all samples out of all stakes.
    pub fn clear(&mut self) {
        // SAFETY: counts and sums are this season's own, of the lengths given.
        unsafe {
            sys::stakebook_season_open(
                self.counts.as_mut_ptr(),
                Season::STAKES,
                self.sums.as_mut_ptr(),
                self.sums.len(),
            )
        };
    }

    /// Takes all samples out of one stake.
    pub fn clear_stake(&mut self, stake: usize) -> Result<(), Refusal> {
        changed(lend!(stakebook_season_open_stake(stake; self.counts, self.sums)))
    }

    /// How many samples a stake holds; none where there is no such stake.
    pub fn len(&self, stake: usize) -> Option<usize> {
        self.counts.get(stake).copied()
    }

    /// Whether no stake holds a sample.
    pub fn is_empty(&self) -> bool {
        self.counts.iter().all(|&count| count == 0)
    }

    /// The room of each stake.
    pub fn capacity(&self) -> usize {
        self.losses.len()
    }

    /// The x's of a stake's samples, in the order in which they were added; none where there is no such
    /// stake.
    pub fn xs(&self, stake: usize) -> Option<&[f64]> {
        self.column(&self.xs, stake)
    }

    /// The y's.
    pub fn ys(&self, stake: usize) -> Option<&[f64]> {
        self.column(&self.ys, stake)
    }

    /// The weights.
    pub fn ws(&self, stake: usize) -> Option<&[f64]> {
        self.column(&self.ws, stake)
    }

    /// The 272 sums of a stake: A by rows, then g.
    pub fn sums(&self, stake: usize) -> Option<&[f64]> {
        (stake < Season::STAKES).then(|| part(&self.sums, stake))
    }

    fn column<'a>(&self, column: &'a [f64], stake: usize) -> Option<&'a [f64]> {
        self.len(stake).map(|count| &part(column, stake)[..count])
    }

    /// [`Book::add`](crate::Book::add) of a stake.
    pub fn add(&mut self, stake: usize, x: f64, y: f64) -> Result<(), Refusal> {
        self.add_weighted(stake, x, y, 1.0)
    }

    /// [`Book::add_weighted`](crate::Book::add_weighted) of a stake.
    pub fn add_weighted(
        &mut self,
        stake: usize,
        x: f64,
        y: f64,
        weight: f64,
    ) -> Result<(), Refusal> {
        changed(lend!(stakebook_season_add(
            stake, x, y, weight;
            self.counts, self.xs, self.ys, self.ws, self.sums
        )))
    }

    /// [`Book::add_window`](crate::Book::add_window) of a stake, which is a window of as many samples as
    /// its capacity.
    pub fn add_window(&mut self, stake: usize, x: f64, y: f64) -> Result<(), Refusal> {
        self.add_window_weighted(stake, x, y, 1.0)
    }

    /// The same with a weight.
    pub fn add_window_weighted(
        &mut self,
        stake: usize,
        x: f64,
        y: f64,
        weight: f64,
    ) -> Result<(), Refusal> {
        changed(lend!(stakebook_season_add_window(
            stake, x, y, weight;
            self.counts, self.xs, self.ys, self.ws, self.sums
        )))
    }

    /// [`Book::add_frame`](crate::Book::add_frame) of a stake.
    pub fn add_frame(&mut self, stake: usize, frame: &[u8]) -> Result<(), Refusal> {
        changed(lend!(stakebook_season_add_frame(
            stake, frame.as_ptr(), frame.len();
            self.counts, self.xs, self.ys, self.ws, self.sums
        )))
    }

    /// [`Book::add_lines`](crate::Book::add_lines) of a stake.
    pub fn add_lines(&mut self, stake: usize, text: &[u8]) -> Result<(), Refusal> {
        changed(lend!(stakebook_season_add_lines(
            stake, text.as_ptr(), text.len();
            self.counts, self.xs, self.ys, self.ws, self.sums
        )))
    }

    /// [`Book::correct`](crate::Book::correct) of a stake.
    pub fn correct(&mut self, stake: usize, i: usize, y: f64) -> Result<(), Refusal> {
        changed(lend!(stakebook_season_correct(
            stake, i, y;
            self.counts, self.xs, self.ys, self.ws, self.sums
        )))
    }

    /// [`Book::withdraw`](crate::Book::withdraw) of a stake.
    pub fn withdraw(&mut self, stake: usize, i: usize) -> Result<(), Refusal> {
        changed(lend!(stakebook_season_withdraw(
            stake, i;
            self.counts, self.xs, self.ys, self.ws, self.sums
        )))
    }

    /// A book that was begun without weights becomes a stake, whose samples so far go; each of its own
    /// gets weight 1. What is done from here on gives what it would had they been added to this stake.
    /// Refused by [`Refusal::NoSuchStake`], and by [`Refusal::Memory`] where the samples are more than the
    /// stake has room for; then the book is handed back, and the stake is as it was.
    pub fn carry(&mut self, stake: usize, book: TwoColumnBook) -> Result<(), NotCarried> {
        let not_carried = |refusal, book| NotCarried { book: Box::new(book), refusal };
        if stake >= Season::STAKES {
            return Err(not_carried(Refusal::NoSuchStake, book));
        }
        if book.len() > book.capacity().min(self.capacity()) {
            return Err(not_carried(Refusal::Memory, book));
        }
        let (count, xs, ys, sums) = book.into_parts();
        self.counts[stake] = count;
        part_mut(&mut self.xs, stake)[..count].copy_from_slice(&xs[..count]);
        part_mut(&mut self.ys, stake)[..count].copy_from_slice(&ys[..count]);
        part_mut(&mut self.sums, stake).copy_from_slice(&sums);
        let answer =
            lend!(stakebook_season_carry(stake; self.counts, self.xs, self.ys, self.ws, self.sums));
        let book = TwoColumnBook::from_parts(count, xs, ys, sums);
        changed(answer).map_err(|refusal| not_carried(refusal, book))
    }

    fn fitted(&self, stake: usize, answer: u64) -> Result<Fit, Refusal> {
        let degree = sys::degree(judged(answer)?);
        let mut terms = [0.0; TERMS];
        terms.copy_from_slice(part(&self.coefficients, stake));
        Ok(Fit { degree, terms })
    }

    /// [`Book::fit`](crate::Book::fit) of a stake.
    pub fn fit(&mut self, stake: usize, degree: usize) -> Result<Fit, Refusal> {
        let answer = lend!(stakebook_season_fit(
            stake, degree;
            self.counts, self.xs, self.ys, self.ws, self.sums, self.scratch, self.coefficients
        ));
        self.fitted(stake, answer)
    }

    /// [`Book::validate`](crate::Book::validate) of a stake.
    pub fn validate(
        &mut self,
        stake: usize,
        folds: usize,
        bound: DegreeBound,
        criterion: Criterion,
    ) -> Result<Fit, Refusal> {
        let (bound, most) = bound.numbers();
        let answer = lend!(stakebook_season_validate(
            stake, folds, bound, most, criterion.number();
            self.counts, self.xs, self.ys, self.ws, self.sums, self.scratch, self.coefficients
        ));
        self.fitted(stake, answer)
    }

    /// [`Book::band`](crate::Book::band) of a stake.
    pub fn band(
        &mut self,
        stake: usize,
        x: f64,
        degree: usize,
        confidence: Confidence,
        tolerance: Tolerance,
    ) -> Result<Band, Refusal> {
        let (confidence, score) = confidence.numbers();
        let (tolerance, value) = tolerance.numbers();
        let mut numbers = [0.0; 3];
        let answer = lend!(stakebook_season_band(
            stake, x, degree, confidence, score, tolerance, value;
            self.counts, self.xs, self.ys, self.ws, self.sums, self.scratch, numbers
        ));
        judged(answer)?;
        let [value, lower, upper] = numbers;
        Ok(Band { value, lower, upper })
    }

    /// [`Book::losses`](crate::Book::losses) of a stake.
    pub fn losses(&mut self, stake: usize, settings: Settings) -> Result<Losses<'_>, Refusal> {
        let (words, values) = settings.lists();
        let mut numbers = [0.0; 2];
        let answer = lend!(stakebook_season_losses(
            stake, words.as_ptr(), words.len(), values.as_ptr(), values.len();
            self.counts, self.xs, self.ys, self.ws, self.sums, self.scratch, self.losses, numbers
        ));
        let degree = sys::degree(judged(answer)?);
        let [total, score] = numbers;
        Ok(Losses { degree, losses: &self.losses[..self.counts[stake]], total, score })
    }

    /// [`Book::scores`](crate::Book::scores) of a stake.
    pub fn scores(&mut self, stake: usize, settings: Settings) -> Result<Scores, Refusal> {
        let (words, values) = settings.lists();
        let (mut marks, mut told, mut least) = ([0u8; TERMS], [0.0; TERMS], [0.0]);
        let answer = lend!(stakebook_season_scores(
            stake, words.as_ptr(), words.len(), values.as_ptr(), values.len();
            self.counts, self.xs, self.ys, self.ws, self.sums, self.scratch, marks, told, least
        ));
        Ok(Scores::of(judged(answer)?, marks, told, least))
    }

    /// [`Book::split`](crate::Book::split) of a stake.
    pub fn split(
        &mut self,
        stake: usize,
        settings: Settings,
        limit: usize,
    ) -> Result<Split, Refusal> {
        let (words, values) = settings.lists();
        let (mut before, mut after, mut total) = ([0.0; TERMS], [0.0; TERMS], [0.0]);
        let answer = lend!(stakebook_season_split(
            stake, words.as_ptr(), words.len(), values.as_ptr(), values.len(), limit;
            self.counts, self.xs, self.ys, self.ws, self.sums, self.scratch, before, after, total
        ));
        Ok(Split::of(judged(answer)?, before, after, total))
    }

    /// [`Book::report`](crate::Book::report) of one stake.
    pub fn report_stake(
        &mut self,
        stake: usize,
        settings: Settings,
    ) -> Result<Report<'_>, Refusal> {
        let (words, values) = settings.lists();
        let answer = lend!(stakebook_season_report_stake(
            stake, words.as_ptr(), words.len(), values.as_ptr(), values.len();
            self.counts, self.xs, self.ys, self.ws, self.sums, self.scratch, self.coefficients,
            self.errors, self.pruned, self.lower, self.upper, self.outliers
        ));
        self.reported(stake, answer)
    }

    /// The reports of all stakes, in order, each with its own answer or refusal whatever the others gave.
    pub fn report(&mut self, settings: Settings) -> SeasonReport<'_> {
        let (words, values) = settings.lists();
        let mut answers = [0; Season::STAKES];
        let answer = lend!(stakebook_season_report(
            words.as_ptr(), words.len(), values.as_ptr(), values.len();
            self.counts, self.xs, self.ys, self.ws, self.sums, self.scratch, self.coefficients,
            self.errors, self.pruned, self.lower, self.upper, self.outliers, answers
        ));
        SeasonReport { answered: sys::count(answer), answers, season: self }
    }

    /// What a stake's report answered and wrote.
    fn reported(&self, stake: usize, answer: u64) -> Result<Report<'_>, Refusal> {
        let answer = judged(answer)?;
        let (n, k) = (self.counts[stake], sys::degree(answer) + 1);
        Ok(Report {
            degree: sys::degree(answer),
            solved: sys::solved(answer),
            coefficients: &part(&self.coefficients, stake)[..k],
            errors: &part(&self.errors, stake)[..k],
            pruned: &part(&self.pruned, stake)[..k],
            lower: &part(&self.lower, stake)[..n],
            upper: &part(&self.upper, stake)[..n],
            outlying: &part(&self.outliers, stake)[..n],
            counts: (sys::outliers(answer), sys::pruned(answer)),
        })
    }
}

/// The season has kept the count.
fn changed(answer: u64) -> Result<(), Refusal> {
    judged(answer).map(|_| ())
}
