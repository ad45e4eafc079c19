//! Document 02, E14: a season book for the whole glacier. It holds 32 stakes, unused ones empty, and their
//! counts. Columns, sums, scratch and what a season report writes are lent whole, each cut into 32 equal
//! parts; a call that names a stake is the book's own on its parts. What a season report does not write,
//! the sides of a split, scores by degree and losses, is lent for its call alone and is not cut.

use crate::book::{
    self, LossesAnswer, Memory, ReportAnswer, ReportMemory, ScoresAnswer, SplitAnswer,
};
use crate::fit::{Band, Criterion, Settings};
use crate::refusals::{self, Lengths};
use crate::statistics::{Confidence, DegreeBound, Tolerance};
use crate::Sample;

/// The stakes, numbered 0 to 31, and the places of their counts.
pub const STAKES: usize = 32;

/// A stake's part of what is lent whole: 32 equal parts, rounded down, in stake order. The rest at the end is
/// nobody's.
fn part<T>(whole: &mut [T], stake: usize) -> &mut [T] {
    let places = whole.len() / STAKES;
    &mut whole[stake * places..(stake + 1) * places]
}

impl Memory<'_> {
    /// A stake's columns and sums.
    fn part(&mut self, stake: usize) -> Memory<'_> {
        Memory {
            x: part(self.x, stake),
            y: part(self.y, stake),
            weight: part(self.weight, stake),
            sums: part(self.sums, stake),
        }
    }
}

impl ReportMemory<'_> {
    /// What the report of a stake writes.
    fn part(&mut self, stake: usize) -> ReportMemory<'_> {
        ReportMemory {
            coefficients: part(self.coefficients, stake),
            errors: part(self.errors, stake),
            pruned: part(self.pruned, stake),
            lower: part(self.lower, stake),
            upper: part(self.upper, stake),
            outlier: part(self.outlier, stake),
        }
    }
}

/// The count of a stake that a call names; 18 above 31, before every other check, then 1 for the counts.
fn count_of(stake: usize, counts: &[usize]) -> Result<usize, u8> {
    let lengths = Lengths { counts: counts.len(), ..Lengths::default() };
    refusals::judged(&refusals::stake(&lengths, stake))?;
    Ok(counts[stake])
}

/// The book that a call answers is kept.
fn kept(count: &mut usize, answer: Result<usize, u8>) -> Result<usize, u8> {
    *count = answer?;
    Ok(*count)
}

/// Opens the season: every stake is empty, its sums +0.
pub fn open(counts: &mut [usize], sums: &mut [f64]) -> Result<(), u8> {
    let lengths = Lengths { counts: counts.len(), sums: sums.len(), ..Lengths::default() };
    refusals::judged(&refusals::season_open(&lengths))?;
    for stake in 0..STAKES {
        open_stake(stake, counts, sums)?;
    }
    Ok(())
}

pub fn open_stake(stake: usize, counts: &mut [usize], sums: &mut [f64]) -> Result<usize, u8> {
    count_of(stake, counts)?;
    kept(&mut counts[stake], book::open(part(sums, stake)))
}

pub fn add(
    stake: usize,
    counts: &mut [usize],
    whole: &mut Memory,
    sample: Sample,
) -> Result<usize, u8> {
    let count = count_of(stake, counts)?;
    kept(&mut counts[stake], book::add(count, &mut whole.part(stake), sample))
}

pub fn add_window(
    stake: usize,
    counts: &mut [usize],
    whole: &mut Memory,
    sample: Sample,
) -> Result<usize, u8> {
    let count = count_of(stake, counts)?;
    kept(&mut counts[stake], book::add_window(count, &mut whole.part(stake), sample))
}

pub fn add_frame(
    stake: usize,
    counts: &mut [usize],
    whole: &mut Memory,
    bytes: &[u8],
) -> Result<usize, u8> {
    let count = count_of(stake, counts)?;
    kept(&mut counts[stake], book::add_frame(count, &mut whole.part(stake), bytes))
}

pub fn add_lines(
    stake: usize,
    counts: &mut [usize],
    whole: &mut Memory,
    text: &[u8],
) -> Result<usize, u8> {
    let count = count_of(stake, counts)?;
    kept(&mut counts[stake], book::add_lines(count, &mut whole.part(stake), text))
}

pub fn correct(
    stake: usize,
    counts: &mut [usize],
    whole: &mut Memory,
    index: usize,
    y: f64,
) -> Result<usize, u8> {
    let count = count_of(stake, counts)?;
    kept(&mut counts[stake], book::correct(count, &mut whole.part(stake), index, y))
}

pub fn withdraw(
    stake: usize,
    counts: &mut [usize],
    whole: &mut Memory,
    index: usize,
) -> Result<usize, u8> {
    let count = count_of(stake, counts)?;
    kept(&mut counts[stake], book::withdraw(count, &mut whole.part(stake), index))
}

pub fn carry(stake: usize, counts: &mut [usize], whole: &mut Memory) -> Result<usize, u8> {
    let count = count_of(stake, counts)?;
    kept(&mut counts[stake], book::carry(count, &mut whole.part(stake)))
}

pub fn fit(
    stake: usize,
    counts: &[usize],
    whole: &mut Memory,
    degree: usize,
    scratch: &mut [f64],
    coefficients: &mut [f64],
) -> Result<usize, u8> {
    let count = count_of(stake, counts)?;
    let (scratch, coefficients) = (part(scratch, stake), part(coefficients, stake));
    book::fit(count, &whole.part(stake), degree, scratch, coefficients)
}

pub fn validate(
    stake: usize,
    counts: &[usize],
    whole: &mut Memory,
    folds: usize,
    by: (DegreeBound, Criterion),
    scratch: &mut [f64],
    coefficients: &mut [f64],
) -> Result<usize, u8> {
    let count = count_of(stake, counts)?;
    let (scratch, coefficients) = (part(scratch, stake), part(coefficients, stake));
    book::validate(count, &whole.part(stake), folds, by, scratch, coefficients)
}

pub fn band(
    stake: usize,
    counts: &[usize],
    whole: &mut Memory,
    at: (f64, usize),
    confidence: Confidence,
    tolerance: Tolerance,
    scratch: &mut [f64],
) -> Result<Band, u8> {
    let count = count_of(stake, counts)?;
    book::band(count, &whole.part(stake), at, confidence, tolerance, part(scratch, stake))
}

/// One stake's report.
pub fn report_stake(
    stake: usize,
    counts: &[usize],
    whole: &mut Memory,
    settings: Settings,
    scratch: &mut [f64],
    out: &mut ReportMemory,
) -> Result<ReportAnswer, u8> {
    let count = count_of(stake, counts)?;
    let (scratch, mut out) = (part(scratch, stake), out.part(stake));
    book::report(count, &whole.part(stake), settings, scratch, &mut out)
}

pub fn scores(
    stake: usize,
    counts: &[usize],
    whole: &mut Memory,
    settings: Settings,
    scratch: &mut [f64],
    solved: &mut [u8],
    scores: &mut [f64],
) -> Result<ScoresAnswer, u8> {
    let count = count_of(stake, counts)?;
    book::scores(count, &whole.part(stake), settings, part(scratch, stake), solved, scores)
}

pub fn losses(
    stake: usize,
    counts: &[usize],
    whole: &mut Memory,
    settings: Settings,
    scratch: &mut [f64],
    losses: &mut [f64],
) -> Result<LossesAnswer, u8> {
    let count = count_of(stake, counts)?;
    book::losses(count, &whole.part(stake), settings, part(scratch, stake), losses)
}

pub fn split(
    stake: usize,
    counts: &[usize],
    whole: &mut Memory,
    by: (Settings, usize),
    scratch: &mut [f64],
    before: &mut [f64],
    after: &mut [f64],
) -> Result<SplitAnswer, u8> {
    let count = count_of(stake, counts)?;
    book::split(count, &whole.part(stake), by, part(scratch, stake), before, after)
}

/// What a season report answers: each stake's report or refusal, and the number of stakes not refused.
#[derive(Debug, Clone, PartialEq, Eq)]
pub struct SeasonAnswer {
    pub stakes: Vec<Result<ReportAnswer, u8>>,
    pub answered: usize,
}

/// The season report: runs through the stakes in order, whatever those before it gave.
pub fn report(
    counts: &[usize],
    whole: &mut Memory,
    settings: Settings,
    scratch: &mut [f64],
    out: &mut ReportMemory,
) -> SeasonAnswer {
    let of_stake = |stake| report_stake(stake, counts, whole, settings, scratch, out);
    let stakes: Vec<_> = (0..STAKES).map(of_stake).collect();
    let answered = stakes.iter().filter(|answer| answer.is_ok()).count();
    SeasonAnswer { stakes, answered }
}
