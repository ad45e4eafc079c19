//! A side: an implementation of the book's calls on lent memory.

use judge::book;
use judge::fit::{Band, Criterion, Settings};
use judge::groups;
use judge::season;
use judge::statistics::{Confidence, DegreeBound, Tolerance};
use judge::surface::{self, Site};
use judge::Sample;

use crate::call::{Answer, Call};
use crate::memory::Lent;

/// The book's calls, one method each. Each gets the count and the lent memory, and answers; nothing is
/// kept between calls.
pub trait Calls {
    const NAME: &'static str;

    fn open(&self, lent: Lent) -> Answer;
    fn add(&self, count: usize, lent: Lent, sample: Sample) -> Answer;
    fn add_window(&self, count: usize, lent: Lent, sample: Sample) -> Answer;
    fn correct(&self, count: usize, lent: Lent, index: usize, y: f64) -> Answer;
    fn withdraw(&self, count: usize, lent: Lent, index: usize) -> Answer;
    fn add_frame(&self, count: usize, lent: Lent, frame: &[u8]) -> Answer;
    fn add_lines(&self, count: usize, lent: Lent, text: &[u8]) -> Answer;
    fn carry(&self, count: usize, lent: Lent) -> Answer;
    fn fit(&self, count: usize, lent: Lent, degree: usize) -> Answer;
    fn report(&self, count: usize, lent: Lent, settings: Settings) -> Answer;
    fn split(&self, count: usize, lent: Lent, settings: Settings, limit: usize) -> Answer;
    fn losses(&self, count: usize, lent: Lent, settings: Settings) -> Answer;
    fn scores(&self, count: usize, lent: Lent, settings: Settings) -> Answer;
    fn validate(
        &self,
        count: usize,
        lent: Lent,
        folds: usize,
        bound: DegreeBound,
        criterion: Criterion,
    ) -> Answer;
    fn band(
        &self,
        count: usize,
        lent: Lent,
        at: (f64, usize),
        confidence: Confidence,
        tolerance: Tolerance,
    ) -> Answer;
    fn surface_fit(&self, count: usize, lent: Lent, degree: usize) -> Answer;
    fn surface_report(&self, count: usize, lent: Lent, settings: Settings) -> Answer;
    fn surface_band(
        &self,
        count: usize,
        lent: Lent,
        at: (Site, usize),
        confidence: Confidence,
        tolerance: Tolerance,
    ) -> Answer;
    fn start(&self, lent: Lent, quota: usize) -> Answer;
    fn renew(&self, lent: Lent) -> Answer;
    fn group_report(&self, group: usize, count: usize, lent: Lent, settings: Settings) -> Answer;
    fn group_surface_report(
        &self,
        group: usize,
        count: usize,
        lent: Lent,
        settings: Settings,
    ) -> Answer;
    fn group_split(&self, group: usize, count: usize, lent: Lent, settings: Settings) -> Answer;
    fn season_open(&self, lent: Lent) -> Answer;
    /// One of a book's calls, on a stake's parts and its count.
    fn season(&self, stake: usize, lent: Lent, call: &Call) -> Answer;
    fn season_report(&self, lent: Lent, settings: Settings) -> Answer;
    fn reader(&self, frame: &[u8]) -> Answer;
}

/// Whoever makes calls: all that has them as methods.
pub trait Side {
    fn name(&self) -> &'static str;
    fn make(&self, call: &Call, count: usize, lent: Lent) -> Answer;
}

impl<T: Calls> Side for T {
    fn name(&self) -> &'static str {
        T::NAME
    }

    fn make(&self, call: &Call, count: usize, lent: Lent) -> Answer {
        match call {
            Call::Open => self.open(lent),
            Call::Add(sample) => self.add(count, lent, *sample),
            Call::AddWindow(sample) => self.add_window(count, lent, *sample),
            Call::Correct { index, y } => self.correct(count, lent, *index, *y),
            Call::Withdraw { index } => self.withdraw(count, lent, *index),
            Call::AddFrame(frame) => self.add_frame(count, lent, frame),
            Call::AddLines(text) => self.add_lines(count, lent, text),
            Call::Carry => self.carry(count, lent),
            Call::Fit { degree } => self.fit(count, lent, *degree),
            Call::Report(settings) => self.report(count, lent, *settings),
            Call::Split { limit, settings } => self.split(count, lent, *settings, *limit),
            Call::Losses(settings) => self.losses(count, lent, *settings),
            Call::Scores(settings) => self.scores(count, lent, *settings),
            Call::Validate { folds, bound, criterion } => {
                self.validate(count, lent, *folds, *bound, *criterion)
            }
            Call::Band { x, degree, confidence, tolerance } => {
                self.band(count, lent, (*x, *degree), *confidence, *tolerance)
            }
            Call::SurfaceFit { degree } => self.surface_fit(count, lent, *degree),
            Call::SurfaceReport(settings) => self.surface_report(count, lent, *settings),
            Call::SurfaceBand { site, degree, confidence, tolerance } => {
                self.surface_band(count, lent, (*site, *degree), *confidence, *tolerance)
            }
            Call::Start { quota } => self.start(lent, *quota),
            Call::Renew => self.renew(lent),
            Call::GroupReport { group, settings } => {
                self.group_report(*group, count, lent, *settings)
            }
            Call::GroupSurfaceReport { group, settings } => {
                self.group_surface_report(*group, count, lent, *settings)
            }
            Call::GroupSplit { group, settings } => {
                self.group_split(*group, count, lent, *settings)
            }
            Call::SeasonOpen => self.season_open(lent),
            Call::Season { stake, call } => self.season(*stake, lent, call),
            Call::SeasonReport(settings) => self.season_report(lent, *settings),
            Call::Reader(frame) => self.reader(frame),
        }
    }
}

/// The documents in Rust.
pub struct Judge;

/// A refusal, or what is answered.
fn answer<T>(result: Result<T, u8>, of: impl Fn(T) -> Answer) -> Answer {
    match result {
        Ok(value) => of(value),
        Err(number) => Answer::Refused(number),
    }
}

fn report_answer(result: Result<book::ReportAnswer, u8>) -> Answer {
    answer(result, |a| Answer::Report {
        degree: a.degree,
        solved: a.solved,
        outliers: a.outliers,
        pruned: a.pruned,
    })
}

fn split_answer(result: Result<book::SplitAnswer, u8>) -> Answer {
    answer(result, |a| Answer::Split {
        b: a.b,
        degrees: (a.degree_before, a.degree_after),
        tests: a.tests,
        total: a.total,
    })
}

fn losses_answer(result: Result<book::LossesAnswer, u8>) -> Answer {
    answer(result, |a| Answer::Losses { degree: a.degree, total: a.total, score: a.score })
}

fn scores_answer(result: Result<book::ScoresAnswer, u8>) -> Answer {
    answer(result, |a| Answer::Scores {
        degree: a.degree,
        bound: a.bound,
        solved: a.solved,
        tests: a.tests,
        least: a.least,
    })
}

fn band_answer(result: Result<Band, u8>) -> Answer {
    answer(result, |b| Answer::Band { value: b.value, lower: b.lower, upper: b.upper })
}

/// A surface's part of what is lent.
macro_rules! columns {
    ($lent:ident) => {
        surface::Columns { x: $lent.x, z: $lent.z, y: $lent.y }
    };
}

/// The book's own part of what is lent.
macro_rules! memory {
    ($lent:ident) => {
        book::Memory { x: $lent.x, y: $lent.y, weight: $lent.weight, sums: $lent.sums }
    };
}

/// What a report writes, of what is lent.
macro_rules! report_memory {
    ($lent:ident) => {
        book::ReportMemory {
            coefficients: $lent.coefficients,
            errors: $lent.errors,
            pruned: $lent.pruned,
            lower: $lent.lower,
            upper: $lent.upper,
            outlier: $lent.outlier,
        }
    };
}

impl Calls for Judge {
    const NAME: &'static str = "judge";

    fn open(&self, lent: Lent) -> Answer {
        answer(book::open(lent.sums), Answer::Book)
    }

    fn add(&self, count: usize, lent: Lent, sample: Sample) -> Answer {
        answer(book::add(count, &mut memory!(lent), sample), Answer::Book)
    }

    fn add_window(&self, count: usize, lent: Lent, sample: Sample) -> Answer {
        answer(book::add_window(count, &mut memory!(lent), sample), Answer::Book)
    }

    fn correct(&self, count: usize, lent: Lent, index: usize, y: f64) -> Answer {
        answer(book::correct(count, &mut memory!(lent), index, y), Answer::Book)
    }

    fn withdraw(&self, count: usize, lent: Lent, index: usize) -> Answer {
        answer(book::withdraw(count, &mut memory!(lent), index), Answer::Book)
    }

    fn add_frame(&self, count: usize, lent: Lent, frame: &[u8]) -> Answer {
        answer(book::add_frame(count, &mut memory!(lent), frame), Answer::Book)
    }

    fn add_lines(&self, count: usize, lent: Lent, text: &[u8]) -> Answer {
        answer(book::add_lines(count, &mut memory!(lent), text), Answer::Book)
    }

    fn carry(&self, count: usize, lent: Lent) -> Answer {
        answer(book::carry(count, &mut memory!(lent)), Answer::Book)
    }

    fn fit(&self, count: usize, lent: Lent, degree: usize) -> Answer {
        let memory = memory!(lent);
        answer(book::fit(count, &memory, degree, lent.scratch, lent.coefficients), Answer::Degree)
    }

    fn report(&self, count: usize, lent: Lent, settings: Settings) -> Answer {
        let memory = memory!(lent);
        let mut out = report_memory!(lent);
        report_answer(book::report(count, &memory, settings, lent.scratch, &mut out))
    }

    fn split(&self, count: usize, lent: Lent, settings: Settings, limit: usize) -> Answer {
        let memory = memory!(lent);
        let by = (settings, limit);
        let result = book::split(count, &memory, by, lent.scratch, lent.before, lent.after);
        split_answer(result)
    }

    fn losses(&self, count: usize, lent: Lent, settings: Settings) -> Answer {
        let memory = memory!(lent);
        losses_answer(book::losses(count, &memory, settings, lent.scratch, lent.losses))
    }

    fn scores(&self, count: usize, lent: Lent, settings: Settings) -> Answer {
        let memory = memory!(lent);
        let (solved, scores) = (lent.solved, lent.scores);
        scores_answer(book::scores(count, &memory, settings, lent.scratch, solved, scores))
    }

    fn validate(
        &self,
        count: usize,
        lent: Lent,
        folds: usize,
        bound: DegreeBound,
        criterion: Criterion,
    ) -> Answer {
        let memory = memory!(lent);
        let by = (bound, criterion);
        let result = book::validate(count, &memory, folds, by, lent.scratch, lent.coefficients);
        answer(result, Answer::Degree)
    }

    fn band(
        &self,
        count: usize,
        lent: Lent,
        at: (f64, usize),
        confidence: Confidence,
        tolerance: Tolerance,
    ) -> Answer {
        let memory = memory!(lent);
        band_answer(book::band(count, &memory, at, confidence, tolerance, lent.scratch))
    }

    fn surface_fit(&self, count: usize, lent: Lent, degree: usize) -> Answer {
        let columns = columns!(lent);
        let result = surface::fit(count, columns, degree, lent.scratch, lent.coefficients);
        answer(result, Answer::Degree)
    }

    fn surface_report(&self, count: usize, lent: Lent, settings: Settings) -> Answer {
        let columns = columns!(lent);
        let mut out = report_memory!(lent);
        report_answer(surface::report(count, columns, settings, lent.scratch, &mut out))
    }

    fn surface_band(
        &self,
        count: usize,
        lent: Lent,
        at: (Site, usize),
        confidence: Confidence,
        tolerance: Tolerance,
    ) -> Answer {
        let columns = columns!(lent);
        band_answer(surface::band(count, columns, at, confidence, tolerance, lent.scratch))
    }

    fn start(&self, lent: Lent, quota: usize) -> Answer {
        answer(groups::start(quota, lent.table), |()| Answer::Done)
    }

    fn renew(&self, lent: Lent) -> Answer {
        answer(groups::renew(lent.table), |()| Answer::Done)
    }

    fn group_report(&self, group: usize, count: usize, lent: Lent, settings: Settings) -> Answer {
        let (memory, mut out) = (memory!(lent), report_memory!(lent));
        let (scratch, table) = (lent.scratch, lent.table);
        report_answer(groups::report(group, count, &memory, settings, scratch, &mut out, table))
    }

    fn group_surface_report(
        &self,
        group: usize,
        count: usize,
        lent: Lent,
        settings: Settings,
    ) -> Answer {
        let (columns, mut out) = (columns!(lent), report_memory!(lent));
        let (scratch, table) = (lent.scratch, lent.table);
        let result =
            groups::surface_report(group, count, columns, settings, scratch, &mut out, table);
        report_answer(result)
    }

    fn group_split(&self, group: usize, count: usize, lent: Lent, settings: Settings) -> Answer {
        let (memory, sides) = (memory!(lent), (lent.before, lent.after));
        let (scratch, table) = (lent.scratch, lent.table);
        split_answer(groups::split(group, count, &memory, settings, scratch, sides, table))
    }

    fn season_open(&self, lent: Lent) -> Answer {
        answer(season::open(lent.counts, lent.sums), |()| Answer::Done)
    }

    fn season(&self, stake: usize, lent: Lent, call: &Call) -> Answer {
        let (mut memory, mut out) = (memory!(lent), report_memory!(lent));
        let (counts, scratch, whole) = (lent.counts, lent.scratch, &mut memory);
        let book = |result| answer(result, Answer::Book);
        let fitted = |result| answer(result, Answer::Degree);
        match call {
            Call::Open => book(season::open_stake(stake, counts, whole.sums)),
            Call::Add(sample) => book(season::add(stake, counts, whole, *sample)),
            Call::AddWindow(sample) => book(season::add_window(stake, counts, whole, *sample)),
            Call::Correct { index, y } => book(season::correct(stake, counts, whole, *index, *y)),
            Call::Withdraw { index } => book(season::withdraw(stake, counts, whole, *index)),
            Call::AddFrame(frame) => book(season::add_frame(stake, counts, whole, frame)),
            Call::AddLines(text) => book(season::add_lines(stake, counts, whole, text)),
            Call::Carry => book(season::carry(stake, counts, whole)),
            Call::Fit { degree } => {
                fitted(season::fit(stake, counts, whole, *degree, scratch, out.coefficients))
            }
            Call::Validate { folds, bound, criterion } => {
                let (by, coefficients) = ((*bound, *criterion), out.coefficients);
                fitted(season::validate(stake, counts, whole, *folds, by, scratch, coefficients))
            }
            Call::Band { x, degree, confidence, tolerance } => {
                let at = (*x, *degree);
                band_answer(season::band(
                    stake,
                    counts,
                    whole,
                    at,
                    *confidence,
                    *tolerance,
                    scratch,
                ))
            }
            Call::Report(settings) => {
                let settings = *settings;
                let of_stake =
                    season::report_stake(stake, counts, whole, settings, scratch, &mut out);
                report_answer(of_stake)
            }
            Call::Split { limit, settings } => {
                let (by, before, after) = ((*settings, *limit), lent.before, lent.after);
                split_answer(season::split(stake, counts, whole, by, scratch, before, after))
            }
            Call::Losses(settings) => {
                let losses = lent.losses;
                losses_answer(season::losses(stake, counts, whole, *settings, scratch, losses))
            }
            Call::Scores(settings) => {
                let (solved, scores) = (lent.solved, lent.scores);
                let told = season::scores(stake, counts, whole, *settings, scratch, solved, scores);
                scores_answer(told)
            }
            other => panic!("a season has no {other}"),
        }
    }

    fn season_report(&self, lent: Lent, settings: Settings) -> Answer {
        let (mut memory, mut out) = (memory!(lent), report_memory!(lent));
        let (counts, scratch) = (lent.counts, lent.scratch);
        let told = season::report(counts, &mut memory, settings, scratch, &mut out);
        let stakes = told.stakes.into_iter().map(report_answer).collect();
        Answer::Season { answered: told.answered, stakes }
    }

    fn reader(&self, frame: &[u8]) -> Answer {
        let read = |mut reader: judge::frame::Reader| {
            let mut samples = Vec::new();
            while let Some(sample) = reader.next_sample() {
                samples.push(sample);
            }
            samples
        };
        answer(book::reader(frame).map(read), Answer::Samples)
    }
}
