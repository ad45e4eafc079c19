//! Calls and answers, as data.

use std::fmt;

use judge::fit::{Criterion, Settings};
use judge::statistics::{Confidence, DegreeBound, Tolerance};
use judge::surface::Site;
use judge::Sample;

use crate::request::float_field;

/// A call with its arguments.
#[derive(Debug, Clone, PartialEq)]
pub enum Call {
    Open,
    Add(Sample),
    AddWindow(Sample),
    Correct {
        index: usize,
        y: f64,
    },
    Withdraw {
        index: usize,
    },
    AddFrame(Vec<u8>),
    AddLines(Vec<u8>),
    Carry,
    Fit {
        degree: usize,
    },
    Report(Settings),
    Split {
        limit: usize,
        settings: Settings,
    },
    Losses(Settings),
    Scores(Settings),
    Validate {
        folds: usize,
        bound: DegreeBound,
        criterion: Criterion,
    },
    Band {
        x: f64,
        degree: usize,
        confidence: Confidence,
        tolerance: Tolerance,
    },
    SurfaceFit {
        degree: usize,
    },
    SurfaceReport(Settings),
    SurfaceBand {
        site: Site,
        degree: usize,
        confidence: Confidence,
        tolerance: Tolerance,
    },
    Start {
        quota: usize,
    },
    Renew,
    GroupReport {
        group: usize,
        settings: Settings,
    },
    GroupSurfaceReport {
        group: usize,
        settings: Settings,
    },
    GroupSplit {
        group: usize,
        settings: Settings,
    },
    /// The opening of all stakes of a season.
    SeasonOpen,
    /// One of a book's calls, on a stake's parts.
    Season {
        stake: usize,
        call: Box<Call>,
    },
    SeasonReport(Settings),
    /// No line of the text asks for it.
    Reader(Vec<u8>),
}

/// What a call answers.
#[derive(Debug, Clone, PartialEq)]
pub enum Answer {
    Refused(u8),
    /// Of a call that has nothing to tell.
    Done,
    Book(usize),
    Degree(usize),
    Report {
        degree: usize,
        solved: usize,
        outliers: usize,
        pruned: usize,
    },
    Split {
        b: usize,
        degrees: (usize, usize),
        tests: usize,
        total: f64,
    },
    Losses {
        degree: usize,
        total: f64,
        score: f64,
    },
    Scores {
        degree: usize,
        bound: usize,
        solved: usize,
        tests: usize,
        least: f64,
    },
    Band {
        value: f64,
        lower: f64,
        upper: f64,
    },
    /// How many stakes are not refused, and each one's report or refusal.
    Season {
        answered: usize,
        stakes: Vec<Answer>,
    },
    /// Everything a reader hands out before it tells the end.
    Samples(Vec<Sample>),
}

/// The line that is printed.
impl fmt::Display for Answer {
    fn fmt(&self, f: &mut fmt::Formatter<'_>) -> fmt::Result {
        match self {
            Answer::Refused(number) => write!(f, "refused {number}"),
            Answer::Done => write!(f, "done"),
            Answer::Book(count) => write!(f, "book {count}"),
            Answer::Degree(degree) => write!(f, "fit {degree}"),
            Answer::Report { degree, solved, outliers, pruned } => {
                write!(f, "report {degree} {solved} {outliers} {pruned}")
            }
            Answer::Split { b, degrees: (before, after), tests, total } => {
                write!(f, "split {b} {before} {after} {tests} {}", float_field(*total))
            }
            Answer::Losses { degree, total, score } => {
                write!(f, "losses {degree} {} {}", float_field(*total), float_field(*score))
            }
            Answer::Scores { degree, bound, solved, tests, least } => {
                write!(f, "scores {degree} {bound} {solved} {tests} {}", float_field(*least))
            }
            Answer::Band { value, lower, upper } => {
                let [value, lower, upper] = [*value, *lower, *upper].map(float_field);
                write!(f, "band {value} {lower} {upper}")
            }
            Answer::Season { answered, stakes } => {
                write!(f, "season {answered}")?;
                stakes.iter().try_for_each(|stake| write!(f, " | {stake}"))
            }
            Answer::Samples(samples) => {
                write!(f, "samples")?;
                for sample in samples {
                    for number in [sample.x, sample.y, sample.weight] {
                        write!(f, " {}", float_field(number))?;
                    }
                }
                Ok(())
            }
        }
    }
}
