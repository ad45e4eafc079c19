//! Lists of calls, as data: what is called, with which arguments, on memory of which lengths.

use journal::Call;
use judge::refusals::{self, Conditions, Lengths};
use judge::surface::SurfaceSample;
use judge::Sample;

use crate::season::stake_conditions;

/// A value written into the lent memory before a call, by someone other than the book.
#[derive(Debug, Clone, Copy, PartialEq)]
pub enum Poke {
    X { at: usize, value: f64 },
    Y { at: usize, value: f64 },
    Weight { at: usize, value: f64 },
    Sums { at: usize, value: f64 },
    Z { at: usize, value: f64 },
    Table { at: usize, number: usize },
    Counts { at: usize, number: usize },
}

impl Poke {
    /// Whether it is the book's memory: its columns and sums.
    pub fn is_the_books(&self) -> bool {
        !matches!(self, Poke::Z { .. } | Poke::Table { .. } | Poke::Counts { .. })
    }
}

/// One call of a list.
#[derive(Debug, Clone, PartialEq)]
pub struct Step {
    pub pokes: Vec<Poke>,
    /// A count other than the one last returned.
    pub count: Option<usize>,
    pub lengths: Lengths,
    pub call: Call,
}

/// A list of calls on memory that first holds what the seed says.
#[derive(Debug, Clone, PartialEq)]
pub struct List {
    pub contents: u64,
    pub steps: Vec<Step>,
}

/// How a call is counted.
pub fn name(call: &Call) -> &'static str {
    match call {
        Call::Open => "open",
        Call::Add(_) => "add",
        Call::AddWindow(_) => "add_window",
        Call::Correct { .. } => "correct",
        Call::Withdraw { .. } => "withdraw",
        Call::AddFrame(_) => "add_frame",
        Call::AddLines(_) => "add_lines",
        Call::Carry => "carry",
        Call::Fit { .. } => "fit",
        Call::Report(_) => "report",
        Call::Split { .. } => "split",
        Call::Losses(_) => "losses",
        Call::Scores(_) => "scores",
        Call::Validate { .. } => "validate",
        Call::Band { .. } => "band",
        Call::SurfaceFit { .. } => "surface_fit",
        Call::SurfaceReport(_) => "surface_report",
        Call::SurfaceBand { .. } => "surface_band",
        Call::Start { .. } => "start",
        Call::Renew => "renew",
        Call::GroupReport { .. } => "group_report",
        Call::GroupSurfaceReport { .. } => "group_surface_report",
        Call::GroupSplit { .. } => "group_split",
        Call::SeasonOpen => "season_open",
        Call::Season { call, .. } => stake_name(call),
        Call::SeasonReport(_) => "season_report",
        Call::Reader(_) => "reader",
    }
}

/// How a stake's call is counted.
fn stake_name(call: &Call) -> &'static str {
    match call {
        Call::Open => "season_open_stake",
        Call::Add(_) => "season_add",
        Call::AddWindow(_) => "season_add_window",
        Call::Correct { .. } => "season_correct",
        Call::Withdraw { .. } => "season_withdraw",
        Call::AddFrame(_) => "season_add_frame",
        Call::AddLines(_) => "season_add_lines",
        Call::Carry => "season_carry",
        Call::Fit { .. } => "season_fit",
        Call::Report(_) => "season_report_stake",
        Call::Split { .. } => "season_split",
        Call::Losses(_) => "season_losses",
        Call::Scores(_) => "season_scores",
        Call::Validate { .. } => "season_validate",
        Call::Band { .. } => "season_band",
        other => panic!("a season has no {other}"),
    }
}

/// The conditions of the refusals that come before a fit, in checking order, over the samples of a book
/// and those of a surface.
pub fn conditions(
    call: &Call,
    lengths: &Lengths,
    count: usize,
    (samples, sites): (&[Sample], &[SurfaceSample]),
) -> Conditions {
    match call {
        Call::Open => refusals::open(lengths),
        Call::Add(sample) => refusals::add(lengths, count, *sample),
        Call::AddWindow(sample) => refusals::add_window(lengths, count, *sample),
        Call::Correct { index, y } => refusals::correct(lengths, count, *index, *y),
        Call::Withdraw { index } => refusals::withdraw(lengths, count, *index),
        Call::AddFrame(frame) => refusals::add_frame(lengths, count, frame),
        Call::AddLines(text) => refusals::add_lines(lengths, count, text),
        Call::Carry => refusals::carry(lengths, count),
        Call::Fit { degree } => refusals::fit(lengths, count, samples, *degree),
        Call::Report(settings) => refusals::report(lengths, count, samples, *settings),
        Call::Split { settings, .. } => refusals::split(lengths, count, samples, *settings),
        Call::Losses(settings) => refusals::losses(lengths, count, samples, *settings),
        Call::Scores(settings) => refusals::scores(lengths, count, samples, *settings),
        Call::Validate { folds, bound, .. } => {
            refusals::validate(lengths, count, samples, *folds, *bound)
        }
        Call::Band { x, degree, confidence, tolerance } => {
            refusals::band(lengths, count, samples, (*x, *degree), *confidence, *tolerance)
        }
        Call::SurfaceFit { degree } => refusals::surface_fit(lengths, count, sites, *degree),
        Call::SurfaceReport(settings) => refusals::surface_report(lengths, count, sites, *settings),
        Call::SurfaceBand { site, degree, confidence, tolerance } => {
            let at = (*site, *degree);
            refusals::surface_band(lengths, count, sites, at, *confidence, *tolerance)
        }
        Call::Start { .. } => refusals::start(lengths),
        Call::Renew => refusals::renew(lengths),
        Call::GroupReport { group, settings } => {
            refusals::group_report(lengths, count, samples, *settings, *group)
        }
        Call::GroupSurfaceReport { group, settings } => {
            refusals::group_surface_report(lengths, count, sites, *settings, *group)
        }
        Call::GroupSplit { group, settings } => {
            refusals::group_split(lengths, count, samples, *settings, *group)
        }
        Call::SeasonOpen => refusals::season_open(lengths),
        Call::Season { stake, call } => stake_conditions(*stake, call, lengths, count, samples),
        Call::SeasonReport(_) => Vec::new(),
        Call::Reader(frame) => refusals::reader(frame),
    }
}

impl std::fmt::Display for Step {
    fn fmt(&self, f: &mut std::fmt::Formatter<'_>) -> std::fmt::Result {
        for poke in &self.pokes {
            writeln!(f, "  before it: {poke:?}")?;
        }
        if let Some(count) = self.count {
            writeln!(f, "  with count {count}")?;
        }
        writeln!(f, "  {:?}", self.call)?;
        write!(f, "    on {:?}", self.lengths)
    }
}
