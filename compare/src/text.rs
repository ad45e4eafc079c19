//! Lists of calls in the text form of docs/JOURNAL.md: generated lists written, and any text read.

use journal::memory::{MEMORY, NAMES};
use journal::request::{read, MOST_BYTES};
use journal::{Answer, Call, Journal, Judge, Name, Request};
use judge::statistics::DegreeBound;
use judge::sums::{PLACES, TERMS};
use judge::surface::SurfaceSample;

use crate::call::{List, Poke, Step};
use crate::generate;
use crate::groups::{is_group, without_group, Course};
use crate::random::Random;
use crate::season::is_season;
use crate::surface::is_surface;

/// The greatest whole number of the text.
const GREATEST: usize = 999_999_999;

/// A text in the making, and a journal that runs it by the judge.
struct Writer {
    text: String,
    journal: Journal<'static>,
    random: Random,
}

/// Lists from the seed, until so many calls are written; the last list is written whole.
pub fn write(seed: u64, calls: u64) -> String {
    let (journal, random) = (Journal::new(&Judge), Random::new(seed));
    let mut writer = Writer { text: String::new(), journal, random };
    writer.line(&format!("# Made by `compare --seed {seed} --write {calls}`."));
    let (mut written, mut number) = (0, 0);
    while written < calls {
        number += 1;
        writer.line(&format!("# list {number}"));
        let steps = generate::list(seed, number).steps;
        written += steps.iter().filter(|step| writer.step(step)).count() as u64;
        writer.end_of_list();
    }
    writer.text
}

/// A list of groups, to be read: whose call each is, and the list's lines.
pub fn course(course: &Course) -> String {
    let (journal, random) = (Journal::new(&Judge), Random::new(0));
    let mut writer = Writer { text: String::new(), journal, random };
    for (at, turn) in course.turns.iter().enumerate() {
        writer.line(&format!("# step {at}, group {}", turn.group));
        if !writer.step(&turn.step) {
            writer.line(&format!("# {}", turn.step));
        }
    }
    writer.text
}

/// The call with no number above the greatest of the text.
fn written(call: &Call) -> Call {
    let mut call = call.clone();
    match &mut call {
        Call::Correct { index: number, .. }
        | Call::Withdraw { index: number }
        | Call::Fit { degree: number }
        | Call::Band { degree: number, .. }
        | Call::SurfaceFit { degree: number }
        | Call::SurfaceBand { degree: number, .. } => *number = GREATEST.min(*number),
        Call::Report(settings)
        | Call::Losses(settings)
        | Call::Scores(settings)
        | Call::SurfaceReport(settings) => settings.bound = written_bound(settings.bound),
        Call::Split { limit, settings } => {
            *limit = GREATEST.min(*limit);
            settings.bound = written_bound(settings.bound);
        }
        Call::GroupReport { group: number, settings }
        | Call::GroupSurfaceReport { group: number, settings }
        | Call::GroupSplit { group: number, settings } => {
            *number = GREATEST.min(*number);
            settings.bound = written_bound(settings.bound);
        }
        Call::Start { quota } => *quota = GREATEST.min(*quota),
        Call::Validate { folds, bound, .. } => {
            *folds = GREATEST.min(*folds);
            *bound = written_bound(*bound);
        }
        Call::Season { stake, call } => {
            *stake = GREATEST.min(*stake);
            **call = written(call);
        }
        Call::SeasonReport(settings) => settings.bound = written_bound(settings.bound),
        Call::SeasonOpen
        | Call::Open
        | Call::Add(_)
        | Call::AddWindow(_)
        | Call::AddFrame(_)
        | Call::AddLines(_)
        | Call::Carry
        | Call::Renew
        | Call::Reader(_) => {}
    }
    call
}

fn written_bound(bound: DegreeBound) -> DegreeBound {
    match bound {
        DegreeBound::Custom(degree) => DegreeBound::Custom(GREATEST.min(degree)),
        other => other,
    }
}

impl Writer {
    fn line(&mut self, line: &str) {
        self.text += line;
        self.text.push('\n');
    }

    fn ask(&mut self, request: Request) {
        self.line(&request.to_string());
        self.journal.ask(&request);
    }

    /// Writes a step, its disturbances before it; false for what the text does not have, a reader and
    /// lines of too many bytes.
    fn step(&mut self, step: &Step) -> bool {
        match &step.call {
            Call::Reader(_) => return false,
            Call::AddLines(text) if text.len() > MOST_BYTES => return false,
            _ => {}
        }
        for &poke in &step.pokes {
            let (name, index, value) = match poke {
                Poke::Table { at: index, number } => {
                    let number = GREATEST.min(number);
                    self.ask(Request::PutNumber { name: Name::Table, index, number });
                    continue;
                }
                Poke::Counts { at: index, number } => {
                    let number = GREATEST.min(number);
                    self.ask(Request::PutNumber { name: Name::Counts, index, number });
                    continue;
                }
                Poke::X { at, value } => (Name::Xs, at, value),
                Poke::Y { at, value } => (Name::Ys, at, value),
                Poke::Weight { at, value } => (Name::Ws, at, value),
                Poke::Sums { at, value } => (Name::Sums, at, value),
                Poke::Z { at, value } => (Name::Zs, at, value),
            };
            self.ask(Request::Put { name, index, value });
        }
        let (mut lent, mut lengths) = (self.journal.lent(), step.lengths);
        for (name, _) in NAMES {
            // Only a surface is lent z's, only a group the table, and only a season its counts.
            let lent_z = is_surface(&without_group(&step.call));
            if name == Name::Zs && !lent_z || name == Name::Table && !is_group(&step.call) {
                continue;
            }
            if name == Name::Counts && !is_season(&step.call) {
                continue;
            }
            let length = *name.length(&mut lengths);
            if *name.length(&mut lent) != length {
                self.ask(Request::Lent { name, length });
            }
        }
        let before = self.journal.count();
        if let Some(count) = step.count {
            self.ask(Request::Count(GREATEST.min(count)));
        }
        let call = written(&step.call);
        self.line(&call.to_string());
        let answer = self.journal.call(&call);
        if step.count.is_some() && !matches!(answer, Answer::Book(_)) {
            self.ask(Request::Count(before));
        }
        self.show_some(&answer);
        true
    }

    /// Now and then, what the call wrote, with a place more.
    fn show_some(&mut self, answer: &Answer) {
        let rows = self.rows();
        match answer {
            Answer::Degree(_) if self.random.one_in(3) => self.show(Name::Coefficients, TERMS + 1),
            Answer::Report { .. } if self.random.one_in(3) => {
                for name in [Name::Coefficients, Name::Errors, Name::Pruned] {
                    self.show(name, TERMS + 1);
                }
                for name in [Name::Lower, Name::Upper, Name::Outliers, Name::Scratch] {
                    self.show(name, rows);
                }
            }
            Answer::Split { .. } if self.random.one_in(3) => {
                self.show(Name::Before, TERMS + 1);
                self.show(Name::After, TERMS + 1);
                self.show(Name::Scratch, rows);
            }
            Answer::Losses { .. } if self.random.one_in(2) => self.show(Name::Losses, rows),
            Answer::Scores { .. } if self.random.one_in(2) => {
                self.show(Name::Solved, TERMS + 1);
                self.show(Name::Scores, TERMS + 1);
            }
            Answer::Refused(_) if self.random.one_in(6) => {
                self.show(Name::Scratch, rows);
                self.show(Name::Errors, TERMS + 1);
            }
            _ => {}
        }
    }

    /// As many places as samples, and one more.
    fn rows(&self) -> usize {
        self.journal.count().min(MEMORY - 1) + 1
    }

    fn show(&mut self, name: Name, to: usize) {
        self.ask(Request::Show { name, from: 0, to });
    }

    fn end_of_list(&mut self) {
        if self.random.one_in(4) {
            let rows = self.rows();
            self.show(Name::Xs, rows);
            self.show(Name::Ys, rows);
            self.show(Name::Ws, rows);
            self.show(Name::Sums, PLACES + 1);
        }
    }
}

/// The calls of a text as one list, on memory that is +0 at first. What the text puts into scratch
/// or an output is left out: no call reads it.
pub fn list_of(text: &[u8]) -> List {
    let mut journal = Journal::new(&Judge);
    let mut forced = None;
    let mut pokes = zeros();
    let mut steps = Vec::new();
    for line in text.split(|&byte| byte == b'\n') {
        let request = match read(line) {
            Ok(Some(request)) => request,
            _ => continue,
        };
        match request {
            Request::Put { name, index, value } => pokes.extend(poke_of(name, index, value)),
            Request::PutNumber { name, index: at, number } => pokes.push(match name {
                Name::Counts => Poke::Counts { at, number },
                _ => Poke::Table { at, number },
            }),
            Request::Row { index: at, sample: SurfaceSample { x, z, y } } => {
                pokes.push(Poke::X { at, value: x });
                pokes.push(Poke::Z { at, value: z });
                pokes.push(Poke::Y { at, value: y });
            }
            Request::Count(count) => forced = Some(count),
            _ => {}
        }
        if let Request::Call(call) = request {
            let (pokes, lengths) = (std::mem::take(&mut pokes), journal.lent());
            let answer = journal.call(&call);
            let own = is_season(&call);
            steps.push(Step { pokes, count: forced.filter(|_| !own), lengths, call });
            if let (false, Answer::Book(_)) = (own, answer) {
                forced = None;
            }
        } else {
            journal.ask(&request);
        }
    }
    List { contents: 0, steps }
}

fn zeros() -> Vec<Poke> {
    let names = [Name::Xs, Name::Ys, Name::Ws, Name::Sums, Name::Zs];
    let zeros = |name: Name| (0..name.places()).filter_map(move |at| poke_of(name, at, 0.0));
    let table = (0..MEMORY).map(|at| Poke::Table { at, number: 0 });
    let counts = (0..MEMORY).map(|at| Poke::Counts { at, number: 0 });
    names.into_iter().flat_map(zeros).chain(table).chain(counts).collect()
}

fn poke_of(name: Name, at: usize, value: f64) -> Option<Poke> {
    match name {
        Name::Xs => Some(Poke::X { at, value }),
        Name::Ys => Some(Poke::Y { at, value }),
        Name::Ws => Some(Poke::Weight { at, value }),
        Name::Sums => Some(Poke::Sums { at, value }),
        Name::Zs => Some(Poke::Z { at, value }),
        _ => None,
    }
}
