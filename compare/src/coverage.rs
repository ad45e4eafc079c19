//! Counts what the runs made, as the judge sees it, and names what never happened.

use std::collections::{BTreeMap, BTreeSet};

use journal::{Answer, Call, Memory};
use judge::fit::{self, Criterion, PruningRule, Settings};
use judge::groups::TABLE;
use judge::numbers::{bits, EPSILON};
use judge::refusals::{Conditions, Lengths};
use judge::solve::inverse;
use judge::statistics::{
    max_degree, median_absolute_deviation, Confidence, DegreeBound, Tolerance, HUBER_CONST,
};
use judge::sums::{a, folded_afresh, PLACES, TERMS};
use judge::surface::SurfaceSample;
use judge::Sample;

use crate::call::name;
use crate::carry;
use crate::groups;
use crate::lines;
use crate::mirror;
use crate::replay;
use crate::run::{passes_nine, places_of_terms};
use crate::season;
use crate::split;
use crate::surface;
use crate::two_column;
use crate::weights;
use crate::windows;

/// One call, and what came of it.
pub struct Seen<'a> {
    pub call: &'a Call,
    pub lengths: &'a Lengths,
    pub count: usize,
    pub samples: Vec<Sample>,
    /// Of a surface.
    pub sites: Vec<SurfaceSample>,
    pub conditions: Conditions,
    pub answer: Answer,
    pub before: &'a Memory,
    pub memory: &'a Memory,
    pub own_sums: bool,
    pub by_reference: bool,
}

#[derive(Default)]
pub struct Coverage {
    counts: BTreeMap<String, u64>,
    /// Confidences and degrees of freedom, 31 for more, with a term just below and above the score.
    beside: BTreeSet<(&'static str, usize, bool)>,
    /// Whether sample 0 went from the book for a newer one.
    slid: bool,
    pub calls: u64,
    pub by_reference: u64,
    /// Calls compared with those of the mirror image.
    pub mirrored: u64,
    pub mirror_seconds: f64,
    /// Calls of seasons.
    pub season_calls: u64,
    pub season_seconds: f64,
}

/// What each call may answer, besides being let through, in checking order.
pub const REFUSALS: [(&str, &[u8]); 15] = [
    ("open", &[1]),
    ("add", &[1, 4, 15, 5]),
    ("add_window", &[1, 4, 15, 5]),
    ("correct", &[1, 4, 6]),
    ("withdraw", &[1, 6]),
    ("add_frame", &[1, 2, 3, 4, 15, 5]),
    ("add_lines", &[1, 13, 14, 5]),
    ("fit", &[1, 4, 7, 8, 10]),
    ("report", &[1, 4, 7, 8, 11, 12]),
    ("split", &[1, 4, 7, 8, 16, 11]),
    ("losses", &[1, 4, 7, 8, 11, 12]),
    ("scores", &[1, 4, 7, 8, 11, 12]),
    ("validate", &[1, 4, 7, 8, 10, 11]),
    ("band", &[1, 4, 7, 8, 9, 10, 12]),
    ("reader", &[2, 3]),
];

/// Pairs that cannot both hold: without samples no column value is below the count, and a bound is
/// then 0; a bound is below a count of less than four; a frame of neither version has no weights; a
/// surface's band without samples needs no place.
const IMPOSSIBLE_PAIRS: [(&str, u8, u8); 12] = [
    ("fit", 4, 7),
    ("report", 7, 8),
    ("split", 7, 8),
    ("losses", 7, 8),
    ("scores", 7, 8),
    ("add_frame", 3, 15),
    ("surface_fit", 4, 7),
    ("surface_report", 7, 8),
    ("surface_band", 1, 7),
    ("group_report", 7, 8),
    ("group_surface_report", 7, 8),
    ("group_split", 7, 8),
];

/// Calls that read the fit, each with the refusals that polyfit can speak of.
const BY_REFERENCE: [(&str, &[u8]); 9] = [
    ("fit", &[10]),
    ("report", &[11, 12]),
    ("split", &[16, 11]),
    ("losses", &[11, 12]),
    ("scores", &[11, 12]),
    ("validate", &[10, 11]),
    ("band", &[10, 12]),
    ("group_report", &[16, 11, 12]),
    ("group_split", &[16, 11]),
];

const CONFIDENCES: [&str; 7] = ["P80", "P90", "P95", "P98", "P99", "P999", "Custom"];
const FREEDOMS: [&str; 3] = ["df 0", "df 1 to 30", "df 31 or more"];
const TOLERANCES: [&str; 4] = ["none", "absolute", "variance", "measurement"];
const BOUNDS: [&str; 4] = ["Conservative", "Relaxed", "Aggressive", "Custom"];
const CRITERIA: [&str; 2] = ["Aic", "Bic"];
const RULES: [&str; 2] = ["positive", "size"];

/// Memory whose length is judged, and by which calls.
const LENGTHS: [(&str, &[&str]); 15] = [
    (
        "sums",
        &[
            "open",
            "add",
            "add_window",
            "correct",
            "withdraw",
            "add_frame",
            "add_lines",
            "fit",
            "report",
            "split",
            "losses",
            "scores",
            "validate",
            "band",
            "group_report",
            "group_split",
        ],
    ),
    (
        "scratch",
        &[
            "fit",
            "report",
            "split",
            "losses",
            "scores",
            "validate",
            "band",
            "surface_fit",
            "surface_report",
            "surface_band",
            "group_report",
            "group_surface_report",
            "group_split",
        ],
    ),
    ("coefficients", &["fit", "validate", "surface_fit"]),
    ("coefficients", &REPORTS),
    ("errors", &REPORTS),
    ("pruned", &REPORTS),
    ("lower", &REPORTS),
    ("upper", &REPORTS),
    ("outlier", &REPORTS),
    ("before", &["split", "group_split"]),
    ("after", &["split", "group_split"]),
    ("losses", &["losses"]),
    ("solved", &["scores"]),
    ("scores", &["scores"]),
    ("table", &["start", "renew", "group_report", "group_surface_report", "group_split"]),
];

/// The calls that write a report.
const REPORTS: [&str; 4] = ["report", "surface_report", "group_report", "group_surface_report"];

/// Everything else that must happen.
const EVENTS: [&str; 81] = [
    "report: 11 with no degree solved",
    "report: 11 with degrees solved",
    "report: degree 0 unsolved, a higher one chosen",
    "report: an unsolved degree below a solved one",
    "report: chosen does not have the least score",
    "report: chosen is exactly 2 above the least",
    "report: outliers",
    "report: no outliers",
    "report: every sample an outlier",
    "report: pruned terms",
    "report: pruned terms at df 0",
    "report: a positive term kept",
    "report: a term below zero kept though its t is small",
    "report: by size, a term below zero pruned",
    "report: by size, a term below zero with a -0 error pruned",
    "report: by size, a term below zero with a +0 error kept",
    "report: by size, a term below zero with a NaN error kept",
    "report: a term just above 2^-52 pruned",
    "report: a term just below -2^-52 kept though its t is small",
    "report: by size, a term just below -2^-52 pruned",
    "report: NaN in a band",
    "report: infinity in a band",
    "report: a NaN error",
    "report: a -0 error",
    "report: an infinite error",
    "report: a +0 error",
    "report: a -0 coefficient",
    "report: correction term of the AIC used",
    "report: correction term of the AIC not used",
    "report: square losses",
    "report: linear losses",
    "report: two middle sizes whose sum is infinite",
    "losses: square ones",
    "losses: linear ones",
    "losses: all +0",
    "losses: another degree than 0",
    "losses: the least score's degree would have others",
    "losses: the total without the last is another",
    "losses: backwards the total is another",
    "scores: all solved",
    "scores: an unsolved degree below a solved one",
    "scores: the highest degree unsolved",
    "scores: past the bound",
    "scores: the chosen one is not the least",
    "scores: fewer tests than pivots",
    "scores: below zero",
    "band: 9 before 10",
    "band: 9 before 12",
    "band: NaN",
    "band: infinity",
    "band: at the least x",
    "band: at the greatest x",
    "band: between",
    "validate: leave one out",
    "validate: the last fold takes a rest",
    "validate: a degree with solved and unsolved folds",
    "validate: a degree without a solved fold",
    "median: the chosen degree's middle sizes have an infinite sum",
    "median: a fold's middle sizes have an infinite sum",
    "samples: -0",
    "samples: subnormal",
    "samples: above 1e308",
    "samples: equal x",
    "samples: x near 2000",
    "sums: not the ledger's, fit answered",
    "sums: not the ledger's, report answered",
    "sums: not the ledger's, split answered",
    "sums: not the ledger's, losses answered",
    "sums: not the ledger's, scores answered",
    "sums: not the ledger's, validate answered",
    "sums: not the ledger's, band answered",
    "sums: not symmetric, report answered",
    "count: above capacity",
    "count: above 4,096 in longer columns",
    "count: 4,096 in longer columns",
    "replay: a change answered",
    "replay: a change refused",
    "replay: a change refused by 15",
    "replay: a report answered",
    "replay: a report refused",
    "replay: a report by size answered",
];

/// Six confidences; df 1 to 30 by the table, 31 and more by the z score.
const T_SCORES: usize = 6 * 31;

const COUNTS: [usize; 4] = [1, 2, 3, 4096];

impl Coverage {
    fn note(&mut self, key: impl Into<String>) {
        *self.counts.entry(key.into()).or_default() += 1;
    }

    fn note_if(&mut self, holds: bool, key: &str) {
        if holds {
            self.note(key);
        }
    }

    /// Everything that must have happened, by name.
    fn required() -> Vec<String> {
        let mut keys = required_refusals();
        keys.extend(required_settings());
        keys.extend((0..=TERMS).map(|number| format!("solved degrees: {number}")));
        keys.extend((0..TERMS).map(|degree| format!("chosen degree: {degree}")));
        keys.extend(COUNTS.map(|n| format!("samples: {n}")));
        keys.extend(EVENTS.map(String::from));
        keys.extend(lines::EVENTS.map(String::from));
        keys.extend(weights::events());
        keys.extend(split::EVENTS.map(String::from));
        keys.extend(windows::events());
        keys.extend(surface::events());
        keys.extend(groups::events());
        keys.extend(season::events());
        keys.extend(two_column::EVENTS.map(String::from));
        for (call, numbers) in two_column::REFUSALS {
            keys.push(format!("two columns: {call} answered"));
            let refused = |number| format!("two columns: {call} refused by {number}");
            keys.extend(numbers.iter().map(refused));
        }
        keys.extend(carry::events());
        keys.extend(mirror::events());
        keys.extend((0..replay::WAYS).map(|way| format!("replay: too short in way {way}")));
        for (memory, calls) in LENGTHS {
            for call in calls {
                for fit in ["one too short", "exact", "with places past the end"] {
                    keys.push(format!("length: {call}, {memory} {fit}"));
                }
            }
        }
        keys
    }

    /// What never happened.
    pub fn missing(&self) -> Vec<String> {
        let mut keys = Self::required();
        keys.retain(|key| !self.counts.contains_key(key));
        let unmet = 2 * T_SCORES - self.beside.len();
        if unmet > 0 {
            keys.push(format!("{unmet} sides of t scores"));
        }
        keys
    }

    pub fn print(&self) {
        for key in Self::required() {
            println!("{:>9}  {key}", self.counts.get(&key).copied().unwrap_or(0));
        }
        println!(
            "{:>9}  sides of {T_SCORES} t scores, a term just below or above",
            self.beside.len()
        );
    }

    /// The outcome of a call, the conditions that held, and the lengths that it was lent.
    fn note_outcome(&mut self, seen: &Seen) {
        self.calls += 1;
        let name = name(seen.call);
        let outcome = match seen.answer {
            Answer::Refused(number) => format!("refused by {number}"),
            _ => "answered".to_string(),
        };
        self.note(format!("{name}: {outcome}"));
        if seen.by_reference {
            self.by_reference += 1;
            self.note(format!("{name} by polyfit: {outcome}"));
        }
        self.note_pairs(name, &seen.conditions);
        self.note_lengths(seen);
    }

    /// A call on one of several groups' books; of those without a group, others tell.
    pub fn note_group(&mut self, seen: &Seen) {
        if !groups::is_group(seen.call) {
            self.calls += 1;
            return;
        }
        self.note_outcome(seen);
        for event in groups::happened(seen) {
            self.note(event);
        }
    }

    /// A call of a season's list, the conditions that held, and what else happened.
    pub fn note_season(
        &mut self,
        call: &Call,
        answer: &Answer,
        conditions: &Conditions,
        events: Vec<String>,
    ) {
        self.calls += 1;
        if !season::is_season(call) {
            return;
        }
        self.season_calls += 1;
        let name = name(call);
        self.note(match answer {
            Answer::Refused(number) => format!("{name}: refused by {number}"),
            _ => format!("{name}: answered"),
        });
        self.note_pairs(name, conditions);
        events.into_iter().for_each(|event| self.note(event));
    }

    /// What happened in a list of several groups.
    pub fn note_groups(&mut self, event: String) {
        self.note(event);
    }

    pub fn note_call(&mut self, seen: &Seen) {
        if groups::is_group(seen.call) {
            return self.note_group(seen);
        }
        self.note_outcome(seen);
        if surface::is_surface(seen.call) {
            for event in surface::happened(seen) {
                self.note(event);
            }
            return;
        }
        self.note_outside(seen);
        self.note_counts(seen);
        if let Call::AddLines(text) = seen.call {
            for event in lines::happened(text, &seen.answer) {
                self.note(event);
            }
        }
        for event in weights::happened(seen) {
            self.note(event);
        }
        for event in split::happened(seen) {
            self.note(event);
        }
        for event in windows::happened(seen, &mut self.slid) {
            self.note(event);
        }
        if passes_nine(&seen.answer) {
            self.note_reading(seen);
        }
    }

    /// A call of a replay.
    pub fn note_replayed(&mut self, call: &Call, answer: &Answer) {
        let kind = match call {
            Call::Report(settings) if settings.pruning == PruningRule::Size => "report by size",
            Call::Report(_) => "report",
            _ => "change",
        };
        let outcome = if let Answer::Refused(_) = answer { "refused" } else { "answered" };
        self.note(format!("replay: a {kind} {outcome}"));
        self.note_if(*answer == Answer::Refused(15), "replay: a change refused by 15");
    }

    /// A call on a book of two columns; whether it was a frame of version 2, and whether the book is now
    /// above what the weight column would hold.
    pub fn note_two_column(&mut self, call: &str, answer: &Answer, version_2: bool, past: bool) {
        let outcome = match answer {
            Answer::Refused(number) => format!("refused by {number}"),
            _ => "answered".to_string(),
        };
        self.note(format!("two columns: {call} {outcome}"));
        if version_2 {
            self.note(format!("two columns: a frame of version 2 {outcome}"));
        }
        self.note_if(past, "two columns: room past the weight column used");
    }

    /// What happened where a book was carried over.
    pub fn note_carry(&mut self, event: &str) {
        self.note(format!("carry: {event}"));
    }

    pub fn note_carry_if(&mut self, holds: bool, event: &str) {
        if holds {
            self.note_carry(event);
        }
    }

    /// What happened in a list and its mirror image.
    pub fn note_mirror(&mut self, event: &str) {
        self.note(format!("mirror: {event}"));
    }

    /// Buffers of a replay that are too short in this way.
    pub fn note_malformed(&mut self, way: u64) {
        self.note(format!("replay: too short in way {way}"));
    }

    fn note_pairs(&mut self, name: &str, conditions: &Conditions) {
        // Of lines, a number may hold many times: where it does first and last.
        let mut held: BTreeMap<u8, (usize, usize)> = BTreeMap::new();
        for (at, &(number, _)) in conditions.iter().enumerate().filter(|(_, c)| c.1) {
            held.entry(number).or_insert((at, at)).1 = at;
        }
        for (first, (at, _)) in &held {
            for (second, (_, last)) in &held {
                if first != second && at < last {
                    self.note(format!("{name}: {first} before {second}"));
                }
            }
        }
    }

    /// A band refused by 9 whose fit would have been refused by 10 or 12.
    fn note_outside(&mut self, seen: &Seen) {
        if let (Call::Band { degree, .. }, Answer::Refused(9)) = (seen.call, &seen.answer) {
            let sums = &seen.memory.sums;
            self.note_if(fit::solved(&seen.samples, sums, *degree).is_none(), "band: 9 before 10");
            self.note_if(inverse(sums, degree + 1).is_none(), "band: 9 before 12");
        }
    }

    fn note_lengths(&mut self, seen: &Seen) {
        let name = name(seen.call);
        for (memory, calls) in LENGTHS {
            if !calls.contains(&name) {
                continue;
            }
            let terms = places_of_terms(seen.call);
            let (length, places) = length_of(seen.lengths, memory, seen.count, terms);
            let fit = match length {
                _ if length + 1 == places => "one too short",
                _ if length == places => "exact",
                _ if length > places => "with places past the end",
                _ => continue,
            };
            self.note(format!("length: {name}, {memory} {fit}"));
        }
    }

    fn note_counts(&mut self, seen: &Seen) {
        let shortest = seen.lengths.x.min(seen.lengths.y).min(seen.lengths.weight);
        self.note_if(seen.count > shortest, "count: above capacity");
        let longer = shortest > 4096;
        self.note_if(longer && seen.count > 4096, "count: above 4,096 in longer columns");
        self.note_if(longer && seen.count == 4096, "count: 4,096 in longer columns");
    }

    fn note_reading(&mut self, seen: &Seen) {
        match seen.call {
            Call::Fit { .. } => {}
            Call::Report(settings) => self.note_report(seen, *settings),
            Call::Split { settings, .. } => {
                self.note(format!("split: criterion {}", criterion_name(settings.criterion)));
                self.note(format!("split: bound {}", bound_name(settings.bound)));
            }
            Call::Losses(settings) => self.note_chosen_losses(seen, *settings),
            Call::Scores(settings) => self.note_scores(seen, *settings),
            Call::Validate { folds, bound, criterion } => {
                self.note_validation(seen, *folds, *bound, *criterion)
            }
            Call::Band { x, tolerance, .. } => self.note_band(seen, *x, *tolerance),
            _ => return,
        }
        self.note_samples(&seen.samples);
        let answered = !matches!(seen.answer, Answer::Refused(_));
        if answered && !seen.own_sums {
            self.note(format!("sums: not the ledger's, {} answered", name(seen.call)));
        }
    }

    fn note_samples(&mut self, samples: &[Sample]) {
        let values = || samples.iter().flat_map(|sample| [sample.x, sample.y]);
        self.note_if(values().any(|v| bits(v) == 1 << 63), "samples: -0");
        self.note_if(values().any(f64::is_subnormal), "samples: subnormal");
        self.note_if(values().any(|v| v.abs() > 1e308), "samples: above 1e308");
        let near_2000 = |sample: &Sample| (sample.x - 2000.0).abs() < 100.0;
        self.note_if(samples.iter().all(near_2000), "samples: x near 2000");
        let equal = samples.windows(2).any(|pair| pair[0].x == pair[1].x);
        self.note_if(equal, "samples: equal x");
        if COUNTS.contains(&samples.len()) {
            self.note(format!("samples: {}", samples.len()));
        }
    }

    fn note_band(&mut self, seen: &Seen, x: f64, tolerance: Tolerance) {
        let numbers = match seen.answer {
            Answer::Band { value, lower, upper } => [value, lower, upper],
            _ => return,
        };
        self.note(format!("band: tolerance {}", tolerance_name(tolerance)));
        self.note_if(numbers.iter().any(|v| v.is_nan()), "band: NaN");
        self.note_if(numbers.iter().any(|v| v.is_infinite()), "band: infinity");
        let least = seen.samples.iter().all(|sample| x <= sample.x);
        let greatest = seen.samples.iter().all(|sample| x >= sample.x);
        self.note_if(least, "band: at the least x");
        self.note_if(greatest, "band: at the greatest x");
        self.note_if(!least && !greatest, "band: between");
    }

    fn note_validation(
        &mut self,
        seen: &Seen,
        folds: usize,
        bound: DegreeBound,
        criterion: Criterion,
    ) {
        let n = seen.samples.len();
        self.note(format!("validate: criterion {}", criterion_name(criterion)));
        self.note(format!("validate: bound {}", bound_name(bound)));
        self.note_if(folds == n, "validate: leave one out");
        self.note_if(n % folds != 0, "validate: the last fold takes a rest");
        if n * folds <= 200 {
            self.note_folds(&seen.samples, folds, max_degree(bound, n));
        }
    }

    fn note_folds(&mut self, samples: &[Sample], folds: usize, bound: usize) {
        let ranges = fit::fold_ranges(samples.len(), folds);
        let sums_of = |range: &std::ops::Range<usize>| {
            folded_afresh(&[&samples[..range.start], &samples[range.end..]].concat())
        };
        let sums: Vec<Vec<f64>> = ranges.iter().map(sums_of).collect();
        for degree in 0..=bound {
            let is_solved = |sums: &&Vec<f64>| fit::solved(samples, sums, degree).is_some();
            let solved = sums.iter().filter(is_solved).count();
            self.note_if(solved == 0, "validate: a degree without a solved fold");
            let some = solved > 0 && solved < folds;
            self.note_if(some, "validate: a degree with solved and unsolved folds");
            for (range, sums) in ranges.iter().zip(&sums) {
                if let Some(coefficients) = fit::solved(samples, sums, degree) {
                    let own = fit::residuals(&samples[range.clone()], &coefficients);
                    let key = "median: a fold's middle sizes have an infinite sum";
                    self.note_if(middle_sum_is_infinite(&own), key);
                }
            }
        }
    }

    fn note_report(&mut self, seen: &Seen, settings: Settings) {
        let samples = &seen.samples;
        let bound = max_degree(settings.bound, samples.len());
        let sums = &seen.memory.sums;
        let scores = fit::scores(samples, sums, bound, settings.criterion);
        let solved = scores.iter().flatten().count();
        if seen.answer == Answer::Refused(11) {
            self.note_if(solved == 0, "report: 11 with no degree solved");
            self.note_if(solved > 0, "report: 11 with degrees solved");
        }
        self.note(format!("solved degrees: {solved}"));
        self.note_medians(samples, sums, bound);
        let gap = scores.windows(2).any(|pair| pair[0].is_none() && pair[1].is_some());
        self.note_if(gap, "report: an unsolved degree below a solved one");
        let (degree, outliers) = match seen.answer {
            Answer::Report { degree, outliers, .. } => (degree, outliers),
            _ => return,
        };
        self.note(format!("chosen degree: {degree}"));
        self.note_if(scores[0].is_none(), "report: degree 0 unsolved, a higher one chosen");
        self.note_distance(scores[degree].unwrap_or(f64::NAN) - fit::least(&scores));
        self.note_if(outliers > 0, "report: outliers");
        self.note_if(outliers == 0, "report: no outliers");
        self.note_if(outliers == seen.count, "report: every sample an outlier");
        self.note_settings(settings, seen.count - degree - 1);
        self.note_terms(seen, settings, degree);
        self.note_bands(seen);
        self.note_losses(seen, settings, degree);
        let symmetric =
            (0..TERMS).all(|i| (0..i).all(|j| bits(a(sums, i, j)) == bits(a(sums, j, i))));
        self.note_if(!symmetric, "sums: not symmetric, report answered");
    }

    /// The losses of a call for them.
    fn note_chosen_losses(&mut self, seen: &Seen, settings: Settings) {
        let (degree, total) = match seen.answer {
            Answer::Losses { degree, total, .. } => (degree, total),
            _ => return,
        };
        self.note(format!("losses: criterion {}", criterion_name(settings.criterion)));
        self.note(format!("losses: bound {}", bound_name(settings.bound)));
        let (samples, sums) = (&seen.samples, &seen.memory.sums);
        let written = &seen.memory.losses[..seen.count];
        let residuals_of =
            |degree| Some(fit::residuals(samples, &fit::solved(samples, sums, degree)?));
        let residuals = residuals_of(degree).unwrap_or_default();
        let delta = HUBER_CONST * median_absolute_deviation(&residuals);
        let square = residuals.iter().any(|r| *r != 0.0 && r.abs() <= delta);
        let linear = residuals.iter().any(|r| r.abs() > delta && delta > 0.0);
        self.note_if(square, "losses: square ones");
        self.note_if(linear, "losses: linear ones");
        self.note_if(written.iter().all(|loss| bits(*loss) == 0), "losses: all +0");
        self.note_if(degree > 0, "losses: another degree than 0");
        let bound = max_degree(settings.bound, samples.len());
        let scores = fit::scores(samples, sums, bound, settings.criterion);
        let least = scores.iter().position(|score| *score == Some(fit::least(&scores)));
        let others = least.and_then(residuals_of);
        let others = others.map_or(false, |others| fit::losses(&others) != written);
        self.note_if(others, "losses: the least score's degree would have others");
        let before_last = fit::total_loss(&written[..seen.count - 1]);
        self.note_if(before_last != total, "losses: the total without the last is another");
        let backwards: Vec<f64> = written.iter().rev().copied().collect();
        let backwards = fit::total_loss(&backwards) != total;
        self.note_if(backwards, "losses: backwards the total is another");
    }

    /// The scores of a call for them.
    fn note_scores(&mut self, seen: &Seen, settings: Settings) {
        let (degree, bound, solved, tests, least) = match seen.answer {
            Answer::Scores { degree, bound, solved, tests, least } => {
                (degree, bound, solved, tests, least)
            }
            _ => return,
        };
        self.note(format!("scores: criterion {}", criterion_name(settings.criterion)));
        self.note(format!("scores: bound {}", bound_name(settings.bound)));
        let marks = &seen.memory.solved[..=bound];
        let gap = marks.windows(2).any(|pair| pair == [0, 1]);
        self.note_if(solved == bound + 1, "scores: all solved");
        self.note_if(gap, "scores: an unsolved degree below a solved one");
        self.note_if(marks[bound] == 0, "scores: the highest degree unsolved");
        self.note_if(bound + 1 < TERMS, "scores: past the bound");
        self.note_if(seen.memory.scores[degree] > least, "scores: the chosen one is not the least");
        let pivots: usize = (1..=bound + 1).sum();
        self.note_if(tests < pivots, "scores: fewer tests than pivots");
        self.note_if(least < 0.0, "scores: below zero");
    }

    fn note_medians(&mut self, samples: &[Sample], sums: &[f64], bound: usize) {
        for coefficients in (0..=bound).filter_map(|degree| fit::solved(samples, sums, degree)) {
            let residuals = fit::residuals(samples, &coefficients);
            let key = "report: two middle sizes whose sum is infinite";
            self.note_if(middle_sum_is_infinite(&residuals), key);
        }
    }

    fn note_distance(&mut self, distance: f64) {
        self.note_if(distance > 0.0, "report: chosen does not have the least score");
        self.note_if(distance == 2.0, "report: chosen is exactly 2 above the least");
    }

    fn note_settings(&mut self, settings: Settings, df: usize) {
        let freedom = match df {
            0 => FREEDOMS[0],
            1..=30 => FREEDOMS[1],
            _ => FREEDOMS[2],
        };
        self.note(format!("report: {} at {freedom}", confidence_name(settings.confidence)));
        self.note(format!("report: criterion {}", criterion_name(settings.criterion)));
        self.note(format!("report: tolerance {}", tolerance_name(settings.tolerance)));
        self.note(format!("report: bound {}", bound_name(settings.bound)));
        self.note(format!("report: pruning {}", rule_name(settings.pruning)));
    }

    fn note_terms(&mut self, seen: &Seen, settings: Settings, degree: usize) {
        let df = seen.count - degree - 1;
        let critical = judge::statistics::t_score(settings.confidence, df);
        let level = confidence_name(settings.confidence);
        for j in 0..=degree {
            let coefficient = seen.memory.coefficients[j];
            let error = seen.memory.errors[j];
            let pruned = seen.memory.pruned[j] == 1;
            let part = coefficient / error / critical;
            if level != "Custom" && df > 0 && (part - 1.0).abs() < 1e-5 {
                self.beside.insert((level, df.min(31), part > 1.0));
            }
            self.note_if(pruned, "report: pruned terms");
            self.note_if(pruned && df == 0, "report: pruned terms at df 0");
            self.note_if(!pruned && coefficient > 1e-9, "report: a positive term kept");
            let small = coefficient < -1e-9 && -coefficient / error < critical;
            self.note_if(!pruned && small, "report: a term below zero kept though its t is small");
            self.note_by_size(settings, coefficient, error, pruned);
            let least = EPSILON.next_up();
            self.note_if(pruned && coefficient == least, "report: a term just above 2^-52 pruned");
            let small = coefficient == -least && -coefficient / error < critical;
            let kept = "report: a term just below -2^-52 kept though its t is small";
            self.note_if(!pruned && small, kept);
            self.note_if(error.is_nan(), "report: a NaN error");
            self.note_if(error.is_infinite(), "report: an infinite error");
            self.note_if(bits(error) == 1 << 63, "report: a -0 error");
            self.note_if(bits(error) == 0, "report: a +0 error");
            self.note_if(bits(coefficient) == 1 << 63, "report: a -0 coefficient");
        }
    }

    /// A term below zero that faces the test.
    fn note_by_size(&mut self, settings: Settings, coefficient: f64, error: f64, pruned: bool) {
        if settings.pruning != PruningRule::Size || coefficient >= -EPSILON {
            return;
        }
        let mut note =
            |holds, what| self.note_if(holds, &format!("report: by size, a term {what}"));
        note(pruned, "below zero pruned");
        note(pruned && bits(error) == 1 << 63, "below zero with a -0 error pruned");
        note(!pruned && bits(error) == 0, "below zero with a +0 error kept");
        note(!pruned && error.is_nan(), "below zero with a NaN error kept");
        note(pruned && coefficient == -EPSILON.next_up(), "just below -2^-52 pruned");
    }

    fn note_bands(&mut self, seen: &Seen) {
        let ends = seen.memory.lower[..seen.count].iter().chain(&seen.memory.upper[..seen.count]);
        self.note_if(ends.clone().any(|v| v.is_nan()), "report: NaN in a band");
        self.note_if(ends.clone().any(|v| v.is_infinite()), "report: infinity in a band");
    }

    fn note_losses(&mut self, seen: &Seen, settings: Settings, degree: usize) {
        let residuals = fit::residuals(&seen.samples, &seen.memory.coefficients[..=degree]);
        let key = "median: the chosen degree's middle sizes have an infinite sum";
        self.note_if(middle_sum_is_infinite(&residuals), key);
        let delta = HUBER_CONST * median_absolute_deviation(&residuals);
        self.note_if(residuals.iter().any(|r| r.abs() <= delta), "report: square losses");
        self.note_if(residuals.iter().any(|r| r.abs() > delta), "report: linear losses");
        if settings.criterion == Criterion::Aic {
            let (n, k) = (seen.count, degree + 1);
            let used = n < 4 * k && n > k + 1;
            self.note_if(used, "report: correction term of the AIC used");
            self.note_if(!used, "report: correction term of the AIC not used");
        }
    }
}

/// Whether the two middle sizes of an even number of residuals add up to infinity.
fn middle_sum_is_infinite(residuals: &[f64]) -> bool {
    let mut sizes: Vec<f64> = residuals.iter().map(|r| r.abs()).collect();
    sizes.sort_by(f64::total_cmp);
    let n = sizes.len();
    n > 0 && n % 2 == 0 && (sizes[n / 2 - 1] + sizes[n / 2]).is_infinite()
}

fn required_refusals() -> Vec<String> {
    let mut keys = Vec::new();
    let all = || REFUSALS.into_iter().chain(surface::REFUSALS).chain(groups::REFUSALS);
    for (call, numbers) in all() {
        keys.push(format!("{call}: answered"));
        keys.extend(numbers.iter().map(|number| format!("{call}: refused by {number}")));
    }
    for (call, numbers) in all() {
        // All but those that come out of the fit or of a split's search.
        let early = numbers.iter().copied().filter(|n| !matches!(n, 10..=12 | 16));
        let early: Vec<u8> = early.collect();
        for (i, &first) in early.iter().enumerate() {
            for &second in &early[i + 1..] {
                if !IMPOSSIBLE_PAIRS.contains(&(call, first, second)) {
                    keys.push(format!("{call}: {first} before {second}"));
                }
            }
        }
    }
    for (call, numbers) in BY_REFERENCE {
        keys.push(format!("{call} by polyfit: answered"));
        keys.extend(numbers.iter().map(|number| format!("{call} by polyfit: refused by {number}")));
    }
    keys
}

fn required_settings() -> Vec<String> {
    let mut keys = Vec::new();
    for confidence in CONFIDENCES {
        keys.extend(FREEDOMS.map(|freedom| format!("report: {confidence} at {freedom}")));
    }
    for call in ["report", "split", "losses", "scores", "validate"] {
        keys.extend(CRITERIA.map(|criterion| format!("{call}: criterion {criterion}")));
        keys.extend(BOUNDS.map(|bound| format!("{call}: bound {bound}")));
    }
    keys.extend(RULES.map(|rule| format!("report: pruning {rule}")));
    for call in ["report", "band"] {
        keys.extend(TOLERANCES.map(|tolerance| format!("{call}: tolerance {tolerance}")));
    }
    keys
}

/// The length of a lent memory, and the places that a call needs there, so many for terms.
fn length_of(lengths: &Lengths, memory: &str, count: usize, terms: usize) -> (usize, usize) {
    match memory {
        "sums" => (lengths.sums, PLACES),
        "scratch" => (lengths.scratch, count),
        "coefficients" => (lengths.coefficients, terms),
        "errors" => (lengths.errors, terms),
        "pruned" => (lengths.pruned, terms),
        "lower" => (lengths.lower, count),
        "upper" => (lengths.upper, count),
        "before" => (lengths.before, TERMS),
        "after" => (lengths.after, TERMS),
        "losses" => (lengths.losses, count),
        "solved" => (lengths.solved, TERMS),
        "scores" => (lengths.scores, TERMS),
        "table" => (lengths.table, TABLE),
        _ => (lengths.outlier, count),
    }
}

fn rule_name(rule: PruningRule) -> &'static str {
    match rule {
        PruningRule::Positive => RULES[0],
        PruningRule::Size => RULES[1],
    }
}

fn confidence_name(confidence: Confidence) -> &'static str {
    match confidence {
        Confidence::P80 => CONFIDENCES[0],
        Confidence::P90 => CONFIDENCES[1],
        Confidence::P95 => CONFIDENCES[2],
        Confidence::P98 => CONFIDENCES[3],
        Confidence::P99 => CONFIDENCES[4],
        Confidence::P999 => CONFIDENCES[5],
        Confidence::Custom(_) => CONFIDENCES[6],
    }
}

fn tolerance_name(tolerance: Tolerance) -> &'static str {
    match tolerance {
        Tolerance::None => TOLERANCES[0],
        Tolerance::Absolute(_) => TOLERANCES[1],
        Tolerance::Variance(_) => TOLERANCES[2],
        Tolerance::Measurement(_) => TOLERANCES[3],
    }
}

fn bound_name(bound: DegreeBound) -> &'static str {
    match bound {
        DegreeBound::Conservative => BOUNDS[0],
        DegreeBound::Relaxed => BOUNDS[1],
        DegreeBound::Aggressive => BOUNDS[2],
        DegreeBound::Custom(_) => BOUNDS[3],
    }
}

fn criterion_name(criterion: Criterion) -> &'static str {
    match criterion {
        Criterion::Aic => CRITERIA[0],
        Criterion::Bic => CRITERIA[1],
    }
}
