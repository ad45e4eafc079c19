//! Splits (document 02, E8): limits about the number of pivot tests, and what must happen with them.

use journal::{Answer, Call};
use judge::fit::{self, Settings};
use judge::solve::pivots_compared;
use judge::split::{breaks, least_total, side_fit, side_tests, tests, Break, SideFit};
use judge::statistics::max_degree;
use judge::sums::{folded_afresh, PLACES, TERMS};
use judge::Sample;

use crate::arguments;
use crate::coverage::Seen;
use crate::random::Random;

/// The most samples of a list whose breaks are looked at closely.
const FEW: usize = 24;

/// The pivot tests that a split would make; 0 for one that is refused before it makes any.
fn tests_of(samples: &[Sample], settings: Settings) -> usize {
    let n = samples.len();
    if n < 4 || max_degree(settings.bound, n) >= TERMS {
        return 0;
    }
    let at = |b| side_tests(&samples[..b], settings) + side_tests(&samples[b..], settings);
    (2..=n - 2).map(at).sum()
}

/// A split of the samples, with a limit about what it needs.
pub fn call(random: &mut Random, samples: &[Sample]) -> Call {
    let settings = arguments::settings(random);
    call_by(random, samples, settings)
}

pub fn call_by(random: &mut Random, samples: &[Sample], settings: Settings) -> Call {
    let exact = tests_of(samples, settings);
    let limit = match random.below(8) {
        0 | 1 => exact,
        2 | 3 => exact.saturating_sub(1),
        4 => usize::MAX,
        5 => random.pick(&[0, 1]),
        6 => exact + 1,
        _ => random.below(exact + 1),
    };
    Call::Split { limit, settings }
}

/// What must happen, besides every refusal, setting and length.
pub const EVENTS: [&str; 26] = [
    "split: answered at a limit of the tests made",
    "split: answered at the greatest limit",
    "split: 16 at one test too few",
    "split: 16 at a limit of 0",
    "split: 16 before 11",
    "split: 11 at a limit of the tests made",
    "split: 1 before 16",
    "split: 4 before 16",
    "split: 8 before 16",
    "split: equal least totals, the smallest b answered",
    "split: a break passed over for the side before it alone",
    "split: a break passed over for the side after it alone",
    "split: a break passed over for both sides",
    "split: answered, and a break passed over",
    "split: degrees that differ",
    "split: both degrees above 0",
    "split: the least scores would have another total",
    "split: the least scores would break elsewhere",
    "split: a failing pivot among the tests",
    "split: a side's bound below the whole list's",
    "split: sums after the break by subtraction would answer otherwise",
    "split: one sample on a side would total less",
    "split: four samples",
    "split: b is 2",
    "split: b is n - 2",
    "split: b between",
];

/// What happened, by name.
pub fn happened(seen: &Seen) -> Vec<&'static str> {
    let (limit, settings) = match *seen.call {
        Call::Split { limit, settings } => (limit, settings),
        _ => return Vec::new(),
    };
    let mut keys = Vec::new();
    let mut note_if = |holds: bool, key: &'static str| {
        if holds {
            keys.push(key);
        }
    };
    // Four samples and more need two tests at least.
    let too_few = limit < 2 && seen.count >= 4;
    match seen.answer {
        Answer::Refused(1) => note_if(too_few, "split: 1 before 16"),
        Answer::Refused(4) => note_if(too_few, "split: 4 before 16"),
        Answer::Refused(8) => note_if(too_few, "split: 8 before 16"),
        Answer::Refused(7) => {}
        _ if seen.samples.len() <= FEW => note_search(seen, settings, limit, &mut note_if),
        _ => {}
    }
    keys
}

/// Is given whether something holds, and its name.
type NoteIf<'a> = dyn FnMut(bool, &'static str) + 'a;

/// A search that was made, of few samples.
fn note_search(seen: &Seen, settings: Settings, limit: usize, note_if: &mut NoteIf) {
    let (samples, n) = (&seen.samples[..], seen.samples.len());
    let found = breaks(samples, settings);
    let made = tests(&found);
    let passed_over = |at: &Break| at.before.is_none() || at.after.is_none();
    if seen.answer == Answer::Refused(16) {
        note_if(limit + 1 == made, "split: 16 at one test too few");
        note_if(limit == 0, "split: 16 at a limit of 0");
        note_if(found.iter().all(passed_over), "split: 16 before 11");
        return;
    }
    let at_limit = limit == made;
    note_if(
        seen.answer == Answer::Refused(11) && at_limit,
        "split: 11 at a limit of the tests made",
    );
    for at in &found {
        let (before, after) = (at.before.is_none(), at.after.is_none());
        note_if(before && !after, "split: a break passed over for the side before it alone");
        note_if(!before && after, "split: a break passed over for the side after it alone");
        note_if(before && after, "split: a break passed over for both sides");
    }
    let (b, degrees, total) = match seen.answer {
        Answer::Split { b, degrees, total, .. } => (b, degrees, total),
        _ => return,
    };
    note_if(at_limit, "split: answered at a limit of the tests made");
    note_if(limit == usize::MAX, "split: answered at the greatest limit");
    note_if(found.iter().any(passed_over), "split: answered, and a break passed over");
    let total_of = |at: &Break| least_total(std::slice::from_ref(at)).map(|split| split.total);
    let equal = found.iter().filter(|at| total_of(at) == Some(total)).count();
    note_if(equal > 1, "split: equal least totals, the smallest b answered");
    note_if(degrees.0 != degrees.1, "split: degrees that differ");
    note_if(degrees.0 > 0 && degrees.1 > 0, "split: both degrees above 0");
    let (least_score_total, least_score_b) = by_least_scores(samples, settings);
    note_if(least_score_total != total, "split: the least scores would have another total");
    note_if(least_score_b != b, "split: the least scores would break elsewhere");
    note_if(has_failing_pivot(samples, settings), "split: a failing pivot among the tests");
    let whole = max_degree(settings.bound, n);
    let lower = max_degree(settings.bound, b) < whole || max_degree(settings.bound, n - b) < whole;
    note_if(lower, "split: a side's bound below the whole list's");
    let other = by_subtraction(samples, settings) != Some((total, b));
    note_if(other, "split: sums after the break by subtraction would answer otherwise");
    let one = [1, n - 1].into_iter().filter_map(|b| {
        let (before, after) = samples.split_at(b);
        Some(side_fit(before, settings)?.score + side_fit(after, settings)?.score)
    });
    note_if(
        one.into_iter().any(|other| other < total),
        "split: one sample on a side would total less",
    );
    note_if(n == 4, "split: four samples");
    note_if(b == 2 && n > 4, "split: b is 2");
    note_if(b + 2 == n && n > 4, "split: b is n - 2");
    note_if(b > 2 && b + 2 < n, "split: b between");
}

/// The total and the break if each side gave its least score.
fn by_least_scores(samples: &[Sample], settings: Settings) -> (f64, usize) {
    let least = |side: &[Sample]| {
        let bound = max_degree(settings.bound, side.len());
        fit::least(&fit::scores(side, &folded_afresh(side), bound, settings.criterion))
    };
    let mut best = (f64::INFINITY, 0);
    for b in 2..=samples.len() - 2 {
        let total = least(&samples[..b]) + least(&samples[b..]);
        if total < best.0 {
            best = (total, b);
        }
    }
    best
}

fn has_failing_pivot(samples: &[Sample], settings: Settings) -> bool {
    let fails = |side: &[Sample]| {
        let sums = folded_afresh(side);
        let bound = max_degree(settings.bound, side.len());
        (1..=bound + 1).any(|k| {
            let compared = pivots_compared(&sums, k);
            compared < k || judge::solve::solve(&sums, k).is_none()
        })
    };
    (2..=samples.len() - 2).any(|b| fails(&samples[..b]) || fails(&samples[b..]))
}

/// The answer if the sums after a break were those of the whole list less those before it.
fn by_subtraction(samples: &[Sample], settings: Settings) -> Option<(f64, usize)> {
    let whole = folded_afresh(samples);
    let score_after = |b: usize| {
        let (before, after) = samples.split_at(b);
        let mut sums = folded_afresh(before);
        (0..PLACES).for_each(|at| sums[at] = whole[at] - sums[at]);
        let bound = max_degree(settings.bound, after.len());
        let scores = fit::scores(after, &sums, bound, settings.criterion);
        scores[fit::chosen(&scores)?]
    };
    let mut best = None;
    for b in 2..=samples.len() - 2 {
        let before = side_fit(&samples[..b], settings).map(|side: SideFit| side.score);
        if let (Some(before), Some(after)) = (before, score_after(b)) {
            let total = before + after;
            if best.map_or(true, |(least, _)| total < least) {
                best = Some((total, b));
            }
        }
    }
    best
}
