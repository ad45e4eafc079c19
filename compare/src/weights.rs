//! Weights of samples (document 02, E5) and frames of both versions, around every edge of what passes, and
//! what must happen with them.

use journal::{Answer, Call};
use judge::fit::{self, Criterion};
use judge::frame;
use judge::numbers::bits;
use judge::refusals::Lengths;
use judge::split::{split, Split};
use judge::statistics::{max_degree, DegreeBound};
use judge::sums::{folded_afresh, powers, TERMS};
use judge::Sample;

use crate::arguments::not_finite;
use crate::call::name;
use crate::coverage::Seen;
use crate::random::Random;
use crate::run::is_reading;

/// The kinds of weights, one for all samples of a source.
#[derive(Debug, Clone, Copy, PartialEq)]
pub enum Kind {
    One,
    /// How many people dug a pit: few values, so that equal ones meet.
    People,
    PowerOfTwo,
    /// Even in [0.1, 10).
    Plain,
    Tiny,
    Subnormal,
    /// Sums overflow.
    Huge,
    AnyBits,
    /// Of any kind, sample by sample.
    Mixed,
}

/// Those that `Mixed` mixes.
const KINDS: [Kind; 8] = [
    Kind::One,
    Kind::People,
    Kind::PowerOfTwo,
    Kind::Plain,
    Kind::Tiny,
    Kind::Subnormal,
    Kind::Huge,
    Kind::AnyBits,
];

/// Below it a weight is tiny.
const TINY: f64 = 1e-290;

/// Above it a weight is huge.
const HUGE: f64 = 1e290;

impl Kind {
    /// Often 1, so that all else happens as often as without weights.
    pub fn pick(random: &mut Random) -> Self {
        match random.below(16) {
            0..=6 => Kind::One,
            7 | 8 => Kind::People,
            9 | 10 => Kind::Plain,
            11 => Kind::PowerOfTwo,
            12 => Kind::Mixed,
            _ => random.pick(&[Kind::Tiny, Kind::Subnormal, Kind::Huge, Kind::AnyBits]),
        }
    }

    pub fn next(self, random: &mut Random) -> f64 {
        match self {
            Kind::One => 1.0,
            Kind::People => random.pick(&[1.0, 1.0, 2.0, 3.0]),
            Kind::PowerOfTwo => random.pick(&[0.125, 0.25, 0.5, 2.0, 4.0, 1024.0]),
            Kind::Plain => random.within(0.1, 10.0),
            Kind::Tiny => random.within(1.0, 2.0) * 1e-300,
            Kind::Subnormal if random.one_in(3) => f64::from_bits(1),
            Kind::Subnormal => f64::from_bits((random.next() >> 12).max(1)),
            Kind::Huge => f64::MAX * random.within(0.05, 1.0),
            Kind::AnyBits => {
                let exponent = random.below(2047) as u64;
                f64::from_bits((exponent << 52 | random.next() >> 12).max(1))
            }
            Kind::Mixed => random.pick(&KINDS).next(random),
        }
    }
}

/// The wrong weights, each with what it is called and the number it is refused by.
const WRONG: [(&str, u8); 6] =
    [("+0", 15), ("-0", 15), ("below zero", 15), ("NaN", 4), ("+infinity", 4), ("-infinity", 4)];

/// What a wrong weight is called.
fn wrong_name(weight: f64) -> Option<&'static str> {
    Some(match weight {
        _ if weight.is_nan() => "NaN",
        _ if weight == f64::INFINITY => "+infinity",
        _ if weight == f64::NEG_INFINITY => "-infinity",
        _ if bits(weight) == 0 => "+0",
        _ if bits(weight) == 1 << 63 => "-0",
        _ if weight < 0.0 => "below zero",
        _ => return None,
    })
}

/// Zero or below, and finite.
pub fn not_above_zero(random: &mut Random) -> f64 {
    let below = [-1.0, -2.0, -0.1, -5e-324, -f64::MAX];
    match random.below(3) {
        0 => 0.0,
        1 => -0.0,
        _ => random.pick(&below),
    }
}

/// A weight that is refused by 4 or by 15.
pub fn wrong(random: &mut Random) -> f64 {
    if random.one_in(2) {
        not_finite(random)
    } else {
        not_above_zero(random)
    }
}

/// A frame of the samples: of either version where all weights are 1, else mostly of version 2.
pub fn frame_of(random: &mut Random, samples: &[Sample]) -> Vec<u8> {
    let unweighted = samples.iter().all(|sample| sample.weight == 1.0);
    if random.one_in(if unweighted { 2 } else { 8 }) {
        frame::encode(samples)
    } else {
        frame::encode_weighted(samples)
    }
}

/// Bytes with a right length and any version: some sixteen or some twenty-fours of them, or eights.
pub fn any_frame(random: &mut Random) -> Vec<u8> {
    let group = random.pick(&[16, 24, 24, 48, 48, 8]);
    let body = group * random.below(4);
    let version = random.pick(&[0, 1, 1, 2, 2, 2, 3, 3, 3, 255]);
    let mut bytes = ((body + 1) as u16).to_be_bytes().to_vec();
    bytes.push(version);
    for _ in 0..body / 8 {
        let number = match random.below(4) {
            0 => wrong(random),
            _ => random.below(9) as f64,
        };
        bytes.extend(number.to_bits().to_be_bytes());
    }
    bytes
}

/// Samples of which one or two are wrong, in their weight or elsewhere.
pub fn spoil(random: &mut Random, samples: &mut [Sample]) {
    for _ in 0..random.between(1, 2) {
        let at = match random.below(3) {
            _ if samples.is_empty() => return,
            0 => 0,
            1 => samples.len() - 1,
            _ => random.below(samples.len()),
        };
        match random.below(5) {
            0 => samples[at].x = not_finite(random),
            1 => samples[at].y = not_finite(random),
            _ => samples[at].weight = wrong(random),
        }
    }
}

/// Calls that read a fit.
const READING: [&str; 7] = ["fit", "report", "split", "losses", "scores", "validate", "band"];

/// Calls that take a frame.
const FRAMED: [&str; 2] = ["add_frame", "reader"];

/// What may be said of the lengths and versions of frames whose length counts what follows.
const FRAMES: [&str; 11] = [
    "version 1, passes",
    "version 2, passes",
    "version 1, no samples",
    "version 2, no samples",
    "version 1, by 24 and not by 16: 2",
    "version 2, by 16 and not by 24: 2",
    "version 2, neither by 16 nor by 24: 2",
    "version 3, by 24 and not by 16: 2",
    "version 3, by 16 and not by 24: 3",
    "version 3, by 16 and by 24: 3",
    "version 3, no samples: 3",
];

/// What may be said of the weights of a book that is read.
const READ: [&str; 8] = [
    "all 1",
    "not all 1",
    "equal ones beside others",
    "a tiny one",
    "a subnormal one",
    "a huge one",
    "a power of two",
    "one not above zero",
];

/// Everything else that must happen.
const EVENTS: [&str; 24] = [
    "weights: 1 added",
    "weights: 5e-324 added",
    "weights: a subnormal one added",
    "weights: a tiny one added",
    "weights: a huge one added",
    "weights: a power of two added",
    "weights: x^i * (x^j * w) would be another sum",
    "weights: x^i * (y * w) would be another sum",
    "weights: 4 by x or y, 15 by the weight",
    "weights: 15 on an earlier sample of a frame than 4",
    "weights: 4 on an earlier sample of a frame than 15",
    "weights: 15 on the last sample of a frame alone",
    "weights: a frame of 2,730 samples",
    "weights: the shortest column, add refused by 5",
    "weights: the shortest column, add_frame refused by 5",
    "weights: the shortest column, add_lines refused by 5",
    "weights: count above their column's length alone, refused by 1",
    "weights: a correction where not all are 1",
    "weights: a correction with one not finite below the count",
    "weights: a withdrawal that moves another weight down",
    "weights: a withdrawal with one not finite below the count",
    "weights: a report without them chooses another degree",
    "weights: a validation without them chooses another degree",
    "weights: a split without them is another",
];

/// The names of all that must happen.
pub fn events() -> Vec<String> {
    let mut keys: Vec<String> = EVENTS.map(String::from).to_vec();
    for call in ["add", "add_frame"] {
        keys.extend(WRONG.map(|(wrong, number)| refused_key(call, wrong, number)));
    }
    for call in FRAMED {
        keys.extend(FRAMES.map(|what| format!("frames: {call}, {what}")));
    }
    keys.extend(READ.map(|what| format!("weights: by polyfit, {what}")));
    for call in READING {
        keys.push(format!("weights: one not finite below the count, {call} refused by 4"));
        keys.push(format!("weights: one not finite past the count, {call} answered"));
        keys.push(format!("weights: one not above zero below the count, {call} answered"));
    }
    keys
}

fn refused_key(call: &str, wrong: &str, number: u8) -> String {
    format!("weights: {call} of {wrong} alone refused by {number}")
}

/// What happened, by name.
pub fn happened(seen: &Seen) -> Vec<String> {
    let mut keys = Vec::new();
    let mut note_if = |holds: bool, key: String| {
        if holds {
            keys.push(key);
        }
    };
    match seen.call {
        Call::Add(sample) => note_add(*sample, &seen.answer, &mut note_if),
        Call::AddFrame(bytes) => {
            note_frame(bytes, name(seen.call), &mut note_if);
            note_samples(bytes, &seen.answer, &mut note_if);
        }
        Call::Reader(bytes) => note_frame(bytes, name(seen.call), &mut note_if),
        Call::Correct { .. } | Call::Withdraw { .. } => note_change(seen, &mut note_if),
        call if is_reading(call) => note_reading(seen, &mut note_if),
        _ => {}
    }
    note_columns(seen, &mut note_if);
    keys
}

/// Is given whether something holds, and its name.
type NoteIf<'a> = dyn FnMut(bool, String) + 'a;

fn is_power_of_two(weight: f64) -> bool {
    weight != 1.0 && weight.is_normal() && weight.to_bits() << 12 == 0
}

fn note_add(sample: Sample, answer: &Answer, note_if: &mut NoteIf) {
    let Sample { x, y, weight } = sample;
    let mut note = |holds, what: &str| note_if(holds, format!("weights: {what}"));
    if let Answer::Book(_) = answer {
        note(weight == 1.0, "1 added");
        note(bits(weight) == 1, "5e-324 added");
        note(weight.is_subnormal(), "a subnormal one added");
        note(weight.is_normal() && weight < TINY, "a tiny one added");
        note(weight > HUGE, "a huge one added");
        note(is_power_of_two(weight), "a power of two added");
        let row = powers(x);
        let other = |i: usize, b: f64| bits(row[i] * b * weight) != bits(row[i] * (b * weight));
        let in_a = (0..TERMS).any(|i| (0..TERMS).any(|j| other(i, row[j])));
        note(in_a, "x^i * (x^j * w) would be another sum");
        note((0..TERMS).any(|i| other(i, y)), "x^i * (y * w) would be another sum");
    }
    let finite = x.is_finite() && y.is_finite();
    let both = !finite && weight.is_finite() && weight <= 0.0 && *answer == Answer::Refused(4);
    note(both, "4 by x or y, 15 by the weight");
    if let (true, Some(wrong), Answer::Refused(number)) = (finite, wrong_name(weight), answer) {
        note_if(true, refused_key("add", wrong, *number));
    }
}

/// Length and version, for whoever takes a frame.
fn note_frame(bytes: &[u8], call: &str, note_if: &mut NoteIf) {
    let length = match bytes {
        [high, low, _, ..] => usize::from(u16::from_be_bytes([*high, *low])),
        _ => return,
    };
    if length + 2 != bytes.len() {
        return;
    }
    let (by_16, by_24) = (length % 16 == 1, length % 24 == 1);
    let version = match bytes[2] {
        1 => "version 1",
        2 => "version 2",
        3 => "version 3",
        _ => return,
    };
    let passes = frame::Reader::new(bytes).is_ok();
    let what = match (passes, by_16, by_24) {
        (true, ..) if length == 1 => "no samples",
        (true, ..) => "passes",
        (false, true, true) if length == 1 => "no samples: 3",
        (false, true, true) => "by 16 and by 24: 3",
        (false, true, false) if bytes[2] == 2 => "by 16 and not by 24: 2",
        (false, true, false) => "by 16 and not by 24: 3",
        (false, false, true) => "by 24 and not by 16: 2",
        (false, false, false) => "neither by 16 nor by 24: 2",
    };
    note_if(true, format!("frames: {call}, {version}, {what}"));
}

/// The weights of a frame that passes 2 and 3.
fn note_samples(bytes: &[u8], answer: &Answer, note_if: &mut NoteIf) {
    if frame::Reader::new(bytes).is_err() {
        return;
    }
    let samples = frame::samples(bytes);
    let by_4 = |s: &Sample| ![s.x, s.y, s.weight].iter().all(|v| v.is_finite());
    let by_15 = |s: &Sample| s.weight.is_finite() && s.weight <= 0.0;
    let first_4 = samples.iter().position(by_4);
    let first_15 = samples.iter().position(by_15);
    let mut note = |holds, what: &str| note_if(holds, format!("weights: {what}"));
    match (first_4, first_15, answer) {
        (Some(of_4), Some(of_15), Answer::Refused(4)) => {
            note(of_15 < of_4, "15 on an earlier sample of a frame than 4");
            note(of_4 < of_15, "4 on an earlier sample of a frame than 15");
        }
        (None, Some(at), Answer::Refused(15)) => {
            let last = at > 0 && at + 1 == samples.len();
            note(last, "15 on the last sample of a frame alone");
        }
        (None, None, Answer::Book(_)) => {
            note(bytes[2] == 2 && samples.len() == 2730, "a frame of 2,730 samples")
        }
        _ => {}
    }
    let wrong: Vec<&Sample> = samples.iter().filter(|s| by_4(s) || by_15(s)).collect();
    if let ([sample], Answer::Refused(number)) = (&wrong[..], answer) {
        let alone = sample.x.is_finite() && sample.y.is_finite();
        if let (true, Some(wrong)) = (alone, wrong_name(sample.weight)) {
            note_if(true, refused_key("add_frame", wrong, *number));
        }
    }
}

/// The weight column as the shortest of the three.
fn note_columns(seen: &Seen, note_if: &mut NoteIf) {
    let Lengths { x, y, weight, .. } = *seen.lengths;
    if weight >= x.min(y) {
        return;
    }
    let call = name(seen.call);
    let key = format!("weights: the shortest column, {call} refused by 5");
    note_if(seen.answer == Answer::Refused(5), key);
    let above = seen.count > weight && seen.count <= x.min(y).min(4096);
    let key = "weights: count above their column's length alone, refused by 1";
    note_if(above && seen.answer == Answer::Refused(1), key.to_string());
}

/// A correction or a withdrawal.
fn note_change(seen: &Seen, note_if: &mut NoteIf) {
    let answered = matches!(seen.answer, Answer::Book(_));
    let weights: Vec<f64> = seen.samples.iter().map(|sample| sample.weight).collect();
    let not_finite = weights.iter().any(|weight| !weight.is_finite());
    let mut note = |holds, what: &str| note_if(answered && holds, format!("weights: {what}"));
    match seen.call {
        Call::Correct { index, .. } => {
            let other = answered && weights[*index] != 1.0;
            note(other, "a correction where not all are 1");
            note(not_finite, "a correction with one not finite below the count");
        }
        Call::Withdraw { index } => {
            let pair = weights.get(*index..).unwrap_or_default();
            let moves = pair.len() > 1 && bits(pair[0]) != bits(pair[1]);
            note(moves, "a withdrawal that moves another weight down");
            note(not_finite, "a withdrawal with one not finite below the count");
        }
        _ => {}
    }
}

fn note_reading(seen: &Seen, note_if: &mut NoteIf) {
    let call = name(seen.call);
    let answered = !matches!(seen.answer, Answer::Refused(_));
    let finite = |s: &Sample| s.x.is_finite() && s.y.is_finite();
    let weights: Vec<f64> = seen.samples.iter().map(|sample| sample.weight).collect();
    let below = seen.samples.iter().all(finite) && weights.iter().any(|w| !w.is_finite());
    let key = format!("weights: one not finite below the count, {call} refused by 4");
    note_if(below && seen.answer == Answer::Refused(4), key);
    let past = seen.memory.weight.get(seen.count).map_or(false, |weight| !weight.is_finite());
    let lent = seen.count < seen.lengths.weight;
    let key = format!("weights: one not finite past the count, {call} answered");
    note_if(answered && past && lent, key);
    let low = weights.iter().any(|weight| *weight <= 0.0);
    let key = format!("weights: one not above zero below the count, {call} answered");
    note_if(answered && low, key);
    if seen.by_reference {
        note_read(&weights, note_if);
        note_choice(seen, note_if);
    }
}

/// The weights of a call that polyfit judges too.
fn note_read(weights: &[f64], note_if: &mut NoteIf) {
    let mut note = |holds, what: &str| note_if(holds, format!("weights: by polyfit, {what}"));
    let all_1 = weights.iter().all(|weight| *weight == 1.0);
    note(all_1, "all 1");
    note(!all_1, "not all 1");
    let equal = weights.windows(2).any(|pair| pair[0] == pair[1] && pair[0] != 1.0);
    let others = weights.windows(2).any(|pair| pair[0] != pair[1]);
    note(equal && others, "equal ones beside others");
    note(weights.iter().any(|w| w.is_normal() && *w > 0.0 && *w < TINY), "a tiny one");
    note(weights.iter().any(|w| w.is_subnormal()), "a subnormal one");
    note(weights.iter().any(|w| *w > HUGE), "a huge one");
    note(weights.iter().any(|w| is_power_of_two(*w)), "a power of two");
    note(weights.iter().any(|w| *w <= 0.0), "one not above zero");
}

/// Whether the same samples at weight 1 would have another degree chosen.
fn note_choice(seen: &Seen, note_if: &mut NoteIf) {
    let unweighted = |s: &Sample| Sample { weight: 1.0, ..*s };
    let plain: Vec<Sample> = seen.samples.iter().map(unweighted).collect();
    if plain == seen.samples || plain.len() > 40 {
        return;
    }
    match (seen.call, &seen.answer) {
        (Call::Report(settings), Answer::Report { degree, .. }) => {
            let bound = max_degree(settings.bound, plain.len());
            let sums = folded_afresh(&plain);
            let chosen = fit::chosen(&fit::scores(&plain, &sums, bound, settings.criterion));
            let key = "weights: a report without them chooses another degree";
            note_if(chosen != Some(*degree), key.to_string());
        }
        (Call::Split { limit, settings }, Answer::Split { b, degrees, .. }) => {
            let other = split(&plain, *settings, *limit);
            let same = |s: &Split| s.b == *b && (s.before.degree, s.after.degree) == *degrees;
            let key = "weights: a split without them is another";
            note_if(!other.as_ref().map_or(false, same), key.to_string());
        }
        (Call::Validate { folds, bound, criterion }, Answer::Degree(degree)) => {
            let chosen = validated(&plain, *folds, *bound, *criterion);
            let key = "weights: a validation without them chooses another degree";
            note_if(chosen != Some(*degree), key.to_string());
        }
        _ => {}
    }
}

fn validated(
    samples: &[Sample],
    folds: usize,
    bound: DegreeBound,
    criterion: Criterion,
) -> Option<usize> {
    let bound = max_degree(bound, samples.len());
    fit::chosen(&fit::validation_scores(samples, folds, bound, criterion))
}
