//! Makes a failing list smaller while it still fails.

use journal::Call;
use judge::fit::{Criterion, PruningRule, Settings};
use judge::frame;
use judge::statistics::{Confidence, Tolerance};
use judge::Sample;

use crate::call::{List, Step};
use crate::surface;

/// The most runs that shrinking may take.
const MOST_RUNS: usize = 4000;

/// The smallest list found that fails.
pub fn shrink(list: &List, fails: impl Fn(&List) -> bool) -> List {
    let of = |steps: &[Step]| List { contents: list.contents, steps: steps.to_vec() };
    of(&shrunk(&list.steps, simpler_steps, |steps| fails(&of(steps))))
}

/// The fewest and simplest steps found that fail.
pub fn shrunk<T: Clone>(
    steps: &[T],
    simpler: impl Fn(&T) -> Vec<T>,
    fails: impl Fn(&[T]) -> bool,
) -> Vec<T> {
    let mut best = steps.to_vec();
    let mut runs = 0;
    'again: loop {
        for smaller in candidates(&best, &simpler) {
            runs += 1;
            if runs > MOST_RUNS {
                return best;
            }
            if fails(&smaller) {
                best = smaller;
                continue 'again;
            }
        }
        return best;
    }
}

/// Smaller lists, the much smaller ones first.
fn candidates<T: Clone>(steps: &[T], simpler: impl Fn(&T) -> Vec<T>) -> Vec<Vec<T>> {
    let mut lists = Vec::new();
    let length = steps.len();
    let mut size = length / 2;
    while size > 0 {
        for start in (0..length).step_by(size) {
            let mut smaller = steps.to_vec();
            smaller.drain(start..(start + size).min(length));
            lists.push(smaller);
        }
        size /= 2;
    }
    for (at, step) in steps.iter().enumerate() {
        for simpler in simpler(step) {
            let mut smaller = steps.to_vec();
            smaller[at] = simpler;
            lists.push(smaller);
        }
    }
    lists
}

/// The step without a disturbance, or with a simpler call.
pub fn simpler_steps(step: &Step) -> Vec<Step> {
    let mut steps = Vec::new();
    for at in 0..step.pokes.len() {
        let mut simpler = step.clone();
        simpler.pokes.remove(at);
        steps.push(simpler);
    }
    if let Some(count) = step.count {
        steps.push(Step { count: None, ..step.clone() });
        if surface::is_surface(&step.call) && count > 0 {
            steps.push(Step { count: Some(count - 1), ..step.clone() });
        }
    }
    for call in simpler_calls(&step.call) {
        steps.push(Step { call, ..step.clone() });
    }
    steps
}

/// Fewer bits: whole numbers near it, then those with half of the digits.
fn simpler_numbers(v: f64) -> Vec<f64> {
    let cut = |bits: u32| f64::from_bits(v.to_bits() >> bits << bits);
    let mut numbers = vec![0.0, 1.0, -1.0, v.trunc(), (v * 8.0).trunc() / 8.0, cut(40), cut(26)];
    // Only towards more zeros at the end, so that shrinking ends.
    let zeros = |n: f64| n.to_bits().trailing_zeros();
    numbers.retain(|n| n.is_finite() && zeros(*n) > zeros(v));
    numbers
}

fn simpler_samples(sample: Sample) -> Vec<Sample> {
    let with_x = simpler_numbers(sample.x).into_iter().map(|x| Sample { x, ..sample });
    let with_y = simpler_numbers(sample.y).into_iter().map(|y| Sample { y, ..sample });
    let with_weight = simpler_numbers(sample.weight);
    let with_weight = with_weight.into_iter().map(|weight| Sample { weight, ..sample });
    with_x.chain(with_y).chain(with_weight).collect()
}

fn simpler_calls(call: &Call) -> Vec<Call> {
    match call {
        Call::Add(sample) => simpler_samples(*sample).into_iter().map(Call::Add).collect(),
        Call::AddWindow(sample) => {
            let window = simpler_samples(*sample).into_iter().map(Call::AddWindow);
            std::iter::once(Call::Add(*sample)).chain(window).collect()
        }
        Call::Correct { index, y } => {
            simpler_numbers(*y).into_iter().map(|y| Call::Correct { index: *index, y }).collect()
        }
        Call::AddFrame(bytes) => simpler_frames(bytes).into_iter().map(Call::AddFrame).collect(),
        Call::AddLines(text) => shorter_texts(text).into_iter().map(Call::AddLines).collect(),
        Call::Report(settings) => simpler_settings(*settings).map(Call::Report).collect(),
        Call::Split { limit, settings } => {
            let limit = *limit;
            simpler_settings(*settings).map(|settings| Call::Split { limit, settings }).collect()
        }
        Call::Losses(settings) => simpler_settings(*settings).map(Call::Losses).collect(),
        Call::SurfaceReport(settings) => {
            simpler_settings(*settings).map(Call::SurfaceReport).collect()
        }
        Call::Scores(settings) => simpler_settings(*settings).map(Call::Scores).collect(),
        Call::GroupReport { group, settings } => {
            let group = *group;
            simpler_settings(*settings)
                .map(|settings| Call::GroupReport { group, settings })
                .collect()
        }
        Call::GroupSplit { group, settings } => {
            let group = *group;
            simpler_settings(*settings)
                .map(|settings| Call::GroupSplit { group, settings })
                .collect()
        }
        Call::Season { stake, call } => {
            let of = |call| Call::Season { stake: *stake, call: Box::new(call) };
            simpler_calls(call).into_iter().map(of).collect()
        }
        Call::SeasonReport(settings) => {
            simpler_settings(*settings).map(Call::SeasonReport).collect()
        }
        _ => Vec::new(),
    }
}

fn simpler_settings(settings: Settings) -> impl Iterator<Item = Settings> {
    let simpler = [
        Settings { tolerance: Tolerance::None, ..settings },
        Settings { confidence: Confidence::P95, ..settings },
        Settings { criterion: Criterion::Aic, ..settings },
        Settings { pruning: PruningRule::Positive, ..settings },
    ];
    simpler.into_iter().filter(move |simpler| *simpler != settings)
}

/// The text without some of its bytes, the much shorter ones first.
fn shorter_texts(text: &[u8]) -> Vec<Vec<u8>> {
    let mut texts = Vec::new();
    let mut size = text.len();
    while size > 0 {
        for start in (0..text.len()).step_by(size) {
            let end = (start + size).min(text.len());
            texts.push([&text[..start], &text[end..]].concat());
        }
        size /= 2;
    }
    texts
}

/// A right frame with a sample less, or with one that is simpler.
fn simpler_frames(bytes: &[u8]) -> Vec<Vec<u8>> {
    if frame::wrong_length(bytes) || frame::wrong_version(bytes) {
        return Vec::new();
    }
    let samples = frame::samples(bytes);
    let encode = if bytes[2] == 2 { frame::encode_weighted } else { frame::encode };
    let mut frames = Vec::new();
    for at in 0..samples.len() {
        let mut fewer = samples.clone();
        fewer.remove(at);
        frames.push(encode(&fewer));
        for simpler in simpler_samples(samples[at]) {
            let mut changed = samples.clone();
            changed[at] = simpler;
            frames.push(encode(&changed));
        }
    }
    frames
}
