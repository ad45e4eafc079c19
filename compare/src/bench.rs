//! The benchmark: the same calls on the same samples by every side, in one run, as the tables of docs/BENCHMARKS.md.
//!
//! Before a call is timed, port, judge and limit must have answered it alike. Where a side has no such call, its places are empty.

use std::cell::RefCell;
use std::mem::ManuallyDrop;
use std::ptr;

use journal::port::losses_into;
use journal::{Answer, Call, Judge, Lent, Memory, Port, Side};
use judge::fit::{Criterion, PruningRule, Settings};
use judge::season::STAKES;
use judge::statistics::{Confidence, DegreeBound, Tolerance};
use judge::surface::SurfaceSample;
use judge::Sample;
use stakebook::sys;

use crate::gsl;
use crate::limit;
use crate::memory::difference;
use crate::random::Random;
use crate::reference;
use crate::samples::wild;
use crate::timing::{self, Timed};

const COUNTS: [usize; 4] = [10, 100, 1_000, 4_096];
const BOUNDS: [usize; 3] = [3, 8, 15];
const FOLDS: usize = 10;

/// What is asked of a report and of a validation at 4,096 beside the limit, and of polyfit and GSL beside the port.
const REPORT_AIM: f64 = 2.2;
const VALIDATION_AIM: f64 = 4.0;
const OTHERS_AIM: f64 = 5.0;

/// The kinds of samples; every weight is 1, so that all sides have the same curve to find.
#[derive(Clone, Copy, PartialEq)]
enum Input {
    Ripple,
    Constant,
    Wild,
    Years,
}

const INPUTS: [Input; 4] = [Input::Ripple, Input::Constant, Input::Wild, Input::Years];

impl Input {
    fn title(self) -> &'static str {
        match self {
            Input::Ripple => "Even x with a ripple",
            Input::Constant => "Constant y",
            Input::Wild => "Wild magnitudes",
            Input::Years => "Years as x",
        }
    }

    fn samples(self, count: usize) -> Vec<Sample> {
        let random = &mut Random::new(25);
        let mut at = |i: usize| {
            let even = 2.0 * i as f64 / (count - 1) as f64 - 1.0;
            let ripple = ((i * 7919) % 101) as f64 / 101.0 - 0.5;
            let cubic = 350.0 + 120.0 * even - 40.0 * even * even + 9.0 * even * even * even;
            match self {
                Input::Ripple => (even, cubic + ripple),
                Input::Constant => (even, 350.0),
                Input::Wild => (wild(random), wild(random)),
                Input::Years => (2010.0 + 10.0 * even, cubic + ripple),
            }
        };
        (0..count).map(&mut at).map(|(x, y)| Sample::unweighted(x, y)).collect()
    }
}

fn settings(degree: usize) -> Settings {
    Settings {
        bound: DegreeBound::Custom(degree),
        criterion: Criterion::Aic,
        confidence: Confidence::P95,
        tolerance: Tolerance::None,
        pruning: PruningRule::Positive,
    }
}

fn memory_of(samples: &[Sample]) -> Memory {
    let count = samples.len();
    Memory {
        x: samples.iter().map(|sample| sample.x).collect(),
        y: samples.iter().map(|sample| sample.y).collect(),
        weight: samples.iter().map(|sample| sample.weight).collect(),
        z: Vec::new(),
        sums: judge::sums::folded_afresh(samples),
        scratch: vec![0.0; count],
        coefficients: vec![0.0; 16],
        errors: vec![0.0; 16],
        pruned: vec![0; 16],
        lower: vec![0.0; count],
        upper: vec![0.0; count],
        outlier: vec![0; count],
        before: vec![0.0; 16],
        after: vec![0.0; 16],
        losses: vec![0.0; count],
        solved: vec![0; 16],
        scores: vec![0.0; 16],
        table: Vec::new(),
        counts: Vec::new(),
    }
}

fn lent(memory: &mut Memory) -> Lent<'_> {
    Lent {
        x: &mut memory.x,
        y: &mut memory.y,
        weight: &mut memory.weight,
        z: &mut memory.z,
        sums: &mut memory.sums,
        scratch: &mut memory.scratch,
        coefficients: &mut memory.coefficients,
        errors: &mut memory.errors,
        pruned: &mut memory.pruned,
        lower: &mut memory.lower,
        upper: &mut memory.upper,
        outlier: &mut memory.outlier,
        before: &mut memory.before,
        after: &mut memory.after,
        losses: &mut memory.losses,
        solved: &mut memory.solved,
        scores: &mut memory.scores,
        table: &mut memory.table,
        counts: &mut memory.counts,
    }
}

/// The value, of which the compiler can foresee nothing.
fn black_box<T>(value: T) -> T {
    let value = ManuallyDrop::new(value);
    // SAFETY: the place is initialised, and what stands in it is never used or dropped again.
    unsafe { ptr::read_volatile(&*value) }
}

/// The sides, in the order of the columns.
const SIDES: [&str; 5] = ["port", "plain", "polyfit", "GSL", "limit"];
const PORT: usize = 0;
const POLYFIT: usize = 2;
const GSL: usize = 3;
const LIMIT: usize = 4;

/// A call of a row: what it is called and, for a table, of how many samples it is made.
struct Row {
    name: String,
    call: Call,
    count: usize,
}

impl Row {
    fn new(name: impl Into<String>, call: Call, count: usize) -> Self {
        Self { name: name.into(), call, count }
    }
}

/// The port's call alone: of losses, without the checks that the comparison makes around it.
fn by_port(call: &Call, count: usize, mut lent: Lent) -> Answer {
    match *call {
        Call::Losses(settings) => losses_into(2, count, &mut lent, settings),
        _ => Port.make(call, count, lent),
    }
}

/// What port, judge and limit answer alike. Of a long split the port is asked alone: the judge takes many seconds.
fn answer(row: &Row, samples: &[Sample]) -> Answer {
    let fresh = || memory_of(samples);
    let port = by_port(&row.call, row.count, lent(&mut fresh()));
    if matches!(row.call, Call::Split { .. }) && row.count > 1_000 {
        return port;
    }
    let plain = Judge.make(&row.call, row.count, lent(&mut fresh()));
    assert_eq!(port, plain, "{}: port and plain", row.name);
    if let Some(limit) = limit::make(&row.call, row.count, lent(&mut fresh())) {
        assert_eq!(port, limit, "{}: port and limit", row.name);
    }
    port
}

/// What times polyfit, where it has such a call.
fn by_reference<'a>(call: &'a Call, samples: &'a [Sample]) -> Option<Timed<'a>> {
    let data: Vec<(f64, f64)> = samples.iter().map(|sample| (sample.x, sample.y)).collect();
    Some(match *call {
        Call::Fit { degree } => {
            Box::new(move || drop(black_box(reference::bare_fit(&data, degree))))
        }
        Call::Report(settings) => {
            Box::new(move || drop(black_box(reference::bare_report(&data, settings))))
        }
        Call::Validate { folds, bound, .. } => {
            Box::new(move || drop(black_box(reference::bare_validate(&data, folds, bound))))
        }
        Call::Split { limit, settings } => Box::new(move || {
            let breaks = reference::breaks(samples, settings);
            drop(black_box(reference::split(breaks, limit)));
        }),
        Call::Losses(settings) => {
            Box::new(move || drop(black_box(reference::losses(samples, settings))))
        }
        Call::Scores(settings) => {
            Box::new(move || drop(black_box(reference::scores_by_degree(samples, settings))))
        }
        _ => return None,
    })
}

/// What times GSL, where it is installed, has such a call and does not fail.
fn by_gsl<'a>(call: &'a Call, samples: &'a [Sample]) -> Option<Timed<'a>> {
    Some(match *call {
        Call::Fit { degree } => {
            gsl::fit(samples, degree)?;
            Box::new(move || drop(black_box(gsl::fit(samples, degree))))
        }
        Call::Report(Settings { bound: DegreeBound::Custom(bound), .. }) => {
            gsl::report(samples, bound)?;
            Box::new(move || drop(black_box(gsl::report(samples, bound))))
        }
        Call::Validate { folds, bound: DegreeBound::Custom(bound), .. } => {
            gsl::validate(samples, folds, bound)?;
            Box::new(move || drop(black_box(gsl::validate(samples, folds, bound))))
        }
        _ => return None,
    })
}

fn by_limit<'a>(call: &'a Call, count: usize, samples: &[Sample]) -> Option<Timed<'a>> {
    let mut memory = memory_of(samples);
    limit::make(call, count, lent(&mut memory))?;
    Some(Box::new(move || {
        black_box(limit::make(call, count, lent(&mut memory)));
    }))
}

/// The best time of each side, in microseconds, of at least so many calls.
fn times(row: &Row, samples: &[Sample], least: u32) -> [Option<f64>; 5] {
    let (call, count) = (&row.call, row.count);
    let (mut mine, mut plain) = (memory_of(samples), memory_of(samples));
    let port: Timed = Box::new(|| {
        black_box(by_port(call, count, lent(&mut mine)));
    });
    let judge: Timed = Box::new(|| {
        black_box(Judge.make(call, count, lent(&mut plain)));
    });
    let others = (by_reference(call, samples), by_gsl(call, samples));
    let sides = [Some(port), Some(judge), others.0, others.1, by_limit(call, count, samples)];
    timing::best(sides, least)
}

/// A row that was measured.
struct Cell {
    input: Input,
    name: String,
    n: usize,
    times: [Option<f64>; 5],
}

impl Cell {
    /// How many times as long as the port a side takes; of the limit, the port by it.
    fn ratio(&self, side: usize) -> Option<f64> {
        let (port, other) = (self.times[PORT]?, self.times[side]?);
        Some(if side == LIMIT { port / other } else { other / port })
    }

    fn place(&self) -> String {
        format!("{} of {} ({})", self.name, thousands(self.n), self.input.title().to_lowercase())
    }
}

/// A whole number with a comma at each thousand.
fn thousands(n: usize) -> String {
    match n {
        0..=999 => n.to_string(),
        _ => format!("{},{:03}", thousands(n / 1000), n % 1000),
    }
}

/// A time with three or four digits.
fn shown(time: Option<f64>) -> String {
    match time {
        None => String::new(),
        Some(time) if time < 10.0 => format!("{time:.2}"),
        Some(time) if time < 1000.0 => format!("{time:.1}"),
        Some(time) => thousands(time.round() as usize),
    }
}

fn shown_ratio(ratio: Option<f64>) -> String {
    ratio.map_or(String::new(), |ratio| format!("{ratio:.2}"))
}

/// What a call answered, in few words.
fn words(answer: &Answer) -> String {
    match answer {
        Answer::Refused(number) => format!("refused by {number}"),
        Answer::Report { degree, solved, .. } => format!("degree {degree}, {solved} solved"),
        Answer::Degree(degree) | Answer::Losses { degree, .. } => format!("degree {degree}"),
        _ => String::new(),
    }
}

/// The rows of one number of samples: calls without a bound, then those with one.
fn rows(samples: &[Sample]) -> Vec<Row> {
    let (count, middle) = (samples.len(), samples.len() / 2);
    let mut rows = vec![
        Row::new("add", Call::Add(samples[count - 1]), count - 1),
        Row::new("correct", Call::Correct { index: middle, y: 1.0 }, count),
        Row::new("withdraw", Call::Withdraw { index: middle }, count),
    ];
    let bounds = || BOUNDS.into_iter().filter(|degree| *degree < count);
    let with =
        |name: &str, degree: usize, call: Call| Row::new(format!("{name} {degree}"), call, count);
    rows.extend(bounds().map(|degree| with("fit, degree", degree, Call::Fit { degree })));
    rows.extend(
        bounds().map(|degree| with("report, bound", degree, Call::Report(settings(degree)))),
    );
    rows.extend(bounds().map(|degree| {
        let Settings { bound, criterion, .. } = settings(degree);
        with("validate, bound", degree, Call::Validate { folds: FOLDS, bound, criterion })
    }));
    rows
}

fn print_head(first: &str, sides: &[usize]) {
    let times: String = sides.iter().map(|&side| format!(" {}, µs |", SIDES[side])).collect();
    let ratio = |side: usize| match side {
        LIMIT => " port / limit |".to_string(),
        _ => format!(" {} / port |", SIDES[side]),
    };
    let ratios: String = sides.iter().skip(1).map(|&side| ratio(side)).collect();
    println!("\n| {first} | n | answer |{times}{ratios}");
    println!("|---|---|---|{}", "---|".repeat(2 * sides.len() - 1));
}

/// Prints a row and answers what was measured.
fn measure(
    input: Input,
    row: Row,
    samples: &[Sample],
    sides: &[usize],
    least: u32,
) -> (Cell, Answer) {
    let answer = answer(&row, samples);
    let times = times(&row, samples, least);
    let cell = Cell { input, name: row.name, n: samples.len(), times };
    let columns: String =
        sides.iter().map(|&side| format!(" {} |", shown(cell.times[side]))).collect();
    let ratios: String =
        sides.iter().skip(1).map(|&side| format!(" {} |", shown_ratio(cell.ratio(side)))).collect();
    println!("| {} | {} | {} |{columns}{ratios}", cell.name, thousands(cell.n), words(&answer));
    (cell, answer)
}

/// The table of one kind of samples.
fn print_table(input: Input, cells: &mut Vec<Cell>) {
    println!("\n### {}", input.title());
    let all = [0, 1, 2, 3, 4];
    print_head("Call", &all);
    for count in COUNTS {
        let samples = input.samples(count);
        for row in rows(&samples) {
            cells.push(measure(input, row, &samples, &all, 3).0);
        }
    }
}

/// How each call of the port grows: how many times as long it takes with 10, 10 and 4.1 times the samples.
fn print_growth(cells: &[Cell]) {
    println!("\n### Growth\n");
    let steps = COUNTS.windows(2).map(|pair| (pair[0], pair[1]));
    let steps: Vec<(usize, usize)> = steps.collect();
    let named = |&(few, many): &(usize, usize)| {
        format!("{} to {} (× {:.1})", thousands(few), thousands(many), many as f64 / few as f64)
    };
    println!(
        "| Call | samples |{}",
        steps.iter().map(|step| format!(" {} |", named(step))).collect::<String>()
    );
    println!("|---|---|{}", "---|".repeat(steps.len()));
    let time = |input: Input, name: &str, n: usize| {
        let is = |cell: &&Cell| cell.input == input && cell.name == name && cell.n == n;
        cells.iter().find(is).and_then(|cell| cell.times[PORT])
    };
    let names = cells.iter().filter(|cell| cell.input == INPUTS[0] && cell.n == COUNTS[3]);
    for name in names.map(|cell| cell.name.as_str()) {
        for input in INPUTS {
            let grown = |&(few, many): &(usize, usize)| {
                Some(time(input, name, many)? / time(input, name, few)?)
            };
            let columns: String = steps
                .iter()
                .map(|step| {
                    format!(" {} |", grown(step).map_or(String::new(), |by| format!("{by:.1}")))
                })
                .collect();
            println!("| {name} | {} |{columns}", input.title().to_lowercase());
        }
    }
}

/// The greatest or the least of a ratio among some cells, and where it is.
fn extreme<'a>(
    cells: impl Iterator<Item = &'a Cell>,
    side: usize,
    greatest: bool,
) -> Option<(f64, &'a Cell)> {
    let ratios = cells.filter_map(|cell| Some((cell.ratio(side)?, cell)));
    ratios.reduce(|a, b| if (b.0 > a.0) == greatest { b } else { a })
}

/// What was aimed at and what was measured.
fn print_aims(cells: &[Cell]) {
    println!("\n### Aims\n");
    for (call, aim) in
        [("report", REPORT_AIM), ("validate", VALIDATION_AIM), ("withdraw", f64::NAN)]
    {
        let of = |cell: &&Cell| cell.n == COUNTS[3] && cell.name.starts_with(call);
        for input in INPUTS {
            let here = |cell: &&Cell| of(cell) && cell.input == input;
            let ratios = cells.iter().filter(here).map(|cell| shown_ratio(cell.ratio(LIMIT)));
            let ratios = ratios.collect::<Vec<_>>().join(", ");
            let aim = if aim.is_nan() { String::new() } else { format!(" (aim: {aim} at most)") };
            println!(
                "- {call} at 4,096, {}: {ratios} times the limit{aim}",
                input.title().to_lowercase()
            );
        }
        if let Some((ratio, cell)) = extreme(cells.iter().filter(of), LIMIT, true) {
            println!("- {call} at 4,096: {ratio:.2} times the limit at most, {}", cell.place());
        }
    }
    for side in [POLYFIT, GSL] {
        let Some((ratio, cell)) = extreme(cells.iter(), side, false) else { continue };
        println!(
            "- {}: at least {ratio:.2} times as long as the port, {}",
            SIDES[side],
            cell.place()
        );
        let has = cells.iter().filter(|cell| cell.ratio(side).is_some()).count();
        let under = |cell: &&Cell| cell.ratio(side).map_or(false, |ratio| ratio < OTHERS_AIM);
        let places: Vec<String> = cells
            .iter()
            .filter(under)
            .map(|cell| format!("{} {}", shown_ratio(cell.ratio(side)), cell.place()))
            .collect();
        let list =
            if places.is_empty() { String::new() } else { format!(": {}", places.join("; ")) };
        println!(
            "- {}: {} of {has} cells below {OTHERS_AIM} times{list}",
            SIDES[side],
            places.len()
        );
    }
}

/// x⁰ to x¹⁵ in 14 products, as document 01's power gives them.
fn powers_once(x: f64) -> [f64; 16] {
    let mut p = [1.0; 16];
    p[1] = x;
    for half in [1, 2, 4] {
        p[2 * half] = p[half] * p[half];
        for low in 1..2 * half {
            p[2 * half + low] = p[low] * p[2 * half];
        }
    }
    p
}

/// The sums folded afresh in plain Rust without weights, each sample's powers worked out once: what a withdrawal, which
/// has weights, is held against.
fn plain_fold(samples: &[Sample]) -> [f64; 272] {
    let mut sums = [0.0; 272];
    for sample in samples {
        let row = powers_once(sample.x);
        for i in 0..16 {
            for j in 0..16 {
                sums[16 * i + j] += row[i] * row[j];
            }
            sums[256 + i] += row[i] * sample.y;
        }
    }
    sums
}

extern "C" {
    fn plain_fold_c(xs: *const f64, ys: *const f64, n: usize, sums: *mut f64);
}

/// The same in C (`compare/c/fold.c`).
fn fold_in_c(xs: &[f64], ys: &[f64]) -> [f64; 272] {
    let mut sums = [0.0; 272];
    assert_eq!(xs.len(), ys.len());
    // SAFETY: both columns have as many places as are read, and the sums have the 272 that are written.
    unsafe { plain_fold_c(xs.as_ptr(), ys.as_ptr(), xs.len(), sums.as_mut_ptr()) };
    sums
}

/// A withdrawal and an add to a full window, which are weighted, beside unweighted folds of as many samples in plain Rust and in C.
fn print_folds() {
    println!("\n### Withdrawals and windows beside plain folds\n");
    println!("| n | withdraw, µs | add_window, full, µs | plain fold in Rust, µs | in C, µs | withdraw / Rust | add_window / Rust |");
    println!("|---|---|---|---|---|---|---|");
    for count in COUNTS {
        let samples = Input::Ripple.samples(count);
        let withdraw = Call::Withdraw { index: count / 2 };
        let slide = Call::AddWindow(samples[count / 2]);
        let xs: Vec<f64> = samples.iter().map(|sample| sample.x).collect();
        let ys: Vec<f64> = samples.iter().map(|sample| sample.y).collect();
        let (mut one, mut other) = (memory_of(&samples), memory_of(&samples));
        let sides: [Option<Timed>; 4] = [
            Some(Box::new(|| drop(black_box(Port.make(&withdraw, count, lent(&mut one)))))),
            Some(Box::new(|| drop(black_box(Port.make(&slide, count, lent(&mut other)))))),
            Some(Box::new(|| {
                black_box(plain_fold(black_box(&samples)));
            })),
            Some(Box::new(|| {
                black_box(fold_in_c(black_box(&xs), black_box(&ys)));
            })),
        ];
        let [withdrawal, window, rust, c] = timing::best(sides, 3);
        let by = |time: Option<f64>| shown_ratio(time.and_then(|time| Some(time / rust?)));
        println!(
            "| {} | {} | {} | {} | {} | {} | {} |",
            thousands(count),
            shown(withdrawal),
            shown(window),
            shown(rust),
            shown(c),
            by(withdrawal),
            by(window)
        );
    }
}

/// The losses behind a report. GSL and the limit have none.
fn print_losses() {
    println!("\n### Losses");
    let sides = [0, 1, 2];
    print_head("Call", &sides);
    for count in COUNTS {
        let samples = Input::Ripple.samples(count);
        for degree in BOUNDS.into_iter().filter(|degree| *degree < count) {
            let row =
                Row::new(format!("losses, bound {degree}"), Call::Losses(settings(degree)), count);
            measure(Input::Ripple, row, &samples, &sides, 3);
        }
    }
}

/// Splits of so many samples, up to so many degrees. At 4,096 one call takes seconds, by polyfit many, so that it
/// is made once.
const SPLIT_COUNTS: [usize; 3] = [100, 1_000, 4_096];
const SPLIT_BOUNDS: [usize; 2] = [3, 8];

/// Prints the splits, how they grow with n, and how many pivot tests a millisecond of the port holds: what a limit costs.
fn print_splits() {
    println!("\n### Splits");
    let sides = [0, 1, 2];
    print_head("Call", &sides);
    let mut said = Vec::new();
    for degree in SPLIT_BOUNDS {
        let mut before = None;
        for count in SPLIT_COUNTS {
            let samples = Input::Ripple.samples(count);
            let call = Call::Split { limit: usize::MAX, settings: settings(degree) };
            let row = Row::new(format!("split, bound {degree}"), call, count);
            let (cell, answer) = measure(Input::Ripple, row, &samples, &sides, 1);
            let time = cell.times[PORT].unwrap_or(f64::NAN) / 1e3;
            let tests = match answer {
                Answer::Split { tests, .. } => tests as f64,
                answer => panic!("a split of {count}: {answer:?}"),
            };
            let grown = before.map_or(String::new(), |(few, less)| {
                let (times, longer) = (count as f64 / few as f64, time / less);
                format!("; {times:.1} times the samples took {longer:.1} times as long")
            });
            let rate = tests / time;
            said.push(format!(
                "- A split of {} with bound {degree}: {tests} tests, {rate:.1} a ms{grown}",
                thousands(count)
            ));
            before = Some((count, time));
        }
    }
    println!();
    said.iter().for_each(|line| println!("{line}"));
}

/// Reports of surfaces up to total degree 4, on so many samples of a bent surface with a ripple. polyfit and the limit have none; GSL's is `gsl_multifit_linear`
/// at each total degree on the same term values, scored and estimated as its report of a curve is.
fn print_surfaces() {
    println!("\n### Surfaces");
    let sides = [0, 1, 3];
    print_head("Call", &sides);
    for count in SPLIT_COUNTS {
        let sample = |i: usize| {
            let (x, z) =
                (i as f64 / count as f64 * 2.0 - 1.0, (i * 7_919 % count) as f64 / count as f64);
            SurfaceSample { x, z, y: 1.0 + x * z - z * z * x + (40.0 * x).sin() / 16.0 }
        };
        let samples: Vec<SurfaceSample> = (0..count).map(sample).collect();
        let fresh = || Memory {
            x: samples.iter().map(|sample| sample.x).collect(),
            z: samples.iter().map(|sample| sample.z).collect(),
            y: samples.iter().map(|sample| sample.y).collect(),
            ..memory_of(&vec![Sample { x: 0.0, y: 0.0, weight: 1.0 }; count])
        };
        let call = Call::SurfaceReport(settings(4));
        let (mut by_port, mut by_judge) = (fresh(), fresh());
        let answer = Port.make(&call, count, lent(&mut by_port));
        assert_eq!(answer, Judge.make(&call, count, lent(&mut by_judge)), "surface report");
        let port: Timed = Box::new(|| drop(black_box(Port.make(&call, count, lent(&mut by_port)))));
        let plain: Timed =
            Box::new(|| drop(black_box(Judge.make(&call, count, lent(&mut by_judge)))));
        let gsl: Option<Timed> = gsl::surface_report(&samples)
            .map(|_| -> Timed { Box::new(|| drop(black_box(gsl::surface_report(&samples)))) });
        let times = timing::best([Some(port), Some(plain), gsl], 3);
        let shown = |time: Option<f64>| time.map_or(String::new(), |time| format!("{time:.1}"));
        let by_port = times[0].unwrap_or(f64::NAN);
        let ratio =
            |time: Option<f64>| time.map_or(String::new(), |time| format!("{:.1}", time / by_port));
        println!(
            "| surface report, bound 4 | {} | {} | {} | {} | {} | {} | {} |",
            thousands(count),
            words(&answer),
            shown(times[0]),
            shown(times[1]),
            shown(times[2]),
            ratio(times[1]),
            ratio(times[2])
        );
    }
}

/// Readings of each stake, and what is asked of a season report beside the single reports of its stakes.
const STAKE_COUNT: usize = 100;
const SEASON_AIM: f64 = 1.05;

/// A season whose 32 stakes have so many samples each, on memory of just as many places.
fn season_of(count: usize) -> Memory {
    let raised = |stake: usize| {
        let raise = |s: Sample| Sample { y: s.y + stake as f64, ..s };
        Input::Ripple.samples(count).into_iter().map(raise).collect::<Vec<_>>()
    };
    let stakes: Vec<Vec<Sample>> = (0..STAKES).map(raised).collect();
    let all = |of: fn(&Memory) -> &[f64]| -> Vec<f64> {
        stakes.iter().flat_map(|samples| of(&memory_of(samples)).to_vec()).collect()
    };
    let floats = |places: usize| vec![0.0; STAKES * places];
    Memory {
        x: all(|memory| &memory.x),
        y: all(|memory| &memory.y),
        weight: all(|memory| &memory.weight),
        sums: all(|memory| &memory.sums),
        scratch: floats(count),
        coefficients: floats(16),
        errors: floats(16),
        pruned: vec![0; STAKES * 16],
        lower: floats(count),
        upper: floats(count),
        outlier: vec![0; STAKES * count],
        counts: vec![count; STAKES],
        ..memory_of(&[])
    }
}

/// The season report, and the answers of its stakes.
fn season_report(memory: &mut Memory, words: &[u32], values: &[f64]) -> (u64, [u64; STAKES]) {
    let mut answers = [0; STAKES];
    // SAFETY: the slices are initialised and apart.
    let answered = unsafe {
        sys::stakebook_season_report(
            words.as_ptr(),
            words.len(),
            values.as_ptr(),
            values.len(),
            memory.counts.as_ptr(),
            memory.counts.len(),
            memory.x.as_ptr(),
            memory.x.len(),
            memory.y.as_ptr(),
            memory.y.len(),
            memory.weight.as_ptr(),
            memory.weight.len(),
            memory.sums.as_ptr(),
            memory.sums.len(),
            memory.scratch.as_mut_ptr(),
            memory.scratch.len(),
            memory.coefficients.as_mut_ptr(),
            memory.coefficients.len(),
            memory.errors.as_mut_ptr(),
            memory.errors.len(),
            memory.pruned.as_mut_ptr(),
            memory.pruned.len(),
            memory.lower.as_mut_ptr(),
            memory.lower.len(),
            memory.upper.as_mut_ptr(),
            memory.upper.len(),
            memory.outlier.as_mut_ptr(),
            memory.outlier.len(),
            answers.as_mut_ptr(),
            answers.len(),
        )
    };
    (answered, answers)
}

/// A stake's part.
fn part<T>(whole: &mut [T], stake: usize) -> &mut [T] {
    let places = whole.len() / STAKES;
    &mut whole[stake * places..(stake + 1) * places]
}

/// The 32 single reports on the same parts, and how many are not refused.
fn single_reports(memory: &mut Memory, words: &[u32], values: &[f64]) -> (u64, [u64; STAKES]) {
    let mut answers = [0; STAKES];
    for (stake, answer) in answers.iter_mut().enumerate() {
        let count = memory.counts[stake];
        let (x, y) = (part(&mut memory.x, stake), part(&mut memory.y, stake));
        let (weight, sums) = (part(&mut memory.weight, stake), part(&mut memory.sums, stake));
        let scratch = part(&mut memory.scratch, stake);
        let coefficients = part(&mut memory.coefficients, stake);
        let errors = part(&mut memory.errors, stake);
        let pruned = part(&mut memory.pruned, stake);
        let (lower, upper) = (part(&mut memory.lower, stake), part(&mut memory.upper, stake));
        let outlier = part(&mut memory.outlier, stake);
        // SAFETY: the slices are initialised and apart.
        *answer = unsafe {
            sys::stakebook_report_by(
                count,
                words.as_ptr(),
                words.len(),
                values.as_ptr(),
                values.len(),
                x.as_ptr(),
                x.len(),
                y.as_ptr(),
                y.len(),
                weight.as_ptr(),
                weight.len(),
                sums.as_ptr(),
                sums.len(),
                scratch.as_mut_ptr(),
                scratch.len(),
                coefficients.as_mut_ptr(),
                coefficients.len(),
                errors.as_mut_ptr(),
                errors.len(),
                pruned.as_mut_ptr(),
                pruned.len(),
                lower.as_mut_ptr(),
                lower.len(),
                upper.as_mut_ptr(),
                upper.len(),
                outlier.as_mut_ptr(),
                outlier.len(),
            )
        };
    }
    let answered = answers.iter().filter(|answer| sys::refusal(**answer) == 0).count();
    (answered as u64, answers)
}

/// A season report of 32 stakes beside 32 single reports on the same parts, which take turns.
pub fn print_season() {
    println!("\n### Seasons\n");
    println!("| Call | readings a stake | season report, µs | 32 single reports, µs | season / single | aim, at most |");
    println!("|---|---|---|---|---|---|");
    for degree in BOUNDS {
        let (words, values) = ([3, degree as u32, 0, 2, 0, 0], [0.0; 2]);
        let memory = RefCell::new(season_of(STAKE_COUNT));
        let told = season_report(&mut memory.borrow_mut(), &words, &values);
        let season = memory.borrow().clone();
        assert_eq!(told, single_reports(&mut memory.borrow_mut(), &words, &values));
        assert_eq!(told.0, STAKES as u64, "every stake is reported");
        assert!(difference(&season, &memory.borrow()).is_none(), "the same is written");
        let sides: [Option<Timed>; 2] = [
            Some(Box::new(|| {
                black_box(season_report(&mut memory.borrow_mut(), &words, &values));
            })),
            Some(Box::new(|| {
                black_box(single_reports(&mut memory.borrow_mut(), &words, &values));
            })),
        ];
        let [season, single] = timing::best(sides, 3);
        let ratio = season.and_then(|season| Some(season / single?));
        println!(
            "| season report, bound {degree} | {STAKE_COUNT} | {} | {} | {} | {SEASON_AIM} |",
            shown(season),
            shown(single),
            shown_ratio(ratio)
        );
    }
}

/// The lines of a text that is timed: as many as fill a book.
const LINES: usize = 4_096;

/// A text of depth and density as observers write them, and one of as many digits as pass.
fn texts() -> [(&'static str, String); 2] {
    let pit = |i: usize| format!("{}.{:02} {}.5\n", i / 1000, i % 100, 200 + i * 7 % 400);
    let long = |i: usize| format!("-0.{:015} {:09}.{:06}\n", i * 7919, 123_456_789 - i, i);
    let text = |line: fn(usize) -> String| (0..LINES).map(line).collect::<String>();
    [("a pit's", text(pit)), ("15 digits", text(long))]
}

/// The readings by the platform's parser, which judges neither their digits nor the spaces between.
fn parsed(text: &str) -> Vec<(f64, f64)> {
    let line = |line: &str| {
        let (x, y) = line.split_once(' ')?;
        Some((x.parse().ok()?, y.parse().ok()?))
    };
    text.split_terminator('\n').filter_map(line).collect()
}

/// Lines in MB/s: read, judged and then refused by 5 in a book of no places, and read, judged and added;
/// beside them, only read by the platform's parser.
fn print_lines() {
    println!("\n### Lines\n");
    println!("| Lines | bytes | port / parser | port, MB/s | plain, MB/s | parser, MB/s |");
    println!("|---|---|---|---|---|---|");
    for (name, text) in texts() {
        let call = Call::AddLines(text.clone().into_bytes());
        let room = [Sample::unweighted(0.0, 0.0); LINES];
        for (what, room) in [("judged", &room[..0]), ("judged and added", &room[..])] {
            let (mut mine, mut plain) = (memory_of(room), memory_of(room));
            let sides: [Option<Timed>; 3] = [
                Some(Box::new(|| drop(black_box(Port.make(&call, 0, lent(&mut mine)))))),
                Some(Box::new(|| drop(black_box(Judge.make(&call, 0, lent(&mut plain)))))),
                Some(Box::new(|| drop(black_box(parsed(black_box(&text)))))),
            ];
            let rate = |time: Option<f64>| text.len() as f64 / time.unwrap_or(f64::NAN);
            let [port, plain, parser] = timing::best(sides, 3).map(rate);
            println!(
                "| {name}, {what} | {} | {:.2} | {port:.1} | {plain:.1} | {parser:.1} |",
                thousands(text.len()),
                port / parser
            );
        }
    }
}

/// Prints the tables of the four kinds of samples, how calls grow, what was aimed at, and the tables of the other calls.
pub fn run() {
    let mut cells = Vec::new();
    for input in INPUTS {
        print_table(input, &mut cells);
    }
    print_growth(&cells);
    print_aims(&cells);
    print_folds();
    print_losses();
    print_splits();
    print_surfaces();
    print_season();
    print_lines();
    let missing = [
        (cells.iter().any(|cell| cell.times[GSL].is_some()), "GSL"),
        (limit::THERE, "g++ for the limit"),
    ];
    for (_, name) in missing.iter().filter(|(there, _)| !there) {
        println!("\nNot measured: {name} is not installed.");
    }
}

#[cfg(test)]
mod tests {
    use super::*;

    /// The texts that are timed pass, and the parser reads what the judge reads.
    #[test]
    fn texts_pass() {
        for (name, text) in texts() {
            let lines = judge::lines::lines(text.as_bytes());
            assert_eq!(lines.len(), LINES);
            let bad =
                |line: &&[u8]| judge::lines::malformed(line) || judge::lines::too_many_digits(line);
            assert!(!lines.iter().any(bad), "{name}");
            let samples = judge::lines::samples(text.as_bytes());
            let pairs: Vec<(f64, f64)> = samples.iter().map(|s| (s.x, s.y)).collect();
            assert_eq!(pairs, parsed(&text), "{name}");
        }
    }

    /// The plain folds have the bits of document 01's, so that what is timed is the same sums but for the weights.
    #[test]
    fn plain_fold_is_a_fold() {
        let samples = Input::Ripple.samples(100);
        let bits = |sums: &[f64]| sums.iter().map(|sum| sum.to_bits()).collect::<Vec<_>>();
        let folded = bits(&judge::sums::folded_afresh(&samples));
        assert_eq!(bits(&plain_fold(&samples)), folded);
        let xs: Vec<f64> = samples.iter().map(|sample| sample.x).collect();
        let ys: Vec<f64> = samples.iter().map(|sample| sample.y).collect();
        assert_eq!(bits(&fold_in_c(&xs, &ys)), folded);
    }

    /// What polyfit is timed for is what it is compared for: the bare calls give the degrees and refusals of the compared ones.
    #[test]
    fn bare_calls_are_the_compared_ones() {
        for input in INPUTS {
            let samples = input.samples(100);
            let data: Vec<(f64, f64)> = samples.iter().map(|s| (s.x, s.y)).collect();
            let settings = settings(8);
            let bare = reference::bare_report(&data, settings).map(|(errors, _)| errors);
            let whole = reference::report(&samples, settings).map(|report| report.errors);
            assert_eq!(bare, whole, "{}", input.title());
            let Settings { bound, criterion, .. } = settings;
            let bare = reference::bare_validate(&data, FOLDS, bound);
            let whole = reference::validate(&samples, FOLDS, bound, criterion);
            assert_eq!(bare, whole.map(|(_, coefficients)| coefficients), "{}", input.title());
            assert_eq!(reference::bare_fit(&data, 8), reference::fit(&samples, 8));
        }
    }
}
