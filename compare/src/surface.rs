//! Surfaces (document 02, E9): lists of their calls on columns that are read only, and what must happen
//! with them. There is no book and no ledger, and polyfit has none: the judge and the port are compared.

use journal::{Answer, Call};
use judge::fit::{self, Criterion, PruningRule, Settings};
use judge::numbers::EPSILON;
use judge::refusals::{Lengths, MOST_SAMPLES};
use judge::solve::{inverse, solve};
use judge::statistics::{max_degree, t_score, DegreeBound};
use judge::surface::{folded, terms_of, Site, SurfaceSample, GREATEST_DEGREE, SURFACE_TERMS};
use judge::terms::{fitted, Observed, Place};

use crate::arguments;
use crate::call::{List, Poke, Step};
use crate::coverage::Seen;
use crate::random::Random;
use crate::samples::{Kind, Source};

pub fn is_surface(call: &Call) -> bool {
    matches!(call, Call::SurfaceFit { .. } | Call::SurfaceReport(_) | Call::SurfaceBand { .. })
}

/// Makes the surface list of the given number from the given seed.
pub fn list(seed: u64, number: u64) -> List {
    let random = &mut Random::new(!seed ^ number.wrapping_mul(0xD6E8_FEB8_6659_FD93));
    let contents = random.next();
    let steps = match number % 32 {
        // Few, because they take long.
        0 if number % 1024 == 32 => {
            let most = [MOST_SAMPLES, 3125, MOST_SAMPLES + 1, 3124];
            full(random, most[(number / 1024 % 4) as usize])
        }
        0..=2 => bounds_by_name(random),
        3 | 4 => spoiled(random),
        5 | 6 => inverse_fails(random),
        7 => no_samples(random),
        12 => overflowing_mean(random),
        8..=11 => as_many_as_terms(random),
        _ => mixed(random),
    };
    List { contents, steps }
}

/// A list in the making: the columns, of which the first step writes what they hold.
struct Maker<'a> {
    random: &'a mut Random,
    samples: Vec<SurfaceSample>,
    /// How much longer than the samples each column is.
    spare: [usize; 3],
    steps: Vec<Step>,
    /// One call in so many gets a memory that is one place too short; 0 for none.
    short_one_in: usize,
}

impl<'a> Maker<'a> {
    fn new(random: &'a mut Random, samples: Vec<SurfaceSample>) -> Self {
        let mut spare = || random.pick(&[0, 0, 1, 3]);
        let spare = [spare(), spare(), spare()];
        Self { random, samples, spare, steps: Vec::new(), short_one_in: 25 }
    }

    fn lengths(&mut self) -> Lengths {
        let n = self.samples.len();
        let mut more = || self.random.pick(&[0, 0, 0, 1, 3]);
        let mut lengths = Lengths {
            x: n + self.spare[0],
            z: n + self.spare[1],
            y: n + self.spare[2],
            scratch: n + more(),
            coefficients: SURFACE_TERMS + more(),
            errors: SURFACE_TERMS + more(),
            pruned: SURFACE_TERMS + more(),
            lower: n + more(),
            upper: n + more(),
            outlier: n + more(),
            ..Lengths::default()
        };
        if self.short_one_in > 0 && self.random.one_in(self.short_one_in) {
            shorten(self.random, &mut lengths, n);
        }
        lengths
    }

    /// What the columns hold, written before the first call.
    fn columns(&self) -> Vec<Poke> {
        let poke = |(at, sample): (usize, &SurfaceSample)| {
            let SurfaceSample { x, z, y } = *sample;
            [Poke::X { at, value: x }, Poke::Z { at, value: z }, Poke::Y { at, value: y }]
        };
        self.samples.iter().enumerate().flat_map(poke).collect()
    }

    fn call(&mut self, call: Call) {
        self.step(Vec::new(), call);
    }

    fn step(&mut self, mut pokes: Vec<Poke>, call: Call) {
        if self.steps.is_empty() {
            pokes.splice(0..0, self.columns());
        }
        let (count, lengths) = (Some(self.samples.len()), self.lengths());
        self.steps.push(Step { pokes, count, lengths, call });
    }

    fn read(&mut self) {
        let call = reading(self.random, &self.samples);
        self.call(call);
    }
}

/// One memory one place too short, now and then without any place.
fn shorten(random: &mut Random, lengths: &mut Lengths, n: usize) {
    let empty = random.one_in(5);
    let short = |places: usize| if empty { 0 } else { places.saturating_sub(1) };
    match random.below(10) {
        0 => lengths.x = short(n),
        1 => lengths.z = short(n),
        2 => lengths.y = short(n),
        3 => lengths.scratch = short(n),
        4 => lengths.coefficients = short(SURFACE_TERMS),
        5 => lengths.errors = short(SURFACE_TERMS),
        6 => lengths.pruned = short(SURFACE_TERMS),
        7 => lengths.lower = short(n),
        8 => lengths.upper = short(n),
        _ => lengths.outlier = short(n),
    }
}

// ---- arguments

fn settings(random: &mut Random) -> Settings {
    let bound = match random.below(10) {
        0 => DegreeBound::Custom(random.pick(&[5, 6, 15, 16, usize::MAX])),
        1 => DegreeBound::Relaxed,
        2 => DegreeBound::Aggressive,
        3 => DegreeBound::Conservative,
        _ => DegreeBound::Custom(random.below(5)),
    };
    Settings { bound, ..arguments::settings(random) }
}

/// Mostly with no more terms than samples.
fn degree(random: &mut Random, n: usize) -> usize {
    if n == 0 || random.one_in(8) {
        return random.pick(&[0, 1, 2, 3, 4, 5, 15, 16, usize::MAX]);
    }
    let highest = (0..=GREATEST_DEGREE).filter(|&degree| terms_of(degree) <= n).max().unwrap_or(0);
    if random.one_in(3) {
        highest
    } else {
        random.below(highest + 1)
    }
}

/// Mostly within the samples, the ends among them.
fn coordinate(random: &mut Random, values: &[f64]) -> f64 {
    let samples: Vec<judge::Sample> =
        values.iter().map(|&x| judge::Sample::unweighted(x, 0.0)).collect();
    arguments::band_x(random, &samples)
}

fn site(random: &mut Random, samples: &[SurfaceSample]) -> Site {
    let column = |of: fn(&SurfaceSample) -> f64| samples.iter().map(of).collect::<Vec<f64>>();
    let (xs, zs) = (column(|s| s.x), column(|s| s.z));
    match random.below(4) {
        0 if !samples.is_empty() => samples[random.below(samples.len())].place(),
        1 if !samples.is_empty() => {
            Site { x: samples[random.below(samples.len())].x, z: coordinate(random, &zs) }
        }
        _ => Site { x: coordinate(random, &xs), z: coordinate(random, &zs) },
    }
}

fn reading(random: &mut Random, samples: &[SurfaceSample]) -> Call {
    match random.below(8) {
        0 | 1 => Call::SurfaceFit { degree: degree(random, samples.len()) },
        2..=4 => Call::SurfaceBand {
            site: site(random, samples),
            degree: degree(random, samples.len()),
            confidence: arguments::confidence(random),
            tolerance: arguments::tolerance(random),
        },
        _ => Call::SurfaceReport(settings(random)),
    }
}

// ---- samples

/// So many samples of some kind.
fn samples(random: &mut Random, n: usize) -> Vec<SurfaceSample> {
    let kind = random.below(9);
    let side = (1..).find(|side| side * side >= n).unwrap_or(1).max(2);
    let degree = random.below(GREATEST_DEGREE + 1);
    let surface: Vec<f64> = (0..terms_of(degree)).map(|_| random.below(13) as f64 - 6.0).collect();
    let noise = random.pick(&[0.0, 0.0, 0.01, 0.5, 3.0]);
    let (level, scale) = (random.pick(&[0.0, -0.0, 2.0, -7.5]), random.within(1.0, 64.0));
    let (mut of_x, mut of_z) = (Source::new(random, n), Source::new(random, n));
    let (mut even, mut unit) =
        (Source::of_kind(random, Kind::Offset, n), Source::of_kind(random, Kind::Unit, n));
    let of_surface = random.below(3) > 0;
    let mut one = |i: usize, random: &mut Random| {
        let (x, z) = match kind {
            0 | 1 => (unit.next(random).x, unit.next(random).x),
            // A grid.
            2 => ((i % side) as f64, (i / side) as f64),
            // Whatever the books have, overflowing powers too.
            3 => (of_x.next(random).x, of_z.next(random).x),
            // Depth in m, and elevation in hundreds of m.
            4 => (random.within(0.05, 4.0), random.within(24.0, 33.0)),
            5 => (unit.next(random).x, level),
            // Ties, and sites that come again.
            6 => (random.below(5) as f64 - 2.0, random.below(5) as f64 - 2.0),
            // Near a line.
            7 => {
                let x = random.within(-1.0, 1.0);
                (x, scale * x + random.within(-1.0, 1.0) / 65536.0)
            }
            _ => (even.next(random).x, unit.next(random).x),
        };
        let y = match of_surface && x.abs() < 1e60 && z.abs() < 1e60 {
            true => fitted(&surface, Site { x, z }) + noise * random.within(-1.0, 1.0),
            false => of_x.next(random).y,
        };
        SurfaceSample { x, z, y }
    };
    (0..n).map(|i| one(i, random)).collect()
}

/// Samples near a line, where the pivots of total degree 2 are at their edge: it is solved and the
/// inverse fails. Found by bisecting how far they lie off the line, then trying around it.
pub fn at_pivot_edge(random: &mut Random) -> Option<Vec<SurfaceSample>> {
    let k = terms_of(2);
    let n = k + random.below(4);
    let (width, slope) = (random.within(0.4, 1.4), random.within(1.0, 64.0));
    let unit = |random: &mut Random| random.within(-1.0, 1.0);
    let rows: Vec<[f64; 3]> =
        (0..n).map(|_| [width * unit(random), unit(random), unit(random)]).collect();
    let off = |by: f64| -> Vec<SurfaceSample> {
        let sample = |&[x, off, y]: &[f64; 3]| SurfaceSample { x, z: slope * x + by * off, y };
        rows.iter().map(sample).collect()
    };
    let holds = |by: f64| solve(&folded(&off(by)), k).is_some();
    let (mut low, mut high) = (1e-12_f64, 1.0_f64);
    if holds(low) || !holds(high) {
        return None;
    }
    for _ in 0..50 {
        let middle = (low * high).sqrt();
        if holds(middle) {
            high = middle;
        } else {
            low = middle;
        }
    }
    let fails = |samples: &Vec<SurfaceSample>| {
        let sums = folded(samples);
        inverse(&sums, k).is_none() && fit::solved(samples, &sums, 2).is_some()
    };
    let mut around = (0..200).map(|_| {
        let part = unit(random) / (1_u64 << random.between(2, 30)) as f64;
        off(high * (1.0 + part))
    });
    around.find(fails)
}

// ---- lists

/// Numbers of samples about those of terms.
const SIZES: [usize; 18] = [0, 1, 2, 3, 4, 5, 6, 7, 9, 10, 11, 14, 15, 16, 18, 24, 33, 47];

fn mixed(random: &mut Random) -> Vec<Step> {
    let n = random.pick(&SIZES);
    let samples = samples(random, n);
    let mut maker = Maker::new(random, samples);
    for _ in 0..maker.random.between(3, 7) {
        maker.read();
    }
    maker.steps
}

/// As many samples as some total degree has terms, or one less or more.
fn as_many_as_terms(random: &mut Random) -> Vec<Step> {
    let degree = random.below(GREATEST_DEGREE + 1);
    let n = (terms_of(degree) + random.below(3)).saturating_sub(1);
    let samples = samples(random, n);
    let mut maker = Maker::new(random, samples);
    maker.short_one_in = 0;
    maker.call(Call::SurfaceFit { degree });
    for pruning in [PruningRule::Positive, PruningRule::Size] {
        let bound = DegreeBound::Custom(degree);
        let settings = Settings { bound, pruning, ..settings(maker.random) };
        maker.call(Call::SurfaceReport(settings));
    }
    maker.read();
    maker.steps
}

/// About the numbers of samples from which a bound by name is above 4.
fn bounds_by_name(random: &mut Random) -> Vec<Step> {
    let n = random.pick(&[16, 24, 31, 32, 40, 45, 46, 47, 48, 60, 64, 124, 125, 126]);
    let samples = samples(random, n);
    let mut maker = Maker::new(random, samples);
    let bounds = [
        DegreeBound::Conservative,
        DegreeBound::Relaxed,
        DegreeBound::Aggressive,
        DegreeBound::Custom(GREATEST_DEGREE),
    ];
    for bound in bounds {
        let settings = Settings { bound, ..settings(maker.random) };
        maker.call(Call::SurfaceReport(settings));
    }
    maker.read();
    maker.steps
}

/// A number in a column that is not finite, below the count or past it, and then one that is.
fn spoiled(random: &mut Random) -> Vec<Step> {
    let n = random.between(1, 16);
    let samples = samples(random, n);
    let mut maker = Maker::new(random, samples);
    maker.short_one_in = 8;
    maker.spare = [1, 1, 1];
    maker.read();
    for _ in 0..3 {
        let at = maker.random.below(n + 1);
        let value = arguments::not_finite(maker.random);
        let column = maker.random.below(3);
        let poke = |value: f64| match column {
            0 => Poke::X { at, value },
            1 => Poke::Z { at, value },
            _ => Poke::Y { at, value },
        };
        let call = reading(maker.random, &maker.samples);
        maker.step(vec![poke(value)], call);
        maker.read();
        let back = maker.samples.get(at).map_or(0.0, |s| [s.x, s.z, s.y][column]);
        let call = reading(maker.random, &maker.samples);
        maker.step(vec![poke(back)], call);
    }
    maker.steps
}

fn inverse_fails(random: &mut Random) -> Vec<Step> {
    let samples = match at_pivot_edge(random) {
        Some(samples) => samples,
        None => samples(random, 8),
    };
    let mut maker = Maker::new(random, samples);
    for _ in 0..2 {
        let settings = Settings { bound: DegreeBound::Custom(2), ..settings(maker.random) };
        maker.call(Call::SurfaceReport(settings));
        maker.call(Call::SurfaceFit { degree: 2 });
        let call = Call::SurfaceBand {
            site: site(maker.random, &maker.samples),
            degree: 2,
            confidence: arguments::confidence(maker.random),
            tolerance: arguments::tolerance(maker.random),
        };
        maker.call(call);
    }
    maker.steps
}

/// Five samples whose mean leaves a residual that overflows, while their plane does not and leaves sizes a,
/// 2a, a, a, a, so that every loss is 0: total degree 0 is unsolved and 1 chosen. All steps are exact in
/// units of 2¹⁰²⁰.
fn overflowing_mean(random: &mut Random) -> Vec<Step> {
    let unit = random.sign() * f64::from_bits((1023 + 1020) << 52);
    let x = random.sign() * 0.75;
    let z = random.sign() * 0.25;
    let rows =
        [(-x, 2.0, 15.0), (0.0, 2.0, -15.0), (x, 2.0, -6.0), (0.0, -3.0, 4.5), (0.0, -3.0, -8.5)];
    let sample = |(x, times, y): (f64, f64, f64)| SurfaceSample { x, z: z * times, y: y * unit };
    let mut maker = Maker::new(random, rows.map(sample).to_vec());
    for degree in [1, 2, 4] {
        let settings = Settings { bound: DegreeBound::Custom(degree), ..settings(maker.random) };
        maker.call(Call::SurfaceReport(settings));
        maker.read();
    }
    maker.steps
}

fn no_samples(random: &mut Random) -> Vec<Step> {
    let mut maker = Maker::new(random, Vec::new());
    maker.short_one_in = 3;
    for _ in 0..6 {
        maker.read();
    }
    maker.steps
}

/// About the most samples, and those from which Conservative is refused.
fn full(random: &mut Random, n: usize) -> Vec<Step> {
    let (mut unit, level) = (Source::of_kind(random, Kind::Unit, n), random.below(5));
    let mut sample = |_| {
        let (x, z) = (unit.next(random).x, unit.next(random).x);
        let y = x + 2.0 * z * z + unit.next(random).x + level as f64;
        SurfaceSample { x, z, y }
    };
    let samples: Vec<SurfaceSample> = (0..n).map(&mut sample).collect();
    let mut maker = Maker::new(random, samples);
    maker.short_one_in = 0;
    for bound in [DegreeBound::Custom(2), DegreeBound::Conservative] {
        let settings = Settings { bound, ..settings(maker.random) };
        maker.call(Call::SurfaceReport(settings));
    }
    maker.call(Call::SurfaceFit { degree: 1 });
    maker.steps
}

// ---- what must happen

/// What each call may answer, besides being let through, in checking order.
pub const REFUSALS: [(&str, &[u8]); 3] = [
    ("surface_fit", &[1, 4, 7, 8, 10]),
    ("surface_report", &[1, 4, 7, 8, 11, 12]),
    ("surface_band", &[1, 4, 7, 8, 9, 10, 12]),
];

const EVENTS: [&str; 36] = [
    "a total degree within the bound not tried",
    "a total degree that is not tried would be chosen",
    "k by the degree would choose another",
    "df by the degree would prune otherwise",
    "chosen does not have the least score",
    "chosen is exactly 2 above the least",
    "11 with no degree solved",
    "11 with degrees solved",
    "degree 0 unsolved, a higher one chosen",
    "one z for all samples",
    "one x for all samples",
    "x and z exchanged would have other coefficients",
    "a term that is not finite",
    "outliers",
    "no outliers",
    "a term pruned",
    "a term below zero kept, by the rule of positive ones",
    "a term below zero pruned, by size",
    "df 0",
    "df 1 to 30",
    "df 31 or more",
    "NaN in a band",
    "the correction of the AIC",
    "Relaxed refused by 8",
    "Aggressive refused by 8",
    "Conservative refused by 8",
    "Custom refused by 8",
    "a band at the least or greatest z",
    "a band between",
    "9 for x alone",
    "9 for z alone",
    "9 for both",
    "9 before 10",
    "9 before 12",
    "4 for a z in its column alone",
    "a number past the count that is not finite",
];

const COUNTS: [&str; 4] = [
    "count above the z column's length alone",
    "count above 4,096 in longer columns",
    "4,096 samples",
    "one sample",
];

/// The names of all that must happen, besides every refusal and every length.
pub fn events() -> Vec<String> {
    let mut keys: Vec<String> = EVENTS.map(|event| format!("surface: {event}")).to_vec();
    keys.extend(COUNTS.map(|event| format!("surface: {event}")));
    for degree in 0..=GREATEST_DEGREE {
        keys.push(format!("surface: chosen degree {degree}"));
        keys.push(format!("surface: degree {degree} fitted to as many samples as terms"));
    }
    for degree in 1..=GREATEST_DEGREE {
        keys.push(format!("surface: degree {degree} refused by 8 for one sample"));
    }
    keys.extend((0..=GREATEST_DEGREE + 1).map(|solved| format!("surface: {solved} solved")));
    keys.extend(["Aic", "Bic"].map(|criterion| format!("surface: criterion {criterion}")));
    let bounds = ["Conservative", "Relaxed", "Aggressive", "Custom"];
    keys.extend(bounds.map(|bound| format!("surface: bound {bound}")));
    keys
}

/// What happened, by name.
pub fn happened(seen: &Seen) -> Vec<String> {
    let mut noted = Noted(Vec::new());
    note_counts(seen, &mut noted);
    match seen.call {
        Call::SurfaceFit { degree } => {
            let (n, answered) = (seen.count, seen.answer == Answer::Degree(*degree));
            if *degree <= GREATEST_DEGREE {
                let terms = terms_of(*degree);
                let key = format!("degree {degree} fitted to as many samples as terms");
                noted.note_if(answered && terms == n, &key);
                let key = format!("degree {degree} refused by 8 for one sample");
                let one_short = terms == n + 1 && seen.answer == Answer::Refused(8);
                noted.note_if(one_short && n > 0, &key);
            }
        }
        Call::SurfaceReport(settings) => note_report(seen, *settings, &mut noted),
        Call::SurfaceBand { site, degree, .. } => note_band(seen, *site, *degree, &mut noted),
        _ => {}
    }
    noted.0
}

struct Noted(Vec<String>);

impl Noted {
    fn note_if(&mut self, holds: bool, what: &str) {
        if holds {
            self.0.push(format!("surface: {what}"));
        }
    }
}

fn note_counts(seen: &Seen, noted: &mut Noted) {
    let Lengths { x, z, y, .. } = *seen.lengths;
    let answered = !matches!(seen.answer, Answer::Refused(_));
    let alone = seen.count > z && seen.count <= x.min(y).min(MOST_SAMPLES);
    let by_1 = seen.answer == Answer::Refused(1);
    noted.note_if(alone && by_1, "count above the z column's length alone");
    let longer = x.min(y).min(z) > MOST_SAMPLES && seen.count > MOST_SAMPLES;
    noted.note_if(longer && by_1, "count above 4,096 in longer columns");
    noted.note_if(answered && seen.count == MOST_SAMPLES, "4,096 samples");
    noted.note_if(answered && seen.count == 1, "one sample");
    let finite = |v: f64| v.is_finite();
    let alone = seen.sites.iter().all(|s| finite(s.x) && finite(s.y))
        && seen.sites.iter().any(|s| !finite(s.z));
    let given = match seen.call {
        Call::SurfaceBand { site, .. } => finite(site.x) && finite(site.z),
        _ => true,
    };
    let by_4 = seen.answer == Answer::Refused(4);
    noted.note_if(alone && given && by_4, "4 for a z in its column alone");
    let past = |column: &[f64], length: usize| {
        seen.count < length && column.get(seen.count).map_or(false, |v| !v.is_finite())
    };
    let past = past(&seen.memory.x, x) || past(&seen.memory.z, z) || past(&seen.memory.y, y);
    noted.note_if(answered && past, "a number past the count that is not finite");
}

fn bound_name(bound: DegreeBound) -> &'static str {
    match bound {
        DegreeBound::Conservative => "Conservative",
        DegreeBound::Relaxed => "Relaxed",
        DegreeBound::Aggressive => "Aggressive",
        DegreeBound::Custom(_) => "Custom",
    }
}

/// The score of each total degree up to 4, also of those with more terms than samples, by the k given.
fn all_scores(
    samples: &[SurfaceSample],
    bound: usize,
    criterion: Criterion,
    k: fn(usize) -> usize,
) -> Vec<Option<f64>> {
    let sums = folded(samples);
    let score = |degree| {
        let residuals = fit::residuals(samples, &fit::solved(samples, &sums, degree)?);
        Some(fit::score(criterion, &residuals, k(degree)))
    };
    (0..=bound).map(score).collect()
}

fn note_report(seen: &Seen, settings: Settings, noted: &mut Noted) {
    let (samples, n) = (&seen.sites[..], seen.count);
    let bound = max_degree(settings.bound, n);
    let name = bound_name(settings.bound);
    if let Answer::Refused(number) = seen.answer {
        noted.note_if(number == 8, &format!("{name} refused by 8"));
        if number == 11 {
            let solved = fit::scores(samples, &folded(samples), bound, settings.criterion);
            let solved = solved.iter().flatten().count();
            noted.note_if(solved == 0, "11 with no degree solved");
            noted.note_if(solved == 0, "0 solved");
            noted.note_if(solved > 0, "11 with degrees solved");
        }
    }
    let (degree, solved, outliers) = match seen.answer {
        Answer::Report { degree, solved, outliers, .. } => (degree, solved, outliers),
        _ => return,
    };
    noted.note_if(true, &format!("chosen degree {degree}"));
    noted.note_if(true, &format!("{solved} solved"));
    noted.note_if(true, &format!("criterion {:?}", settings.criterion));
    noted.note_if(true, &format!("bound {name}"));
    noted.note_if(outliers > 0, "outliers");
    noted.note_if(outliers == 0, "no outliers");
    if n > 200 {
        return;
    }
    let scores = fit::scores(samples, &folded(samples), bound, settings.criterion);
    let whole = all_scores(samples, bound, settings.criterion, terms_of);
    noted.note_if(whole.len() > scores.len(), "a total degree within the bound not tried");
    let otherwise = fit::chosen(&whole) != Some(degree);
    noted.note_if(otherwise, "a total degree that is not tried would be chosen");
    let last = scores.len() - 1;
    let by_degree = all_scores(samples, last, settings.criterion, |degree| degree + 1);
    let otherwise = fit::chosen(&by_degree) != Some(degree);
    noted.note_if(otherwise, "k by the degree would choose another");
    let distance = scores[degree].unwrap_or(f64::NAN) - fit::least(&scores);
    noted.note_if(distance > 0.0, "chosen does not have the least score");
    noted.note_if(distance == 2.0, "chosen is exactly 2 above the least");
    noted.note_if(scores[0].is_none(), "degree 0 unsolved, a higher one chosen");
    let several = n > 1;
    let one_z = samples.iter().all(|s| s.z == samples[0].z);
    let one_x = samples.iter().all(|s| s.x == samples[0].x);
    noted.note_if(several && one_z, "one z for all samples");
    noted.note_if(several && one_x, "one x for all samples");
    let terms = |s: &SurfaceSample| (0..terms_of(bound)).any(|j| !s.place().term(j).is_finite());
    noted.note_if(samples.iter().any(terms), "a term that is not finite");
    note_terms(seen, settings, degree, noted);
    let exchanged: Vec<SurfaceSample> =
        samples.iter().map(|s| SurfaceSample { x: s.z, z: s.x, y: s.y }).collect();
    let exchanged = fit::solved(&exchanged, &folded(&exchanged), degree);
    let written = &seen.memory.coefficients[..terms_of(degree)];
    let otherwise = exchanged.map_or(false, |values| values != written);
    noted.note_if(otherwise, "x and z exchanged would have other coefficients");
    let ends = seen.memory.lower[..n].iter().chain(&seen.memory.upper[..n]);
    noted.note_if(ends.clone().any(|v| v.is_nan()), "NaN in a band");
    let k = terms_of(degree);
    let corrected = settings.criterion == Criterion::Aic && n < 4 * k && n > k + 1;
    noted.note_if(corrected, "the correction of the AIC");
}

fn note_terms(seen: &Seen, settings: Settings, degree: usize, noted: &mut Noted) {
    let (n, k) = (seen.count, terms_of(degree));
    let df = n - k;
    noted.note_if(df == 0, "df 0");
    noted.note_if((1..=30).contains(&df), "df 1 to 30");
    noted.note_if(df > 30, "df 31 or more");
    let (critical, other) =
        (t_score(settings.confidence, df), t_score(settings.confidence, n - degree - 1));
    for j in 0..k {
        let (c, error) = (seen.memory.coefficients[j], seen.memory.errors[j]);
        let (pruned, t) = (seen.memory.pruned[j] == 1, c.abs() / error);
        noted.note_if(pruned, "a term pruned");
        let faces = match settings.pruning {
            PruningRule::Positive => c > EPSILON,
            PruningRule::Size => c.abs() > EPSILON,
        };
        noted.note_if(faces && (t < other) != pruned, "df by the degree would prune otherwise");
        let below = c < -EPSILON && t < critical;
        noted.note_if(below && !pruned, "a term below zero kept, by the rule of positive ones");
        noted.note_if(below && pruned, "a term below zero pruned, by size");
    }
}

fn note_band(seen: &Seen, site: Site, degree: usize, noted: &mut Noted) {
    let samples = &seen.sites;
    let outside = |at: f64, of: fn(&SurfaceSample) -> f64| {
        samples.iter().all(|s| at < of(s)) || samples.iter().all(|s| at > of(s))
    };
    let (x, z) = (outside(site.x, |s| s.x), outside(site.z, |s| s.z));
    if seen.answer == Answer::Refused(9) {
        noted.note_if(x && !z, "9 for x alone");
        noted.note_if(!x && z, "9 for z alone");
        noted.note_if(x && z, "9 for both");
        let sums = folded(samples);
        let solved = fit::solved(samples, &sums, degree).is_some();
        noted.note_if(!solved, "9 before 10");
        noted.note_if(inverse(&sums, terms_of(degree)).is_none(), "9 before 12");
    }
    if let Answer::Band { value, lower, upper } = seen.answer {
        let least = samples.iter().all(|s| site.z <= s.z);
        let greatest = samples.iter().all(|s| site.z >= s.z);
        noted.note_if(least || greatest, "a band at the least or greatest z");
        noted.note_if(!least && !greatest, "a band between");
        noted.note_if([value, lower, upper].iter().any(|v| v.is_nan()), "NaN in a band");
    }
}
