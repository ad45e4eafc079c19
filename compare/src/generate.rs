//! Makes lists of calls. Each kind of list aims at something that plain random lists never make.

use journal::Call;
use judge::fit::{PruningRule, Settings};
use judge::frame;
use judge::ledger::Ledger;
use judge::refusals::Lengths;
use judge::statistics::{t_score, with_t, Confidence, DegreeBound, Tolerance, LEVELS};
use judge::sums::{PLACES, TERMS};
use judge::Sample;

use crate::arguments;
use crate::call::{List, Poke, Step};
use crate::lines;
use crate::random::Random;
use crate::samples::{self, Kind, Source};
use crate::split;
use crate::weights;

/// A list in the making, with a ledger beside it to know the samples.
struct Maker<'a> {
    random: &'a mut Random,
    steps: Vec<Step>,
    ledger: Ledger,
    x_length: usize,
    y_length: usize,
    weight_length: usize,
    /// One call in so many gets a memory that is one place too short; 0 for none.
    short_one_in: usize,
}

/// Makes the list of the given number from the given seed.
pub fn list(seed: u64, number: u64) -> List {
    let random = &mut Random::new(seed ^ number.wrapping_mul(0xD6E8_FEB8_6659_FD93));
    let contents = random.next();
    let steps = match number % 64 {
        // Few, because 4,096 samples take long.
        0 if number % 4096 == 64 => full(random, 1 + (number / 4096 + 1) % 2),
        0 if number % 4096 == 1984 => full_of_lines(random),
        0 if number % 4096 == 1024 => full_window(random),
        0..=5 => many_samples(random),
        6..=11 => interpolated(random),
        12..=17 => spoiled(random),
        18..=27 => lent_sums(random),
        28 | 29 => inverse_fails(random),
        30 => negative_zero_error(random),
        31 | 32 => overflowing_mean(random),
        33 if number % 256 == 33 => pivot_edge(random),
        34 => long_columns(random),
        35 => beside_t_scores(random, 1 + (number / 64 % 31) as usize),
        36..=38 => written(random),
        39 => terms_of_either_sign(random),
        40 | 41 => framed(random),
        42 | 43 => weighed(random),
        44 if number % 1024 == 44 => two_long_seasons(random),
        44..=46 => two_seasons(random),
        50 if number % 256 == 50 => windowed(random, 100, 24),
        50..=53 => {
            let capacity = random.pick(&[0, 1, 1, 2, 2, 3, 4, 7, 12]);
            windowed(random, capacity, 20)
        }
        _ => mixed(random),
    };
    List { contents, steps }
}

impl<'a> Maker<'a> {
    fn new(random: &'a mut Random, capacity: usize) -> Self {
        let longer = random.pick(&[0, 0, 0, 1, 4]);
        let mut lengths = [capacity + longer; 3];
        lengths[random.below(3)] = capacity;
        let [x_length, y_length, weight_length] = lengths;
        let (steps, ledger, short_one_in) = (Vec::new(), Ledger::default(), 0);
        let mut maker =
            Self { random, steps, ledger, x_length, y_length, weight_length, short_one_in };
        maker.call(Call::Open);
        maker
    }

    fn samples(&self) -> &[Sample] {
        &self.ledger.samples
    }

    /// Just long enough, or with some places past the end.
    fn lengths(&mut self) -> Lengths {
        let n = self.samples().len();
        let mut more = || self.random.pick(&[0, 0, 0, 1, 3]);
        Lengths {
            sums: PLACES + more(),
            scratch: n + more(),
            coefficients: TERMS + more(),
            errors: TERMS + more(),
            pruned: TERMS + more(),
            lower: n + more(),
            upper: n + more(),
            outlier: n + more(),
            before: TERMS + more(),
            after: TERMS + more(),
            losses: n + more(),
            solved: TERMS + more(),
            scores: TERMS + more(),
            x: self.x_length,
            y: self.y_length,
            weight: self.weight_length,
            ..Lengths::default()
        }
    }

    fn call(&mut self, call: Call) {
        self.step(Vec::new(), call);
    }

    fn step(&mut self, pokes: Vec<Poke>, call: Call) {
        let mut lengths = self.lengths();
        if self.short_one_in > 0 && self.random.one_in(self.short_one_in) {
            shorten(self.random, &mut lengths, self.ledger.samples.len());
        }
        self.follow(&lengths, &call);
        self.steps.push(Step { pokes, count: None, lengths, call });
    }

    /// Keeps the ledger up with the calls that change the book; refusals change nothing.
    fn follow(&mut self, lengths: &Lengths, call: &Call) {
        let _ = match call {
            Call::Open => self.ledger.open(lengths),
            Call::Add(sample) => self.ledger.add(lengths, *sample),
            Call::AddWindow(sample) => self.ledger.add_window(lengths, *sample),
            Call::Correct { index, y } => self.ledger.correct(lengths, *index, *y),
            Call::Withdraw { index } => self.ledger.withdraw(lengths, *index),
            Call::AddFrame(bytes) => self.ledger.add_frame(lengths, bytes),
            Call::AddLines(text) => self.ledger.add_lines(lengths, text),
            _ => Ok(0),
        };
    }

    fn add_all(&mut self, samples: &[Sample]) {
        if samples.len() > 8 || self.random.one_in(2) {
            let frame = weights::frame_of(self.random, samples);
            self.call(Call::AddFrame(frame));
        } else {
            for &sample in samples {
                self.call(Call::Add(sample));
            }
        }
    }

    fn read(&mut self) {
        let call = arguments::reading(self.random, &self.ledger.samples);
        self.call(call);
    }

    /// A call that changes the book, or tries to.
    fn change(&mut self, source: &mut Source) {
        let n = self.samples().len();
        let random = &mut *self.random;
        let call = match random.below(14) {
            0..=4 => Call::Add(spoil_sample(random, source)),
            5 | 6 => Call::Correct { index: index(random, n), y: spoil_sample(random, source).y },
            7 | 8 => Call::Withdraw { index: index(random, n) },
            9 => {
                let number = random.below(4);
                let samples = source.take(random, number);
                Call::AddFrame(weights::frame_of(random, &samples))
            }
            10 => {
                let number = random.below(3);
                let samples = source.take(random, number);
                let bytes = arguments::wrong_frame(random, &samples);
                random.pick(&[Call::AddFrame, Call::Reader])(bytes)
            }
            11 => {
                let number = random.below(4);
                let samples = source.take(random, number);
                Call::Reader(weights::frame_of(random, &samples))
            }
            12 => {
                let number = random.below(4);
                Call::AddLines(lines::right(random, number))
            }
            _ => {
                let number = random.below(4);
                Call::AddLines(lines::wrong(random, number))
            }
        };
        self.call(call);
    }
}

/// Mostly below n.
fn index(random: &mut Random, n: usize) -> usize {
    if n == 0 || random.one_in(12) {
        random.pick(&[n, n + 1, usize::MAX])
    } else {
        random.below(n)
    }
}

/// The next sample, rarely with a part that is not finite or a weight that is not above zero.
fn spoil_sample(random: &mut Random, source: &mut Source) -> Sample {
    let sample = source.next(random);
    match random.below(50) {
        0 => Sample { x: arguments::not_finite(random), ..sample },
        1 => Sample { y: arguments::not_finite(random), ..sample },
        2 => Sample { weight: weights::wrong(random), ..sample },
        _ => sample,
    }
}

/// One memory one place too short, now and then without any place.
fn shorten(random: &mut Random, lengths: &mut Lengths, n: usize) {
    let empty = random.one_in(5);
    let short = |places: usize| if empty { 0 } else { places.saturating_sub(1) };
    match random.below(13) {
        0 => lengths.sums = short(PLACES),
        1 => lengths.scratch = short(n),
        2 => lengths.coefficients = short(TERMS),
        3 => lengths.errors = short(TERMS),
        4 => lengths.pruned = short(TERMS),
        5 => lengths.lower = short(n),
        6 => lengths.upper = short(n),
        7 => lengths.before = short(TERMS),
        8 => lengths.after = short(TERMS),
        9 => lengths.losses = short(n),
        10 => lengths.solved = short(TERMS),
        11 => lengths.scores = short(TERMS),
        _ => lengths.outlier = short(n),
    }
}

/// Calls as they come: adds, corrections, withdrawals, frames, and reading calls in between.
fn mixed(random: &mut Random) -> Vec<Step> {
    let capacity = random.pick(&[0, 1, 2, 3, 4, 6, 8, 10, 12, 16, 20, 24, 40]);
    let mut source = Source::new(random, capacity);
    let number = random.between(0, capacity);
    let first = source.take(random, number);
    let mut maker = Maker::new(random, capacity);
    maker.short_one_in = 30;
    maker.add_all(&first);
    for _ in 0..maker.random.between(4, 16) {
        if maker.random.one_in(3) {
            maker.change(&mut source);
        } else {
            maker.read();
        }
    }
    if maker.random.one_in(20) {
        maker.call(Call::Open);
        maker.read();
    }
    maker.steps
}

/// Samples as lines, right and wrong ones, and reading calls in between.
fn written(random: &mut Random) -> Vec<Step> {
    let capacity = random.pick(&[1, 2, 4, 8, 12, 20, 40]);
    let mut maker = Maker::new(random, capacity);
    maker.short_one_in = 40;
    for _ in 0..maker.random.between(3, 8) {
        let free = capacity - maker.samples().len();
        let number = match maker.random.below(4) {
            0 => free + maker.random.below(2),
            _ => maker.random.below(free + 1),
        };
        let text = match maker.random.below(3) {
            0 => lines::right(maker.random, number),
            _ => lines::wrong(maker.random, number),
        };
        maker.call(Call::AddLines(text));
        maker.read();
        let n = maker.samples().len();
        if n > 0 && maker.random.one_in(3) {
            let index = maker.random.below(n);
            maker.call(Call::Withdraw { index });
        }
    }
    maker.steps
}

/// Frames of both versions and of none, with right and wrong lengths and weights.
fn framed(random: &mut Random) -> Vec<Step> {
    let capacity = random.pick(&[0, 1, 2, 4, 8, 12]);
    let mut source = Source::new(random, capacity);
    let mut maker = Maker::new(random, capacity);
    maker.short_one_in = 40;
    for _ in 0..maker.random.between(4, 10) {
        let number = maker.random.below(5);
        let mut samples = source.take(maker.random, number);
        let bytes = match maker.random.below(4) {
            0 => weights::frame_of(maker.random, &samples),
            1 => weights::any_frame(maker.random),
            _ => {
                weights::spoil(maker.random, &mut samples);
                frame::encode_weighted(&samples)
            }
        };
        let call = maker.random.pick(&[Call::AddFrame, Call::AddFrame, Call::Reader])(bytes);
        maker.call(call);
        if maker.random.one_in(4) {
            maker.read();
        }
    }
    maker.steps
}

/// Wrong weights in adds, and weights that someone else writes: whoever reads judges them by 4 alone, a
/// correction or a withdrawal not at all, and whatever is folded afresh takes them as they are.
fn weighed(random: &mut Random) -> Vec<Step> {
    let n = random.between(2, 9);
    let kind = random.pick(&[Kind::SmallWhole, Kind::Density, Kind::EvenGrid, Kind::Unit]);
    let mut source = Source::of_kind(random, kind, n);
    let first = source.take(random, n);
    let spare = random.pick(&[0, 1, 2]);
    let mut maker = Maker::new(random, n + spare);
    maker.add_all(&first);
    for _ in 0..4 {
        let mut sample = source.next(maker.random);
        sample.weight = weights::wrong(maker.random);
        maker.call(Call::Add(sample));
        let count = maker.samples().len();
        let (at, value) = match maker.random.below(4) {
            0 => (maker.random.below(count + 1), arguments::not_finite(maker.random)),
            1 => (count, arguments::not_finite(maker.random)),
            _ => (maker.random.below(count + 1), weights::not_above_zero(maker.random)),
        };
        let poke = vec![Poke::Weight { at, value }];
        let index = maker.random.below(count.max(1));
        let y = source.next(maker.random).y;
        let call = match maker.random.below(3) {
            0 => Call::Withdraw { index },
            1 => Call::Correct { index, y },
            _ => arguments::reading(maker.random, &maker.ledger.samples),
        };
        maker.step(poke, call);
        for _ in 0..2 {
            maker.read();
        }
        let count = maker.samples().len();
        if maker.random.one_in(2) && count > 0 {
            // Where it hits a weight that is not finite, readings pass again.
            let (at, value) = (maker.random.below(count), maker.random.pick(&[1.0, 2.0, 0.5]));
            let withdraw = Call::Withdraw { index: count - 1 };
            maker.step(vec![Poke::Weight { at, value }], withdraw);
            maker.read();
        }
    }
    maker.steps
}

/// Samples of one kind and then of another, split again and again while they change; now and then someone
/// else writes a column or the sums, which a split does not read.
fn two_seasons(random: &mut Random) -> Vec<Step> {
    let n = match random.below(8) {
        0 => random.between(1, 4),
        1 => random.between(12, 16),
        2 => random.between(17, 20),
        _ => random.between(4, 11),
    };
    let melt = random.between(0, n);
    let mut source = Source::new(random, melt);
    let mut first = source.take(random, melt);
    let mut source = Source::new(random, n - melt);
    first.extend(source.take(random, n - melt));
    let spare = random.pick(&[0, 1, 2]);
    let mut maker = Maker::new(random, n + spare);
    maker.short_one_in = 25;
    maker.add_all(&first);
    for _ in 0..maker.random.between(3, 5) {
        let count = maker.samples().len();
        let (mut poke, mut back) = (Vec::new(), Vec::new());
        match maker.random.below(6) {
            0 => maker.change(&mut source),
            1 => poke.push(sums_poke(maker.random)),
            2 if count > 0 => {
                let (at, value) = (maker.random.below(count), maker.samples()[0].weight);
                let low = weights::not_above_zero(maker.random);
                poke.push(Poke::Weight { at, value: low });
                back.push(Poke::Weight { at, value });
            }
            3 if count > 0 && maker.random.one_in(3) => poke.push(column_poke(maker.random, count)),
            _ => {}
        }
        let mut settings = arguments::settings(maker.random);
        if count > 16 && maker.random.one_in(4) {
            settings.bound = DegreeBound::Custom(maker.random.pick(&[15, 16]));
        }
        let call = split::call_by(maker.random, &maker.ledger.samples, settings);
        maker.step(poke, call);
        if !back.is_empty() {
            let call = split::call(maker.random, &maker.ledger.samples);
            maker.step(back, call);
        }
    }
    maker.steps
}

/// Enough samples on both sides for every bound.
fn two_long_seasons(random: &mut Random) -> Vec<Step> {
    let n = random.pick(&[40, 63, 64, 90, 136]);
    let mut source = Source::new(random, n);
    let first = source.take(random, n);
    let mut maker = Maker::new(random, n);
    maker.add_all(&first);
    let bounds = [DegreeBound::Conservative, DegreeBound::Relaxed, DegreeBound::Aggressive];
    for bound in bounds {
        let settings = Settings { bound, ..arguments::settings(maker.random) };
        let call = split::call_by(maker.random, &maker.ledger.samples, settings);
        maker.call(call);
    }
    maker.steps
}

/// A window book about its edge: adds to it, with room and without, among all other changes, which get 5
/// where it is full; at the end on memory that someone else writes.
fn windowed(random: &mut Random, capacity: usize, calls: usize) -> Vec<Step> {
    let mut source = Source::new(random, capacity);
    let number = random.between(capacity.saturating_sub(3), capacity);
    let first = source.take(random, number);
    let mut maker = Maker::new(random, capacity);
    maker.short_one_in = 40;
    maker.add_all(&first);
    for _ in 0..calls {
        match maker.random.below(10) {
            0..=4 => {
                let sample = spoil_sample(maker.random, &mut source);
                maker.call(Call::AddWindow(sample));
            }
            5..=7 => maker.change(&mut source),
            _ => maker.read(),
        }
    }
    for _ in 0..2 {
        let poke = match maker.random.below(3) {
            0 => column_poke(maker.random, 1),
            _ => sums_poke(maker.random),
        };
        let sample = source.next(maker.random);
        maker.step(vec![poke], Call::AddWindow(sample));
        maker.read();
    }
    maker.steps
}

/// A window of 4,096, its last place filled and its first samples withdrawn.
fn full_window(random: &mut Random) -> Vec<Step> {
    let kind = random.pick(&[Kind::EvenGrid, Kind::Density, Kind::Unit, Kind::Offset]);
    let mut source = Source::of_kind(random, kind, 4096);
    let first = source.take(random, 4095);
    let spare = random.pick(&[0, 3]);
    let mut maker = Maker::new(random, 4096 + spare);
    maker.call(Call::AddFrame(frame::encode(&first)));
    let mut next = |maker: &mut Maker| source.next(maker.random);
    for _ in 0..3 {
        let sample = next(&mut maker);
        maker.call(Call::AddWindow(sample));
    }
    let sample = next(&mut maker);
    let calls = [
        Call::AddWindow(Sample { y: f64::NAN, ..sample }),
        Call::AddWindow(Sample { weight: 0.0, ..sample }),
        Call::Add(sample),
        Call::AddFrame(frame::encode_weighted(&[sample])),
        Call::AddLines(b"1 2\n".to_vec()),
        Call::Correct { index: maker.random.below(4096), y: 1.0 },
        Call::AddWindow(sample),
        Call::Withdraw { index: maker.random.below(4096) },
        Call::AddWindow(sample),
        Call::AddWindow(first[0]),
    ];
    for call in calls {
        maker.call(call);
    }
    let bound = DegreeBound::Custom(2);
    let settings = Settings { bound, ..arguments::settings(maker.random) };
    maker.call(Call::Report(settings));
    maker.steps
}

/// Enough samples for every bound, and for degrees of freedom past the table.
fn many_samples(random: &mut Random) -> Vec<Step> {
    let n = match random.below(4) {
        0 => random.pick(&[31, 32, 33, 44, 45, 63, 64, 135, 136]),
        1 => random.between(100, 140),
        _ => random.between(17, 70),
    };
    let mut source = Source::new(random, n);
    let first = source.take(random, n);
    let mut maker = Maker::new(random, n);
    maker.add_all(&first);
    for _ in 0..3 {
        maker.read();
        let mut settings = arguments::settings(maker.random);
        settings.bound = maker.random.pick(&[
            DegreeBound::Conservative,
            DegreeBound::Relaxed,
            DegreeBound::Aggressive,
            DegreeBound::Custom(0),
        ]);
        maker.call(Call::Report(settings));
    }
    maker.change(&mut source);
    maker.read();
    maker.steps
}

/// As many samples as coefficients, or one or two more: df 0 and 1, and every degree chosen.
fn interpolated(random: &mut Random) -> Vec<Step> {
    let degree = random.below(16);
    let n = degree + 1 + random.pick(&[0, 0, 0, 1, 2]);
    let kind = random.pick(&[Kind::EvenGrid, Kind::EvenGrid, Kind::Unit, Kind::Offset]);
    let samples = Source::of_kind(random, kind, n).take(random, n);
    let mut maker = Maker::new(random, n);
    maker.add_all(&samples);
    for _ in 0..4 {
        let bound = DegreeBound::Custom(degree);
        let settings = Settings { bound, ..arguments::settings(maker.random) };
        maker.call(Call::Report(settings));
        maker.read();
    }
    maker.steps
}

/// For every confidence, terms just below and just above its t score: pruned and kept.
fn beside_t_scores(random: &mut Random, df: usize) -> Vec<Step> {
    let mut maker = Maker::new(random, df + 1);
    for confidence in LEVELS {
        for part in [1.0 - 2e-6, 1.0 + 2e-6] {
            maker.call(Call::Open);
            maker.add_all(&with_t(df, part * t_score(confidence, df)));
            let (bound, tolerance) = (DegreeBound::Custom(0), Tolerance::None);
            let criterion = arguments::criterion(maker.random);
            let pruning = arguments::pruning(maker.random);
            let settings = Settings { bound, criterion, confidence, tolerance, pruning };
            maker.call(Call::Report(settings));
        }
    }
    maker.steps
}

/// By either rule of pruning, and of either sign: nine samples whose own sums give an error of −0, two
/// whose mean is the least number above 2⁻⁵², and three with sums that give an error that is a NaN.
fn terms_of_either_sign(random: &mut Random) -> Vec<Step> {
    let xs = [1.25, 1.59375, 1.21875, 1.265625, 1.953125, 1.375, 1.734375, 1.203125, 1.890625];
    let nine = [4.0, 6.0, 2.0, 1.0, 2.0, 5.0, 8.0, 5.0, 6.0];
    let (at, above) = (f64::EPSILON, f64::EPSILON * f64::EPSILON);
    let mut maker = Maker::new(random, 9);
    for sign in [1.0, -1.0] {
        let lists = [
            (&xs[..], &nine[..], 8, Vec::new()),
            (&[1.0, 1.0], &[4.0 * at, 2.0 * above - 2.0 * at], 0, Vec::new()),
            (&[0.0, 1.0, 2.0], &[1.5, 3.0, 5.0], 1, sums_pokes(&negative_inverse(sign))),
        ];
        for (xs, ys, degree, pokes) in lists {
            maker.call(Call::Open);
            let of = |(&x, &y): (&f64, &f64)| Sample::unweighted(x, sign * y);
            maker.add_all(&xs.iter().zip(ys).map(of).collect::<Vec<_>>());
            let (bound, confidence) = (DegreeBound::Custom(degree), Confidence::P95);
            for pruning in [PruningRule::Positive, PruningRule::Size] {
                let settings = arguments::settings(maker.random);
                let settings = Settings { bound, confidence, pruning, ..settings };
                maker.step(pokes.clone(), Call::Report(settings));
            }
        }
    }
    maker.steps
}

/// Samples whose mean leaves a residual that overflows.
fn overflowing_mean(random: &mut Random) -> Vec<Step> {
    let samples = samples::overflowing_mean(random);
    let mut maker = Maker::new(random, 4);
    maker.add_all(&samples);
    for _ in 0..3 {
        let bound = DegreeBound::Custom(maker.random.between(0, 2));
        let settings = Settings { bound, ..arguments::settings(maker.random) };
        maker.call(Call::Report(settings));
        maker.call(Call::Losses(settings));
        maker.call(Call::Scores(settings));
        maker.read();
    }
    maker.steps
}

/// Solved, and the inverse not, from a ledger.
fn pivot_edge(random: &mut Random) -> Vec<Step> {
    let (samples, degree) = match samples::at_some_pivot_edge(random) {
        Some(edge) => edge,
        None => return mixed(random),
    };
    let mut maker = Maker::new(random, samples.len());
    maker.add_all(&samples);
    maker.call(Call::Fit { degree });
    for _ in 0..2 {
        let mut settings = arguments::settings(maker.random);
        settings.bound = DegreeBound::Custom(degree);
        maker.call(Call::Report(settings));
        maker.call(Call::Losses(settings));
        maker.call(Call::Scores(settings));
        let (confidence, tolerance) = (Confidence::P95, Tolerance::None);
        maker.call(Call::Band { x: samples[0].x, degree, confidence, tolerance });
        maker.read();
    }
    maker.steps
}

/// Sums that are not the ledger's.
fn lent_sums(random: &mut Random) -> Vec<Step> {
    let n = random.between(1, 8);
    let mut source = Source::new(random, n);
    let first = source.take(random, n);
    let mut maker = Maker::new(random, n + 2);
    maker.add_all(&first);
    for _ in 0..maker.random.between(2, 6) {
        let pokes = (0..maker.random.between(1, 4)).map(|_| sums_poke(maker.random)).collect();
        let call = arguments::reading(maker.random, &maker.ledger.samples);
        maker.step(pokes, call);
        if maker.random.one_in(3) {
            maker.change(&mut source);
        }
    }
    maker.steps
}

/// A value at a place of the sums that small degrees read, or now and then at any place.
fn sums_poke(random: &mut Random) -> Poke {
    let (i, j) = (random.below(3), random.below(3));
    let at = match random.below(8) {
        0 => random.below(PLACES),
        1 | 2 => 256 + i,
        3 | 4 => 16 * i + i,
        _ => 16 * i + j,
    };
    let value = match random.below(8) {
        0 => arguments::not_finite(random),
        1 => -0.0,
        2 => 0.0,
        3 => f64::from_bits(random.next()),
        4 => -random.within(0.0, 9.0),
        _ => random.between(0, 12) as f64 - 4.0,
    };
    Poke::Sums { at, value }
}

fn sums_pokes(places: &[(usize, f64)]) -> Vec<Poke> {
    places.iter().map(|&(at, value)| Poke::Sums { at, value }).collect()
}

/// A line through every sample, so that the fit is exact.
fn line(maker: &mut Maker, n: usize) {
    for i in 0..n {
        let x = i as f64;
        maker.call(Call::Add(Sample::unweighted(x, 1.0 + 2.0 * x)));
    }
}

/// A matrix with a first pivot of 2⁻⁵², which the inverse doubles: the second pivot is then 2⁻¹⁰ for
/// the solution and about −1/2 for the inverse. The right-hand side is that of 1 + 2x, exactly.
fn inverse_fails(random: &mut Random) -> Vec<Step> {
    let n = random.between(2, 5);
    let mut maker = Maker::new(random, n);
    line(&mut maker, n);
    let (p, above) = (1.0 / (1u64 << 26) as f64, 1.0 + 1.0 / 1024.0);
    let places = [
        (0, f64::EPSILON),
        (1, p),
        (16, -p * above),
        (17, -1.0),
        (256, f64::EPSILON + 2.0 * p),
        (257, -p * above - 2.0),
    ];
    let settings = Settings { bound: DegreeBound::Custom(1), ..arguments::settings(maker.random) };
    maker.step(sums_pokes(&places), Call::Report(settings));
    maker.call(Call::Losses(settings));
    maker.call(Call::Scores(settings));
    let (confidence, tolerance) = (arguments::confidence(maker.random), Tolerance::None);
    for x in [0.0, -1.0] {
        maker.call(Call::Band { x, degree: 1, confidence, tolerance });
    }
    maker.call(Call::Fit { degree: 1 });
    maker.read();
    maker.steps
}

/// `negative_inverse`: with two samples the variance is +0 and the error −0, with more it is a NaN.
fn negative_zero_error(random: &mut Random) -> Vec<Step> {
    let n = random.between(2, 4);
    let mut maker = Maker::new(random, n);
    line(&mut maker, n);
    if n > 2 {
        maker.call(Call::Correct { index: 0, y: 1.5 });
    }
    let settings = Settings { bound: DegreeBound::Custom(1), ..arguments::settings(maker.random) };
    maker.step(sums_pokes(&negative_inverse(1.0)), Call::Report(settings));
    maker.read();
    maker.steps
}

/// Sums that are not symmetric, with −1 in the first place of their inverse; the right-hand side is
/// that of 1 + 2x, times the sign.
fn negative_inverse(sign: f64) -> [(usize, f64); 6] {
    [(0, 1.0), (1, 1.0), (16, -2.0), (17, -1.0), (256, sign * 3.0), (257, sign * -4.0)]
}

/// Calls with several things wrong at once, to see in which order they are judged.
fn spoiled(random: &mut Random) -> Vec<Step> {
    let n = random.pick(&[0, 0, 1, 2, 5, 17, 20]);
    let kind = random.pick(&[Kind::Exact, Kind::SmallWhole, Kind::Unit]);
    let mut source = Source::of_kind(random, kind, n);
    let first = source.take(random, n);
    let spare = random.pick(&[0, 0, 1]);
    let mut maker = Maker::new(random, n + spare);
    maker.add_all(&first);
    maker.short_one_in = 3;
    for _ in 0..8 {
        let call = spoiled_call(maker.random, &mut source, &maker.ledger.samples);
        let mut pokes = Vec::new();
        if n > 0 && maker.random.one_in(4) {
            pokes.push(column_poke(maker.random, n));
        }
        maker.step(pokes, call);
        if maker.random.one_in(8) {
            spoil_count(&mut maker);
        }
    }
    refused_open(&mut maker);
    maker.steps
}

/// An open on sums that are too short, and a call on the book that still stands.
fn refused_open(maker: &mut Maker) {
    let mut lengths = maker.lengths();
    lengths.sums = maker.random.pick(&[PLACES - 1, PLACES - 1, 256, 0]);
    maker.steps.push(Step { pokes: Vec::new(), count: None, lengths, call: Call::Open });
    maker.short_one_in = 0;
    maker.read();
}

fn column_poke(random: &mut Random, n: usize) -> Poke {
    // One past the count now and then, which no call may look at.
    let (at, value) = (random.below(n + 1), arguments::not_finite(random));
    match random.below(3) {
        0 => Poke::X { at, value },
        1 => Poke::Y { at, value },
        _ => Poke::Weight { at, value },
    }
}

/// A count above capacity for the last call.
fn spoil_count(maker: &mut Maker) {
    let capacity = maker.x_length.min(maker.y_length).min(maker.weight_length);
    let count = capacity + maker.random.pick(&[1, 2, 4096, usize::MAX - 4096]);
    if let Some(step) = maker.steps.last_mut() {
        step.count = Some(count);
    }
}

fn spoiled_call(random: &mut Random, source: &mut Source, samples: &[Sample]) -> Call {
    let n = samples.len();
    let bad = arguments::not_finite(random);
    let or_bad = |random: &mut Random, value: f64| if random.one_in(2) { bad } else { value };
    match random.below(11) {
        0 => {
            let weight = random.pick(&[1.0, 2.0, bad, 0.0, -0.0, -1.0]);
            let sample = Sample { x: or_bad(random, 1.0), y: or_bad(random, 2.0), weight };
            random.pick(&[Call::Add, Call::AddWindow])(sample)
        }
        1 => Call::Correct { index: n + random.below(2), y: or_bad(random, 1.0) },
        2 => Call::Withdraw { index: n + random.below(2) },
        3 => Call::AddFrame(spoiled_frame(random, source)),
        4 => Call::Reader(spoiled_frame(random, source)),
        5 => Call::Fit { degree: random.pick(&[0, n, 16, usize::MAX]) },
        6 => {
            let settings = spoiled_settings(random, bad);
            random.pick(&[Call::Report, Call::Losses, Call::Scores])(settings)
        }
        7 => Call::Validate {
            folds: random.pick(&[0, 1, 2, n + 1]),
            bound: DegreeBound::Custom(random.pick(&[1, 16, 20])),
            criterion: arguments::criterion(random),
        },
        8 => {
            let number = random.below(4);
            Call::AddLines(lines::wrong(random, number))
        }
        9 => Call::Split {
            limit: random.pick(&[0, 1, usize::MAX]),
            settings: spoiled_settings(random, bad),
        },
        _ => Call::Band {
            x: random.pick(&[0.0, -1e9, 1e9, f64::NAN, f64::INFINITY]),
            degree: random.pick(&[0, n, 16, usize::MAX]),
            confidence: spoiled_settings(random, bad).confidence,
            tolerance: spoiled_settings(random, bad).tolerance,
        },
    }
}

fn spoiled_settings(random: &mut Random, bad: f64) -> Settings {
    let mut settings = arguments::settings(random);
    settings.bound = DegreeBound::Custom(random.pick(&[1, 16, 20]));
    match random.below(4) {
        0 => settings.confidence = Confidence::Custom(bad),
        1 => settings.tolerance = Tolerance::Absolute(bad),
        2 => settings.tolerance = Tolerance::Measurement(bad),
        _ => {}
    }
    settings
}

/// Wrong in length, version, or a sample, or in several.
fn spoiled_frame(random: &mut Random, source: &mut Source) -> Vec<u8> {
    let number = random.below(4);
    let mut samples = source.take(random, number);
    if random.one_in(2) {
        weights::spoil(random, &mut samples);
    }
    let mut bytes = weights::frame_of(random, &samples);
    if random.one_in(2) {
        bytes[2] = random.pick(&[0, 1, 2, 3, 255]);
    }
    if random.one_in(2) {
        bytes.push(0);
    }
    bytes
}

/// Columns longer than a book's 4,096, and counts about that.
fn long_columns(random: &mut Random) -> Vec<Step> {
    let mut maker = Maker::new(random, 4100);
    let sample = Sample { x: 1.0, y: 2.0, weight: 3.0 };
    let calls = [
        Call::Add(sample),
        Call::AddWindow(sample),
        Call::AddFrame(frame::encode_weighted(&[sample])),
        Call::AddLines(b"1 2\n".to_vec()),
        Call::Correct { index: 0, y: 1.0 },
        Call::Withdraw { index: 4095 },
        Call::Fit { degree: 0 },
    ];
    for _ in 0..3 {
        let pick = maker.random.below(calls.len());
        maker.call(calls[pick].clone());
        let count = maker.random.pick(&[4095, 4096, 4097, 4100, 4101]);
        if let Some(step) = maker.steps.last_mut() {
            step.count = Some(count);
        }
    }
    maker.steps
}

/// A full book of 4,096 samples, by frames of the version, each with as many samples as it can hold.
fn full(random: &mut Random, version: u64) -> Vec<Step> {
    let kind = random.pick(&[Kind::EvenGrid, Kind::Density, Kind::Unit, Kind::Offset]);
    let mut source = Source::of_kind(random, kind, 4096);
    let samples = source.take(random, 4096);
    let spare = random.pick(&[0, 3]);
    let mut maker = Maker::new(random, 4096 + spare);
    if version == 1 {
        maker.call(Call::AddFrame(frame::encode(&samples[..4095])));
    } else {
        maker.call(Call::AddFrame(frame::encode_weighted(&samples[..2730])));
        maker.call(Call::AddFrame(frame::encode_weighted(&samples[2730..4095])));
    }
    maker.call(Call::Add(samples[4095]));
    maker.call(Call::Add(samples[0]));
    maker.call(Call::AddFrame(frame::encode_weighted(&samples[..1])));
    let bounds = [DegreeBound::Relaxed, DegreeBound::Conservative, DegreeBound::Custom(2)];
    let bound = maker.random.pick(&bounds);
    let settings = Settings { bound, ..arguments::settings(maker.random) };
    maker.call(Call::Report(settings));
    maker.call(Call::Losses(settings));
    maker.call(Call::Scores(settings));
    let degree = maker.random.below(16);
    maker.call(Call::Fit { degree });
    let (folds, criterion) = (maker.random.between(2, 5), arguments::criterion(maker.random));
    maker.call(Call::Validate { folds, bound: DegreeBound::Custom(3), criterion });
    let call = arguments::band(maker.random, &samples);
    maker.call(call);
    let index = maker.random.below(4096);
    maker.call(Call::Correct { index, y: 1.0 });
    maker.call(Call::Withdraw { index });
    maker.call(Call::Add(samples[1]));
    maker.call(Call::Fit { degree: 1 });
    maker.steps
}

/// A text that fills a book of 4,096, after longer ones that are refused.
fn full_of_lines(random: &mut Random) -> Vec<Step> {
    let spare = random.pick(&[0, 3]);
    let mut maker = Maker::new(random, 4096 + spare);
    let most = lines::right(maker.random, 5000);
    let ends: Vec<usize> = (0..most.len()).filter(|&at| most[at] == b'\n').collect();
    let first = |lines: usize| most[..ends[lines - 1] + 1].to_vec();
    let wrong = lines::wrong(maker.random, 2);
    let texts = [
        most.clone(),
        [&most[..], &wrong].concat(),
        first(4097),
        first(4095),
        first(2),
        first(1),
        first(1),
        Vec::new(),
        wrong,
    ];
    for text in texts {
        maker.call(Call::AddLines(text));
    }
    let index = maker.random.below(4096);
    maker.call(Call::Withdraw { index });
    maker.call(Call::AddLines(first(2)));
    maker.call(Call::AddLines(first(1)));
    maker.call(Call::Open);
    maker.call(Call::AddLines(first(4096)));
    maker.call(Call::Fit { degree: 1 });
    maker.steps
}
