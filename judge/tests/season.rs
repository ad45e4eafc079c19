//! The calls of a season book on whole memory whose lengths are no multiples of 32: each is the book's own on
//! a stake's parts, which are cut out here by hand, and nothing else changes.

use judge::book::{self, Memory, ReportAnswer, ReportMemory};
use judge::fit::{Criterion, PruningRule, Settings};
use judge::frame::encode_weighted;
use judge::numbers::bits;
use judge::season::{self, SeasonAnswer, STAKES};
use judge::statistics::{Confidence, DegreeBound, Tolerance};
use judge::sums::{PLACES, TERMS};
use judge::Sample;

/// What stands in memory before anything is written.
const MARK: f64 = 77.0;

const AIC_1: Settings = Settings {
    bound: DegreeBound::Custom(1),
    criterion: Criterion::Aic,
    confidence: Confidence::P95,
    tolerance: Tolerance::None,
    pruning: PruningRule::Positive,
};

/// All memory, either whole with 32 counts or one stake's with one.
#[derive(Clone)]
struct Lent {
    counts: Vec<usize>,
    floats: [Vec<f64>; 9],
    bytes: [Vec<u8>; 2],
    /// Lent for a call alone.
    own: [Vec<f64>; 4],
    solved: Vec<u8>,
}

/// The places of `floats`: x, y, weight, sums, scratch, coefficients, errors, lower, upper.
const SUMS: usize = 3;
const SCRATCH: usize = 4;
const COEFFICIENTS: usize = 5;

macro_rules! lend {
    ($lent:ident, $memory:ident, $scratch:ident, $out:ident) => {
        let [x, y, weight, sums, scratch, coefficients, errors, lower, upper] = &mut $lent.floats;
        let [pruned, outlier] = &mut $lent.bytes;
        #[allow(unused_mut)]
        let mut $memory = Memory { x, y, weight, sums };
        let $scratch = &mut scratch[..];
        #[allow(unused_mut)]
        let mut $out = ReportMemory { coefficients, errors, pruned, lower, upper, outlier };
    };
}

impl Lent {
    /// Parts of 5 samples, and a rest of another length in each memory.
    fn glacier() -> Self {
        let floats = |places: usize, rest: usize| vec![MARK; STAKES * places + rest];
        let bytes = |places: usize, rest: usize| vec![77; STAKES * places + rest];
        let mut lent = Self {
            counts: vec![77; STAKES + 2],
            floats: [
                floats(5, 1),
                floats(6, 31),
                floats(5, 0),
                floats(PLACES + 1, 7),
                floats(7, 3),
                floats(TERMS, 30),
                floats(TERMS + 2, 1),
                floats(5, 9),
                floats(6, 2),
            ],
            bytes: [bytes(TERMS, 5), bytes(5, 31)],
            own: [vec![MARK; 17], vec![MARK; 17], vec![MARK; 17], vec![MARK; 9]],
            solved: vec![77; 17],
        };
        assert_eq!(season::open(&mut lent.counts, &mut lent.floats[SUMS]), Ok(()));
        lent
    }

    /// The first place of a stake's part, and how many it has.
    fn places(length: usize, stake: usize) -> std::ops::Range<usize> {
        let size = (length - length % 32) / 32;
        stake * size..stake * size + size
    }

    /// A stake's own memory, cut out.
    fn cut(&self, stake: usize) -> Self {
        let floats =
            |at: usize| self.floats[at][Self::places(self.floats[at].len(), stake)].to_vec();
        let bytes = |at: usize| self.bytes[at][Self::places(self.bytes[at].len(), stake)].to_vec();
        Self {
            counts: vec![self.counts[stake]],
            floats: std::array::from_fn(floats),
            bytes: std::array::from_fn(bytes),
            own: self.own.clone(),
            solved: self.solved.clone(),
        }
    }

    /// The stake's own memory, put back in its place.
    fn put(&mut self, stake: usize, cut: &Self) {
        self.counts[stake] = cut.counts[0];
        for (whole, part) in self.floats.iter_mut().zip(&cut.floats) {
            let places = Self::places(whole.len(), stake);
            whole[places].copy_from_slice(part);
        }
        for (whole, part) in self.bytes.iter_mut().zip(&cut.bytes) {
            let places = Self::places(whole.len(), stake);
            whole[places].copy_from_slice(part);
        }
        self.own = cut.own.clone();
        self.solved = cut.solved.clone();
    }

    /// Every place, as bits.
    fn all(&self) -> Vec<Vec<u64>> {
        let floats = self.floats.iter().chain(&self.own);
        let mut all: Vec<Vec<u64>> =
            floats.map(|values| values.iter().map(|v| bits(*v)).collect()).collect();
        let bytes = self.bytes.iter().chain([&self.solved]);
        all.extend(bytes.map(|values| values.iter().map(|v| u64::from(*v)).collect()));
        all.push(self.counts.iter().map(|v| *v as u64).collect());
        all
    }

    fn add(&mut self, stake: usize, x: f64, y: f64) -> Result<usize, u8> {
        let counts = &mut self.counts;
        lend!(self, memory, _scratch, _out);
        season::add(stake, counts, &mut memory, Sample::unweighted(x, y))
    }

    fn fill(&mut self, stake: usize, ys: &[f64]) {
        for (i, &y) in ys.iter().enumerate() {
            assert_eq!(self.add(stake, i as f64, y), Ok(i + 1));
        }
    }

    fn correct(&mut self, stake: usize, index: usize, y: f64) -> Result<usize, u8> {
        let counts = &mut self.counts;
        lend!(self, memory, _scratch, _out);
        season::correct(stake, counts, &mut memory, index, y)
    }

    fn report(&mut self, settings: Settings) -> SeasonAnswer {
        let counts = &self.counts;
        lend!(self, memory, scratch, out);
        season::report(counts, &mut memory, settings, scratch, &mut out)
    }

    fn report_stake(&mut self, stake: usize, settings: Settings) -> Result<ReportAnswer, u8> {
        let counts = &self.counts;
        lend!(self, memory, scratch, out);
        season::report_stake(stake, counts, &mut memory, settings, scratch, &mut out)
    }
}

/// A call: in a season's form, and the book's own.
#[derive(Clone, Debug)]
enum Call {
    Open,
    Add(Sample),
    AddWindow(Sample),
    AddFrame(Vec<u8>),
    AddLines(&'static [u8]),
    Correct(usize, f64),
    Withdraw(usize),
    Carry,
    Fit(usize),
    Validate(usize),
    Band(f64),
    Report(Settings),
    Scores(Settings),
    Losses(Settings),
    Split(usize),
}

/// What a call answers, as text.
fn told<T: std::fmt::Debug>(answer: Result<T, u8>) -> String {
    format!("{answer:?}")
}

const BY: (DegreeBound, Criterion) = (AIC_1.bound, AIC_1.criterion);

fn of_season(lent: &mut Lent, stake: usize, call: &Call) -> String {
    let (counts, [before, after, scores, losses]) = (&mut lent.counts, &mut lent.own);
    let solved = &mut lent.solved;
    lend!(lent, memory, scratch, out);
    let whole = &mut memory;
    match call {
        Call::Open => told(season::open_stake(stake, counts, whole.sums)),
        Call::Add(sample) => told(season::add(stake, counts, whole, *sample)),
        Call::AddWindow(sample) => told(season::add_window(stake, counts, whole, *sample)),
        Call::AddFrame(bytes) => told(season::add_frame(stake, counts, whole, bytes)),
        Call::AddLines(text) => told(season::add_lines(stake, counts, whole, text)),
        Call::Correct(index, y) => told(season::correct(stake, counts, whole, *index, *y)),
        Call::Withdraw(index) => told(season::withdraw(stake, counts, whole, *index)),
        Call::Carry => told(season::carry(stake, counts, whole)),
        Call::Fit(degree) => {
            told(season::fit(stake, counts, whole, *degree, scratch, out.coefficients))
        }
        Call::Validate(folds) => {
            told(season::validate(stake, counts, whole, *folds, BY, scratch, out.coefficients))
        }
        Call::Band(x) => {
            let (confidence, tolerance) = (Confidence::P95, Tolerance::None);
            told(season::band(stake, counts, whole, (*x, 1), confidence, tolerance, scratch))
        }
        Call::Report(settings) => {
            told(season::report_stake(stake, counts, whole, *settings, scratch, &mut out))
        }
        Call::Scores(settings) => {
            told(season::scores(stake, counts, whole, *settings, scratch, solved, scores))
        }
        Call::Losses(settings) => {
            told(season::losses(stake, counts, whole, *settings, scratch, losses))
        }
        Call::Split(limit) => {
            told(season::split(stake, counts, whole, (AIC_1, *limit), scratch, before, after))
        }
    }
}

fn of_book(lent: &mut Lent, call: &Call) -> String {
    let (count, [before, after, scores, losses]) = (lent.counts[0], &mut lent.own);
    let solved = &mut lent.solved;
    lend!(lent, memory, scratch, out);
    let own = &mut memory;
    let changed = match call {
        Call::Open => book::open(own.sums),
        Call::Add(sample) => book::add(count, own, *sample),
        Call::AddWindow(sample) => book::add_window(count, own, *sample),
        Call::AddFrame(bytes) => book::add_frame(count, own, bytes),
        Call::AddLines(text) => book::add_lines(count, own, text),
        Call::Correct(index, y) => book::correct(count, own, *index, *y),
        Call::Withdraw(index) => book::withdraw(count, own, *index),
        Call::Carry => book::carry(count, own),
        Call::Fit(degree) => {
            return told(book::fit(count, own, *degree, scratch, out.coefficients))
        }
        Call::Validate(folds) => {
            return told(book::validate(count, own, *folds, BY, scratch, out.coefficients))
        }
        Call::Band(x) => {
            let (confidence, tolerance) = (Confidence::P95, Tolerance::None);
            return told(book::band(count, own, (*x, 1), confidence, tolerance, scratch));
        }
        Call::Report(settings) => {
            return told(book::report(count, own, *settings, scratch, &mut out))
        }
        Call::Scores(settings) => {
            return told(book::scores(count, own, *settings, scratch, solved, scores))
        }
        Call::Losses(settings) => {
            return told(book::losses(count, own, *settings, scratch, losses))
        }
        Call::Split(limit) => {
            return told(book::split(count, own, (AIC_1, *limit), scratch, before, after))
        }
    };
    if let Ok(count) = changed {
        lent.counts[0] = count;
    }
    told(changed)
}

/// Every call, let through and refused.
fn calls() -> Vec<Call> {
    let sample = |x: f64, y: f64, weight: f64| Sample { x, y, weight };
    let nan = Settings { tolerance: Tolerance::Absolute(f64::NAN), ..AIC_1 };
    let frame = encode_weighted(&[sample(2.0, 4.5, 1.0), sample(3.0, 8.0, 2.0)]);
    let long = encode_weighted(&[sample(2.0, 4.5, 1.0); 6]);
    vec![
        Call::Report(AIC_1),
        Call::Add(sample(0.0, 1.0, 2.0)),
        Call::Add(sample(0.0, f64::NAN, 2.0)),
        Call::Add(sample(0.0, 1.0, 0.0)),
        Call::AddLines(b"1 3.5\n"),
        Call::AddLines(b"1 3.5"),
        Call::AddFrame(long),
        Call::Split(100),
        Call::AddFrame(frame),
        Call::Fit(1),
        Call::Fit(4),
        Call::Validate(2),
        Call::Validate(5),
        Call::Band(1.5),
        Call::Band(9.0),
        Call::Report(AIC_1),
        Call::Report(nan),
        Call::Scores(AIC_1),
        Call::Scores(nan),
        Call::Losses(AIC_1),
        Call::Losses(nan),
        Call::Split(6),
        Call::Split(5),
        Call::Correct(1, -2.0),
        Call::Correct(4, -2.0),
        Call::AddWindow(sample(4.0, 9.0, 1.0)),
        Call::Add(sample(5.0, 9.0, 1.0)),
        Call::AddWindow(sample(5.0, 9.0, 3.0)),
        Call::Withdraw(2),
        Call::Withdraw(4),
        Call::Carry,
        Call::Report(AIC_1),
        Call::Open,
        Call::Report(AIC_1),
    ]
}

/// Answers, the stake's own memory and count are those of a book of its own, and no other place changes.
#[test]
fn calls_are_the_books_own() {
    for stakes in [[0, 0], [31, 31], [0, 31], [13, 14]] {
        let mut lent = Lent::glacier();
        for (i, call) in calls().iter().enumerate() {
            let stake = stakes[i % 2];
            let (mut expected, mut own) = (lent.clone(), lent.cut(stake));
            let answer = of_book(&mut own, call);
            expected.put(stake, &own);
            assert_eq!(of_season(&mut lent, stake, call), answer, "{call:?}");
            assert_eq!(lent.all(), expected.all(), "{call:?}");
        }
    }
    // Most are let through by one stake alone.
    let mut lent = Lent::glacier();
    let answers: Vec<String> = calls().iter().map(|call| of_season(&mut lent, 5, call)).collect();
    let refused = answers.iter().filter(|answer| answer.starts_with("Err")).count();
    assert_eq!((answers.len(), refused), (34, 17), "{answers:?}");
}

#[test]
fn opening_empties_all_stakes() {
    let lent = Lent::glacier();
    assert_eq!(lent.counts, [vec![0; STAKES], vec![77, 77]].concat());
    for stake in 0..STAKES {
        let sums = &lent.cut(stake).floats[SUMS];
        assert!(sums[..PLACES].iter().all(|v| bits(*v) == 0) && sums[PLACES] == MARK);
    }
    assert_eq!(lent.floats[SUMS][STAKES * (PLACES + 1)..], [MARK; 7]);
    let mut counts = [5; STAKES];
    let mut sums = vec![MARK; STAKES * PLACES];
    assert_eq!(season::open(&mut counts[..31], &mut sums), Err(1));
    assert_eq!(season::open(&mut counts, &mut sums[..STAKES * PLACES - 1]), Err(1));
    assert!(counts == [5; STAKES] && sums.iter().all(|v| *v == MARK));
    assert_eq!(season::open(&mut counts, &mut sums), Ok(()));
    assert!(counts == [0; STAKES] && sums.iter().all(|v| bits(*v) == 0));
}

/// 18 above 31, with no memory at all; then 1 for the counts, before the call's own numbers. Nothing changes.
#[test]
fn refusals_in_order() {
    let mut none = Lent::glacier();
    none.counts.clear();
    none.floats.iter_mut().for_each(Vec::clear);
    none.bytes.iter_mut().for_each(Vec::clear);
    let mut filled = Lent::glacier();
    filled.fill(31, &[1.0, 2.0, 4.0, 3.0]);
    let mut fewer = filled.clone();
    fewer.counts.truncate(31);
    for call in calls() {
        for lent in [&none, &filled, &fewer] {
            for stake in [32, 33, usize::MAX] {
                let mut after = lent.clone();
                assert_eq!(of_season(&mut after, stake, &call), "Err(18)");
                assert_eq!(after.all(), lent.all());
            }
        }
        for stake in [0, 30, 31] {
            let mut after = fewer.clone();
            assert_eq!(of_season(&mut after, stake, &call), "Err(1)");
            assert_eq!(after.all(), fewer.all());
        }
        // The parts are empty: a book of no places, and sums too short.
        let mut after = none.clone();
        after.counts = vec![0; STAKES];
        assert_eq!(of_season(&mut after, 0, &call), "Err(1)");
    }
}

/// Lengths are judged by part: 31 places more make no part longer.
#[test]
fn parts_are_rounded_down() {
    let lengths = [
        (0, 5, 5),
        (SUMS, PLACES, 1),
        (SCRATCH, 3, 1),
        (COEFFICIENTS, TERMS, 1),
        (6, TERMS, 1),
        (7, 3, 1),
        (8, 3, 1),
    ];
    for (memory, places, number) in lengths {
        let mut lent = Lent::glacier();
        lent.fill(31, &[1.0, 3.0, 5.0]);
        lent.floats[memory].resize(STAKES * places, MARK);
        // Shorter parts lie elsewhere.
        let of_31 = Lent::places(lent.floats[SUMS].len(), 31);
        if memory == SUMS {
            lent.floats[SUMS][of_31].fill(0.0);
        }
        if memory > SUMS {
            assert!(lent.report_stake(31, AIC_1).is_ok());
            lent.floats[memory].resize(STAKES * places - 1, MARK);
            assert_eq!(lent.report_stake(31, AIC_1), Err(number));
            lent.floats[memory].resize(STAKES * (places - 1) + 31, MARK);
            assert_eq!(lent.report_stake(31, AIC_1), Err(number));
        } else if memory == SUMS {
            assert_eq!(lent.add(31, 3.0, 7.0), Ok(4));
            lent.floats[memory].resize(STAKES * places - 1, MARK);
            assert_eq!(lent.add(31, 4.0, 7.0), Err(number));
        } else {
            lent.floats[memory].resize(STAKES * 4 + 31, MARK);
            assert_eq!((lent.add(31, 3.0, 7.0), lent.add(31, 3.0, 7.0)), (Ok(4), Err(number)));
        }
    }
}

/// The memory of a call alone is not cut, and only the parts' scratch is cleared.
#[test]
fn sides_scores_and_losses_are_not_cut() {
    let mut lent = Lent::glacier();
    lent.fill(20, &[1.0, 2.0, 4.0, 3.0]);
    for (call, memory, places) in [
        (Call::Split(100), 0, TERMS),
        (Call::Split(100), 1, TERMS),
        (Call::Scores(AIC_1), 2, TERMS),
        (Call::Losses(AIC_1), 3, 4),
    ] {
        let mut exact = lent.clone();
        exact.own[memory].truncate(places);
        assert!(of_season(&mut exact, 20, &call).starts_with("Ok"));
        assert!(exact.own[memory].iter().all(|v| *v != MARK));
        exact.own[memory].truncate(places - 1);
        assert_eq!(of_season(&mut exact, 20, &call), "Err(1)");
    }
}

/// Each stake's report or refusal, in order, whatever the others gave, and the number not refused.
#[test]
fn season_report_runs_through_all() {
    let mut lent = Lent::glacier();
    lent.fill(1, &[1.0, 3.0, 5.0]);
    lent.fill(2, &[f64::MAX, f64::MAX]);
    lent.fill(30, &[1.0, 2.0, 4.0, 3.0]);
    lent.fill(31, &[2.5]);
    lent.counts[7] = 6;
    let (mut expected, mut stakes) = (lent.clone(), Vec::new());
    for stake in 0..STAKES {
        stakes.push(expected.report_stake(stake, AIC_1));
    }
    let season = lent.report(AIC_1);
    assert_eq!((&season.stakes, season.answered), (&stakes, 3));
    assert_eq!(lent.all(), expected.all());
    let numbers: Vec<u8> =
        season.stakes.iter().map(|s| s.as_ref().err().copied().unwrap_or(0)).collect();
    let expected = [7, 0, 11, 7, 7, 7, 7, 1].into_iter().chain([7; 22]).chain([0, 0]);
    assert!(expected.eq(numbers.iter().copied()), "{numbers:?}");
    // A setting that is not finite: 4 for all but the stake that 1 refuses first.
    let mut same = lent.clone();
    let nan = Settings { confidence: Confidence::Custom(f64::INFINITY), ..AIC_1 };
    let refused = same.report(nan);
    assert_eq!(refused.answered, 0);
    let by_4 = |stake: usize| refused.stakes[stake] == Err(if stake == 7 { 1 } else { 4 });
    assert!((0..STAKES).all(by_4));
    assert_eq!(same.all(), lent.all());
    // Fewer counts than stakes: 1 for every stake.
    same.counts.truncate(31);
    let before = same.all();
    assert_eq!(same.report(AIC_1), SeasonAnswer { stakes: vec![Err(1); 32], answered: 0 });
    assert_eq!(same.all(), before);
}

/// Correct one stake, and nothing else, between two season reports: the other 31 keep their bits.
#[test]
fn one_correction_leaves_31_reports() {
    let mut lent = Lent::glacier();
    for stake in 0..STAKES {
        let n = stake % 6;
        let ys: Vec<f64> = (0..n).map(|i| (i * i + stake) as f64 / 3.0).collect();
        lent.fill(stake, &ys);
    }
    let first = lent.report(AIC_1);
    let reported = lent.clone();
    assert_eq!(lent.correct(16, 2, 100.0), Ok(4));
    let second = lent.report(AIC_1);
    assert_eq!(first.answered, second.answered);
    for stake in (0..STAKES).filter(|stake| *stake != 16) {
        assert_eq!(first.stakes[stake], second.stakes[stake]);
        assert_eq!(lent.cut(stake).all(), reported.cut(stake).all(), "stake {stake}");
    }
    let coefficients = |lent: &Lent| lent.cut(16).floats[COEFFICIENTS].clone();
    assert_ne!(coefficients(&lent), coefficients(&reported));
}
