//! The port, through the C interface of the static library.

use judge::fit::{Criterion, PruningRule, Settings};
use judge::season::STAKES;
use judge::statistics::{Confidence, DegreeBound, Tolerance};
use judge::surface::Site;
use judge::Sample;
use stakebook::sys;

use crate::call::{Answer, Call};
use crate::memory::Lent;
use crate::side::Calls;

/// The functions of `include/stakebook.h`.
pub struct Port;

/// The number that fills places which a call must not write.
const UNWRITTEN: f64 = -12345.678;

/// The numbers that name the cases of each setting. The last case takes every other number, so that
/// a number above all is as good; the values that the other cases ignore are never 0.
pub fn bound_numbers(bound: DegreeBound) -> (u32, usize) {
    match bound {
        DegreeBound::Conservative => (0, usize::MAX),
        DegreeBound::Relaxed => (1, 16),
        DegreeBound::Aggressive => (2, 1),
        DegreeBound::Custom(degree) if degree % 2 == 0 => (u32::MAX, degree),
        DegreeBound::Custom(degree) => (3, degree),
    }
}

pub fn criterion_number(criterion: Criterion) -> u32 {
    match criterion {
        Criterion::Aic => 0,
        Criterion::Bic => 1,
    }
}

pub fn confidence_numbers(confidence: Confidence) -> (u32, f64) {
    match confidence {
        Confidence::P80 => (0, f64::NAN),
        Confidence::P90 => (1, f64::INFINITY),
        Confidence::P95 => (2, -1.0),
        Confidence::P98 => (3, 9.0),
        Confidence::P99 => (4, f64::NEG_INFINITY),
        Confidence::P999 => (5, 1e300),
        Confidence::Custom(score) if score < 1.0 => (u32::MAX, score),
        Confidence::Custom(score) => (6, score),
    }
}

pub fn tolerance_numbers(tolerance: Tolerance) -> (u32, f64) {
    match tolerance {
        Tolerance::None => (0, f64::NAN),
        Tolerance::Absolute(value) => (1, value),
        Tolerance::Variance(value) => (2, value),
        Tolerance::Measurement(value) if value < 0.5 => (u32::MAX, value),
        Tolerance::Measurement(value) => (3, value),
    }
}

/// Every number but 0 prunes by size.
pub fn pruning_number(rule: PruningRule, other: bool) -> u32 {
    match rule {
        PruningRule::Positive => 0,
        PruningRule::Size if other => u32::MAX,
        PruningRule::Size => 1,
    }
}

/// The two lists of a report's settings. What is past the last setting is not read, and the last word may be
/// left out where it is 0: in turn with the count.
fn settings_lists(settings: Settings, count: usize) -> (Vec<u32>, Vec<f64>) {
    let (bound, most) = bound_numbers(settings.bound);
    // The bound is at most the count less 1, so that a greater degree is as good as the greatest.
    let most = u32::try_from(most).unwrap_or(u32::MAX);
    let criterion = criterion_number(settings.criterion);
    let (confidence, score) = confidence_numbers(settings.confidence);
    let (tolerance, value) = tolerance_numbers(settings.tolerance);
    let pruning = pruning_number(settings.pruning, count % 3 == 0);
    let mut words = vec![bound, most, criterion, confidence, tolerance];
    let mut values = vec![score, value];
    match count % 4 {
        0 | 1 if pruning == 0 => {}
        0 | 1 => words.push(pruning),
        _ => {
            words.extend([pruning, u32::MAX]);
            values.push(f64::NAN);
        }
    }
    (words, values)
}

/// A refusal, which packs nothing else, or what is answered.
fn read(packed: u64, of: impl Fn(u64) -> Answer) -> Answer {
    match sys::refusal(packed) {
        0 => of(packed),
        number if packed << 8 == 0 => Answer::Refused(number),
        number => panic!("refused by {number} with {packed:#x}"),
    }
}

/// A book, with no bit beside its count.
pub fn book(packed: u64) -> Answer {
    read(packed, |packed| Answer::Book(sys::count(packed)))
}

/// A degree, with no bit beside it.
pub fn degree(packed: u64) -> Answer {
    read(packed, |packed| {
        assert!(packed < 256, "a degree in {packed:#x}");
        Answer::Degree(sys::degree(packed))
    })
}

/// A report, with no bit beside its four numbers.
pub fn report(packed: u64) -> Answer {
    read(packed, |packed| {
        assert!(packed & !0x0000_FFFF_00FF_FFFF == 0, "a report in {packed:#x}");
        Answer::Report {
            degree: sys::degree(packed),
            solved: sys::solved(packed),
            outliers: sys::outliers(packed),
            pruned: sys::pruned(packed),
        }
    })
}

/// A call that has nothing to tell, and no bit.
fn done(packed: u64) -> Answer {
    read(packed, |packed| {
        assert!(packed == 0, "nothing to tell in {packed:#x}");
        Answer::Done
    })
}

/// What a call that reads a book is lent, as pointers and lengths.
macro_rules! book_read {
    ($call:expr, $lent:ident, ($($first:expr),*), ($($written:ident),*) $(, ($($last:expr),*))?) => {
        // SAFETY: the slices are the caller's, initialised and apart.
        unsafe {
            $call(
                $($first,)*
                $lent.x.as_ptr(),
                $lent.x.len(),
                $lent.y.as_ptr(),
                $lent.y.len(),
                $lent.weight.as_ptr(),
                $lent.weight.len(),
                $lent.sums.as_ptr(),
                $lent.sums.len(),
                $lent.scratch.as_mut_ptr(),
                $lent.scratch.len(),
                $($lent.$written.as_mut_ptr(), $lent.$written.len(),)*
                $($($last),*)?
            )
        }
    };
}

/// What a call of a surface is lent: its columns are only read, and no sums are lent.
macro_rules! surface_read {
    ($call:expr, $lent:ident, ($($first:expr),*), ($($written:ident),*) $(, ($($last:expr),*))?) => {
        // SAFETY: the slices are the caller's, initialised and apart.
        unsafe {
            $call(
                $($first,)*
                $lent.x.as_ptr(),
                $lent.x.len(),
                $lent.z.as_ptr(),
                $lent.z.len(),
                $lent.y.as_ptr(),
                $lent.y.len(),
                $lent.scratch.as_mut_ptr(),
                $lent.scratch.len(),
                $($lent.$written.as_mut_ptr(), $lent.$written.len(),)*
                $($($last),*)?
            )
        }
    };
}

/// What a call that changes a book is lent.
macro_rules! book_changed {
    ($call:expr, $lent:ident, ($($first:expr),*)) => {
        // SAFETY: the slices are the caller's, initialised and apart.
        unsafe {
            $call(
                $($first,)*
                $lent.x.as_mut_ptr(),
                $lent.x.len(),
                $lent.y.as_mut_ptr(),
                $lent.y.len(),
                $lent.weight.as_mut_ptr(),
                $lent.weight.len(),
                $lent.sums.as_mut_ptr(),
                $lent.sums.len(),
            )
        }
    };
}

/// What a season's call that reads is lent: its counts, then as a book's.
macro_rules! season_read {
    ($call:expr, $lent:ident, ($($first:expr),*), ($($written:ident),*), ($($last:expr),*)) => {
        book_read!(
            $call,
            $lent,
            ($($first,)* $lent.counts.as_ptr(), $lent.counts.len()),
            ($($written),*),
            ($($last),*)
        )
    };
}

/// What a season's call that changes a stake is lent.
macro_rules! season_changed {
    ($call:expr, $lent:ident, ($($first:expr),*)) => {
        book_changed!(
            $call,
            $lent,
            ($($first,)* $lent.counts.as_mut_ptr(), $lent.counts.len())
        )
    };
}

/// A stake's count, 0 where there is none.
fn stake_count(stake: usize, lent: &Lent) -> usize {
    lent.counts.get(stake).copied().unwrap_or(0)
}

/// In turn with the settings.
fn settings_turn(settings: Settings) -> usize {
    usize::from(settings.pruning == PruningRule::Size)
}

/// Every place that is lent, as bits.
fn places_of(lent: &Lent) -> (Vec<Vec<u64>>, Vec<Vec<u8>>, Vec<Vec<usize>>) {
    let columns = [&*lent.x, &*lent.y, &*lent.weight, &*lent.sums, &*lent.scratch];
    let curves = [&*lent.coefficients, &*lent.errors, &*lent.lower, &*lent.upper];
    let own = [&*lent.before, &*lent.after, &*lent.losses, &*lent.scores];
    let floats = columns.into_iter().chain(curves).chain(own).map(bits_of).collect();
    let bytes = [&*lent.pruned, &*lent.outlier, &*lent.solved].map(<[u8]>::to_vec).to_vec();
    (floats, bytes, vec![lent.counts.to_vec()])
}

/// A stake's band, split, losses or scores, with so many places more than one too few for its numbers.
fn season_into(more: usize, stake: usize, lent: &mut Lent, call: &Call) -> Answer {
    let count = stake_count(stake, lent);
    let (mut band, mut total) = ([UNWRITTEN; 4], [UNWRITTEN; 2]);
    let (mut losses, mut least) = ([UNWRITTEN; 3], [UNWRITTEN; 2]);
    match call {
        Call::Band { x, degree, confidence, tolerance } => {
            let (confidence, score) = confidence_numbers(*confidence);
            let (tolerance, value) = tolerance_numbers(*tolerance);
            let packed = season_read!(
                sys::stakebook_season_band,
                lent,
                (stake, *x, *degree, confidence, score, tolerance, value),
                (),
                (band.as_mut_ptr(), 2 + more)
            );
            band_of(packed, band)
        }
        Call::Split { limit, settings } => {
            let (words, values) = settings_lists(*settings, count);
            let packed = season_read!(
                sys::stakebook_season_split,
                lent,
                (stake, words.as_ptr(), words.len(), values.as_ptr(), values.len(), *limit),
                (before, after),
                (total.as_mut_ptr(), more)
            );
            split_of(packed, total)
        }
        Call::Losses(settings) => {
            let (words, values) = settings_lists(*settings, count);
            let packed = season_read!(
                sys::stakebook_season_losses,
                lent,
                (stake, words.as_ptr(), words.len(), values.as_ptr(), values.len()),
                (losses),
                (losses.as_mut_ptr(), 1 + more)
            );
            losses_of(packed, losses)
        }
        Call::Scores(settings) => {
            let (words, values) = settings_lists(*settings, count);
            let packed = season_read!(
                sys::stakebook_season_scores,
                lent,
                (stake, words.as_ptr(), words.len(), values.as_ptr(), values.len()),
                (solved, scores),
                (least.as_mut_ptr(), more)
            );
            scores_of(packed, least)
        }
        other => panic!("{other} has no numbers of its own"),
    }
}

/// A season report with so many places for its answers. It writes 32 and none past them, or none at all.
fn season_report_into(places: usize, lent: &mut Lent, settings: Settings) -> Answer {
    const UNWRITTEN: u64 = u64::MAX;
    let mut answers = [UNWRITTEN; STAKES + 1];
    let (words, values) = settings_lists(settings, lent.scratch.len());
    let packed = season_read!(
        sys::stakebook_season_report,
        lent,
        (words.as_ptr(), words.len(), values.as_ptr(), values.len()),
        (coefficients, errors, pruned, lower, upper, outlier),
        (answers.as_mut_ptr(), places)
    );
    let answer = read(packed, |packed| {
        let stakes = answers[..STAKES].iter().map(|&packed| report(packed)).collect();
        Answer::Season { answered: packed as usize, stakes }
    });
    let written = if let Answer::Season { .. } = answer { STAKES } else { 0 };
    assert!(answers[written..].iter().all(|&answer| answer == UNWRITTEN), "{answers:?}");
    answer
}

/// A band into so many places. It writes three and none past them; a refused one writes none.
fn band_into(
    places: usize,
    count: usize,
    lent: &mut Lent,
    (x, degree): (f64, usize),
    ((confidence, score), (tolerance, value)): ((u32, f64), (u32, f64)),
) -> Answer {
    let mut numbers = [UNWRITTEN; 4];
    let packed = book_read!(
        sys::stakebook_band,
        lent,
        (count, x, degree, confidence, score, tolerance, value),
        (),
        (numbers.as_mut_ptr(), places)
    );
    band_of(packed, numbers)
}

/// The same of a surface.
fn surface_band_into(
    places: usize,
    count: usize,
    lent: &mut Lent,
    (site, degree): (Site, usize),
    ((confidence, score), (tolerance, value)): ((u32, f64), (u32, f64)),
) -> Answer {
    let mut numbers = [UNWRITTEN; 4];
    let packed = surface_read!(
        sys::stakebook_surface_band,
        lent,
        (count, site.x, site.z, degree, confidence, score, tolerance, value),
        (),
        (numbers.as_mut_ptr(), places)
    );
    band_of(packed, numbers)
}

/// A band, with no bit in its answer and no number past its three; a refused one has none.
fn band_of(packed: u64, numbers: [f64; 4]) -> Answer {
    let answer = read(packed, |packed| {
        assert!(packed == 0, "a band in {packed:#x}");
        Answer::Band { value: numbers[0], lower: numbers[1], upper: numbers[2] }
    });
    let written = if let Answer::Band { .. } = answer { 3 } else { 0 };
    assert!(numbers[written..].iter().all(|&number| number == UNWRITTEN), "{numbers:?}");
    answer
}

/// A split with so many places for its total. It writes one and none past it; a refused one writes none.
fn split_into(
    places: usize,
    count: usize,
    lent: &mut Lent,
    settings: Settings,
    limit: usize,
) -> Answer {
    let mut total = [UNWRITTEN; 2];
    let (words, values) = settings_lists(settings, count);
    let packed = book_read!(
        sys::stakebook_split,
        lent,
        (count, words.as_ptr(), words.len(), values.as_ptr(), values.len(), limit),
        (before, after),
        (total.as_mut_ptr(), places)
    );
    split_of(packed, total)
}

/// The same of a group, whose counter stands in the limit's place.
fn group_split_into(
    places: usize,
    group: usize,
    count: usize,
    lent: &mut Lent,
    settings: Settings,
) -> Answer {
    let mut total = [UNWRITTEN; 2];
    let (words, values) = settings_lists(settings, count);
    let packed = book_read!(
        sys::stakebook_group_split,
        lent,
        (group, count, words.as_ptr(), words.len(), values.as_ptr(), values.len()),
        (before, after),
        (total.as_mut_ptr(), places, lent.table.as_mut_ptr(), lent.table.len())
    );
    split_of(packed, total)
}

/// A split, with no number past its total; a refused one has none.
fn split_of(packed: u64, total: [f64; 2]) -> Answer {
    let answer = read(packed, |packed| Answer::Split {
        b: sys::samples_before(packed),
        degrees: (sys::degree(packed), sys::degree_after(packed)),
        tests: sys::tests(packed),
        total: total[0],
    });
    let written = usize::from(matches!(answer, Answer::Split { .. }));
    assert!(total[written..].iter().all(|&number| number == UNWRITTEN), "{total:?}");
    answer
}

/// Losses with so many places for their two numbers. They write two and none past them; refused ones write none.
pub fn losses_into(places: usize, count: usize, lent: &mut Lent, settings: Settings) -> Answer {
    let mut numbers = [UNWRITTEN; 3];
    let (words, values) = settings_lists(settings, count);
    let packed = book_read!(
        sys::stakebook_losses,
        lent,
        (count, words.as_ptr(), words.len(), values.as_ptr(), values.len()),
        (losses),
        (numbers.as_mut_ptr(), places)
    );
    losses_of(packed, numbers)
}

/// Losses, with no number past their two; refused ones have none.
fn losses_of(packed: u64, numbers: [f64; 3]) -> Answer {
    let answer = read(packed, |packed| {
        assert!(packed < 256, "a degree in {packed:#x}");
        Answer::Losses { degree: sys::degree(packed), total: numbers[0], score: numbers[1] }
    });
    let written = if let Answer::Losses { .. } = answer { 2 } else { 0 };
    assert!(numbers[written..].iter().all(|&number| number == UNWRITTEN), "{numbers:?}");
    answer
}

/// Scores with so many places for the least. They write one and none past it; refused ones write none.
fn scores_into(places: usize, count: usize, lent: &mut Lent, settings: Settings) -> Answer {
    let mut least = [UNWRITTEN; 2];
    let (words, values) = settings_lists(settings, count);
    let packed = book_read!(
        sys::stakebook_scores,
        lent,
        (count, words.as_ptr(), words.len(), values.as_ptr(), values.len()),
        (solved, scores),
        (least.as_mut_ptr(), places)
    );
    scores_of(packed, least)
}

/// Scores, with no number past the least; refused ones have none.
fn scores_of(packed: u64, least: [f64; 2]) -> Answer {
    let answer = read(packed, |packed| Answer::Scores {
        degree: sys::degree(packed),
        bound: sys::bound(packed),
        solved: sys::solved(packed),
        tests: sys::tests(packed),
        least: least[0],
    });
    let written = usize::from(matches!(answer, Answer::Scores { .. }));
    assert!(least[written..].iter().all(|&number| number == UNWRITTEN), "{least:?}");
    answer
}

fn bits_of(places: &[f64]) -> Vec<u64> {
    places.iter().map(|number| number.to_bits()).collect()
}

/// What is read at an offset into so many places: three are written and none past them, none at the end
/// or where it is refused.
fn read_into(places: usize, frame: &[u8], at: usize) -> (u64, [f64; 4]) {
    let mut numbers = [UNWRITTEN; 4];
    // SAFETY: the slices are the caller's, initialised and apart.
    let packed = unsafe {
        sys::stakebook_next(frame.as_ptr(), frame.len(), at, numbers.as_mut_ptr(), places)
    };
    let written = if sys::refusal(packed) == 0 && packed != 0 { 3 } else { 0 };
    assert!(numbers[written..].iter().all(|&number| number == UNWRITTEN), "{numbers:?}");
    (packed, numbers)
}

/// The sample at an offset, with the offset behind it; none at the end.
fn sample_at(frame: &[u8], at: usize) -> Option<(Sample, usize)> {
    let (short, _) = read_into(2, frame, at);
    assert!(short == 1 << 56, "two places for a sample: {short:#x}");
    let (behind, [x, y, weight, _]) = read_into(3, frame, at);
    let bytes = if frame[2] == 2 { 24 } else { 16 };
    assert!(behind == 0 || behind == at as u64 + bytes, "behind {at}: {behind:#x}");
    (behind != 0).then_some((Sample { x, y, weight }, behind as usize))
}

impl Calls for Port {
    const NAME: &'static str = "port";

    fn open(&self, lent: Lent) -> Answer {
        // SAFETY: the slice is the caller's, and initialised.
        book(unsafe { sys::stakebook_open(lent.sums.as_mut_ptr(), lent.sums.len()) })
    }

    fn add(&self, count: usize, lent: Lent, sample: Sample) -> Answer {
        let Sample { x, y, weight } = sample;
        book(book_changed!(sys::stakebook_add, lent, (count, x, y, weight)))
    }

    fn add_window(&self, count: usize, lent: Lent, sample: Sample) -> Answer {
        let Sample { x, y, weight } = sample;
        book(book_changed!(sys::stakebook_add_window, lent, (count, x, y, weight)))
    }

    fn correct(&self, count: usize, lent: Lent, index: usize, y: f64) -> Answer {
        book(book_changed!(sys::stakebook_correct, lent, (count, index, y)))
    }

    fn withdraw(&self, count: usize, lent: Lent, index: usize) -> Answer {
        book(book_changed!(sys::stakebook_withdraw, lent, (count, index)))
    }

    fn add_frame(&self, count: usize, lent: Lent, frame: &[u8]) -> Answer {
        let (bytes, length) = (frame.as_ptr(), frame.len());
        book(book_changed!(sys::stakebook_add_frame, lent, (count, bytes, length)))
    }

    fn add_lines(&self, count: usize, lent: Lent, text: &[u8]) -> Answer {
        let (bytes, length) = (text.as_ptr(), text.len());
        book(book_changed!(sys::stakebook_add_lines, lent, (count, bytes, length)))
    }

    fn carry(&self, count: usize, lent: Lent) -> Answer {
        book(book_changed!(sys::stakebook_carry, lent, (count)))
    }

    fn fit(&self, count: usize, lent: Lent, asked: usize) -> Answer {
        degree(book_read!(sys::stakebook_fit, lent, (count, asked), (coefficients)))
    }

    /// polyfit's rule by either function, in turn with the count; by size by the one that takes lists.
    fn report(&self, count: usize, lent: Lent, settings: Settings) -> Answer {
        if settings.pruning == PruningRule::Positive && count % 2 == 0 {
            let (bound, most) = bound_numbers(settings.bound);
            let criterion = criterion_number(settings.criterion);
            let (confidence, score) = confidence_numbers(settings.confidence);
            let (tolerance, value) = tolerance_numbers(settings.tolerance);
            return report(book_read!(
                sys::stakebook_report,
                lent,
                (count, bound, most, criterion, confidence, score, tolerance, value),
                (coefficients, errors, pruned, lower, upper, outlier)
            ));
        }
        let (words, values) = settings_lists(settings, count);
        report(book_read!(
            sys::stakebook_report_by,
            lent,
            (count, words.as_ptr(), words.len(), values.as_ptr(), values.len()),
            (coefficients, errors, pruned, lower, upper, outlier)
        ))
    }

    /// Without a place for the total it is refused by 1, and nothing is written.
    fn split(&self, count: usize, mut lent: Lent, settings: Settings, limit: usize) -> Answer {
        let places = |lent: &Lent| [&*lent.scratch, &*lent.before, &*lent.after].map(bits_of);
        let before = places(&lent);
        let short = split_into(0, count, &mut lent, settings, limit);
        let same = places(&lent) == before;
        assert!(short == Answer::Refused(1) && same, "no place for a total: {short:?}");
        split_into(1, count, &mut lent, settings, limit)
    }

    fn losses(&self, count: usize, mut lent: Lent, settings: Settings) -> Answer {
        let before = [bits_of(lent.scratch), bits_of(lent.losses)];
        let short = losses_into(1, count, &mut lent, settings);
        let same = [bits_of(lent.scratch), bits_of(lent.losses)] == before;
        assert!(short == Answer::Refused(1) && same, "one place for losses: {short:?}");
        // More places than two are as good.
        losses_into(2 + count % 2, count, &mut lent, settings)
    }

    /// Without a place for the least it is refused by 1, and nothing is written.
    fn scores(&self, count: usize, mut lent: Lent, settings: Settings) -> Answer {
        let places =
            |lent: &Lent| (bits_of(lent.scratch), lent.solved.to_vec(), bits_of(lent.scores));
        let before = places(&lent);
        let short = scores_into(0, count, &mut lent, settings);
        let same = places(&lent) == before;
        assert!(short == Answer::Refused(1) && same, "no place for the least: {short:?}");
        scores_into(1 + count % 2, count, &mut lent, settings)
    }

    fn validate(
        &self,
        count: usize,
        lent: Lent,
        folds: usize,
        bound: DegreeBound,
        criterion: Criterion,
    ) -> Answer {
        let (bound, most) = bound_numbers(bound);
        let criterion = criterion_number(criterion);
        degree(book_read!(
            sys::stakebook_validate,
            lent,
            (count, folds, bound, most, criterion),
            (coefficients)
        ))
    }

    fn band(
        &self,
        count: usize,
        mut lent: Lent,
        at: (f64, usize),
        confidence: Confidence,
        tolerance: Tolerance,
    ) -> Answer {
        let settings = (confidence_numbers(confidence), tolerance_numbers(tolerance));
        let before = bits_of(lent.scratch);
        let short = band_into(2, count, &mut lent, at, settings);
        let same = bits_of(lent.scratch) == before;
        assert!(short == Answer::Refused(1) && same, "two places for a band: {short:?}");
        band_into(3, count, &mut lent, at, settings)
    }

    fn surface_fit(&self, count: usize, lent: Lent, asked: usize) -> Answer {
        degree(surface_read!(sys::stakebook_surface_fit, lent, (count, asked), (coefficients)))
    }

    fn surface_report(&self, count: usize, lent: Lent, settings: Settings) -> Answer {
        let (words, values) = settings_lists(settings, count);
        report(surface_read!(
            sys::stakebook_surface_report,
            lent,
            (count, words.as_ptr(), words.len(), values.as_ptr(), values.len()),
            (coefficients, errors, pruned, lower, upper, outlier)
        ))
    }

    fn surface_band(
        &self,
        count: usize,
        mut lent: Lent,
        at: (Site, usize),
        confidence: Confidence,
        tolerance: Tolerance,
    ) -> Answer {
        let settings = (confidence_numbers(confidence), tolerance_numbers(tolerance));
        let before = bits_of(lent.scratch);
        let short = surface_band_into(2, count, &mut lent, at, settings);
        let same = bits_of(lent.scratch) == before;
        assert!(short == Answer::Refused(1) && same, "two places for a band: {short:?}");
        surface_band_into(3, count, &mut lent, at, settings)
    }

    fn start(&self, lent: Lent, quota: usize) -> Answer {
        // SAFETY: the slice is the caller's, and initialised.
        done(unsafe { sys::stakebook_start(quota, lent.table.as_mut_ptr(), lent.table.len()) })
    }

    fn renew(&self, lent: Lent) -> Answer {
        // SAFETY: the slice is the caller's, and initialised.
        done(unsafe { sys::stakebook_renew(lent.table.as_mut_ptr(), lent.table.len()) })
    }

    fn group_report(&self, group: usize, count: usize, lent: Lent, settings: Settings) -> Answer {
        let (words, values) = settings_lists(settings, count);
        report(book_read!(
            sys::stakebook_group_report,
            lent,
            (group, count, words.as_ptr(), words.len(), values.as_ptr(), values.len()),
            (coefficients, errors, pruned, lower, upper, outlier, table)
        ))
    }

    fn group_surface_report(
        &self,
        group: usize,
        count: usize,
        lent: Lent,
        settings: Settings,
    ) -> Answer {
        let (words, values) = settings_lists(settings, count);
        report(surface_read!(
            sys::stakebook_group_surface_report,
            lent,
            (group, count, words.as_ptr(), words.len(), values.as_ptr(), values.len()),
            (coefficients, errors, pruned, lower, upper, outlier, table)
        ))
    }

    /// Without a place for the total it is refused by 1, and nothing is written or taken.
    fn group_split(
        &self,
        group: usize,
        count: usize,
        mut lent: Lent,
        settings: Settings,
    ) -> Answer {
        let places = |lent: &Lent| {
            let floats = [&*lent.scratch, &*lent.before, &*lent.after].map(bits_of);
            (floats, lent.table.to_vec())
        };
        let before = places(&lent);
        let short = group_split_into(0, group, count, &mut lent, settings);
        let same = places(&lent) == before;
        assert!(short == Answer::Refused(1) && same, "no place for a total: {short:?}");
        group_split_into(1, group, count, &mut lent, settings)
    }

    fn season_open(&self, lent: Lent) -> Answer {
        let (counts, sums) = (lent.counts, lent.sums);
        // SAFETY: the slices are the caller's, initialised and apart.
        done(unsafe {
            sys::stakebook_season_open(
                counts.as_mut_ptr(),
                counts.len(),
                sums.as_mut_ptr(),
                sums.len(),
            )
        })
    }

    fn season(&self, stake: usize, mut lent: Lent, call: &Call) -> Answer {
        match call {
            Call::Open => {
                let (counts, sums) = (lent.counts, lent.sums);
                // SAFETY: the slices are the caller's, initialised and apart.
                book(unsafe {
                    sys::stakebook_season_open_stake(
                        stake,
                        counts.as_mut_ptr(),
                        counts.len(),
                        sums.as_mut_ptr(),
                        sums.len(),
                    )
                })
            }
            Call::Add(Sample { x, y, weight }) => {
                book(season_changed!(sys::stakebook_season_add, lent, (stake, *x, *y, *weight)))
            }
            Call::AddWindow(Sample { x, y, weight }) => book(season_changed!(
                sys::stakebook_season_add_window,
                lent,
                (stake, *x, *y, *weight)
            )),
            Call::Correct { index, y } => {
                book(season_changed!(sys::stakebook_season_correct, lent, (stake, *index, *y)))
            }
            Call::Withdraw { index } => {
                book(season_changed!(sys::stakebook_season_withdraw, lent, (stake, *index)))
            }
            Call::AddFrame(frame) => {
                let (bytes, length) = (frame.as_ptr(), frame.len());
                let call = sys::stakebook_season_add_frame;
                book(season_changed!(call, lent, (stake, bytes, length)))
            }
            Call::AddLines(text) => {
                let (bytes, length) = (text.as_ptr(), text.len());
                let call = sys::stakebook_season_add_lines;
                book(season_changed!(call, lent, (stake, bytes, length)))
            }
            Call::Carry => book(season_changed!(sys::stakebook_season_carry, lent, (stake))),
            Call::Fit { degree: asked } => {
                let call = sys::stakebook_season_fit;
                degree(season_read!(call, lent, (stake, *asked), (coefficients), ()))
            }
            Call::Validate { folds, bound, criterion } => {
                let (bound, most) = bound_numbers(*bound);
                let criterion = criterion_number(*criterion);
                degree(season_read!(
                    sys::stakebook_season_validate,
                    lent,
                    (stake, *folds, bound, most, criterion),
                    (coefficients),
                    ()
                ))
            }
            Call::Report(settings) => {
                let (words, values) = settings_lists(*settings, stake_count(stake, &lent));
                report(season_read!(
                    sys::stakebook_season_report_stake,
                    lent,
                    (stake, words.as_ptr(), words.len(), values.as_ptr(), values.len()),
                    (coefficients, errors, pruned, lower, upper, outlier),
                    ()
                ))
            }
            // Numbers of their own, lent for the call alone: first with a place too few, by which it is
            // refused, 18 before it, and nothing is written.
            Call::Band { .. } | Call::Split { .. } | Call::Losses(_) | Call::Scores(_) => {
                let before = places_of(&lent);
                let short = season_into(0, stake, &mut lent, call);
                let number = if stake < STAKES { 1 } else { 18 };
                let same = places_of(&lent) == before;
                assert!(short == Answer::Refused(number) && same, "a place too few: {short:?}");
                season_into(1 + stake % 2, stake, &mut lent, call)
            }
            other => panic!("a season has no {other}"),
        }
    }

    /// With a place for an answer too few it is refused by 1, and nothing is written.
    fn season_report(&self, mut lent: Lent, settings: Settings) -> Answer {
        let before = places_of(&lent);
        let short = season_report_into(STAKES - 1, &mut lent, settings);
        let same = places_of(&lent) == before;
        assert!(short == Answer::Refused(1) && same, "31 places for answers: {short:?}");
        season_report_into(STAKES + settings_turn(settings), &mut lent, settings)
    }

    fn reader(&self, frame: &[u8]) -> Answer {
        // SAFETY: the slice is the caller's, and initialised.
        let opened = unsafe { sys::stakebook_reader(frame.as_ptr(), frame.len()) };
        read(opened, |first| {
            let mut samples = Vec::new();
            let mut at = first as usize;
            while let Some((sample, behind)) = sample_at(frame, at) {
                samples.push(sample);
                at = behind;
            }
            // The end is told wherever no sample is left.
            assert!(sample_at(frame, frame.len()).is_none());
            assert!(sample_at(frame, usize::MAX).is_none());
            Answer::Samples(samples)
        })
    }
}
