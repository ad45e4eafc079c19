//! The edges of documents 01 and 02 that are run and not proved. `tests/lists.rs` checks that each is met.

use journal::{Call, Name, Request};
use judge::fit::Settings;
use judge::frame::encode;
use judge::statistics::{self, t_score, Confidence, DegreeBound, Tolerance, LEVELS};
use judge::sums::TERMS;
use judge::Sample;

use crate::list::{at_whole_x, by_size, samples_of, up_to, List, AIC_1, NAN};

const LINE: [(f64, f64); 3] = [(0.0, 1.0), (1.0, 3.0), (2.0, 5.0)];

/// Depths and densities, these less 264; one is far off.
const PIT: [(f64, f64); 8] = [
    (0.125, 48.0),
    (0.25, 71.5),
    (0.5, 77.0),
    (0.75, 105.0),
    (1.0, 116.25),
    (1.25, 107.0),
    (1.5, 206.0),
    (1.75, 166.0),
];

/// Sums with a first pivot of 2⁻⁵², which the inverse doubles: the second pivot is then 2⁻¹⁰ for the
/// solution and about −1/2 for the inverse. The right-hand side is that of 1 + 2x.
pub fn inverse_fails() -> [(usize, f64); 6] {
    let (p, above) = (1.0 / (1u64 << 26) as f64, 1.0 + 1.0 / 1024.0);
    [
        (0, f64::EPSILON),
        (1, p),
        (16, -p * above),
        (17, -1.0),
        (256, f64::EPSILON + 2.0 * p),
        (257, -p * above - 2.0),
    ]
}

/// Sums whose inverse has −1 in its first place. The right-hand side is that of 1 + 2x.
const NEGATIVE_INVERSE: [(usize, f64); 6] =
    [(0, 1.0), (1, 1.0), (16, -2.0), (17, -1.0), (256, 3.0), (257, -4.0)];

pub fn edges() -> String {
    let mut list = List::new("The edges of document 01. Made by `lists edges`.");
    folds(&mut list);
    unsolved(&mut list);
    pivots(&mut list);
    errors(&mut list);
    freedom(&mut list);
    settings(&mut list);
    pruning(&mut list);
    pruning_by_size(&mut list);
    outliers(&mut list);
    refused_late(&mut list);
    refused_early(&mut list);
    choice(&mut list);
    bounds(&mut list);
    bands(&mut list);
    book(&mut list);
    columns(&mut list);
    long_lines(&mut list);
    list.text
}

fn folds(list: &mut List) {
    list.head("folds: 10 samples in 3 folds give 3, 3, 4");
    list.line("# found by search: folds of 3, 3, 3 (the rest dropped), 4, 3, 3 or 3, 4, 3 choose another degree");
    list.book(&at_whole_x(&[18.0, 16.0, 4.0, 12.0, 4.0, 15.0, 10.0, 3.0, 3.0, 11.0]));
    list.validate(3, 3);

    list.head("folds: an unsolved fold is skipped, the mean is over the solved ones");
    list.line("# found by search: a mean over all folds, and a degree left out for one unsolved fold, choose another degree");
    list.book(&[
        (0.0, 15.0),
        (0.0, 15.0),
        (0.0, 9.0),
        (2.0, 2.0),
        (0.0, 16.0),
        (1.0, 11.0),
        (0.0, 11.0),
        (0.0, 16.0),
    ]);
    list.validate(4, 3);

    list.head("folds: solved only if every sample of the book has a finite residual");
    list.line(
        "# found by search: a fold that looks at its own samples alone chooses another degree",
    );
    let u = power_of_two(1020);
    list.book(&at_whole_x(&[5.0, 0.0, 9.0 * u, -15.0 * u, 9.0 * u]));
    list.validate(2, 1);

    list.head("folds: leave one out");
    list.book(&PIT);
    list.validate(8, 2);

    list.head("folds: two, of 4 and 4, and seven, of 1 and a last one of 2");
    list.validate(2, 2);
    list.validate(7, 2);
}

/// 2 to a power from −1022 to 1023.
fn power_of_two(exponent: i32) -> f64 {
    f64::from_bits(((1023 + exponent) as u64) << 52)
}

fn unsolved(list: &mut List) {
    list.head("unsolved: two different x's have a line and no parabola");
    list.book(&[(2.0, 1.0), (2.0, 5.0), (5.0, 3.0), (2.0, 4.0), (5.0, 1.0)]);
    for degree in 0..4 {
        list.fit(degree);
    }
    list.whole_report(up_to(3), 5);

    list.head("unsolved: years near 2000");
    let years: Vec<(f64, f64)> =
        (0..11).map(|i| (1995.0 + i as f64, 600.0 - 7.5 * i as f64 + (i % 3) as f64)).collect();
    list.book(&years);
    for degree in 0..6 {
        list.fit(degree);
    }
    list.whole_report(up_to(5), 11);

    list.head("unsolved: degree 0 by a residual that overflows, and 1 is chosen");
    let u = power_of_two(1020);
    list.book(&[(-0.75, 15.0 * u), (0.0, -15.0 * u), (0.75, -6.0 * u)]);
    list.fit(0);
    list.fit(1);
    list.whole_report(up_to(1), 3);
    list.band(0.0, 0);
    list.band(0.0, 1);

    list.head("unsolved: validation's chosen degree, by the book's own sums: refused 10");
    list.book(&[(0.0, 0.0), (1.0, 1.0), (2.0, 4.0), (3.0, 9.0), (4.0, 16.0), (1e9, 0.0)]);
    list.validate(2, 2);
    list.fit(2);

    list.head("unsolved: validation's chosen degree, by lent sums: refused 10");
    list.book(&at_whole_x(&[0.0, 1.0, 2.0, 3.0, 4.0]));
    list.validate(2, 1);
    list.put(Name::Sums, 0, 0.0);
    list.validate(2, 1);
}

/// Sums with 1 for the starting value of the second pivot, which is the given.
fn with_pivot(pivot: f64) -> [(usize, f64); 6] {
    [(0, 1.0), (1, 1.0), (16, 1.0 - pivot), (17, 1.0), (256, 1.0), (257, 1.0)]
}

fn pivots(list: &mut List) {
    let least = power_of_two(-48);
    list.head("pivots: one of 2^-48 times its starting value fails, with 2^-53 more it holds");
    list.book(&LINE);
    list.put_sums(&with_pivot(least));
    list.fit(1);
    list.put_sums(&with_pivot(least + f64::EPSILON / 2.0));
    list.fit(1);
    list.show(Name::Coefficients, 3);

    list.head("pivots: one that is a NaN fails");
    list.put_sums(&[(0, NAN)]);
    list.fit(0);

    list.head("pivots: a negative starting value lets one below zero pass");
    list.put_sums(&[(0, 1.0), (1, 1.0), (16, -1.0), (17, -1.0 - least), (256, 1.0), (257, 1.0)]);
    list.fit(1);
    list.show(Name::Coefficients, 3);
}

fn errors(list: &mut List) {
    list.head("errors: NaN, by lent sums with a negative place in their inverse");
    list.book(&[(0.0, 1.5), (1.0, 3.0), (2.0, 5.0)]);
    list.put_sums(&NEGATIVE_INVERSE);
    list.whole_report(AIC_1, 3);

    list.head("errors: -0 at df 0, where t is -infinity and the positive term is pruned");
    list.book(&LINE[..2]);
    list.put_sums(&NEGATIVE_INVERSE);
    list.whole_report(AIC_1, 2);

    list.head("errors: 12 from lent sums, while the fit is solved");
    list.book(&LINE);
    list.put_sums(&inverse_fails());
    list.fit(1);
    list.show(Name::Coefficients, 3);
    list.whole_report(AIC_1, 3);
    list.band(0.5, 1);

    list.head("errors: sums that are not symmetric");
    list.book(&PIT);
    list.put_sums(&[(1, 7.25), (33, 14.0)]);
    list.whole_report(up_to(2), 8);
    list.band(1.0, 2);

    list.head("errors: sums that are not finite");
    list.put_sums(&[(257, NAN)]);
    list.whole_report(up_to(1), 8);
    list.put_sums(&[(256, f64::INFINITY)]);
    list.report(up_to(1));
    list.fit(0);
}

fn freedom(list: &mut List) {
    list.head("freedom: df 0 at degree 0");
    list.book(&[(3.0, 7.0)]);
    list.whole_report(AIC_1, 1);
    list.band(3.0, 0);

    list.head("freedom: df 0 at degree 3, every confidence: errors +0, nothing pruned");
    list.book(&at_whole_x(&[1.0, 10.0, -7.0, 40.0]));
    for confidence in [&LEVELS[..], &[Confidence::Custom(1.5)]].concat() {
        list.whole_report(Settings { confidence, ..up_to(3) }, 4);
    }
    list.band(1.5, 3);

    list.head("freedom: a line through two samples has df 0 in a fit and a band; the report chooses their mean at df 1");
    list.book(&LINE[..2]);
    list.fit(1);
    list.whole_report(up_to(2), 2);
    list.band(0.5, 1);
}

/// Every confidence by every tolerance, negative ones too.
fn settings(list: &mut List) {
    list.head("settings: every confidence and tolerance in reports and bands");
    list.book(&PIT);
    let mut confidences = LEVELS.to_vec();
    confidences.extend([2.5, -1.5, 0.0, 1e300].map(Confidence::Custom));
    let mut tolerances = vec![Tolerance::None];
    for value in [12.5, -12.5] {
        tolerances.push(Tolerance::Absolute(value));
    }
    for value in [0.25, -0.25] {
        tolerances.extend([Tolerance::Variance(value), Tolerance::Measurement(value)]);
    }
    for &confidence in &confidences {
        for &tolerance in &tolerances {
            let settings = Settings { confidence, tolerance, ..up_to(2) };
            list.report(settings);
            list.show(Name::Pruned, 3);
            for name in [Name::Lower, Name::Upper, Name::Outliers] {
                list.show(name, 8);
            }
            list.band_by(0.875, 1, settings);
        }
    }
    list.show(Name::Coefficients, TERMS);
    list.show(Name::Errors, TERMS);

    list.head("settings: a measurement tolerance takes the size of a value below zero");
    list.book(&PIT.map(|(x, y)| (x, -y)));
    for value in [0.25, -0.25] {
        let settings = Settings { tolerance: Tolerance::Measurement(value), ..up_to(2) };
        list.whole_report(settings, 8);
        list.band_by(0.875, 1, settings);
    }
}

/// Samples of a given t, as pairs.
fn with_t(df: usize, t: f64) -> Vec<(f64, f64)> {
    statistics::with_t(df, t).iter().map(|sample| (sample.x, sample.y)).collect()
}

fn below_zero(pairs: &[(f64, f64)]) -> Vec<(f64, f64)> {
    pairs.iter().map(|&(x, y)| (x, -y)).collect()
}

fn pruning(list: &mut List) {
    let small = with_t(4, 1.0);
    list.head("pruning: a small term is pruned");
    list.book(&small);
    list.whole_report(up_to(0), 5);

    list.head("pruning: the same term below zero is not");
    list.book(&below_zero(&small));
    list.whole_report(up_to(0), 5);

    list.head("pruning: P95 at df 8 is 2.306 and not 2.360: t of 2.33 is kept");
    list.book(&with_t(8, 2.33));
    list.whole_report(up_to(0), 9);

    list.head("pruning: P95 at df 29 is 2.045: t of 2 is pruned");
    list.framed_book(&with_t(29, 2.0));
    list.whole_report(up_to(0), 30);

    list.head("pruning: at df 30 row 30's 2.042 and not the z score 1.959: t of 2 is pruned");
    list.framed_book(&with_t(30, 2.0));
    list.whole_report(up_to(0), 31);

    list.head("pruning: at df 31 the z score 1.959: t of 2 is kept");
    list.framed_book(&with_t(31, 2.0));
    list.whole_report(up_to(0), 32);

    list.head("pruning: just below the score, pruned, and just above it, kept, at df 1 to 31");
    for df in 1..=31 {
        for confidence in LEVELS {
            for part in [1.0 - 2e-6, 1.0 + 2e-6] {
                list.framed_book(&with_t(df, part * t_score(confidence, df)));
                list.report(Settings { confidence, ..up_to(0) });
            }
        }
    }
}

/// Document 02, E3, each by polyfit's rule and by size.
fn pruning_by_size(list: &mut List) {
    let both = |list: &mut List, settings: Settings, n: usize| {
        list.whole_report(settings, n);
        list.whole_report(by_size(settings), n);
    };
    list.head("by size: a small term below zero is pruned");
    list.book(&below_zero(&with_t(4, 1.0)));
    both(list, up_to(0), 5);

    list.head("by size: a small term above zero is pruned by either rule");
    list.book(&with_t(4, 1.0));
    both(list, up_to(0), 5);

    list.head("by size: just below the score, pruned, and just above it, kept, below zero");
    for part in [1.0 - 2e-6, 1.0 + 2e-6] {
        list.book(&below_zero(&with_t(8, part * t_score(Confidence::P95, 8))));
        both(list, up_to(0), 9);
    }

    list.head("by size: errors of -0 at df 0 from nine samples' own sums: t is -infinity, pruned");
    let xs = [1.25, 1.59375, 1.21875, 1.265625, 1.953125, 1.375, 1.734375, 1.203125, 1.890625];
    let ys = [4.0, 6.0, 2.0, 1.0, 2.0, 5.0, 8.0, 5.0, 6.0];
    let nine: Vec<(f64, f64)> = xs.into_iter().zip(ys).collect();
    list.book(&nine);
    both(list, up_to(8), 9);
    list.head("by size: the same below zero");
    list.book(&below_zero(&nine));
    both(list, up_to(8), 9);

    list.head("by size: errors of +0 at df 0: t is +infinity, kept");
    list.book(&at_whole_x(&[-1.0, -10.0, 7.0, -40.0]));
    both(list, up_to(3), 4);

    list.head("by size: an error that is a NaN, by lent sums: kept");
    list.book(&[(0.0, -1.5), (1.0, -3.0), (2.0, -5.0)]);
    list.put_sums(&NEGATIVE_INVERSE);
    list.put_sums(&[(256, -3.0), (257, 4.0)]);
    both(list, AIC_1, 3);

    list.head("by size: terms of 2^-52 and the least above it, of either sign");
    let least = f64::EPSILON;
    for part in [0.0, 2.0 * least * least] {
        let pair = [(1.0, 4.0 * least), (1.0, part - 2.0 * least)];
        for pair in [pair.to_vec(), below_zero(&pair)] {
            list.book(&pair);
            both(list, up_to(0), 2);
        }
    }
}

fn outliers(list: &mut List) {
    list.head("outliers: none on the band's edges, value 2 and width 1");
    list.book(&[(0.0, 1.0), (1.0, 3.0)]);
    let exact = |tolerance: f64| Settings {
        confidence: Confidence::Custom(0.0),
        tolerance: Tolerance::Absolute(tolerance),
        ..up_to(0)
    };
    list.whole_report(exact(1.0), 2);
    list.head("outliers: both with a width of 1 less 2^-51");
    list.whole_report(exact(1.0 - 2.0 * f64::EPSILON), 2);

    // Found by search: the lower end of sample 3 is then its y.
    let width: f64 = 4.330102270750412;
    let wide = |tolerance: f64| Settings { tolerance: Tolerance::Absolute(tolerance), ..up_to(2) };
    let ys = [17.0, 9.0, 18.0, 4.0, 9.0, 19.0, 16.0, 8.0];
    for (end, sign) in [("lower", 1.0), ("upper", -1.0)] {
        list.head(&format!(
            "outliers: sample 3 on the {end} end of its P95 band, and inside by one last bit"
        ));
        list.book(&at_whole_x(&ys.map(|y| sign * y)));
        list.whole_report(wide(width), 8);
        list.whole_report(wide(f64::from_bits(width.to_bits() - 1)), 8);
    }
}

/// Scratch ends as +0 in its first n places; outputs stay as they were.
fn refused_late(list: &mut List) {
    list.head("late: a report first, so that marks of pruned terms and outliers stand");
    list.book(&with_t(9, 1.0));
    list.whole_report(up_to(0), 10);

    list.head("late: 10 of a fit, then of a band; scratch cleared, outputs unchanged");
    list.book(&[(2.0, 1.0), (2.0, 5.0)]);
    list.mark(2);
    list.fit(1);
    list.show_outputs(2);
    list.mark_scratch(2);
    list.band(2.0, 1);
    list.show_outputs(2);

    list.head("late: 10 of a validation; scratch cleared, outputs unchanged");
    list.book(&[(0.0, 0.0), (1.0, 1.0), (2.0, 4.0), (3.0, 9.0), (4.0, 16.0), (1e9, 0.0)]);
    list.mark(6);
    list.validate(2, 2);
    list.show_outputs(6);

    list.head("late: 11 of a report, then of a validation; scratch cleared, outputs unchanged");
    list.book(&[(0.0, f64::MAX); 4]);
    list.mark(4);
    list.report(AIC_1);
    list.show_outputs(4);
    list.mark_scratch(4);
    list.validate(2, 1);
    list.show_outputs(4);

    list.head("late: 12 of a report, then of a band; scratch cleared, outputs unchanged");
    list.book(&LINE);
    list.put_sums(&inverse_fails());
    list.mark(3);
    list.report(AIC_1);
    list.show_outputs(3);
    list.mark_scratch(3);
    list.band(0.5, 1);
    list.show_outputs(3);
}

/// At 9 and before, scratch is untouched too.
fn refused_early(list: &mut List) {
    list.head("early: 9, 8, 7, 4 and 1 leave scratch and outputs as they were");
    list.book(&LINE);
    list.mark(3);
    list.band(2.0 + 2.0 * f64::EPSILON, 1);
    list.band(-1e-300, 1);
    list.band(1.0, 3);
    list.fit(3);
    list.validate(4, 1);
    list.report(Settings { confidence: Confidence::Custom(NAN), ..AIC_1 });
    list.lent(Name::Scratch, 2);
    list.report(AIC_1);
    list.lent(Name::Scratch, 4096);
    list.show_outputs(3);

    list.head("early: 9 compares as numbers, so -0 lies within +0 and +0");
    list.book(&[(0.0, 1.0)]);
    list.band(-0.0, 0);
    list.band(f64::from_bits(1), 0);
}

fn choice(list: &mut List) {
    list.head("choice: T10, the line 1 + 2x");
    list.book(&LINE);
    list.fit(1);
    list.show(Name::Coefficients, TERMS + 1);

    list.head("choice: T11, degree 0 is exactly 2 above the least and chosen");
    list.whole_report(AIC_1, 3);

    list.head("choice: T12, degree 1 unsolved and 0 chosen");
    list.book(&[(2.0, 1.0), (2.0, 5.0)]);
    list.whole_report(AIC_1, 2);

    list.head("choice: Huber's 1.345, found by search: 1.344 and 1.346 choose another degree");
    list.book(&at_whole_x(&[29.0, 16.0, 23.0, 9.0, 11.0, 19.0, 39.0, 39.0, 34.0, 3.0, 4.0, 9.0]));
    list.report(up_to(2));
    list.book(&at_whole_x(&[3.0, 19.0, 26.0, 9.0, 29.0, 19.0, 11.0, 26.0, 13.0, 15.0, 6.0, 24.0]));
    list.report(up_to(2));

    list.head("choice: 11 with a solved degree, whose score is +infinity");
    list.book(&at_whole_x(&[3e200, -1e200, -2e200]));
    list.fit(0);
    list.report(up_to(0));

    list.head("choice: two middle sizes whose sum is infinite, and degree 0 is chosen");
    list.book(&[(0.0, f64::MAX), (0.0, -f64::MAX)]);
    list.whole_report(up_to(0), 2);
    list.book(&at_whole_x(&[1.5e308, -1.5e308, 1.5e308, -1.5e308]));
    list.report(up_to(0));
    list.validate(2, 0);

    list.head("choice: 11 with no solved degree");
    list.book(&[(0.0, f64::MAX); 2]);
    list.fit(0);
    list.report(AIC_1);
}

fn bounds(list: &mut List) {
    let grid = |n: usize| -> Vec<(f64, f64)> {
        let at = |i: usize| 2.0 * i as f64 / (n - 1) as f64 - 1.0;
        (0..n).map(|i| (at(i), at(i) * at(i) + (i * 7 % 5) as f64 / 8.0)).collect()
    };
    list.head("bounds: Custom 20 passes with 16 samples and is refused by 8 with 17");
    list.framed_book(&grid(16));
    list.whole_report(up_to(20), 16);
    list.add(1.5, 2.25);
    list.report(up_to(20));
    list.report(up_to(15));
    list.fit(15);
    list.fit(16);

    list.head("bounds: Conservative 44 and 45, Relaxed 63 and 64, Aggressive 135 and 136");
    let wanted = [
        (44, DegreeBound::Conservative),
        (45, DegreeBound::Conservative),
        (63, DegreeBound::Relaxed),
        (64, DegreeBound::Relaxed),
        (135, DegreeBound::Aggressive),
        (136, DegreeBound::Aggressive),
    ];
    for (n, bound) in wanted {
        list.framed_book(&grid(n));
        list.report(Settings { bound, ..AIC_1 });
        list.show(Name::Coefficients, TERMS);
    }
}

fn bands(list: &mut List) {
    list.head("bands: infinite, by a Custom score of 1e300");
    list.book(&at_whole_x(&[1e10, -3e10, 2e10, 5e10]));
    let wide = Settings { confidence: Confidence::Custom(1e300), ..up_to(0) };
    list.whole_report(wide, 4);
    list.band_by(1.0, 0, wide);

    list.head("bands: NaN, by a negative measurement tolerance beside it");
    let nan = Settings { tolerance: Tolerance::Measurement(-1e308), ..wide };
    list.whole_report(nan, 4);
    list.band_by(1.0, 0, nan);

    list.head("bands: at the least and the greatest x, and between");
    list.book(&PIT);
    for x in [0.125, 1.75, 1.0] {
        list.band(x, 2);
    }
}

fn book(list: &mut List) {
    list.head("book: a withdrawal keeps the vacated place and folds afresh");
    list.book(&[(0.1, 1.1), (0.2, 1.3), (0.3, 1.7)]);
    list.call(Call::Withdraw { index: 1 });
    list.show(Name::Xs, 4);
    list.show(Name::Ys, 4);
    list.show(Name::Sums, 273);

    list.head("book: its room serves the next add");
    list.add(0.4, 1.9);
    list.show(Name::Xs, 4);

    list.head("book: a correction folds g and leaves A, whatever stands there");
    list.put_sums(&[(0, 77.0), (255, -0.0), (256, 78.0), (272, 79.0)]);
    list.call(Call::Correct { index: 0, y: -0.0 });
    list.show(Name::Sums, 273);
    list.show(Name::Ys, 4);

    list.head("book: an add adds to what stands there; a withdrawal folds all 272 afresh");
    list.add(0.5, 2.5);
    list.show(Name::Sums, 273);
    list.call(Call::Withdraw { index: 3 });
    list.show(Name::Sums, 273);
}

/// A frame whose bytes are then changed.
fn frame_with(pairs: &[(f64, f64)], change: impl Fn(&mut Vec<u8>)) -> Call {
    let samples: Vec<Sample> = samples_of(pairs);
    let mut bytes = encode(&samples);
    change(&mut bytes);
    Call::AddFrame(bytes)
}

fn columns(list: &mut List) {
    list.head(
        "columns: a NaN in a frame that is also too long is 4; over capacity nothing is added",
    );
    list.lent(Name::Ys, 2);
    list.book(&LINE[..1]);
    list.call(frame_with(&[(1.0, 2.0), (3.0, NAN)], |_| {}));
    list.call(frame_with(&[(1.0, 2.0), (3.0, 4.0)], |_| {}));
    list.call(frame_with(&[(1.0, 2.0)], |bytes| bytes.push(0)));
    list.call(frame_with(&[], |_| {}));
    list.call(frame_with(&[(1.0, 2.0)], |_| {}));
    list.show(Name::Xs, 4);
    list.lend_all();

    list.head("columns: at most 4,096 samples, also in longer columns");
    for name in [Name::Xs, Name::Ys, Name::Ws] {
        list.lent(name, 4200);
    }
    list.ask(Request::Count(4096));
    list.add(1.0, 1.0);
    list.call(Call::Withdraw { index: 4095 });
    list.add(1.0, 1.0);
    list.ask(Request::Count(4097));
    list.add(1.0, 1.0);
    list.call(Call::Withdraw { index: 0 });
    list.lend_all();
}

fn long_lines(list: &mut List) {
    list.head("lines: the longest frame, two digits more, a line of 131,101 bytes, and a last line without an end");
    list.call(Call::Open);
    list.line(&format!("frame {}", "0".repeat(131_074)));
    list.line(&format!("frame {}", "0".repeat(131_076)));
    list.line(&format!("frame {}", "0".repeat(131_101 - 6)));
    list.add(1.0, 2.0);
    list.text.pop();
}
