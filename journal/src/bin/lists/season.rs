//! A season of a field group, then every malformed line and every refusal that a list can reach.

use journal::request::float_field;
use journal::{Call, Name, Request};
use judge::fit::{Criterion, Settings};
use judge::frame::encode;
use judge::statistics::{Confidence, DegreeBound, Tolerance};
use judge::sums::{PLACES, TERMS};

use crate::edges::inverse_fails;
use crate::list::{at_whole_x, samples_of, up_to, List, AIC_1, NAN};

/// Depth in m, density in kg/m³.
const MARCH: [(f64, f64); 6] =
    [(0.1, 212.0), (0.3, 240.5), (0.5, 251.0), (0.7, 287.0), (0.9, 290.0), (1.1, 322.5)];

const LOGGER: [(f64, f64); 5] =
    [(1.3, 331.0), (1.5, 358.0), (1.7, 349.5), (1.9, 377.0), (2.1, 391.0)];

const LINE: [(f64, f64); 3] = [(0.0, 1.0), (1.0, 3.0), (2.0, 5.0)];

pub fn season() -> String {
    let mut list =
        List::new("A season of one stake: depth in m, density in kg/m3. Made by `lists season`.");
    spring(&mut list);
    summer(&mut list);
    malformed(&mut list);
    short_memory(&mut list);
    refused_changes(&mut list);
    refused_frames(&mut list);
    refused_readings(&mut list);
    refused_bounds(&mut list);
    refused_fits(&mut list);
    closing(&mut list);
    list.text
}

fn spring(list: &mut List) {
    list.head("the pit of March, sample by sample");
    list.book(&MARCH);
    list.fit(1);
    list.show(Name::Coefficients, TERMS);
    list.whole_report(AIC_1, 6);

    list.head("five samples more from the logger, as a frame");
    list.frame(&LOGGER);
    list.whole_report(up_to(3), 11);

    list.head("a density was mistyped: 287 is 278");
    list.call(Call::Correct { index: 3, y: 278.0 });
    list.whole_report(up_to(3), 11);

    list.head("the fifth sample was taken in a wind slab: it goes");
    list.call(Call::Withdraw { index: 4 });
    list.show(Name::Xs, 12);
    list.show(Name::Ys, 12);
    list.show(Name::Sums, PLACES);

    list.head("what density at 1 m, by a line and by a parabola");
    list.band(1.0, 1);
    list.band(1.0, 2);

    list.head("the degree by validation, ten samples in three folds and one by one");
    list.validate(3, 3);
    list.validate(10, 3);
}

fn summer(list: &mut List) {
    list.head("the other ways to bound, to score, to doubt and to tolerate");
    let bounds = [DegreeBound::Conservative, DegreeBound::Relaxed, DegreeBound::Aggressive];
    for bound in bounds {
        list.report(Settings { bound, criterion: Criterion::Bic, ..AIC_1 });
    }
    let levels = [
        Confidence::P80,
        Confidence::P90,
        Confidence::P98,
        Confidence::P99,
        Confidence::P999,
        Confidence::Custom(3.0),
    ];
    for confidence in levels {
        list.report(Settings { confidence, ..up_to(2) });
    }
    let tolerances = [
        Tolerance::Absolute(5.0),
        Tolerance::Variance(0.1),
        Tolerance::Measurement(0.02),
        Tolerance::Measurement(-0.02),
    ];
    for tolerance in tolerances {
        let settings = Settings { tolerance, criterion: Criterion::Bic, ..up_to(2) };
        list.whole_report(settings, 10);
        list.band_by(1.6, 1, settings);
    }

    list.head("forty-five samples of the deep pit, for the conservative and the relaxed bound");
    let deep = |i: usize| (0.1 * i as f64, 300.0 + 9.0 * i as f64 - (i * i % 11) as f64);
    let pairs: Vec<(f64, f64)> = (0..45).map(deep).collect();
    list.framed_book(&pairs);
    for bound in bounds {
        list.report(Settings { bound, ..AIC_1 });
        let criterion = Criterion::Aic;
        list.call(Call::Validate { folds: 5, bound, criterion });
    }
    list.show_outputs(45);
}

fn malformed(list: &mut List) {
    list.head("malformed lines say where, and change nothing");
    list.book(&LINE);
    let one = float_field(1.0);
    let lines = [
        "report please".to_string(),
        "remove 1".to_string(),
        "Open".to_string(),
        "open\r".to_string(),
        " open".to_string(),
        "open ".to_string(),
        " ".to_string(),
        "show x 0 1".to_string(),
        "put outliers 0 1".to_string(),
        "put pruned 0 1".to_string(),
        format!("put xs 4200 {one}"),
        format!("put sums one {one}"),
        "put sums 0 1.5".to_string(),
        "lent errors 4201".to_string(),
        "lent errors -1".to_string(),
        "count 1000000000".to_string(),
        "count".to_string(),
        "show xs 0 4201".to_string(),
        "show xs 4201 0".to_string(),
        "show xs 2 1".to_string(),
        "show xs 2 1 0".to_string(),
        "show xs 0 1 2".to_string(),
        "add".to_string(),
        "add ".to_string(),
        format!("add {one}"),
        format!("add  {one}"),
        format!("add {one} {one} {one} {one}"),
        format!("add {one} 3FF000000000000"),
        format!("add {one} 3FF00000000000000"),
        format!("add {one} 3FF000000000000G"),
        format!("correct 1.0 {one}"),
        format!("correct 12345678901 {one}"),
        "withdraw x".to_string(),
        "frame 0".to_string(),
        "frame 0001 01".to_string(),
        "frame 00010G".to_string(),
        "frame ".to_string(),
        "fit 1 2".to_string(),
        "fit one".to_string(),
        "validate 3 loose 0 aic".to_string(),
        "validate 3 relaxed aic".to_string(),
        "validate 3 relaxed 0 AIC".to_string(),
        format!("report custom 1 aic p96 {one} none {one}"),
        format!("report custom 1 aic p95 none {one}"),
        format!("report custom 1 aic p95 {one} some {one}"),
        format!("report custom 1 aic p95 {one} none"),
        format!("report custom 1 aic p95 {one} none 0"),
        format!("report custom 1 aic p95 {one} none {one} {one}"),
        format!("report custom 1 aic p95 {one} none {one} size {one}"),
        format!("band {one} 1 p95 {one}"),
    ];
    for line in lines {
        list.line(&line);
    }
    list.head(
        "small letters in bits, leading zeros, and numbers that are read and ignored are fine",
    );
    list.line("add 4008000000000000 401c000000000000");
    list.line(&format!("report relaxed 000000007 bic p95 {} none {one}", float_field(NAN)));
    list.line("frame 000101");
    list.show(Name::Ys, 5);
    list.show(Name::Pruned, 0);
}

/// 1: each memory one place too short, for each call that needs it; then a count above capacity.
fn short_memory(list: &mut List) {
    let sums = (Name::Sums, PLACES);
    let scratch = (Name::Scratch, 3);
    let coefficients = (Name::Coefficients, TERMS);
    list.head("refused by 1: a report, each memory one place too short");
    list.lend_all();
    list.book(&LINE);
    let outputs = [
        sums,
        scratch,
        coefficients,
        (Name::Errors, TERMS),
        (Name::Pruned, TERMS),
        (Name::Lower, 3),
        (Name::Upper, 3),
        (Name::Outliers, 3),
    ];
    for (name, places) in outputs {
        list.lent(name, places - 1);
        list.report(AIC_1);
        list.lent(name, places);
    }
    list.report(AIC_1);

    list.head("refused by 1: fit, validation and band");
    for (name, places) in [sums, scratch, coefficients] {
        list.lent(name, places - 1);
        list.fit(1);
        list.validate(3, 1);
        list.band(1.0, 1);
        list.lent(name, places);
    }

    list.head("refused by 1: the calls that change a book, on short sums; the book stays");
    list.lent(Name::Sums, PLACES - 1);
    changes(list);
    list.lend_all();
    list.fit(1);

    list.head("refused by 1: a count above capacity");
    list.lent(Name::Ys, 2);
    changes_of_a_book(list);
    list.fit(1);
    list.report(AIC_1);
    list.validate(2, 1);
    list.band(1.0, 1);
    list.lend_all();
    list.ask(Request::Count(999_999_999));
    changes_of_a_book(list);
    list.report(AIC_1);
    list.ask(Request::Count(3));
    list.report(AIC_1);
}

fn changes(list: &mut List) {
    list.call(Call::Open);
    changes_of_a_book(list);
}

fn changes_of_a_book(list: &mut List) {
    list.add(7.0, 8.0);
    list.call(Call::Correct { index: 0, y: 9.0 });
    list.call(Call::Withdraw { index: 0 });
    list.frame(&[]);
}

/// A full book of three: 1 before 4 before 5, and before 6.
fn refused_changes(list: &mut List) {
    list.head(
        "refused by 4, 5 and 6: a full book, a value that is not finite, an index past the end",
    );
    list.lent(Name::Xs, 3);
    list.book(&LINE);
    for sums in [PLACES, PLACES - 1] {
        list.lent(Name::Sums, sums);
        list.add(7.0, 8.0);
        list.add(NAN, 8.0);
        list.add(7.0, f64::INFINITY);
        list.call(Call::Correct { index: 0, y: f64::NEG_INFINITY });
        list.call(Call::Correct { index: 3, y: 9.0 });
        list.call(Call::Correct { index: 3, y: NAN });
        list.call(Call::Withdraw { index: 3 });
        list.call(Call::Withdraw { index: 999_999_999 });
    }
    list.lent(Name::Sums, PLACES);
    list.show(Name::Xs, 4);
    list.show(Name::Ys, 4);
}

/// Still the full book: 1 before 2 before 3 before 4 before 5.
fn refused_frames(list: &mut List) {
    list.head("refused by 2, 3, 4 and 5: frames, with one thing wrong and with several");
    let right = encode(&samples_of(&[(7.0, 8.0)]));
    let not_finite = encode(&samples_of(&[(7.0, NAN)]));
    let version = |frame: &[u8]| [&frame[..2], &[3], &frame[3..]].concat();
    let longer = |frame: &[u8]| [frame, &[0]].concat();
    let frames = [
        vec![],
        vec![0],
        vec![0, 1],
        vec![0, 0, 1],
        vec![0, 2, 1, 0],
        vec![0, 1, 3],
        right[..right.len() - 1].to_vec(),
        longer(&right),
        longer(&version(&right)),
        longer(&not_finite),
        version(&right),
        version(&not_finite),
        not_finite.clone(),
        right.clone(),
    ];
    for sums in [PLACES, PLACES - 1] {
        list.lent(Name::Sums, sums);
        for frame in &frames {
            list.call(Call::AddFrame(frame.clone()));
        }
    }
    list.lent(Name::Sums, PLACES);

    list.head("of two samples one finds room: nothing is added; then one is");
    list.call(Call::Withdraw { index: 2 });
    list.frame(&[(7.0, 8.0), (9.0, 10.0)]);
    list.show(Name::Xs, 4);
    list.call(Call::AddFrame(right));
    list.show(Name::Xs, 4);
    list.lend_all();
}

/// 4, 7, 8 and 9, on a book without samples and on one with a value that is not finite.
fn refused_readings(list: &mut List) {
    let score = Settings { confidence: Confidence::Custom(NAN), ..AIC_1 };
    let tolerance = Settings { tolerance: Tolerance::Variance(f64::INFINITY), ..AIC_1 };
    list.head("refused by 7: no samples; by 4 before it, and by 1 before that");
    list.call(Call::Open);
    for sums in [PLACES, PLACES - 1] {
        list.lent(Name::Sums, sums);
        list.fit(0);
        list.report(AIC_1);
        list.report(score);
        list.validate(2, 1);
        list.band(0.0, 0);
        list.band(NAN, 0);
        list.band_by(0.0, 0, tolerance);
    }
    list.lent(Name::Sums, PLACES);

    list.head("refused by 7, 8 and 9: folds, degrees, and an x outside");
    list.book(&LINE);
    for folds in [0, 1, 4] {
        list.validate(folds, 1);
    }
    list.fit(3);
    list.band(1.0, 3);
    list.band(9.0, 3);
    list.band(9.0, 1);
    list.band(-1.0, 1);

    list.head("refused by 4: a score, a tolerance, an x, a value in a column; before 7, 8 and 9");
    let absolute = Settings { tolerance: Tolerance::Absolute(NAN), ..AIC_1 };
    let measurement = Settings { tolerance: Tolerance::Measurement(NAN), ..AIC_1 };
    for settings in [score, tolerance, absolute, measurement] {
        list.report(settings);
        list.band_by(1.0, 1, settings);
        list.band_by(9.0, 3, settings);
        list.band_by(9.0, 1, settings);
    }
    list.band(f64::INFINITY, 1);
    list.put(Name::Ys, 1, NAN);
    for sums in [PLACES, PLACES - 1] {
        list.lent(Name::Sums, sums);
        list.fit(1);
        list.fit(3);
        list.report(AIC_1);
        list.validate(2, 1);
        list.validate(1, 1);
        list.band(1.0, 1);
        list.band(9.0, 1);
        list.band(1.0, 3);
    }
    list.lent(Name::Sums, PLACES);
    list.line("# a value past the count is nobody's");
    list.put(Name::Ys, 1, 3.0);
    list.put(Name::Ys, 3, NAN);
    list.report(AIC_1);
    list.call(Call::Withdraw { index: 0 });
    list.fit(1);
}

/// 8 of bounds and degrees: seventeen samples.
fn refused_bounds(list: &mut List) {
    list.head("refused by 8: a bound or a degree above 15; 1, 4 and 7 come first, 9 after");
    let ys: Vec<f64> = (0..17).map(|i| (i * i % 7) as f64).collect();
    list.framed_book(&at_whole_x(&ys));
    let score = Settings { confidence: Confidence::Custom(NAN), ..up_to(16) };
    for sums in [PLACES, PLACES - 1] {
        list.lent(Name::Sums, sums);
        list.fit(15);
        list.fit(16);
        list.fit(999_999_999);
        list.report(up_to(15));
        list.report(up_to(16));
        list.report(up_to(999_999_999));
        list.report(score);
        list.validate(2, 16);
        list.validate(18, 16);
        list.band(1.0, 16);
        list.band(99.0, 16);
    }
    list.lent(Name::Sums, PLACES);
    list.put(Name::Xs, 16, f64::INFINITY);
    list.validate(2, 16);
    list.validate(1, 16);
    list.fit(16);
    list.report(up_to(16));
}

/// 10, 11 and 12, and 9 before 10 and 12.
fn refused_fits(list: &mut List) {
    list.head("refused by 10: one depth measured twice has no line");
    list.book(&[(2.0, 1.0), (2.0, 5.0)]);
    list.fit(1);
    list.band(2.0, 1);
    list.band(3.0, 1);
    list.report(AIC_1);

    list.head("refused by 10: the degree that validation chose is unsolved");
    list.book(&[(0.0, 0.0), (1.0, 1.0), (2.0, 4.0), (3.0, 9.0), (4.0, 16.0), (1e9, 0.0)]);
    list.validate(2, 2);

    list.head("refused by 11: no degree is chosen");
    list.book(&[(0.0, f64::MAX); 4]);
    list.report(AIC_1);
    list.validate(2, 1);

    list.head("refused by 12: sums of someone else's, whose inverse fails");
    list.book(&LINE);
    list.put_sums(&inverse_fails());
    list.fit(1);
    list.report(AIC_1);
    list.band(1.0, 1);
    list.band(3.0, 1);
    list.line("# a withdrawal folds the sums afresh");
    list.call(Call::Withdraw { index: 0 });
    list.report(AIC_1);
}

fn closing(list: &mut List) {
    list.head("a new book on the same memory");
    list.book(&LINE);
    list.whole_report(AIC_1, 3);
    list.show(Name::Sums, PLACES + 1);
}
