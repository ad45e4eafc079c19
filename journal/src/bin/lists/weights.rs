//! Weighted samples: document 02's E5. `tests/lists.rs` checks that each edge is met.

use journal::{Call, Name, Request};
use judge::fit::{Criterion, Settings};
use judge::frame::encode_weighted;
use judge::statistics::{Confidence, DegreeBound, Tolerance};
use judge::sums::PLACES;
use judge::Sample;

use crate::list::{by_size, up_to, List, AIC_1, NAN};

type Weighted = (f64, f64, f64);

/// Depth in m, density in kg/m³, and how many dug.
const PITS: [Weighted; 6] = [
    (0.1, 212.0, 1.0),
    (0.3, 240.5, 2.0),
    (0.5, 251.0, 1.0),
    (0.7, 287.0, 1.0),
    (0.9, 290.0, 2.0),
    (1.1, 322.5, 3.0),
];

const LINE: [Weighted; 3] = [(0.0, 1.0, 2.0), (1.0, 3.0, 0.5), (2.0, 5.0, 4.0)];

/// The least number above zero.
const LEAST: f64 = 5e-324;

const INFINITY: f64 = f64::INFINITY;

/// Numbers in hexadecimal, for frames that no encoder made.
const H_0: &str = "0000000000000000";
const H_LESS_0: &str = "8000000000000000";
const H_LEAST: &str = "0000000000000001";
const H_HALF: &str = "3FE0000000000000";
const H_1: &str = "3FF0000000000000";
const H_LESS_1: &str = "BFF0000000000000";
const H_2: &str = "4000000000000000";
const H_3: &str = "4008000000000000";
const H_4: &str = "4010000000000000";
const H_INFINITE: &str = "7FF0000000000000";
const H_LESS_INFINITE: &str = "FFF0000000000000";
const H_NAN: &str = "7FF8000000000000";

impl List {
    fn weighted(&mut self, (x, y, weight): Weighted) {
        self.call(Call::Add(Sample { x, y, weight }));
    }

    fn weighted_book(&mut self, samples: &[Weighted]) {
        self.call(Call::Open);
        for &sample in samples {
            self.weighted(sample);
        }
    }

    /// The three columns with one place more.
    fn weighted_columns(&mut self, count: usize) {
        for name in [Name::Xs, Name::Ys, Name::Ws] {
            self.show(name, count + 1);
        }
    }

    /// A frame of a header and numbers, all in hexadecimal.
    fn hex_frame(&mut self, header: &str, numbers: &[&str]) {
        self.line(&format!("frame {header}{}", numbers.concat()));
    }

    fn lines(&mut self, text: &str) {
        self.line(&format!("# {text:?}"));
        self.call(Call::AddLines(text.as_bytes().to_vec()));
    }
}

pub fn weights() -> String {
    let mut list = List::new("Weighted samples: document 02, E5. Made by `lists weights`.");
    season(&mut list);
    weight_1(&mut list);
    kinds(&mut list);
    scales(&mut list);
    unweighted(&mut list);
    settings(&mut list);
    frames(&mut list);
    lengths(&mut list);
    longest(&mut list);
    corrections(&mut list);
    withdrawals(&mut list);
    refused_adds(&mut list);
    refused_frames(&mut list);
    columns(&mut list);
    reads(&mut list);
    read_as_they_are(&mut list);
    ends(&mut list);
    fields(&mut list);
    list.text
}

fn season(list: &mut List) {
    list.head("season: pits dug by one, two and three people");
    list.weighted_book(&PITS);
    list.weighted_columns(6);
    list.show(Name::Sums, PLACES + 1);
    for degree in 0..3 {
        list.fit(degree);
        list.show(Name::Coefficients, 4);
    }
    list.whole_report(up_to(3), 6);
    list.whole_report(by_size(up_to(3)), 6);
    list.validate(3, 2);
    list.validate(6, 2);
    list.band(0.5, 1);
    list.band(1.0, 2);

    list.head(
        "season: a density was mistyped, a pit goes, the logger sends two and the observer one",
    );
    list.call(Call::Correct { index: 3, y: 278.0 });
    list.call(Call::Withdraw { index: 1 });
    let logger = [(1.3, 331.0, 0.5), (1.5, 358.0, 0.25)];
    let logger = logger.map(|(x, y, weight)| Sample { x, y, weight });
    list.call(Call::AddFrame(encode_weighted(&logger)));
    list.lines("1.70 349.5\n");
    list.weighted_columns(8);
    list.show(Name::Sums, PLACES + 1);
    list.whole_report(up_to(3), 8);
    list.validate(4, 2);
    list.band(1.6, 1);
}

/// The same samples in every way that means weight 1.
fn weight_1(list: &mut List) {
    let shown = |list: &mut List| {
        list.weighted_columns(2);
        list.show(Name::Sums, PLACES);
        list.whole_report(AIC_1, 2);
    };
    list.head("weight 1: by an add without a weight");
    list.call(Call::Open);
    list.line(&format!("add {H_HALF} {H_3}"));
    list.line(&format!("add {H_4} {H_LESS_1}"));
    shown(list);
    list.head("weight 1: by an add with weight 1");
    list.call(Call::Open);
    list.line(&format!("add {H_HALF} {H_3} {H_1}"));
    list.line(&format!("add {H_4} {H_LESS_1} {H_1}"));
    shown(list);
    list.head("weight 1: by a frame of version 1");
    list.call(Call::Open);
    list.hex_frame("002101", &[H_HALF, H_3, H_4, H_LESS_1]);
    shown(list);
    list.head("weight 1: by a frame of version 2");
    list.call(Call::Open);
    list.hex_frame("003102", &[H_HALF, H_3, H_1, H_4, H_LESS_1, H_1]);
    shown(list);
    list.head("weight 1: by lines");
    list.call(Call::Open);
    list.lines("0.5 3\n4 -1\n");
    shown(list);
}

fn kinds(list: &mut List) {
    list.head("kinds: one sample of each weight");
    let weights = [
        1.0,
        2.0,
        0.1,
        0.3,
        1.0 / 1024.0,
        1e-200,
        f64::MIN_POSITIVE,
        f64::MIN_POSITIVE / 4.0,
        LEAST,
        1e200,
        1.0 - f64::EPSILON / 2.0,
        1.0 + f64::EPSILON,
        f64::MAX,
    ];
    for weight in weights {
        list.weighted_book(&[(0.7, 1.1, weight)]);
        list.show(Name::Ws, 2);
        list.show(Name::Sums, PLACES);
        list.fit(0);
        list.show(Name::Coefficients, 1);
        list.report(AIC_1);
    }

    list.head("kinds: the product of the powers first, then the weight: rounded so");
    list.weighted_book(&[(0.1, 0.3, 0.7), (0.9, 1.7, 0.3), (-1.3, 0.7, 1.1)]);
    list.show(Name::Sums, PLACES);

    list.head("kinds: it overflows, and a weight that would mend it comes too late");
    list.weighted_book(&[(1e200, 1e200, 1e-200)]);
    list.show(Name::Sums, PLACES);
    list.head("kinds: it underflows, and a weight that would mend it comes too late");
    list.weighted_book(&[(1e-200, 1e-200, 1e200)]);
    list.show(Name::Sums, PLACES);

    list.head("kinds: powers of two, equal ones and unequal ones together");
    let weights = [1.0, 1.0, 4.0, 0.25, 1e-300, 1e10, LEAST, 3.0, 3.0, 0.125];
    let at = |(i, weight): (usize, f64)| (i as f64 / 4.0, (i * i % 7) as f64, weight);
    let ten: Vec<Weighted> = weights.into_iter().enumerate().map(at).collect();
    list.weighted_book(&ten);
    list.show(Name::Sums, PLACES);
    list.whole_report(up_to(3), 10);
    list.validate(3, 2);
}

fn scales(list: &mut List) {
    list.head("scales: four times all weights leave the curve and halve its errors");
    list.weighted_book(&PITS);
    list.whole_report(AIC_1, 6);
    list.weighted_book(&PITS.map(|(x, y, weight)| (x, y, 4.0 * weight)));
    list.whole_report(AIC_1, 6);

    list.head("scales: a sample of weight 2 has the sums of two, and is one sample");
    list.weighted_book(&[(1.0, 3.0, 1.0), (2.0, 4.0, 2.0), (4.0, 5.0, 1.0)]);
    list.show(Name::Sums, PLACES);
    list.whole_report(AIC_1, 3);
    list.weighted_book(&[(1.0, 3.0, 1.0), (2.0, 4.0, 1.0), (4.0, 5.0, 1.0), (2.0, 4.0, 1.0)]);
    list.show(Name::Sums, PLACES);
    list.whole_report(AIC_1, 4);
}

/// x = 0, 1, 2, .. with the given y's and weights.
fn at_whole_x(samples: &[(f64, f64)]) -> Vec<Weighted> {
    samples.iter().enumerate().map(|(i, &(y, weight))| (i as f64, y, weight)).collect()
}

fn unweighted(list: &mut List) {
    list.head("unweighted: scores see no weight, and sums do");
    list.line("# found by search: weighted residuals, roots or losses, or sums without weights, choose another degree");
    list.weighted_book(&at_whole_x(&[
        (11.0, 0.25),
        (17.0, 1.0),
        (15.0, 0.5),
        (7.0, 0.25),
        (11.0, 1.0),
        (14.0, 0.5),
        (10.0, 8.0),
        (4.0, 0.5),
        (1.0, 8.0),
    ]));
    for criterion in [Criterion::Aic, Criterion::Bic] {
        list.whole_report(Settings { criterion, ..up_to(2) }, 9);
    }

    list.head("unweighted: in folds too");
    list.line("# found by search: the same faults choose another degree");
    list.weighted_book(&at_whole_x(&[
        (14.0, 1.0),
        (0.0, 0.5),
        (18.0, 1.0),
        (15.0, 4.0),
        (3.0, 1.0),
        (12.0, 1.0),
        (13.0, 4.0),
        (16.0, 4.0),
        (2.0, 1.0),
    ]));
    list.validate(3, 2);
}

fn settings(list: &mut List) {
    list.head("settings: confidences and tolerances of a weighted book");
    list.weighted_book(&PITS);
    let confidences = [Confidence::P80, Confidence::P95, Confidence::P999, Confidence::Custom(2.5)];
    let tolerances = [
        Tolerance::None,
        Tolerance::Absolute(12.5),
        Tolerance::Variance(0.25),
        Tolerance::Measurement(0.125),
    ];
    for confidence in confidences {
        for tolerance in tolerances {
            let settings = Settings { confidence, tolerance, ..up_to(2) };
            list.report(settings);
            for name in [Name::Lower, Name::Upper, Name::Outliers] {
                list.show(name, 6);
            }
            list.band_by(0.6, 2, settings);
        }
    }
    let bounds = [DegreeBound::Conservative, DegreeBound::Relaxed, DegreeBound::Aggressive];
    for bound in bounds {
        list.report(Settings { bound, criterion: Criterion::Bic, ..AIC_1 });
    }
}

fn frames(list: &mut List) {
    list.head("frames: of version 2, of no samples, of one and of two");
    list.call(Call::Open);
    list.hex_frame("000102", &[]);
    list.hex_frame("001902", &[H_1, H_2, H_3]);
    list.hex_frame("003102", &[H_2, H_3, H_HALF, H_3, H_4, H_LEAST]);
    list.weighted_columns(3);
    list.show(Name::Sums, PLACES);

    list.head("frames: of version 1 behind them, and 48 bytes by either version");
    list.hex_frame("001101", &[H_1, H_2]);
    list.hex_frame("003101", &[H_1, H_2, H_3, H_4, H_HALF, H_1]);
    list.hex_frame("003102", &[H_1, H_2, H_3, H_4, H_HALF, H_1]);
    list.weighted_columns(9);

    list.head("frames: the same by single adds");
    let adds = [(1.0, 2.0, 3.0), (2.0, 3.0, 0.5), (3.0, 4.0, LEAST)];
    list.weighted_book(&adds);
    list.weighted_columns(3);
    list.show(Name::Sums, PLACES);
}

fn lengths(list: &mut List) {
    list.head("lengths: by 24 where the version byte is 2, and by 16 elsewhere");
    list.call(Call::Open);
    for version in ["00", "01", "02", "03", "FF"] {
        for bytes in [0, 8, 16, 24, 32, 40, 48, 72, 96] {
            let numbers = vec![H_1; bytes / 8];
            list.hex_frame(&format!("{:04X}{version}", bytes + 1), &numbers);
            list.call(Call::Open);
        }
    }

    list.head("lengths: one that does not count what follows, at version 2");
    list.hex_frame("001902", &[H_1, H_1]);
    list.hex_frame("001902", &[H_1, H_1, H_1, "00"]);
    list.hex_frame("001902", &[H_1, H_1, H_1, H_1, H_1, H_1]);
    list.hex_frame("003102", &[H_1, H_1, H_1]);
    list.hex_frame("001102", &[H_1, H_1, H_1]);
    list.hex_frame("000002", &[]);
    list.hex_frame("190002", &[H_1, H_1, H_1]);
    list.weighted_columns(0);
}

fn longest(list: &mut List) {
    list.head(
        "longest: 2,730 samples of version 2; as many again pass capacity, 1,366 fill the book",
    );
    let sample = |i: usize| Sample {
        x: (i % 7) as f64,
        y: (i % 10) as f64,
        weight: 1.0 + (i % 3) as f64 / 4.0,
    };
    let samples: Vec<Sample> = (0..2730).map(sample).collect();
    list.call(Call::Open);
    list.call(Call::AddFrame(encode_weighted(&samples)));
    list.call(Call::AddFrame(encode_weighted(&samples)));
    list.call(Call::AddFrame(encode_weighted(&samples[..1366])));
    list.weighted((1.0, 1.0, 1.0));
    list.weighted((1.0, 1.0, 0.0));
    list.show(Name::Sums, PLACES);
    list.ask(Request::Show { name: Name::Ws, from: 4090, to: 4098 });
    list.report(up_to(2));
    list.show(Name::Coefficients, 4);
    list.show(Name::Errors, 4);
}

fn corrections(list: &mut List) {
    list.head("corrections: the weight is kept, g is folded with weights, A is untouched");
    list.weighted_book(&LINE);
    list.put_sums(&[(0, 77.0), (255, -0.0), (256, 78.0), (272, 79.0)]);
    list.call(Call::Correct { index: 1, y: 4.0 });
    list.weighted_columns(3);
    list.show(Name::Sums, PLACES + 1);

    list.head("corrections: no weight is judged");
    for weight in [0.0, -1.0, INFINITY, NAN] {
        list.put(Name::Ws, 2, weight);
        list.call(Call::Correct { index: 2, y: 5.5 });
        list.call(Call::Correct { index: 0, y: 1.5 });
        list.show(Name::Ws, 4);
        list.ask(Request::Show { name: Name::Sums, from: 256, to: 272 });
    }
    list.call(Call::Correct { index: 2, y: NAN });
    list.call(Call::Correct { index: 3, y: 1.0 });
    list.put_sums(&[(272, 0.0)]);
}

fn withdrawals(list: &mut List) {
    list.head(
        "withdrawals: weights move with their samples, the last place is kept, all sums are folded",
    );
    let more = [(3.0, 8.0, 0.125), (0.5, 0.25, 16.0)];
    list.weighted_book(&[&LINE[..], &more].concat());
    list.put_sums(&[(0, 77.0), (256, 78.0)]);
    list.call(Call::Withdraw { index: 1 });
    list.weighted_columns(5);
    list.show(Name::Sums, PLACES);
    list.head("withdrawals: the last one, the first one, and an add in the room");
    list.call(Call::Withdraw { index: 3 });
    list.call(Call::Withdraw { index: 0 });
    list.weighted_columns(5);
    list.weighted((7.0, 8.0, 9.0));
    list.weighted_columns(5);
    list.show(Name::Sums, PLACES);

    list.head("withdrawals: no weight is judged, and one that is not finite leaves the book");
    list.put(Name::Ws, 1, NAN);
    list.fit(0);
    list.call(Call::Withdraw { index: 0 });
    list.fit(0);
    list.call(Call::Withdraw { index: 0 });
    list.fit(0);
    list.weighted_columns(3);
    list.show(Name::Sums, PLACES);
}

/// 1 before 4 before 15 before 5: a full book of one.
fn refused_adds(list: &mut List) {
    list.head("refused adds: 4, then 15, then 5, and 1 before them");
    list.lent(Name::Xs, 1);
    list.weighted_book(&LINE[..1]);
    let adds = [
        (NAN, 1.0, 1.0),
        (1.0, INFINITY, 1.0),
        (1.0, 1.0, NAN),
        (1.0, 1.0, INFINITY),
        (1.0, 1.0, -INFINITY),
        (NAN, 1.0, 0.0),
        (1.0, -INFINITY, -1.0),
        (1.0, 1.0, 0.0),
        (1.0, 1.0, -0.0),
        (1.0, 1.0, -1.0),
        (1.0, 1.0, -LEAST),
        (1.0, 1.0, f64::MIN),
        (1.0, 1.0, LEAST),
        (1.0, 1.0, 1.0),
    ];
    for sums in [PLACES, PLACES - 1] {
        list.lent(Name::Sums, sums);
        for add in adds {
            list.weighted(add);
        }
    }
    list.lend_all();
    list.weighted_columns(1);
    list.line("# with room, the weights above zero are added");
    list.weighted((1.0, 1.0, 0.0));
    list.weighted((1.0, 1.0, LEAST));
    list.weighted_columns(2);
}

/// Frames by hand, on a book with room for one more: 1, 2, 3, 4, 15, 5 in order.
fn refused_frames(list: &mut List) {
    list.head("refused frames: 4 of all samples, then 15 of all, then 5; 2 and 3 before them");
    list.lent(Name::Ws, 2);
    list.weighted_book(&LINE[..1]);
    // two samples (1, 2) with these weights
    let pair = |first, second| [H_1, H_2, first, H_1, H_2, second];
    let frames = [
        // 4, wherever it stands
        ("003102", pair(H_0, H_NAN)),
        ("003102", pair(H_NAN, H_0)),
        ("003102", pair(H_1, H_INFINITE)),
        ("003102", pair(H_NAN, H_1)),
        ("003102", pair(H_1, H_LESS_INFINITE)),
        ("003102", [H_1, H_2, H_0, H_NAN, H_2, H_1]),
        ("003102", [H_1, H_2, H_0, H_1, H_INFINITE, H_1]),
        ("003102", [H_1, H_NAN, H_1, H_1, H_2, H_0]),
        // 15, though there is no room
        ("003102", pair(H_0, H_1)),
        ("003102", pair(H_1, H_LESS_0)),
        ("003102", pair(H_LESS_1, H_LESS_1)),
        ("003102", pair(H_LEAST, "8000000000000001")),
        // 5
        ("003102", pair(H_1, H_LEAST)),
        // 2 and 3, whatever the weights
        ("001902", pair(H_0, H_NAN)),
        ("003202", pair(H_1, H_1)),
        ("003103", pair(H_0, H_NAN)),
        ("003100", pair(H_1, H_1)),
    ];
    for sums in [PLACES, PLACES - 1] {
        list.lent(Name::Sums, sums);
        for (header, numbers) in &frames {
            list.hex_frame(header, numbers);
        }
    }
    list.lent(Name::Sums, PLACES);
    list.line("# nothing of them was added");
    list.weighted_columns(2);
    list.show(Name::Sums, 2);
    list.line("# one sample finds room, if its weight is above zero");
    list.hex_frame("001902", &[H_1, H_2, H_0]);
    list.hex_frame("001902", &[H_1, H_2, H_4]);
    list.weighted_columns(2);
    list.lend_all();
}

/// Each of the three bounds the book; at most 4,096 also in longer ones.
fn columns(list: &mut List) {
    for name in [Name::Xs, Name::Ys, Name::Ws] {
        list.head(&format!("columns: {} is the shortest, of 2 places and then of 1", name.word()));
        list.lent(name, 2);
        list.weighted_book(&LINE);
        list.lines("1 2\n");
        list.hex_frame("001101", &[H_1, H_2]);
        list.hex_frame("001902", &[H_1, H_2, H_3]);
        list.hex_frame("000102", &[]);
        list.fit(1);
        list.lent(name, 1);
        list.weighted((1.0, 2.0, 0.0));
        list.call(Call::Correct { index: 0, y: 1.0 });
        list.call(Call::Withdraw { index: 0 });
        list.hex_frame("000102", &[]);
        list.lines("1 2\n");
        list.fit(1);
        list.report(AIC_1);
        list.validate(2, 0);
        list.band(1.0, 1);
        list.lent(name, 0);
        list.call(Call::Open);
        list.weighted((1.0, 2.0, 3.0));
        list.lend_all();
    }

    list.head("columns: at most 4,096 samples, also in three longer columns");
    for name in [Name::Xs, Name::Ys, Name::Ws] {
        list.lent(name, 4200);
    }
    list.ask(Request::Count(4096));
    list.weighted((1.0, 1.0, 2.0));
    list.call(Call::Withdraw { index: 4095 });
    list.weighted((1.0, 1.0, 2.0));
    list.ask(Request::Count(4097));
    list.weighted((1.0, 1.0, 2.0));
    list.lend_all();
}

/// 4 for a weight below the count, before 7, 8 and 9.
fn reads(list: &mut List) {
    list.head(
        "reads: a weight below the count that is not finite is 4, before 7, 8 and 9; 1 comes first",
    );
    list.weighted_book(&LINE);
    for weight in [NAN, INFINITY, -INFINITY] {
        list.put(Name::Ws, 1, weight);
        for sums in [PLACES, PLACES - 1] {
            list.lent(Name::Sums, sums);
            list.fit(1);
            list.fit(3);
            list.report(AIC_1);
            list.report(up_to(20));
            list.losses(AIC_1);
            list.losses(up_to(20));
            list.scores(AIC_1);
            list.scores(up_to(20));
            list.validate(2, 1);
            list.validate(1, 1);
            list.band(1.0, 1);
            list.band(9.0, 1);
        }
        list.lent(Name::Sums, PLACES);
    }
    list.head("reads: at the count it is nobody's");
    list.put(Name::Ws, 1, 0.5);
    list.put(Name::Ws, 3, NAN);
    list.fit(1);
    list.report(AIC_1);
    list.losses(AIC_1);
    list.scores(AIC_1);
    list.validate(3, 1);
    list.band(1.0, 1);
}

/// A weight in the column is judged by 4 alone.
fn read_as_they_are(list: &mut List) {
    list.head("as they are: weights of 0, -0 and below zero are read from the column");
    for weight in [0.0, -0.0, -0.25] {
        list.weighted_book(&PITS);
        list.put(Name::Ws, 2, weight);
        list.whole_report(up_to(2), 6);
        list.losses(up_to(2));
        list.scores(up_to(2));
        list.validate(3, 1);
        list.band(1.0, 1);
        list.call(Call::Correct { index: 0, y: 211.0 });
        list.call(Call::Withdraw { index: 5 });
        list.weighted_columns(6);
        list.show(Name::Sums, PLACES);
        list.fit(1);
        list.show(Name::Coefficients, 3);
    }

    list.head("as they are: columns put by hand, whose weights are still +0");
    for i in 0..6 {
        list.put(Name::Ws, i, 0.0);
    }
    list.call(Call::Open);
    list.ask(Request::Count(5));
    list.fit(0);
    list.report(AIC_1);
    list.validate(2, 1);
    list.put_sums(&[(0, 1.0), (256, 3.0)]);
    list.fit(0);
    list.validate(2, 1);
    list.call(Call::Correct { index: 0, y: -1.0 });
    list.call(Call::Withdraw { index: 0 });
    list.show(Name::Sums, PLACES);
}

/// Refusals 10, 11 and 12, and what else the ends of the range do.
fn ends(list: &mut List) {
    let with = |weight: f64| LINE.map(|(x, y, _)| (x, y, weight));
    let runs = [
        ("all weights the greatest number: sums are infinite", with(f64::MAX)),
        ("all weights 2^1000", with(f64::from_bits((1023 + 1000) << 52))),
        ("all weights 2^-1000", with(f64::from_bits((1023 - 1000) << 52))),
        ("all weights the least normal number", with(f64::MIN_POSITIVE)),
        ("all weights the least number", with(LEAST)),
    ];
    for (comment, samples) in runs {
        list.head(&format!("ends: {comment}"));
        list.weighted_book(&samples);
        for degree in 0..3 {
            list.fit(degree);
            list.show(Name::Coefficients, 3);
        }
        list.whole_report(up_to(2), 3);
        list.validate(3, 1);
        list.band(1.0, 1);
    }

    list.head("ends: one weight so great that the other samples are nothing beside it");
    list.weighted_book(&[(0.0, 1.0, 1e-20), (1.0, 3.0, 1e20), (2.0, 5.0, 1e-20)]);
    for degree in 0..3 {
        list.fit(degree);
        list.show(Name::Coefficients, 3);
    }
    list.whole_report(up_to(1), 3);
    list.validate(3, 1);
    list.band(1.0, 0);
    list.band(1.0, 1);
}

fn fields(list: &mut List) {
    list.head("fields: a weight is a float, and the last field");
    list.call(Call::Open);
    let lines = [
        format!("add {H_1} {H_2} "),
        format!("add {H_1} {H_2} 1"),
        format!("add {H_1} {H_2} 3FF000000000000G"),
        format!("add {H_1} {H_2} {H_3} "),
        format!("add {H_1} {H_2} {H_3} {H_4}"),
        format!("put weights 0 {H_1}"),
        "put ws 0".to_string(),
        format!("put ws 4200 {H_1}"),
        "lent ws 4201".to_string(),
        "lent w 1".to_string(),
        "show ws 0 4201".to_string(),
        "show w 0 1".to_string(),
    ];
    for line in lines {
        list.line(&line);
    }
    list.line("# small letters are fine, and a NaN of any bits is the one");
    list.line(&format!("add {H_1} {H_2} 3fe8000000000000"));
    list.line(&format!("add {H_1} {H_2} fff0000000000001"));
    list.line("put ws 1 fff0000000000001");
    list.show(Name::Ws, 2);
}
