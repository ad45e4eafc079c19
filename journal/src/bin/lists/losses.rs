//! Losses line by line: document 02's E12. `tests/lists.rs` checks that each edge is met.

use journal::{Call, Name, Request};
use judge::fit::{Criterion, Settings};
use judge::frame::encode;
use judge::statistics::{Confidence, DegreeBound, Tolerance};
use judge::sums::{PLACES, TERMS};
use judge::Sample;

use crate::edges::inverse_fails;
use crate::list::{at_whole_x, by_size, samples_of, up_to, List, AIC_1, NAN};

/// Depth in m and density in kg/m³; one is far off.
pub const PIT: [(f64, f64); 8] = [
    (0.1, 212.0),
    (0.3, 240.5),
    (0.5, 251.0),
    (0.7, 287.0),
    (0.9, 390.0),
    (1.1, 322.5),
    (1.3, 331.0),
    (1.5, 358.0),
];

impl List {
    pub fn losses(&mut self, settings: Settings) {
        self.call(Call::Losses(settings));
    }

    /// Losses and all that they write for n samples, with one place more.
    fn whole_losses(&mut self, settings: Settings, n: usize) {
        self.losses(settings);
        self.show(Name::Losses, n + 1);
        self.show(Name::Scratch, n + 1);
    }

    fn lend_all_and_losses(&mut self) {
        self.lend_all();
        self.lent(Name::Losses, 4096);
    }

    /// Whole numbers in losses and scratch for n samples, and in one place more.
    fn mark_losses(&mut self, n: usize) {
        self.mark_scratch(n);
        for i in 0..n + 1 {
            self.put(Name::Losses, i, 600.0 + i as f64);
        }
    }
}

pub fn losses() -> String {
    let mut list = List::new("Losses line by line: document 02, E12. Made by `lists losses`.");
    season(&mut list);
    by_hand(&mut list);
    chosen(&mut list);
    sums(&mut list);
    settings(&mut list);
    bounds(&mut list);
    short(&mut list);
    early(&mut list);
    late(&mut list);
    longest(&mut list);
    fields(&mut list);
    list.text
}

pub fn with_bic(settings: Settings) -> Settings {
    Settings { criterion: Criterion::Bic, ..settings }
}

fn season(list: &mut List) {
    list.head("season: a pit with one density far off, by both criteria");
    list.book(&PIT);
    list.mark_losses(8);
    for settings in [AIC_1, with_bic(AIC_1), up_to(3), with_bic(up_to(3))] {
        list.report(settings);
        list.whole_losses(settings, 8);
    }
    list.head("season: corrected, one withdrawn and one added");
    list.call(Call::Correct { index: 4, y: 290.0 });
    list.call(Call::Withdraw { index: 0 });
    list.add(1.7, 349.5);
    list.report(up_to(3));
    list.whole_losses(up_to(3), 8);
}

fn by_hand(list: &mut List) {
    list.head("by hand: document 01's listing, x = y = 0 to 4, has losses of +0");
    list.book(&at_whole_x(&[0.0, 1.0, 2.0, 3.0, 4.0]));
    list.mark_losses(5);
    list.whole_losses(AIC_1, 5);
    list.head("by hand: 0, 0, 4 and 8 about their mean, one within 1.345 and three not");
    list.book(&[(0.0, 0.0), (0.0, 0.0), (0.0, 4.0), (0.0, 8.0)]);
    list.whole_losses(AIC_1, 4);
    list.whole_losses(with_bic(AIC_1), 4);
    list.head("by hand: weights pull the mean to 3, and no loss sees them");
    list.call(Call::Open);
    list.call(Call::Add(Sample { x: 2.0, y: 0.0, weight: 1.0 }));
    list.call(Call::Add(Sample { x: 2.0, y: 4.0, weight: 3.0 }));
    list.whole_losses(AIC_1, 2);
}

fn chosen(list: &mut List) {
    list.head("chosen: degree 0, though degree 1 has the least score");
    list.line("# found by search: the losses of both degrees are above zero");
    list.book(&at_whole_x(&[2.0, 6.0, 4.0, 5.0, 5.0, 8.0]));
    list.mark_losses(6);
    list.report(AIC_1);
    list.whole_losses(AIC_1, 6);
    list.head("chosen: T11, where the median absolute deviation and every loss are 0");
    list.book(&at_whole_x(&[1.0, 3.0, 5.0]));
    list.report(AIC_1);
    list.whole_losses(AIC_1, 3);
    list.head("chosen: T12, degree 1 is unsolved");
    list.book(&[(2.0, 1.0), (2.0, 5.0)]);
    list.report(AIC_1);
    list.whole_losses(AIC_1, 2);
    list.head("chosen: degree 0 is unsolved by a residual that overflows");
    let u = f64::from_bits((1023 + 1020) << 52);
    list.book(&[(-0.75, 15.0 * u), (0.0, -15.0 * u), (0.75, -6.0 * u)]);
    list.report(AIC_1);
    list.whole_losses(AIC_1, 3);
}

fn sums(list: &mut List) {
    list.head("total: in index order from +0, and not in another");
    list.book(&at_whole_x(&[0.3, 7.7, 0.9, 11.1, 2.3, 5.9, 0.1, 1e-3, 3.3, 0.7, 30.1]));
    list.whole_losses(up_to(0), 11);
    list.head("total: without the last loss it would be another");
    list.book(&at_whole_x(&[1.0, 2.0, 1.0, 2.0, 1.0, 2.0, 9.0]));
    list.whole_losses(up_to(0), 7);
    list.head("sums: those that are lent, whatever the samples' own are");
    list.book(&PIT);
    list.put_sums(&[(0, 4.0), (256, 1000.0)]);
    list.report(up_to(0));
    list.whole_losses(up_to(0), 8);
}

fn settings(list: &mut List) {
    list.head("settings: confidence, tolerance and pruning change no loss");
    list.book(&PIT);
    let confidence = Confidence::Custom(1e300);
    let tolerance = Tolerance::Absolute(12.5);
    list.losses(AIC_1);
    list.losses(Settings { confidence, ..AIC_1 });
    list.losses(Settings { tolerance, ..AIC_1 });
    list.losses(by_size(Settings { confidence, tolerance, ..AIC_1 }));
    list.head("settings: and are judged by 4");
    list.losses(Settings { confidence: Confidence::Custom(NAN), ..AIC_1 });
    list.losses(Settings { tolerance: Tolerance::Variance(f64::INFINITY), ..AIC_1 });
    list.losses(Settings { tolerance: Tolerance::Measurement(NAN), ..AIC_1 });
}

fn bounds(list: &mut List) {
    list.head("bounds: by name, each with a line of 50 samples");
    let y = |i: usize| (2 * i) as f64 + (i * 7 % 5) as f64 / 4.0;
    list.framed_book(&at_whole_x(&(0..50).map(y).collect::<Vec<_>>()));
    for bound in [DegreeBound::Conservative, DegreeBound::Relaxed, DegreeBound::Aggressive] {
        for criterion in [Criterion::Aic, Criterion::Bic] {
            let settings = Settings { bound, criterion, ..AIC_1 };
            list.report(settings);
            list.whole_losses(settings, 50);
        }
    }
}

fn short(list: &mut List) {
    list.head("short: each memory one place short, exact, and longer; 1 before 4, 7 and 8");
    list.book(&at_whole_x(&[1.0, 3.0, 5.0]));
    list.mark_losses(4);
    let lengths = [(Name::Sums, PLACES), (Name::Scratch, 3), (Name::Losses, 3), (Name::Ws, 3)];
    let nan = Settings { confidence: Confidence::Custom(NAN), ..AIC_1 };
    for (name, places) in lengths {
        list.lent(name, places - 1);
        list.losses(AIC_1);
        list.losses(nan);
        list.losses(up_to(20));
        list.show(Name::Losses, 4);
        list.show(Name::Scratch, 4);
        list.lent(name, places);
        list.losses(nan);
        list.losses(AIC_1);
        list.mark_losses(4);
        list.lent(name, places + 1);
        list.losses(AIC_1);
        list.show(Name::Losses, 4);
        list.mark_losses(4);
        list.lend_all_and_losses();
    }
    list.head("short: what only a report writes is not judged");
    for name in [Name::Coefficients, Name::Errors, Name::Pruned] {
        list.lent(name, TERMS - 1);
    }
    for name in [Name::Lower, Name::Upper, Name::Outliers] {
        list.lent(name, 2);
    }
    list.report(AIC_1);
    list.losses(AIC_1);
    list.lend_all_and_losses();
    list.head("short: no samples and no sums; a count above capacity");
    list.call(Call::Open);
    list.lent(Name::Sums, PLACES - 1);
    list.losses(AIC_1);
    list.losses(nan);
    list.lent(Name::Sums, PLACES);
    list.ask(Request::Count(4097));
    list.losses(up_to(20));
    list.ask(Request::Count(0));
}

fn early(list: &mut List) {
    list.head("early: 4, 7 and 8 in order, and scratch and losses as they were");
    let nan = Settings { confidence: Confidence::Custom(NAN), ..AIC_1 };
    list.call(Call::Open);
    list.mark_losses(17);
    list.losses(AIC_1);
    list.losses(nan);
    list.framed_book(&at_whole_x(&[1.0; 17]));
    list.losses(up_to(20));
    list.losses(Settings { bound: DegreeBound::Custom(20), ..nan });
    for name in [Name::Xs, Name::Ys, Name::Ws] {
        list.put(name, 16, NAN);
        list.losses(up_to(20));
        list.losses(AIC_1);
        list.put(name, 16, 1.0);
    }
    list.show(Name::Losses, 18);
    list.show(Name::Scratch, 18);
}

fn late(list: &mut List) {
    list.head("late: 11, where no degree is chosen; scratch cleared, losses unchanged");
    list.book(&[(0.0, f64::MAX), (0.0, f64::MAX)]);
    list.mark_losses(2);
    list.report(AIC_1);
    list.whole_losses(AIC_1, 2);
    list.head("late: 11 with a solved degree, whose score is +infinity");
    list.book(&at_whole_x(&[3e200, -1e200, -2e200]));
    list.mark_losses(3);
    list.report(AIC_1);
    list.whole_losses(AIC_1, 3);
    list.head("late: 12, though there are losses; scratch cleared, losses unchanged");
    list.book(&at_whole_x(&[1.0, 3.0, 5.0]));
    list.put_sums(&inverse_fails());
    list.mark_losses(3);
    list.report(AIC_1);
    list.whole_losses(AIC_1, 3);
}

fn longest(list: &mut List) {
    list.head("longest: 4,096 samples, a line of its own for each");
    let pair = |i: usize| ((i % 90) as f64, (100 * (i % 90) + i * 7919 % 101) as f64);
    let pairs: Vec<(f64, f64)> = (0..4096).map(pair).collect();
    list.call(Call::Open);
    list.call(Call::AddFrame(encode(&samples_of(&pairs[..4095]))));
    list.add(pairs[4095].0, pairs[4095].1);
    list.whole_losses(AIC_1, 4096);
}

fn fields(list: &mut List) {
    list.head("fields: those of a report");
    list.book(&[(0.0, 1.0)]);
    let (zero, settings) = ("0000000000000000", "custom 1 aic p95 0000000000000000 none");
    let lines = [
        "losses".to_string(),
        "losses 1".to_string(),
        format!("losses {settings}"),
        format!("losses {settings} {zero} "),
        format!("losses {settings} {zero} both"),
        format!("losses {settings} {zero} size {zero}"),
        "loss 0".to_string(),
        "total".to_string(),
        "lent losses 4201".to_string(),
        format!("put losses 4200 {zero}"),
    ];
    for line in lines {
        list.line(&line);
    }
    list.line(&format!("losses {settings} {zero}"));
    list.line(&format!("losses {settings} {zero} positive"));
    list.line(&format!("losses {settings} {zero} size"));
}
