//! Scores by degree. `tests/lists.rs` checks that each edge is met.

use journal::{Call, Name, Request};
use judge::fit::{Criterion, Settings};
use judge::statistics::{Confidence, DegreeBound, Tolerance};
use judge::sums::{PLACES, TERMS};

use crate::edges::inverse_fails;
use crate::list::{at_whole_x, by_size, up_to, List, AIC_1, NAN};
use crate::losses::{with_bic, PIT};

impl List {
    pub fn scores(&mut self, settings: Settings) {
        self.call(Call::Scores(settings));
    }

    /// A report, then the scores and all that they write for n samples, with one place more.
    fn whole_scores(&mut self, settings: Settings, n: usize) {
        self.report(settings);
        self.scores(settings);
        self.show(Name::Solved, TERMS + 1);
        self.show(Name::Scores, TERMS + 1);
        self.show(Name::Scratch, n + 1);
    }

    /// Whole numbers in the scores and in scratch for n samples, and in one place more.
    fn mark_scores(&mut self, n: usize) {
        self.mark_scratch(n);
        for i in 0..=TERMS {
            self.put(Name::Scores, i, 700.0 + i as f64);
        }
    }
}

pub fn scores() -> String {
    let mut list = List::new("Scores by degree. Made by `lists scores`.");
    season(&mut list);
    by_hand(&mut list);
    unsolved(&mut list);
    chosen(&mut list);
    settings(&mut list);
    bounds(&mut list);
    short(&mut list);
    early(&mut list);
    late(&mut list);
    fields(&mut list);
    list.text
}

fn season(list: &mut List) {
    list.head("season: a pit with one density far off, by both criteria");
    list.book(&PIT);
    list.mark_scores(8);
    for settings in [up_to(7), with_bic(up_to(7)), up_to(3), with_bic(up_to(3)), up_to(0)] {
        list.whole_scores(settings, 8);
        list.call(Call::Losses(settings));
    }
    list.head("season: corrected, one withdrawn and one added");
    list.call(Call::Correct { index: 4, y: 290.0 });
    list.call(Call::Withdraw { index: 0 });
    list.add(1.7, 349.5);
    list.whole_scores(up_to(7), 8);
    list.call(Call::Losses(up_to(7)));
}

fn by_hand(list: &mut List) {
    list.head("by hand: 0, 0, 4 and 8 at one x, where degree 1 is unsolved");
    list.book(&[(0.0, 0.0), (0.0, 0.0), (0.0, 4.0), (0.0, 8.0)]);
    list.mark_scores(4);
    list.whole_scores(AIC_1, 4);
    list.whole_scores(with_bic(AIC_1), 4);
    list.head("by hand: x = y = 0 to 4, where degree 1 has no loss");
    list.book(&at_whole_x(&[0.0, 1.0, 2.0, 3.0, 4.0]));
    list.whole_scores(AIC_1, 5);
    list.whole_scores(with_bic(AIC_1), 5);
}

fn unsolved(list: &mut List) {
    list.head("unsolved: degree 0, by a residual that overflows");
    let u = f64::from_bits((1023 + 1020) << 52);
    list.book(&[(-0.75, 15.0 * u), (0.0, -15.0 * u), (0.75, -6.0 * u)]);
    list.whole_scores(AIC_1, 3);
    list.head("unsolved: from some degree on, at x near 2000, with fewer tests than pivots");
    let years: Vec<(f64, f64)> =
        (0..9).map(|i| (2000.0 + f64::from(i), f64::from(i * i))).collect();
    list.book(&years);
    list.whole_scores(up_to(8), 9);
    list.head("unsolved: past the bound no byte and no score of an earlier call is left");
    list.book(&PIT);
    list.whole_scores(up_to(7), 8);
    list.whole_scores(up_to(2), 8);
    list.whole_scores(up_to(0), 8);
    list.head("unsolved: sixteen degrees, and one sample");
    list.framed_book(&at_whole_x(&(0..20).map(|i| (i * 7 % 5) as f64).collect::<Vec<_>>()));
    list.whole_scores(up_to(15), 20);
    list.book(&[(3.0, 4.0)]);
    list.whole_scores(up_to(15), 1);
}

fn chosen(list: &mut List) {
    list.head("chosen: degree 0, though degree 1 has the least score");
    list.line("# found by search");
    list.book(&at_whole_x(&[2.0, 6.0, 4.0, 5.0, 5.0, 8.0]));
    list.whole_scores(AIC_1, 6);
    list.head("chosen: T11, exactly 2 above the least");
    list.book(&at_whole_x(&[1.0, 3.0, 5.0]));
    list.whole_scores(AIC_1, 3);
    list.head("sums: those that are lent, whatever the samples' own are");
    list.book(&PIT);
    list.put_sums(&[(0, 4.0), (256, 1000.0)]);
    list.whole_scores(up_to(0), 8);
}

fn settings(list: &mut List) {
    list.head("settings: confidence, tolerance and pruning change nothing");
    list.book(&PIT);
    let confidence = Confidence::Custom(1e300);
    let tolerance = Tolerance::Absolute(12.5);
    list.scores(AIC_1);
    list.scores(Settings { confidence, ..AIC_1 });
    list.scores(Settings { tolerance, ..AIC_1 });
    list.scores(by_size(Settings { confidence, tolerance, ..AIC_1 }));
    list.head("settings: and are judged by 4");
    list.scores(Settings { confidence: Confidence::Custom(NAN), ..AIC_1 });
    list.scores(Settings { tolerance: Tolerance::Variance(f64::INFINITY), ..AIC_1 });
    list.scores(Settings { tolerance: Tolerance::Measurement(NAN), ..AIC_1 });
}

fn bounds(list: &mut List) {
    list.head("bounds: by name, each with a line of 50 samples");
    let y = |i: usize| (2 * i) as f64 + (i * 7 % 5) as f64 / 4.0;
    list.framed_book(&at_whole_x(&(0..50).map(y).collect::<Vec<_>>()));
    for bound in [DegreeBound::Conservative, DegreeBound::Relaxed, DegreeBound::Aggressive] {
        for criterion in [Criterion::Aic, Criterion::Bic] {
            list.whole_scores(Settings { bound, criterion, ..AIC_1 }, 50);
        }
    }
}

fn short(list: &mut List) {
    list.head("short: each memory one place short, exact, and longer; 1 before 4, 7 and 8");
    list.book(&at_whole_x(&[1.0, 3.0, 5.0]));
    list.mark_scores(3);
    let nan = Settings { confidence: Confidence::Custom(NAN), ..AIC_1 };
    let lengths = [
        (Name::Sums, PLACES, PLACES),
        (Name::Scratch, 3, 4096),
        (Name::Solved, TERMS, TERMS),
        (Name::Scores, TERMS, TERMS),
        (Name::Ws, 3, 4096),
    ];
    for (name, places, before) in lengths {
        list.lent(name, places - 1);
        list.scores(AIC_1);
        list.scores(nan);
        list.scores(up_to(20));
        list.show(Name::Scores, TERMS + 1);
        list.show(Name::Scratch, 4);
        list.lent(name, places);
        list.scores(nan);
        list.scores(AIC_1);
        list.lent(name, places + 1);
        list.scores(AIC_1);
        list.show(Name::Scores, TERMS + 1);
        list.mark_scores(3);
        list.lent(name, before);
    }
    list.head("short: what only a report writes is not judged");
    for name in [Name::Coefficients, Name::Errors, Name::Pruned] {
        list.lent(name, TERMS - 1);
    }
    for name in [Name::Lower, Name::Upper, Name::Outliers] {
        list.lent(name, 2);
    }
    list.report(AIC_1);
    list.scores(AIC_1);
    list.lend_all();
    list.head("short: no samples and no sums; a count above capacity");
    list.call(Call::Open);
    list.lent(Name::Sums, PLACES - 1);
    list.scores(AIC_1);
    list.scores(nan);
    list.lent(Name::Sums, PLACES);
    list.ask(Request::Count(4097));
    list.scores(up_to(20));
    list.ask(Request::Count(0));
}

fn early(list: &mut List) {
    list.head("early: 4, 7 and 8 in order, and scratch and scores as they were");
    let nan = Settings { confidence: Confidence::Custom(NAN), ..AIC_1 };
    list.call(Call::Open);
    list.mark_scores(17);
    list.scores(AIC_1);
    list.scores(nan);
    list.framed_book(&at_whole_x(&[1.0; 17]));
    list.scores(up_to(20));
    list.scores(Settings { bound: DegreeBound::Custom(20), ..nan });
    for name in [Name::Xs, Name::Ys, Name::Ws] {
        list.put(name, 16, NAN);
        list.scores(up_to(20));
        list.scores(AIC_1);
        list.put(name, 16, 1.0);
    }
    list.show(Name::Scores, TERMS + 1);
    list.show(Name::Scratch, 18);
}

fn late(list: &mut List) {
    list.head("late: 11, where no degree is chosen; scratch cleared, bytes and scores unchanged");
    list.book(&[(0.0, f64::MAX), (0.0, f64::MAX)]);
    list.mark_scores(2);
    list.whole_scores(AIC_1, 2);
    list.head("late: 11 with a solved degree, whose score is +infinity");
    list.book(&at_whole_x(&[3e200, -1e200, -2e200]));
    list.mark_scores(3);
    list.whole_scores(AIC_1, 3);
    list.head("late: 12, though there are scores; scratch cleared, bytes and scores unchanged");
    list.book(&at_whole_x(&[1.0, 3.0, 5.0]));
    list.put_sums(&inverse_fails());
    list.mark_scores(3);
    list.whole_scores(AIC_1, 3);
}

fn fields(list: &mut List) {
    list.head("fields: those of a report");
    list.book(&[(0.0, 1.0)]);
    let (zero, settings) = ("0000000000000000", "custom 1 aic p95 0000000000000000 none");
    let lines = [
        "scores".to_string(),
        "scores 1".to_string(),
        format!("scores {settings}"),
        format!("scores {settings} {zero} "),
        format!("scores {settings} {zero} both"),
        format!("scores {settings} {zero} size {zero}"),
        "score 0".to_string(),
        "lent scores 4201".to_string(),
        format!("put scores 4200 {zero}"),
        format!("put solved 0 {zero}"),
    ];
    for line in lines {
        list.line(&line);
    }
    list.line(&format!("scores {settings} {zero}"));
    list.line(&format!("scores {settings} {zero} positive"));
    list.line(&format!("scores {settings} {zero} size"));
}
