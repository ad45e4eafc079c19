//! Splits: document 02's E8. `tests/lists.rs` checks that each edge is met.

use journal::{Call, Name, Request};
use judge::fit::{Criterion, PruningRule, Settings};
use judge::statistics::{Confidence, DegreeBound, Tolerance, LEVELS};
use judge::sums::{PLACES, TERMS};
use judge::Sample;

use crate::list::{at_whole_x, by_size, up_to, List, AIC_1, NAN};

/// The text's greatest whole number.
const MOST: usize = 999_999_999;

/// A bend at 4.
const BEND: [f64; 8] = [0.0, 1.1, 1.9, 3.05, 2.95, 2.1, 0.9, 0.02];

const INFINITY: f64 = f64::INFINITY;

impl List {
    pub fn split(&mut self, settings: Settings, limit: usize) {
        self.call(Call::Split { limit, settings });
    }

    /// At each limit.
    fn split_at(&mut self, settings: Settings, limits: &[usize]) {
        for &limit in limits {
            self.split(settings, limit);
        }
    }

    /// A split and all that it writes for n samples, with one place more.
    fn whole_split(&mut self, settings: Settings, limit: usize, n: usize) {
        self.split(settings, limit);
        self.show_sides(n);
    }

    fn show_sides(&mut self, n: usize) {
        for name in [Name::Before, Name::After] {
            self.show(name, TERMS + 1);
        }
        self.show(Name::Scratch, n + 1);
    }

    /// Whole numbers where a split may write, and in one place more.
    fn mark_sides(&mut self, n: usize) {
        for i in 0..TERMS + 1 {
            self.put(Name::Before, i, 600.0 + i as f64);
            self.put(Name::After, i, 700.0 + i as f64);
        }
        self.mark_scratch(n);
    }
}

pub fn split() -> String {
    let mut list = List::new(
        "A list broken in two, melt season and cold season: document 02, E8. Made by `lists split`.",
    );
    bends(&mut list);
    equals(&mut list);
    scores(&mut list);
    passed_over(&mut list);
    counts(&mut list);
    sums(&mut list);
    bounds(&mut list);
    settings(&mut list);
    short_memory(&mut list);
    order(&mut list);
    scratch(&mut list);
    changes(&mut list);
    fields(&mut list);
    list.text
}

fn bends(list: &mut List) {
    list.head("bend: eight samples with a bend at 4, and 3 is answered: short sides are favoured");
    list.book(&at_whole_x(&BEND));
    list.mark_sides(8);
    list.whole_split(AIC_1, 30, 8);
    list.split_at(AIC_1, &[29, 31, 0, 1, MOST]);
    list.split(Settings { criterion: Criterion::Bic, ..AIC_1 }, 30);

    list.head("bend: each side of two scores the same, whatever its y's");
    for ys in [[0.0, 1.0, 7.0, 5.0], [1e9, -3.0, 0.001, 0.0]] {
        list.book(&at_whole_x(&ys));
        list.split(up_to(0), 2);
        list.split(up_to(9), 6);
    }

    list.head(
        "bend: forty samples of a pit with a melt crust after the eighteenth, which is found",
    );
    let density = |i: usize| {
        let x = i as f64 / 10.0;
        let y = if i < 18 { 350.0 + 10.0 * x } else { 520.0 - 30.0 * x };
        (x, y + (i * i * 7 % 11) as f64 / 2.0)
    };
    let pit: Vec<(f64, f64)> = (0..40).map(density).collect();
    list.framed_book(&pit);
    for degree in [0, 1, 2, 3] {
        list.whole_split(up_to(degree), MOST, 40);
    }
    for bound in [DegreeBound::Conservative, DegreeBound::Relaxed, DegreeBound::Aggressive] {
        list.split(Settings { bound, criterion: Criterion::Bic, ..AIC_1 }, MOST);
    }
}

fn equals(list: &mut List) {
    list.head("equals: of seven equal samples the breaks 2 and 5 total the same: 2");
    list.book(&at_whole_x(&[1.0; 7]));
    list.whole_split(up_to(0), MOST, 7);
    list.head("equals: of any four samples there is one break");
    list.book(&at_whole_x(&[3.0, 1.0, 4.0, 1.5]));
    list.whole_split(up_to(3), MOST, 4);
    list.head("equals: one sample on a side would total less, and is not tried");
    list.book(&at_whole_x(&[40.0, 1.0, 1.0, 1.0, 1.0]));
    list.whole_split(up_to(0), MOST, 5);
}

fn scores(list: &mut List) {
    list.head("scores: those of the chosen degrees and not the least ones, found by search");
    list.book(&at_whole_x(&[13.0, 6.0, 16.0, 8.0, 10.0, 12.0, 15.0, 19.0, 6.0, 6.0]));
    for criterion in [Criterion::Aic, Criterion::Bic] {
        list.whole_split(Settings { criterion, ..up_to(2) }, MOST, 10);
    }

    list.head("scores: a chosen degree that is exactly 2 above the least on a side of three");
    list.book(&[(0.0, 1.0), (1.0, 3.0), (2.0, 5.0), (3.0, 8.0), (4.0, 8.5), (5.0, 6.0)]);
    list.whole_split(AIC_1, MOST, 6);
}

/// Of the first three the sizes differ and their losses overflow; two of them have no loss, and neither
/// have more than half that are equal.
const OVERFLOWING: [f64; 6] = [3e200, -1e200, -2e200, 0.0, 0.0, 0.0];

fn passed_over(list: &mut List) {
    let most = f64::MAX;
    list.head("passed over: the side before a break has no choice, and 2 is answered");
    list.book(&at_whole_x(&OVERFLOWING));
    list.whole_split(up_to(0), 6, 6);
    list.head("passed over: the side after a break has no choice, and n - 2 is answered");
    let mut turned = OVERFLOWING;
    turned.reverse();
    list.book(&at_whole_x(&turned));
    list.whole_split(up_to(0), 6, 6);
    list.head("passed over: every break, so that 11 is given; and 16 before it");
    list.book(&[(0.0, most); 4]);
    list.mark_sides(4);
    list.split_at(up_to(0), &[MOST, 2]);
    list.show_sides(4);
    list.split_at(up_to(0), &[1, 0]);
    list.head("passed over: every break of six, with degrees unsolved");
    list.book(&[(0.0, most), (0.0, most), (1.0, 1.0), (1.0, 2.0), (2.0, most), (2.0, most)]);
    list.split_at(up_to(2), &[MOST, 0]);
}

fn counts(list: &mut List) {
    list.head("counts: equal x's, whose second pivot fails and is counted");
    list.book(&[(2.0, 1.0), (2.0, 5.0), (2.0, 4.0), (2.0, 2.0)]);
    for (degree, made) in [(0, 2), (1, 6)] {
        list.split_at(up_to(degree), &[made, made - 1]);
    }
    list.book(&[(2.0, 1.0), (2.0, 5.0), (2.0, 4.0), (2.0, 2.0), (2.0, 3.0), (2.0, 0.0)]);
    list.split_at(up_to(3), &[MOST, 30, 29]);

    list.head("counts: years, of which degree 3 and higher ones are unsolved");
    let ys = [310.0, 305.0, 322.0, 340.0, 338.0, 351.0, 349.0, 360.0, 371.0, 370.0];
    let years: Vec<(f64, f64)> =
        ys.iter().enumerate().map(|(i, &y)| (2000.0 + i as f64, y)).collect();
    list.book(&years);
    list.split_at(up_to(4), &[MOST, 0]);

    list.head("counts: the tests of a break that is passed over");
    list.book(&at_whole_x(&OVERFLOWING));
    list.split_at(up_to(0), &[6, 5, 2]);
}

fn sums(list: &mut List) {
    list.head("sums: those after the break are folded, not subtracted, found by search");
    let ys = [5.0, 7.0, 1.0, 7.0, 6.0, 16.0, 5.0, 1.0, 7.0, 2.0];
    let tenths: Vec<(f64, f64)> =
        ys.iter().enumerate().map(|(i, &y)| (i as f64 / 10.0, y)).collect();
    list.book(&tenths);
    list.whole_split(up_to(2), MOST, 10);

    list.head("sums: the lent ones are not read, and not written");
    list.put_sums(&[(0, NAN), (1, -0.0), (17, INFINITY), (256, -7.0), (271, NAN)]);
    list.whole_split(up_to(2), MOST, 10);
    list.show(Name::Sums, PLACES + 1);

    list.head("sums: with weights, found by search: without them 7 is answered, with them 4");
    let weighted = [
        (13.0, 0.5),
        (8.0, 3.0),
        (14.0, 3.0),
        (5.0, 1.0),
        (8.0, 2.0),
        (2.0, 3.0),
        (5.0, 1.0),
        (14.0, 2.0),
        (6.0, 1.0),
        (19.0, 1.0),
    ];
    for weights in [false, true] {
        list.call(Call::Open);
        for (i, (y, weight)) in weighted.into_iter().enumerate() {
            let weight = if weights { weight } else { 1.0 };
            list.call(Call::Add(Sample { x: i as f64, y, weight }));
        }
        list.whole_split(up_to(2), MOST, 10);
    }
    list.line("# a weight in the column that is not above zero is read as it is");
    list.put(Name::Ws, 2, 0.0);
    list.put(Name::Ws, 7, -1.0);
    list.whole_split(up_to(2), MOST, 10);
}

fn bounds(list: &mut List) {
    let curve = |n: usize| -> Vec<(f64, f64)> {
        (0..n).map(|i| (i as f64 / 8.0, (i * i * 5 % 13) as f64)).collect()
    };
    list.head("bounds: a side's own, of 16 samples degree 1, where the whole list's is 3");
    list.framed_book(&curve(32));
    let by = |bound| Settings { bound, ..AIC_1 };
    for bound in [DegreeBound::Relaxed, DegreeBound::Aggressive, DegreeBound::Conservative] {
        list.split_at(by(bound), &[MOST, 0]);
    }
    list.head("bounds: Custom 9 of sides with two samples and more");
    list.book(&curve(7));
    list.split_at(up_to(9), &[MOST, 0]);
    list.split_at(up_to(MOST), &[MOST, 0]);

    list.head("bounds: 8 by the whole list's: Custom 16 passes with 16 samples, and not with 17");
    list.framed_book(&curve(16));
    list.split_at(up_to(16), &[MOST, 0]);
    list.framed_book(&curve(17));
    list.split_at(up_to(16), &[MOST, 0]);
    list.split_at(up_to(15), &[MOST, 0]);
    list.head("bounds: 8 by the whole list's: Aggressive at 136, whose sides are far below");
    list.framed_book(&curve(136));
    list.split(by(DegreeBound::Aggressive), MOST);
    list.head("bounds: every degree of sixty-four samples");
    list.framed_book(
        &(0..64).map(|i| (i as f64 / 31.5 - 1.0, (i * 7 % 5) as f64)).collect::<Vec<_>>(),
    );
    list.split(up_to(15), MOST);
}

fn settings(list: &mut List) {
    list.head("settings: the same answer by every confidence, tolerance and rule of pruning");
    list.book(&at_whole_x(&BEND));
    for confidence in LEVELS.into_iter().chain([Confidence::Custom(-2.5)]) {
        list.split(Settings { confidence, ..AIC_1 }, 30);
    }
    let tolerances =
        [Tolerance::Absolute(-1.0), Tolerance::Variance(1e300), Tolerance::Measurement(0.0)];
    for tolerance in tolerances {
        list.split(Settings { tolerance, ..AIC_1 }, 30);
    }
    list.split(by_size(AIC_1), 30);
}

/// 1: each memory one place too short; then a count above capacity.
fn short_memory(list: &mut List) {
    list.head("refused by 1: each memory one place too short");
    list.book(&at_whole_x(&BEND));
    list.mark_sides(8);
    let memories = [
        (Name::Sums, PLACES),
        (Name::Scratch, 8),
        (Name::Before, TERMS),
        (Name::After, TERMS),
        (Name::Xs, 8),
        (Name::Ys, 8),
        (Name::Ws, 8),
    ];
    for (name, places) in memories {
        list.lent(name, places - 1);
        list.split(AIC_1, 30);
        list.lent(name, places);
    }
    list.show_sides(8);
    list.split(AIC_1, 30);
    list.head("refused by 1: a count above capacity");
    list.ask(Request::Count(9));
    list.split(AIC_1, 30);
    list.ask(Request::Count(MOST));
    list.split(AIC_1, 30);
    list.head("refused by 1: what only a report writes is not judged");
    list.ask(Request::Count(8));
    let others = [Name::Coefficients, Name::Errors, Name::Pruned, Name::Lower, Name::Upper];
    for name in others.into_iter().chain([Name::Outliers]) {
        list.lent(name, 0);
    }
    list.split(AIC_1, 30);
    list.lend_all();
    list.lent(Name::Before, TERMS);
    list.lent(Name::After, TERMS);
}

/// Every pair of 1, 4, 7, 8, 16 and 11 that can hold together.
fn order(list: &mut List) {
    let score = |settings: Settings| Settings { confidence: Confidence::Custom(NAN), ..settings };
    let tolerance =
        |settings: Settings| Settings { tolerance: Tolerance::Variance(INFINITY), ..settings };
    list.head("order: 7 with three samples and fewer; 4 before it, and 1 before that");
    for n in 0..4 {
        list.book(&at_whole_x(&BEND[..n]));
        for sums in [PLACES, PLACES - 1] {
            list.lent(Name::Sums, sums);
            list.split_at(AIC_1, &[0, MOST]);
            list.split(score(AIC_1), 0);
            list.split(tolerance(AIC_1), 0);
        }
        list.lent(Name::Sums, PLACES);
    }
    list.line("# a value in a column");
    list.put(Name::Ys, 1, NAN);
    list.split(AIC_1, 0);

    list.head("order: 8 with seventeen samples; 4 and 1 before it, 16 after");
    let ys: Vec<f64> = (0..17).map(|i| (i * i % 7) as f64).collect();
    list.framed_book(&at_whole_x(&ys));
    for sums in [PLACES, PLACES - 1] {
        list.lent(Name::Sums, sums);
        list.split_at(up_to(16), &[MOST, 0]);
        list.split(score(up_to(16)), 0);
        list.split(tolerance(up_to(16)), 0);
        list.split_at(up_to(1), &[0, MOST]);
    }
    list.lent(Name::Sums, PLACES);

    list.head("order: 4 by a value of each column before 8 and 16; past the count it is nobody's");
    for name in [Name::Xs, Name::Ys, Name::Ws] {
        for (at, value) in [(16, NAN), (0, INFINITY), (17, NAN)] {
            list.framed_book(&at_whole_x(&ys));
            list.put(name, at, value);
            list.split_at(up_to(16), &[MOST, 0]);
            list.split_at(up_to(1), &[MOST, 0]);
        }
    }

    list.head("order: 16 before 11, and 4 and 1 before both");
    list.book(&[(0.0, f64::MAX); 5]);
    for sums in [PLACES, PLACES - 1] {
        list.lent(Name::Sums, sums);
        list.split_at(up_to(0), &[0, 3, 4]);
        list.split(score(up_to(0)), 0);
    }
    list.lent(Name::Sums, PLACES);
}

fn scratch(list: &mut List) {
    list.head("scratch: cleared at 16 and 11 and on success, left at 1, 4, 7 and 8");
    let ys: Vec<f64> = (0..17).map(|i| (i * i % 7) as f64).collect();
    list.framed_book(&at_whole_x(&ys));
    list.mark_sides(17);
    list.split(up_to(16), MOST);
    list.split(Settings { confidence: Confidence::Custom(INFINITY), ..AIC_1 }, MOST);
    list.lent(Name::Before, TERMS - 1);
    list.split(AIC_1, MOST);
    list.lent(Name::Before, TERMS);
    list.show_sides(17);
    list.split(AIC_1, 0);
    list.show_sides(17);
    list.mark_scratch(17);
    list.whole_split(AIC_1, MOST, 17);
    list.book(&[(0.0, f64::MAX); 4]);
    list.mark_sides(4);
    list.split(AIC_1, MOST);
    list.show_sides(4);
    list.call(Call::Withdraw { index: 3 });
    list.mark_scratch(4);
    list.split(AIC_1, MOST);
    list.show_sides(4);
}

fn changes(list: &mut List) {
    list.head("changes: a split changes nothing of the book, and sees each change of it");
    list.book(&at_whole_x(&BEND));
    list.split(AIC_1, MOST);
    for name in [Name::Xs, Name::Ys, Name::Ws] {
        list.show(name, 9);
    }
    list.show(Name::Sums, PLACES + 1);
    list.call(Call::Correct { index: 5, y: 2.4 });
    list.whole_split(AIC_1, MOST, 8);
    list.call(Call::Withdraw { index: 0 });
    list.whole_split(AIC_1, MOST, 7);
    list.add(9.0, 0.5);
    list.whole_split(AIC_1, MOST, 8);
    list.call(Call::Carry);
    list.whole_split(AIC_1, MOST, 8);
    list.report(AIC_1);
}

fn fields(list: &mut List) {
    list.head("fields: malformed lines change nothing");
    let bits = "0000000000000000";
    let lines = [
        "split".to_string(),
        "split ".to_string(),
        "split many".to_string(),
        "split 1234567890 custom 1".to_string(),
        "split 30".to_string(),
        "split 30 loose 1".to_string(),
        "split 30 custom 1 mse".to_string(),
        format!("split 30 custom 1 aic p95 {bits} none"),
        format!("split 30 custom 1 aic p95 {bits} none {bits} sign"),
        format!("split 30 custom 1 aic p95 {bits} none {bits} size {bits}"),
        format!("split custom 1 aic p95 {bits} none {bits}"),
        "lent before 4201".to_string(),
        "show after 0 4201".to_string(),
        "put behind 0".to_string(),
    ];
    for line in lines {
        list.line(&line);
    }
    list.line("# numbers that are read and ignored");
    list.line("split 000000030 custom 1 aic p95 7FF8000000000000 none FFF0000000000000");
    let rules = [PruningRule::Positive, PruningRule::Size];
    for pruning in rules {
        list.split(Settings { pruning, ..AIC_1 }, 30);
    }
}
