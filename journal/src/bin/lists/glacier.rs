//! A season book of 32 stakes: document 02's E14. `tests/lists.rs` checks that each edge is met.

use journal::{Call, Name, Request};
use judge::fit::{Criterion, Settings};
use judge::frame::encode_weighted;
use judge::season::STAKES;
use judge::statistics::{Confidence, DegreeBound, Tolerance};
use judge::sums::{PLACES, TERMS};
use judge::Sample;

use crate::list::{at_whole_x, by_size, up_to, List, AIC_1, NAN};

/// The places of a part, and those left at the end, of each memory that is cut.
const PARTS: [(Name, usize, usize); 11] = [
    (Name::Xs, 5, 1),
    (Name::Ys, 6, 31),
    (Name::Ws, 5, 0),
    (Name::Sums, PLACES + 1, 7),
    (Name::Scratch, 7, 3),
    (Name::Coefficients, TERMS, 30),
    (Name::Errors, TERMS + 2, 1),
    (Name::Pruned, TERMS, 5),
    (Name::Lower, 5, 9),
    (Name::Upper, 6, 2),
    (Name::Outliers, 5, 31),
];

/// What is lent for a call alone.
const OWN: [(Name, usize); 5] = [
    (Name::Losses, 5),
    (Name::Solved, TERMS),
    (Name::Scores, TERMS),
    (Name::Before, TERMS),
    (Name::After, TERMS),
];

const OUTPUTS: [Name; 7] = [
    Name::Scratch,
    Name::Coefficients,
    Name::Errors,
    Name::Pruned,
    Name::Lower,
    Name::Upper,
    Name::Outliers,
];

fn places_of(name: Name) -> (usize, usize) {
    let found = PARTS.iter().find(|(cut, _, _)| *cut == name);
    found.map_or((0, 0), |(_, places, rest)| (*places, *rest))
}

impl List {
    /// Everything lent whole, as PARTS has it.
    fn lend_season(&mut self) {
        for (name, places, rest) in PARTS {
            self.lent(name, STAKES * places + rest);
        }
        for (name, places) in OWN {
            self.lent(name, places);
        }
        self.lent(Name::Counts, STAKES);
    }

    /// A stake's part of some memory.
    fn show_part(&mut self, name: Name, stake: usize) {
        let places = places_of(name).0;
        let from = stake * places;
        self.ask(Request::Show { name, from, to: from + places });
    }

    /// All of it, with a place more.
    fn show_whole(&mut self, name: Name) {
        let (places, rest) = places_of(name);
        self.show(name, STAKES * places + rest + 1);
    }

    fn counts(&mut self) {
        self.show(Name::Counts, STAKES + 1);
    }

    fn stake(&mut self, stake: usize, call: Call) {
        self.call(Call::Season { stake, call: Box::new(call) });
    }

    fn put_count(&mut self, index: usize, number: usize) {
        self.ask(Request::PutNumber { name: Name::Counts, index, number });
    }

    /// A stake just opened with these samples.
    fn fill(&mut self, stake: usize, pairs: &[(f64, f64)]) {
        self.stake(stake, Call::Open);
        for &(x, y) in pairs {
            self.stake(stake, Call::Add(Sample::unweighted(x, y)));
        }
    }

    fn season_report(&mut self, settings: Settings) {
        self.call(Call::SeasonReport(settings));
    }
}

/// Every call of a stake, let through or refused.
fn calls() -> Vec<Call> {
    let sample = |x: f64, y: f64, weight: f64| Sample { x, y, weight };
    let nan = Settings { tolerance: Tolerance::Absolute(NAN), ..AIC_1 };
    let (confidence, tolerance) = (Confidence::P95, Tolerance::Absolute(0.25));
    let band = |x| Call::Band { x, degree: 1, confidence, tolerance };
    let validate =
        |folds| Call::Validate { folds, bound: DegreeBound::Custom(1), criterion: Criterion::Bic };
    let many = encode_weighted(&[sample(2.0, 4.5, 1.0); 6]);
    vec![
        Call::Open,
        Call::Report(AIC_1),
        Call::Add(sample(0.0, 1.0, 2.0)),
        Call::Add(sample(NAN, 1.0, 2.0)),
        Call::Add(sample(0.0, 1.0, 0.0)),
        Call::AddLines(b"1 3.5\n".to_vec()),
        Call::AddLines(b"1 3.5".to_vec()),
        Call::AddLines(b"1 1234567890123456\n".to_vec()),
        Call::AddFrame(many),
        Call::AddFrame(vec![0, 1]),
        Call::AddFrame(vec![0, 1, 3]),
        Call::Split { limit: 100, settings: AIC_1 },
        Call::AddFrame(encode_weighted(&[sample(2.0, 4.5, 1.0), sample(3.0, 8.0, 2.0)])),
        Call::Fit { degree: 1 },
        Call::Fit { degree: 4 },
        validate(2),
        validate(5),
        band(1.5),
        band(9.0),
        Call::Report(AIC_1),
        Call::Report(by_size(up_to(2))),
        Call::Report(nan),
        Call::Scores(up_to(2)),
        Call::Losses(AIC_1),
        Call::Split { limit: 6, settings: AIC_1 },
        Call::Split { limit: 5, settings: AIC_1 },
        Call::Correct { index: 1, y: -2.0 },
        Call::Correct { index: 4, y: -2.0 },
        Call::AddWindow(sample(4.0, 9.0, 1.0)),
        Call::Add(sample(5.0, 9.0, 1.0)),
        Call::AddWindow(sample(5.0, 9.0, 3.0)),
        Call::Report(AIC_1),
        Call::Withdraw { index: 2 },
        Call::Withdraw { index: 4 },
        Call::Carry,
        Call::Report(AIC_1),
    ]
}

/// One of each of a stake's calls, each with an argument that is wrong too where it has one.
fn wrong_calls() -> Vec<Call> {
    let nan = Settings { tolerance: Tolerance::Absolute(NAN), ..up_to(16) };
    let (confidence, tolerance) = (Confidence::Custom(NAN), Tolerance::None);
    vec![
        Call::Open,
        Call::Add(Sample { x: NAN, y: 1.0, weight: 0.0 }),
        Call::AddWindow(Sample { x: 1.0, y: 1.0, weight: 0.0 }),
        Call::AddFrame(vec![0]),
        Call::AddLines(b"1".to_vec()),
        Call::Correct { index: 9, y: NAN },
        Call::Withdraw { index: 9 },
        Call::Carry,
        Call::Fit { degree: 99 },
        Call::Validate { folds: 0, bound: DegreeBound::Custom(16), criterion: Criterion::Aic },
        Call::Band { x: NAN, degree: 99, confidence, tolerance },
        Call::Report(nan),
        Call::Split { limit: 0, settings: nan },
        Call::Losses(nan),
        Call::Scores(nan),
    ]
}

pub fn glacier() -> String {
    let mut list =
        List::new("A season book of 32 stakes: document 02, E14. Made by `lists glacier`.");
    opened(&mut list);
    cut(&mut list);
    plain(&mut list);
    others(&mut list);
    numbers(&mut list);
    above(&mut list);
    short_counts(&mut list);
    short_parts(&mut list);
    not_cut(&mut list);
    few(&mut list);
    report(&mut list);
    eight(&mut list);
    correction(&mut list);
    fields(&mut list);
    list.text
}

fn opened(list: &mut List) {
    list.head("open: all 32 counts are 0, and 272 places of each part of the sums +0");
    list.lend_season();
    for stake in 0..STAKES + 1 {
        list.put_count(stake, 40 + stake);
    }
    let (places, rest) = places_of(Name::Sums);
    for stake in [0, 1, 30, 31] {
        for at in [0, PLACES - 1, PLACES] {
            list.put(Name::Sums, stake * places + at, 7.0);
        }
    }
    for at in 0..rest + 1 {
        list.put(Name::Sums, STAKES * places + at, 7.0);
    }
    list.call(Call::SeasonOpen);
    list.counts();
    list.show_whole(Name::Sums);
    list.head(
        "open: short counts, and a part of the sums that is a place too short, change nothing",
    );
    list.put_count(0, 5);
    list.put_count(31, 6);
    list.put(Name::Sums, 0, 7.0);
    for (counts, sums) in [(31, STAKES * PLACES), (0, 8800), (32, STAKES * PLACES - 1), (32, 0)] {
        list.lent(Name::Counts, counts);
        list.lent(Name::Sums, sums);
        list.call(Call::SeasonOpen);
    }
    list.counts();
    list.show(Name::Sums, 3);
    list.line("# as long as it has to be");
    list.lent(Name::Sums, STAKES * PLACES);
    list.call(Call::SeasonOpen);
    list.counts();
    list.show(Name::Sums, 3);
    list.lend_season();
}

fn cut(list: &mut List) {
    list.head(
        "cut: each memory by its own length, in stake order; what is left at the end is nobody's",
    );
    list.call(Call::SeasonOpen);
    for name in [Name::Xs, Name::Ys, Name::Ws] {
        let (places, rest) = places_of(name);
        for at in 0..STAKES * places + rest + 1 {
            list.put(name, at, 1000.0 + at as f64);
        }
    }
    for (stake, y) in [(0, 10.0), (1, 20.0), (30, 30.0), (31, 40.0)] {
        for i in 0..2 {
            let sample = Sample { x: y + i as f64, y: 2.0 * y, weight: 2.0 };
            list.stake(stake, Call::Add(sample));
        }
    }
    list.counts();
    for name in [Name::Xs, Name::Ys, Name::Ws] {
        list.show_whole(name);
    }
    for stake in [0, 1, 2, 29, 30, 31] {
        list.show_part(Name::Sums, stake);
    }
    list.line("# a fit writes the coefficients of its stake's part, and clears its scratch");
    for at in 0..STAKES * 7 + 4 {
        list.put(Name::Scratch, at, 500.0 + at as f64);
    }
    for at in 0..STAKES * TERMS + 31 {
        list.put(Name::Coefficients, at, 100.0 + at as f64);
    }
    for stake in [0, 31] {
        list.stake(stake, Call::Fit { degree: 1 });
        list.show_whole(Name::Scratch);
        list.show_whole(Name::Coefficients);
    }
}

fn plain(list: &mut List) {
    list.head("plain: every call of stake 0");
    for call in calls() {
        list.stake(0, call);
    }
    for (name, _, _) in PARTS {
        list.show_part(name, 0);
    }
    list.counts();
    list.head("plain: the same calls of a book on the first places, as many as of a part");
    for (name, places, _) in PARTS {
        list.lent(name, places);
    }
    for call in calls() {
        list.call(call);
    }
    for (name, places, _) in PARTS {
        list.show(name, places);
    }
    list.head("plain: every call of stake 31, and of stake 17 between them");
    list.lend_season();
    list.call(Call::SeasonOpen);
    for call in calls() {
        list.stake(31, call.clone());
        list.stake(17, call);
    }
    for (name, _, _) in PARTS {
        list.show_part(name, 31);
        list.show_part(name, 17);
    }
    list.counts();
}

fn others(list: &mut List) {
    list.head("others: a NaN in another stake's column is not looked at");
    list.call(Call::SeasonOpen);
    for stake in [4, 5, 6] {
        list.fill(stake, &at_whole_x(&[1.0, 3.0, 4.0, 8.0]));
    }
    list.put(Name::Ys, 6 * 5 + 2, NAN);
    for stake in [4, 5, 6] {
        list.stake(stake, Call::Report(AIC_1));
        list.stake(stake, Call::Fit { degree: 1 });
        list.stake(stake, Call::Correct { index: 0, y: 2.0 });
    }
    list.line("# nor is one past the count");
    list.put(Name::Xs, 5 * 6 + 4, NAN);
    list.stake(6, Call::Report(AIC_1));
    list.line("# an opened stake is empty, and the others stay");
    list.stake(5, Call::Open);
    list.stake(5, Call::Report(AIC_1));
    list.stake(6, Call::Report(AIC_1));
    list.counts();
}

/// A stake's calls that read it.
fn readings(degree: usize) -> Vec<Call> {
    let settings = up_to(degree);
    let Settings { bound, criterion, confidence, tolerance, .. } = settings;
    vec![
        Call::Fit { degree },
        Call::Validate { folds: 2, bound, criterion },
        Call::Band { x: 0.0, degree, confidence, tolerance },
        Call::Report(settings),
        Call::Split { limit: 100, settings },
        Call::Losses(settings),
        Call::Scores(settings),
    ]
}

fn numbers(list: &mut List) {
    list.head(
        "numbers: the readings of an empty stake, of one with a NaN and of one with equal x's",
    );
    list.call(Call::SeasonOpen);
    list.fill(12, &at_whole_x(&[1.0, 3.0, 5.0, 2.0]));
    list.put(Name::Xs, 5 * 12 + 3, NAN);
    list.fill(13, &[(0.0, 1.0), (0.0, 5.0), (0.0, 6.0), (0.0, 2.5)]);
    for stake in [11, 12, 13] {
        for call in readings(1) {
            list.stake(stake, call);
        }
    }
    list.line("# what is refused by 4, 15 and 5 as it is added, by 4 as it is corrected");
    let bad = Sample { x: 1.0, y: NAN, weight: 0.0 };
    let light = Sample { x: 1.0, y: 2.0, weight: 0.0 };
    for stake in [31, 32] {
        for sample in [bad, light] {
            list.stake(stake, Call::Add(sample));
            list.stake(stake, Call::AddWindow(sample));
            list.stake(stake, Call::AddFrame(encode_weighted(&[sample])));
        }
        list.stake(stake, Call::AddFrame(encode_weighted(&[Sample::unweighted(1.0, 1.0); 6])));
        list.stake(stake, Call::AddFrame(vec![0, 1, 3]));
        list.stake(stake, Call::AddLines(b"1 2\n".repeat(6)));
        list.stake(stake, Call::AddLines(b"1 1234567890123456\n".to_vec()));
        list.stake(stake, Call::Correct { index: 0, y: NAN });
    }
    list.counts();
}

fn above(list: &mut List) {
    list.head("above: 18 for a stake above 31, before every other number; nothing changes");
    list.call(Call::SeasonOpen);
    list.fill(31, &at_whole_x(&[1.0, 3.0, 4.0, 8.0]));
    for stake in [32, 33, 63, 999_999_999] {
        for call in wrong_calls() {
            list.stake(stake, call);
        }
    }
    list.line("# before 1: no counts, no sums, no scratch and no outputs at all");
    list.lent(Name::Counts, 0);
    for (name, _, _) in PARTS {
        list.lent(name, 0);
    }
    for call in wrong_calls() {
        list.stake(32, call);
    }
    list.line("# and 31 is a stake: 1 before the others");
    for call in wrong_calls() {
        list.stake(31, call);
    }
    list.lend_season();
    list.counts();
    list.stake(31, Call::Report(AIC_1));
}

fn short_counts(list: &mut List) {
    list.head("counts: 31 places are too few, for every stake and before the call's own numbers");
    list.lent(Name::Counts, 31);
    for stake in [0, 30, 31] {
        for call in wrong_calls() {
            list.stake(stake, call);
        }
    }
    list.season_report(AIC_1);
    list.counts();
    list.line("# places past the 32 are nobody's");
    list.lent(Name::Counts, 34);
    list.put_count(32, 9);
    list.stake(31, Call::Add(Sample::unweighted(9.0, 9.0)));
    list.season_report(AIC_1);
    list.counts();
    list.lent(Name::Counts, STAKES);
}

fn short_parts(list: &mut List) {
    list.head(
        "parts: a place less than 32 whole parts is a part shorter, and 31 more make none longer",
    );
    list.call(Call::SeasonOpen);
    let ys = at_whole_x(&[1.0, 3.0, 4.0, 8.0, 7.0]);
    list.fill(3, &ys);
    let needs = [
        (Name::Scratch, 5),
        (Name::Coefficients, TERMS),
        (Name::Errors, TERMS),
        (Name::Pruned, TERMS),
        (Name::Lower, 5),
        (Name::Upper, 5),
        (Name::Outliers, 5),
    ];
    for (name, places) in needs {
        for length in [STAKES * places, STAKES * places - 1, STAKES * (places - 1) + 31] {
            list.lent(name, length);
            list.stake(3, Call::Report(AIC_1));
            list.stake(3, Call::Fit { degree: 1 });
        }
        list.lent(name, STAKES * places_of(name).0 + places_of(name).1);
    }
    list.line("# of sums and columns too; stake 0 lies where it lay");
    list.fill(0, &ys);
    for length in [STAKES * PLACES, STAKES * PLACES - 1] {
        list.lent(Name::Sums, length);
        list.stake(0, Call::Report(AIC_1));
        list.stake(0, Call::Correct { index: 0, y: 1.5 });
        list.stake(0, Call::Open);
        list.fill(0, &ys);
    }
    list.lend_season();
    list.fill(0, &ys);
    for name in [Name::Xs, Name::Ys, Name::Ws] {
        for length in [STAKES * 5, STAKES * 5 - 1] {
            list.lent(name, length);
            list.stake(0, Call::Report(AIC_1));
            list.stake(0, Call::Withdraw { index: 9 });
        }
        list.lent(name, STAKES * places_of(name).0 + places_of(name).1);
    }
    list.head("parts: too short for some stakes only");
    list.call(Call::SeasonOpen);
    list.fill(3, &ys);
    list.fill(9, &ys[..2]);
    list.fill(31, &ys[..4]);
    for (name, places) in [(Name::Scratch, 3), (Name::Outliers, 2), (Name::Lower, 4)] {
        list.lent(name, STAKES * places + 31);
        list.season_report(AIC_1);
        list.lent(name, STAKES * places_of(name).0 + places_of(name).1);
    }
}

fn not_cut(list: &mut List) {
    list.head("own: what a season report does not write is not cut");
    list.call(Call::SeasonOpen);
    list.fill(20, &at_whole_x(&[1.0, 2.0, 4.0, 3.0]));
    let settings = up_to(1);
    for (call, memory, places) in [
        (Call::Losses(settings), Name::Losses, 4),
        (Call::Scores(settings), Name::Solved, TERMS),
        (Call::Scores(settings), Name::Scores, TERMS),
        (Call::Split { limit: 100, settings }, Name::Before, TERMS),
        (Call::Split { limit: 100, settings }, Name::After, TERMS),
    ] {
        for length in [places, places - 1, places + 1] {
            list.lent(memory, length);
            list.stake(20, call.clone());
        }
        list.show(memory, places + 1);
        list.lend_season();
    }
}

fn few(list: &mut List) {
    list.head("few: below 32 places a part has none");
    list.call(Call::SeasonOpen);
    let sample = Sample::unweighted(1.0, 2.0);
    for length in [31, 1, 0] {
        for name in [Name::Xs, Name::Ys, Name::Ws] {
            list.lent(name, length);
            for stake in [0, 31] {
                list.stake(stake, Call::Add(sample));
                list.stake(stake, Call::AddWindow(sample));
                list.stake(stake, Call::AddLines(Vec::new()));
            }
            list.lend_season();
        }
        list.lent(Name::Sums, length);
        list.stake(0, Call::Add(sample));
        list.stake(31, Call::Open);
        list.lend_season();
    }
    list.line("# no column and no place to write: each stake is empty, and coefficients are judged before that");
    for name in [Name::Xs, Name::Scratch, Name::Lower, Name::Upper, Name::Outliers] {
        list.lent(name, 0);
    }
    list.season_report(AIC_1);
    list.lent(Name::Coefficients, 31);
    list.season_report(AIC_1);
    list.lend_season();
    list.counts();
}

fn report(list: &mut List) {
    list.head("report: each stake's report or refusal, whatever the others gave");
    list.call(Call::SeasonOpen);
    for name in [Name::Coefficients, Name::Errors, Name::Lower, Name::Upper, Name::Scratch] {
        let (places, rest) = places_of(name);
        for at in 0..STAKES * places + rest + 1 {
            list.put(name, at, 300.0 + at as f64);
        }
    }
    let most = f64::MAX;
    list.fill(1, &at_whole_x(&[1.0, 3.0, 5.0]));
    list.line("# 11");
    list.fill(2, &at_whole_x(&[most, most]));
    list.line("# 1: a count above the capacity, put by hand");
    list.fill(7, &at_whole_x(&[1.0, 3.0, 5.0, 2.0, 2.5]));
    list.put_count(7, 6);
    list.line("# 4: a weight that is not finite");
    list.fill(12, &at_whole_x(&[1.0, 3.0, 5.0]));
    list.put(Name::Ws, 5 * 12 + 1, f64::INFINITY);
    list.line("# 12, by sums that are put there");
    list.fill(13, &[(0.0, 1.0), (1.0, 3.0)]);
    let (p, above) = (1.0 / (1u64 << 26) as f64, 1.0 + 1.0 / 1024.0);
    let first = places_of(Name::Sums).0 * 13;
    let sums = [
        (0, f64::EPSILON),
        (1, p),
        (16, -p * above),
        (17, -1.0),
        (256, f64::EPSILON + 2.0 * p),
        (257, -p * above - 2.0),
    ];
    list.put_sums(&sums.map(|(at, value)| (first + at, value)));
    list.fill(30, &at_whole_x(&[1.0, 2.0, 4.0, 3.0]));
    list.fill(31, &at_whole_x(&[2.5]));
    list.season_report(AIC_1);
    for name in OUTPUTS {
        list.show_whole(name);
    }
    list.counts();
    list.line("# a setting that is not finite: 4 for all but the stake that 1 refuses first");
    list.season_report(Settings { confidence: Confidence::Custom(f64::INFINITY), ..AIC_1 });
    list.season_report(Settings { tolerance: Tolerance::Variance(NAN), ..AIC_1 });
    list.line("# by other settings, and of no stake");
    list.season_report(by_size(up_to(3)));
    list.season_report(Settings {
        bound: DegreeBound::Relaxed,
        criterion: Criterion::Bic,
        ..AIC_1
    });
    list.call(Call::SeasonOpen);
    list.season_report(AIC_1);
}

fn eight(list: &mut List) {
    list.head("report: 8 for the stakes that have samples enough for a bound above 15");
    for name in [Name::Xs, Name::Ys, Name::Ws, Name::Scratch] {
        list.lent(name, STAKES * 17 + 2);
    }
    for name in [Name::Lower, Name::Upper, Name::Outliers] {
        list.lent(name, STAKES * 17);
    }
    list.lent(Name::Losses, 17);
    list.call(Call::SeasonOpen);
    let ys: Vec<f64> = (0..17).map(|i| (i * i % 11) as f64).collect();
    list.fill(0, &at_whole_x(&ys));
    list.fill(8, &at_whole_x(&ys[..16]));
    list.fill(31, &at_whole_x(&ys));
    list.season_report(up_to(15));
    list.season_report(up_to(16));
    for call in readings(16) {
        list.stake(31, call);
    }
    list.lend_season();
}

fn correction(list: &mut List) {
    list.head("correction: one stake corrected between two season reports, and the other 31 keep their bits");
    list.call(Call::SeasonOpen);
    for stake in 0..STAKES {
        let reading = |i: usize| ((i * i + 2 * stake) % 7) as f64 / 3.0 + (i * stake) as f64 / 8.0;
        let ys: Vec<f64> = (0..stake % 6).map(reading).collect();
        list.fill(stake, &at_whole_x(&ys));
    }
    list.season_report(AIC_1);
    for name in OUTPUTS {
        list.show_whole(name);
    }
    list.stake(16, Call::Correct { index: 2, y: 100.0 });
    list.season_report(AIC_1);
    for name in OUTPUTS {
        list.show_whole(name);
    }
    list.head("correction: none of the stakes is empty");
    for stake in (0..STAKES).filter(|stake| stake % 6 == 0) {
        list.fill(stake, &at_whole_x(&[3.0, 4.0, 6.0]));
    }
    list.season_report(AIC_1);
}

fn fields(list: &mut List) {
    list.head("fields: malformed lines change nothing");
    let lines = [
        "season",
        "season_open 0",
        "season_open_stake",
        "season_open_stake first",
        "season_add 3FF0000000000000 3FF0000000000000",
        "season_add 0 3FF0000000000000",
        "season_window 0 3FF0000000000000 3FF0000000000000 1",
        "season_frame 0 0",
        "season_lines 0 312032 0A",
        "season_carry 0 0",
        "season_correct 0 3FF0000000000000",
        "season_withdraw 0",
        "season_fit 0 1 2",
        "season_validate 0 custom 1 aic",
        "season_band 0 1 3FF0000000000000",
        "season_report_stake custom 1 aic",
        "season_report 0 custom 1 aic p95 0000000000000000 none 0000000000000000",
        "season_split 0 custom 1 aic p95 0000000000000000 none 0000000000000000",
        "season_losses 0 custom 1 aic p95 0000000000000000 none",
        "season_scores 0 custom 1 aic p95 0000000000000000 none 0000000000000000 sign",
        "season_group_report 0 0",
        "season_surface_fit 0 1",
        "season_renew 0",
        "put counts 0 3FF0000000000000",
        "lent counts 4201",
        "lent sums 8801",
        "put sums 8800 3FF0000000000000",
        "show sums 0 8801",
    ];
    for line in lines {
        list.line(line);
    }
    list.counts();
}
