//! The lists of tests/ at the top of the repository: their answers are the judge's and the proved
//! library's, and the lists of edges, of lines, of weights, of splits, of windows, of losses, of scores, of
//! surfaces, of groups and of a season's stakes meet the edges that their comments name.

use std::path::PathBuf;
use std::process::Command;

use journal::request::read;
use journal::{run, Call, Journal, Judge, Port, Request, Side};
use judge::fit::{self, Criterion, Settings};
use judge::numbers::NAN_BITS;
use judge::split::{self, side_fit};
use judge::statistics::{huber_loss, max_degree, median_absolute_deviation, HUBER_CONST};
use judge::sums::{folded_afresh, powers, TERMS};
use judge::surface::{folded, terms_of, SurfaceSample};
use judge::Sample;

const NEGATIVE_ZERO: u64 = 1 << 63;

/// The lists that `lists` makes.
const MADE: [&str; 11] = [
    "edges", "season", "lines", "weights", "split", "windows", "losses", "scores", "surface",
    "groups", "glacier",
];

fn file(name: &str) -> Vec<u8> {
    let path = PathBuf::from(env!("CARGO_MANIFEST_DIR")).join("../tests").join(name);
    std::fs::read(&path).unwrap_or_else(|error| panic!("{}: {error}", path.display()))
}

/// All that a side prints for a list.
fn printed(side: &dyn Side, name: &str) -> String {
    let mut text = Vec::new();
    run(side, &file(&format!("{name}.calls"))[..], &mut text).unwrap();
    String::from_utf8(text).unwrap()
}

fn check_answers(side: &dyn Side) {
    for name in MADE.into_iter().chain(["fixed"]) {
        let answers = String::from_utf8(file(&format!("{name}.answers"))).unwrap();
        let printed = printed(side, name);
        for (number, (kept, new)) in answers.lines().zip(printed.lines()).enumerate() {
            assert_eq!(kept, new, "{name}.answers, line {}", number + 1);
        }
        assert_eq!(answers.len(), printed.len(), "{name}.answers");
    }
}

#[test]
fn answers_are_the_judges() {
    check_answers(&Judge);
}

#[test]
fn answers_are_the_librarys() {
    check_answers(&Port);
}

#[test]
fn lists_are_as_made() {
    for name in MADE {
        let made = Command::new(env!("CARGO_BIN_EXE_lists")).arg(name).output().unwrap();
        assert!(made.stdout == file(&format!("{name}.calls")), "{name}.calls");
    }
}

/// What stands below one comment: lines, with what was printed for each.
struct Edge(Vec<(String, String)>);

/// The part of the list of edges whose comment, after an empty line, begins so.
fn edge(comment: &str) -> Edge {
    part("edges.calls", comment)
}

/// The part of some list.
fn part(name: &str, comment: &str) -> Edge {
    let input = file(name);
    let mut journal = Journal::new(&Judge);
    let (mut inside, mut after_empty, mut part) = (false, false, Vec::new());
    for (number, line) in input.split(|&byte| byte == b'\n').enumerate() {
        let text = String::from_utf8(line.to_vec()).unwrap();
        if after_empty && text.starts_with('#') {
            assert!(!inside || !part.is_empty());
            inside = text.starts_with(&format!("# {comment}"));
        }
        after_empty = text.is_empty();
        let printed = journal.line(number + 1, line).unwrap_or_default();
        if inside && !text.is_empty() && !text.starts_with('#') {
            part.push((text, printed));
        }
    }
    assert!(!part.is_empty(), "no edge {comment} in {name}");
    Edge(part)
}

impl Edge {
    /// What was printed for the lines of this word.
    fn of(&self, word: &str) -> Vec<&str> {
        let begins = |line: &str| line.split(' ').next() == Some(word);
        let printed = self.0.iter().filter(|(line, _)| begins(line));
        printed.map(|(_, printed)| printed.as_str()).collect()
    }

    /// What was shown of a memory, time after time.
    fn shown(&self, name: &str) -> Vec<Vec<u64>> {
        let decimal = ["pruned", "outliers", "solved", "table", "counts"].contains(&name);
        let radix = if decimal { 10 } else { 16 };
        let number = |field: &str| u64::from_str_radix(field, radix).unwrap();
        let fields = |line: &str| line.split(' ').skip(1).map(number).collect();
        let shows = self.of("show").into_iter().filter(|line| line.split(' ').next() == Some(name));
        shows.map(fields).collect()
    }

    fn requests(&self) -> Vec<Request> {
        self.0.iter().filter_map(|(line, _)| read(line.as_bytes()).ok().flatten()).collect()
    }

    /// The samples added one by one.
    fn samples(&self) -> Vec<Sample> {
        let added = |request| match request {
            Request::Call(Call::Add(sample) | Call::AddWindow(sample)) => Some(sample),
            _ => None,
        };
        self.requests().into_iter().filter_map(added).collect()
    }

    /// The texts given as lines, each with its answer.
    fn texts(&self) -> Vec<(String, &str)> {
        let text = |line: &str| match read(line.as_bytes()) {
            Ok(Some(Request::Call(Call::AddLines(text)))) => {
                Some(String::from_utf8_lossy(&text).into_owned())
            }
            _ => None,
        };
        self.0.iter().filter_map(|(line, printed)| Some((text(line)?, &printed[..]))).collect()
    }

    /// The answers to the texts.
    fn judged(&self) -> Vec<&str> {
        self.texts().into_iter().map(|(_, answer)| answer).collect()
    }
}

fn bits_of(values: &[f64]) -> Vec<u64> {
    values.iter().map(|v| v.to_bits()).collect()
}

const CRITERIA: [Criterion; 2] = [Criterion::Aic, Criterion::Bic];

/// The choice if each fold were solved from its own samples too.
fn chosen_by_own(samples: &[Sample], criterion: Criterion) -> Option<usize> {
    let sums = folded_afresh(samples);
    let score_of = |degree| {
        let coefficients = fit::solved(samples, &sums, degree)?;
        let own = |own: std::ops::Range<usize>| {
            fit::score(criterion, &fit::residuals(&samples[own], &coefficients), degree + 1)
        };
        Some((own(0..3) + own(3..6) + own(6..10)) / 3.0)
    };
    fit::chosen(&(0..=3).map(score_of).collect::<Vec<_>>())
}

#[test]
fn ten_in_three_folds() {
    let edge = edge("folds: 10 samples in 3 folds");
    let samples = edge.samples();
    assert_eq!((samples.len(), edge.of("validate")), (10, vec!["fit 1", "fit 1"]));
    for criterion in CRITERIA {
        let chosen = |folds: &[std::ops::Range<usize>], samples: &[Sample]| {
            fit::chosen(&fit::scores_over(folds, samples, 3, criterion))
        };
        assert_eq!(chosen(&[0..3, 3..6, 6..10], &samples), Some(1));
        let others = [
            chosen(&[0..3, 3..6, 6..9], &samples),
            chosen(&[0..3, 3..6, 6..9], &samples[..9]),
            chosen(&[0..4, 4..7, 7..10], &samples),
            chosen(&[0..3, 3..7, 7..10], &samples),
            chosen(&[0..4, 4..8, 8..10], &samples),
            chosen(&[0..3, 3..6, 6..9, 9..10], &samples),
            chosen_by_own(&samples, criterion),
        ];
        assert!(!others.contains(&Some(1)), "{others:?}");
    }
}

#[test]
fn unsolved_folds_are_skipped() {
    let edge = edge("folds: an unsolved fold");
    let samples = edge.samples();
    assert_eq!(edge.of("validate"), ["fit 2", "fit 2"]);
    for criterion in CRITERIA {
        // The scores of the solved folds, degree by degree.
        let solved: Vec<Vec<f64>> = (0..=3)
            .map(|degree| {
                let score = |own| fit::scores_over(&[own], &samples, degree, criterion)[degree];
                fit::fold_ranges(samples.len(), 4).into_iter().filter_map(score).collect()
            })
            .collect();
        assert!(solved[2].len() < 4 && !solved[2].is_empty());
        let over_four = |scores: &Vec<f64>| scores.iter().sum::<f64>() / 4.0;
        let all: Vec<_> = solved.iter().map(|s| (!s.is_empty()).then(|| over_four(s))).collect();
        let whole: Vec<_> = solved.iter().map(|s| (s.len() == 4).then(|| over_four(s))).collect();
        assert!(fit::chosen(&all) != Some(2) && fit::chosen(&whole) != Some(2));
    }
}

/// The choice if a fold were solved by finite residuals of its own samples alone.
fn chosen_by_own_residuals(samples: &[Sample], criterion: Criterion) -> Option<usize> {
    let mean_of = |degree| {
        let score = |own: std::ops::Range<usize>| {
            let others = [&samples[..own.start], &samples[own.end..]].concat();
            let own = &samples[own];
            let coefficients = fit::solved(own, &folded_afresh(&others), degree)?;
            Some(fit::score(criterion, &fit::residuals(own, &coefficients), degree + 1))
        };
        let solved: Vec<f64> =
            fit::fold_ranges(samples.len(), 2).into_iter().filter_map(score).collect();
        (!solved.is_empty()).then(|| solved.iter().sum::<f64>() / solved.len() as f64)
    };
    fit::chosen(&(0..=1).map(mean_of).collect::<Vec<_>>())
}

#[test]
fn folds_look_at_every_sample() {
    let edge = edge("folds: solved only if");
    assert_eq!(edge.of("validate"), ["fit 0", "fit 0"]);
    for criterion in CRITERIA {
        assert_eq!(chosen_by_own_residuals(&edge.samples(), criterion), Some(1));
    }
}

#[test]
fn leave_one_out() {
    let edge = edge("folds: leave one out");
    let folds = edge.samples().len();
    for request in edge.requests() {
        if let Request::Call(Call::Validate { folds: asked, .. }) = request {
            assert_eq!(asked, folds);
        }
    }
    assert_eq!(edge.of("validate").len(), 2);
}

#[test]
fn unsolved_degrees() {
    let twice = edge("unsolved: two different x's");
    assert_eq!(twice.of("fit"), ["fit 0", "fit 1", "refused 10", "refused 10"]);
    assert!(twice.of("report")[0].starts_with("report 0 2 "));
    let years = edge("unsolved: years");
    assert!(years.samples().iter().all(|sample| (1990.0..2010.0).contains(&sample.x)));
    assert_eq!(years.of("fit")[2..], ["fit 2", "refused 10", "refused 10", "refused 10"]);
    assert!(years.of("report")[0].starts_with("report 1 3 "));
    let overflow = edge("unsolved: degree 0");
    assert_eq!(overflow.of("fit"), ["refused 10", "fit 1"]);
    assert!(overflow.of("report")[0].starts_with("report 1 1 "));
    let own = edge("unsolved: validation's chosen degree, by the book's own");
    assert_eq!(own.of("validate"), ["refused 10"; 2]);
    let lent = edge("unsolved: validation's chosen degree, by lent");
    assert_eq!(lent.of("validate"), ["fit 1", "fit 1", "refused 10", "refused 10"]);
}

#[test]
fn pivots() {
    assert_eq!(edge("pivots: one of 2^-48").of("fit"), ["refused 10", "fit 1"]);
    assert_eq!(edge("pivots: one that is a NaN").of("fit"), ["refused 10"]);
    assert_eq!(edge("pivots: a negative starting value").of("fit"), ["fit 1"]);
}

#[test]
fn errors() {
    let nan = edge("errors: NaN");
    assert_eq!(nan.shown("errors")[0][0], NAN_BITS);
    let negative = edge("errors: -0");
    assert_eq!(negative.samples().len(), 2);
    assert!(negative.of("report")[0].starts_with("report 1 "));
    assert_eq!(negative.shown("errors")[0][..2], [NEGATIVE_ZERO, 0]);
    assert_eq!(negative.shown("pruned")[0][..2], [1, 0]);
    let twelve = edge("errors: 12");
    assert_eq!((twelve.of("fit"), twelve.of("report")), (vec!["fit 1"], vec!["refused 12"]));
    assert_eq!(twelve.of("band"), ["refused 12"]);
    assert!(edge("errors: sums that are not symmetric").of("report")[0].starts_with("report 1 "));
    let not_finite = edge("errors: sums that are not finite");
    assert_eq!(not_finite.of("report")[1], "refused 11");
}

#[test]
fn no_freedom() {
    let one = edge("freedom: df 0 at degree 0");
    assert_eq!((one.samples().len(), one.of("report")), (1, vec!["report 0 1 0 0"]));
    let four = edge("freedom: df 0 at degree 3");
    assert_eq!((four.samples().len(), four.of("report")), (4, vec!["report 3 4 4 0"; 7]));
    assert!(four.shown("errors").iter().all(|errors| errors[..4] == [0; 4]));
    assert!(four.shown("pruned").iter().all(|pruned| pruned[..16] == [0; 16]));
}

#[test]
fn every_confidence_and_tolerance() {
    let edge = edge("settings: every confidence");
    // The last fields of the reports and bands: confidence, its number, tolerance, its number.
    let mut asked = Vec::new();
    for (line, _) in &edge.0 {
        let fields: Vec<&str> = line.split(' ').collect();
        if let ["report" | "band", .., confidence, _, tolerance, number] = fields[..] {
            asked.push((fields[0], confidence, tolerance, number.starts_with(['B', 'C'])));
        }
    }
    for confidence in ["p80", "p90", "p95", "p98", "p99", "p999", "custom"] {
        for tolerance in ["none", "absolute", "variance", "measurement"] {
            for word in ["report", "band"] {
                assert!(asked.contains(&(word, confidence, tolerance, false)));
                let negative = asked.contains(&(word, confidence, tolerance, true));
                assert_eq!(negative, tolerance != "none");
            }
        }
    }
    let reports = edge.of("report");
    assert!(reports.iter().all(|answer| answer.starts_with("report 1 3 ")));
    for pruned in ["0", "1", "2"] {
        assert!(reports.iter().any(|answer| answer.ends_with(pruned)), "{pruned} pruned");
    }
}

#[test]
fn measurement_of_values_below_zero() {
    let edge = edge("settings: a measurement tolerance");
    let number = |field| f64::from_bits(u64::from_str_radix(field, 16).unwrap());
    for (band, wider) in edge.of("band").into_iter().zip([true, false]) {
        let [value, lower, upper] = [1, 2, 3].map(|at| number(band.split(' ').nth(at).unwrap()));
        assert!(value < 0.0 && (lower < upper) == wider, "{band}");
    }
}

#[test]
fn pruning() {
    let report = |comment: &str| edge(comment).of("report")[0].to_string();
    assert!(report("pruning: a small term").ends_with(" 1"));
    assert!(report("pruning: the same term below zero").ends_with(" 0"));
    let (above, below) = (edge("pruning: a small term"), edge("pruning: the same term"));
    assert_eq!(above.shown("errors"), below.shown("errors"));
    let flipped = above.shown("coefficients")[0][0] ^ NEGATIVE_ZERO;
    assert_eq!(flipped, below.shown("coefficients")[0][0]);
    assert!(report("pruning: P95 at df 8").ends_with(" 0"));
    assert!(report("pruning: P95 at df 29").ends_with(" 1"));
    assert!(report("pruning: at df 30").ends_with(" 1"));
    assert!(report("pruning: at df 31").ends_with(" 0"));
    let beside = edge("pruning: just below");
    assert_eq!(beside.of("report").len(), 2 * 6 * 31);
    for (at, answer) in beside.of("report").into_iter().enumerate() {
        assert!(answer.ends_with(if at % 2 == 0 { " 1" } else { " 0" }), "{at}: {answer}");
    }
}

/// The reports of an edge: the terms pruned by polyfit's rule and by size, in turn.
fn pruned_by_both(edge: &Edge) -> Vec<&str> {
    edge.of("report").iter().map(|answer| answer.rsplit(' ').next().unwrap()).collect()
}

#[test]
fn pruning_by_size() {
    assert_eq!(pruned_by_both(&edge("by size: a small term below zero")), ["0", "1"]);
    assert_eq!(pruned_by_both(&edge("by size: a small term above zero")), ["1", "1"]);
    assert_eq!(pruned_by_both(&edge("by size: just below the score")), ["0", "1", "0", "0"]);

    // Of the nine samples' terms, those with an error of −0 are pruned, by size the negative ones too.
    for comment in ["by size: errors of -0", "by size: the same below zero"] {
        let nine = edge(comment);
        assert!(nine.of("report").iter().all(|answer| answer.starts_with("report 8 ")));
        let (errors, terms) = (&nine.shown("errors")[0], &nine.shown("coefficients")[0]);
        let (positive, size) = (&nine.shown("pruned")[0], &nine.shown("pruned")[1]);
        let mut signs = [false; 2];
        for j in 0..9 {
            let (pruned, above) = (errors[j] == NEGATIVE_ZERO, terms[j] < NEGATIVE_ZERO);
            assert_eq!((positive[j], size[j]), (u64::from(pruned && above), u64::from(pruned)));
            signs[usize::from(above)] |= pruned;
        }
        assert_eq!(signs, [true; 2], "{comment}: terms of both signs have an error of -0");
    }

    let zero = edge("by size: errors of +0");
    assert_eq!(zero.shown("errors")[1][..4], [0; 4]);
    assert_eq!(pruned_by_both(&zero), ["0", "0"]);
    let nan = edge("by size: an error that is a NaN");
    assert_eq!(nan.shown("errors")[1][0], NAN_BITS);
    assert!(nan.shown("coefficients")[1][0] > NEGATIVE_ZERO && nan.shown("pruned")[1][0] == 0);

    // 2⁻⁵² of either sign, then the least above it of either sign.
    let least = edge("by size: terms of 2^-52");
    let terms: Vec<u64> = least.shown("coefficients").iter().map(|terms| terms[0]).collect();
    let (at, above) = (f64::EPSILON, f64::from_bits(f64::EPSILON.to_bits() + 1));
    let expected = [at, at, -at, -at, above, above, -above, -above];
    assert_eq!(terms, bits_of(&expected));
    assert_eq!(pruned_by_both(&least), ["0", "0", "0", "0", "1", "1", "0", "1"]);
}

#[test]
fn outliers_at_the_edge() {
    let none = edge("outliers: none");
    assert_eq!(none.shown("lower")[0][0], 1.0f64.to_bits());
    assert_eq!(none.shown("upper")[0][0], 3.0f64.to_bits());
    assert_eq!(none.of("report"), ["report 0 1 0 0"]);
    assert_eq!(edge("outliers: both").of("report"), ["report 0 1 2 0"]);
    for end in ["lower", "upper"] {
        let edge = edge(&format!("outliers: sample 3 on the {end} end"));
        let y = edge.samples()[3].y.to_bits();
        assert_eq!((edge.shown(end)[0][3], edge.shown("outliers")[0][3]), (y, 0));
        assert!(edge.shown(end)[1][3] != y && edge.shown("outliers")[1][3] == 1);
    }
}

/// Outputs hold what was put there, and the marks of the report before.
fn assert_outputs_unchanged(edge: &Edge, n: usize) {
    let marks = |from: usize, count: usize| -> Vec<u64> {
        bits_of(&(from..from + count).map(|v| v as f64).collect::<Vec<_>>())
    };
    for (name, from, count) in [
        ("coefficients", 100, 17),
        ("errors", 200, 17),
        ("lower", 300, n + 1),
        ("upper", 400, n + 1),
    ] {
        let shown = edge.shown(name);
        assert!(shown.iter().any(|places| places.len() == count));
        assert!(shown.iter().all(|places| places[..] == marks(from, count)[..places.len()]));
    }
    for (pruned, outliers) in edge.shown("pruned").iter().zip(edge.shown("outliers")) {
        assert_eq!((pruned[0], &pruned[1..]), (1, &[0; 16][..]));
        assert_eq!(outliers, vec![1; n + 1]);
    }
}

#[test]
fn late_refusals() {
    for (comment, number, n, calls) in [
        ("late: 10 of a fit", 10, 2, ["fit", "band"]),
        ("late: 10 of a validation", 10, 6, ["validate", "validate"]),
        ("late: 11", 11, 4, ["report", "validate"]),
        ("late: 12", 12, 3, ["report", "band"]),
    ] {
        let edge = edge(comment);
        for call in calls {
            let refused = format!("refused {number}");
            assert!(edge.of(call).iter().all(|answer| **answer == refused), "{comment}");
            assert!(!edge.of(call).is_empty());
        }
        assert_outputs_unchanged(&edge, n);
        let mut scratch = vec![0; n];
        scratch.push((500.0 + n as f64).to_bits());
        assert!(edge.shown("scratch").iter().all(|places| *places == scratch), "{comment}");
    }
}

#[test]
fn early_refusals() {
    let early = edge("early: 9, 8, 7, 4 and 1");
    assert_eq!(early.of("band"), ["refused 9", "refused 9", "refused 8"]);
    assert_eq!(early.of("fit"), ["refused 8"]);
    assert_eq!(early.of("validate"), ["refused 7"; 2]);
    assert_eq!(early.of("report"), ["refused 4", "refused 1"]);
    assert_outputs_unchanged(&early, 3);
    assert_eq!(early.shown("scratch"), [bits_of(&[500.0, 501.0, 502.0, 503.0])]);
    let zeros = edge("early: 9 compares");
    assert!(zeros.of("band")[0].starts_with("band "));
    assert_eq!(zeros.of("band")[1], "refused 9");
}

#[test]
fn choices_and_bounds() {
    let line = bits_of(&[1.0, 2.0, 0.0]);
    assert_eq!(edge("choice: T10").shown("coefficients")[0][..3], line);
    assert_eq!(edge("choice: T11").of("report"), ["report 0 2 0 1"]);
    assert_eq!(edge("choice: T12").of("report"), ["report 0 1 0 1"]);
    let solved = edge("choice: 11 with a solved");
    assert_eq!((solved.of("fit"), solved.of("report")), (vec!["fit 0"], vec!["refused 11"]));
    let top = edge("choice: two middle sizes whose sum is infinite");
    assert_eq!(top.of("report"), ["report 0 1 0 0"; 2]);
    assert_eq!(top.of("validate"), ["fit 0"; 2]);
    let none = edge("choice: 11 with no");
    assert_eq!((none.of("fit"), none.of("report")), (vec!["refused 10"], vec!["refused 11"]));
    let custom = edge("bounds: Custom 20");
    assert!(custom.of("report")[0].starts_with("report 15 16 "));
    assert_eq!(custom.of("report")[1], "refused 8");
    assert_eq!(custom.of("fit"), ["fit 15", "refused 8"]);
    let bounds = edge("bounds: Conservative 44");
    let solved: Vec<Option<&str>> =
        bounds.of("report").iter().map(|answer| answer.split(' ').nth(2)).collect();
    let degrees = [Some("2"), Some("3"), Some("4"), Some("5"), Some("16"), None];
    assert_eq!(solved, degrees);
}

/// The choice up to degree 2 by AIC, if Huber's constant were another.
fn chosen_with(constant: f64, samples: &[Sample]) -> Option<usize> {
    let sums = folded_afresh(samples);
    let score_of = |degree| {
        let coefficients = fit::solved(samples, &sums, degree)?;
        let residuals = fit::residuals(samples, &coefficients);
        let deviation = median_absolute_deviation(&residuals) * (constant / HUBER_CONST);
        let total: f64 = residuals.iter().map(|&r| huber_loss(r, deviation)).sum();
        let (n, k) = (samples.len() as f64, degree as f64 + 1.0);
        let correction = if n < 4.0 * k { 2.0 * k * (k + 1.0) / (n - k - 1.0) } else { 0.0 };
        Some(n * (total / n).ln() + 2.0 * k + correction)
    };
    fit::chosen(&(0..=2).map(score_of).collect::<Vec<_>>())
}

#[test]
fn huber_constant() {
    let edge = edge("choice: Huber's 1.345");
    let samples = edge.samples();
    let degrees: Vec<&str> =
        edge.of("report").iter().filter_map(|answer| answer.split(' ').nth(1)).collect();
    assert_eq!(degrees, ["0", "2"]);
    let chosen = |constant, half: usize| chosen_with(constant, &samples[12 * half..][..12]);
    assert_eq!([chosen(1.344, 0), chosen(1.345, 0)], [Some(2), Some(0)]);
    assert_eq!([chosen(1.345, 1), chosen(1.346, 1)], [Some(2), Some(0)]);
}

#[test]
fn bands_at_their_ends() {
    let infinite = edge("bands: infinite");
    assert_eq!(infinite.shown("lower")[0][0], f64::NEG_INFINITY.to_bits());
    assert_eq!(infinite.shown("upper")[0][0], f64::INFINITY.to_bits());
    let nan = edge("bands: NaN");
    assert_eq!((nan.shown("lower")[0][0], nan.shown("upper")[0][0]), (NAN_BITS, NAN_BITS));
    assert!(edge("bands: at").of("band").iter().all(|answer| answer.starts_with("band ")));
}

#[test]
fn books_and_columns() {
    let withdrawn = edge("book: a withdrawal");
    assert_eq!(withdrawn.shown("xs")[0][..3], bits_of(&[0.1, 0.3, 0.3]));
    assert_eq!(edge("book: its room").shown("xs")[0][..3], bits_of(&[0.1, 0.3, 0.4]));
    let corrected = edge("book: a correction").shown("sums").remove(0);
    assert_eq!((corrected[0], corrected[255]), (77.0f64.to_bits(), NEGATIVE_ZERO));
    assert!(corrected[256] != 78.0f64.to_bits() && corrected[272] == 79.0f64.to_bits());
    let sums = edge("book: an add adds").shown("sums");
    assert_eq!((sums[0][0], sums[1][0]), (78.0f64.to_bits(), 3.0f64.to_bits()));
    assert_eq!(sums[1][272], 79.0f64.to_bits());
    let frames = edge("columns: a NaN");
    let answers = ["refused 4", "refused 5", "refused 2", "book 1", "book 2"];
    assert_eq!(frames.of("frame"), answers);
    let most = edge("columns: at most");
    assert_eq!(most.of("add"), ["refused 5", "book 4096", "refused 1"]);
    assert_eq!(most.of("withdraw"), ["book 4095", "refused 1"]);
    let long = edge("lines: the longest frame");
    let frames = long.of("frame");
    assert_eq!(frames[0], "refused 2");
    assert!(frames[1].ends_with(": field 2: too large"));
    assert!(frames[2].ends_with(": field 1: too large"));
    assert_eq!((long.of("add"), file("edges.calls").last()), (vec!["book 1"], Some(&b'0')));
}

/// A part of the list of lines.
fn lines(comment: &str) -> Edge {
    part("lines.calls", comment)
}

#[test]
fn lines_are_adds() {
    let (written, added) = (lines("season: a pit"), lines("season: the same pit"));
    assert_eq!(added.samples().len(), 6);
    for name in ["xs", "ys"] {
        assert_eq!(written.shown(name)[0][..6], added.shown(name)[0][..6]);
    }
    for name in ["sums", "coefficients", "errors", "pruned", "lower", "upper", "outliers"] {
        assert_eq!(written.shown(name)[0], added.shown(name)[0], "{name}");
    }
    assert_eq!(written.of("report"), added.of("report"));
    assert_eq!(written.judged(), ["book 6", "book 7", "book 8"]);
    assert_eq!(added.texts(), [(String::new(), "book 6")]);
}

/// Every reading that passes is the platform's parser's number.
#[test]
fn readings_by_the_platform() {
    let parts = [
        ("values: the nearest", 18),
        ("values: every number of places", 22),
        ("zeros: ", 4),
        ("digits: 15", 18),
        ("places: 22", 12),
    ];
    for (comment, count) in parts {
        let part = lines(comment);
        assert!(part.judged().iter().all(|answer| answer.starts_with("book ")), "{comment}");
        let text: String = part.texts().into_iter().map(|(text, _)| text).collect();
        let read: Vec<u64> = text
            .split_whitespace()
            .map(|reading| reading.parse::<f64>().expect("a number").to_bits())
            .collect();
        assert_eq!(read.len(), 2 * count, "{comment}");
        for (column, name) in ["xs", "ys"].into_iter().enumerate() {
            let values: Vec<u64> = read.iter().skip(column).step_by(2).copied().collect();
            assert_eq!(part.shown(name)[0][..count], values, "{comment}: {name}");
        }
    }
    assert_eq!(lines("zeros: ").shown("ys")[0][..2], [NEGATIVE_ZERO, 0]);
}

#[test]
fn refused_readings_and_lines() {
    for (comment, count) in [("digits: 16", 24), ("places: 23", 8)] {
        assert_eq!(lines(comment).judged(), vec!["refused 14"; count], "{comment}");
    }
    for (comment, count) in [("malformed: readings", 48), ("malformed: bytes", 3)] {
        assert_eq!(lines(comment).judged(), vec!["refused 13"; count], "{comment}");
    }
    let none = lines("malformed: lines");
    let (last, others) = none.texts().split_last().map(|(a, b)| (a.clone(), b.to_vec())).unwrap();
    assert!(others.len() == 29 && others.iter().all(|(_, answer)| *answer == "refused 13"));
    assert_eq!(last, ("1 2\n".to_string(), "book 1"));
    // What is easily let through stands among the texts.
    let mut texts: Vec<String> = others.into_iter().map(|(text, _)| text).collect();
    texts.extend(lines("malformed: readings").texts().into_iter().map(|(text, _)| text));
    let named = [
        ".5 1\n", "1 .5\n", "5. 1\n", "1 5.\n", "+1 1\n", "1 +1\n", "1e3 1\n", "1 1e3\n", "1  2\n",
        "1 2\r\n", "1\t2\n", "1 2", "\n", "1 2\n\n",
    ];
    for text in named {
        assert!(texts.iter().any(|there| there == text), "{text:?}");
    }
}

#[test]
fn lines_in_order() {
    let first = lines("order: the first line");
    let number = |answer: &&str| answer.strip_prefix("refused ").and_then(|n| n.parse().ok());
    let numbers = |answers: &[&str]| answers.iter().filter_map(number).collect::<Vec<u32>>();
    assert_eq!(numbers(&first.judged()), [14, 13, 14, 13, 13, 13, 13, 13, 13, 13, 13, 14, 14, 14]);
    let part = lines("order: 1 before 13");
    let around = part.judged();
    assert_eq!((around[0], around[7], around[15]), ("book 1", "book 1", "book 2"));
    assert_eq!(numbers(&around[1..7]), [5, 13, 13, 14, 14, 13]);
    assert_eq!(numbers(&around[8..15]), [1; 7]);
    assert_eq!(numbers(&around[16..]), [1; 8]);
    assert_eq!(part.shown("xs")[0][0], 1.0f64.to_bits());
    assert!(part.shown("xs")[0][1] != 3.0f64.to_bits());
    assert_eq!(part.shown("xs")[1][..2], bits_of(&[1.0, 3.0]));
}

#[test]
fn texts_are_added_whole() {
    let whole = lines("whole: ");
    let bad = ["refused 13", "refused 13", "refused 13", "refused 13", "refused 14"];
    assert_eq!(whole.judged(), [&["book 1"][..], &bad, &["book 41"]].concat());
    let (xs, sums) = (whole.shown("xs"), whole.shown("sums"));
    assert!(xs[..5].iter().all(|places| *places == xs[0]) && xs[5][1] == 0.5f64.to_bits());
    assert!(sums.iter().all(|places| *places == bits_of(&[1.0, 7.0])));
    let texts = whole.texts();
    assert!(texts[1..6].iter().all(|(text, _)| text.starts_with(&texts[6].0)));
    assert_eq!(lines("room: 5,000").judged(), ["refused 5", "refused 13", "refused 14"]);
    assert_eq!(lines("room: 5,000").texts()[0].0.matches('\n').count(), 5000);
    let full = ["refused 5", "book 4096", "refused 5", "book 4096", "refused 13"];
    assert_eq!(lines("room: 4,097").judged(), [&full[..], &full, &["refused 1"]].concat());
    assert_eq!(lines("room: a book of no places").judged(), ["book 0", "refused 5", "refused 13"]);
}

#[test]
fn fields_of_lines() {
    let part = lines("fields: ");
    assert_eq!(part.judged(), ["book 1", "refused 13", "book 2"]);
    let message = |(line, printed): &(String, String)| {
        let words = printed.strip_prefix("line ").and_then(|rest| rest.split_once(": "))?.1;
        Some((line.chars().take(11).collect::<String>(), words.to_string()))
    };
    let messages: Vec<(String, String)> = part.0.iter().filter_map(message).collect();
    let expected = [
        ("lines ", "field 2: not hexadecimal"),
        ("lines 3", "field 2: not hexadecimal"),
        ("lines 3G", "field 2: not hexadecimal"),
        ("lines 31 32", "field 3: one too many"),
        ("lines 1 2", "field 2: not hexadecimal"),
        ("line 310A", "field 1: not a call"),
        ("Lines", "field 1: not a call"),
        ("lines 30303", "field 2: too large"),
        ("lines 33333", "field 1: too large"),
    ];
    let expected = expected.map(|(line, message)| (line.to_string(), message.to_string()));
    assert_eq!(messages, expected);
}

/// A part of the list of weights.
fn weights(comment: &str) -> Edge {
    part("weights.calls", comment)
}

/// The numbers of refusals, 0 for what was let through.
fn numbers(answers: &[&str]) -> Vec<u32> {
    let number = |answer: &&str| match answer.strip_prefix("refused ") {
        Some(number) => number.parse().unwrap(),
        None => 0,
    };
    answers.iter().map(number).collect()
}

#[test]
fn weight_1_in_every_way() {
    let added = weights("weight 1: by an add without");
    assert_eq!(added.shown("ws")[0][..2], bits_of(&[1.0, 1.0]));
    for way in ["an add with weight 1", "a frame of version 1", "a frame of version 2", "lines"] {
        let other = weights(&format!("weight 1: by {way}"));
        for name in ["xs", "ys", "ws"] {
            assert_eq!(other.shown(name)[0][..2], added.shown(name)[0][..2], "{way}: {name}");
        }
        for name in ["sums", "coefficients", "errors", "pruned", "lower", "upper", "outliers"] {
            assert_eq!(other.shown(name)[0], added.shown(name)[0], "{way}: {name}");
        }
        assert_eq!(other.of("report"), added.of("report"), "{way}");
    }
}

/// The sums of a single sample, or of several, if the weight were multiplied into one factor first.
fn grouped_otherwise(samples: &[Sample]) -> Vec<f64> {
    let mut sums = vec![0.0; TERMS * TERMS + TERMS];
    for sample in samples {
        let row = powers(sample.x);
        for i in 0..TERMS {
            for j in 0..TERMS {
                sums[TERMS * i + j] += row[i] * (row[j] * sample.weight);
            }
            sums[TERMS * TERMS + i] += row[i] * (sample.y * sample.weight);
        }
    }
    sums
}

#[test]
fn kinds_of_weights() {
    let each = weights("kinds: one sample of each weight");
    assert_eq!(each.of("add"), ["book 1"; 13]);
    for ((ws, sums), sample) in each.shown("ws").iter().zip(each.shown("sums")).zip(each.samples())
    {
        assert_eq!((ws[0], sums[0]), (sample.weight.to_bits(), sample.weight.to_bits()));
    }

    let rounded = weights("kinds: the product of the powers first");
    let (right, other) = (&rounded.shown("sums")[0], grouped_otherwise(&rounded.samples()));
    assert_eq!(*right, bits_of(&folded_afresh(&rounded.samples())));
    let differ = |places: std::ops::Range<usize>| right[places.clone()] != bits_of(&other[places]);
    assert!(differ(0..256) && differ(256..272));

    let (over, under) = (weights("kinds: it overflows"), weights("kinds: it underflows"));
    for (edge, end) in [(over, f64::INFINITY), (under, 0.0)] {
        let (sums, other) = (&edge.shown("sums")[0], grouped_otherwise(&edge.samples()));
        for place in [17, 257] {
            assert_eq!(sums[place], end.to_bits());
            assert!(other[place].is_normal());
        }
    }
}

#[test]
fn scales_of_weights() {
    let four = weights("scales: four times");
    let (terms, errors) = (four.shown("coefficients"), four.shown("errors"));
    assert!(four.of("report").iter().all(|answer| answer.starts_with("report 1 ")));
    assert_eq!(terms[0], terms[1]);
    for (one, four) in errors[0][..2].iter().zip(&errors[1]) {
        assert_eq!(f64::from_bits(*one) / 2.0, f64::from_bits(*four));
    }
    let two = weights("scales: a sample of weight 2");
    assert_eq!(two.shown("sums")[0], two.shown("sums")[1]);
    assert_eq!(two.shown("coefficients")[0], two.shown("coefficients")[1]);
    assert!(two.shown("errors")[0] != two.shown("errors")[1]);
}

/// Ways to let a weight into a score: by the residual, by its root, by the loss, and by the loss over
/// all weights.
const WEIGHTED_SCORES: usize = 4;

/// The score of some samples by a curve, with the weights let in.
fn weighted_score(way: usize, samples: &[Sample], terms: &[f64], criterion: Criterion) -> f64 {
    let residuals = fit::residuals(samples, terms);
    let times = |weight: fn(f64) -> f64| -> Vec<f64> {
        residuals.iter().zip(samples).map(|(r, sample)| r * weight(sample.weight)).collect()
    };
    let all: f64 = samples.iter().map(|sample| sample.weight).sum();
    let losses = fit::losses(&residuals);
    let total: f64 = losses.iter().zip(samples).map(|(loss, s)| loss * s.weight).sum();
    let (n, k) = (samples.len() as f64, terms.len() as f64);
    let mean = match way {
        0 => return fit::score(criterion, &times(|weight| weight), terms.len()),
        1 => return fit::score(criterion, &times(f64::sqrt), terms.len()),
        2 => total / n,
        _ => total / all,
    };
    // The score of these losses is that of the plain ones with another mean.
    let plain = losses.iter().sum::<f64>() / n;
    let logarithm = |mean: f64| n * mean.max(f64::EPSILON).ln();
    fit::score(criterion, &residuals, k as usize) - logarithm(plain) + logarithm(mean)
}

fn at_weight_1(samples: &[Sample]) -> Vec<Sample> {
    samples.iter().map(|sample| Sample::unweighted(sample.x, sample.y)).collect()
}

#[test]
fn scores_see_no_weight() {
    let edge = weights("unweighted: scores");
    let samples = edge.samples();
    assert!(edge.of("report").iter().all(|answer| answer.starts_with("report 1 3 ")));
    for criterion in CRITERIA {
        let plain = at_weight_1(&samples);
        let unweighted = fit::scores(&plain, &folded_afresh(&plain), 2, criterion);
        assert!(fit::chosen(&unweighted) != Some(1));
        let sums = folded_afresh(&samples);
        for way in 0..WEIGHTED_SCORES {
            let score_of = |degree| {
                let terms = fit::solved(&samples, &sums, degree)?;
                Some(weighted_score(way, &samples, &terms, criterion))
            };
            let scores: Vec<Option<f64>> = (0..=2).map(score_of).collect();
            assert!(fit::chosen(&scores) != Some(1), "{way}: {scores:?}");
        }
    }
}

#[test]
fn folds_see_weights_in_sums_alone() {
    let edge = weights("unweighted: in folds");
    let samples = edge.samples();
    assert_eq!(edge.of("validate"), ["fit 2", "fit 2"]);
    let folds = fit::fold_ranges(samples.len(), 3);
    for criterion in CRITERIA {
        let unweighted = fit::scores_over(&folds, &at_weight_1(&samples), 2, criterion);
        assert!(fit::chosen(&unweighted) != Some(2));
        for way in 0..WEIGHTED_SCORES {
            let mean_of = |degree| {
                let score = |own: &std::ops::Range<usize>| {
                    let others = [&samples[..own.start], &samples[own.end..]].concat();
                    let terms = fit::solved(&samples, &folded_afresh(&others), degree)?;
                    Some(weighted_score(way, &samples[own.clone()], &terms, criterion))
                };
                let solved: Vec<f64> = folds.iter().filter_map(score).collect();
                (!solved.is_empty()).then(|| solved.iter().sum::<f64>() / solved.len() as f64)
            };
            let scores: Vec<Option<f64>> = (0..=2).map(mean_of).collect();
            assert!(fit::chosen(&scores) != Some(2), "{way}: {scores:?}");
        }
    }
}

#[test]
fn frames_of_both_versions() {
    let two = weights("frames: of version 2");
    assert_eq!(two.of("frame"), ["book 0", "book 1", "book 3"]);
    let by_adds = weights("frames: the same by single adds");
    for name in ["xs", "ys", "ws"] {
        assert_eq!(two.shown(name)[0][..3], by_adds.shown(name)[0][..3], "{name}");
    }
    assert_eq!(two.shown("sums"), by_adds.shown("sums"));
    let least = f64::from_bits(1);
    assert_eq!(two.shown("ws")[0][..3], bits_of(&[3.0, 0.5, least]));
    let both = weights("frames: of version 1 behind");
    assert_eq!(both.of("frame"), ["book 4", "book 7", "book 9"]);
    assert_eq!(both.shown("ws")[0][3..9], bits_of(&[1.0, 1.0, 1.0, 1.0, 3.0, 1.0]));

    // By version 0, 1, 2, 3 and 255: 0, 8, 16, 24, 32, 40, 48, 72 and 96 bytes.
    let lengths = weights("lengths: by 24");
    let by_16 = [3, 2, 3, 2, 3, 2, 3, 2, 3];
    let version_1 = by_16.map(|number| if number == 3 { 0 } else { number });
    let version_2 = [0, 2, 2, 0, 2, 2, 0, 0, 0];
    let expected = [by_16, version_1, version_2, by_16, by_16].concat();
    assert_eq!(numbers(&lengths.of("frame")), expected);
    assert_eq!(numbers(&weights("lengths: one that does not").of("frame")), [2; 7]);

    let longest = weights("longest: ");
    assert_eq!(longest.of("frame"), ["book 2730", "refused 5", "book 4096"]);
    assert_eq!(numbers(&longest.of("add")), [5, 15]);
}

#[test]
fn weights_are_kept_and_moved() {
    let corrected = weights("corrections: the weight is kept");
    assert_eq!(corrected.shown("ws")[0][..3], bits_of(&[2.0, 0.5, 4.0]));
    let sums = &corrected.shown("sums")[0];
    assert_eq!(
        (sums[0], sums[255], sums[272]),
        (77.0f64.to_bits(), NEGATIVE_ZERO, 79.0f64.to_bits())
    );
    // 1 × 2 + 4 × 0.5 + 5 × 4, and the same with x.
    assert_eq!(sums[256..258], bits_of(&[24.0, 42.0]));
    let unjudged = weights("corrections: no weight is judged");
    assert_eq!(numbers(&unjudged.of("correct")), [0, 0, 0, 0, 0, 0, 0, 0, 4, 6]);

    let gone = weights("withdrawals: weights move");
    assert_eq!(gone.shown("ws")[0][..5], bits_of(&[2.0, 4.0, 0.125, 16.0, 16.0]));
    assert_eq!(gone.shown("sums")[0][0], 22.125f64.to_bits());
    let more = weights("withdrawals: the last one");
    assert_eq!(more.shown("ws")[0][..5], bits_of(&[4.0, 0.125, 0.125, 16.0, 16.0]));
    assert_eq!(more.shown("ws")[1][..5], bits_of(&[4.0, 0.125, 9.0, 16.0, 16.0]));
    let leaves = weights("withdrawals: no weight is judged");
    assert_eq!(leaves.of("fit"), ["refused 4", "refused 4", "fit 0"]);
    assert_eq!(leaves.of("withdraw"), ["book 2", "book 1"]);
}

#[test]
fn refusal_15_after_4_and_before_5() {
    let adds = weights("refused adds: ");
    let numbered = numbers(&adds.of("add"));
    // The book's own sample; on full sums; on short ones; and with room.
    let full = [4, 4, 4, 4, 4, 4, 4, 15, 15, 15, 15, 15, 5, 5];
    assert_eq!((numbered[0], &numbered[1..15]), (0, &full[..]));
    assert_eq!((&numbered[15..29], &numbered[29..]), (&[1; 14][..], &[15, 0][..]));

    let frames = weights("refused frames: ");
    let numbered = numbers(&frames.of("frame"));
    let full = [4, 4, 4, 4, 4, 4, 4, 4, 15, 15, 15, 15, 5, 2, 2, 3, 3];
    assert_eq!((&numbered[..17], &numbered[17..34]), (&full[..], &[1; 17][..]));
    assert_eq!(numbered[34..], [15, 0]);
    for name in ["xs", "ys", "ws"] {
        assert_eq!(frames.shown(name)[0][0], frames.shown(name)[1][0]);
    }
    assert_eq!(frames.shown("ws")[1][..2], bits_of(&[2.0, 4.0]));
    assert_eq!(frames.shown("sums")[0], bits_of(&[2.0, 0.0]));
}

#[test]
fn the_shortest_of_three_columns() {
    for name in ["xs", "ys", "ws"] {
        let edge = weights(&format!("columns: {name} is the shortest"));
        assert_eq!(numbers(&edge.of("add")), [0, 0, 5, 1, 5], "{name}");
        assert_eq!(numbers(&edge.of("frame")), [5, 5, 0, 1], "{name}");
        assert_eq!(numbers(&edge.of("lines")), [5, 1], "{name}");
        assert_eq!(numbers(&edge.of("fit")), [0, 1], "{name}");
        for call in ["correct", "withdraw", "report", "validate", "band"] {
            assert!(edge.of(call).iter().all(|answer| *answer == "refused 1"), "{name}: {call}");
        }
    }
    assert_eq!(numbers(&weights("columns: at most").of("add")), [5, 0, 1]);
}

#[test]
fn weights_in_the_column() {
    let reads = weights("reads: a weight below");
    for call in ["fit", "report", "losses", "scores", "band"] {
        assert_eq!(numbers(&reads.of(call)), [4, 4, 1, 1].repeat(3), "{call}");
    }
    // By both criteria.
    assert_eq!(numbers(&reads.of("validate")), [4, 4, 4, 4, 1, 1, 1, 1].repeat(3));
    let nobodys = weights("reads: at the count");
    for call in ["fit", "report", "losses", "scores", "validate", "band"] {
        assert!(nobodys.of(call).iter().all(|answer| !answer.starts_with("refused")), "{call}");
    }
    let read = weights("as they are: weights of 0");
    for call in ["report", "losses", "scores", "validate", "band", "correct", "withdraw", "fit"] {
        assert!(read.of(call).iter().all(|answer| !answer.starts_with("refused")), "{call}");
    }
    for (ws, weight) in read.shown("ws").iter().zip([0.0f64, -0.0, -0.25]) {
        assert_eq!(ws[2], weight.to_bits());
    }
    let zeros = weights("as they are: columns put by hand");
    assert_eq!(numbers(&zeros.of("fit")), [10, 0]);
    assert!(zeros.shown("sums")[0].iter().all(|sum| *sum << 1 == 0));
}

#[test]
fn fields_of_weights() {
    let part = weights("fields: ");
    let messages: Vec<&str> = part
        .0
        .iter()
        .filter_map(|(_, printed)| Some(printed.strip_prefix("line ")?.split_once(": ")?.1))
        .collect();
    let expected = [
        "field 4: not a float",
        "field 4: not a float",
        "field 4: not a float",
        "field 5: one too many",
        "field 5: one too many",
        "field 2: not a name",
        "field 4: missing",
        "field 3: too large",
        "field 3: too large",
        "field 2: not a name",
        "field 4: too large",
        "field 2: not a name",
    ];
    assert_eq!(messages, expected);
    assert_eq!(part.shown("ws")[0], [0.75f64.to_bits(), NAN_BITS]);
}

/// A part of the list of windows.
fn windows(comment: &str) -> Edge {
    part("windows.calls", comment)
}

#[test]
fn window_is_a_withdrawal_and_an_add() {
    let (season, by_hand) = (windows("season: "), windows("by hand: "));
    assert_eq!(season.of("window"), by_hand.of("add"));
    // Once the book is full, nothing older stands past the count.
    for name in ["xs", "ys", "ws"] {
        assert_eq!(season.shown(name)[4..], by_hand.shown(name)[4..], "{name}");
    }
    for name in ["sums", "errors", "lower", "upper", "outliers"] {
        assert_eq!(season.shown(name), by_hand.shown(name), "{name}");
    }
    assert_eq!(season.shown("ws")[7], bits_of(&[1.0, 0.5, 1.0, 3.0, 1.0, 77.0]));
    let latest = &season.samples()[3..];
    assert_eq!(season.shown("sums")[0][..272], bits_of(&folded_afresh(latest)));
}

#[test]
fn windows_of_each_length() {
    assert_eq!(numbers(&windows("no places: ").of("window")), [5, 15, 4, 1, 1, 1].repeat(3));
    let one = windows("one: ");
    assert_eq!(one.of("window"), ["book 1"; 3]);
    for (sums, sample) in one.shown("sums").iter().zip(one.samples()) {
        assert_eq!(sums[..], bits_of(&folded_afresh(&[sample]))[..3]);
    }
    for name in ["xs", "ys", "ws"] {
        let two = windows(&format!("two: {name}"));
        assert_eq!(two.of("window"), ["book 1", "book 2", "book 2", "book 2"]);
        assert_eq!(two.shown("sums")[0], bits_of(&folded_afresh(&two.samples()[2..])));
    }
    let hundred = windows("a hundred: ");
    assert_eq!(
        hundred.of("window")[98..],
        ["book 99", "book 100", "book 100", "book 100", "book 100"]
    );
    let xs = hundred.shown("xs");
    assert_eq!(
        (&xs[6][..], &xs[7][..]),
        (&bits_of(&[3.0, 4.0])[..], &bits_of(&[101.0, 102.0, 77.0])[..])
    );
    assert_eq!(hundred.shown("sums")[0], bits_of(&folded_afresh(&hundred.samples()[3..])));
    for length in [4096, 4199] {
        let most = windows(&format!("most: 4,096 in columns of {length}"));
        assert_eq!(most.of("window"), ["book 4096"; 3]);
        assert_eq!(most.shown("xs")[5], bits_of(&[0.0, 1.0, 2.0, 78.0]));
        assert_eq!(most.shown("xs")[4], bits_of(&[2.0, 3.0, 4.0]));
        assert_eq!(numbers(&most.of("add")), [5]);
    }
    assert_eq!(windows("most: a count").of("window"), ["refused 1"]);
}

#[test]
fn refused_windows_withdraw_nothing() {
    let refused = windows("refused: ");
    let numbered = numbers(&refused.of("window"));
    assert_eq!(numbered[..10], [0, 0, 4, 4, 4, 4, 4, 15, 15, 15]);
    assert_eq!((&numbered[10..20], numbered[20]), (&[1; 10][..], 0));
    let first = &refused.samples()[..2];
    let xs: Vec<f64> = first.iter().map(|sample| sample.x).chain([77.0]).collect();
    assert_eq!(refused.shown("xs")[0], bits_of(&xs));
    assert_eq!(refused.shown("sums")[0], bits_of(&folded_afresh(first))[..3]);
    assert_eq!(refused.shown("ws")[1][..2], bits_of(&[1.0, 5e-324]));
}

#[test]
fn plain_calls_on_full_windows() {
    let full = windows("full: an add");
    assert_eq!(numbers(&full.of("add")), [5, 5]);
    assert_eq!(numbers(&full.of("frame")), [5, 5, 0]);
    assert_eq!(numbers(&full.of("lines")), [5, 5, 0]);
    let room = windows("full: a withdrawal");
    assert_eq!(numbers(&room.of("frame")), [5, 0, 5]);
    assert_eq!(room.of("window"), ["book 3"]);
    assert_eq!(room.shown("xs")[0], bits_of(&[4.0, 5.0, 5.0, 77.0]));
    let mixed = windows("mixed: ");
    assert_eq!(numbers(&mixed.of("correct")), [0, 6]);
    assert_eq!(numbers(&mixed.of("withdraw")), [0, 6]);
    assert_eq!(mixed.shown("xs")[2], bits_of(&[5.0, 7.0, 8.0, 1.0, 77.0]));
    assert_eq!(mixed.shown("ws")[3], bits_of(&[1.0, 1.0, 1.0, 1.0, 77.0]));
}

#[test]
fn windows_are_folded_afresh() {
    let edge = windows("afresh: the sums less");
    let samples = edge.samples();
    let mut less = folded_afresh(&samples[..3]);
    for (place, product) in less.iter_mut().zip(folded_afresh(&samples[..1])) {
        *place -= product;
    }
    judge::sums::add(&mut less, samples[3]);
    let sums = &edge.shown("sums")[0];
    assert_eq!(*sums, bits_of(&folded_afresh(&samples[1..])));
    assert!(bits_of(&less)[..256] != sums[..256] && bits_of(&less)[256..] != sums[256..]);
    let put = windows("afresh: sums put by hand");
    let sums = put.shown("sums");
    assert_eq!((sums[0][0], sums[0][256]), (78.0f64.to_bits(), NAN_BITS));
    assert_eq!(sums[1], bits_of(&folded_afresh(&put.samples()[1..])));
    assert_eq!(numbers(&windows("afresh: what is not finite").of("fit")), [4, 0].repeat(3));
}

#[test]
fn fields_of_windows() {
    let part = windows("fields: ");
    let messages: Vec<&str> =
        part.0.iter().filter_map(|(_, printed)| Some(printed.split_once(": ")?.1)).collect();
    let expected = [
        "field 2: missing",
        "field 2: not a float",
        "field 3: missing",
        "field 4: not a float",
        "field 4: not a float",
        "field 5: one too many",
        "field 2: not a float",
        "field 1: not a call",
    ];
    assert_eq!(messages, expected);
    assert_eq!(part.of("window")[7..], ["book 1", "book 2"]);
}

/// A part of the list of losses.
fn losses(comment: &str) -> Edge {
    part("losses.calls", comment)
}

/// The degree, the total and the score of each answer that is one.
fn answered(edge: &Edge) -> Vec<(usize, f64, f64)> {
    let number = |field: &str| f64::from_bits(u64::from_str_radix(field, 16).unwrap());
    let of = |answer: &&str| {
        let fields: Vec<&str> = answer.strip_prefix("losses ")?.split(' ').collect();
        Some((fields[0].parse().unwrap(), number(fields[1]), number(fields[2])))
    };
    edge.of("losses").iter().filter_map(of).collect()
}

fn floats(bits: &[u64]) -> Vec<f64> {
    bits.iter().map(|&bits| f64::from_bits(bits)).collect()
}

#[test]
fn losses_add_up_to_the_total() {
    for comment in ["season: ", "by hand: ", "chosen: ", "total: ", "sums: ", "bounds: ", "longest"]
    {
        let edge = losses(comment);
        let answers = answered(&edge);
        assert!(answers.len() == edge.of("losses").len() && !answers.is_empty());
        let degrees = edge.of("report");
        for (i, ((degree, total, _), shown)) in answers.iter().zip(edge.shown("losses")).enumerate()
        {
            let shown = floats(&shown);
            let sum = shown[..shown.len() - 1].iter().fold(0.0, |sum, loss| sum + loss);
            assert_eq!(sum.to_bits(), total.to_bits(), "{comment}");
            // The report's choice.
            if let Some(report) = degrees.get(i) {
                assert!(report.starts_with(&format!("report {degree} ")), "{comment}");
            }
        }
    }
}

#[test]
fn losses_by_hand() {
    let line = losses("by hand: document 01");
    assert_eq!(line.shown("losses")[0], bits_of(&[0.0, 0.0, 0.0, 0.0, 0.0, 605.0]));
    assert_eq!(line.shown("scratch")[0], bits_of(&[0.0, 0.0, 0.0, 0.0, 0.0, 505.0]));
    let four = losses("by hand: 0, 0, 4 and 8");
    let linear = |size: f64| HUBER_CONST * (size - 0.5 * HUBER_CONST);
    let expected = [linear(3.0), linear(3.0), 0.5, linear(5.0)];
    assert_eq!(four.shown("losses")[0][..4], bits_of(&expected));
    let mean = expected.iter().fold(0.0, |sum, loss| sum + loss) / 4.0;
    let scores: Vec<f64> = answered(&four).iter().map(|answer| answer.2).collect();
    assert!((scores[0] - (4.0 * mean.ln() + 2.0)).abs() < 1e-12);
    assert!((scores[1] - (4.0 * mean.ln() + 4f64.ln())).abs() < 1e-12);
    let weighted = losses("by hand: weights");
    assert_eq!(weighted.shown("losses")[0][..2], bits_of(&[linear(3.0), 0.5]));
}

#[test]
fn losses_of_the_chosen_degree() {
    let edge = losses("chosen: degree 0, though");
    let samples = edge.samples();
    let (degree, total, score) = answered(&edge)[0];
    let scores = fit::scores(&samples, &folded_afresh(&samples), 1, Criterion::Aic);
    assert_eq!((degree, Some(score)), (0, scores[0]));
    let line = fit::solved(&samples, &folded_afresh(&samples), 1).unwrap();
    let of_line = fit::total_loss(&fit::losses(&fit::residuals(&samples, &line)));
    assert!(scores[1] < scores[0] && total > of_line && of_line > 0.0);
    assert_eq!(answered(&losses("chosen: T11"))[0].1, 0.0);
    assert_eq!(answered(&losses("chosen: degree 0 is unsolved"))[0].0, 1);
    let order = &losses("total: in index order").shown("losses")[0];
    let order = floats(&order[..11]);
    let backwards = order.iter().rev().fold(0.0, |sum, loss| sum + loss);
    assert!(backwards != fit::total_loss(&order));
    let last = floats(&losses("total: without the last").shown("losses")[0]);
    assert!(fit::total_loss(&last[..6]) != fit::total_loss(&last[..7]));
    let lent = losses("sums: those that are lent");
    let residuals: Vec<f64> = lent.samples().iter().map(|sample| sample.y - 250.0).collect();
    assert_eq!(floats(&lent.shown("losses")[0])[..8], fit::losses(&residuals));
}

#[test]
fn losses_are_refused_as_a_report_is() {
    let same = losses("settings: confidence");
    let answers = same.of("losses");
    assert!(answers.len() == 4 && answers.iter().all(|answer| *answer == answers[0]));
    assert_eq!(numbers(&losses("settings: and are judged").of("losses")), [4; 3]);
    let short = losses("short: each memory");
    assert_eq!(numbers(&short.of("losses")), [1, 1, 1, 4, 0, 0].repeat(4));
    let unwritten: Vec<f64> = (0..4).map(|i| 600.0 + f64::from(i)).collect();
    assert!(short.shown("losses").iter().step_by(2).all(|shown| *shown == bits_of(&unwritten)));
    let unjudged = losses("short: what only a report writes");
    assert_eq!(
        (numbers(&unjudged.of("report")), numbers(&unjudged.of("losses"))),
        (vec![1], vec![0])
    );
    assert_eq!(numbers(&losses("short: no samples").of("losses")), [1; 3]);
    let early = losses("early: ");
    assert_eq!(numbers(&early.of("losses")), [7, 4, 8, 4, 4, 4, 4, 4, 4, 4]);
    assert_eq!(
        (early.shown("losses")[0][0], early.shown("scratch")[0][0]),
        (600f64.to_bits(), 500f64.to_bits())
    );
    for (comment, number, n) in
        [("late: 11, where", 11, 2), ("late: 11 with", 11, 3), ("late: 12", 12, 3)]
    {
        let late = losses(comment);
        assert_eq!(
            (numbers(&late.of("report")), numbers(&late.of("losses"))),
            (vec![number], vec![number])
        );
        assert_eq!(late.shown("losses")[0][0], 600f64.to_bits());
        assert!(late.shown("scratch")[0][..n].iter().all(|place| *place == 0));
        assert_eq!(late.shown("scratch")[0][n], (500.0 + n as f64).to_bits());
    }
}

#[test]
fn fields_of_losses() {
    let part = losses("fields: ");
    let messages: Vec<&str> =
        part.0.iter().filter_map(|(_, printed)| Some(printed.split_once(": ")?.1)).collect();
    let expected = [
        "field 2: missing",
        "field 2: not a name",
        "field 8: missing",
        "field 9: not a name",
        "field 9: not a name",
        "field 10: one too many",
        "field 1: not a call",
        "field 1: not a call",
        "field 3: too large",
        "field 3: too large",
    ];
    assert_eq!(messages, expected);
    assert_eq!(answered(&part).len(), 3);
}

/// A part of the list of scores.
fn scores(comment: &str) -> Edge {
    part("scores.calls", comment)
}

/// Degree, bound, solved degrees and tests of the scores that were told, and the least.
fn told(edge: &Edge) -> Vec<([usize; 4], f64)> {
    let of = |answer: &&str| {
        let fields: Vec<&str> = answer.strip_prefix("scores ")?.split(' ').collect();
        let numbers = [0, 1, 2, 3].map(|at| fields[at].parse().unwrap());
        Some((numbers, f64::from_bits(u64::from_str_radix(fields[4], 16).unwrap())))
    };
    edge.of("scores").iter().filter_map(of).collect()
}

#[test]
fn scores_of_a_choice() {
    for comment in ["season: ", "by hand: ", "unsolved: ", "chosen: ", "sums: ", "bounds: "] {
        let edge = scores(comment);
        let (answers, reports) = (told(&edge), edge.of("report"));
        let (marks, values) = (edge.shown("solved"), edge.shown("scores"));
        assert!(answers.len() == reports.len() && !answers.is_empty());
        for (i, ([degree, bound, solved, _], least)) in answers.into_iter().enumerate() {
            // The report's choice.
            assert!(reports[i].starts_with(&format!("report {degree} {solved} ")), "{comment}");
            assert_eq!(marks[i][..TERMS].iter().sum::<u64>(), solved as u64);
            let values = floats(&values[i][..TERMS]);
            let of = |degree: &usize| marks[i][*degree] == 1;
            let told: Vec<usize> = (0..=bound).filter(of).collect();
            let lowest = told.iter().map(|degree| values[*degree]).fold(f64::INFINITY, f64::min);
            assert_eq!(lowest.to_bits(), least.to_bits(), "{comment}");
            let near = |degree: &&usize| values[**degree] - least <= 2.0;
            assert_eq!(told.iter().find(near), Some(&degree), "{comment}");
            for other in (0..TERMS).filter(|other| !told.contains(other)) {
                assert_eq!((marks[i][other], values[other].to_bits()), (0, 0), "{comment}");
            }
        }
    }
    // The score of the losses.
    let season = scores("season: a pit");
    let (chosen, losses) = (told(&season), answered(&season));
    for (i, ([degree, ..], _)) in chosen.into_iter().enumerate() {
        assert_eq!(season.shown("scores")[i][degree], losses[i].2.to_bits());
    }
}

#[test]
fn scores_by_hand() {
    let four = scores("by hand: 0, 0, 4 and 8");
    let linear = |size: f64| HUBER_CONST * (size - 0.5 * HUBER_CONST);
    let mean = (((linear(3.0) + linear(3.0)) + 0.5) + linear(5.0)) / 4.0;
    let least: Vec<f64> = told(&four).iter().map(|answer| answer.1).collect();
    assert!(told(&four).iter().all(|answer| answer.0 == [0, 1, 1, 3]));
    assert!((least[0] - (4.0 * mean.ln() + 2.0)).abs() < 1e-12);
    assert!((least[1] - (4.0 * mean.ln() + 4f64.ln())).abs() < 1e-12);
    assert_eq!(four.shown("scores")[0][TERMS], 716f64.to_bits());
    assert_eq!(four.shown("scratch")[0], bits_of(&[0.0, 0.0, 0.0, 0.0, 504.0]));
    let line = scores("by hand: x = y");
    assert!(told(&line).iter().all(|answer| answer.0 == [1, 1, 2, 3]));
    // 5 / 2 is below 4 and 5 above 3: 2 × 2 × 3 / 2 is added.
    let floor = 5.0 * f64::EPSILON.ln();
    assert!((told(&line)[0].1 - (floor + 4.0 + 6.0)).abs() < 1e-12);
    assert!((told(&line)[1].1 - (floor + 2.0 * 5f64.ln())).abs() < 1e-12);
}

#[test]
fn scores_of_unsolved_degrees() {
    let overflow = scores("unsolved: degree 0");
    assert_eq!(
        (told(&overflow)[0].0, &overflow.shown("solved")[0][..2]),
        ([1, 1, 1, 3], &[0, 1][..])
    );
    let years = scores("unsolved: from some degree");
    let [_, bound, solved, tests] = told(&years)[0].0;
    assert!((bound, solved < 9, tests < 45) == (8, true, true), "{solved} {tests}");
    let sums = folded_afresh(&years.samples());
    let compared = |k| judge::solve::pivots_compared(&sums, k);
    assert_eq!((1..=9).map(compared).sum::<usize>(), tests);
    let past = scores("unsolved: past the bound");
    let ones =
        |at: usize| past.shown("solved")[at][..TERMS].iter().filter(|mark| **mark == 1).count();
    assert_eq!((ones(0), ones(1), ones(2)), (8, 3, 1));
    let sixteen = scores("unsolved: sixteen");
    assert_eq!((told(&sixteen)[0].0[1], told(&sixteen)[1].0), (15, [0, 0, 1, 1]));
}

#[test]
fn scores_beside_the_least() {
    let edge = scores("chosen: degree 0, though");
    let (([degree, ..], least), values) = (told(&edge)[0], floats(&edge.shown("scores")[0]));
    assert_eq!((degree, least), (0, values[1]));
    assert!(values[0] > least && values[0] - least <= 2.0);
    let edge = scores("chosen: T11");
    let values = floats(&edge.shown("scores")[0]);
    assert_eq!((told(&edge)[0].0[0], values[0] - told(&edge)[0].1), (0, 2.0));
}

#[test]
fn scores_are_refused_as_a_report_is() {
    let same = scores("settings: confidence");
    let answers = same.of("scores");
    assert!(answers.len() == 4 && answers.iter().all(|answer| *answer == answers[0]));
    assert_eq!(numbers(&scores("settings: and are judged").of("scores")), [4; 3]);
    let short = scores("short: each memory");
    assert_eq!(numbers(&short.of("scores")), [1, 1, 1, 4, 0, 0].repeat(5));
    let unwritten: Vec<f64> = (0..=16).map(|i| 700.0 + f64::from(i)).collect();
    assert!(short.shown("scores").iter().step_by(2).all(|shown| *shown == bits_of(&unwritten)));
    let unjudged = scores("short: what only a report writes");
    assert_eq!(
        (numbers(&unjudged.of("report")), numbers(&unjudged.of("scores"))),
        (vec![1], vec![0])
    );
    assert_eq!(numbers(&scores("short: no samples").of("scores")), [1; 3]);
    let early = scores("early: ");
    assert_eq!(numbers(&early.of("scores")), [7, 4, 8, 4, 4, 4, 4, 4, 4, 4]);
    assert_eq!(
        (early.shown("scores")[0][0], early.shown("scratch")[0][0]),
        (700f64.to_bits(), 500f64.to_bits())
    );
    for (comment, number, n) in
        [("late: 11, where", 11, 2), ("late: 11 with", 11, 3), ("late: 12", 12, 3)]
    {
        let late = scores(comment);
        assert_eq!(
            (numbers(&late.of("report")), numbers(&late.of("scores"))),
            (vec![number], vec![number])
        );
        assert_eq!(late.shown("scores")[0], bits_of(&unwritten));
        assert!(late.shown("scratch")[0][..n].iter().all(|place| *place == 0));
        assert_eq!(late.shown("scratch")[0][n], (500.0 + n as f64).to_bits());
    }
}

#[test]
fn fields_of_scores() {
    let part = scores("fields: ");
    let messages: Vec<&str> =
        part.0.iter().filter_map(|(_, printed)| Some(printed.split_once(": ")?.1)).collect();
    let expected = [
        "field 2: missing",
        "field 2: not a name",
        "field 8: missing",
        "field 9: not a name",
        "field 9: not a name",
        "field 10: one too many",
        "field 1: not a call",
        "field 3: too large",
        "field 3: too large",
        "field 2: not a name",
    ];
    assert_eq!(messages, expected);
    assert_eq!(told(&part).len(), 3);
}

#[test]
fn season_has_every_message_and_refusal() {
    let answers = printed(&Judge, "season");
    let messages = [
        "not a call",
        "not a name",
        "not a number",
        "not a float",
        "not hexadecimal",
        "too large",
        "missing",
        "one too many",
    ];
    for message in messages {
        let ending = format!(": {message}");
        assert!(answers.lines().any(|line| line.ends_with(&ending)), "{message}");
    }
    for number in 1..=12 {
        let refusal = format!("refused {number}");
        assert!(answers.lines().any(|line| line == refusal), "{refusal}");
    }
}

/// A part of the list of splits.
fn split_part(comment: &str) -> Edge {
    part("split.calls", comment)
}

impl Edge {
    /// The settings of the splits.
    fn split_settings(&self) -> Vec<Settings> {
        let settings = |request| match request {
            Request::Call(Call::Split { settings, .. }) => Some(settings),
            _ => None,
        };
        self.requests().into_iter().filter_map(settings).collect()
    }

    /// The break, the degrees and the tests of a split's answer, and its total.
    fn split(&self, at: usize) -> ([usize; 4], f64) {
        let fields: Vec<&str> = self.of("split")[at].split(' ').collect();
        let numbers = [1, 2, 3, 4].map(|at| fields[at].parse().unwrap());
        (numbers, f64::from_bits(u64::from_str_radix(fields[5], 16).unwrap()))
    }
}

/// The header's numbers: a bend at 4, and 3 is answered.
#[test]
fn short_sides() {
    let bend = split_part("bend: eight samples");
    assert_eq!(bend.split(0), ([3, 1, 1, 30], -113.35496093152223));
    assert_eq!(bend.of("split")[1], "refused 16");
    assert_eq!((bend.split(2), bend.split(5)), (bend.split(0), bend.split(0)));
    assert_eq!(bend.of("split")[3..5], ["refused 16"; 2]);
    let at_4 = &split::breaks(&bend.samples(), bend.split_settings()[0])[2..3];
    assert!((split::least_total(at_4).unwrap().total - -17.7).abs() < 0.05);
    let two = split_part("bend: each side of two");
    let (answer, total) = two.split(0);
    assert_eq!((answer[0], total / 2.0), (2, 2.0 * judge::numbers::ln(f64::EPSILON) + 2.0));
    assert!((0..4).all(|at| two.split(at).1 == total));
    let pit = split_part("bend: forty samples");
    assert_eq!((pit.split(1).0[0], pit.split(2).0[0], pit.split(3).0[0]), (18, 18, 18));
}

#[test]
fn equal_totals() {
    let seven = split_part("equals: of seven");
    let breaks = split::breaks(&seven.samples(), seven.split_settings()[0]);
    let total = |b: usize| split::least_total(&breaks[b - 2..b - 1]).unwrap().total;
    assert_eq!((seven.split(0).0[0], total(2), total(5)), (2, total(5), seven.split(0).1));
    assert_eq!(split_part("equals: of any four").split(0).0[0], 2);
    let five = split_part("equals: one sample");
    let (samples, settings) = (five.samples(), five.split_settings()[0]);
    let score = |side: &[Sample]| side_fit(side, settings).unwrap().score;
    assert!(score(&samples[..1]) + score(&samples[1..]) < five.split(0).1);
}

/// The total and the break that another score of each side would give.
fn broken_by(samples: &[Sample], score: impl Fn(usize, &[Sample]) -> Option<f64>) -> usize {
    let mut best = (f64::INFINITY, 0);
    for b in 2..=samples.len() - 2 {
        let scores = (score(0, &samples[..b]), score(b, &samples[b..]));
        if let (Some(before), Some(after)) = scores {
            if before + after < best.0 {
                best = (before + after, b);
            }
        }
    }
    best.1
}

#[test]
fn chosen_scores_are_added() {
    let edge = split_part("scores: those of the chosen");
    let samples = edge.samples();
    for (at, settings) in edge.split_settings().into_iter().enumerate() {
        let by_least = broken_by(&samples, |_, side| {
            let bound = max_degree(settings.bound, side.len());
            let scores = fit::scores(side, &folded_afresh(side), bound, settings.criterion);
            Some(fit::least(&scores))
        });
        assert_ne!(edge.split(at).0[0], by_least);
    }
    let two_above = split_part("scores: a chosen degree");
    assert_eq!(two_above.split(0).0[..2], [3, 0]);
    let first = &two_above.samples()[..3];
    let scores = fit::scores(first, &folded_afresh(first), 1, Criterion::Aic);
    assert_eq!(scores[0].unwrap() - scores[1].unwrap(), 2.0);
}

#[test]
fn breaks_passed_over() {
    let sides = |edge: &Edge| -> Vec<(usize, bool, bool)> {
        let breaks = split::breaks(&edge.samples(), edge.split_settings()[0]);
        breaks.iter().map(|at| (at.b, at.before.is_some(), at.after.is_some())).collect()
    };
    let before = split_part("passed over: the side before");
    assert_eq!(sides(&before), [(2, true, true), (3, false, true), (4, false, true)]);
    assert_eq!(before.split(0).0, [2, 0, 0, 6]);
    let after = split_part("passed over: the side after");
    assert_eq!(sides(&after), [(2, true, false), (3, true, false), (4, true, true)]);
    assert_eq!(after.split(0).0, [4, 0, 0, 6]);
    let all = split_part("passed over: every break, so");
    assert_eq!(all.of("split"), ["refused 11", "refused 11", "refused 16", "refused 16"]);
    let six = split_part("passed over: every break of six");
    assert_eq!(six.of("split"), ["refused 11", "refused 16"]);
}

#[test]
fn tests_are_counted() {
    let equal = split_part("counts: equal x's");
    assert_eq!((equal.split(0).0[3], equal.split(2).0[3]), (2, 6));
    assert_eq!((equal.split(4).0[3], equal.split(5).0[3]), (30, 30));
    assert!([1, 3, 6].iter().all(|at| equal.of("split")[*at] == "refused 16"));
    let years = split_part("counts: years");
    let (samples, settings) = (years.samples(), years.split_settings()[0]);
    let unfailing = |side: usize| (1..=side.min(5)).sum::<usize>();
    let all: usize = (2..=8).map(|b| unfailing(b) + unfailing(10 - b)).sum();
    assert!(years.split(0).0[3] < all);
    assert_eq!(years.split(0).0[3], split::tests(&split::breaks(&samples, settings)));
    let over = split_part("counts: the tests of a break");
    assert_eq!((over.split(0).0[3], &over.of("split")[1..]), (6, &["refused 16"; 2][..]));
}

#[test]
fn sums_of_the_sides() {
    let edge = split_part("sums: those after the break");
    let (samples, settings) = (edge.samples(), edge.split_settings()[0]);
    let whole = folded_afresh(&samples);
    let by_subtraction = broken_by(&samples, |b, side| {
        let mut sums = folded_afresh(&samples[..b]);
        (0..sums.len()).for_each(|at| sums[at] = whole[at] - sums[at]);
        let bound = max_degree(settings.bound, side.len());
        let sums = if b == 0 { folded_afresh(side) } else { sums };
        let scores = fit::scores(side, &sums, bound, settings.criterion);
        scores[fit::chosen(&scores)?]
    });
    assert_eq!((edge.split(0).0[0], by_subtraction), (7, 3));
    let lent = split_part("sums: the lent ones");
    assert_eq!((lent.split(0), lent.shown("after")), (edge.split(0), edge.shown("after")));
    let weights = split_part("sums: with weights");
    assert_eq!((weights.split(0).0[0], weights.split(1).0[0]), (7, 4));
    assert_ne!(weights.shown("before")[1], weights.shown("before")[2]);
}

#[test]
fn bounds_of_the_sides() {
    let own = split_part("bounds: a side's own");
    // One pivot of a side below 16 samples, of degrees 0 and 1 three, and from 24 on six.
    let side = |n: usize| match n {
        0..=15 => 1,
        16..=23 => 3,
        _ => 6,
    };
    let all: usize = (2..=30).map(|b| side(b) + side(32 - b)).sum();
    assert_eq!((own.split(0).0[3], own.split(2).0[3]), (all, all));
    let sixteen = split_part("bounds: 8 by the whole list's: Custom");
    let (passes, refused) = (sixteen.of("split"), ["refused 8"; 2]);
    assert!(passes[0].starts_with("split ") && passes[1] == "refused 16");
    assert_eq!((&passes[2..4], passes[5]), (&refused[..], "refused 16"));
    assert_eq!(split_part("bounds: 8 by the whole list's: Aggr").of("split"), ["refused 8"]);
}

#[test]
fn splits_refused_in_order() {
    let short = split_part("refused by 1: each memory");
    assert_eq!(short.of("split")[..7], ["refused 1"; 7]);
    assert!(short.of("split")[7].starts_with("split "));
    assert_eq!(split_part("refused by 1: a count").of("split"), ["refused 1"; 2]);
    let others = split_part("refused by 1: what only");
    assert!(others.of("split").iter().all(|answer| answer.starts_with("split ")));
    let seven = split_part("order: 7");
    for answers in seven.of("split")[..32].chunks(8) {
        assert_eq!(answers[..2], ["refused 7"; 2]);
        assert_eq!((&answers[2..4], &answers[4..]), (&["refused 4"; 2][..], &["refused 1"; 4][..]));
    }
    let eight = split_part("order: 8");
    let answers = eight.of("split");
    let first = ["refused 8", "refused 8", "refused 4", "refused 4", "refused 16"];
    assert_eq!((&answers[..5], &answers[6..]), (&first[..], &["refused 1"; 6][..]));
    for answers in split_part("order: 4").of("split").chunks(12) {
        assert_eq!((&answers[..8], answers[8]), (&["refused 4"; 8][..], "refused 8"));
        assert!(answers[10].starts_with("split ") && answers[11] == "refused 16");
    }
    let last = split_part("order: 16 before 11");
    let first = ["refused 16", "refused 16", "refused 11", "refused 4"];
    assert_eq!(last.of("split")[..4], first);
}

#[test]
fn scratch_of_splits() {
    let edge = split_part("scratch:");
    let shown = edge.shown("scratch");
    let mark = |i: usize| (500.0 + i as f64).to_bits();
    let marks = |n: usize| (0..n).map(mark).collect::<Vec<_>>();
    let cleared = |n: usize| [vec![0; n], vec![mark(n)]].concat();
    assert_eq!(shown[..3], [marks(18), cleared(17), cleared(17)]);
    // 11 clears four places; 7 leaves them.
    assert_eq!(shown[3..], [cleared(4), marks(5)]);
    let written = edge.shown("before");
    assert_eq!(written[0], written[1]);
    assert_eq!(written[2][16], (616.0_f64).to_bits());
    assert_eq!(
        (&written[2][1..16], &written[3], &written[4]),
        (&[0; 15][..], &written[0], &written[0])
    );
}

/// A part of the list of surfaces.
fn surface(comment: &str) -> Edge {
    part("surface.calls", comment)
}

impl Edge {
    /// The columns at each report, or what else begins with the word.
    fn surfaces(&self, word: &str) -> Vec<Vec<SurfaceSample>> {
        let (mut rows, mut count, mut seen) = (Vec::new(), 0, Vec::new());
        for (line, _) in &self.0 {
            match read(line.as_bytes()) {
                Ok(Some(Request::Row { index, sample })) => {
                    rows.truncate(index);
                    rows.push(sample);
                }
                Ok(Some(Request::Count(number))) => count = number,
                _ if line.starts_with(word) => seen.push(rows[..count].to_vec()),
                _ => {}
            }
        }
        seen
    }
}

#[test]
fn surfaces_by_hand() {
    let corners = surface("by hand: the corners");
    let places = |values: &[f64], mark: f64| {
        let mut places = values.to_vec();
        places.resize(15, 0.0);
        bits_of(&[&places[..], &[mark]].concat())
    };
    let plane = places(&[20.0, -12.0, 12.75], 115.0);
    assert!(corners.shown("coefficients").iter().all(|shown| shown[..16] == plane));
    let errors = places(&[1.0; 3], 215.0);
    assert!(corners.shown("errors").iter().all(|shown| shown[..16] == errors));
    assert_eq!(
        corners.of("surface_report"),
        ["report 1 2 0 0", "report 1 2 0 1", "report 1 2 0 2", "report 1 2 0 3"]
    );
    let pruned: Vec<_> = corners.shown("pruned").iter().map(|shown| shown[..3].to_vec()).collect();
    assert_eq!(pruned, [[0, 0, 0], [0, 1, 0], [1, 0, 1], [1, 1, 1]]);
    let wide = 1.959 * 3_f64.sqrt();
    assert_eq!(
        floats(&corners.shown("lower")[0])[..4],
        [20.75, -4.75, 44.75, 19.25].map(|v| v - wide)
    );
    let narrow = surface("by hand: a score of 0.5");
    assert_eq!(narrow.shown("outliers")[0][..4], [1; 4]);
    let one = surface("by hand: one sample");
    assert_eq!(one.of("surface_report"), ["report 0 1 0 0"]);
    assert_eq!(floats(&one.shown("upper")[0])[0], -2.5);
}

/// Each coefficient is that of its term, and no other order of terms would have it.
#[test]
fn terms_in_order() {
    let edge = surface("terms: by a + b");
    let found = floats(&edge.shown("coefficients")[0]);
    for (j, value) in found[..15].iter().enumerate() {
        assert!((value - (j + 1) as f64).abs() < 1e-9, "{j}: {value}");
    }
    let huge = surface("terms: x² is infinite");
    assert_eq!(huge.of("surface_fit"), ["fit 0", "refused 10", "refused 10", "refused 10"]);
}

#[test]
fn k_is_the_number_of_terms() {
    let edge = surface("scores: ");
    for (samples, answer) in edge.surfaces("surface_report").iter().zip(edge.of("surface_report")) {
        let sums = folded(samples);
        let chosen_by = |k: fn(usize) -> usize| {
            let score = |degree| {
                let residuals = fit::residuals(samples, &fit::solved(samples, &sums, degree)?);
                Some(fit::score(Criterion::Aic, &residuals, k(degree)))
            };
            fit::chosen(&(0..=2).map(score).collect::<Vec<_>>())
        };
        let right = chosen_by(terms_of).unwrap();
        assert!(answer.starts_with(&format!("report {right} 3 ")), "{answer}");
        assert_ne!(chosen_by(|degree| degree + 1), Some(right));
    }
    assert_eq!(edge.of("surface_report").len(), 3);
}

#[test]
fn one_z_for_all_samples() {
    let edge = surface("level: one z");
    assert_eq!(numbers(&edge.of("surface_fit")), [0, 10, 10].repeat(3));
    assert_eq!(numbers(&edge.of("surface_band")), [0, 10, 10].repeat(3));
    assert!(edge.of("surface_report").iter().all(|answer| answer.starts_with("report 0 1 ")));
    let other = surface("level: one x");
    assert_eq!(other.of("surface_fit"), ["refused 10"]);
    assert!(other.of("surface_report")[0].starts_with("report 0 1 "));
}

#[test]
fn more_terms_than_samples() {
    let edge = surface("terms and samples: every number");
    let (fits, bands) = (numbers(&edge.of("surface_fit")), numbers(&edge.of("surface_band")));
    let reports = edge.of("surface_report");
    for n in 1..=16 {
        for degree in 0..=5 {
            let too_many = degree > 4 || terms_of(degree) > n;
            let at = 6 * (n - 1) + degree;
            assert_eq!((fits[at] == 8, bands[at] == 8), (too_many, too_many), "{n} {degree}");
        }
        let solved: usize = reports[n - 1].split(' ').nth(2).unwrap().parse().unwrap();
        assert!(solved <= (0..=4).filter(|&degree| terms_of(degree) <= n).count());
    }
    // Fits of each total degree to as many samples as terms.
    let exact = [(1, 0), (3, 1), (6, 2), (10, 3), (15, 4)];
    assert!(exact.iter().all(|&(n, degree)| fits[6 * (n - 1) + degree] == 0));
    let nine = surface("terms and samples: nine");
    let samples = &nine.surfaces("surface_report")[0];
    assert!(fit::solved(samples, &folded(samples), 3).is_some());
    assert!(nine.of("surface_report")[0].split(' ').nth(2) == Some("3"));
    assert_eq!(nine.of("surface_fit"), ["refused 8"]);
}

#[test]
fn bounds_above_4() {
    let of = |comment: &str| numbers(&surface(comment).of("surface_report"));
    assert_eq!(of("bounds: Custom 5"), [0, 0, 8, 0]);
    assert_eq!(of("bounds: Aggressive"), [0, 0, 8, 0]);
    assert_eq!(of("bounds: Relaxed"), [0, 0, 8, 0]);
    assert_eq!(of("bounds: Conservative"), [0]);
}

#[test]
fn surfaces_refused_in_order() {
    let bands = |comment: &str| numbers(&surface(comment).of("surface_band"));
    assert_eq!(bands("bands: x and z each"), [0; 6]);
    assert_eq!(bands("bands: z outside"), [9; 6]);
    for comment in ["not finite: a given", "not finite: in a column"] {
        let edge = surface(comment);
        let words = ["surface_fit", "surface_report", "surface_band"];
        let all: Vec<u32> = words.iter().flat_map(|word| numbers(&edge.of(word))).collect();
        assert!(all.len() == 18 && all.iter().all(|number| *number == 4), "{comment}: {all:?}");
        // Nothing is written.
        assert_eq!(edge.shown("coefficients")[0][0], 100f64.to_bits());
        assert_eq!(edge.shown("scratch")[0][0], 500f64.to_bits());
    }
    let past = surface("not finite: past the count");
    let all = ["surface_fit", "surface_report", "surface_band"].map(|word| past.of(word)[0]);
    assert_eq!(numbers(&all), [0; 3]);
    let early = surface("early: 7 before 8");
    assert_eq!(numbers(&early.of("surface_fit")), [7, 7]);
    assert_eq!(numbers(&early.of("surface_report")), [7, 4]);
    assert_eq!(numbers(&early.of("surface_band")), [7, 4]);
    let early = surface("early: 4 before 8");
    assert_eq!(numbers(&early.of("surface_report")), [4, 8]);
    assert_eq!(numbers(&early.of("surface_band")), [4, 8, 8, 9, 10]);
    assert_eq!(numbers(&early.of("surface_fit")), [8]);
    assert_eq!(early.shown("scratch")[0][0], 500f64.to_bits());
    assert_eq!(early.shown("scratch")[1], bits_of(&[0.0, 0.0, 0.0, 0.0, 0.0, 0.0, 506.0]));
    let early = surface("early: 1 before 4");
    assert_eq!(numbers(&early.of("surface_fit")), [1, 4]);
    assert_eq!(numbers(&early.of("surface_report")), [1, 4, 1, 8]);
    assert_eq!(numbers(&early.of("surface_band")), [1, 4]);
}

#[test]
fn memory_of_surfaces() {
    let exact = surface("short: each memory");
    for word in ["surface_fit", "surface_report", "surface_band"] {
        assert_eq!(numbers(&exact.of(word)), [0], "{word}");
    }
    for (name, judged) in [
        ("xs", [1, 1, 1]),
        ("zs", [1, 1, 1]),
        ("ys", [1, 1, 1]),
        ("scratch", [1, 1, 1]),
        ("coefficients", [1, 1, 0]),
        ("errors", [0, 1, 0]),
        ("pruned", [0, 1, 0]),
        ("lower", [0, 1, 0]),
        ("upper", [0, 1, 0]),
        ("outliers", [0, 1, 0]),
    ] {
        let edge = surface(&format!("short: {name} one place short"));
        // First by what 8, 4 and 8 would refuse, too.
        let words = ["surface_fit", "surface_report", "surface_band"];
        for ((word, judged), otherwise) in words.into_iter().zip(judged).zip([8, 4, 8]) {
            let first = if judged == 1 { 1 } else { otherwise };
            assert_eq!(numbers(&edge.of(word)), [first, judged], "{name} {word}");
        }
        // What a report would have written is as it was.
        assert_eq!(edge.shown("errors")[0][0], 200f64.to_bits(), "{name}");
    }
    let none = surface("short: no samples");
    assert_eq!(numbers(&none.of("surface_fit")), [7, 1]);
    assert_eq!(numbers(&none.of("surface_report")), [7, 1]);
    assert_eq!(numbers(&none.of("surface_band")), [7, 7]);
    let most = surface("short: a count above 4,096");
    assert_eq!(numbers(&most.of("surface_fit")), [1, 0]);
    assert_eq!(numbers(&most.of("surface_report")), [1]);
}

#[test]
fn surfaces_refused_late() {
    let unsolved = surface("late: 10 and 11");
    assert_eq!(unsolved.of("surface_fit"), ["refused 10"]);
    assert_eq!(unsolved.of("surface_band"), ["refused 10"]);
    assert_eq!(unsolved.of("surface_report"), ["refused 11"]);
    assert!(unsolved.shown("scratch").iter().all(|shown| *shown == bits_of(&[0.0, 0.0, 502.0])));
    assert_eq!(surface("late: 11 with").of("surface_report"), ["refused 11"]);
    let edge = surface("late: 12");
    assert_eq!(edge.of("surface_report"), ["refused 12"]);
    assert_eq!(edge.of("surface_band"), ["refused 12"]);
    assert_eq!(edge.of("surface_fit"), ["fit 2"]);
    assert_eq!(edge.shown("errors")[0][0], 200f64.to_bits());
    assert!(edge.shown("scratch").iter().all(|shown| shown[..6] == [0; 6]));
    let mean = surface("late: total degree 0");
    assert_eq!(mean.of("surface_fit"), ["refused 10"]);
    assert!(mean.of("surface_report")[0].starts_with("report 1 1 "));
}

/// The columns of a book are read as they are, whatever the weights, and left.
#[test]
fn surfaces_of_a_book() {
    let edge = surface("book: ");
    assert_eq!(floats(&edge.shown("coefficients")[0])[..3], [20.0, -12.0, 12.75]);
    assert_eq!(edge.of("surface_report"), ["report 1 2 0 0"]);
    assert_eq!(floats(&edge.shown("ws")[0])[..4], [1.0, 2.0, 3.0, 4.0]);
}

#[test]
fn fields_of_surfaces() {
    let part = surface("fields: ");
    let messages: Vec<&str> =
        part.0.iter().filter_map(|(_, printed)| Some(printed.split_once(": ")?.1)).collect();
    let expected = [
        "field 2: missing",
        "field 2: too large",
        "field 2: not a number",
        "field 5: missing",
        "field 4: not a float",
        "field 6: one too many",
        "field 3: too large",
        "field 2: missing",
        "field 2: not a number",
        "field 3: one too many",
        "field 2: not a name",
        "field 8: missing",
        "field 9: not a name",
        "field 10: one too many",
        "field 3: not a float",
        "field 4: not a number",
        "field 8: missing",
        "field 9: one too many",
        "field 1: not a call",
        "field 1: not a call",
    ];
    assert_eq!(messages, expected);
    assert_eq!(part.of("surface_fit").last(), Some(&"fit 0"));
    assert_eq!(part.of("surface_report")[4..], ["report 0 1 0 0"; 3]);
}

/// A part of the list of groups.
fn groups(comment: &str) -> Edge {
    part("groups.calls", comment)
}

impl Edge {
    /// What was answered to a group's calls, in order.
    fn by_group(&self) -> Vec<&str> {
        let of_group = |(line, _): &&(String, String)| line.starts_with("group_");
        self.0.iter().filter(of_group).map(|(_, printed)| printed.as_str()).collect()
    }
}

#[test]
fn groups_take_turns() {
    let edge = groups("course:");
    let answers = edge.by_group();
    assert!(answers[..8].iter().all(|answer| *answer == "report 2 3 0 0"), "{answers:?}");
    assert_eq!(
        answers[8..12],
        ["report 1 2 1 0", "report 1 2 1 0", "refused 16", "report 2 3 0 0"]
    );
    assert_eq!((answers[14], answers[16]), ("refused 16", "refused 16"));
    assert!(answers[15].starts_with("split 3 1 1 18 "));
    let tables = edge.shown("table");
    let counters: Vec<&[u64]> = tables.iter().map(|table| &table[..8]).collect();
    let mut third = [12; 8];
    third[3] = 0;
    let expected: [[u64; 8]; 5] =
        [[6; 8], [6, 6, 6, 0, 0, 6, 6, 6], [12; 8], third, [18, 18, 18, 18, 18, 18, 18, 0]];
    assert_eq!(counters, expected);
    assert!(tables.iter().all(|table| table[9] == 0));
    assert_eq!(tables.iter().map(|table| table[8]).collect::<Vec<_>>(), [12, 12, 12, 12, 18]);
}

/// At a counter of the cost group 5 is left with none, at one less the counter stands; scratch is cleared
/// either way, as many places as samples.
fn check_costs(edge: &Edge, late: &[&str]) {
    let quotas: Vec<u64> = edge.requests().iter().filter_map(quota_of).collect();
    let (answers, tables, scratch) = (edge.by_group(), edge.shown("table"), edge.shown("scratch"));
    let mut told = Vec::new();
    for (at, quota) in quotas.iter().enumerate().take(tables.len()) {
        let left = if at % 2 == 0 { 0 } else { *quota };
        let mut table = [*quota; 10];
        (table[5], table[9]) = (left, 0);
        assert_eq!(tables[at], table, "{at}");
        assert_eq!(answers[at] == "refused 16", at % 2 == 1, "{at}: {}", answers[at]);
        let n = scratch[at].len() - 1;
        let cleared = [vec![0; n], vec![(500.0 + n as f64).to_bits()]].concat();
        assert_eq!(scratch[at], cleared);
        if at % 2 == 0 {
            told.push(answers[at].split(' ').next().unwrap_or_default());
            assert_eq!(*quota, quotas[at + 1] + 1);
        }
    }
    assert!(late.is_empty() || told == ["refused"; 3][..late.len()], "{told:?}");
    for (number, answer) in late.iter().zip(answers.iter().step_by(2)) {
        assert_eq!(answer, number);
    }
}

fn quota_of(request: &Request) -> Option<u64> {
    match request {
        Request::Call(Call::Start { quota }) => Some(*quota as u64),
        _ => None,
    }
}

#[test]
fn costs_of_groups() {
    check_costs(&groups("costs: a report"), &[]);
    check_costs(&groups("costs: Custom 9"), &[]);
    check_costs(&groups("costs: equal x's"), &[]);
    check_costs(&groups("costs: the lent sums"), &[]);
    check_costs(&groups("costs: a surface"), &[]);
    check_costs(&groups("costs: one z"), &[]);
    check_costs(&groups("costs: a split of"), &[]);
    check_costs(&groups("costs: a split takes"), &[]);
    check_costs(&groups("late: 11"), &["refused 11"; 3]);
    check_costs(&groups("late: 12 of a report"), &["refused 12"]);
    check_costs(&groups("late: 12 of a surface"), &["refused 12"]);
    // Neither 11 nor 16 writes an output.
    let edge = groups("late: 11");
    assert_eq!(edge.shown("coefficients")[0][0], 100.0_f64.to_bits());
    assert_eq!(edge.shown("upper")[0][0], 400.0_f64.to_bits());
}

#[test]
fn early_refusals_of_groups() {
    let edge = groups("early: 17");
    let [by_17, by_16] = ["refused 17", "refused 16"];
    let each = [by_17, by_17, by_17, by_17, by_17, by_17, by_16];
    assert_eq!(edge.by_group(), [each; 3].concat());
    let marks: Vec<u64> = (0..18).map(|i| (500.0 + i as f64).to_bits()).collect();
    assert_eq!(edge.shown("scratch"), [marks.clone()]);
    let edge = groups("early: 4 before");
    assert_eq!(edge.by_group(), [["refused 4", "refused 4", "refused 8"]; 3].concat());
    assert_eq!((edge.shown("scratch"), edge.shown("table")), (vec![marks], vec![vec![0; 10]]));
    let edge = groups("early: a number");
    let (by_4, by_16) = ("refused 4", "refused 16");
    assert_eq!(edge.by_group(), [by_4, by_4, by_4, by_16, by_4, by_16]);
    let edge = groups("early: no samples");
    let [by_7, by_17, by_4] = ["refused 7", "refused 17", "refused 4"];
    let all = [by_7, by_17, by_4, by_7, by_17, by_4, by_7, by_17, by_4];
    assert_eq!((edge.by_group(), edge.shown("table")), (all.to_vec(), vec![vec![0; 10]]));
}

#[test]
fn short_memory_of_groups() {
    let edge = groups("short: a table");
    let mut answers = edge.by_group();
    answers.extend(&edge.of("start")[1..]);
    answers.extend(edge.of("renew"));
    assert_eq!(answers, ["refused 1"; 2 * 18 + 3 + 2 + 2]);
    assert_eq!(edge.shown("table"), [[5, 5, 5, 5, 5, 5, 5, 5, 5, 0]]);
    assert_eq!(edge.shown("scratch")[0][0], 500.0_f64.to_bits());
    // What a call is not lent is not judged: each of the three in turn.
    let edge = groups("short: every");
    let judged = |of: &[usize]| {
        let answer = |kind: usize| if of.contains(&kind) { "refused 1" } else { "refused 17" };
        [0, 1, 2].map(answer)
    };
    let (both, reports, curve) = ([0, 1, 2], [0, 1], [0, 2]);
    let expected = [
        judged(&curve),
        judged(&both),
        judged(&reports),
        judged(&reports),
        judged(&reports),
        judged(&reports),
        judged(&reports),
        judged(&reports),
        judged(&[2]),
        judged(&[2]),
        judged(&[1]),
        judged(&both),
    ];
    let answers = edge.by_group();
    assert_eq!(answers[..36], expected.concat());
    assert_eq!(
        (answers[36], &answers[37][..6], answers[38]),
        ("refused 1", "report", "refused 16")
    );
}

#[test]
fn tables_of_groups() {
    let edge = groups("tables:");
    // 3, 4 and 6 tests.
    let answers = edge.by_group();
    for (kind, refused) in [3, 4, 6].into_iter().enumerate() {
        let by_16 = |answer: &&str| *answer == "refused 16";
        let answers = &answers[8 * kind..8 * kind + 8];
        assert!(answers[..refused].iter().all(by_16) && !answers[refused..].iter().any(by_16));
    }
    let tables = edge.shown("table");
    assert_eq!(tables[0], [0, 1, 2, 0, 1, 2, 3, 4, 9, 77, 78, 79, 0]);
    assert_eq!(tables[1], [0, 1, 2, 3, 0, 1, 2, 3, 9, 77, 78, 79, 0]);
    assert_eq!(tables[2], [0, 1, 2, 3, 4, 5, 0, 1, 9, 77, 78, 79, 0]);
    assert_eq!(tables[3], [4, 4, 4, 4, 4, 4, 4, 4, 4, 77, 78, 79, 0]);
    assert_eq!(tables[4][..10], [&[999_999_999; 9][..], &[77]].concat());
}

#[test]
fn plain_calls_and_groups() {
    let edge = groups("plain: calls");
    let refused = |line: &(String, String)| line.1.starts_with("refused");
    assert!(!edge.0.iter().any(refused));
    assert_eq!(edge.shown("table"), [[0, 0, 0, 0, 0, 0, 0, 0, 0, 77]]);
    let edge = groups("plain: what");
    for name in ["coefficients", "errors", "pruned", "lower", "upper", "outliers", "scratch"] {
        let shown = edge.shown(name);
        assert_eq!(shown.len(), 8);
        for pair in shown.chunks(2) {
            assert_eq!(pair[0], pair[1], "{name}");
        }
    }
    for pair in edge.shown("before").chunks(2).chain(edge.shown("after").chunks(2)) {
        assert_eq!(pair[0], pair[1]);
    }
    let plain = [edge.of("report"), edge.of("surface_report"), edge.of("split")];
    let by_group =
        [edge.of("group_report"), edge.of("group_surface_report"), edge.of("group_split")];
    assert_eq!(plain, by_group);
    // 3 or 6 tests of a report, 4 of a surface, 6 of a split up to degree 1 or 2.
    let left: Vec<u64> = edge.shown("table").iter().map(|table| table[1]).collect();
    assert_eq!(left, [30 - 3 - 4 - 6, 30 - 6 - 4 - 6]);
}

#[test]
fn fields_of_groups() {
    let edge = groups("fields:");
    let malformed = |(_, printed): &&(String, String)| printed.starts_with("line ");
    let said: Vec<&str> =
        edge.0.iter().filter(malformed).map(|(_, printed)| printed.as_str()).collect();
    let said: Vec<&str> =
        said.iter().map(|text| text.split_once(": ").map_or("", |(_, said)| said)).collect();
    let expected = [
        "field 2: missing",
        "field 2: not a number",
        "field 3: one too many",
        "field 2: one too many",
        "field 2: missing",
        "field 2: not a number",
        "field 3: not a name",
        "field 3: not a name",
        "field 10: not a name",
        "field 1: not a call",
        "field 4: not a number",
        "field 3: too large",
        "field 2: not a name",
        "field 3: too large",
        "field 3: too large",
    ];
    assert_eq!(said, expected);
}

/// A part of the list of a season's stakes.
fn glacier(comment: &str) -> Edge {
    part("glacier.calls", comment)
}

/// The places of a stake's part, of these memories in the list.
const STAKE_PLACES: [(&str, usize); 11] = [
    ("xs", 5),
    ("ys", 6),
    ("ws", 5),
    ("sums", 273),
    ("scratch", 7),
    ("coefficients", 16),
    ("errors", 18),
    ("pruned", 16),
    ("lower", 5),
    ("upper", 6),
    ("outliers", 5),
];

impl Edge {
    /// What was answered to the stakes' calls, in order, with the stake.
    fn by_stake(&self) -> Vec<(usize, &str)> {
        let stake = |line: &str| match read(line.as_bytes()) {
            Ok(Some(Request::Call(Call::Season { stake, .. }))) => Some(stake),
            _ => None,
        };
        self.0.iter().filter_map(|(line, printed)| Some((stake(line)?, &printed[..]))).collect()
    }

    /// The answers of each stake in the season reports.
    fn season_reports(&self) -> Vec<(&str, Vec<&str>)> {
        let parts = |printed| {
            let mut fields = str::split(printed, " | ");
            (fields.next().unwrap_or_default(), fields.collect())
        };
        self.of("season_report").into_iter().map(parts).collect()
    }
}

#[test]
fn season_opens() {
    let edge = glacier("open: all");
    let one = 7.0_f64.to_bits();
    assert_eq!(edge.of("season_open"), ["done"]);
    assert_eq!(edge.shown("counts"), [[vec![0; 32], vec![72]].concat()]);
    let sums = &edge.shown("sums")[0];
    let marked: Vec<usize> = (0..sums.len()).filter(|&at| sums[at] == one).collect();
    // Of what was marked, the place behind each part's 272 is left, and what is nobody's.
    let left = [272, 273 + 272, 30 * 273 + 272, 31 * 273 + 272];
    assert_eq!(marked, left.into_iter().chain(32 * 273..32 * 273 + 8).collect::<Vec<_>>());
    let edge = glacier("open: short");
    let [refused, done] = ["refused 1", "done"];
    assert_eq!(edge.of("season_open"), [refused, refused, refused, refused, done]);
    let counts = edge.shown("counts");
    assert_eq!((counts[0][0], counts[0][31], counts[1][0], counts[1][31]), (5, 6, 0, 0));
    assert_eq!(edge.shown("sums"), [[one, 0, 0], [0, 0, 0]]);
}

#[test]
fn memory_of_a_season_is_cut() {
    let edge = glacier("cut:");
    let counts = &edge.shown("counts")[0];
    let two = [0, 1, 30, 31];
    assert!((0..32).all(|stake| counts[stake] == if two.contains(&stake) { 2 } else { 0 }));
    for (name, places, rest) in [("xs", 5, 1), ("ys", 6, 31), ("ws", 5, 0)] {
        let shown = &edge.shown(name)[0];
        assert_eq!(shown.len(), 32 * places + rest + 1);
        for (at, bits) in shown.iter().enumerate() {
            // The first two places of a part of these stakes, and no other.
            let written = two.contains(&(at / places)) && at % places < 2;
            assert_eq!(*bits != (1000.0 + at as f64).to_bits(), written, "{name} {at}");
        }
    }
    // Stakes 0, 1, 2, 29, 30, 31: the sum of the weights stands first.
    let sums: Vec<u64> = edge.shown("sums").iter().map(|sums| sums[0]).collect();
    let [four, none] = [4.0_f64.to_bits(), 0];
    assert_eq!(sums, [four, four, none, none, four, four]);
    // Stake 0 first, then stake 31 too.
    assert_eq!(edge.of("season_fit"), ["fit 1", "fit 1"]);
    for (time, stakes) in [&[0][..], &[0, 31]].into_iter().enumerate() {
        let scratch = &edge.shown("scratch")[time];
        for (at, bits) in scratch.iter().enumerate() {
            let cleared = stakes.contains(&(at / 7)) && at % 7 < 2;
            let expected = if cleared { 0 } else { (500.0 + at as f64).to_bits() };
            assert_eq!(*bits, expected, "scratch {at}");
        }
        let coefficients = &edge.shown("coefficients")[time];
        for (at, bits) in coefficients.iter().enumerate() {
            let written = stakes.contains(&(at / 16));
            assert_eq!(*bits != (100.0 + at as f64).to_bits(), written, "coefficients {at}");
        }
    }
}

#[test]
fn stakes_are_plain_books() {
    let (stake, book) = (glacier("plain: every call of stake 0"), glacier("plain: the same"));
    let answers: Vec<&str> = stake.by_stake().iter().map(|(_, answer)| *answer).collect();
    let plain: Vec<&str> = book
        .0
        .iter()
        .filter(|(line, _)| !line.starts_with("lent") && !line.starts_with("show"))
        .map(|(_, printed)| printed.as_str())
        .collect();
    assert_eq!(answers, plain);
    for (name, places) in STAKE_PLACES {
        assert_eq!(stake.shown(name), book.shown(name), "{name}");
        assert_eq!(stake.shown(name)[0].len(), places);
    }
    // Every number that these calls can be refused by but 1, 10, 11 and 12.
    for number in [4, 15, 5, 13, 14, 2, 3, 6, 7, 8, 9, 16] {
        assert!(answers.contains(&&*format!("refused {number}")), "{number}");
    }
    // In turn, each is as by itself.
    let edge = glacier("plain: every call of stake 31");
    let both = edge.by_stake();
    for (at, expected) in answers.iter().enumerate() {
        assert_eq!(both[2 * at..2 * at + 2], [(31, *expected), (17, *expected)]);
    }
    for (name, _) in STAKE_PLACES {
        // Scratch and outputs held other things before.
        let shown = edge.shown(name);
        if ["xs", "ys", "ws", "sums"].contains(&name) {
            let below = if name == "sums" { 272 } else { 4 };
            assert_eq!(shown[0][..below], stake.shown(name)[0][..below], "{name}");
            assert_eq!(shown[1][..below], stake.shown(name)[0][..below], "{name}");
        }
    }
    assert_eq!(edge.shown("counts")[0][17], edge.shown("counts")[0][31]);
}

#[test]
fn other_stakes_are_not_looked_at() {
    let edge = glacier("others:");
    let of = |stake: usize| {
        let answers = edge.by_stake().into_iter().filter(|(of, _)| *of == stake);
        answers.map(|(_, answer)| answer).skip(5).collect::<Vec<_>>()
    };
    assert_eq!(of(5), ["refused 4", "refused 4", "book 4", "book 0", "refused 7"]);
    assert_eq!(of(4)[1..], ["fit 1", "book 4"]);
    assert!(of(4)[0].starts_with("report ") && of(6)[0] == of(4)[0]);
    assert!(of(6)[3].starts_with("report") && of(6)[3] == of(6)[4]);
    assert_eq!(edge.shown("counts")[0][4..7], [4, 0, 4]);
}

#[test]
fn numbers_of_a_stake() {
    let edge = glacier("numbers:");
    let answers = edge.by_stake();
    let of = |stake: usize| {
        let of = answers.iter().filter(|(of, _)| *of == stake);
        of.map(|(_, answer)| *answer).collect::<Vec<_>>()
    };
    assert_eq!(of(11), ["refused 7"; 7]);
    // Filled first, as the next one.
    assert_eq!(of(12)[5..], ["refused 4"; 7]);
    let equal = of(13)[5..].to_vec();
    assert_eq!((equal[0], equal[2]), ("refused 10", "refused 10"));
    assert!(equal[3].starts_with("report 0 1 ") && equal[6].starts_with("scores 0 1 1 "));
    let [four, fifteen] = ["refused 4", "refused 15"].map(|refused| [refused; 3]);
    let rest = ["refused 5", "refused 3", "refused 5", "refused 14", "refused 4"];
    assert_eq!(of(31), [&four[..], &fifteen, &rest].concat());
    assert_eq!(of(32), ["refused 18"; 11]);
}

#[test]
fn eighteen_before_all() {
    let edge = glacier("above:");
    let answers = edge.by_stake();
    let above: Vec<_> = answers.iter().filter(|(stake, _)| *stake > 31).collect();
    assert_eq!(above.len(), 5 * 15);
    assert!(above.iter().all(|(_, answer)| *answer == "refused 18"));
    // Filled before, and reported on behind the calls that had nothing.
    let of_31: Vec<&str> =
        answers.iter().filter(|(stake, _)| *stake == 31).map(|(_, answer)| *answer).collect();
    assert_eq!(of_31[5..20], ["refused 1"; 15]);
    assert!(of_31[20].starts_with("report "));
    assert_eq!(edge.shown("counts")[0][31], 4);
}

#[test]
fn short_counts_of_a_season() {
    let edge = glacier("counts:");
    let answers = edge.by_stake();
    assert_eq!(answers.len(), 3 * 15 + 1);
    assert!(answers[..45].iter().all(|(_, answer)| *answer == "refused 1"));
    assert_eq!(answers[45], (31, "book 5"));
    let reports = edge.season_reports();
    assert_eq!(reports[0], ("season 0", vec!["refused 1"; 32]));
    assert_eq!((reports[1].0, reports[1].1[30]), ("season 1", "refused 7"));
    assert_eq!(edge.shown("counts")[1][31..], [5, 9]);
}

#[test]
fn short_parts_of_a_season() {
    let edge = glacier("parts: a place");
    let answers: Vec<&str> = edge.by_stake().iter().map(|(_, answer)| *answer).collect();
    // Exact, a place less, and 31 more than of a shorter part; a fit has no use for most of them.
    let reports = edge.of("season_report_stake");
    for three in reports[..21].chunks(3) {
        assert!(three[0].starts_with("report 1"), "{three:?}");
        assert_eq!(three[1..], ["refused 1"; 2]);
    }
    let fits = edge.of("season_fit");
    for (at, three) in fits[..21].chunks(3).enumerate() {
        let second = if at < 2 { "refused 1" } else { "fit 1" };
        assert_eq!(three, ["fit 1", second, second]);
    }
    // Sums, then each column.
    assert!(reports[21].starts_with("report 1") && reports[22] == "refused 1");
    for pair in reports[23..].chunks(2) {
        assert!(pair[0].starts_with("report 1") && pair[1] == "refused 1", "{pair:?}");
    }
    assert_eq!(reports.len(), 23 + 6);
    assert_eq!(edge.of("season_withdraw"), ["refused 6", "refused 1"].repeat(3));
    assert!(answers.contains(&"refused 1"));
    let edge = glacier("parts: too short");
    let expected = [(1, [true, false, true]), (1, [true, false, true]), (2, [true, false, false])];
    for ((answered, refused), (told, stakes)) in expected.into_iter().zip(edge.season_reports()) {
        assert_eq!(told, format!("season {answered}"));
        for (stake, by_1) in [3, 9, 31].into_iter().zip(refused) {
            assert_eq!(stakes[stake] == "refused 1", by_1, "{stakes:?}");
        }
        assert!((0..32).all(|s| [3, 9, 31].contains(&s) || stakes[s] == "refused 7"));
    }
}

#[test]
fn own_memory_is_not_cut() {
    let edge = glacier("own:");
    let answers: Vec<&str> = edge.by_stake().iter().map(|(_, answer)| *answer).skip(5).collect();
    assert_eq!(answers.len(), 15);
    for three in answers.chunks(3) {
        assert!(three[1] == "refused 1" && three[0] == three[2], "{three:?}");
        assert!(!three[0].starts_with("refused"));
    }
}

#[test]
fn fewer_places_than_stakes() {
    let edge = glacier("few:");
    let answers: Vec<&str> = edge.by_stake().iter().map(|(_, answer)| *answer).collect();
    // Of each length three columns, then the sums.
    for of_length in answers.chunks(3 * 6 + 2) {
        assert_eq!(of_length[..18], ["refused 5", "refused 5", "book 0"].repeat(6));
        assert_eq!(of_length[18..], ["refused 1"; 2]);
    }
    let reports = edge.season_reports();
    assert_eq!(reports[0], ("season 0", vec!["refused 7"; 32]));
    assert_eq!(reports[1], ("season 0", vec!["refused 1"; 32]));
    assert_eq!(edge.shown("counts")[0][..32], [0; 32]);
}

#[test]
fn reports_of_a_season() {
    let edge = glacier("report: each");
    let reports = edge.season_reports();
    let (told, stakes) = &reports[0];
    assert_eq!(*told, "season 3");
    let refused: Vec<(usize, &str)> = stakes
        .iter()
        .enumerate()
        .filter(|(_, answer)| answer.starts_with("refused") && **answer != "refused 7")
        .map(|(stake, answer)| (stake, *answer))
        .collect();
    assert_eq!(
        refused,
        [(2, "refused 11"), (7, "refused 1"), (12, "refused 4"), (13, "refused 12")]
    );
    let answered = |stake: usize| stakes[stake].starts_with("report");
    assert!([1, 30, 31].into_iter().all(answered));
    // Outputs are those of the three alone; scratch is cleared at 11 and 12 too.
    for (name, places) in STAKE_PLACES {
        let mut writers = vec![1, 30, 31];
        if name == "scratch" {
            writers.extend([2, 13]);
        }
        if !["scratch", "coefficients", "errors", "lower", "upper"].contains(&name) {
            continue;
        }
        for (at, bits) in edge.shown(name)[0].iter().enumerate() {
            let marked = *bits == (300.0 + at as f64).to_bits();
            assert!(marked || writers.contains(&(at / places)), "{name} {at}");
            assert!(!marked || !writers.contains(&(at / places)) || at % places > 0);
        }
    }
    // 4 by the settings, 1 first.
    for report in &reports[1..3] {
        let by = |stake| if stake == 7 { "refused 1" } else { "refused 4" };
        assert_eq!(*report, ("season 0", (0..32).map(by).collect()));
    }
    assert_eq!(reports[5], ("season 0", vec!["refused 7"; 32]));
    let edge = glacier("report: 8");
    let reports = edge.season_reports();
    assert_eq!((reports[0].0, reports[1].0), ("season 3", "season 1"));
    assert_eq!((reports[1].1[0], reports[1].1[31]), ("refused 8", "refused 8"));
    assert!(reports[1].1[8].starts_with("report"));
    // Each that reads a stake, behind the samples of the last.
    assert_eq!(edge.by_stake().iter().rev().filter(|(_, a)| *a == "refused 8").count(), 7);
}

/// The user's case.
#[test]
fn a_correction_leaves_31_reports() {
    let edge = glacier("correction: one");
    let reports = edge.season_reports();
    let (before, after) = (&reports[0], &reports[1]);
    // Stakes 0, 6, 12, .. 30 are empty.
    assert_eq!((before.0, after.0), ("season 26", "season 26"));
    for stake in (0..32).filter(|stake| *stake != 16) {
        assert_eq!(before.1[stake], after.1[stake]);
    }
    for (name, places) in &STAKE_PLACES[4..] {
        let shown = edge.shown(name);
        assert_eq!(shown.len(), 2);
        let differ = |at: &usize| shown[0][*at] != shown[1][*at];
        let stakes: Vec<usize> = (0..shown[0].len()).filter(differ).map(|at| at / places).collect();
        assert!(stakes.iter().all(|stake| *stake == 16), "{name}: {stakes:?}");
        let moved = ["coefficients", "errors", "lower", "upper"].contains(name);
        assert!(!moved || !stakes.is_empty(), "{name}");
    }
    assert_eq!(glacier("correction: none").season_reports()[0].0, "season 32");
}

#[test]
fn fields_of_a_season() {
    let edge = glacier("fields:");
    let said: Vec<&str> = edge
        .0
        .iter()
        .filter(|(_, printed)| printed.starts_with("line "))
        .map(|(_, printed)| printed.split_once(": ").map_or("", |(_, said)| said))
        .collect();
    let expected = [
        "field 1: not a call",
        "field 2: one too many",
        "field 2: missing",
        "field 2: not a number",
        "field 2: not a number",
        "field 4: missing",
        "field 5: not a float",
        "field 3: not hexadecimal",
        "field 4: one too many",
        "field 3: one too many",
        "field 3: not a number",
        "field 3: missing",
        "field 4: one too many",
        "field 3: not a number",
        "field 3: not a float",
        "field 2: not a number",
        "field 2: not a name",
        "field 3: not a number",
        "field 9: missing",
        "field 10: not a name",
        "field 1: not a call",
        "field 1: not a call",
        "field 1: not a call",
        "field 4: not a number",
        "field 3: too large",
        "field 3: too large",
        "field 3: too large",
        "field 4: too large",
    ];
    assert_eq!(said, expected);
}
