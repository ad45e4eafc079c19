//! Course groups: what the wrapper takes from an allowance, and which refusals it tells.

use stakebook::{
    Allowance, Book, Confidence, Criterion, DegreeBound, PruningRule, Refusal, Settings, Surface,
    Tolerance,
};

fn up_to(degree: usize) -> Settings {
    Settings {
        bound: DegreeBound::Custom(degree),
        criterion: Criterion::Aic,
        confidence: Confidence::P95,
        tolerance: Tolerance::None,
        pruning: PruningRule::Positive,
    }
}

/// A bend at 4.
fn book() -> Book {
    let mut book = Book::with_capacity(8);
    book.add_lines(b"0 0\n1 1.1\n2 1.9\n3 3.05\n4 2.95\n5 2.1\n6 0.9\n7 0.02\n").expect("right");
    book
}

/// What each group has left.
fn left(allowance: &Allowance) -> Vec<usize> {
    (0..Allowance::GROUPS).filter_map(|group| allowance.left(group)).collect()
}

/// Degrees 0 and 1 take 1 and 2 tests; a split takes 3 on either side of its five breaks.
#[test]
fn costs_are_taken() {
    let (mut book, mut allowance) = (book(), Allowance::new(34));
    let plain = book.report(up_to(1)).map(|report| (report.degree, report.outlying.to_vec()));
    let report = book.group_report(0, &mut allowance, up_to(1)).expect("let through");
    assert_eq!(plain, Ok((report.degree, report.outlying.to_vec())));
    assert_eq!(left(&allowance), [31, 34, 34, 34, 34, 34, 34, 34]);
    let split = book.group_split(0, &mut allowance, up_to(1)).expect("let through");
    assert_eq!(Ok(split), book.split(up_to(1), 30));
    assert_eq!((split.tests, allowance.left(0), allowance.left(8)), (30, Some(1), None));
    let refused = book.group_split(0, &mut allowance, up_to(0));
    assert_eq!((refused, allowance.left(0)), (Err(Refusal::LimitPassed), Some(1)));
    let refused = book.group_report(0, &mut allowance, up_to(1)).map(|report| report.degree);
    assert_eq!((refused, allowance.left(0)), (Err(Refusal::LimitPassed), Some(1)));
    assert!(book.group_report(0, &mut allowance, up_to(0)).is_ok());
    assert!(book.group_split(7, &mut allowance, up_to(1)).is_ok());
    assert_eq!(left(&allowance), [0, 34, 34, 34, 34, 34, 34, 4]);
    allowance.renew();
    assert_eq!((left(&allowance), allowance.quota()), (vec![34; 8], 34));
}

/// Total degrees 0 and 1 of four samples; degree 2 has six terms and is not tried.
#[test]
fn surfaces_cost_too() {
    let corners = [(1.0, 1.0, 21.75), (1.0, -1.0, -5.75), (-1.0, 1.0, 43.75), (-1.0, -1.0, 20.25)];
    let mut surface: Surface = corners.into_iter().collect();
    let mut allowance = Allowance::new(7);
    let report = surface.group_report(5, &mut allowance, up_to(4)).expect("let through");
    assert_eq!((report.degree, report.coefficients), (1, &[20.0, -12.0, 12.75][..]));
    assert_eq!(left(&allowance), [7, 7, 7, 7, 7, 3, 7, 7]);
    let refused = surface.group_report(5, &mut allowance, up_to(4)).map(|report| report.degree);
    assert_eq!((refused, allowance.left(5)), (Err(Refusal::LimitPassed), Some(3)));
}

/// What refuses early takes nothing, and a report without a choice takes its tests.
#[test]
fn refusals() {
    let (mut book, mut allowance) = (book(), Allowance::new(9));
    let mut refused = |group: usize, settings: Settings| {
        let report = book.group_report(group, &mut allowance, settings).err();
        assert_eq!(report, book.group_split(group, &mut allowance, settings).err());
        assert_eq!(left(&allowance), [9; 8]);
        report
    };
    let nan = Settings { tolerance: Tolerance::Absolute(f64::NAN), ..up_to(0) };
    assert_eq!(refused(8, nan), Some(Refusal::NoSuchGroup));
    assert_eq!(refused(usize::MAX, up_to(0)), Some(Refusal::NoSuchGroup));
    assert_eq!(refused(7, nan), Some(Refusal::NotFinite));
    let mut empty = Book::with_capacity(2);
    let report = empty.group_report(0, &mut allowance, up_to(0)).map(|report| report.degree);
    assert_eq!(report, Err(Refusal::NoSamples));
    assert_eq!((empty.add(0.0, f64::MAX), empty.add(0.0, f64::MAX)), (Ok(()), Ok(())));
    let report = empty.group_report(0, &mut allowance, up_to(1)).map(|report| report.degree);
    assert_eq!((report, allowance.left(0)), (Err(Refusal::NoDegree), Some(6)));
    let mut none = Surface::new(Vec::new(), Vec::new(), Vec::new());
    let report = none.group_report(8, &mut allowance, nan).map(|report| report.degree);
    assert_eq!(report, Err(Refusal::NoSuchGroup));
}
