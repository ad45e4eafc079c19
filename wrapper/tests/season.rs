//! A season's stakes: each is a book of its own, and nothing of one is seen in another.

use stakebook::{
    Book, Confidence, Criterion, DegreeBound, PruningRule, Refusal, Season, Settings, Tolerance,
    TwoColumnBook,
};

const AIC_1: Settings = Settings {
    bound: DegreeBound::Custom(1),
    criterion: Criterion::Aic,
    confidence: Confidence::P95,
    tolerance: Tolerance::None,
    pruning: PruningRule::Size,
};

/// Readings of a stake, some ten of them, by its number.
fn readings(stake: usize) -> Vec<(f64, f64, f64)> {
    let reading = |i: usize| {
        let (x, bend) = (i as f64, (i * i * (stake + 3) % 7) as f64);
        (x, 2.0 + x * stake as f64 / 4.0 + bend / 8.0, 1.0 + (i % 3) as f64)
    };
    (0..6 + stake % 5).map(reading).collect()
}

/// Bits of all that stands in a stake.
fn stake_bits(season: &Season, stake: usize) -> Vec<u64> {
    let columns = [season.xs(stake), season.ys(stake), season.ws(stake), season.sums(stake)];
    columns.into_iter().flatten().flatten().map(|v| v.to_bits()).collect()
}

fn book_bits(book: &Book) -> Vec<u64> {
    let columns = [book.xs(), book.ys(), book.ws(), book.sums()];
    columns.into_iter().flatten().map(|v| v.to_bits()).collect()
}

/// Every call of three stakes beside the same of three books, the stakes in turn.
#[test]
fn stakes_are_books() {
    let stakes = [0, 13, 31];
    let mut season = Season::with_capacity(11);
    let mut books: Vec<Book> = stakes.iter().map(|_| Book::with_capacity(11)).collect();
    for i in 0..10 {
        for (&stake, book) in stakes.iter().zip(&mut books) {
            if let Some(&(x, y, weight)) = readings(stake).get(i) {
                let added = book.add_weighted(x, y, weight);
                assert_eq!(season.add_weighted(stake, x, y, weight), added);
            }
        }
    }
    let frame = [&[0, 25, 2][..], &[64, 36, 0, 0, 0, 0, 0, 0].repeat(3)].concat();
    for (&stake, book) in stakes.iter().zip(&mut books) {
        assert_eq!(season.add(stake, 2.5, 1.0), book.add(2.5, 1.0));
        assert_eq!(season.correct(stake, 2, -1.5), book.correct(2, -1.5));
        assert_eq!(season.correct(stake, 11, 0.0), Err(Refusal::NoSuchSample));
        assert_eq!(season.withdraw(stake, 1), book.withdraw(1));
        assert_eq!(season.add_frame(stake, &frame), book.add_frame(&frame));
        assert_eq!(season.add_frame(stake, &frame[1..]), Err(Refusal::FrameLength));
        assert_eq!(season.add_lines(stake, b"5.5 -3\n"), book.add_lines(b"5.5 -3\n"));
        assert_eq!(season.add_lines(stake, b"5.5"), Err(Refusal::MalformedLine));
        for day in 0..5 {
            let (x, y) = (7.0 + f64::from(day), 0.25 * f64::from(day * day));
            assert_eq!(season.add_window(stake, x, y), book.add_window(x, y));
        }
        assert_eq!(season.add(stake, f64::NAN, 0.0), Err(Refusal::NotFinite));
        assert_eq!(season.add_weighted(stake, 0.0, 0.0, 0.0), Err(Refusal::WeightNotAboveZero));
        assert_eq!(season.len(stake), Some(book.len()));
    }
    for (&stake, book) in stakes.iter().zip(&mut books) {
        assert_eq!(stake_bits(&season, stake), book_bits(book), "stake {stake}");
        assert_eq!(season.fit(stake, 2), book.fit(2));
        let by = (DegreeBound::Custom(2), Criterion::Bic);
        assert_eq!(season.validate(stake, 3, by.0, by.1), book.validate(3, by.0, by.1));
        let (p99, absolute) = (Confidence::P99, Tolerance::Absolute(0.5));
        assert_eq!(season.band(stake, 7.5, 1, p99, absolute), book.band(7.5, 1, p99, absolute));
        assert_eq!(season.band(stake, 99.0, 1, p99, absolute), Err(Refusal::OutOfRange));
        assert_eq!(season.scores(stake, AIC_1), book.scores(AIC_1));
        assert_eq!(season.losses(stake, AIC_1), book.losses(AIC_1));
        assert_eq!(season.split(stake, AIC_1, 200), book.split(AIC_1, 200));
        assert_eq!(season.split(stake, AIC_1, 1), Err(Refusal::LimitPassed));
        assert_eq!(season.report_stake(stake, AIC_1), book.report(AIC_1));
    }
    // All of them once more, at one go.
    let report = season.report(AIC_1);
    assert_eq!(report.answered, 3);
    let mut reports = report.all().enumerate();
    assert!(reports.all(|(stake, report)| {
        let refused = report == Err(Refusal::NoSamples);
        refused != stakes.contains(&stake)
    }));
    for (&stake, book) in stakes.iter().zip(&mut books) {
        assert_eq!(report.stake(stake), book.report(AIC_1));
    }
}

/// One correction between two reports: the other 31 keep their bits.
#[test]
fn one_correction() {
    let mut season = Season::with_capacity(10);
    for stake in 0..Season::STAKES {
        for (x, y, weight) in readings(stake) {
            assert_eq!(season.add_weighted(stake, x, y, weight), Ok(()));
        }
    }
    let told = |season: &mut Season| -> Vec<String> {
        let report = season.report(AIC_1);
        assert_eq!(report.answered, 32);
        report.all().map(|report| format!("{report:?}")).collect()
    };
    let before = told(&mut season);
    assert_eq!(season.correct(16, 3, 40.0), Ok(()));
    let after = told(&mut season);
    let differ: Vec<usize> = (0..32).filter(|&stake| before[stake] != after[stake]).collect();
    assert_eq!(differ, [16]);
}

/// A stake above 31 is told first of all, and no other stake is touched by a call.
#[test]
fn refusals() {
    let mut season = Season::with_capacity(4);
    for stake in [0, 31] {
        assert_eq!(season.add_lines(stake, b"0 1\n1 2\n2 4\n3 3\n"), Ok(()));
    }
    let before: Vec<Vec<u64>> = (0..32).map(|stake| stake_bits(&season, stake)).collect();
    let none = Err(Refusal::NoSuchStake);
    for stake in [32, 33, usize::MAX] {
        assert_eq!(season.clear_stake(stake), none);
        assert_eq!(season.add(stake, f64::NAN, 0.0), none);
        assert_eq!(season.add_window(stake, 0.0, 0.0), none);
        assert_eq!(season.add_frame(stake, &[]), none);
        assert_eq!(season.add_lines(stake, b"x"), none);
        assert_eq!(season.correct(stake, 9, f64::NAN), none);
        assert_eq!(season.withdraw(stake, 9), none);
        assert_eq!(season.fit(stake, 99), Err(Refusal::NoSuchStake));
        let bound = DegreeBound::Custom(99);
        assert_eq!(season.validate(stake, 0, bound, Criterion::Aic).map(|_| ()), none);
        let (p95, tolerance) = (Confidence::P95, Tolerance::Absolute(f64::NAN));
        assert_eq!(season.band(stake, 0.0, 1, p95, tolerance).map(|_| ()), none);
        assert_eq!(season.losses(stake, AIC_1).map(|_| ()), none);
        assert_eq!(season.scores(stake, AIC_1).map(|_| ()), none);
        assert_eq!(season.split(stake, AIC_1, 0).map(|_| ()), none);
        assert_eq!(season.report_stake(stake, AIC_1).map(|_| ()), none);
        assert_eq!(
            season.carry(stake, TwoColumnBook::with_capacity(1)).map_err(|e| e.refusal),
            none
        );
        assert_eq!((season.len(stake), season.xs(stake), season.sums(stake)), (None, None, None));
    }
    assert_eq!(season.add(31, 4.0, 1.0), Err(Refusal::Full));
    assert_eq!(season.fit(30, 0), Err(Refusal::NoSamples));
    let after: Vec<Vec<u64>> = (0..32).map(|stake| stake_bits(&season, stake)).collect();
    assert_eq!(before, after);
    assert_eq!(season.clear_stake(31), Ok(()));
    assert_eq!((season.len(0), season.len(31), season.is_empty()), (Some(4), Some(0), false));
    season.clear();
    assert!(
        season.is_empty() && season.sums(0).map_or(false, |sums| sums.iter().all(|v| *v == 0.0))
    );
}

/// Stakes of no place are there, and full.
#[test]
fn no_places() {
    let mut season = Season::with_capacity(0);
    assert_eq!((season.capacity(), season.add(0, 1.0, 1.0)), (0, Err(Refusal::Full)));
    assert_eq!(season.report(AIC_1).answered, 0);
}

/// A book of two columns becomes a stake.
#[test]
fn carried_into_a_stake() {
    let two_columns = || {
        let mut book = TwoColumnBook::with_capacity(5);
        for (x, y, _) in &readings(2)[..4] {
            book.add(*x, *y).expect("right");
        }
        book.correct(1, 9.0).expect("there is one");
        book
    };
    let mut season = Season::with_capacity(6);
    assert_eq!(season.add_lines(7, b"9 9\n8 8\n"), Ok(()));
    assert!(season.carry(7, two_columns()).is_ok());
    let mut book = two_columns().carry().expect("room enough");
    assert_eq!(season.add_weighted(7, 4.5, 3.0, 2.0), book.add_weighted(4.5, 3.0, 2.0));
    assert_eq!(stake_bits(&season, 7), book_bits(&book));
    assert_eq!(season.report_stake(7, AIC_1), book.report(AIC_1));
    // Too many samples for a stake: nothing changes, and the book is handed back.
    let mut small = Season::with_capacity(3);
    assert_eq!(small.add(7, 1.0, 1.0), Ok(()));
    let before = stake_bits(&small, 7);
    let refused = small.carry(7, two_columns()).expect_err("too many");
    assert_eq!((refused.refusal, *refused.book), (Refusal::Memory, two_columns()));
    assert_eq!(stake_bits(&small, 7), before);
    let wrong = TwoColumnBook::from_parts(3, vec![0.0; 2], vec![0.0; 3], [0.0; 272]);
    assert_eq!(season.carry(0, wrong).map_err(|e| e.refusal), Err(Refusal::Memory));
}
