//! The wrapper's own part: what it owns, what it hands out, and which refusals it tells.

use stakebook::{
    Book, Confidence, Criterion, DegreeBound, NotCarried, PruningRule, Refusal, Settings,
    Tolerance, TwoColumnBook, SUMS,
};

const SETTINGS: Settings = Settings {
    bound: DegreeBound::Custom(1),
    criterion: Criterion::Aic,
    confidence: Confidence::P95,
    tolerance: Tolerance::None,
    pruning: PruningRule::Positive,
};

fn book_of(samples: &[(f64, f64)]) -> Book {
    let mut book = Book::with_capacity(10);
    for &(x, y) in samples {
        book.add(x, y).expect("a finite sample, and room");
    }
    book
}

#[test]
fn samples_come_and_go() {
    let mut book = book_of(&[(0.0, 1.0), (1.0, 3.0), (2.0, 5.0)]);
    assert_eq!(book.correct(1, 4.0), Ok(()));
    assert_eq!(book.withdraw(0), Ok(()));
    assert_eq!((book.xs(), book.ys()), (&[1.0, 2.0][..], &[4.0, 5.0][..]));
    assert_eq!(book.sums(), book_of(&[(1.0, 4.0), (2.0, 5.0)]).sums());
    book.clear();
    assert!(book.is_empty() && book.sums().iter().all(|&sum| sum == 0.0));
}

/// Document 01's T10 and T11.
#[test]
fn a_fit_and_a_report() {
    let mut book = book_of(&[(0.0, 1.0), (1.0, 3.0), (2.0, 5.0)]);
    assert_eq!(book.fit(1).expect("solved").coefficients(), [1.0, 2.0]);
    let report = book.report(SETTINGS).expect("a degree is chosen");
    assert_eq!((report.degree, report.solved), (0, 2));
    assert_eq!((report.coefficients, report.lower.len()), (&[3.0][..], 3));
    assert_eq!((report.outliers(), report.pruned_terms(), report.pruned), (0, 1, &[1][..]));
    let fit = book.validate(3, DegreeBound::Custom(1), Criterion::Bic).expect("chosen");
    assert_eq!(fit.coefficients().len(), fit.degree + 1);
    let band =
        book.band(1.0, 1, Confidence::Custom(2.0), Tolerance::Absolute(0.5)).expect("solved");
    assert_eq!((band.value, band.lower, band.upper), (3.0, 2.5, 3.5));
}

/// Of 0, 0, 4 and 8 about their mean: sizes 3, 3, 1 and 5, whose deviation is 1, so that 1 is within 1.345.
#[test]
fn losses_behind_a_report() {
    let mut book = book_of(&[(0.0, 0.0), (0.0, 0.0), (0.0, 4.0), (0.0, 8.0)]);
    let linear = |size: f64| 1.345 * (size - 0.5 * 1.345);
    let expected = [linear(3.0), linear(3.0), 0.5, linear(5.0)];
    let total = expected.iter().fold(0.0, |sum, loss| sum + loss);
    let losses = book.losses(SETTINGS).expect("a degree is chosen");
    assert_eq!((losses.degree, losses.losses, losses.total), (0, &expected[..], total));
    assert!((losses.score - (4.0 * (total / 4.0).ln() + 2.0)).abs() < 1e-12);
    let by_bic = Settings { criterion: Criterion::Bic, ..SETTINGS };
    let losses = book.losses(by_bic).expect("a degree is chosen");
    assert_eq!((losses.total, losses.losses.len()), (total, 4));
    let mut line = book_of(&[(0.0, 1.0), (1.0, 3.0), (2.0, 5.0), (3.0, 7.0), (4.0, 9.0)]);
    let losses = line.losses(SETTINGS).expect("a degree is chosen");
    assert_eq!((losses.degree, losses.total, losses.losses), (1, 0.0, &[0.0; 5][..]));
    // Refused where a report is.
    let mut empty = Book::with_capacity(1);
    assert_eq!(empty.losses(SETTINGS), Err(Refusal::NoSamples));
    let nan = Settings { confidence: Confidence::Custom(f64::NAN), ..SETTINGS };
    assert_eq!(book.losses(nan), Err(Refusal::NotFinite));
    let mut huge = book_of(&[(0.0, 3e200), (1.0, -1e200), (2.0, -2e200)]);
    assert_eq!(huge.losses(SETTINGS).map(|losses| losses.degree), Err(Refusal::NoDegree));
}

/// Of 0, 0, 4 and 8 at one x degree 1 is unsolved; of a line its score is that of the floor 2^-52, with the
/// further term of AIC.
#[test]
fn scores_by_degree() {
    let mut book = book_of(&[(0.0, 0.0), (0.0, 0.0), (0.0, 4.0), (0.0, 8.0)]);
    let score = book.losses(SETTINGS).expect("a degree is chosen").score;
    let scores = book.scores(SETTINGS).expect("a degree is chosen");
    assert_eq!((scores.degree, scores.bound, scores.solved, scores.tests), (0, 1, 1, 3));
    assert_eq!(scores.all().collect::<Vec<_>>(), [Some(score), None]);
    assert_eq!((scores.least, scores.score(15), scores.score(16)), (score, None, None));
    let mut line = book_of(&[(0.0, 1.0), (1.0, 3.0), (2.0, 5.0), (3.0, 7.0), (4.0, 9.0)]);
    let scores = line.scores(SETTINGS).expect("a degree is chosen");
    let exact = 5.0 * f64::EPSILON.ln() + 4.0 + 6.0;
    assert_eq!((scores.degree, scores.solved, scores.score(1)), (1, 2, Some(scores.least)));
    assert!((scores.least - exact).abs() < 1e-12 && scores.score(0) > Some(0.0));
    let by_bic = Settings { criterion: Criterion::Bic, ..SETTINGS };
    let scores = line.scores(by_bic).expect("a degree is chosen");
    assert!((scores.least - (5.0 * f64::EPSILON.ln() + 2.0 * 5f64.ln())).abs() < 1e-12);
    // Refused where a report is.
    let mut empty = Book::with_capacity(1);
    assert_eq!(empty.scores(SETTINGS), Err(Refusal::NoSamples));
    let nan = Settings { confidence: Confidence::Custom(f64::NAN), ..SETTINGS };
    assert_eq!(book.scores(nan), Err(Refusal::NotFinite));
    let mut huge = book_of(&[(0.0, 3e200), (1.0, -1e200), (2.0, -2e200)]);
    assert_eq!(huge.scores(SETTINGS), Err(Refusal::NoDegree));
}

/// Each sample counts as much as its weight, and keeps it when it is corrected or moves down.
#[test]
fn weights() {
    let mut book = book_of(&[(0.0, 1.0)]);
    assert_eq!(book.add_weighted(1.0, 3.0, 2.0), Ok(()));
    assert_eq!(book.add_weighted(2.0, 5.0, 0.25), Ok(()));
    assert_eq!(book.ws(), [1.0, 2.0, 0.25]);
    // The first row of A, and g: (x^0 x^j) w and (x^0 y) w.
    assert_eq!((&book.sums()[..3], book.sums()[256]), (&[3.25, 2.5, 3.0][..], 8.25));
    assert_eq!(book.correct(1, 4.0), Ok(()));
    assert_eq!((book.ws(), book.sums()[256]), (&[1.0, 2.0, 0.25][..], 10.25));
    assert_eq!(book.withdraw(0), Ok(()));
    assert_eq!((book.ws(), book.sums()[0]), (&[2.0, 0.25][..], 2.25));
}

/// The mean by weights, and errors that see the size of the weights.
#[test]
fn weights_pull_the_curve() {
    let weighted = |weights: [f64; 2]| {
        let mut book = Book::with_capacity(2);
        book.add_weighted(0.0, 2.0, weights[0]).expect("a sample that is added");
        book.add_weighted(1.0, 6.0, weights[1]).expect("a sample that is added");
        let constant = Settings { bound: DegreeBound::Custom(0), ..SETTINGS };
        let report = book.report(constant).expect("a degree is chosen");
        (report.coefficients[0], report.errors[0])
    };
    let (mean, error) = weighted([1.0, 3.0]);
    assert_eq!(mean, 5.0);
    assert_eq!(weighted([4.0, 12.0]), (mean, error / 2.0));
}

#[test]
fn weights_that_are_refused() {
    let mut book = Book::with_capacity(1);
    for weight in [0.0, -0.0, -1.0] {
        assert_eq!(book.add_weighted(0.0, 1.0, weight), Err(Refusal::WeightNotAboveZero));
        assert_eq!(book.add_weighted(0.0, f64::NAN, weight), Err(Refusal::NotFinite));
    }
    for weight in [f64::NAN, f64::INFINITY, f64::NEG_INFINITY] {
        assert_eq!(book.add_weighted(0.0, 1.0, weight), Err(Refusal::NotFinite));
    }
    assert_eq!(book.add_weighted(0.0, 1.0, f64::from_bits(1)), Ok(()));
    assert_eq!(book.add_weighted(0.0, 1.0, 0.0), Err(Refusal::WeightNotAboveZero));
    assert_eq!(book.add_weighted(0.0, 1.0, 1.0), Err(Refusal::Full));
    assert_eq!(Refusal::WeightNotAboveZero.number(), 15);
}

/// A negative term faces the test by size alone.
#[test]
fn pruning_by_either_rule() {
    let mut book = book_of(&[(0.0, -1.0), (1.0, 1.0), (2.0, -2.0), (3.0, 1.0)]);
    let constant = Settings { bound: DegreeBound::Custom(0), ..SETTINGS };
    let report = book.report(constant).expect("a degree is chosen");
    assert_eq!((report.coefficients, report.pruned_terms()), (&[-0.25][..], 0));
    let by_size = Settings { pruning: PruningRule::Size, ..constant };
    let report = book.report(by_size).expect("a degree is chosen");
    assert_eq!((report.pruned_terms(), report.pruned), (1, &[1][..]));
    // A degree that no word of 32 bits holds bounds nothing.
    let bound = DegreeBound::Custom(usize::MAX);
    let report = book.report(Settings { bound, ..by_size }).expect("a degree is chosen");
    assert_eq!(report.solved, 4);
}

/// Document 02's E8: the header's example, whose bend is at 4, and each refusal.
#[test]
fn a_split() {
    let ys = [0.0, 1.1, 1.9, 3.05, 2.95, 2.1, 0.9, 0.02];
    let samples: Vec<(f64, f64)> = ys.iter().enumerate().map(|(i, &y)| (i as f64, y)).collect();
    let mut book = book_of(&samples);
    let split = book.split(SETTINGS, 30).expect("a break");
    assert_eq!((split.total, split.samples_before), (-113.35496093152223, 3));
    assert_eq!((split.tests, split.before.degree, split.after.degree), (30, 1, 1));
    assert_eq!(split.before.coefficients().len(), 2);
    assert_eq!(book.split(SETTINGS, usize::MAX), Ok(split));
    assert_eq!(book.split(SETTINGS, 29), Err(Refusal::LimitPassed));
    let by_size = Settings { pruning: PruningRule::Size, ..SETTINGS };
    assert_eq!(book.split(by_size, 30), Ok(split));
    let not_finite = Settings { tolerance: Tolerance::Absolute(f64::NAN), ..SETTINGS };
    assert_eq!(book.split(not_finite, 0), Err(Refusal::NotFinite));
    assert_eq!(book_of(&samples[..3]).split(SETTINGS, 0), Err(Refusal::NoSamples));
    assert_eq!(book_of(&[(0.0, f64::MAX); 4]).split(SETTINGS, 99), Err(Refusal::NoDegree));
    let mut long = Book::with_capacity(17);
    for i in 0..17 {
        long.add(f64::from(i), 1.0).expect("a finite sample, and room");
    }
    let wide = Settings { bound: DegreeBound::Custom(usize::MAX), ..SETTINGS };
    assert_eq!(long.split(wide, 0), Err(Refusal::DegreeTooHigh));
    assert_eq!(Refusal::LimitPassed.number(), 16);
}

/// Both sides are fitted with their weights.
#[test]
fn a_weighted_split() {
    let mut book = Book::with_capacity(4);
    for (x, y, weight) in [(0.0, 2.0, 1.0), (1.0, 6.0, 3.0), (2.0, 1.0, 2.0), (3.0, 4.0, 1.0)] {
        book.add_weighted(x, y, weight).expect("a sample that is added");
    }
    let constant = Settings { bound: DegreeBound::Custom(0), ..SETTINGS };
    let split = book.split(constant, 2).expect("one break");
    assert_eq!((split.before.coefficients(), split.after.coefficients()), (&[5.0][..], &[2.0][..]));
}

/// A window of the latest three: the oldest goes, and the sums are those of what stays.
#[test]
fn a_window_of_three() {
    let mut book = Book::with_capacity(3);
    for i in 0..3 {
        assert_eq!(book.add_window(f64::from(i), 0.1), Ok(()));
    }
    assert_eq!(book.add(9.0, 9.0), Err(Refusal::Full));
    assert_eq!(book.add_lines(b"9 9\n"), Err(Refusal::Full));
    for (x, y, weight) in [(f64::NAN, 1.0, 1.0), (1.0, 1.0, f64::INFINITY)] {
        assert_eq!(book.add_window_weighted(x, y, weight), Err(Refusal::NotFinite));
    }
    assert_eq!(book.add_window_weighted(9.0, 9.0, 0.0), Err(Refusal::WeightNotAboveZero));
    assert_eq!((book.len(), book.xs()), (3, &[0.0, 1.0, 2.0][..]));
    assert_eq!(book.add_window_weighted(3.0, 0.7, 2.0), Ok(()));
    assert_eq!((book.xs(), book.ws()), (&[1.0, 2.0, 3.0][..], &[1.0, 1.0, 2.0][..]));
    let mut stays = book_of(&[(1.0, 0.1), (2.0, 0.1)]);
    stays.add_weighted(3.0, 0.7, 2.0).expect("room");
    assert_eq!(book.sums(), stays.sums());
    assert_eq!(book.fit(1), stays.fit(1));
    // Room again: nothing goes.
    assert_eq!((book.withdraw(0), book.add_window(4.0, 0.2)), (Ok(()), Ok(())));
    assert_eq!(book.xs(), [2.0, 3.0, 4.0]);
    let mut none = Book::with_capacity(0);
    assert_eq!(none.add_window(0.0, 0.0), Err(Refusal::Full));
    let mut one = Book::with_capacity(1);
    assert_eq!((one.add_window(1.0, 2.0), one.add_window(3.0, 4.0)), (Ok(()), Ok(())));
    assert_eq!((one.xs(), one.ys()), (&[3.0][..], &[4.0][..]));
}

#[test]
fn a_frame_is_its_samples() {
    let mut frame = vec![0, 33, 1];
    for number in [0.0, 1.0, 1.0, 3.0] {
        frame.extend(f64::to_be_bytes(number));
    }
    let mut book = Book::with_capacity(3);
    assert_eq!(book.add_frame(&frame), Ok(()));
    assert_eq!(book.sums(), book_of(&[(0.0, 1.0), (1.0, 3.0)]).sums());
    assert_eq!(book.add_frame(&frame), Err(Refusal::Full));
    assert_eq!(book.add_frame(&frame[..3]), Err(Refusal::FrameLength));
    assert_eq!(book.add_frame(&[]), Err(Refusal::FrameLength));
    assert_eq!(book.add_frame(&[0, 1, 3]), Err(Refusal::FrameVersion));
    assert_eq!((book.len(), book.ws()), (2, &[1.0, 1.0][..]));
}

#[test]
fn a_frame_with_weights() {
    let framed = |weight: f64| {
        let mut frame = vec![0, 25, 2];
        for number in [2.0, 5.0, weight] {
            frame.extend(f64::to_be_bytes(number));
        }
        frame
    };
    let mut book = Book::with_capacity(1);
    assert_eq!(book.add_frame(&[0, 1, 2]), Ok(()));
    assert_eq!(book.add_frame(&framed(0.0)), Err(Refusal::WeightNotAboveZero));
    assert_eq!(book.add_frame(&framed(f64::NAN)), Err(Refusal::NotFinite));
    assert_eq!(book.add_frame(&framed(1.0)[..19]), Err(Refusal::FrameLength));
    assert_eq!(book.add_frame(&framed(0.5)), Ok(()));
    assert_eq!((book.xs(), book.ys(), book.ws()), (&[2.0][..], &[5.0][..], &[0.5][..]));
    assert_eq!(book.add_frame(&framed(1.0)), Err(Refusal::Full));
}

#[test]
fn lines_are_their_samples() {
    let mut book = Book::with_capacity(3);
    assert_eq!(book.add_lines(b""), Ok(()));
    assert_eq!(book.add_lines(b"0 1\n1.0 3.00\n"), Ok(()));
    assert_eq!(book.sums(), book_of(&[(0.0, 1.0), (1.0, 3.0)]).sums());
    assert_eq!(book.add_lines(b"2 5\n3 7\n"), Err(Refusal::Full));
    assert_eq!(book.add_lines(b"2 5\n3 7"), Err(Refusal::MalformedLine));
    assert_eq!(book.add_lines(b"2 5\r\n"), Err(Refusal::MalformedLine));
    assert_eq!(book.add_lines(b"1234567890123456 5\n"), Err(Refusal::TooManyDigits));
    assert_eq!(book.len(), 2);
    assert_eq!(book.add_lines(b"0.3 -0\n"), Ok(()));
    assert_eq!((book.xs()[2], book.ys()[2].to_bits()), (0.3, 1 << 63));
}

#[test]
fn refusals_by_name() {
    let mut book = Book::with_capacity(1);
    assert_eq!(book.report(SETTINGS), Err(Refusal::NoSamples));
    assert_eq!(book.add(0.0, f64::INFINITY), Err(Refusal::NotFinite));
    assert_eq!(book.add(0.0, 1.0), Ok(()));
    assert_eq!(book.add(1.0, 2.0), Err(Refusal::Full));
    assert_eq!(book.correct(1, 0.0), Err(Refusal::NoSuchSample));
    assert_eq!(book.withdraw(usize::MAX), Err(Refusal::NoSuchSample));
    assert_eq!(book.fit(1), Err(Refusal::DegreeTooHigh));
    let band = book.band(0.5, 0, Confidence::P80, Tolerance::None);
    assert_eq!(band, Err(Refusal::OutOfRange));
    let mut twice = book_of(&[(2.0, 1.0), (2.0, 5.0)]);
    assert_eq!(twice.fit(1), Err(Refusal::Unsolved));
    let mut huge = book_of(&[(0.0, 3e200), (1.0, -1e200), (2.0, -2e200)]);
    assert_eq!(huge.report(SETTINGS).map(|report| report.degree), Err(Refusal::NoDegree));
    assert_eq!((Refusal::Memory.number(), Refusal::NoCovariance.number()), (1, 12));
}

/// A book longer than any can be keeps to 4,096 samples; one of no places holds none.
#[test]
fn capacities() {
    assert_eq!(Book::with_capacity(5000).capacity(), 4096);
    let mut none = Book::with_capacity(0);
    assert_eq!(none.add(0.0, 0.0), Err(Refusal::Full));
    assert_eq!(none.fit(0), Err(Refusal::NoSamples));
}

/// Samples that were added, corrected and withdrawn without weights, then carried: from there on it is a book
/// that had them from the start.
#[test]
fn carried_in_mid_season() {
    let mut frame = vec![0, 17, 1];
    frame.extend([1.5, 4.5].iter().flat_map(|&number: &f64| number.to_be_bytes()));
    let mut two = TwoColumnBook::with_capacity(5);
    for (x, y) in [(9.0, 9.0), (0.0, 1.0), (1.0, 3.0)] {
        assert_eq!(two.add(x, y), Ok(()));
    }
    assert_eq!(two.add(f64::NAN, 0.0), Err(Refusal::NotFinite));
    assert_eq!(two.correct(3, 0.0), Err(Refusal::NoSuchSample));
    assert_eq!((two.correct(2, 3.5), two.withdraw(0)), (Ok(()), Ok(())));
    assert_eq!((two.add_frame(&frame), two.len(), two.capacity()), (Ok(()), 3, 5));
    assert_eq!(two.add_frame(&[0, 1, 2]), Err(Refusal::FrameVersion));
    let mut carried = two.carry().expect("room for its samples");
    let mut book = book_of(&[(0.0, 1.0), (1.0, 3.5), (1.5, 4.5)]);
    assert_eq!((carried.len(), carried.capacity(), carried.ws()), (3, 5, &[1.0; 3][..]));
    for book in [&mut carried, &mut book] {
        assert_eq!(book.add_weighted(2.0, 5.0, 2.0), Ok(()));
        assert_eq!(book.correct(1, 3.0), Ok(()));
        assert_eq!(book.withdraw(0), Ok(()));
    }
    let columns = |book: &Book| [book.xs(), book.ys(), book.ws(), book.sums()].concat();
    assert_eq!(columns(&carried), columns(&book));
    assert_eq!(carried.report(SETTINGS), book.report(SETTINGS));
    assert_eq!((carried.add(3.0, 7.0), carried.add(4.0, 9.0)), (Ok(()), Ok(())));
    assert_eq!(carried.add(5.0, 11.0), Err(Refusal::Full));
}

/// A full book and an empty one are carried, and columns of two lengths keep their capacity.
#[test]
fn carried_full_or_empty() {
    let empty = TwoColumnBook::with_capacity(0).carry().expect("no samples");
    assert_eq!((empty.len(), empty.capacity()), (0, 0));
    let mut full = TwoColumnBook::with_capacity(1);
    assert_eq!(
        (full.is_empty(), full.add(2.0, 7.0), full.add(0.0, 0.0)),
        (true, Ok(()), Err(Refusal::Full))
    );
    let (count, xs, mut ys, sums) = full.into_parts();
    ys.extend([0.0; 4]);
    let mut carried = TwoColumnBook::from_parts(count, xs, ys, sums).carry().expect("one sample");
    assert_eq!((carried.len(), carried.capacity(), carried.ws()), (1, 1, &[1.0][..]));
    assert_eq!(carried.add(0.0, 0.0), Err(Refusal::Full));
    assert_eq!(carried.fit(0).expect("solved").coefficients(), [7.0]);
}

/// A count above what the columns hold: refused, and the book comes back as it was.
#[test]
fn not_carried() {
    let sums = [0.5; SUMS];
    for (count, x, y) in [(3, 2, 5), (3, 5, 2), (4097, 5000, 5000), (usize::MAX, 0, 0)] {
        let mut kept = TwoColumnBook::from_parts(count, vec![1.5; x], vec![2.5; y], sums);
        assert_eq!(kept.add(0.0, 0.0), Err(Refusal::Memory));
        let book = Box::new(kept.clone());
        let refused = NotCarried { book, refusal: Refusal::Memory };
        assert_eq!(kept.carry().map(|book| book.len()), Err(refused));
    }
    let kept = TwoColumnBook::from_parts(4096, vec![1.5; 5000], vec![2.5; 5000], sums);
    let carried = kept.carry().expect("as many samples as a book can hold");
    assert_eq!((carried.len(), carried.capacity(), carried.sums()), (4096, 4096, &sums[..]));
    assert!(carried.ws().iter().all(|&weight| weight == 1.0));
}
