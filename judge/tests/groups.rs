//! The calls of course groups on small lent memory: what each costs and takes, what it answers and writes,
//! and by which number it is refused where several would do. Costs are worked out by hand.

use judge::book::{Memory, ReportAnswer, ReportMemory, SplitAnswer};
use judge::fit::{Criterion, PruningRule, Settings};
use judge::groups::{self, GROUPS, TABLE};
use judge::ledger::{GroupLedger, Ledger};
use judge::numbers::bits;
use judge::refusals::Lengths;
use judge::statistics::{Confidence, DegreeBound, Tolerance};
use judge::sums::{folded_afresh, PLACES, TERMS};
use judge::surface::Columns;
use judge::Sample;

/// What stands in memory before anything is written.
const MARK: f64 = 77.0;

fn up_to(degree: usize) -> Settings {
    Settings {
        bound: DegreeBound::Custom(degree),
        criterion: Criterion::Aic,
        confidence: Confidence::P95,
        tolerance: Tolerance::None,
        pruning: PruningRule::Positive,
    }
}

/// A group's own memory, with a place to spare each, and the table of all.
#[derive(Clone)]
struct Lent {
    count: usize,
    x: Vec<f64>,
    z: Vec<f64>,
    y: Vec<f64>,
    weight: Vec<f64>,
    sums: Vec<f64>,
    scratch: Vec<f64>,
    coefficients: Vec<f64>,
    errors: Vec<f64>,
    pruned: Vec<u8>,
    lower: Vec<f64>,
    upper: Vec<f64>,
    outlier: Vec<u8>,
    before: Vec<f64>,
    after: Vec<f64>,
    table: Vec<usize>,
}

macro_rules! memory {
    ($lent:ident) => {
        Memory {
            x: &mut $lent.x,
            y: &mut $lent.y,
            weight: &mut $lent.weight,
            sums: &mut $lent.sums,
        }
    };
}

macro_rules! out {
    ($lent:ident) => {
        ReportMemory {
            coefficients: &mut $lent.coefficients,
            errors: &mut $lent.errors,
            pruned: &mut $lent.pruned,
            lower: &mut $lent.lower,
            upper: &mut $lent.upper,
            outlier: &mut $lent.outlier,
        }
    };
}

impl Lent {
    /// Of samples x, z and y, at the start with this quota.
    fn new(rows: &[(f64, f64, f64)], quota: usize) -> Self {
        let n = rows.len();
        let column = |of: fn(&(f64, f64, f64)) -> f64| rows.iter().map(of).chain([MARK]).collect();
        let samples: Vec<Sample> = rows.iter().map(|r| Sample::unweighted(r.0, r.2)).collect();
        let floats = |places: usize| vec![MARK; places + 1];
        let bytes = |places: usize| vec![77; places + 1];
        let mut lent = Self {
            count: n,
            x: column(|row| row.0),
            z: column(|row| row.1),
            y: column(|row| row.2),
            weight: [vec![1.0; n], vec![MARK]].concat(),
            sums: [folded_afresh(&samples), vec![MARK]].concat(),
            scratch: floats(n),
            coefficients: floats(TERMS),
            errors: floats(TERMS),
            pruned: bytes(TERMS),
            lower: floats(n),
            upper: floats(n),
            outlier: bytes(n),
            before: floats(TERMS),
            after: floats(TERMS),
            table: vec![77; TABLE + 1],
        };
        assert_eq!(groups::start(quota, &mut lent.table), Ok(()));
        lent
    }

    /// On a line of x's.
    fn line(pairs: &[(f64, f64)], quota: usize) -> Self {
        let rows: Vec<_> = pairs.iter().map(|&(x, y)| (x, 0.0, y)).collect();
        Self::new(&rows, quota)
    }

    fn report(&mut self, group: usize, settings: Settings) -> Result<ReportAnswer, u8> {
        let (memory, mut out) = (memory!(self), out!(self));
        let (count, table) = (self.count, &mut self.table);
        groups::report(group, count, &memory, settings, &mut self.scratch, &mut out, table)
    }

    fn surface_report(&mut self, group: usize, settings: Settings) -> Result<ReportAnswer, u8> {
        let columns = Columns { x: &self.x, z: &self.z, y: &self.y };
        let mut out = out!(self);
        let (count, table) = (self.count, &mut self.table);
        groups::surface_report(group, count, columns, settings, &mut self.scratch, &mut out, table)
    }

    fn split(&mut self, group: usize, settings: Settings) -> Result<SplitAnswer, u8> {
        let memory = memory!(self);
        let sides = (&mut self.before[..], &mut self.after[..]);
        let (count, table) = (self.count, &mut self.table);
        groups::split(group, count, &memory, settings, &mut self.scratch, sides, table)
    }

    /// Every place, as bits.
    fn places(&self) -> Vec<Vec<u64>> {
        let floats = [
            &self.x,
            &self.z,
            &self.y,
            &self.weight,
            &self.sums,
            &self.scratch,
            &self.coefficients,
            &self.errors,
            &self.lower,
            &self.upper,
            &self.before,
            &self.after,
        ];
        let bytes = [&self.pruned, &self.outlier];
        let mut places: Vec<Vec<u64>> =
            floats.iter().map(|values| values.iter().map(|v| bits(*v)).collect()).collect();
        places.extend(bytes.map(|values| values.iter().map(|v| u64::from(*v)).collect()));
        places.push(self.table.iter().map(|v| *v as u64).collect());
        places
    }

    /// The call is refused by the number: from 11 on but for 17 scratch is cleared, at 11 and 12 the cost is
    /// taken from group 0, and nothing else is written.
    fn refused<T: std::fmt::Debug>(
        &self,
        by: u8,
        cost: usize,
        call: impl Fn(&mut Lent) -> Result<T, u8>,
    ) {
        let (mut lent, mut expected) = (self.clone(), self.clone());
        assert_eq!(call(&mut lent).err(), Some(by));
        if matches!(by, 11 | 12 | 16) {
            expected.scratch[..self.count].fill(0.0);
        }
        if matches!(by, 11 | 12) {
            expected.table[0] -= cost;
        }
        assert_eq!(lent.places(), expected.places(), "refused by {by}");
    }
}

/// y = 1 + 2x.
const LINE: [(f64, f64); 3] = [(0.0, 1.0), (1.0, 3.0), (2.0, 5.0)];

const CORNERS: [(f64, f64, f64); 4] =
    [(1.0, 1.0, 21.75), (1.0, -1.0, -5.75), (-1.0, 1.0, 43.75), (-1.0, -1.0, 20.25)];

/// A bend at 4.
fn bend() -> Vec<(f64, f64)> {
    let ys = [0.0, 1.1, 1.9, 3.05, 2.95, 2.1, 0.9, 0.02];
    ys.iter().enumerate().map(|(i, &y)| (i as f64, y)).collect()
}

/// The counters alone.
fn counters(lent: &Lent) -> &[usize] {
    &lent.table[..GROUPS]
}

#[test]
fn start_sets_nine_and_renew_eight() {
    let mut table = [77; TABLE + 1];
    assert_eq!(groups::start(5, &mut table), Ok(()));
    assert_eq!(table, [5, 5, 5, 5, 5, 5, 5, 5, 5, 77]);
    table[..GROUPS].copy_from_slice(&[0, 1, 2, 3, 4, 5, 6, 7]);
    assert_eq!(groups::renew(&mut table), Ok(()));
    assert_eq!(table, [5, 5, 5, 5, 5, 5, 5, 5, 5, 77]);
    assert_eq!(groups::start(usize::MAX, &mut table[..TABLE]), Ok(()));
    assert_eq!((table[0], table[7], table[8], table[9]), (usize::MAX, usize::MAX, usize::MAX, 77));
    let before = table;
    assert_eq!(groups::start(3, &mut table[..TABLE - 1]), Err(1));
    assert_eq!(groups::renew(&mut table[..TABLE - 1]), Err(1));
    assert_eq!(groups::renew(&mut []), Err(1));
    assert_eq!(table, before);
}

/// One pivot of degree 0, two of degree 1 and three of degree 2; nothing for solving the chosen degree again
/// nor for its inverse.
#[test]
fn report_takes_its_tests() {
    for (degree, cost) in [(0, 1), (1, 3), (2, 6), (9, 6)] {
        let mut lent = Lent::line(&LINE, cost);
        let mut plain = lent.clone();
        let memory = memory!(plain);
        let (scratch, mut out) = (&mut plain.scratch, out!(plain));
        let expected = judge::book::report(3, &memory, up_to(degree), scratch, &mut out);
        plain.table[2] = 0;
        assert_eq!(lent.report(2, up_to(degree)), expected);
        assert!(expected.is_ok());
        assert_eq!(lent.places(), plain.places());
        Lent::line(&LINE, cost - 1).refused(16, cost, |lent| lent.report(0, up_to(degree)));
    }
}

/// Of equal x's the second pivot fails, and is counted; a failing one ends its degree.
#[test]
fn failing_pivots_cost() {
    let mut lent = Lent::line(&[(2.0, 1.0), (2.0, 5.0), (2.0, 6.0)], 100);
    assert!(lent.report(0, up_to(1)).is_ok() && lent.report(1, up_to(2)).is_ok());
    assert_eq!(lent.table[..2], [100 - (1 + 2), 100 - (1 + 2 + 2)]);
}

/// The cost is that of the lent sums, as the choice is.
#[test]
fn report_costs_by_the_lent_sums() {
    let mut lent = Lent::line(&LINE, 100);
    lent.sums[17] = 0.0;
    assert!(lent.report(0, up_to(2)).is_ok());
    assert_eq!(lent.table[0], 100 - (1 + 2 + 2));
    lent.sums[0] = f64::NAN;
    assert_eq!(lent.report(1, up_to(2)), Err(11));
    assert_eq!(lent.table[1], 100 - (1 + 1 + 1));
}

/// Total degrees 0 and 1 of four corners, 1 and 3 pivots; degree 2 has six terms and is not tried.
#[test]
fn surface_report_takes_its_tests() {
    let mut lent = Lent::new(&CORNERS, 5);
    // The sums of a curve are not read.
    lent.sums.fill(f64::NAN);
    let answer = ReportAnswer { degree: 1, solved: 2, outliers: 0, pruned: 0 };
    assert_eq!(lent.surface_report(7, up_to(4)), Ok(answer));
    assert_eq!(counters(&lent), [5, 5, 5, 5, 5, 5, 5, 1]);
    assert_eq!(lent.coefficients[..5], [20.0, -12.0, 12.75, 0.0, 0.0]);
    assert_eq!((lent.coefficients[15], lent.scratch[4]), (MARK, MARK));
    Lent::new(&CORNERS, 3).refused(16, 4, |lent| lent.surface_report(0, up_to(4)));
    // One z for all: the third pivot of total degrees 1 and 2 fails. Degree 3 has ten terms.
    let rows: Vec<_> = (0..7).map(|i| (i as f64, 4.0, (i * i % 5) as f64)).collect();
    let mut lent = Lent::new(&rows, 100);
    assert!(lent.surface_report(0, up_to(4)).is_ok());
    assert_eq!(lent.table[0], 100 - (1 + 3 + 3));
}

/// Five breaks, each with one pivot of degree 0 and two of degree 1 on either side.
#[test]
fn split_takes_its_tests() {
    let mut lent = Lent::line(&bend(), 31);
    let split = lent.split(3, up_to(1)).unwrap();
    assert_eq!((split.b, split.tests), (3, 30));
    assert_eq!(counters(&lent), [31, 31, 31, 1, 31, 31, 31, 31]);
    assert_eq!((lent.before[16], lent.after[16], lent.scratch[8]), (MARK, MARK, MARK));
    assert!(lent.scratch[..8].iter().all(|v| bits(*v) == 0));
    // The counter is in the limit's place: what is left lets a report of degree 0 through, and no split.
    assert_eq!((lent.split(3, up_to(1)), lent.split(3, up_to(0))), (Err(16), Err(16)));
    assert!(lent.report(3, up_to(0)).is_ok());
    assert_eq!(lent.table[3], 0);
    Lent::line(&bend(), 29).refused(16, 30, |lent| lent.split(0, up_to(1)));
    Lent::line(&bend(), 0).refused(16, 10, |lent| lent.split(0, up_to(0)));
}

/// 11 and 12 take the cost, and 16 comes before them.
#[test]
fn refused_late() {
    let most = f64::MAX;
    let none = Lent::line(&[(0.0, most), (0.0, most), (0.0, most), (0.0, most)], 10);
    none.refused(11, 1 + 2, |lent| lent.report(0, up_to(1)));
    none.refused(11, 2, |lent| lent.split(0, up_to(0)));
    none.refused(11, 1, |lent| lent.surface_report(0, up_to(0)));
    let mut none = none;
    groups::start(2, &mut none.table).unwrap();
    none.refused(16, 3, |lent| lent.report(0, up_to(1)));
    groups::start(1, &mut none.table).unwrap();
    none.refused(16, 2, |lent| lent.split(0, up_to(0)));
    groups::start(0, &mut none.table).unwrap();
    none.refused(16, 1, |lent| lent.surface_report(0, up_to(0)));
    // Sums as they are: a first pivot of 2⁻⁵², which the inverse doubles, so that its second fails.
    let mut inverse = Lent::line(&LINE[..2], 3);
    let (p, above) = (1.0 / (1u64 << 26) as f64, 1.0 + 1.0 / 1024.0);
    (inverse.sums[0], inverse.sums[1]) = (f64::EPSILON, p);
    (inverse.sums[16], inverse.sums[17]) = (-p * above, -1.0);
    (inverse.sums[256], inverse.sums[257]) = (f64::EPSILON + 2.0 * p, -p * above - 2.0);
    inverse.refused(12, 3, |lent| lent.report(0, up_to(1)));
    groups::start(2, &mut inverse.table).unwrap();
    inverse.refused(16, 3, |lent| lent.report(0, up_to(1)));
    // Near a line, total degree 2 is solved and its inverse fails; found by search.
    let edge = [
        (0x3FE2_52F0_BC82_3FC4, 0x4038_8B42_A45C_FBE7, 0.0),
        (0x3FD6_9BDF_BBD9_E398, 0x402E_404B_E283_99D1, 2.0),
        (0x3FD1_B335_CBDC_98A0, 0x4027_B95A_D66C_DD15, 3.0),
        (0x3FB1_BDF8_A9E4_BD40, 0x4007_B750_5BFB_EAB7, 3.0),
        (0xBFE9_8779_D77A_BB13, 0xC041_1706_A4FF_5547, 2.0),
        (0xBFE7_C69A_46DB_4E52, 0xC03F_D9CA_6311_DB0D, 0.0),
    ];
    let edge = edge.map(|(x, z, y)| (f64::from_bits(x), f64::from_bits(z), y));
    Lent::new(&edge, 10).refused(12, 10, |lent| lent.surface_report(0, up_to(2)));
    Lent::new(&edge, 9).refused(16, 10, |lent| lent.surface_report(0, up_to(2)));
}

/// Each memory one place too short, the table too, with every later number holding as well.
#[test]
fn short_memory_is_1() {
    let nan = Settings { tolerance: Tolerance::Absolute(f64::NAN), ..up_to(1) };
    let books: [fn(&mut Lent); 3] =
        [|l| l.sums.truncate(PLACES - 1), |l| l.scratch.truncate(7), |l| l.table.truncate(8)];
    let terms: [fn(&mut Lent); 6] = [
        |l| l.coefficients.truncate(15),
        |l| l.errors.truncate(15),
        |l| l.pruned.truncate(15),
        |l| l.lower.truncate(7),
        |l| l.upper.truncate(7),
        |l| l.outlier.truncate(7),
    ];
    let sides: [fn(&mut Lent); 2] = [|l| l.before.truncate(15), |l| l.after.truncate(15)];
    let short = |shorten: fn(&mut Lent)| {
        let mut lent = Lent::line(&bend(), 0);
        shorten(&mut lent);
        lent
    };
    for shorten in books.into_iter().chain(terms) {
        short(shorten).refused(1, 0, |lent| lent.report(8, nan));
    }
    for shorten in books.into_iter().chain(sides) {
        short(shorten).refused(1, 0, |lent| lent.split(8, nan));
    }
    for shorten in [books[1], books[2], terms[3], terms[4], terms[5]] {
        short(shorten).refused(1, 0, |lent| lent.surface_report(8, nan));
    }
    let fewer: [fn(&mut Lent); 3] =
        [|l| l.coefficients.truncate(14), |l| l.errors.truncate(14), |l| l.pruned.truncate(14)];
    for shorten in fewer {
        short(shorten).refused(1, 0, |lent| lent.surface_report(8, nan));
    }
    let mut counted = Lent::line(&bend(), 0);
    counted.count = 10;
    counted.scratch = vec![MARK; 12];
    counted.refused(1, 0, |lent| lent.report(8, nan));
    counted.refused(1, 0, |lent| lent.surface_report(8, nan));
    counted.refused(1, 0, |lent| lent.split(8, nan));
}

/// 17 after 1 and before 4, 7, 8 and 16; 4, 7 and 8 before 16. None of them takes anything or touches
/// scratch.
#[test]
fn early_refusals_in_order() {
    let nan = Settings { confidence: Confidence::Custom(f64::NAN), ..up_to(16) };
    let long: Vec<(f64, f64)> = (0..17).map(|i| (i as f64, 1.0)).collect();
    let long = Lent::line(&long, 0);
    let empty = Lent::line(&[], 0);
    for group in [8, 9, usize::MAX] {
        for lent in [&long, &empty] {
            lent.refused(17, 0, |lent| lent.report(group, nan));
            lent.refused(17, 0, |lent| lent.surface_report(group, nan));
            lent.refused(17, 0, |lent| lent.split(group, nan));
        }
    }
    for lent in [&long, &empty] {
        lent.refused(4, 0, |lent| lent.report(7, nan));
        lent.refused(4, 0, |lent| lent.surface_report(7, nan));
        lent.refused(4, 0, |lent| lent.split(7, nan));
    }
    empty.refused(7, 0, |lent| lent.report(0, up_to(16)));
    empty.refused(7, 0, |lent| lent.surface_report(0, up_to(5)));
    Lent::line(&LINE, 0).refused(7, 0, |lent| lent.split(0, up_to(0)));
    long.refused(8, 0, |lent| lent.report(0, up_to(16)));
    long.refused(8, 0, |lent| lent.surface_report(0, up_to(5)));
    long.refused(8, 0, |lent| lent.split(0, up_to(16)));
    long.refused(16, 0, |lent| lent.report(0, up_to(0)));
}

/// Each group has its own counter, whoever else asks; a renewal refills all eight, from the same quota.
#[test]
fn counters_of_their_own() {
    let mut lent = Lent::line(&LINE, 7);
    for group in [0, 7, 0, 3] {
        assert!(lent.report(group, up_to(1)).is_ok());
    }
    assert_eq!(counters(&lent), [1, 7, 7, 4, 7, 7, 7, 4]);
    assert_eq!(lent.report(0, up_to(1)), Err(16));
    assert!(lent.report(0, up_to(0)).is_ok() && lent.report(3, up_to(1)).is_ok());
    assert_eq!(counters(&lent), [0, 7, 7, 1, 7, 7, 7, 4]);
    assert_eq!(groups::renew(&mut lent.table), Ok(()));
    assert_eq!(counters(&lent), [7; 8]);
    // Work that costs the quota gets through right after a renewal, and no more.
    assert!(lent.report(5, up_to(2)).is_ok() && lent.report(5, up_to(0)).is_ok());
    assert_eq!(lent.report(5, up_to(0)), Err(16));
    groups::start(1, &mut lent.table).unwrap();
    assert_eq!((lent.report(5, up_to(1)), lent.report(5, up_to(0)).is_ok()), (Err(16), true));
    assert_eq!((counters(&lent), lent.table[8]), (&[1, 1, 1, 1, 1, 0, 1, 1][..], 1));
}

/// The ledger of a group, fed its own calls, the quota and the renewals, keeps the counter and answers as
/// the group's calls do.
#[test]
fn ledger_keeps_the_counter() {
    let rows = CORNERS;
    let mut lent = Lent::new(&rows, 8);
    let samples = rows.map(|(x, _, y)| Sample::unweighted(x, y)).to_vec();
    let mut group = GroupLedger { ledger: Ledger { samples }, ..GroupLedger::default() };
    let lengths = Lengths {
        x: 5,
        z: 5,
        y: 5,
        weight: 5,
        sums: 273,
        scratch: 5,
        coefficients: 17,
        errors: 17,
        pruned: 17,
        lower: 5,
        upper: 5,
        outlier: 5,
        before: 17,
        after: 17,
        table: 10,
        ..Lengths::default()
    };
    let short = Lengths { table: 8, ..lengths };
    assert_eq!((group.start(&short, 9), group.start(&lengths, 8)), (Err(1), Ok(())));
    let sites = Columns { x: &lent.x, z: &lent.z, y: &lent.y }.samples(4);
    // 3, 4 and 2 pivot tests: the third is one too many, until the counters are renewed.
    let mut answers = Vec::new();
    for round in 0..2 {
        let report = group.report(&lengths, up_to(1)).map(|report| report.degree);
        assert_eq!(report, lent.report(6, up_to(1)).map(|answer| answer.degree));
        let surface = group.surface_report(&lengths, 4, &sites, up_to(2)).map(|r| r.degree);
        assert_eq!(surface, lent.surface_report(6, up_to(2)).map(|answer| answer.degree));
        let split = group.split(&lengths, up_to(0)).map(|split| split.b);
        assert_eq!(split, lent.split(6, up_to(0)).map(|answer| answer.b));
        assert_eq!(group.counter, lent.table[6], "round {round}");
        answers.push((report, surface, split, group.counter));
        assert_eq!(group.report(&short, up_to(0)), Err(1));
        assert_eq!((group.renew(&short), group.renew(&lengths)), (Err(1), Ok(())));
        groups::renew(&mut lent.table).unwrap();
    }
    assert_eq!(answers, [(Ok(0), Ok(1), Err(16), 1); 2]);
}
