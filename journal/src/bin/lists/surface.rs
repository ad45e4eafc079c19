//! Surfaces over two coordinates: document 02's E9. `tests/lists.rs` checks that each edge is met.

use journal::{Call, Name, Request};
use judge::fit::{Criterion, Settings};
use judge::statistics::{Confidence, DegreeBound, Tolerance};
use judge::surface::{exponents, Site, SurfaceSample, SURFACE_TERMS};

use crate::list::{by_size, up_to, List, NAN};

/// Depth in m, elevation above 2,800 m in hundreds of m, and density in kg/m³.
const GLACIER: [(f64, f64, f64); 16] = [
    (0.2, -2.0, 318.0),
    (0.8, -2.0, 371.5),
    (1.4, -2.0, 412.0),
    (2.0, -2.0, 441.0),
    (0.2, -0.5, 296.0),
    (0.8, -0.5, 344.0),
    (1.4, -0.5, 388.5),
    (2.0, -0.5, 409.0),
    (0.2, 0.75, 279.5),
    (0.8, 0.75, 331.0),
    (1.4, 0.75, 362.0),
    (2.0, 0.75, 397.0),
    (0.2, 2.5, 254.0),
    (0.8, 2.5, 305.5),
    (1.4, 2.5, 340.0),
    (2.0, 2.5, 361.0),
];

/// y = 20 − 12 x + 12.75 z + xz at the four corners: a plane leaves residuals of 1 and −1, and the error
/// of each of its terms is 1.
const CORNERS: [(f64, f64, f64); 4] =
    [(1.0, 1.0, 21.75), (1.0, -1.0, -5.75), (-1.0, 1.0, 43.75), (-1.0, -1.0, 20.25)];

/// Found by search: near a line, total degree 2 is solved and its inverse fails. x and z as bits.
const AT_THE_EDGE: [(u64, u64, f64); 6] = [
    (0x3FE2_52F0_BC82_3FC4, 0x4038_8B42_A45C_FBE7, 0.0),
    (0x3FD6_9BDF_BBD9_E398, 0x402E_404B_E283_99D1, 2.0),
    (0x3FD1_B335_CBDC_98A0, 0x4027_B95A_D66C_DD15, 3.0),
    (0x3FB1_BDF8_A9E4_BD40, 0x4007_B750_5BFB_EAB7, 3.0),
    (0xBFE9_8779_D77A_BB13, 0xC041_1706_A4FF_5547, 2.0),
    (0xBFE7_C69A_46DB_4E52, 0xC03F_D9CA_6311_DB0D, 0.0),
];

impl List {
    /// The columns of a surface and the count.
    fn surface(&mut self, rows: &[(f64, f64, f64)]) {
        for (index, &(x, z, y)) in rows.iter().enumerate() {
            self.ask(Request::Row { index, sample: SurfaceSample { x, z, y } });
        }
        self.ask(Request::Count(rows.len()));
    }

    fn surface_fit(&mut self, degree: usize) {
        self.call(Call::SurfaceFit { degree });
    }

    fn surface_report(&mut self, settings: Settings) {
        self.call(Call::SurfaceReport(settings));
    }

    /// P95, no tolerance.
    fn surface_band(&mut self, x: f64, z: f64, degree: usize) {
        self.surface_band_by(x, z, degree, up_to(4));
    }

    fn surface_band_by(&mut self, x: f64, z: f64, degree: usize, settings: Settings) {
        let (confidence, tolerance) = (settings.confidence, settings.tolerance);
        self.call(Call::SurfaceBand { site: Site { x, z }, degree, confidence, tolerance });
    }

    /// A report and all that it writes for n samples, with a place more.
    fn whole_surface(&mut self, settings: Settings, n: usize) {
        self.surface_report(settings);
        self.show_outputs(n);
    }

    /// A fit and all that it writes for n samples, with a place more.
    fn whole_fit(&mut self, degree: usize, n: usize) {
        self.surface_fit(degree);
        self.show(Name::Coefficients, SURFACE_TERMS + 1);
        self.show(Name::Scratch, n + 1);
    }

    fn lend_surface(&mut self, n: usize) {
        for name in [Name::Xs, Name::Zs, Name::Ys, Name::Scratch] {
            self.lent(name, n);
        }
        for name in [Name::Lower, Name::Upper, Name::Outliers] {
            self.lent(name, n);
        }
        for name in [Name::Coefficients, Name::Errors, Name::Pruned] {
            self.lent(name, SURFACE_TERMS);
        }
    }

    fn lend_all_and_z(&mut self) {
        self.lend_all();
        self.lent(Name::Zs, 4096);
    }
}

pub fn surface() -> String {
    let mut list = List::new("Surfaces: document 02, E9. Made by `lists surface`.");
    season(&mut list);
    by_hand(&mut list);
    terms(&mut list);
    scores(&mut list);
    level(&mut list);
    samples_and_terms(&mut list);
    bounds(&mut list);
    bands(&mut list);
    not_finite(&mut list);
    short(&mut list);
    early(&mut list);
    late(&mut list);
    book(&mut list);
    fields(&mut list);
    list.text
}

fn season(list: &mut List) {
    list.head("season: densities by depth and elevation, every total degree");
    list.surface(&GLACIER);
    list.mark(16);
    for degree in 0..=4 {
        list.whole_fit(degree, 16);
    }
    list.head("season: reports by either criterion and either rule of pruning");
    for criterion in [Criterion::Aic, Criterion::Bic] {
        for degree in [1, 4] {
            let settings = Settings { criterion, ..up_to(degree) };
            list.whole_surface(settings, 16);
            list.whole_surface(by_size(settings), 16);
        }
    }
    list.head("season: bands between the samples, with each tolerance");
    let tolerances = [
        Tolerance::None,
        Tolerance::Absolute(12.5),
        Tolerance::Variance(0.25),
        Tolerance::Measurement(0.05),
    ];
    for tolerance in tolerances {
        for degree in 0..=4 {
            list.surface_band_by(1.1, 1.3, degree, Settings { tolerance, ..up_to(4) });
        }
    }
}

fn by_hand(list: &mut List) {
    list.head("by hand: the corners, df 1 by the number of terms, either rule");
    list.surface(&CORNERS);
    list.mark(4);
    list.whole_fit(1, 4);
    list.whole_surface(up_to(4), 4);
    list.whole_surface(by_size(up_to(4)), 4);
    let by_p999 = Settings { confidence: Confidence::P999, ..up_to(1) };
    list.whole_surface(by_p999, 4);
    list.whole_surface(by_size(by_p999), 4);
    list.head("by hand: a score of 0.5, for which all four lie outside");
    list.whole_surface(Settings { confidence: Confidence::Custom(0.5), ..up_to(1) }, 4);
    list.head("by hand: one sample");
    list.surface(&[(3.0, 5.0, -2.5)]);
    list.mark(1);
    list.whole_surface(by_size(up_to(4)), 1);
    list.surface_band(3.0, 5.0, 0);
}

/// On a grid of five by five.
fn grid(y: impl Fn(f64, f64) -> f64) -> Vec<(f64, f64, f64)> {
    let at = |i: usize| ((i % 5) as f64 - 2.0, (i / 5) as f64 - 2.0);
    (0..25).map(at).map(|(x, z)| (x, z, y(x, z))).collect()
}

fn terms(list: &mut List) {
    list.head("terms: by a + b and then by falling a, each with its own coefficient");
    let surface = |x: f64, z: f64| {
        let second = 4.0 * x * x + 5.0 * x * z + 6.0 * z * z;
        let third = 7.0 * x * x * x + 8.0 * x * x * z + 9.0 * x * z * z + 10.0 * z * z * z;
        let (xx, zz) = (x * x, z * z);
        let fourth = 11.0 * xx * xx
            + 12.0 * xx * x * z
            + 13.0 * xx * zz
            + 14.0 * x * z * zz
            + 15.0 * zz * zz;
        1.0 + 2.0 * x + 3.0 * z + second + third + fourth
    };
    list.surface(&grid(surface));
    list.whole_fit(4, 25);
    list.head("terms: one product of two powers, whatever is left of x² × z²");
    list.surface(&[(1.1, 1.7, 3.0), (1.3, 1.9, 5.0), (0.7, 0.3, 2.0)]);
    for degree in 0..=1 {
        list.whole_fit(degree, 3);
    }
    list.head("terms: x² is infinite, and x²z is a NaN at z 0");
    let huge = |i: usize| (1e200 * i as f64, (i % 2) as f64, i as f64);
    list.surface(&(0..12).map(huge).collect::<Vec<_>>());
    for degree in 0..=3 {
        list.surface_fit(degree);
    }
    list.whole_surface(up_to(4), 12);
}

fn nine(ys: [f64; 9]) -> Vec<(f64, f64, f64)> {
    let at = |(i, &y): (usize, &f64)| ((i % 3) as f64, (i / 3) as f64, y);
    ys.iter().enumerate().map(at).collect()
}

fn scores(list: &mut List) {
    list.head("scores: by k as the number of terms; by the degree another would be chosen");
    list.line("# found by search");
    let lists = [
        [8.0, 4.0, 3.0, 9.0, 1.0, 6.0, 9.0, 5.0, 0.0],
        [7.0, 4.0, 9.0, 0.0, 1.0, 2.0, 1.0, 1.0, 2.0],
        [0.0, 6.0, 1.0, 6.0, 9.0, 9.0, 2.0, 5.0, 9.0],
    ];
    for ys in lists {
        list.surface(&nine(ys));
        list.whole_surface(up_to(4), 9);
    }
}

fn level(list: &mut List) {
    list.head("level: one z for all samples; every total degree but 0 is unsolved");
    for z in [4.0, 0.0, -0.0] {
        let rows: Vec<_> = (0..7).map(|i| (i as f64, z, (i * i % 5) as f64)).collect();
        list.surface(&rows);
        list.mark_scratch(7);
        for degree in 0..=2 {
            list.whole_fit(degree, 7);
            list.surface_band(1.5, z, degree);
        }
        list.whole_surface(up_to(4), 7);
    }
    list.head("level: one x for all samples");
    let rows: Vec<_> = (0..7).map(|i| (-1.5, i as f64, (i * i % 5) as f64)).collect();
    list.surface(&rows);
    list.surface_fit(1);
    list.whole_surface(up_to(4), 7);
}

fn samples_and_terms(list: &mut List) {
    list.head("terms and samples: every number of samples up to 16, every total degree");
    list.line(
        "# the first 1, 3, 6, 10 and 15 lie on triangles, so that their total degree is solved",
    );
    let triangle = exponents().into_iter().map(|(a, b)| (a as f64, b as f64));
    let sites: Vec<(f64, f64)> = triangle.chain([(1.5, 2.25)]).collect();
    let y = |(i, &(x, z)): (usize, &(f64, f64))| (x, z, (i * i % 7) as f64);
    let rows: Vec<_> = sites.iter().enumerate().map(y).collect();
    for n in 1..=16 {
        list.surface(&rows[..n]);
        for degree in 0..=5 {
            list.surface_fit(degree);
            list.surface_band(rows[0].0, rows[0].1, degree);
        }
        list.surface_report(up_to(4));
    }
    list.head("terms and samples: nine samples, for which total degree 3 would be solved");
    let rows = [
        (0.0, 0.25, 4.0),
        (1.0, 0.75, 3.0),
        (2.0, 2.0, 0.0),
        (0.25, 0.25, 3.0),
        (1.5, 0.5, 7.0),
        (0.75, 1.25, 2.0),
        (1.75, 1.5, 1.0),
        (1.5, 1.0, 1.0),
        (0.5, 1.25, 2.0),
    ];
    list.surface(&rows);
    list.whole_surface(up_to(4), 9);
    list.surface_fit(3);
}

fn bounds(list: &mut List) {
    let row = |i: usize| {
        let (x, z) = ((i % 12) as f64 / 4.0, (i / 12) as f64 / 4.0);
        (x, z, x + (i * 7 % 5) as f64 / 4.0)
    };
    let rows: Vec<_> = (0..125).map(row).collect();
    list.head("bounds: Custom 5 at five samples, where it is 4, and at six");
    for n in [5, 6] {
        list.surface(&rows[..n]);
        list.surface_report(up_to(5));
        list.surface_report(up_to(4));
    }
    for (bound, word, most) in
        [(DegreeBound::Aggressive, "Aggressive", 48), (DegreeBound::Relaxed, "Relaxed", 125)]
    {
        list.head(&format!("bounds: {word} at {} samples, and at {most}", most - 1));
        for n in [most - 1, most] {
            list.surface(&rows[..n]);
            list.surface_report(Settings { bound, ..up_to(0) });
            list.surface_report(up_to(4));
        }
    }
    list.head("bounds: Conservative");
    let bound = DegreeBound::Conservative;
    list.whole_surface(Settings { bound, ..up_to(0) }, 125);
}

fn bands(list: &mut List) {
    list.head("bands: x and z each by their own least and greatest, ends included");
    list.surface(&[(0.0, 10.0, 1.0), (4.0, 20.0, 2.0), (2.0, -0.0, 4.0)]);
    let inside = [(0.0, 10.0), (4.0, 20.0), (2.0, 0.0), (-0.0, 0.0), (0.0, 20.0), (4.0, -0.0)];
    for (x, z) in inside {
        list.surface_band(x, z, 1);
    }
    list.head("bands: z outside, x outside, both, and one in the other's range");
    let above = f64::from_bits(20.0_f64.to_bits() + 1);
    let outside =
        [(2.0, -5e-324), (2.0, above), (-5e-324, 10.0), (4.5, 10.0), (5.0, 21.0), (10.0, 2.0)];
    list.mark_scratch(3);
    for (x, z) in outside {
        list.surface_band(x, z, 1);
    }
    list.show(Name::Scratch, 4);
}

fn not_finite(list: &mut List) {
    list.head("not finite: a given x, z, score or tolerance");
    list.surface(&CORNERS);
    list.mark(4);
    for v in [NAN, f64::INFINITY, f64::NEG_INFINITY] {
        list.surface_band(v, 0.0, 1);
        list.surface_band(0.0, v, 1);
        let score = Settings { confidence: Confidence::Custom(v), ..up_to(4) };
        list.surface_band_by(0.0, 0.0, 1, score);
        list.surface_report(score);
        let tolerance = Settings { tolerance: Tolerance::Absolute(v), ..up_to(4) };
        list.surface_band_by(0.0, 0.0, 1, tolerance);
        list.surface_report(tolerance);
    }
    list.show_outputs(4);
    list.head("not finite: in a column below the count");
    for name in [Name::Xs, Name::Zs, Name::Ys] {
        for v in [NAN, f64::INFINITY] {
            list.surface(&CORNERS);
            list.put(name, 3, v);
            list.surface_fit(1);
            list.surface_report(up_to(4));
            list.surface_band(0.0, 0.0, 1);
        }
    }
    list.show_outputs(4);
    list.head("not finite: past the count, where nobody reads it; nor a weight");
    list.surface(&CORNERS);
    for name in [Name::Xs, Name::Zs, Name::Ys] {
        list.put(name, 4, NAN);
    }
    list.put(Name::Ws, 0, NAN);
    list.surface_fit(1);
    list.surface_report(up_to(4));
    list.surface_band(0.0, 0.0, 1);
    for name in [Name::Xs, Name::Zs, Name::Ys] {
        list.put(name, 4, 0.0);
    }
    list.put(Name::Ws, 0, 0.0);
}

fn short(list: &mut List) {
    let nan = Settings { confidence: Confidence::Custom(NAN), ..up_to(4) };
    let each = |list: &mut List, settings: Settings, degree: usize| {
        list.surface_fit(degree);
        list.surface_report(settings);
        list.surface_band(0.0, 0.0, degree);
    };
    list.head("short: each memory just long enough, with no sums and no weights");
    list.surface(&CORNERS);
    list.mark(4);
    list.lend_surface(4);
    list.lent(Name::Sums, 0);
    list.lent(Name::Ws, 0);
    each(list, up_to(4), 1);
    list.show_outputs(4);
    list.mark(4);
    let names = [
        (Name::Xs, 4),
        (Name::Zs, 4),
        (Name::Ys, 4),
        (Name::Scratch, 4),
        (Name::Coefficients, SURFACE_TERMS),
        (Name::Errors, SURFACE_TERMS),
        (Name::Pruned, SURFACE_TERMS),
        (Name::Lower, 4),
        (Name::Upper, 4),
        (Name::Outliers, 4),
    ];
    for (name, places) in names {
        list.head(&format!("short: {} one place short, 1 before 4 and 8", name.word()));
        list.mark(4);
        list.lent(name, places - 1);
        each(list, nan, 9);
        each(list, up_to(4), 1);
        list.show_outputs(4);
        list.lent(name, places);
    }
    list.head("short: no samples, no places but for terms");
    list.lend_surface(0);
    list.ask(Request::Count(0));
    each(list, up_to(4), 0);
    list.lent(Name::Coefficients, SURFACE_TERMS - 1);
    each(list, up_to(4), 0);
    list.lend_all_and_z();
    list.head("short: a count above 4,096 in longer columns");
    for name in [Name::Xs, Name::Zs, Name::Ys, Name::Scratch] {
        list.lent(name, 4200);
    }
    for name in [Name::Lower, Name::Upper, Name::Outliers] {
        list.lent(name, 4200);
    }
    list.ask(Request::Count(4097));
    each(list, up_to(4), 0);
    list.ask(Request::Count(4096));
    list.surface_fit(0);
    list.lend_all_and_z();
    list.ask(Request::Count(0));
}

fn early(list: &mut List) {
    list.head("early: 7 before 8 and 9, 4 before 7");
    list.ask(Request::Count(0));
    list.mark(6);
    let nan = Settings { confidence: Confidence::Custom(NAN), ..up_to(4) };
    list.surface_fit(0);
    list.surface_fit(9);
    list.surface_report(up_to(9));
    list.surface_report(nan);
    list.surface_band(0.0, 0.0, 9);
    list.surface_band(0.0, NAN, 9);
    list.head("early: 4 before 8 before 9 before 10; scratch as it was");
    let rows: Vec<_> = (0..6).map(|i| (i as f64, 1.0, 1.0)).collect();
    list.surface(&rows);
    list.surface_report(Settings { bound: DegreeBound::Custom(5), ..nan });
    list.surface_report(up_to(5));
    list.surface_band(NAN, 9.0, 5);
    list.surface_band(9.0, 9.0, 5);
    list.surface_band(9.0, 1.0, 3);
    list.surface_band(9.0, 1.0, 1);
    list.surface_fit(3);
    list.show_outputs(6);
    list.surface_band(3.0, 1.0, 1);
    list.show(Name::Scratch, 7);
    list.head("early: 1 before 4 and 8, and 4 before 8, by a z in its column");
    list.put(Name::Zs, 5, NAN);
    list.lent(Name::Scratch, 5);
    for _ in 0..2 {
        list.surface_fit(3);
        list.surface_report(up_to(5));
        list.surface_band(3.0, 1.0, 3);
        list.lent(Name::Scratch, 4096);
    }
    list.put(Name::Zs, 5, 1.0);
    list.lent(Name::Scratch, 5);
    list.surface_report(up_to(5));
    list.lent(Name::Scratch, 4096);
    list.surface_report(up_to(5));
}

fn late(list: &mut List) {
    list.head("late: 10 and 11, where no total degree is solved; scratch cleared");
    list.surface(&[(0.0, 0.0, f64::MAX), (0.0, 1.0, f64::MAX)]);
    list.mark(2);
    list.whole_fit(0, 2);
    list.mark(2);
    list.surface_band(0.0, 0.5, 0);
    list.show(Name::Scratch, 3);
    list.mark(2);
    list.whole_surface(up_to(4), 2);
    list.head("late: 11 with a solved total degree, whose score is +infinity");
    list.surface(&[(0.0, 0.0, 3e200), (0.0, 1.0, -1e200), (0.0, 2.0, -2e200)]);
    list.mark(3);
    list.whole_surface(up_to(4), 3);
    list.head("late: 12, though total degree 2 is solved; scratch cleared");
    let row = |&(x, z, y): &(u64, u64, f64)| (f64::from_bits(x), f64::from_bits(z), y);
    let rows: Vec<_> = AT_THE_EDGE.iter().map(row).collect();
    list.surface(&rows);
    list.mark(6);
    list.whole_surface(up_to(2), 6);
    list.mark(6);
    list.surface_band(rows[0].0, rows[0].1, 2);
    list.show(Name::Scratch, 7);
    list.whole_fit(2, 6);
    list.head("late: total degree 0 is unsolved by a residual that overflows, and 1 chosen");
    let u = f64::from_bits((1023 + 1020) << 52);
    let rows = [
        (-0.75, 0.5, 15.0 * u),
        (0.0, 0.5, -15.0 * u),
        (0.75, 0.5, -6.0 * u),
        (0.0, -0.75, 4.5 * u),
        (0.0, -0.75, -8.5 * u),
    ];
    list.surface(&rows);
    list.surface_fit(0);
    list.whole_surface(up_to(4), 5);
}

fn book(list: &mut List) {
    list.head("book: a surface reads x and y of a book, leaves it, and sees no weight");
    list.book(&[]);
    for (i, &(x, z, y)) in CORNERS.iter().enumerate() {
        list.call(Call::Add(judge::Sample { x, y, weight: 1.0 + i as f64 }));
        list.put(Name::Zs, i, z);
    }
    list.surface_fit(1);
    list.show(Name::Coefficients, SURFACE_TERMS);
    list.surface_report(up_to(4));
    list.surface_band(0.0, 0.0, 1);
    for name in [Name::Xs, Name::Zs, Name::Ys, Name::Ws] {
        list.show(name, 5);
    }
    list.fit(1);
    list.report(up_to(1));
}

fn fields(list: &mut List) {
    list.head("fields: of a row, a fit, a report and a band");
    list.surface(&[(0.0, 0.0, 1.0)]);
    let (zero, by) = ("0000000000000000", "p95 0000000000000000 none");
    let lines = [
        "row".to_string(),
        format!("row 4200 {zero} {zero} {zero}"),
        format!("row -1 {zero} {zero} {zero}"),
        format!("row 0 {zero} {zero}"),
        format!("row 0 {zero} 0 {zero}"),
        format!("row 0 {zero} {zero} {zero} {zero}"),
        "lent zs 4201".to_string(),
        "surface_fit".to_string(),
        "surface_fit four".to_string(),
        "surface_fit 0 0".to_string(),
        "surface_report 4".to_string(),
        format!("surface_report custom 4 aic {by}"),
        format!("surface_report custom 4 aic {by} {zero} both"),
        format!("surface_report custom 4 aic {by} {zero} size {zero}"),
        format!("surface_band {zero} 0 {by} {zero}"),
        format!("surface_band {zero} {zero} {by} {zero}"),
        format!("surface_band {zero} {zero} 0 {by}"),
        format!("surface_band {zero} {zero} 0 {by} {zero} size"),
        "surface".to_string(),
        "surface_validate 2 custom 1 aic".to_string(),
    ];
    for line in lines {
        list.line(&line);
    }
    list.line("surface_fit 000000000");
    list.line(&format!("surface_report custom 4 aic {by} {zero}"));
    list.line(&format!("surface_report custom 4 aic {by} {zero} positive"));
    list.line(&format!("surface_report custom 4 aic {by} {zero} size"));
    list.line(&format!("surface_band {zero} {zero} 0 {by} {zero}"));
}
