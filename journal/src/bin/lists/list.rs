//! A list of calls in the making, as text.

use journal::{Call, Name, Request};
use judge::fit::{Criterion, PruningRule, Settings};
use judge::frame::encode;
use judge::statistics::{Confidence, DegreeBound, Tolerance};
use judge::sums::{PLACES, TERMS};
use judge::Sample;

pub const NAN: f64 = f64::NAN;

/// Custom 1, AIC, P95, no tolerance.
pub const AIC_1: Settings = Settings {
    bound: DegreeBound::Custom(1),
    criterion: Criterion::Aic,
    confidence: Confidence::P95,
    tolerance: Tolerance::None,
    pruning: PruningRule::Positive,
};

/// The same, pruning by size.
pub fn by_size(settings: Settings) -> Settings {
    Settings { pruning: PruningRule::Size, ..settings }
}

/// AIC_1 with another Custom bound.
pub fn up_to(degree: usize) -> Settings {
    Settings { bound: DegreeBound::Custom(degree), ..AIC_1 }
}

pub fn samples_of(pairs: &[(f64, f64)]) -> Vec<Sample> {
    pairs.iter().map(|&(x, y)| Sample::unweighted(x, y)).collect()
}

/// x = 0, 1, 2, .. with the given y's.
pub fn at_whole_x(ys: &[f64]) -> Vec<(f64, f64)> {
    ys.iter().enumerate().map(|(i, &y)| (i as f64, y)).collect()
}

pub struct List {
    pub text: String,
}

impl List {
    pub fn new(first: &str) -> Self {
        Self { text: format!("# {first}\n") }
    }

    /// A comment after an empty line: what the next calls are about.
    pub fn head(&mut self, comment: &str) {
        self.text += &format!("\n# {comment}\n");
    }

    pub fn line(&mut self, line: &str) {
        self.text += line;
        self.text.push('\n');
    }

    pub fn ask(&mut self, request: Request) {
        self.line(&request.to_string());
    }

    pub fn call(&mut self, call: Call) {
        self.line(&call.to_string());
    }

    pub fn frame(&mut self, pairs: &[(f64, f64)]) {
        self.call(Call::AddFrame(encode(&samples_of(pairs))));
    }

    pub fn add(&mut self, x: f64, y: f64) {
        self.call(Call::Add(Sample::unweighted(x, y)));
    }

    /// A book just opened with these samples.
    pub fn book(&mut self, pairs: &[(f64, f64)]) {
        self.call(Call::Open);
        for &(x, y) in pairs {
            self.add(x, y);
        }
    }

    /// The same from a frame.
    pub fn framed_book(&mut self, pairs: &[(f64, f64)]) {
        self.call(Call::Open);
        self.frame(pairs);
    }

    pub fn fit(&mut self, degree: usize) {
        self.call(Call::Fit { degree });
    }

    pub fn report(&mut self, settings: Settings) {
        self.call(Call::Report(settings));
    }

    /// By both criteria.
    pub fn validate(&mut self, folds: usize, degree: usize) {
        for criterion in [Criterion::Aic, Criterion::Bic] {
            self.call(Call::Validate { folds, bound: DegreeBound::Custom(degree), criterion });
            self.show(Name::Coefficients, degree + 1);
        }
    }

    /// P95, no tolerance.
    pub fn band(&mut self, x: f64, degree: usize) {
        self.band_by(x, degree, AIC_1);
    }

    pub fn band_by(&mut self, x: f64, degree: usize, settings: Settings) {
        let (confidence, tolerance) = (settings.confidence, settings.tolerance);
        self.call(Call::Band { x, degree, confidence, tolerance });
    }

    pub fn lent(&mut self, name: Name, length: usize) {
        self.ask(Request::Lent { name, length });
    }

    pub fn put(&mut self, name: Name, index: usize, value: f64) {
        self.ask(Request::Put { name, index, value });
    }

    pub fn put_sums(&mut self, places: &[(usize, f64)]) {
        for &(index, value) in places {
            self.put(Name::Sums, index, value);
        }
    }

    pub fn show(&mut self, name: Name, to: usize) {
        self.ask(Request::Show { name, from: 0, to });
    }

    /// A report and all that it writes for n samples, with one place more.
    pub fn whole_report(&mut self, settings: Settings, n: usize) {
        self.report(settings);
        self.show_outputs(n);
    }

    pub fn show_outputs(&mut self, n: usize) {
        for name in [Name::Coefficients, Name::Errors, Name::Pruned] {
            self.show(name, TERMS + 1);
        }
        for name in [Name::Lower, Name::Upper, Name::Outliers, Name::Scratch] {
            self.show(name, n + 1);
        }
    }

    /// Whole numbers in every place of the outputs and scratch that a call on n samples may write,
    /// and in one place more.
    pub fn mark(&mut self, n: usize) {
        for i in 0..TERMS + 1 {
            self.put(Name::Coefficients, i, 100.0 + i as f64);
            self.put(Name::Errors, i, 200.0 + i as f64);
        }
        for i in 0..n + 1 {
            self.put(Name::Lower, i, 300.0 + i as f64);
            self.put(Name::Upper, i, 400.0 + i as f64);
        }
        self.mark_scratch(n);
    }

    pub fn mark_scratch(&mut self, n: usize) {
        for i in 0..n + 1 {
            self.put(Name::Scratch, i, 500.0 + i as f64);
        }
    }

    /// All memory lent as at the beginning.
    pub fn lend_all(&mut self) {
        for name in [Name::Xs, Name::Ys, Name::Ws] {
            self.lent(name, 4096);
        }
        for name in [Name::Scratch, Name::Lower, Name::Upper, Name::Outliers] {
            self.lent(name, 4096);
        }
        self.lent(Name::Sums, PLACES);
        for name in [Name::Coefficients, Name::Errors, Name::Pruned] {
            self.lent(name, TERMS);
        }
    }
}
