//! The memory that a book is lent, by name.

use judge::groups::TABLE;
use judge::refusals::{Lengths, MOST_SAMPLES};
use judge::season::STAKES;
use judge::sums::{PLACES, TERMS};

/// The places of each memory but the sums, lent or not.
pub const MEMORY: usize = 4200;

/// The names of the memory; pruned, outliers and solved hold bytes, the table and the counts whole numbers.
#[derive(Debug, Clone, Copy, PartialEq, Eq)]
pub enum Name {
    Xs,
    Ys,
    Ws,
    Sums,
    Scratch,
    Coefficients,
    Errors,
    Lower,
    Upper,
    Losses,
    Pruned,
    Outliers,
    Before,
    After,
    Solved,
    Scores,
    Zs,
    Table,
    Counts,
}

/// All names, with their words.
pub const NAMES: [(Name, &str); 19] = [
    (Name::Xs, "xs"),
    (Name::Ys, "ys"),
    (Name::Ws, "ws"),
    (Name::Sums, "sums"),
    (Name::Scratch, "scratch"),
    (Name::Coefficients, "coefficients"),
    (Name::Errors, "errors"),
    (Name::Lower, "lower"),
    (Name::Upper, "upper"),
    (Name::Losses, "losses"),
    (Name::Pruned, "pruned"),
    (Name::Outliers, "outliers"),
    (Name::Before, "before"),
    (Name::After, "after"),
    (Name::Solved, "solved"),
    (Name::Scores, "scores"),
    (Name::Zs, "zs"),
    (Name::Table, "table"),
    (Name::Counts, "counts"),
];

/// What a text lends before its first line.
pub const LENT: Lengths = Lengths {
    x: MOST_SAMPLES,
    z: MOST_SAMPLES,
    y: MOST_SAMPLES,
    weight: MOST_SAMPLES,
    sums: PLACES,
    scratch: MOST_SAMPLES,
    coefficients: TERMS,
    errors: TERMS,
    pruned: TERMS,
    lower: MOST_SAMPLES,
    upper: MOST_SAMPLES,
    outlier: MOST_SAMPLES,
    before: TERMS,
    after: TERMS,
    losses: MOST_SAMPLES,
    solved: TERMS,
    scores: TERMS,
    table: TABLE,
    counts: STAKES,
};

/// Everything that can be lent, whole.
#[derive(Clone)]
pub struct Memory {
    pub x: Vec<f64>,
    pub y: Vec<f64>,
    pub weight: Vec<f64>,
    pub sums: Vec<f64>,
    pub scratch: Vec<f64>,
    pub coefficients: Vec<f64>,
    pub errors: Vec<f64>,
    pub pruned: Vec<u8>,
    pub lower: Vec<f64>,
    pub upper: Vec<f64>,
    pub outlier: Vec<u8>,
    pub before: Vec<f64>,
    pub after: Vec<f64>,
    pub losses: Vec<f64>,
    pub z: Vec<f64>,
    pub solved: Vec<u8>,
    pub scores: Vec<f64>,
    pub table: Vec<usize>,
    pub counts: Vec<usize>,
}

/// What one call is lent.
pub struct Lent<'a> {
    pub x: &'a mut [f64],
    pub y: &'a mut [f64],
    pub weight: &'a mut [f64],
    pub sums: &'a mut [f64],
    pub scratch: &'a mut [f64],
    pub coefficients: &'a mut [f64],
    pub errors: &'a mut [f64],
    pub pruned: &'a mut [u8],
    pub lower: &'a mut [f64],
    pub upper: &'a mut [f64],
    pub outlier: &'a mut [u8],
    pub before: &'a mut [f64],
    pub after: &'a mut [f64],
    pub losses: &'a mut [f64],
    pub z: &'a mut [f64],
    pub solved: &'a mut [u8],
    pub scores: &'a mut [f64],
    pub table: &'a mut [usize],
    pub counts: &'a mut [usize],
}

/// The places of one memory.
pub enum Places<'a> {
    Floats(&'a [f64]),
    Bytes(&'a [u8]),
    Numbers(&'a [usize]),
}

impl Name {
    pub fn word(self) -> &'static str {
        NAMES[self as usize].1
    }

    pub fn holds_bytes(self) -> bool {
        matches!(self, Name::Pruned | Name::Outliers | Name::Solved)
    }

    pub fn holds_numbers(self) -> bool {
        matches!(self, Name::Table | Name::Counts)
    }

    /// How many places a text has of it: of the sums enough for the 32 stakes of a season.
    pub fn places(self) -> usize {
        match self {
            Name::Sums => 8800,
            _ => MEMORY,
        }
    }

    /// Its length among those of all.
    pub fn length(self, lengths: &mut Lengths) -> &mut usize {
        match self {
            Name::Xs => &mut lengths.x,
            Name::Ys => &mut lengths.y,
            Name::Ws => &mut lengths.weight,
            Name::Sums => &mut lengths.sums,
            Name::Scratch => &mut lengths.scratch,
            Name::Coefficients => &mut lengths.coefficients,
            Name::Errors => &mut lengths.errors,
            Name::Lower => &mut lengths.lower,
            Name::Upper => &mut lengths.upper,
            Name::Losses => &mut lengths.losses,
            Name::Pruned => &mut lengths.pruned,
            Name::Outliers => &mut lengths.outlier,
            Name::Before => &mut lengths.before,
            Name::After => &mut lengths.after,
            Name::Zs => &mut lengths.z,
            Name::Solved => &mut lengths.solved,
            Name::Scores => &mut lengths.scores,
            Name::Table => &mut lengths.table,
            Name::Counts => &mut lengths.counts,
        }
    }
}

impl Memory {
    /// So many places of each, all +0 or 0.
    pub fn zeros(places: usize) -> Self {
        let floats = || vec![0.0; places];
        let bytes = || vec![0; places];
        Self {
            x: floats(),
            y: floats(),
            weight: floats(),
            sums: floats(),
            scratch: floats(),
            coefficients: floats(),
            errors: floats(),
            pruned: bytes(),
            lower: floats(),
            upper: floats(),
            outlier: bytes(),
            before: floats(),
            after: floats(),
            losses: floats(),
            z: floats(),
            solved: bytes(),
            scores: floats(),
            table: vec![0; places],
            counts: vec![0; places],
        }
    }

    /// All places of a text, +0 or 0.
    pub fn of_text() -> Self {
        Self { sums: vec![0.0; Name::Sums.places()], ..Self::zeros(MEMORY) }
    }

    /// The first places of everything, as the lengths say.
    pub fn lend(&mut self, lengths: &Lengths) -> Lent<'_> {
        Lent {
            x: &mut self.x[..lengths.x],
            y: &mut self.y[..lengths.y],
            weight: &mut self.weight[..lengths.weight],
            sums: &mut self.sums[..lengths.sums],
            scratch: &mut self.scratch[..lengths.scratch],
            coefficients: &mut self.coefficients[..lengths.coefficients],
            errors: &mut self.errors[..lengths.errors],
            pruned: &mut self.pruned[..lengths.pruned],
            lower: &mut self.lower[..lengths.lower],
            upper: &mut self.upper[..lengths.upper],
            outlier: &mut self.outlier[..lengths.outlier],
            before: &mut self.before[..lengths.before],
            after: &mut self.after[..lengths.after],
            losses: &mut self.losses[..lengths.losses],
            z: &mut self.z[..lengths.z],
            solved: &mut self.solved[..lengths.solved],
            scores: &mut self.scores[..lengths.scores],
            table: &mut self.table[..lengths.table],
            counts: &mut self.counts[..lengths.counts],
        }
    }

    pub fn places(&self, name: Name) -> Places<'_> {
        match name {
            Name::Xs => Places::Floats(&self.x),
            Name::Ys => Places::Floats(&self.y),
            Name::Ws => Places::Floats(&self.weight),
            Name::Sums => Places::Floats(&self.sums),
            Name::Scratch => Places::Floats(&self.scratch),
            Name::Coefficients => Places::Floats(&self.coefficients),
            Name::Errors => Places::Floats(&self.errors),
            Name::Lower => Places::Floats(&self.lower),
            Name::Upper => Places::Floats(&self.upper),
            Name::Losses => Places::Floats(&self.losses),
            Name::Pruned => Places::Bytes(&self.pruned),
            Name::Outliers => Places::Bytes(&self.outlier),
            Name::Before => Places::Floats(&self.before),
            Name::After => Places::Floats(&self.after),
            Name::Zs => Places::Floats(&self.z),
            Name::Solved => Places::Bytes(&self.solved),
            Name::Scores => Places::Floats(&self.scores),
            Name::Table => Places::Numbers(&self.table),
            Name::Counts => Places::Numbers(&self.counts),
        }
    }

    /// The places of a memory of floats, to be written.
    pub fn floats(&mut self, name: Name) -> Option<&mut [f64]> {
        Some(match name {
            Name::Xs => &mut self.x,
            Name::Ys => &mut self.y,
            Name::Ws => &mut self.weight,
            Name::Sums => &mut self.sums,
            Name::Scratch => &mut self.scratch,
            Name::Coefficients => &mut self.coefficients,
            Name::Errors => &mut self.errors,
            Name::Lower => &mut self.lower,
            Name::Upper => &mut self.upper,
            Name::Before => &mut self.before,
            Name::After => &mut self.after,
            Name::Losses => &mut self.losses,
            Name::Scores => &mut self.scores,
            Name::Zs => &mut self.z,
            Name::Pruned | Name::Outliers | Name::Solved | Name::Table | Name::Counts => {
                return None
            }
        })
    }

    /// The places of a memory of whole numbers, to be written.
    pub fn numbers(&mut self, name: Name) -> Option<&mut [usize]> {
        match name {
            Name::Table => Some(&mut self.table),
            Name::Counts => Some(&mut self.counts),
            _ => None,
        }
    }
}
