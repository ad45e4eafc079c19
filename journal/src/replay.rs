//! A list of calls in buffers, run by the proved library in one call.

use judge::fit::{PruningRule, Settings};
use judge::refusals::Lengths;
use judge::sums::PLACES;
use judge::Sample;
use stakebook::sys;

use crate::call::{Answer, Call};
use crate::memory::{Lent, Memory};
use crate::port::{bound_numbers, confidence_numbers, criterion_number, tolerance_numbers};

/// Kinds, words, numbers and results of a call.
const KINDS: usize = 5;
const WORDS: usize = 9;
const NUMBERS: usize = 5;
const RESULTS: usize = 5;

/// Calls as records, and what they are lent. The columns and the sums are the book's; of all other
/// memory each call has a window of so many places.
#[derive(Clone)]
pub struct Buffers {
    pub kinds: Vec<u32>,
    pub words: Vec<usize>,
    pub numbers: Vec<f64>,
    pub width: usize,
    pub results: Vec<usize>,
    pub memory: Memory,
    /// What is lent of the memory.
    pub lengths: Lengths,
}

impl Buffers {
    /// No call yet, on this memory.
    pub fn new(memory: Memory, lengths: Lengths, width: usize) -> Self {
        let (kinds, words, numbers, results) = (vec![], vec![], vec![], vec![]);
        Self { kinds, words, numbers, width, results, memory, lengths }
    }

    pub fn calls(&self) -> usize {
        self.kinds.len() / KINDS
    }

    /// A further record, with room for its results; false for a call that no record holds. What the
    /// call ignores is never 0.
    pub fn push(&mut self, call: &Call, lent: &Lengths) -> bool {
        const IGNORED: Sample = Sample { x: 2.0, y: 3.0, weight: -4.0 };
        let (kind, index, sample) = match *call {
            Call::Add(sample) => (0, usize::MAX, sample),
            Call::Correct { index, y } => (1, index, Sample { x: f64::NAN, y, weight: f64::NAN }),
            Call::Withdraw { index } => (2, index, Sample { y: f64::INFINITY, ..IGNORED }),
            // 4 is a report that prunes by size; any other number above 2 one with polyfit's rule.
            Call::Report(settings) if settings.pruning == PruningRule::Size => (4, 1, IGNORED),
            Call::Report(_) if self.calls() % 3 == 0 => (5, 1, IGNORED),
            Call::Report(_) if self.calls() % 3 == 1 => (u32::MAX, 1, IGNORED),
            Call::Report(_) => (3, 1, IGNORED),
            _ => return false,
        };
        let (kinds, most, score, value) = match call {
            Call::Report(settings) => settings_numbers(*settings),
            _ => ([9, 9, 9, 9], 9, f64::NAN, f64::NAN),
        };
        self.kinds.push(kind);
        self.kinds.extend(kinds);
        self.words.extend([index, most, lent.scratch, lent.coefficients, lent.errors]);
        self.words.extend([lent.pruned, lent.lower, lent.upper, lent.outlier]);
        self.numbers.extend([sample.x, sample.y, sample.weight, score, value]);
        self.results.extend([usize::MAX; RESULTS]);
        true
    }

    /// What call k is lent, where so many places of its windows are.
    pub fn lend(&mut self, k: usize, lent: &Lengths) -> Lent<'_> {
        let at = self.width * k;
        Lent {
            x: &mut self.memory.x[..self.lengths.x],
            y: &mut self.memory.y[..self.lengths.y],
            weight: &mut self.memory.weight[..self.lengths.weight],
            sums: &mut self.memory.sums[..self.lengths.sums],
            scratch: &mut self.memory.scratch[at..at + lent.scratch],
            coefficients: &mut self.memory.coefficients[at..at + lent.coefficients],
            errors: &mut self.memory.errors[at..at + lent.errors],
            pruned: &mut self.memory.pruned[at..at + lent.pruned],
            lower: &mut self.memory.lower[at..at + lent.lower],
            upper: &mut self.memory.upper[at..at + lent.upper],
            outlier: &mut self.memory.outlier[at..at + lent.outlier],
            // No record holds a call that is lent these.
            before: &mut [],
            after: &mut [],
            losses: &mut [],
            z: &mut [],
            solved: &mut [],
            scores: &mut [],
            table: &mut [],
            counts: &mut [],
        }
    }

    /// Records what call k answered.
    pub fn note(&mut self, k: usize, answer: &Answer) {
        let results = match *answer {
            Answer::Book(count) => [0, count, 0, 0, 0],
            Answer::Report { degree, solved, outliers, pruned } => {
                [0, degree, solved, outliers, pruned]
            }
            Answer::Refused(number) => [usize::from(number), 0, 0, 0, 0],
            _ => panic!("{answer:?} stands in no record"),
        };
        self.results[RESULTS * k..RESULTS * (k + 1)].copy_from_slice(&results);
    }

    /// One place too few for the calls, in this way; false where there is no such way.
    pub fn shorten(&mut self, way: u64) -> bool {
        let (calls, width) = (self.calls(), self.width);
        match way {
            0 => self.lengths.sums = PLACES - 1,
            _ if calls == 0 => return false,
            1 => self.words.truncate(WORDS * calls - 1),
            2 => self.numbers.truncate(NUMBERS * calls - 1),
            3 => self.results.truncate(RESULTS * calls - 1),
            _ if width == 0 => return false,
            4 => self.lengths.scratch = width * calls - 1,
            5 => self.lengths.coefficients = width * calls - 1,
            6 => self.lengths.errors = width * calls - 1,
            7 => self.lengths.pruned = width * calls - 1,
            8 => self.lengths.lower = width * calls - 1,
            9 => self.lengths.upper = width * calls - 1,
            10 => self.lengths.outlier = width * calls - 1,
            _ => self.words[WORDS * calls - 1] = width + 1,
        }
        true
    }

    /// All calls by the library, from a book just opened: the book's count, or none where it says
    /// that the buffers hold no list of calls.
    pub fn replay(&mut self) -> Option<usize> {
        let Self { kinds, words, numbers, width, results, memory, lengths } = self;
        let lent = memory.lend(lengths);
        // SAFETY: the slices are the caller's, initialised and apart.
        let packed = unsafe {
            sys::stakebook_replay(
                kinds.as_ptr(),
                kinds.len(),
                words.as_ptr(),
                words.len(),
                numbers.as_ptr(),
                numbers.len(),
                *width,
                lent.x.as_mut_ptr(),
                lent.x.len(),
                lent.y.as_mut_ptr(),
                lent.y.len(),
                lent.weight.as_mut_ptr(),
                lent.weight.len(),
                lent.sums.as_mut_ptr(),
                lent.sums.len(),
                results.as_mut_ptr(),
                results.len(),
                lent.scratch.as_mut_ptr(),
                lent.scratch.len(),
                lent.coefficients.as_mut_ptr(),
                lent.coefficients.len(),
                lent.errors.as_mut_ptr(),
                lent.errors.len(),
                lent.pruned.as_mut_ptr(),
                lent.pruned.len(),
                lent.lower.as_mut_ptr(),
                lent.lower.len(),
                lent.upper.as_mut_ptr(),
                lent.upper.len(),
                lent.outlier.as_mut_ptr(),
                lent.outlier.len(),
            )
        };
        match sys::refusal(packed) {
            0 => Some(sys::count(packed)),
            sys::MALFORMED if packed << 8 == 0 => None,
            number => panic!("a replay refused by {number}: {packed:#x}"),
        }
    }
}

/// The four kinds of a report's settings, the bound's degree, the score and the tolerance's number.
fn settings_numbers(settings: Settings) -> ([u32; 4], usize, f64, f64) {
    let (bound, most) = bound_numbers(settings.bound);
    let criterion = criterion_number(settings.criterion);
    let (confidence, score) = confidence_numbers(settings.confidence);
    let (tolerance, value) = tolerance_numbers(settings.tolerance);
    ([bound, criterion, confidence, tolerance], most, score, value)
}
