//! The limit (`c/limit.cpp`): a report, a withdrawal and a validation in C++ written by hand, with the book's bits. A peer of the benchmark; `verify`
//! holds it against the port. It is there only where `build.rs` found g++.

use journal::port;
use journal::{Answer, Call, Lent, Memory, Port, Side};
use judge::refusals::{Lengths, MOST_SAMPLES};
use judge::statistics::{t_score, with_t, LEVELS, T_TABLE};
use judge::sums::{folded_afresh, PLACES, TERMS};
use judge::Sample;

use crate::arguments;
use crate::memory;
use crate::random::Random;
use crate::samples::{at_some_pivot_edge, Source};

/// Whether it was compiled.
pub const THERE: bool = cfg!(limit);

#[cfg(limit)]
mod sys {
    extern "C" {
        pub fn limit_report(
            count: usize,
            bound: u32,
            most: usize,
            criterion: u32,
            confidence: u32,
            score: f64,
            tolerance: u32,
            value: f64,
            pruning: u32,
            xs: *const f64,
            xs_len: usize,
            ys: *const f64,
            ys_len: usize,
            ws: *const f64,
            ws_len: usize,
            sums: *const f64,
            sums_len: usize,
            scratch: *mut f64,
            scratch_len: usize,
            coefficients: *mut f64,
            coefficients_len: usize,
            errors: *mut f64,
            errors_len: usize,
            pruned: *mut u8,
            pruned_len: usize,
            lower: *mut f64,
            lower_len: usize,
            upper: *mut f64,
            upper_len: usize,
            outliers: *mut u8,
            outliers_len: usize,
            table: *const [f64; 6],
        ) -> u64;
        pub fn limit_withdraw(
            count: usize,
            index: usize,
            xs: *mut f64,
            xs_len: usize,
            ys: *mut f64,
            ys_len: usize,
            ws: *mut f64,
            ws_len: usize,
            sums: *mut f64,
            sums_len: usize,
        ) -> u64;
        pub fn limit_validate(
            count: usize,
            folds: usize,
            bound: u32,
            most: usize,
            criterion: u32,
            xs: *const f64,
            xs_len: usize,
            ys: *const f64,
            ys_len: usize,
            ws: *const f64,
            ws_len: usize,
            sums: *const f64,
            sums_len: usize,
            scratch: *mut f64,
            scratch_len: usize,
            coefficients: *mut f64,
            coefficients_len: usize,
        ) -> u64;
    }
}

/// A slice as a pointer and a length, between what stands before and behind.
#[cfg(limit)]
macro_rules! with_places {
    ($call:path, $lent:ident, ($($first:expr),*), ($($name:ident),*), ($($last:expr),*)) => {
        // SAFETY: the slices are the caller's, initialised and apart; the table has 30 rows.
        unsafe { $call($($first,)* $($lent.$name.as_mut_ptr(), $lent.$name.len(),)* $($last),*) }
    };
}

/// What the limit answers; nothing where it has no such call, or was not compiled.
#[cfg(limit)]
pub fn make(call: &Call, count: usize, lent: Lent) -> Option<Answer> {
    Some(match *call {
        Call::Report(settings) => {
            let (bound, most) = port::bound_numbers(settings.bound);
            let criterion = port::criterion_number(settings.criterion);
            let (confidence, score) = port::confidence_numbers(settings.confidence);
            let (tolerance, value) = port::tolerance_numbers(settings.tolerance);
            let pruning = port::pruning_number(settings.pruning, false);
            port::report(with_places!(
                sys::limit_report,
                lent,
                (count, bound, most, criterion, confidence, score, tolerance, value, pruning),
                (x, y, weight, sums, scratch, coefficients, errors, pruned, lower, upper, outlier),
                (T_TABLE.as_ptr())
            ))
        }
        Call::Withdraw { index } => port::book(with_places!(
            sys::limit_withdraw,
            lent,
            (count, index),
            (x, y, weight, sums),
            ()
        )),
        Call::Validate { folds, bound, criterion } => {
            let (bound, most) = port::bound_numbers(bound);
            let criterion = port::criterion_number(criterion);
            port::degree(with_places!(
                sys::limit_validate,
                lent,
                (count, folds, bound, most, criterion),
                (x, y, weight, sums, scratch, coefficients),
                ()
            ))
        }
        _ => return None,
    })
}

#[cfg(not(limit))]
pub fn make(_: &Call, _: usize, _: Lent) -> Option<Answer> {
    None
}

/// The limit where it has the call and the port elsewhere, so that the comparison's own lists of calls, with their edges, try the limit too.
pub struct Limited;

impl Side for Limited {
    fn name(&self) -> &'static str {
        "limit"
    }

    fn make(&self, call: &Call, count: usize, lent: Lent) -> Answer {
        match call {
            Call::Report(_) | Call::Withdraw { .. } | Call::Validate { .. } => {
                make(call, count, lent).unwrap_or(Answer::Refused(0))
            }
            _ => Port.make(call, count, lent),
        }
    }
}

/// What was compared.
#[derive(Default)]
pub struct Compared {
    calls: usize,
    /// Calls by the refusal's number, 0 for none.
    refusals: [usize; 16],
    /// Books of 700 samples or more, which medians of the limit sample in another way.
    long: usize,
}

/// How many samples: few, some, many, or a book that is nearly full.
fn count(random: &mut Random) -> usize {
    match random.below(10) {
        0..=3 => random.between(0, 20),
        4..=6 => random.between(1, 130),
        7 | 8 => random.between(1, 1_000),
        _ => random.between(MOST_SAMPLES - 40, MOST_SAMPLES),
    }
}

/// Of every kind; now and then such that the degree is solved and its inverse fails, that a term stands at the edge of Student's t around the
/// table's last row, or that two middle residuals add up to more than the greatest double.
fn samples(random: &mut Random) -> Vec<Sample> {
    match random.below(60) {
        0..=2 => {
            if let Some((samples, _)) = at_some_pivot_edge(random) {
                return samples;
            }
        }
        3..=5 => {
            let (df, level) = (random.between(28, 32), random.pick(&LEVELS));
            return with_t(df, random.within(0.97, 1.03) * t_score(level, df));
        }
        6 | 7 => {
            let (most, pairs) = (f64::MAX * random.within(0.4, 1.0), random.between(1, 3));
            let pair = [Sample::unweighted(0.0, most), Sample::unweighted(0.0, -most)];
            return pair.repeat(pairs);
        }
        _ => {}
    }
    let n = count(random);
    Source::new(random, n).take(random, n)
}

/// As long as the calls need, now and then one of them a place too short.
fn lengths(random: &mut Random, n: usize) -> Lengths {
    let capacity = (n + random.below(3)).min(MOST_SAMPLES);
    let mut lengths = Lengths {
        x: capacity,
        y: capacity,
        weight: capacity,
        sums: PLACES,
        scratch: n,
        coefficients: TERMS,
        errors: TERMS,
        pruned: TERMS,
        lower: n,
        upper: n,
        outlier: n,
        ..Lengths::default()
    };
    if n > 0 && random.one_in(20) {
        let all: [fn(&mut Lengths) -> &mut usize; 11] = [
            |l| &mut l.x,
            |l| &mut l.y,
            |l| &mut l.weight,
            |l| &mut l.sums,
            |l| &mut l.scratch,
            |l| &mut l.coefficients,
            |l| &mut l.errors,
            |l| &mut l.pruned,
            |l| &mut l.lower,
            |l| &mut l.upper,
            |l| &mut l.outlier,
        ];
        let of = random.pick(&all);
        *of(&mut lengths) = (*of(&mut lengths)).min(n.max(TERMS)) - 1;
    }
    lengths
}

/// A call that the limit has. A validation of many samples in as many folds takes long.
fn call(random: &mut Random, n: usize) -> Call {
    match random.below(7) {
        0 => Call::Withdraw { index: random.below(n + 1) },
        1 | 2 => match arguments::validate(random, n) {
            Call::Validate { folds, bound, criterion } if n > 130 && folds <= n && folds > 40 => {
                Call::Validate { folds: 10, bound, criterion }
            }
            call => call,
        },
        _ => Call::Report(arguments::settings(random)),
    }
}

/// Books of every kind of samples and weights: each call by the port and by the limit on the same memory; what is answered and
/// every place of the memory afterwards, NaNs as one value. The first difference is the error.
pub fn verify(lists: u64, seed: u64) -> Result<Compared, String> {
    let mut compared = Compared::default();
    for list in 0..lists {
        let random = &mut Random::new(seed ^ list.wrapping_mul(0x9E37_79B9_7F4A_7C15));
        let samples = samples(random);
        let n = samples.len();
        let lengths = lengths(random, n);
        let mut memory = memory::filled_for(random.next(), &lengths);
        for (at, sample) in samples.iter().enumerate() {
            memory.x[at] = sample.x;
            memory.y[at] = sample.y;
            memory.weight[at] = sample.weight;
        }
        let sums = folded_afresh(&samples);
        let lent = sums.len().min(memory.sums.len());
        memory.sums[..lent].copy_from_slice(&sums[..lent]);
        if n > 0 && random.one_in(40) {
            let column = random.pick(&[0, 1, 2]);
            let places = [&mut memory.x, &mut memory.y, &mut memory.weight];
            places.into_iter().nth(column).expect("three columns")[random.below(n)] =
                arguments::not_finite(random);
        }
        for _ in 0..7 {
            let call = call(random, n);
            compare(&call, n, (&memory, &lengths), &mut compared)
                .map_err(|what| format!("seed {seed}, list {list}, n {n}, {call:?}: {what}"))?;
        }
        compared.long += usize::from(n >= 700);
    }
    Ok(compared)
}

fn compare(
    call: &Call,
    n: usize,
    (memory, lengths): (&Memory, &Lengths),
    compared: &mut Compared,
) -> Result<(), String> {
    let (mut mine, mut theirs) = (memory.clone(), memory.clone());
    let port = Port.make(call, n, mine.lend(lengths));
    let limit = make(call, n, theirs.lend(lengths)).ok_or("the limit has no such call")?;
    if port != limit {
        return Err(format!("the port answers {port:?}, the limit {limit:?}"));
    }
    if let Some(difference) = memory::difference(&mine, &theirs) {
        return Err(format!("the port's and the limit's {difference}"));
    }
    compared.calls += 1;
    let number = if let Answer::Refused(number) = port { number } else { 0 };
    compared.refusals[usize::from(number)] += 1;
    Ok(())
}

impl Compared {
    /// One line, with the numbers of the refusals that happened.
    pub fn line(&self) -> String {
        let refused = (1..16).filter(|&number| self.refusals[number] > 0);
        let refused: Vec<String> =
            refused.map(|number| format!("{} by {number}", self.refusals[number])).collect();
        format!(
            "{} calls by the port and by the limit, {} books of 700 samples or more: no difference; refused: {}",
            self.calls,
            self.long,
            refused.join(", ")
        )
    }
}

#[cfg(all(test, limit))]
mod tests {
    use super::*;

    /// The limit has the port's bits, whatever the samples, weights and settings; and calls of each kind that both refuse are among them.
    #[test]
    fn limit_is_the_port() {
        let compared = verify(400, 7).unwrap_or_else(|what| panic!("{what}"));
        for number in [0, 1, 4, 6, 7, 8] {
            assert!(compared.refusals[number] > 0, "{number} never happened");
        }
        assert!(compared.long > 0);
    }
}
