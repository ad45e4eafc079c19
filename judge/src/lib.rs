//! Document 01 transcribed in plain Rust, in the document's order and words, and of document 02, the
//! change requests, what is built.
//!
//! Every float step is written out, so that the order of rounding can be read off the text. Nothing
//! is shared, cached or skipped; where a faster way exists, this is what it must agree with.
//!
//! `numbers`, `statistics`, `sums`, `solve`, `fit`, `frame` and `lines` are definitions over samples
//! and sums; `refusals` says which number a call is refused by; `book` has the calls on lent memory;
//! `ledger` is the plain list of samples that the book must agree with; `listing` is the program
//! `stakebook`; `split` is document 02's E8, `surface` its E9, for which `terms` says what a fit sees of
//! a sample, `groups` its E10 and `season` its E14. `two_column` is document 01's book of two columns, by its own words and
//! with nothing of document 02 in it.

// Places are named by index, as the document names them.
#![allow(clippy::needless_range_loop)]

pub mod book;
pub mod fit;
pub mod frame;
pub mod groups;
pub mod ledger;
pub mod lines;
pub mod listing;
pub mod numbers;
pub mod refusals;
pub mod season;
pub mod solve;
pub mod split;
pub mod statistics;
pub mod sums;
pub mod surface;
pub mod terms;
pub mod two_column;

/// A sample: finite x and y, and a weight (document 02, E5).
#[derive(Debug, Clone, Copy, PartialEq)]
pub struct Sample {
    pub x: f64,
    pub y: f64,
    pub weight: f64,
}

impl Sample {
    /// Of weight 1, which version 1 of a frame, a written line and document 01's cases mean.
    pub const fn unweighted(x: f64, y: f64) -> Self {
        Self { x, y, weight: 1.0 }
    }
}

/// k is degree + 1; a degree is never taken for a coefficient count.
pub fn coefficient_count(degree: usize) -> usize {
    degree + 1
}
