//! Document 01, "Book, columns, sums": the 272 sums, each product with the weight of its sample
//! (document 02, E5).

use crate::numbers::power;
use crate::Sample;

/// i and j are 0 to 15.
pub const TERMS: usize = 16;

/// A[i][j] at 16i+j, then g[i] at 256+i.
pub const PLACES: usize = 272;

/// Where g begins.
pub const G: usize = 256;

/// x⁰ to x¹⁵.
pub fn powers(x: f64) -> [f64; TERMS] {
    let mut row = [0.0; TERMS];
    for (j, place) in row.iter_mut().enumerate() {
        *place = power(x, j);
    }
    row
}

/// Adds (xⁱ × xʲ) × w to each A[i][j].
fn add_to_a(sums: &mut [f64], sample: Sample) {
    let row = powers(sample.x);
    for i in 0..TERMS {
        for j in 0..TERMS {
            sums[TERMS * i + j] += (row[i] * row[j]) * sample.weight;
        }
    }
}

/// Adds (xⁱ × y) × w to each g[i].
fn add_to_g(sums: &mut [f64], sample: Sample) {
    let row = powers(sample.x);
    for i in 0..TERMS {
        sums[G + i] += (row[i] * sample.y) * sample.weight;
    }
}

/// An add adds its products to what stands there.
pub fn add(sums: &mut [f64], sample: Sample) {
    add_to_a(sums, sample);
    add_to_g(sums, sample);
}

/// g folded afresh: in index order from +0.
pub fn fold_g(sums: &mut [f64], samples: &[Sample]) {
    sums[G..PLACES].fill(0.0);
    for &sample in samples {
        add_to_g(sums, sample);
    }
}

/// All 272 folded afresh: in index order from +0.
pub fn fold(sums: &mut [f64], samples: &[Sample]) {
    sums[..PLACES].fill(0.0);
    for &sample in samples {
        add(sums, sample);
    }
}

/// The 272 sums of a list.
pub fn folded_afresh(samples: &[Sample]) -> Vec<f64> {
    let mut sums = vec![0.0; PLACES];
    fold(&mut sums, samples);
    sums
}

pub fn a(sums: &[f64], i: usize, j: usize) -> f64 {
    sums[TERMS * i + j]
}

pub fn g(sums: &[f64], i: usize) -> f64 {
    sums[G + i]
}
