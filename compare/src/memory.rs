//! The memory that a side is lent, with places beyond what is lent, which must never change.

use journal::memory::{Places, NAMES};
use journal::Memory;
use judge::numbers::bits;
use judge::refusals::Lengths;
use judge::surface::{Columns, SurfaceSample};
use judge::Sample;

use crate::call::{List, Poke};
use crate::random::Random;

/// Places kept beyond the longest that is ever lent.
const BEYOND: usize = 2;

/// Small numbers, now and then any bits, a NaN too.
fn numbers(random: &mut Random, length: usize) -> Vec<f64> {
    let number = |random: &mut Random| match random.below(3) {
        0 => f64::from_bits(random.next()),
        1 => -0.0,
        _ => random.below(100) as f64,
    };
    (0..length + BEYOND).map(|_| number(random)).collect()
}

fn bytes(random: &mut Random, length: usize) -> Vec<u8> {
    (0..length + BEYOND).map(|_| random.next() as u8).collect()
}

/// Small whole numbers, now and then any.
fn whole_numbers(random: &mut Random, length: usize) -> Vec<usize> {
    let number = |random: &mut Random| match random.below(4) {
        0 => random.next() as usize,
        _ => random.below(40),
    };
    (0..length + BEYOND).map(|_| number(random)).collect()
}

/// Long enough for every call of the list, holding what the list's seed says.
pub fn filled(list: &List) -> Memory {
    filled_for(list.contents, &longest(list.steps.iter().map(|step| &step.lengths)))
}

/// The greatest of each length.
pub fn longest<'a>(all: impl Iterator<Item = &'a Lengths> + Clone) -> Lengths {
    let longest = |of: fn(&Lengths) -> usize| all.clone().map(of).max().unwrap_or(0);
    Lengths {
        x: longest(|l| l.x),
        z: longest(|l| l.z),
        y: longest(|l| l.y),
        weight: longest(|l| l.weight),
        sums: longest(|l| l.sums),
        scratch: longest(|l| l.scratch),
        coefficients: longest(|l| l.coefficients),
        errors: longest(|l| l.errors),
        pruned: longest(|l| l.pruned),
        lower: longest(|l| l.lower),
        upper: longest(|l| l.upper),
        outlier: longest(|l| l.outlier),
        before: longest(|l| l.before),
        after: longest(|l| l.after),
        losses: longest(|l| l.losses),
        solved: longest(|l| l.solved),
        scores: longest(|l| l.scores),
        table: longest(|l| l.table),
        counts: longest(|l| l.counts),
    }
}

/// Memory of these lengths and a little more, holding what the seed says.
pub fn filled_for(contents: u64, lengths: &Lengths) -> Memory {
    let random = &mut Random::new(contents);
    Memory {
        x: numbers(random, lengths.x),
        y: numbers(random, lengths.y),
        weight: numbers(random, lengths.weight),
        sums: numbers(random, lengths.sums),
        scratch: numbers(random, lengths.scratch),
        coefficients: numbers(random, lengths.coefficients),
        errors: numbers(random, lengths.errors),
        pruned: bytes(random, lengths.pruned),
        lower: numbers(random, lengths.lower),
        upper: numbers(random, lengths.upper),
        outlier: bytes(random, lengths.outlier),
        before: numbers(random, lengths.before),
        after: numbers(random, lengths.after),
        losses: numbers(random, lengths.losses),
        z: numbers(random, lengths.z),
        solved: bytes(random, lengths.solved),
        scores: numbers(random, lengths.scores),
        table: whole_numbers(random, lengths.table),
        counts: whole_numbers(random, lengths.counts),
    }
}

pub fn poke(memory: &mut Memory, poke: Poke) {
    let (places, at, value) = match poke {
        Poke::X { at, value } => (&mut memory.x, at, value),
        Poke::Y { at, value } => (&mut memory.y, at, value),
        Poke::Weight { at, value } => (&mut memory.weight, at, value),
        Poke::Sums { at, value } => (&mut memory.sums, at, value),
        Poke::Z { at, value } => (&mut memory.z, at, value),
        Poke::Table { at, number } => {
            if let Some(place) = memory.table.get_mut(at) {
                *place = number;
            }
            return;
        }
        Poke::Counts { at, number } => {
            if let Some(place) = memory.counts.get_mut(at) {
                *place = number;
            }
            return;
        }
    };
    if let Some(place) = places.get_mut(at) {
        *place = value;
    }
}

/// The samples below the count, as far as the lent columns reach.
pub fn samples(memory: &Memory, lengths: &Lengths, count: usize) -> Vec<Sample> {
    if count > lengths.x.min(lengths.y).min(lengths.weight) {
        return Vec::new();
    }
    let sample = |i| Sample { x: memory.x[i], y: memory.y[i], weight: memory.weight[i] };
    (0..count).map(sample).collect()
}

/// The samples of a surface below the count, as far as the lent columns reach.
pub fn sites(memory: &Memory, lengths: &Lengths, count: usize) -> Vec<SurfaceSample> {
    let Lengths { x, z, y, .. } = *lengths;
    Columns { x: &memory.x[..x], z: &memory.z[..z], y: &memory.y[..y] }.samples(count)
}

/// The first place where the two differ, NaNs as one value.
pub fn difference(mine: &Memory, theirs: &Memory) -> Option<String> {
    NAMES.iter().find_map(|&(name, word)| match (mine.places(name), theirs.places(name)) {
        (Places::Floats(mine), Places::Floats(theirs)) => first_difference(word, mine, theirs),
        (Places::Bytes(mine), Places::Bytes(theirs)) => {
            let at = (0..mine.len()).find(|&at| mine[at] != theirs[at])?;
            Some(format!("{word}[{at}]: {} and {}", mine[at], theirs[at]))
        }
        (Places::Numbers(mine), Places::Numbers(theirs)) if mine != theirs => {
            Some(format!("{word}: {mine:?} and {theirs:?}"))
        }
        _ => None,
    })
}

/// The first place where two lists of numbers differ, NaNs as one value.
pub fn first_difference(name: &str, mine: &[f64], theirs: &[f64]) -> Option<String> {
    if mine.len() != theirs.len() {
        return Some(format!("{name}: {} and {} values", mine.len(), theirs.len()));
    }
    // Mostly the patterns are the same already.
    let same = |a: f64, b: f64| a.to_bits() == b.to_bits() || bits(a) == bits(b);
    let at = (0..mine.len()).find(|&at| !same(mine[at], theirs[at]))?;
    let (a, b) = (mine[at], theirs[at]);
    Some(format!("{name}[{at}]: {a:?} and {b:?} ({:016X} and {:016X})", bits(a), bits(b)))
}
