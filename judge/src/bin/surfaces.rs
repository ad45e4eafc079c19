//! Surfaces (document 02, E9) of lists on standard input, for an opinion from outside
//! (`tools/surface_opinion.py`). A line is `aic` or `bic` and then x, z and y of each sample, as bits in
//! hexadecimal. Printed are, for each total degree that is tried, its score and coefficients, or
//! `unsolved`; then of a report up to total degree 4, P95, no tolerance, by size, what it answers and
//! writes, or `refused`.

use std::io::BufRead;

use judge::book::answer_of;
use judge::fit::{report, scores, solved, Criterion, PruningRule, Settings};
use judge::numbers::{bits, one_value};
use judge::statistics::{Confidence, DegreeBound, Tolerance};
use judge::surface::{folded, SurfaceSample, GREATEST_DEGREE};

fn main() {
    for line in std::io::stdin().lock().lines() {
        let line = line.unwrap_or_default();
        match list_of(&line) {
            Some((criterion, samples)) => print(criterion, &samples),
            None => {
                eprintln!("not a list: {line}");
                std::process::exit(1);
            }
        }
    }
}

fn list_of(line: &str) -> Option<(Criterion, Vec<SurfaceSample>)> {
    let mut fields = line.split(' ');
    let criterion = match fields.next()? {
        "aic" => Criterion::Aic,
        "bic" => Criterion::Bic,
        _ => return None,
    };
    let mut numbers = Vec::new();
    for field in fields {
        numbers.push(one_value(u64::from_str_radix(field, 16).ok()?));
    }
    let sample = |row: &[f64]| SurfaceSample { x: row[0], z: row[1], y: row[2] };
    (numbers.len() % 3 == 0).then(|| (criterion, numbers.chunks(3).map(sample).collect()))
}

fn fields(values: &[f64]) -> String {
    values.iter().map(|v| format!(" {:016X}", bits(*v))).collect()
}

fn marks(marked: &[bool]) -> String {
    marked.iter().map(|mark| if *mark { '1' } else { '0' }).collect()
}

fn print(criterion: Criterion, samples: &[SurfaceSample]) {
    let sums = folded(samples);
    for (degree, score) in scores(samples, &sums, GREATEST_DEGREE, criterion).iter().enumerate() {
        match (score, solved(samples, &sums, degree)) {
            (Some(score), Some(values)) => {
                println!("{degree}{}{}", fields(&[*score]), fields(&values))
            }
            _ => println!("{degree} unsolved"),
        }
    }
    let settings = Settings {
        bound: DegreeBound::Custom(GREATEST_DEGREE),
        criterion,
        confidence: Confidence::P95,
        tolerance: Tolerance::None,
        pruning: PruningRule::Size,
    };
    match report(samples, &sums, settings) {
        Ok(report) => {
            let answer = answer_of(&report);
            println!("report {} {}", answer.degree, answer.solved);
            println!("errors{}", fields(&report.errors));
            println!("pruned {}", marks(&report.pruned));
            println!("lower{}", fields(&report.bands.iter().map(|b| b.lower).collect::<Vec<_>>()));
            println!("upper{}", fields(&report.bands.iter().map(|b| b.upper).collect::<Vec<_>>()));
            println!("outliers {}", marks(&report.outliers));
        }
        Err(number) => println!("refused {number}"),
    }
}
