//! Runs random lists of calls through the judge, the plain ledger, polyfit and the port, and compares
//! every answer and every bit, NaNs as one value; lists of surfaces through the judge and the port; lists of
//! several course groups through all of them, and for each group once more without the others; lists of a season's
//! stakes through the judge and the port, and each stake once more by a book of its own. Judge and port also run the
//! first of the lists of books, surfaces and groups beside their mirror images.
//!
//! `compare [--seed N] [--calls N] [--lists N]`: runs until so many calls were judged by polyfit, and
//! at least so many lists. The seed is printed; `--seed clock` takes one from the clock. `--list N`
//! runs one list only and prints it. `--write N` runs nothing and prints lists of N calls in the text
//! form of docs/JOURNAL.md; `--journal FILE` runs the calls of such a text as one list. `--bench` times
//! the calls instead, `--bench-season` season reports beside single ones alone, and `--limit N` holds the benchmark's limit against the port on N books.
//!
//! Fails on a difference, which it shrinks and prints, and where something that the runs must make
//! never happened.

mod arguments;
mod bench;
mod call;
mod carry;
mod coverage;
mod generate;
mod groups;
mod gsl;
mod limit;
mod lines;
mod memory;
mod mirror;
mod random;
mod reference;
mod replay;
mod run;
mod samples;
mod season;
mod shrink;
mod split;
mod surface;
#[cfg(test)]
mod tests;
mod text;
mod timing;
mod two_column;
mod weights;
mod windows;

use std::process::ExitCode;
use std::time::Instant;

use journal::{Judge, Port, Side};

use call::List;
use coverage::Coverage;
use groups::Course;
use run::{run, Difference};

struct Options {
    seed: u64,
    calls: u64,
    lists: u64,
    list: Option<u64>,
    write: Option<u64>,
    journal: Option<String>,
    bench: bool,
    bench_season: bool,
    limit: Option<u64>,
}

fn options() -> Result<Options, String> {
    let mut options = Options {
        seed: 1,
        calls: 100_000,
        lists: 0,
        list: None,
        write: None,
        journal: None,
        bench: false,
        bench_season: false,
        limit: None,
    };
    let mut arguments = std::env::args().skip(1);
    while let Some(name) = arguments.next() {
        if name == "--bench" || name == "--bench-season" {
            options.bench |= name == "--bench";
            options.bench_season |= name == "--bench-season";
            continue;
        }
        let value = arguments.next().ok_or(format!("{name} needs a value"))?;
        let number = || value.parse::<u64>().map_err(|_| format!("{name}: {value} is no number"));
        match name.as_str() {
            "--seed" if value == "clock" => options.seed = clock(),
            "--seed" => options.seed = number()?,
            "--calls" => options.calls = number()?,
            "--lists" => options.lists = number()?,
            "--list" => options.list = Some(number()?),
            "--write" => options.write = Some(number()?),
            "--journal" => options.journal = Some(value),
            "--limit" => options.limit = Some(number()?),
            _ => return Err(format!("{name} is not known")),
        }
    }
    Ok(options)
}

fn clock() -> u64 {
    let since = std::time::SystemTime::now().duration_since(std::time::UNIX_EPOCH);
    since.map_or(0, |time| time.as_nanos() as u64)
}

/// The sides compared with the judge, besides the ledger and polyfit.
fn further_sides() -> Vec<Box<dyn Side>> {
    vec![Box::new(Port)]
}

fn print_list(list: &List) {
    println!("contents {:#x}", list.contents);
    for (at, step) in list.steps.iter().enumerate() {
        println!("{at}:\n{step}");
    }
}

/// Shrinks a failing list and prints it.
fn print_failure(list: &List, difference: &Difference, sides: &[&dyn Side]) {
    println!("step {}: {}", difference.step, difference.what);
    let outcome = |list: &List| run(list, sides, &mut Coverage::default());
    let smallest = shrink::shrink(list, |list| outcome(list).is_err());
    println!("shrunk to:");
    print_list(&smallest);
    if let Err(difference) = outcome(&smallest) {
        println!("step {}: {}", difference.step, difference.what);
    }
}

/// The same of a list of groups.
fn print_groups(course: &Course, difference: &Difference, sides: &[&dyn Side]) {
    println!("step {}: {}", difference.step, difference.what);
    let outcome = |course: &Course| groups::run(course, sides, &mut Coverage::default());
    let smallest = groups::smaller(course, |course| outcome(course).is_err());
    println!("shrunk to:\n{smallest}");
    if let Err(difference) = outcome(&smallest) {
        println!("step {}: {}", difference.step, difference.what);
    }
}

/// Shrinks a list that differs from its mirror image, and prints it as text.
fn print_mirrored(course: &Course, side: &dyn Side) {
    let outcome = |course: &Course| mirror::run(course, side, &mut Coverage::default());
    let smallest = groups::smaller(course, |course| outcome(course).is_err());
    println!(
        "shrunk to, on memory of contents {:#x}:\n{}",
        smallest.contents,
        text::course(&smallest)
    );
    if let Err(difference) = outcome(&smallest) {
        println!("step {}: {}", difference.step, difference.what);
    }
}

/// The same of a list of a season's stakes.
fn print_season(list: &List, difference: &Difference, sides: &[&dyn Side]) {
    println!("step {}: {}", difference.step, difference.what);
    let outcome = |list: &List| season::run(list, sides, &mut Coverage::default());
    let smallest = shrink::shrink(list, |list| outcome(list).is_err());
    println!("shrunk to:");
    print_list(&smallest);
    if let Err(difference) = outcome(&smallest) {
        println!("step {}: {}", difference.step, difference.what);
    }
}

/// The list beside its mirror image, by the judge and by the other sides; false at a difference.
fn mirrored(course: &Course, sides: &[&dyn Side], coverage: &mut Coverage) -> bool {
    let (judge, start): (&dyn Side, _) = (&Judge, Instant::now());
    for side in std::iter::once(&judge).chain(sides) {
        if let Err(difference) = mirror::run(course, *side, coverage) {
            println!("step {}: {}", difference.step, difference.what);
            print_mirrored(course, *side);
            return false;
        }
    }
    coverage.mirror_seconds += start.elapsed().as_secs_f64();
    true
}

/// The list of calls on a book of this number, and of every fourth a list of surfaces. They are drawn apart,
/// so that the books of a seed are what they are without surfaces.
fn lists(seed: u64, number: u64) -> Vec<List> {
    let mut lists = vec![generate::list(seed, number)];
    if number % 4 == 0 {
        lists.push(surface::list(seed, number / 4));
    }
    lists
}

/// Runs lists until enough calls were judged by polyfit and enough lists run; false at a difference.
fn run_all(options: &Options, sides: &[&dyn Side], coverage: &mut Coverage) -> bool {
    let mut number = 0;
    while coverage.by_reference < options.calls || number < options.lists {
        for list in lists(options.seed, number) {
            if let Err(difference) = run(&list, sides, coverage) {
                println!("seed {}, list {number}: DIFFERENCE", options.seed);
                print_failure(&list, &difference, sides);
                return false;
            }
            if number < mirror::LISTS && !mirrored(&mirror::course(&list), sides, coverage) {
                println!("seed {}, list {number}, mirror image: DIFFERENCE", options.seed);
                return false;
            }
        }
        if number % 8 == 2 {
            let course = groups::course(options.seed, number / 8);
            if let Err(difference) = groups::run(&course, sides, coverage) {
                println!("seed {}, list {number}, groups: DIFFERENCE", options.seed);
                print_groups(&course, &difference, sides);
                return false;
            }
            if number < mirror::LISTS && !mirrored(&course, sides, coverage) {
                println!("seed {}, list {number}, groups, mirror image: DIFFERENCE", options.seed);
                return false;
            }
        }
        if number % 16 == 6 {
            let list = season::list(options.seed, number / 16);
            let start = Instant::now();
            if let Err(difference) = season::run(&list, sides, coverage) {
                println!("seed {}, list {number}, season: DIFFERENCE", options.seed);
                print_season(&list, &difference, sides);
                return false;
            }
            coverage.season_seconds += start.elapsed().as_secs_f64();
        }
        number += 1;
    }
    println!("{number} lists");
    true
}

/// Runs one list.
fn run_list(list: &List, sides: &[&dyn Side]) -> ExitCode {
    let mut coverage = Coverage::default();
    if season::is_glacier(list) {
        if let Err(difference) = season::run(list, sides, &mut coverage) {
            print_season(list, &difference, sides);
            return ExitCode::FAILURE;
        }
    } else if let Err(difference) = run(list, sides, &mut coverage) {
        print_failure(list, &difference, sides);
        return ExitCode::FAILURE;
    }
    let (calls, by_reference) = (coverage.calls, coverage.by_reference);
    println!("{calls} calls, {by_reference} of them judged by polyfit: no difference");
    ExitCode::SUCCESS
}

/// Runs the calls of a text.
fn run_journal(path: &str, sides: &[&dyn Side]) -> ExitCode {
    match std::fs::read(path) {
        Ok(text) => run_list(&text::list_of(&text), sides),
        Err(error) => {
            eprintln!("{path}: {error}");
            ExitCode::FAILURE
        }
    }
}

/// Holds the limit against the port on so many books, long ones too, and against judge and polyfit on as many lists.
fn verify_limit(books: u64, seed: u64) -> ExitCode {
    if !limit::THERE {
        eprintln!("the limit was not compiled: there was no g++");
        return ExitCode::FAILURE;
    }
    match limit::verify(books, seed) {
        Ok(compared) => println!("{}", compared.line()),
        Err(what) => {
            println!("DIFFERENCE: {what}");
            return ExitCode::FAILURE;
        }
    }
    for number in 0..books {
        let (list, mut coverage) = (generate::list(seed, number), Coverage::default());
        if let Err(difference) = run(&list, &[&limit::Limited], &mut coverage) {
            println!("seed {seed}, list {number}, step {}: {}", difference.step, difference.what);
            return ExitCode::FAILURE;
        }
    }
    println!("{books} lists with the limit's calls for the port's: no difference");
    ExitCode::SUCCESS
}

fn main() -> ExitCode {
    let options = match options() {
        Ok(options) => options,
        Err(message) => {
            eprintln!("{message}");
            return ExitCode::FAILURE;
        }
    };
    if let Some(calls) = options.write {
        print!("{}", text::write(options.seed, calls));
        return ExitCode::SUCCESS;
    }
    let sides = further_sides();
    let sides: Vec<&dyn Side> = sides.iter().map(AsRef::as_ref).collect();
    if options.bench {
        bench::run();
        return ExitCode::SUCCESS;
    }
    if options.bench_season {
        bench::print_season();
        return ExitCode::SUCCESS;
    }
    if let Some(books) = options.limit {
        return verify_limit(books, options.seed);
    }
    if let Some(path) = &options.journal {
        return run_journal(path, &sides);
    }
    println!("seed {}", options.seed);
    if let Some(number) = options.list {
        for list in lists(options.seed, number) {
            print_list(&list);
            if run_list(&list, &sides) == ExitCode::FAILURE {
                return ExitCode::FAILURE;
            }
        }
        return ExitCode::SUCCESS;
    }
    let mut coverage = Coverage::default();
    let start = Instant::now();
    let same = run_all(&options, &sides, &mut coverage);
    finish(&coverage, same, start)
}

/// Prints what was covered; succeeds with no difference and nothing missing.
fn finish(coverage: &Coverage, same: bool, start: Instant) -> ExitCode {
    coverage.print();
    let missing = coverage.missing();
    for key in &missing {
        println!("NEVER HAPPENED: {key}");
    }
    let (mirrored, seconds) = (coverage.mirrored, coverage.mirror_seconds);
    println!("{mirrored} calls beside those of mirror images, in {seconds:.1} s of it");
    let (calls, seconds) = (coverage.season_calls, coverage.season_seconds);
    println!("{calls} calls of seasons beside books of their stakes, in {seconds:.1} s of it");
    println!(
        "{} calls, {} of them judged by polyfit, in {:.1} s: {} difference, {} never happened",
        coverage.calls,
        coverage.by_reference,
        start.elapsed().as_secs_f64(),
        if same { "no" } else { "a" },
        missing.len(),
    );
    if same && missing.is_empty() {
        ExitCode::SUCCESS
    } else {
        ExitCode::FAILURE
    }
}
