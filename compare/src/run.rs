//! Runs a list of calls: the judge on its own memory, and beside it the plain ledger, polyfit, and
//! every other side on memory of its own; then its calls as one replay, its changes on a book of two columns,
//! and all of it on a book that is carried over from two columns to three. Ends at the first difference.

use journal::{Answer, Buffers, Call, Judge, Memory, Port, Side};
use judge::book::{answer_of, answer_of_scores, answer_of_split, ScoresAnswer};
use judge::fit::{Losses, Report, Scores, Settings};
use judge::groups::{GROUPS, TABLE};
use judge::ledger::Ledger;
use judge::numbers::bits;
use judge::refusals;
use judge::split::{breaks, SideFit, Split};
use judge::sums::{folded_afresh, PLACES, TERMS};
use judge::surface::SURFACE_TERMS;
use judge::Sample;

use crate::call::{conditions, List, Poke, Step};
use crate::carry::{self, Caller};
use crate::coverage::{Coverage, Seen};
use crate::groups::{group_of, is_group, without_group};
use crate::memory::{difference, filled, first_difference, poke, samples, sites};
use crate::surface::is_surface;
use crate::{lines, reference, replay, two_column};

/// Where two sides differ.
#[derive(Debug, Clone)]
pub struct Difference {
    pub step: usize,
    pub what: String,
}

/// The ledger, and the columns as it says they are.
struct LedgerState {
    ledger: Ledger,
    x: Vec<f64>,
    y: Vec<f64>,
    weight: Vec<f64>,
}

/// A book by the judge, and beside it by the other sides, each on memory of its own.
pub struct Run<'a> {
    pub sides: Vec<(&'a dyn Side, Memory)>,
    pub memory: Memory,
    pub count: usize,
    /// From a book just opened, until someone else writes the book's memory.
    ledger_state: Option<LedgerState>,
}

/// Runs the list; notes in the coverage what happened, by the judge.
pub fn run(list: &List, others: &[&dyn Side], coverage: &mut Coverage) -> Result<(), Difference> {
    let mut run = Run::new(filled(list), others);
    for (at, step) in list.steps.iter().enumerate() {
        let stepped = run.step(step, &mut |seen| coverage.note_call(seen));
        stepped.map_err(|what| Difference { step: at, what })?;
    }
    // A surface keeps no book, and a group's calls no record: nothing of them is replayed or carried over.
    if list.steps.iter().any(|step| is_surface(&step.call) || is_group(&step.call)) {
        return Ok(());
    }
    let past = list.steps.len();
    let at_end = |what| Difference { step: past, what };
    replay::check(list, Buffers::replay, coverage).map_err(at_end)?;
    two_column::check(list, two_column::port, coverage).map_err(at_end)?;
    let port = Caller { two_column: two_column::port, side: &Port };
    carry::check(list, port, coverage).map_err(at_end)
}

impl<'a> Run<'a> {
    pub fn new(memory: Memory, others: &[&'a dyn Side]) -> Self {
        let sides = others.iter().map(|side| (*side, memory.clone())).collect();
        Self { sides, memory, count: 0, ledger_state: None }
    }

    /// The ledger, while the book is as the calls left it.
    pub fn ledger(&self) -> Option<&Ledger> {
        self.ledger_state.as_ref().map(|state| &state.ledger)
    }

    /// Makes a call by all sides, and lets what was seen of it be noted. Answers what the judge answers.
    pub fn step(&mut self, step: &Step, note: &mut dyn FnMut(&Seen)) -> Result<Answer, String> {
        self.disturb(step);
        let count = step.count.unwrap_or(self.count);
        let samples = samples(&self.memory, &step.lengths, count);
        let sites = match is_surface(&without_group(&step.call)) {
            true => sites(&self.memory, &step.lengths, count),
            false => Vec::new(),
        };
        let conditions = conditions(&step.call, &step.lengths, count, (&samples, &sites));
        let own_sums = self.sums_are_folded(&samples);
        let before = self.memory.clone();
        let answer = Judge.make(&step.call, count, self.memory.lend(&step.lengths));

        check_writes(&step.call, &answer, count, &before, &self.memory)?;
        check_parsed(&step.call, &answer, count, &self.memory)?;
        self.check_ledger(step, &answer)?;
        // A split does not read the lent sums.
        let plain = without_group(&step.call);
        let judged_sums = own_sums || matches!(*plain, Call::Split { .. });
        let judged = judged_sums && is_reading(&step.call) && passes_nine(&answer);
        // polyfit has no surface.
        let by_reference = judged && !is_surface(&plain);
        if by_reference {
            check_cost(&step.call, &answer, &samples, (&before, &self.memory))?;
            check_reference(&plain, &answer, &samples, &self.memory)?;
        }
        self.check_sides(step, count, &answer)?;
        if let Answer::Book(count) = answer {
            self.count = count;
        }
        let (lengths, call, memory) = (&step.lengths, &step.call, &self.memory);
        let seen = Seen {
            call,
            lengths,
            count,
            samples,
            sites,
            conditions,
            answer,
            before: &before,
            memory,
            own_sums,
            by_reference,
        };
        note(&seen);
        Ok(seen.answer)
    }

    /// What someone else does before the call.
    fn disturb(&mut self, step: &Step) {
        for &written in &step.pokes {
            poke(&mut self.memory, written);
            for (_, memory) in &mut self.sides {
                poke(memory, written);
            }
        }
        if step.count.is_some() || step.pokes.iter().any(Poke::is_the_books) {
            self.ledger_state = None;
        }
    }

    fn sums_are_folded(&self, samples: &[Sample]) -> bool {
        let sums = &self.memory.sums;
        let length = PLACES.min(sums.len());
        first_difference("sums", &sums[..length], &folded_afresh(samples)).is_none()
    }

    fn check_sides(&mut self, step: &Step, count: usize, answer: &Answer) -> Result<(), String> {
        for (side, memory) in &mut self.sides {
            let theirs = side.make(&step.call, count, memory.lend(&step.lengths));
            if !same_answer(answer, &theirs) {
                return Err(format!("judge answers {answer:?}, {} {theirs:?}", side.name()));
            }
            if let Some(difference) = difference(&self.memory, memory) {
                return Err(format!("judge and {}: {difference}", side.name()));
            }
        }
        Ok(())
    }

    /// Demand 3, for the judge: answers, book, columns and sums are the ledger's.
    fn check_ledger(&mut self, step: &Step, answer: &Answer) -> Result<(), String> {
        if step.call == Call::Open && *answer == Answer::Book(0) {
            let (x, y) = (self.memory.x.clone(), self.memory.y.clone());
            let (ledger, weight) = (Ledger::default(), self.memory.weight.clone());
            self.ledger_state = Some(LedgerState { ledger, x, y, weight });
        }
        if step.call == Call::Carry && matches!(answer, Answer::Book(_)) {
            let unweighted = |s: &LedgerState| s.ledger.samples.iter().all(|s| s.weight == 1.0);
            self.ledger_state = self.ledger_state.take().filter(unweighted);
        }
        match &mut self.ledger_state {
            Some(ledger_state) => ledger_state.follow(step, answer, &self.memory),
            None => Ok(()),
        }
    }
}

impl LedgerState {
    fn follow(&mut self, step: &Step, answer: &Answer, memory: &Memory) -> Result<(), String> {
        let lengths = &step.lengths;
        let ledger = &mut self.ledger;
        let result = match &step.call {
            Call::Open => ledger.open(lengths),
            Call::Add(sample) => ledger.add(lengths, *sample),
            Call::AddWindow(sample) => ledger.add_window(lengths, *sample),
            Call::Correct { index, y } => ledger.correct(lengths, *index, *y),
            Call::Withdraw { index } => ledger.withdraw(lengths, *index),
            Call::AddFrame(frame) => ledger.add_frame(lengths, frame),
            Call::AddLines(text) => ledger.add_lines(lengths, text),
            // A book with weights of 1 stays as it is; of any other the ledger knows no more.
            Call::Carry => {
                let count = ledger.samples.len();
                refusals::judged(&refusals::carry(lengths, count)).map(|()| count)
            }
            Call::Report(settings) => {
                let report = ledger.report(lengths, *settings);
                return check_report("ledger", report, answer, memory);
            }
            Call::Split { limit, settings } => {
                let split = ledger.split(lengths, *settings, *limit);
                return check_split("ledger", split, answer, memory);
            }
            Call::Losses(settings) => {
                let losses = ledger.losses(lengths, *settings);
                return check_losses("ledger", losses, answer, memory);
            }
            Call::Scores(settings) => {
                let scores = ledger.scores(lengths, *settings);
                return check_told_scores("ledger", scores, answer, memory);
            }
            _ => return Ok(()),
        };
        let expected = result.map_or_else(Answer::Refused, Answer::Book);
        if !same_answer(answer, &expected) {
            return Err(format!("judge answers {answer:?}, ledger {expected:?}"));
        }
        self.check_state(memory)
    }

    /// Columns below the count are the ledger's; those past it keep what they held.
    fn check_state(&mut self, memory: &Memory) -> Result<(), String> {
        for (i, sample) in self.ledger.samples.iter().enumerate() {
            self.x[i] = sample.x;
            self.y[i] = sample.y;
            self.weight[i] = sample.weight;
        }
        let pairs = [
            ("ledger's x", &self.x[..], &memory.x[..]),
            ("ledger's y", &self.y[..], &memory.y[..]),
            ("ledger's weights", &self.weight[..], &memory.weight[..]),
            ("ledger's sums", &self.ledger.sums()[..], &memory.sums[..PLACES]),
        ];
        let difference = pairs.iter().find_map(|(name, a, b)| first_difference(name, a, b));
        difference.map_or(Ok(()), Err)
    }
}

/// Readings that were added, against the platform's own parser.
fn check_parsed(call: &Call, answer: &Answer, count: usize, memory: &Memory) -> Result<(), String> {
    if let (Call::AddLines(text), Answer::Book(new)) = (call, answer) {
        let (xs, ys) = (&memory.x[count..*new], &memory.y[count..*new]);
        if let Some(difference) = lines::parsed_otherwise(text, xs, ys) {
            return Err(format!("judge and the platform's parser: {difference}"));
        }
    }
    Ok(())
}

pub fn is_reading(call: &Call) -> bool {
    let settled = matches!(call, Call::Report(_) | Call::Split { .. });
    let told = matches!(call, Call::Losses(_) | Call::Scores(_));
    let single = matches!(call, Call::Fit { .. } | Call::Validate { .. } | Call::Band { .. });
    settled || told || single || is_surface(call) || group_of(call).is_some()
}

/// Not refused, or of a call that reads refused by 10, 11, 12 or 16.
pub fn passes_nine(answer: &Answer) -> bool {
    !matches!(answer, Answer::Refused(1..=9 | 17))
}

fn same_number(a: f64, b: f64) -> bool {
    bits(a) == bits(b)
}

/// Equal answers, NaNs as one value.
pub fn same_answer(a: &Answer, b: &Answer) -> bool {
    match (a, b) {
        (
            Answer::Band { value, lower, upper },
            Answer::Band { value: value2, lower: lower2, upper: upper2 },
        ) => {
            same_number(*value, *value2)
                && same_number(*lower, *lower2)
                && same_number(*upper, *upper2)
        }
        (
            Answer::Split { b, degrees, tests, total },
            Answer::Split { b: b2, degrees: degrees2, tests: tests2, total: total2 },
        ) => (b, degrees, tests) == (b2, degrees2, tests2) && same_number(*total, *total2),
        (
            Answer::Losses { degree, total, score },
            Answer::Losses { degree: degree2, total: total2, score: score2 },
        ) => degree == degree2 && same_number(*total, *total2) && same_number(*score, *score2),
        (
            Answer::Scores { degree, bound, solved, tests, least },
            Answer::Scores {
                degree: degree2,
                bound: bound2,
                solved: solved2,
                tests: tests2,
                least: least2,
            },
        ) => {
            (degree, bound, solved, tests) == (degree2, bound2, solved2, tests2)
                && same_number(*least, *least2)
        }
        (Answer::Samples(a), Answer::Samples(b)) => {
            let same = |(a, b): (&Sample, &Sample)| {
                same_number(a.x, b.x) && same_number(a.y, b.y) && same_number(a.weight, b.weight)
            };
            a.len() == b.len() && a.iter().zip(b).all(same)
        }
        _ => a == b,
    }
}

/// A report as answered and written, against one that was worked out.
pub fn check_report(
    name: &str,
    report: Result<Report, u8>,
    answer: &Answer,
    memory: &Memory,
) -> Result<(), String> {
    let report = match report {
        Ok(report) => report,
        Err(number) if *answer == Answer::Refused(number) => return Ok(()),
        Err(number) => return Err(format!("judge answers {answer:?}, {name} refuses by {number}")),
    };
    let a = answer_of(&report);
    let expected = Answer::Report {
        degree: a.degree,
        solved: a.solved,
        outliers: a.outliers,
        pruned: a.pruned,
    };
    if *answer != expected {
        return Err(format!("judge answers {answer:?}, {name} {expected:?}"));
    }
    check_report_places(name, &report, memory)
}

/// Losses as answered and written, against those that were worked out.
fn check_losses(
    name: &str,
    losses: Result<Losses, u8>,
    answer: &Answer,
    memory: &Memory,
) -> Result<(), String> {
    let (expected, losses) = match losses {
        Ok(Losses { degree, losses, total, score }) => {
            (Answer::Losses { degree, total, score }, losses)
        }
        Err(number) => (Answer::Refused(number), Vec::new()),
    };
    if !same_answer(answer, &expected) {
        return Err(format!("judge answers {answer:?}, {name} {expected:?}"));
    }
    let difference = first_difference("losses", &memory.losses[..losses.len()], &losses);
    difference.map_or(Ok(()), |text| Err(format!("judge and {name}: {text}")))
}

/// Scores as answered and written, against those that were worked out.
fn check_told_scores(
    name: &str,
    scores: Result<Scores, u8>,
    answer: &Answer,
    memory: &Memory,
) -> Result<(), String> {
    let expected = match scores.as_ref().map(answer_of_scores) {
        Ok(ScoresAnswer { degree, bound, solved, least, tests }) => {
            Answer::Scores { degree, bound, solved, tests, least }
        }
        Err(number) => Answer::Refused(*number),
    };
    if !same_answer(answer, &expected) {
        return Err(format!("judge answers {answer:?}, {name} {expected:?}"));
    }
    let Ok(scores) = scores else { return Ok(()) };
    let of = |degree: usize| scores.scores.get(degree).copied().flatten();
    let marks: Vec<u8> = (0..TERMS).map(|degree| u8::from(of(degree).is_some())).collect();
    if memory.solved[..TERMS] != marks {
        let ours = &memory.solved[..TERMS];
        return Err(format!("solved degrees: judge {ours:?}, {name} {marks:?}"));
    }
    let values: Vec<f64> = (0..TERMS).map(|degree| of(degree).unwrap_or(0.0)).collect();
    let difference = first_difference("scores", &memory.scores[..TERMS], &values);
    difference.map_or(Ok(()), |text| Err(format!("judge and {name}: {text}")))
}

/// The losses against polyfit's; its mean loss, which it makes its score of, is the total over n.
fn check_reference_losses(
    samples: &[Sample],
    settings: Settings,
    answer: &Answer,
    memory: &Memory,
) -> Result<(), String> {
    let (losses, mean) = match reference::losses(samples, settings) {
        Ok((losses, mean)) => (Ok(losses), Some(mean)),
        Err(number) => (Err(number), None),
    };
    check_losses("polyfit", losses, answer, memory)?;
    if let (Some(mean), Answer::Losses { total, .. }) = (mean, answer) {
        let ours = total / samples.len() as f64;
        if !same_number(ours, mean) {
            return Err(format!("the mean loss is {ours:?}, of polyfit {mean:?}"));
        }
    }
    Ok(())
}

fn check_report_places(name: &str, report: &Report, memory: &Memory) -> Result<(), String> {
    let n = report.bands.len();
    let lower: Vec<f64> = report.bands.iter().map(|band| band.lower).collect();
    let upper: Vec<f64> = report.bands.iter().map(|band| band.upper).collect();
    let numbers = [
        ("coefficients", &memory.coefficients[..TERMS], terms(&report.coefficients)),
        ("errors", &memory.errors[..TERMS], terms(&report.errors)),
        ("lower", &memory.lower[..n], lower),
        ("upper", &memory.upper[..n], upper),
    ];
    for (places, judges, theirs) in &numbers {
        if let Some(difference) = first_difference(places, judges, theirs) {
            return Err(format!("judge and {name}: {difference}"));
        }
    }
    let mut pruned = vec![0; TERMS];
    for (j, marked) in report.pruned.iter().enumerate() {
        pruned[j] = u8::from(*marked);
    }
    let outlier: Vec<u8> = report.outliers.iter().map(|marked| u8::from(*marked)).collect();
    if memory.pruned[..TERMS] != pruned || memory.outlier[..n] != outlier {
        return Err(format!("judge and {name}: pruned or outlier marks differ"));
    }
    Ok(())
}

/// A split as answered and written, against one that was worked out.
pub fn check_split(
    name: &str,
    split: Result<Split, u8>,
    answer: &Answer,
    memory: &Memory,
) -> Result<(), String> {
    let expected = match split.as_ref().map(answer_of_split) {
        Ok(a) => {
            let degrees = (a.degree_before, a.degree_after);
            Answer::Split { b: a.b, degrees, tests: a.tests, total: a.total }
        }
        Err(number) => Answer::Refused(*number),
    };
    if !same_answer(answer, &expected) {
        return Err(format!("judge answers {answer:?}, {name} {expected:?}"));
    }
    let split = match split {
        Ok(split) => split,
        Err(_) => return Ok(()),
    };
    let places = [("before", &memory.before, split.before), ("after", &memory.after, split.after)];
    for (word, written, theirs) in places {
        let theirs = terms(&theirs.coefficients);
        if let Some(difference) = first_difference(word, &written[..TERMS], &theirs) {
            return Err(format!("judge and {name}: {difference}"));
        }
    }
    Ok(())
}

/// Every break's sides and pivot tests, most of which no answer shows.
fn check_breaks(
    samples: &[Sample],
    settings: judge::fit::Settings,
    theirs: &[judge::split::Break],
) -> Result<(), String> {
    let numbers = |side: &Option<SideFit>| {
        let numbers = |side: &SideFit| [&[side.score][..], &side.coefficients].concat();
        side.as_ref().map_or_else(Vec::new, numbers)
    };
    let ours = breaks(samples, settings);
    if ours.len() != theirs.len() {
        return Err(format!("judge has {} breaks, polyfit {}", ours.len(), theirs.len()));
    }
    for (mine, other) in ours.iter().zip(theirs) {
        if (mine.b, mine.tests) != (other.b, other.tests) {
            return Err(format!("a break: judge {mine:?}, polyfit {other:?}"));
        }
        for (mine, other) in [(&mine.before, &other.before), (&mine.after, &other.after)] {
            if let Some(difference) = first_difference("side", &numbers(mine), &numbers(other)) {
                return Err(format!("judge and polyfit, score and coefficients: {difference}"));
            }
        }
    }
    Ok(())
}

/// 16 places, +0 from k on.
fn terms(values: &[f64]) -> Vec<f64> {
    let mut places = values.to_vec();
    places.resize(TERMS, 0.0);
    places
}

/// What a group's call cost, against the pivots that polyfit's shim compared for it. At 16 it would have
/// cost more than there is.
fn check_cost(
    call: &Call,
    answer: &Answer,
    samples: &[Sample],
    (before, after): (&Memory, &Memory),
) -> Result<(), String> {
    let (group, settings) = match call {
        Call::GroupReport { group, settings } | Call::GroupSplit { group, settings } => {
            (*group, *settings)
        }
        _ => return Ok(()),
    };
    let cost = match call {
        Call::GroupReport { .. } => reference::choice_tests(samples, settings),
        _ => reference::breaks(samples, settings).iter().map(|at| at.tests).sum(),
    };
    let (counter, left) = (before.table[group], after.table[group]);
    let expected = counter.checked_sub(cost);
    let refused = *answer == Answer::Refused(16);
    if refused != expected.is_none() || left != expected.unwrap_or(counter) {
        return Err(format!("judge answers {answer:?} with {counter} before and {left} left, polyfit compares {cost} pivots"));
    }
    Ok(())
}

/// The judge against polyfit. Of a group's call that 16 refused there is nothing more to see.
fn check_reference(
    call: &Call,
    answer: &Answer,
    samples: &[Sample],
    memory: &Memory,
) -> Result<(), String> {
    match call {
        Call::Report(_) | Call::Split { limit: usize::MAX, .. }
            if *answer == Answer::Refused(16) =>
        {
            Ok(())
        }
        Call::Fit { degree } => {
            let fit = reference::fit(samples, *degree).map(|values| (*degree, values));
            check_fit(fit, answer, memory)
        }
        Call::Validate { folds, bound, criterion } => {
            let fit = reference::validate(samples, *folds, *bound, *criterion);
            check_fit(fit, answer, memory)
        }
        Call::Report(settings) => {
            let report = reference::report(samples, *settings);
            check_report("polyfit", report, answer, memory)?;
            check_scores(samples, *settings)
        }
        Call::Split { limit, settings } => {
            let breaks = reference::breaks(samples, *settings);
            check_breaks(samples, *settings, &breaks)?;
            check_split("polyfit", reference::split(breaks, *limit), answer, memory)
        }
        Call::Losses(settings) => check_reference_losses(samples, *settings, answer, memory),
        Call::Scores(settings) => {
            // polyfit has no pivot tests: those that are answered.
            let counted = if let Answer::Scores { tests, .. } = answer { *tests } else { 0 };
            let scores = reference::scores_by_degree(samples, *settings);
            let scores = scores.map(|scores| Scores { tests: counted, ..scores });
            check_told_scores("polyfit", scores, answer, memory)
        }
        Call::Band { x, degree, confidence, tolerance } => {
            let band = reference::band(samples, (*x, *degree), *confidence, *tolerance);
            let expected = match band {
                Ok(b) => Answer::Band { value: b.value, lower: b.lower, upper: b.upper },
                Err(number) => Answer::Refused(number),
            };
            if same_answer(answer, &expected) {
                return Ok(());
            }
            Err(format!("judge answers {answer:?}, polyfit {expected:?}"))
        }
        _ => Ok(()),
    }
}

/// A single fit as answered and written, against polyfit's.
fn check_fit(
    fit: Result<(usize, Vec<f64>), u8>,
    answer: &Answer,
    memory: &Memory,
) -> Result<(), String> {
    let (expected, coefficients) = match fit {
        Ok((degree, coefficients)) => (Answer::Degree(degree), Some(coefficients)),
        Err(number) => (Answer::Refused(number), None),
    };
    if *answer != expected {
        return Err(format!("judge answers {answer:?}, polyfit {expected:?}"));
    }
    let written = &memory.coefficients[..TERMS];
    let difference =
        coefficients.and_then(|theirs| first_difference("coefficients", written, &terms(&theirs)));
    difference.map_or(Ok(()), |text| Err(format!("judge and polyfit: {text}")))
}

/// Every degree's score, which no answer shows.
fn check_scores(samples: &[Sample], settings: Settings) -> Result<(), String> {
    let bound = judge::statistics::max_degree(settings.bound, samples.len());
    let sums = folded_afresh(samples);
    let ours = judge::fit::scores(samples, &sums, bound, settings.criterion);
    let theirs = reference::scores(samples, settings.bound, settings.criterion);
    if ours.iter().map(Option::is_some).ne(theirs.iter().map(Option::is_some)) {
        return Err(format!("solved degrees: judge {ours:?}, polyfit {theirs:?}"));
    }
    let numbers = |scores: &[Option<f64>]| scores.iter().flatten().copied().collect::<Vec<f64>>();
    let difference = first_difference("scores", &numbers(&ours), &numbers(&theirs));
    difference.map_or(Ok(()), |text| Err(format!("judge and polyfit: {text}")))
}

/// Whatever document 01 does not let the call write is as it was; scratch is as it says.
fn check_writes(
    call: &Call,
    answer: &Answer,
    count: usize,
    before: &Memory,
    after: &Memory,
) -> Result<(), String> {
    let mut expected = before.clone();
    if is_reading(call) && passes_nine(answer) {
        expected.scratch[..count].fill(0.0);
    }
    copy_table_places(call, answer, &mut expected, after);
    match answer {
        Answer::Refused(_) | Answer::Done | Answer::Band { .. } | Answer::Samples(_) => {}
        // Of a list of its own.
        Answer::Season { .. } => {}
        Answer::Book(new_count) => copy_book_places(call, count, *new_count, &mut expected, after),
        Answer::Degree(_) => {
            let terms = places_of_terms(call);
            expected.coefficients[..terms].copy_from_slice(&after.coefficients[..terms]);
        }
        Answer::Report { .. } => {
            copy_report_places(places_of_terms(call), count, &mut expected, after)
        }
        Answer::Split { .. } => {
            expected.before[..TERMS].copy_from_slice(&after.before[..TERMS]);
            expected.after[..TERMS].copy_from_slice(&after.after[..TERMS]);
        }
        Answer::Losses { .. } => expected.losses[..count].copy_from_slice(&after.losses[..count]),
        Answer::Scores { .. } => {
            expected.solved[..TERMS].copy_from_slice(&after.solved[..TERMS]);
            expected.scores[..TERMS].copy_from_slice(&after.scores[..TERMS]);
        }
    }
    match difference(&expected, after) {
        Some(difference) => Err(format!("written outside the call's places: {difference}")),
        None => Ok(()),
    }
}

/// The places that a call on the book may change.
fn copy_book_places(
    call: &Call,
    count: usize,
    new_count: usize,
    expected: &mut Memory,
    after: &Memory,
) {
    // A weight is written where an x is, but for a carry.
    if *call == Call::Carry {
        expected.weight[..count].fill(1.0);
    }
    let (x, y, sums) = match call {
        Call::Open => (0..0, 0..0, 0..PLACES),
        Call::Carry => (0..0, 0..0, 0..0),
        Call::Correct { index, .. } => (0..0, *index..*index + 1, PLACES - TERMS..PLACES),
        Call::Withdraw { index } => (*index..new_count, *index..new_count, 0..PLACES),
        // A full window.
        Call::AddWindow(_) if new_count == count => (0..count, 0..count, 0..PLACES),
        _ => (count..new_count, count..new_count, 0..PLACES),
    };
    expected.x[x.clone()].copy_from_slice(&after.x[x.clone()]);
    expected.weight[x.clone()].copy_from_slice(&after.weight[x]);
    expected.y[y.clone()].copy_from_slice(&after.y[y]);
    expected.sums[sums.clone()].copy_from_slice(&after.sums[sums]);
}

/// The places of the table that a call may change: the counter of its group, unless it is refused early
/// or by 16, or all.
fn copy_table_places(call: &Call, answer: &Answer, expected: &mut Memory, after: &Memory) {
    let places = match (call, answer) {
        (Call::Start { .. }, Answer::Done) => 0..TABLE,
        (Call::Renew, Answer::Done) => 0..GROUPS,
        _ => match group_of(call) {
            Some(group) if passes_nine(answer) && *answer != Answer::Refused(16) => {
                group..group + 1
            }
            _ => return,
        },
    };
    expected.table[places.clone()].copy_from_slice(&after.table[places]);
}

/// The places of coefficients, errors and pruned marks: 16, and 15 for a surface.
pub fn places_of_terms(call: &Call) -> usize {
    if is_surface(&without_group(call)) {
        SURFACE_TERMS
    } else {
        TERMS
    }
}

/// The places that a report may change.
fn copy_report_places(terms: usize, count: usize, expected: &mut Memory, after: &Memory) {
    expected.coefficients[..terms].copy_from_slice(&after.coefficients[..terms]);
    expected.errors[..terms].copy_from_slice(&after.errors[..terms]);
    expected.pruned[..terms].copy_from_slice(&after.pruned[..terms]);
    expected.lower[..count].copy_from_slice(&after.lower[..count]);
    expected.upper[..count].copy_from_slice(&after.upper[..count]);
    expected.outlier[..count].copy_from_slice(&after.outlier[..count]);
}
