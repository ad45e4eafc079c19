//! A list's adds, corrections, withdrawals and reports once more, from a book just opened: by the judge
//! call by call, and by another, which gets them as records in buffers and runs them in one call. Results,
//! book, columns, sums and every place of every window must be the same.

use journal::{Answer, Buffers, Call, Judge, Side};
use judge::frame::Reader;
use judge::lines;
use judge::refusals::Lengths;

use crate::call::{List, Step};
use crate::coverage::Coverage;
use crate::memory::{difference, filled_for};

/// Whoever runs the calls of the buffers: the book's count, or none where they hold no list of calls.
pub type Replays = fn(&mut Buffers) -> Option<usize>;

/// The most places of all windows of a memory; calls past them are left out.
const MOST_PLACES: usize = 1 << 17;

/// The ways in which buffers can be too short.
pub const WAYS: u64 = 12;

/// The calls of a step that a record can hold; samples of a frame or of lines are added one by one.
fn calls_of(step: &Step) -> Vec<Call> {
    match &step.call {
        Call::AddFrame(frame) => {
            let mut reader = match Reader::new(frame) {
                Ok(reader) => reader,
                Err(_) => return Vec::new(),
            };
            std::iter::from_fn(|| reader.next_sample()).map(Call::Add).collect()
        }
        Call::AddLines(text) => lines::samples(text).into_iter().map(Call::Add).collect(),
        call => vec![call.clone()],
    }
}

/// The longest window that a call of the list is lent.
fn width_of(list: &List) -> usize {
    let longest = |l: &Lengths| {
        let floats = l.scratch.max(l.coefficients).max(l.errors).max(l.lower).max(l.upper);
        floats.max(l.pruned).max(l.outlier)
    };
    list.steps.iter().map(|step| longest(&step.lengths)).max().unwrap_or(0)
}

/// The list as records, on memory that holds what its seed says, with the calls and what each is lent.
fn buffers_of(list: &List) -> (Buffers, Vec<(Call, Lengths)>) {
    let width = width_of(list);
    let mut calls = Vec::new();
    for step in &list.steps {
        calls.extend(calls_of(step).into_iter().map(|call| (call, step.lengths)));
    }
    let held = |call: &Call| {
        matches!(
            call,
            Call::Add(_) | Call::Correct { .. } | Call::Withdraw { .. } | Call::Report(_)
        )
    };
    calls.retain(|(call, _)| held(call));
    calls.truncate(MOST_PLACES / width.max(1));

    let first = list.steps.first().map(|step| step.lengths).unwrap_or_default();
    let places = width * calls.len();
    let lengths = Lengths {
        scratch: places,
        coefficients: places,
        errors: places,
        pruned: places,
        lower: places,
        upper: places,
        outlier: places,
        ..first
    };
    let memory = filled_for(list.contents, &lengths);
    let mut buffers = Buffers::new(memory, lengths, width);
    for (call, lent) in &calls {
        assert!(buffers.push(call, lent), "no record holds {call:?}");
    }
    (buffers, calls)
}

/// The first difference between two replays.
fn first_of(mine: &Buffers, theirs: &Buffers) -> Option<String> {
    let pairs = mine.results.iter().zip(&theirs.results).enumerate();
    let result = pairs.into_iter().find(|(_, (mine, theirs))| mine != theirs);
    if let Some((at, (mine, theirs))) = result {
        return Some(format!("result {} of call {}: {mine} and {theirs}", at % 5, at / 5));
    }
    difference(&mine.memory, &theirs.memory)
}

/// Runs the list's calls by the judge and by the other.
pub fn check(list: &List, replays: Replays, coverage: &mut Coverage) -> Result<(), String> {
    let (mut mine, calls) = buffers_of(list);
    check_short(list, &mine, replays, coverage)?;
    let mut theirs = mine.clone();
    let count = replays(&mut theirs);

    let opened = Judge.make(&Call::Open, 0, mine.memory.lend(&mine.lengths.clone()));
    let expected = if opened == Answer::Book(0) {
        let mut count = 0;
        for (k, (call, lent)) in calls.iter().enumerate() {
            let answer = Judge.make(call, count, mine.lend(k, lent));
            if let Answer::Book(new) = answer {
                count = new;
            }
            mine.note(k, &answer);
            coverage.note_replayed(call, &answer);
        }
        Some(count)
    } else {
        None
    };
    if count != expected {
        return Err(format!("replayed: judge ends with {expected:?}, port with {count:?}"));
    }
    first_of(&mine, &theirs).map_or(Ok(()), |what| Err(format!("replayed: judge and port: {what}")))
}

/// Buffers that are one place too short: they are told, and nothing is written.
fn check_short(
    list: &List,
    buffers: &Buffers,
    replays: Replays,
    coverage: &mut Coverage,
) -> Result<(), String> {
    let way = list.contents % WAYS;
    let mut short = buffers.clone();
    if !short.shorten(way) {
        return Ok(());
    }
    coverage.note_malformed(way);
    let before = short.clone();
    if let Some(count) = replays(&mut short) {
        return Err(format!("replayed: buffers too short in way {way}: {count}"));
    }
    first_of(&before, &short).map_or(Ok(()), |what| Err(format!("malformed, and written: {what}")))
}
