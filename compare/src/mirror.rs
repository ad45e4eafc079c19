//! The mirror image (document 02, E13): lists of calls beside the same lists with the sign of every y turned, both
//! by one side. Call by call, what E13 and docs/COMPARISON.md say is compared. Any list will do: one of a book, of
//! surfaces or of groups, also where someone else writes a column or the sums, whose image is written then.

use std::collections::BTreeMap;

use journal::{Answer, Call, Memory, Side};
use judge::fit::{PruningRule, Settings};
use judge::lines;
use judge::numbers::bits;
use judge::statistics::Tolerance;
use judge::sums::{PLACES, TERMS};
use judge::Sample;

use crate::call::{name, List, Poke, Step};
use crate::coverage::{self, Coverage};
use crate::groups::{self, without_group, Course, Turn};
use crate::memory::{filled_for, first_difference, longest, poke};
use crate::run::{places_of_terms, same_answer, Difference};
use crate::surface;

/// So many numbers of lists have their images beside them.
pub const LISTS: u64 = 2048;

/// Where the sums of the y's stand.
const OF_Y: std::ops::Range<usize> = PLACES - TERMS..PLACES;

// ---- the image

fn turned(value: f64) -> f64 {
    f64::from_bits(value.to_bits() ^ 1 << 63)
}

fn sample_image(sample: Sample) -> Sample {
    Sample { y: turned(sample.y), ..sample }
}

/// The sign bit of every y, by the version's bytes a sample; of a frame that gets 2 or 3, wherever one would be.
fn frame_image(frame: &[u8]) -> Vec<u8> {
    let mut image = frame.to_vec();
    let bytes_a_sample = if frame.get(2) == Some(&2) { 24 } else { 16 };
    for byte in image.iter_mut().skip(3 + 8).step_by(bytes_a_sample) {
        *byte ^= 0x80;
    }
    image
}

/// A minus put in or taken out before each second reading. What follows no digit is left: it is no reading.
pub fn lines_image(text: &[u8]) -> Vec<u8> {
    let mut image = Vec::new();
    for line in lines::lines(text) {
        let second = line.iter().position(|&byte| byte == b' ').map_or(line.len(), |at| at + 1);
        let (first, second) = line.split_at(second);
        image.extend(first);
        match second {
            [b'-', b'0'..=b'9', ..] => image.extend(&second[1..]),
            [b'0'..=b'9', ..] => {
                image.push(b'-');
                image.extend(second);
            }
            _ => image.extend(second),
        }
    }
    image
}

fn call_image(call: &Call) -> Call {
    match call {
        Call::Add(sample) => Call::Add(sample_image(*sample)),
        Call::AddWindow(sample) => Call::AddWindow(sample_image(*sample)),
        Call::Correct { index, y } => Call::Correct { index: *index, y: turned(*y) },
        Call::AddFrame(frame) => Call::AddFrame(frame_image(frame)),
        Call::Reader(frame) => Call::Reader(frame_image(frame)),
        Call::AddLines(text) => Call::AddLines(lines_image(text)),
        _ => call.clone(),
    }
}

fn poke_image(poke: Poke) -> Poke {
    match poke {
        Poke::Y { at, value } => Poke::Y { at, value: turned(value) },
        Poke::Sums { at, value } if OF_Y.contains(&at) => Poke::Sums { at, value: turned(value) },
        _ => poke,
    }
}

fn turn_image(turn: &Turn) -> Turn {
    let Step { pokes, count, lengths, call } = &turn.step;
    let pokes = pokes.iter().map(|poke| poke_image(*poke)).collect();
    let step = Step { pokes, count: *count, lengths: *lengths, call: call_image(call) };
    Turn { group: turn.group, step }
}

fn memory_image(memory: &mut Memory) {
    memory.y.iter_mut().for_each(|y| *y = turned(*y));
    memory.sums.iter_mut().take(OF_Y.end).skip(OF_Y.start).for_each(|g| *g = turned(*g));
}

/// A list of one book, as one of group 0.
pub fn course(list: &List) -> Course {
    let turn = |step: &Step| Turn { group: 0, step: step.clone() };
    Course { contents: list.contents, turns: list.steps.iter().map(turn).collect() }
}

// ---- the run

struct Book {
    memory: Memory,
    count: usize,
}

/// The books of all groups, and their table.
struct Machine<'a> {
    side: &'a dyn Side,
    books: BTreeMap<usize, Book>,
    table: Vec<usize>,
}

impl<'a> Machine<'a> {
    fn new(course: &Course, side: &'a dyn Side, image: bool) -> Self {
        let lengths = longest(course.turns.iter().map(|turn| &turn.step.lengths));
        // The table holds what the last group's memory would; the image's is the same.
        let (mut books, mut table) = (BTreeMap::new(), Vec::new());
        for turn in &course.turns {
            books.entry(turn.group).or_insert_with(|| {
                let mut memory = filled_for(course.contents ^ turn.group as u64, &lengths);
                table = std::mem::take(&mut memory.table);
                if image {
                    memory_image(&mut memory);
                }
                Book { memory, count: 0 }
            });
        }
        Self { side, books, table }
    }

    /// Makes the call. Answers the count that it got, too.
    fn step(&mut self, Turn { group, step }: &Turn) -> (Answer, usize) {
        let book = self.books.get_mut(group).expect("every group has a book");
        std::mem::swap(&mut self.table, &mut book.memory.table);
        for written in &step.pokes {
            poke(&mut book.memory, *written);
        }
        let count = step.count.unwrap_or(book.count);
        let answer = self.side.make(&step.call, count, book.memory.lend(&step.lengths));
        std::mem::swap(&mut self.table, &mut book.memory.table);
        if let Answer::Book(count) = answer {
            book.count = count;
        }
        (answer, count)
    }
}

/// Runs the list and its image by a side; notes in the coverage what happened.
pub fn run(course: &Course, side: &dyn Side, coverage: &mut Coverage) -> Result<(), Difference> {
    let mut list = Machine::new(course, side, false);
    let mut image = Machine::new(course, side, true);
    for (at, turn) in course.turns.iter().enumerate() {
        let different =
            |what| Difference { step: at, what: format!("{}, mirror image: {what}", side.name()) };
        let (answer, count) = list.step(turn);
        let (theirs, their_count) = image.step(&turn_image(turn));
        let call = &turn.step.call;
        if count != their_count || !opposite_answers(call, &answer, &theirs) {
            return Err(different(format!("answers {answer:?} and {theirs:?}")));
        }
        if list.table != image.table {
            return Err(different(format!("table {:?} and {:?}", list.table, image.table)));
        }
        let memories = (&list.books[&turn.group].memory, &image.books[&turn.group].memory);
        check_book(memories).map_err(different)?;
        check_written(call, &answer, count, memories).map_err(different)?;
        coverage.mirrored += 1;
        for event in happened(call, &answer, &theirs, count, memories) {
            coverage.note_mirror(&event);
        }
    }
    Ok(())
}

/// Zeros of either sign are alike, and NaN matches NaN.
fn opposite(a: f64, b: f64) -> bool {
    bits(a) == bits(turned(b)) || a == 0.0 && b == 0.0
}

fn first_not_opposite(word: &str, mine: &[f64], theirs: &[f64]) -> Option<String> {
    let at = (0..mine.len()).find(|&at| !opposite(mine[at], theirs[at]))?;
    Some(format!("{word}[{at}]: {:?} and {:?} are not opposite", mine[at], theirs[at]))
}

/// The settings of a report, also of a surface or a group.
fn report_settings(call: &Call) -> Option<Settings> {
    match *without_group(call) {
        Call::Report(settings) | Call::SurfaceReport(settings) => Some(settings),
        _ => None,
    }
}

fn by_size(call: &Call) -> bool {
    report_settings(call).map_or(false, |settings| settings.pruning == PruningRule::Size)
}

fn opposite_answers(call: &Call, mine: &Answer, theirs: &Answer) -> bool {
    match (mine, theirs) {
        (
            Answer::Band { value, lower, upper },
            Answer::Band { value: value2, lower: lower2, upper: upper2 },
        ) => opposite(*value, *value2) && opposite(*lower, *upper2) && opposite(*upper, *lower2),
        // polyfit's pruning sees the sign.
        (
            Answer::Report { degree, solved, outliers, .. },
            Answer::Report { degree: degree2, solved: solved2, outliers: outliers2, .. },
        ) if !by_size(call) => (degree, solved, outliers) == (degree2, solved2, outliers2),
        (Answer::Samples(mine), Answer::Samples(theirs)) => {
            let theirs = theirs.iter().map(|sample| sample_image(*sample)).collect();
            same_answer(&Answer::Samples(mine.clone()), &Answer::Samples(theirs))
        }
        _ => same_answer(mine, theirs),
    }
}

/// Columns and sums, as far as there are places.
fn check_book((mine, theirs): (&Memory, &Memory)) -> Result<(), String> {
    let (sums, their_sums) = (&mine.sums, &theirs.sums);
    let start = OF_Y.start.min(sums.len());
    let end = OF_Y.end.min(sums.len());
    let difference = first_difference("xs", &mine.x, &theirs.x)
        .or_else(|| first_difference("zs", &mine.z, &theirs.z))
        .or_else(|| first_difference("ws", &mine.weight, &theirs.weight))
        .or_else(|| first_not_opposite("ys", &mine.y, &theirs.y))
        .or_else(|| first_difference("sums", &sums[..start], &their_sums[..start]))
        .or_else(|| first_not_opposite("g", &sums[start..end], &their_sums[start..end]))
        .or_else(|| first_difference("scratch", &mine.scratch, &theirs.scratch));
    difference.map_or(Ok(()), Err)
}

/// What the call wrote besides the book.
fn check_written(
    call: &Call,
    answer: &Answer,
    count: usize,
    (mine, theirs): (&Memory, &Memory),
) -> Result<(), String> {
    let terms = places_of_terms(call);
    let coefficients =
        || first_not_opposite("coefficients", &mine.coefficients[..terms], &theirs.coefficients);
    let difference = match answer {
        Answer::Degree(_) => coefficients(),
        Answer::Report { .. } => coefficients()
            .or_else(|| first_difference("errors", &mine.errors[..terms], &theirs.errors[..terms]))
            .or_else(|| first_not_opposite("lower, upper", &mine.lower[..count], &theirs.upper))
            .or_else(|| first_not_opposite("upper, lower", &mine.upper[..count], &theirs.lower))
            .or_else(|| marks("outliers", &mine.outlier[..count], &theirs.outlier[..count]))
            .or_else(|| match by_size(call) {
                true => marks("pruned", &mine.pruned[..terms], &theirs.pruned[..terms]),
                false => None,
            }),
        Answer::Split { .. } => first_not_opposite("before", &mine.before[..TERMS], &theirs.before)
            .or_else(|| first_not_opposite("after", &mine.after[..TERMS], &theirs.after)),
        Answer::Losses { .. } => {
            first_difference("losses", &mine.losses[..count], &theirs.losses[..count])
        }
        Answer::Scores { .. } => marks("solved", &mine.solved[..TERMS], &theirs.solved[..TERMS])
            .or_else(|| first_difference("scores", &mine.scores[..TERMS], &theirs.scores[..TERMS])),
        _ => None,
    };
    difference.map_or(Ok(()), Err)
}

fn marks(word: &str, mine: &[u8], theirs: &[u8]) -> Option<String> {
    (mine != theirs).then(|| format!("{word}: {mine:?} and {theirs:?}"))
}

// ---- what must happen

const TOLERANCES: [&str; 4] = ["none", "absolute", "variance", "measurement"];

const EVENTS: [&str; 13] = [
    "a frame of version 1 added",
    "a frame of version 2 added",
    "a minus put in",
    "a minus taken out",
    "terms pruned by size",
    "a term below zero pruned by size",
    "terms pruned by polyfit's rule",
    "by polyfit's rule, other terms pruned in the image",
    "outliers",
    "another degree than 0",
    "a band of NaN",
    "an infinite band",
    "zeros of one sign for opposite ones",
];

/// What must have happened, by name: each call answered and refused by each number that it may get, and more.
pub fn events() -> Vec<String> {
    let mut keys = Vec::new();
    let all = coverage::REFUSALS.into_iter().chain(surface::REFUSALS).chain(groups::REFUSALS);
    for (call, numbers) in all {
        keys.push(format!("mirror: {call} answered"));
        keys.extend(numbers.iter().map(|number| format!("mirror: {call} refused by {number}")));
    }
    for call in ["report", "surface_report", "band", "surface_band"] {
        keys.extend(TOLERANCES.map(|tolerance| format!("mirror: {call}, tolerance {tolerance}")));
    }
    for call in ["report", "surface_report", "group_report", "group_surface_report"] {
        keys.extend(["by size", "by polyfit's rule"].map(|rule| format!("mirror: {call} {rule}")));
    }
    keys.extend(EVENTS.map(|event| format!("mirror: {event}")));
    keys
}

fn tolerance_name(tolerance: Tolerance) -> &'static str {
    match tolerance {
        Tolerance::None => TOLERANCES[0],
        Tolerance::Absolute(_) => TOLERANCES[1],
        Tolerance::Variance(_) => TOLERANCES[2],
        Tolerance::Measurement(_) => TOLERANCES[3],
    }
}

fn happened(
    call: &Call,
    answer: &Answer,
    theirs: &Answer,
    count: usize,
    (memory, image): (&Memory, &Memory),
) -> Vec<String> {
    let name = name(call);
    if let Answer::Refused(number) = answer {
        return vec![format!("{name} refused by {number}")];
    }
    let mut events = vec![format!("{name} answered")];
    let mut note_if = |holds: bool, event: &str| {
        if holds {
            events.push(event.to_string());
        }
    };
    match call {
        Call::AddFrame(frame) if frame.len() > 3 => {
            note_if(true, &format!("a frame of version {} added", frame[2]));
        }
        Call::AddLines(text) => {
            let image = lines_image(text).len();
            note_if(image > text.len(), "a minus put in");
            note_if(image < text.len(), "a minus taken out");
        }
        Call::Band { tolerance, .. } | Call::SurfaceBand { tolerance, .. } => {
            note_if(true, &format!("{name}, tolerance {}", tolerance_name(*tolerance)));
        }
        _ => {}
    }
    if let Answer::Band { lower, upper, .. } = answer {
        note_if(lower.is_nan(), "a band of NaN");
        note_if(upper.is_infinite(), "an infinite band");
    }
    let (settings, other) = match (report_settings(call), answer, theirs) {
        (Some(settings), Answer::Report { .. }, Answer::Report { pruned, .. }) => {
            (settings, *pruned)
        }
        _ => return events,
    };
    if let Answer::Report { degree, outliers, pruned, .. } = *answer {
        let size = settings.pruning == PruningRule::Size;
        let rule = if size { "by size" } else { "by polyfit's rule" };
        note_if(true, &format!("{name} {rule}"));
        note_if(true, &format!("{name}, tolerance {}", tolerance_name(settings.tolerance)));
        note_if(pruned > 0, &format!("terms pruned {rule}"));
        note_if(pruned != other, "by polyfit's rule, other terms pruned in the image");
        note_if(outliers > 0, "outliers");
        note_if(degree > 0, "another degree than 0");
        let terms = places_of_terms(call);
        let below = |j: usize| memory.pruned[j] == 1 && memory.coefficients[j] < 0.0;
        note_if(size && (0..terms).any(below), "a term below zero pruned by size");
        note_if(memory.lower[..count].iter().any(|v| v.is_nan()), "a band of NaN");
        note_if(memory.upper[..count].iter().any(|v| v.is_infinite()), "an infinite band");
        let alike = |i: usize| bits(memory.lower[i]) == bits(image.upper[i]);
        let zeros = (0..count).any(|i| memory.lower[i] == 0.0 && alike(i));
        let alike = |j: usize| bits(memory.coefficients[j]) == bits(image.coefficients[j]);
        let zeros =
            zeros || (0..=degree.min(terms - 1)).any(|j| memory.coefficients[j] == 0.0 && alike(j));
        note_if(zeros, "zeros of one sign for opposite ones");
    }
    events
}
