//! Document 02's E6, run. A list's first calls once more, on a book of two columns, which is then carried over
//! and gets the rest of them. Beside it a book of three columns from the start, on memory of the same lengths
//! and other contents, gets the earlier calls that were not refused, at weight 1, and then the same rest.
//! After every call of the rest, answers, written places, count, sums and samples must be the same. The port does
//! it and the judge does it, and between these two every place must be the same.
//!
//! And a carry on memory that holds anything, by both and by E6's words.

use std::collections::BTreeSet;

use journal::memory::Places;
use journal::{Answer, Call, Judge, Memory, Name, Side};
use judge::lines;
use judge::refusals::{Lengths, MOST_SAMPLES};
use judge::sums::{PLACES, TERMS};
use judge::Sample;

use crate::call::{name, List, Step};
use crate::coverage::{Coverage, REFUSALS};
use crate::memory::{difference, filled_for, first_difference, longest, samples};
use crate::random::Random;
use crate::run::{is_reading, passes_nine, same_answer};
use crate::two_column;

/// What must happen, besides each call and refusal after a carry.
const EVENTS: [&str; 24] = [
    "0 samples",
    "a full book",
    "4,096 samples",
    "room left",
    "after refused calls",
    "after frames",
    "after frames that were refused",
    "after withdrawals",
    "after corrections",
    "after a book with samples was opened again",
    "weights as long as the longer column",
    "weights longer than both columns",
    "4,096 weights beside shorter columns",
    "first refused for short sums",
    "first refused for short xs",
    "first refused for short ys",
    "first refused for short ws",
    "then a report of samples with weight 1 and others",
    "any memory, with samples",
    "any memory, a full book",
    "any memory, 4,096 in longer columns",
    "any memory, refused for the count",
    "any memory, refused for short sums",
    "any memory, refused above 4,096 in longer columns",
];

/// What must happen, by name.
pub fn events() -> Vec<String> {
    let mut keys: Vec<String> = EVENTS.iter().map(|event| format!("carry: {event}")).collect();
    for (call, numbers) in REFUSALS {
        keys.push(format!("carry: then {call} answered"));
        let possible = numbers.iter().filter(|&&number| !IMPOSSIBLE.contains(&(call, number)));
        keys.extend(possible.map(|number| format!("carry: then {call} refused by {number}")));
    }
    keys
}

/// Columns that nobody else writes hold finite numbers, and these two are given none.
const IMPOSSIBLE: [(&str, u8); 2] = [("fit", 4), ("validate", 4)];

/// Whoever makes calls, on books of two columns and of three.
#[derive(Clone, Copy)]
pub struct Caller<'a> {
    pub two_column: two_column::Calls,
    pub side: &'a dyn Side,
}

/// A list as E6 has it: nobody else writes the memory, and the third column is no shorter than the others.
struct Plan {
    /// How much memory there is.
    whole: Lengths,
    earlier: Vec<(Call, Lengths)>,
    later: Vec<(Call, Lengths)>,
    /// One of the ways in which memory is first too short for the carry.
    way: usize,
}

impl Plan {
    fn of(list: &List, random: &mut Random) -> Self {
        let longest = longest(list.steps.iter().map(|step| &step.lengths));
        let longer = longest.x.max(longest.y);
        let weight = match random.below(3) {
            0 => longer,
            1 => longer + random.between(1, 5),
            _ => longer.max(MOST_SAMPLES),
        };
        // Refused frames of version 2 leave other counts than in the list: mostly there is room for them.
        let rows = if random.one_in(4) { 0 } else { longer };
        let lent = |step: &Step| {
            let l = step.lengths;
            let (scratch, lower) = (l.scratch.max(rows), l.lower.max(rows));
            let (upper, outlier) = (l.upper.max(rows), l.outlier.max(rows));
            let losses = l.losses.max(rows);
            Lengths { weight, scratch, lower, upper, outlier, losses, ..l }
        };
        let whole = Lengths {
            weight,
            sums: longest.sums.max(PLACES),
            scratch: longest.scratch.max(rows),
            lower: longest.lower.max(rows),
            upper: longest.upper.max(rows),
            outlier: longest.outlier.max(rows),
            losses: longest.losses.max(rows),
            ..longest
        };
        let split = (random.unit() * list.steps.len() as f64) as usize;
        let (first, rest) = list.steps.split_at(split);
        let mut earlier = vec![(Call::Open, whole)];
        for step in first {
            earlier.extend(earlier_calls(step).into_iter().map(|call| (call, lent(step))));
        }
        let later = rest.iter().map(|step| (step.call.clone(), lent(step))).collect();
        Self { whole, earlier, later, way: random.below(WAYS.len()) }
    }
}

/// The calls of a step that a book of two columns has: lines are added one by one.
fn earlier_calls(step: &Step) -> Vec<Call> {
    match &step.call {
        Call::AddLines(text) => lines::samples(text).into_iter().map(Call::Add).collect(),
        _ => two_column::calls_of(step),
    }
}

/// The memory that can be too short for a carry.
const WAYS: [&str; 4] = ["sums", "xs", "ys", "ws"];

/// Too little memory for a carry in one way; none where no memory is too little.
fn shortened(whole: &Lengths, way: usize, count: usize) -> Option<Lengths> {
    let short = count.checked_sub(1);
    Some(match way {
        0 => Lengths { sums: PLACES - 1, ..*whole },
        1 => Lengths { x: short?, ..*whole },
        2 => Lengths { y: short?, ..*whole },
        _ => Lengths { weight: short?, ..*whole },
    })
}

/// A book on memory of its own.
#[derive(Clone)]
struct Book {
    memory: Memory,
    count: usize,
}

impl Book {
    fn make(&mut self, side: &dyn Side, call: &Call, lengths: &Lengths) -> Answer {
        let answer = side.make(call, self.count, self.memory.lend(lengths));
        self.keep(&answer);
        answer
    }

    fn keep(&mut self, answer: &Answer) {
        if let Answer::Book(count) = answer {
            self.count = *count;
        }
    }

    /// A carry, which must answer this and leave all memory but the weights below the count, where it is made.
    fn carry(&mut self, side: &dyn Side, lengths: &Lengths, due: &Answer) -> Result<(), String> {
        let mut expected = self.memory.clone();
        if let Answer::Book(count) = due {
            expected.weight[..*count].fill(1.0);
        }
        let answer = self.make(side, &Call::Carry, lengths);
        if answer != *due {
            return Err(format!("{} answers {answer:?}, and {due:?} is due", side.name()));
        }
        match difference(&expected, &self.memory) {
            Some(difference) => Err(format!("E6's words and {}: {difference}", side.name())),
            None => Ok(()),
        }
    }
}

/// What E6 speaks of after a call: so many first places of each memory.
fn places(call: &Call, answer: &Answer, count: usize) -> Vec<(Name, usize)> {
    let mut places = vec![(Name::Xs, count), (Name::Ys, count), (Name::Ws, count)];
    places.push((Name::Sums, PLACES));
    if is_reading(call) && passes_nine(answer) {
        places.push((Name::Scratch, count));
    }
    if let Answer::Losses { .. } = answer {
        places.push((Name::Losses, count));
    }
    if let Answer::Scores { .. } = answer {
        places.extend([(Name::Solved, TERMS), (Name::Scores, TERMS)]);
    }
    if let Answer::Degree(_) | Answer::Report { .. } = answer {
        places.push((Name::Coefficients, TERMS));
    }
    if let Answer::Split { .. } = answer {
        places.extend([(Name::Before, TERMS), (Name::After, TERMS)]);
    }
    if let Answer::Report { .. } = answer {
        places.extend([(Name::Errors, TERMS), (Name::Pruned, TERMS)]);
        places.extend([(Name::Lower, count), (Name::Upper, count), (Name::Outliers, count)]);
    }
    places
}

/// The first of so many places where the two differ.
fn differs(mine: &Memory, theirs: &Memory, (name, many): (Name, usize)) -> Option<String> {
    match (mine.places(name), theirs.places(name)) {
        (Places::Floats(mine), Places::Floats(theirs)) => {
            first_difference(name.word(), &mine[..many], &theirs[..many])
        }
        (Places::Bytes(mine), Places::Bytes(theirs)) if mine[..many] != theirs[..many] => {
            Some(format!("{}: {:?} and {:?}", name.word(), &mine[..many], &theirs[..many]))
        }
        _ => None,
    }
}

/// By one side, the book that is carried and the one that has weights from the start.
struct Pair<'a> {
    caller: Caller<'a>,
    carried: Book,
    weighted: Book,
}

impl Pair<'_> {
    /// A call on the book of two columns, and at weight 1 on the other, unless it was refused; none for a
    /// call that a book of two columns has not.
    fn earlier(&mut self, call: &Call, lengths: &Lengths) -> Result<Option<Answer>, String> {
        let lent = two_column::lend(&mut self.carried.memory, lengths);
        let answer = match (self.caller.two_column)(call, self.carried.count, lent) {
            Some(answer) => answer,
            None => return Ok(None),
        };
        self.carried.keep(&answer);
        if let Answer::Refused(_) = answer {
            return Ok(Some(answer));
        }
        let at_1 = match call {
            Call::Add(sample) => Call::Add(Sample { weight: 1.0, ..*sample }),
            other => other.clone(),
        };
        let weighted = self.weighted.make(self.caller.side, &at_1, lengths);
        if weighted != answer {
            return Err(format!("{answer:?} of two columns, and {weighted:?} at weight 1"));
        }
        Ok(Some(answer))
    }

    /// A call on both.
    fn later(&mut self, call: &Call, lengths: &Lengths) -> Result<Answer, String> {
        let answer = self.carried.make(self.caller.side, call, lengths);
        let other = self.weighted.make(self.caller.side, call, lengths);
        if !same_answer(&answer, &other) {
            return Err(format!("carried, {answer:?}; weighted from the start, {other:?}"));
        }
        self.compare(call, &answer)?;
        Ok(answer)
    }

    /// E6's claim after a call.
    fn compare(&self, call: &Call, answer: &Answer) -> Result<(), String> {
        let (carried, weighted) = (&self.carried, &self.weighted);
        if carried.count != weighted.count {
            return Err(format!("{} samples and {}", carried.count, weighted.count));
        }
        let places = places(call, answer, carried.count);
        let differs = |&place| differs(&carried.memory, &weighted.memory, place);
        match places.iter().find_map(differs) {
            Some(difference) => Err(format!("carried, and weighted from the start: {difference}")),
            None => Ok(()),
        }
    }
}

/// The judge's books and another's: every place is the same.
fn same_books(judges: &Pair, others: &Pair) -> Result<(), String> {
    let carried = difference(&judges.carried.memory, &others.carried.memory);
    let weighted = || difference(&judges.weighted.memory, &others.weighted.memory);
    match carried.or_else(weighted) {
        Some(difference) => Err(format!("judge and {}: {difference}", others.caller.side.name())),
        None => Ok(()),
    }
}

fn same_answers<T: PartialEq + std::fmt::Debug>(judges: &T, others: &T) -> Result<(), String> {
    if judges == others {
        Ok(())
    } else {
        Err(format!("judge answers {judges:?}, the other {others:?}"))
    }
}

/// What happened to the book of two columns since it was opened.
#[derive(Default)]
struct Before(BTreeSet<&'static str>);

impl Before {
    /// A call, and how many samples there were before it.
    fn note(&mut self, call: &Call, count: usize, answer: &Answer) {
        let refused = matches!(answer, Answer::Refused(_));
        let event = match call {
            Call::Open if !refused => {
                self.0.clear();
                if count == 0 {
                    return;
                }
                "after a book with samples was opened again"
            }
            Call::AddFrame(_) if refused => "after frames that were refused",
            Call::AddFrame(_) => "after frames",
            Call::Withdraw { .. } if !refused => "after withdrawals",
            Call::Correct { .. } if !refused => "after corrections",
            _ if refused => "after refused calls",
            _ => return,
        };
        self.0.insert(event);
    }
}

/// Runs the list as E6 has it, by the judge and by another; then a carry on any memory.
pub fn check(list: &List, other: Caller, coverage: &mut Coverage) -> Result<(), String> {
    let random = &mut Random::new(!list.contents);
    let plan = Plan::of(list, random);
    let steps = plan.later.len();
    let ran = check_plan(list, &plan, other, coverage);
    ran.map_err(|what| format!("carried before the last {steps} calls: {what}"))?;
    check_any(random, other.side, coverage).map_err(|what| format!("carried: {what}"))
}

fn check_plan(
    list: &List,
    plan: &Plan,
    other: Caller,
    coverage: &mut Coverage,
) -> Result<(), String> {
    let book = |contents| Book { memory: filled_for(contents, &plan.whole), count: 0 };
    let (carried, weighted) = (book(list.contents), book(list.contents.rotate_left(32) ^ 1));
    let mine = Caller { two_column: two_column::judge, side: &Judge };
    let pair = |caller| Pair { caller, carried: carried.clone(), weighted: weighted.clone() };
    let (mut judges, mut others) = (pair(mine), pair(other));
    let mut before = Before::default();
    for (call, lengths) in &plan.earlier {
        let count = judges.carried.count;
        let answer = judges.earlier(call, lengths)?;
        same_answers(&answer, &others.earlier(call, lengths)?)?;
        if let Some(answer) = answer {
            before.note(call, count, &answer);
        }
    }
    for pair in [&mut judges, &mut others] {
        let (side, count) = (pair.caller.side, pair.carried.count);
        if let Some(short) = shortened(&plan.whole, plan.way, count) {
            pair.carried.carry(side, &short, &Answer::Refused(1))?;
            coverage.note_carry(&format!("first refused for short {}", WAYS[plan.way]));
        }
        let answer = Answer::Book(count);
        pair.carried.carry(side, &plan.whole, &answer)?;
        pair.compare(&Call::Carry, &answer)?;
    }
    same_books(&judges, &others)?;
    note_carried(plan, judges.carried.count, coverage);
    before.0.iter().for_each(|event| coverage.note_carry(event));
    for (call, lengths) in &plan.later {
        let answer = judges.later(call, lengths)?;
        let theirs = others.later(call, lengths)?;
        if !same_answer(&answer, &theirs) {
            same_answers(&answer, &theirs)?;
        }
        same_books(&judges, &others)?;
        note_later(call, &answer, lengths, &judges.carried, coverage);
    }
    Ok(())
}

/// The book that was carried.
fn note_carried(plan: &Plan, count: usize, coverage: &mut Coverage) {
    let Lengths { x, y, weight, .. } = plan.whole;
    let capacity = x.min(y).min(MOST_SAMPLES);
    coverage.note_carry_if(count == 0, "0 samples");
    coverage.note_carry_if(count == capacity && count > 0, "a full book");
    coverage.note_carry_if(count == MOST_SAMPLES, "4,096 samples");
    coverage.note_carry_if(count < capacity && count > 0, "room left");
    let longer = x.max(y);
    coverage.note_carry_if(weight == longer, "weights as long as the longer column");
    coverage.note_carry_if(weight > longer, "weights longer than both columns");
    let most = weight == MOST_SAMPLES && weight > longer;
    coverage.note_carry_if(most, "4,096 weights beside shorter columns");
}

/// A call after the carry.
fn note_later(
    call: &Call,
    answer: &Answer,
    lengths: &Lengths,
    carried: &Book,
    coverage: &mut Coverage,
) {
    let outcome = match answer {
        Answer::Refused(number) => format!("refused by {number}"),
        _ => "answered".to_string(),
    };
    coverage.note_carry(&format!("then {} {outcome}", name(call)));
    if let Answer::Report { .. } = answer {
        let read = samples(&carried.memory, lengths, carried.count);
        let plain = read.iter().filter(|sample| sample.weight == 1.0).count();
        let both = plain > 0 && plain < read.len();
        coverage.note_carry_if(both, "then a report of samples with weight 1 and others");
    }
}

/// A carry on memory that holds anything, with any count.
fn check_any(random: &mut Random, side: &dyn Side, coverage: &mut Coverage) -> Result<(), String> {
    let places = if random.one_in(40) { MOST_SAMPLES - 1 } else { random.below(8) };
    let mut length = || places + random.below(4);
    let (x, y, weight) = (length(), length(), length());
    let sums = PLACES + 1 - random.pick(&[0, 1, 1, 2]);
    let lengths = Lengths { x, y, weight, sums, ..Lengths::default() };
    let shortest = x.min(y).min(weight);
    let capacity = shortest.min(MOST_SAMPLES);
    let count = match random.below(4) {
        0 => capacity,
        1 => random.below(capacity + 1),
        2 => capacity + 1,
        _ => random.pick(&[shortest, shortest + 1, MOST_SAMPLES, MOST_SAMPLES + 1, usize::MAX]),
    };
    let due =
        if sums < PLACES || count > capacity { Answer::Refused(1) } else { Answer::Book(count) };
    let book = Book { memory: filled_for(random.next(), &lengths), count };
    for side in [&Judge as &dyn Side, side] {
        book.clone().carry(side, &lengths, &due)?;
    }
    let mut note = |holds, event: &str| {
        coverage.note_carry_if(holds, &format!("any memory, {event}"));
    };
    let (answered, longer) = (due != Answer::Refused(1), shortest > MOST_SAMPLES);
    note(answered && count > 0, "with samples");
    note(answered && count > 0 && count == capacity, "a full book");
    note(answered && longer && count == MOST_SAMPLES, "4,096 in longer columns");
    note(count > capacity && sums >= PLACES, "refused for the count");
    note(count <= capacity && sums < PLACES, "refused for short sums");
    let above = longer && count > MOST_SAMPLES && count <= shortest;
    note(above && sums >= PLACES, "refused above 4,096 in longer columns");
    Ok(())
}
