//! A list's calls that change a book once more, on document 01's book of two columns: by the judge's
//! transcription of it, by another, and at weight 1 by the judge's book of three columns. Answers and every
//! place of columns and sums must be the same. Weights of adds are left out; a frame of version 2, which only
//! the book of three columns can read, goes to the other two alone, and after it its samples in version 1.

use journal::{Answer, Call, Judge, Memory, Side};
use judge::refusals::Lengths;
use judge::{frame, two_column, Sample};
use stakebook::sys;

use crate::call::{name, List, Step};
use crate::coverage::Coverage;
use crate::memory::{filled, first_difference, poke};

/// What is lent to a call.
pub type Lent<'a> = two_column::Memory<'a>;

/// Whoever makes calls on a book of two columns; none for a call that such a book has not.
pub type Calls = fn(&Call, usize, Lent) -> Option<Answer>;

/// The calls that such a book has, each with the numbers that it may be refused by.
pub const REFUSALS: [(&str, &[u8]); 5] = [
    ("open", &[1]),
    ("add", &[1, 4, 5]),
    ("correct", &[1, 4, 6]),
    ("withdraw", &[1, 6]),
    ("add_frame", &[1, 2, 3, 4, 5]),
];

/// What else must happen.
pub const EVENTS: [&str; 3] = [
    "two columns: a frame of version 2 refused by 2",
    "two columns: a frame of version 2 refused by 3",
    "two columns: room past the weight column used",
];

/// By document 01.
pub fn judge(call: &Call, count: usize, mut lent: Lent) -> Option<Answer> {
    let lent = &mut lent;
    let result = match call {
        Call::Open => two_column::open(lent.sums),
        Call::Add(sample) => two_column::add(count, lent, sample.x, sample.y),
        Call::Correct { index, y } => two_column::correct(count, lent, *index, *y),
        Call::Withdraw { index } => two_column::withdraw(count, lent, *index),
        Call::AddFrame(frame) => two_column::add_frame(count, lent, frame),
        _ => return None,
    };
    Some(result.map_or_else(Answer::Refused, Answer::Book))
}

/// By the port, through its C interface.
pub fn port(call: &Call, count: usize, lent: Lent) -> Option<Answer> {
    let (x, y, sums) = (lent.x, lent.y, lent.sums);
    let (x_len, y_len, sums_len) = (x.len(), y.len(), sums.len());
    let (x, y, sums) = (x.as_mut_ptr(), y.as_mut_ptr(), sums.as_mut_ptr());
    // SAFETY: the slices are the caller's, initialised and apart.
    let packed = unsafe {
        match call {
            Call::Open => sys::stakebook_two_column_open(sums, sums_len),
            Call::Add(Sample { x: x0, y: y0, .. }) => {
                sys::stakebook_two_column_add(count, *x0, *y0, x, x_len, y, y_len, sums, sums_len)
            }
            Call::Correct { index, y: y0 } => sys::stakebook_two_column_correct(
                count, *index, *y0, x, x_len, y, y_len, sums, sums_len,
            ),
            Call::Withdraw { index } => sys::stakebook_two_column_withdraw(
                count, *index, x, x_len, y, y_len, sums, sums_len,
            ),
            Call::AddFrame(frame) => sys::stakebook_two_column_add_frame(
                count,
                frame.as_ptr(),
                frame.len(),
                x,
                x_len,
                y,
                y_len,
                sums,
                sums_len,
            ),
            _ => return None,
        }
    };
    Some(match sys::refusal(packed) {
        0 => Answer::Book(sys::count(packed)),
        number if packed << 8 == 0 => Answer::Refused(number),
        number => panic!("refused by {number} with {packed:#x}"),
    })
}

/// The memory, as far as the lengths lend it to a book of two columns.
pub fn lend<'a>(memory: &'a mut Memory, lengths: &Lengths) -> Lent<'a> {
    Lent {
        x: &mut memory.x[..lengths.x],
        y: &mut memory.y[..lengths.y],
        sums: &mut memory.sums[..lengths.sums],
    }
}

/// The first difference between columns and sums.
fn difference(mine: &Memory, theirs: &Memory) -> Option<String> {
    let pairs = [
        ("xs", &mine.x, &theirs.x),
        ("ys", &mine.y, &theirs.y),
        ("sums", &mine.sums, &theirs.sums),
    ];
    pairs.iter().find_map(|(name, mine, theirs)| first_difference(name, mine, theirs))
}

fn is_version_2(call: &Call) -> bool {
    matches!(call, Call::AddFrame(bytes) if bytes.get(2) == Some(&2))
}

/// The calls of a step: after a right frame of version 2 its samples in version 1.
pub fn calls_of(step: &Step) -> Vec<Call> {
    let mut calls = vec![step.call.clone()];
    if let Call::AddFrame(bytes) = &step.call {
        if is_version_2(&step.call) && frame::Reader::new(bytes).is_ok() {
            calls.push(Call::AddFrame(frame::encode(&frame::samples(bytes))));
        }
    }
    calls
}

/// The three books, on memory of their own, and their count.
struct Books {
    mine: Memory,
    theirs: Memory,
    weighted: Memory,
    count: usize,
}

impl Books {
    /// The call by all of them; none for a call that a book of two columns has not.
    fn make(&mut self, call: &Call, step: &Step, calls: Calls) -> Result<Option<Answer>, String> {
        let count = step.count.unwrap_or(self.count);
        let before = [self.mine.x.clone(), self.mine.y.clone(), self.mine.sums.clone()];
        let answer = match judge(call, count, lend(&mut self.mine, &step.lengths)) {
            Some(answer) => answer,
            None => return Ok(None),
        };
        let other = calls(call, count, lend(&mut self.theirs, &step.lengths));
        if other.as_ref() != Some(&answer) {
            return Err(format!("judge answers {answer:?}, port {other:?}"));
        }
        if let Some(difference) = difference(&self.mine, &self.theirs) {
            return Err(format!("judge and port: {difference}"));
        }
        if !is_version_2(call) {
            [self.weighted.x, self.weighted.y, self.weighted.sums] = before;
            let at_1 = at_weight_1(call, count, step, &mut self.weighted);
            if at_1 != answer {
                return Err(format!("{answer:?}, and {at_1:?} of three at weight 1"));
            }
            if let Some(difference) = difference(&self.mine, &self.weighted) {
                return Err(format!("three at weight 1: {difference}"));
            }
        }
        if let Answer::Book(new) = answer {
            self.count = new;
        }
        Ok(Some(answer))
    }
}

/// The call at weight 1 on the book of three columns, whose weight column is no shorter than the others.
fn at_weight_1(call: &Call, count: usize, step: &Step, memory: &mut Memory) -> Answer {
    let mut lengths = step.lengths;
    lengths.weight = lengths.x.max(lengths.y);
    let call = match call {
        Call::Add(sample) => Call::Add(Sample { weight: 1.0, ..*sample }),
        other => other.clone(),
    };
    Judge.make(&call, count, memory.lend(&lengths))
}

/// Runs the list's calls.
pub fn check(list: &List, calls: Calls, coverage: &mut Coverage) -> Result<(), String> {
    let mine = filled(list);
    let (theirs, mut weighted) = (mine.clone(), mine.clone());
    // The weights below the count are 1, as all that is added has weight 1.
    weighted.weight = vec![1.0; mine.x.len().max(mine.y.len())];
    let mut books = Books { mine, theirs, weighted, count: 0 };
    for step in &list.steps {
        for &written in &step.pokes {
            poke(&mut books.mine, written);
            poke(&mut books.theirs, written);
        }
        for call in calls_of(step) {
            let made = books.make(&call, step, calls);
            let made = made.map_err(|what| format!("two columns, {}: {what}", name(&call)))?;
            if let Some(answer) = made {
                let past = matches!(answer, Answer::Book(new) if new > step.lengths.weight);
                coverage.note_two_column(name(&call), &answer, is_version_2(&call), past);
            }
        }
    }
    Ok(())
}
