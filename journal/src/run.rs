//! A text, run line by line on lent memory by one side.

use std::io::{self, BufRead, Write};

use judge::refusals::Lengths;

use crate::call::{Answer, Call};
use crate::memory::{Memory, Name, Places, LENT};
use crate::request::{self, float_field, Request};
use crate::side::Side;

/// A book with all its memory, how much of it is lent, and who makes the calls.
pub struct Journal<'a> {
    side: &'a dyn Side,
    count: usize,
    lent: Lengths,
    memory: Memory,
}

/// Prints the answers to all lines of the input, each as soon as the line is read.
pub fn run(side: &dyn Side, input: impl BufRead, mut output: impl Write) -> io::Result<()> {
    let mut journal = Journal::new(side);
    for (before, line) in input.split(b'\n').enumerate() {
        if let Some(printed) = journal.line(before + 1, &line?) {
            writeln!(output, "{printed}")?;
        }
    }
    Ok(())
}

impl<'a> Journal<'a> {
    pub fn new(side: &'a dyn Side) -> Self {
        Self { side, count: 0, lent: LENT, memory: Memory::of_text() }
    }

    /// The book's count.
    pub fn count(&self) -> usize {
        self.count
    }

    /// How much is lent.
    pub fn lent(&self) -> Lengths {
        self.lent
    }

    /// What is printed for one line, if anything.
    pub fn line(&mut self, number: usize, line: &[u8]) -> Option<String> {
        match request::read(line) {
            Ok(request) => self.ask(&request?),
            Err(malformed) => Some(format!("line {number}: {malformed}")),
        }
    }

    /// What is printed for a request, if anything.
    pub fn ask(&mut self, request: &Request) -> Option<String> {
        match *request {
            Request::Lent { name, length } => *name.length(&mut self.lent) = length,
            Request::Put { name, index, value } => self.memory.floats(name)?[index] = value,
            Request::PutNumber { name, index, number } => {
                self.memory.numbers(name)?[index] = number
            }
            Request::Row { index, sample } => {
                self.memory.x[index] = sample.x;
                self.memory.z[index] = sample.z;
                self.memory.y[index] = sample.y;
            }
            Request::Count(count) => self.count = count,
            Request::Show { name, from, to } => return Some(self.show(name, from, to)),
            Request::Call(ref call) => return Some(self.call(call).to_string()),
        }
        None
    }

    /// Makes a call on what is lent; the count is the book last returned. A stake's is among the counts.
    pub fn call(&mut self, call: &Call) -> Answer {
        let answer = self.side.make(call, self.count, self.memory.lend(&self.lent));
        match (call, &answer) {
            (Call::Season { .. }, _) => {}
            (_, Answer::Book(count)) => self.count = *count,
            _ => {}
        }
        answer
    }

    fn show(&self, name: Name, from: usize, to: usize) -> String {
        let mut fields = vec![name.word().to_string()];
        match self.memory.places(name) {
            Places::Floats(floats) => {
                fields.extend(floats[from..to].iter().map(|v| float_field(*v)))
            }
            Places::Bytes(bytes) => fields.extend(bytes[from..to].iter().map(u8::to_string)),
            Places::Numbers(numbers) => {
                fields.extend(numbers[from..to].iter().map(usize::to_string))
            }
        }
        fields.join(" ")
    }
}
