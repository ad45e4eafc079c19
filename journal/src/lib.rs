//! Lists of calls as text (docs/JOURNAL.md), run on lent memory by any side.
//!
//! `call` has the calls and their answers as data, `request` a line of the text, read and written;
//! `memory` is what is lent; `side` has the calls as a trait, which the judge implements there and the
//! proved library in `port`; `replay` has a list of calls in buffers, which the library runs in one call;
//! `run` goes through a text line by line.
//!
//! A further call is a case of `Call` with its line in `request`, a method of `Calls`, and its two
//! implementations; an answer of a new kind is a case of `Answer` with the line that it prints.

pub mod call;
pub mod memory;
pub mod port;
pub mod replay;
pub mod request;
pub mod run;
pub mod side;

pub use call::{Answer, Call};
pub use memory::{Lent, Memory, Name};
pub use port::Port;
pub use replay::Buffers;
pub use request::Request;
pub use run::{run, Journal};
pub use side::{Calls, Judge, Side};
