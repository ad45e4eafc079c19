//! The program `stakebook` by the documents' words: all of standard input as one frame, the listing of its
//! report on standard output.

use std::io::{self, Read, Write};

fn main() -> io::Result<()> {
    let mut frame = Vec::new();
    io::stdin().read_to_end(&mut frame)?;
    io::stdout().write_all(judge::listing::listing(&frame).as_bytes())
}
