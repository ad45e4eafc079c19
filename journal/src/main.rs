//! Reads a list of calls on standard input and prints their answers, as docs/JOURNAL.md says: by the
//! proved library, or with `--judge` by the transcription of document 01.

use std::io;
use std::process::ExitCode;

use journal::{run, Judge, Port, Side};

fn main() -> ExitCode {
    let arguments: Vec<String> = std::env::args().skip(1).collect();
    let side: &dyn Side = match &arguments[..] {
        [] => &Port,
        [flag] if flag == "--judge" => &Judge,
        _ => {
            eprintln!("journal [--judge] < CALLS");
            return ExitCode::FAILURE;
        }
    };
    match run(side, io::stdin().lock(), io::stdout().lock()) {
        Ok(()) => ExitCode::SUCCESS,
        Err(error) => {
            eprintln!("journal: {error}");
            ExitCode::FAILURE
        }
    }
}
