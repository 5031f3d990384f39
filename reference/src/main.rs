//! A reference for the run-file program, written from the documents in docs/ alone.
//!
//! Reads the run file that its first argument names, or standard input, and prints one line a step, or `file F L`.

mod broadcast;
mod database;
mod ensemble;
mod judging;
mod output;
mod refusals;
mod run_file;
mod server;
mod statements;

use std::fs::File;
use std::io::{self, Read, Write};
use std::process::ExitCode;

/// Reads a run file, and no more of it than shows whether it is too long.
fn input() -> io::Result<Vec<u8>> {
    let mut bytes = Vec::new();
    let source: Box<dyn Read> = match std::env::args_os().nth(1) {
        Some(path) => Box::new(File::open(path)?),
        None => Box::new(io::stdin()),
    };
    source.take(run_file::LONGEST as u64 + 1).read_to_end(&mut bytes)?;
    Ok(bytes)
}

fn main() -> ExitCode {
    let printed = input().and_then(|file| io::stdout().write_all(output::output(&file).as_bytes()));
    match printed {
        Ok(()) => ExitCode::SUCCESS,
        Err(error) => {
            eprintln!("reference: {error}");
            ExitCode::FAILURE
        }
    }
}
