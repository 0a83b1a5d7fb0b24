//! A night's log made short, over the reference: a log of bench records on standard input, the same
//! table as a short log on standard output. A log whose first record is refused, or that has a bad
//! record, writes nothing; standard error says so, and the status is 1. An empty log stays empty.
//! The input is streamed in blocks, so it may be of any length.

use reference::compact::{self, Unfit};
use std::io::{stderr, stdin, stdout, BufReader, Write};
use std::process::ExitCode;

const BLOCK: usize = 1 << 16;

fn main() -> ExitCode {
    let mut input = BufReader::with_capacity(BLOCK, stdin().lock());
    let message = match compact::log(&mut input, &mut stdout().lock()) {
        Ok(Ok(())) => return ExitCode::SUCCESS,
        Ok(Err(Unfit::Plate(refusal))) => format!("refused plate: p {}", refusal.number()),
        Ok(Err(Unfit::BadRecord)) => "bad record: x 16".to_string(),
        Err(error) => error.to_string(),
    };
    let _ = writeln!(stderr(), "compact_reference: {message}");
    ExitCode::FAILURE
}
