//! The bench program of document 01 over the reference: records on standard input, lines on
//! standard output. Both are streamed in blocks, so the input may be of any length.

use reference::bench;
use std::io::{stderr, stdin, stdout, BufReader, BufWriter, Write};
use std::process::ExitCode;

const BLOCK: usize = 1 << 16;

fn main() -> ExitCode {
    let mut input = BufReader::with_capacity(BLOCK, stdin().lock());
    let mut output = BufWriter::with_capacity(BLOCK, stdout().lock());
    match bench::run(&mut input, &mut output) {
        Ok(()) => ExitCode::SUCCESS,
        Err(error) => {
            let _ = writeln!(stderr(), "bench_reference: {error}");
            ExitCode::FAILURE
        }
    }
}
