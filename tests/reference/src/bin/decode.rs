//! Bench records to text: `decode [FILE]` reads records from the file, or from standard input, and
//! writes lines to standard output, which `encode` turns into the same records again.

use reference::decode::lines;
use std::env::args_os;
use std::fs;
use std::io::{stderr, stdin, stdout, Read, Write};
use std::process::ExitCode;

fn main() -> ExitCode {
    match decode() {
        Ok(()) => ExitCode::SUCCESS,
        Err(message) => {
            let _ = writeln!(stderr(), "decode: {message}");
            ExitCode::FAILURE
        }
    }
}

fn decode() -> Result<(), String> {
    let mut arguments = args_os().skip(1);
    let octets = match arguments.next() {
        None => {
            let mut octets = Vec::new();
            let read = stdin().lock().read_to_end(&mut octets);
            read.map(|_| octets).map_err(|error| error.to_string())?
        }
        Some(path) => {
            fs::read(&path).map_err(|error| format!("{}: {error}", path.to_string_lossy()))?
        }
    };
    if arguments.next().is_some() {
        return Err("usage: decode [FILE]".to_string());
    }
    let text: String = lines(&octets)
        .iter()
        .map(|line| format!("{line}\n"))
        .collect();
    stdout()
        .write_all(text.as_bytes())
        .map_err(|error| error.to_string())
}
