//! Text to bench records: `encode [FILE]` reads lines from the file, or from standard input,
//! and writes records to standard output. An error names the line and ends with status 1.
//!
//! ```text
//! plate 00:11:22:33:44:55:66:77:88:99
//! announce 10.0.0.1                          # no community
//! announce 10.0.0.2 alg=2 pref=500 dp acdf   # with a community
//! withdraw 10.0.0.1
//! query 5 ready=10.0.0.1,10.0.0.2
//! announce 2001:db8::1                       # an IPv6 router
//! query 5 ready6=2001:db8::1
//! raw D5 4F 03                               # octets as they are, for damage
//! ```
//!
//! All forms and options stand at the head of the library's module `encode`.

use reference::encode::Encoder;
use std::env::args_os;
use std::fs::File;
use std::io::{stderr, stdin, stdout, BufRead, BufReader, BufWriter, Write};
use std::process::ExitCode;

fn main() -> ExitCode {
    match encode() {
        Ok(()) => ExitCode::SUCCESS,
        Err(message) => {
            let _ = writeln!(stderr(), "encode: {message}");
            ExitCode::FAILURE
        }
    }
}

fn encode() -> Result<(), String> {
    let mut arguments = args_os().skip(1);
    let input: Box<dyn BufRead> = match arguments.next() {
        None => Box::new(stdin().lock()),
        Some(path) => {
            Box::new(BufReader::new(File::open(&path).map_err(|error| {
                format!("{}: {error}", path.to_string_lossy())
            })?))
        }
    };
    if arguments.next().is_some() {
        return Err("usage: encode [FILE]".to_string());
    }
    let mut output = BufWriter::new(stdout().lock());
    encode_lines(input, &mut output)?;
    output.flush().map_err(|error| error.to_string())
}

fn encode_lines(input: impl BufRead, output: &mut impl Write) -> Result<(), String> {
    let mut encoder = Encoder::default();
    for (index, line) in input.lines().enumerate() {
        let number = index + 1;
        let line = line.map_err(|error| format!("line {number}: {error}"))?;
        let octets = encoder
            .line(&line)
            .map_err(|message| format!("line {number}: {message}"))?;
        output
            .write_all(&octets)
            .map_err(|error| error.to_string())?;
    }
    Ok(())
}
