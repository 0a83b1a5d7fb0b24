//! The bench program: records in, one line each out. Document 01, "The bench program"; document
//! 02, M-103 (places on lines) and M-105 (IPv6 routes and answers). What a record is, and which one
//! is bad, stands in `record`.
//!
//! Records are taken one by one, so memory does not grow with the input.

use crate::address::Address;
use crate::election;
use crate::esi;
use crate::record::{self, Record, HEADER_LENGTH, MAX_BODY};
use crate::refusal::{answer_number, Refusal};
use crate::route;
use crate::table::Table;
use std::io::{self, ErrorKind, Read, Write};
use std::net::Ipv4Addr;

/// What a run came to: the table at the end of its input, or why it ended before.
pub enum End {
    /// The input was empty.
    NoRecord,
    /// The text of the first record was refused.
    Refused(Refusal),
    BadRecord,
    Table(Table),
}

/// Runs the bench program from input to output and flushes the output.
pub fn run(input: &mut impl Read, output: &mut impl Write) -> io::Result<()> {
    play(input, output)?;
    Ok(())
}

/// The same, and what the run came to.
pub fn play(input: &mut impl Read, output: &mut impl Write) -> io::Result<End> {
    let end = play_records(input, output)?;
    output.flush()?;
    Ok(end)
}

fn play_records(input: &mut impl Read, output: &mut impl Write) -> io::Result<End> {
    let mut octets = [0; HEADER_LENGTH + MAX_BODY];
    let mut table = match next_record(input, &mut octets)? {
        0 => return Ok(End::NoRecord),
        got => match record::read(&octets[..got], true) {
            Ok((Record::Esi { text }, _)) => match take_esi(text, output)? {
                Ok(table) => table,
                Err(refusal) => return Ok(End::Refused(refusal)),
            },
            _ => return bad_record(output),
        },
    };
    loop {
        let got = next_record(input, &mut octets)?;
        if got == 0 {
            return Ok(End::Table(table));
        }
        let line = match record::read(&octets[..got], false) {
            Ok((record, _)) => take_record(&mut table, &record),
            Err(_) => None,
        };
        match line {
            Some(line) => writeln!(output, "{line}")?,
            None => return bad_record(output),
        }
    }
}

/// Reads the octets of one record, or as many of them as there are; answers their number.
fn next_record(
    input: &mut impl Read,
    octets: &mut [u8; HEADER_LENGTH + MAX_BODY],
) -> io::Result<usize> {
    let (header, body) = octets.split_at_mut(HEADER_LENGTH);
    let got = fill(input, header)?;
    if got < HEADER_LENGTH {
        return Ok(got);
    }
    let length = usize::from(header[HEADER_LENGTH - 1]);
    Ok(HEADER_LENGTH + fill(input, &mut body[..length])?)
}

/// Reads until the buffer is full or the input ends; answers the number of octets read.
fn fill(input: &mut impl Read, buffer: &mut [u8]) -> io::Result<usize> {
    let mut got = 0;
    while got < buffer.len() {
        match input.read(&mut buffer[got..]) {
            Ok(0) => return Ok(got),
            Ok(count) => got += count,
            Err(error) if error.kind() == ErrorKind::Interrupted => {}
            Err(error) => return Err(error),
        }
    }
    Ok(got)
}

/// The line of a bad record, which ends the run.
fn bad_record(output: &mut impl Write) -> io::Result<End> {
    writeln!(output, "x {}", Refusal::BadRecord.number())?;
    Ok(End::BadRecord)
}

/// The text of the identifier: its line, and the table of the segment. If it is refused, the run
/// ends.
fn take_esi(text: &[u8], output: &mut impl Write) -> io::Result<Result<Table, Refusal>> {
    let esi = esi::read_text(text);
    let line = with_place('p', answer_number(&esi), esi::text_place(text));
    writeln!(output, "{line}")?;
    Ok(esi.map(|esi| Table::fresh(&esi).1))
}

/// The line of a later record; an identifier is none.
fn take_record(table: &mut Table, record: &Record) -> Option<String> {
    match record {
        Record::Esi { .. } => None,
        Record::Announcement { route, communities } => {
            let number = answer_number(&table.announce(route, communities));
            Some(with_place('a', number, route::place(route)))
        }
        Record::Withdrawal(address) => {
            let number = answer_number(&table.withdraw(*address));
            Some(format!("w {number}"))
        }
        Record::Query { tag, ready } => Some(match election::elect(table, *tag, ready) {
            Ok(elected) => format!("q 0 {} {}", printed(elected.address), elected.count),
            Err(refusal) => format!("q {}", refusal.number()),
        }),
    }
}

/// A line of a letter and a number; after refusals 1 to 4, 6 and 13 the place is its last number.
fn with_place(letter: char, number: u8, place: usize) -> String {
    match number {
        1..=4 | 6 | 13 => format!("{letter} {number} {place}"),
        _ => format!("{letter} {number}"),
    }
}

/// An address as a query prints it: dotted decimals, or 32 lower-case hex digits.
fn printed(address: Address) -> String {
    match address {
        Address::V4(number) => Ipv4Addr::from(number).to_string(),
        Address::V6(number) => format!("{number:032x}"),
    }
}
