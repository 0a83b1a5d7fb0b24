//! Makes the calls that it reads as lines of text, for programs in other languages: `flow_driver proved`, or `array` or `list` for a baseline.
//!
//! Each line is one call on one segment, which starts empty, and is answered by one line. Octets are pairs of hex digits, or `-` where there are none; an
//! address is its 4 or 16 octets; a ready list is addresses with a blank before each.
//!
//!     fresh ESI                           the number
//!     numbers FOR-(S,G) FOR-(*,G)         the number
//!     announce ROUTE COMMUNITIES          the number
//!     withdraw ADDRESS                    the number
//!     plain TAG READY..                   the whole answer: number, family, 32 hex digits of address, algorithm in use, N, 16 hex digits of set
//!     sg SOURCE GROUP TAG READY..         the same
//!     g GROUP TAG READY..                 the same
//!
//! A line that is no call ends the run, with a status that is not zero.

use benchmarks::answer::{Address, Answer, Segment};
use benchmarks::{array, list, proved};
use std::io::{self, BufRead, BufWriter, Write};

fn main() -> io::Result<()> {
    match std::env::args().nth(1).as_deref() {
        Some("proved") => play::<proved::Table>(),
        Some("array") => play::<array::Table>(),
        Some("list") => play::<list::List>(),
        _ => Err(io::Error::other("flow_driver: say proved, array or list")),
    }
}

fn play<T: Segment>() -> io::Result<()> {
    let mut segment = T::empty();
    let mut output = BufWriter::new(io::stdout().lock());
    for line in io::stdin().lock().lines() {
        let line = line?;
        match answered(&mut segment, &line) {
            Some(answer) => writeln!(output, "{answer}")?,
            None => return Err(io::Error::other(format!("no call: {line}"))),
        }
    }
    output.flush()
}

/// Makes the call of a line; none if it is no call.
fn answered<T: Segment>(segment: &mut T, line: &str) -> Option<String> {
    let words: Vec<&str> = line.split(' ').collect();
    let number = match words[..] {
        ["fresh", esi] => segment.fresh(&octets(esi)?),
        ["numbers", source_group, any_source] => {
            segment.set_flow_algorithms(source_group.parse().ok()?, any_source.parse().ok()?)
        }
        ["announce", route, communities] => {
            segment
                .announce(&octets(route)?, &octets(communities)?)
                .number
        }
        ["withdraw", words] => segment.withdraw(address(words)?),
        _ => return elected(segment, &words).map(|answer| whole(&answer)),
    };
    Some(number.to_string())
}

/// Makes the election of a line's words.
fn elected(segment: &impl Segment, words: &[&str]) -> Option<Answer> {
    match words {
        ["plain", tag, list @ ..] => Some(segment.elect(tag.parse().ok()?, &ready(list)?)),
        ["sg", source, group, tag, list @ ..] => {
            let (source, group) = (octets(source)?, octets(group)?);
            Some(segment.elect_source_group(&source, &group, tag.parse().ok()?, &ready(list)?))
        }
        ["g", group, tag, list @ ..] => {
            let group = octets(group)?;
            Some(segment.elect_any_source(&group, tag.parse().ok()?, &ready(list)?))
        }
        _ => None,
    }
}

fn whole(answer: &Answer) -> String {
    let Answer {
        number,
        family,
        address: [a, b, c, d],
        algorithm,
        n,
        candidates,
    } = answer;
    let address = format!("{a:08x}{b:08x}{c:08x}{d:08x}");
    format!("{number} {family} {address} {algorithm} {n} {candidates:016x}")
}

fn octets(word: &str) -> Option<Vec<u8>> {
    if word == "-" {
        return Some(Vec::new());
    }
    let (pairs, rest) = word.as_bytes().as_chunks::<2>();
    if !rest.is_empty() {
        return None;
    }
    let digit = |character: u8| char::from(character).to_digit(16);
    let octet = |[high, low]: &[u8; 2]| Some((16 * digit(*high)? + digit(*low)?) as u8);
    pairs.iter().map(octet).collect()
}

fn address(word: &str) -> Option<Address> {
    let octets = octets(word)?;
    if let Ok(four) = octets.as_slice().try_into() {
        return Some(Address::v4(u32::from_be_bytes(four)));
    }
    let sixteen = octets.try_into().ok()?;
    Some(Address::v6(u128::from_be_bytes(sixteen)))
}

/// The rows of a ready list.
fn ready(list: &[&str]) -> Option<Vec<u32>> {
    let rows: Option<Vec<_>> = list.iter().map(|word| Some(address(word)?.row())).collect();
    Some(rows?.concat())
}
