//! The last announcement of an address in two dumps of bench records (document 02, M-111), in plain fast Rust: one pass over each dump, and nothing kept but
//! where the last one stands. An address is compared before the rest of its route is looked at, since most records have another.

use crate::answer::{Address, Family, Found};
use crate::octets::check_route;
use crate::records::{split_route, HEADER, MARK};
use crate::workload;

/// The octets of the record, from the first dump or, if there is none there, from the second. Address zero, 6; either dump breaks the record rules, 16; none, 9.
pub fn last_announcement<'a>(
    first: &'a [u8],
    second: &'a [u8],
    address: Address,
) -> Result<&'a [u8], u8> {
    match address.family {
        Family::V4 => last_of(first, second, address.words[0].to_be_bytes()),
        Family::V6 => last_of(first, second, workload::sixteen_octets(address)),
    }
}

/// The same, for the octets of an address.
fn last_of<'a, const N: usize>(
    first: &'a [u8],
    second: &'a [u8],
    address: [u8; N],
) -> Result<&'a [u8], u8> {
    if address == [0; N] {
        return Err(6);
    }
    let in_first = last_in(first, &address)?;
    let in_second = last_in(second, &address)?;
    in_first.or(in_second).ok_or(9)
}

/// The last announcement in one dump, if there is any.
#[inline]
fn last_in<'a, const N: usize>(dump: &'a [u8], address: &[u8; N]) -> Result<Option<&'a [u8]>, u8> {
    if dump.is_empty() {
        return Ok(None);
    }
    let (plate, mut rest) = split_record(dump)?;
    if plate[2] != 0 {
        return Err(16);
    }
    let mut last = None;
    while !rest.is_empty() {
        let (record, behind) = split_record(rest)?;
        let body = &record[HEADER..];
        let is_good = match record[2] {
            1 => {
                let (route, _) = split_route(body).ok_or(16)?;
                if route[21..] == *address && check_route(route).is_ok() {
                    last = Some(record);
                }
                true
            }
            2 => body.len() == 4,
            3 => !body.is_empty() && body.len().is_multiple_of(4),
            4 => body.len() == 16,
            5 => body.len() % 16 == 4,
            _ => false,
        };
        if !is_good {
            return Err(16);
        }
        rest = behind;
    }
    Ok(last)
}

/// The first record, by its mark and length, and what comes behind it.
#[inline]
fn split_record(octets: &[u8]) -> Result<(&[u8], &[u8]), u8> {
    if octets.len() < HEADER || octets[..2] != MARK {
        return Err(16);
    }
    octets
        .split_at_checked(HEADER + usize::from(octets[3]))
        .ok_or(16)
}

/// What a search found, where it lies in which of the dumps that it was handed. A part that lies in neither is a fault of the search.
pub fn found(answer: Result<&[u8], u8>, first: &[u8], second: &[u8]) -> Found {
    let part = match answer {
        Ok(part) => part,
        Err(number) => return Found::refused(number),
    };
    let start_in = |dump: &[u8]| {
        let start = part.as_ptr().addr().checked_sub(dump.as_ptr().addr())?;
        (start + part.len() <= dump.len()).then_some(start)
    };
    for (dump, octets) in [(1, first), (2, second)] {
        if let Some(start) = start_in(octets) {
            return Found {
                number: 0,
                dump,
                start,
                length: part.len(),
            };
        }
    }
    panic!("the part lies in neither dump");
}
