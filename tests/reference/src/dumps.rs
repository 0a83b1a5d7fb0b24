//! The last announcement of an address in two dumps of bench records. Document 02, M-111.
//!
//! A dump is a run of records as the bench program reads them; an empty one breaks no rule. An
//! announcement counts exactly if the route reader accepts its route: the segment that it names and
//! the length of its community list do not matter, and no later withdrawal hides it.

use crate::address::Address;
use crate::record::{self, Record};
use crate::refusal::Refusal;
use crate::route;

#[derive(Clone, Copy, Debug, PartialEq, Eq)]
pub enum Dump {
    First,
    Second,
}

/// The octets of a whole record, mark and length included: the dump, where they start in it, and
/// how many they are.
#[derive(Clone, Copy, Debug, PartialEq, Eq)]
pub struct Part {
    pub dump: Dump,
    pub start: usize,
    pub length: usize,
}

/// The last announcement of the address in the first dump or, if there is none there, in the
/// second. Address zero, 6; either dump breaks the record rules, 16; in neither, 9.
pub fn last_announcement(first: &[u8], second: &[u8], address: Address) -> Result<Part, Refusal> {
    if address.is_zero() {
        return Err(Refusal::ZeroAddress);
    }
    let in_first = last_in(Dump::First, first, address)?;
    let in_second = last_in(Dump::Second, second, address)?;
    in_first.or(in_second).ok_or(Refusal::NotPresent)
}

/// The last announcement of the address in one dump; 16 if the dump breaks the record rules.
fn last_in(dump: Dump, octets: &[u8], address: Address) -> Result<Option<Part>, Refusal> {
    let mut last = None;
    let mut start = 0;
    while start < octets.len() {
        let (record, length) = record::read(&octets[start..], start == 0)?;
        if announces(&record, address) {
            last = Some(Part {
                dump,
                start,
                length,
            });
        }
        start += length;
    }
    Ok(last)
}

/// Whether this is an announcement whose route is accepted and has the address.
fn announces(record: &Record, address: Address) -> bool {
    match record {
        Record::Announcement { route, .. } => {
            route::read(route).is_ok_and(|route| route.originator == address)
        }
        _ => false,
    }
}
