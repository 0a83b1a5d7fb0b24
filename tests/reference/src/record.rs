//! One bench record: its form, and the rules that it keeps or breaks. Document 01, "The bench
//! program"; document 02, M-105 (kinds 4 and 5, IPv6 routes). The bench program, and the search
//! through dumps of records, both read records here.
//!
//! A record is the mark D5 4F, a kind octet, a length octet and that many octets, its body.

use crate::address::{Address, V4_LENGTH, V6_LENGTH};
use crate::refusal::Refusal;
use crate::route::{ADDRESS_BITS_PLACE, V4_ROUTE_LENGTH, V6_BITS, V6_ROUTE_LENGTH};

pub const MARK: [u8; 2] = [0xD5, 0x4F];
pub const KIND_ESI: u8 = 0;
pub const KIND_ANNOUNCEMENT: u8 = 1;
pub const KIND_WITHDRAWAL: u8 = 2;
pub const KIND_QUERY: u8 = 3;
pub const KIND_V6_WITHDRAWAL: u8 = 4;
pub const KIND_V6_QUERY: u8 = 5;
pub const HEADER_LENGTH: usize = 4;
pub const MAX_BODY: usize = 255;

const TAG_LENGTH: usize = 4;

/// What a record asks for.
#[derive(Clone, Debug, PartialEq, Eq)]
pub enum Record<'a> {
    Esi {
        text: &'a [u8],
    },
    Announcement {
        route: &'a [u8],
        communities: &'a [u8],
    },
    Withdrawal(Address),
    Query {
        tag: u32,
        ready: Vec<Address>,
    },
}

/// The record at the start of the octets, and how many octets it has. A wrong mark, kind or length,
/// a cut record, a first record that is no identifier and a later one that is: 16. The text of
/// an identifier is not looked at.
pub fn read(octets: &[u8], is_first: bool) -> Result<(Record<'_>, usize), Refusal> {
    let (header, rest) = octets
        .split_first_chunk::<HEADER_LENGTH>()
        .ok_or(Refusal::BadRecord)?;
    let [high, low, kind, length] = *header;
    if [high, low] != MARK || (kind == KIND_ESI) != is_first {
        return Err(Refusal::BadRecord);
    }
    let body = rest.get(..usize::from(length)).ok_or(Refusal::BadRecord)?;
    let record = match kind {
        KIND_ESI => Some(Record::Esi { text: body }),
        KIND_ANNOUNCEMENT => announcement(body),
        KIND_WITHDRAWAL => withdrawal(body, V4_LENGTH),
        KIND_QUERY => query(body, V4_LENGTH),
        KIND_V6_WITHDRAWAL => withdrawal(body, V6_LENGTH),
        KIND_V6_QUERY => query(body, V6_LENGTH),
        _ => None,
    };
    let record = record.ok_or(Refusal::BadRecord)?;
    Ok((record, HEADER_LENGTH + body.len()))
}

/// A route of 25 octets or, where octet 20 is 128, of 37; then the communities.
fn announcement(body: &[u8]) -> Option<Record<'_>> {
    let length = match body.get(ADDRESS_BITS_PLACE) {
        Some(&V6_BITS) => V6_ROUTE_LENGTH,
        _ => V4_ROUTE_LENGTH,
    };
    let (route, communities) = body.split_at_checked(length)?;
    Some(Record::Announcement { route, communities })
}

/// A withdrawal of an address of so many octets.
fn withdrawal(body: &[u8], length: usize) -> Option<Record<'_>> {
    if body.len() != length {
        return None;
    }
    Address::from_octets(body).map(Record::Withdrawal)
}

/// A query: the tag, then ready addresses of so many octets each.
fn query(body: &[u8], length: usize) -> Option<Record<'_>> {
    let (tag, list) = body.split_first_chunk::<TAG_LENGTH>()?;
    if list.len() % length != 0 {
        return None;
    }
    Some(Record::Query {
        tag: u32::from_be_bytes(*tag),
        ready: list
            .chunks_exact(length)
            .filter_map(Address::from_octets)
            .collect(),
    })
}

/// The octets of a record. A body over 255 octets has none.
pub fn octets_of(kind: u8, body: &[u8]) -> Option<Vec<u8>> {
    let length = u8::try_from(body.len()).ok()?;
    let mut octets = vec![MARK[0], MARK[1], kind, length];
    octets.extend(body);
    Some(octets)
}
