//! Bench records to text lines, the way back from `encode`: a line for each record, and each line
//! gives the same octets again. What has no line of its own is a `raw` line of its octets; where a
//! record is bad that is all the rest.

use crate::address::Address;
use crate::community::{self, Community, COMMUNITY_LENGTH};
use crate::encode::Encoder;
use crate::esi::{self, Esi};
use crate::record::{self, Record, KIND_V6_QUERY};
use crate::route;
use std::net::{Ipv4Addr, Ipv6Addr};

/// The lines of a run of records.
pub fn lines(octets: &[u8]) -> Vec<String> {
    let mut encoder = Encoder::default();
    let mut esi = None;
    let mut lines = Vec::new();
    let mut start = 0;
    while start < octets.len() {
        let rest = &octets[start..];
        let (said, length) = match record::read(rest, start == 0) {
            Ok((record, length)) => (said(&record, rest[2], &mut esi), length),
            Err(_) => (None, rest.len()),
        };
        let record = &rest[..length];
        let exact = |line: &String| encoder.line(line).is_ok_and(|octets| octets == record);
        lines.push(said.filter(exact).unwrap_or_else(|| raw(record)));
        start += length;
    }
    lines
}

fn raw(octets: &[u8]) -> String {
    format!("raw {}", hex(octets))
}

fn hex(octets: &[u8]) -> String {
    octets.iter().map(|octet| format!("{octet:02x}")).collect()
}

/// The line that says a record of a kind, if there is one. The identifier of the first is kept in
/// `esi`.
fn said(record: &Record, kind: u8, esi: &mut Option<Esi>) -> Option<String> {
    match record {
        Record::Esi { text } => {
            *esi = esi::parse_text(text).ok();
            let text = std::str::from_utf8(text).ok()?;
            Some(format!("plate {text}"))
        }
        Record::Announcement { route, communities } => announcement(route, communities, *esi),
        Record::Withdrawal(address) => Some(format!("withdraw {}", text_of(*address))),
        Record::Query { tag, ready } => Some(format!("query {tag}{}", listed(kind, ready))),
    }
}

fn announcement(octets: &[u8], communities: &[u8], esi: Option<Esi>) -> Option<String> {
    let route = route::read(octets).ok()?;
    let mut words = vec![format!("announce {}", text_of(route.originator))];
    let others = match own_community(communities) {
        Some(community) => {
            words.extend(options(&community));
            &communities[COMMUNITY_LENGTH..]
        }
        None => communities,
    };
    if esi != Some(route.esi) {
        words.push(format!("esi={}", esi::text_of(&route.esi)));
    }
    if route.distinguisher.iter().any(|octet| *octet != 0) {
        words.push(format!("rd={}", hex(&route.distinguisher)));
    }
    if !others.is_empty() {
        words.push(format!("community={}", hex(others)));
    }
    Some(words.join(" "))
}

/// The first community of a list, if the writer writes it just so.
fn own_community(communities: &[u8]) -> Option<Community> {
    let octets = communities.get(..COMMUNITY_LENGTH)?;
    let community = community::read_list(octets).ok()?;
    let mut written = [0; COMMUNITY_LENGTH];
    community::write(&community, &mut written).ok()?;
    (written == octets).then_some(community)
}

fn options(community: &Community) -> Vec<String> {
    let mut words = vec![format!("alg={}", community.algorithm)];
    if community::uses_preference(community.algorithm) {
        words.push(format!("pref={}", community.preference));
    }
    words.extend(community.dp.then(|| "dp".to_string()));
    words.extend(community.ac_df.then(|| "acdf".to_string()));
    words
}

/// The list of a query of a kind, which says the family; an empty one of IPv4 is left out.
fn listed(kind: u8, ready: &[Address]) -> String {
    let texts: Vec<String> = ready.iter().map(|address| text_of(*address)).collect();
    match (kind, ready) {
        (KIND_V6_QUERY, _) => format!(" ready6={}", texts.join(",")),
        (_, []) => String::new(),
        _ => format!(" ready={}", texts.join(",")),
    }
}

fn text_of(address: Address) -> String {
    match address {
        Address::V4(number) => Ipv4Addr::from(number).to_string(),
        Address::V6(number) => Ipv6Addr::from(number).to_string(),
    }
}
