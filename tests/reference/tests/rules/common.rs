//! What the tests share: one segment, its routes and communities, and quick calls.

use reference::address::Address::{self, V4, V6};
use reference::bench;
use reference::community::{self, Community};
use reference::election::{elect, Election};
use reference::refusal::Refusal;
use reference::table::Table;

pub const ESI: [u8; 10] = [0x00, 0x11, 0x22, 0x33, 0x44, 0x55, 0x66, 0x77, 0x88, 0x99];
pub const OTHER_ESI: [u8; 10] = [0x00, 0x11, 0x22, 0x33, 0x44, 0x55, 0x66, 0x77, 0x88, 0x98];
pub const ESI_TEXT: &[u8] = b"00:11:22:33:44:55:66:77:88:99";

/// The address 10.0.0.`last`.
pub fn ten(last: u8) -> Address {
    V4(u32::from_be_bytes([10, 0, 0, last]))
}

/// The address 2001:db8::`last`.
pub fn six(last: u8) -> Address {
    V6(0x2001_0DB8 << 96 | u128::from(last))
}

/// The IPv4-mapped address of an IPv4 number: ::ffff:a.b.c.d.
pub fn mapped(number: u32) -> Address {
    V6(0xFFFF_0000_0000 | u128::from(number))
}

/// The octets of a route, 25 or 37, written out by hand and unchecked.
pub fn route_octets(esi: &[u8; 10], address: Address) -> Vec<u8> {
    let (rest, bits) = match address {
        V4(_) => (23, 32),
        V6(_) => (35, 128),
    };
    let mut octets = vec![4, rest, 1, 2, 3, 4, 5, 6, 7, 8];
    octets.extend(esi);
    octets.push(bits);
    match address {
        V4(number) => octets.extend(number.to_be_bytes()),
        V6(number) => octets.extend(number.to_be_bytes()),
    }
    octets
}

/// The 8 octets of an election community, all bits as given.
pub fn community_octets(algorithm: u8, ac_df: bool, dp: bool, preference: u16) -> Vec<u8> {
    let capability = u8::from(dp) << 7 | u8::from(ac_df) << 6;
    let [high, low] = preference.to_be_bytes();
    vec![6, 6, algorithm, capability, 0, 0, high, low]
}

/// The octets of a record.
pub fn record(kind: u8, body: &[u8]) -> Vec<u8> {
    let mut octets = vec![0xD5, 0x4F, kind, body.len() as u8];
    octets.extend(body);
    octets
}

/// The record of the test segment's identifier.
pub fn esi_record() -> Vec<u8> {
    record(0, ESI_TEXT)
}

/// An announcement record with any communities.
pub fn announcement_record(esi: &[u8; 10], address: Address, communities: &[u8]) -> Vec<u8> {
    let mut body = route_octets(esi, address);
    body.extend(communities);
    record(1, &body)
}

/// A withdrawal record of either family.
pub fn withdrawal_record(address: Address) -> Vec<u8> {
    let kind = match address {
        V4(_) => 2,
        V6(_) => 4,
    };
    record(kind, &address.octets())
}

/// A query of kind 3 or 5.
pub fn query_of_kind(kind: u8, tag: u32, ready: &[Address]) -> Vec<u8> {
    let mut body = tag.to_be_bytes().to_vec();
    for address in ready {
        body.extend(address.octets());
    }
    record(kind, &body)
}

pub fn query(tag: u32, ready: &[Address]) -> Vec<u8> {
    query_of_kind(3, tag, ready)
}

pub fn v6_query(tag: u32, ready: &[Address]) -> Vec<u8> {
    query_of_kind(5, tag, ready)
}

/// What the bench program prints for an input.
pub fn output(input: &[u8]) -> String {
    let mut output = Vec::new();
    assert!(bench::run(&mut &input[..], &mut output).is_ok());
    String::from_utf8_lossy(&output).into_owned()
}

/// A fresh table of the test segment.
pub fn fresh() -> Table {
    let (answer, table) = Table::fresh(&ESI);
    assert_eq!(answer, Ok(()));
    table
}

/// Announces an address with one community.
pub fn announce(table: &mut Table, address: Address, community: &[u8]) {
    let answer = table.announce(&route_octets(&ESI, address), community);
    assert_eq!(answer, Ok(()));
}

/// A table of routes (address, algorithm, AC-DF, DP, preference).
pub fn table_of(routes: &[(Address, u8, bool, bool, u16)]) -> Table {
    let mut table = fresh();
    for (address, algorithm, ac_df, dp, preference) in routes {
        let community = community_octets(*algorithm, *ac_df, *dp, *preference);
        announce(&mut table, *address, &community);
    }
    table
}

/// A table of routes (address, preference, DP) that all carry one algorithm, without AC-DF.
pub fn preference_table(algorithm: u8, routes: &[(Address, u16, bool)]) -> Table {
    let full: Vec<_> = routes
        .iter()
        .map(|(address, preference, dp)| (*address, algorithm, false, *dp, *preference))
        .collect();
    table_of(&full)
}

/// A table of 64 routes without communities, 10.0.0.1 to 10.0.0.64.
pub fn full_table() -> Table {
    let mut table = fresh();
    for last in 1..=64 {
        announce(&mut table, ten(last), &[]);
    }
    table
}

/// The elected address with an empty ready list.
pub fn elected(table: &Table, tag: u32) -> Result<Address, Refusal> {
    elect(table, tag, &[]).map(|election| election.address)
}

/// The whole answer of an election.
pub fn answer(
    address: Address,
    algorithm: u8,
    count: u32,
    candidates: u64,
) -> Result<Election, Refusal> {
    Ok(Election {
        address,
        algorithm,
        count,
        candidates,
    })
}

/// The octets that the writer gives for a community.
pub fn written(community: &Community) -> [u8; 8] {
    let mut buffer = [0xAA; 8];
    assert_eq!(community::write(community, &mut buffer), Ok(()));
    buffer
}
