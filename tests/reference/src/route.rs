//! The Ethernet Segment route: 25 octets with an IPv4 originator, 37 with an IPv6 one. Document 01,
//! "The route"; document 02, M-103 (where a route is wrong) and M-105 (IPv6).
//!
//! Octet 0 type, 1 length of the rest, 2..9 route distinguisher, 10..19 ESI, 20 address length in
//! bits, 21..24 or 21..36 the originator's address, high octet first.

use crate::address::{Address, V4_LENGTH, V6_LENGTH};
use crate::esi::{self, Esi};
use crate::refusal::Refusal;

/// Where the address length in bits stands, and where the address starts.
pub const ADDRESS_BITS_PLACE: usize = 20;
pub const ADDRESS_PLACE: usize = 21;
pub const V4_ROUTE_LENGTH: usize = ADDRESS_PLACE + V4_LENGTH;
pub const V6_ROUTE_LENGTH: usize = ADDRESS_PLACE + V6_LENGTH;
pub const V4_BITS: u8 = 32;
pub const V6_BITS: u8 = 128;
pub const ROUTE_TYPE: u8 = 4;
pub const DISTINGUISHER_LENGTH: usize = 8;

/// What a route says.
#[derive(Clone, Copy, Debug, PartialEq, Eq)]
pub struct Route {
    pub distinguisher: [u8; DISTINGUISHER_LENGTH],
    pub esi: Esi,
    pub originator: Address,
}

/// The octets of a route with so many bits of address; none for other lengths than 32 and 128.
fn route_length(address_bits: u8) -> Option<usize> {
    match address_bits {
        V4_BITS => Some(V4_ROUTE_LENGTH),
        V6_BITS => Some(V6_ROUTE_LENGTH),
        _ => None,
    }
}

/// The length octet of a route of so many octets: those after it.
fn rest_length(route_length: usize) -> u8 {
    (route_length - 2) as u8
}

/// The checks on received octets, in the document's order.
pub fn check(octets: &[u8]) -> Result<(), Refusal> {
    if octets.len() <= ADDRESS_BITS_PLACE {
        return Err(Refusal::RouteLength);
    }
    if octets[0] != ROUTE_TYPE {
        return Err(Refusal::RouteType);
    }
    let Some(length) = route_length(octets[ADDRESS_BITS_PLACE]) else {
        return Err(Refusal::AddressLength);
    };
    if octets.len() != length || octets[1] != rest_length(length) {
        return Err(Refusal::RouteLength);
    }
    if esi::is_reserved(&octets[10..20]) {
        return Err(Refusal::ReservedEsi);
    }
    if octets[ADDRESS_PLACE..].iter().all(|octet| *octet == 0) {
        return Err(Refusal::ZeroAddress);
    }
    Ok(())
}

/// Where a route is wrong: for 1 the number of octets where that is wrong, else the length octet;
/// for the others where the wrong field starts. An accepted route has 0.
pub fn place(octets: &[u8]) -> usize {
    match check(octets) {
        Err(Refusal::RouteLength) if has_right_total(octets) => 1,
        Err(Refusal::RouteLength) => octets.len(),
        Err(Refusal::AddressLength) => ADDRESS_BITS_PLACE,
        Err(Refusal::ReservedEsi) => 10,
        Err(Refusal::ZeroAddress) => ADDRESS_PLACE,
        _ => 0,
    }
}

/// Whether there are as many octets as the address length says.
fn has_right_total(octets: &[u8]) -> bool {
    let bits = octets.get(ADDRESS_BITS_PLACE).copied();
    bits.and_then(route_length) == Some(octets.len())
}

/// Reads a route: the checks, then the three fields.
pub fn read(octets: &[u8]) -> Result<Route, Refusal> {
    check(octets)?;
    let mut distinguisher = [0; DISTINGUISHER_LENGTH];
    distinguisher.copy_from_slice(&octets[2..10]);
    Ok(Route {
        distinguisher,
        esi: esi::usable(&octets[10..20])?,
        originator: Address::from_octets(&octets[ADDRESS_PLACE..]).ok_or(Refusal::RouteLength)?,
    })
}

/// Writes a route. Distinguisher not eight octets, 1; identifier reserved, 4; address zero, 6;
/// buffer under 25 octets (under 37 with an IPv6 address), 14. Only so many octets change.
pub fn write(
    distinguisher: &[u8],
    esi: &[u8],
    originator: Address,
    buffer: &mut [u8],
) -> Result<(), Refusal> {
    let Ok(distinguisher) = distinguisher.try_into() else {
        return Err(Refusal::RouteLength);
    };
    let esi = esi::usable(esi)?;
    if originator.is_zero() {
        return Err(Refusal::ZeroAddress);
    }
    let octets = octets_of(&distinguisher, &esi, originator);
    if buffer.len() < octets.len() {
        return Err(Refusal::ShortBuffer);
    }
    buffer[..octets.len()].copy_from_slice(&octets);
    Ok(())
}

/// The octets of a route of any identifier and any address, without any check.
pub fn octets_of(
    distinguisher: &[u8; DISTINGUISHER_LENGTH],
    esi: &Esi,
    originator: Address,
) -> Vec<u8> {
    let (bits, length) = match originator {
        Address::V4(_) => (V4_BITS, V4_ROUTE_LENGTH),
        Address::V6(_) => (V6_BITS, V6_ROUTE_LENGTH),
    };
    let mut octets = vec![ROUTE_TYPE, rest_length(length)];
    octets.extend(distinguisher);
    octets.extend(esi);
    octets.push(bits);
    octets.extend(originator.octets());
    octets
}
