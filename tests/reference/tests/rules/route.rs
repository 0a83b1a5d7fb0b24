//! Reading, checking and writing a route, of both families.

use crate::common::*;
use reference::address::Address::{self, V4, V6};
use reference::refusal::Refusal;
use reference::route::{check, place, read, write, Route};

/// An address of each family, the octets of its route, and the other family's address length.
const FAMILIES: [(Address, usize, u8); 2] = [
    (V4(0xC0A8_0102), 25, 128),
    (V6(0x2001_0DB8_0000_0000_0000_0000_0000_0001), 37, 32),
];

#[test]
fn a_good_route_is_read() {
    for (originator, ..) in FAMILIES {
        let expected = Route {
            distinguisher: [1, 2, 3, 4, 5, 6, 7, 8],
            esi: ESI,
            originator,
        };
        assert_eq!(read(&route_octets(&ESI, originator)), Ok(expected));
    }
}

#[test]
fn other_lengths_than_the_family_has_are_refused() {
    for (address, total, _) in FAMILIES {
        let mut octets = route_octets(&ESI, address);
        octets.extend([0; 300]);
        for length in 0..octets.len() {
            let (expected, expected_place) = if length == total {
                (Ok(()), 0)
            } else {
                (Err(Refusal::RouteLength), length)
            };
            assert_eq!(check(&octets[..length]), expected, "length {length}");
            assert_eq!(place(&octets[..length]), expected_place);
        }
    }
}

/// A wrong total beats a wrong length octet, the other family's too.
#[test]
fn places_of_wrong_lengths() {
    for (address, total, _) in FAMILIES {
        for length_octet in [0, 22, 24, 34, 36, 255, if total == 25 { 35 } else { 23 }] {
            let mut octets = route_octets(&ESI, address);
            octets.push(0);
            octets[1] = length_octet;
            for length in 0..=total + 1 {
                let expected = if length == total { 1 } else { length };
                assert_eq!(place(&octets[..length]), expected, "length {length}");
            }
        }
    }
}

/// The octets of one family with the address length of the other: 1, and the number of octets.
#[test]
fn the_total_goes_by_the_address_length() {
    for (address, total, other_bits) in FAMILIES {
        let mut octets = route_octets(&ESI, address);
        octets[20] = other_bits;
        for length_octet in [23, 35] {
            octets[1] = length_octet;
            assert_eq!(check(&octets), Err(Refusal::RouteLength));
            assert_eq!(place(&octets), total);
        }
    }
}

#[test]
fn type_and_address_length_are_looked_at_from_twenty_one_octets_on() {
    for (address, total, _) in FAMILIES {
        let mut octets = route_octets(&ESI, address);
        octets.push(0);
        octets[20] = 64;
        for (route_type, later) in [(5, Refusal::RouteType), (4, Refusal::AddressLength)] {
            octets[0] = route_type;
            for length in 0..=total + 1 {
                let expected = if length < 21 {
                    Refusal::RouteLength
                } else {
                    later
                };
                assert_eq!(check(&octets[..length]), Err(expected), "length {length}");
            }
        }
    }
}

#[test]
fn every_wrong_octet_has_its_number() {
    for (address, total, other_bits) in FAMILIES {
        let good = route_octets(&ESI, address);
        for value in 0..=255 {
            let with = |place: usize| {
                let mut octets = good.clone();
                octets[place] = value;
                check(&octets)
            };
            let refused_unless = |place: usize, refusal| {
                if value == good[place] {
                    Ok(())
                } else {
                    Err(refusal)
                }
            };
            assert_eq!(with(0), refused_unless(0, Refusal::RouteType));
            assert_eq!(with(1), refused_unless(1, Refusal::RouteLength));
            let bits = if value == other_bits {
                Refusal::RouteLength
            } else {
                Refusal::AddressLength
            };
            assert_eq!(with(20), refused_unless(20, bits));
            for place in (2..20).chain(22..total) {
                assert_eq!(with(place), Ok(()), "octet {place}");
            }
        }
    }
}

#[test]
fn reserved_identifiers_are_whole() {
    for (address, ..) in FAMILIES {
        for octet in [0x00, 0xFF] {
            let reserved = route_octets(&[octet; 10], address);
            assert_eq!(check(&reserved), Err(Refusal::ReservedEsi));
            for place in 0..10 {
                let mut esi = [octet; 10];
                esi[place] = 0x01;
                assert_eq!(check(&route_octets(&esi, address)), Ok(()));
            }
        }
    }
}

/// The zero address of a family is zero in all its octets.
#[test]
fn zero_addresses_are_whole() {
    for (zero, total) in [(V4(0), 25), (V6(0), 37)] {
        let octets = route_octets(&ESI, zero);
        assert_eq!(check(&octets), Err(Refusal::ZeroAddress));
        assert_eq!(place(&octets), 21);
        for place in 21..total {
            let mut octets = octets.clone();
            octets[place] = 1;
            assert_eq!(check(&octets), Ok(()));
        }
    }
}

/// The faults that reading can meet, in the order of the checks: the octets get worse one by one.
#[test]
fn checks_of_reading_in_order() {
    for (address, ..) in FAMILIES {
        for faults in 0..32 {
            checks_of_one_reading(address, faults);
        }
    }
}

fn checks_of_one_reading(address: Address, faults: u32) {
    let mut octets = route_octets(&ESI, address);
    let mut expected = Ok(());
    let mut expected_place = 0;
    let mut fault = |bit: u32, refusal, place| {
        let present = faults >> bit & 1 == 1;
        if present {
            expected = Err(refusal);
            expected_place = place;
        }
        present
    };
    // The last check first, so that an earlier check overwrites the expectation.
    if fault(0, Refusal::ZeroAddress, 21) {
        octets[21..].fill(0);
    }
    if fault(1, Refusal::ReservedEsi, 10) {
        octets[10..20].fill(0xFF);
    }
    if fault(2, Refusal::RouteLength, 1) {
        octets[1] = 24;
    }
    if fault(3, Refusal::AddressLength, 20) {
        octets[20] = 33;
    }
    if fault(4, Refusal::RouteType, 0) {
        octets[0] = 1;
    }
    assert_eq!(check(&octets), expected, "faults {faults:05b}");
    assert_eq!(place(&octets), expected_place, "faults {faults:05b}");
    assert_eq!(read(&octets).map(|_| ()), expected);
    assert_eq!(check(&octets[..20]), Err(Refusal::RouteLength));
}

#[test]
fn checks_of_writing_in_order() {
    for (good, zero, short) in [(ten(1), V4(0), 24), (six(1), V6(0), 36)] {
        for faults in 0..16 {
            let has = |bit: u32| faults >> bit & 1 == 1;
            let distinguisher: &[u8] = if has(3) { &[0; 7] } else { &[0; 8] };
            let esi = if has(2) { [0; 10] } else { ESI };
            let address = if has(1) { zero } else { good };
            let mut buffer = vec![0xAA; if has(0) { short } else { 40 }];
            let before = buffer.clone();
            let expected = [
                (3, Refusal::RouteLength),
                (2, Refusal::ReservedEsi),
                (1, Refusal::ZeroAddress),
                (0, Refusal::ShortBuffer),
            ]
            .into_iter()
            .find(|(bit, _)| has(*bit))
            .map_or(Ok(()), |(_, refusal)| Err(refusal));
            assert_eq!(write(distinguisher, &esi, address, &mut buffer), expected);
            if expected.is_err() {
                assert_eq!(buffer, before);
            }
        }
    }
}

#[test]
fn lengths_handed_to_writing() {
    for length in 0..20 {
        let octets = vec![0x11; length];
        let mut buffer = [0; 25];
        let answer = write(&octets, &ESI, ten(1), &mut buffer);
        assert_eq!(answer.is_ok(), length == 8);
        let answer = write(&[0; 8], &octets, ten(1), &mut buffer);
        let expected = if length == 10 {
            Ok(())
        } else {
            Err(Refusal::ReservedEsi)
        };
        assert_eq!(answer, expected);
    }
}

#[test]
fn buffers_handed_to_writing() {
    for (address, total, _) in FAMILIES {
        for length in 0..50 {
            let mut buffer = vec![0xAA; length];
            let answer = write(&[0; 8], &ESI, address, &mut buffer);
            let expected = if length < total {
                Err(Refusal::ShortBuffer)
            } else {
                Ok(())
            };
            assert_eq!(answer, expected);
            assert!(buffer.iter().skip(total).all(|octet| *octet == 0xAA));
        }
    }
}

#[test]
fn what_was_written_is_read_back() {
    for (originator, total) in [(V4(u32::MAX), 25), (V6(u128::MAX), 37), (mapped(1), 37)] {
        let mut buffer = [0xAA; 39];
        let distinguisher = [9, 8, 7, 6, 5, 4, 3, 2];
        assert_eq!(write(&distinguisher, &ESI, originator, &mut buffer), Ok(()));
        let expected = Route {
            distinguisher,
            esi: ESI,
            originator,
        };
        assert_eq!(read(&buffer[..total]), Ok(expected));
        assert!(buffer[total..].iter().all(|octet| *octet == 0xAA));
    }
}
