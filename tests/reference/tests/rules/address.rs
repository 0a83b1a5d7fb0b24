//! Addresses of both families: their order, their octets, and the rows of a ready list.

use crate::common::*;
use reference::address::Address::{self, V4, V6};

/// Every IPv4 address is lower than every IPv6 one; within a family they go as numbers.
#[test]
fn the_order_of_the_house() {
    let rising = [
        V4(1),
        V4(0x0A00_0001),
        V4(0x7FFF_FFFF),
        V4(0x8000_0000),
        V4(u32::MAX),
        V6(1),
        V6(0x0A00_0001),
        V6(1 << 32),
        mapped(0x0A00_0001),
        V6(1 << 64),
        V6(0x0A00_0001 << 96),
        six(1),
        V6(1 << 127),
        V6(u128::MAX),
    ];
    assert!(rising.is_sorted_by(|low, high| low < high));
}

#[test]
fn only_four_and_sixteen_octets_are_an_address() {
    let octets = [1; 20];
    for length in 0..=octets.len() {
        let expected = match length {
            4 => Some(V4(0x0101_0101)),
            16 => Some(V6(u128::MAX / 255)),
            _ => None,
        };
        assert_eq!(Address::from_octets(&octets[..length]), expected);
    }
}

#[test]
fn answers_carry_the_family_and_sixteen_octets() {
    assert_eq!(ten(7).family(), 4);
    assert_eq!(
        ten(7).sixteen(),
        [10, 0, 0, 7, 0, 0, 0, 0, 0, 0, 0, 0, 0, 0, 0, 0]
    );
    assert_eq!(six(7).family(), 6);
    assert_eq!(
        six(7).sixteen(),
        [0x20, 0x01, 0x0D, 0xB8, 0, 0, 0, 0, 0, 0, 0, 0, 0, 0, 0, 7]
    );
}

/// In an IPv4 row only the first word of the address counts; other families are no address.
#[test]
fn rows_of_words() {
    assert_eq!(Address::from_row(&[4, 0x0A00_0001, 0, 0, 0]), Some(ten(1)));
    assert_eq!(Address::from_row(&[4, 0x0A00_0001, 9, 9, 9]), Some(ten(1)));
    assert_eq!(Address::from_row(&[6, 0x2001_0DB8, 0, 0, 5]), Some(six(5)));
    for family in [0, 1, 2, 3, 5, 7, 32, 128, 0x0400_0000, u32::MAX] {
        assert_eq!(Address::from_row(&[family, 0x0A00_0001, 0, 0, 0]), None);
    }
}

#[test]
fn zero_is_zero_in_both_families() {
    assert!(V4(0).is_zero() && V6(0).is_zero());
    assert!(!V4(1).is_zero() && !V6(1 << 96).is_zero() && !V6(1).is_zero());
}
