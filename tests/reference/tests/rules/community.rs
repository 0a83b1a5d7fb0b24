//! Reading lists of communities and writing one.

use crate::common::*;
use reference::community::{read_list, write, Community, DEFAULT_PREFERENCE};
use reference::refusal::Refusal;

fn full(algorithm: u8) -> Community {
    Community {
        algorithm,
        ac_df: true,
        dp: true,
        preference: 0x1234,
    }
}

/// What a full community reads as: DP and preference count under 2 and 3 only.
fn read_as(algorithm: u8) -> Community {
    if algorithm == 2 || algorithm == 3 {
        full(algorithm)
    } else {
        Community {
            algorithm,
            ac_df: true,
            dp: false,
            preference: 0,
        }
    }
}

#[test]
fn an_empty_list_is_the_default_algorithm() {
    assert_eq!(read_list(&[]), Ok(Community::default()));
    assert_eq!(Community::default().algorithm, 0);
    assert_eq!(DEFAULT_PREFERENCE, 32_767);
}

#[test]
fn every_algorithm_is_read_with_its_reserved_bits_ignored() {
    for algorithm in 0..=31u8 {
        for reserved in 0..8u8 {
            let octets = [
                6,
                6,
                reserved << 5 | algorithm,
                0xFF,
                0xFF,
                0xFF,
                0x12,
                0x34,
            ];
            assert_eq!(read_list(&octets), Ok(read_as(algorithm)));
        }
    }
}

#[test]
fn each_capability_bit_stands_alone() {
    for bit in 0..16 {
        let [first, second] = (1u16 << bit).to_be_bytes();
        let expected = Community {
            algorithm: 2,
            ac_df: bit == 14,
            dp: bit == 15,
            preference: 0,
        };
        assert_eq!(read_list(&[6, 6, 2, first, second, 0, 0, 0]), Ok(expected));
    }
}

#[test]
fn the_length_of_a_list() {
    let list = [6, 6, 1, 0, 0, 0, 0, 0].repeat(40);
    for length in 0..=list.len() {
        let good = length <= 256 && length % 8 == 0;
        let answer = read_list(&list[..length]).map(|_| ());
        let expected = if good {
            Ok(())
        } else {
            Err(Refusal::CommunityLength)
        };
        assert_eq!(answer, expected, "length {length}");
    }
}

#[test]
fn several_election_communities_count_as_none() {
    let first = community_octets(2, false, true, 11);
    let second = community_octets(3, true, false, 22);
    let other = [6, 5, 2, 0xC0, 0, 0, 1, 0xF4];
    for list in [
        [&first[..], &second[..]].concat(),
        [&second[..], &first[..]].concat(),
        [&first[..], &first[..]].concat(),
        [&first[..], &other[..], &first[..]].concat(),
        [&first[..], &second[..], &first[..]].concat(),
        first.repeat(32),
    ] {
        assert_eq!(read_list(&list), Ok(Community::default()));
    }
}

#[test]
fn a_wrong_length_is_told_before_several() {
    let mut list = community_octets(2, false, true, 11).repeat(2);
    list.push(6);
    assert_eq!(read_list(&list), Err(Refusal::CommunityLength));
    let list = community_octets(2, false, true, 11).repeat(33);
    assert_eq!(read_list(&list), Err(Refusal::CommunityLength));
}

#[test]
fn other_communities_are_skipped() {
    let election = community_octets(2, true, true, 500);
    for (first, second) in [
        (0x46, 0x06),
        (0x06, 0x46),
        (0x06, 0x05),
        (0x07, 0x06),
        (0, 0),
    ] {
        let mut other = community_octets(3, false, false, 9);
        other[0] = first;
        other[1] = second;
        assert_eq!(read_list(&other), Ok(Community::default()));
        let list = [&other[..], &election[..], &other[..]].concat();
        assert_eq!(read_list(&list), read_list(&election));
    }
}

#[test]
fn an_election_community_is_found_on_its_boundary_only() {
    let list = [0, 0, 0, 0, 6, 6, 2, 0xC0, 0, 0, 1, 0xF4, 0, 0, 0, 0];
    assert_eq!(read_list(&list), Ok(Community::default()));
}

#[test]
fn the_last_of_thirty_two_is_found() {
    let mut list = [6, 5, 1, 0, 0, 0, 0, 0].repeat(31);
    list.extend(community_octets(3, false, true, 77));
    assert_eq!(list.len(), 256);
    assert_eq!(read_list(&list).map(|one| one.preference), Ok(77));
}

#[test]
fn every_algorithm_is_written() {
    for algorithm in 0..=31 {
        let octets = written(&full(algorithm));
        assert_eq!(read_list(&octets), Ok(read_as(algorithm)));
        let capability = if algorithm == 2 || algorithm == 3 {
            0xC0
        } else {
            0x40
        };
        assert_eq!(octets[..6], [6, 6, algorithm, capability, 0, 0]);
    }
}

#[test]
fn checks_of_writing_in_order() {
    for length in 0..12 {
        for algorithm in [0, 31, 32, 33, 64, 255] {
            let mut buffer = vec![0xAA; length];
            let answer = write(&full(algorithm), &mut buffer);
            let expected = match (algorithm > 31, length < 8) {
                (true, _) => Err(Refusal::Algorithm),
                (false, true) => Err(Refusal::ShortBuffer),
                (false, false) => Ok(()),
            };
            assert_eq!(answer, expected);
            let kept = if expected.is_ok() { 8 } else { 0 };
            assert!(buffer.iter().skip(kept).all(|octet| *octet == 0xAA));
        }
    }
}
