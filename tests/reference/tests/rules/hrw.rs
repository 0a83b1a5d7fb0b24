//! CRC-32, digest, weight and elections by weight. The numbers of the elections were computed
//! apart, with another CRC-32.

use crate::common::*;
use reference::address::Address::{V4, V6};
use reference::election::elect;
use reference::hrw::{crc32, digest, weight};

#[test]
fn published_crc_values() {
    assert_eq!(crc32(b""), 0);
    assert_eq!(crc32(b"a"), 0xE8B7_BE43);
    assert_eq!(crc32(b"abc"), 0x3524_41C2);
    assert_eq!(crc32(b"message digest"), 0x2015_9D7F);
    assert_eq!(
        crc32(b"The quick brown fox jumps over the lazy dog"),
        0x414F_A339
    );
    assert_eq!(crc32(&[0; 32]), 0x190A_55AD);
    assert_eq!(crc32(&[0xFF; 32]), 0xFF6C_AB0B);
}

#[test]
fn the_top_bit_of_the_digest_is_dropped() {
    let mut octets = vec![0, 0, 0, 1];
    octets.extend(ESI);
    assert_eq!(crc32(&octets), 0xD816_CDB9);
    assert_eq!(digest(1, &ESI), 0x5816_CDB9);
    assert_eq!(digest(5, &ESI), 1_758_445_115);
}

#[test]
fn weights_and_winners() {
    let cases = [
        (1, [392_816_236, 876_758_171, 18_334_846], 2),
        (5, [1_648_691_474, 197_027_905, 1_775_483_608], 3),
        (100, [1_921_807_930, 327_785_161, 1_434_530_496], 1),
        (4_094, [1_869_254_317, 1_640_426_070, 175_914_611], 1),
        (4_294_967_294, [997_635_028, 162_265_187, 632_655_526], 1),
    ];
    let table = preference_table(
        1,
        &[(ten(1), 0, false), (ten(2), 0, false), (ten(3), 0, false)],
    );
    for (tag, weights, winner) in cases {
        let own = [1, 2, 3].map(|last| weight(ten(last), digest(tag, &ESI)));
        assert_eq!(own, weights);
        assert_eq!(elect(&table, tag, &[]), answer(ten(winner), 1, 3, 0b111));
    }
}

#[test]
fn weights_stay_below_two_to_the_thirty_one() {
    for address in [0, 1, 0x7FFF_FFFF, 0x8000_0000, u32::MAX] {
        for digest in [0, 1, 0x4000_0000, 0x7FFF_FFFF] {
            assert!(weight(V4(address), digest) < 1 << 31);
            assert_eq!(
                weight(V4(address), digest),
                weight(V4(address ^ 0x8000_0000), digest)
            );
        }
    }
}

#[test]
fn a_ready_list_narrows_the_choice() {
    let routes: Vec<_> = (1..=3).map(|last| (ten(last), 1, true, false, 0)).collect();
    let table = table_of(&routes);
    assert_eq!(
        elect(&table, 5, &[ten(1), ten(2)]),
        answer(ten(1), 1, 2, 0b011)
    );
    assert_eq!(elect(&table, 5, &[ten(2)]), answer(ten(2), 1, 1, 0b010));
}

/// An address, a digest, and the weight.
const WEIGHTS_OF_IPV6: [(u128, u32, u32); 10] = [
    (
        0x0000_0000_0000_0000_0000_0000_0000_0000,
        0x0000_0000,
        1_406_932_606,
    ),
    (
        0x0000_0000_0000_0000_0000_0000_0000_0001,
        0x0000_0000,
        377_401_575,
    ),
    (
        0xFFFF_FFFF_FFFF_FFFF_FFFF_FFFF_FFFF_FFFF,
        0x0000_0000,
        288_979_989,
    ),
    (
        0xFFFF_FFFF_FFFF_FFFF_FFFF_FFFF_FFFF_FFFF,
        0x7FFF_FFFF,
        755_013_104,
    ),
    (
        0x2001_0DB8_0000_0000_0000_0000_0000_0001,
        0x5816_CDB9,
        2_104_092_268,
    ),
    (
        0x0000_0000_0000_0000_0000_FFFF_0A00_0001,
        0x68CF_BE3B,
        1_648_691_474,
    ),
    (
        0xCD61_3E30_D8F1_6ADF_91B7_584A_2265_B1F5,
        0x61C3_5DE2,
        1_777_883_777,
    ),
    (
        0x7ED4_D57B_1E2F_EB89_414C_343C_1027_C4D1,
        0x6167_37A2,
        1_686_041_405,
    ),
    (
        0x612E_7696_A6CE_CC1B_78E5_1061_7311_D8A3,
        0x64F4_E30B,
        1_427_863_304,
    ),
    (
        0x0741_C7A8_7CE4_2C82_1807_2E8C_35BF_992D,
        0x7258_3673,
        1_913_286_006,
    ),
];

/// The number of an IPv6 address has 128 bits. These numbers were computed apart, by whole numbers
/// of any length.
#[test]
fn weights_of_ipv6_addresses() {
    for (address, digest, expected) in WEIGHTS_OF_IPV6 {
        assert_eq!(weight(V6(address), digest), expected, "{address:032x}");
    }
}

/// Only the low 31 bits count, whatever stands above them and in either family.
#[test]
fn the_low_thirty_one_bits_decide_a_weight() {
    for low in [0, 1, 0x0A00_0001, 0x7FFF_FFFF] {
        for digest in [0, 1, 0x4000_0000, 0x7FFF_FFFF] {
            let expected = weight(V4(low), digest);
            for bit in 31..128 {
                let number = u128::from(low) | 1 << bit;
                assert_eq!(weight(V6(number), digest), expected, "bit {bit}");
            }
            let high = u128::MAX << 31 | u128::from(low);
            assert_eq!(weight(V6(high), digest), expected);
        }
    }
}

/// Routers of both families that tie: the lowest address wins, so an IPv4 one before all others.
#[test]
fn ties_across_families() {
    let tied = [
        V6(u128::MAX << 31 | 0x0A00_0001),
        mapped(0x0A00_0001),
        V6(0x0A00_0001),
        V4(0x8A00_0001),
        V4(0x0A00_0001),
    ];
    for from in 0..tied.len() {
        let mut rest = tied[from..].to_vec();
        let routes: Vec<_> = rest.iter().map(|one| (*one, 1, false, false, 0)).collect();
        let table = table_of(&routes);
        rest.sort();
        for tag in 1..50 {
            assert_eq!(elected(&table, tag), Ok(rest[0]));
        }
    }
}
