//! The election: checks, agreement, eligible routers, N and the candidate set.

use crate::common::*;
use reference::address::Address::{self, V4, V6};
use reference::election::{algorithm_in_use, elect, elect_rows};
use reference::refusal::Refusal;

/// Three routers that carry one algorithm and one AC-DF bit.
fn three(algorithm: u8, ac_df: bool) -> reference::table::Table {
    table_of(&[
        (ten(1), algorithm, ac_df, false, 100),
        (ten(2), algorithm, ac_df, false, 300),
        (ten(3), algorithm, ac_df, false, 200),
    ])
}

#[test]
fn checks_in_order() {
    let empty = fresh();
    let long = [ten(1); 65];
    assert_eq!(elect(&empty, 0, &long), Err(Refusal::ReservedTag));
    assert_eq!(elect(&empty, u32::MAX, &long), Err(Refusal::ReservedTag));
    assert_eq!(elect(&empty, 1, &long), Err(Refusal::ReadyLength));
    assert_eq!(elect(&empty, 1, &long[..64]), Err(Refusal::NoEligible));
    assert_eq!(elect(&empty, 0, &[]), Err(Refusal::ReservedTag));
}

#[test]
fn the_ready_list_is_counted_as_handed_in() {
    // Repeats and strangers count, even where AC-DF is not in use.
    let table = three(0, false);
    for ready in [[ten(1); 65], [ten(99); 65], [V4(0); 65]] {
        assert_eq!(elect(&table, 1, &ready), Err(Refusal::ReadyLength));
        assert_eq!(elect(&table, 1, &ready[..64]), answer(ten(2), 0, 3, 0b111));
    }
}

#[test]
fn tags_at_the_limits() {
    let table = three(0, false);
    for tag in [1, 2, 0x7FFF_FFFF, 0x8000_0000, 0xFFFF_FFFE] {
        let expected = ten(1 + (tag % 3) as u8);
        assert_eq!(elect(&table, tag, &[]), answer(expected, 0, 3, 0b111));
    }
}

#[test]
fn one_route_agrees_with_itself() {
    for algorithm in 0..=31 {
        for ac_df in [false, true] {
            let table = table_of(&[(ten(1), algorithm, ac_df, false, 0)]);
            let expected = if algorithm <= 3 {
                (algorithm, ac_df)
            } else {
                (0, false)
            };
            assert_eq!(algorithm_in_use(&table), expected);
        }
    }
}

#[test]
fn every_pair_of_algorithms_and_bits() {
    for first in 0..=31 {
        for second in 0..=31 {
            for bits in 0..4 {
                let (left, right) = (bits & 1 == 1, bits & 2 == 2);
                let table = table_of(&[
                    (ten(1), first, left, false, 0),
                    (ten(2), second, right, true, 9),
                ]);
                let agreed = first == second && left == right && first <= 3;
                let expected = if agreed { (first, left) } else { (0, false) };
                assert_eq!(algorithm_in_use(&table), expected);
            }
        }
    }
}

#[test]
fn agreement_is_over_all_routes_and_not_only_the_ready() {
    let table = table_of(&[
        (ten(1), 2, true, false, 100),
        (ten(2), 2, true, false, 200),
        (ten(3), 2, false, false, 300),
    ]);
    assert_eq!(
        elect(&table, 3, &[ten(1), ten(2)]),
        answer(ten(1), 0, 3, 0b111)
    );
}

#[test]
fn the_last_route_can_break_the_agreement() {
    for odd in 1..=64 {
        let routes: Vec<_> = (1..=64)
            .map(|last| {
                (
                    ten(last),
                    if last == odd { 3 } else { 2 },
                    false,
                    false,
                    u16::from(last),
                )
            })
            .collect();
        let table = table_of(&routes);
        assert_eq!(elect(&table, 130, &[]), answer(ten(3), 0, 64, u64::MAX));
    }
}

#[test]
fn ac_df_with_every_algorithm() {
    for algorithm in 0..=3 {
        let table = three(algorithm, true);
        assert_eq!(elect(&table, 1, &[]), Err(Refusal::NoEligible));
        assert_eq!(elect(&table, 1, &[V4(0), ten(9)]), Err(Refusal::NoEligible));
        let ready = [ten(3), V4(0), ten(3), ten(9)];
        assert_eq!(
            elect(&table, 1, &ready),
            answer(ten(3), algorithm, 1, 0b100)
        );
    }
    let ready = [ten(3), ten(1)];
    assert_eq!(
        elect(&three(0, true), 4, &ready),
        answer(ten(1), 0, 2, 0b101)
    );
    assert_eq!(
        elect(&three(2, true), 4, &ready),
        answer(ten(3), 2, 2, 0b101)
    );
    assert_eq!(
        elect(&three(3, true), 4, &ready),
        answer(ten(1), 3, 2, 0b101)
    );
}

#[test]
fn without_ac_df_the_ready_list_has_no_part() {
    for algorithm in 0..=31 {
        let table = three(algorithm, false);
        let with_none = elect(&table, 8, &[]);
        assert!(with_none.is_ok());
        assert_eq!(elect(&table, 8, &[ten(1)]), with_none);
        assert_eq!(elect(&table, 8, &[ten(77), V4(0)]), with_none);
    }
}

#[test]
fn sixty_four_candidates_fill_the_set() {
    let table = full_table();
    assert_eq!(elect(&table, 127, &[]), answer(ten(64), 0, 64, u64::MAX));
    let routes: Vec<_> = (1..=64)
        .map(|last| (ten(last), 2, true, false, 5))
        .collect();
    let table = table_of(&routes);
    assert_eq!(elect(&table, 1, &[ten(64)]), answer(ten(64), 2, 1, 1 << 63));
    let all: Vec<Address> = (1..=64).map(ten).collect();
    assert_eq!(elect(&table, 1, &all), answer(ten(1), 2, 64, u64::MAX));
}

#[test]
fn preference_then_dp_then_address() {
    let routes = [
        (ten(4), 65_535, false),
        (ten(5), 65_535, true),
        (ten(6), 65_535, true),
        (ten(7), 0, false),
        (ten(8), 0, true),
        (ten(9), 0, true),
    ];
    assert_eq!(elected(&preference_table(2, &routes), 1), Ok(ten(5)));
    assert_eq!(elected(&preference_table(3, &routes), 1), Ok(ten(8)));
}

#[test]
fn an_election_changes_nothing() {
    let table = three(2, true);
    let before = table.clone();
    let _ = elect(&table, 0, &[]);
    let _ = elect(&table, 1, &[]);
    let _ = elect(&table, 1, &[ten(1)]);
    assert_eq!(table, before);
}

/// A row of a ready list.
fn row(address: Address) -> [u32; 5] {
    let words: Vec<u32> = address
        .sixteen()
        .chunks_exact(4)
        .map(|four| u32::from_be_bytes([four[0], four[1], four[2], four[3]]))
        .collect();
    let family = u32::from(address.family());
    [family, words[0], words[1], words[2], words[3]]
}

fn rows(addresses: &[Address]) -> Vec<u32> {
    addresses.iter().flat_map(|one| row(*one)).collect()
}

/// Two routers of each family that carry one algorithm and the AC-DF bit.
fn both_families(algorithm: u8) -> reference::table::Table {
    table_of(&[
        (six(2), algorithm, true, false, 300),
        (ten(2), algorithm, true, false, 100),
        (six(1), algorithm, true, false, 100),
        (ten(1), algorithm, true, false, 300),
    ])
}

#[test]
fn both_families_stand_in_one_order() {
    let all = [six(1), ten(1), six(2), ten(2)];
    for (tag, expected) in [(4, ten(1)), (5, ten(2)), (6, six(1)), (7, six(2))] {
        let whole = answer(expected, 0, 4, 0b1111);
        assert_eq!(elect(&both_families(0), tag, &all), whole);
        assert_eq!(elect_rows(&both_families(0), tag, &rows(&all)), whole);
    }
    // Equal preferences: the IPv4 router is lower, though its number may be greater.
    let table = preference_table(2, &[(V6(1), 5, false), (V4(u32::MAX), 5, false)]);
    assert_eq!(elected(&table, 1), Ok(V4(u32::MAX)));
}

#[test]
fn a_ready_list_of_both_families() {
    let table = both_families(2);
    for (ready, expected) in [
        (&[six(2), ten(2)][..], answer(six(2), 2, 2, 0b1010)),
        (&[six(1), ten(2)], answer(ten(2), 2, 2, 0b0110)),
        (&[six(1)], answer(six(1), 2, 1, 0b0100)),
        (&[six(9), V6(0)], Err(Refusal::NoEligible)),
    ] {
        assert_eq!(elect(&table, 3, ready), expected);
        assert_eq!(elect_rows(&table, 3, &rows(ready)), expected);
    }
}

/// An IPv4-mapped address is not its IPv4 twin, nor is the one whose first octets are the twin's.
#[test]
fn mapped_addresses_on_the_list_are_strangers() {
    let table = table_of(&[(V4(0x0A00_0001), 0, true, false, 0)]);
    for stranger in [mapped(0x0A00_0001), V6(0x0A00_0001), V6(0x0A00_0001 << 96)] {
        let expected = Err(Refusal::NoEligible);
        assert_eq!(elect(&table, 1, &[stranger]), expected);
        assert_eq!(elect_rows(&table, 1, &rows(&[stranger])), expected);
    }
}

#[test]
fn rows_that_are_no_address_and_words_that_are_no_row() {
    let table = table_of(&[(ten(1), 0, true, false, 0), (six(1), 0, true, false, 0)]);
    let mut tail = row(ten(1));
    tail[2..].fill(7);
    assert_eq!(elect_rows(&table, 1, &tail), answer(ten(1), 0, 1, 0b01));
    for family in [0, 1, 5, 7, u32::MAX] {
        for good in [row(ten(1)), row(six(1))] {
            let mut stranger = good;
            stranger[0] = family;
            let expected = Err(Refusal::NoEligible);
            assert_eq!(elect_rows(&table, 1, &stranger), expected);
        }
    }
    let listed = rows(&[ten(1), six(1)]);
    for length in 0..=listed.len() {
        let expected = match length / 5 {
            0 => Err(Refusal::NoEligible),
            1 => answer(ten(1), 0, 1, 0b01),
            _ => answer(six(1), 0, 2, 0b11),
        };
        assert_eq!(elect_rows(&table, 1, &listed[..length]), expected);
    }
}

/// 11 counts whole rows, strangers too.
#[test]
fn rows_are_counted() {
    let table = both_families(0);
    for one in [row(ten(1)), row(six(1)), [0; 5], [9; 5]] {
        let list = one.repeat(65);
        let long = Err(Refusal::ReadyLength);
        assert_eq!(elect_rows(&table, 1, &list), long);
        assert_eq!(elect_rows(&table, 0, &list), Err(Refusal::ReservedTag));
        assert_ne!(elect_rows(&table, 1, &list[..324]), long);
    }
}

#[test]
fn sixty_four_routers_of_both_families() {
    let fours = (1..=32).map(ten);
    let sixes = (1..=32).map(six);
    let all: Vec<Address> = sixes.chain(fours).collect();
    let routes: Vec<_> = all.iter().map(|one| (*one, 0, true, false, 0)).collect();
    let table = table_of(&routes);
    for (tag, expected) in [(64, ten(1)), (95, ten(32)), (96, six(1)), (127, six(32))] {
        let whole = answer(expected, 0, 64, u64::MAX);
        assert_eq!(elect_rows(&table, tag, &rows(&all)), whole);
    }
    let upper = u64::MAX << 32;
    let ready = rows(&all[..32]);
    assert_eq!(elect_rows(&table, 33, &ready), answer(six(2), 0, 32, upper));
}
