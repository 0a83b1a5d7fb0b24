//! Document 01, "Slips that have cost us a night": one test for each.

use crate::common::*;
use reference::address::Address::V4;
use reference::election::elect;

#[test]
fn dp_and_preference_are_not_compared_for_agreement() {
    let table = preference_table(
        2,
        &[
            (ten(1), 100, true),
            (ten(2), 200, false),
            (ten(3), 300, true),
        ],
    );
    assert_eq!(elect(&table, 1, &[]), answer(ten(3), 2, 3, 0b111));
}

#[test]
fn ac_df_is_dropped_with_the_fall_back() {
    let mixed = table_of(&[(ten(1), 2, true, false, 9), (ten(2), 3, true, false, 9)]);
    assert_eq!(elect(&mixed, 1, &[ten(1)]), answer(ten(2), 0, 2, 0b11));
    let unknown = table_of(&[(ten(1), 7, true, false, 0), (ten(2), 7, true, false, 0)]);
    assert_eq!(elect(&unknown, 1, &[ten(1)]), answer(ten(2), 0, 2, 0b11));
}

#[test]
fn n_counts_the_eligible() {
    let routes: Vec<_> = (1..=5).map(|last| (ten(last), 0, true, false, 0)).collect();
    let table = table_of(&routes);
    let ready = [ten(2), ten(4), ten(5)];
    assert_eq!(elect(&table, 7, &ready), answer(ten(4), 0, 3, 0b11010));
}

#[test]
fn addresses_are_numbers_high_octet_first() {
    // As text, or low octet first, each of these pairs would stand the other way round.
    let pairs = [
        ([10, 0, 0, 9], [10, 0, 0, 10]),
        ([9, 0, 0, 1], [10, 0, 0, 1]),
        ([10, 0, 0, 2], [10, 0, 1, 1]),
        ([1, 0, 0, 2], [2, 0, 0, 1]),
        ([127, 255, 255, 255], [128, 0, 0, 0]),
    ];
    for (low, high) in pairs {
        let (low, high) = (V4(u32::from_be_bytes(low)), V4(u32::from_be_bytes(high)));
        let table = preference_table(0, &[(high, 0, false), (low, 0, false)]);
        assert_eq!(elected(&table, 2), Ok(low));
        assert_eq!(elected(&table, 3), Ok(high));
        let table = preference_table(2, &[(high, 5, false), (low, 5, false)]);
        assert_eq!(elected(&table, 1), Ok(low));
    }
}

#[test]
fn an_entry_is_replaced_at_sixty_four() {
    let mut table = full_table();
    let community = community_octets(2, true, true, 700);
    announce(&mut table, ten(64), &community);
    assert_eq!(table.entries().len(), 64);
    assert_eq!(table.entries()[63].preference, 700);
}
