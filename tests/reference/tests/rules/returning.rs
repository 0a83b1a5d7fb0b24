//! The returning router: checks and every way to its answer.

use crate::common::*;
use reference::address::Address::{V4, V6};
use reference::refusal::Refusal;
use reference::returning::{advertise, Advertised};
use reference::table::Table;

const OWN: u8 = 3;

fn sent(table: &Table, algorithm: u8, preference: u16, dp: bool) -> Result<(u16, bool), Refusal> {
    let own = Advertised { preference, dp };
    advertise(table, ten(OWN), algorithm, own).map(|pair| (pair.preference, pair.dp))
}

#[test]
fn checks_in_order() {
    let own = Advertised {
        preference: 1,
        dp: true,
    };
    for algorithm in 0..=255 {
        let good = algorithm == 2 || algorithm == 3;
        let zero = if good {
            Refusal::ZeroAddress
        } else {
            Refusal::Algorithm
        };
        assert_eq!(advertise(&fresh(), V4(0), algorithm, own), Err(zero));
        let expected = if good {
            Ok(own)
        } else {
            Err(Refusal::Algorithm)
        };
        assert_eq!(advertise(&fresh(), ten(OWN), algorithm, own), expected);
    }
}

#[test]
fn own_dp_clear_sends_the_administrative_pair() {
    let table = preference_table(2, &[(ten(1), 200, true)]);
    assert_eq!(sent(&table, 2, 300, false), Ok((300, false)));
}

#[test]
fn no_other_route_sends_the_administrative_pair() {
    assert_eq!(sent(&fresh(), 2, 300, true), Ok((300, true)));
    let alone = preference_table(2, &[(ten(OWN), 200, true)]);
    assert_eq!(sent(&alone, 2, 300, true), Ok((300, true)));
}

#[test]
fn another_algorithm_sends_the_administrative_pair() {
    for other in (0..=31).filter(|other| *other != 2) {
        let table = table_of(&[
            (ten(1), 2, false, true, 200),
            (ten(2), other, false, true, 100),
        ]);
        assert_eq!(sent(&table, 2, 300, true), Ok((300, true)));
    }
}

#[test]
fn the_own_entry_is_passed_over_everywhere() {
    // As a different algorithm, as the reference, and as one whose DP is clear.
    for (algorithm, dp, preference) in [(0, false, 0), (2, true, 900), (2, false, 900)] {
        let table = table_of(&[
            (ten(1), 2, false, true, 200),
            (ten(OWN), algorithm, false, dp, preference),
        ]);
        assert_eq!(sent(&table, 2, 300, true), Ok((200, false)));
    }
}

#[test]
fn a_reference_with_dp_clear_sends_the_administrative_pair() {
    // Even though a less preferred route has DP set.
    let table = preference_table(2, &[(ten(1), 200, false), (ten(2), 100, true)]);
    assert_eq!(sent(&table, 2, 300, true), Ok((300, true)));
    let table = preference_table(3, &[(ten(1), 200, true), (ten(2), 100, false)]);
    assert_eq!(sent(&table, 3, 50, true), Ok((50, true)));
    // At equal preference the one with DP set is the reference.
    let table = preference_table(2, &[(ten(1), 200, false), (ten(2), 200, true)]);
    assert_eq!(sent(&table, 2, 300, true), Ok((200, false)));
}

#[test]
fn at_least_and_at_most() {
    for (own, highest, lowest) in [
        (199, (199, true), (200, false)),
        (200, (200, false), (200, false)),
        (201, (200, false), (201, true)),
        (0, (0, true), (200, false)),
        (65_535, (200, false), (65_535, true)),
    ] {
        let table = preference_table(2, &[(ten(1), 200, true)]);
        assert_eq!(sent(&table, 2, own, true), Ok(highest));
        let table = preference_table(3, &[(ten(1), 200, true)]);
        assert_eq!(sent(&table, 3, own, true), Ok(lowest));
    }
}

#[test]
fn ac_df_has_no_part() {
    for bits in 0..4 {
        let table = table_of(&[
            (ten(1), 2, bits & 1 == 1, true, 200),
            (ten(2), 2, bits & 2 == 2, true, 100),
        ]);
        assert_eq!(sent(&table, 2, 300, true), Ok((200, false)));
    }
}

/// Own address and others of both families: a zero of either is 6, and a mapped twin is another.
#[test]
fn returning_routers_of_both_families() {
    let own = Advertised {
        preference: 300,
        dp: true,
    };
    for zero in [V4(0), V6(0)] {
        assert_eq!(advertise(&fresh(), zero, 2, own), Err(Refusal::ZeroAddress));
        assert_eq!(advertise(&fresh(), zero, 1, own), Err(Refusal::Algorithm));
    }
    let sent = |table: &Table, address| advertise(table, address, 2, own);
    let lowered = Advertised {
        preference: 200,
        dp: false,
    };
    let table = preference_table(2, &[(ten(3), 200, true)]);
    assert_eq!(sent(&table, ten(3)), Ok(own));
    assert_eq!(sent(&table, mapped(0x0A00_0003)), Ok(lowered));
    assert_eq!(sent(&table, six(3)), Ok(lowered));
    // Of equal preferences with DP alike the IPv4 router is the reference; its pair is the same.
    let table = preference_table(2, &[(six(3), 200, true), (ten(3), 200, true)]);
    for address in [six(3), ten(3), six(4)] {
        assert_eq!(sent(&table, address), Ok(lowered));
    }
}
