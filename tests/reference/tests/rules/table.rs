//! The table: fresh, announce, withdraw.

use crate::common::*;
use reference::address::Address::{V4, V6};
use reference::election::elect;
use reference::refusal::Refusal;
use reference::returning::{advertise, Advertised};
use reference::table::{Entry, Table};

#[test]
fn a_reserved_identifier_gives_the_empty_all_zero_table() {
    for esi in [&[0u8; 10][..], &[0xFF; 10], &[1; 9], &[1; 11], &[]] {
        let (answer, table) = Table::fresh(esi);
        assert_eq!(answer, Err(Refusal::ReservedEsi));
        assert_eq!(table.esi(), &[0; 10]);
        assert!(table.entries().is_empty());
    }
}

#[test]
fn the_all_zero_table_stays_empty() {
    let (_, mut table) = Table::fresh(&[0; 10]);
    let zero_esi = route_octets(&[0; 10], ten(1));
    assert_eq!(table.announce(&zero_esi, &[]), Err(Refusal::ReservedEsi));
    let other = route_octets(&ESI, ten(1));
    assert_eq!(table.announce(&other, &[]), Err(Refusal::OtherSegment));
    assert_eq!(table.withdraw(V4(0)), Err(Refusal::ZeroAddress));
    assert_eq!(table.withdraw(ten(1)), Err(Refusal::NotPresent));
    assert_eq!(elect(&table, 1, &[]), Err(Refusal::NoEligible));
    let own = Advertised {
        preference: 7,
        dp: true,
    };
    assert_eq!(advertise(&table, ten(1), 2, own), Ok(own));
    assert!(table.entries().is_empty());
}

#[test]
fn an_entry_keeps_what_the_community_said() {
    let mut table = fresh();
    announce(&mut table, ten(1), &community_octets(2, true, true, 500));
    announce(&mut table, ten(2), &community_octets(9, true, true, 500));
    let first = Entry {
        address: ten(1),
        algorithm: 2,
        ac_df: true,
        dp: true,
        preference: 500,
    };
    let second = Entry {
        address: ten(2),
        algorithm: 9,
        ac_df: true,
        dp: false,
        preference: 0,
    };
    assert_eq!(table.entries(), [first, second]);
}

#[test]
fn entries_rise_whatever_the_order_of_announcements() {
    let mut forward = fresh();
    let mut backward = fresh();
    for last in 1..=64 {
        announce(&mut forward, ten(last), &[]);
        announce(&mut backward, ten(65 - last), &[]);
    }
    assert_eq!(forward, backward);
    let rising = forward
        .entries()
        .windows(2)
        .all(|two| two[0].address < two[1].address);
    assert!(rising);
}

#[test]
fn a_replacement_leaves_no_trace_of_the_older_entry() {
    let mut table = fresh();
    announce(&mut table, ten(1), &community_octets(2, true, true, 500));
    announce(&mut table, ten(1), &[]);
    let mut other = fresh();
    announce(&mut other, ten(1), &[]);
    assert_eq!(table, other);
}

/// The faults an announcement can meet. Each is put in over the good one.
#[test]
fn checks_of_an_announcement_in_order() {
    for faults in 0..256u32 {
        let has = |bit: u32| faults >> bit & 1 == 1;
        let mut table = if has(0) { full_table() } else { fresh() };
        let list = if has(1) { vec![0; 9] } else { vec![] };
        let mut octets = route_octets(&ESI, ten(200));
        if has(2) {
            octets[10..20].copy_from_slice(&OTHER_ESI);
        }
        if has(3) {
            octets[21..25].fill(0);
        }
        if has(4) {
            octets[10..20].fill(0);
        }
        if has(5) {
            octets[1] = 0;
        }
        if has(6) {
            octets[20] = 0;
        }
        if has(7) {
            octets[0] = 0;
        }
        let order = [
            (7, Refusal::RouteType),
            (6, Refusal::AddressLength),
            (5, Refusal::RouteLength),
            (4, Refusal::ReservedEsi),
            (3, Refusal::ZeroAddress),
            (2, Refusal::OtherSegment),
            (1, Refusal::CommunityLength),
            (0, Refusal::TableFull),
        ];
        let expected = order
            .into_iter()
            .find(|(bit, _)| has(*bit))
            .map_or(Ok(()), |(_, refusal)| Err(refusal));
        let before = table.clone();
        assert_eq!(
            table.announce(&octets, &list),
            expected,
            "faults {faults:08b}"
        );
        if expected.is_err() {
            assert_eq!(table, before);
        }
    }
}

#[test]
fn list_lengths_in_an_announcement() {
    let list = vec![0; 300];
    for length in 0..list.len() {
        let mut table = fresh();
        let answer = table.announce(&route_octets(&ESI, ten(1)), &list[..length]);
        let good = length <= 256 && length % 8 == 0;
        let expected = if good {
            Ok(())
        } else {
            Err(Refusal::CommunityLength)
        };
        assert_eq!(answer, expected);
    }
}

#[test]
fn withdrawals() {
    let mut table = full_table();
    assert_eq!(table.withdraw(V4(0)), Err(Refusal::ZeroAddress));
    assert_eq!(table.withdraw(ten(65)), Err(Refusal::NotPresent));
    assert_eq!(table.withdraw(ten(30)), Ok(()));
    assert_eq!(table.withdraw(ten(30)), Err(Refusal::NotPresent));
    assert_eq!(table.entries().len(), 63);
    announce(&mut table, ten(30), &[]);
    assert_eq!(table, full_table());
}

#[test]
fn a_table_can_be_emptied_and_filled_again() {
    let mut table = full_table();
    for last in 1..=64 {
        assert_eq!(table.withdraw(ten(last)), Ok(()));
    }
    assert_eq!(table, fresh());
    for last in 1..=64 {
        announce(&mut table, ten(last), &[]);
    }
    assert_eq!(table, full_table());
}

#[test]
fn routers_of_both_families_stand_side_by_side() {
    let addresses = [
        V6(u128::MAX),
        six(1),
        mapped(0x0A00_0001),
        V6(0x0A00_0001 << 96),
        V6(0x0A00_0001),
        V4(0x0A00_0001),
        V4(u32::MAX),
    ];
    let mut table = fresh();
    for address in addresses {
        announce(&mut table, address, &[]);
    }
    let mut rising = addresses.to_vec();
    rising.sort();
    let stand = |table: &Table| -> Vec<_> { table.entries().iter().map(|e| e.address).collect() };
    assert_eq!(stand(&table), rising);
    for address in addresses {
        assert_eq!(table.withdraw(address), Ok(()));
        assert_eq!(table.withdraw(address), Err(Refusal::NotPresent));
        rising.retain(|one| *one != address);
        assert_eq!(stand(&table), rising);
    }
    assert_eq!(table, fresh());
}

#[test]
fn an_ipv6_table_is_full_at_sixty_four() {
    let mut table = full_table();
    let route = route_octets(&ESI, six(1));
    assert_eq!(table.announce(&route, &[]), Err(Refusal::TableFull));
    assert_eq!(table.withdraw(V6(0)), Err(Refusal::ZeroAddress));
    assert_eq!(
        table.withdraw(mapped(0x0A00_0001)),
        Err(Refusal::NotPresent)
    );
    for last in 1..=64 {
        assert_eq!(table.withdraw(ten(last)), Ok(()));
        announce(&mut table, six(last), &[]);
        let more = route_octets(&ESI, ten(100));
        assert_eq!(table.announce(&more, &[]), Err(Refusal::TableFull));
    }
    announce(&mut table, six(64), &[]);
    assert_eq!(table.entries().len(), 64);
}
