//! Document 01, "Values to hold against the definitions", in its order.

use crate::common::*;
use reference::address::Address::V4;
use reference::community::{read_list, Community};
use reference::election::elect;
use reference::hrw::{crc32, weight};
use reference::refusal::Refusal;
use reference::returning::{advertise, Advertised};

#[test]
fn weights_of_address_zero() {
    assert_eq!(weight(V4(0), 0), 1_406_932_606);
    assert_eq!(weight(V4(0), 12_345), 12_345);
}

#[test]
fn crc_of_nine_digits() {
    assert_eq!(crc32(b"123456789"), 0xCBF4_3926);
}

#[test]
fn addresses_that_differ_in_the_top_bit_tie() {
    assert_eq!(weight(V4(0x0A00_0001), 0), weight(V4(0x8A00_0001), 0));
    let table = table_of(&[
        (V4(0x8A00_0001), 1, false, false, 0),
        (V4(0x0A00_0001), 1, false, false, 0),
    ]);
    for tag in 1..200 {
        assert_eq!(elected(&table, tag), Ok(V4(0x0A00_0001)));
    }
}

#[test]
fn default_algorithm_of_three() {
    let table = preference_table(
        0,
        &[(ten(1), 0, false), (ten(2), 0, false), (ten(3), 0, false)],
    );
    assert_eq!(elected(&table, 7), Ok(ten(2)));
    assert_eq!(elected(&table, 4_294_967_294), Ok(ten(3)));
    assert_eq!(elected(&table, 0), Err(Refusal::ReservedTag));
    assert_eq!(elected(&table, 4_294_967_295), Err(Refusal::ReservedTag));
}

#[test]
fn dp_breaks_a_tie_of_preference() {
    for algorithm in [2, 3] {
        let table = preference_table(algorithm, &[(ten(1), 500, false), (ten(2), 500, true)]);
        assert_eq!(elected(&table, 1), Ok(ten(2)));
        let table = preference_table(algorithm, &[(ten(1), 500, false), (ten(2), 500, false)]);
        assert_eq!(elected(&table, 1), Ok(ten(1)));
    }
}

#[test]
fn community_of_algorithm_two() {
    let community = Community {
        algorithm: 2,
        ac_df: true,
        dp: true,
        preference: 500,
    };
    assert_eq!(
        written(&community),
        [0x06, 0x06, 0x02, 0xC0, 0x00, 0x00, 0x01, 0xF4]
    );
    let plain = [0x06, 0x06, 0x02, 0xC0, 0x00, 0x00, 0x01, 0xF4];
    let noisy = [0x06, 0x06, 0xE2, 0xC0, 0x01, 0xFF, 0x01, 0xF4];
    assert_eq!(read_list(&plain), Ok(community));
    assert_eq!(read_list(&noisy), Ok(community));
}

#[test]
fn returning_to_two_routers() {
    let sent = |algorithm, preference| {
        let table = preference_table(algorithm, &[(ten(1), 200, true), (ten(2), 100, true)]);
        let own = Advertised {
            preference,
            dp: true,
        };
        advertise(&table, ten(3), algorithm, own).map(|pair| (pair.preference, pair.dp))
    };
    assert_eq!(sent(2, 300), Ok((200, false)));
    assert_eq!(sent(3, 300), Ok((300, true)));
    assert_eq!(sent(2, 150), Ok((150, true)));
}

#[test]
fn a_sixty_fifth_address() {
    let mut table = full_table();
    let route = route_octets(&ESI, ten(65));
    assert_eq!(table.announce(&route, &[]), Err(Refusal::TableFull));
    assert_eq!(table.withdraw(ten(20)), Ok(()));
    assert_eq!(table.announce(&route, &[]), Ok(()));
    assert_eq!(elect(&table, 1, &[]).map(|one| one.count), Ok(64));
}
