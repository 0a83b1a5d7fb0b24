//! The worked examples of RFC 9785, sections 4.1 to 4.3. PE1, PE2 and PE3 are 10.0.0.1, 10.0.0.2
//! and 10.0.0.3.

use crate::common::*;
use reference::returning::{advertise, Advertised};
use reference::table::Table;

const HIGHEST: u8 = 2;
const LOWEST: u8 = 3;

/// Announces with (preference, DP, algorithm).
fn configure(table: &mut Table, last: u8, preference: u16, dp: bool, algorithm: u8) {
    let community = community_octets(algorithm, false, dp, preference);
    announce(table, ten(last), &community);
}

/// vES1: 500 in PE1, 255 in PE2.
fn first_segment(algorithm: u8) -> Table {
    preference_table(algorithm, &[(ten(1), 500, false), (ten(2), 255, false)])
}

/// vES2: 100 in PE1, 200 in PE2, 300 in PE3.
fn second_segment(algorithm: u8, dp: bool) -> Table {
    preference_table(
        algorithm,
        &[(ten(1), 100, dp), (ten(2), 200, dp), (ten(3), 300, dp)],
    )
}

#[test]
fn section_4_1_c_highest() {
    assert_eq!(elected(&first_segment(HIGHEST), 1), Ok(ten(1)));
    assert_eq!(elected(&second_segment(HIGHEST, false), 1), Ok(ten(3)));
}

#[test]
fn section_4_1_c_lowest() {
    assert_eq!(elected(&first_segment(LOWEST), 1), Ok(ten(2)));
    assert_eq!(elected(&second_segment(LOWEST, false), 1), Ok(ten(1)));
}

#[test]
fn section_4_1_c_highest_and_lowest_do_not_agree() {
    let mut table = first_segment(HIGHEST);
    configure(&mut table, 2, 255, false, LOWEST);
    assert_eq!(elected(&table, 10), Ok(ten(1)));
    assert_eq!(elected(&table, 11), Ok(ten(2)));
}

#[test]
fn section_4_1_d_maintenance() {
    for dp in [false, true] {
        let mut table = second_segment(HIGHEST, dp);
        configure(&mut table, 3, 50, dp, HIGHEST);
        assert_eq!(elected(&table, 1), Ok(ten(2)));
        let mut table = second_segment(LOWEST, dp);
        configure(&mut table, 1, 250, dp, LOWEST);
        assert_eq!(elected(&table, 1), Ok(ten(2)));
    }
}

#[test]
fn section_4_1_e_ties() {
    for algorithm in [HIGHEST, LOWEST] {
        let dp_set = preference_table(algorithm, &[(ten(1), 500, false), (ten(2), 500, true)]);
        assert_eq!(elected(&dp_set, 1), Ok(ten(2)));
        let dp_clear = preference_table(algorithm, &[(ten(1), 500, false), (ten(2), 500, false)]);
        assert_eq!(elected(&dp_clear, 1), Ok(ten(1)));
        let lower_is_second =
            preference_table(algorithm, &[(ten(9), 500, false), (ten(2), 500, false)]);
        assert_eq!(elected(&lower_is_second, 1), Ok(ten(2)));
    }
}

#[test]
fn section_4_1_f_less_bandwidth() {
    let mut table = first_segment(HIGHEST);
    configure(&mut table, 1, 100, false, HIGHEST);
    assert_eq!(elected(&table, 1), Ok(ten(2)));
}

/// ES3: 500 in PE1 and 100 in PE2, Highest, and Lowest for the tags 2001 to 4000.
#[test]
fn section_4_2_a_range_of_tags() {
    let mut table = preference_table(HIGHEST, &[(ten(1), 500, false), (ten(2), 100, false)]);
    assert_eq!(table.set_ranges(&[2001, 4000, LOWEST.into()]), Ok(()));
    for tag in 1..=4000 {
        let forwarder = if tag <= 2000 { ten(1) } else { ten(2) };
        assert_eq!(elected(&table, tag), Ok(forwarder));
    }
}

#[test]
fn section_4_3_revertive() {
    let mut table = second_segment(HIGHEST, false);
    assert_eq!(table.withdraw(ten(3)), Ok(()));
    assert_eq!(elected(&table, 1), Ok(ten(2)));
    configure(&mut table, 3, 300, false, HIGHEST);
    assert_eq!(elected(&table, 1), Ok(ten(3)));
}

#[test]
fn section_4_3_non_revertive() {
    let mut table = second_segment(HIGHEST, true);
    assert_eq!(elected(&table, 1), Ok(ten(3)));
    assert_eq!(table.withdraw(ten(3)), Ok(()));
    assert_eq!(elected(&table, 1), Ok(ten(2)));
    let administrative = Advertised {
        preference: 300,
        dp: true,
    };
    let in_use = Advertised {
        preference: 200,
        dp: false,
    };
    assert_eq!(
        advertise(&table, ten(3), HIGHEST, administrative),
        Ok(in_use)
    );
    configure(&mut table, 3, 200, false, HIGHEST);
    assert_eq!(elected(&table, 1), Ok(ten(2)));
    assert_eq!(table.withdraw(ten(2)), Ok(()));
    configure(&mut table, 3, 300, true, HIGHEST);
    assert_eq!(elected(&table, 1), Ok(ten(3)));
}

/// The same with Lowest for tag 2: PE1 forwards for it all the while, and PE3, whose preference is
/// at least the Highest-PE's, takes nothing over when it comes back.
#[test]
fn section_4_3_non_revertive_with_a_range() {
    let mut table = second_segment(HIGHEST, true);
    assert_eq!(table.set_ranges(&[2, 2, LOWEST.into()]), Ok(()));
    let forwarders = |table: &Table| [1, 2].map(|tag| elected(table, tag).expect("one"));
    assert_eq!(forwarders(&table), [ten(3), ten(1)]);
    assert_eq!(table.withdraw(ten(3)), Ok(()));
    assert_eq!(forwarders(&table), [ten(2), ten(1)]);
    let sent = |table: &Table, preference| {
        let own = Advertised {
            preference,
            dp: true,
        };
        let pair = advertise(table, ten(3), HIGHEST, own);
        pair.map(|pair| (pair.preference, pair.dp))
    };
    assert_eq!(sent(&table, 300), Ok((200, false)));
    assert_eq!(sent(&table, 150), Ok((150, true)));
    assert_eq!(sent(&table, 100), Ok((100, false)));
    assert_eq!(sent(&table, 50), Ok((100, false)));
    configure(&mut table, 3, 200, false, HIGHEST);
    assert_eq!(forwarders(&table), [ten(2), ten(1)]);
    configure(&mut table, 3, 100, false, HIGHEST);
    assert_eq!(forwarders(&table), [ten(2), ten(1)]);
}

#[test]
fn section_4_3_another_algorithm_falls_back() {
    let mut table = second_segment(HIGHEST, true);
    configure(&mut table, 3, 300, true, LOWEST);
    for (tag, last) in [(3, 1), (4, 2), (5, 3)] {
        assert_eq!(elected(&table, tag), Ok(ten(last)));
    }
}
