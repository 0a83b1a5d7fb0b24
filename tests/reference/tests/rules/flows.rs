//! Elections by multicast flow: the numbers set, the agreement with them, the digest, the checks.
//! The numbers of digests and elections were computed apart, with another CRC-32.

use crate::common::*;
use reference::address::Address;
use reference::circuits::{self, Circuit, Circuits};
use reference::election::{self, algorithm_in_use};
use reference::flows::{self, Flow, FlowAlgorithms};
use reference::hrw::weight;
use reference::refusal::Refusal;
use reference::table::Table;

/// 192.0.2.1 and 232.1.2.3; 2001:db8::1 and ff3e::8000:1.
const S4: [u8; 4] = [192, 0, 2, 1];
const G4: [u8; 4] = [232, 1, 2, 3];
const S6: [u8; 16] = [0x20, 1, 0x0D, 0xB8, 0, 0, 0, 0, 0, 0, 0, 0, 0, 0, 0, 1];
const G6: [u8; 16] = [0xFF, 0x3E, 0, 0, 0, 0, 0, 0, 0, 0, 0, 0, 0x80, 0, 0, 1];

const SG4: Flow = Flow::SourceGroup {
    source: &S4,
    group: &G4,
};
const SG6: Flow = Flow::SourceGroup {
    source: &S6,
    group: &G6,
};
const ANY4: Flow = Flow::AnySource { group: &G4 };
const ANY6: Flow = Flow::AnySource { group: &G6 };
const FLOWS: [Flow; 4] = [SG4, SG6, ANY4, ANY6];

/// The numbers that most tests set, for (S,G) and for (*,G).
const SET: [u8; 2] = [20, 9];

/// 10.0.0.1 to .3, all under one algorithm and one AC-DF bit, with the numbers above set.
fn three(algorithm: u8, ac_df: bool) -> Table {
    let mut table = three_unset(algorithm, ac_df);
    set(&mut table);
    table
}

fn three_unset(algorithm: u8, ac_df: bool) -> Table {
    table_of(&[
        (ten(1), algorithm, ac_df, false, 100),
        (ten(2), algorithm, ac_df, false, 300),
        (ten(3), algorithm, ac_df, false, 200),
    ])
}

fn set(table: &mut Table) {
    assert_eq!(table.set_flow_algorithms(SET[0], SET[1]), Ok(()));
}

/// The numbers that a table has, if any are set.
fn numbers(table: &Table) -> Option<[u8; 2]> {
    table.flow_algorithms().map(FlowAlgorithms::numbers)
}

fn is_source_group(flow: Flow) -> bool {
    matches!(flow, Flow::SourceGroup { .. })
}

/// Asserts that every flow query answers as the plain query for its tag does, whole.
fn all_as_plain(table: &Table) {
    let lists: [&[Address]; 4] = [&[], &[ten(2)], &[ten(1), ten(3)], &[ten(9); 65]];
    for ready in lists {
        for tag in [0, 1, 2, 5, 100, u32::MAX - 1, u32::MAX] {
            let plain = election::elect(table, tag, ready);
            for flow in FLOWS {
                assert_eq!(flows::elect(table, flow, tag, ready), plain, "{flow:?}");
            }
        }
    }
}

#[test]
fn at_first_none_is_set() {
    assert_eq!(numbers(&fresh()), None);
    for algorithm in 0..=31 {
        all_as_plain(&three_unset(algorithm, false));
        all_as_plain(&three_unset(algorithm, true));
    }
}

/// Every pair of octets: two different ones from 4 to 30 are set, and others leave what was.
#[test]
fn every_pair_of_numbers() {
    let mut accepted = 0;
    for source_group in 0..=255 {
        for any_source in 0..=255 {
            let may = [source_group, any_source]
                .iter()
                .all(|number| (4..31).contains(number))
                && source_group != any_source;
            for before in [None, Some(SET)] {
                let mut table = fresh();
                if before.is_some() {
                    set(&mut table);
                }
                let answer = table.set_flow_algorithms(source_group, any_source);
                if may {
                    accepted += 1;
                    assert_eq!(answer, Ok(()));
                    assert_eq!(numbers(&table), Some([source_group, any_source]));
                } else {
                    assert_eq!(answer, Err(Refusal::Algorithm));
                    assert_eq!(numbers(&table), before);
                }
            }
        }
    }
    assert_eq!(accepted, 2 * 27 * 26);
}

#[test]
fn a_reserved_table_takes_them_and_a_fresh_one_has_none() {
    for esi in [[0x00; 10], [0xFF; 10]] {
        let (answer, mut table) = Table::fresh(&esi);
        assert_eq!(answer, Err(Refusal::ReservedEsi));
        set(&mut table);
        assert_eq!(numbers(&table), Some(SET));
        for flow in FLOWS {
            let answer = flows::elect(&table, flow, 1, &[]);
            assert_eq!(answer, Err(Refusal::NoEligible));
        }
        assert_eq!(numbers(&Table::fresh(&esi).1), None);
    }
}

/// Announcements and withdrawals leave the numbers alone.
#[test]
fn routes_come_and_go_under_the_numbers() {
    let mut table = three(SET[0], false);
    assert_eq!(table.withdraw(ten(1)), Ok(()));
    assert_eq!(table.withdraw(ten(1)), Err(Refusal::NotPresent));
    announce(&mut table, ten(4), &[]);
    assert_eq!(numbers(&table), Some(SET));
}

/// The octets go over in their order: of a text whose CRC-32 is published, cut at the fields.
#[test]
fn digests_of_published_texts() {
    let fox = b"The quick brown fox jumps over the lazy dog";
    let (flow, rest) = fox.split_at(29);
    let (tag, esi) = rest.split_first_chunk::<4>().unwrap();
    let (tag, esi) = (u32::from_be_bytes(*tag), esi.try_into().unwrap());
    for cut in 0..=flow.len() {
        let (source, group) = flow.split_at(cut);
        let flow = Flow::SourceGroup { source, group };
        assert_eq!(flow.digest(tag, esi), 0x414F_A339);
    }
    assert_eq!(
        Flow::AnySource { group: flow }.digest(tag, esi),
        0x414F_A339
    );
    // the top bit of FF6CAB0B is dropped
    let group = &[0xFF; 18];
    let ones = Flow::AnySource { group };
    assert_eq!(ones.digest(u32::MAX, &[0xFF; 10]), 0x7F6C_AB0B);
}

/// A flow, a tag, the digest, the weights of 10.0.0.1 to .3, and which of them wins.
type Case = (Flow<'static>, u32, u32, [u32; 3], u8);

const CASES: [Case; 8] = [
    (
        SG4,
        5,
        0x4658_E644,
        [401_089_651, 1_658_136_132, 1_661_269_165],
        3,
    ),
    (
        SG4,
        100,
        0x5702_AFBC,
        [1_671_373_899, 185_304_764, 974_927_301],
        1,
    ),
    (
        SG6,
        1,
        0x3B3C_8115,
        [1_949_931_888, 2_061_394_631, 551_315_370],
        2,
    ),
    (
        SG6,
        5,
        0x0BE5_F297,
        [717_213_462, 407_008_109, 1_135_636_740],
        3,
    ),
    (
        ANY4,
        5,
        0x11E5_0C35,
        [1_991_426_768, 860_160_359, 1_908_371_018],
        1,
    ),
    (
        ANY4,
        100,
        0x00BF_45CD,
        [175_838_920, 1_683_561_151, 1_626_197_250],
        2,
    ),
    (
        ANY6,
        4_094,
        0x2C21_D6E8,
        [1_967_037_807, 475_894_808, 1_088_902_529],
        1,
    ),
    (
        ANY6,
        u32::MAX - 1,
        0x6ACA_5C0B,
        [730_442_210, 1_909_540_721, 2_123_497_576],
        3,
    ),
];

#[test]
fn digests_weights_and_winners() {
    for (flow, tag, digest, weights, winner) in CASES {
        assert_eq!(flow.digest(tag, &ESI), digest);
        let own = [1, 2, 3].map(|last| weight(ten(last), digest));
        assert_eq!(own, weights);
        let number = if is_source_group(flow) {
            SET[0]
        } else {
            SET[1]
        };
        let expected = answer(ten(winner), number, 3, 0b111);
        assert_eq!(
            flows::elect(&three(number, false), flow, tag, &[]),
            expected
        );
    }
}

/// Under an agreement on a number set a plain query is algorithm 1's, and says so.
#[test]
fn plain_queries_use_algorithm_1() {
    for number in SET {
        for ac_df in [false, true] {
            let (table, by_weight) = (three(number, ac_df), three(1, ac_df));
            for ready in [&[][..], &[ten(1), ten(2)]] {
                for tag in [0, 1, 5, 100, u32::MAX] {
                    let expected = election::elect(&by_weight, tag, ready);
                    assert_eq!(election::elect(&table, tag, ready), expected);
                }
            }
        }
    }
    let by_weight = election::elect(&three(SET[0], false), 100, &[]);
    assert_eq!(by_weight, answer(ten(1), 1, 3, 0b111));
}

/// The election over both tables is a plain query.
#[test]
fn the_election_over_both_tables_is_plain() {
    let mut ready = Circuits::fresh();
    for address in [ten(1), ten(2)] {
        assert_eq!(ready.announce(Circuit::PerSegment { address }), Ok(()));
        let route = Circuit::PerInstance { tag: 5, address };
        assert_eq!(ready.announce(route), Ok(()));
    }
    for number in SET {
        let elected = circuits::elect(&three(number, true), &ready, 5);
        assert_eq!(elected, answer(ten(1), 1, 2, 0b011));
        let elected = circuits::elect(&three_unset(number, true), &ready, 5);
        assert_eq!(elected, answer(ten(3), 0, 3, 0b111));
    }
}

/// A flow query of the other kind, and every one without an agreement on a number set, is plain.
#[test]
fn every_other_flow_query_is_plain() {
    for (number, others) in [(SET[0], [ANY4, ANY6]), (SET[1], [SG4, SG6])] {
        for ac_df in [false, true] {
            let table = three(number, ac_df);
            for flow in others {
                for ready in [&[][..], &[ten(1)], &[ten(2), ten(3)]] {
                    let plain = election::elect(&table, 100, ready);
                    assert_eq!(flows::elect(&table, flow, 100, ready), plain);
                }
            }
        }
    }
    for algorithm in (0..=31).filter(|algorithm| !SET.contains(algorithm)) {
        all_as_plain(&three(algorithm, false));
        all_as_plain(&three(algorithm, true));
    }
    let mut torn = three(SET[0], true);
    announce(&mut torn, ten(4), &community_octets(SET[1], true, false, 0));
    all_as_plain(&torn);
    announce(
        &mut torn,
        ten(4),
        &community_octets(SET[0], false, false, 0),
    );
    all_as_plain(&torn);
    announce(&mut torn, ten(4), &community_octets(SET[0], true, true, 9));
    assert_eq!(algorithm_in_use(&torn), (SET[0], true));
}

/// AC-DF as the routes say, also under a number set: N, the set and 12 go by the ready list.
#[test]
fn ac_df_is_in_use_with_a_number() {
    let table = three(SET[0], true);
    let ready = [ten(2), ten(1), ten(9)];
    let elected = flows::elect(&table, SG4, 5, &ready);
    assert_eq!(elected, answer(ten(2), SET[0], 2, 0b011));
    assert_eq!(
        flows::elect(&table, SG4, 5, &[ten(9)]),
        Err(Refusal::NoEligible)
    );
    let all = flows::elect(&three(SET[0], false), SG4, 5, &[ten(9)]);
    assert_eq!(all, answer(ten(3), SET[0], 3, 0b111));
}

/// Setting acts at once upon routes that stand, and on those numbers alone that it set last.
#[test]
fn setting_acts_at_once() {
    let mut table = three_unset(7, true);
    assert_eq!(algorithm_in_use(&table), (0, false));
    let steps = [
        (7, 8, true),
        (8, 7, true),
        (8, 9, false),
        (7, 7, false),
        (6, 7, true),
    ];
    for (source_group, any_source, is_agreed) in steps {
        let _ = table.set_flow_algorithms(source_group, any_source);
        let expected = if is_agreed { (7, true) } else { (0, false) };
        assert_eq!(algorithm_in_use(&table), expected);
    }
    let ready = [ten(1), ten(2), ten(3)];
    let elected = flows::elect(&table, ANY4, 5, &ready);
    assert_eq!(elected, answer(ten(1), 7, 3, 0b111));
}

/// 10, then 11, then 18, then 12, whatever a table agrees on and whether numbers are set or not.
#[test]
fn checks_in_order() {
    let (short, long) = (&[0; 3][..], &[0; 17][..]);
    let wrong = [
        Flow::SourceGroup {
            source: &S4,
            group: &G6,
        },
        Flow::SourceGroup {
            source: &S6,
            group: &G4,
        },
        Flow::SourceGroup {
            source: short,
            group: short,
        },
        Flow::AnySource { group: long },
        Flow::AnySource { group: &[] },
    ];
    let no_one = [ten(9); 64];
    let tables = [fresh(), three(SET[0], true), three(SET[1], true)];
    for table in tables {
        for flow in FLOWS.into_iter().chain(wrong) {
            let told = |tag, ready: &[Address]| flows::elect(&table, flow, tag, ready).err();
            for tag in [0, u32::MAX] {
                assert_eq!(told(tag, &[ten(9); 65]), Some(Refusal::ReservedTag));
                assert_eq!(told(tag, &no_one), Some(Refusal::ReservedTag));
            }
            assert_eq!(told(1, &[ten(9); 65]), Some(Refusal::ReadyLength));
            let last = if wrong.contains(&flow) {
                Refusal::FlowLength
            } else {
                Refusal::NoEligible
            };
            assert_eq!(told(1, &no_one), Some(last));
        }
    }
}

/// Every pair of lengths from 0 to 33, and every length of a group alone, in every kind of table.
#[test]
fn every_length_of_source_and_group() {
    let octets = [0x55; 33];
    let tables = [
        three(SET[0], false),
        three(SET[1], false),
        three(2, false),
        three(31, false),
        three_unset(SET[0], false),
    ];
    for table in tables {
        for group in (0..=33).map(|length| &octets[..length]) {
            let fits = group.len() == 4 || group.len() == 16;
            let told = |flow| flows::elect(&table, flow, 5, &[]).err();
            let refused = |fits: bool| (!fits).then_some(Refusal::FlowLength);
            assert_eq!(told(Flow::AnySource { group }), refused(fits));
            for source in (0..=33).map(|length| &octets[..length]) {
                let fits = fits && source.len() == group.len();
                assert_eq!(told(Flow::SourceGroup { source, group }), refused(fits));
            }
        }
    }
}

/// Ties go to the lowest address, as under algorithm 1.
#[test]
fn ties_go_to_the_lowest_address() {
    let tied = [ten(1), Address::V4(0x8A00_0001), mapped(0x0A00_0001)];
    let routes: Vec<_> = tied
        .iter()
        .map(|one| (*one, SET[1], false, false, 0))
        .collect();
    let mut table = table_of(&routes);
    set(&mut table);
    for tag in 1..50 {
        let elected = flows::elect(&table, ANY4, tag, &[]);
        assert_eq!(elected, answer(ten(1), SET[1], 3, 0b111));
    }
}
