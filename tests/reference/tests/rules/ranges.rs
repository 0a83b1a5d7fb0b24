//! Ranges of tags: which may be set, which tags they override and where, and the two references of
//! a returning router.

use crate::common::*;
use reference::address::Address;
use reference::circuits::{self, Circuit, Circuits};
use reference::election::{self, algorithm_in_use};
use reference::flows::{self, Flow};
use reference::ranges::Range;
use reference::refusal::Refusal;
use reference::returning::{advertise, Advertised};
use reference::table::Table;

const HIGHEST: u8 = 2;
const LOWEST: u8 = 3;
const TOP: u32 = u32::MAX - 1;

/// 10.0.0.1 has the lowest preference and 10.0.0.2 the highest.
fn three(algorithm: u8) -> Table {
    preference_table(
        algorithm,
        &[
            (ten(1), 100, true),
            (ten(2), 300, true),
            (ten(3), 200, true),
        ],
    )
}

fn set(table: &mut Table, run: &[u32]) {
    assert_eq!(table.set_ranges(run), Ok(()), "{run:?}");
}

/// Whether ranges may be set. On a table with one set, which is kept if not, and on one with none.
fn may_be_set(run: &[u32]) -> bool {
    let mut table = three(HIGHEST);
    let answer = table.set_ranges(run);
    let mut with_old = three(HIGHEST);
    set(&mut with_old, &[40, 50, 3]);
    let old = with_old.clone();
    assert_eq!(with_old.set_ranges(run), answer);
    if answer.is_ok() {
        assert_eq!(with_old, table);
        let rows = table.ranges().as_slice().iter();
        let numbers = |row: &Range| [row.first, row.last, row.algorithm.into()];
        assert_eq!(rows.flat_map(numbers).collect::<Vec<u32>>(), run);
    } else {
        assert_eq!(answer, Err(Refusal::Ranges));
        assert_eq!(table, three(HIGHEST));
        assert_eq!(with_old, old);
    }
    answer.is_ok()
}

/// So many ranges of one tag each, which touch.
fn one_tag_each(ranges: u32) -> Vec<u32> {
    (1..=ranges)
        .flat_map(|tag| [tag, tag, 2 + tag % 2])
        .collect()
}

#[test]
fn number_20() {
    assert_eq!(Refusal::Ranges.number(), 20);
}

#[test]
fn at_first_none_is_set_and_an_empty_run_clears() {
    assert!(fresh().ranges().is_empty());
    let mut table = three(HIGHEST);
    set(&mut table, &[1, 8, 3]);
    assert_eq!(elected(&table, 8), Ok(ten(1)));
    set(&mut table, &[]);
    assert_eq!(table, three(HIGHEST));
    assert_eq!(elected(&table, 8), Ok(ten(2)));
}

#[test]
fn ends_of_a_range() {
    for (first, last, may) in [
        (1, TOP, true),
        (1, 1, true),
        (TOP, TOP, true),
        (7, 9, true),
        (9, 7, false),
        (2, 1, false),
        (0, 0, false),
        (0, 1, false),
        (0, u32::MAX, false),
        (1, u32::MAX, false),
        (u32::MAX, u32::MAX, false),
        (u32::MAX, 1, false),
        (TOP, 1, false),
    ] {
        for says in [2, 3] {
            assert_eq!(may_be_set(&[first, last, says]), may, "{first} to {last}");
            let beside = !(first..=last).contains(&9_999);
            let run = [9_999, 9_999, 2, first, last, says];
            assert_eq!(may_be_set(&run), may && beside, "{run:?}");
        }
    }
}

#[test]
fn only_2_and_3_are_named() {
    let more = [
        258,
        259,
        2 << 8,
        3 << 16,
        0x0200_0000,
        u32::MAX,
        u32::MAX - 1,
    ];
    for says in (0..=256).chain(more) {
        let may = says == 2 || says == 3;
        assert_eq!(may_be_set(&[1, 8, says]), may);
        assert_eq!(may_be_set(&[1, 8, 2, 9, 16, says]), may);
        assert_eq!(may_be_set(&[1, 8, says, 9, 16, 3]), may);
    }
}

#[test]
fn overlaps() {
    for (one, other, may) in [
        ([1, 8], [9, 16], true),
        ([1, 8], [8, 16], false),
        ([1, 8], [7, 16], false),
        ([1, 8], [1, 8], false),
        ([1, 8], [3, 5], false),
        ([1, 8], [8, 8], false),
        ([1, 8], [1, 1], false),
        ([1, 1], [2, 2], true),
        ([1, TOP - 1], [TOP, TOP], true),
        ([1, TOP], [TOP, TOP], false),
    ] {
        for [a, b] in [[one, other], [other, one]] {
            for says in [[2, 2], [2, 3], [3, 2]] {
                let run = [a[0], a[1], says[0], b[0], b[1], says[1]];
                assert_eq!(may_be_set(&run), may, "{run:?}");
                // beside others, and not next to each other
                let run = [&run[..3], &[1 << 20, 1 << 21, 2], &run[3..]].concat();
                let below = a[1].max(b[1]) < 1 << 20;
                assert_eq!(may_be_set(&run), may && below, "{run:?}");
            }
        }
    }
}

#[test]
fn lengths_of_the_run() {
    let numbers = one_tag_each(30);
    for length in 0..=numbers.len() {
        let may = length % 3 == 0 && length <= 48;
        assert_eq!(may_be_set(&numbers[..length]), may, "{length} numbers");
    }
}

#[test]
fn every_tag_of_a_range_and_no_other() {
    for (carried, outside) in [(HIGHEST, ten(2)), (LOWEST, ten(1))] {
        let mut table = three(carried);
        set(&mut table, &[20, 22, 3, 5, 8, 2, 9, 9, 3, TOP - 1, TOP, 2]);
        for tag in (1..=30).chain(TOP - 4..=TOP) {
            let named = match tag {
                5..=8 => Some(HIGHEST),
                9 | 20..=22 => Some(LOWEST),
                _ if tag >= TOP - 1 => Some(HIGHEST),
                _ => None,
            };
            let winner = named.map_or(
                outside,
                |named| if named == HIGHEST { ten(2) } else { ten(1) },
            );
            let algorithm = named.unwrap_or(carried);
            let expected = answer(winner, algorithm, 3, 0b111);
            assert_eq!(election::elect(&table, tag, &[]), expected, "tag {tag}");
        }
        for tag in [0, u32::MAX] {
            assert_eq!(election::elect(&table, tag, &[]), Err(Refusal::ReservedTag));
        }
    }
}

/// Under 0, 1, a number set for flows and anything else no range acts.
#[test]
fn under_2_and_3_alone() {
    let group = [232, 1, 2, 3];
    for numbers in [None, Some((20, 9)), Some((4, 30))] {
        for algorithm in 0..=31 {
            for ac_df in [false, true] {
                let mut table = table_of(&[
                    (ten(1), algorithm, ac_df, false, 100),
                    (ten(2), algorithm, ac_df, false, 300),
                ]);
                if let Some((source_group, any_source)) = numbers {
                    let answer = table.set_flow_algorithms(source_group, any_source);
                    assert_eq!(answer, Ok(()));
                }
                let without = table.clone();
                set(&mut table, &[1, 8, 3, 9, 16, 2]);
                assert_eq!(algorithm_in_use(&table), algorithm_in_use(&without));
                for tag in [1, 8, 9, 16, 17] {
                    for ready in [&[][..], &[ten(1)], &[ten(2), ten(1)]] {
                        let flow = Flow::AnySource { group: &group };
                        let plain = election::elect(&table, tag, ready);
                        let by_flow = flows::elect(&table, flow, tag, ready);
                        if algorithm == 2 || algorithm == 3 {
                            let named = [3, 2, algorithm][(tag as usize - 1) / 8];
                            assert_eq!(plain.map_or(named, |told| told.algorithm), named);
                            assert_eq!(by_flow, plain);
                        } else {
                            assert_eq!(plain, election::elect(&without, tag, ready));
                            assert_eq!(by_flow, flows::elect(&without, flow, tag, ready));
                        }
                    }
                }
            }
        }
    }
}

/// Routes of which one carries Lowest do not agree, and no range makes them.
#[test]
fn no_range_acts_without_an_agreement() {
    let mut table = three(HIGHEST);
    announce(
        &mut table,
        ten(3),
        &community_octets(LOWEST, false, true, 200),
    );
    let without = table.clone();
    set(&mut table, &[1, TOP, 3]);
    for tag in 1..20 {
        assert_eq!(
            election::elect(&table, tag, &[]),
            election::elect(&without, tag, &[])
        );
        assert_eq!(
            election::elect(&table, tag, &[]).map(|told| told.algorithm),
            Ok(0)
        );
    }
}

/// With AC-DF the range's rule goes over those that are ready; N, the set and 12 are as before.
#[test]
fn ac_df_and_both_tables() {
    let mut table = table_of(&[
        (ten(1), HIGHEST, true, false, 100),
        (ten(2), HIGHEST, true, false, 300),
        (ten(3), HIGHEST, true, false, 200),
    ]);
    set(&mut table, &[5, 6, 3]);
    let ready = [ten(3), ten(2)];
    assert_eq!(
        election::elect(&table, 4, &ready),
        answer(ten(2), 2, 2, 0b110)
    );
    assert_eq!(
        election::elect(&table, 5, &ready),
        answer(ten(3), 3, 2, 0b110)
    );
    assert_eq!(
        election::elect(&table, 5, &[ten(9)]),
        Err(Refusal::NoEligible)
    );
    let mut beside = Circuits::fresh();
    for address in ready {
        assert_eq!(beside.announce(Circuit::PerSegment { address }), Ok(()));
        for tag in [6, 7] {
            assert_eq!(
                beside.announce(Circuit::PerInstance { tag, address }),
                Ok(())
            );
        }
    }
    assert_eq!(
        circuits::elect(&table, &beside, 5),
        Err(Refusal::NoEligible)
    );
    assert_eq!(
        circuits::elect(&table, &beside, 6),
        answer(ten(3), 3, 2, 0b110)
    );
    assert_eq!(
        circuits::elect(&table, &beside, 7),
        answer(ten(2), 2, 2, 0b110)
    );
}

#[test]
fn a_fresh_table_has_none_and_a_reserved_one_takes_them() {
    for esi in [[0x00; 10], [0xFF; 10]] {
        let (answer, mut table) = Table::fresh(&esi);
        assert_eq!(answer, Err(Refusal::ReservedEsi));
        set(&mut table, &[1, 8, 3]);
        assert_eq!(table.ranges().as_slice().len(), 1);
        assert_eq!(elected(&table, 1), Err(Refusal::NoEligible));
    }
}

fn sent(table: &Table, own: Address, algorithm: u8, pair: (u16, bool)) -> (u16, bool) {
    let (preference, dp) = pair;
    let own = advertise(table, own, algorithm, Advertised { preference, dp });
    own.map(|pair| (pair.preference, pair.dp)).expect("a pair")
}

/// Both references under either own algorithm, and whatever the ranges name.
#[test]
fn both_references() {
    for algorithm in [HIGHEST, LOWEST] {
        for run in [[1, 1, 2], [1, 1, 3], [1, TOP, 2], [1, TOP, 3]] {
            let mut table =
                preference_table(algorithm, &[(ten(1), 100, true), (ten(2), 200, true)]);
            set(&mut table, &run);
            for (own, expected) in [
                (0, (100, false)),
                (99, (100, false)),
                (100, (100, false)),
                (101, (101, true)),
                (199, (199, true)),
                (200, (200, false)),
                (201, (200, false)),
                (65_535, (200, false)),
            ] {
                assert_eq!(sent(&table, ten(3), algorithm, (own, true)), expected);
                assert_eq!(sent(&table, ten(3), algorithm, (own, false)), (own, false));
            }
            // without ranges one reference only, again
            set(&mut table, &[]);
            let (low, high) = ((50, true), (250, true));
            let expected = match algorithm {
                HIGHEST => [(50, true), (200, false)],
                _ => [(100, false), (250, true)],
            };
            assert_eq!(sent(&table, ten(3), algorithm, low), expected[0]);
            assert_eq!(sent(&table, ten(3), algorithm, high), expected[1]);
        }
    }
}

/// A reference counts only if its own DP is set.
#[test]
fn references_with_dp_clear() {
    for algorithm in [HIGHEST, LOWEST] {
        for (low_dp, high_dp) in [(false, true), (true, false), (false, false)] {
            let mut table =
                preference_table(algorithm, &[(ten(1), 100, low_dp), (ten(2), 200, high_dp)]);
            set(&mut table, &[9, 9, 2]);
            let low = if low_dp { (100, false) } else { (50, true) };
            let high = if high_dp { (200, false) } else { (250, true) };
            assert_eq!(sent(&table, ten(3), algorithm, (50, true)), low);
            assert_eq!(sent(&table, ten(3), algorithm, (250, true)), high);
            assert_eq!(sent(&table, ten(3), algorithm, (150, true)), (150, true));
        }
        // at equal preferences the one with DP set is the reference by either rule
        let mut table = preference_table(algorithm, &[(ten(1), 100, false), (ten(2), 100, true)]);
        set(&mut table, &[9, 9, 2]);
        for own in [50, 100, 150] {
            assert_eq!(sent(&table, ten(3), algorithm, (own, true)), (100, false));
        }
    }
}

/// The checks that come before the reference are as without ranges, and the own entry is passed over.
#[test]
fn what_comes_before_the_references() {
    let pair = Advertised {
        preference: 300,
        dp: true,
    };
    let mut alone = preference_table(HIGHEST, &[(ten(3), 200, true)]);
    set(&mut alone, &[1, 8, 3]);
    assert_eq!(sent(&alone, ten(3), HIGHEST, (300, true)), (300, true));
    assert_eq!(sent(&alone, ten(4), HIGHEST, (300, true)), (200, false));
    assert_eq!(sent(&alone, ten(4), LOWEST, (300, true)), (300, true));
    for algorithm in (0..=255).filter(|one| *one != 2 && *one != 3) {
        let zero = Address::V4(0);
        assert_eq!(
            advertise(&alone, zero, algorithm, pair),
            Err(Refusal::Algorithm)
        );
    }
    assert_eq!(
        advertise(&alone, Address::V6(0), 3, pair),
        Err(Refusal::ZeroAddress)
    );
    let mut torn = table_of(&[(ten(1), 2, false, true, 200), (ten(2), 3, false, true, 100)]);
    set(&mut torn, &[1, 8, 3]);
    for own in [50, 100, 200, 300] {
        assert_eq!(sent(&torn, ten(3), HIGHEST, (own, true)), (own, true));
        assert_eq!(sent(&torn, ten(3), LOWEST, (own, true)), (own, true));
    }
    assert_eq!(sent(&torn, ten(2), HIGHEST, (50, true)), (200, false));
}
