//! The Ethernet A-D routes, and the election over both tables.

use crate::common::*;
use reference::address::Address::{self, V4, V6};
use reference::circuits::{elect, Circuit, Circuits};
use reference::election;
use reference::refusal::Refusal;
use reference::table::Table;

const RESERVED_TAGS: [u32; 2] = [0, u32::MAX];

fn segment(address: Address) -> Circuit {
    Circuit::PerSegment { address }
}

fn instance(tag: u32, address: Address) -> Circuit {
    Circuit::PerInstance { tag, address }
}

/// A table of these routes, each of them accepted.
fn circuits_of(routes: &[Circuit]) -> Circuits {
    let mut circuits = Circuits::fresh();
    for route in routes {
        assert_eq!(circuits.announce(*route), Ok(()));
    }
    circuits
}

/// A table in which these routers have both their routes for a tag.
fn ready_for(tag: u32, routers: &[Address]) -> Circuits {
    let both = |address: &Address| [segment(*address), instance(tag, *address)];
    let routes: Vec<Circuit> = routers.iter().flat_map(both).collect();
    circuits_of(&routes)
}

/// 256 routes: 128 of each kind, for tag 7.
fn full_circuits() -> Circuits {
    let routers: Vec<Address> = (1..=128).map(ten).collect();
    let circuits = ready_for(7, &routers);
    assert_eq!(circuits.routes().len(), 256);
    circuits
}

/// 10.0.0.1 to .3, all under one algorithm and one AC-DF bit, preferences 100, 300 and 200.
fn three(algorithm: u8, ac_df: bool) -> Table {
    table_of(&[
        (ten(1), algorithm, ac_df, false, 100),
        (ten(2), algorithm, ac_df, false, 300),
        (ten(3), algorithm, ac_df, false, 200),
    ])
}

#[test]
fn a_fresh_table_is_empty() {
    assert!(Circuits::fresh().routes().is_empty());
}

#[test]
fn checks_of_an_announcement_in_order() {
    for faults in 0..8u32 {
        let [full, reserved, zero] = [0, 1, 2].map(|bit| faults >> bit & 1 == 1);
        for tag in RESERVED_TAGS {
            for (own, nothing) in [(ten(200), V4(0)), (six(200), V6(0))] {
                let start = || {
                    if full {
                        full_circuits()
                    } else {
                        Circuits::fresh()
                    }
                };
                let address = if zero { nothing } else { own };
                let tag = if reserved { tag } else { 8 };
                let order = [
                    (zero, Refusal::ZeroAddress),
                    (reserved, Refusal::ReservedTag),
                    (full, Refusal::TableFull),
                ];
                let first = |faults: &[(bool, Refusal)]| {
                    let refused = faults.iter().find(|(is_there, _)| *is_there);
                    refused.map_or(Ok(()), |(_, refusal)| Err(*refusal))
                };
                let told = |route: Circuit| {
                    let mut circuits = start();
                    let answer = circuits.announce(route);
                    let changed = circuits != start();
                    assert_eq!(changed, answer.is_ok(), "{route:?}");
                    answer
                };
                assert_eq!(told(instance(tag, address)), first(&order));
                // a per-segment route has no tag to be refused
                assert_eq!(told(segment(address)), first(&[order[0], order[2]]));
            }
        }
    }
}

#[test]
fn checks_of_a_withdrawal_in_order() {
    let there = [
        segment(ten(1)),
        instance(7, ten(1)),
        segment(six(1)),
        instance(7, six(1)),
    ];
    for circuits in [Circuits::fresh(), circuits_of(&there), full_circuits()] {
        let told = |route| {
            let mut after = circuits.clone();
            let answer = after.withdraw(route);
            assert_eq!(after == circuits, answer.is_err());
            answer
        };
        for address in [V4(0), V6(0)] {
            assert_eq!(told(segment(address)), Err(Refusal::ZeroAddress));
            for tag in [0, 7, u32::MAX] {
                assert_eq!(told(instance(tag, address)), Err(Refusal::ZeroAddress));
            }
        }
        for address in [ten(1), six(1), ten(200), six(200)] {
            for tag in RESERVED_TAGS {
                assert_eq!(told(instance(tag, address)), Err(Refusal::ReservedTag));
            }
            assert_eq!(told(instance(6, address)), Err(Refusal::NotPresent));
        }
        assert_eq!(told(segment(six(200))), Err(Refusal::NotPresent));
        assert_eq!(told(instance(7, six(200))), Err(Refusal::NotPresent));
    }
    let mut circuits = circuits_of(&there);
    for route in there {
        assert_eq!(circuits.withdraw(route), Ok(()));
        assert_eq!(circuits.withdraw(route), Err(Refusal::NotPresent));
    }
    assert_eq!(circuits, Circuits::fresh());
}

#[test]
fn tags_at_the_limits() {
    for tag in [1, 2, 0x7FFF_FFFF, 0x8000_0000, 0xFFFF_FFFE] {
        let mut circuits = Circuits::fresh();
        assert_eq!(circuits.announce(instance(tag, ten(1))), Ok(()));
        assert_eq!(circuits.routes(), [instance(tag, ten(1))]);
        assert_eq!(circuits.withdraw(instance(tag, ten(1))), Ok(()));
    }
}

#[test]
fn a_route_already_present_is_accepted_again_even_at_256() {
    let full = full_circuits();
    let mut circuits = full.clone();
    for route in full.routes() {
        assert_eq!(circuits.announce(*route), Ok(()));
        assert_eq!(circuits, full);
    }
    let new = [
        segment(ten(129)),
        segment(six(1)),
        instance(8, ten(1)),
        instance(7, ten(129)),
    ];
    for route in new {
        assert_eq!(circuits.announce(route), Err(Refusal::TableFull));
        assert_eq!(circuits, full);
    }
}

#[test]
fn the_256_are_of_the_two_kinds_together() {
    for segments in [0, 1, 100, 255, 256] {
        let mut circuits = Circuits::fresh();
        for number in 1..=256 {
            let route = if number <= segments {
                segment(V4(number))
            } else {
                instance(number, six(1))
            };
            assert_eq!(circuits.announce(route), Ok(()));
        }
        assert_eq!(circuits.routes().len(), 256);
        for route in [segment(V4(257)), instance(257, six(1))] {
            assert_eq!(circuits.announce(route), Err(Refusal::TableFull));
        }
    }
}

#[test]
fn a_freed_place_can_be_filled_again() {
    let mut circuits = full_circuits();
    assert_eq!(circuits.withdraw(segment(ten(30))), Ok(()));
    assert_eq!(circuits.announce(instance(9, six(1))), Ok(()));
    assert_eq!(circuits.announce(segment(ten(30))), Err(Refusal::TableFull));
    assert_eq!(circuits.withdraw(instance(9, six(1))), Ok(()));
    assert_eq!(circuits.announce(segment(ten(30))), Ok(()));
    assert_eq!(circuits, full_circuits());
}

#[test]
fn withdrawing_a_per_segment_route_leaves_the_others() {
    let mut circuits = full_circuits();
    for last in 1..=128 {
        assert_eq!(circuits.withdraw(segment(ten(last))), Ok(()));
    }
    let left: Vec<Circuit> = (1..=128).map(|last| instance(7, ten(last))).collect();
    assert_eq!(circuits.routes(), left);
    // they still count: 128 more, and no 129th
    for last in 1..=128 {
        assert_eq!(circuits.announce(segment(six(last))), Ok(()));
    }
    assert_eq!(circuits.announce(segment(ten(1))), Err(Refusal::TableFull));
}

#[test]
fn withdrawing_a_per_instance_route_leaves_the_others() {
    let routes = [segment(ten(1)), instance(7, ten(1)), instance(8, ten(1))];
    let mut circuits = circuits_of(&routes);
    assert_eq!(circuits.withdraw(instance(7, ten(1))), Ok(()));
    assert_eq!(circuits.routes(), [routes[0], routes[2]]);
}

#[test]
fn routes_rise_by_kind_tag_and_address() {
    let rising = [
        segment(V4(1)),
        segment(V4(u32::MAX)),
        segment(V6(1)),
        segment(V6(u128::MAX)),
        instance(1, V4(u32::MAX)),
        instance(1, V6(1)),
        instance(2, V4(1)),
        instance(2, V6(u128::MAX)),
        instance(0x8000_0000, V4(1)),
        instance(0xFFFF_FFFE, V4(1)),
    ];
    assert_eq!(circuits_of(&rising).routes(), rising);
    let mut falling = rising;
    falling.reverse();
    assert_eq!(circuits_of(&falling).routes(), rising);
    // the way there leaves no trace
    let mut circuits = circuits_of(&falling);
    for route in rising {
        assert_eq!(circuits.withdraw(route), Ok(()));
        assert_eq!(circuits.announce(route), Ok(()));
    }
    assert_eq!(circuits, circuits_of(&rising));
}

#[test]
fn ready_needs_both_routes() {
    for address in [ten(1), six(1)] {
        let both = [segment(address), instance(7, address)];
        assert!(circuits_of(&both).is_ready(address, 7));
        assert!(!circuits_of(&both[..1]).is_ready(address, 7));
        assert!(!circuits_of(&both[1..]).is_ready(address, 7));
        assert!(!Circuits::fresh().is_ready(address, 7));
        // for another tag, and another router
        assert!(!circuits_of(&both).is_ready(address, 8));
        assert!(!circuits_of(&both).is_ready(ten(2), 7));
        // neither another router's per-segment route nor another tag's per-instance one helps
        let apart = [segment(ten(2)), instance(7, address)];
        assert!(!circuits_of(&apart).is_ready(address, 7));
        let elsewhere = [segment(address), instance(8, address)];
        assert!(!circuits_of(&elsewhere).is_ready(address, 7));
    }
}

#[test]
fn nobody_is_ready_for_a_reserved_tag() {
    let circuits = full_circuits();
    for tag in RESERVED_TAGS {
        assert!(!circuits.is_ready(ten(1), tag));
    }
}

#[test]
fn ready_routers_are_eligible_and_no_others() {
    let table = three(2, true);
    for up in 0..8u64 {
        let routers = [ten(1), ten(2), ten(3)];
        let is_up = |last: &usize| up >> last & 1 == 1;
        let ready: Vec<Address> = (0..3).filter(is_up).map(|place| routers[place]).collect();
        let expected = match up {
            0 => Err(Refusal::NoEligible),
            1 => answer(ten(1), 2, 1, up),
            2 | 3 | 6 | 7 => answer(ten(2), 2, up.count_ones(), up),
            _ => answer(ten(3), 2, up.count_ones(), up),
        };
        assert_eq!(elect(&table, &ready_for(7, &ready), 7), expected);
    }
}

#[test]
fn every_algorithm_elects_among_the_ready() {
    let ready = ready_for(7, &[ten(1), ten(3)]);
    // N is 2, and 7 mod 2 is 1
    assert_eq!(
        elect(&three(0, true), &ready, 7),
        answer(ten(3), 0, 2, 0b101)
    );
    assert_eq!(
        elect(&three(2, true), &ready, 7),
        answer(ten(3), 2, 2, 0b101)
    );
    assert_eq!(
        elect(&three(3, true), &ready, 7),
        answer(ten(1), 3, 2, 0b101)
    );
    for algorithm in 0..4 {
        let table = three(algorithm, true);
        let listed = election::elect(&table, 7, &[ten(3), ten(1)]);
        assert_eq!(elect(&table, &ready, 7), listed);
    }
}

#[test]
fn one_route_alone_makes_nobody_eligible() {
    let table = three(0, true);
    let segments = [1, 2, 3].map(|last| segment(ten(last)));
    let instances = [1, 2, 3].map(|last| instance(7, ten(last)));
    for routes in [&segments[..], &instances[..], &[]] {
        let circuits = circuits_of(routes);
        assert_eq!(elect(&table, &circuits, 7), Err(Refusal::NoEligible));
    }
    // a per-segment route that comes and goes
    let mut circuits = ready_for(7, &[ten(1), ten(2)]);
    assert_eq!(circuits.withdraw(segment(ten(2))), Ok(()));
    assert_eq!(elect(&table, &circuits, 7), answer(ten(1), 0, 1, 0b001));
    assert_eq!(circuits.announce(segment(ten(2))), Ok(()));
    assert_eq!(elect(&table, &circuits, 7), answer(ten(2), 0, 2, 0b011));
}

#[test]
fn ready_for_one_tag_is_not_ready_for_another() {
    let table = three(0, true);
    let circuits = circuits_of(&[
        segment(ten(1)),
        segment(ten(2)),
        instance(7, ten(1)),
        instance(8, ten(2)),
    ]);
    assert_eq!(elect(&table, &circuits, 7), answer(ten(1), 0, 1, 0b001));
    assert_eq!(elect(&table, &circuits, 8), answer(ten(2), 0, 1, 0b010));
    assert_eq!(elect(&table, &circuits, 9), Err(Refusal::NoEligible));
}

#[test]
fn routers_that_are_not_in_the_route_table_do_not_count() {
    let table = three(0, true);
    let strangers: Vec<Address> = (4..=100).map(ten).collect();
    let circuits = ready_for(7, &strangers);
    assert_eq!(elect(&table, &circuits, 7), Err(Refusal::NoEligible));
    // 128 are ready, three of them in the route table: no 11, and N is 3
    assert_eq!(
        elect(&table, &full_circuits(), 7),
        answer(ten(2), 0, 3, 0b111)
    );
}

#[test]
fn sixty_four_ready_routers_are_not_too_many() {
    let routers: Vec<Address> = (1..=64).map(ten).collect();
    let routes: Vec<_> = routers
        .iter()
        .map(|router| (*router, 0, true, false, 0))
        .collect();
    let table = table_of(&routes);
    assert_eq!(
        elect(&table, &full_circuits(), 7),
        answer(ten(8), 0, 64, u64::MAX)
    );
}

#[test]
fn without_ac_df_in_use_the_table_has_no_part() {
    let empty = Circuits::fresh();
    for algorithm in 0..4 {
        let table = three(algorithm, false);
        let plain = election::elect(&table, 7, &[]);
        assert!(plain.is_ok());
        for circuits in [&empty, &full_circuits(), &ready_for(7, &[ten(1)])] {
            assert_eq!(elect(&table, circuits, 7), plain);
        }
    }
    // not agreed on AC-DF, or on an algorithm of 4 or more: not in use either
    let differing = table_of(&[(ten(1), 2, true, false, 0), (ten(2), 2, false, false, 9)]);
    assert_eq!(elect(&differing, &empty, 7), answer(ten(2), 0, 2, 0b11));
    let unknown = table_of(&[(ten(1), 4, true, false, 0), (ten(2), 4, true, false, 9)]);
    assert_eq!(elect(&unknown, &empty, 7), answer(ten(2), 0, 2, 0b11));
}

#[test]
fn reserved_tags_are_refused_first() {
    let (_, empty) = Table::fresh(&ESI);
    for tag in RESERVED_TAGS {
        for table in [&empty, &three(0, true), &three(0, false)] {
            for circuits in [Circuits::fresh(), full_circuits()] {
                assert_eq!(elect(table, &circuits, tag), Err(Refusal::ReservedTag));
            }
        }
    }
    assert_eq!(elect(&empty, &full_circuits(), 7), Err(Refusal::NoEligible));
}

#[test]
fn an_ipv4_mapped_address_is_not_its_twin() {
    let twin = 0x0A00_0001;
    let alike = [
        V4(twin),
        V6(u128::from(twin)),
        mapped(twin),
        V6(0x0A00_0001 << 96),
    ];
    let routes: Vec<_> = alike
        .iter()
        .map(|address| (*address, 0, true, false, 0))
        .collect();
    let table = table_of(&routes);
    for (place, address) in alike.iter().enumerate() {
        let circuits = ready_for(7, &[*address]);
        let expected = answer(*address, 0, 1, 1 << place);
        assert_eq!(elect(&table, &circuits, 7), expected);
        for other in alike {
            assert_eq!(circuits.is_ready(other, 7), other == *address);
            // one route of each does not make a ready router of either
            if other != *address {
                let mixed = circuits_of(&[segment(*address), instance(7, other)]);
                assert_eq!(elect(&table, &mixed, 7), Err(Refusal::NoEligible));
            }
        }
    }
    let all = ready_for(7, &alike);
    assert_eq!(all.routes().len(), 8);
    assert_eq!(
        elect(&table, &all, 7),
        answer(V6(0x0A00_0001 << 96), 0, 4, 0b1111)
    );
}

#[test]
fn routers_of_both_families_are_ready_side_by_side() {
    let table = table_of(&[
        (ten(1), 2, true, false, 100),
        (ten(2), 2, true, false, 200),
        (six(1), 2, true, false, 300),
        (six(2), 2, true, false, 400),
    ]);
    let circuits = ready_for(7, &[six(1), ten(1), ten(2)]);
    assert_eq!(elect(&table, &circuits, 7), answer(six(1), 2, 3, 0b0111));
    let circuits = ready_for(7, &[ten(1), six(3)]);
    assert_eq!(elect(&table, &circuits, 7), answer(ten(1), 2, 1, 0b0001));
}
