//! Losing a bystander disturbs nobody: where all routes agree on algorithm 1, 2 or 3, or on a number
//! set for flows, and on AC-DF, the withdrawal of any router but the elected one leaves the elected
//! address and the algorithm told as they were. Document 02, M-107. Under algorithm 0 it is not so.

use crate::common::*;
use crate::random::*;
use reference::address::Address;
use reference::circuits::Circuits;
use reference::election::Election;
use reference::hrw;
use reference::refusal::Refusal;
use reference::table::Table;

/// What the routes may agree on.
const AGREED: [u8; 5] = [1, 2, 3, NUMBERS[0], NUMBERS[1]];

/// Routers that agree, with every preference and DP bit.
fn agreeing(random: &mut Random, routers: &[Address], algorithm: u8, ac_df: bool) -> Vec<Said> {
    let preferences = random.between(1, PREFERENCES.len());
    routers
        .iter()
        .map(|address| Said {
            address: *address,
            algorithm,
            ac_df,
            dp: random.chance(50),
            preference: random.pick(&PREFERENCES[..preferences]),
        })
        .collect()
}

/// Whether two routers stand alike but for their addresses.
fn tied(elected: &Said, other: &Said, told: &Election, tag: u32) -> bool {
    let weight = |route: &Said| hrw::weight(route.address, hrw::digest(tag, &ESI));
    match told.algorithm {
        2 | 3 => (elected.preference, elected.dp) == (other.preference, other.dp),
        _ => weight(elected) == weight(other),
    }
}

/// The table without one of its routers.
fn without(table: &Table, address: Address) -> Table {
    let mut left = table.clone();
    assert_eq!(left.withdraw(address), Ok(()));
    left
}

#[test]
fn losing_a_bystander_disturbs_nobody() {
    let mut random = Random::new(107);
    let mut tally = Tally::default();
    for round in 0..600 {
        let routers = match round % 150 {
            0 => 64,
            _ => random.between(2, 12),
        };
        let routers = random.addresses(routers);
        let (algorithm, ac_df) = (random.pick(&AGREED), random.chance(50));
        let routes = agreeing(&mut random, &routers, algorithm, ac_df);
        let mut table = table_that_holds(&routes);
        if algorithm > 3 || random.chance(50) {
            assert_eq!(table.set_flow_algorithms(NUMBERS[0], NUMBERS[1]), Ok(()));
        }
        let run = match random.chance(75) {
            true => random.ranges(),
            false => Vec::new(),
        };
        assert_eq!(table.set_ranges(&run), Ok(()));
        let tags = [0; 3].map(|_| random.tag_near(&run));
        let circuits = circuits_that_hold(&random.circuit_routes(&routers, &tags));
        for (tag, kind) in tags.iter().flat_map(|tag| KINDS.map(|kind| (*tag, kind))) {
            let query = random.query(kind, tag, &routers);
            let before = match query.ask(&table, &circuits) {
                Ok(before) => before,
                refused => {
                    assert_eq!(refused, Err(Refusal::NoEligible));
                    tally.note("none eligible");
                    continue;
                }
            };
            let elected = routes.iter().find(|one| one.address == before.address);
            let elected = elected.expect("a router of the table");
            for other in routes.iter().filter(|other| *other != elected) {
                let after = query.ask(&without(&table, other.address), &circuits);
                assert_eq!(
                    after.map(|after| (after.address, after.algorithm)),
                    Ok((before.address, before.algorithm)),
                    "{other:?} withdrawn, {query:?} of {table:?} beside {circuits:?}"
                );
                let entries = table.entries().iter();
                let place = entries.clone().position(|one| one.address == other.address);
                let candidate = before.candidates >> place.expect("a place") & 1 == 1;
                tally.note((algorithm, kind, "ranges", !run.is_empty()));
                tally.note((algorithm, kind, "AC-DF", ac_df, "a candidate", candidate));
                if candidate && tied(elected, other, &before, tag) {
                    tally.note((before.algorithm, "tied with the elected"));
                }
                if before.algorithm != algorithm && algorithm <= 3 {
                    tally.note((algorithm, kind, "by a range"));
                }
            }
        }
    }
    println!("{tally:#?}");
    tally.at_least(200, "none eligible");
    for algorithm in AGREED {
        for kind in KINDS {
            for ranges in [false, true] {
                tally.at_least(400, (algorithm, kind, "ranges", ranges));
            }
            for (ac_df, candidate) in [(false, true), (true, true), (true, false)] {
                let what = (algorithm, kind, "AC-DF", ac_df, "a candidate", candidate);
                tally.at_least(350, what);
            }
            if algorithm == 2 || algorithm == 3 {
                tally.at_least(350, (algorithm, kind, "by a range"));
            }
        }
    }
    for (told, least) in [
        (1, 500),
        (2, 800),
        (3, 800),
        (NUMBERS[0], 40),
        (NUMBERS[1], 40),
    ] {
        tally.at_least(least, (told, "tied with the elected"));
    }
}

/// A disturbance: how many routers the table has, the tag, the router withdrawn, and who is elected
/// before and after.
type Disturbed = (usize, u32, Address, Address, Address);

/// All disturbances for a tag among these routers, which carry algorithm 0.
fn disturbances(routers: &[Address], ac_df: bool, ready: &[Address], tag: u32) -> Vec<Disturbed> {
    let said = |address: &Address| (*address, 0, ac_df, false, 0);
    let table = table_of(&routers.iter().map(said).collect::<Vec<_>>());
    let query = Query {
        kind: Kind::Plain,
        tag,
        ready: ready.to_vec(),
        source: Vec::new(),
        group: Vec::new(),
    };
    let elected = |table: &Table| query.ask(table, &Circuits::fresh());
    let Ok(before) = elected(&table) else {
        return Vec::new();
    };
    let others = routers.iter().filter(|other| **other != before.address);
    others
        .filter_map(|other| {
            let after = elected(&without(&table, *other)).expect("one is left");
            let disturbed = after.address != before.address;
            disturbed.then_some((routers.len(), tag, *other, before.address, after.address))
        })
        .collect()
}

/// Of these, those that the bits of a number say.
fn chosen(routers: &[Address], bits: usize) -> Vec<Address> {
    let places = (0..routers.len()).filter(|place| bits >> place & 1 == 1);
    places.map(|place| routers[place]).collect()
}

/// Every table of some of 10.0.0.1 to .3, the small ones first, the tags from 1. Two routers never
/// show it: the one that is left is the elected one. The least are three routers at tag 1:
/// 10.0.0.2 is elected, and 10.0.0.3 once 10.0.0.1 is withdrawn. At three there is one for four tags
/// in six, since the places of three and of two routers come round together after six.
#[test]
fn under_algorithm_0_a_bystander_counts() {
    let all = [ten(1), ten(2), ten(3)];
    let mut sets: Vec<usize> = (1..8).collect();
    sets.sort_by_key(|bits| bits.count_ones());
    let mut found = Vec::new();
    for bits in sets {
        for tag in 1..=12 {
            found.extend(disturbances(&chosen(&all, bits), false, &[], tag));
        }
    }
    assert!(found.iter().all(|(routers, ..)| *routers == 3));
    let first = [
        (3, 1, ten(1), ten(2), ten(3)),
        (3, 2, ten(1), ten(3), ten(2)),
        (3, 2, ten(2), ten(3), ten(1)),
        (3, 3, ten(2), ten(1), ten(3)),
        (3, 3, ten(3), ten(1), ten(2)),
        (3, 4, ten(3), ten(2), ten(1)),
    ];
    assert_eq!(found[..6], first);
    let again = first.map(|(routers, tag, other, before, after)| {
        // the same once more six tags on
        (routers, tag + 6, other, before, after)
    });
    assert_eq!(found[6..], again);
}

/// With AC-DF three must be ready: then the least is the same.
#[test]
fn under_algorithm_0_a_bystander_that_is_ready_counts() {
    let all = [ten(1), ten(2), ten(3)];
    for bits in 0..8usize {
        let ready = chosen(&all, bits);
        let found: Vec<_> = (1..=12)
            .flat_map(|tag| disturbances(&all, true, &ready, tag))
            .collect();
        let least = (3, 1, ten(1), ten(2), ten(3));
        assert_eq!(found.first(), (bits == 7).then_some(&least));
    }
}
