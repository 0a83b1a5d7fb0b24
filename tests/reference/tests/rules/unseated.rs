//! A returning router unseats no elected router whose DP is set: under 2 or 3, once it announces the
//! pair that the returning call computes, or is refused for a full table. Document 02, M-107. With
//! the elected router's DP clear, or with the administrative pair announced, it may unseat.

use crate::common::*;
use crate::random::*;
use reference::address::Address;
use reference::community::Community;
use reference::refusal::Refusal;
use reference::returning::{advertise, Advertised};
use reference::route;
use reference::table::Table;

/// The table after a router's announcement of a pair, in the octets that the writers write, and what
/// was answered to it.
fn after_return(
    table: &Table,
    address: Address,
    algorithm: u8,
    pair: Advertised,
) -> (Table, Result<(), Refusal>) {
    let mut route = vec![0; 37];
    assert_eq!(route::write(&[7; 8], &ESI, address, &mut route), Ok(()));
    route.truncate(21 + address.octets().len());
    let community = Community {
        algorithm,
        ac_df: false,
        dp: pair.dp,
        preference: pair.preference,
    };
    let mut after = table.clone();
    let answer = after.announce(&route, &written(&community));
    (after, answer)
}

/// How a pair that is sent differs from the administrative one.
fn change(own: Advertised, sent: Advertised) -> &'static str {
    match sent.preference.cmp(&own.preference) {
        _ if sent == own => "own pair",
        std::cmp::Ordering::Less => "preference lowered",
        std::cmp::Ordering::Equal => "DP alone given up",
        std::cmp::Ordering::Greater => "preference raised",
    }
}

#[test]
fn a_returning_router_unseats_no_router_with_dp_set() {
    let mut random = Random::new(2_107);
    let mut tally = Tally::default();
    for round in 0..1_500 {
        let others = match round % 30 {
            0 => 64,
            1 => 63,
            2 => 1,
            _ => random.between(2, 12),
        };
        let mut routers = random.addresses(others + 1);
        let returning = routers.pop().expect("an address");
        let algorithm = random.pick(&[2, 3]);
        let own = Advertised {
            preference: random.pick(&[0, 99, 100, 150, 200, 201, 300, 301, 65_535]),
            dp: true,
        };
        let (dp, preferences) = (random.pick(&[20, 50, 90]), random.between(1, 5));
        let mut offered = PREFERENCES;
        random.shuffle(&mut offered);
        let said = |address: &Address| Said {
            address: *address,
            algorithm,
            ac_df: false,
            dp: random.chance(dp),
            preference: random.pick(&offered[..preferences]),
        };
        let routes: Vec<Said> = routers.iter().map(said).collect();
        let mut table = table_that_holds(&routes);
        let run = match random.chance(60) {
            true => random.ranges(),
            false => Vec::new(),
        };
        assert_eq!(table.set_ranges(&run), Ok(()));
        if random.chance(30) {
            assert_eq!(table.set_flow_algorithms(NUMBERS[0], NUMBERS[1]), Ok(()));
        }
        let sent = advertise(&table, returning, algorithm, own).expect("a pair");
        let (after, answer) = after_return(&table, returning, algorithm, sent);
        let (with_own_pair, _) = after_return(&table, returning, algorithm, own);
        let ranges = !run.is_empty();
        if others == 64 {
            assert_eq!(answer, Err(Refusal::TableFull));
            tally.note("refused for a full table");
        } else {
            assert_eq!(answer, Ok(()));
            tally.note((algorithm, "ranges", ranges, change(own, sent)));
        }

        let mut tags = vec![1, TOP, random.tag(), random.tag()];
        for row in run.chunks(3) {
            tags.extend([row[0], row[1], (row[0] - 1).max(1), (row[1] + 1).min(TOP)]);
        }
        let circuits = circuits_that_hold(&random.circuit_routes(&routers, &tags[..2]));
        for tag in tags {
            let kind = random.pick(&KINDS);
            let query = random.query(kind, tag, &routers);
            let elected = |table: &Table| query.ask(table, &circuits).expect("an election");
            let before = elected(&table);
            let unseats = |table: &Table| elected(table).address != before.address;
            let dp = routes
                .iter()
                .any(|route| route.address == before.address && route.dp);
            if !dp {
                tally.note(("DP clear", "unseated", unseats(&after)));
                continue;
            }
            assert!(
                !unseats(&after),
                "{returning:?} with {own:?} sends {sent:?}, {query:?} of {table:?}"
            );
            tally.note((algorithm, "told", before.algorithm, "ranges", ranges));
            tally.note(kind);
            if unseats(&with_own_pair) {
                tally.note((algorithm, "told", before.algorithm, "own pair unseats"));
            }
        }
    }
    println!("{tally:#?}");
    tally.at_least(50, "refused for a full table");
    let (lowered, raised) = ("preference lowered", "preference raised");
    for (algorithm, towards, away) in [(2, lowered, raised), (3, raised, lowered)] {
        // the other reference is tried only with ranges
        tally.at_least(45, (algorithm, "ranges", true, away));
        for ranges in [false, true] {
            tally.at_least(45, (algorithm, "ranges", ranges, towards));
            tally.at_least(20, (algorithm, "ranges", ranges, "DP alone given up"));
            tally.at_least(100, (algorithm, "ranges", ranges, "own pair"));
            tally.at_least(900, (algorithm, "told", algorithm, "ranges", ranges));
        }
        tally.at_least(1_000, (algorithm, "told", 5 - algorithm, "ranges", true));
        for told in [2, 3] {
            tally.at_least(250, (algorithm, "told", told, "own pair unseats"));
        }
    }
    for kind in KINDS {
        tally.at_least(2_000, kind);
    }
    tally.at_least(300, ("DP clear", "unseated", true));
}

/// The first 10.0.0.1, and the first own pair of a returning 10.0.0.2 beside it, so that the router
/// unseats it when it sends what `sends` says. Preferences from 100 to 102; own DP set.
fn first_unseated(
    algorithm: u8,
    elected_dp: bool,
    sends: impl Fn(&Table, Advertised) -> Advertised,
) -> Option<((u16, bool), Advertised, Advertised)> {
    for (preference, own) in (100..=102).flat_map(|one| [100, 101, 102].map(|own| (one, own))) {
        let table = preference_table(algorithm, &[(ten(1), preference, elected_dp)]);
        let own = Advertised {
            preference: own,
            dp: true,
        };
        let sent = sends(&table, own);
        let (after, _) = after_return(&table, ten(2), algorithm, sent);
        if elected(&after, 1) != elected(&table, 1) {
            return Some(((preference, elected_dp), own, sent));
        }
    }
    None
}

fn pair(preference: u16, dp: bool) -> Advertised {
    Advertised { preference, dp }
}

/// Beside 10.0.0.1 with (100, 0) a returning 10.0.0.2 with (100, 1) sends its own pair, and is
/// elected under either algorithm.
#[test]
fn a_router_with_dp_clear_may_be_unseated() {
    for algorithm in [2, 3] {
        let computed = |table: &Table, own| advertise(table, ten(2), algorithm, own).unwrap();
        let found = first_unseated(algorithm, false, computed);
        let own = pair(100, true);
        assert_eq!(found, Some(((100, false), own, own)));
        assert_eq!(first_unseated(algorithm, true, computed), None);
    }
}

/// Beside 10.0.0.1 with (100, 1) a returning 10.0.0.2 with (101, 1) is elected under 2 if it sends
/// that pair, and not with the (100, 0) that is computed; under 3 the same with 100 and 101 changed
/// over. A tie unseats nobody here, as the address is the higher one.
#[test]
fn the_administrative_pair_may_unseat() {
    for (algorithm, elected, own) in [(2, 100, 101), (3, 101, 100)] {
        let found = first_unseated(algorithm, true, |_, own| own);
        let own = pair(own, true);
        assert_eq!(found, Some(((elected, true), own, own)));
        let table = preference_table(algorithm, &[(ten(1), elected, true)]);
        let sent = advertise(&table, ten(2), algorithm, own);
        assert_eq!(sent, Ok(pair(elected, false)));
    }
}
