//! The second in line, from the table and from a list of candidates. Document 02, M-113.

use crate::common::*;
use crate::random::*;
use reference::address::Address::{self, V4, V6};
use reference::backup::{name, name_by_circuits, name_in, name_rows, Candidate};
use reference::circuits::{self, Circuit, Circuits};
use reference::election;
use reference::hrw;
use reference::refusal::Refusal;
use reference::table::Table;

const WEIGHT: u8 = 1;
const HIGHEST: u8 = 2;
const LOWEST: u8 = 3;
const LOW_31_BITS: u32 = 0x7FFF_FFFF;

/// The backup with an empty ready list.
fn backup(table: &Table, tag: u32) -> Result<Address, Refusal> {
    name(table, tag, &[])
}

/// A list of candidates (address, preference, DP).
fn listed(routers: &[(Address, u16, bool)]) -> Vec<Candidate> {
    routers
        .iter()
        .map(|(address, preference, dp)| candidate(*address, *preference, *dp))
        .collect()
}

fn candidate(address: Address, preference: u16, dp: bool) -> Candidate {
    let octets = address.sixteen();
    let word = |at: usize| {
        u32::from_be_bytes([octets[at], octets[at + 1], octets[at + 2], octets[at + 3]])
    };
    Candidate {
        family: address.family(),
        words: [0, 4, 8, 12].map(word),
        preference,
        dp,
    }
}

/// vES1 and vES2 of RFC 9785, section 4.1: 500 in PE1 and 255 in PE2; 100 in PE1, 200 in PE2 and 300
/// in PE3. From the table and from a list alike.
#[test]
fn the_segments_of_rfc_9785() {
    let first = [(ten(1), 500, false), (ten(2), 255, false)];
    let second = [
        (ten(1), 100, false),
        (ten(2), 200, false),
        (ten(3), 300, false),
    ];
    for (routers, algorithm, forwarder, second_in_line) in [
        (&first[..], HIGHEST, ten(1), ten(2)),
        (&first[..], LOWEST, ten(2), ten(1)),
        (&second[..], HIGHEST, ten(3), ten(2)),
        (&second[..], LOWEST, ten(1), ten(2)),
    ] {
        let table = preference_table(algorithm, routers);
        for tag in [1, 7, TOP] {
            assert_eq!(elected(&table, tag), Ok(forwarder));
            assert_eq!(backup(&table, tag), Ok(second_in_line));
        }
        assert_eq!(name_in(&listed(routers), algorithm), Ok(second_in_line));
    }
    // under maintenance PE3 goes down to 50: PE2 forwards, and PE1 is behind it
    let mut table = preference_table(HIGHEST, &second);
    announce(
        &mut table,
        ten(3),
        &community_octets(HIGHEST, false, false, 50),
    );
    assert_eq!(elected(&table, 1), Ok(ten(2)));
    assert_eq!(backup(&table, 1), Ok(ten(1)));
}

/// At equal preferences DP decides who is second, and then the lower address; the same under 2 and 3.
#[test]
fn equal_preferences() {
    for algorithm in [HIGHEST, LOWEST] {
        for (routers, expected) in [
            ([(1, false), (2, true), (3, false)], 1),
            ([(1, true), (2, false), (3, true)], 3),
            ([(1, false), (2, false), (3, true)], 1),
            ([(1, true), (2, true), (3, true)], 2),
            ([(1, false), (2, false), (3, false)], 2),
        ] {
            let routers = routers.map(|(last, dp)| (ten(last), 500, dp));
            let table = preference_table(algorithm, &routers);
            assert_eq!(backup(&table, 1), Ok(ten(expected)), "{routers:?}");
            assert_eq!(name_in(&listed(&routers), algorithm), Ok(ten(expected)));
        }
    }
}

/// The weights are those of `hrw.rs`: the second greatest is named.
#[test]
fn the_second_weight() {
    let routers = [1, 2, 3].map(|last| (ten(last), 0, false));
    let table = preference_table(WEIGHT, &routers);
    for (tag, second_in_line) in [(1, 1), (5, 1), (100, 3), (4_094, 2), (TOP, 3)] {
        assert_eq!(backup(&table, tag), Ok(ten(second_in_line)), "tag {tag}");
    }
}

/// 0A000001 and 8A000001 tie at every digest: the lower is the forwarder for every tag, and the other
/// the backup; with others of their weight the next address.
#[test]
fn routers_that_tie() {
    let tied = [
        V4(0x0A00_0001),
        V4(0x8A00_0001),
        V6(0x0A00_0001),
        mapped(0x8A00_0001),
    ];
    for count in 2..=tied.len() {
        let routers: Vec<_> = tied[..count].iter().map(|one| (*one, 0, false)).collect();
        let table = preference_table(WEIGHT, &routers);
        for tag in 1..60 {
            assert_eq!(elected(&table, tag), Ok(tied[0]));
            assert_eq!(backup(&table, tag), Ok(tied[1]));
        }
    }
}

/// Two IPv4 routers tie at a digest exactly if their addresses agree in the low 31 bits: random
/// pairs, pairs that differ in one bit or two, and pairs that differ in the top bit alone. All
/// weights of a run of addresses differ.
#[test]
fn ties_are_exact() {
    let mut random = Random::new(113);
    let mut tally = Tally::default();
    for _ in 0..20_000 {
        let [one, other, drawn] = [0; 3].map(|_| random.word());
        let (first, second) = (1 << random.below(32), 1 << random.below(32));
        let digest = random.pick(&[0, 1, 0x4000_0000, LOW_31_BITS, drawn & LOW_31_BITS]);
        for (kind, other) in [
            ("any", other),
            ("a bit", one ^ first),
            ("two bits", one ^ first ^ second),
            ("the top bit", one ^ 1 << 31),
            ("itself", one),
        ] {
            let agree = one & LOW_31_BITS == other & LOW_31_BITS;
            let weights = [one, other].map(|number| hrw::weight(V4(number), digest));
            let tie = weights[0] == weights[1];
            assert_eq!(tie, agree, "{one:08x}, {other:08x} at {digest:08x}");
            tally.note((kind, tie));
        }
    }
    println!("{tally:#?}");
    for kind in ["any", "a bit", "two bits"] {
        tally.at_least(18_000, (kind, false));
    }
    tally.at_least(400, ("a bit", true));
    tally.at_least(400, ("two bits", true));
    tally.at_least(20_000, ("the top bit", true));
    tally.at_least(20_000, ("itself", true));

    for digest in [0, 12_345, LOW_31_BITS] {
        let numbers = 0x0A00_0000..0x0A01_0000;
        let mut weights: Vec<u32> = numbers.map(|one| hrw::weight(V4(one), digest)).collect();
        weights.sort_unstable();
        weights.dedup();
        assert_eq!(weights.len(), 0x1_0000);
    }
}

/// Each fault alone and with those that are tested after it.
#[test]
fn checks_of_a_table_in_order() {
    let two = |algorithm| {
        table_of(&[
            (ten(1), algorithm, true, false, 100),
            (ten(2), algorithm, true, false, 200),
        ])
    };
    let both = [ten(1), ten(2)];
    let one = [ten(1), ten(9), ten(1)];
    let long = [ten(1); 65];
    for tag in [0, u32::MAX] {
        for table in [fresh(), two(0), two(1), two(2), two(31)] {
            for ready in [&both[..], &one, &[], &long] {
                assert_eq!(name(&table, tag, ready), Err(Refusal::ReservedTag));
            }
        }
    }
    for table in [fresh(), two(0), two(1), two(3), two(31)] {
        assert_eq!(name(&table, 1, &long), Err(Refusal::ReadyLength));
    }
    for ready in [&both[..], &one, &[]] {
        assert_eq!(name(&fresh(), 1, ready), Err(Refusal::NoEligible));
    }
    // 15 before the 12 of fewer than two, and of none
    for algorithm in (0..32).filter(|one| !(1..=3).contains(one)) {
        let alone = table_of(&[(ten(1), algorithm, true, false, 0)]);
        for table in [two(algorithm), alone] {
            for ready in [&both[..], &one, &[]] {
                assert_eq!(name(&table, 1, ready), Err(Refusal::Algorithm));
            }
        }
    }
    for algorithm in 1..=3 {
        let table = two(algorithm);
        assert_eq!(name(&table, 1, &one), Err(Refusal::NoEligible));
        assert_eq!(name(&table, 1, &[]), Err(Refusal::NoEligible));
        assert!(name(&table, 1, &both).is_ok());
        assert!(name(&table, 1, &long[..64]).is_err());
        let alone = table_of(&[(ten(1), algorithm, false, false, 0)]);
        assert_eq!(name(&alone, 1, &both), Err(Refusal::NoEligible));
    }
}

/// Where routes do not agree algorithm 0 is in use, which names no backup; so too with a number for
/// flows that is not set.
#[test]
fn no_agreement_is_15() {
    let torn = table_of(&[
        (ten(1), 2, false, false, 100),
        (ten(2), 3, false, false, 200),
    ]);
    assert_eq!(backup(&torn, 1), Err(Refusal::Algorithm));
    let bits = table_of(&[
        (ten(1), 2, true, false, 100),
        (ten(2), 2, false, false, 200),
    ]);
    assert_eq!(backup(&bits, 1), Err(Refusal::Algorithm));
    let with_ranges = |mut table: Table| {
        assert_eq!(table.set_ranges(&[1, TOP, 3]), Ok(()));
        table
    };
    assert_eq!(backup(&with_ranges(torn), 1), Err(Refusal::Algorithm));
    let default = preference_table(0, &[(ten(1), 0, false), (ten(2), 0, false)]);
    assert_eq!(backup(&with_ranges(default), 1), Err(Refusal::Algorithm));
}

/// Under an agreement on either number set for flows the plain query's algorithm is 1, and a backup
/// is named as under 1.
#[test]
fn a_number_set_for_flows() {
    let said = |algorithm| [1, 2, 3].map(|last| (ten(last), algorithm, false, false, 0));
    for number in NUMBERS {
        let mut table = table_of(&said(number));
        assert_eq!(backup(&table, 5), Err(Refusal::Algorithm));
        assert_eq!(table.set_flow_algorithms(NUMBERS[0], NUMBERS[1]), Ok(()));
        for tag in 1..50 {
            assert_eq!(
                backup(&table, tag),
                backup(&table_of(&said(WEIGHT)), tag),
                "tag {tag}"
            );
        }
        assert_eq!(backup(&table, 5), Ok(ten(1)));
    }
}

/// Inside a range the forwarder and the backup go by the algorithm that the range names.
#[test]
fn ranges_of_tags() {
    let routers = [
        (ten(1), 100, false),
        (ten(2), 200, false),
        (ten(3), 300, false),
        (ten(4), 400, false),
    ];
    let mut table = preference_table(HIGHEST, &routers);
    assert_eq!(table.set_ranges(&[5, 6, 3, 8, 9, 2]), Ok(()));
    for (tag, forwarder, second_in_line) in [
        (4, 4, 3),
        (5, 1, 2),
        (6, 1, 2),
        (7, 4, 3),
        (8, 4, 3),
        (9, 4, 3),
        (10, 4, 3),
    ] {
        assert_eq!(elected(&table, tag), Ok(ten(forwarder)));
        assert_eq!(backup(&table, tag), Ok(ten(second_in_line)));
    }
}

/// With AC-DF only those on the list count, repeats and strangers apart; without it all do.
#[test]
fn ready_lists() {
    let routers = |ac_df| {
        table_of(&[
            (ten(1), HIGHEST, ac_df, false, 100),
            (ten(2), HIGHEST, ac_df, false, 300),
            (ten(3), HIGHEST, ac_df, false, 200),
        ])
    };
    let table = routers(true);
    let ready = [
        ten(9),
        ten(3),
        ten(3),
        V4(0),
        ten(1),
        six(1),
        mapped(0x0A00_0002),
    ];
    assert_eq!(name(&table, 1, &ready), Ok(ten(1)));
    assert_eq!(name(&table, 1, &ready[..4]), Err(Refusal::NoEligible));
    assert_eq!(name(&routers(false), 1, &ready[..4]), Ok(ten(3)));
    // as rows of words, of which some are no address
    let rows = [
        [4, 0x0A00_0003, 7, 7, 7],
        [5, 0x0A00_0002, 0, 0, 0],
        [6, 0x0A00_0002, 0, 0, 0],
        [4, 0x0A00_0001, 0, 0, 0],
    ];
    let mut words = rows.concat();
    words.extend([4, 0x0A00_0002]);
    assert_eq!(name_rows(&table, 1, &words), Ok(ten(1)));
    assert_eq!(
        name_rows(&table, 1, &rows[..3].concat()),
        Err(Refusal::NoEligible)
    );
    let longer = [0; 5 * 65];
    assert_eq!(name_rows(&table, 1, &longer), Err(Refusal::ReadyLength));
    assert_eq!(name_rows(&table, 1, &longer[1..]), Err(Refusal::NoEligible));
}

/// Over both tables the routers that are ready for the tag count, those of the route table alone.
#[test]
fn both_tables() {
    let table = table_of(&[
        (ten(1), HIGHEST, true, false, 100),
        (ten(2), HIGHEST, true, false, 300),
        (ten(3), HIGHEST, true, false, 200),
    ]);
    let mut circuits = Circuits::fresh();
    for address in [ten(1), ten(3), ten(4), six(1)] {
        assert_eq!(circuits.announce(Circuit::PerSegment { address }), Ok(()));
        let route = Circuit::PerInstance { tag: 7, address };
        assert_eq!(circuits.announce(route), Ok(()));
    }
    assert_eq!(name_by_circuits(&table, &circuits, 7), Ok(ten(1)));
    for tag in [6, 8] {
        assert_eq!(
            name_by_circuits(&table, &circuits, tag),
            Err(Refusal::NoEligible)
        );
    }
    for tag in [0, u32::MAX] {
        assert_eq!(
            name_by_circuits(&table, &circuits, tag),
            Err(Refusal::ReservedTag)
        );
    }
    assert_eq!(
        name_by_circuits(&fresh(), &circuits, 7),
        Err(Refusal::NoEligible)
    );
    let default = table_of(&[(ten(1), 0, true, false, 0), (ten(3), 0, true, false, 0)]);
    assert_eq!(
        name_by_circuits(&default, &circuits, 7),
        Err(Refusal::Algorithm)
    );
    // a router that loses one of its routes is no candidate
    let mut fewer = circuits.clone();
    let lost = Circuit::PerSegment { address: ten(1) };
    assert_eq!(fewer.withdraw(lost), Ok(()));
    assert_eq!(
        name_by_circuits(&table, &fewer, 7),
        Err(Refusal::NoEligible)
    );
}

/// A table of each kind: what routes carry, with AC-DF or not, numbers set or not, ranges or none.
fn drawn(random: &mut Random, routers: &[Address], algorithm: u8) -> Table {
    let ac_df = random.chance(50);
    let routes: Vec<Said> = routers
        .iter()
        .map(|address| Said {
            address: *address,
            algorithm,
            ac_df,
            dp: random.chance(50),
            preference: random.pick(&PREFERENCES),
        })
        .collect();
    let mut table = table_that_holds(&routes);
    if algorithm > 3 || random.chance(50) {
        assert_eq!(table.set_flow_algorithms(NUMBERS[0], NUMBERS[1]), Ok(()));
    }
    table
}

/// Whoever is named is the one elected once the forwarder is withdrawn, and is not the forwarder;
/// none is named exactly where an election then finds none. By ready lists and over both tables.
#[test]
fn the_backup_takes_over() {
    let mut random = Random::new(1_130);
    let mut tally = Tally::default();
    for round in 0..800 {
        let routers = match round % 100 {
            0 => 64,
            _ => random.between(1, 9),
        };
        let routers = random.addresses(routers);
        let algorithm = random.pick(&[1, 2, 3, NUMBERS[0], NUMBERS[1]]);
        let mut table = drawn(&mut random, &routers, algorithm);
        let run = random.ranges();
        assert_eq!(table.set_ranges(&run), Ok(()));
        let tags = [0; 3].map(|_| random.tag_near(&run));
        let circuits = circuits_that_hold(&random.circuit_routes(&routers, &tags));
        for tag in tags {
            let ready = random.ready_list(&routers);
            let by_list = |table: &Table| election::elect(table, tag, &ready);
            let over_both = |table: &Table| circuits::elect(table, &circuits, tag);
            for (kind, before, named) in [
                ("a list", by_list(&table), name(&table, tag, &ready)),
                (
                    "both tables",
                    over_both(&table),
                    name_by_circuits(&table, &circuits, tag),
                ),
            ] {
                let Ok(before) = before else {
                    assert_eq!(named, Err(Refusal::NoEligible));
                    tally.note((kind, "none eligible"));
                    continue;
                };
                let mut left = table.clone();
                assert_eq!(left.withdraw(before.address), Ok(()));
                let after = match kind {
                    "a list" => by_list(&left),
                    _ => over_both(&left),
                };
                assert_eq!(
                    named,
                    after.map(|after| after.address),
                    "{kind}, tag {tag} of {table:?}"
                );
                assert_ne!(named, Ok(before.address));
                match after {
                    Ok(after) => {
                        assert_eq!(after.algorithm, before.algorithm);
                        tally.note((kind, algorithm, "named"));
                        if after.algorithm != algorithm && algorithm <= 3 {
                            tally.note((kind, algorithm, "by a range"));
                        }
                    }
                    Err(_) => tally.note((kind, "one eligible")),
                }
            }
        }
    }
    println!("{tally:#?}");
    for kind in ["a list", "both tables"] {
        tally.at_least(100, (kind, "none eligible"));
        tally.at_least(200, (kind, "one eligible"));
        for algorithm in [1, 2, 3, NUMBERS[0], NUMBERS[1]] {
            tally.at_least(200, (kind, algorithm, "named"));
        }
        for algorithm in [2, 3] {
            tally.at_least(50, (kind, algorithm, "by a range"));
        }
    }
}

/// A list names whom a table of the same routers names, in whatever order it is.
#[test]
fn a_list_in_any_order() {
    let mut random = Random::new(1_131);
    let mut tally = Tally::default();
    for round in 0..600 {
        let routers = match round % 60 {
            0 => 64,
            1 => 63,
            _ => random.between(0, 8),
        };
        let routers = random.addresses(routers);
        let list: Vec<Candidate> = routers
            .iter()
            .map(|address| candidate(*address, random.pick(&PREFERENCES), random.chance(50)))
            .collect();
        for algorithm in [HIGHEST, LOWEST] {
            let routes: Vec<_> = list
                .iter()
                .zip(&routers)
                .map(|(one, address)| (*address, one.preference, one.dp))
                .collect();
            let told = backup(&preference_table(algorithm, &routes), 1);
            let mut shuffled = list.clone();
            for _ in 0..4 {
                assert_eq!(name_in(&shuffled, algorithm), told);
                random.shuffle(&mut shuffled);
                // in an IPv4 record the words after the first do not count
                for one in shuffled.iter_mut().filter(|one| one.family == 4) {
                    one.words[1] = random.word();
                    one.words[3] = random.word();
                }
            }
            tally.note((algorithm, told.is_ok()));
        }
    }
    println!("{tally:#?}");
    for algorithm in [HIGHEST, LOWEST] {
        tally.at_least(400, (algorithm, true));
        tally.at_least(80, (algorithm, false));
    }
}

/// 22, then 15, then 12.
#[test]
fn checks_of_a_list_in_order() {
    let good: Vec<Candidate> = (1..=64)
        .map(|last| candidate(ten(last), 1, false))
        .collect();
    let with = |one: Candidate| {
        let mut list = good[..5].to_vec();
        list.push(one);
        list
    };
    let family = |family| Candidate { family, ..good[60] };
    let mut longer = good.clone();
    longer.push(candidate(six(1), 1, false));
    let mut refused = vec![
        longer,
        with(candidate(V4(0), 1, false)),
        with(candidate(V6(0), 1, false)),
        with(good[0]),
        // the same address with another preference, and with words that do not count
        with(Candidate {
            preference: 9,
            dp: true,
            words: [0x0A00_0003, 1, 2, 3],
            ..good[0]
        }),
        // zero, as the words after the first do not count
        with(Candidate {
            words: [0, 1, 2, 3],
            ..good[0]
        }),
        vec![family(5)],
        vec![candidate(V6(0), 1, false)],
        [good[7]; 2].to_vec(),
    ];
    refused.extend([0, 1, 3, 5, 7, 10, 255].map(|none| with(family(none))));
    for list in &refused {
        for algorithm in 0..=255 {
            assert_eq!(name_in(list, algorithm), Err(Refusal::CandidateList));
        }
    }
    for list in [&[][..], &good[..1], &good[..2], &good] {
        for algorithm in (0..=255).filter(|one| *one != HIGHEST && *one != LOWEST) {
            assert_eq!(name_in(list, algorithm), Err(Refusal::Algorithm));
        }
    }
    for algorithm in [HIGHEST, LOWEST] {
        assert_eq!(name_in(&[], algorithm), Err(Refusal::NoEligible));
        assert_eq!(name_in(&good[..1], algorithm), Err(Refusal::NoEligible));
        assert_eq!(name_in(&good[..2], algorithm), Ok(ten(2)));
        assert_eq!(name_in(&good, algorithm), Ok(ten(2)));
    }
    assert_eq!(Refusal::CandidateList.number(), 22);
}

/// Addresses that have the octets of another in the other family are others.
#[test]
fn alike_in_the_other_family() {
    let number = 0x0A00_0001;
    let alike = [
        V4(number),
        V6(u128::from(number)),
        mapped(number),
        V6(u128::from(number) << 96),
    ];
    let list: Vec<Candidate> = alike.iter().map(|one| candidate(*one, 7, false)).collect();
    for algorithm in [HIGHEST, LOWEST] {
        assert_eq!(name_in(&list, algorithm), Ok(alike[1]));
    }
}
