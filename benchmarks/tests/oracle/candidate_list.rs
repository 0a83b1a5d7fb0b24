//! The second in line from a list of candidates kept as records (document 02, M-113): the proved call, the baseline, one that sorts the list and the table form with all
//! candidates announced are each compared with the reference, on lists near 64 and 65 records, with every fault of 22 at every place, in any order.

use crate::beside::{Beside, State};
use crate::tally::Tally;
use crate::{named, sixteen_octets};
use benchmarks::answer::{Address, Backup, Candidate, Family, Segment};
use benchmarks::random::Random;
use benchmarks::workload::{self, ESI};
use benchmarks::{array, candidates, form, list, proved};
use reference::backup;
use std::cmp::Reverse;

const LISTS: u64 = 1_500;
const SIZES: [usize; 14] = [0, 1, 2, 2, 3, 3, 8, 30, 63, 64, 64, 65, 66, 130];
const HIGHEST: u8 = 2;
const LOWEST: u8 = 3;
const OTHERS: [u8; 10] = [0, 1, 4, 5, 7, 31, 66, 130, 131, 255];
const NO_FAMILIES: [u8; 8] = [0, 1, 2, 3, 5, 7, 68, 255];

/// The reference's answer.
fn told(list: &[Candidate], algorithm: u8) -> Backup {
    let records: Vec<backup::Candidate> = list
        .iter()
        .map(|one| backup::Candidate {
            family: one.family,
            words: [one.w0, one.w1, one.w2, one.w3],
            preference: one.preference,
            dp: one.dp,
        })
        .collect();
    named(backup::name_in(&records, algorithm))
}

/// What is wrong with a list, if anything.
#[derive(Clone, Copy, Debug, PartialEq, Eq)]
enum Fault {
    None,
    /// One of its addresses is zero; of an IPv4 one the words after the first may be anything.
    Zero,
    /// An address is there twice, whatever else the two records say.
    Twice,
    /// A family that is neither 4 nor 6.
    Family,
}

/// So many candidates with different addresses, in no order; many preferences are alike.
fn candidates(count: usize, random: &mut Random) -> Vec<Candidate> {
    let families = random.below(3);
    let preferences = [0, 7, 500, 501, u16::MAX, random.word() as u16];
    let kinds = 1 + random.below(preferences.len());
    let mut list: Vec<Candidate> = Vec::new();
    let mut addresses: Vec<Address> = Vec::new();
    while list.len() < count {
        let number = 0x0A00_0001 + random.below(2 * count + 3) as u32;
        let address = match families {
            0 => Address::v4(number),
            1 => sixteen_octets(random, number),
            _ if random.one_in(2) => Address::v4(number),
            _ => sixteen_octets(random, number),
        };
        if !addresses.contains(&address) {
            addresses.push(address);
            let preference = preferences[random.below(kinds)];
            list.push(Candidate::new(address, preference, random.one_in(2)));
        }
    }
    random.shuffle(&mut list);
    blur(&mut list, random);
    list
}

/// Puts anything into the words after the first of IPv4 records: they do not count.
fn blur(list: &mut [Candidate], random: &mut Random) {
    for one in list.iter_mut().filter(|one| one.family == 4) {
        if random.one_in(2) {
            [one.w1, one.w2, one.w3] = [random.word() as u32, 0, random.word() as u32];
        }
    }
}

/// Spoils a list that is not empty, at its first place, its last or any.
fn spoil(list: &mut [Candidate], fault: Fault, random: &mut Random) {
    let last = list.len() - 1;
    let at = [0, last, random.below(list.len())][random.below(3)];
    let other = [0, last, random.below(list.len())][random.below(3)];
    let Candidate { preference, dp, .. } = list[at];
    match fault {
        Fault::None => {}
        Fault::Zero => {
            let zero = [Address::v4(0), Address::v6(0)][random.below(2)];
            list[at] = Candidate::new(zero, preference, dp);
            blur(list, random);
        }
        Fault::Twice => {
            list[at] = Candidate {
                preference,
                dp,
                ..list[other]
            };
            blur(list, random);
        }
        Fault::Family => list[at].family = NO_FAMILIES[random.below(NO_FAMILIES.len())],
    }
}

/// Whether a list is one that 22 refuses, told by comparing every two records.
fn is_faulty(list: &[Candidate]) -> bool {
    let counted = |one: &Candidate| match one.family {
        4 => [4, one.w0, 0, 0, 0],
        family => [u32::from(family), one.w0, one.w1, one.w2, one.w3],
    };
    let rows: Vec<[u32; 5]> = list.iter().map(counted).collect();
    let wrong = |row: &[u32; 5]| !matches!(row[0], 4 | 6) || row[1..] == [0; 4];
    let twice = (1..rows.len()).any(|at| rows[..at].contains(&rows[at]));
    list.len() > 64 || rows.iter().any(wrong) || twice
}

/// Compares a function that names the backup of a list: random lists, each as it is and in three other orders.
fn same_as_the_reference(name: impl Fn(&[Candidate], u8) -> Backup) {
    let mut tally = Tally::default();
    for seed in 0..LISTS {
        let mut random = Random(0x115 ^ seed << 20);
        let size = SIZES[seed as usize % SIZES.len()];
        let mut list = candidates(size, &mut random);
        let faults = [
            Fault::None,
            Fault::None,
            Fault::Zero,
            Fault::Twice,
            Fault::Family,
        ];
        let fault = faults[random.below(faults.len())];
        if size > 0 {
            spoil(&mut list, fault, &mut random);
        }
        let faulty = is_faulty(&list);
        for algorithm in [HIGHEST, LOWEST, OTHERS[random.below(OTHERS.len())]] {
            let is_usable = algorithm == HIGHEST || algorithm == LOWEST;
            let number = match () {
                () if faulty => 22,
                () if !is_usable => 15,
                () if size < 2 => 12,
                () => 0,
            };
            let answer = name(&list, algorithm);
            assert_eq!(answer, told(&list, algorithm), "{algorithm}: {list:?}");
            assert_eq!(answer.number, number, "{algorithm}: {list:?}");
            tally.note(number);
            tally.note((size, number));
            if number == 22 && size <= 64 {
                tally.note((fault, is_usable));
            }
            if number == 0 {
                tally.note((algorithm, "family", answer.family));
            }
            let mut shuffled = list.clone();
            for _ in 0..3 {
                random.shuffle(&mut shuffled);
                blur(&mut shuffled, &mut random);
                let again = name(&shuffled, algorithm);
                // blurred words may part two records of an IPv4 address that was twice, and do not count
                assert_eq!(again, answer, "another order: {shuffled:?}");
                tally.note("another order");
            }
        }
    }
    println!("{tally:#?}");
    tally.at_least(3 * 3 * LISTS as usize, "another order");
    for number in [0, 12, 15, 22] {
        tally.at_least(150, number);
    }
    for (size, number) in [(63, 0), (64, 0), (64, 22), (65, 22), (66, 22), (130, 22)] {
        tally.at_least(40, (size, number));
    }
    for fault in [Fault::Zero, Fault::Twice, Fault::Family] {
        tally.at_least(60, (fault, true));
        tally.at_least(30, (fault, false));
    }
    for (algorithm, family) in [(2, 4), (2, 6), (3, 4), (3, 6)] {
        tally.at_least(100, (algorithm, "family", family));
    }
}

/// Compares it at every place: the first and the second in line at every two places of a list; an address twice at every two places; address zero, and every
/// family that is none, at every place.
fn right_at_every_place(name: impl Fn(&[Candidate], u8) -> Backup) {
    let mut random = Random(65);
    let mut compared = 0;
    for size in [2, 3, 8, 64] {
        let plain: Vec<Candidate> = (1..=size as u32)
            .map(|last| Candidate::new(Address::v4(0x0A00_0000 | last), 200, false))
            .collect();
        for (first, second) in (0..size).flat_map(|one| (0..size).map(move |two| (one, two))) {
            let mut list = plain.clone();
            if first == second {
                for zero in [Address::v4(0), Address::v6(0)] {
                    list[first] = Candidate::new(zero, 300, true);
                    assert_eq!(name(&list, HIGHEST), Backup::refused(22), "zero at {first}");
                }
                for family in (0..=255).filter(|family| !matches!(family, 4 | 6)) {
                    list[first] = Candidate {
                        family,
                        ..plain[first]
                    };
                    assert_eq!(
                        name(&list, LOWEST),
                        Backup::refused(22),
                        "{family} at {first}"
                    );
                }
                compared += 1;
                continue;
            }
            for (algorithm, best, next) in [(HIGHEST, 302, 301), (LOWEST, 98, 99)] {
                list[first].preference = best;
                list[second].preference = next;
                let expected = Backup {
                    number: 0,
                    family: 4,
                    address: [plain[second].w0, 0, 0, 0],
                };
                assert_eq!(
                    name(&list, algorithm),
                    expected,
                    "{first}, {second} of {size}"
                );
            }
            list[second].w0 = list[first].w0;
            blur(&mut list, &mut random);
            assert_eq!(
                name(&list, HIGHEST),
                Backup::refused(22),
                "{first}, {second}"
            );
            compared += 1;
        }
    }
    assert_eq!(compared, 4 + 9 + 64 + 4096);
    // 64 are taken and 65 are not, whatever the last record is
    let list = candidates(65, &mut random);
    for algorithm in [HIGHEST, LOWEST] {
        assert_eq!(name(&list[..64], algorithm).number, 0);
        assert_eq!(name(&list[1..], algorithm).number, 0);
        assert_eq!(name(&list, algorithm), Backup::refused(22));
    }
    for algorithm in 0..=255 {
        let number = match algorithm {
            HIGHEST | LOWEST => 12,
            _ => 15,
        };
        assert_eq!(name(&[], algorithm), Backup::refused(number));
        assert_eq!(name(&list[..1], algorithm), Backup::refused(number));
        assert_eq!(name(&list, algorithm), Backup::refused(22));
    }
}

/// The plainest of all: sorted by the rule, the second of the list.
fn second_of_the_sorted(list: &[Candidate], algorithm: u8) -> Backup {
    if is_faulty(list) {
        return Backup::refused(22);
    }
    if algorithm != HIGHEST && algorithm != LOWEST {
        return Backup::refused(15);
    }
    let mut sorted = list.to_vec();
    for one in sorted.iter_mut().filter(|one| one.family == 4) {
        [one.w1, one.w2, one.w3] = [0; 3];
    }
    sorted.sort_by_key(|one| {
        let preference = match algorithm {
            HIGHEST => u16::MAX - one.preference,
            _ => one.preference,
        };
        let address = [u32::from(one.family), one.w0, one.w1, one.w2, one.w3];
        (preference, Reverse(one.dp), address)
    });
    match sorted.get(1) {
        None => Backup::refused(12),
        Some(one) => Backup {
            number: 0,
            family: one.family,
            address: [one.w0, one.w1, one.w2, one.w3],
        },
    }
}

/// What the table form names where the candidates of a list that may be taken are all announced.
fn by_table<T: Segment + State>(list: &[Candidate], algorithm: u8) -> Backup {
    if is_faulty(list) {
        return Backup::refused(22);
    }
    if algorithm != HIGHEST && algorithm != LOWEST {
        return Backup::refused(15);
    }
    let mut beside: Beside<T> = Beside::new();
    beside.fresh(&ESI);
    for one in list {
        let address = Address {
            family: match one.family {
                4 => Family::V4,
                _ => Family::V6,
            },
            words: [one.w0, one.w1, one.w2, one.w3],
        };
        let community = workload::community(algorithm, false, one.dp, one.preference);
        beside.announce(&workload::route(&ESI, address), &community, "a candidate");
    }
    beside.name_backup(1, &[], "candidates")
}

#[test]
fn proved_lists_are_right() {
    same_as_the_reference(proved::name_backup_in);
    right_at_every_place(proved::name_backup_in);
}

#[test]
fn baseline_lists_are_right() {
    same_as_the_reference(candidates::name_backup_in);
    right_at_every_place(candidates::name_backup_in);
}

#[test]
fn lists_sorted_by_the_rule() {
    same_as_the_reference(second_of_the_sorted);
    right_at_every_place(second_of_the_sorted);
}

#[test]
fn lists_announced_to_a_table() {
    same_as_the_reference(by_table::<proved::Table>);
    same_as_the_reference(by_table::<array::Table>);
    same_as_the_reference(by_table::<list::List>);
    same_as_the_reference(by_table::<form::Table>);
}
