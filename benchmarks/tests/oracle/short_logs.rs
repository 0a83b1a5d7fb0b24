//! A table written out as bench records into a lent buffer (document 02, M-112). A writer is any function that makes a table by calls and writes it into a buffer;
//! each is held against the reference, the proved one too: the number, how many octets the run has, and the whole buffer afterwards. Writers with one slip each must show.

use crate::{addresses, theirs};
use benchmarks::answer::{Address, Logged, Segment};
use benchmarks::random::Random;
use benchmarks::{proved, workload};
use reference::compact;
use reference::table::{Entry, Table};
use std::collections::BTreeMap;

const SEEDS: u64 = 400;

/// A call that changes a table, or what is set beside it.
enum Call {
    Announce(Vec<u8>, Vec<u8>),
    Withdraw(Address),
    FlowAlgorithms(u8, u8),
    Ranges(Vec<u32>),
}

/// The number that is answered, and how many octets the run has: none with a refusal.
type Answer = (u8, usize);

/// The reference's table after calls.
fn played(esi: &[u8], calls: &[Call]) -> Table {
    let (_, mut table) = Table::fresh(esi);
    for call in calls {
        let _ = match call {
            Call::Announce(route, communities) => table.announce(route, communities),
            Call::Withdraw(address) => table.withdraw(theirs(*address)),
            Call::FlowAlgorithms(one, other) => table.set_flow_algorithms(*one, *other),
            Call::Ranges(run) => table.set_ranges(run),
        };
    }
    table
}

/// What a seed's table is made by: an identifier, sometimes reserved, and calls for up to so many routers that a table is full.
fn calls_of(seed: u64) -> (Vec<u8>, Vec<Call>) {
    let mut random = Random(0x5104 ^ seed << 20);
    let esi: Vec<u8> = match seed % 10 {
        0 => vec![[0x00, 0xFF][random.below(2)]; 10],
        1 => random.octets::<9>().to_vec(),
        _ => random.octets::<10>().to_vec(),
    };
    let in_routes = <[u8; 10]>::try_from(&esi[..]).unwrap_or([7; 10]);
    let pool = match seed % 4 {
        0 => workload::addresses(80, workload::Families::Mixed, &mut random),
        _ => addresses(&mut random),
    };
    let algorithms = [0..4, 0..32, 2..4, 0..1][random.below(4)].clone();
    let count = [0, 3, 30, 200][random.below(4)];
    let mut calls = Vec::new();
    for _ in 0..count {
        let address = pool[random.below(pool.len())];
        calls.push(match random.below(12) {
            0 => Call::Withdraw(address),
            1 => Call::FlowAlgorithms(4 + random.below(4) as u8, 8),
            2 => Call::Ranges(vec![1, 1 + random.below(9) as u32, 2]),
            _ => {
                let mut route = workload::route(&in_routes, address);
                route[2..10].copy_from_slice(&random.octets::<8>());
                let algorithm = algorithms.start + random.below(algorithms.len()) as u8;
                let (ac_df, dp) = (random.one_in(2), random.one_in(2));
                let one = workload::community(algorithm, ac_df, dp, random.word() as u16);
                let others = random.octets::<8>().map(|octet| octet | 0x10);
                Call::Announce(
                    route,
                    match random.below(5) {
                        0 => Vec::new(),
                        1 => [others, one].concat(),
                        _ => one.to_vec(),
                    },
                )
            }
        });
    }
    (esi, calls)
}

/// What a writer first did otherwise than the reference; and how often each number was due, and each number of entries.
fn finding(
    write: impl Fn(&[u8], &[Call], &mut [u8]) -> Answer,
) -> (Option<String>, BTreeMap<String, usize>) {
    let mut seen = BTreeMap::new();
    for seed in 0..SEEDS {
        let (esi, calls) = calls_of(seed);
        let table = played(&esi, &calls);
        let run = compact::octets_of(&table).unwrap_or_default();
        let n = run.len();
        let entries = table.entries().len();
        *seen.entry(format!("{entries} entries")).or_default() += 1;
        for room in [
            0,
            1,
            32,
            33,
            n / 2,
            n.saturating_sub(1),
            n,
            n + 1,
            n + 7,
            n + 300,
        ] {
            // no octet is what the run has there
            let before: Vec<u8> = (0..room)
                .map(|at| !run.get(at).copied().unwrap_or(0x5A))
                .collect();
            let (mut due, mut buffer) = (before.clone(), before);
            let answer_due = match compact::write(&table, &mut due) {
                Ok(octets) => (0, octets),
                Err(refusal) => (refusal.number(), 0),
            };
            let answer = write(&esi, &calls, &mut buffer);
            *seen.entry(answer_due.0.to_string()).or_default() += 1;
            if answer != answer_due || buffer != due {
                let finding = format!(
                    "seed {seed}, {entries} entries, room for {room}: {answer:?} and not {answer_due:?}, with\n\
                     {buffer:02X?}\nand not\n{due:02X?}"
                );
                return (Some(finding), seen);
            }
        }
    }
    (None, seen)
}

fn same_as_the_reference(write: impl Fn(&[u8], &[Call], &mut [u8]) -> Answer) {
    let (finding, seen) = finding(write);
    println!("{seen:?}");
    if let Some(finding) = finding {
        panic!("{finding}");
    }
    for (what, least) in [
        ("0", 800),
        ("4", 500),
        ("14", 500),
        ("0 entries", 50),
        ("64 entries", 10),
    ] {
        let count = seen.get(what).copied().unwrap_or(0);
        assert!(count >= least, "only {count} of {what}");
    }
}

#[derive(Clone, Copy, Debug, PartialEq, Eq)]
enum Slip {
    FallingOrder,
    V6First,
    DistinguisherOfOnes,
    NoCommunityForZero,
    AllPreferences,
    DpLost,
    AcDfLost,
    UpperCase,
    RoomBeforeReserved,
    ReservedWritten,
    OneOctetPast,
    AsMuchAsFits,
    LengthOfTheBuffer,
    LengthTold,
    RoomForOneMore,
    OneEntryFewer,
}

const SLIPS: [Slip; 16] = [
    Slip::FallingOrder,
    Slip::V6First,
    Slip::DistinguisherOfOnes,
    Slip::NoCommunityForZero,
    Slip::AllPreferences,
    Slip::DpLost,
    Slip::AcDfLost,
    Slip::UpperCase,
    Slip::RoomBeforeReserved,
    Slip::ReservedWritten,
    Slip::OneOctetPast,
    Slip::AsMuchAsFits,
    Slip::LengthOfTheBuffer,
    Slip::LengthTold,
    Slip::RoomForOneMore,
    Slip::OneEntryFewer,
];

/// A writer written another way: the octets one by one, from the reference's entries.
fn written(esi: &[u8], calls: &[Call], buffer: &mut [u8], slip: Option<Slip>) -> Answer {
    let slipped = |one| slip == Some(one);
    let table = played(esi, calls);
    let esi = table.esi();
    let mut run = vec![0xD5, 0x4F, 0, 29];
    let text: Vec<String> = esi.iter().map(|octet| format!("{octet:02x}")).collect();
    run.extend(text.join(":").bytes());
    if slipped(Slip::UpperCase) {
        run[4..].make_ascii_uppercase();
    }
    let mut entries = table.entries().to_vec();
    match slip {
        Some(Slip::FallingOrder) => entries.reverse(),
        Some(Slip::V6First) => entries.sort_by_key(|entry| u8::MAX - entry.address.family()),
        Some(Slip::OneEntryFewer) => entries.truncate(63),
        _ => {}
    }
    for entry in entries {
        run.extend(announced(esi, &entry, slip));
    }
    let n = run.len();
    let reserved = *esi == [0; 10] && !slipped(Slip::ReservedWritten);
    let room = n + usize::from(slipped(Slip::RoomForOneMore));
    if reserved && !(slipped(Slip::RoomBeforeReserved) && buffer.len() < room) {
        return (4, 0);
    }
    if buffer.len() < room {
        if slipped(Slip::AsMuchAsFits) {
            let fits = buffer.len();
            buffer.copy_from_slice(&run[..fits]);
        }
        return (14, if slipped(Slip::LengthTold) { n } else { 0 });
    }
    buffer[..n].copy_from_slice(&run);
    match buffer.get_mut(n) {
        Some(past) if slipped(Slip::OneOctetPast) => *past = 0,
        _ => {}
    }
    (
        0,
        if slipped(Slip::LengthOfTheBuffer) {
            buffer.len()
        } else {
            n
        },
    )
}

fn announced(esi: &[u8; 10], entry: &Entry, slip: Option<Slip>) -> Vec<u8> {
    let slipped = |one| slip == Some(one);
    let address = entry.address.octets();
    let n = address.len() as u8;
    let distinguisher = [u8::from(slipped(Slip::DistinguisherOfOnes)); 8];
    let mut octets = vec![0xD5, 0x4F, 1, 29 + n, 4, 19 + n];
    octets.extend(distinguisher);
    octets.extend(esi);
    octets.push(8 * n);
    octets.extend(address);
    if slipped(Slip::NoCommunityForZero) && entry.algorithm == 0 {
        octets[3] = 21 + n;
        return octets;
    }
    let dp = entry.dp && !slipped(Slip::DpLost);
    let ac_df = entry.ac_df && !slipped(Slip::AcDfLost);
    let preference = match slip {
        Some(Slip::AllPreferences) if entry.preference == 0 => 32_767,
        _ => entry.preference,
    };
    octets.extend([
        6,
        6,
        entry.algorithm,
        128 * u8::from(dp) + 64 * u8::from(ac_df),
        0,
        0,
    ]);
    octets.extend(preference.to_be_bytes());
    octets
}

/// The proved writer, upon a segment that the proved calls made.
fn proved_log(esi: &[u8], calls: &[Call], buffer: &mut [u8]) -> Answer {
    let mut segment = proved::Table::empty();
    segment.fresh(esi);
    for call in calls {
        match call {
            Call::Announce(route, communities) => drop(segment.announce(route, communities)),
            Call::Withdraw(address) => drop(segment.withdraw(*address)),
            Call::FlowAlgorithms(one, other) => drop(segment.set_flow_algorithms(*one, *other)),
            Call::Ranges(run) => drop(segment.set_ranges(run)),
        }
    }
    let before = *segment.words();
    let Logged { number, length } = segment.write_log(buffer);
    assert_eq!(
        *segment.words(),
        before,
        "the writer leaves the segment as it was"
    );
    (number, length)
}

#[test]
fn proved_log_is_right() {
    same_as_the_reference(proved_log);
}

/// The other writer, and the same with each slip: only the one without a slip is right.
#[test]
fn every_slip_shows() {
    same_as_the_reference(|esi, calls, buffer| written(esi, calls, buffer, None));
    for slip in SLIPS {
        let (finding, _) = finding(|esi, calls, buffer| written(esi, calls, buffer, Some(slip)));
        assert!(finding.is_some(), "{slip:?} does not show");
    }
}
