//! The rounds of calls that are counted, timed and compared, over any side. What a round is handed goes through `black_box`, and every answer goes to
//! a hearer: one keeps them all, for the comparison of the sides; the other only sees that the compiler leaves none out.

use crate::answer::{Address, Candidate, Circuit, Circuits, Segment};
use crate::workload::{self, Families, Flow, Run, ESI, FLOW_ALGORITHMS};
use std::fmt::Debug;
use std::hint::black_box;

/// What the rounds work on.
pub enum Work {
    /// A round: a fresh table.
    Fresh,
    /// A round: a fresh table takes all runs, each a new address.
    Fill { runs: Vec<Run> },
    /// A round: the announcement of the next of `calls`, on the table of the runs.
    Announce { runs: Vec<Run>, calls: Vec<Run> },
    /// A round: the next address of the runs is withdrawn, and announced again.
    Again { runs: Vec<Run> },
    /// A round: the withdrawal of the next of `addresses`, none of which is present.
    Withdraw {
        runs: Vec<Run>,
        addresses: Vec<Address>,
    },
    /// A round: the election for the next tag, from 1 on. The ready list is rows of words.
    Elect { runs: Vec<Run>, ready: Vec<u32> },
    /// A round: the election for the one tag, with ranges of tags set that a run of words says, or none.
    ElectWithRanges {
        runs: Vec<Run>,
        ranges: Vec<u32>,
        tag: u32,
        ready: Vec<u32>,
    },
    /// A round: the election for the next tag, from 1 on, and the next of the flows, each (S,G).
    ElectSourceGroup {
        runs: Vec<Run>,
        flows: Vec<Flow>,
        ready: Vec<u32>,
    },
    /// The same, each (*,G): its source has no part.
    ElectAnySource {
        runs: Vec<Run>,
        flows: Vec<Flow>,
        ready: Vec<u32>,
    },
    /// A round: the election over both tables for the next of the tags.
    ElectByCircuits {
        runs: Vec<Run>,
        circuits: Vec<Circuit>,
        tags: Vec<u32>,
    },
    /// A round: the backup named for the next tag, from 1 on. The ready list is rows of words.
    NameBackup { runs: Vec<Run>, ready: Vec<u32> },
    /// A round: the backup named over both tables for the next of the tags.
    NameBackupByCircuits {
        runs: Vec<Run>,
        circuits: Vec<Circuit>,
        tags: Vec<u32>,
    },
    /// A round: the backup named in the list.
    NameBackupIn { list: Vec<Candidate>, algorithm: u8 },
    /// A round: what the router of the next address, from 1 on, sends when it comes back with a preference of 40,000 and DP set. In a mixed table they
    /// are of either family in turn.
    Returning {
        runs: Vec<Run>,
        families: Families,
        algorithm: u8,
    },
    /// A round: the digest of the next tag, from 1 on.
    Digest,
    /// A round: the last announcement of the address in two dumps.
    LastAnnouncement {
        first: Vec<u8>,
        second: Vec<u8>,
        address: Address,
    },
}

pub trait Hearer {
    fn hear(&mut self, answer: impl Debug);
}

/// Every answer as text.
#[derive(Default, PartialEq, Eq)]
pub struct Kept(pub Vec<String>);

impl Hearer for Kept {
    fn hear(&mut self, answer: impl Debug) {
        self.0.push(format!("{answer:?}"));
    }
}

pub struct Dropped;

impl Hearer for Dropped {
    #[inline]
    fn hear(&mut self, answer: impl Debug) {
        black_box(&answer);
    }
}

/// The table of the segment after the announcements of the runs.
fn loaded<T: Segment>(runs: &[Run]) -> T {
    let mut table = T::empty();
    table.fresh(&ESI);
    for run in runs {
        table.announce(&run.route, &run.communities);
    }
    table
}

/// The same with the numbers of the elections by flow set.
fn loaded_for_flows<T: Segment>(runs: &[Run]) -> T {
    let mut table: T = loaded(runs);
    let [source_group, any_source] = FLOW_ALGORITHMS;
    table.set_flow_algorithms(source_group, any_source);
    table
}

/// The table of these Ethernet A-D routes.
fn circuits_of<T: Segment>(circuits: &[Circuit]) -> T::Circuits {
    let mut beside = T::Circuits::empty();
    for route in circuits {
        beside.announce(*route);
    }
    beside
}

/// Does a number of rounds. After rounds that change their table, the election for tag 1 with all of them ready is heard too.
pub fn rounds<T: Segment>(work: &Work, rounds: u32, hearer: &mut impl Hearer) {
    match work {
        Work::Fresh => {
            let mut table = T::empty();
            for _ in 0..rounds {
                hearer.hear(black_box(&mut table).fresh(black_box(&ESI[..])));
            }
        }
        Work::Fill { runs } => {
            let mut table = T::empty();
            for _ in 0..rounds {
                black_box(&mut table).fresh(black_box(&ESI[..]));
                for run in black_box(runs) {
                    hearer.hear(table.announce(&run.route, &run.communities));
                }
            }
            close(&table, runs, hearer);
        }
        Work::Announce { runs, calls } => {
            let mut table: T = loaded(runs);
            for call in calls.iter().cycle().take(rounds as usize) {
                let call = black_box(call);
                hearer.hear(table.announce(&call.route, &call.communities));
            }
            close(&table, runs, hearer);
        }
        Work::Again { runs } => {
            let mut table: T = loaded(runs);
            for run in runs.iter().cycle().take(rounds as usize) {
                let run = black_box(run);
                hearer.hear(table.withdraw(run.address));
                hearer.hear(table.announce(&run.route, &run.communities));
            }
            close(&table, runs, hearer);
        }
        Work::Withdraw { runs, addresses } => {
            let mut table: T = loaded(runs);
            for address in addresses.iter().cycle().take(rounds as usize) {
                hearer.hear(table.withdraw(*black_box(address)));
            }
            close(&table, runs, hearer);
        }
        Work::Elect { runs, ready } => {
            let table: T = loaded(runs);
            for tag in 1..=rounds {
                hearer.hear(table.elect(black_box(tag), black_box(ready)));
            }
        }
        Work::ElectWithRanges {
            runs,
            ranges,
            tag,
            ready,
        } => {
            let mut table: T = loaded(runs);
            hearer.hear(table.set_ranges(ranges));
            for _ in 0..rounds {
                hearer.hear(table.elect(*black_box(tag), black_box(ready)));
            }
        }
        Work::ElectSourceGroup { runs, flows, ready } => {
            let table: T = loaded_for_flows(runs);
            for (tag, flow) in (1..=rounds).zip(flows.iter().cycle()) {
                let (tag, ready) = (black_box(tag), black_box(ready));
                let Flow { source, group } = black_box(flow);
                hearer.hear(table.elect_source_group(source, group, tag, ready));
            }
        }
        Work::ElectAnySource { runs, flows, ready } => {
            let table: T = loaded_for_flows(runs);
            for (tag, flow) in (1..=rounds).zip(flows.iter().cycle()) {
                let (tag, ready) = (black_box(tag), black_box(ready));
                hearer.hear(table.elect_any_source(&black_box(flow).group, tag, ready));
            }
        }
        Work::ElectByCircuits {
            runs,
            circuits,
            tags,
        } => {
            let table: T = loaded(runs);
            let beside = circuits_of::<T>(circuits);
            for tag in tags.iter().cycle().take(rounds as usize) {
                let (beside, tag) = (black_box(&beside), *black_box(tag));
                hearer.hear(table.elect_by_circuits(beside, tag));
            }
        }
        Work::NameBackup { runs, ready } => {
            let table: T = loaded(runs);
            for tag in 1..=rounds {
                hearer.hear(table.name_backup(black_box(tag), black_box(ready)));
            }
        }
        Work::NameBackupByCircuits {
            runs,
            circuits,
            tags,
        } => {
            let table: T = loaded(runs);
            let beside = circuits_of::<T>(circuits);
            for tag in tags.iter().cycle().take(rounds as usize) {
                let (beside, tag) = (black_box(&beside), *black_box(tag));
                hearer.hear(table.name_backup_by_circuits(beside, tag));
            }
        }
        Work::NameBackupIn { list, algorithm } => {
            for _ in 0..rounds {
                let (list, algorithm) = (black_box(list), *black_box(algorithm));
                hearer.hear(T::name_backup_in(list, algorithm));
            }
        }
        Work::Returning {
            runs,
            families,
            algorithm,
        } => {
            let table: T = loaded(runs);
            let addresses = coming_back(*families);
            for address in addresses.iter().cycle().take(rounds as usize) {
                let (preference, dp) = black_box((40_000, true));
                let (address, algorithm) = (*black_box(address), black_box(*algorithm));
                hearer.hear(table.returning(address, algorithm, preference, dp));
            }
        }
        Work::Digest => {
            for tag in 1..=rounds {
                hearer.hear(T::digest(black_box(tag), black_box(&ESI)));
            }
        }
        Work::LastAnnouncement {
            first,
            second,
            address,
        } => {
            for _ in 0..rounds {
                let (first, second) = (black_box(first), black_box(second));
                hearer.hear(T::last_announcement(first, second, *black_box(address)));
            }
        }
    }
}

/// Addresses that no table has: 0.0.0.1 or ::1 and so on.
fn coming_back(families: Families) -> Vec<Address> {
    let address = |number: u32| match families {
        Families::Mixed if number % 2 == 0 => Address::v6(number.into()),
        Families::V6 => Address::v6(number.into()),
        _ => Address::v4(number),
    };
    (1..=192).map(address).collect()
}

fn close(table: &impl Segment, runs: &[Run], hearer: &mut impl Hearer) {
    let addresses: Vec<Address> = runs.iter().map(|run| run.address).collect();
    hearer.hear(table.elect(1, &workload::rows(&addresses)));
}
