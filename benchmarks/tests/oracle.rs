//! Every side against the reference of tests/: the same random calls, the same answers, call by call. What the Ethernet A-D routes add is in
//! `oracle/circuits.rs`, what the elections by multicast flow add in `oracle/flows.rs`, what ranges of tags add in `oracle/ranges.rs` with the runs of
//! `oracle/range_runs.rs`, and the second in line in `oracle/backup.rs`, from a list of candidates in `oracle/candidate_list.rs`. `oracle/beside.rs` is what all but
//! the first compare by, and `oracle/tally.rs` counts what came up. Searches through two dumps of records are in `oracle/dumps.rs`, with the slips of
//! `oracle/dump_slips.rs`, and tables written out as records in `oracle/short_logs.rs`.

#[path = "oracle/backup.rs"]
mod backup;
#[path = "oracle/beside.rs"]
mod beside;
#[path = "oracle/candidate_list.rs"]
mod candidate_list;
#[path = "oracle/circuits.rs"]
mod circuits;
#[path = "oracle/dump_slips.rs"]
mod dump_slips;
#[path = "oracle/dumps.rs"]
mod dumps;
#[path = "oracle/flows.rs"]
mod flows;
#[path = "oracle/range_runs.rs"]
mod range_runs;
#[path = "oracle/ranges.rs"]
mod ranges;
#[path = "oracle/short_logs.rs"]
mod short_logs;
#[path = "oracle/tally.rs"]
mod tally;

use benchmarks::answer::{Address, Answer, Backup, Family, Segment, Sent, Verdict};
use benchmarks::random::Random;
use benchmarks::{array, form, list, proved, records, workload};
use reference::address;
use reference::election::{self, Election};
use reference::hrw::digest;
use reference::refusal::{answer_number, Refusal};
use reference::returning::{advertise, Advertised};
use reference::route;
use reference::table::Table;

const SEEDS: u64 = 400;
const CALLS: usize = 600;

/// An address as the reference has it.
fn theirs(address: Address) -> address::Address {
    address::Address::from_row(&address.row()).expect("a family")
}

/// An address of the reference as it is handed in.
fn ours(address: address::Address) -> Address {
    match address {
        address::Address::V4(number) => Address::v4(number),
        address::Address::V6(number) => Address::v6(number),
    }
}

/// The sixteen octets of an address as the four words of an answer.
fn words(address: address::Address) -> [u32; 4] {
    let octets = address.sixteen();
    [0, 4, 8, 12].map(|at| u32::from_be_bytes(octets[at..at + 4].try_into().expect("four octets")))
}

/// The reference's election.
fn elect(table: &Table, tag: u32, ready: &[u32]) -> Answer {
    whole(election::elect_rows(table, tag, ready))
}

/// What the reference elects as the whole answer.
fn whole(election: Result<Election, Refusal>) -> Answer {
    match election {
        Ok(elected) => Answer {
            number: 0,
            family: elected.address.family(),
            address: words(elected.address),
            algorithm: elected.algorithm,
            n: elected.count,
            candidates: elected.candidates,
        },
        Err(refusal) => Answer::refused(refusal.number()),
    }
}

/// Whom the reference names as the whole answer.
fn named(backup: Result<address::Address, Refusal>) -> Backup {
    match backup {
        Ok(address) => Backup {
            number: 0,
            family: address.family(),
            address: words(address),
        },
        Err(refusal) => Backup::refused(refusal.number()),
    }
}

fn returning(table: &Table, address: Address, algorithm: u8, preference: u16, dp: bool) -> Sent {
    let own = Advertised { preference, dp };
    match advertise(table, theirs(address), algorithm, own) {
        Ok(sent) => Sent {
            number: 0,
            preference: sent.preference,
            dp: sent.dp,
        },
        Err(refusal) => Sent::refused(refusal.number()),
    }
}

/// What the calls of one seed draw from.
struct Pool {
    random: Random,
    esi: [u8; 10],
    addresses: Vec<Address>,
    algorithm: u8,
    ac_df: bool,
    stray: usize,
}

impl Pool {
    fn new(seed: u64) -> Pool {
        let mut random = Random(seed);
        let esi = match seed % 16 {
            0 => [0x00; 10],
            1 => [0xFF; 10],
            _ => random.octets(),
        };
        let addresses = addresses(&mut random);
        Pool {
            esi,
            addresses,
            algorithm: random.below(5) as u8,
            ac_df: random.one_in(2),
            stray: [2, 40, 100_000][random.below(3)],
            random,
        }
    }

    /// An address of the pool. In an IPv4 one the words after the first may be anything.
    fn address(&mut self) -> Address {
        let mut address = self.addresses[self.random.below(self.addresses.len())];
        if address.family == Family::V4 && self.random.one_in(2) {
            address.words[1..].fill_with(|| self.random.word() as u32);
        }
        address
    }

    /// A route that is right most times, and otherwise has one octet or its length changed.
    fn route(&mut self) -> Vec<u8> {
        let address = self.address();
        let mut route = workload::route(&self.esi, address);
        if self.random.one_in(12) {
            match self.random.below(5) {
                0 => route.truncate(self.random.below(38)),
                1 => route.push(0),
                2 => route[20] = [32, 128, 64][self.random.below(3)],
                3 => route[1] = [23, 35, 29][self.random.below(3)],
                _ => {
                    let place = self.random.below(route.len());
                    route[place] = self.random.octets::<1>()[0];
                }
            }
        }
        if self.random.one_in(50) {
            let fill = [0x00, 0xFF][self.random.below(2)];
            route.splice(10.min(route.len())..20.min(route.len()), [fill; 10]);
        }
        route
    }

    fn communities(&mut self) -> Vec<u8> {
        let mut list = Vec::new();
        for _ in 0..self.random.below(3) {
            list.extend(self.random.octets::<8>());
            if self.random.one_in(3) {
                let at = list.len() - 8;
                list[at..at + 2].copy_from_slice(&[6, 6]);
            }
        }
        if !self.random.one_in(30) {
            let (mut algorithm, mut ac_df) = (self.algorithm, self.ac_df);
            if self.random.one_in(self.stray) {
                algorithm = self.random.octets::<1>()[0];
                ac_df = self.random.one_in(2);
            }
            let preference = [0, 7, u16::MAX, self.random.word() as u16][self.random.below(4)];
            let one = workload::community(algorithm, ac_df, self.random.one_in(2), preference);
            if self.random.one_in(4) {
                list.extend(one);
            } else {
                list.splice(0..0, one);
            }
        }
        if self.random.one_in(40) {
            list.truncate(self.random.below(list.len() + 1));
        }
        if self.random.one_in(60) {
            list.resize([248, 256, 264][self.random.below(3)], 0);
        }
        list
    }

    /// A ready list: rows of the pool's addresses, some of no family, and sometimes words after the last.
    fn ready(&mut self) -> Vec<u32> {
        let longest = [2, 64, 67][self.random.below(3)];
        let n = self.random.below(longest);
        let mut words: Vec<u32> = (0..n).flat_map(|_| self.row()).collect();
        if self.random.one_in(3) {
            let tail = self.row();
            words.extend(&tail[..self.random.below(5)]);
        }
        words
    }

    fn row(&mut self) -> [u32; 5] {
        let mut row = self.address().row();
        if self.random.one_in(10) {
            row[0] = [0, 1, 5, 7, 10, 4 << 24, u32::MAX][self.random.below(7)];
        }
        row
    }

    fn tag(&mut self) -> u32 {
        match self.random.below(20) {
            0 => 0,
            1 => u32::MAX,
            2 => u32::MAX - 1,
            _ => self.random.word() as u32,
        }
    }
}

/// A pool of IPv4 addresses, of IPv6 ones or of both, with twins that tie under algorithm 1 and addresses of one family that have the octets of one
/// of the other.
fn addresses(random: &mut Random) -> Vec<Address> {
    let size = [1, 3, 8, 70][random.below(4)];
    let mut numbers = vec![0, 1, u32::MAX];
    numbers.extend((0..size).map(|_| random.word() as u32));
    let twins: Vec<u32> = numbers.iter().map(|number| number ^ 1 << 31).collect();
    numbers.extend(twins.iter().take(size / 4));
    let v4 = numbers.iter().map(|number| Address::v4(*number));
    let v6 = numbers.iter().map(|number| sixteen_octets(random, *number));
    let v6: Vec<Address> = v6.chain([Address::v6(u128::MAX)]).collect();
    match random.below(4) {
        0 => v4.collect(),
        1 => v6,
        _ => {
            let mut both: Vec<Address> = v4.chain(v6).collect();
            random.shuffle(&mut both);
            both.truncate(size + 10);
            both
        }
    }
}

/// An IPv6 address with the octets of an IPv4 one: at its end, mapped, at its start, or below anything.
fn sixteen_octets(random: &mut Random, number: u32) -> Address {
    let low = u128::from(number);
    Address::v6(match random.below(5) {
        0 => low,
        1 => 0xFFFF << 32 | low,
        2 => low << 96,
        3 => 0x2001_0DB8 << 96 | low,
        _ => u128::from(random.word()) << 64 | u128::from(random.word() as u32) << 32 | low,
    })
}

fn same_as_the_reference<T: Segment>() {
    let (mut elections, mut full) = ([0; 2], 0);
    for seed in 0..SEEDS {
        let mut pool = Pool::new(seed);
        let mut side = T::empty();
        let (answer, mut reference) = Table::fresh(&pool.esi);
        assert_eq!(
            side.fresh(&pool.esi),
            answer_number(&answer),
            "fresh, seed {seed}"
        );
        for call in 0..CALLS {
            let place = format!("seed {seed}, call {call}");
            match pool.random.below(8) {
                0..=3 => {
                    let (route, communities) = (pool.route(), pool.communities());
                    let told = Verdict {
                        number: answer_number(&reference.announce(&route, &communities)),
                        place: route::place(&route),
                    };
                    assert_eq!(side.announce(&route, &communities), told, "{place}");
                    full += usize::from(told.number == 8);
                }
                4 => {
                    let address = pool.address();
                    let number = answer_number(&reference.withdraw(theirs(address)));
                    assert_eq!(side.withdraw(address), number, "{place}");
                }
                5 | 6 => {
                    let (tag, ready) = (pool.tag(), pool.ready());
                    let answer = elect(&reference, tag, &ready);
                    assert_eq!(side.elect(tag, &ready), answer, "{place}");
                    elections[0] += usize::from(answer.family == 4);
                    elections[1] += usize::from(answer.family == 6);
                }
                _ => {
                    let (address, algorithm) = (pool.address(), pool.random.below(5) as u8);
                    let (preference, dp) = (pool.random.word() as u16, !pool.random.one_in(4));
                    let sent = returning(&reference, address, algorithm, preference, dp);
                    let own = side.returning(address, algorithm, preference, dp);
                    assert_eq!(own, sent, "{place}");
                }
            }
            let entries = reference.entries().iter();
            let all: Vec<Address> = entries.map(|entry| ours(entry.address)).collect();
            let all = workload::rows(&all);
            assert_eq!(
                side.elect(1, &all),
                elect(&reference, 1, &all),
                "after {place}"
            );
        }
        for _ in 0..20 {
            let tag = pool.tag();
            let digest = digest(tag, reference.esi());
            assert_eq!(
                T::digest(tag, reference.esi()),
                digest,
                "digest, seed {seed}"
            );
        }
    }
    let enough = elections.iter().all(|count| *count > 5_000);
    assert!(
        enough,
        "only {elections:?} elections of IPv4 and IPv6 routers"
    );
    assert!(full > 100, "only {full} announcements to a full table");
}

#[test]
fn proved_is_right() {
    same_as_the_reference::<proved::Table>();
}

#[test]
fn array_is_right() {
    same_as_the_reference::<array::Table>();
}

#[test]
fn list_is_right() {
    same_as_the_reference::<list::List>();
}

#[test]
fn form_is_right() {
    same_as_the_reference::<form::Table>();
}

/// Routes of both families that tie under algorithm 1: the lowest address wins on every side.
#[test]
fn ties_go_to_the_lowest_address() {
    fn winner<T: Segment>(addresses: &[Address]) -> (u8, [u32; 4]) {
        let mut table = T::empty();
        assert_eq!(table.fresh(&workload::ESI), 0);
        for address in addresses {
            let route = workload::route(&workload::ESI, *address);
            let community = workload::community(1, false, false, 0);
            assert_eq!(table.announce(&route, &community), Verdict::default());
        }
        let answer = table.elect(7, &[]);
        (answer.family, answer.address)
    }
    let tied = [
        Address::v6(0xFFFF_8A00_0001),
        Address::v6(0x0A00_0001),
        Address::v4(0x8A00_0001),
        Address::v4(0x0A00_0001),
    ];
    // each is lower than those before it
    let lowest = tied.map(theirs);
    for n in 1..=tied.len() {
        let expected = (lowest[n - 1].family(), words(lowest[n - 1]));
        assert_eq!(winner::<proved::Table>(&tied[..n]), expected);
        assert_eq!(winner::<array::Table>(&tied[..n]), expected);
        assert_eq!(winner::<list::List>(&tied[..n]), expected);
        assert_eq!(winner::<form::Table>(&tied[..n]), expected);
    }
}

/// The bench program over each baseline prints what the reference's prints.
#[test]
fn bench_runs_agree() {
    let good = records::generated(20_000, 1);
    let mut inputs = vec![good.clone(), Vec::new(), good[..33].to_vec()];
    for seed in 0..300 {
        let mut random = Random(seed);
        let mut input = records::generated(1 + random.below(60), seed);
        match seed % 3 {
            0 => input.truncate(random.below(input.len() + 1)),
            1 => {
                let place = random.below(input.len());
                input[place] = random.octets::<1>()[0];
            }
            _ => {}
        }
        inputs.push(input);
    }
    for input in inputs {
        let mut expected = Vec::new();
        reference::bench::run(&mut input.as_slice(), &mut expected).unwrap();
        let (mut array, mut list, mut form) = (Vec::new(), Vec::new(), Vec::new());
        records::run::<array::Table>(&mut input.as_slice(), &mut array).unwrap();
        records::run::<list::List>(&mut input.as_slice(), &mut list).unwrap();
        records::run::<form::Table>(&mut input.as_slice(), &mut form).unwrap();
        assert_eq!(array, expected);
        assert_eq!(list, expected);
        assert_eq!(form, expected);
    }
}
