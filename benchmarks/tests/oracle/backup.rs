//! The second in line (document 02, M-113) from the table, by ready lists and over both tables: whole answers and what a side lets one see of its state, as in
//! `beside`; every refusal in its order; and that the backup is the one elected once the forwarder is withdrawn.

use crate::beside::{numbers, Beside, Query, State};
use crate::range_runs::Kind;
use crate::tally::Tally;
use crate::{ours, sixteen_octets, theirs};
use benchmarks::answer::{Address, Answer, Backup, Family, Segment};
use benchmarks::random::Random;
use benchmarks::workload::{self, Run, ESI};
use benchmarks::{array, form, list, proved};
use reference::election;
use reference::hrw;

const TABLES: u64 = 960;
const QUERIES: usize = 20;
const SIZES: [usize; 6] = [0, 1, 2, 3, 8, 64];
const LOW_31_BITS: u32 = 0x7FFF_FFFF;
/// The numbers for (S,G) and for (*,G) that are set, where any are.
const SET: [u8; 2] = [20, 9];

/// What the routes of a table carry.
#[derive(Clone, Copy, Debug, PartialEq, Eq)]
enum Carried {
    /// All of them one of 1 to 3.
    Named(u8),
    /// All of them algorithm 0.
    Default,
    /// All of them a number that is set for flows.
    FlowNumber(u8),
    /// All of them a number that is not set.
    NotSet(u8),
    /// All but one of them one of 1 to 3; that one another algorithm, or the other AC-DF bit.
    Torn(u8),
}

impl Carried {
    /// What all routes carry, or all but one.
    fn algorithm(self) -> u8 {
        match self {
            Carried::Default => 0,
            Carried::Named(algorithm)
            | Carried::FlowNumber(algorithm)
            | Carried::NotSet(algorithm)
            | Carried::Torn(algorithm) => algorithm,
        }
    }

    /// Whether an algorithm is in use under which a backup is named.
    fn names(self) -> bool {
        matches!(self, Carried::Named(_) | Carried::FlowNumber(_))
    }
}

/// A table with all that is set beside it, and what queries of it draw from.
struct Drawn {
    random: Random,
    runs: Vec<Run>,
    carried: Carried,
    ac_df: bool,
    is_set: bool,
    ranges: Vec<u32>,
    /// The tags for which routers have Ethernet A-D routes.
    tags: Vec<u32>,
}

/// So many addresses of IPv4, of IPv6 or of both. Many are alike in the low 31 bits, or next to each other.
fn routers(count: usize, random: &mut Random) -> Vec<Address> {
    let families = random.below(3);
    let mut routers: Vec<Address> = Vec::new();
    while routers.len() < count {
        let near = 0x0A00_0001 + random.below(count + 3) as u32;
        let number = match random.below(4) {
            0 => 1 + random.below(u32::MAX as usize) as u32,
            1 => near ^ 1 << 31,
            _ => near,
        };
        let is_v6 = match families {
            0 => false,
            1 => true,
            _ => random.one_in(2),
        };
        let address = if is_v6 {
            sixteen_octets(random, number)
        } else {
            Address::v4(number)
        };
        if !routers.contains(&address) {
            routers.push(address);
        }
    }
    routers
}

impl Drawn {
    fn new(seed: u64) -> Drawn {
        let mut random = Random(0xBAC0 ^ seed << 20);
        let size = SIZES[seed as usize % SIZES.len()];
        let carried = match random.below(16) {
            0 => Carried::Default,
            1 | 2 => Carried::FlowNumber(SET[random.below(2)]),
            3 => Carried::NotSet([4, 8, 10, 19, 21, 30, 31][random.below(7)]),
            4 if size > 1 => Carried::Torn(1 + random.below(3) as u8),
            _ => Carried::Named(1 + random.below(3) as u8),
        };
        let ac_df = random.one_in(2);
        let addresses = routers(size, &mut random);
        let mut drawn = Drawn {
            runs: Vec::new(),
            carried,
            ac_df,
            is_set: matches!(carried, Carried::FlowNumber(_)) || random.one_in(2),
            ranges: Vec::new(),
            tags: Vec::new(),
            random,
        };
        drawn.runs = addresses.iter().map(|one| drawn.run(*one)).collect();
        if let Carried::Torn(algorithm) = carried {
            let at = drawn.random.below(size);
            let other = match drawn.random.one_in(3) {
                true => (algorithm, !ac_df),
                false => ((algorithm + 1 + drawn.random.below(3) as u8) % 4, ac_df),
            };
            let (algorithm, ac_df) = other;
            drawn.runs[at].communities = workload::community(algorithm, ac_df, true, 7).to_vec();
        }
        if drawn.random.one_in(2) {
            let kinds = [Kind::Any, Kind::Sixteen, Kind::Touching, Kind::OneTag];
            let kind = kinds[drawn.random.below(kinds.len())];
            drawn.ranges = kind.run(&mut drawn.random);
        }
        drawn.tags = (0..3).map(|_| drawn.tag()).collect();
        drawn
    }

    /// An announcement of what the routes carry; many preferences are alike.
    fn run(&mut self, address: Address) -> Run {
        let random = &mut self.random;
        let preference = [0, 7, 500, 501, u16::MAX, random.word() as u16][random.below(6)];
        let algorithm = self.carried.algorithm();
        let community = workload::community(algorithm, self.ac_df, random.one_in(2), preference);
        Run {
            route: workload::route(&ESI, address),
            communities: community.to_vec(),
            address,
        }
    }

    /// A tag that is not reserved, mostly at an end of a range or next to it.
    fn tag(&mut self) -> u32 {
        let random = &mut self.random;
        let rows = self.ranges.len() / 3;
        if rows > 0 && !random.one_in(4) {
            let row = &self.ranges[3 * random.below(rows)..][..3];
            let tag = [row[0] - 1, row[0], row[1], row[1] + 1][random.below(4)];
            if !election::is_reserved(tag) {
                return tag;
            }
        }
        match random.below(4) {
            0 => u32::MAX - 1 - random.below(3) as u32,
            1 => 1 + random.below(u32::MAX as usize - 1) as u32,
            _ => 1 + random.below(100) as u32,
        }
    }

    /// The same, one of those with Ethernet A-D routes, or now and then a reserved one.
    fn asked(&mut self) -> u32 {
        match self.random.below(16) {
            0 => [0, u32::MAX][self.random.below(2)],
            1..=9 => self.tags[self.random.below(self.tags.len())],
            _ => self.tag(),
        }
    }

    /// A ready list: all routers, some, one or none of them; some twice, strangers among them, rows that are no address; up to 64 rows or more; words that are
    /// no row at the end.
    fn ready(&mut self) -> Vec<u32> {
        let random = &mut self.random;
        let all: Vec<[u32; 5]> = self.runs.iter().map(|run| run.address.row()).collect();
        let mut rows: Vec<[u32; 5]> = match random.below(8) {
            0 => Vec::new(),
            1 => all.iter().copied().take(1).collect(),
            2 => all.iter().copied().take(2).collect(),
            3..=5 => {
                let some = all.iter().copied();
                some.filter(|_| random.one_in(2)).collect()
            }
            _ => all.clone(),
        };
        for _ in 0..random.below(4) {
            let mut row = match all.len() {
                0 => [4, 1, 0, 0, 0],
                count => all[random.below(count)],
            };
            match random.below(4) {
                0 => row[0] = [0, 1, 5, 7, 4 << 24, u32::MAX][random.below(6)],
                1 => row[4] ^= 0x100,
                2 => row[0] ^= 2,
                _ => {}
            }
            rows.push(row);
        }
        if random.one_in(6) {
            let more = rows.first().copied().unwrap_or([6, 0, 0, 0, 1]);
            rows.resize([64, 65, 66, 130][random.below(4)], more);
        }
        random.shuffle(&mut rows);
        // in an IPv4 row the words after the first do not count
        for row in rows.iter_mut().filter(|row| row[0] == 4) {
            row[3] ^= random.below(3) as u32;
        }
        let mut words = rows.concat();
        if random.one_in(4) {
            words.extend(&[4, 0x0A00_0001, 0, 0][..random.below(5)]);
        }
        words
    }

    /// Announces all routes, sets what is set, and announces Ethernet A-D routes: of every router, of most or of some, and of strangers.
    fn lay<T: Segment + State>(&mut self) -> Beside<T> {
        let mut beside = Beside::new();
        beside.fresh(&ESI);
        for run in &self.runs {
            beside.announce(&run.route, &run.communities, "laid");
        }
        if self.is_set {
            assert_eq!(beside.set(SET[0], SET[1], "laid"), 0);
        }
        assert_eq!(beside.set_ranges(&self.ranges, "laid"), 0);
        let mut addresses: Vec<Address> = self.runs.iter().map(|run| run.address).collect();
        addresses.push(Address::v4(0x0B00_0001));
        let lost = [2, 10, 1_000][self.random.below(3)];
        for tag in [None]
            .into_iter()
            .chain(self.tags.clone().into_iter().map(Some))
        {
            for address in &addresses {
                if !self.random.one_in(lost) && beside.circuits() < 256 {
                    beside.announce_circuit(tag, *address);
                }
            }
        }
        beside
    }
}

/// Names the backup on both, by a ready list or over both tables.
fn name<T: Segment + State>(beside: &Beside<T>, by: &Query, tag: u32, ready: &[u32]) -> Backup {
    match by {
        Query::ByCircuits => beside.name_backup_by_circuits(tag, "drawn"),
        _ => beside.name_backup(tag, ready, "drawn"),
    }
}

/// The first check that refuses, by what was drawn. The number of eligible ones is that of the election, which `oracle.rs` and `circuits.rs` compare.
fn refused(drawn: &Drawn, by: &Query, (tag, ready): (u32, &[u32]), elected: Answer) -> u8 {
    if election::is_reserved(tag) {
        10
    } else if matches!(by, Query::Plain) && ready.len() / 5 > 64 {
        11
    } else if drawn.runs.is_empty() {
        12
    } else if !drawn.carried.names() {
        15
    } else if elected.n < 2 {
        12
    } else {
        0
    }
}

/// Withdraws the forwarder: who is then elected must be the backup, under the same algorithm, and nobody where none was named. Announces it again.
fn takes_over<T: Segment + State>(
    drawn: &Drawn,
    beside: &mut Beside<T>,
    by: &Query,
    (tag, ready): (u32, &[u32]),
    (elected, backup): (Answer, Backup),
) {
    let is_forwarder = |run: &&Run| {
        let own = theirs(run.address);
        own.family() == elected.family && crate::words(own) == elected.address
    };
    let forwarder = drawn.runs.iter().find(is_forwarder).expect("a router");
    assert_ne!(
        (backup.family, backup.address),
        (elected.family, elected.address)
    );
    beside.withdraw(forwarder.address, "the forwarder");
    let after = beside.elect(by, tag, ready, "without the forwarder");
    assert_eq!(
        (after.number, after.family, after.address),
        (backup.number, backup.family, backup.address)
    );
    if after.number == 0 {
        assert_eq!(after.algorithm, elected.algorithm);
        assert_eq!(after.n, elected.n - 1);
    }
    beside.announce(&forwarder.route, &forwarder.communities, "again");
}

/// Notes what a query came to.
fn hear(tally: &mut Tally, drawn: &Drawn, by: &Query, elected: Answer, backup: Backup) {
    let (carried, size) = (drawn.carried.algorithm(), drawn.runs.len());
    tally.note((by, "compared"));
    tally.note((by, backup.number));
    match backup.number {
        0 => {
            tally.note((by, "family", backup.family));
            if matches!(drawn.carried, Carried::FlowNumber(_)) {
                assert_eq!(elected.algorithm, 1);
                tally.note((by, "under a number for flows"));
            } else {
                tally.note((by, carried, "AC-DF", drawn.ac_df, size));
                if elected.algorithm != carried {
                    tally.note((by, carried, "by a range"));
                }
            }
            if (elected.n as usize) < size {
                tally.note((by, "some ready"));
            }
        }
        12 if elected.number == 0 => tally.note((by, "one eligible")),
        12 => tally.note((by, "none eligible")),
        _ => {}
    }
}

fn same_as_the_reference<T: Segment + State>() {
    let mut tally = Tally::default();
    for seed in 0..TABLES {
        let mut drawn = Drawn::new(seed);
        let mut beside: Beside<T> = drawn.lay();
        for _ in 0..QUERIES {
            let (tag, ready) = (drawn.asked(), drawn.ready());
            for by in [Query::Plain, Query::ByCircuits] {
                let query = (tag, &ready[..]);
                let backup = name(&beside, &by, tag, &ready);
                let elected = beside.elect(&by, tag, &ready, "drawn");
                let number = refused(&drawn, &by, query, elected);
                assert_eq!(backup.number, number, "seed {seed}, {by:?}, tag {tag}");
                if number != 0 {
                    assert_eq!(backup, Backup::refused(number));
                }
                hear(&mut tally, &drawn, &by, elected, backup);
                if drawn.carried.names() && elected.number == 0 {
                    takes_over(&drawn, &mut beside, &by, query, (elected, backup));
                    tally.note((&by, "taken over", number));
                }
            }
        }
    }
    is_enough(&tally);
}

fn is_enough(tally: &Tally) {
    println!("{tally:#?}");
    for by in [Query::Plain, Query::ByCircuits] {
        tally.at_least(TABLES as usize * QUERIES, (&by, "compared"));
        for number in [0, 10, 12, 15] {
            tally.at_least(400, (&by, number));
        }
        for (carried, size) in (1..=3).flat_map(|one| SIZES[2..].iter().map(move |two| (one, two)))
        {
            tally.at_least(20, (&by, carried, "AC-DF", true, size));
            tally.at_least(60, (&by, carried, "AC-DF", false, size));
        }
        for carried in [2, 3] {
            tally.at_least(50, (&by, carried, "by a range"));
        }
        tally.at_least(400, (&by, "family", 4));
        tally.at_least(400, (&by, "family", 6));
        tally.at_least(200, (&by, "some ready"));
        tally.at_least(100, (&by, "one eligible"));
        tally.at_least(50, (&by, "none eligible"));
        tally.at_least(100, (&by, "under a number for flows"));
        tally.at_least(1_000, (&by, "taken over", 0));
        tally.at_least(100, (&by, "taken over", 12));
    }
    tally.at_least(100, (Query::Plain, 11));
    assert_eq!(tally.count((Query::ByCircuits, 11)), 0);
}

#[test]
fn proved_backups_are_right() {
    same_as_the_reference::<proved::Table>();
}

#[test]
fn array_backups_are_right() {
    same_as_the_reference::<array::Table>();
}

#[test]
fn list_backups_are_right() {
    same_as_the_reference::<list::List>();
}

#[test]
fn form_backups_are_right() {
    same_as_the_reference::<form::Table>();
}

/// A table of so many of three routers, which carry an algorithm and an AC-DF bit but for one, if the table is torn.
#[derive(Clone, Copy, Debug)]
struct Shape {
    routers: usize,
    algorithm: u8,
    ac_df: bool,
    is_torn: bool,
    is_set: bool,
}

const THREE: [Address; 3] = [
    Address {
        family: Family::V4,
        words: [0x0A00_0001, 0, 0, 0],
    },
    Address {
        family: Family::V4,
        words: [0x0A00_0002, 0, 0, 0],
    },
    Address {
        family: Family::V6,
        words: [0x2001_0DB8, 0, 0, 3],
    },
];

/// The tag for which the routers below have Ethernet A-D routes.
const LIT: u32 = 7;

impl Shape {
    fn all() -> Vec<Shape> {
        let mut shapes = Vec::new();
        for algorithm in 0..32 {
            for bits in 0..8 {
                let [ac_df, is_torn, is_set] = [1, 2, 4].map(|bit| bits & bit != 0);
                let least = if is_torn { 2 } else { 0 };
                shapes.extend((least..=THREE.len()).map(|routers| Shape {
                    routers,
                    algorithm,
                    ac_df,
                    is_torn,
                    is_set,
                }));
            }
        }
        shapes
    }

    fn lay<T: Segment + State>(self) -> Beside<T> {
        let mut beside = Beside::new();
        beside.fresh(&ESI);
        for (at, address) in THREE[..self.routers].iter().enumerate() {
            let algorithm = match self.is_torn && at == 1 {
                true => (self.algorithm + 1) % 32,
                false => self.algorithm,
            };
            let community = workload::community(algorithm, self.ac_df, false, 100);
            beside.announce(&workload::route(&ESI, *address), &community, "laid");
        }
        if self.is_set {
            assert_eq!(beside.set(SET[0], SET[1], "laid"), 0);
        }
        beside
    }

    /// The first check that refuses, told from the shape alone: `listed` rows and so many of the routers ready.
    fn number(self, tag: u32, listed: usize, ready: usize) -> u8 {
        let is_named =
            matches!(self.algorithm, 1..=3) || self.is_set && SET.contains(&self.algorithm);
        let eligible = if self.ac_df { ready } else { self.routers };
        match () {
            () if tag == 0 || tag == u32::MAX => 10,
            () if listed > 64 => 11,
            () if self.routers == 0 => 12,
            () if self.is_torn || !is_named => 15,
            () if eligible < 2 => 12,
            () => 0,
        }
    }
}

/// Every tag, list and shape of a table: 10, 11, 12 for an empty table, 15, and 12 for fewer than two, each with every set of those that come after it.
#[test]
fn refusals_in_every_order() {
    fn refusals<T: Segment + State>() {
        let mut tally = Tally::default();
        for shape in Shape::all() {
            let mut beside: Beside<T> = shape.lay();
            for tag in [0, 1, LIT, u32::MAX - 1, u32::MAX] {
                for up in 0..=THREE.len() {
                    for listed in [up, up + 3, 64, 65, 66] {
                        // strangers fill the list, and words that are no row follow it
                        let mut rows: Vec<[u32; 5]> =
                            THREE[..up].iter().map(|one| one.row()).collect();
                        rows.resize(listed, [5, 0x0A00_0001, 0, 0, 0]);
                        rows.reverse();
                        let mut words = rows.concat();
                        words.extend([4, 0x0A00_0001, 0, 0]);
                        let backup = beside.name_backup(tag, &words, "by a list");
                        let number = shape.number(tag, listed, up.min(shape.routers));
                        assert_eq!(
                            backup.number, number,
                            "{shape:?}, tag {tag}, {up} of {listed}"
                        );
                        tally.note(("by a list", number));
                    }
                }
            }
            for up in 0..=THREE.len() {
                for tag in [0, LIT - 1, LIT, LIT + 1, u32::MAX] {
                    let ready = if tag == LIT { up.min(shape.routers) } else { 0 };
                    let backup = beside.name_backup_by_circuits(tag, "over both");
                    let number = shape.number(tag, 0, ready);
                    assert_eq!(backup.number, number, "{shape:?}, tag {tag}, {up} up");
                    tally.note(("over both", number));
                }
                if let Some(address) = THREE.get(up) {
                    beside.announce_circuit(None, *address);
                    beside.announce_circuit(Some(LIT), *address);
                }
            }
        }
        println!("{tally:#?}");
        for number in [0, 10, 11, 12, 15] {
            tally.at_least(800, ("by a list", number));
        }
        for number in [0, 10, 12, 15] {
            tally.at_least(100, ("over both", number));
        }
    }
    refusals::<proved::Table>();
    refusals::<array::Table>();
    refusals::<list::List>();
    refusals::<form::Table>();
}

/// The table of a reserved identifier stays empty: 10, 11 and 12.
#[test]
fn reserved_identifiers_have_no_backup() {
    fn refusals<T: Segment + State>() {
        for esi in [&[0x00; 10][..], &[0xFF; 10], &[], &[1; 9], &[1; 11]] {
            let mut beside: Beside<T> = Beside::new();
            beside.fresh(esi);
            let route = workload::route(&ESI, THREE[0]);
            beside.announce(&route, &workload::community(2, false, false, 1), "reserved");
            assert_eq!(beside.set(SET[0], SET[1], "reserved"), 0);
            assert_eq!(numbers(&beside.table), SET);
            for tag in [0, 1, u32::MAX] {
                let reserved = if tag == 1 { 12 } else { 10 };
                let long = if tag == 1 { 11 } else { 10 };
                let told = |ready: &[u32]| beside.name_backup(tag, ready, "reserved");
                assert_eq!(told(&[]), Backup::refused(reserved));
                assert_eq!(told(&[4; 5 * 65]), Backup::refused(long));
                let over_both = beside.name_backup_by_circuits(tag, "reserved");
                assert_eq!(over_both, Backup::refused(reserved));
            }
        }
    }
    refusals::<proved::Table>();
    refusals::<array::Table>();
    refusals::<list::List>();
    refusals::<form::Table>();
}

/// Of 64 routers each is the forwarder once beside each other one that is second in line, under 2 and 3; so too where a range says it.
#[test]
fn every_pair_of_places() {
    fn places<T: Segment + State>() -> usize {
        let mut routers = routers(64, &mut Random(64));
        workload::sort(&mut routers);
        let mut named = 0;
        for (algorithm, says) in [(2, 2), (3, 3), (2, 3), (3, 2)] {
            let preferences = if says == 2 {
                [100, 200, 300]
            } else {
                [300, 200, 100]
            };
            let [third, second, first] = preferences;
            let mut beside: Beside<T> = Beside::new();
            beside.fresh(&ESI);
            assert_eq!(beside.set_ranges(&[5, 5, says], "set"), 0);
            let announce = |beside: &mut Beside<T>, at: usize, preference| {
                let community = workload::community(algorithm, false, false, preference);
                let route = workload::route(&ESI, routers[at]);
                beside.announce(&route, &community, "a place");
            };
            for at in 0..64 {
                announce(&mut beside, at, third);
            }
            for (forwarder, other) in (0..64).flat_map(|one| (0..64).map(move |two| (one, two))) {
                if forwarder == other {
                    continue;
                }
                announce(&mut beside, forwarder, first);
                announce(&mut beside, other, second);
                let told = beside.name_backup(5, &[], "a place");
                let own = theirs(routers[other]);
                assert_eq!(
                    (told.number, told.family, told.address),
                    (0, own.family(), crate::words(own))
                );
                named += 1;
                announce(&mut beside, forwarder, third);
                announce(&mut beside, other, third);
            }
        }
        named
    }
    for named in [
        places::<proved::Table>(),
        places::<array::Table>(),
        places::<list::List>(),
        places::<form::Table>(),
    ] {
        assert_eq!(named, 4 * 64 * 63);
    }
}

/// Two IPv4 routers under algorithm 1: they tie at a tag's digest exactly if their addresses agree in the low 31 bits, and then the lower is elected and the other
/// second in line; else the greater weight decides. The weights are the reference's, the answers each side's.
#[test]
fn ties_are_exact() {
    fn ties<T: Segment + State>() -> Tally {
        let mut tally = Tally::default();
        let mut random = Random(31);
        for _ in 0..3_000 {
            let one = 1 + random.below(u32::MAX as usize - 1) as u32;
            let (kind, other) = match random.below(4) {
                0 => ("any", random.word() as u32),
                1 => ("a bit", one ^ 1 << random.below(31)),
                _ => ("the top bit", one ^ 1 << 31),
            };
            if other == 0 || one == other {
                continue;
            }
            let mut beside: Beside<T> = Beside::new();
            beside.fresh(&ESI);
            for number in [one, other] {
                let route = workload::route(&ESI, Address::v4(number));
                beside.announce(&route, &workload::community(1, false, false, 0), "a pair");
            }
            for _ in 0..4 {
                let tag = 1 + random.below(u32::MAX as usize - 1) as u32;
                let digest = hrw::digest(tag, &ESI);
                let weights =
                    [one, other].map(|number| hrw::weight(theirs(Address::v4(number)), digest));
                let agree = one & LOW_31_BITS == other & LOW_31_BITS;
                assert_eq!(weights[0] == weights[1], agree, "{one:08x}, {other:08x}");
                let loser = match weights[0].cmp(&weights[1]) {
                    std::cmp::Ordering::Equal => one.max(other),
                    std::cmp::Ordering::Less => one,
                    std::cmp::Ordering::Greater => other,
                };
                let told = beside.name_backup(tag, &[], "a pair");
                assert_eq!((told.number, told.address), (0, [loser, 0, 0, 0]));
                tally.note((kind, agree));
            }
        }
        tally
    }
    for tally in [
        ties::<proved::Table>(),
        ties::<array::Table>(),
        ties::<list::List>(),
        ties::<form::Table>(),
    ] {
        tally.at_least(2_000, ("any", false));
        tally.at_least(2_000, ("a bit", false));
        tally.at_least(4_000, ("the top bit", true));
    }
}

/// A router of either family that is named is handed back as the table has it.
#[test]
fn both_families_are_named() {
    fn backups<T: Segment + State>() {
        for algorithm in 1..=3 {
            let mut beside: Beside<T> = Beside::new();
            beside.fresh(&ESI);
            for address in THREE {
                let community = workload::community(algorithm, false, false, 500);
                beside.announce(&workload::route(&ESI, address), &community, "three");
            }
            let mut families = [0, 0];
            for tag in 1..200 {
                let told = beside.name_backup(tag, &[], "three");
                families[usize::from(told.family == 6)] += 1;
                let entries = beside.table.entries().iter();
                let mut addresses = entries.map(|entry| ours(entry.address));
                assert!(addresses.any(|one| one.words == told.address));
            }
            match algorithm {
                1 => assert!(families[0] > 50 && families[1] > 30, "{families:?}"),
                _ => assert_eq!(families, [199, 0]),
            }
        }
    }
    backups::<proved::Table>();
    backups::<array::Table>();
    backups::<list::List>();
    backups::<form::Table>();
}
