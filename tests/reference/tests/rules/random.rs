//! What the tests of properties draw: numbers from a fixed seed, and from them addresses, routes,
//! settings, ready lists and queries of every kind; and how often each thing came up.

use crate::common::*;
use reference::address::Address::{self, V4, V6};
use reference::circuits::{self, Circuit, Circuits};
use reference::election::{self, Election};
use reference::flows::{self, Flow};
use reference::refusal::Refusal;
use reference::table::Table;
use std::collections::BTreeMap;
use std::fmt::Debug;

/// The greatest tag that elections are for.
pub const TOP: u32 = u32::MAX - 1;
/// The numbers for (S,G) and for (*,G) that are set, where any are.
pub const NUMBERS: [u8; 2] = [20, 9];
/// Few, so that ties are many.
pub const PREFERENCES: [u16; 5] = [0, 100, 200, 300, 65_535];

/// The numbers of a seed (splitmix64).
pub struct Random {
    state: u64,
}

impl Random {
    pub fn new(seed: u64) -> Random {
        Random { state: seed }
    }

    fn number(&mut self) -> u64 {
        self.state = self.state.wrapping_add(0x9E37_79B9_7F4A_7C15);
        let mut mixed = self.state;
        mixed = (mixed ^ (mixed >> 30)).wrapping_mul(0xBF58_476D_1CE4_E5B9);
        mixed = (mixed ^ (mixed >> 27)).wrapping_mul(0x94D0_49BB_1331_11EB);
        mixed ^ (mixed >> 31)
    }

    /// Any number of 32 bits.
    pub fn word(&mut self) -> u32 {
        self.number() as u32
    }

    /// A number from 0 to `limit` - 1.
    pub fn below(&mut self, limit: usize) -> usize {
        (self.number() % limit as u64) as usize
    }

    pub fn between(&mut self, low: usize, high: usize) -> usize {
        low + self.below(high + 1 - low)
    }

    /// True in `percent` of a hundred cases.
    pub fn chance(&mut self, percent: usize) -> bool {
        self.below(100) < percent
    }

    pub fn pick<T: Copy>(&mut self, from: &[T]) -> T {
        from[self.below(from.len())]
    }

    pub fn octets(&mut self, count: usize) -> Vec<u8> {
        (0..count).map(|_| self.number() as u8).collect()
    }

    pub fn shuffle<T>(&mut self, list: &mut [T]) {
        for last in (1..list.len()).rev() {
            list.swap(last, self.below(last + 1));
        }
    }

    /// So many different addresses of both families. Some are alike in the low 31 bits, so that
    /// they weigh the same.
    pub fn addresses(&mut self, count: usize) -> Vec<Address> {
        let mut drawn = Vec::new();
        while drawn.len() < count {
            let number = 0x0A00_0001 + self.below(count + 4) as u32;
            let address = match self.below(4) {
                0 => V4(number),
                1 => V4(number ^ 1 << 31),
                2 => mapped(number),
                _ => V6(0x2001_0DB8 << 96 | u128::from(number)),
            };
            if !drawn.contains(&address) {
                drawn.push(address);
            }
        }
        drawn
    }

    /// Up to 64 members: routers of these, some of them twice, and strangers.
    pub fn ready_list(&mut self, routers: &[Address]) -> Vec<Address> {
        let mut list = match self.below(6) {
            0 => Vec::new(),
            1 => routers.to_vec(),
            _ => routers
                .iter()
                .copied()
                .filter(|_| self.chance(50))
                .collect(),
        };
        for _ in 0..self.below(4) {
            let member = if routers.is_empty() || self.chance(50) {
                six(250)
            } else {
                self.pick(routers)
            };
            list.push(member);
        }
        self.shuffle(&mut list);
        list.truncate(64);
        list
    }

    /// A run of ranges that may be set, up to six of them, in any order.
    pub fn ranges(&mut self) -> Vec<u32> {
        if self.chance(15) {
            return vec![1, TOP, self.between(2, 3) as u32];
        }
        let mut rows = Vec::new();
        let mut next = 1;
        for _ in 0..self.below(6) {
            let first = next + self.below(4) as u32;
            let last = first + self.below(5) as u32;
            rows.push([first, last, self.between(2, 3) as u32]);
            next = last + 1;
        }
        if self.chance(30) {
            rows.push([TOP - 3, TOP, self.between(2, 3) as u32]);
        }
        self.shuffle(&mut rows);
        rows.concat()
    }

    /// A tag that is not reserved, mostly one that ranges are drawn for.
    pub fn tag(&mut self) -> u32 {
        match self.below(10) {
            0 => TOP - self.below(5) as u32,
            1 => 1 + self.below(TOP as usize) as u32,
            _ => 1 + self.below(30) as u32,
        }
    }

    /// The same, or an end of one of these ranges.
    pub fn tag_near(&mut self, run: &[u32]) -> u32 {
        match run.chunks_exact(3).nth(self.below(8)) {
            Some(range) => range[self.below(2)],
            None => self.tag(),
        }
    }

    /// The Ethernet A-D routes of most of the routers, for most of the tags; at most 256.
    pub fn circuit_routes(&mut self, routers: &[Address], tags: &[u32]) -> Vec<Circuit> {
        let mut routes = Vec::new();
        for address in routers.iter().copied() {
            if self.chance(80) {
                routes.push(Circuit::PerSegment { address });
            }
            for tag in tags.iter().copied() {
                let route = Circuit::PerInstance { tag, address };
                if self.chance(70) && !routes.contains(&route) {
                    routes.push(route);
                }
            }
        }
        routes.truncate(256);
        routes
    }

    /// A query of a kind for a tag.
    pub fn query(&mut self, kind: Kind, tag: u32, routers: &[Address]) -> Query {
        let length = self.pick(&[4, 16]);
        Query {
            kind,
            tag,
            ready: self.ready_list(routers),
            source: self.octets(length),
            group: self.octets(length),
        }
    }
}

/// A route of the test segment, by what it says.
#[derive(Clone, Copy, Debug, PartialEq, Eq)]
pub struct Said {
    pub address: Address,
    pub algorithm: u8,
    pub ac_df: bool,
    pub dp: bool,
    pub preference: u16,
}

impl Said {
    /// The octets of the route, and those of its community.
    pub fn octets(&self) -> (Vec<u8>, Vec<u8>) {
        let community = community_octets(self.algorithm, self.ac_df, self.dp, self.preference);
        (route_octets(&ESI, self.address), community)
    }
}

/// A table of these routes.
pub fn table_that_holds(routes: &[Said]) -> Table {
    let mut table = fresh();
    for route in routes {
        let (octets, community) = route.octets();
        assert_eq!(table.announce(&octets, &community), Ok(()));
    }
    table
}

pub fn circuits_that_hold(routes: &[Circuit]) -> Circuits {
    let mut circuits = Circuits::fresh();
    for route in routes {
        assert_eq!(circuits.announce(*route), Ok(()));
    }
    circuits
}

#[derive(Clone, Copy, Debug, PartialEq, Eq)]
pub enum Kind {
    Plain,
    SourceGroup,
    AnySource,
    BothTables,
}

pub const KINDS: [Kind; 4] = [
    Kind::Plain,
    Kind::SourceGroup,
    Kind::AnySource,
    Kind::BothTables,
];

/// A query with all that one of any kind has; what its own kind lacks does not count.
#[derive(Clone, Debug)]
pub struct Query {
    pub kind: Kind,
    pub tag: u32,
    pub ready: Vec<Address>,
    pub source: Vec<u8>,
    pub group: Vec<u8>,
}

impl Query {
    pub fn ask(&self, table: &Table, circuits: &Circuits) -> Result<Election, Refusal> {
        let group = &self.group;
        let by_flow = |flow| flows::elect(table, flow, self.tag, &self.ready);
        match self.kind {
            Kind::Plain => election::elect(table, self.tag, &self.ready),
            Kind::SourceGroup => by_flow(Flow::SourceGroup {
                source: &self.source,
                group,
            }),
            Kind::AnySource => by_flow(Flow::AnySource { group }),
            Kind::BothTables => circuits::elect(table, circuits, self.tag),
        }
    }
}

/// How often each thing came up. The tests print it, which `cargo test -- --nocapture` shows.
#[derive(Debug, Default)]
pub struct Tally(BTreeMap<String, u32>);

impl Tally {
    pub fn note(&mut self, what: impl Debug) {
        *self.0.entry(format!("{what:?}")).or_default() += 1;
    }

    /// Fails if a thing came up less often than this.
    pub fn at_least(&self, least: u32, what: impl Debug) {
        let what = format!("{what:?}");
        let count = self.0.get(&what).copied().unwrap_or(0);
        assert!(count >= least, "{what} came up {count} times");
    }
}
