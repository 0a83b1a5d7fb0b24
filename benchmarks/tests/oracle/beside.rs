//! A side beside the reference: each call is made on both, its answer is compared, and after it what the side lets one see of its state, which is all the words
//! of the proved side and of the baseline that has the same. Of the other baselines nothing is seen but answers.

use crate::{named, ours, returning, theirs, whole, words};
use benchmarks::answer::{Address, Answer, Backup, Circuit, Circuits, Segment, Sent, Verdict};
use benchmarks::{array, form, list, proved, workload};
use reference::backup;
use reference::circuits as ad_routes;
use reference::election;
use reference::flows as rules;
use reference::ranges::Range;
use reference::refusal::answer_number;
use reference::table::Table;
use std::cmp::Reverse;

/// Words of a row of an address, rows of a table.
pub const ROW: usize = 5;
const ROWS: usize = 64;

/// Ranges that may be set, and words of a range.
const RANGES: usize = 16;
const RANGE: usize = 3;

/// The words of a segment: 64 rows of addresses, 64 words of attributes, the number of routes, the identifier and the two numbers set, or zeros; then the
/// ranges of tags, and these once more, in falling order of their first tags.
fn laid_out(table: &Table) -> Vec<u32> {
    let mut rows = Vec::new();
    let mut attributes = Vec::new();
    for entry in table.entries() {
        rows.push(u32::from(entry.address.family()));
        rows.extend(words(entry.address));
        let kind = u32::from(entry.algorithm) << 1 | u32::from(entry.ac_df);
        attributes.push(kind << 17 | u32::from(entry.preference) << 1 | u32::from(entry.dp));
    }
    let count = attributes.len() as u32;
    rows.resize(ROWS * ROW, 0);
    attributes.resize(ROWS, 0);
    let esi = table.esi().chunks(4).map(low_first);
    let set = numbers(table).map(u32::from);
    let all = rows.into_iter().chain(attributes).chain([count]);
    let mut all: Vec<u32> = all.chain(esi).chain(set).collect();
    all.extend(ranges(table));
    all.extend(falling_ranges(table));
    all
}

/// Up to four octets as one word, the first low.
fn low_first(octets: &[u8]) -> u32 {
    octets.iter().rev().fold(0, |word, octet| word << 8 | u32::from(*octet))
}

/// The words of the ranges: how many they are, and 16 rows, in the order in which they were handed in.
fn ranges(table: &Table) -> Vec<u32> {
    let set = table.ranges().as_slice();
    let mut words = vec![set.len() as u32];
    words.extend(set.iter().flat_map(range_words));
    words.resize(1 + RANGES * RANGE, 0);
    words
}

/// The same rows in falling order of their first tags, 17 of them, so that the last is zero.
fn falling_ranges(table: &Table) -> Vec<u32> {
    let mut set = table.ranges().as_slice().to_vec();
    set.sort_by_key(|range| Reverse(range.first));
    let mut words: Vec<u32> = set.iter().flat_map(range_words).collect();
    words.resize((RANGES + 1) * RANGE, 0);
    words
}

/// The words of a range, as it is handed in.
pub fn range_words(range: &Range) -> [u32; RANGE] {
    [range.first, range.last, range.algorithm.into()]
}

/// The numbers set, or zeros.
pub fn numbers(table: &Table) -> [u8; 2] {
    let set = table.flow_algorithms();
    set.map_or([0, 0], rules::FlowAlgorithms::numbers)
}

/// What a side lets one see of its state.
pub trait State {
    fn has(&self, table: &Table) -> bool;
}

impl State for proved::Table {
    fn has(&self, table: &Table) -> bool {
        self.words()[..] == laid_out(table)
    }
}

impl State for array::Table {
    fn has(&self, _: &Table) -> bool {
        true
    }
}

impl State for form::Table {
    fn has(&self, table: &Table) -> bool {
        self.words() == laid_out(table)
    }
}

impl State for list::List {
    fn has(&self, _: &Table) -> bool {
        true
    }
}

/// A query of any kind. S and G have any length.
#[derive(Clone, Debug)]
pub enum Query {
    Plain,
    SourceGroup(Vec<u8>, Vec<u8>),
    AnySource(Vec<u8>),
    ByCircuits,
}

impl Query {
    pub fn flow(&self) -> Option<rules::Flow<'_>> {
        match self {
            Query::SourceGroup(source, group) => Some(rules::Flow::SourceGroup { source, group }),
            Query::AnySource(group) => Some(rules::Flow::AnySource { group }),
            Query::Plain | Query::ByCircuits => None,
        }
    }

    /// The number set for its kind; 0 if it is plain, or where none are set.
    pub fn number(&self, table: &Table) -> u8 {
        let [source_group, any_source] = numbers(table);
        match self {
            Query::SourceGroup(..) => source_group,
            Query::AnySource(_) => any_source,
            Query::Plain | Query::ByCircuits => 0,
        }
    }

    pub fn has_wrong_length(&self) -> bool {
        let fits = |octets: &[u8]| octets.len() == 4 || octets.len() == 16;
        match self {
            Query::SourceGroup(source, group) => source.len() != group.len() || !fits(group),
            Query::AnySource(group) => !fits(group),
            Query::Plain | Query::ByCircuits => false,
        }
    }
}

/// What a returning router hands in.
#[derive(Clone, Copy, Debug)]
pub struct Returning {
    pub address: Address,
    pub algorithm: u8,
    pub preference: u16,
    pub dp: bool,
}

/// A side with its Ethernet A-D routes, and the reference with its own.
pub struct Beside<T: Segment> {
    pub side: T,
    side_circuits: T::Circuits,
    pub table: Table,
    circuits: ad_routes::Circuits,
}

impl<T: Segment + State> Beside<T> {
    pub fn new() -> Beside<T> {
        let beside = Beside {
            side: T::empty(),
            side_circuits: T::Circuits::empty(),
            table: Table::fresh(&[]).1,
            circuits: ad_routes::Circuits::fresh(),
        };
        beside.same_state("empty");
        beside
    }

    pub fn fresh(&mut self, esi: &[u8]) {
        let (told, table) = Table::fresh(esi);
        self.table = table;
        assert_eq!(self.side.fresh(esi), answer_number(&told), "fresh");
        self.same_state("fresh");
    }

    pub fn same_state(&self, place: &str) {
        assert!(self.side.has(&self.table), "{place}: another state");
    }

    pub fn announce(&mut self, route: &[u8], communities: &[u8], place: &str) {
        let told = Verdict {
            number: answer_number(&self.table.announce(route, communities)),
            place: reference::route::place(route),
        };
        assert_eq!(self.side.announce(route, communities), told, "{place}");
        self.same_state(place);
    }

    pub fn withdraw(&mut self, address: Address, place: &str) {
        let number = answer_number(&self.table.withdraw(theirs(address)));
        assert_eq!(self.side.withdraw(address), number, "{place}");
        self.same_state(place);
    }

    /// Sets both numbers, and gives the answer.
    pub fn set(&mut self, source_group: u8, any_source: u8, place: &str) -> u8 {
        let told = self.table.set_flow_algorithms(source_group, any_source);
        let number = self.side.set_flow_algorithms(source_group, any_source);
        assert_eq!(number, answer_number(&told), "{place}");
        self.same_state(place);
        number
    }

    /// Sets the ranges of a run of words, and gives the answer.
    pub fn set_ranges(&mut self, run: &[u32], place: &str) -> u8 {
        let told = self.table.set_ranges(run);
        let number = self.side.set_ranges(run);
        assert_eq!(number, answer_number(&told), "{place}: {run:?}");
        self.same_state(place);
        number
    }

    /// Announces an Ethernet A-D route, per segment without a tag.
    pub fn announce_circuit(&mut self, tag: Option<u32>, address: Address) {
        let own = theirs(address);
        let (route, named) = match tag {
            None => (
                Circuit::per_segment(address),
                ad_routes::Circuit::PerSegment { address: own },
            ),
            Some(tag) => (
                Circuit::per_instance(tag, address),
                ad_routes::Circuit::PerInstance { tag, address: own },
            ),
        };
        let number = answer_number(&self.circuits.announce(named));
        assert_eq!(self.side_circuits.announce(route), number);
    }

    /// No Ethernet A-D routes, on both.
    pub fn fresh_circuits(&mut self) {
        self.side_circuits.fresh();
        self.circuits = ad_routes::Circuits::fresh();
    }

    /// How many Ethernet A-D routes there are.
    pub fn circuits(&self) -> usize {
        self.circuits.routes().len()
    }

    /// The reference's whole answer.
    pub fn told(&self, query: &Query, tag: u32, ready: &[u32]) -> Answer {
        self.told_of(&self.table, query, tag, ready)
    }

    /// The same of another table of the reference's.
    pub fn told_of(&self, table: &Table, query: &Query, tag: u32, ready: &[u32]) -> Answer {
        whole(match query.flow() {
            Some(flow) => rules::elect_rows(table, flow, tag, ready),
            None if matches!(query, Query::Plain) => election::elect_rows(table, tag, ready),
            None => ad_routes::elect(table, &self.circuits, tag),
        })
    }

    /// Elects on both, and gives the answer.
    pub fn elect(&self, query: &Query, tag: u32, ready: &[u32], place: &str) -> Answer {
        let answer = self.elect_alone(query, tag, ready, place);
        self.same_state(place);
        answer
    }

    /// The same without a look at the state after it.
    pub fn elect_alone(&self, query: &Query, tag: u32, ready: &[u32], place: &str) -> Answer {
        let side = &self.side;
        let answer = match query {
            Query::Plain => side.elect(tag, ready),
            Query::SourceGroup(source, group) => side.elect_source_group(source, group, tag, ready),
            Query::AnySource(group) => side.elect_any_source(group, tag, ready),
            Query::ByCircuits => side.elect_by_circuits(&self.side_circuits, tag),
        };
        let told = self.told(query, tag, ready);
        assert_eq!(answer, told, "{place}: {query:?}, tag {tag}");
        answer
    }

    /// Names the backup by a ready list on both, and gives the answer.
    pub fn name_backup(&self, tag: u32, ready: &[u32], place: &str) -> Backup {
        let told = named(backup::name_rows(&self.table, tag, ready));
        let answer = self.side.name_backup(tag, ready);
        assert_eq!(answer, told, "{place}: backup, tag {tag}");
        self.same_state(place);
        answer
    }

    /// The same over both tables.
    pub fn name_backup_by_circuits(&self, tag: u32, place: &str) -> Backup {
        let told = backup::name_by_circuits(&self.table, &self.circuits, tag);
        let answer = self.side.name_backup_by_circuits(&self.side_circuits, tag);
        assert_eq!(answer, named(told), "{place}: backup over both, tag {tag}");
        self.same_state(place);
        answer
    }

    /// What a returning router sends, on both; gives the answer.
    pub fn returning(&self, own: Returning, place: &str) -> Sent {
        let Returning {
            address,
            algorithm,
            preference,
            dp,
        } = own;
        let told = returning(&self.table, address, algorithm, preference, dp);
        let sent = self.side.returning(address, algorithm, preference, dp);
        assert_eq!(sent, told, "{place}: {own:?}");
        self.same_state(place);
        sent
    }

    /// A ready list of all routers.
    pub fn all_ready(&self) -> Vec<u32> {
        let routers = self.table.entries().iter();
        let routers: Vec<Address> = routers.map(|entry| ours(entry.address)).collect();
        workload::rows(&routers)
    }

    /// Every kind of query with all routers ready, after any call.
    pub fn elect_each(&self, place: &str) {
        let ready = self.all_ready();
        let (source, group) = (vec![192, 0, 2, 1], vec![232, 1, 2, 3]);
        let flow = Query::SourceGroup(source, group.clone());
        for query in [Query::Plain, flow, Query::AnySource(group)] {
            self.elect(&query, 1, &ready, place);
        }
    }
}
