//! Elections by multicast flow and the algorithm numbers set for them (document 02, M-106), among all other calls of a segment. After each call its answer is
//! compared and what a side lets one see of its state, as in `beside`: the proved side all its words, the baselines what elections of every kind answer.

use crate::addresses;
use crate::beside::{numbers, Beside, Query, Returning, State, ROW};
use benchmarks::answer::{Address, Answer, Segment};
use benchmarks::random::Random;
use benchmarks::{array, form, list, proved, workload};
use reference::election;
use reference::table::Table;

const SEEDS: u64 = 500;
const CALLS: usize = 600;
const MOST_READY: usize = 64;

/// What the calls of one seed draw from.
struct Pool {
    random: Random,
    esi: Vec<u8>,
    addresses: Vec<Address>,
    tags: [u32; 3],
    /// The numbers that are set most times, for (S,G) and for (*,G).
    set: [u8; 2],
    /// What most routes carry.
    algorithm: u8,
    ac_df: bool,
    /// One route in so many carries something else.
    stray: usize,
    /// The octet that was handed in last where each has its turn.
    next: u8,
}

impl Pool {
    fn new(seed: u64) -> Pool {
        let mut random = Random(seed);
        let esi = match seed % 16 {
            0 => vec![0x00; 10],
            1 => vec![0xFF; 10],
            2 => random.octets::<9>().to_vec(),
            _ => random.octets::<10>().to_vec(),
        };
        let first = 4 + random.below(27) as u8;
        let second = 4 + (first - 4 + 1 + random.below(26) as u8) % 27;
        let mut pool = Pool {
            addresses: addresses(&mut random),
            esi,
            tags: [1, 1 + random.below(4094) as u32, u32::MAX - 1],
            set: [first, second],
            algorithm: 0,
            ac_df: false,
            stray: [20, 500, 100_000][random.below(3)],
            next: seed as u8,
            random,
        };
        pool.turn();
        pool
    }

    /// Chooses anew what most routes carry: a number that is set, one beside it, or another.
    fn turn(&mut self) {
        let [first, second] = self.set;
        let others = [0, 1, 2, 3, 4, 30, 31, first - 1, second + 1];
        self.algorithm = match self.random.below(8) {
            0..=2 => first,
            3..=5 => second,
            _ => others[self.random.below(others.len())],
        };
        self.ac_df = self.random.one_in(2);
    }

    fn address(&mut self) -> Address {
        self.addresses[self.random.below(self.addresses.len())]
    }

    fn route(&mut self) -> Vec<u8> {
        let address = self.address();
        // an identifier that is not ten octets has no route
        let esi = self.esi.first_chunk().unwrap_or(&workload::ESI);
        workload::route(esi, address)
    }

    /// One election community most times, and none or two at others.
    fn communities(&mut self) -> Vec<u8> {
        let (mut algorithm, mut ac_df) = (self.algorithm, self.ac_df);
        if self.random.one_in(self.stray) {
            algorithm = self.random.below(32) as u8;
            ac_df = self.random.one_in(2);
        }
        let preference = [7, self.random.word() as u16][self.random.below(2)];
        let one = workload::community(algorithm, ac_df, self.random.one_in(2), preference);
        match self.random.below(4 * self.stray) {
            0 => Vec::new(),
            1 => one.repeat(2),
            _ => one.to_vec(),
        }
    }

    /// Two numbers to set: those of the pool, those the other way round, equal ones, each number in its turn beside one of the pool, or any.
    fn two_numbers(&mut self) -> (u8, u8) {
        let [first, second] = self.set;
        self.next = self.next.wrapping_add(1);
        match self.random.below(8) {
            0..=2 => (first, second),
            3 => (second, first),
            4 => (self.next, self.next),
            5 => (self.next, second),
            6 => (first, self.next),
            _ => (self.random.word() as u8, 4 + self.random.below(27) as u8),
        }
    }

    /// Octets of S or G: of 4 or 16 most times, and otherwise of 0 to 17 or 20.
    fn octets(&mut self) -> Vec<u8> {
        let length = match self.random.below(16) {
            0..=5 => 4,
            6..=12 => 16,
            _ => match self.random.below(19) {
                18 => 20,
                length => length,
            },
        };
        (0..length).map(|_| self.random.word() as u8).collect()
    }

    fn query(&mut self) -> Query {
        match self.random.below(8) {
            0 => Query::Plain,
            1 => Query::ByCircuits,
            2..=4 => Query::AnySource(self.octets()),
            _ => {
                let source = self.octets();
                let mut group = self.octets();
                if !self.random.one_in(8) {
                    group.resize(source.len(), 0x5A);
                }
                Query::SourceGroup(source, group)
            }
        }
    }

    fn tag(&mut self) -> u32 {
        match self.random.below(18) {
            0 => 0,
            1 => u32::MAX,
            2..=6 => self.random.word() as u32,
            _ => self.tags[self.random.below(3)],
        }
    }

    /// A ready list: of no one, of a few, of about as many as it may have, or of more.
    fn ready(&mut self) -> Vec<u32> {
        let rows = match self.random.below(6) {
            0 => 0,
            1 | 2 => self.random.below(8),
            3 | 4 => 56 + self.random.below(9),
            _ => 65 + self.random.below(3),
        };
        let mut list: Vec<u32> = (0..rows).flat_map(|_| self.address().row()).collect();
        if self.random.one_in(4) {
            let tail = self.address().row();
            list.extend(&tail[..self.random.below(ROW)]);
        }
        list
    }
}

/// What the routes agree on, as a query of a kind finds it.
#[derive(Clone, Copy, Debug)]
enum Agreement {
    /// The number of the query's own kind.
    Own,
    /// The other number that is set; for a plain query either.
    Other,
    /// One from 0 to 3.
    Standard,
    /// One from 4 to 31, with numbers set that it is none of.
    Unset,
    /// One from 4 to 31, with no numbers set.
    NoneSet,
    /// The routes carry different algorithms or AC-DF bits.
    Differing,
    /// There are no routes.
    Empty,
}

const AGREEMENTS: usize = 7;
const KINDS: usize = 4;

fn agreement(table: &Table, query: &Query) -> Agreement {
    let Some(first) = table.entries().first() else {
        return Agreement::Empty;
    };
    let same = |entry: &reference::table::Entry| {
        entry.algorithm == first.algorithm && entry.ac_df == first.ac_df
    };
    if !table.entries().iter().all(same) {
        return Agreement::Differing;
    }
    match first.algorithm {
        0..=3 => Agreement::Standard,
        _ if table.flow_algorithms().is_none() => Agreement::NoneSet,
        algorithm if algorithm == query.number(table) => Agreement::Own,
        algorithm if numbers(table).contains(&algorithm) => Agreement::Other,
        _ => Agreement::Unset,
    }
}

/// What the random calls came to.
#[derive(Debug, Default)]
struct Tally {
    /// Elections by kind of query and agreement that elected someone, and those that found no one eligible.
    elected: [[usize; AGREEMENTS]; KINDS],
    nobody: [[usize; AGREEMENTS]; KINDS],
    /// Under the number of its own kind: without and with AC-DF; S and G of 4 and of 16 octets; an elected router of IPv4 and of IPv6.
    by_ac_df: [usize; 2],
    by_length: [usize; 2],
    by_family: [usize; 2],
    /// Elections under the number of their own kind that elect another router than the plain query does.
    otherwise: usize,
    /// Flow queries by number of the refusal and by which of the other three faults they have as well: 10, 11, 18 and 12 as bits from 1 on.
    refused: [[usize; 16]; 4],
    /// Lengths of S and of G that came up.
    source_lengths: [usize; 21],
    group_lengths: [usize; 21],
    /// Numbers accepted; refused with none set and with others set, which are kept.
    set: usize,
    refused_at_first: usize,
    refused_and_kept: usize,
    equal: usize,
    /// The numbers handed in for (S,G) and for (*,G), each a bit: 0 to 127, and 128 to 255.
    handed_in: [[u128; 2]; 2],
    /// Settings that changed what routes that stood agreed on.
    at_once: usize,
    /// Settings accepted on a table of a reserved identifier.
    on_reserved: usize,
    /// Tables made fresh while numbers were set.
    unset: usize,
}

impl Tally {
    fn hear_setting<T: Segment + State>(
        &mut self,
        beside: &mut Beside<T>,
        (source_group, any_source): (u8, u8),
        place: &str,
    ) {
        let were_set = beside.table.flow_algorithms().is_some();
        let before = election::algorithm_in_use(&beside.table);
        let number = beside.set(source_group, any_source, place);
        let after = election::algorithm_in_use(&beside.table);
        for (seen, number) in self.handed_in.iter_mut().zip([source_group, any_source]) {
            seen[usize::from(number) / 128] |= 1 << (number % 128);
        }
        self.equal += usize::from(source_group == any_source);
        self.at_once += usize::from(before != after);
        match number {
            0 => {
                self.set += 1;
                self.on_reserved += usize::from(*beside.table.esi() == [0; 10]);
            }
            _ if were_set => self.refused_and_kept += 1,
            _ => self.refused_at_first += 1,
        }
    }

    fn hear_query<T: Segment + State>(
        &mut self,
        beside: &Beside<T>,
        query: &Query,
        (tag, ready): (u32, &[u32]),
        place: &str,
    ) {
        let answer = beside.elect(query, tag, ready, place);
        let kind = match query {
            Query::Plain => 0,
            Query::SourceGroup(..) => 1,
            Query::AnySource(_) => 2,
            Query::ByCircuits => 3,
        };
        let found = agreement(&beside.table, query);
        self.elected[kind][found as usize] += usize::from(answer.number == 0);
        self.nobody[kind][found as usize] += usize::from(answer.number == 12);
        if let Query::SourceGroup(source, _) = query {
            self.source_lengths[source.len()] += 1;
        }
        if let Query::SourceGroup(_, group) | Query::AnySource(group) = query {
            self.group_lengths[group.len()] += 1;
            self.hear_refusal(beside, query, (tag, ready), answer.number);
            if matches!(found, Agreement::Own) && answer.number == 0 {
                let plain = beside.told(&Query::Plain, tag, ready);
                self.hear_flow(&beside.table, group, &answer, &plain);
            }
        }
    }

    /// Which faults a flow query has, and the first of them that must be told.
    fn hear_refusal<T: Segment + State>(
        &mut self,
        beside: &Beside<T>,
        query: &Query,
        (tag, ready): (u32, &[u32]),
        number: u8,
    ) {
        let few = &ready[..ready.len().min(MOST_READY * ROW)];
        let faults = [
            tag == 0 || tag == u32::MAX,
            ready.len() / ROW > MOST_READY,
            query.has_wrong_length(),
            beside.told(&Query::Plain, 1, few).number == 12,
        ];
        let first = faults.iter().position(|fault| *fault);
        assert_eq!(first.map_or(0, |at| [10, 11, 18, 12][at]), number);
        if let Some(first) = first {
            let bits = faults.iter().rev();
            let bits = bits.fold(0, |bits, fault| bits << 1 | usize::from(*fault));
            self.refused[first][bits & !(1 << first)] += 1;
        }
    }

    fn hear_flow(&mut self, table: &Table, group: &[u8], answer: &Answer, plain: &Answer) {
        let (number, ac_df) = election::algorithm_in_use(table);
        assert_eq!((answer.algorithm, plain.algorithm), (number, 1));
        assert_eq!(answer.candidates, plain.candidates);
        self.by_ac_df[usize::from(ac_df)] += 1;
        self.by_length[usize::from(group.len() == 16)] += 1;
        self.by_family[usize::from(answer.family == 6)] += 1;
        self.otherwise += usize::from(answer.address != plain.address);
    }

    /// Every agreement elects, and where no routes stand nobody is eligible; with AC-DF nobody may be under the first three and no others.
    fn elections_are_enough(&self) -> bool {
        (0..KINDS).all(|kind| {
            // a plain query has no kind of its own
            let is_plain = kind == 0 || kind == 3;
            let elected = |found: Agreement| self.elected[kind][found as usize] > 500;
            let nobody = |found: Agreement| self.nobody[kind][found as usize] > 100;
            let each = [
                Agreement::Other,
                Agreement::Standard,
                Agreement::Unset,
                Agreement::NoneSet,
                Agreement::Differing,
            ];
            (is_plain || elected(Agreement::Own) && nobody(Agreement::Own))
                && each.into_iter().all(elected)
                && nobody(Agreement::Other)
                && nobody(Agreement::Standard)
                && nobody(Agreement::Empty)
        })
    }

    /// Every refusal with every set of the faults that come after it.
    fn refusals_are_enough(&self) -> bool {
        (0..4).all(|first| {
            let later = (0..16).filter(|bits| bits & ((2 << first) - 1) == 0);
            later.into_iter().all(|bits| self.refused[first][bits] > 50)
        })
    }

    fn settings_are_enough(&self) -> bool {
        let each = self.handed_in == [[u128::MAX; 2]; 2];
        let kept = self.refused_at_first > 1_000 && self.refused_and_kept > 1_000;
        let changes = self.at_once > 500 && self.on_reserved > 100 && self.unset > 100;
        each && kept && changes && self.set > 5_000 && self.equal > 500
    }

    fn is_enough(&self) -> bool {
        let lengths = (0..=17).chain([20]);
        let lengths = lengths
            .into_iter()
            .all(|length| self.source_lengths[length] > 50 && self.group_lengths[length] > 50);
        let flows = [self.by_ac_df, self.by_length, self.by_family].concat();
        let flows = flows.iter().all(|count| *count > 2_000) && self.otherwise > 2_000;
        lengths
            && flows
            && self.elections_are_enough()
            && self.refusals_are_enough()
            && self.settings_are_enough()
    }
}

/// One call of the pool's, told by a number below 100.
fn call<T: Segment + State>(
    which: usize,
    pool: &mut Pool,
    beside: &mut Beside<T>,
    tally: &mut Tally,
    place: &str,
) {
    match which {
        0..=29 => beside.announce(&pool.route(), &pool.communities(), place),
        30..=34 => beside.withdraw(pool.address(), place),
        35..=42 => tally.hear_setting(beside, pool.two_numbers(), place),
        43 => {
            tally.unset += usize::from(beside.table.flow_algorithms().is_some());
            start(pool, beside);
        }
        44 if pool.random.one_in(4) => pool.turn(),
        45..=48 => {
            let (address, algorithm) = (pool.address(), pool.random.below(5) as u8);
            let (preference, dp) = (pool.random.word() as u16, !pool.random.one_in(4));
            let own = Returning {
                address,
                algorithm,
                preference,
                dp,
            };
            beside.returning(own, place);
        }
        49..=52 => {
            let tag = pool.tags[pool.random.below(3)];
            let tag = (!pool.random.one_in(3)).then_some(tag);
            beside.announce_circuit(tag, pool.address());
        }
        _ => {
            let (query, tag, ready) = (pool.query(), pool.tag(), pool.ready());
            tally.hear_query(beside, &query, (tag, &ready), place);
        }
    }
}

/// Makes both tables fresh, chooses what most routes carry, and announces some of the pool's.
fn start<T: Segment + State>(pool: &mut Pool, beside: &mut Beside<T>) {
    beside.fresh(&pool.esi);
    pool.turn();
    let routes = pool.random.below(pool.addresses.len());
    for _ in 0..routes {
        beside.announce(&pool.route(), &pool.communities(), "a fresh table");
    }
}

/// Random calls.
fn same_as_the_reference<T: Segment + State>() {
    let mut tally = Tally::default();
    for seed in 0..SEEDS {
        let mut pool = Pool::new(seed);
        let mut beside = Beside::<T>::new();
        start(&mut pool, &mut beside);
        for number in 0..CALLS {
            let place = format!("seed {seed}, call {number}");
            let which = pool.random.below(100);
            call(which, &mut pool, &mut beside, &mut tally, &place);
            beside.elect_each(&place);
        }
    }
    assert!(tally.is_enough(), "not enough: {tally:?}");
}

#[test]
fn proved_flows_are_right() {
    same_as_the_reference::<proved::Table>();
}

#[test]
fn array_flows_are_right() {
    same_as_the_reference::<array::Table>();
}

#[test]
fn list_flows_are_right() {
    same_as_the_reference::<list::List>();
}

#[test]
fn form_flows_are_right() {
    same_as_the_reference::<form::Table>();
}

/// The numbers that the tests below set, for (S,G) and for (*,G).
const SET: [u8; 2] = [20, 9];

/// A segment with the numbers above set or not, and three routers that carry an algorithm and an AC-DF bit.
fn three<T: Segment + State>(is_set: bool, algorithm: u8, ac_df: bool) -> Beside<T> {
    let mut beside = Beside::new();
    beside.fresh(&workload::ESI);
    if is_set {
        assert_eq!(beside.set(SET[0], SET[1], "set"), 0);
    }
    announce_three(&mut beside, algorithm, ac_df);
    beside
}

const THREE: [u32; 3] = [0x0A00_0001, 0x0A00_0002, 0x0A00_0003];

fn announce_three<T: Segment + State>(beside: &mut Beside<T>, algorithm: u8, ac_df: bool) {
    for number in THREE {
        let route = workload::route(&workload::ESI, Address::v4(number));
        let community = workload::community(algorithm, ac_df, false, 0);
        beside.announce(&route, &community, "three");
    }
}

/// The rows of a ready list of so many addresses, of which none is one of the three.
fn strangers(rows: usize) -> Vec<u32> {
    Address::v4(7).row().repeat(rows)
}

/// Every flow query with S and G of every length.
fn of_every_length() -> Vec<Query> {
    let octets = |length: usize| (0..length).map(|at| at as u8).collect::<Vec<u8>>();
    let lengths: Vec<usize> = (0..=17).chain([20]).collect();
    let groups = lengths.iter().map(|group| Query::AnySource(octets(*group)));
    let both = lengths.iter().flat_map(|source| {
        let pair = |group: &usize| Query::SourceGroup(octets(*source), octets(*group));
        lengths.iter().map(pair)
    });
    groups.chain(both).collect()
}

/// Makes every such query with reserved tags and others, and with ready lists at their limit: 10, 11, 18 and 12 in every order. How often each came up, and
/// at last how often none. `takes_list` is whether AC-DF is in use.
fn every_order<T: Segment + State>(beside: &Beside<T>, takes_list: bool) -> [usize; 5] {
    let own = workload::rows(&THREE.map(Address::v4));
    let (at_most, over) = (strangers(64), strangers(65));
    let tailed = [&at_most[..], &[4, 5, 6, 7]].concat();
    let over_with_own = [&own[..], &strangers(62)].concat();
    let is_empty = beside.table.entries().is_empty();
    let mut counts = [0; 5];
    for query in of_every_length() {
        for tag in [0, 1, 7, u32::MAX - 1, u32::MAX] {
            for list in [&[][..], &own, &at_most, &tailed, &over, &over_with_own] {
                let faults = [
                    tag == 0 || tag == u32::MAX,
                    list.len() >= over.len(),
                    query.has_wrong_length(),
                    is_empty || takes_list && list != own,
                ];
                let first = faults.iter().position(|fault| *fault).unwrap_or(4);
                let answer = beside.elect(&query, tag, list, "every order");
                assert_eq!(answer.number, [10, 11, 18, 12, 0][first]);
                counts[first] += 1;
            }
        }
    }
    counts
}

/// Tables of every agreement, with numbers set and with none, and whether AC-DF is in use.
fn of_every_agreement<T: Segment + State>() -> Vec<(Beside<T>, bool)> {
    let mut tables = Vec::new();
    for is_set in [false, true] {
        for esi in [workload::ESI, [0xFF; 10]] {
            let mut empty = Beside::new();
            empty.fresh(&esi);
            if is_set {
                empty.set(SET[0], SET[1], "set");
            }
            tables.push((empty, false));
        }
        for algorithm in [0, 1, 2, 3, SET[0], SET[1], 31] {
            for ac_df in [false, true] {
                let in_use = algorithm <= 3 || is_set && SET.contains(&algorithm);
                tables.push((three(is_set, algorithm, ac_df), ac_df && in_use));
            }
        }
    }
    let mut differing = three(true, SET[0], true);
    let route = workload::route(&workload::ESI, Address::v4(THREE[1]));
    let community = workload::community(SET[1], true, false, 0);
    differing.announce(&route, &community, "differing");
    tables.push((differing, false));
    tables
}

#[test]
fn refusals_in_every_order() {
    fn on_every_table<T: Segment + State>() {
        let mut counts = [0; 5];
        for (beside, takes_list) in of_every_agreement::<T>() {
            let more = every_order(&beside, takes_list);
            counts.iter_mut().zip(more).for_each(|(sum, n)| *sum += n);
        }
        assert_eq!(counts.iter().sum::<usize>(), 33 * 380 * 5 * 6);
        assert!(counts.iter().all(|count| *count > 500), "{counts:?}");
    }
    on_every_table::<proved::Table>();
    on_every_table::<array::Table>();
    on_every_table::<list::List>();
    on_every_table::<form::Table>();
}

/// Every pair of octets is handed in as the two numbers, with none set and with others set.
#[test]
fn every_pair_of_numbers() {
    fn every_pair<T: Segment + State>() {
        let mut accepted = 0;
        for source_group in 0..=255 {
            for any_source in 0..=255 {
                let mut beside = three::<T>(any_source % 2 == 0, SET[0], false);
                let place = format!("{source_group} and {any_source}");
                accepted += usize::from(beside.set(source_group, any_source, &place) == 0);
                beside.elect_each(&place);
            }
        }
        assert_eq!(accepted, 27 * 26);
    }
    every_pair::<proved::Table>();
    every_pair::<array::Table>();
    every_pair::<list::List>();
    every_pair::<form::Table>();
}

/// Sets every pair of numbers that may be set, one after the other, upon three routes that stand; every kind of query, and what it says is in use.
fn every_number_upon<T: Segment + State>(carried: u8, ac_df: bool) {
    let mut beside = three::<T>(false, carried, ac_df);
    for number in THREE {
        beside.announce_circuit(None, Address::v4(number));
        beside.announce_circuit(Some(5), Address::v4(number));
    }
    let ready = workload::rows(&THREE.map(Address::v4));
    let (source, group) = (vec![192, 0, 2, 1], vec![232, 1, 2, 3]);
    let flow = Query::SourceGroup(source, group.clone());
    let any = Query::AnySource(group);
    for source_group in 4..=30 {
        for any_source in (4..=30).filter(|number| *number != source_group) {
            let place = format!("{source_group} and {any_source} upon {carried}");
            assert_eq!(beside.set(source_group, any_source, &place), 0);
            let in_use = |query| beside.elect(query, 5, &ready, &place).algorithm;
            let is_set = carried == source_group || carried == any_source;
            let plain = match carried {
                0..=3 => carried,
                _ => u8::from(is_set),
            };
            let own = |number| if carried == number { carried } else { plain };
            assert_eq!(in_use(&flow), own(source_group), "{place}");
            assert_eq!(in_use(&any), own(any_source), "{place}");
            assert_eq!(in_use(&Query::Plain), plain, "{place}");
            assert_eq!(in_use(&Query::ByCircuits), plain, "{place}");
        }
    }
}

#[test]
fn every_number_upon_every_algorithm() {
    for carried in 0..=31 {
        for ac_df in [false, true] {
            every_number_upon::<proved::Table>(carried, ac_df);
            every_number_upon::<array::Table>(carried, ac_df);
            every_number_upon::<list::List>(carried, ac_df);
            every_number_upon::<form::Table>(carried, ac_df);
        }
    }
}
