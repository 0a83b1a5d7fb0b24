//! Ranges of tags that override Highest or Lowest (document 02, M-109), among all other calls of a segment. After each call its answer is compared and what a
//! side lets one see of its state, as in `beside`; then elections of every kind at the ends of a range, and returning routers.

use crate::beside::{numbers, range_words, Beside, Query, Returning, State, ROW};
use crate::range_runs::KINDS;
use crate::{addresses, ours, returning};
use benchmarks::answer::{Address, Answer, Segment, Sent};
use benchmarks::random::Random;
use benchmarks::{array, form, list, proved, workload};
use reference::election;
use reference::table::Table;

const SEEDS: u64 = 200;
const CALLS: usize = 400;
const HIGHEST: u8 = 2;
const LOWEST: u8 = 3;
/// With more Ethernet A-D routes than these there may be no room for those of a tag more.
const MANY_CIRCUITS: usize = 90;

/// What the calls of one seed draw from.
struct Pool {
    random: Random,
    esi: Vec<u8>,
    addresses: Vec<Address>,
    /// The numbers that are set most times, for (S,G) and for (*,G).
    set: [u8; 2],
    /// What most routes carry.
    algorithm: u8,
    ac_df: bool,
    /// One route in so many carries something else.
    stray: usize,
    /// S and G of the queries to come.
    source: Vec<u8>,
    group: Vec<u8>,
}

impl Pool {
    fn new(seed: u64) -> Pool {
        let mut random = Random(0xE7A6 ^ seed << 16);
        let esi = match seed % 20 {
            0 => vec![0x00; 10],
            1 => random.octets::<11>().to_vec(),
            _ => random.octets::<10>().to_vec(),
        };
        let first = 4 + random.below(27) as u8;
        let mut pool = Pool {
            addresses: addresses(&mut random),
            esi,
            set: [first, 4 + (first - 4 + 1 + random.below(26) as u8) % 27],
            algorithm: 0,
            ac_df: false,
            stray: [30, 300, 100_000][random.below(3)],
            source: Vec::new(),
            group: Vec::new(),
            random,
        };
        pool.turn();
        pool
    }

    /// Chooses anew what most routes carry: 2 or 3 most times.
    fn turn(&mut self) {
        let [first, second] = self.set;
        self.algorithm = match self.random.below(16) {
            0..=5 => HIGHEST,
            6..=11 => LOWEST,
            12 => 0,
            13 => 1,
            14 => [first, second][self.random.below(2)],
            _ => [first - 1, second + 1, 31][self.random.below(3)],
        };
        self.ac_df = self.random.one_in(2);
    }

    fn address(&mut self) -> Address {
        self.addresses[self.random.below(self.addresses.len())]
    }

    fn route(&mut self) -> Vec<u8> {
        let address = self.address();
        // an identifier that is not ten octets has no route
        let esi: Option<&[u8; 10]> = self.esi.as_slice().try_into().ok();
        workload::route(esi.unwrap_or(&workload::ESI), address)
    }

    /// One election community; the preferences of many routes are alike.
    fn community(&mut self) -> [u8; 8] {
        let (mut algorithm, mut ac_df) = (self.algorithm, self.ac_df);
        if self.random.one_in(self.stray) {
            algorithm = self.random.below(5) as u8;
            ac_df = self.random.one_in(2);
        }
        let preference = [0, 7, 500, 501, u16::MAX, self.random.word() as u16];
        let preference = preference[self.random.below(6)];
        workload::community(algorithm, ac_df, !self.random.one_in(3), preference)
    }

    /// A ready list: of all routers most times, of some of the pool, or of too many.
    fn ready(&mut self, all: Vec<u32>) -> Vec<u32> {
        let rows = match self.random.below(12) {
            0..=5 => return all,
            6..=10 => self.random.below(64),
            _ => 65,
        };
        (0..rows).flat_map(|_| self.address().row()).collect()
    }

    /// Draws S and G, of 4 or of 16 octets, and now and then of a wrong length.
    fn draw_flow(&mut self) {
        let length = [4, 16, 4, 16, 4, 16, 4, 3][self.random.below(8)];
        let mut draw = || (0..length).map(|_| self.random.word() as u8).collect();
        (self.source, self.group) = (draw(), draw());
    }

    fn queries(&self) -> [Query; QUERIES] {
        let (source, group) = (self.source.clone(), self.group.clone());
        [
            Query::Plain,
            Query::SourceGroup(source, group.clone()),
            Query::AnySource(group),
            Query::ByCircuits,
        ]
    }

    /// A preference of one of the routes, or next to it, or any.
    fn preference(&mut self, table: &Table) -> u16 {
        let routes = table.entries();
        if routes.is_empty() || self.random.one_in(8) {
            return self.random.word() as u16;
        }
        let near = routes[self.random.below(routes.len())].preference;
        match self.random.below(3) {
            0 => near.saturating_sub(1),
            1 => near,
            _ => near.saturating_add(1),
        }
    }

    fn returning(&mut self, table: &Table, algorithm: u8) -> Returning {
        Returning {
            address: self.address(),
            algorithm,
            preference: self.preference(table),
            dp: !self.random.one_in(8),
        }
    }
}

const QUERIES: usize = 4;

/// The algorithm that a range names for a tag, if one does.
fn named(table: &Table, tag: u32) -> Option<u8> {
    let rows = table.ranges().as_slice().iter().map(range_words);
    let inside = |row: &[u32; 3]| row[0] <= tag && tag <= row[1];
    rows.filter(inside).map(|row| row[2] as u8).next()
}

/// Where a tag lies, at the range that was drawn.
#[derive(Clone, Copy, Debug)]
enum At {
    BelowFirst,
    First,
    AboveFirst,
    BelowLast,
    Last,
    AboveLast,
}

const PLACES: [At; 6] = [
    At::BelowFirst,
    At::First,
    At::AboveFirst,
    At::BelowLast,
    At::Last,
    At::AboveLast,
];

impl At {
    fn tag(self, first: u32, last: u32) -> u32 {
        match self {
            At::BelowFirst => first - 1,
            At::First => first,
            At::AboveFirst => first + 1,
            At::BelowLast => last - 1,
            At::Last => last,
            At::AboveLast => last + 1,
        }
    }
}

/// What the elections of one kind came to, with ranges set.
#[derive(Clone, Copy, Debug, Default)]
struct Elections {
    /// Elected under 2 or 3 inside a range that names the other, by place, without and with AC-DF.
    changed: [[usize; 6]; 2],
    /// Of these, the ones that elect another router than without ranges.
    elsewhere: usize,
    /// Elected under 2 or 3 inside a range that names the same.
    alike: usize,
    /// Elected under 2 or 3 in no range, by place: next to one at both ends.
    outside: [usize; 6],
    /// Elected inside a range under 0 (agreed or fallen back to), 1, and a flow number.
    not_acting: [usize; 3],
    /// Refused inside a range where 2 or 3 is in use: 11 or 18, and 12.
    refused: [usize; 2],
    /// Refused at a reserved tag next to a range.
    reserved: usize,
}

/// What the random calls came to.
#[derive(Debug, Default)]
struct Tally {
    calls: usize,
    elections: usize,
    /// Runs handed in, by kind, with no ranges set before and with some.
    runs: [[usize; 2]; KINDS.len()],
    /// Settings that changed what was elected for a tag at once.
    at_once: usize,
    /// Tables made fresh while ranges were set.
    unset: usize,
    by_query: [Elections; QUERIES],
    /// With ranges set, by own algorithm, 2 or 3: the pair of the other rule's reference; of the own rule's; the administrative one though own DP is set and
    /// all others carry the own algorithm.
    sent: [[usize; 3]; 2],
    /// Pairs that differ from what would be sent without ranges.
    otherwise: usize,
}

impl Tally {
    fn hear_run<T: Segment + State>(&mut self, pool: &mut Pool, beside: &mut Beside<T>, at: &str) {
        let kind = KINDS[pool.random.below(KINDS.len())];
        let run = kind.run(&mut pool.random);
        let before = beside.table.clone();
        let number = beside.set_ranges(&run, at);
        let expected = if kind.may_be_set() { 0 } else { 20 };
        assert_eq!(number, expected, "{at}: {kind:?}, {run:?}");
        if number == 20 {
            assert_eq!(beside.table, before, "{at}: {kind:?}");
        }
        let were_set = !before.ranges().is_empty();
        self.runs[kind as usize][usize::from(were_set)] += 1;
        let tag = run
            .first()
            .copied()
            .filter(|tag| !election::is_reserved(*tag));
        let elected = |table| election::elect(table, tag.unwrap_or(1), &[]);
        self.at_once += usize::from(elected(&before) != elected(&beside.table));
    }

    /// Every kind of query at the ends of a range, or for some tags where none is set; then the state.
    fn probe<T: Segment + State>(&mut self, pool: &mut Pool, beside: &mut Beside<T>, at: &str) {
        let ready = pool.ready(beside.all_ready());
        pool.draw_flow();
        let ranges = beside.table.ranges().as_slice();
        let Some(range) = ranges.get(pool.random.below(ranges.len().max(1))) else {
            for query in pool.queries() {
                for tag in [1, 77, u32::MAX - 1] {
                    beside.elect_alone(&query, tag, &ready, at);
                    self.elections += 1;
                }
            }
            return beside.same_state(at);
        };
        let (first, last) = (range.first, range.last);
        if pool.random.one_in(2) {
            for _ in 0..2 {
                let lit = PLACES[pool.random.below(6)].tag(first, last);
                light(pool, beside, lit);
            }
        }
        let mut bare = beside.table.clone();
        assert_eq!(bare.set_ranges(&[]), Ok(()));
        for query in pool.queries() {
            for place in PLACES {
                let tag = place.tag(first, last);
                let answer = beside.elect_alone(&query, tag, &ready, at);
                let without = beside.told_of(&bare, &query, tag, &ready);
                self.hear_election(&beside.table, &query, (tag, place), answer, without);
            }
        }
        beside.same_state(at);
    }

    fn hear_election(
        &mut self,
        table: &Table,
        query: &Query,
        (tag, place): (u32, At),
        answer: Answer,
        without: Answer,
    ) {
        self.elections += 1;
        let heard = match query {
            Query::Plain => &mut self.by_query[0],
            Query::SourceGroup(..) => &mut self.by_query[1],
            Query::AnySource(_) => &mut self.by_query[2],
            Query::ByCircuits => &mut self.by_query[3],
        };
        // ranges change nothing but who is elected, and by which of the two
        assert_eq!(
            (answer.number, answer.n, answer.candidates),
            (without.number, without.n, without.candidates)
        );
        if tag == 0 || tag == u32::MAX {
            assert_eq!(answer.number, 10);
            heard.reserved += 1;
            return;
        }
        let (agreed, ac_df) = election::algorithm_in_use(table);
        let inside = named(table, tag);
        if agreed != HIGHEST && agreed != LOWEST {
            assert_eq!(answer, without);
            if answer.number == 0 && inside.is_some() {
                heard.not_acting[usize::from(agreed.min(2))] += 1;
            }
            return;
        }
        match answer.number {
            0 => {}
            12 => return heard.refused[1] += usize::from(inside.is_some()),
            _ => return heard.refused[0] += usize::from(inside.is_some()),
        }
        assert_eq!(answer.algorithm, inside.unwrap_or(agreed));
        if answer.algorithm == agreed {
            assert_eq!(answer, without);
        }
        match inside {
            None => heard.outside[place as usize] += 1,
            Some(named) if named == agreed => heard.alike += 1,
            Some(_) => {
                heard.changed[usize::from(ac_df)][place as usize] += 1;
                heard.elsewhere += usize::from(answer.address != without.address);
            }
        }
    }

    fn hear_returning<T: Segment + State>(
        &mut self,
        beside: &Beside<T>,
        own: Returning,
        place: &str,
    ) {
        let sent = beside.returning(own, place);
        if beside.table.ranges().is_empty() || sent.number != 0 {
            return;
        }
        let mut bare = beside.table.clone();
        assert_eq!(bare.set_ranges(&[]), Ok(()));
        let without = returning(&bare, own.address, own.algorithm, own.preference, own.dp);
        self.otherwise += usize::from(sent != without);
        let others = beside.table.entries().iter();
        let mut others = others.filter(|entry| ours(entry.address).row() != canonical(own.address));
        let heard = &mut self.sent[usize::from(own.algorithm == LOWEST)];
        if sent.dp != own.dp {
            heard[usize::from(sent == without)] += 1;
        } else if own.dp && others.all(|entry| entry.algorithm == own.algorithm) {
            heard[2] += 1;
        }
    }

    fn runs_are_enough(&self) -> bool {
        let each = self.runs.iter().flatten().all(|count| *count > 300);
        each && self.at_once > 1_000 && self.unset > 100
    }

    fn elections_are_enough(&self) -> bool {
        self.by_query.iter().enumerate().all(|(at, heard)| {
            let by_flow = at == 1 || at == 2;
            let is_inside = |place: &At| !matches!(place, At::BelowFirst | At::AboveLast);
            let inside = PLACES.iter().filter(|place| is_inside(place));
            let changed = inside
                .map(|place| heard.changed.map(|by_place| by_place[*place as usize]))
                .all(|[without, with]| without > 2_000 && with > 500);
            let beside = [At::BelowFirst, At::AboveLast].map(|place| heard.outside[place as usize]);
            changed
                && beside.iter().all(|count| *count > 2_000)
                && heard.elsewhere > 10_000
                && heard.alike > 10_000
                && heard.not_acting.iter().all(|count| *count > 500)
                && (heard.refused[0] > 500 || !by_flow)
                && heard.refused[1] > 500
                && heard.reserved > 500
        })
    }

    fn is_enough(&self) -> bool {
        let sent = self.sent.iter().flatten().all(|count| *count > 500);
        self.runs_are_enough() && self.elections_are_enough() && sent && self.otherwise > 1_000
    }
}

/// The row of an address, whose words after an IPv4 one do not count.
fn canonical(address: Address) -> [u32; ROW] {
    ours(crate::theirs(address)).row()
}

/// Announces the Ethernet A-D routes of most of the pool's routers for a tag, reserved or not.
fn light<T: Segment + State>(pool: &mut Pool, beside: &mut Beside<T>, tag: u32) {
    if beside.circuits() > MANY_CIRCUITS {
        beside.fresh_circuits();
    }
    for address in pool.addresses.clone() {
        if !pool.random.one_in(5) {
            beside.announce_circuit(None, address);
            beside.announce_circuit(Some(tag), address);
        }
    }
}

/// One call of the pool's, told by a number below 100.
fn call<T: Segment + State>(
    which: usize,
    pool: &mut Pool,
    beside: &mut Beside<T>,
    tally: &mut Tally,
    place: &str,
) {
    match which {
        0..=24 => beside.announce(&pool.route(), &pool.community(), place),
        25..=29 => beside.withdraw(pool.address(), place),
        30..=34 => {
            let [source_group, any_source] = pool.set;
            let any_source = [any_source, any_source, 31][pool.random.below(3)];
            beside.set(source_group, any_source, place);
        }
        35..=74 => tally.hear_run(pool, beside, place),
        75 => {
            tally.unset += usize::from(!beside.table.ranges().is_empty());
            start(pool, beside);
        }
        76 if pool.random.one_in(4) => pool.turn(),
        77..=80 => {
            let algorithm = pool.random.below(5) as u8;
            let own = pool.returning(&beside.table, algorithm);
            tally.hear_returning(beside, own, place);
        }
        _ => {
            pool.draw_flow();
            let (tag, ready) = (pool.random.word() as u32, pool.ready(beside.all_ready()));
            for query in pool.queries() {
                beside.elect(&query, tag, &ready, place);
            }
        }
    }
}

/// Makes both tables fresh, chooses what most routes carry, and announces some of the pool's.
fn start<T: Segment + State>(pool: &mut Pool, beside: &mut Beside<T>) {
    beside.fresh(&pool.esi);
    pool.turn();
    for _ in 0..pool.random.below(2 * pool.addresses.len()) {
        beside.announce(&pool.route(), &pool.community(), "a fresh table");
    }
}

/// Random calls.
fn same_as_the_reference<T: Segment + State>() {
    let mut tally = Tally::default();
    for seed in 0..SEEDS {
        let mut pool = Pool::new(seed);
        let mut beside = Beside::<T>::new();
        start(&mut pool, &mut beside);
        for number in 0..CALLS {
            let place = format!("seed {seed}, call {number}");
            let which = pool.random.below(100);
            call(which, &mut pool, &mut beside, &mut tally, &place);
            tally.calls += 1;
            let place = format!("after {place}");
            tally.probe(&mut pool, &mut beside, &place);
            for algorithm in [HIGHEST, LOWEST] {
                let own = pool.returning(&beside.table, algorithm);
                tally.hear_returning(&beside, own, &place);
            }
        }
    }
    assert!(tally.is_enough(), "not enough: {tally:?}");
}

#[test]
fn proved_ranges_are_right() {
    same_as_the_reference::<proved::Table>();
}

#[test]
fn array_ranges_are_right() {
    same_as_the_reference::<array::Table>();
}

#[test]
fn list_ranges_are_right() {
    same_as_the_reference::<list::List>();
}

#[test]
fn form_ranges_are_right() {
    same_as_the_reference::<form::Table>();
}

const TOP: u32 = u32::MAX - 1;
const THREE: [u32; 3] = [0x0A00_0001, 0x0A00_0002, 0x0A00_0003];

/// Three routers that carry an algorithm and an AC-DF bit. The first has the lowest preference and the second the highest.
fn three<T: Segment + State>(algorithm: u8, ac_df: bool) -> Beside<T> {
    let mut beside = Beside::new();
    beside.fresh(&workload::ESI);
    announce_three(&mut beside, algorithm, ac_df);
    beside
}

fn announce_three<T: Segment + State>(beside: &mut Beside<T>, algorithm: u8, ac_df: bool) {
    for (number, preference) in THREE.into_iter().zip([100, 300, 200]) {
        let route = workload::route(&workload::ESI, Address::v4(number));
        let community = workload::community(algorithm, ac_df, true, preference);
        beside.announce(&route, &community, "three");
    }
}

/// Elects plainly for a tag, and gives the algorithm in use; the elected of the three must be the one by it. 0 for a reserved tag.
fn algorithm_at<T: Segment + State>(beside: &Beside<T>, tag: u32, place: &str) -> u8 {
    let answer = beside.elect(&Query::Plain, tag, &beside.all_ready(), place);
    match answer.number {
        0 => {
            let winner = THREE[usize::from(answer.algorithm == HIGHEST)];
            assert_eq!(answer.address, [winner, 0, 0, 0], "{place}, tag {tag}");
        }
        number => assert_eq!(number, 10, "{place}, tag {tag}"),
    }
    answer.algorithm
}

/// The tags from 0 to 8 and the last four.
fn some_tags() -> impl Iterator<Item = u32> + Clone {
    (0..=8).chain(TOP - 2..=u32::MAX)
}

/// Every ordered pair of ranges whose ends are from 0 to 6 or one of the last three tags, upon a range that is set before. The tags that lie in a range, of
/// those above, say whether the pair may be set: the ends are among them.
fn every_pair_upon<T: Segment + State>(carried: u8, says: [u32; 2]) -> usize {
    let mut beside = three::<T>(carried, false);
    let mut accepted = 0;
    let ends: Vec<u32> = (0..=6).chain(TOP - 1..=u32::MAX).collect();
    let ranges = ends
        .iter()
        .flat_map(|first| ends.iter().map(|last| (*first, *last)));
    let tags = |(first, last): (u32, u32)| -> Vec<u32> {
        some_tags()
            .filter(|tag| first <= *tag && *tag <= last)
            .collect()
    };
    for one in ranges.clone() {
        for other in ranges.clone() {
            let old = [7, 8, says[0], 3, 5, says[1]];
            assert_eq!(beside.set_ranges(&old, "before"), 0);
            let run = [one.0, one.1, says[0], other.0, other.1, says[1]];
            let place = format!("{run:?}");
            let (first, second) = (tags(one), tags(other));
            let may = [&first, &second]
                .into_iter()
                .all(|tags| !tags.is_empty() && !tags.contains(&0) && !tags.contains(&u32::MAX))
                && !first.iter().any(|tag| second.contains(tag));
            assert_eq!(
                beside.set_ranges(&run, &place),
                if may { 0 } else { 20 },
                "{place}"
            );
            accepted += usize::from(may);
            let sets = if may {
                [first, second]
            } else {
                [vec![7, 8], vec![3, 4, 5]]
            };
            for tag in some_tags() {
                let expected = match tag {
                    0 | u32::MAX => 0,
                    _ if sets[0].contains(&tag) => says[0] as u8,
                    _ if sets[1].contains(&tag) => says[1] as u8,
                    _ => carried,
                };
                assert_eq!(
                    algorithm_at(&beside, tag, &place),
                    expected,
                    "{place}, {tag}"
                );
            }
        }
    }
    accepted
}

#[test]
fn every_pair_of_ranges() {
    fn on_a_side<T: Segment + State>() {
        for carried in [HIGHEST, LOWEST] {
            for says in [[2, 3], [3, 2]] {
                // ends among eight tags that are not reserved: of a <= b < c <= d there are 10 over 4, and both orders
                assert_eq!(every_pair_upon::<T>(carried, says), 2 * 210);
            }
        }
    }
    on_a_side::<proved::Table>();
    on_a_side::<array::Table>();
    on_a_side::<list::List>();
    on_a_side::<form::Table>();
}

/// Every length of a run up to 30 ranges, with none set before and with 16.
#[test]
fn every_length_of_a_run() {
    fn on_a_side<T: Segment + State>() {
        let run: Vec<u32> = (1..=30).flat_map(|tag| [tag, tag, 2 + tag % 2]).collect();
        let old: Vec<u32> = (1..=16)
            .flat_map(|at| [100 * at, 100 * at + 9, 3])
            .collect();
        let mut accepted = 0;
        for were_set in [false, true] {
            for length in 0..=run.len() {
                let place = format!("{length} words");
                let mut beside = three::<T>(HIGHEST, false);
                if were_set {
                    assert_eq!(beside.set_ranges(&old, &place), 0);
                }
                let may = length % 3 == 0 && length <= 48;
                let number = beside.set_ranges(&run[..length], &place);
                assert_eq!(number, if may { 0 } else { 20 }, "{place}");
                accepted += usize::from(may);
                for tag in (1..=31).chain([99, 100, 109, 110, 1600, 1609, 1610]) {
                    let expected = match tag {
                        ..=31 if may && (tag as usize) <= length / 3 => 2 + tag as u8 % 2,
                        100.. if !may && were_set && tag % 100 < 10 => LOWEST,
                        _ => HIGHEST,
                    };
                    assert_eq!(
                        algorithm_at(&beside, tag, &place),
                        expected,
                        "{place}, {tag}"
                    );
                }
            }
        }
        assert_eq!(accepted, 2 * 17);
    }
    on_a_side::<proved::Table>();
    on_a_side::<array::Table>();
    on_a_side::<list::List>();
    on_a_side::<form::Table>();
}

/// Every number up to 1,023 and around each power of two, as what the first or the second of two ranges says.
#[test]
fn every_number_that_a_range_says() {
    fn on_a_side<T: Segment + State>() {
        let mut accepted = 0;
        let mut beside = three::<T>(LOWEST, false);
        let powers = (10..32).flat_map(|bit| (0..6).map(move |low| (1u32 << bit) + low));
        for says in (0..1024).chain(powers).chain([u32::MAX]) {
            for run in [[1, 8, says, 9, 16, 2], [1, 8, 2, 9, 16, says]] {
                let place = format!("{run:?}");
                assert_eq!(beside.set_ranges(&[5, 12, 2], &place), 0);
                let may = says == 2 || says == 3;
                assert_eq!(beside.set_ranges(&run, &place), if may { 0 } else { 20 });
                accepted += usize::from(may);
                for (tag, expected) in [(1, run[2]), (16, run[5]), (17, 3)] {
                    let expected = if may { expected } else { 3 };
                    assert_eq!(u32::from(algorithm_at(&beside, tag, &place)), expected);
                }
            }
        }
        assert_eq!(accepted, 4);
    }
    on_a_side::<proved::Table>();
    on_a_side::<array::Table>();
    on_a_side::<list::List>();
    on_a_side::<form::Table>();
}

/// 1 to 16 ranges of three tags each, handed in rising, falling, turned and in no order: every tag up to the last of them and past it.
fn in_any_order<T: Segment + State>(carried: u8) {
    let mut random = Random(11);
    for ranges in 1..=16 {
        let rising: Vec<[u32; 3]> = (1..=ranges)
            .map(|at| [10 * at, 10 * at + 2, 2 + at % 2])
            .collect();
        let mut orders = vec![rising.clone(), rising.iter().rev().copied().collect()];
        for turned in 0..ranges as usize {
            let (low, high) = rising.split_at(turned);
            orders.push([high, low].concat());
            let mut any = rising.clone();
            random.shuffle(&mut any);
            orders.push(any);
        }
        for order in orders {
            let mut beside = three::<T>(carried, false);
            let place = format!("{order:?}");
            assert_eq!(beside.set_ranges(&order.concat(), &place), 0);
            for tag in (1..=10 * ranges + 12).chain([TOP]) {
                let is_inside = tag / 10 >= 1 && tag / 10 <= ranges && tag % 10 <= 2;
                let named = 2 + (tag / 10) as u8 % 2;
                let expected = if is_inside { named } else { carried };
                assert_eq!(
                    algorithm_at(&beside, tag, &place),
                    expected,
                    "{place}, {tag}"
                );
            }
        }
    }
}

#[test]
fn ranges_in_any_order() {
    for carried in [HIGHEST, LOWEST] {
        in_any_order::<proved::Table>(carried);
        in_any_order::<array::Table>(carried);
        in_any_order::<list::List>(carried);
        in_any_order::<form::Table>(carried);
    }
}

/// The numbers that the test below sets, for (S,G) and for (*,G).
const SET: [u8; 2] = [20, 9];

/// Every kind of query inside two ranges and outside, upon three routes that carry an algorithm: the algorithm in use. How often a range changed it.
fn ranges_upon<T: Segment + State>(carried: u8, ac_df: bool, is_set: bool) -> usize {
    let mut beside = three::<T>(carried, ac_df);
    if is_set {
        assert_eq!(beside.set(SET[0], SET[1], "set"), 0);
    }
    let tags = [4, 5, 6, 8, 9, 12, 13];
    for number in THREE {
        beside.announce_circuit(None, Address::v4(number));
        for tag in tags {
            beside.announce_circuit(Some(tag), Address::v4(number));
        }
    }
    assert_eq!(beside.set_ranges(&[9, 12, 3, 5, 8, 2], "ranges"), 0);
    let (source, group) = (vec![192, 0, 2, 1], vec![232, 1, 2, 3]);
    let queries = [
        (Query::Plain, 0),
        (Query::ByCircuits, 0),
        (Query::SourceGroup(source, group.clone()), SET[0]),
        (Query::AnySource(group), SET[1]),
    ];
    let mut changed = 0;
    for (query, own) in queries {
        for tag in tags {
            let place = format!("{carried}, {query:?}, {tag}");
            let answer = beside.elect(&query, tag, &beside.all_ready(), &place);
            let expected = match (carried, tag) {
                (2 | 3, 5..=8) => HIGHEST,
                (2 | 3, 9..=12) => LOWEST,
                (0..=3, _) => carried,
                _ if is_set && carried == own => own,
                _ => u8::from(is_set && SET.contains(&carried)),
            };
            assert_eq!((answer.number, answer.algorithm), (0, expected), "{place}");
            changed += usize::from(expected != carried && carried <= 3);
        }
    }
    changed
}

#[test]
fn ranges_under_every_algorithm() {
    fn on_a_side<T: Segment + State>() {
        let mut changed = 0;
        for carried in 0..=31 {
            for bits in 0..4 {
                changed += ranges_upon::<T>(carried, bits & 1 == 1, bits & 2 == 2);
            }
        }
        // for each kind of query: under 2 the tags 9 and 12 change, and under 3 the tags 5, 6 and 8
        assert_eq!(changed, 4 * 4 * (2 + 3));
    }
    on_a_side::<proved::Table>();
    on_a_side::<array::Table>();
    on_a_side::<list::List>();
    on_a_side::<form::Table>();
}

/// Two others of every preference and DP bit at 100 and 200, beside the own route or not, and a returning router of every preference around them: what it
/// sends with no range, with one that says Highest and with one that says Lowest. The pairs that ranges change, and those that are the lowest's.
fn returning_beside_two<T: Segment + State>(carried: [u8; 2], own: u8) -> [usize; 2] {
    let mut counts = [0; 2];
    for bits in 0..32 {
        let bit = |at: u32| bits >> at & 1 == 1;
        let mut beside = Beside::<T>::new();
        beside.fresh(&workload::ESI);
        let mut announce = |number, algorithm, dp, high| {
            let route = workload::route(&workload::ESI, Address::v4(number));
            let preference = if high { 200 } else { 100 };
            let community = workload::community(algorithm, false, dp, preference);
            beside.announce(&route, &community, "two");
        };
        announce(THREE[0], carried[0], bit(0), bit(1));
        announce(THREE[1], carried[1], bit(2), bit(3));
        if bit(4) {
            announce(THREE[2], 1, false, false);
        }
        for preference in [0, 99, 100, 101, 150, 199, 200, 201, u16::MAX] {
            for dp in [false, true] {
                let own = Returning {
                    address: Address::v4(THREE[2]),
                    algorithm: own,
                    preference,
                    dp,
                };
                let sent = |beside: &mut Beside<T>, run: &[u32]| -> Sent {
                    assert_eq!(beside.set_ranges(run, "ranges"), 0);
                    beside.returning(own, "two others")
                };
                let none = sent(&mut beside, &[]);
                let highest = sent(&mut beside, &[7, 9, 2]);
                let lowest = sent(&mut beside, &[1, TOP, 3]);
                assert_eq!(highest, lowest, "what a range names has no part");
                counts[0] += usize::from(none != lowest);
                counts[1] += usize::from(lowest.dp != dp && lowest.preference > preference);
            }
        }
    }
    counts
}

#[test]
fn returning_routers_with_ranges() {
    fn on_a_side<T: Segment + State>() {
        for own in [HIGHEST, LOWEST] {
            let [changed, lowest] = returning_beside_two::<T>([own, own], own);
            assert!(changed > 50 && lowest > 50, "{changed} and {lowest}");
            for other in [[own, 5 - own], [5 - own, own], [5 - own, 5 - own], [0, own]] {
                assert_eq!(returning_beside_two::<T>(other, own), [0, 0]);
            }
        }
    }
    on_a_side::<proved::Table>();
    on_a_side::<array::Table>();
    on_a_side::<list::List>();
    on_a_side::<form::Table>();
}

/// Setting numbers leaves the ranges, and setting ranges leaves the numbers; a fresh table has neither.
#[test]
fn numbers_and_ranges_are_apart() {
    fn on_a_side<T: Segment + State>() {
        let mut beside = three::<T>(HIGHEST, false);
        let ranges = |beside: &Beside<T>| beside.table.ranges().as_slice().len();
        assert_eq!(beside.set_ranges(&[5, 8, 3], "ranges"), 0);
        assert_eq!(beside.set(20, 9, "numbers"), 0);
        assert_eq!(beside.set(20, 20, "no numbers"), 15);
        assert_eq!((ranges(&beside), numbers(&beside.table)), (1, [20, 9]));
        assert_eq!(algorithm_at(&beside, 5, "numbers"), LOWEST);
        assert_eq!(beside.set_ranges(&[5, 4, 3], "no ranges"), 20);
        assert_eq!(beside.set_ranges(&[], "none"), 0);
        assert_eq!((ranges(&beside), numbers(&beside.table)), (0, [20, 9]));
        assert_eq!(beside.set_ranges(&[5, 8, 3, 1, 2, 3], "ranges"), 0);
        beside.fresh(&workload::ESI);
        assert_eq!((ranges(&beside), numbers(&beside.table)), (0, [0, 0]));
        for esi in [&[0xFF; 10][..], &[0; 3], &workload::ESI] {
            assert_eq!(beside.set_ranges(&[5, 8, 3, 1, 2, 3], "ranges"), 0);
            beside.fresh(esi);
            assert_eq!(ranges(&beside), 0);
        }
        announce_three(&mut beside, HIGHEST, false);
        assert_eq!(algorithm_at(&beside, 5, "fresh"), HIGHEST);
    }
    on_a_side::<proved::Table>();
    on_a_side::<array::Table>();
    on_a_side::<list::List>();
    on_a_side::<form::Table>();
}
