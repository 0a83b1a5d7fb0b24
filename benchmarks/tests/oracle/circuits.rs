//! The table of Ethernet A-D routes and the election over both tables. After each call its number and the whole state are compared, and whole answers
//! of elections.

use crate::{addresses, ours, theirs, whole, words};
use benchmarks::answer::{Address, Circuit, Circuits, Family, Segment, Verdict, CIRCUIT_WORDS};
use benchmarks::random::Random;
use benchmarks::workload::{self, Families};
use benchmarks::{array, form, list, proved};
use reference::circuits as rules;
use reference::refusal::answer_number;
use reference::table::Table;
use std::fmt::Display;

const SEEDS: u64 = 300;
const CALLS: usize = 500;
const MOST: usize = 256;

/// The state as words: 256 rows of seven in rising order, unused ones zero, then the number of routes.
fn laid_out(rows: Vec<[u32; CIRCUIT_WORDS]>) -> Vec<u32> {
    let count = rows.len();
    let mut words = rows.concat();
    words.resize(MOST * CIRCUIT_WORDS, 0);
    words.push(count as u32);
    words
}

/// A whole state. The proved one is its words just as they are, and that of the baseline in the named forms.
trait State {
    fn state(&self) -> Vec<u32>;
}

impl State for proved::Circuits {
    fn state(&self) -> Vec<u32> {
        self.words().to_vec()
    }
}

impl State for array::Circuits {
    fn state(&self) -> Vec<u32> {
        laid_out(self.rows())
    }
}

impl State for form::Circuits {
    fn state(&self) -> Vec<u32> {
        self.words()
    }
}

impl State for list::Circuits {
    fn state(&self) -> Vec<u32> {
        laid_out(self.rows())
    }
}

impl State for rules::Circuits {
    fn state(&self) -> Vec<u32> {
        let row = |route: &rules::Circuit| {
            let (kind, tag, address) = match *route {
                rules::Circuit::PerSegment { address } => (1, 0, address),
                rules::Circuit::PerInstance { tag, address } => (2, tag, address),
            };
            let [a, b, c, d] = words(address);
            [kind, tag, address.family().into(), a, b, c, d]
        };
        laid_out(self.routes().iter().map(row).collect())
    }
}

/// A route as the reference has it.
fn named(route: Circuit) -> rules::Circuit {
    let address = theirs(route.address);
    if route.per_instance {
        let tag = route.tag;
        rules::Circuit::PerInstance { tag, address }
    } else {
        rules::Circuit::PerSegment { address }
    }
}

/// A route of the reference as it is handed in.
fn handed_in(route: rules::Circuit) -> Circuit {
    match route {
        rules::Circuit::PerSegment { address } => Circuit::per_segment(ours(address)),
        rules::Circuit::PerInstance { tag, address } => Circuit::per_instance(tag, ours(address)),
    }
}

#[derive(Clone, Copy, Debug)]
enum Call {
    Announce(Circuit),
    Withdraw(Circuit),
}

/// Both tables of a side, and both of the reference.
struct Beside<T: Segment> {
    side: T,
    side_circuits: T::Circuits,
    table: Table,
    circuits: rules::Circuits,
}

impl<T: Segment<Circuits: State>> Beside<T> {
    fn fresh(esi: &[u8; 10]) -> Beside<T> {
        let mut side = T::empty();
        assert_eq!(side.fresh(esi), 0);
        let beside = Beside {
            side,
            side_circuits: T::Circuits::empty(),
            table: Table::fresh(esi).1,
            circuits: rules::Circuits::fresh(),
        };
        beside.same_state("fresh");
        beside
    }

    fn same_state(&self, place: impl Display) {
        let same = self.side_circuits.state() == self.circuits.state();
        assert!(same, "{place}: another state");
    }

    /// Makes a call of the table of Ethernet A-D routes, and gives its number.
    fn call(&mut self, call: Call, place: impl Display) -> u8 {
        let (number, told) = match call {
            Call::Announce(route) => (
                self.side_circuits.announce(route),
                answer_number(&self.circuits.announce(named(route))),
            ),
            Call::Withdraw(route) => (
                self.side_circuits.withdraw(route),
                answer_number(&self.circuits.withdraw(named(route))),
            ),
        };
        assert_eq!(number, told, "{place}: {call:?}");
        self.same_state(place);
        number
    }

    /// Announces a route of a router to the route table.
    fn announce(&mut self, route: &[u8], communities: &[u8]) {
        let number = answer_number(&self.table.announce(route, communities));
        let place = reference::route::place(route);
        let verdict = Verdict { number, place };
        assert_eq!(self.side.announce(route, communities), verdict);
    }

    fn withdraw(&mut self, address: Address) {
        let number = answer_number(&self.table.withdraw(theirs(address)));
        assert_eq!(self.side.withdraw(address), number);
    }

    /// Elects over both tables, and gives the number, the family and N.
    fn elect(&self, tag: u32, place: impl Display) -> (u8, u8, usize) {
        let told = whole(rules::elect(&self.table, &self.circuits, tag));
        let answer = self.side.elect_by_circuits(&self.side_circuits, tag);
        assert_eq!(answer, told, "{place}: tag {tag}");
        (told.number, told.family, told.n as usize)
    }

    fn routes(&self) -> usize {
        self.circuits.routes().len()
    }
}

/// What the calls of one seed draw from.
struct Pool {
    random: Random,
    esi: [u8; 10],
    /// A router may stand in either table, in both or in none.
    addresses: Vec<Address>,
    tags: Vec<u32>,
    algorithm: u8,
    ac_df: bool,
    /// Of ten calls so many are announcements.
    announcements: usize,
}

impl Pool {
    /// Most pools have more routes than the table has room for.
    fn new(seed: u64) -> Pool {
        let mut random = Random(seed);
        let addresses = addresses(&mut random);
        let routes = [12, 60, 320, 400, 500, 600][random.below(6)];
        let tags = (routes / addresses.len()).max(1);
        let tags = (0..tags).map(|_| match random.below(3) {
            0 => 1 + random.below(4094) as u32,
            1 => u32::MAX - 1 - random.below(300) as u32,
            _ => 1 + random.below(u32::MAX as usize - 1) as u32,
        });
        Pool {
            tags: tags.collect(),
            esi: random.octets(),
            addresses,
            algorithm: random.below(5) as u8,
            ac_df: !random.one_in(5),
            announcements: [5, 9, 9][random.below(3)],
            random,
        }
    }

    /// An address of the pool, or now and then zero. In an IPv4 one the words after the first may be anything.
    fn address(&mut self) -> Address {
        let mut address = match self.random.below(60) {
            0 => Address::v4(0),
            1 => Address::v6(0),
            _ => self.addresses[self.random.below(self.addresses.len())],
        };
        if address.family == Family::V4 && self.random.one_in(2) {
            address.words[1..].fill_with(|| self.random.word() as u32);
        }
        address
    }

    fn tag(&mut self) -> u32 {
        match self.random.below(30) {
            0 => 0,
            1 => u32::MAX,
            2 => self.random.word() as u32,
            _ => self.tags[self.random.below(self.tags.len())],
        }
    }

    /// A route of either kind. With a per-segment one any tag is handed in, reserved ones too.
    fn circuit(&mut self) -> Circuit {
        Circuit {
            per_instance: self.random.below(self.tags.len() + 1) != 0,
            tag: self.tag(),
            address: self.address(),
        }
    }

    /// A call on a table with these routes; half of the withdrawals are of one of them.
    fn call(&mut self, standing: &[rules::Circuit]) -> Call {
        let route = self.circuit();
        if self.random.below(10) < self.announcements {
            Call::Announce(route)
        } else if !standing.is_empty() && self.random.one_in(2) {
            Call::Withdraw(handed_in(standing[self.random.below(standing.len())]))
        } else {
            Call::Withdraw(route)
        }
    }

    /// Every route of the pool's addresses and tags, in any order.
    fn all_circuits(&mut self) -> Vec<Circuit> {
        let mut all = workload::circuits(&self.addresses, &self.tags);
        self.random.shuffle(&mut all);
        all
    }

    /// The communities of a route: those of the pool, and now and then others.
    fn communities(&mut self) -> [u8; 8] {
        let (mut algorithm, mut ac_df) = (self.algorithm, self.ac_df);
        if self.random.one_in(400) {
            algorithm = self.random.below(6) as u8;
            ac_df = self.random.one_in(2);
        }
        let preference = [7, self.random.word() as u16][self.random.below(2)];
        workload::community(algorithm, ac_df, self.random.one_in(2), preference)
    }
}

/// What the random calls came to.
#[derive(Debug, Default)]
struct Tally {
    /// Calls of the table by their number.
    numbers: [usize; 11],
    /// Accepted on a table of 256 routes: announcements of one of them, and withdrawals.
    again_at_most: usize,
    freed_at_most: usize,
    /// Tables made fresh after other calls.
    emptied: usize,
    /// Elections of an IPv4 and of an IPv6 router.
    elected: [usize; 2],
    /// Elections refused for their tag.
    reserved: usize,
    /// Elections with AC-DF in use beside a table that is not empty: none, some or all of its routers eligible.
    none: usize,
    some: usize,
    all: usize,
}

impl Tally {
    fn hear_call<T: Segment<Circuits: State>>(
        &mut self,
        beside: &mut Beside<T>,
        call: Call,
        place: &str,
    ) {
        let before = beside.routes();
        let number = beside.call(call, place);
        self.numbers[usize::from(number)] += 1;
        if before == MOST && number == 0 {
            match call {
                Call::Announce(_) => self.again_at_most += 1,
                Call::Withdraw(_) => self.freed_at_most += 1,
            }
        }
    }

    fn hear_election<T: Segment<Circuits: State>>(
        &mut self,
        beside: &Beside<T>,
        tag: u32,
        place: &str,
    ) {
        let (number, family, n) = beside.elect(tag, place);
        let entries = beside.table.entries();
        let (_, ac_df) = reference::election::algorithm_in_use(&beside.table);
        self.elected[0] += usize::from(family == 4);
        self.elected[1] += usize::from(family == 6);
        self.reserved += usize::from(number == 10);
        if !entries.is_empty() && ac_df && number != 10 {
            self.none += usize::from(n == 0);
            self.some += usize::from(n > 0 && n < entries.len());
            self.all += usize::from(n == entries.len());
        }
    }

    fn is_enough(&self) -> bool {
        let Tally { numbers, .. } = self;
        let calls = [0, 6, 8, 9, 10]
            .iter()
            .all(|number| numbers[*number] > 2_000);
        let at_most = self.again_at_most > 4_000 && self.freed_at_most > 800;
        let elected = self.elected.iter().all(|count| *count > 20_000);
        let eligible = [self.none, self.some, self.all];
        let eligible = eligible.iter().all(|count| *count > 2_000);
        calls && at_most && elected && eligible && self.reserved > 2_000 && self.emptied > 50
    }
}

/// Random calls. First the table gets some routes of the pool, most times as many as it has room for, or more.
fn same_as_the_reference<T: Segment<Circuits: State>>() {
    let mut tally = Tally::default();
    for seed in 0..SEEDS {
        let mut pool = Pool::new(seed);
        let mut beside = Beside::<T>::fresh(&pool.esi);
        for address in pool.addresses.clone() {
            if !pool.random.one_in(4) {
                let route = workload::route(&pool.esi, address);
                beside.announce(&route, &pool.communities());
            }
        }
        let first = [0, 200, 256, 256, 258][pool.random.below(5)];
        for route in pool.all_circuits().into_iter().take(first) {
            let place = format!("seed {seed}, {} routes", beside.routes());
            tally.hear_call(&mut beside, Call::Announce(route), &place);
        }
        for call in 0..CALLS {
            let place = format!("seed {seed}, call {call}");
            match pool.random.below(1_000) {
                0..=49 => {
                    let address = pool.address();
                    let route = workload::route(&pool.esi, address);
                    beside.announce(&route, &pool.communities());
                }
                50..=74 => beside.withdraw(pool.address()),
                75 => {
                    beside.side_circuits.fresh();
                    beside.circuits = rules::Circuits::fresh();
                    beside.same_state(&place);
                    tally.emptied += 1;
                }
                _ => {
                    let call = pool.call(beside.circuits.routes());
                    tally.hear_call(&mut beside, call, &place);
                }
            }
            tally.hear_election(&beside, pool.tag(), &place);
        }
    }
    assert!(tally.is_enough(), "not enough: {tally:?}");
}

#[test]
fn proved_circuits_are_right() {
    same_as_the_reference::<proved::Table>();
}

#[test]
fn array_circuits_are_right() {
    same_as_the_reference::<array::Table>();
}

#[test]
fn list_circuits_are_right() {
    same_as_the_reference::<list::List>();
}

#[test]
fn form_circuits_are_right() {
    same_as_the_reference::<form::Table>();
}

/// Every call with every kind of tag and address on tables that are empty, nearly full and full: the refusals in all orders.
#[test]
fn refusals_in_every_order() {
    fn every_call<T: Segment<Circuits: State>>() {
        let mapped = |number: u128| Address::v6(0xFFFF << 32 | number);
        let tailed = |number| Address {
            words: [number, 1, 0, u32::MAX],
            ..Address::v4(0)
        };
        let there = [
            Address::v4(0x0A00_0001),
            Address::v4(u32::MAX),
            Address::v6(0x0A00_0001),
            Address::v6(0x0A00_0001 << 96),
            mapped(0x0A00_0001),
            Address::v6(u128::MAX),
        ];
        let others = [
            Address::v4(0),
            tailed(0),
            tailed(0x0A00_0001),
            tailed(1),
            Address::v4(1),
            Address::v6(0),
            Address::v6(1),
            Address::v6(1 << 127),
            mapped(0),
        ];
        let own = workload::circuits(&there, &[1, 7, u32::MAX - 1]);
        let mut numbers = [0; 11];
        for routes in [0, own.len(), 255, 256] {
            let mut beside = Beside::<T>::fresh(&workload::ESI);
            let filling = (1000..).map(|tag| Circuit::per_instance(tag, there[0]));
            for route in own.iter().copied().chain(filling).take(routes) {
                assert_eq!(beside.call(Call::Announce(route), routes), 0);
            }
            assert_eq!(beside.routes(), routes);
            for address in there.into_iter().chain(others) {
                for tag in [0, 1, 2, 7, u32::MAX - 1, u32::MAX] {
                    for per_instance in [false, true] {
                        let route = Circuit {
                            per_instance,
                            tag,
                            address,
                        };
                        let was_there = beside.circuits.routes().contains(&named(route));
                        for call in [Call::Announce(route), Call::Withdraw(route)] {
                            let number = beside.call(call, routes);
                            numbers[usize::from(number)] += 1;
                        }
                        // as it was, for the next
                        if was_there {
                            assert_eq!(beside.call(Call::Announce(route), routes), 0);
                        }
                        assert_eq!(beside.routes(), routes);
                    }
                }
            }
        }
        let told = [0, 6, 8, 9, 10];
        assert!(told.iter().all(|number| numbers[*number] > 10));
        assert_eq!(numbers.iter().sum::<usize>(), 4 * 15 * 6 * 2 * 2);
    }
    every_call::<proved::Table>();
    every_call::<array::Table>();
    every_call::<list::List>();
    every_call::<form::Table>();
}

/// 64 routers that are ready for three tags, which is 256 routes: each route in turn is withdrawn and announced again, under every algorithm.
#[test]
fn every_router_counts() {
    fn turns<T: Segment<Circuits: State>>(families: Families, algorithm: u8) {
        let mut random = Random(u64::from(algorithm));
        let addresses = workload::addresses(64, families, &mut random);
        let tags = [1, 1000, u32::MAX - 1];
        let mut beside = Beside::<T>::fresh(&workload::ESI);
        let runs = workload::runs(&workload::ESI, &addresses, algorithm, true, &mut random);
        for run in runs {
            beside.announce(&run.route, &run.communities);
        }
        let mut routes = workload::circuits(&addresses, &tags);
        random.shuffle(&mut routes);
        for route in &routes {
            assert_eq!(beside.call(Call::Announce(*route), "announced"), 0);
        }
        assert_eq!(beside.routes(), MOST);
        let eligible = |beside: &Beside<T>, tag| beside.elect(tag, algorithm).2;
        for route in routes {
            assert_eq!(beside.call(Call::Withdraw(route), "withdrawn"), 0);
            for tag in tags {
                let is_hit = !route.per_instance || route.tag == tag;
                assert_eq!(eligible(&beside, tag), if is_hit { 63 } else { 64 });
            }
            assert_eq!(beside.call(Call::Announce(route), "announced again"), 0);
        }
        assert_eq!(eligible(&beside, 2), 0);
    }
    for families in [Families::V4, Families::V6, Families::Mixed] {
        for algorithm in 0..4 {
            turns::<proved::Table>(families, algorithm);
            turns::<array::Table>(families, algorithm);
            turns::<list::List>(families, algorithm);
            turns::<form::Table>(families, algorithm);
        }
    }
}
