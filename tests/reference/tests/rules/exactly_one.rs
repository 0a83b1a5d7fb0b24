//! Exactly one: boxes that hold the same announcements with the same settings, whatever else each
//! heard, in whatever order, refused and withdrawn, answer alike; and where any candidate is eligible,
//! exactly one router of the table finds its own address in the answer, otherwise none. Document 02,
//! M-107.

use crate::common::*;
use crate::random::*;
use reference::address::Address::{self, V4, V6};
use reference::circuits::{Circuit, Circuits};
use reference::refusal::Refusal;
use reference::returning::{advertise, Advertised};
use reference::table::Table;
use std::collections::{BTreeMap, BTreeSet};

/// What all boxes hold in the end.
struct Common {
    routes: BTreeMap<Address, Said>,
    circuits: BTreeSet<Circuit>,
    numbers: Option<[u8; 2]>,
    ranges: Vec<u32>,
    /// The routers of the table, and strangers that come and go.
    pool: Vec<Address>,
    tags: Vec<u32>,
}

/// What routes carry: most tables agree on something, some in all routes but one.
fn routes(random: &mut Random, routers: &[Address]) -> BTreeMap<Address, Said> {
    let agreed = any_algorithm(random);
    let (ac_df, differs) = (random.chance(60), random.below(100));
    let mut routes = BTreeMap::new();
    for (place, address) in routers.iter().enumerate() {
        let mut route = any_route(random, *address);
        if differs >= 15 {
            route.algorithm = agreed;
            route.ac_df = ac_df;
        }
        if (15..25).contains(&differs) && place == 0 {
            route.algorithm = any_algorithm(random);
        }
        if (25..35).contains(&differs) && place == 0 {
            route.ac_df = !ac_df;
        }
        routes.insert(*address, route);
    }
    routes
}

fn any_algorithm(random: &mut Random) -> u8 {
    let more = random.below(32) as u8;
    random.pick(&[0, 1, 1, 2, 2, 3, 3, NUMBERS[0], NUMBERS[1], more])
}

fn any_route(random: &mut Random, address: Address) -> Said {
    Said {
        address,
        algorithm: any_algorithm(random),
        ac_df: random.chance(50),
        dp: random.chance(50),
        preference: random.pick(&PREFERENCES),
    }
}

/// A box, with the test's own book of what its accepted calls left.
struct Speaker {
    table: Table,
    circuits: Circuits,
    routes: BTreeMap<Address, Said>,
    ad_routes: BTreeSet<Circuit>,
    refused: Vec<Refusal>,
}

impl Speaker {
    fn new() -> Speaker {
        Speaker {
            table: fresh(),
            circuits: Circuits::fresh(),
            routes: BTreeMap::new(),
            ad_routes: BTreeSet::new(),
            refused: Vec::new(),
        }
    }

    /// Whether a call was accepted; a refusal is noted.
    fn accepted(&mut self, answer: Result<(), Refusal>) -> bool {
        self.refused.extend(answer.err());
        answer.is_ok()
    }

    fn announce(&mut self, route: Said) {
        let (octets, community) = route.octets();
        let answer = self.table.announce(&octets, &community);
        if self.accepted(answer) {
            self.routes.insert(route.address, route);
        }
    }

    fn withdraw(&mut self, address: Address) {
        let answer = self.table.withdraw(address);
        if self.accepted(answer) {
            self.routes.remove(&address);
        }
    }

    fn announce_circuit(&mut self, route: Circuit) {
        let answer = self.circuits.announce(route);
        if self.accepted(answer) {
            self.ad_routes.insert(route);
        }
    }

    fn withdraw_circuit(&mut self, route: Circuit) {
        let answer = self.circuits.withdraw(route);
        if self.accepted(answer) {
            self.ad_routes.remove(&route);
        }
    }

    /// A call that is refused whatever the tables hold.
    fn hear_a_fault(&mut self, random: &mut Random, common: &Common) {
        let address = random.pick(&common.pool);
        let (good, community) = any_route(random, address).octets();
        let octet = random.pick(&[0, 1, 20]);
        let mut damaged = good.clone();
        damaged[octet] ^= 1 << random.below(5);
        let zero = random.pick(&[V4(0), V6(0)]);
        let cut = random.below(good.len());
        let answer = match random.below(9) {
            0 => self.table.announce(&good[..cut], &community),
            1 => self.table.announce(&damaged, &community),
            2 => self
                .table
                .announce(&route_octets(&OTHER_ESI, address), &community),
            3 => self
                .table
                .announce(&route_octets(&[0xFF; 10], address), &community),
            4 => self.table.announce(&route_octets(&ESI, zero), &community),
            5 => self.table.announce(&good, &community[..7]),
            6 => self.table.withdraw(zero),
            7 => self.table.set_flow_algorithms(9, 9),
            _ => self.table.set_ranges(&[1, 5, 3, 5, 9, 2]),
        };
        assert!(!self.accepted(answer));
    }

    /// A call of any kind, mostly accepted.
    fn hear_anything(&mut self, random: &mut Random, common: &Common) {
        let address = random.pick(&common.pool);
        let tag = random.pick(&common.tags);
        let circuit = match random.chance(50) {
            true => Circuit::PerSegment { address },
            false => Circuit::PerInstance { tag, address },
        };
        match random.below(12) {
            0..=4 => self.announce(any_route(random, address)),
            5 | 6 => self.withdraw(address),
            7 => self.announce_circuit(circuit),
            8 => self.withdraw_circuit(circuit),
            // numbers that are set cannot be taken back
            9 if common.numbers.is_some() => {
                let numbers = [0; 2].map(|_| random.between(3, 31) as u8);
                let answer = self.table.set_flow_algorithms(numbers[0], numbers[1]);
                self.accepted(answer);
            }
            9 => self.hear_a_fault(random, common),
            10 => {
                let answer = self.table.set_ranges(&random.ranges());
                self.accepted(answer);
            }
            _ => {
                // neither changes anything
                let kind = random.pick(&KINDS);
                let query = random.query(kind, tag, &common.pool);
                let _ = query.ask(&self.table, &self.circuits);
                let own = Advertised {
                    preference: 150,
                    dp: true,
                };
                let _ = advertise(&self.table, address, 2, own);
            }
        }
    }

    /// Brings the box to what all hold, by calls in an order of its own. An announcement that a full
    /// table refuses comes again after the withdrawals.
    fn settle(&mut self, random: &mut Random, common: &Common) {
        enum Step {
            Route(Address),
            Circuit(Circuit),
            Settings,
        }
        let routes = self.routes.keys().chain(common.routes.keys()).copied();
        let routes: BTreeSet<Address> = routes.collect();
        let circuits: BTreeSet<Circuit> = &self.ad_routes | &common.circuits;
        let mut steps: Vec<Step> = routes.into_iter().map(Step::Route).collect();
        steps.extend(circuits.into_iter().map(Step::Circuit));
        steps.push(Step::Settings);
        // the first time makes room, and the second does what was refused for the lack of it
        for first in [true, false] {
            random.shuffle(&mut steps);
            for step in &steps {
                let due = match step {
                    Step::Route(address) => self.routes.get(address) != common.routes.get(address),
                    Step::Circuit(route) => {
                        self.ad_routes.contains(route) != common.circuits.contains(route)
                    }
                    Step::Settings => first,
                };
                if !due && (!first || random.chance(70)) {
                    continue;
                }
                match step {
                    Step::Route(address) => match common.routes.get(address) {
                        Some(route) => self.announce(*route),
                        None => self.withdraw(*address),
                    },
                    Step::Circuit(route) if common.circuits.contains(route) => {
                        self.announce_circuit(*route);
                    }
                    Step::Circuit(route) => self.withdraw_circuit(*route),
                    Step::Settings => self.set(common),
                }
                if random.chance(20) {
                    self.hear_a_fault(random, common);
                }
            }
        }
        assert_eq!(self.routes, common.routes);
        assert_eq!(self.ad_routes, common.circuits);
        for _ in 0..random.below(4) {
            self.hear_a_fault(random, common);
            self.announce_if_full(random, common);
        }
    }

    fn set(&mut self, common: &Common) {
        if let Some([source_group, any_source]) = common.numbers {
            let answer = self.table.set_flow_algorithms(source_group, any_source);
            assert_eq!(answer, Ok(()));
        }
        assert_eq!(self.table.set_ranges(&common.ranges), Ok(()));
    }

    /// A stranger's announcement where 64 are held.
    fn announce_if_full(&mut self, random: &mut Random, common: &Common) {
        let strangers = common.pool.iter().copied();
        let strangers: Vec<Address> = strangers
            .filter(|address| !common.routes.contains_key(address))
            .collect();
        if self.routes.len() == 64 {
            let stranger = random.pick(&strangers);
            self.announce(any_route(random, stranger));
            assert_eq!(self.refused.last(), Some(&Refusal::TableFull));
        }
    }
}

/// Whether all routes that are held carry one AC-DF bit and one algorithm that can be agreed on.
fn agree(common: &Common) -> bool {
    let said: BTreeSet<(u8, bool)> = common
        .routes
        .values()
        .map(|route| (route.algorithm, route.ac_df))
        .collect();
    let usable =
        |number: u8| number <= 3 || common.numbers.is_some_and(|set| set.contains(&number));
    said.len() == 1 && said.iter().all(|(algorithm, _)| usable(*algorithm))
}

/// The routers that are eligible by what is held. AC-DF is in use where all agree on it.
fn eligible(common: &Common, query: &Query) -> Vec<Address> {
    let in_use = agree(common) && common.routes.values().all(|route| route.ac_df);
    let is_ready = |address: Address| match query.kind {
        Kind::BothTables => {
            let tag = query.tag;
            let both = [
                Circuit::PerSegment { address },
                Circuit::PerInstance { tag, address },
            ];
            both.iter().all(|route| common.circuits.contains(route))
        }
        _ => query.ready.contains(&address),
    };
    let addresses = common.routes.keys().copied();
    addresses
        .filter(|address| !in_use || is_ready(*address))
        .collect()
}

/// What a query is refused for, whatever is held.
fn fault(query: &Query) -> Option<Refusal> {
    let by_flow = matches!(query.kind, Kind::SourceGroup | Kind::AnySource);
    if query.tag == 0 || query.tag == u32::MAX {
        Some(Refusal::ReservedTag)
    } else if query.kind != Kind::BothTables && query.ready.len() > 64 {
        Some(Refusal::ReadyLength)
    } else if by_flow && ![4, 16].contains(&query.group.len()) {
        Some(Refusal::FlowLength)
    } else {
        None
    }
}

/// A query of any kind, and now and then one that is refused for its tag, its list or its flow.
fn any_query(random: &mut Random, common: &Common) -> Query {
    let kind = random.pick(&KINDS);
    let tag = match random.below(20) {
        0 => random.pick(&[0, u32::MAX]),
        1..=7 => random.tag(),
        _ => random.pick(&common.tags),
    };
    let mut query = random.query(kind, tag, &common.pool);
    match random.below(20) {
        0 => query.ready = vec![common.pool[0]; 65],
        1 => query.group = vec![232, 1, 2],
        _ => {}
    }
    query
}

/// What the boxes of a round come to hold.
fn common(random: &mut Random, routers: &[Address], strangers: &[Address]) -> Common {
    let mut tags = [0; 3].map(|_| random.tag()).to_vec();
    tags.dedup();
    let pool = [routers, strangers].concat();
    Common {
        routes: routes(random, routers),
        circuits: random.circuit_routes(&pool, &tags).into_iter().collect(),
        numbers: random.chance(60).then_some(NUMBERS),
        ranges: random.ranges(),
        pool,
        tags,
    }
}

#[test]
fn boxes_that_hold_the_same_elect_exactly_one() {
    let mut random = Random::new(3_107);
    let mut tally = Tally::default();
    for round in 0..500 {
        let count = match round % 100 {
            0 => 64,
            1..=3 => 0,
            4..=6 => 1,
            _ => random.between(2, 12),
        };
        let mut routers = random.addresses(count + 6);
        let strangers = routers.split_off(count);
        let common = common(&mut random, &routers, &strangers);
        // a box for each router of the table, and two at least
        let mut boxes = Vec::new();
        for _ in 0..count.max(2) {
            let mut speaker = Speaker::new();
            for _ in 0..random.below(40 + 3 * count) {
                speaker.hear_anything(&mut random, &common);
            }
            speaker.settle(&mut random, &common);
            for refusal in &speaker.refused {
                tally.note(("heard and refused", refusal.number()));
            }
            boxes.push(speaker);
        }
        for _ in 0..30 {
            let query = any_query(&mut random, &common);
            let answers = boxes.iter();
            let answers = answers.map(|one| query.ask(&one.table, &one.circuits));
            let answers: Vec<_> = answers.collect();
            for answer in &answers {
                assert_eq!(*answer, answers[0], "{query:?} of {:?}", boxes[0].table);
            }
            let found = answers.iter().zip(&routers);
            let found = found.filter(|(answer, own)| answer.is_ok_and(|it| it.address == **own));
            let found = found.count();
            if let Some(refusal) = fault(&query) {
                assert_eq!(answers[0], Err(refusal));
                tally.note(("asked and refused", refusal.number()));
                continue;
            }
            let eligible = eligible(&common, &query);
            let expected = usize::from(!eligible.is_empty());
            assert_eq!(found, expected, "{query:?} of {:?}", boxes[0].table);
            match answers[0] {
                Ok(told) => {
                    tally.note((query.kind, "told", told.algorithm));
                    // the answer and the test mean the same routers by eligible
                    let places = common.routes.keys().enumerate();
                    let places = places.filter(|(_, address)| eligible.contains(address));
                    let set = places.fold(0, |set, (place, _)| set | 1 << place);
                    assert_eq!(
                        (told.count as usize, told.candidates),
                        (eligible.len(), set)
                    );
                    if eligible.len() < count {
                        tally.note((query.kind, "some not eligible"));
                    }
                }
                Err(refusal) => {
                    assert_eq!(refusal, Refusal::NoEligible);
                    tally.note((query.kind, "none eligible, empty table", count == 0));
                }
            }
            let all_carry_it = common.routes.values().all(|route| route.ac_df);
            if count > 0 && all_carry_it && !agree(&common) {
                tally.note((query.kind, "AC-DF on all routes, and no agreement"));
            }
        }
    }
    println!("{tally:#?}");
    for number in [1, 2, 3, 4, 5, 6, 7, 9, 15, 20] {
        tally.at_least(1_500, ("heard and refused", number));
    }
    tally.at_least(300, ("heard and refused", 8));
    for number in [10, 11, 18] {
        tally.at_least(200, ("asked and refused", number));
    }
    for kind in KINDS {
        for (told, least) in [(0, 1_000), (1, 300), (2, 250), (3, 250)] {
            tally.at_least(least, (kind, "told", told));
        }
        tally.at_least(400, (kind, "some not eligible"));
        tally.at_least(100, (kind, "none eligible, empty table", false));
        tally.at_least(50, (kind, "none eligible, empty table", true));
        tally.at_least(100, (kind, "AC-DF on all routes, and no agreement"));
    }
    tally.at_least(80, (Kind::SourceGroup, "told", NUMBERS[0]));
    tally.at_least(80, (Kind::AnySource, "told", NUMBERS[1]));
}
