//! Baseline (b): a plain doubly linked list of heap nodes in rising address order, as routing daemons keep their routes today. A lookup walks from
//! the head; a new route allocates a node and a withdrawal frees one; an election is one walk over all nodes, and with AC-DF each node's address is
//! looked for along the ready list; under algorithm 0 a second walk goes to the one elected. The Ethernet A-D routes are in `circuits`, the ranges of
//! tags in `ranges`, the second in line in `backup`, and the list itself in `chain`.

mod backup;
mod chain;
mod circuits;
mod ranges;

pub use circuits::Circuits;

use crate::answer::{Address, Answer, Backup, Candidate, Found, Segment, Sent, Verdict, ROW_WORDS};
use crate::octets::{self, Election, Flow, FlowAlgorithms, Number, MAX_ROUTES};
use crate::{candidates, dumps};
use chain::{Chain, Node};
use ranges::Ranges;
use std::ptr;

/// An address is two numbers, so that a walk compares one for each node: an IPv6 address has above all IPv4 ones in `v4`, and an IPv4 address zero in
/// `v6`.
struct Key {
    v4: u64,
    v6: u128,
}

const ABOVE_V4: u64 = 1 << 32;

impl Key {
    fn of(address: Number) -> Key {
        match address {
            Number::V4(number) => Key {
                v4: number.into(),
                v6: 0,
            },
            Number::V6(number) => Key {
                v4: ABOVE_V4,
                v6: number,
            },
        }
    }

    fn address(&self) -> Number {
        if self.v4 < ABOVE_V4 {
            Number::V4(self.v4 as u32)
        } else {
            Number::V6(self.v6)
        }
    }

    #[inline]
    fn is(&self, address: Number) -> bool {
        match address {
            Number::V4(number) => self.v4 == u64::from(number),
            Number::V6(number) => self.v6 == number,
        }
    }
}

struct Route {
    key: Key,
    election: Election,
}

pub struct List {
    esi: [u8; 10],
    routes: Chain<Route>,
    flow_algorithms: FlowAlgorithms,
    ranges: Ranges,
}

impl List {
    /// The first node whose address is not below the one sought, or null.
    #[inline]
    fn at_or_after(&self, address: Number) -> *mut Node<Route> {
        match address {
            Number::V4(number) => self.routes.after_all(|route| route.key.v4 < number.into()),
            Number::V6(number) => self.routes.after_all(|route| route.key.v6 < number),
        }
    }

    /// The node of an address, which is not zero, or null.
    fn find(&mut self, address: Number) -> *mut Node<Route> {
        let node = self.at_or_after(address);
        match self.routes.item(node) {
            Some(route) if route.key.is(address) => node,
            _ => ptr::null_mut(),
        }
    }

    /// A new route before a node; before null is at the end. Out of line, so that the other ways through an announcement save no registers.
    #[inline(never)]
    fn insert(&mut self, next: *mut Node<Route>, address: Number, election: Election) {
        let key = Key::of(address);
        self.routes.link_before(next, Route { key, election });
    }

    /// One walk over all routes: whether they carry the first's algorithm and AC-DF bit, and which are eligible. These are taken, one after the other.
    #[inline(always)]
    fn walk<'a>(
        &'a self,
        first: Election,
        is_ready: Option<impl FnMut(&Key) -> bool>,
        mut take: impl FnMut(&'a Route),
    ) -> (bool, u64) {
        let mut agreed = true;
        let mut agree = |route: &Route| {
            let Election {
                algorithm, ac_df, ..
            } = route.election;
            agreed &= (algorithm == first.algorithm) & (ac_df == first.ac_df);
        };
        let Some(mut is_ready) = is_ready else {
            for route in self.routes.items() {
                agree(route);
                take(route);
            }
            return (agreed, self.all());
        };
        let mut candidates = 0;
        let mut bit = 1u64;
        for route in self.routes.items() {
            agree(route);
            if is_ready(&route.key) {
                candidates |= bit;
                take(route);
            }
            bit <<= 1;
        }
        (agreed, candidates)
    }

    /// The election of a flow, or of none, for a tag that is not reserved. With AC-DF what says who is ready is asked for, and then about one route after
    /// the other.
    #[inline(always)]
    fn elected<F: FnMut(&Key) -> bool>(
        &self,
        tag: u32,
        flow: Flow,
        ready: impl FnOnce() -> F,
    ) -> Answer {
        let Some(first) = self.routes.items().next() else {
            return Answer::refused(12);
        };
        let first = first.election;
        let Some(algorithm) = self.flow_algorithms.in_use(first.algorithm, flow) else {
            return self.by_modulus(tag, self.routes.count() as u32, self.all());
        };
        let algorithm = match algorithm {
            2 | 3 if !self.ranges.is_empty() => self.ranges.overriding(algorithm, tag),
            _ => algorithm,
        };
        let is_ready = first.ac_df.then(ready);
        let mut best: Option<&Route> = None;
        let (agreed, candidates) = match algorithm {
            0 => self.walk(first, is_ready, |_| {}),
            2 => self.walk(first, is_ready, |route| keep::<false>(&mut best, route)),
            3 => self.walk(first, is_ready, |route| keep::<true>(&mut best, route)),
            _ => {
                let digest = flow.digest(algorithm, tag, &self.esi);
                let mut top = 0;
                self.walk(first, is_ready, |route| {
                    let weight = octets::doubled_weight(route.key.address().low_word(), digest);
                    if best.is_none() || weight > top {
                        (best, top) = (Some(route), weight);
                    }
                })
            }
        };

        let n = candidates.count_ones();
        match best {
            _ if !agreed => self.by_modulus(tag, self.routes.count() as u32, self.all()),
            _ if n == 0 => Answer::refused(12),
            Some(route) => answer(route, algorithm, n, candidates),
            None => self.by_modulus(tag, n, candidates),
        }
    }

    /// What a returning router of an address sends beside the reference, the highest or the lowest of the other routes, if that fits. One walk; a route
    /// that carries another algorithm ends it, and then none fits.
    #[inline]
    fn inherited(
        &self,
        address: Number,
        algorithm: u8,
        lowest: bool,
        preference: u16,
    ) -> Option<Sent> {
        let mut best: Option<&Election> = None;
        for route in self.routes.items() {
            if route.key.is(address) {
                continue;
            }
            if route.election.algorithm != algorithm {
                return None;
            }
            if best.is_none_or(|top| preferred(lowest, &route.election, top)) {
                best = Some(&route.election);
            }
        }
        let reached = |reference: &&Election| {
            if lowest {
                preference <= reference.preference
            } else {
                preference >= reference.preference
            }
        };
        let fitting = best.filter(|reference| reference.dp).filter(reached)?;
        Some(Sent {
            number: 0,
            preference: fitting.preference,
            dp: false,
        })
    }

    /// The set of all places of a list that is not empty.
    fn all(&self) -> u64 {
        u64::MAX >> (MAX_ROUTES - self.routes.count())
    }

    /// The answer under algorithm 0: the n candidates are counted along the list, and the one at tag mod n is found by a second walk.
    #[inline]
    fn by_modulus(&self, tag: u32, n: u32, candidates: u64) -> Answer {
        let mut place = (tag % n) as usize;
        if n as usize != self.routes.count() {
            let mut left = candidates;
            for _ in 0..place {
                left &= left - 1;
            }
            place = left.trailing_zeros() as usize;
        }
        match self.routes.items().nth(place) {
            Some(route) => answer(route, 0, n, candidates),
            None => Answer::refused(12),
        }
    }
}

fn answer(route: &Route, algorithm: u8, n: u32, candidates: u64) -> Answer {
    let (family, address) = route.key.address().answered();
    Answer {
        number: 0,
        family,
        address,
        algorithm,
        n,
        candidates,
    }
}

/// Whether an address is on the ready list. Routers of one site differ in their last words, which are looked at first.
#[inline(never)]
fn is_listed(key: &Key, ready: &[u32]) -> bool {
    let (rows, _) = ready.as_chunks::<ROW_WORDS>();
    match key.address() {
        Number::V4(number) => any_row(rows, |row| row[1] == number && row[0] == 4),
        Number::V6(number) => {
            let own = Address::v6(number).row();
            any_row(rows, |row| row[4] == own[4] && *row == own)
        }
    }
}

/// Whether a row is the one sought. The rows are taken eight at a time: the test is short.
#[inline(always)]
fn any_row(rows: &[[u32; ROW_WORDS]], is_it: impl Fn(&[u32; ROW_WORDS]) -> bool) -> bool {
    let (eights, rest) = rows.as_chunks::<8>();
    for eight in eights {
        for row in eight {
            if is_it(row) {
                return true;
            }
        }
    }
    rest.iter().any(is_it)
}

/// Keeps the route if it is to be preferred to the best before it, which has a lower address.
#[inline(always)]
fn keep<'a, const LOWEST: bool>(best: &mut Option<&'a Route>, route: &'a Route) {
    if best.is_none_or(|top| preferred(LOWEST, &route.election, &top.election)) {
        *best = Some(route);
    }
}

/// Whether a route with this preference and DP bit is to be preferred to one of a lower address.
#[inline(always)]
fn preferred(lowest: bool, challenger: &Election, holder: &Election) -> bool {
    if challenger.preference != holder.preference {
        return (challenger.preference < holder.preference) == lowest;
    }
    challenger.dp && !holder.dp
}

impl Segment for List {
    type Circuits = Circuits;

    fn empty() -> List {
        List {
            esi: [0; 10],
            routes: Chain::new(),
            flow_algorithms: FlowAlgorithms::default(),
            ranges: Ranges::none(),
        }
    }

    #[inline]
    fn fresh(&mut self, esi: &[u8]) -> u8 {
        *self = List::empty();
        if octets::is_reserved(esi) {
            return 4;
        }
        self.esi.copy_from_slice(esi);
        0
    }

    #[inline]
    fn announce(&mut self, route: &[u8], communities: &[u8]) -> Verdict {
        let address = match octets::check_route(route) {
            Ok(address) => address,
            Err(refused) => return refused,
        };
        if route[10..20] != self.esi {
            return Verdict::refused(5, 0);
        }
        let election = match octets::read_communities(communities) {
            Ok(election) => election,
            Err(refused) => return refused,
        };
        let node = self.at_or_after(address);
        match self.routes.item(node) {
            Some(route) if route.key.is(address) => {
                route.election = election;
                return Verdict::default();
            }
            _ => {}
        }
        if self.routes.count() >= MAX_ROUTES {
            return Verdict::refused(8, 0);
        }
        self.insert(node, address, election);
        Verdict::default()
    }

    #[inline]
    fn withdraw(&mut self, address: Address) -> u8 {
        let address = Number::of(address);
        if address.is_zero() {
            return 6;
        }
        let node = self.find(address);
        if node.is_null() {
            return 9;
        }
        self.routes.unlink(node);
        0
    }

    #[inline]
    fn set_flow_algorithms(&mut self, source_group: u8, any_source: u8) -> u8 {
        self.flow_algorithms.set(source_group, any_source)
    }

    #[inline]
    fn set_ranges(&mut self, run: &[u32]) -> u8 {
        self.ranges.set(run)
    }

    #[inline]
    fn elect(&self, tag: u32, ready: &[u32]) -> Answer {
        if let Err(refused) = octets::check_election(tag, ready) {
            return Answer::refused(refused);
        }
        self.elected(tag, Flow::NONE, || |key: &Key| is_listed(key, ready))
    }

    #[inline]
    fn elect_source_group(&self, source: &[u8], group: &[u8], tag: u32, ready: &[u32]) -> Answer {
        let checked = octets::check_election(tag, ready);
        if let Err(refused) = checked.and_then(|()| octets::check_source_group(source, group)) {
            return Answer::refused(refused);
        }
        let flow = Flow {
            number: self.flow_algorithms.source_group,
            source,
            group,
        };
        self.elected(tag, flow, || |key: &Key| is_listed(key, ready))
    }

    #[inline]
    fn elect_any_source(&self, group: &[u8], tag: u32, ready: &[u32]) -> Answer {
        let checked = octets::check_election(tag, ready);
        if let Err(refused) = checked.and_then(|()| octets::check_group(group)) {
            return Answer::refused(refused);
        }
        let flow = Flow {
            number: self.flow_algorithms.any_source,
            source: &[],
            group,
        };
        self.elected(tag, flow, || |key: &Key| is_listed(key, ready))
    }

    #[inline]
    fn elect_by_circuits(&self, circuits: &Circuits, tag: u32) -> Answer {
        if tag == 0 || tag == u32::MAX {
            return Answer::refused(10);
        }
        self.elected(tag, Flow::NONE, || circuits.is_ready(tag))
    }

    #[inline]
    fn name_backup(&self, tag: u32, ready: &[u32]) -> Backup {
        if let Err(refused) = octets::check_election(tag, ready) {
            return Backup::refused(refused);
        }
        self.backup(tag, || |key: &Key| is_listed(key, ready))
    }

    #[inline]
    fn name_backup_by_circuits(&self, circuits: &Circuits, tag: u32) -> Backup {
        if tag == 0 || tag == u32::MAX {
            return Backup::refused(10);
        }
        self.backup(tag, || circuits.is_ready(tag))
    }

    #[inline]
    fn returning(&self, address: Address, algorithm: u8, preference: u16, dp: bool) -> Sent {
        if algorithm != 2 && algorithm != 3 {
            return Sent::refused(15);
        }
        let address = Number::of(address);
        if address.is_zero() {
            return Sent::refused(6);
        }
        let own = Sent {
            number: 0,
            preference,
            dp,
        };
        if !dp {
            return own;
        }
        let beside = |lowest| self.inherited(address, algorithm, lowest, preference);
        let inherited = if self.ranges.is_empty() {
            beside(algorithm == 3)
        } else {
            // one walk to each reference
            beside(false).or_else(|| beside(true))
        };
        inherited.unwrap_or(own)
    }

    #[inline]
    fn digest(tag: u32, esi: &[u8; 10]) -> u32 {
        octets::digest(tag, esi)
    }

    #[inline]
    fn name_backup_in(list: &[Candidate], algorithm: u8) -> Backup {
        candidates::name_backup_in(list, algorithm)
    }

    #[inline]
    fn last_announcement(first: &[u8], second: &[u8], address: Address) -> Found {
        let answer = dumps::last_announcement(first, second, address);
        dumps::found(answer, first, second)
    }
}
