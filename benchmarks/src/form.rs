//! Baseline (f): the forms that the project's papers name, in the best Rust that we can write. The state is the same words as the proved calls have: rows of five words, the family
//! and the address, in rising order in one array, a word of attributes for each beside it, the count, the identifier, and what the operator has set. Rows are
//! found, put in and taken out by `rows`, in which one search serves rows of any width; the Ethernet A-D routes are in `circuits`, the ready list in `ready`, sets of places in
//! `sets` and ranges of tags in `ranges`. Candidates are a set of places, N is its ones, and its places are found by trailing zeros. What the octets say is
//! read as in the other baselines. So beside (a) this baseline tells what the named forms cost, and ours beside it what is left.

mod circuits;
mod ranges;
mod ready;
mod rows;
mod sets;

pub use circuits::Circuits;

use crate::answer::{
    Address, Answer, Backup, Candidate, Family, Found, Segment, Sent, Verdict, ROW_WORDS,
};
use crate::octets::{self, Election, Flow, FlowAlgorithms, Number, MAX_ROUTES};
use crate::{candidates, dumps};
use ranges::Ranges;
use rows::{word, Four, Key, Row, Six};

#[derive(Clone, Copy)]
#[repr(C)]
pub struct Table {
    addresses: [[u32; ROW_WORDS]; MAX_ROUTES],
    attributes: [u32; MAX_ROUTES],
    count: u32,
    esi: [u8; 10],
    unused: [u8; 2],
    flow_algorithms: [u32; 2],
    ranges: Ranges,
}

/// From the top: algorithm, AC-DF 1 bit, preference 16, DP 1.
const KIND_SHIFT: u32 = 17;
const LOW: u32 = 0x1_FFFF;
const DP: u32 = 1;

#[inline(always)]
fn attributes_of(election: Election) -> u32 {
    u32::from(election.algorithm) << (KIND_SHIFT + 1)
        | u32::from(election.ac_df) << KIND_SHIFT
        | u32::from(election.preference) << 1
        | u32::from(election.dp)
}

#[inline(always)]
fn preference_in(attributes: u32) -> u16 {
    (attributes >> 1) as u16
}

/// Preference and DP bit; greater is better under algorithm 2.
#[inline(always)]
fn higher(attributes: u32) -> u32 {
    attributes & LOW
}

/// Greater is better under algorithm 3.
#[inline(always)]
fn lower(attributes: u32) -> u32 {
    (attributes & LOW) ^ (LOW ^ DP)
}

/// The place whose row starts at a word.
#[inline(always)]
fn place_of(at: usize) -> usize {
    (at as u32 / ROW_WORDS as u32) as usize % MAX_ROUTES
}

impl Table {
    const EMPTY: Table = Table {
        addresses: [[0; ROW_WORDS]; MAX_ROUTES],
        attributes: [0; MAX_ROUTES],
        count: 0,
        esi: [0; 10],
        unused: [0; 2],
        flow_algorithms: [0; 2],
        ranges: Ranges::NONE,
    };

    /// All its words, in the order in which they lie.
    pub fn words(&self) -> Vec<u32> {
        let mut words = self.addresses.as_flattened().to_vec();
        words.extend(self.attributes);
        words.push(self.count);
        let octets = [&self.esi[..], &self.unused].concat();
        words.extend(
            octets
                .as_chunks()
                .0
                .iter()
                .map(|four| u32::from_le_bytes(*four)),
        );
        words.extend(self.flow_algorithms);
        words.extend(self.ranges.words());
        words
    }

    #[inline(always)]
    fn count(&self) -> usize {
        self.count as usize
    }

    #[inline(always)]
    fn live(&self) -> &[u32] {
        &self.attributes[..self.count().min(MAX_ROUTES)]
    }

    #[inline(always)]
    fn routers(&self) -> &[[u32; ROW_WORDS]] {
        &self.addresses[..self.count().min(MAX_ROUTES)]
    }

    #[inline(always)]
    fn find(&self, key: impl Key<ROW_WORDS>) -> rows::Found {
        let words = self.addresses.as_flattened();
        rows::search::<MAX_ROUTES, ROW_WORDS>(words, self.count(), key)
    }

    /// Takes the route of an IPv4 address. Out of line, as the other three below, so that the other ways through a call save no registers.
    #[inline(never)]
    fn take_four(&mut self, number: u32, communities: &[u8]) -> Verdict {
        self.take(Four::new(number), communities)
    }

    #[inline(never)]
    fn take_six(&mut self, number: u128, communities: &[u8]) -> Verdict {
        self.take(Six::new(Number::V6(number).answered().1), communities)
    }

    #[inline(always)]
    fn take(&mut self, key: impl Row<ROW_WORDS>, communities: &[u8]) -> Verdict {
        let election = match octets::read_communities(communities) {
            Ok(election) => election,
            Err(refused) => return refused,
        };
        let attributes = attributes_of(election);
        match self.find(key) {
            Ok(at) => self.attributes[place_of(at)] = attributes,
            Err(_) if self.count() >= MAX_ROUTES => return Verdict::refused(8, 0),
            Err(at) => self.insert(at, key, attributes),
        }
        Verdict::default()
    }

    #[inline(never)]
    fn insert(&mut self, at: usize, key: impl Row<ROW_WORDS>, attributes: u32) {
        let (n, place) = (self.count(), place_of(at));
        rows::insert(&mut self.addresses, n, place, key.row());
        rows::insert(&mut self.attributes, n, place, attributes);
        self.count += 1;
    }

    #[inline(never)]
    fn remove(&mut self, at: usize) {
        let (n, place) = (self.count(), place_of(at));
        rows::remove(&mut self.addresses, n, place, [0; ROW_WORDS]);
        rows::remove(&mut self.attributes, n, place, 0);
        self.count -= 1;
    }

    /// The first place of the set, which is not empty, with the greatest weight.
    #[inline(always)]
    fn heaviest(&self, set: u64, digest: u32) -> usize {
        let words = self.addresses.as_flattened();
        let weight = |place: usize, low: usize| {
            octets::doubled_weight(word(words, place * ROW_WORDS + low), digest)
        };
        if !sets::by_runs(set) {
            return sets::first_best(set, |place| match word(words, place * ROW_WORDS) {
                4 => weight(place, 1),
                _ => weight(place, 4),
            });
        }
        let (mut at, mut top) = (set.trailing_zeros() as usize, 0);
        for run in sets::Runs(set) {
            let split = run.start + fours(&self.addresses[run.clone()]);
            let mut keep = |place, weight| {
                if weight > top {
                    (at, top) = (place, weight);
                }
            };
            (run.start..split).for_each(|place| keep(place, weight(place, 1)));
            (split..run.end).for_each(|place| keep(place, weight(place, 4)));
        }
        at
    }

    /// The algorithm and the AC-DF bit that all routes carry; without one, 0 and none.
    #[inline(always)]
    fn carried(&self) -> (u8, bool) {
        let attributes = self.live();
        let Some(first) = attributes.first() else {
            return (0, false);
        };
        let differing = attributes
            .iter()
            .fold(0, |bits, word| bits | (word ^ first));
        if differing > LOW {
            return (0, false);
        }
        let kind = first >> KIND_SHIFT;
        ((kind >> 1) as u8, kind & 1 != 0)
    }

    fn flow_algorithms(&self) -> FlowAlgorithms {
        let [source_group, any_source] = self.flow_algorithms.map(|number| number as u8);
        FlowAlgorithms {
            source_group,
            any_source,
        }
    }

    /// The algorithm and the AC-DF bit in use by the election of a flow, or of none, for a tag that is not reserved.
    #[inline(always)]
    fn in_use(&self, tag: u32, flow: Flow) -> (u8, bool) {
        let (algorithm, ac_df) = self.carried();
        match self.flow_algorithms().in_use(algorithm, flow) {
            Some(algorithm @ (2 | 3)) => (self.ranges.overriding(algorithm, tag), ac_df),
            Some(algorithm) => (algorithm, ac_df),
            None => (0, false),
        }
    }

    /// The candidates: all places in use or, with AC-DF in use, those that are ready, which are asked for only then.
    #[inline(always)]
    fn candidates(&self, ac_df: bool, ready_set: impl FnOnce() -> u64) -> u64 {
        if ac_df {
            ready_set()
        } else {
            sets::below(self.count())
        }
    }

    /// The best of a set of places, which is not empty, under algorithm 2 or 3.
    #[inline(always)]
    fn preferred(&self, set: u64, algorithm: u8) -> usize {
        if algorithm == 2 {
            sets::best(&self.attributes, set, higher)
        } else {
            sets::best(&self.attributes, set, lower)
        }
    }

    /// The election of a flow, or of none, for a tag that is not reserved.
    #[inline(always)]
    fn elected(&self, tag: u32, flow: Flow, ready_set: impl FnOnce() -> u64) -> Answer {
        let (algorithm, ac_df) = self.in_use(tag, flow);
        let set = self.candidates(ac_df, ready_set);
        if set == 0 {
            return Answer::refused(12);
        }
        let n = set.count_ones();
        let place = match algorithm {
            0 => sets::nth(set, tag % n),
            2 | 3 => self.preferred(set, algorithm),
            _ => self.heaviest(set, flow.digest(algorithm, tag, &self.esi)),
        };
        let [family, address @ ..] = self.addresses[place % MAX_ROUTES];
        Answer {
            number: 0,
            family: family as u8,
            address,
            algorithm,
            n,
            candidates: set,
        }
    }

    /// The backup for a tag that is not reserved: the best without the best.
    #[inline(always)]
    fn backup(&self, tag: u32, ready_set: impl FnOnce() -> u64) -> Backup {
        if self.count == 0 {
            return Backup::refused(12);
        }
        let (algorithm, ac_df) = self.in_use(tag, Flow::NONE);
        if algorithm == 0 {
            return Backup::refused(15);
        }
        let set = self.candidates(ac_df, ready_set);
        if set.count_ones() < 2 {
            return Backup::refused(12);
        }
        let best = |set| match algorithm {
            2 | 3 => self.preferred(set, algorithm),
            _ => self.heaviest(set, octets::digest(tag, &self.esi)),
        };
        let [family, address @ ..] = self.addresses[best(set & !(1 << best(set))) % MAX_ROUTES];
        Backup {
            number: 0,
            family: family as u8,
            address,
        }
    }

    /// Whether any route of a set carries another algorithm.
    #[inline(always)]
    fn differ(&self, set: u64, algorithm: u8) -> bool {
        let wanted = u32::from(algorithm) << (KIND_SHIFT + 1);
        let mut bits = 0;
        for run in sets::Runs(set) {
            let words = self.attributes[run].iter();
            bits = words.fold(bits, |bits, word| bits | (word ^ wanted));
        }
        bits >> (KIND_SHIFT + 1) != 0
    }

    /// What fits beside the reference by algorithm 2 or 3 among the others, if it does.
    #[inline(always)]
    fn beside(&self, others: u64, algorithm: u8, own: Sent) -> Option<Sent> {
        let attributes = self.attributes[self.preferred(others, algorithm) % MAX_ROUTES];
        let preference = preference_in(attributes);
        let reached = match algorithm {
            2 => own.preference >= preference,
            _ => own.preference <= preference,
        };
        (attributes & DP != 0 && reached).then_some(Sent {
            number: 0,
            preference,
            dp: false,
        })
    }

    /// The places of the routes but that of an address.
    #[inline(always)]
    fn others(&self, address: Address) -> u64 {
        let all = sets::below(self.count());
        let found = match Number::of(address) {
            Number::V4(number) => self.find(Four::new(number)),
            Number::V6(_) => self.find(Six::new(address.words)),
        };
        found.map_or(all, |at| all & !(1 << place_of(at)))
    }
}

/// How many of some rising routers, the lowest of them, have IPv4 addresses.
#[inline(always)]
fn fours(routers: &[[u32; ROW_WORDS]]) -> usize {
    let is_four = |router: &[u32; ROW_WORDS]| router[0] == 4;
    if routers.last().is_none_or(is_four) {
        return routers.len();
    }
    routers.partition_point(is_four)
}

impl Segment for Table {
    type Circuits = Circuits;

    fn empty() -> Table {
        Table::EMPTY
    }

    #[inline]
    fn fresh(&mut self, esi: &[u8]) -> u8 {
        *self = Table::EMPTY;
        if octets::is_reserved(esi) {
            return 4;
        }
        self.esi.copy_from_slice(esi);
        0
    }

    #[inline]
    fn announce(&mut self, route: &[u8], communities: &[u8]) -> Verdict {
        let number = match octets::check_route(route) {
            Ok(number) => number,
            Err(refused) => return refused,
        };
        if route[10..20] != self.esi {
            return Verdict::refused(5, 0);
        }
        match number {
            Number::V4(number) => self.take_four(number, communities),
            Number::V6(number) => self.take_six(number, communities),
        }
    }

    #[inline]
    fn withdraw(&mut self, address: Address) -> u8 {
        if Number::of(address).is_zero() {
            return 6;
        }
        let found = match address.family {
            Family::V4 => self.find(Four::new(address.words[0])),
            Family::V6 => self.find(Six::new(address.words)),
        };
        let Ok(at) = found else {
            return 9;
        };
        self.remove(at);
        0
    }

    #[inline]
    fn set_flow_algorithms(&mut self, source_group: u8, any_source: u8) -> u8 {
        let mut set = self.flow_algorithms();
        let number = set.set(source_group, any_source);
        self.flow_algorithms = [set.source_group, set.any_source].map(u32::from);
        number
    }

    #[inline]
    fn set_ranges(&mut self, run: &[u32]) -> u8 {
        self.ranges.set(run)
    }

    #[inline]
    fn elect(&self, tag: u32, ready: &[u32]) -> Answer {
        if let Err(refused) = octets::check_election(tag, ready) {
            return Answer::refused(refused);
        }
        self.elected(tag, Flow::NONE, || self.ready_set(ready))
    }

    #[inline]
    fn elect_source_group(&self, source: &[u8], group: &[u8], tag: u32, ready: &[u32]) -> Answer {
        let checked = octets::check_election(tag, ready);
        if let Err(refused) = checked.and_then(|()| octets::check_source_group(source, group)) {
            return Answer::refused(refused);
        }
        let flow = Flow {
            number: self.flow_algorithms().source_group,
            source,
            group,
        };
        self.elected(tag, flow, || self.ready_set(ready))
    }

    #[inline]
    fn elect_any_source(&self, group: &[u8], tag: u32, ready: &[u32]) -> Answer {
        let checked = octets::check_election(tag, ready);
        if let Err(refused) = checked.and_then(|()| octets::check_group(group)) {
            return Answer::refused(refused);
        }
        let flow = Flow {
            number: self.flow_algorithms().any_source,
            source: &[],
            group,
        };
        self.elected(tag, flow, || self.ready_set(ready))
    }

    #[inline]
    fn elect_by_circuits(&self, circuits: &Circuits, tag: u32) -> Answer {
        if tag == 0 || tag == u32::MAX {
            return Answer::refused(10);
        }
        self.elected(tag, Flow::NONE, || circuits.ready_set(self.routers(), tag))
    }

    #[inline]
    fn name_backup(&self, tag: u32, ready: &[u32]) -> Backup {
        if let Err(refused) = octets::check_election(tag, ready) {
            return Backup::refused(refused);
        }
        self.backup(tag, || self.ready_set(ready))
    }

    #[inline]
    fn name_backup_by_circuits(&self, circuits: &Circuits, tag: u32) -> Backup {
        if tag == 0 || tag == u32::MAX {
            return Backup::refused(10);
        }
        self.backup(tag, || circuits.ready_set(self.routers(), tag))
    }

    #[inline]
    fn returning(&self, address: Address, algorithm: u8, preference: u16, dp: bool) -> Sent {
        if algorithm != 2 && algorithm != 3 {
            return Sent::refused(15);
        }
        if Number::of(address).is_zero() {
            return Sent::refused(6);
        }
        let own = Sent {
            number: 0,
            preference,
            dp,
        };
        let others = self.others(address);
        if !dp || others == 0 || self.differ(others, algorithm) {
            return own;
        }
        if self.ranges.is_empty() {
            return self.beside(others, algorithm, own).unwrap_or(own);
        }
        let both = self.beside(others, 2, own);
        both.or_else(|| self.beside(others, 3, own)).unwrap_or(own)
    }

    #[inline]
    fn digest(tag: u32, esi: &[u8; 10]) -> u32 {
        octets::digest(tag, esi)
    }

    #[inline]
    fn name_backup_in(list: &[Candidate], algorithm: u8) -> Backup {
        candidates::name_backup_in(list, algorithm)
    }

    #[inline]
    fn last_announcement(first: &[u8], second: &[u8], address: Address) -> Found {
        let answer = dumps::last_announcement(first, second, address);
        dumps::found(answer, first, second)
    }
}
