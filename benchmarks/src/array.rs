//! Baseline (a): sorted arrays, updated in place. Every IPv4 address is lower than every IPv6 one, so the addresses are two columns, one after the other:
//! IPv4 ones as numbers of 32 bits, IPv6 ones as numbers of 128. A route's word of attributes is in an array of its own, the IPv4 routes' first, so that
//! a loop over them takes several routes at once. Unused addresses are all ones, so that halvings may go past the end. A lookup halves its range without
//! a branch, as often as the number of routes asks for, and compares at most seven entries of 64 (document 02, M-104). An address of the ready list is
//! first looked for behind the one of its family before it, which is one of the seven. Shifts are block moves. Loops over the routes are without
//! branches, for the compiler to vectorize. Nothing that an election derives is kept between calls. The Ethernet A-D routes are in `circuits`,
//! the ranges of tags in `ranges` and the second in line in `backup`.

mod backup;
mod circuits;
mod ranges;

pub use circuits::Circuits;

use crate::answer::{Address, Answer, Backup, Candidate, Found, Segment, Sent, Verdict, ROW_WORDS};
use crate::octets::{self, Election, Flow, FlowAlgorithms, Number, MAX_ROUTES};
use crate::{candidates, dumps};
use ranges::Ranges;

const LAST: usize = MAX_ROUTES - 1;
/// So many items and fewer are moved one by one, more as a block.
const FEW: usize = 4;

pub struct Table {
    esi: [u8; 10],
    v4: Column<u32>,
    v6: Column<u128>,
    attributes: [u32; MAX_ROUTES],
    flow_algorithms: FlowAlgorithms,
    ranges: Ranges,
}

/// The addresses of one family as rising numbers.
struct Column<N> {
    count: usize,
    numbers: [N; MAX_ROUTES],
}

/// A number that is an address.
trait Key: Copy + Ord {
    const UNUSED: Self;

    /// The number of a row of a ready list, if the row is of this family.
    fn in_row(row: &[u32; ROW_WORDS]) -> Option<Self>;
}

impl Key for u32 {
    const UNUSED: u32 = u32::MAX;

    #[inline(always)]
    fn in_row(row: &[u32; ROW_WORDS]) -> Option<u32> {
        (row[0] == 4).then_some(row[1])
    }
}

impl Key for u128 {
    const UNUSED: u128 = u128::MAX;

    #[inline(always)]
    fn in_row(row: &[u32; ROW_WORDS]) -> Option<u128> {
        let [family, words @ ..] = row;
        (*family == 6).then(|| octets::wide(words))
    }
}

/// From the top: algorithm, AC-DF 1 bit, preference 16, DP 1.
const KIND_SHIFT: u32 = 17;
const LOW: u32 = 0x1_FFFF;
const DP: u32 = 1;

fn attributes_of(election: Election) -> u32 {
    u32::from(election.algorithm) << (KIND_SHIFT + 1)
        | u32::from(election.ac_df) << KIND_SHIFT
        | u32::from(election.preference) << 1
        | u32::from(election.dp)
}

fn algorithm_in(attributes: u32) -> u8 {
    (attributes >> (KIND_SHIFT + 1)) as u8
}

fn preference_in(attributes: u32) -> u16 {
    (attributes >> 1) as u16
}

/// Preference and DP bit; greater is better under algorithm 2.
fn higher(attributes: u32) -> u32 {
    attributes & LOW
}

/// Greater is better under algorithm 3.
fn lower(attributes: u32) -> u32 {
    (attributes & LOW) ^ (LOW ^ DP)
}

impl<N: Key> Column<N> {
    const EMPTY: Column<N> = Column {
        count: 0,
        numbers: [N::UNUSED; MAX_ROUTES],
    };

    /// Where the address stands, or the place at which it would. Of 64 entries at most seven are compared: six halvings, and the last one.
    #[inline(always)]
    fn find(&self, number: N) -> Result<usize, usize> {
        let mut place = match levels(self.count) {
            0 => 0,
            1 => self.halved::<1>(0, number),
            2 => self.halved::<2>(0, number),
            3 => self.halved::<3>(0, number),
            4 => self.halved::<4>(0, number),
            5 => self.halved::<5>(0, number),
            _ => self.halved::<6>(0, number),
        };
        if place == LAST && self.numbers[LAST] < number {
            place = MAX_ROUTES;
        }
        if place < self.count && self.numbers[place % MAX_ROUTES] == number {
            return Ok(place);
        }
        Err(place)
    }

    /// The first place whose number is not below the one sought, by L halvings of 2^L - 1 places from `low` on. So that they end within the array, they
    /// may start at a lower place: all numbers before `low` are below the one sought.
    #[inline(always)]
    fn halved<const L: u32>(&self, low: usize, number: N) -> usize {
        let mut place = low.min(MAX_ROUTES + 1 - (1 << L));
        for n in (0..L).rev() {
            let step = 1 << n;
            place += step * usize::from(self.numbers[(place + step - 1) % MAX_ROUTES] < number);
        }
        place
    }

    #[inline(always)]
    fn insert(&mut self, place: usize, number: N) {
        open(&mut self.numbers, place, self.count);
        self.numbers[place] = number;
        self.count += 1;
    }

    #[inline(always)]
    fn remove(&mut self, place: usize) {
        close(&mut self.numbers, place, self.count, N::UNUSED);
        self.count -= 1;
    }

    /// The set of the places whose address is on the ready list.
    #[inline(always)]
    fn ready_set(&self, ready: &[u32]) -> u64 {
        match levels(self.count) {
            0 => 0,
            1 => self.ready_among::<1>(ready),
            2 => self.ready_among::<2>(ready),
            3 => self.ready_among::<3>(ready),
            4 => self.ready_among::<4>(ready),
            5 => self.ready_among::<5>(ready),
            _ => self.ready_among::<6>(ready),
        }
    }

    /// The same, where L halvings are enough. An address is first looked for behind the one before it; what is then left has at most 63 places.
    #[inline(never)]
    fn ready_among<const L: u32>(&self, ready: &[u32]) -> u64 {
        let mut set = 0;
        let mut place = 0;
        for row in ready.as_chunks::<ROW_WORDS>().0 {
            let Some(number) = N::in_row(row) else {
                continue;
            };
            let behind = place % MAX_ROUTES;
            let seen = self.numbers[behind];
            if seen == number {
                set |= 1 << behind;
                place = behind + 1;
                continue;
            }
            let low = if seen < number { behind + 1 } else { 0 };
            place = self.halved::<L>(low, number);
            if self.numbers.get(place) == Some(&number) {
                set |= 1 << place;
                place += 1;
            }
        }
        // an unused place is all ones, as an address may be too
        set & all_places(self.count)
    }
}

/// Moves the items from the place on, of so many, one place up.
#[inline(always)]
fn open<T: Copy>(items: &mut [T; MAX_ROUTES], place: usize, count: usize) {
    if count - place > FEW {
        items.copy_within(place..count, place + 1);
    } else {
        for at in (place..count).rev() {
            items[(at + 1) % MAX_ROUTES] = items[at % MAX_ROUTES];
        }
    }
}

/// Moves the items after the place, of so many, one place down; the last place gets what unused ones have.
#[inline(always)]
fn close<T: Copy>(items: &mut [T; MAX_ROUTES], place: usize, count: usize, unused: T) {
    if count - place > FEW {
        items.copy_within(place + 1..count, place);
    } else {
        for at in place + 1..count {
            items[(at - 1) % MAX_ROUTES] = items[at % MAX_ROUTES];
        }
    }
    items[count - 1] = unused;
}

impl Table {
    #[inline(always)]
    fn count(&self) -> usize {
        self.v4.count + self.v6.count
    }

    fn live(&self) -> &[u32] {
        &self.attributes[..self.count().min(MAX_ROUTES)]
    }

    /// Where the address stands among all routes, or none.
    #[inline(always)]
    fn place(&self, number: Number) -> Option<usize> {
        match number {
            Number::V4(number) => self.v4.find(number).ok(),
            Number::V6(number) => {
                let place = self.v6.find(number).ok();
                place.map(|place| self.v4.count + place)
            }
        }
    }

    #[inline(always)]
    fn put_v4(&mut self, number: u32, attributes: u32) -> Verdict {
        match self.v4.find(number) {
            Ok(place) => self.attributes[place % MAX_ROUTES] = attributes,
            Err(_) if self.count() >= MAX_ROUTES => return Verdict::refused(8, 0),
            Err(place) => self.insert_v4(place, number, attributes),
        }
        Verdict::default()
    }

    #[inline(always)]
    fn put_v6(&mut self, number: u128, attributes: u32) -> Verdict {
        match self.v6.find(number) {
            Ok(place) => self.attributes[(self.v4.count + place) % MAX_ROUTES] = attributes,
            Err(_) if self.count() >= MAX_ROUTES => return Verdict::refused(8, 0),
            Err(place) => self.insert_v6(place, number, attributes),
        }
        Verdict::default()
    }

    /// Puts an entry before the place of its column. Out of line, as the other three, so that the other ways through a call save no registers.
    #[inline(never)]
    fn insert_v4(&mut self, place: usize, number: u32, attributes: u32) {
        let count = self.count();
        open(&mut self.attributes, place, count);
        self.attributes[place] = attributes;
        self.v4.insert(place, number);
    }

    #[inline(never)]
    fn insert_v6(&mut self, place: usize, number: u128, attributes: u32) {
        let (among_all, count) = (self.v4.count + place, self.count());
        open(&mut self.attributes, among_all, count);
        self.attributes[among_all] = attributes;
        self.v6.insert(place, number);
    }

    #[inline(never)]
    fn remove_v4(&mut self, place: usize) {
        let count = self.count();
        close(&mut self.attributes, place, count, 0);
        self.v4.remove(place);
    }

    #[inline(never)]
    fn remove_v6(&mut self, place: usize) {
        let count = self.count();
        close(&mut self.attributes, self.v4.count + place, count, 0);
        self.v6.remove(place);
    }

    /// The set of the places whose address is on the ready list.
    #[inline(always)]
    fn ready_set(&self, ready: &[u32]) -> u64 {
        let mut set = self.v4.ready_set(ready);
        if self.v6.count != 0 {
            set |= self.v6.ready_set(ready) << self.v4.count;
        }
        set
    }

    /// The first place of the set, which is not empty, with the greatest weight. Each caller has a copy of its own, which is then inlined.
    fn heaviest<Caller>(&self, set: u64, full: bool, digest: u32) -> usize {
        let fours = &self.v4.numbers[..self.v4.count.min(MAX_ROUTES)];
        let sixes = &self.v6.numbers[..self.v6.count.min(MAX_ROUTES)];
        let of_four = |number: u32| octets::doubled_weight(number, digest);
        let of_six = |number: u128| octets::doubled_weight(number as u32, digest);
        if sixes.is_empty() {
            return best(fours, set, full, of_four).0;
        }
        let low = set & all_places(fours.len());
        let high = set & !all_places(fours.len());
        if high == 0 {
            return best(fours, low, full, of_four).0;
        }
        let (place, weight) = best(sixes, high >> fours.len(), full, of_six);
        if low != 0 {
            let (lower, at_least) = best(fours, low, full, of_four);
            if at_least >= weight {
                return lower;
            }
        }
        fours.len() + place
    }

    /// The algorithm and the AC-DF bit in use by the election of a flow, or of none, for a tag that is not reserved.
    #[inline(always)]
    fn in_use(&self, tag: u32, flow: Flow) -> (u8, bool) {
        let (algorithm, ac_df) = carried(self.live());
        match self.flow_algorithms.in_use(algorithm, flow) {
            Some(algorithm @ (2 | 3)) => (self.ranges.overriding(algorithm, tag), ac_df),
            Some(algorithm) => (algorithm, ac_df),
            None => (0, false),
        }
    }

    /// The election of a flow, or of none, for a tag that is not reserved. The set of those that are ready is asked for only with AC-DF in use.
    #[inline(always)]
    fn elected<R: FnOnce() -> u64>(&self, tag: u32, flow: Flow, ready_set: R) -> Answer {
        let attributes = self.live();
        let (algorithm, ac_df) = self.in_use(tag, flow);
        let set = if ac_df {
            ready_set()
        } else {
            all_places(attributes.len())
        };
        if set == 0 {
            return Answer::refused(12);
        }
        let n = set.count_ones();
        let full = n as usize == attributes.len();
        let place = match algorithm {
            0 if full => (tag % n) as usize,
            0 => nth(set, tag % n),
            2 => best_narrow(attributes, set, full, higher),
            3 => best_narrow(attributes, set, full, lower),
            _ => self.heaviest::<R>(set, full, flow.digest(algorithm, tag, &self.esi)),
        };
        let (family, address) = self.number_at(place).answered();
        Answer {
            number: 0,
            family,
            address,
            algorithm,
            n,
            candidates: set,
        }
    }

    /// What a returning router sends. `beside` says it where the checks of document 01 come to the reference: it is handed the set of the other places, which
    /// is not empty, and the own pair.
    #[inline(always)]
    fn sent(
        &self,
        address: Address,
        algorithm: u8,
        (preference, dp): (u16, bool),
        beside: impl FnOnce(u64, Sent) -> Sent,
    ) -> Sent {
        if algorithm != 2 && algorithm != 3 {
            return Sent::refused(15);
        }
        let number = Number::of(address);
        if number.is_zero() {
            return Sent::refused(6);
        }
        let own = Sent {
            number: 0,
            preference,
            dp,
        };
        let attributes = self.live();
        let mut others = all_places(attributes.len());
        let (mut before, mut after) = (attributes, &[][..]);
        if let Some(place) = self.place(number) {
            others &= !(1 << place);
            (before, after) = (&attributes[..place], &attributes[place + 1..]);
        }
        if !dp || others == 0 || differ(before, algorithm) || differ(after, algorithm) {
            return own;
        }
        beside(others, own)
    }

    /// The pair sent beside the reference by algorithm 2 or 3, the best of the other places.
    #[inline(always)]
    fn beside_one(&self, others: u64, algorithm: u8, own: Sent) -> Sent {
        let attributes = self.live();
        let full = others == all_places(attributes.len());
        let place = if algorithm == 2 {
            best_narrow(attributes, others, full, higher)
        } else {
            best_narrow(attributes, others, full, lower)
        };
        let reference = preference_in(attributes[place]);
        let reached = if algorithm == 2 {
            own.preference >= reference
        } else {
            own.preference <= reference
        };
        if attributes[place] & DP == 0 || !reached {
            return own;
        }
        Sent {
            number: 0,
            preference: reference,
            dp: false,
        }
    }

    /// The same beside both, first the highest and then the lowest.
    #[inline(always)]
    fn beside_both(&self, others: u64, own: Sent) -> Sent {
        let attributes = self.live();
        let full = others == all_places(attributes.len());
        let highest = attributes[best(attributes, others, full, higher).0];
        let lowest = attributes[best(attributes, others, full, lower).0];
        let reference = if highest & DP != 0 && own.preference >= preference_in(highest) {
            highest
        } else if lowest & DP != 0 && own.preference <= preference_in(lowest) {
            lowest
        } else {
            return own;
        };
        Sent {
            number: 0,
            preference: preference_in(reference),
            dp: false,
        }
    }

    /// What a returning router sends where ranges are set. Out of line, so that the call saves no registers for it where none are.
    #[cold]
    #[inline(never)]
    fn sent_with_ranges(&self, address: Address, algorithm: u8, pair: (u16, bool)) -> Sent {
        self.sent(address, algorithm, pair, |others, own| {
            self.beside_both(others, own)
        })
    }

    /// The address at a place among all routes.
    #[inline(always)]
    fn number_at(&self, place: usize) -> Number {
        if place < self.v4.count {
            Number::V4(self.v4.numbers[place % MAX_ROUTES])
        } else {
            Number::V6(self.v6.numbers[(place - self.v4.count) % MAX_ROUTES])
        }
    }
}

/// How many halvings a search among so many entries takes; of 64 six, which leave the last one.
#[inline]
fn levels(count: usize) -> u32 {
    usize::BITS - count.leading_zeros()
}

/// The algorithm and the AC-DF bit that all routes carry; without one, 0 and none.
fn carried(attributes: &[u32]) -> (u8, bool) {
    let Some(first) = attributes.first() else {
        return (0, false);
    };
    let differing = attributes
        .iter()
        .fold(0, |bits, word| bits | (word ^ first));
    if differing > LOW {
        return (0, false);
    }
    (algorithm_in(*first), first >> KIND_SHIFT & 1 != 0)
}

/// Whether any of these carries another algorithm.
#[inline(always)]
fn differ(attributes: &[u32], algorithm: u8) -> bool {
    let other = |word: &u32| algorithm_in(*word) != algorithm;
    attributes.iter().fold(false, |any, word| any | other(word))
}

/// The place in the set at k, counted from 0.
fn nth(set: u64, k: u32) -> usize {
    let mut left = set;
    for _ in 0..k {
        left &= left - 1;
    }
    left.trailing_zeros() as usize
}

/// The first place of the set, which is not empty, with the greatest score, and that score. A full set has all places.
#[inline(always)]
fn best<N: Copy>(items: &[N], set: u64, full: bool, score: impl Fn(N) -> u32) -> (usize, u32) {
    let mut at = set.trailing_zeros() as usize;
    let mut top = score(items[at]);
    let mut keep = |place: usize| {
        let next = score(items[place]);
        if next > top {
            top = next;
            at = place;
        }
    };
    if full {
        (1..items.len()).for_each(keep);
    } else {
        let mut left = set & (set - 1);
        while left != 0 {
            keep(left.trailing_zeros() as usize);
            left &= left - 1;
        }
    }
    (at, top)
}

/// The same for scores of 17 bits: over all places, the score above the place counted from the end fits 32 bits, and the greatest is taken.
fn best_narrow(words: &[u32], set: u64, full: bool, score: impl Fn(u32) -> u32) -> usize {
    if !full {
        return best(words, set, full, score).0;
    }
    let keys = words.iter().enumerate();
    let top = keys
        .map(|(place, word)| (score(*word) << 6 | (63 - place as u32)) as i32)
        .max();
    63 - (top.unwrap_or(63) & 63) as usize
}

fn all_places(n: usize) -> u64 {
    if n >= 64 {
        u64::MAX
    } else {
        (1 << n) - 1
    }
}

impl Segment for Table {
    type Circuits = Circuits;

    fn empty() -> Table {
        Table {
            esi: [0; 10],
            v4: Column::EMPTY,
            v6: Column::EMPTY,
            attributes: [0; MAX_ROUTES],
            flow_algorithms: FlowAlgorithms::default(),
            ranges: Ranges::NONE,
        }
    }

    #[inline]
    fn fresh(&mut self, esi: &[u8]) -> u8 {
        self.esi = [0; 10];
        self.v4 = Column::EMPTY;
        self.v6 = Column::EMPTY;
        self.attributes = [0; MAX_ROUTES];
        self.flow_algorithms = FlowAlgorithms::default();
        self.ranges = Ranges::NONE;
        if octets::is_reserved(esi) {
            return 4;
        }
        self.esi.copy_from_slice(esi);
        0
    }

    #[inline]
    fn announce(&mut self, route: &[u8], communities: &[u8]) -> Verdict {
        let number = match octets::check_route(route) {
            Ok(number) => number,
            Err(refused) => return refused,
        };
        if route[10..20] != self.esi {
            return Verdict::refused(5, 0);
        }
        let election = match octets::read_communities(communities) {
            Ok(election) => election,
            Err(refused) => return refused,
        };
        let attributes = attributes_of(election);
        match number {
            Number::V4(number) => self.put_v4(number, attributes),
            Number::V6(number) => self.put_v6(number, attributes),
        }
    }

    #[inline]
    fn withdraw(&mut self, address: Address) -> u8 {
        match Number::of(address) {
            Number::V4(0) | Number::V6(0) => return 6,
            Number::V4(number) => match self.v4.find(number) {
                Ok(place) => self.remove_v4(place),
                Err(_) => return 9,
            },
            Number::V6(number) => match self.v6.find(number) {
                Ok(place) => self.remove_v6(place),
                Err(_) => return 9,
            },
        }
        0
    }

    #[inline]
    fn set_flow_algorithms(&mut self, source_group: u8, any_source: u8) -> u8 {
        self.flow_algorithms.set(source_group, any_source)
    }

    #[inline]
    fn set_ranges(&mut self, run: &[u32]) -> u8 {
        self.ranges.set(run)
    }

    #[inline]
    fn elect(&self, tag: u32, ready: &[u32]) -> Answer {
        if let Err(refused) = octets::check_election(tag, ready) {
            return Answer::refused(refused);
        }
        self.elected(tag, Flow::NONE, || self.ready_set(ready))
    }

    #[inline]
    fn elect_source_group(&self, source: &[u8], group: &[u8], tag: u32, ready: &[u32]) -> Answer {
        let checked = octets::check_election(tag, ready);
        if let Err(refused) = checked.and_then(|()| octets::check_source_group(source, group)) {
            return Answer::refused(refused);
        }
        let flow = Flow {
            number: self.flow_algorithms.source_group,
            source,
            group,
        };
        self.elected(tag, flow, || self.ready_set(ready))
    }

    #[inline]
    fn elect_any_source(&self, group: &[u8], tag: u32, ready: &[u32]) -> Answer {
        let checked = octets::check_election(tag, ready);
        if let Err(refused) = checked.and_then(|()| octets::check_group(group)) {
            return Answer::refused(refused);
        }
        let flow = Flow {
            number: self.flow_algorithms.any_source,
            source: &[],
            group,
        };
        self.elected(tag, flow, || self.ready_set(ready))
    }

    #[inline]
    fn elect_by_circuits(&self, circuits: &Circuits, tag: u32) -> Answer {
        if tag == 0 || tag == u32::MAX {
            return Answer::refused(10);
        }
        self.elected(tag, Flow::NONE, || circuits.ready_set(self, tag))
    }

    #[inline]
    fn name_backup(&self, tag: u32, ready: &[u32]) -> Backup {
        if let Err(refused) = octets::check_election(tag, ready) {
            return Backup::refused(refused);
        }
        self.backup(tag, || self.ready_set(ready))
    }

    #[inline]
    fn name_backup_by_circuits(&self, circuits: &Circuits, tag: u32) -> Backup {
        if tag == 0 || tag == u32::MAX {
            return Backup::refused(10);
        }
        self.backup(tag, || circuits.ready_set(self, tag))
    }

    #[inline]
    fn returning(&self, address: Address, algorithm: u8, preference: u16, dp: bool) -> Sent {
        if !self.ranges.is_empty() {
            return self.sent_with_ranges(address, algorithm, (preference, dp));
        }
        self.sent(address, algorithm, (preference, dp), |others, own| {
            self.beside_one(others, algorithm, own)
        })
    }

    #[inline]
    fn digest(tag: u32, esi: &[u8; 10]) -> u32 {
        octets::digest(tag, esi)
    }

    #[inline]
    fn name_backup_in(list: &[Candidate], algorithm: u8) -> Backup {
        candidates::name_backup_in(list, algorithm)
    }

    #[inline]
    fn last_announcement(first: &[u8], second: &[u8], address: Address) -> Found {
        let answer = dumps::last_announcement(first, second, address);
        dumps::found(answer, first, second)
    }
}
