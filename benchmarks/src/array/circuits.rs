//! The Ethernet A-D routes of baseline (a): for each family one sorted array of keys, updated in place. A key is the tag above the address, and a
//! per-segment route has the tag 0, so that the per-segment routes come first and the routes of a tag lie side by side, each run in rising address
//! order. An election looks up where the run of its tag starts, by halvings without a branch, and goes along its routers and both runs at once. Unused
//! keys are above all others, so that halvings and walks may go past the end.

use super::{all_places, levels, Table};
use crate::answer::{self, Circuit, CIRCUIT_WORDS};
use crate::octets::{self, Number, MAX_CIRCUITS, MAX_ROUTES};

pub struct Circuits {
    v4: Keys<u64>,
    v6: Keys<Wide>,
}

/// Rising keys. Those past the most that there may be are never used: from every place on there are as many keys as a table may have routers.
struct Keys<K> {
    count: usize,
    keys: [K; MAX_CIRCUITS + MAX_ROUTES],
}

trait Key: Copy + Ord {
    type Number: Copy;
    const UNUSED: Self;

    fn new(tag: u32, number: Self::Number) -> Self;

    fn has_tag_below(self, tag: u32) -> bool;
}

impl Key for u64 {
    type Number = u32;
    const UNUSED: u64 = u64::MAX;

    #[inline(always)]
    fn new(tag: u32, number: u32) -> u64 {
        u64::from(tag) << 32 | u64::from(number)
    }

    #[inline(always)]
    fn has_tag_below(self, tag: u32) -> bool {
        self < u64::from(tag) << 32
    }
}

/// The key of an IPv6 route. The order is that of the fields.
#[derive(Clone, Copy, PartialEq, Eq, PartialOrd, Ord)]
struct Wide {
    tag: u32,
    number: u128,
}

impl Key for Wide {
    type Number = u128;
    const UNUSED: Wide = Wide {
        tag: u32::MAX,
        number: u128::MAX,
    };

    #[inline(always)]
    fn new(tag: u32, number: u128) -> Wide {
        Wide { tag, number }
    }

    #[inline(always)]
    fn has_tag_below(self, tag: u32) -> bool {
        self.tag < tag
    }
}

impl<K: Key> Keys<K> {
    const EMPTY: Keys<K> = Keys {
        count: 0,
        keys: [K::UNUSED; MAX_CIRCUITS + MAX_ROUTES],
    };

    fn live(&self) -> &[K] {
        &self.keys[..self.count]
    }

    /// The first place whose key is not below.
    #[inline(always)]
    fn after_all(&self, is_below: impl Fn(K) -> bool) -> usize {
        match levels(self.count) {
            0 => 0,
            1 => self.halved::<1>(is_below),
            2 => self.halved::<2>(is_below),
            3 => self.halved::<3>(is_below),
            4 => self.halved::<4>(is_below),
            5 => self.halved::<5>(is_below),
            6 => self.halved::<6>(is_below),
            7 => self.halved::<7>(is_below),
            8 => self.halved::<8>(is_below),
            _ => self.halved::<9>(is_below),
        }
    }

    /// The same among 2^L - 1 places, by L halvings.
    #[inline(always)]
    fn halved<const L: u32>(&self, is_below: impl Fn(K) -> bool) -> usize {
        let mut place = 0;
        for n in (0..L).rev() {
            let step = 1 << n;
            let last = (place + step - 1).min(MAX_CIRCUITS);
            place += step * usize::from(is_below(self.keys[last]));
        }
        place
    }

    /// Puts a key in its place, if it is there or there is room for a new one.
    #[inline]
    fn put(&mut self, key: K, is_full: bool) -> u8 {
        let place = self.after_all(|one| one < key);
        if self.keys[place] == key {
            return 0;
        }
        if is_full {
            return 8;
        }
        self.keys.copy_within(place..self.count, place + 1);
        self.keys[place] = key;
        self.count += 1;
        0
    }

    #[inline]
    fn remove(&mut self, key: K) -> u8 {
        let place = self.after_all(|one| one < key);
        if self.keys[place] != key {
            return 9;
        }
        self.keys.copy_within(place + 1..self.count, place);
        self.count -= 1;
        self.keys[self.count] = K::UNUSED;
        0
    }

    /// The set of the places of those rising routers that have both keys. Routers that stand first in both runs are taken together, and from the first
    /// one on that does not, one by one.
    #[inline(always)]
    fn ready_set(&self, routers: &[K::Number], tag: u32) -> u64 {
        let start = self.after_all(|key| key.has_tag_below(tag));
        let segments = &self.keys[..MAX_ROUTES];
        let instances = &self.keys[start..start + MAX_ROUTES];
        let both = routers.iter().zip(segments).zip(instances);
        let together = both
            .take_while(|((number, segment), instance)| {
                **segment == K::new(0, **number) && **instance == K::new(tag, **number)
            })
            .count();
        if together == routers.len() {
            return all_places(together);
        }
        all_places(together) | self.one_by_one(routers, tag, together, start + together)
    }

    /// The same of the routers from a place on. Their keys are not before that place, or before `start` if they are of the tag.
    #[inline(never)]
    fn one_by_one(&self, routers: &[K::Number], tag: u32, from: usize, start: usize) -> u64 {
        let (mut segment, mut instance) = (from, start);
        let mut set = 0;
        for (place, number) in routers.iter().enumerate().skip(from) {
            let [per_segment, per_instance] = [0, tag].map(|tag| K::new(tag, *number));
            while self.keys[segment] < per_segment {
                segment += 1;
            }
            while self.keys[instance] < per_instance {
                instance += 1;
            }
            let is_ready = self.keys[segment] == per_segment && self.keys[instance] == per_instance;
            set |= u64::from(is_ready) << place;
        }
        set
    }
}

impl Circuits {
    /// The routes as rows of words, in rising order.
    pub fn rows(&self) -> Vec<[u32; CIRCUIT_WORDS]> {
        let fours = self.v4.live().iter().map(|key| {
            let (tag, number) = ((key >> 32) as u32, *key as u32);
            octets::circuit_row(tag, Number::V4(number))
        });
        let sixes = self.v6.live().iter();
        let sixes = sixes.map(|key| octets::circuit_row(key.tag, Number::V6(key.number)));
        let mut rows: Vec<_> = fours.chain(sixes).collect();
        rows.sort();
        rows
    }

    fn is_full(&self) -> bool {
        self.v4.count + self.v6.count >= MAX_CIRCUITS
    }

    /// The set of the places of a table's routers that are ready for a tag.
    #[inline(never)]
    pub(super) fn ready_set(&self, table: &Table, tag: u32) -> u64 {
        let fours = &table.v4.numbers[..table.v4.count.min(MAX_ROUTES)];
        let mut set = 0;
        if !fours.is_empty() {
            set = self.v4.ready_set(fours, tag);
        }
        if table.v6.count != 0 {
            let sixes = &table.v6.numbers[..table.v6.count.min(MAX_ROUTES)];
            set |= self.v6.ready_set(sixes, tag) << table.v4.count;
        }
        set
    }
}

impl answer::Circuits for Circuits {
    fn empty() -> Circuits {
        Circuits {
            v4: Keys::EMPTY,
            v6: Keys::EMPTY,
        }
    }

    #[inline]
    fn fresh(&mut self) {
        self.v4 = Keys::EMPTY;
        self.v6 = Keys::EMPTY;
    }

    #[inline]
    fn announce(&mut self, route: Circuit) -> u8 {
        let is_full = self.is_full();
        match octets::check_circuit(route) {
            Ok((tag, Number::V4(number))) => self.v4.put(Key::new(tag, number), is_full),
            Ok((tag, Number::V6(number))) => self.v6.put(Key::new(tag, number), is_full),
            Err(refused) => refused,
        }
    }

    #[inline]
    fn withdraw(&mut self, route: Circuit) -> u8 {
        match octets::check_circuit(route) {
            Ok((tag, Number::V4(number))) => self.v4.remove(Key::new(tag, number)),
            Ok((tag, Number::V6(number))) => self.v6.remove(Key::new(tag, number)),
            Err(refused) => refused,
        }
    }
}
