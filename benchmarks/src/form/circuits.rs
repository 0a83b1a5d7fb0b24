//! The Ethernet A-D routes in the named form: rows of seven words, the kind, the tag and the row of an address, in rising order in one array. An election looks up
//! where the per-instance routes of its tag start; from there on, as from the first per-segment route on, the routes of all routers lie side by side where all are
//! ready. Whether all these rows are of the kind and the tag is told by the last one, since rows rise; then only addresses are compared. From the first router on
//! that has no route there, the two routes of each are looked for one by one.

use super::rows::{
    self, joined, pair, word, Behind, Found, Four, Key, Lies, Look, Row, Six, Start,
};
use super::{fours, sets};
use crate::answer::{self, Circuit, CIRCUIT_WORDS, ROW_WORDS};
use crate::octets::{self, Number, MAX_CIRCUITS};

/// The kind and the tag of a per-segment route as a pair of words.
const SEGMENT: u64 = 1;
/// The words of a kind and a tag.
const HEAD: usize = 2;

#[repr(C)]
pub struct Circuits {
    rows: [[u32; CIRCUIT_WORDS]; MAX_CIRCUITS],
    count: u32,
}

/// The kind and the tag of a per-instance route as a pair of words.
#[inline(always)]
fn instance(tag: u32) -> u64 {
    joined(2, tag)
}

/// Where the next look is: after a row that was found, or where it would stand.
#[inline(always)]
fn next(found: Found) -> usize {
    match found {
        Ok(at) => at + CIRCUIT_WORDS,
        Err(at) => at,
    }
}

impl Circuits {
    /// All its words.
    pub fn words(&self) -> Vec<u32> {
        [self.rows.as_flattened(), &[self.count]].concat()
    }

    #[inline(always)]
    fn count(&self) -> usize {
        self.count as usize
    }

    #[inline(always)]
    fn search(&self, key: impl Key<CIRCUIT_WORDS>) -> Found {
        rows::search::<MAX_CIRCUITS, CIRCUIT_WORDS>(self.rows.as_flattened(), self.count(), key)
    }

    /// Looks for a row, at the word `first` before all others.
    #[inline(always)]
    fn look(&self, first: usize, key: impl Key<CIRCUIT_WORDS>) -> Found {
        if first < self.count() * CIRCUIT_WORDS {
            match key.look(Lies::at(self.rows.as_flattened(), first)) {
                Look::Last { row, key } if row == key => return Ok(first),
                _ => {}
            }
        }
        self.search(key)
    }

    /// The same for the route of a router with a kind and a tag.
    #[inline(never)]
    fn look_for(&self, first: usize, head: u64, router: &[u32; ROW_WORDS]) -> Found {
        match *router {
            [4, number, ..] => {
                let key = Four::new(number);
                self.look(first, Behind { head, key })
            }
            [_, a, b, c, d] => {
                let key = Six::new([a, b, c, d]);
                self.look(first, Behind { head, key })
            }
        }
    }

    /// The set of the places of those rising routers, which are not none, that are ready for a tag.
    #[inline(never)]
    pub(super) fn ready_set(&self, routers: &[[u32; ROW_WORDS]], tag: u32) -> u64 {
        let (Ok(start) | Err(start)) = self.search(Start(instance(tag)));
        let together = self.together(routers, tag, start);
        if together == routers.len() {
            return sets::below(together);
        }
        sets::below(together) | self.one_by_one(routers, tag, together, start)
    }

    /// How many routers have both routes side by side with those before them, the per-instance ones from the word `start` on.
    #[inline(always)]
    fn together(&self, routers: &[[u32; ROW_WORDS]], tag: u32, start: usize) -> usize {
        let words = self.rows.as_flattened();
        let last = (routers.len() - 1) * CIRCUIT_WORDS;
        if start + last >= self.count() * CIRCUIT_WORDS
            || pair(words, last) != SEGMENT
            || pair(words, start + last) != instance(tag)
        {
            return 0;
        }
        if routers[routers.len() - 1][0] != 4 {
            return self.together_of_both(routers, start);
        }
        self.together_of_four(routers, start)
    }

    /// The same of routers that have IPv4 addresses, where the rows are known to be of the kind and the tag.
    #[inline(always)]
    fn together_of_four(&self, routers: &[[u32; ROW_WORDS]], start: usize) -> usize {
        let (words, addresses) = (self.rows.as_flattened(), routers.as_flattened());
        let (mut at, mut row) = (0, HEAD);
        for place in 0..routers.len() {
            let head = pair(addresses, at);
            if head != pair(words, row) || head != pair(words, start + row) {
                return place;
            }
            (at, row) = (at + ROW_WORDS, row + CIRCUIT_WORDS);
        }
        routers.len()
    }

    /// The same of routers of which some have IPv6 addresses.
    #[inline(never)]
    fn together_of_both(&self, routers: &[[u32; ROW_WORDS]], start: usize) -> usize {
        let (words, addresses) = (self.rows.as_flattened(), routers.as_flattened());
        let fours = fours(routers);
        let together = self.together_of_four(&routers[..fours], start);
        if together < fours {
            return together;
        }
        let (mut at, mut row) = (fours * ROW_WORDS, HEAD + fours * CIRCUIT_WORDS);
        for place in fours..routers.len() {
            if !same(addresses, at, words, row) || !same(addresses, at, words, start + row) {
                return place;
            }
            (at, row) = (at + ROW_WORDS, row + CIRCUIT_WORDS);
        }
        routers.len()
    }

    /// The set of the places of those routers, from a place on, that are ready. Those before it stand side by side in both runs.
    #[inline(never)]
    fn one_by_one(&self, routers: &[[u32; ROW_WORDS]], tag: u32, from: usize, start: usize) -> u64 {
        let (mut segment, mut instances) = (from * CIRCUIT_WORDS, start + from * CIRCUIT_WORDS);
        let mut set = 0;
        for (place, router) in routers.iter().enumerate().skip(from) {
            let per_segment = self.look_for(segment, SEGMENT, router);
            let per_instance = self.look_for(instances, instance(tag), router);
            (segment, instances) = (next(per_segment), next(per_instance));
            set |= u64::from(per_segment.is_ok() && per_instance.is_ok()) << place;
        }
        set
    }

    fn put(&mut self, key: impl Row<CIRCUIT_WORDS>) -> u8 {
        let n = self.count();
        match self.search(key) {
            Ok(_) => return 0,
            Err(_) if n >= MAX_CIRCUITS => return 8,
            Err(at) => rows::insert(&mut self.rows, n, at / CIRCUIT_WORDS, key.row()),
        }
        self.count += 1;
        0
    }

    fn remove(&mut self, key: impl Key<CIRCUIT_WORDS>) -> u8 {
        let Ok(at) = self.search(key) else {
            return 9;
        };
        let unused = [0; CIRCUIT_WORDS];
        rows::remove(
            &mut self.rows,
            self.count as usize,
            at / CIRCUIT_WORDS,
            unused,
        );
        self.count -= 1;
        0
    }
}

/// Whether the rows of two addresses are the same.
#[inline(always)]
fn same(one: &[u32], at: usize, other: &[u32], row: usize) -> bool {
    pair(one, at) == pair(other, row)
        && pair(one, at + 2) == pair(other, row + 2)
        && word(one, at + 4) == word(other, row + 4)
}

/// The kind and the tag of a route, by the tag that it is kept by, 0 for a per-segment one.
fn head_of(tag: u32) -> u64 {
    match tag {
        0 => SEGMENT,
        _ => instance(tag),
    }
}

impl answer::Circuits for Circuits {
    fn empty() -> Circuits {
        Circuits {
            rows: [[0; CIRCUIT_WORDS]; MAX_CIRCUITS],
            count: 0,
        }
    }

    #[inline]
    fn fresh(&mut self) {
        *self = Self::empty();
    }

    #[inline]
    fn announce(&mut self, route: Circuit) -> u8 {
        match octets::check_circuit(route) {
            Ok((tag, Number::V4(number))) => self.put(Behind {
                head: head_of(tag),
                key: Four::new(number),
            }),
            Ok((tag, number)) => self.put(Behind {
                head: head_of(tag),
                key: Six::new(number.answered().1),
            }),
            Err(refused) => refused,
        }
    }

    #[inline]
    fn withdraw(&mut self, route: Circuit) -> u8 {
        match octets::check_circuit(route) {
            Ok((tag, Number::V4(number))) => self.remove(Behind {
                head: head_of(tag),
                key: Four::new(number),
            }),
            Ok((tag, number)) => self.remove(Behind {
                head: head_of(tag),
                key: Six::new(number.answered().1),
            }),
            Err(refused) => refused,
        }
    }
}
