//! Sets of places as the bits of a number. Places are found by trailing zeros: one after the other in a set within the first eight places, and run by run in
//! others, a run being places of the set that lie side by side.

use crate::octets::MAX_ROUTES;
use std::ops::Range;

/// The greatest set whose places are walked one by one.
const FEW: u64 = 0xFF;

/// The places from 0 on, n of them.
#[inline(always)]
pub fn below(n: usize) -> u64 {
    if n == 0 {
        return 0;
    }
    u64::MAX >> ((MAX_ROUTES - n) % MAX_ROUTES)
}

/// The places of a set, the lowest first.
pub struct Places(pub u64);

impl Iterator for Places {
    type Item = usize;

    #[inline(always)]
    fn next(&mut self) -> Option<usize> {
        if self.0 == 0 {
            return None;
        }
        let place = self.0.trailing_zeros() as usize;
        self.0 &= self.0 - 1;
        Some(place)
    }
}

/// The runs of a set, the lowest first.
pub struct Runs(pub u64);

impl Iterator for Runs {
    type Item = Range<usize>;

    #[inline(always)]
    fn next(&mut self) -> Option<Range<usize>> {
        if self.0 == 0 {
            return None;
        }
        let from = self.0.trailing_zeros() as usize;
        let filled = self.0 | (self.0 - 1);
        self.0 = filled & filled.wrapping_add(1);
        Some(from..(!filled).trailing_zeros() as usize)
    }
}

/// The place in the set at k, counted from 0, of which there are more.
#[inline(always)]
pub fn nth(set: u64, k: u32) -> usize {
    let mut left = k as usize;
    for run in Runs(set) {
        if left < run.len() {
            return run.start + left;
        }
        left -= run.len();
    }
    MAX_ROUTES
}

/// The first place of a set, which is not empty, whose word has the greatest score of 17 bits. In a run the score above the place counted from the end fits
/// a word, and the greatest is taken.
#[inline(always)]
pub fn best(words: &[u32; MAX_ROUTES], set: u64, score: impl Fn(u32) -> u32) -> usize {
    if set <= FEW {
        return first_best(set, |place| score(words[place % MAX_ROUTES]));
    }
    let mut top = 0;
    for run in Runs(set) {
        let run = run.start..run.end.min(MAX_ROUTES);
        for (place, word) in run.clone().zip(&words[run]) {
            top = top.max((score(*word) << 6 | (63 - place as u32)) as i32);
        }
    }
    63 - (top & 63) as usize
}

/// The first place of a set, which is not empty, with the greatest score, by a walk over its places.
#[inline(always)]
pub fn first_best(set: u64, score: impl Fn(usize) -> u32) -> usize {
    let mut at = set.trailing_zeros() as usize;
    let mut top = score(at);
    for place in Places(set & (set - 1)) {
        let next = score(place);
        if next > top {
            (at, top) = (place, next);
        }
    }
    at
}

/// Whether places are walked run by run.
#[inline(always)]
pub fn by_runs(set: u64) -> bool {
    set > FEW
}
