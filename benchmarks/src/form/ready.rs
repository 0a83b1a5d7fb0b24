//! The set of the places whose address is on a ready list, a run of rows as the table has them. The first look for an address is at the place behind the one
//! where the address before it was found, or at the place where that one would stand, but never behind the last route. As long as the list has
//! the table's rows from the first on, they are compared side by side.

use super::rows::{self, pair, word, Found, Four, Key, Lies, Look, Six};
use super::{place_of, sets, Table};
use crate::answer::ROW_WORDS;

impl Table {
    /// The set of the places whose address is on the ready list. A list that rises as the table does is done when the rows from the first on have been compared.
    #[inline(always)]
    pub(super) fn ready_set(&self, ready: &[u32]) -> u64 {
        let n = self.count();
        let words = self.addresses.as_flattened();
        let whole = ready.len().saturating_sub(ROW_WORDS - 1);
        let run = side_by_side(ready, words, whole.min(n * ROW_WORDS));
        if run + ROW_WORDS > ready.len() {
            return sets::below(run / ROW_WORDS);
        }
        self.ready_behind(n, ready, run)
    }

    /// The same where so many words of the list are those of the table.
    #[inline(never)]
    fn ready_behind(&self, n: usize, ready: &[u32], run: usize) -> u64 {
        match rows::shape(n) {
            0 if n == 0 => 0,
            0 => self.ready_among::<0, true>(n, ready, run),
            2 => self.ready_among::<1, true>(n, ready, run),
            3 => self.ready_among::<1, false>(n, ready, run),
            4 => self.ready_among::<2, true>(n, ready, run),
            5 => self.ready_among::<2, false>(n, ready, run),
            6 => self.ready_among::<3, true>(n, ready, run),
            7 => self.ready_among::<3, false>(n, ready, run),
            8 => self.ready_among::<4, true>(n, ready, run),
            9 => self.ready_among::<4, false>(n, ready, run),
            10 => self.ready_among::<5, true>(n, ready, run),
            11 => self.ready_among::<5, false>(n, ready, run),
            _ => self.ready_among::<6, true>(n, ready, run),
        }
    }

    /// The same among 2^L routes, or more, but not twice as many.
    #[inline(never)]
    fn ready_among<const L: u32, const EXACT: bool>(
        &self,
        n: usize,
        ready: &[u32],
        run: usize,
    ) -> u64 {
        let words = self.addresses.as_flattened();
        let last = (n - 1) * ROW_WORDS;
        // a row that starts before this word is whole
        let end = ready.len() - (ROW_WORDS - 1);
        let (mut set, mut first, mut at) = (sets::below(run / ROW_WORDS), run.min(last), run);
        while at < end {
            let found = match word(ready, at) {
                4 => after_first::<L, EXACT>(words, n, first, Four::new(word(ready, at + 1))),
                6 => {
                    let address = [1, 2, 3, 4].map(|behind| word(ready, at + behind));
                    after_first::<L, EXACT>(words, n, first, Six::new(address))
                }
                _ => {
                    at += ROW_WORDS;
                    continue;
                }
            };
            at += ROW_WORDS;
            first = match found {
                Ok(place) => {
                    set |= 1 << place_of(place);
                    (place + ROW_WORDS).min(last)
                }
                Err(place) => place.min(last),
            };
        }
        set
    }
}

/// How many words of rows of a ready list are those of the table's rows; of both, rows start within so many words.
#[inline(always)]
fn side_by_side(ready: &[u32], words: &[u32], left: usize) -> usize {
    let mut at = 0;
    while at < left {
        let head = pair(ready, at);
        if head != pair(words, at) {
            return at;
        }
        if head as u32 != 4
            && (pair(ready, at + 2) != pair(words, at + 2)
                || word(ready, at + 4) != word(words, at + 4))
        {
            return at;
        }
        at += ROW_WORDS;
    }
    at
}

/// Looks a row up among n, at the word `first` before all others. Of 2^L rows this look leaves 2^L - 1 at most; of more all are searched, which are fewer than
/// the most that there may be.
#[inline(always)]
fn after_first<const L: u32, const EXACT: bool>(
    words: &[u32],
    n: usize,
    first: usize,
    key: impl Key<ROW_WORDS>,
) -> Found {
    let less = match key.look(Lies::at(words, first)) {
        Look::Last { row, key } if row == key => return Ok(first),
        Look::Last { row, key } => row < key,
        Look::Differ { less } => less,
    };
    if !EXACT {
        return rows::among::<L, ROW_WORDS>(words, n, key);
    }
    let start = if less { ROW_WORDS } else { 0 };
    rows::halved::<L, ROW_WORDS>(words, start, key)
}
