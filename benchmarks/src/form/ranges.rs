//! The ranges of tags in words: how many there are and 16 rows of three, as they were handed in, and 17 rows once more in falling order, of which the last
//! is zero. A tag is looked up in these by five comparisons.

use crate::answer::RANGE_WORDS;
use crate::octets::{self, MAX_RANGES};

#[derive(Clone, Copy)]
#[repr(C)]
pub struct Ranges {
    count: u32,
    rows: [[u32; RANGE_WORDS]; MAX_RANGES],
    falling: [[u32; RANGE_WORDS]; MAX_RANGES + 1],
}

impl Ranges {
    pub const NONE: Ranges = Ranges {
        count: 0,
        rows: [[0; RANGE_WORDS]; MAX_RANGES],
        falling: [[0; RANGE_WORDS]; MAX_RANGES + 1],
    };

    #[inline(always)]
    pub fn is_empty(&self) -> bool {
        self.count == 0
    }

    /// Sets the ranges of a run of numbers; with others than it may have, 20, and the old ones are kept.
    pub fn set(&mut self, run: &[u32]) -> u8 {
        let rows = match octets::range_rows(run) {
            Ok(rows) => rows,
            Err(refused) => return refused,
        };
        if rows.iter().any(|row| octets::check_range(row).is_err()) {
            return 20;
        }
        let mut set = Ranges::NONE;
        set.count = rows.len() as u32;
        set.rows[..rows.len()].copy_from_slice(rows);
        let falling = &mut set.falling[..rows.len()];
        falling.copy_from_slice(rows);
        falling.sort_unstable_by(|one, other| other.cmp(one));
        if falling.windows(2).any(|two| two[1][1] >= two[0][0]) {
            return 20;
        }
        *self = set;
        0
    }

    /// The algorithm of a tag, which is not reserved, where 2 or 3 is in use.
    #[inline(always)]
    pub fn overriding(&self, algorithm: u8, tag: u32) -> u8 {
        if self.is_empty() {
            return algorithm;
        }
        let mut place = 0;
        for step in [8, 4, 2, 1, 1] {
            place += step * usize::from(tag < self.falling[place + step - 1][0]);
        }
        let [_, last, named] = self.falling[place];
        if tag <= last {
            named as u8
        } else {
            algorithm
        }
    }

    /// All its words.
    pub fn words(&self) -> Vec<u32> {
        let rows = self.rows.iter().chain(&self.falling);
        [self.count]
            .into_iter()
            .chain(rows.flatten().copied())
            .collect()
    }
}
