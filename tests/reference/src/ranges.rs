//! Ranges of Ethernet Tags for which the operator overrides Highest-Preference or
//! Lowest-Preference. Document 02, M-109; they come from RFC 9785, section 4.2.

use crate::community::{uses_preference, HIGHEST_PREFERENCE, LOWEST_PREFERENCE};
use crate::election::is_reserved;
use crate::refusal::Refusal;

pub const MAX_RANGES: usize = 16;
/// The numbers that a range is handed in as: its first tag, its last tag, and 2 or 3.
pub const RANGE_NUMBERS: usize = 3;

/// All tags from the first to the last, both among them, and the algorithm that they get.
#[derive(Clone, Copy, Debug, PartialEq, Eq)]
pub struct Range {
    pub first: u32,
    pub last: u32,
    pub algorithm: u8,
}

impl Range {
    /// A range that runs backwards, that names a reserved tag or that says neither Highest nor
    /// Lowest is 20.
    fn of(first: u32, last: u32, says: u32) -> Result<Range, Refusal> {
        let algorithm = [HIGHEST_PREFERENCE, LOWEST_PREFERENCE]
            .into_iter()
            .find(|algorithm| u32::from(*algorithm) == says)
            .ok_or(Refusal::Ranges)?;
        if first > last || is_reserved(first) || is_reserved(last) {
            return Err(Refusal::Ranges);
        }
        Ok(Range {
            first,
            last,
            algorithm,
        })
    }

    pub fn contains(self, tag: u32) -> bool {
        (self.first..=self.last).contains(&tag)
    }

    /// Whether a tag lies in both: from the greater first to the lesser last there is one.
    fn overlaps(self, other: Range) -> bool {
        self.first.max(other.first) <= self.last.min(other.last)
    }
}

/// The ranges that are set, in the order in which they were handed in. At first there are none.
#[derive(Clone, Debug, Default, PartialEq, Eq)]
pub struct Ranges {
    ranges: Vec<Range>,
}

impl Ranges {
    /// The ranges that a run of numbers says. One that is no whole number of ranges, that says more
    /// than 16, one that is wrong by itself, or two that overlap: 20.
    pub fn of(run: &[u32]) -> Result<Ranges, Refusal> {
        let rows = run.chunks_exact(RANGE_NUMBERS);
        if !rows.remainder().is_empty() || rows.len() > MAX_RANGES {
            return Err(Refusal::Ranges);
        }
        let mut ranges: Vec<Range> = Vec::new();
        for row in rows {
            let range = Range::of(row[0], row[1], row[2])?;
            if ranges.iter().any(|other| other.overlaps(range)) {
                return Err(Refusal::Ranges);
            }
            ranges.push(range);
        }
        Ok(Ranges { ranges })
    }

    pub fn as_slice(&self) -> &[Range] {
        &self.ranges
    }

    pub fn is_empty(&self) -> bool {
        self.ranges.is_empty()
    }

    /// What a tag gets where an algorithm is in use. Under 2 or 3 a tag inside a range gets what
    /// the range names; no other algorithm is overridden.
    pub fn overriding(&self, in_use: u8, tag: u32) -> u8 {
        if !uses_preference(in_use) {
            return in_use;
        }
        let inside = self.ranges.iter().find(|range| range.contains(tag));
        inside.map_or(in_use, |range| range.algorithm)
    }
}
