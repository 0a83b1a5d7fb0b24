//! The second in line: one loop over the candidates keeps the two best. A candidate that is not better than the second, as most are not, costs one comparison.

use super::{all_places, higher, lower, Table};
use crate::answer::Backup;
use crate::octets::{self, Flow, MAX_ROUTES};

/// The two best of the places met, in rising order, each with its score. A place that is not yet there has the score -1; all others are below 2^31.
struct Two {
    best: (i32, usize),
    second: (i32, usize),
}

impl Two {
    const NONE: Two = Two {
        best: (-1, 0),
        second: (-1, 0),
    };

    #[inline(always)]
    fn meet(&mut self, score: u32, place: usize) {
        let met = (score as i32, place);
        if met.0 > self.second.0 {
            self.second = met;
            if met.0 > self.best.0 {
                self.second = self.best;
                self.best = met;
            }
        }
    }

    /// Meets the items at the places of the set; a full set has all places. Their scores are asked for, and `from` is what their places are counted from.
    #[inline(always)]
    fn meet_all<N: Copy>(
        &mut self,
        (items, from): (&[N], usize),
        (set, full): (u64, bool),
        score: impl Fn(N) -> u32,
    ) {
        if full {
            for (place, item) in items.iter().enumerate() {
                self.meet(score(*item), from + place);
            }
            return;
        }
        let mut left = set;
        while left != 0 {
            let place = left.trailing_zeros() as usize;
            self.meet(score(items[place]), from + place);
            left &= left - 1;
        }
    }
}

impl Table {
    /// The backup for a tag that is not reserved. The set of those that are ready is asked for only with AC-DF in use.
    #[inline(always)]
    pub(super) fn backup(&self, tag: u32, ready_set: impl FnOnce() -> u64) -> Backup {
        let attributes = self.live();
        if attributes.is_empty() {
            return Backup::refused(12);
        }
        let (algorithm, ac_df) = self.in_use(tag, Flow::NONE);
        if algorithm == 0 {
            return Backup::refused(15);
        }
        let set = if ac_df {
            ready_set()
        } else {
            all_places(attributes.len())
        };
        let n = set.count_ones() as usize;
        if n < 2 {
            return Backup::refused(12);
        }
        let full = n == attributes.len();
        let mut two = Two::NONE;
        match algorithm {
            2 => two.meet_all((attributes, 0), (set, full), higher),
            3 => two.meet_all((attributes, 0), (set, full), lower),
            _ => self.weigh(&mut two, set, full, octets::digest(tag, &self.esi)),
        }
        let (family, address) = self.number_at(two.second.1).answered();
        Backup {
            number: 0,
            family,
            address,
        }
    }

    /// Meets the routes at the places of the set by their weights.
    #[inline(always)]
    fn weigh(&self, two: &mut Two, set: u64, full: bool, digest: u32) {
        let fours = &self.v4.numbers[..self.v4.count.min(MAX_ROUTES)];
        let sixes = &self.v6.numbers[..self.v6.count.min(MAX_ROUTES)];
        let low = set & all_places(fours.len());
        two.meet_all((fours, 0), (low, full), |number| {
            octets::weight(number, digest)
        });
        if !sixes.is_empty() {
            let high = (set & !low) >> (fours.len() % MAX_ROUTES);
            two.meet_all((sixes, fours.len()), (high, full), |number| {
                octets::weight(number as u32, digest)
            });
        }
    }
}
