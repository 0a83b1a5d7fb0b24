//! The second in line: one walk over all nodes keeps the two best of the eligible.

use super::{preferred, Key, List, Route};
use crate::answer::Backup;
use crate::octets::{self, Flow};

/// The two best routes of those that a walk has met, with what they are compared by.
struct Two<'a, S> {
    best: Option<(S, &'a Route)>,
    second: Option<(S, &'a Route)>,
}

impl<'a, S: Copy> Two<'a, S> {
    const NONE: Two<'a, S> = Two {
        best: None,
        second: None,
    };

    /// Keeps a route that is above one of the two, which have lower addresses.
    #[inline(always)]
    fn meet(&mut self, score: S, route: &'a Route, above: impl Fn(S, S) -> bool) {
        if self.second.is_some_and(|(second, _)| !above(score, second)) {
            return;
        }
        let met = Some((score, route));
        if self.best.is_some_and(|(best, _)| !above(score, best)) {
            self.second = met;
        } else {
            self.second = self.best;
            self.best = met;
        }
    }

    /// The route that is second in line, where two or more were met.
    fn second_route(&self) -> Option<&'a Route> {
        self.second.map(|(_, route)| route)
    }
}

impl List {
    /// The backup for a tag that is not reserved. With AC-DF what says who is ready is asked for, and then about one route after the other.
    #[inline(always)]
    pub(super) fn backup<F: FnMut(&Key) -> bool>(
        &self,
        tag: u32,
        ready: impl FnOnce() -> F,
    ) -> Backup {
        let Some(first) = self.routes.items().next() else {
            return Backup::refused(12);
        };
        let first = first.election;
        let algorithm = match self.flow_algorithms.in_use(first.algorithm, Flow::NONE) {
            None | Some(0) => return Backup::refused(15),
            Some(algorithm @ (2 | 3)) if !self.ranges.is_empty() => {
                self.ranges.overriding(algorithm, tag)
            }
            Some(algorithm) => algorithm,
        };
        let is_ready = first.ac_df.then(ready);
        let (agreed, second) = if algorithm == 1 {
            let digest = octets::digest(tag, &self.esi);
            let mut two = Two::NONE;
            let (agreed, _) = self.walk(first, is_ready, |route| {
                let weight = octets::weight(route.key.address().low_word(), digest);
                two.meet(weight, route, |one, other| one > other);
            });
            (agreed, two.second_route())
        } else {
            let lowest = algorithm == 3;
            let mut two = Two::NONE;
            let (agreed, _) = self.walk(first, is_ready, |route| {
                two.meet(&route.election, route, |one, other| {
                    preferred(lowest, one, other)
                });
            });
            (agreed, two.second_route())
        };
        match second {
            _ if !agreed => Backup::refused(15),
            None => Backup::refused(12),
            Some(route) => {
                let (family, address) = route.key.address().answered();
                Backup {
                    number: 0,
                    family,
                    address,
                }
            }
        }
    }
}
