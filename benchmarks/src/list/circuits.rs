//! The Ethernet A-D routes of baseline (b), as routing daemons keep them: a list of the per-segment routes, and a list of tags, each with a list of its
//! per-instance routes. All rise, so that an election walks the routers of its table, the per-segment routes and those of the tag side by side.

use super::chain::{Chain, Node, Walk};
use super::Key;
use crate::answer::{self, Circuit, CIRCUIT_WORDS};
use crate::octets::{self, Number, MAX_CIRCUITS};

pub struct Circuits {
    count: usize,
    segments: Chain<Key>,
    /// None of them is without routes.
    tags: Chain<Instances>,
}

/// The per-instance routes of a tag.
struct Instances {
    tag: u32,
    routers: Chain<Key>,
}

/// The first node whose address is not below the one sought, or null.
#[inline]
fn at_or_after(routers: &Chain<Key>, address: Number) -> *mut Node<Key> {
    match address {
        Number::V4(number) => routers.after_all(|one| one.v4 < number.into()),
        Number::V6(number) => routers.after_all(|one| one.v6 < number),
    }
}

/// Whether a walk comes to an address, by one of its two numbers. It is asked about rising ones, and goes on behind one that it comes to.
#[inline(always)]
fn comes_to<N: Ord>(walk: &mut Walk<Key>, number: N, of: impl Fn(&Key) -> N) -> bool {
    match walk.past(|one| of(one) < number) {
        Some(one) if of(one) == number => walk.next().is_some(),
        _ => false,
    }
}

/// A route of an address, if there is none yet and room for one.
#[inline]
fn put(routers: &mut Chain<Key>, address: Number, count: &mut usize) -> u8 {
    let node = at_or_after(routers, address);
    if routers.item(node).is_some_and(|one| one.is(address)) {
        return 0;
    }
    if *count >= MAX_CIRCUITS {
        return 8;
    }
    routers.link_before(node, Key::of(address));
    *count += 1;
    0
}

#[inline]
fn take(routers: &mut Chain<Key>, address: Number, count: &mut usize) -> u8 {
    let node = at_or_after(routers, address);
    if !routers.item(node).is_some_and(|one| one.is(address)) {
        return 9;
    }
    routers.unlink(node);
    *count -= 1;
    0
}

impl Circuits {
    /// The routes as rows of words, in rising order.
    pub fn rows(&self) -> Vec<[u32; CIRCUIT_WORDS]> {
        let mut rows = Vec::new();
        let mut push = |tag, routers: &Chain<Key>| {
            let own = routers.items().map(|key| key.address());
            rows.extend(own.map(|address| octets::circuit_row(tag, address)));
        };
        push(0, &self.segments);
        for one in self.tags.items() {
            push(one.tag, &one.routers);
        }
        rows
    }

    /// What says whether a router is ready for a tag, asked about rising addresses.
    #[inline(always)]
    pub(super) fn is_ready(&self, tag: u32) -> impl FnMut(&Key) -> bool + '_ {
        let mut segments = self.segments.items();
        let mut instances = match self.tags.items().past(|one| one.tag < tag) {
            Some(one) if one.tag == tag => one.routers.items(),
            _ => Walk::ended(),
        };
        move |key| match key.address() {
            Number::V4(_) => {
                comes_to(&mut segments, key.v4, |one| one.v4)
                    && comes_to(&mut instances, key.v4, |one| one.v4)
            }
            Number::V6(_) => {
                comes_to(&mut segments, key.v6, |one| one.v6)
                    && comes_to(&mut instances, key.v6, |one| one.v6)
            }
        }
    }
}

impl answer::Circuits for Circuits {
    fn empty() -> Circuits {
        Circuits {
            count: 0,
            segments: Chain::new(),
            tags: Chain::new(),
        }
    }

    #[inline]
    fn fresh(&mut self) {
        *self = Circuits::empty();
    }

    #[inline]
    fn announce(&mut self, route: Circuit) -> u8 {
        let (tag, address) = match octets::check_circuit(route) {
            Ok(checked) => checked,
            Err(refused) => return refused,
        };
        if tag == 0 {
            return put(&mut self.segments, address, &mut self.count);
        }
        let node = self.tags.after_all(|one| one.tag < tag);
        if let Some(one) = self.tags.item(node).filter(|one| one.tag == tag) {
            return put(&mut one.routers, address, &mut self.count);
        }
        let mut routers = Chain::new();
        let number = put(&mut routers, address, &mut self.count);
        if number == 0 {
            self.tags.link_before(node, Instances { tag, routers });
        }
        number
    }

    #[inline]
    fn withdraw(&mut self, route: Circuit) -> u8 {
        let (tag, address) = match octets::check_circuit(route) {
            Ok(checked) => checked,
            Err(refused) => return refused,
        };
        if tag == 0 {
            return take(&mut self.segments, address, &mut self.count);
        }
        let node = self.tags.after_all(|one| one.tag < tag);
        let Some(one) = self.tags.item(node).filter(|one| one.tag == tag) else {
            return 9;
        };
        let number = take(&mut one.routers, address, &mut self.count);
        if one.routers.count() == 0 {
            self.tags.unlink(node);
        }
        number
    }
}
