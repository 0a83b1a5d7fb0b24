//! The Ethernet A-D routes, who is ready by them, and the election over both tables. Document 02,
//! M-102; M-105 (addresses of both families).

use crate::address::Address;
use crate::election::{self, Election};
use crate::refusal::Refusal;
use crate::table::Table;

/// Of the two kinds together.
pub const MAX_CIRCUITS: usize = 256;

/// A route, by what tells it from the others. Routes go by kind, then by tag, then by address: the
/// order of the cases below, and then of their fields, is just that.
#[derive(Clone, Copy, Debug, PartialEq, Eq, PartialOrd, Ord)]
pub enum Circuit {
    PerSegment { address: Address },
    PerInstance { tag: u32, address: Address },
}

impl Circuit {
    /// Address zero, 6; then, of a per-instance route alone, a reserved tag, 10.
    fn check(self) -> Result<(), Refusal> {
        let (address, reserved) = match self {
            Circuit::PerSegment { address } => (address, false),
            Circuit::PerInstance { tag, address } => (address, election::is_reserved(tag)),
        };
        if address.is_zero() {
            return Err(Refusal::ZeroAddress);
        }
        if reserved {
            return Err(Refusal::ReservedTag);
        }
        Ok(())
    }
}

/// The table. Only the calls below make one, so its order can be relied on.
#[derive(Clone, Debug, PartialEq, Eq)]
pub struct Circuits {
    routes: Vec<Circuit>,
}

impl Circuits {
    /// A fresh table has no routes, and belongs to no identifier.
    pub fn fresh() -> Circuits {
        Circuits { routes: Vec::new() }
    }

    pub fn routes(&self) -> &[Circuit] {
        &self.routes
    }

    /// An announcement. The checks of what is handed in; a new route where 256 stand, 8. A route
    /// already present is accepted again.
    pub fn announce(&mut self, route: Circuit) -> Result<(), Refusal> {
        route.check()?;
        match self.routes.binary_search(&route) {
            Ok(_) => Ok(()),
            Err(_) if self.routes.len() >= MAX_CIRCUITS => Err(Refusal::TableFull),
            Err(place) => {
                self.routes.insert(place, route);
                Ok(())
            }
        }
    }

    /// A withdrawal. The checks of what is handed in; a route that does not stand, 9. No other
    /// route goes with it.
    pub fn withdraw(&mut self, route: Circuit) -> Result<(), Refusal> {
        route.check()?;
        let place = self.routes.binary_search(&route);
        self.routes.remove(place.map_err(|_| Refusal::NotPresent)?);
        Ok(())
    }

    fn has(&self, route: Circuit) -> bool {
        self.routes.binary_search(&route).is_ok()
    }

    /// A router is ready for a tag exactly if both its routes stand.
    pub fn is_ready(&self, address: Address, tag: u32) -> bool {
        self.has(Circuit::PerSegment { address }) && self.has(Circuit::PerInstance { tag, address })
    }
}

/// The routers of the route table that are ready for a tag. They are at most 64.
pub(crate) fn ready_routers(table: &Table, circuits: &Circuits, tag: u32) -> Vec<Address> {
    let routers = table.entries().iter().map(|entry| entry.address);
    routers
        .filter(|address| circuits.is_ready(*address, tag))
        .collect()
}

/// The election over both tables: document 01's, with the list of those routers of the route table
/// that are ready. So the list has at most 64 and 11 does not occur; the numbers and the ranges that
/// are set act as they do there.
pub fn elect(table: &Table, circuits: &Circuits, tag: u32) -> Result<Election, Refusal> {
    election::elect(table, tag, &ready_routers(table, circuits, tag))
}
