//! The routes of one segment, in rising address order, and what the operator set beside them: the
//! algorithm numbers for elections by flow, and ranges of tags. Document 01, "The table"; document
//! 02, M-105 (addresses of both families), M-106 (the numbers) and M-109 (the ranges).

use crate::address::Address;
use crate::community;
use crate::esi::{self, Esi, ESI_LENGTH};
use crate::flows::FlowAlgorithms;
use crate::ranges::Ranges;
use crate::refusal::Refusal;
use crate::route;

pub const MAX_ROUTES: usize = 64;

/// One router: its address and what its community said.
#[derive(Clone, Copy, Debug, PartialEq, Eq)]
pub struct Entry {
    pub address: Address,
    pub algorithm: u8,
    pub ac_df: bool,
    pub dp: bool,
    pub preference: u16,
}

/// The table. Only the calls below make one, so its order can be relied on.
#[derive(Clone, Debug, PartialEq, Eq)]
pub struct Table {
    esi: Esi,
    entries: Vec<Entry>,
    flow_algorithms: Option<FlowAlgorithms>,
    ranges: Ranges,
}

impl Table {
    /// A fresh table, with no numbers and no ranges set. For a reserved identifier: 4, with an empty
    /// table of the all-zero one.
    pub fn fresh(esi: &[u8]) -> (Result<(), Refusal>, Table) {
        match esi::usable(esi) {
            Ok(esi) => (Ok(()), Table::empty(esi)),
            Err(refusal) => (Err(refusal), Table::empty([0; ESI_LENGTH])),
        }
    }

    fn empty(esi: Esi) -> Table {
        Table {
            esi,
            entries: Vec::new(),
            flow_algorithms: None,
            ranges: Ranges::default(),
        }
    }

    pub fn esi(&self) -> &Esi {
        &self.esi
    }

    pub fn entries(&self) -> &[Entry] {
        &self.entries
    }

    /// The numbers that were set last, if any were.
    pub fn flow_algorithms(&self) -> Option<FlowAlgorithms> {
        self.flow_algorithms
    }

    /// Sets the algorithm numbers for (S,G) and for (*,G). Others than two different ones from 4 to
    /// 30, 15; then the old ones are kept.
    pub fn set_flow_algorithms(&mut self, source_group: u8, any_source: u8) -> Result<(), Refusal> {
        self.flow_algorithms = Some(FlowAlgorithms::of(source_group, any_source)?);
        Ok(())
    }

    /// The ranges that were set last.
    pub fn ranges(&self) -> &Ranges {
        &self.ranges
    }

    /// Sets the ranges of tags in place of all old ones, from a run of numbers, three a range. A
    /// run that says no good ranges, 20; then the old ones are kept.
    pub fn set_ranges(&mut self, run: &[u32]) -> Result<(), Refusal> {
        self.ranges = Ranges::of(run)?;
        Ok(())
    }

    /// Where the address stands, or the place where it would go.
    fn place(&self, address: Address) -> Result<usize, usize> {
        self.entries
            .binary_search_by_key(&address, |entry| entry.address)
    }

    /// An announcement. The route's checks; another identifier, 5; list length, 7; address new
    /// and 64 present, 8. An address already present has its entry replaced.
    pub fn announce(&mut self, octets: &[u8], communities: &[u8]) -> Result<(), Refusal> {
        let route = route::read(octets)?;
        if route.esi != self.esi {
            return Err(Refusal::OtherSegment);
        }
        let community = community::read_list(communities)?;
        let entry = Entry {
            address: route.originator,
            algorithm: community.algorithm,
            ac_df: community.ac_df,
            dp: community.dp,
            preference: community.preference,
        };
        match self.place(entry.address) {
            Ok(place) => self.entries[place] = entry,
            Err(_) if self.entries.len() >= MAX_ROUTES => return Err(Refusal::TableFull),
            Err(place) => self.entries.insert(place, entry),
        }
        Ok(())
    }

    /// A withdrawal. Address zero, 6; address not present, 9.
    pub fn withdraw(&mut self, address: Address) -> Result<(), Refusal> {
        if address.is_zero() {
            return Err(Refusal::ZeroAddress);
        }
        let place = self.place(address).map_err(|_| Refusal::NotPresent)?;
        self.entries.remove(place);
        Ok(())
    }
}
