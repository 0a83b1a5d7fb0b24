//! Elections by multicast flow: the algorithm numbers that the operator sets, and the queries for
//! (S,G) and (*,G). Document 02, M-106; source document 002 is where the two kinds come from.

use crate::address::{Address, V4_LENGTH, V6_LENGTH};
use crate::election::{self, Election, Ready};
use crate::esi::Esi;
use crate::hrw;
use crate::refusal::Refusal;
use crate::table::{Entry, Table};

const LEAST_NUMBER: u8 = 4;
const GREATEST_NUMBER: u8 = 30;

/// The algorithm numbers of the two kinds of election by flow.
#[derive(Clone, Copy, Debug, PartialEq, Eq)]
pub struct FlowAlgorithms {
    source_group: u8,
    any_source: u8,
}

impl FlowAlgorithms {
    /// Two different numbers from 4 to 30, the one for (S,G) and the one for (*,G); else 15.
    pub fn of(source_group: u8, any_source: u8) -> Result<FlowAlgorithms, Refusal> {
        let usable = LEAST_NUMBER..=GREATEST_NUMBER;
        if !usable.contains(&source_group) || !usable.contains(&any_source) {
            return Err(Refusal::Algorithm);
        }
        if source_group == any_source {
            return Err(Refusal::Algorithm);
        }
        Ok(FlowAlgorithms {
            source_group,
            any_source,
        })
    }

    /// The number for (S,G), then the number for (*,G).
    pub fn numbers(self) -> [u8; 2] {
        [self.source_group, self.any_source]
    }

    pub fn contains(self, algorithm: u8) -> bool {
        self.numbers().contains(&algorithm)
    }
}

/// A multicast flow, by the octets of its addresses: from one source to a group, or from any.
#[derive(Clone, Copy, Debug, PartialEq, Eq)]
pub enum Flow<'a> {
    SourceGroup { source: &'a [u8], group: &'a [u8] },
    AnySource { group: &'a [u8] },
}

impl Flow<'_> {
    /// S and G are both of 4 or both of 16 octets, a G alone is of 4 or 16; else 18.
    fn check(self) -> Result<(), Refusal> {
        let (one, other) = match self {
            Flow::SourceGroup { source, group } => (source.len(), group.len()),
            Flow::AnySource { group } => (group.len(), group.len()),
        };
        if one != other || (one != V4_LENGTH && one != V6_LENGTH) {
            return Err(Refusal::FlowLength);
        }
        Ok(())
    }

    /// The number that is set for this kind of flow.
    fn number(self, set: FlowAlgorithms) -> u8 {
        match self {
            Flow::SourceGroup { .. } => set.source_group,
            Flow::AnySource { .. } => set.any_source,
        }
    }

    /// What the digest of this flow starts with: S and then G, or G.
    fn octets(self) -> Vec<u8> {
        match self {
            Flow::SourceGroup { source, group } => [source, group].concat(),
            Flow::AnySource { group } => group.to_vec(),
        }
    }

    /// D: the digest over the octets of the flow, the tag and the identifier.
    pub fn digest(self, tag: u32, esi: &Esi) -> u32 {
        hrw::digest_over(&self.octets(), tag, esi)
    }
}

/// Elects for a flow and a tag. Reserved tag, 10; ready list over 64, 11; a length of S or G, 18;
/// no eligible router, 12.
pub fn elect(table: &Table, flow: Flow, tag: u32, ready: &[Address]) -> Result<Election, Refusal> {
    elect_listed(table, flow, tag, &Ready::of(ready))
}

/// The same with a ready list of rows of words.
pub fn elect_rows(table: &Table, flow: Flow, tag: u32, words: &[u32]) -> Result<Election, Refusal> {
    elect_listed(table, flow, tag, &Ready::in_rows(words))
}

/// Where all routes agree on the number of the flow's kind, the weights are those of algorithm 1
/// over the flow's digest. Everywhere else the answer is that of the plain query for the tag, ranges
/// of tags and all.
fn elect_listed(table: &Table, flow: Flow, tag: u32, ready: &Ready) -> Result<Election, Refusal> {
    election::check(tag, ready)?;
    flow.check()?;
    let (agreed, ac_df) = election::algorithm_in_use(table);
    match table.flow_algorithms() {
        Some(set) if flow.number(set) == agreed => {
            let digest = flow.digest(tag, table.esi());
            let rule = |eligible: &[Entry]| election::by_weight(eligible, digest);
            election::elect_among(table, agreed, ac_df, ready, rule)
        }
        _ => election::elect_listed(table, tag, ready),
    }
}
