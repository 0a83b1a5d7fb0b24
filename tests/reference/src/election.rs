//! The election for one Ethernet Tag. Document 01, "The election"; document 02, M-105 (addresses
//! of both families), M-106 (agreement on a number that the operator set) and M-109 (ranges of
//! tags that override Highest or Lowest).

use crate::address::{Address, ROW_WORDS};
use crate::community::{HIGHEST_PREFERENCE, LOWEST_PREFERENCE};
use crate::hrw;
use crate::refusal::Refusal;
use crate::table::{Entry, Table};
use std::cmp::Reverse;

pub const DEFAULT_ALGORITHM: u8 = 0;
pub const HIGHEST_RANDOM_WEIGHT: u8 = 1;
pub const MAX_READY: usize = 64;

/// The answer of an accepted election. `count` is N; bit i of `candidates` is one exactly if
/// the entry at place i of the table is eligible.
#[derive(Clone, Copy, Debug, PartialEq, Eq)]
pub struct Election {
    pub address: Address,
    pub algorithm: u8,
    pub count: u32,
    pub candidates: u64,
}

/// The tags that no election is for.
pub fn is_reserved(tag: u32) -> bool {
    tag == 0 || tag == u32::MAX
}

/// A ready list as it is handed in: how many members it has, and those of them that are addresses.
pub(crate) struct Ready {
    listed: usize,
    addresses: Vec<Address>,
}

impl Ready {
    pub(crate) fn of(addresses: &[Address]) -> Ready {
        Ready {
            listed: addresses.len(),
            addresses: addresses.to_vec(),
        }
    }

    /// A list as the library takes it: rows of five words. A row of a family other than 4 and 6 is
    /// a stranger, and counts as a row; words after the last whole row are none.
    pub(crate) fn in_rows(words: &[u32]) -> Ready {
        let rows: Vec<&[u32; ROW_WORDS]> = words
            .chunks_exact(ROW_WORDS)
            .filter_map(|row| row.try_into().ok())
            .collect();
        let addresses = rows.iter().filter_map(|row| Address::from_row(row));
        Ready {
            listed: rows.len(),
            addresses: addresses.collect(),
        }
    }
}

/// Elects for a tag. Reserved tag, 10; ready list over 64, 11; no eligible router, 12.
pub fn elect(table: &Table, tag: u32, ready: &[Address]) -> Result<Election, Refusal> {
    elect_listed(table, tag, &Ready::of(ready))
}

/// The same with a ready list of rows of words.
pub fn elect_rows(table: &Table, tag: u32, words: &[u32]) -> Result<Election, Refusal> {
    elect_listed(table, tag, &Ready::in_rows(words))
}

/// What every election tests first. Reserved tag, 10; ready list over 64, 11.
pub(crate) fn check(tag: u32, ready: &Ready) -> Result<(), Refusal> {
    if is_reserved(tag) {
        return Err(Refusal::ReservedTag);
    }
    if ready.listed > MAX_READY {
        return Err(Refusal::ReadyLength);
    }
    Ok(())
}

/// The plain election.
pub(crate) fn elect_listed(table: &Table, tag: u32, ready: &Ready) -> Result<Election, Refusal> {
    check(tag, ready)?;
    let (algorithm, ac_df) = plain_algorithm(table, tag);
    elect_among(table, algorithm, ac_df, ready, |eligible| {
        winner(table, algorithm, tag, eligible)
    })
}

/// The algorithm that a plain query for a tag goes by, and whether AC-DF is in use. Under an
/// agreement on a number that is set it is algorithm 1; under 2 or 3 a tag inside a range that is
/// set gets the algorithm that the range names.
pub(crate) fn plain_algorithm(table: &Table, tag: u32) -> (u8, bool) {
    let (agreed, ac_df) = algorithm_in_use(table);
    let for_all_tags = if agreed <= LOWEST_PREFERENCE {
        agreed
    } else {
        HIGHEST_RANDOM_WEIGHT
    };
    (table.ranges().overriding(for_all_tags, tag), ac_df)
}

/// Which of these routes wins under an algorithm, 0 to 3.
pub(crate) fn winner(table: &Table, algorithm: u8, tag: u32, routes: &[Entry]) -> Option<Entry> {
    match algorithm {
        HIGHEST_RANDOM_WEIGHT => by_weight(routes, hrw::digest(tag, table.esi())),
        HIGHEST_PREFERENCE | LOWEST_PREFERENCE => by_preference(routes, algorithm),
        _ => by_modulus(routes, tag),
    }
}

/// The routes that are eligible, in rising address order.
pub(crate) fn eligible(table: &Table, ac_df: bool, ready: &Ready) -> Vec<Entry> {
    let candidates = candidate_set(table.entries(), ac_df, &ready.addresses);
    members(table.entries(), candidates)
}

/// The answer under an algorithm, whose rule says which of the eligible wins; none eligible, 12.
pub(crate) fn elect_among(
    table: &Table,
    algorithm: u8,
    ac_df: bool,
    ready: &Ready,
    rule: impl Fn(&[Entry]) -> Option<Entry>,
) -> Result<Election, Refusal> {
    let candidates = candidate_set(table.entries(), ac_df, &ready.addresses);
    let eligible = members(table.entries(), candidates);
    let winner = rule(&eligible).ok_or(Refusal::NoEligible)?;
    Ok(Election {
        address: winner.address,
        algorithm,
        count: candidates.count_ones(),
        candidates,
    })
}

/// The algorithm in use, ranges of tags apart, and whether AC-DF is in use. All routes must carry
/// one algorithm, from 0 to 3 or one of the numbers set, and one AC-DF bit; otherwise it is
/// algorithm 0 without AC-DF.
pub fn algorithm_in_use(table: &Table) -> (u8, bool) {
    let Some(first) = table.entries().first() else {
        return (DEFAULT_ALGORITHM, false);
    };
    let agreed = table
        .entries()
        .iter()
        .all(|entry| entry.algorithm == first.algorithm && entry.ac_df == first.ac_df);
    let set = table.flow_algorithms();
    let usable = first.algorithm <= LOWEST_PREFERENCE
        || set.is_some_and(|numbers| numbers.contains(first.algorithm));
    if agreed && usable {
        (first.algorithm, first.ac_df)
    } else {
        (DEFAULT_ALGORITHM, false)
    }
}

/// The set of eligible places: all or, with AC-DF in use, those on the ready list.
fn candidate_set(entries: &[Entry], ac_df: bool, ready: &[Address]) -> u64 {
    let mut set = 0;
    for (place, entry) in entries.iter().enumerate() {
        if !ac_df || ready.contains(&entry.address) {
            set |= 1 << place;
        }
    }
    set
}

/// The entries at the places of the set, in rising address order.
fn members(entries: &[Entry], set: u64) -> Vec<Entry> {
    entries
        .iter()
        .enumerate()
        .filter(|(place, _)| set >> place & 1 == 1)
        .map(|(_, entry)| *entry)
        .collect()
}

/// Rule 0: counted from 0 in rising address order, the one at tag mod N.
fn by_modulus(eligible: &[Entry], tag: u32) -> Option<Entry> {
    if eligible.is_empty() {
        return None;
    }
    eligible.get(tag as usize % eligible.len()).copied()
}

/// Rule 1: greatest weight, then lowest address.
pub(crate) fn by_weight(eligible: &[Entry], digest: u32) -> Option<Entry> {
    eligible
        .iter()
        .copied()
        .min_by_key(|entry| (Reverse(hrw::weight(entry.address, digest)), entry.address))
}

/// Rules 2 and 3: higher (under 3: lower) preference, then DP set, then lower address.
pub fn by_preference(eligible: &[Entry], algorithm: u8) -> Option<Entry> {
    let candidates = eligible.iter().copied();
    if algorithm == LOWEST_PREFERENCE {
        candidates.min_by_key(|entry| (entry.preference, Reverse(entry.dp), entry.address))
    } else {
        candidates.min_by_key(|entry| (Reverse(entry.preference), Reverse(entry.dp), entry.address))
    }
}
