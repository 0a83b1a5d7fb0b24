//! The preference a returning router advertises. Document 01, "The returning router"; document 02,
//! M-109 (both references where ranges of tags are set).

use crate::address::Address;
use crate::community::{uses_preference, HIGHEST_PREFERENCE, LOWEST_PREFERENCE};
use crate::election::by_preference;
use crate::refusal::Refusal;
use crate::table::{Entry, Table};

/// A preference and a DP bit, as configured or as sent.
#[derive(Clone, Copy, Debug, PartialEq, Eq)]
pub struct Advertised {
    pub preference: u16,
    pub dp: bool,
}

/// What the router sends. Algorithm not 2 or 3, 15; then address zero, 6.
pub fn advertise(
    table: &Table,
    own_address: Address,
    own_algorithm: u8,
    administrative: Advertised,
) -> Result<Advertised, Refusal> {
    if !uses_preference(own_algorithm) {
        return Err(Refusal::Algorithm);
    }
    if own_address.is_zero() {
        return Err(Refusal::ZeroAddress);
    }
    let others: Vec<Entry> = table
        .entries()
        .iter()
        .copied()
        .filter(|entry| entry.address != own_address)
        .collect();
    if others.iter().any(|entry| entry.algorithm != own_algorithm) || !administrative.dp {
        return Ok(administrative);
    }
    // with any range set the router may stand against either winner, whatever its own algorithm
    let tried = if table.ranges().is_empty() {
        vec![own_algorithm]
    } else {
        vec![HIGHEST_PREFERENCE, LOWEST_PREFERENCE]
    };
    let mut inherited = tried
        .into_iter()
        .filter_map(|algorithm| inherited(&others, algorithm, administrative.preference));
    Ok(inherited.next().unwrap_or(administrative))
}

/// The pair that the router sends beside the reference by an algorithm, if it fits: the other route
/// that wins by it has DP set, and the router would take over from it.
fn inherited(others: &[Entry], algorithm: u8, own: u16) -> Option<Advertised> {
    let reference = by_preference(others, algorithm)?;
    if !reference.dp || !would_take_over(own, reference.preference, algorithm) {
        return None;
    }
    Some(Advertised {
        preference: reference.preference,
        dp: false,
    })
}

/// At least the reference's preference or, under Lowest-Preference, at most.
fn would_take_over(own: u16, reference: u16, algorithm: u8) -> bool {
    if algorithm == LOWEST_PREFERENCE {
        own <= reference
    } else {
        own >= reference
    }
}
