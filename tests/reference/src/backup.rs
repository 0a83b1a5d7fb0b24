//! The second in line: the backup is the one elected among the eligible without the forwarder, under
//! the same algorithm. Document 02, M-113.

use crate::address::{Address, ROW_WORDS};
use crate::circuits::{self, Circuits};
use crate::community::uses_preference;
use crate::election::{self, Ready, DEFAULT_ALGORITHM};
use crate::refusal::Refusal;
use crate::table::{Entry, Table};

pub const MAX_CANDIDATES: usize = 64;

/// Names the backup for a tag. Reserved tag, 10; ready list over 64, 11; an empty table, 12; an
/// algorithm in use other than 1 to 3, 15; fewer than two eligible, 12.
pub fn name(table: &Table, tag: u32, ready: &[Address]) -> Result<Address, Refusal> {
    name_listed(table, tag, &Ready::of(ready))
}

/// The same with a ready list of rows of words.
pub fn name_rows(table: &Table, tag: u32, words: &[u32]) -> Result<Address, Refusal> {
    name_listed(table, tag, &Ready::in_rows(words))
}

/// The same over both tables, with the list of those routers of the route table that are ready.
pub fn name_by_circuits(table: &Table, circuits: &Circuits, tag: u32) -> Result<Address, Refusal> {
    name(table, tag, &circuits::ready_routers(table, circuits, tag))
}

fn name_listed(table: &Table, tag: u32, ready: &Ready) -> Result<Address, Refusal> {
    election::check(tag, ready)?;
    if table.entries().is_empty() {
        return Err(Refusal::NoEligible);
    }
    let (algorithm, ac_df) = election::plain_algorithm(table, tag);
    if algorithm == DEFAULT_ALGORITHM {
        return Err(Refusal::Algorithm);
    }
    let eligible = election::eligible(table, ac_df, ready);
    second(eligible, |routes| {
        election::winner(table, algorithm, tag, routes)
    })
}

/// Who wins by a rule once the first winner is taken out; fewer than two, 12.
fn second(
    eligible: Vec<Entry>,
    rule: impl Fn(&[Entry]) -> Option<Entry>,
) -> Result<Address, Refusal> {
    let forwarder = rule(&eligible).ok_or(Refusal::NoEligible)?;
    let others: Vec<Entry> = eligible
        .into_iter()
        .filter(|entry| entry.address != forwarder.address)
        .collect();
    let backup = rule(&others).ok_or(Refusal::NoEligible)?;
    Ok(backup.address)
}

/// A candidate kept as a record: its address as the family and four words, as in a row of a ready
/// list, its preference and its DP bit.
#[derive(Clone, Copy, Debug, PartialEq, Eq)]
pub struct Candidate {
    pub family: u8,
    pub words: [u32; 4],
    pub preference: u16,
    pub dp: bool,
}

impl Candidate {
    /// The address; none for a family other than 4 and 6. In an IPv4 record the words after the
    /// first do not count.
    pub fn address(&self) -> Option<Address> {
        let [a, b, c, d] = self.words;
        let row: [u32; ROW_WORDS] = [self.family.into(), a, b, c, d];
        Address::from_row(&row)
    }
}

/// Names the backup of a list of candidates, in any order; all of them are eligible. A list over
/// 64, a family that is none, address zero or an address twice, 22; an algorithm other than 2 and
/// 3, 15; fewer than two candidates, 12.
pub fn name_in(list: &[Candidate], algorithm: u8) -> Result<Address, Refusal> {
    let addresses = addresses_of(list)?;
    if !uses_preference(algorithm) {
        return Err(Refusal::Algorithm);
    }
    let entry = |(address, candidate): (&Address, &Candidate)| Entry {
        address: *address,
        algorithm,
        ac_df: false,
        dp: candidate.dp,
        preference: candidate.preference,
    };
    let eligible = addresses.iter().zip(list).map(entry).collect();
    second(eligible, |routes| {
        election::by_preference(routes, algorithm)
    })
}

/// The addresses of a list that may be taken, in its order; else 22.
fn addresses_of(list: &[Candidate]) -> Result<Vec<Address>, Refusal> {
    if list.len() > MAX_CANDIDATES {
        return Err(Refusal::CandidateList);
    }
    let mut addresses = Vec::new();
    for candidate in list {
        let address = candidate.address().ok_or(Refusal::CandidateList)?;
        if address.is_zero() || addresses.contains(&address) {
            return Err(Refusal::CandidateList);
        }
        addresses.push(address);
    }
    Ok(addresses)
}
