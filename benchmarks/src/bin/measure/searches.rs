//! Searches through two long dumps of records, each beside the one baseline that a search has.

use crate::rows::{by_instructions, Row, Target};
use benchmarks::answer::Family;
use benchmarks::records;
use benchmarks::rounds::Work;

const TARGET: Target = by_instructions(1.2, None);
/// The records of each dump that is searched.
const DUMPED: usize = 100_000;

/// Rows with an address of either family that the first dump has, or the second alone, or neither. What is told is the cost of a thousand octets.
pub fn rows() -> Vec<Row> {
    let (first, second, addresses) = records::dumps(DUMPED);
    let places = ["the first", "the second", "neither"];
    let places = places.into_iter().flat_map(|place| [place; 2]);
    let row = |(address, place): (_, &str)| {
        let work = Work::LastAnnouncement {
            first: first.clone(),
            second: second.clone(),
            address,
        };
        let family = match address.family {
            Family::V4 => "IPv4",
            Family::V6 => "IPv6",
        };
        Row {
            name: format!(
                "last announcement in two dumps, an {family} router of {place}, per 1,000 octets"
            ),
            table: None,
            calls_in_round: (first.len() + second.len()) / 1000,
            target: TARGET,
            work,
        }
    };
    addresses.into_iter().zip(places).map(row).collect()
}
