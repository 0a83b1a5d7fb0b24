//! A table written out as a run of bench records, and a log of records made short by it. Document
//! 02, M-112.
//!
//! The run is the record of the identifier, then one announcement for each entry in address order:
//! distinguisher zero, one community each, an entry's of algorithm 0 too. Played into the bench
//! program it gives the same entries again. The numbers of M-106 and the ranges of M-109 are not in it.

use crate::address::Address;
use crate::bench::{self, End};
use crate::community::{self, Community, COMMUNITY_LENGTH};
use crate::esi::{self, TEXT_LENGTH};
use crate::record::{self, KIND_ANNOUNCEMENT, KIND_ESI};
use crate::refusal::Refusal;
use crate::route::{self, DISTINGUISHER_LENGTH, V4_ROUTE_LENGTH, V6_ROUTE_LENGTH};
use crate::table::{Entry, Table};
use std::io::{self, Read, Write};

/// Writes the run and answers the number of its octets. The empty table of a reserved identifier,
/// 4; then a buffer that is too short, 14. Only the octets of the run change.
pub fn write(table: &Table, buffer: &mut [u8]) -> Result<usize, Refusal> {
    let run = octets_of(table)?;
    let room = buffer.get_mut(..run.len()).ok_or(Refusal::ShortBuffer)?;
    room.copy_from_slice(&run);
    Ok(run.len())
}

/// The octets of the run; the empty table of a reserved identifier has none, 4.
pub fn octets_of(table: &Table) -> Result<Vec<u8>, Refusal> {
    let mut text = [0; TEXT_LENGTH];
    esi::write_text(table.esi(), &mut text)?;
    let mut run = record::octets_of(KIND_ESI, &text).ok_or(Refusal::ShortBuffer)?;
    for entry in table.entries() {
        run.extend(announcement(table, entry)?);
    }
    Ok(run)
}

/// The announcement record of an entry.
fn announcement(table: &Table, entry: &Entry) -> Result<Vec<u8>, Refusal> {
    let length = match entry.address {
        Address::V4(_) => V4_ROUTE_LENGTH,
        Address::V6(_) => V6_ROUTE_LENGTH,
    };
    let mut body = vec![0; length + COMMUNITY_LENGTH];
    let distinguisher = [0; DISTINGUISHER_LENGTH];
    route::write(&distinguisher, table.esi(), entry.address, &mut body)?;
    let community = Community {
        algorithm: entry.algorithm,
        ac_df: entry.ac_df,
        dp: entry.dp,
        preference: entry.preference,
    };
    community::write(&community, &mut body[length..])?;
    record::octets_of(KIND_ANNOUNCEMENT, &body).ok_or(Refusal::ShortBuffer)
}

/// Why a log was not made short.
#[derive(Clone, Copy, Debug, PartialEq, Eq)]
pub enum Unfit {
    /// The text of its first record was refused, with this number.
    Plate(Refusal),
    BadRecord,
}

/// Reads a log to its end and writes it out short; an empty one stays empty. If its first record is
/// refused, or one is bad, nothing is written.
pub fn log(input: &mut impl Read, output: &mut impl Write) -> io::Result<Result<(), Unfit>> {
    let run = match bench::play(input, &mut io::sink())? {
        End::NoRecord => Vec::new(),
        End::Refused(refusal) => return Ok(Err(Unfit::Plate(refusal))),
        End::BadRecord => return Ok(Err(Unfit::BadRecord)),
        End::Table(table) => match octets_of(&table) {
            Ok(run) => run,
            Err(refusal) => return Ok(Err(Unfit::Plate(refusal))),
        },
    };
    output.write_all(&run)?;
    output.flush()?;
    Ok(Ok(()))
}
