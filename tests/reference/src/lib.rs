//! A reference of document 01, "What is required and the exact rules", and of those requests of
//! document 02 that have landed, in ordinary Rust.
//!
//! Purpose: to stand beside the proved programs in tests. It is written from the documents alone
//! and prefers the plainest form of each rule to a quick one: the table is a sorted `Vec`, the
//! CRC goes bit by bit, the weight is computed over numbers that cannot run over.
//!
//! One module for each section of document 01, one for addresses and one for each request of
//! document 02 that adds calls of its own:
//!
//! - `refusal`: the refusal numbers
//! - `address`: addresses of both families, and their order
//! - `esi`: the segment identifier, and its text of 29 characters
//! - `route`: the Ethernet Segment route
//! - `community`: the DF Election Extended Community
//! - `table`: the routes of one segment
//! - `hrw`: CRC-32, digest and weight
//! - `election`: the election for one Ethernet Tag
//! - `circuits`: the Ethernet A-D routes, and the election over both tables
//! - `flows`: the elections by multicast flow, and the numbers set for them
//! - `ranges`: the ranges of tags that override Highest or Lowest
//! - `returning`: the preference of a returning router
//! - `backup`: the second in line, from the table or from a list of candidates
//! - `record`: one bench record, and the rules that it keeps or breaks
//! - `bench`: the bench program
//! - `dumps`: the last announcement of an address in two dumps of bench records
//! - `compact`: a table written out as bench records, and a log made short by it
//! - `encode`: text lines to bench records, for a person at the bench
//! - `decode`: bench records to text lines

#![forbid(unsafe_code)]

pub mod address;
pub mod backup;
pub mod bench;
pub mod circuits;
pub mod community;
pub mod compact;
pub mod decode;
pub mod dumps;
pub mod election;
pub mod encode;
pub mod esi;
pub mod flows;
pub mod hrw;
pub mod ranges;
pub mod record;
pub mod refusal;
pub mod returning;
pub mod route;
pub mod table;
