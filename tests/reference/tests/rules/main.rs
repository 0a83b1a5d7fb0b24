//! The tests of the reference: every value of document 01, the worked examples of RFC 9785,
//! the slips the document names, the order of every list of checks, lengths at their limits,
//! addresses of both families side by side, Ethernet A-D routes, elections by flow, ranges of tags,
//! the second in line, dumps searched and logs made short, and the three statements of M-107 as properties.

mod address;
mod backup;
mod bench;
mod bystanders;
mod circuits;
mod common;
mod community;
mod compact;
mod decode;
mod dumps;
mod election;
mod encode;
mod esi;
mod exactly_one;
mod flows;
mod hrw;
mod random;
mod ranges;
mod returning;
mod rfc9785;
mod route;
mod slips;
mod table;
mod unseated;
mod values;
