//! Measured speed: the proved calls beside two baselines, and beside a third in the named forms, in one run.
//!
//! - `answer`: the calls that every side has, and their answers
//! - `proved`: the proved calls, linked in
//! - `octets`: what the baselines read from octets and words in the same way
//! - `array`: baseline (a), sorted arrays updated in place
//! - `list`: baseline (b), a doubly linked list of heap nodes
//! - `form`: baseline (f), the forms that the project's papers name
//! - `dumps`: the baseline of a search through two dumps of records
//! - `candidates`: the baseline of the second in line of a list of candidates
//! - `called`: a baseline whose calls are never inlined
//! - `rounds`: the rounds of calls that are counted, timed and compared
//! - `records`: the bench program over a baseline, and the generator of a long run of records
//! - `workload`: routes, communities and ready lists, the same in every run
//! - `random`: numbers that look random and are the same in every run

pub mod answer;
pub mod array;
pub mod called;
pub mod candidates;
pub mod dumps;
pub mod form;
pub mod list;
pub mod octets;
pub mod proved;
pub mod random;
pub mod records;
pub mod rounds;
pub mod workload;
