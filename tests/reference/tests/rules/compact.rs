//! A table written out as records, and logs made short (document 02, M-112): the octets, the order of
//! the numbers, and that a short log goes on as the whole one.

use crate::common::*;
use crate::random::{Random, Tally, PREFERENCES};
use reference::address::Address::{self, V4, V6};
use reference::bench::{self, End};
use reference::compact::{self, Unfit};
use reference::refusal::Refusal::{self, EsiText, ReservedEsi, ShortBuffer};
use reference::table::Table;

const ROUNDS: u64 = 600;

/// The run of a table.
fn run_of(table: &Table) -> Vec<u8> {
    let mut buffer = vec![0; 4000];
    let length = compact::write(table, &mut buffer).expect("a run");
    buffer.truncate(length);
    buffer
}

/// A log made short.
fn short(log: &[u8]) -> Result<Vec<u8>, Unfit> {
    let mut output = Vec::new();
    let answer = compact::log(&mut &log[..], &mut output).expect("no error");
    assert!(answer.is_ok() || output.is_empty());
    answer.map(|()| output)
}

/// The table that a log leaves.
fn table_after(log: &[u8]) -> Table {
    match bench::play(&mut &log[..], &mut Vec::new()) {
        Ok(End::Table(table)) => table,
        _ => panic!("no table"),
    }
}

/// The octets of a table of both families, one announcement each, written out by hand.
#[test]
fn the_octets_of_a_run() {
    let mut table = fresh();
    announce(&mut table, six(1), &community_octets(3, true, true, 0x1234));
    announce(&mut table, ten(2), &community_octets(1, true, true, 7));
    announce(&mut table, ten(1), &[]);
    let mut expected = vec![0xD5, 0x4F, 0, 29];
    expected.extend(b"00:11:22:33:44:55:66:77:88:99");
    for (last, algorithm, bits) in [(1, 0, 0), (2, 1, 0x40)] {
        expected.extend([0xD5, 0x4F, 1, 33, 4, 23, 0, 0, 0, 0, 0, 0, 0, 0]);
        expected.extend(ESI);
        expected.extend([32, 10, 0, 0, last]);
        expected.extend([6, 6, algorithm, bits, 0, 0, 0, 0]);
    }
    expected.extend([0xD5, 0x4F, 1, 45, 4, 35, 0, 0, 0, 0, 0, 0, 0, 0]);
    expected.extend(ESI);
    expected.extend([
        128, 0x20, 0x01, 0x0D, 0xB8, 0, 0, 0, 0, 0, 0, 0, 0, 0, 0, 0, 1,
    ]);
    expected.extend([6, 6, 3, 0xC0, 0, 0, 0x12, 0x34]);
    assert_eq!(run_of(&table), expected);
}

/// The text is in lower case, whatever the plate was.
#[test]
fn an_empty_table_is_its_identifier_alone() {
    let (_, table) = Table::fresh(&[0xAB; 10]);
    let text = b"ab:ab:ab:ab:ab:ab:ab:ab:ab:ab";
    assert_eq!(run_of(&table), record(0, text));
    assert_eq!(
        short(&record(0, &text.to_ascii_uppercase())),
        Ok(record(0, text))
    );
}

/// 4 before 14; with 14 and 4 nothing changes, and else only the octets of the run.
#[test]
fn the_order_of_the_numbers_and_the_buffer() {
    let (_, reserved) = Table::fresh(&[0xFF; 10]);
    for length in [0, 32, 33, 34, 4000] {
        assert_written(&reserved, length, Err(ReservedEsi));
    }
    for table in [
        fresh(),
        table_of(&[(six(1), 2, false, true, 5)]),
        full_table(),
    ] {
        let whole = run_of(&table).len();
        for length in 0..whole + 300 {
            let expected = if length < whole {
                Err(ShortBuffer)
            } else {
                Ok(whole)
            };
            assert_written(&table, length, expected);
        }
    }
}

/// Writes into a buffer of some length, whose octets all differ from the run's.
fn assert_written(table: &Table, length: usize, expected: Result<usize, Refusal>) {
    let run = compact::octets_of(table).unwrap_or_default();
    let before: Vec<u8> = (0..length)
        .map(|at| !run.get(at).copied().unwrap_or(0))
        .collect();
    let mut buffer = before.clone();
    assert_eq!(compact::write(table, &mut buffer), expected);
    let written = expected.unwrap_or(0);
    assert_eq!(buffer[..written], run[..written]);
    assert_eq!(buffer[written..], before[written..]);
}

/// The settings of M-106 and M-109 are not in the run.
#[test]
fn settings_are_left_out() {
    let mut table = table_of(&[(ten(1), 2, false, true, 5)]);
    let run = run_of(&table);
    assert_eq!(table.set_flow_algorithms(20, 9), Ok(()));
    assert_eq!(table.set_ranges(&[1, 5, 3]), Ok(()));
    assert_eq!(run_of(&table), run);
    assert_ne!(table_after(&run), table);
}

#[test]
fn logs_that_are_not_made_short() {
    assert_eq!(short(&[]), Ok(vec![]));
    for text in [
        &b"ff:ff:ff:ff:ff:ff:ff:ff:ff:ff"[..],
        b"00:00:00:00:00:00:00:00:00:00",
    ] {
        let log = [record(0, text), query(1, &[])].concat();
        assert_eq!(short(&log), Err(Unfit::Plate(ReservedEsi)));
    }
    for text in [&b""[..], b"00:11", b"0O:11:22:33:44:55:66:77:88:99"] {
        assert_eq!(short(&record(0, text)), Err(Unfit::Plate(EsiText)));
    }
    let log = [esi_record(), announcement_record(&ESI, ten(1), &[])].concat();
    for bad in [vec![0xD5], record(7, &[]), esi_record(), record(2, &[1])] {
        let log = [log.clone(), bad, query(1, &[])].concat();
        assert_eq!(short(&log), Err(Unfit::BadRecord));
    }
    for cut in 1..log.len() {
        let answer = short(&log[..cut]);
        assert_eq!(answer.is_ok(), cut == 33, "cut at {cut}");
    }
}

/// Random records of one segment: of every kind, refused ones too, and none of them bad.
struct Calls {
    random: Random,
    routers: Vec<Address>,
    algorithms: Vec<u8>,
    ac_df: usize,
}

impl Calls {
    fn new(seed: u64) -> Calls {
        let mut random = Random::new(seed);
        let count = match seed % 3 {
            0 => random.between(80, 120),
            _ => random.between(1, 12),
        };
        let any: Vec<u8> = (0..=31).collect();
        Calls {
            routers: random.addresses(count),
            algorithms: match random.below(6) {
                algorithm @ 0..=3 => vec![algorithm as u8],
                4 => vec![2, 3],
                _ => any,
            },
            ac_df: random.pick(&[0, 50, 100]),
            random,
        }
    }

    fn records(&mut self, count: usize) -> Vec<u8> {
        (0..count).flat_map(|_| self.record()).collect()
    }

    fn record(&mut self) -> Vec<u8> {
        let address = match self.random.below(12) {
            0 => self.random.pick(&[V4(0), V6(0), six(99), ten(99)]),
            _ => self.random.pick(&self.routers),
        };
        match self.random.below(10) {
            0..=4 => self.announcement(address),
            5 => withdrawal_record(address),
            _ => self.query(),
        }
    }

    fn announcement(&mut self, address: Address) -> Vec<u8> {
        let random = &mut self.random;
        let ac_df = random.chance(self.ac_df);
        let community = community_octets(
            random.pick(&self.algorithms),
            ac_df,
            random.chance(50),
            random.pick(&PREFERENCES),
        );
        let communities = match random.below(12) {
            0 => Vec::new(),
            1 => vec![6; 7],
            2 => community.repeat(2),
            _ => community,
        };
        let esi = match random.below(12) {
            0 => random.pick(&[OTHER_ESI, [0; 10], [0xFF; 10]]),
            _ => ESI,
        };
        let mut record = announcement_record(&esi, address, &communities);
        if random.chance(3) {
            let place = random.pick(&[4, 5, 24]);
            record[place] ^= 1;
        }
        record
    }

    fn query(&mut self) -> Vec<u8> {
        let tag = match self.random.below(12) {
            0 => self.random.pick(&[0, u32::MAX]),
            _ => self.random.tag(),
        };
        let ready = self.random.ready_list(&self.routers);
        let is_v6 = |address: &Address| matches!(address, V6(_));
        let (sixes, fours): (Vec<_>, Vec<_>) = ready.into_iter().partition(is_v6);
        if self.random.chance(50) {
            query(tag, &fours[..fours.len().min(62)])
        } else {
            v6_query(tag, &sixes[..sixes.len().min(15)])
        }
    }
}

/// Played, a run prints `p 0` and `a 0` for each entry and leaves an equal table. A short log that
/// goes on prints what the whole one prints that goes on alike, and made short again it is the same.
#[test]
fn a_short_log_goes_on_as_the_whole_one() {
    let mut tally = Tally::default();
    for seed in 0..ROUNDS {
        let mut calls = Calls::new(seed);
        let count = match seed % 3 {
            0 => 300,
            _ => calls.random.below(60),
        };
        let log = [esi_record(), calls.records(count)].concat();
        let table = table_after(&log);
        let run = short(&log).expect("a log that is good");
        assert_eq!(run, run_of(&table));
        assert_eq!(table_after(&run), table);
        let entries = table.entries().len();
        assert_eq!(output(&run), format!("p 0\n{}", "a 0\n".repeat(entries)));
        assert_eq!(short(&run), Ok(run.clone()));

        let more = calls.records(40);
        let tail = |log: &[u8]| {
            let lines = output(&[log, &more].concat());
            let skipped = output(log).len();
            lines[skipped..].to_string()
        };
        let lines = tail(&log);
        assert_eq!(tail(&run), lines, "seed {seed}");
        tally.note(format!(
            "{} entries",
            if entries == 64 { 64 } else { entries.min(1) }
        ));
        for line in lines.lines() {
            tally.note(&line[..3]);
        }
        for entry in table.entries() {
            tally.note(("algorithm", entry.algorithm.min(4)));
            tally.note(("family", entry.address.family()));
        }
    }
    println!("{tally:?}");
    for what in ["64 entries", "1 entries", "0 entries"] {
        tally.at_least(3, what);
    }
    for what in [
        "a 0", "a 5", "a 7", "a 8", "w 0", "w 6", "w 9", "q 0", "q 1",
    ] {
        tally.at_least(30, what);
    }
    for algorithm in 0..=4 {
        tally.at_least(300, ("algorithm", algorithm));
    }
    tally.at_least(1000, ("family", 4));
    tally.at_least(1000, ("family", 6));
}
