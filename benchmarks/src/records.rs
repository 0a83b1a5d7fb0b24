//! The bench program over a baseline (document 01, "The bench program"; document 02, M-103 and M-105), and the generator of a long run of records.
//! Blocks of 64 KiB are read and written; a record that is cut by the end of a block is kept for the next.

use crate::answer::{Address, Answer, Family, Segment, ROW_WORDS};
use crate::random::Random;
use crate::workload::{self, Families};
use std::io::{self, Read, Write};

pub const MARK: [u8; 2] = [0xD5, 0x4F];
pub const HEADER: usize = 4;
const BLOCK: usize = 1 << 16;
const LONGEST_RECORD: usize = HEADER + 255;
/// A query's answer of an IPv6 address has 40 characters at most, and a number is written with room for four.
const LONGEST_LINE: usize = 44;
/// A query lists at most 62 addresses.
const LONGEST_LIST: usize = 62 * ROW_WORDS;

/// Runs the bench program from input to output.
pub fn run<T: Segment>(input: &mut impl Read, output: &mut impl Write) -> io::Result<()> {
    let mut bench: Bench<T> = Bench {
        table: None,
        lines: Lines {
            octets: vec![0; BLOCK + LONGEST_LINE],
            filled: 0,
        },
    };
    let mut buffer = vec![0; LONGEST_RECORD + BLOCK];
    let mut held = 0;
    loop {
        let got = input.read(&mut buffer[held..held + BLOCK])?;
        let end = held + got;
        if got == 0 {
            if held != 0 {
                bench.bad();
            }
            return bench.lines.write(output);
        }
        let mut at = 0;
        while let Some(record) = whole_record(&buffer[at..end]) {
            at += record.len();
            if !bench.take(record) {
                return bench.lines.write(output);
            }
            if bench.lines.filled >= BLOCK {
                bench.lines.write(output)?;
            }
        }
        buffer.copy_within(at..end, 0);
        held = end - at;
    }
}

/// The first record, if all of it is there. What cannot become a record is handed over as it is, to be refused.
fn whole_record(octets: &[u8]) -> Option<&[u8]> {
    if octets.len() < HEADER {
        return None;
    }
    if octets[..2] != MARK {
        return Some(&octets[..HEADER]);
    }
    octets.get(..HEADER + usize::from(octets[3]))
}

/// The route octets of an announcement, 37 where octet 20 is 128 and else 25, and the communities; none if there are fewer.
#[inline]
pub fn split_route(octets: &[u8]) -> Option<(&[u8], &[u8])> {
    let length = match octets.get(20) {
        Some(128) => 37,
        _ => 25,
    };
    octets.split_at_checked(length)
}

struct Bench<T> {
    table: Option<T>,
    lines: Lines,
}

impl<T: Segment> Bench<T> {
    /// Takes a record; whether the run goes on after it.
    fn take(&mut self, record: &[u8]) -> bool {
        if record[..2] != MARK {
            return self.bad();
        }
        let octets = &record[HEADER..];
        let Some(table) = &mut self.table else {
            return self.first(record[2], octets);
        };
        match record[2] {
            1 => {
                let Some((route, communities)) = split_route(octets) else {
                    return self.bad();
                };
                let told = table.announce(route, communities);
                self.placed_line(b'a', told.number, told.place as u8);
                true
            }
            2 if octets.len() == 4 => {
                let number = table.withdraw(Address::v4(word(octets)));
                self.line(b'w', number);
                true
            }
            3 if !octets.is_empty() && octets.len().is_multiple_of(4) => {
                let mut ready = [0; LONGEST_LIST];
                let rows = ready.as_chunks_mut::<ROW_WORDS>().0;
                for (row, four) in rows.iter_mut().zip(octets[4..].chunks_exact(4)) {
                    (row[0], row[1]) = (4, word(four));
                }
                let listed = (octets.len() / 4 - 1) * ROW_WORDS;
                let answer = table.elect(word(octets), &ready[..listed]);
                self.answered(&answer)
            }
            4 if octets.len() == 16 => {
                let number = table.withdraw(Address {
                    family: Family::V6,
                    words: words(octets),
                });
                self.line(b'w', number);
                true
            }
            5 if octets.len() % 16 == 4 => {
                let mut ready = [0; LONGEST_LIST];
                let rows = ready.as_chunks_mut::<ROW_WORDS>().0;
                for (row, sixteen) in rows.iter_mut().zip(octets[4..].chunks_exact(16)) {
                    row[0] = 6;
                    row[1..].copy_from_slice(&words(sixteen));
                }
                let listed = octets.len() / 16 * ROW_WORDS;
                let answer = table.elect(word(octets), &ready[..listed]);
                self.answered(&answer)
            }
            _ => self.bad(),
        }
    }

    /// The line of an election; the run goes on.
    #[inline]
    fn answered(&mut self, answer: &Answer) -> bool {
        if answer.number != 0 {
            self.line(b'q', answer.number);
            return true;
        }
        let lines = &mut self.lines;
        lines.start(b'q');
        lines.number(0, b' ');
        if answer.family == 6 {
            lines.hex(&answer.address, b' ');
        } else {
            let [a, b, c, d] = answer.address[0].to_be_bytes();
            lines.number(a, b'.');
            lines.number(b, b'.');
            lines.number(c, b'.');
            lines.number(d, b' ');
        }
        lines.number(answer.n as u8, b'\n');
        true
    }

    /// The first record: the text of the identifier.
    fn first(&mut self, kind: u8, text: &[u8]) -> bool {
        if kind != 0 {
            return self.bad();
        }
        let Some(esi) = esi_in(text) else {
            self.placed_line(b'p', 13, text_place(text));
            return false;
        };
        let mut table = T::empty();
        let number = table.fresh(&esi);
        self.placed_line(b'p', number, 0);
        self.table = Some(table);
        number == 0
    }

    fn bad(&mut self) -> bool {
        self.line(b'x', 16);
        false
    }

    fn line(&mut self, letter: u8, number: u8) {
        self.lines.start(letter);
        self.lines.number(number, b'\n');
    }

    /// A line that ends with a place after the numbers that have one.
    fn placed_line(&mut self, letter: u8, number: u8, place: u8) {
        if !matches!(number, 1..=4 | 6 | 13) {
            return self.line(letter, number);
        }
        self.lines.start(letter);
        self.lines.number(number, b' ');
        self.lines.number(place, b'\n');
    }
}

/// The lines that are not written out yet: a buffer with room for one more line, and how much of it is filled.
struct Lines {
    octets: Vec<u8>,
    filled: usize,
}

impl Lines {
    #[inline]
    fn start(&mut self, letter: u8) {
        self.octets[self.filled..][..2].copy_from_slice(&[letter, b' ']);
        self.filled += 2;
    }

    /// A number, and the character behind it.
    #[inline]
    fn number(&mut self, number: u8, end: u8) {
        let digits = &DECIMALS[usize::from(number)];
        let length = usize::from(digits[3]);
        let room = &mut self.octets[self.filled..][..4];
        room.copy_from_slice(digits);
        room[length % 4] = end;
        self.filled += length + 1;
    }

    /// The octets of words in hex, and the character behind them.
    #[inline]
    fn hex(&mut self, words: &[u32; 4], end: u8) {
        let room = &mut self.octets[self.filled..][..33];
        let octets = words.iter().flat_map(|word| word.to_be_bytes());
        for (pair, octet) in room.chunks_exact_mut(2).zip(octets) {
            pair.copy_from_slice(&HEX[usize::from(octet)]);
        }
        room[32] = end;
        self.filled += 33;
    }

    fn write(&mut self, output: &mut impl Write) -> io::Result<()> {
        output.write_all(&self.octets[..self.filled])?;
        self.filled = 0;
        Ok(())
    }
}

/// The digits of each number, and how many they are.
static DECIMALS: [[u8; 4]; 256] = decimals();

const fn decimals() -> [[u8; 4]; 256] {
    let mut table = [[0; 4]; 256];
    let mut number = 0;
    while number < 256 {
        let hundreds = b'0' + (number / 100) as u8;
        let tens = b'0' + (number / 10 % 10) as u8;
        let ones = b'0' + (number % 10) as u8;
        table[number] = match number {
            0..10 => [ones, 0, 0, 1],
            10..100 => [tens, ones, 0, 2],
            _ => [hundreds, tens, ones, 3],
        };
        number += 1;
    }
    table
}

/// The two digits of each octet.
static HEX: [[u8; 2]; 256] = hex_pairs();

const fn hex_pairs() -> [[u8; 2]; 256] {
    let digits = b"0123456789abcdef";
    let mut table = [[0; 2]; 256];
    let mut octet = 0;
    while octet < 256 {
        table[octet] = [digits[octet / 16], digits[octet % 16]];
        octet += 1;
    }
    table
}

fn word(octets: &[u8]) -> u32 {
    u32::from_be_bytes([octets[0], octets[1], octets[2], octets[3]])
}

fn words(octets: &[u8]) -> [u32; 4] {
    [0, 4, 8, 12].map(|at| word(&octets[at..]))
}

/// Where a text is wrong that says no identifier: its first wrong character, or where one is missing or too many.
fn text_place(text: &[u8]) -> u8 {
    let wrong = |(place, character): &(usize, &u8)| match place % 3 {
        2 => **character != b':',
        _ => digit(**character).is_none(),
    };
    let first = text.iter().take(29).enumerate().find(wrong);
    first.map_or(text.len().min(29), |(place, _)| place) as u8
}

/// The identifier that a text of 29 characters says.
fn esi_in(text: &[u8]) -> Option<[u8; 10]> {
    if text.len() != 29 {
        return None;
    }
    let mut esi = [0; 10];
    for (place, octet) in esi.iter_mut().enumerate() {
        let pair = &text[3 * place..];
        if place < 9 && pair[2] != b':' {
            return None;
        }
        *octet = 16 * digit(pair[0])? + digit(pair[1])?;
    }
    Some(esi)
}

fn digit(character: u8) -> Option<u8> {
    (character as char).to_digit(16).map(|value| value as u8)
}

/// A run of records, the first of them the identifier's text: of ten later ones about five are queries, three announcements and two withdrawals.
/// Each thousand has an algorithm and an AC-DF bit of its own, so that a table agrees for a while, and then again after a change. Of four thousands two
/// have IPv4 routers, one has IPv6 routers and one both; at its start the routers that it does not have are withdrawn. The addresses of a thousand are
/// 72, so that a table is now and then full. Ready lists rise, from some address on and round; in one thousand of four they are scattered.
pub fn generated(records: usize, seed: u64) -> Vec<u8> {
    let mut run = Generator::new(seed);
    put(&mut run.octets, 0, b"00:11:22:33:44:55:66:77:88:99");
    for number in 1..records {
        if number % 1000 == 1 {
            run.next_thousand(number / 1000);
        }
        match run.gone.pop() {
            Some(address) => run.withdraw(address),
            None => run.any_record(),
        }
    }
    run.octets
}

/// Two dumps of so many records each, and addresses of both families to look for in them: one of each dump, and one that neither has.
pub fn dumps(records: usize) -> (Vec<u8>, Vec<u8>, Vec<Address>) {
    let [first, second] = [8, 9].map(|seed| generated(records, seed));
    let mut addresses = Vec::new();
    for run in [Generator::new(8), Generator::new(9)] {
        addresses.extend([run.v4[40], run.v6[40]]);
    }
    addresses.extend([Address::v4(0x0B00_0001), Address::v6(0x2001_0DB9 << 96 | 1)]);
    (first, second, addresses)
}

/// A run of records while it is written, and what the present thousand draws from.
struct Generator {
    random: Random,
    v4: Vec<Address>,
    v6: Vec<Address>,
    addresses: Vec<Address>,
    /// Those of the thousand before that this one does not have, and that are still to be withdrawn.
    gone: Vec<Address>,
    listed: Vec<Address>,
    algorithm: u8,
    ac_df: bool,
    octets: Vec<u8>,
}

impl Generator {
    fn new(seed: u64) -> Generator {
        let mut random = Random(seed);
        Generator {
            v4: workload::addresses(72, Families::V4, &mut random),
            v6: workload::addresses(72, Families::V6, &mut random),
            random,
            addresses: Vec::new(),
            gone: Vec::new(),
            listed: Vec::new(),
            algorithm: 0,
            ac_df: false,
            octets: Vec::new(),
        }
    }

    fn next_thousand(&mut self, thousand: usize) {
        let addresses = match thousand % 4 {
            0 | 1 => self.v4.clone(),
            2 => [&self.v4[36..], &self.v6[36..]].concat(),
            _ => self.v6.clone(),
        };
        let before = std::mem::replace(&mut self.addresses, addresses);
        self.gone = before;
        self.gone.retain(|one| !self.addresses.contains(one));
        self.algorithm = self.random.below(4) as u8;
        self.ac_df = self.random.one_in(2);
        self.listed = self.addresses.clone();
        if !self.random.one_in(4) {
            workload::sort(&mut self.listed);
        }
    }

    fn any_record(&mut self) {
        let address = self.addresses[self.random.below(self.addresses.len())];
        match self.random.below(10) {
            0..=2 => self.announce(address),
            3..=4 => self.withdraw(address),
            _ => self.query(address.family),
        }
    }

    fn announce(&mut self, address: Address) {
        let mut body = workload::route(&workload::ESI, address);
        let preference = self.random.word() as u16;
        let dp = self.random.one_in(2);
        body.extend(workload::community(
            self.algorithm,
            self.ac_df,
            dp,
            preference,
        ));
        put(&mut self.octets, 1, &body);
    }

    fn withdraw(&mut self, address: Address) {
        let kind = match address.family {
            Family::V4 => 2,
            Family::V6 => 4,
        };
        put(&mut self.octets, kind, &workload::octets(address));
    }

    /// A query; with AC-DF it lists routers of a family, as many as a record holds or fewer.
    fn query(&mut self, family: Family) {
        let (kind, most) = match family {
            Family::V4 => (3, 62),
            Family::V6 => (5, 16),
        };
        let tag = 1 + self.random.below(4094) as u32;
        let mut body = tag.to_be_bytes().to_vec();
        if self.ac_df {
            let listed = self.listed.iter().filter(|one| one.family == family);
            let listed: Vec<&Address> = listed.collect();
            let from = self.random.below(listed.len());
            for place in 0..self.random.below(most) {
                let ready = listed[(from + place) % listed.len()];
                body.extend(workload::octets(*ready));
            }
        }
        put(&mut self.octets, kind, &body);
    }
}

fn put(octets: &mut Vec<u8>, kind: u8, payload: &[u8]) {
    octets.extend(MARK);
    octets.extend([kind, payload.len() as u8]);
    octets.extend_from_slice(payload);
}
