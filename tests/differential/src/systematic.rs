//! Families of inputs that go through a whole range one by one: cuts at every octet, every
//! value of an octet, every length, records across the edges of read blocks. Each family has a
//! count and gives its input for an index below it.

use crate::record::{self, Address, Esi};
use crate::Make;

/// The families: name, number of inputs, and what makes the input of an index below it.
pub fn families() -> Vec<(&'static str, u64, Make)> {
    vec![
        ("cut", cut_count(), cut),
        ("stray", STRAY_COUNT, stray),
        ("route-octet", ROUTE_OCTET_COUNT, route_octet),
        ("route-pair", ROUTE_PAIR_COUNT, route_pair),
        ("community-octet", COMMUNITY_OCTET_COUNT, community_octet),
        ("several", SEVERAL_COUNT, several),
        ("agreement", AGREEMENT_COUNT, agreement),
        ("sixty-four", SIXTY_FOUR_COUNT, sixty_four),
        ("body-length", BODY_LENGTH_COUNT, body_length),
        ("header", HEADER_COUNT, header),
        ("esi-place", ESI_PLACE_COUNT, esi_place),
        ("esi-character", ESI_CHARACTER_COUNT, esi_character),
        ("esi-around", ESI_AROUND_COUNT, esi_around),
        ("esi-length", ESI_LENGTH_COUNT, esi_length),
        ("esi-pair", ESI_PAIR_COUNT, esi_pair),
        ("esi-place-length", ESI_PLACE_LENGTH_COUNT, esi_place_length),
        ("block-edge", BLOCK_EDGE_COUNT, block_edge),
    ]
}

pub const ESI: Esi = [0x00, 0x11, 0x22, 0x33, 0x44, 0x55, 0x66, 0x77, 0x88, 0x99];
const TEXT_LENGTH: u64 = 29;

pub fn ten(last: u8) -> Address {
    Address::V4(u32::from_be_bytes([10, 0, 0, last]))
}

/// The runs that are cut: small ones, with refusals, with long records.
fn runs_to_cut() -> Vec<Vec<u8>> {
    vec![
        two_routers(),
        preferences(),
        refusals(),
        long_records(),
        ready_lists(),
    ]
}

pub fn two_routers() -> Vec<u8> {
    [
        record::esi_record(&ESI),
        record::announcement(&ESI, ten(1), &[]),
        record::announcement(&ESI, ten(2), &[]),
        record::query(5, &[]),
    ]
    .concat()
}

fn preferences() -> Vec<u8> {
    [
        record::esi_record(&ESI),
        record::announcement(&ESI, ten(1), &record::community(2, false, true, 100)),
        record::announcement(&ESI, ten(2), &record::community(2, false, true, 200)),
        record::query(1, &[]),
        record::withdrawal(ten(2)),
        record::query(1, &[]),
        record::announcement(&ESI, ten(2), &record::community(2, false, false, 100)),
        record::query(1, &[]),
    ]
    .concat()
}

fn refusals() -> Vec<u8> {
    [
        record::esi_record(&ESI),
        record::announcement(&[0; 10], ten(1), &[]),
        record::announcement(&[7; 10], ten(1), &[]),
        record::announcement(&ESI, Address::V4(0), &[]),
        record::announcement(&ESI, ten(1), &[6; 9]),
        record::withdrawal(Address::V4(0)),
        record::withdrawal(ten(1)),
        record::query(0, &[]),
        record::query(1, &[ten(1)]),
    ]
    .concat()
}

fn long_records() -> Vec<u8> {
    let communities = record::community(3, true, true, 9).repeat(28);
    [
        record::esi_record(&ESI),
        record::announcement(&ESI, ten(1), &communities),
        record::query(1, &[ten(1); 62]),
    ]
    .concat()
}

fn ready_lists() -> Vec<u8> {
    let weight = record::community(1, true, false, 0);
    [
        record::esi_record(&ESI),
        record::announcement(&ESI, ten(1), &weight),
        record::announcement(&ESI, ten(2), &weight),
        record::query(5, &[ten(2), ten(3), Address::V4(0)]),
        record::query(5, &[ten(1), ten(2)]),
        record::query(5, &[]),
    ]
    .concat()
}

fn cut_count() -> u64 {
    runs_to_cut().iter().map(|run| run.len() as u64 + 1).sum()
}

/// A run cut at an octet; every octet of every run has its turn.
fn cut(index: u64) -> Vec<u8> {
    let mut place = index as usize;
    for run in runs_to_cut() {
        if place <= run.len() {
            return run[..place].to_vec();
        }
        place -= run.len() + 1;
    }
    Vec::new()
}

const STRAY_COUNT: u64 = 5 * 12;

/// A good run with stray octets at its end.
fn stray(index: u64) -> Vec<u8> {
    let fill: [&[u8]; 5] = [
        &[0x00],
        &[0x0A],
        &[0xD5],
        &[0xD5, 0x4F],
        &[0xD5, 0x4F, 0x03, 0x04],
    ];
    let stray = fill[(index % 5) as usize].iter().cycle();
    let mut octets = two_routers();
    octets.extend(stray.take((index / 5) as usize));
    octets
}

const ROUTE_OCTET_COUNT: u64 = 25;

/// One octet of a route with every value, in announcements of one run. 128 comes last: as address
/// length it makes the record a bad one.
fn route_octet(index: u64) -> Vec<u8> {
    let mut octets = two_routers();
    for value in (0..128).chain(129..=255).chain([128]) {
        let mut route = record::route(&[1; 8], &ESI, ten(1));
        route[index as usize] = value;
        octets.extend(announce_and_ask(&route, &[]));
    }
    octets
}

const ROUTE_PAIR_COUNT: u64 = 25;

/// Two octets of a route wrong at a time, in announcements of one run.
fn route_pair(index: u64) -> Vec<u8> {
    let mut octets = two_routers();
    for other in 0..25 {
        for (first, second) in [(0, 0), (0, 255), (255, 0), (255, 255), (1, 33)] {
            let mut route = record::route(&[1; 8], &ESI, ten(1));
            route[index as usize] = first;
            route[other] = second;
            octets.extend(announce_and_ask(&route, &[]));
        }
    }
    octets
}

/// An announcement of these route octets, two queries, and its address withdrawn.
fn announce_and_ask(route: &[u8], communities: &[u8]) -> Vec<u8> {
    let body = [route, communities].concat();
    let address = &route[21..25];
    [
        record::record(record::KIND_ANNOUNCEMENT, &body),
        record::query(2, &[]),
        record::query(3, &[]),
        record::record(record::KIND_WITHDRAWAL, address),
    ]
    .concat()
}

const COMMUNITY_OCTET_COUNT: u64 = 8 * 5;

/// One octet of a community with every value, beside a router with the community unchanged.
fn community_octet(index: u64) -> Vec<u8> {
    let algorithm = [0, 1, 2, 3, 9][(index / 8) as usize % 5];
    let good = record::community(algorithm, true, false, 0x0102);
    let mut octets = record::esi_record(&ESI);
    octets.extend(record::announcement(&ESI, ten(2), &good));
    for value in 0..=255 {
        let mut changed = good.clone();
        changed[(index % 8) as usize] = value;
        for address in [ten(1), ten(3)] {
            octets.extend(record::announcement(&ESI, address, &changed));
        }
        for ready in [&[ten(1), ten(2), ten(3)][..], &[ten(3), ten(2)], &[ten(1)]] {
            octets.extend(record::query(6, ready));
            octets.extend(record::query(7, ready));
        }
    }
    octets
}

/// How many communities the lists of `several` have.
const SEVERAL_LENGTH: u64 = 6;
const SEVERAL_COUNT: u64 = (1 << SEVERAL_LENGTH) * 3;

/// A list with election communities at every set of its places: alike, alike but for the
/// preference, or each with an algorithm of its own. Beside it a router under algorithm 2, so that
/// a list that says something else is told from one that says the same.
fn several(index: u64) -> Vec<u8> {
    let places = index % (1 << SEVERAL_LENGTH);
    let kind = index >> SEVERAL_LENGTH;
    let list = (0..SEVERAL_LENGTH).flat_map(|place| {
        let mut one = match kind {
            0 => record::community(2, false, true, 300),
            1 => record::community(2, false, true, 300 + place as u16),
            _ => record::community(place as u8 % 4, false, true, 300),
        };
        if places >> place & 1 == 0 {
            one[1] = 0x05;
        }
        one
    });
    let mut octets = record::esi_record(&ESI);
    let other = record::community(2, false, true, 200);
    octets.extend(record::announcement(&ESI, ten(2), &other));
    octets.extend(record::announcement(
        &ESI,
        ten(1),
        &list.collect::<Vec<u8>>(),
    ));
    for tag in 1..4 {
        octets.extend(record::query(tag, &[]));
    }
    octets
}

const AGREEMENT_COUNT: u64 = 32;

/// Two routers with every pair of algorithms and AC-DF bits; the index is the first's algorithm.
fn agreement(index: u64) -> Vec<u8> {
    let mut octets = record::esi_record(&ESI);
    for other in 0..32 {
        for bits in 0..4u8 {
            let first = record::community(index as u8, bits & 1 == 1, true, 7);
            let second = record::community(other, bits & 2 == 2, false, 8);
            octets.extend(record::announcement(&ESI, ten(1), &first));
            octets.extend(record::announcement(&ESI, ten(2), &second));
            for ready in [&[][..], &[ten(1)], &[ten(2)], &[ten(1), ten(2)]] {
                octets.extend(record::query(10, ready));
                octets.extend(record::query(11, ready));
            }
        }
    }
    octets
}

/// Characters around the digits, and those that look like digits.
const CHARACTERS: &[u8] = b"\x00\t\n\r /09:;@AFGOZ`afglo{\x7F\xB0\xE1\xFF";

const ESI_PLACE_COUNT: u64 = TEXT_LENGTH * CHARACTERS.len() as u64;

/// A text with one character changed, at every place.
fn esi_place(index: u64) -> Vec<u8> {
    let character = CHARACTERS[(index / TEXT_LENGTH) as usize];
    esi_run((index % TEXT_LENGTH) as usize, character)
}

const ESI_CHARACTER_COUNT: u64 = 4 * 256;

/// A text with every character at some places: a first and a second digit, a colon, the end.
fn esi_character(index: u64) -> Vec<u8> {
    let place = [0, 4, 14, 28][(index / 256) as usize % 4];
    esi_run(place, index as u8)
}

/// A run whose first record has one character changed.
fn esi_run(place: usize, character: u8) -> Vec<u8> {
    let mut text = record::esi_text(&ESI);
    text[place] = character;
    let mut octets = record::record(record::KIND_ESI, &text);
    octets.extend(record::announcement(&ESI, ten(1), &[]));
    octets.extend(record::query(1, &[]));
    octets
}

const ESI_AROUND_COUNT: u64 = 4 * CHARACTERS.len() as u64;

/// A good text, or a reserved one, with one character too many before or after it.
fn esi_around(index: u64) -> Vec<u8> {
    let esi = if index % 4 < 2 { ESI } else { [0; 10] };
    let mut text = record::esi_text(&esi);
    let place = if index % 2 == 0 { 0 } else { text.len() };
    text.insert(place, CHARACTERS[(index / 4) as usize]);
    let mut octets = record::record(record::KIND_ESI, &text);
    octets.extend(record::query(1, &[]));
    octets
}

const ESI_LENGTH_COUNT: u64 = 2 * 256;

/// A text of every length a record can hold: good digits and colons, or one digit repeated.
fn esi_length(index: u64) -> Vec<u8> {
    let unit: &[u8] = if index < 256 { b"a1:" } else { b"7" };
    let text: Vec<u8> = unit
        .iter()
        .copied()
        .cycle()
        .take(index as usize % 256)
        .collect();
    let mut octets = record::record(record::KIND_ESI, &text);
    octets.extend(record::query(1, &[]));
    octets
}

const ESI_PAIR_COUNT: u64 = TEXT_LENGTH * TEXT_LENGTH;

/// A text with two wrong characters, at every pair of places.
fn esi_pair(index: u64) -> Vec<u8> {
    let mut text = record::esi_text(&ESI);
    text[(index / TEXT_LENGTH) as usize] = b'O';
    text[(index % TEXT_LENGTH) as usize] = b'l';
    record::record(record::KIND_ESI, &text)
}

const ESI_PLACE_LENGTH_COUNT: u64 = 4 * 27;

/// A text one or two characters too short or too long, with a wrong character at every place.
fn esi_place_length(index: u64) -> Vec<u8> {
    let length = [27, 28, 30, 31][(index / 27) as usize];
    let mut text: Vec<u8> = b"a1:".iter().copied().cycle().take(length).collect();
    text[length - 1 - (index % 27) as usize] = b'g';
    record::record(record::KIND_ESI, &text)
}

const HEADER_COUNT: u64 = 4 * 4 * 256;

/// Every value of every octet of a record's header, for a record of each kind.
fn header(index: u64) -> Vec<u8> {
    let (value, place) = (index as u8, (index / 256) as usize % 4);
    let mut records = [
        record::esi_record(&ESI),
        record::announcement(&ESI, ten(1), &record::community(2, false, true, 8)),
        record::withdrawal(ten(1)),
        record::query(1, &[ten(1)]),
    ];
    records[(index / 1024) as usize % 4][place] = value;
    records.concat()
}

const BODY_LENGTH_COUNT: u64 = 3 * 256;

/// Every length of body for each later kind; the octets start as good ones would.
fn body_length(index: u64) -> Vec<u8> {
    let kind = 1 + (index / 256) as u8;
    let start = match kind {
        record::KIND_ANNOUNCEMENT => record::route(&[0; 8], &ESI, ten(3)),
        record::KIND_WITHDRAWAL => ten(1).octets(),
        _ => vec![0, 0, 0, 9],
    };
    let endless = start
        .iter()
        .copied()
        .chain([10, 0, 0, 1].into_iter().cycle());
    let body: Vec<u8> = endless.take(index as usize % 256).collect();
    let mut octets = two_routers();
    octets.extend(record::record(kind, &body));
    octets.extend(record::query(4, &[]));
    octets
}

const SIXTY_FOUR_COUNT: u64 = 66;

/// A full table; one place of it replaced, withdrawn and filled by another.
fn sixty_four(index: u64) -> Vec<u8> {
    let mut octets = record::esi_record(&ESI);
    let low = record::community(2, false, false, 5);
    for last in 1..=66 {
        octets.extend(record::announcement(&ESI, ten(last), &low));
    }
    let address = ten(1 + index as u8);
    let high = record::community(2, false, false, 6);
    octets.extend(record::announcement(&ESI, address, &high));
    octets.extend(record::query(9, &[]));
    octets.extend(record::withdrawal(address));
    octets.extend(record::query(9, &[]));
    octets.extend(record::announcement(&ESI, ten(100), &[]));
    octets.extend(record::announcement(&ESI, ten(101), &[]));
    for tag in 64..=128 {
        octets.extend(record::query(tag, &[]));
    }
    octets
}

const EDGES: [usize; 9] = [256, 512, 1024, 4096, 8192, 16_384, 32_768, 65_536, 131_072];
const EDGE_WIDTH: u64 = 13;
const BLOCK_EDGE_COUNT: u64 = 9 * EDGE_WIDTH * 3;

/// A run in which a record starts up to 6 octets before or after the edge of a block. There the
/// run ends, goes on, or is cut inside the record.
fn block_edge(index: u64) -> Vec<u8> {
    let edge = EDGES[(index / (3 * EDGE_WIDTH)) as usize % EDGES.len()];
    let start = edge + (index / 3 % EDGE_WIDTH) as usize - 6;
    let mut octets = two_routers();
    let gap = start.saturating_sub(octets.len());
    let odd = vec![0; gap.saturating_sub(29) % 8];
    octets.extend(record::announcement(&ESI, ten(7), &odd));
    while octets.len() < start {
        octets.extend(record::query(octets.len() as u32, &[]));
    }
    let last = record::query(77, &[ten(1), ten(2)]);
    match index % 3 {
        0 => {}
        1 => octets.extend(last),
        _ => octets.extend(&last[..6]),
    }
    octets
}
