//! Families of inputs that go through a whole range one by one, with IPv6 routers (document 02,
//! M-105): every octet of the 37, every length, both address families in every order, and IPv4
//! addresses beside the IPv6 ones that could be taken for them.

use crate::pools::alike;
use crate::record::{self, mapped, Address};
use crate::systematic::{ten, two_routers, ESI};
use crate::Make;

/// The families: name, number of inputs, and what makes the input of an index below it.
pub fn families() -> Vec<(&'static str, u64, Make)> {
    vec![
        ("v6-cut", cut_count(), cut),
        ("v6-route-octet", ROUTE_LENGTH, route_octet),
        ("v6-route-pair", ROUTE_LENGTH, route_pair),
        ("v6-route-form", ROUTE_FORM_COUNT, route_form),
        ("v6-header", HEADER_COUNT, header),
        ("v6-route-length", ROUTE_LENGTH_COUNT, route_length),
        ("v6-body-length", BODY_LENGTH_COUNT, body_length),
        ("v6-orders", ORDERS_COUNT, orders),
        ("v6-order-of-octets", ORDER_OF_OCTETS_COUNT, order_of_octets),
        ("v6-alike", ALIKE_COUNT, alike_routers),
        ("v6-ties", TIES_COUNT, ties),
        ("v6-sixty-four", SIXTY_FOUR_COUNT, sixty_four),
        ("v6-block-edge", BLOCK_EDGE_COUNT, block_edge),
        ("v6-line-edge", LINE_EDGE_COUNT, line_edge),
    ]
}

/// 2001:db8::`last`
fn six(last: u8) -> Address {
    Address::V6(0x2001_0DB8 << 96 | u128::from(last))
}

/// An IPv4 router and two IPv6 ones, and queries of both kinds.
fn three_routers() -> Vec<u8> {
    [
        two_routers(),
        record::withdrawal(ten(2)),
        record::announcement(&ESI, six(1), &[]),
        record::announcement(&ESI, six(2), &[]),
        record::query(5, &[]),
        record::v6_query(5, &[]),
    ]
    .concat()
}

/// Routers that agree on AC-DF, and queries that list those of one family.
fn ready_lists() -> Vec<u8> {
    let bit = record::community(0, true, false, 0);
    let all = [ten(1), six(1), six(2)];
    let mut octets = record::esi_record(&ESI);
    for address in all {
        octets.extend(record::announcement(&ESI, address, &bit));
    }
    for tag in 1..3 {
        octets.extend(record::query(tag, &all));
        octets.extend(record::v6_query(tag, &all));
        octets.extend(record::v6_query(tag, &[]));
    }
    octets.extend(record::v6_query(1, &[six(2); 15]));
    octets.extend(record::withdrawal(six(2)));
    octets.extend(record::withdrawal(six(2)));
    octets
}

/// Every refusal of an IPv6 announcement, withdrawal and query.
fn refusals() -> Vec<u8> {
    let mut octets = three_routers();
    for (place, value) in [(0, 5), (20, 64), (1, 23), (1, 36)] {
        let mut route = record::route(&[0; 8], &ESI, six(3));
        route[place] = value;
        octets.extend(record::record(record::KIND_ANNOUNCEMENT, &route));
    }
    for (esi, address) in [
        ([0x00; 10], six(3)),
        ([0xFF; 10], Address::V6(0)),
        (ESI, Address::V6(0)),
        ([7; 10], Address::V6(0)),
        ([7; 10], six(3)),
    ] {
        octets.extend(record::announcement(&esi, address, &[6; 9]));
    }
    octets.extend(record::announcement(&ESI, six(3), &[6; 9]));
    octets.extend(record::withdrawal(Address::V6(0)));
    octets.extend(record::withdrawal(six(3)));
    for tag in [0, u32::MAX, 6] {
        octets.extend(record::v6_query(tag, &[six(1)]));
    }
    octets
}

fn runs_to_cut() -> [Vec<u8>; 3] {
    [three_routers(), ready_lists(), refusals()]
}

fn cut_count() -> u64 {
    runs_to_cut().iter().map(|run| run.len() as u64 + 1).sum()
}

/// A run cut at an octet; every octet of every run has its turn.
fn cut(index: u64) -> Vec<u8> {
    let mut place = index as usize;
    for run in runs_to_cut() {
        if place <= run.len() {
            return run[..place].to_vec();
        }
        place -= run.len() + 1;
    }
    Vec::new()
}

const ROUTE_LENGTH: u64 = 37;

/// One octet of a route with every value, in announcements of one run.
fn route_octet(index: u64) -> Vec<u8> {
    let mut octets = three_routers();
    for value in 0..=255 {
        let mut route = record::route(&[1; 8], &ESI, six(1));
        route[index as usize] = value;
        octets.extend(announce_and_ask(&route));
    }
    octets
}

/// Two octets of a route wrong at a time, in announcements of one run.
fn route_pair(index: u64) -> Vec<u8> {
    let mut octets = three_routers();
    for other in 0..ROUTE_LENGTH as usize {
        for (first, second) in [(0, 0), (0, 255), (255, 0), (255, 255), (23, 32), (32, 23)] {
            let mut route = record::route(&[1; 8], &ESI, six(1));
            route[index as usize] = first;
            route[other] = second;
            octets.extend(announce_and_ask(&route));
        }
    }
    octets
}

/// An announcement of these route octets, three queries, and its address withdrawn.
fn announce_and_ask(route: &[u8]) -> Vec<u8> {
    [
        record::record(record::KIND_ANNOUNCEMENT, route),
        record::query(3, &[]),
        record::v6_query(4, &[]),
        record::v6_query(5, &[]),
        record::record(record::KIND_V6_WITHDRAWAL, &route[21..37]),
    ]
    .concat()
}

const ROUTE_FORM_COUNT: u64 = 256 * 2;

/// Every length octet with several address lengths and totals; the last announcement may be a bad
/// record: an address length of 128 in fewer than 37 octets.
fn route_form(index: u64) -> Vec<u8> {
    let length_octet = index as u8;
    let mut octets = three_routers();
    for bits in [32, 128, 0, 31, 33, 96, 127, 129, 160, 255] {
        for total in [25, 33, 37, 45] {
            if bits != 128 || total >= 37 {
                octets.extend(announcement_of_form(length_octet, bits, total));
                octets.extend(record::v6_query(7, &[]));
            }
        }
    }
    if index >= 256 {
        octets.extend(announcement_of_form(length_octet, 128, 33));
        octets.extend(record::query(7, &[]));
    }
    octets
}

fn announcement_of_form(length_octet: u8, bits: u8, total: usize) -> Vec<u8> {
    let mut body = record::route(&[1; 8], &ESI, six(9));
    body.extend(record::community(2, false, true, 5));
    body[1] = length_octet;
    body[20] = bits;
    body.truncate(total);
    record::record(record::KIND_ANNOUNCEMENT, &body)
}

const HEADER_COUNT: u64 = 3 * 4 * 256;

/// Every value of every octet of a record's header, for IPv6 records of each kind.
fn header(index: u64) -> Vec<u8> {
    let (value, place) = (index as u8, (index / 256) as usize % 4);
    let mut records = [
        record::announcement(&ESI, six(1), &record::community(2, false, true, 8)),
        record::withdrawal(six(1)),
        record::v6_query(1, &[six(1)]),
    ];
    records[(index / 1024) as usize % 3][place] = value;
    [two_routers(), records.concat()].concat()
}

/// What octets 0, 1 and 20 are in the announcements of every length.
const STARTS: [[u8; 3]; 7] = [
    [4, 35, 128],
    [4, 23, 128],
    [9, 35, 128],
    [4, 0, 128],
    [4, 35, 32],
    [4, 23, 32],
    [4, 35, 129],
];
const ROUTE_LENGTH_COUNT: u64 = STARTS.len() as u64 * 256;

/// An announcement of every length, with octet 20 of 128 and others.
fn route_length(index: u64) -> Vec<u8> {
    let [route_type, length_octet, bits] = STARTS[(index / 256) as usize];
    let mut body = record::route(&[0; 8], &ESI, six(3));
    body[0] = route_type;
    body[1] = length_octet;
    body[20] = bits;
    body.extend(record::community(1, true, false, 0).repeat(28));
    body.truncate(index as usize % 256);
    with_record(record::KIND_ANNOUNCEMENT, &body)
}

const BODY_LENGTH_COUNT: u64 = 2 * 256;

/// Every length of body for kinds 4 and 5; the octets are those of good addresses.
fn body_length(index: u64) -> Vec<u8> {
    let (kind, start) = if index < 256 {
        (record::KIND_V6_WITHDRAWAL, vec![])
    } else {
        (record::KIND_V6_QUERY, vec![0, 0, 0, 9])
    };
    let address = six(1).octets();
    let endless = start.into_iter().chain(address.into_iter().cycle());
    let body: Vec<u8> = endless.take(index as usize % 256).collect();
    with_record(kind, &body)
}

/// Three routers, a record, and queries after it.
fn with_record(kind: u8, body: &[u8]) -> Vec<u8> {
    [
        three_routers(),
        record::record(kind, body),
        record::query(6, &[]),
        record::v6_query(7, &[six(3)]),
    ]
    .concat()
}

/// Two IPv4 addresses and three IPv6 ones, of which each family has the greater number somewhere.
fn five_addresses() -> [Address; 5] {
    [
        Address::V4(1),
        Address::V4(0xFFFF_FFFE),
        Address::V6(2),
        mapped(0xFFFF_FFFE),
        Address::V6(u128::MAX - 1),
    ]
}

const ORDERS_COUNT: u64 = 120 * 4;

/// Both families announced in every order, asked after each announcement, and withdrawn in the
/// opposite order; under each of four algorithms, with equal preferences.
fn orders(index: u64) -> Vec<u8> {
    let community = record::community((index / 120) as u8, false, false, 9);
    let order = permutation(five_addresses().to_vec(), index as usize % 120);
    let mut octets = record::esi_record(&ESI);
    for address in &order {
        octets.extend(record::announcement(&ESI, *address, &community));
        octets.extend(row_of_queries());
    }
    for address in order.iter().rev() {
        octets.extend(record::withdrawal(*address));
        octets.extend(row_of_queries());
    }
    octets
}

/// The order of an index below the factorial of their number.
fn permutation(mut left: Vec<Address>, mut index: usize) -> Vec<Address> {
    let mut order = Vec::new();
    while !left.is_empty() {
        order.push(left.remove(index % left.len()));
        index /= left.len() + 1;
    }
    order
}

/// Queries of both kinds for tags of every rest of up to five routers.
fn row_of_queries() -> Vec<u8> {
    let tags = 60..65;
    tags.flat_map(|tag| [record::query(tag, &[]), record::v6_query(tag + 7, &[])].concat())
        .collect()
}

const ORDER_OF_OCTETS_COUNT: u64 = 16 * 16;

/// Two IPv6 addresses that differ in two octets, in opposite ways: the higher octet decides.
fn order_of_octets(index: u64) -> Vec<u8> {
    let (first, second) = (index as usize / 16, index as usize % 16);
    let mut octets = record::esi_record(&ESI);
    for (one, other) in [(1, 2), (0x7F, 0x80), (0, 0xFF)] {
        let mut low = [0x11; 16];
        let mut high = low;
        (low[first], high[first]) = (one, other);
        if second != first {
            (low[second], high[second]) = (other, one);
        }
        let both = [low, high].map(|octets| Address::V6(u128::from_be_bytes(octets)));
        for address in both {
            octets.extend(record::announcement(&ESI, address, &[]));
        }
        octets.extend(row_of_queries());
        for address in both {
            octets.extend(record::withdrawal(address));
        }
    }
    octets
}

const ALIKE_COUNT: u64 = 16 * 4;

/// An IPv4 address and the IPv6 ones that have its octets: every set of them announced, every set
/// of them ready, and each withdrawn; under each of four algorithms.
fn alike_routers(index: u64) -> Vec<u8> {
    let (announced, algorithm) = (index % 16, (index / 16) as u8);
    let chosen = |set: u64| -> Vec<Address> {
        let places = (0..4).filter(|place| set >> place & 1 == 1);
        places.map(|place| alike(0x0A00_0001, place)).collect()
    };
    let mut octets = record::esi_record(&ESI);
    for ac_df in [false, true] {
        let community = record::community(algorithm, ac_df, true, 7);
        for address in chosen(announced) {
            octets.extend(record::announcement(&ESI, address, &community));
        }
        for ready in 0..16 {
            for tag in 1..5 {
                octets.extend(record::query(tag, &chosen(ready)));
                octets.extend(record::v6_query(tag, &chosen(ready)));
            }
        }
    }
    for place in 0..4 {
        octets.extend(record::withdrawal(alike(0x0A00_0001, place)));
        octets.extend(row_of_queries());
    }
    octets
}

const TIES_COUNT: u64 = 128;

/// Routers of both families under algorithm 1 that are equal in the low 31 bits, beside one whose
/// number differs from theirs in a single bit: it ties too exactly from bit 31 on.
fn ties(index: u64) -> Vec<u8> {
    let weight = record::community(1, false, false, 0);
    let low = 0x0A00_0001;
    let tied = [
        Address::V6(u128::MAX << 31 | u128::from(low)),
        mapped(low),
        Address::V4(low | 1 << 31),
        Address::V4(low),
    ];
    let odd = Address::V6(u128::from(low) ^ 1 << index);
    let mut octets = record::esi_record(&ESI);
    octets.extend(record::announcement(&ESI, odd, &weight));
    for address in tied {
        octets.extend(record::announcement(&ESI, address, &weight));
        for tag in 1..20 {
            octets.extend(record::query(tag, &[]));
        }
    }
    octets
}

const SIXTY_FOUR_COUNT: u64 = 66 * 3;

/// A full table of both families, of which as many are IPv4 as the index says; then one place of it
/// replaced, withdrawn and filled by an address of either family.
fn sixty_four(index: u64) -> Vec<u8> {
    let fours = (index % 66) as u8;
    let address = |place: u8| {
        if place < fours {
            ten(place + 1)
        } else {
            six(place + 1)
        }
    };
    let low = record::community(2, false, false, 5);
    let high = record::community(2, false, false, 6);
    let mut octets = record::esi_record(&ESI);
    for place in (0..66).rev() {
        octets.extend(record::announcement(&ESI, address(place), &low));
    }
    let odd = address([3, 33, 65][(index / 66) as usize]);
    octets.extend(record::announcement(&ESI, odd, &high));
    octets.extend(record::query(9, &[]));
    octets.extend(record::withdrawal(odd));
    octets.extend(record::query(9, &[]));
    for last in 100..102 {
        octets.extend(record::announcement(&ESI, six(last), &[]));
        octets.extend(record::announcement(&ESI, ten(last), &[]));
    }
    for tag in 64..=128 {
        octets.extend(record::v6_query(tag, &[]));
    }
    octets
}

const EDGES: [usize; 5] = [256, 4096, 32_768, 65_536, 131_072];
const EDGE_WIDTH: u64 = 45;
const BLOCK_EDGE_COUNT: u64 = EDGES.len() as u64 * EDGE_WIDTH;

/// A run in which an IPv6 announcement crosses the edge of a block of input, at each of its octets.
fn block_edge(index: u64) -> Vec<u8> {
    let edge = EDGES[(index / EDGE_WIDTH) as usize];
    let start = edge - (index % EDGE_WIDTH) as usize;
    let mut octets = three_routers();
    let gap = start.saturating_sub(octets.len());
    let odd = vec![0; gap.saturating_sub(29) % 8];
    octets.extend(record::announcement(&ESI, ten(7), &odd));
    while octets.len() < start {
        octets.extend(record::v6_query(octets.len() as u32, &[]));
    }
    octets.extend(record::announcement(&ESI, six(3), &[]));
    octets.extend(record::withdrawal(six(3)));
    octets.extend(record::v6_query(77, &[six(1), six(2)]));
    octets
}

const LONGEST_LINE: u64 = 40;
const LINE_EDGE_COUNT: u64 = 2 * LONGEST_LINE;

/// Long runs of the longest lines, after a start of every length: the edge of a block of output
/// falls on each of their characters.
fn line_edge(index: u64) -> Vec<u8> {
    let routers = if index < LONGEST_LINE { 1 } else { 10 };
    let mut octets = record::esi_record(&ESI);
    for last in 1..=routers {
        octets.extend(record::announcement(&ESI, six(last), &[]));
    }
    // lines of four characters, and one of five, six or seven
    for _ in 0..index % LONGEST_LINE / 4 {
        octets.extend(record::withdrawal(ten(1)));
    }
    let mut route = record::route(&[0; 8], &ESI, six(1));
    match index % 4 {
        1 => octets.extend(record::query(0, &[])),
        2 => {
            route[1] = 0;
            octets.extend(record::record(record::KIND_ANNOUNCEMENT, &route));
        }
        3 => {
            route[20] = 0;
            octets.extend(record::record(record::KIND_ANNOUNCEMENT, &route));
        }
        _ => {}
    }
    for tag in 1..5000 {
        octets.extend(record::v6_query(tag, &[]));
    }
    octets
}
