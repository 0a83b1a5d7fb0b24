//! The bench program: lines, bad records, cut inputs and short reads.

use crate::common::*;
use reference::address::Address::{self, V4, V6};
use reference::bench::run;
use std::io::Read;

fn announcement(last: u8) -> Vec<u8> {
    record(1, &route_octets(&ESI, ten(last)))
}

/// The output after the first record.
fn after_first(rest: &[u8]) -> String {
    output(&[esi_record(), rest.to_vec()].concat())
}

#[test]
fn the_example_of_the_document() {
    let input = [
        esi_record(),
        announcement(1),
        announcement(2),
        query(5, &[]),
    ]
    .concat();
    assert_eq!(output(&input), "p 0\na 0\na 0\nq 0 10.0.0.2 2\n");
}

#[test]
fn empty_input_prints_nothing() {
    assert_eq!(output(&[]), "");
}

#[test]
fn a_refused_first_record_ends_the_run() {
    let reserved = record(0, b"00:00:00:00:00:00:00:00:00:00");
    assert_eq!(output(&[reserved, announcement(1)].concat()), "p 4 0\n");
    for length in (0..=255).filter(|length| *length != 29) {
        let text = vec![b'1'; length];
        assert_eq!(
            output(&[record(0, &text), vec![1, 2, 3]].concat()),
            format!("p 13 {}\n", length.min(2))
        );
    }
}

/// A p line says where the text is wrong.
#[test]
fn places_of_texts() {
    for (text, line) in [
        (&b"0O:11:22:33:44:55:66:77:88:99"[..], "p 13 1\n"),
        (b"00;11:22:33:44:55:66:77:88:9g", "p 13 2\n"),
        (b"00:11:22:33:44:55:66:77:88:9", "p 13 28\n"),
        (b"00:11:22:33:44:55:66:77:88:99\n", "p 13 29\n"),
        (b"ff:ff:ff:ff:ff:ff:ff:ff:ff:ff", "p 4 0\n"),
        (b"", "p 13 0\n"),
    ] {
        assert_eq!(output(&record(0, text)), line);
    }
}

/// An a line says where the route is wrong, and nothing after 0, 5, 7 and 8.
#[test]
fn places_of_announcements() {
    let changed = |place: usize, value: u8| {
        let mut octets = route_octets(&ESI, ten(1));
        octets[place] = value;
        record(1, &octets)
    };
    let mut odd_list = route_octets(&ESI, ten(1));
    odd_list.push(6);
    let rest = [
        changed(0, 5),
        changed(20, 31),
        changed(1, 22),
        record(1, &route_octets(&[0; 10], ten(1))),
        record(1, &route_octets(&ESI, V4(0))),
        record(1, &route_octets(&OTHER_ESI, ten(1))),
        record(1, &odd_list),
        announcement(1),
        record(2, &[0; 4]),
    ];
    assert_eq!(
        after_first(&rest.concat()),
        "p 0\na 2 0\na 3 20\na 1 1\na 4 10\na 6 21\na 5\na 7\na 0\nw 6\n"
    );
    let full: Vec<u8> = (1..=65).flat_map(announcement).collect();
    assert!(after_first(&full).ends_with("a 0\na 8\n"));
}

#[test]
fn the_first_record_is_the_identifier_and_no_later_one_is() {
    assert_eq!(output(&announcement(1)), "x 16\n");
    assert_eq!(output(&record(2, &[10, 0, 0, 1])), "x 16\n");
    assert_eq!(output(&query(1, &[])), "x 16\n");
    assert_eq!(
        after_first(&[esi_record(), announcement(1)].concat()),
        "p 0\nx 16\n"
    );
}

#[test]
fn every_kind_and_mark() {
    for value in 0..=255u8 {
        let mut octets = query(1, &[]);
        octets[2] = value;
        let expected = match value {
            2 => "p 0\nw 9\n",
            3 | 5 => "p 0\nq 12\n",
            _ => "p 0\nx 16\n",
        };
        assert_eq!(after_first(&octets), expected);
        for (place, good) in [(0, 0xD5), (1, 0x4F)] {
            let mut octets = query(1, &[]);
            octets[place] = value;
            let expected = if value == good {
                "p 0\nq 12\n"
            } else {
                "p 0\nx 16\n"
            };
            assert_eq!(after_first(&octets), expected);
        }
    }
}

#[test]
fn every_length_of_every_kind() {
    for length in 0..=255usize {
        let zeros = vec![0; length];
        let expected = if length < 25 {
            "p 0\nx 16\n"
        } else {
            "p 0\na 2 0\n"
        };
        assert_eq!(after_first(&record(1, &zeros)), expected);
        let expected = if length == 4 {
            "p 0\nw 6\n"
        } else {
            "p 0\nx 16\n"
        };
        assert_eq!(after_first(&record(2, &zeros)), expected);
        let good = length >= 4 && length % 4 == 0;
        let expected = if good { "p 0\nq 10\n" } else { "p 0\nx 16\n" };
        assert_eq!(after_first(&record(3, &zeros)), expected);
        let expected = if length == 16 {
            "p 0\nw 6\n"
        } else {
            "p 0\nx 16\n"
        };
        assert_eq!(after_first(&record(4, &zeros)), expected);
        let good = length >= 4 && length % 16 == 4;
        let expected = if good { "p 0\nq 10\n" } else { "p 0\nx 16\n" };
        assert_eq!(after_first(&record(5, &zeros)), expected);
    }
}

#[test]
fn community_lengths_in_a_record() {
    for length in 0..=230usize {
        let mut body = route_octets(&ESI, ten(1));
        body.extend(vec![0; length]);
        let expected = if length % 8 == 0 {
            "p 0\na 0\n"
        } else {
            "p 0\na 7\n"
        };
        assert_eq!(after_first(&record(1, &body)), expected);
    }
}

#[test]
fn community_lengths_in_an_ipv6_record() {
    for length in 0..=218usize {
        let mut body = route_octets(&ESI, six(1));
        body.extend(vec![0; length]);
        let number = if length % 8 == 0 { 0 } else { 7 };
        let expected = format!("p 0\na {number}\n");
        assert_eq!(after_first(&record(1, &body)), expected);
    }
}

/// Where octet 20 is 128 the route has 37 octets, and fewer are a bad record whatever the others
/// say; where it is anything else the first 25 octets are the route.
#[test]
fn every_length_of_an_ipv6_announcement() {
    let mut octets = route_octets(&ESI, six(1));
    octets.extend(community_octets(2, false, false, 5));
    for (place, value, refused) in [(0, 4, "0"), (0, 9, "2 0"), (1, 23, "1 1")] {
        octets[..2].copy_from_slice(&[4, 35]);
        octets[place] = value;
        for length in 0..octets.len() {
            let expected = match length {
                0..37 => "p 0\nx 16\n".to_string(),
                37 => format!("p 0\na {refused}\n"),
                _ if refused == "0" => "p 0\na 7\n".to_string(),
                _ => format!("p 0\na {refused}\n"),
            };
            assert_eq!(after_first(&record(1, &octets[..length])), expected);
        }
    }
}

/// The 37 octets with another address length: 25 of them are the route, and 12 are communities.
#[test]
fn octet_twenty_says_where_the_communities_start() {
    for value in 0..=255 {
        let mut octets = route_octets(&ESI, six(1));
        octets[20] = value;
        let expected = match value {
            32 => "p 0\na 1 1\n",
            128 => "p 0\na 0\n",
            _ => "p 0\na 3 20\n",
        };
        assert_eq!(after_first(&record(1, &octets)), expected);
        octets[1] = 23;
        let expected = match value {
            32 => "p 0\na 7\n",
            128 => "p 0\na 1 1\n",
            _ => "p 0\na 3 20\n",
        };
        assert_eq!(after_first(&record(1, &octets)), expected);
    }
}

/// An IPv6 router comes, is elected and goes; it prints as 32 lower-case hex digits.
#[test]
fn ipv6_routers() {
    let address = V6(0xFE80_0000_0000_0000_0A0B_0C0D_0E0F_0001);
    let rest = [
        record(1, &route_octets(&ESI, address)),
        announcement(1),
        query(4, &[]),
        query(5, &[]),
        v6_query(5, &[]),
        record(2, &[10, 0, 0, 1]),
        v6_query(4, &[address]),
        record(4, &address.octets()),
        record(4, &address.octets()),
        record(1, &route_octets(&ESI, V6(0))),
    ];
    assert_eq!(
        after_first(&rest.concat()),
        "p 0\na 0\na 0\nq 0 10.0.0.1 2\n\
         q 0 fe800000000000000a0b0c0d0e0f0001 2\n\
         q 0 fe800000000000000a0b0c0d0e0f0001 2\n\
         w 0\nq 0 fe800000000000000a0b0c0d0e0f0001 1\nw 0\nw 9\na 6 21\n"
    );
}

/// Kind 3 lists only IPv4 routers as ready, kind 5 only IPv6 ones.
#[test]
fn a_query_lists_one_family() {
    let acdf = community_octets(0, true, false, 0);
    let announced = |address: Address| {
        let mut body = route_octets(&ESI, address);
        body.extend(&acdf);
        record(1, &body)
    };
    let twin = V6(0x0A00_0001);
    let mut four_and_six = announced(ten(1));
    four_and_six.extend(announced(twin));
    let asked = |query: Vec<u8>| after_first(&[four_and_six.clone(), query].concat());
    let six_printed = "0000000000000000000000000a000001";
    for (query, line) in [
        (query(1, &[ten(1)]), "q 0 10.0.0.1 1".to_string()),
        (v6_query(1, &[twin]), format!("q 0 {six_printed} 1")),
        (v6_query(1, &[]), "q 12".to_string()),
        (query(1, &[]), "q 12".to_string()),
        (
            query(1, &[V4(0), V4(0), V4(0), V4(0x0A00_0001)]),
            "q 0 10.0.0.1 1".to_string(),
        ),
        (v6_query(1, &[V6(0x0A00_0001 << 96)]), "q 12".to_string()),
        (v6_query(1, &[twin; 15]), format!("q 0 {six_printed} 1")),
    ] {
        assert_eq!(asked(query), format!("p 0\na 0\na 0\n{line}\n"));
    }
}

#[test]
fn an_input_cut_at_every_octet() {
    let records = [
        esi_record(),
        announcement(1),
        query(1, &[ten(1)]),
        record(2, &[10, 0, 0, 1]),
    ];
    let lines = ["p 0\n", "a 0\n", "q 0 10.0.0.1 1\n", "w 0\n"];
    let input = records.concat();
    for cut in 0..=input.len() {
        let mut expected = String::new();
        let mut end = 0;
        for (record, line) in records.iter().zip(lines) {
            if end == cut {
                break;
            }
            end += record.len();
            expected.push_str(if end <= cut { line } else { "x 16\n" });
            if end > cut {
                break;
            }
        }
        assert_eq!(output(&input[..cut]), expected, "cut at {cut}");
    }
}

#[test]
fn stray_octets_at_the_end() {
    assert_eq!(after_first(&[0xD5]), "p 0\nx 16\n");
    assert_eq!(after_first(&[0x0A]), "p 0\nx 16\n");
    assert_eq!(after_first(&[0xD5, 0x4F, 3, 0]), "p 0\nx 16\n");
}

#[test]
fn refused_calls_print_their_number_and_go_on() {
    let zero = record(1, &route_octets(&ESI, V4(0)));
    let other = record(1, &route_octets(&OTHER_ESI, ten(1)));
    let absent = record(2, &[10, 0, 0, 1]);
    let rest = [
        zero,
        other,
        absent,
        query(0, &[]),
        query(1, &[]),
        announcement(1),
        query(1, &[]),
    ];
    assert_eq!(
        after_first(&rest.concat()),
        "p 0\na 6 21\na 5\nw 9\nq 10\nq 12\na 0\nq 0 10.0.0.1 1\n"
    );
}

/// A reader that gives one octet at a time.
struct Drip<'a>(&'a [u8]);

impl Read for Drip<'_> {
    fn read(&mut self, buffer: &mut [u8]) -> std::io::Result<usize> {
        match (self.0.split_first(), buffer.first_mut()) {
            (Some((octet, rest)), Some(slot)) => {
                *slot = *octet;
                self.0 = rest;
                Ok(1)
            }
            _ => Ok(0),
        }
    }
}

#[test]
fn short_reads_change_nothing() {
    let input = [
        esi_record(),
        announcement(1),
        announcement(2),
        query(5, &[]),
    ]
    .concat();
    let mut dripped = Vec::new();
    assert!(run(&mut Drip(&input), &mut dripped).is_ok());
    assert_eq!(dripped, output(&input).as_bytes());
}
