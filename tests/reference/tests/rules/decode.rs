//! Records as text lines, and back.

use crate::common::*;
use reference::address::Address::{V4, V6};
use reference::decode::lines;
use reference::encode::Encoder;

/// The octets that lines give.
fn encoded(lines: &[String]) -> Vec<u8> {
    let mut encoder = Encoder::default();
    let octets = |line: &String| encoder.line(line).expect("a line that can be read");
    lines.iter().flat_map(octets).collect()
}

/// The lines of some records after the identifier's.
fn after_first(records: &[Vec<u8>]) -> Vec<String> {
    let octets = [esi_record(), records.concat()].concat();
    let lines = lines(&octets);
    assert_eq!(encoded(&lines), octets);
    assert_eq!(lines[0], "plate 00:11:22:33:44:55:66:77:88:99");
    lines[1..].to_vec()
}

/// An announcement with distinguisher zero.
fn plain(last: u8, communities: &[u8]) -> Vec<u8> {
    let mut record = announcement_record(&ESI, ten(last), communities);
    record[6..14].fill(0);
    record
}

#[test]
fn every_kind_of_line() {
    let records = [
        plain(1, &[]),
        plain(2, &community_octets(0, false, false, 0)),
        plain(3, &community_octets(2, true, true, 500)),
        plain(4, &community_octets(31, true, false, 0)),
        announcement_record(&OTHER_ESI, six(1), &[6, 6, 2]),
        withdrawal_record(ten(1)),
        withdrawal_record(six(1)),
        query(5, &[]),
        query(u32::MAX, &[ten(1), V4(0)]),
        v6_query(5, &[]),
        v6_query(5, &[six(1), V6(0)]),
    ];
    assert_eq!(
        after_first(&records),
        [
            "announce 10.0.0.1",
            "announce 10.0.0.2 alg=0",
            "announce 10.0.0.3 alg=2 pref=500 dp acdf",
            "announce 10.0.0.4 alg=31 acdf",
            "announce 2001:db8::1 esi=00:11:22:33:44:55:66:77:88:98 rd=0102030405060708 \
             community=060602",
            "withdraw 10.0.0.1",
            "withdraw 2001:db8::1",
            "query 5",
            "query 4294967295 ready=10.0.0.1,0.0.0.0",
            "query 5 ready6=",
            "query 5 ready6=2001:db8::1,::",
        ]
    );
}

/// A refused route and a bad record have no line of their own; after a bad record all is raw.
#[test]
fn what_has_no_line_is_raw() {
    let zero = record(1, &[0; 25]);
    let records = [zero.clone(), query(5, &[]), record(9, &[1]), query(6, &[])];
    let expected = [
        format!("raw d54f0119{}", "00".repeat(25)),
        "query 5".to_string(),
        "raw d54f090101d54f030400000006".to_string(),
    ];
    assert_eq!(after_first(&records), expected);
    assert!(lines(&[]).is_empty());
}

/// A text that a line cannot hold is raw too, and what follows can still be read.
#[test]
fn texts_of_any_kind() {
    for text in [
        &b"#"[..],
        b" 1",
        b"1 ",
        b"\xFF",
        b"",
        b"a\nb",
        b"00:11",
        b"00 11",
    ] {
        let octets = [record(0, text), announcement_record(&ESI, ten(1), &[])].concat();
        assert_eq!(encoded(&lines(&octets)), octets);
    }
    let with_comment = [ESI_TEXT, b"#"].concat();
    let octets = [record(0, &with_comment), plain(1, &[])].concat();
    assert_eq!(encoded(&lines(&octets)), octets);
}
