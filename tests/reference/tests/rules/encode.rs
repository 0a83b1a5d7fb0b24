//! The text form of records.

use crate::common::*;
use reference::address::Address;
use reference::encode::Encoder;

const ESI_LINE: &str = "plate 00:11:22:33:44:55:66:77:88:99";

/// The octets of a line that follows the identifier's line.
fn line(text: &str) -> Result<Vec<u8>, String> {
    let mut encoder = Encoder::default();
    assert!(encoder.line(ESI_LINE).is_ok());
    encoder.line(text)
}

/// An announcement record of 10.0.0.1 with the zero distinguisher.
fn announcement(communities: &[u8]) -> Vec<u8> {
    announcement_of(ten(1), communities)
}

fn announcement_of(address: Address, communities: &[u8]) -> Vec<u8> {
    let mut body = route_octets(&ESI, address);
    body[2..10].fill(0);
    body.extend(communities);
    let mut octets = vec![0xD5, 0x4F, 1, body.len() as u8];
    octets.extend(body);
    octets
}

#[test]
fn comments_and_empty_lines_give_nothing() {
    for text in ["", "   ", "# plate", "  # x"] {
        assert_eq!(line(text), Ok(vec![]));
    }
    assert_eq!(line("raw 01 # two"), Ok(vec![1]));
}

#[test]
fn the_identifier_is_taken_as_text() {
    let mut encoder = Encoder::default();
    assert_eq!(encoder.line("plate"), Ok(vec![0xD5, 0x4F, 0, 0]));
    assert_eq!(
        encoder.line("plate O l"),
        Ok(vec![0xD5, 0x4F, 0, 3, b'O', b' ', b'l'])
    );
    assert!(encoder.line("announce 10.0.0.1").is_err());
    assert!(encoder.line(ESI_LINE).is_ok());
    assert!(encoder.line("announce 10.0.0.1").is_ok());
}

#[test]
fn announcements() {
    assert_eq!(line("announce 10.0.0.1"), Ok(announcement(&[])));
    let full = community_octets(2, true, true, 500);
    assert_eq!(
        line("announce 10.0.0.1 alg=2 pref=500 dp acdf"),
        Ok(announcement(&full))
    );
    let default = community_octets(3, false, false, 32_767);
    assert_eq!(line("announce 10.0.0.1 alg=3"), Ok(announcement(&default)));
    let bit = community_octets(0, true, false, 0);
    assert_eq!(line("announce 10.0.0.1 acdf"), Ok(announcement(&bit)));
    let odd = [0x46, 6, 1];
    assert_eq!(
        line("announce 10.0.0.1 community=460601"),
        Ok(announcement(&odd))
    );
}

#[test]
fn another_identifier_and_distinguisher() {
    let mut expected = announcement(&[]);
    expected[4 + 2..4 + 10].copy_from_slice(&[1, 2, 3, 4, 5, 6, 7, 8]);
    expected[4 + 10..4 + 20].fill(0xFF);
    let text = "announce 10.0.0.1 rd=0102030405060708 esi=FF:FF:FF:FF:FF:FF:FF:FF:FF:FF";
    assert_eq!(line(text), Ok(expected));
}

#[test]
fn withdrawals_and_queries() {
    assert_eq!(
        line("withdraw 10.0.0.1"),
        Ok(vec![0xD5, 0x4F, 2, 4, 10, 0, 0, 1])
    );
    assert_eq!(line("query 5"), Ok(vec![0xD5, 0x4F, 3, 4, 0, 0, 0, 5]));
    let expected = vec![0xD5, 0x4F, 3, 8, 0xFF, 0xFF, 0xFF, 0xFF, 10, 0, 0, 2];
    assert_eq!(line("query 4294967295 ready=10.0.0.2"), Ok(expected));
    assert_eq!(line("query 5 ready="), line("query 5"));
}

/// The forms of RFC 4291, section 2.2, with the number that each says.
const IPV6_FORMS: [(&str, u128); 19] = [
    (
        "ABCD:EF01:2345:6789:ABCD:EF01:2345:6789",
        0xABCD_EF01_2345_6789_ABCD_EF01_2345_6789,
    ),
    (
        "2001:DB8:0:0:8:800:200C:417A",
        0x2001_0DB8_0000_0000_0008_0800_200C_417A,
    ),
    (
        "2001:db8::8:800:200c:417a",
        0x2001_0DB8_0000_0000_0008_0800_200C_417A,
    ),
    (
        "2001:0db8:0000:0000:0008:0800:200c:417a",
        0x2001_0DB8_0000_0000_0008_0800_200C_417A,
    ),
    ("FF01::101", 0xFF01_0000_0000_0000_0000_0000_0000_0101),
    (
        "FF01:0:0:0:0:0:0:101",
        0xFF01_0000_0000_0000_0000_0000_0000_0101,
    ),
    ("::1", 1),
    ("0:0:0:0:0:0:0:1", 1),
    ("::", 0),
    ("1::", 1 << 112),
    ("1:2:3:4:5:6:7::", 0x0001_0002_0003_0004_0005_0006_0007_0000),
    ("::2:3:4:5:6:7:8", 0x0000_0002_0003_0004_0005_0006_0007_0008),
    ("1:2:3::5:6:7:8", 0x0001_0002_0003_0000_0005_0006_0007_0008),
    ("0:0:0:0:0:0:13.1.68.3", 0x0D01_4403),
    ("::13.1.68.3", 0x0D01_4403),
    ("0:0:0:0:0:FFFF:129.144.52.38", 0xFFFF_8190_3426),
    ("::FFFF:129.144.52.38", 0xFFFF_8190_3426),
    (
        "64:ff9b::10.0.0.1",
        0x0064_FF9B_0000_0000_0000_0000_0A00_0001,
    ),
    ("fe80::1", 0xFE80_0000_0000_0000_0000_0000_0000_0001),
];

#[test]
fn ipv6_addresses_as_people_write_them() {
    for (text, number) in IPV6_FORMS {
        let address = Address::V6(number);
        let expected = Ok(announcement_of(address, &[]));
        assert_eq!(line(&format!("announce {text}")), expected, "{text}");
        let mut gone = vec![0xD5, 0x4F, 4, 16];
        gone.extend(address.octets());
        assert_eq!(line(&format!("withdraw {text}")), Ok(gone));
        let mut asked = vec![0xD5, 0x4F, 5, 20, 0, 0, 0, 5];
        asked.extend(address.octets());
        assert_eq!(line(&format!("query 5 ready6={text}")), Ok(asked));
    }
}

#[test]
fn ipv6_announcements_with_options() {
    let full = community_octets(2, true, true, 500);
    assert_eq!(
        line("announce 2001:db8::7 alg=2 pref=500 dp acdf"),
        Ok(announcement_of(six(7), &full))
    );
}

/// A list's name says its family, an empty one's too.
#[test]
fn lists_of_one_family() {
    assert_eq!(line("query 5 ready="), line("query 5"));
    assert_eq!(
        line("query 5 ready6="),
        Ok(vec![0xD5, 0x4F, 5, 4, 0, 0, 0, 5])
    );
    let list = |count: usize| format!("query 5 ready6={}", vec!["::2"; count].join(","));
    assert_eq!(line(&list(15)).map(|octets| octets.len()), Ok(248));
    assert!(line(&list(16)).is_err());
}

#[test]
fn a_record_holds_sixty_two_ready_addresses() {
    let list = |count: usize| format!("query 5 ready={}", vec!["10.0.0.2"; count].join(","));
    assert_eq!(line(&list(62)).map(|octets| octets.len()), Ok(256));
    assert!(line(&list(63)).is_err());
}

#[test]
fn mistakes_are_named() {
    for text in [
        "anounce 10.0.0.1",
        "announce",
        "announce 10.0.0.256",
        "announce 10.0.0.1 alg=32",
        "announce 10.0.0.1 alg=2 alg=2",
        "announce 10.0.0.1 pref=5",
        "announce 10.0.0.1 alg=1 dp",
        "announce 10.0.0.1 alg=2 pref=65536",
        "announce 10.0.0.1 colour=2",
        "announce 10.0.0.1 esi=00:11",
        "announce 10.0.0.1 rd=01",
        "withdraw",
        "withdraw 10.0.0.1 10.0.0.2",
        "query",
        "query -1",
        "query 4294967296",
        "query 5 10.0.0.1",
        "query 5 ready=10.0.0.1 10.0.0.2",
        "query 5 ready=::1",
        "query 5 ready6=10.0.0.1",
        "query 5 ready6=::1,10.0.0.1",
        "query 5 ready=10.0.0.1 ready6=::1",
        "query 5 ready4=10.0.0.1",
        "query 5 ready6",
        "announce :",
        "announce :::",
        "announce 1::2::3",
        "announce 1:2:3:4:5:6:7",
        "announce 1:2:3:4:5:6:7:8:9",
        "announce 1:2:3:4:5:6:7:8::",
        "announce ::1:2:3:4:5:6:7:8",
        "announce :1:2:3:4:5:6:7",
        "announce 1:2:3:4:5:6:7:",
        "announce 12345::",
        "announce ::g",
        "announce ::10.0.0",
        "announce ::10.0.0.256",
        "announce 10.0.0.1::",
        "announce ::10.0.0.1:1",
        "announce 1:2:3:4:5:6:7:10.0.0.1",
        "announce fe80::1%eth0",
        "announce [::1]",
        "announce 2001:db8::/32",
        "withdraw ::x",
        "raw 0",
        "raw 0x10",
    ] {
        assert!(line(text).is_err(), "{text}");
    }
}
