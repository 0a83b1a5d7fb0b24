//! The last announcement in two dumps (document 02, M-111): the order of its numbers, which records
//! count, and the octets that come back.

use crate::common::*;
use reference::address::Address::{self, V4, V6};
use reference::dumps::Dump::{First, Second};
use reference::dumps::{last_announcement, Part};
use reference::refusal::Refusal::{self, BadRecord, NotPresent, ZeroAddress};

fn announcement(address: Address) -> Vec<u8> {
    announcement_record(&ESI, address, &[])
}

/// A dump: the identifier's record, and these.
fn dump(records: &[Vec<u8>]) -> Vec<u8> {
    [esi_record(), records.concat()].concat()
}

/// The record that comes back, as its octets, with the dump that has it.
fn found(first: &[u8], second: &[u8], address: Address) -> Result<(bool, Vec<u8>), Refusal> {
    let Part {
        dump,
        start,
        length,
    } = last_announcement(first, second, address)?;
    let (in_first, octets) = match dump {
        First => (true, first),
        Second => (false, second),
    };
    Ok((in_first, octets[start..start + length].to_vec()))
}

#[test]
fn the_first_dump_and_else_the_second() {
    let with = dump(&[announcement(ten(1)), announcement(six(1))]);
    let without = dump(&[announcement(ten(2))]);
    for address in [ten(1), six(1)] {
        let record = announcement(address);
        for other in [&with, &without, &esi_record(), &Vec::new()] {
            assert_eq!(found(&with, other, address), Ok((true, record.clone())));
        }
        for other in [&without, &esi_record(), &Vec::new()] {
            assert_eq!(found(other, &with, address), Ok((false, record.clone())));
        }
    }
    assert_eq!(found(&with, &without, ten(3)), Err(NotPresent));
    assert_eq!(found(&[], &[], ten(3)), Err(NotPresent));
}

/// The whole record, where it stands.
#[test]
fn the_place_of_the_record() {
    let octets = dump(&[announcement(ten(2)), announcement(six(1))]);
    let part = Part {
        dump: Second,
        start: 33 + 29,
        length: 41,
    };
    assert_eq!(last_announcement(&[], &octets, six(1)), Ok(part));
}

#[test]
fn the_last_one_is_told() {
    let of = |preference| {
        announcement_record(&ESI, ten(1), &community_octets(2, false, false, preference))
    };
    let records = [of(1), announcement(ten(2)), of(2), announcement(six(1))];
    assert_eq!(
        found(&dump(&records), &dump(&[of(3)]), ten(1)),
        Ok((true, of(2)))
    );
}

/// Withdrawals and queries of the address, and the end of a long record, hide nothing.
#[test]
fn what_comes_later_does_not_hide() {
    for address in [ten(1), six(1)] {
        let octets = dump(&[
            announcement(address),
            withdrawal_record(address),
            withdrawal_record(address),
            query(7, &[ten(1)]),
            v6_query(7, &[six(1)]),
        ]);
        assert_eq!(
            found(&octets, &[], address),
            Ok((true, announcement(address)))
        );
    }
}

/// Another segment and any length of the community list count; a route that is refused does not.
#[test]
fn the_route_reader_decides() {
    for address in [ten(1), six(1)] {
        let older = announcement(address);
        let counts = |record: Vec<u8>| {
            let octets = dump(&[older.clone(), record.clone()]);
            let expected = match found(&octets, &[], address) {
                Ok((true, found)) if found == record => return true,
                other => other,
            };
            assert_eq!(expected, Ok((true, older.clone())));
            false
        };
        assert!(counts(announcement_record(&OTHER_ESI, address, &[])));
        for length in 1..=218 {
            assert!(counts(announcement_record(&ESI, address, &vec![6; length])));
        }
        assert!(!counts(announcement_record(&[0; 10], address, &[])));
        assert!(!counts(announcement_record(&[0xFF; 10], address, &[])));
        for (place, wrong) in [(0, 5), (1, 24), (1, 35), (1, 23), (20, 31), (20, 0)] {
            let mut body = route_octets(&ESI, address);
            if body[place] != wrong {
                body[place] = wrong;
                assert!(!counts(record(1, &body)), "{place} {wrong}");
            }
        }
    }
}

/// Addresses of the other family with the same octets are others.
#[test]
fn the_family_counts() {
    let number = 0x0A00_0001;
    let alike = [
        V4(number),
        mapped(number),
        V6(number.into()),
        V6(u128::from(number) << 96),
    ];
    for address in alike {
        for asked in alike {
            let answer = found(&dump(&[announcement(address)]), &[], asked);
            assert_eq!(answer.is_ok(), address == asked);
        }
    }
}

/// Address zero comes before all else; a rule that either dump breaks comes next.
#[test]
fn the_order_of_the_numbers() {
    let good = dump(&[announcement(ten(1))]);
    let empty = Vec::new();
    let broken = [
        announcement(ten(1)),
        record(9, &[]),
        good[..good.len() - 1].to_vec(),
        [good.clone(), vec![0xD5]].concat(),
        [good.clone(), esi_record()].concat(),
        [good.clone(), record(2, &[10, 0, 0, 1, 0])].concat(),
    ];
    for bad in &broken {
        for other in [&good, &empty, bad] {
            for address in [ten(1), ten(2), six(1)] {
                assert_eq!(last_announcement(bad, other, address), Err(BadRecord));
                assert_eq!(last_announcement(other, bad, address), Err(BadRecord));
            }
            for zero in [V4(0), V6(0)] {
                assert_eq!(last_announcement(bad, other, zero), Err(ZeroAddress));
                assert_eq!(last_announcement(other, bad, zero), Err(ZeroAddress));
            }
        }
    }
}

/// A plate's text, and its length, are not looked at.
#[test]
fn any_text_stands_first() {
    for length in 0..=255 {
        let octets = [record(0, &vec![0xD5; length]), announcement(ten(1))].concat();
        let part = Part {
            dump: First,
            start: 4 + length,
            length: 29,
        };
        assert_eq!(last_announcement(&octets, &[], ten(1)), Ok(part));
    }
}

/// A dump is whole only where a record ends.
#[test]
fn a_dump_cut_at_every_octet() {
    let records = [
        esi_record(),
        announcement(ten(1)),
        query(1, &[ten(1), ten(2)]),
        announcement(six(1)),
        withdrawal_record(six(1)),
        v6_query(1, &[six(1)]),
        withdrawal_record(ten(1)),
    ];
    let mut ends = vec![0];
    for record in &records {
        ends.push(ends[ends.len() - 1] + record.len());
    }
    let octets = records.concat();
    for cut in 0..=octets.len() {
        let answer = last_announcement(&octets[..cut], &octets, ten(1)).map(|part| part.dump);
        let expected = match ends.contains(&cut) {
            false => Err(BadRecord),
            true if cut < ends[2] => Ok(Second),
            true => Ok(First),
        };
        assert_eq!(answer, expected, "cut at {cut}");
    }
}
