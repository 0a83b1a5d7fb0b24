//! Reading and writing the text of an identifier.

use crate::common::*;
use reference::esi::{read_text, text_place, write_text};
use reference::refusal::Refusal;

#[test]
fn digits_of_both_cases_are_read() {
    let expected = Ok([0xab, 0xcd, 0xef, 0xAB, 0xCD, 0xEF, 0x01, 0x23, 0x45, 0x67]);
    assert_eq!(read_text(b"ab:cd:ef:AB:CD:EF:01:23:45:67"), expected);
    assert_eq!(read_text(b"aB:Cd:eF:Ab:cD:Ef:01:23:45:67"), expected);
    assert_eq!(read_text(ESI_TEXT), Ok(ESI));
}

#[test]
fn every_character_at_every_place() {
    for place in 0..29 {
        for character in 0..=255u8 {
            let mut text = ESI_TEXT.to_vec();
            text[place] = character;
            let good = if place % 3 == 2 {
                character == b':'
            } else {
                character.is_ascii_hexdigit()
            };
            let answer = read_text(&text).map(|_| ());
            let expected = if good { Ok(()) } else { Err(Refusal::EsiText) };
            assert_eq!(answer, expected, "place {place}, character {character}");
            assert_eq!(text_place(&text), if good { 0 } else { place });
        }
    }
}

#[test]
fn the_letters_o_and_l_are_no_digits() {
    assert_eq!(
        read_text(b"0O:11:22:33:44:55:66:77:88:99"),
        Err(Refusal::EsiText)
    );
    assert_eq!(
        read_text(b"00:1l:22:33:44:55:66:77:88:99"),
        Err(Refusal::EsiText)
    );
}

#[test]
fn every_other_length_is_refused() {
    let long = b"00:11:22:33:44:55:66:77:88:99:aa:bb:cc:dd:ee:ff:00:11:22:33:44";
    for length in 0..long.len() {
        let answer = read_text(&long[..length]).map(|_| ());
        let expected = if length == 29 {
            Ok(())
        } else {
            Err(Refusal::EsiText)
        };
        assert_eq!(answer, expected, "length {length}");
    }
    assert_eq!(
        read_text(b"00:11:22:33:44:55:66:77:88:99\n"),
        Err(Refusal::EsiText)
    );
}

#[test]
fn the_first_wrong_character_is_told() {
    for place in 0..29 {
        for other in place..29 {
            let mut text = ESI_TEXT.to_vec();
            text[place] = b'x';
            text[other] = b'x';
            assert_eq!(text_place(&text), place);
        }
    }
}

/// A wrong character among the first 29 beats the length; after them there is none.
#[test]
fn places_of_texts_of_another_length() {
    let long = b"00:11:22:33:44:55:66:77:88:99:aa:bb:cc:dd:ee:ff:00:11:22:33:44";
    for length in (0..long.len()).filter(|length| *length != 29) {
        assert_eq!(text_place(&long[..length]), length.min(29));
        for place in 0..length {
            let mut text = long[..length].to_vec();
            text[place] = b'O';
            assert_eq!(text_place(&text), place.min(29));
        }
    }
    assert_eq!(text_place(b"00:00:00:00:00:00:00:00:00:00"), 0);
    assert_eq!(text_place(ESI_TEXT), 0);
}

#[test]
fn the_text_is_tested_before_reserved_identifiers() {
    assert_eq!(
        read_text(b"00:00:00:00:00:00:00:00:00:00"),
        Err(Refusal::ReservedEsi)
    );
    assert_eq!(
        read_text(b"ff:FF:fF:Ff:ff:FF:ff:ff:ff:ff"),
        Err(Refusal::ReservedEsi)
    );
    assert_eq!(
        read_text(b"00:00:00:00:00:00:00:00:00:0O"),
        Err(Refusal::EsiText)
    );
    assert_eq!(
        read_text(b"00:00:00:00:00:00:00:00:00:00:"),
        Err(Refusal::EsiText)
    );
}

#[test]
fn text_is_written_in_lower_case() {
    let mut buffer = [b'.'; 31];
    let esi = [0xAB, 0xCD, 0xEF, 0x01, 0, 0xFF, 0x90, 0x0A, 0xA0, 0x10];
    assert_eq!(write_text(&esi, &mut buffer), Ok(()));
    assert_eq!(&buffer, b"ab:cd:ef:01:00:ff:90:0a:a0:10..");
    assert_eq!(read_text(&buffer[..29]), Ok(esi));
}

#[test]
fn checks_of_writing_in_order() {
    for length in 0..35 {
        let mut buffer = vec![b'.'; length];
        assert_eq!(write_text(&[0; 10], &mut buffer), Err(Refusal::ReservedEsi));
        assert_eq!(
            write_text(&[0xFF; 10], &mut buffer),
            Err(Refusal::ReservedEsi)
        );
        assert_eq!(write_text(&[1; 9], &mut buffer), Err(Refusal::ReservedEsi));
        assert_eq!(write_text(&[1; 11], &mut buffer), Err(Refusal::ReservedEsi));
        assert!(buffer.iter().all(|character| *character == b'.'));
        let expected = if length < 29 {
            Err(Refusal::ShortBuffer)
        } else {
            Ok(())
        };
        assert_eq!(write_text(&ESI, &mut buffer), expected);
        let kept = if length < 29 { 0 } else { 29 };
        assert!(buffer.iter().skip(kept).all(|character| *character == b'.'));
    }
}
