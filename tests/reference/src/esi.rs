//! The segment identifier (ESI) and its text: ten pairs of hex digits with colons between them.
//! Document 01, "The route" (reserved identifiers) and "The plate" (the text); document 02, M-103
//! (where a text is wrong).

use crate::refusal::Refusal;

pub const ESI_LENGTH: usize = 10;
pub const TEXT_LENGTH: usize = 29;

pub type Esi = [u8; ESI_LENGTH];

/// Ten octets 00 and ten octets FF are reserved; so is anything that is not ten octets.
pub fn is_reserved(esi: &[u8]) -> bool {
    esi.len() != ESI_LENGTH
        || esi.iter().all(|octet| *octet == 0x00)
        || esi.iter().all(|octet| *octet == 0xFF)
}

/// The ten octets, if they may name a segment.
pub fn usable(esi: &[u8]) -> Result<Esi, Refusal> {
    if is_reserved(esi) {
        return Err(Refusal::ReservedEsi);
    }
    Esi::try_from(esi).map_err(|_| Refusal::ReservedEsi)
}

/// Reads the text. Anything but the 29 characters is 13; then a reserved identifier is 4.
pub fn read_text(text: &[u8]) -> Result<Esi, Refusal> {
    usable(&parse_text(text)?)
}

/// Reads the text without the test for reserved identifiers.
pub fn parse_text(text: &[u8]) -> Result<Esi, Refusal> {
    if text.len() != TEXT_LENGTH {
        return Err(Refusal::EsiText);
    }
    let mut esi = [0; ESI_LENGTH];
    for (place, octet) in esi.iter_mut().enumerate() {
        let start = 3 * place;
        if place > 0 && text[start - 1] != b':' {
            return Err(Refusal::EsiText);
        }
        *octet = 16 * digit(text[start])? + digit(text[start + 1])?;
    }
    Ok(esi)
}

/// Where a text is wrong: the index of the first wrong character, else the text's length if under
/// 29, else 29 if more follow. A text that can be read, reserved or not, has 0.
pub fn text_place(text: &[u8]) -> usize {
    if parse_text(text).is_ok() {
        return 0;
    }
    for (place, character) in text.iter().take(TEXT_LENGTH).enumerate() {
        let right = match place % 3 {
            2 => *character == b':',
            _ => digit(*character).is_ok(),
        };
        if !right {
            return place;
        }
    }
    text.len().min(TEXT_LENGTH)
}

/// The value of one hex digit.
fn digit(character: u8) -> Result<u8, Refusal> {
    match character {
        b'0'..=b'9' => Ok(character - b'0'),
        b'a'..=b'f' => Ok(character - b'a' + 10),
        b'A'..=b'F' => Ok(character - b'A' + 10),
        _ => Err(Refusal::EsiText),
    }
}

/// Writes the text in lower case. A reserved identifier is 4; then a buffer under 29 is 14.
/// Only the first 29 characters of the buffer change.
pub fn write_text(esi: &[u8], buffer: &mut [u8]) -> Result<(), Refusal> {
    let esi = usable(esi)?;
    if buffer.len() < TEXT_LENGTH {
        return Err(Refusal::ShortBuffer);
    }
    let text = text_of(&esi);
    buffer[..TEXT_LENGTH].copy_from_slice(text.as_bytes());
    Ok(())
}

/// The text of any ten octets.
pub fn text_of(esi: &Esi) -> String {
    let pairs: Vec<String> = esi.iter().map(|octet| format!("{octet:02x}")).collect();
    pairs.join(":")
}
