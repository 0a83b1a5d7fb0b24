//! The highest random weight: CRC-32, digest and weight. Document 01, "The election", rule 1;
//! document 02, M-105 (the number of an IPv6 address has 128 bits) and M-106 (the digest of a flow).

use crate::address::Address;
use crate::esi::Esi;

const CRC_POLYNOMIAL: u32 = 0xEDB8_8320;
const MULTIPLIER: u32 = 1_103_515_245;
const INCREMENT: u32 = 12_345;

/// CRC-32 of IEEE 802.3: reflected, starting with all ones, inverted at the end; bit by bit.
pub fn crc32(octets: &[u8]) -> u32 {
    let mut crc = 0xFFFF_FFFF;
    for octet in octets {
        crc ^= u32::from(*octet);
        for _ in 0..8 {
            crc = crc_bit(crc);
        }
    }
    !crc
}

/// One bit of the CRC.
fn crc_bit(crc: u32) -> u32 {
    if crc & 1 == 1 {
        (crc >> 1) ^ CRC_POLYNOMIAL
    } else {
        crc >> 1
    }
}

/// D: the CRC-32 of the tag in four octets, high first, and the ESI, with the top bit dropped.
pub fn digest(tag: u32, esi: &Esi) -> u32 {
    digest_over(&[], tag, esi)
}

/// The same with the octets of a multicast flow before the tag.
pub fn digest_over(flow: &[u8], tag: u32, esi: &Esi) -> u32 {
    let mut octets = flow.to_vec();
    octets.extend_from_slice(&tag.to_be_bytes());
    octets.extend_from_slice(esi);
    crc32(&octets) & 0x7FFF_FFFF
}

/// The weight of an address under a digest, as the document writes it: over the whole number of
/// the address, and the modulus at the end.
pub fn weight(address: Address, digest: u32) -> u32 {
    let inner = Wide::of(address.number())
        .times_plus(MULTIPLIER, INCREMENT)
        .xor(digest);
    inner.times_plus(MULTIPLIER, INCREMENT).low_31_bits()
}

/// A number below 2^192, the low 32 bits first. An address has up to 128 bits and each of the two
/// products adds up to 31, so that nothing runs over.
struct Wide([u32; 6]);

impl Wide {
    fn of(number: u128) -> Wide {
        Wide([0, 32, 64, 96, 128, 160].map(|low| number.checked_shr(low).unwrap_or(0) as u32))
    }

    fn times_plus(mut self, factor: u32, summand: u32) -> Wide {
        let mut carry = u64::from(summand);
        for part in &mut self.0 {
            let sum = u64::from(*part) * u64::from(factor) + carry;
            *part = sum as u32;
            carry = sum >> 32;
        }
        assert_eq!(carry, 0, "a weight ran over");
        self
    }

    fn xor(mut self, number: u32) -> Wide {
        self.0[0] ^= number;
        self
    }

    fn low_31_bits(&self) -> u32 {
        self.0[0] & 0x7FFF_FFFF
    }
}
