//! The originator's address, IPv4 or IPv6. Document 02, M-105.
//!
//! House rule for order: every IPv4 address is lower than every IPv6 one; within a family they go
//! as unsigned numbers. The order of the cases below, and then of their numbers, is just that.

pub const V4_LENGTH: usize = 4;
pub const V6_LENGTH: usize = 16;
/// The words of a row of a ready list: the family, then the 16 octets, high octet first.
pub const ROW_WORDS: usize = 5;

/// An address as its number, high octet first.
#[derive(Clone, Copy, Debug, PartialEq, Eq, PartialOrd, Ord)]
pub enum Address {
    V4(u32),
    V6(u128),
}

impl Address {
    /// The address that these octets are: 4 of them or 16, and otherwise none.
    pub fn from_octets(octets: &[u8]) -> Option<Address> {
        if let Ok(octets) = <[u8; V4_LENGTH]>::try_from(octets) {
            return Some(Address::V4(u32::from_be_bytes(octets)));
        }
        let octets = <[u8; V6_LENGTH]>::try_from(octets).ok()?;
        Some(Address::V6(u128::from_be_bytes(octets)))
    }

    /// The address that a row of words is; none for a family other than 4 and 6. In an IPv4 row
    /// the words after the first of the address do not count.
    pub fn from_row(row: &[u32; ROW_WORDS]) -> Option<Address> {
        let [family, words @ ..] = row;
        let octets: Vec<u8> = words.iter().flat_map(|word| word.to_be_bytes()).collect();
        match family {
            4 => Address::from_octets(&octets[..V4_LENGTH]),
            6 => Address::from_octets(&octets),
            _ => None,
        }
    }

    /// Its own octets, 4 or 16.
    pub fn octets(self) -> Vec<u8> {
        match self {
            Address::V4(number) => number.to_be_bytes().to_vec(),
            Address::V6(number) => number.to_be_bytes().to_vec(),
        }
    }

    /// The family, 4 or 6, as answers carry it.
    pub fn family(self) -> u8 {
        match self {
            Address::V4(_) => 4,
            Address::V6(_) => 6,
        }
    }

    /// The 16 octets that answers carry: IPv4 in the first four, then zeros.
    pub fn sixteen(self) -> [u8; V6_LENGTH] {
        let mut sixteen = [0; V6_LENGTH];
        let octets = self.octets();
        sixteen[..octets.len()].copy_from_slice(&octets);
        sixteen
    }

    /// The number that is weighed: of 32 bits, or of 128.
    pub fn number(self) -> u128 {
        match self {
            Address::V4(number) => u128::from(number),
            Address::V6(number) => number,
        }
    }

    /// The all-zero address of either family.
    pub fn is_zero(self) -> bool {
        self.number() == 0
    }
}
