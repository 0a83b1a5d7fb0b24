//! What the baselines read from octets and words in the same way: addresses, the route's checks, the list of communities, the checks of an election, the
//! algorithm numbers of the elections by flow, a range of tags, the digests and the weight.
//! The CRC goes through a static table of 256 entries, one look for each octet, with four octets mixed into the register at once as one word, in all of them.

use crate::answer::{Address, Circuit, Family, Verdict, CIRCUIT_WORDS, RANGE_WORDS, ROW_WORDS};

pub const MAX_ROUTES: usize = 64;
pub const MAX_READY: usize = 64;
pub const MAX_CIRCUITS: usize = 256;
pub const MAX_RANGES: usize = 16;
/// From so many words on a ready list has more rows than it may.
const TOO_MANY_READY: usize = (MAX_READY + 1) * ROW_WORDS;

const MAX_COMMUNITIES: usize = 256;
const MULTIPLIER: u32 = 1_103_515_245;
const TWICE_MULTIPLIER: u32 = 2_207_030_490;
const INCREMENT: u32 = 12_345;
const LOW_31_BITS: u32 = 0x7FFF_FFFF;

/// An address as a baseline keeps it: the number that its octets make, high octet first.
#[derive(Clone, Copy, Debug, PartialEq, Eq)]
pub enum Number {
    V4(u32),
    V6(u128),
}

impl Number {
    #[inline(always)]
    pub fn of(address: Address) -> Number {
        match address.family {
            Family::V4 => Number::V4(address.words[0]),
            Family::V6 => Number::V6(wide(&address.words)),
        }
    }

    #[inline]
    pub fn is_zero(self) -> bool {
        matches!(self, Number::V4(0) | Number::V6(0))
    }

    /// The low 32 bits, of which 31 are weighed.
    #[inline]
    pub fn low_word(self) -> u32 {
        match self {
            Number::V4(number) => number,
            Number::V6(number) => number as u32,
        }
    }

    /// The family and the four words that an answer has.
    #[inline]
    pub fn answered(self) -> (u8, [u32; 4]) {
        match self {
            Number::V4(number) => (4, [number, 0, 0, 0]),
            Number::V6(number) => (6, [96, 64, 32, 0].map(|low| (number >> low) as u32)),
        }
    }
}

/// The number that four words make, the high one first.
#[inline(always)]
pub fn wide(words: &[u32; 4]) -> u128 {
    // two words in a row are one load, and then change places
    let pair = |at: usize| u64::from(words[at]) | u64::from(words[at + 1]) << 32;
    let [high, low] = [pair(0), pair(2)].map(|pair| u128::from(pair.rotate_left(32)));
    high << 64 | low
}

/// What a route's communities say; DP and preference are zero unless the algorithm is 2 or 3.
#[derive(Clone, Copy, Debug, Default, PartialEq, Eq)]
pub struct Election {
    pub algorithm: u8,
    pub ac_df: bool,
    pub dp: bool,
    pub preference: u16,
}

/// The algorithm numbers of the elections by flow; both are 0 where none are set.
#[derive(Clone, Copy, Debug, Default, PartialEq, Eq)]
pub struct FlowAlgorithms {
    pub source_group: u8,
    pub any_source: u8,
}

impl FlowAlgorithms {
    /// Two different numbers from 4 to 30 are set; with others the old ones are kept.
    #[inline]
    pub fn set(&mut self, source_group: u8, any_source: u8) -> u8 {
        let usable = 4..=30;
        let differ = source_group != any_source;
        if !(usable.contains(&source_group) && usable.contains(&any_source) && differ) {
            return 15;
        }
        *self = FlowAlgorithms {
            source_group,
            any_source,
        };
        0
    }

    /// What an election goes by where all routes carry an algorithm: that one if it is 0 to 3, or the number of the flow's own kind; 1 if it is another
    /// number that is set. None where no election goes by it.
    #[inline(always)]
    pub fn in_use(self, carried: u8, flow: Flow) -> Option<u8> {
        if carried <= 3 || carried == flow.number {
            return Some(carried);
        }
        (carried == self.source_group || carried == self.any_source).then_some(1)
    }
}

/// A multicast flow, by the octets of its source and its group, and the algorithm number that is set for its kind. Of a flow (*,G) the source is empty.
#[derive(Clone, Copy)]
pub struct Flow<'a> {
    pub number: u8,
    pub source: &'a [u8],
    pub group: &'a [u8],
}

impl Flow<'_> {
    /// What a plain election is for.
    pub const NONE: Flow<'static> = Flow {
        number: 0,
        source: &[],
        group: &[],
    };

    /// The digest that routers are weighed by under an algorithm in use: 1, or the number of the flow's kind.
    #[inline(always)]
    pub fn digest(self, algorithm: u8, tag: u32, esi: &[u8; 10]) -> u32 {
        if algorithm == 1 {
            return digest(tag, esi);
        }
        let crc = crc_fours(crc_fours(u32::MAX, self.source), self.group);
        digest_after(crc, tag, esi)
    }
}

/// The tags from the first to the last, and the algorithm that they get where 2 or 3 is in use.
#[derive(Clone, Copy, Debug, Default, PartialEq, Eq)]
pub struct TagRange {
    pub first: u32,
    pub last: u32,
    pub algorithm: u8,
}

/// The rows of a run of ranges of tags. Words that are no whole number of rows, or more than 16 rows, 20.
#[inline]
pub fn range_rows(run: &[u32]) -> Result<&[[u32; RANGE_WORDS]], u8> {
    let (rows, rest) = run.as_chunks();
    if !rest.is_empty() || rows.len() > MAX_RANGES {
        return Err(20);
    }
    Ok(rows)
}

/// The range of a row. One that runs backwards, has a reserved tag or names neither 2 nor 3, 20.
#[inline]
pub fn check_range(row: &[u32; RANGE_WORDS]) -> Result<TagRange, u8> {
    let [first, last, algorithm] = *row;
    if first == 0 || first > last || last == u32::MAX || !matches!(algorithm, 2 | 3) {
        return Err(20);
    }
    Ok(TagRange {
        first,
        last,
        algorithm: algorithm as u8,
    })
}

/// The checks of every election: a reserved tag, 10; a ready list over 64, 11.
#[inline(always)]
pub fn check_election(tag: u32, ready: &[u32]) -> Result<(), u8> {
    if tag == 0 || tag == u32::MAX {
        return Err(10);
    }
    if ready.len() >= TOO_MANY_READY {
        return Err(11);
    }
    Ok(())
}

/// The check of a group: 4 octets or 16; else 18.
#[inline(always)]
pub fn check_group(group: &[u8]) -> Result<(), u8> {
    if group.len() != 4 && group.len() != 16 {
        return Err(18);
    }
    Ok(())
}

/// The check of a source and a group: both of 4 octets, or both of 16; else 18.
#[inline(always)]
pub fn check_source_group(source: &[u8], group: &[u8]) -> Result<(), u8> {
    if source.len() != group.len() {
        return Err(18);
    }
    check_group(group)
}

/// The tag by which a baseline keeps an Ethernet A-D route, 0 for a per-segment one, and its address; or the first check that refuses it.
#[inline]
pub fn check_circuit(route: Circuit) -> Result<(u32, Number), u8> {
    let number = Number::of(route.address);
    if number.is_zero() {
        return Err(6);
    }
    if !route.per_instance {
        return Ok((0, number));
    }
    if route.tag == 0 || route.tag == u32::MAX {
        return Err(10);
    }
    Ok((route.tag, number))
}

/// The row of an Ethernet A-D route that is kept by a tag, 0 for a per-segment one, and an address.
pub fn circuit_row(tag: u32, number: Number) -> [u32; CIRCUIT_WORDS] {
    let kind = if tag == 0 { 1 } else { 2 };
    let (family, [a, b, c, d]) = number.answered();
    [kind, tag, family.into(), a, b, c, d]
}

pub fn is_reserved(esi: &[u8]) -> bool {
    esi.len() != 10 || esi == [0x00; 10] || esi == [0xFF; 10]
}

/// The originator of a route, or the first check that refuses it: its number and its place.
#[inline]
pub fn check_route(s: &[u8]) -> Result<Number, Verdict> {
    if s.len() < 21 {
        return Err(Verdict::refused(1, s.len()));
    }
    if s[0] != 4 {
        return Err(Verdict::refused(2, 0));
    }
    match s[20] {
        32 => match u32::from_be_bytes(address_in(s)?) {
            0 => Err(Verdict::refused(6, 21)),
            number => Ok(Number::V4(number)),
        },
        128 => match u128::from_be_bytes(address_in(s)?) {
            0 => Err(Verdict::refused(6, 21)),
            number => Ok(Number::V6(number)),
        },
        _ => Err(Verdict::refused(3, 20)),
    }
}

/// The address of N octets of a route, after the checks of the total, of the length octet and of the identifier.
#[inline]
fn address_in<const N: usize>(s: &[u8]) -> Result<[u8; N], Verdict> {
    let Some(octets) = s.get(21..).and_then(|rest| rest.try_into().ok()) else {
        return Err(Verdict::refused(1, s.len()));
    };
    if usize::from(s[1]) != 19 + N {
        return Err(Verdict::refused(1, 1));
    }
    if is_reserved(&s[10..20]) {
        return Err(Verdict::refused(4, 10));
    }
    Ok(octets)
}

/// What a list of communities says, or the refusal 7: the election community is read, and several count as none.
#[inline]
pub fn read_communities(list: &[u8]) -> Result<Election, Verdict> {
    if list.len() > MAX_COMMUNITIES || !list.len().is_multiple_of(8) {
        return Err(Verdict::refused(7, 0));
    }
    let mut elections = list
        .chunks_exact(8)
        .filter(|one| one[0] == 6 && one[1] == 6);
    let first = elections.next();
    if elections.next().is_some() {
        return Ok(Election::default());
    }
    Ok(first.map(read_community).unwrap_or_default())
}

#[inline]
fn read_community(one: &[u8]) -> Election {
    let algorithm = one[2] & 31;
    let weighs = algorithm == 2 || algorithm == 3;
    Election {
        algorithm,
        ac_df: one[3] & 0x40 != 0,
        dp: weighs && one[3] & 0x80 != 0,
        preference: if weighs {
            u16::from_be_bytes([one[6], one[7]])
        } else {
            0
        },
    }
}

/// The digest D of a tag on a segment.
#[inline]
pub fn digest(tag: u32, esi: &[u8; 10]) -> u32 {
    digest_after(u32::MAX, tag, esi)
}

/// The digest from the CRC register on that a tag and an identifier find.
#[inline(always)]
fn digest_after(crc: u32, tag: u32, esi: &[u8; 10]) -> u32 {
    let mut octets = [0; 14];
    octets[..4].copy_from_slice(&tag.to_be_bytes());
    octets[4..].copy_from_slice(esi);
    let (fours, two) = octets.split_at(12);
    let mixed = crc_fours(crc, fours) ^ u32::from(u16::from_le_bytes([two[0], two[1]]));
    !crc_step(crc_step(mixed)) & LOW_31_BITS
}

/// The CRC register after octets whose number is a multiple of four.
#[inline(always)]
fn crc_fours(mut crc: u32, octets: &[u8]) -> u32 {
    for four in octets.as_chunks::<4>().0 {
        let mixed = crc ^ u32::from_le_bytes(*four);
        crc = crc_step(crc_step(crc_step(crc_step(mixed))));
    }
    crc
}

/// The CRC register after an octet that is mixed into it already.
#[inline(always)]
fn crc_step(mixed: u32) -> u32 {
    (mixed >> 8) ^ CRC_TABLE[usize::from(mixed as u8)]
}

/// The weight of an address under a digest, by the address's low word: only the low 31 bits of each product count.
#[inline]
pub fn weight(low_word: u32, digest: u32) -> u32 {
    MULTIPLIER.wrapping_mul(mixed(low_word, digest)).wrapping_add(INCREMENT) & LOW_31_BITS
}

/// Twice the weight, which fills a word: no bit is left to cut off.
#[inline]
pub fn doubled_weight(low_word: u32, digest: u32) -> u32 {
    TWICE_MULTIPLIER.wrapping_mul(mixed(low_word, digest)).wrapping_add(2 * INCREMENT)
}

/// What is multiplied second.
#[inline(always)]
fn mixed(low_word: u32, digest: u32) -> u32 {
    MULTIPLIER.wrapping_mul(low_word).wrapping_add(INCREMENT) ^ digest
}

/// The CRC register after each octet, from an empty register.
static CRC_TABLE: [u32; 256] = crc_table();

const fn crc_table() -> [u32; 256] {
    let mut table = [0; 256];
    let mut octet = 0;
    while octet < 256 {
        let mut crc = octet as u32;
        let mut bit = 0;
        while bit < 8 {
            crc = (crc >> 1) ^ (0xEDB8_8320 * (crc & 1));
            bit += 1;
        }
        table[octet] = crc;
        octet += 1;
    }
    table
}
