//! The DF Election Extended Community: 8 octets. Document 01, "The community", mended by document
//! 02, M-101.
//!
//! 06, 06, an octet with the algorithm in its low five bits, two octets of capability bits,
//! a reserved octet, two octets of preference, high first.

use crate::refusal::Refusal;

pub const COMMUNITY_LENGTH: usize = 8;
pub const MAX_LIST_LENGTH: usize = 256;
pub const MAX_ALGORITHM: u8 = 31;
pub const HIGHEST_PREFERENCE: u8 = 2;
pub const LOWEST_PREFERENCE: u8 = 3;
/// What a configuration starts from; no rule of reading or election uses it.
pub const DEFAULT_PREFERENCE: u16 = 32_767;

const ELECTION_TYPE: [u8; 2] = [0x06, 0x06];
const DP_BIT: u8 = 0x80;
const AC_DF_BIT: u8 = 0x40;

/// What an election community says. The default is that of a route without one.
#[derive(Clone, Copy, Debug, Default, PartialEq, Eq)]
pub struct Community {
    pub algorithm: u8,
    pub ac_df: bool,
    pub dp: bool,
    pub preference: u16,
}

/// DP and preference mean something only under Highest-Preference and Lowest-Preference.
pub fn uses_preference(algorithm: u8) -> bool {
    algorithm == HIGHEST_PREFERENCE || algorithm == LOWEST_PREFERENCE
}

/// A list of communities is a multiple of 8 octets, 0 to 256; any other length is 7.
pub fn check_list_length(list: &[u8]) -> Result<(), Refusal> {
    if list.len() > MAX_LIST_LENGTH || list.len() % COMMUNITY_LENGTH != 0 {
        return Err(Refusal::CommunityLength);
    }
    Ok(())
}

/// Reads a list: the election community in it, or the default if there is none. Several election
/// communities count as none, identical ones too.
pub fn read_list(list: &[u8]) -> Result<Community, Refusal> {
    check_list_length(list)?;
    let elections: Vec<&[u8]> = list
        .chunks_exact(COMMUNITY_LENGTH)
        .filter(|one| one[..2] == ELECTION_TYPE)
        .collect();
    if elections.len() == 1 {
        Ok(read_one(elections[0]))
    } else {
        Ok(Community::default())
    }
}

/// Reads the 8 octets of one election community.
fn read_one(octets: &[u8]) -> Community {
    let algorithm = octets[2] & MAX_ALGORITHM;
    let plain = Community {
        algorithm,
        ac_df: octets[3] & AC_DF_BIT != 0,
        ..Community::default()
    };
    if !uses_preference(algorithm) {
        return plain;
    }
    Community {
        dp: octets[3] & DP_BIT != 0,
        preference: u16::from_be_bytes([octets[6], octets[7]]),
        ..plain
    }
}

/// Writes a community. An algorithm above 31 is 15; then a buffer under 8 octets is 14.
/// Only the first 8 octets of the buffer change.
pub fn write(community: &Community, buffer: &mut [u8]) -> Result<(), Refusal> {
    if community.algorithm > MAX_ALGORITHM {
        return Err(Refusal::Algorithm);
    }
    if buffer.len() < COMMUNITY_LENGTH {
        return Err(Refusal::ShortBuffer);
    }
    buffer[..COMMUNITY_LENGTH].copy_from_slice(&octets_of(community));
    Ok(())
}

/// The 8 octets of a community whose algorithm is 0 to 31.
fn octets_of(community: &Community) -> [u8; COMMUNITY_LENGTH] {
    let ac_df = if community.ac_df { AC_DF_BIT } else { 0 };
    let dp = if community.dp { DP_BIT } else { 0 };
    let [high, low] = community.preference.to_be_bytes();
    let algorithm = community.algorithm;
    if uses_preference(algorithm) {
        [0x06, 0x06, algorithm, dp | ac_df, 0, 0, high, low]
    } else {
        [0x06, 0x06, algorithm, ac_df, 0, 0, 0, 0]
    }
}
