//! Routes, communities, ready lists, multicast flows and ranges of tags, the same in every run. IPv4 addresses are 10.x.y.z and IPv6 ones 2001:db8::x:y, scattered in the
//! low 24 bits and handed over in no order.

use crate::answer::{Address, Candidate, Circuit, Family};
use crate::random::Random;

pub const ESI: [u8; 10] = [0x00, 0x11, 0x22, 0x33, 0x44, 0x55, 0x66, 0x77, 0x88, 0x99];

/// The algorithm numbers that are set for (S,G) and for (*,G): those of source document 002.
pub const FLOW_ALGORITHMS: [u8; 2] = [4, 5];

/// Which addresses routers have; of a mixed table's every other one is IPv6.
#[derive(Clone, Copy, Debug, PartialEq, Eq, PartialOrd, Ord)]
pub enum Families {
    V4,
    V6,
    Mixed,
}

/// An announcement: a route with one community, and the address that the route has. They are vectors, so that no side knows their lengths beforehand.
#[derive(Clone)]
pub struct Run {
    pub route: Vec<u8>,
    pub communities: Vec<u8>,
    pub address: Address,
}

/// A multicast flow, by the octets of its source and its group. They are vectors, as above.
pub struct Flow {
    pub source: Vec<u8>,
    pub group: Vec<u8>,
}

/// The octets of an address, 4 or 16.
pub fn octets(address: Address) -> Vec<u8> {
    let octets = sixteen_octets(address);
    match address.family {
        Family::V4 => octets[..4].to_vec(),
        Family::V6 => octets.to_vec(),
    }
}

/// The octets of the four words of an address.
#[inline]
pub fn sixteen_octets(address: Address) -> [u8; 16] {
    let [a, b, c, d] = address.words.map(u128::from);
    (a << 96 | b << 64 | c << 32 | d).to_be_bytes()
}

/// The octets of a route, 25 or 37.
pub fn route(esi: &[u8; 10], address: Address) -> Vec<u8> {
    let (rest, bits) = match address.family {
        Family::V4 => (23, 32),
        Family::V6 => (35, 128),
    };
    let mut route = vec![4, rest];
    route.extend([0; 8]);
    route.extend(esi);
    route.push(bits);
    route.extend(octets(address));
    route
}

/// The 8 octets of an election community.
pub fn community(algorithm: u8, ac_df: bool, dp: bool, preference: u16) -> [u8; 8] {
    let [high, low] = preference.to_be_bytes();
    let bits = u8::from(dp) << 7 | u8::from(ac_df) << 6;
    [6, 6, algorithm, bits, 0, 0, high, low]
}

/// Different addresses below 10.0.0.0/8 and 2001:db8::/104; another seed gives others.
pub fn addresses(n: usize, families: Families, random: &mut Random) -> Vec<Address> {
    let mut addresses: Vec<Address> = Vec::new();
    while addresses.len() < n {
        let low = 1 + random.below(0xFF_FFFE) as u32;
        let is_v6 = match families {
            Families::V4 => false,
            Families::V6 => true,
            Families::Mixed => addresses.len() % 2 == 1,
        };
        let address = if is_v6 {
            Address::v6(0x2001_0DB8 << 96 | u128::from(low))
        } else {
            Address::v4((10 << 24) | low)
        };
        if !addresses.contains(&address) {
            addresses.push(address);
        }
    }
    addresses
}

/// Sorts addresses as a table has them: IPv4 before IPv6, and then by their numbers.
pub fn sort(addresses: &mut [Address]) {
    addresses.sort_by_key(|address| address.row());
}

/// A ready list of addresses.
pub fn rows(addresses: &[Address]) -> Vec<u32> {
    addresses.iter().flat_map(|address| address.row()).collect()
}

/// The announcements of some addresses on a segment, all under one algorithm and one AC-DF bit; preferences and DP bits differ.
pub fn runs(
    esi: &[u8; 10],
    addresses: &[Address],
    algorithm: u8,
    ac_df: bool,
    random: &mut Random,
) -> Vec<Run> {
    let run = |address: &Address| Run {
        route: route(esi, *address),
        communities: community(algorithm, ac_df, random.one_in(2), random.word() as u16).to_vec(),
        address: *address,
    };
    addresses.iter().map(run).collect()
}

/// The records of candidates with some addresses; preferences and DP bits differ.
pub fn candidates(addresses: &[Address], random: &mut Random) -> Vec<Candidate> {
    let record = |address: &Address| {
        let (dp, preference) = (random.one_in(2), random.word() as u16);
        Candidate::new(*address, preference, dp)
    };
    addresses.iter().map(record).collect()
}

/// The Ethernet A-D routes of routers that are ready for every one of some tags.
pub fn circuits(addresses: &[Address], tags: &[u32]) -> Vec<Circuit> {
    let of_tag = |tag: &u32| {
        let tag = *tag;
        let routers = addresses.iter();
        routers.map(move |address| Circuit::per_instance(tag, *address))
    };
    let segments = addresses.iter().copied().map(Circuit::per_segment);
    segments.chain(tags.iter().flat_map(of_tag)).collect()
}

/// 16 ranges of 50 tags each, 50 apart: 1 to 50, 101 to 150 and so on, in rising order. They say an algorithm, 2 or 3, and the other one in turn.
pub fn ranges(algorithm: u8) -> Vec<u32> {
    let says = |at: u32| match at % 2 {
        0 => algorithm,
        _ => 5 - algorithm,
    };
    let range = |at: u32| [100 * at + 1, 100 * at + 50, says(at).into()];
    (0..16).flat_map(range).collect()
}

/// Tags at the middle of these ranges, from above as from below: of the one before it, which says the other algorithm; of the one behind it, which says the
/// algorithm itself; between the two.
pub const TAG_OF_THE_OTHER: u32 = 725;
pub const TAG_OF_THE_SAME: u32 = 825;
pub const TAG_OF_NONE: u32 = 775;

/// Flows from sources below 10.0.0.0/8 or 2001:db8::/104 to groups below 232.0.0.0/8 or ff3e::/104.
pub fn flows(n: usize, family: Family, random: &mut Random) -> Vec<Flow> {
    let (families, prefix) = match family {
        Family::V4 => (Families::V4, &[232][..]),
        Family::V6 => (Families::V6, &[0xFF, 0x3E, 0, 0][..]),
    };
    let sources = addresses(n, families, random);
    let groups = addresses(n, families, random);
    let flow = |(source, group): (&Address, &Address)| {
        let mut group = octets(*group);
        group[..prefix.len()].copy_from_slice(prefix);
        Flow {
            source: octets(*source),
            group,
        }
    };
    sources.iter().zip(&groups).map(flow).collect()
}
