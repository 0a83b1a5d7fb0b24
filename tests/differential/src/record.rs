//! Bench records, built octet by octet. Nothing is checked here: bad records are wanted too.

pub const KIND_ESI: u8 = 0;
pub const KIND_ANNOUNCEMENT: u8 = 1;
pub const KIND_WITHDRAWAL: u8 = 2;
pub const KIND_QUERY: u8 = 3;
pub const KIND_V6_WITHDRAWAL: u8 = 4;
pub const KIND_V6_QUERY: u8 = 5;
pub const MAX_BODY: usize = 255;
/// The most addresses that a query lists: of 4 octets, and of 16.
pub const MAX_READY: usize = 62;
pub const MAX_V6_READY: usize = 15;
pub const MAX_COMMUNITIES: usize = MAX_BODY - 25;

pub type Esi = [u8; 10];

/// An address as its number, high octet first.
#[derive(Clone, Copy, Debug, PartialEq, Eq)]
pub enum Address {
    V4(u32),
    V6(u128),
}

/// Zero, for a choice among none.
impl Default for Address {
    fn default() -> Address {
        Address::V4(0)
    }
}

impl Address {
    pub fn is_v6(self) -> bool {
        matches!(self, Address::V6(_))
    }

    pub fn is_zero(self) -> bool {
        matches!(self, Address::V4(0) | Address::V6(0))
    }

    /// Its octets, 4 or 16.
    pub fn octets(self) -> Vec<u8> {
        match self {
            Address::V4(number) => number.to_be_bytes().to_vec(),
            Address::V6(number) => number.to_be_bytes().to_vec(),
        }
    }
}

/// The IPv4-mapped address of an IPv4 number, ::ffff:a.b.c.d.
pub fn mapped(number: u32) -> Address {
    Address::V6(0xFFFF << 32 | u128::from(number))
}

/// Mark, kind, length and body. A body that does not fit is cut to what fits.
pub fn record(kind: u8, body: &[u8]) -> Vec<u8> {
    let body = &body[..body.len().min(MAX_BODY)];
    let mut octets = vec![0xD5, 0x4F, kind, body.len() as u8];
    octets.extend(body);
    octets
}

/// Where the whole records at the start of the octets end, by their marks and lengths alone; the
/// start is the first of these places.
pub fn ends(octets: &[u8]) -> Vec<usize> {
    let mut ends = vec![0];
    let mut end = 0;
    while let [0xD5, 0x4F, _, length, body @ ..] = &octets[end..] {
        if body.len() < usize::from(*length) {
            break;
        }
        end += 4 + usize::from(*length);
        ends.push(end);
    }
    ends
}

/// The text of an identifier in lower case.
pub fn esi_text(esi: &Esi) -> Vec<u8> {
    let pairs: Vec<String> = esi.iter().map(|octet| format!("{octet:02x}")).collect();
    pairs.join(":").into_bytes()
}

pub fn esi_record(esi: &Esi) -> Vec<u8> {
    record(KIND_ESI, &esi_text(esi))
}

/// The octets of a route, 25 or 37.
pub fn route(distinguisher: &[u8], esi: &Esi, address: Address) -> Vec<u8> {
    let (rest, bits) = if address.is_v6() { (35, 128) } else { (23, 32) };
    let mut octets = vec![4, rest];
    octets.extend(distinguisher);
    octets.extend(esi);
    octets.push(bits);
    octets.extend(address.octets());
    octets
}

pub fn announcement(esi: &Esi, address: Address, communities: &[u8]) -> Vec<u8> {
    let mut body = route(&[0; 8], esi, address);
    body.extend(communities);
    record(KIND_ANNOUNCEMENT, &body)
}

pub fn withdrawal(address: Address) -> Vec<u8> {
    let kind = if address.is_v6() {
        KIND_V6_WITHDRAWAL
    } else {
        KIND_WITHDRAWAL
    };
    record(kind, &address.octets())
}

/// A query with the IPv4 addresses of a list. A list that does not fit is cut to what fits.
pub fn query(tag: u32, ready: &[Address]) -> Vec<u8> {
    let fours = ready.iter().filter(|address| !address.is_v6());
    query_of(KIND_QUERY, tag, fours.take(MAX_READY))
}

/// A query with the IPv6 addresses of a list, cut to what fits.
pub fn v6_query(tag: u32, ready: &[Address]) -> Vec<u8> {
    let sixes = ready.iter().filter(|address| address.is_v6());
    query_of(KIND_V6_QUERY, tag, sixes.take(MAX_V6_READY))
}

fn query_of<'a>(kind: u8, tag: u32, ready: impl Iterator<Item = &'a Address>) -> Vec<u8> {
    let mut body = tag.to_be_bytes().to_vec();
    for address in ready {
        body.extend(address.octets());
    }
    record(kind, &body)
}

/// An election community: algorithm, AC-DF, DP, preference.
pub fn community(algorithm: u8, ac_df: bool, dp: bool, preference: u16) -> Vec<u8> {
    let capability = u8::from(dp) << 7 | u8::from(ac_df) << 6;
    let [high, low] = preference.to_be_bytes();
    vec![6, 6, algorithm, capability, 0, 0, high, low]
}
