//! The calls that every side of a comparison has, and their answers. Document 01, "The table", "The election", "The returning router"; document 02,
//! M-102 for the Ethernet A-D routes, M-103 for the place, M-105 for addresses of both families, M-106 for elections by multicast flow, M-109 for ranges
//! of tags, M-111 for dumps of records, M-112 for tables written out as records and M-113 for the second in line. The structs that are answered are laid out as in C, so that the proved calls can answer them.

/// The words of a row of a ready list: the family, 4 or 6, then the words of an address. A row of another family is a stranger; words after the last
/// whole row are no row.
pub const ROW_WORDS: usize = 5;
/// The words of a row of the table of Ethernet A-D routes: the kind, 1 per segment or 2 per instance; the tag, 0 per segment; the row of an address.
pub const CIRCUIT_WORDS: usize = 7;
/// The words of a range of tags as it is handed in: its first tag, its last tag, and 2 for Highest or 3 for Lowest.
pub const RANGE_WORDS: usize = 3;

#[derive(Clone, Copy, Debug, PartialEq, Eq)]
pub enum Family {
    V4,
    V6,
}

/// An address as it is handed in: its family, and its 16 octets as words, high octet first. An IPv4 address is the first word, and those after it do
/// not count.
#[derive(Clone, Copy, Debug, PartialEq, Eq)]
pub struct Address {
    pub family: Family,
    pub words: [u32; 4],
}

impl Address {
    pub fn v4(number: u32) -> Address {
        Address {
            family: Family::V4,
            words: [number, 0, 0, 0],
        }
    }

    pub fn v6(number: u128) -> Address {
        Address {
            family: Family::V6,
            words: [96, 64, 32, 0].map(|low| (number >> low) as u32),
        }
    }

    /// Its row in a ready list.
    pub fn row(self) -> [u32; ROW_WORDS] {
        let [a, b, c, d] = self.words;
        match self.family {
            Family::V4 => [4, a, b, c, d],
            Family::V6 => [6, a, b, c, d],
        }
    }
}

/// An Ethernet A-D route as it is handed in. A per-segment route is told by its address, a per-instance one by its address and tag; the tag handed in
/// with a per-segment route does not count.
#[derive(Clone, Copy, Debug, PartialEq, Eq)]
pub struct Circuit {
    pub per_instance: bool,
    pub tag: u32,
    pub address: Address,
}

impl Circuit {
    pub fn per_segment(address: Address) -> Circuit {
        Circuit {
            per_instance: false,
            tag: 0,
            address,
        }
    }

    pub fn per_instance(tag: u32, address: Address) -> Circuit {
        Circuit {
            per_instance: true,
            tag,
            address,
        }
    }
}

/// The answer to an announcement: 0 or a refusal number, and the place that a route's refusal speaks of.
#[repr(C)]
#[derive(Clone, Copy, Debug, Default, PartialEq, Eq)]
pub struct Verdict {
    pub number: u8,
    pub place: usize,
}

/// The whole answer of an election: 0 and the elected, or a refusal number and zeros. The family is 4 or 6; the sixteen octets are four words, an IPv4
/// address the first of them, and then come zeros.
#[repr(C)]
#[derive(Clone, Copy, Debug, Default, PartialEq, Eq)]
pub struct Answer {
    pub number: u8,
    pub family: u8,
    pub address: [u32; 4],
    pub algorithm: u8,
    pub n: u32,
    pub candidates: u64,
}

/// Who is second in line: 0 and the backup's family and sixteen octets, as above, or a refusal number and zeros.
#[repr(C)]
#[derive(Clone, Copy, Debug, Default, PartialEq, Eq)]
pub struct Backup {
    pub number: u8,
    pub family: u8,
    pub address: [u32; 4],
}

/// A candidate of a list kept as records: its address as in a row of a ready list, its preference and its DP bit.
#[repr(C)]
#[derive(Clone, Copy, Debug, PartialEq, Eq)]
pub struct Candidate {
    pub family: u8,
    pub w0: u32,
    pub w1: u32,
    pub w2: u32,
    pub w3: u32,
    pub preference: u16,
    pub dp: bool,
}

impl Candidate {
    pub fn new(address: Address, preference: u16, dp: bool) -> Candidate {
        let [w0, w1, w2, w3] = address.words;
        Candidate {
            family: match address.family {
                Family::V4 => 4,
                Family::V6 => 6,
            },
            w0,
            w1,
            w2,
            w3,
            preference,
            dp,
        }
    }
}

/// What a returning router sends: 0 and the pair, or a refusal number and zeros.
#[repr(C)]
#[derive(Clone, Copy, Debug, Default, PartialEq, Eq)]
pub struct Sent {
    pub number: u8,
    pub preference: u16,
    pub dp: bool,
}

/// What a search through two dumps answers: 0 and the octets of a record, or a refusal number and zeros. The dump is 1 or 2; the record starts in it at `start`
/// and has `length` octets, mark and length included.
#[derive(Clone, Copy, Debug, Default, PartialEq, Eq)]
pub struct Found {
    pub number: u8,
    pub dump: u8,
    pub start: usize,
    pub length: usize,
}

/// What the writer of a table as records answers: 0 and how many octets it wrote, or a refusal number and 0.
#[repr(C)]
#[derive(Clone, Copy, Debug, Default, PartialEq, Eq)]
pub struct Logged {
    pub number: u8,
    pub length: usize,
}

impl Found {
    pub fn refused(number: u8) -> Found {
        Found {
            number,
            ..Found::default()
        }
    }
}

impl Verdict {
    pub fn refused(number: u8, place: usize) -> Verdict {
        Verdict { number, place }
    }
}

impl Answer {
    pub fn refused(number: u8) -> Answer {
        Answer {
            number,
            ..Answer::default()
        }
    }
}

impl Backup {
    pub fn refused(number: u8) -> Backup {
        Backup {
            number,
            ..Backup::default()
        }
    }
}

impl Sent {
    pub fn refused(number: u8) -> Sent {
        Sent {
            number,
            ..Sent::default()
        }
    }
}

/// The calls of a table of Ethernet A-D routes. A refused call leaves the table as it was.
pub trait Circuits {
    fn empty() -> Self;

    /// Makes this the empty table.
    fn fresh(&mut self);

    fn announce(&mut self, route: Circuit) -> u8;

    fn withdraw(&mut self, route: Circuit) -> u8;
}

/// The calls of one segment. A refused call leaves the table as it was.
pub trait Segment {
    /// The table of Ethernet A-D routes beside it.
    type Circuits: Circuits;

    /// The empty table of the all-zero identifier.
    fn empty() -> Self;

    /// Makes this the fresh table of an identifier, with no algorithm numbers and no ranges set. For a reserved one: 4, and the empty table of the all-zero one.
    fn fresh(&mut self, esi: &[u8]) -> u8;

    fn announce(&mut self, route: &[u8], communities: &[u8]) -> Verdict;

    fn withdraw(&mut self, address: Address) -> u8;

    /// Sets the algorithm numbers of the elections by flow, for (S,G) and for (*,G).
    fn set_flow_algorithms(&mut self, source_group: u8, any_source: u8) -> u8;

    /// Sets the ranges of tags in place of all old ones. They are a run of words, `RANGE_WORDS` a range.
    fn set_ranges(&mut self, run: &[u32]) -> u8;

    /// The ready list is a run of rows of words.
    fn elect(&self, tag: u32, ready: &[u32]) -> Answer;

    /// The election for a flow (S,G), by the octets of its source and its group.
    fn elect_source_group(&self, source: &[u8], group: &[u8], tag: u32, ready: &[u32]) -> Answer;

    /// The election for a flow (*,G), by the octets of its group.
    fn elect_any_source(&self, group: &[u8], tag: u32, ready: &[u32]) -> Answer;

    /// The election over both tables.
    fn elect_by_circuits(&self, circuits: &Self::Circuits, tag: u32) -> Answer;

    /// Names the backup: the one elected among the eligible without the forwarder.
    fn name_backup(&self, tag: u32, ready: &[u32]) -> Backup;

    /// The same over both tables.
    fn name_backup_by_circuits(&self, circuits: &Self::Circuits, tag: u32) -> Backup;

    fn returning(&self, address: Address, algorithm: u8, preference: u16, dp: bool) -> Sent;

    /// The digest of a tag on the segment of an identifier.
    fn digest(tag: u32, esi: &[u8; 10]) -> u32;

    /// Names the backup of a list of candidates kept as records.
    fn name_backup_in(list: &[Candidate], algorithm: u8) -> Backup;

    /// The last announcement of an address in two dumps of records.
    fn last_announcement(first: &[u8], second: &[u8], address: Address) -> Found;
}
