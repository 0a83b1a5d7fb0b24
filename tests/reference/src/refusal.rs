//! The refusal numbers of document 01 ("Refusal numbers") and of document 02, one name each.

/// Why a call was refused. `number` gives the document's number.
#[derive(Clone, Copy, Debug, PartialEq, Eq)]
pub enum Refusal {
    RouteLength = 1,
    RouteType = 2,
    AddressLength = 3,
    ReservedEsi = 4,
    OtherSegment = 5,
    ZeroAddress = 6,
    CommunityLength = 7,
    TableFull = 8,
    NotPresent = 9,
    ReservedTag = 10,
    ReadyLength = 11,
    NoEligible = 12,
    EsiText = 13,
    ShortBuffer = 14,
    Algorithm = 15,
    BadRecord = 16,
    FlowLength = 18,
    Ranges = 20,
    CandidateList = 22,
}

impl Refusal {
    pub fn number(self) -> u8 {
        self as u8
    }
}

/// The number that a call answers: 0 if it was accepted.
pub fn answer_number<T>(answer: &Result<T, Refusal>) -> u8 {
    match answer {
        Ok(_) => 0,
        Err(refusal) => refusal.number(),
    }
}
