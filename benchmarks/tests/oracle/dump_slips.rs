//! A search through two dumps written another way than the others: a dump is first taken apart into records, and then they are looked through from the end. It
//! can be given one slip, which the questions of `dumps` must show.

use benchmarks::answer::{Address, Family, Found};
use benchmarks::workload;

#[derive(Clone, Copy, Debug, PartialEq, Eq)]
pub enum Slip {
    /// The first announcement, and not the last.
    FirstOfAll,
    /// The second dump before the first.
    SecondDumpFirst,
    /// A second dump that is broken is not looked at where the first has a record.
    BrokenSecondUnseen,
    /// The same, and it counts as a dump without a record.
    BrokenSecondIsNine,
    /// 16 before 6.
    BrokenBeforeZero,
    /// 9 before 16: the first dump's breach is told only if nothing is found.
    BrokenFirstUnseen,
    WithoutMark,
    WithoutHeader,
    /// The record up to its communities.
    RouteOnly,
    WithdrawalHides,
    /// A route counts by its address alone, and then each check left out.
    AnyRoute,
    AnyType,
    AnyLengthOctet,
    ZeroIdentifier,
    OnesIdentifier,
    /// An announcement of another segment does not count.
    OtherSegmentSkipped,
    /// A community list whose length is refused does not count.
    ListLengthCounts,
    /// A plate's text, or its length, is looked at.
    PlateLength,
    PlateReserved,
    NoPlate,
    LaterPlate,
    EmptyIsBroken,
    /// What is left at the end and is no whole record is passed over.
    CutTail,
    SecondMarkOctet,
    KindSix,
    ShortV6Announcement,
    EmptyQuery,
    V6QueryByFour,
    V6WithdrawalOfFour,
    /// An IPv6 address is compared by its first four octets, or by its last.
    FirstFourOctets,
    LastFourOctets,
    /// The words behind an IPv4 address count.
    LooseWords,
}

impl Slip {
    pub const ALL: [Slip; 32] = [
        Slip::FirstOfAll,
        Slip::SecondDumpFirst,
        Slip::BrokenSecondUnseen,
        Slip::BrokenSecondIsNine,
        Slip::BrokenBeforeZero,
        Slip::BrokenFirstUnseen,
        Slip::WithoutMark,
        Slip::WithoutHeader,
        Slip::RouteOnly,
        Slip::WithdrawalHides,
        Slip::AnyRoute,
        Slip::AnyType,
        Slip::AnyLengthOctet,
        Slip::ZeroIdentifier,
        Slip::OnesIdentifier,
        Slip::OtherSegmentSkipped,
        Slip::ListLengthCounts,
        Slip::PlateLength,
        Slip::PlateReserved,
        Slip::NoPlate,
        Slip::LaterPlate,
        Slip::EmptyIsBroken,
        Slip::CutTail,
        Slip::SecondMarkOctet,
        Slip::KindSix,
        Slip::ShortV6Announcement,
        Slip::EmptyQuery,
        Slip::V6QueryByFour,
        Slip::V6WithdrawalOfFour,
        Slip::FirstFourOctets,
        Slip::LastFourOctets,
        Slip::LooseWords,
    ];
}

/// A record by its kind, where it starts and where it ends.
#[derive(Clone, Copy)]
struct Taken<'a> {
    kind: u8,
    body: &'a [u8],
    start: usize,
    end: usize,
}

pub fn search(first: &[u8], second: &[u8], address: Address, slip: Option<Slip>) -> Found {
    let mut wanted = workload::octets(address);
    let is_zero = wanted.iter().all(|octet| *octet == 0);
    if slip == Some(Slip::LooseWords) && address.family == Family::V4 {
        wanted.extend(
            address.words[1..]
                .iter()
                .map(|word| *word as u8)
                .filter(|octet| *octet != 0),
        );
    }
    let in_first = last_in(first, &wanted, slip);
    let in_second = last_in(second, &wanted, slip);
    if is_zero
        && !(slip == Some(Slip::BrokenBeforeZero) && (in_first.is_none() || in_second.is_none()))
    {
        return Found::refused(6);
    }
    let (in_first, in_second) = match (in_first, in_second, slip) {
        (Some(Some(place)), None, Some(Slip::BrokenSecondUnseen)) => (Some(place), None),
        (Some(first), None, Some(Slip::BrokenSecondIsNine)) => (first, None),
        (None, Some(Some(place)), Some(Slip::BrokenFirstUnseen)) => (None, Some(place)),
        (Some(first), Some(second), _) => (first, second),
        _ => return Found::refused(16),
    };
    let mut order = [(1, in_first), (2, in_second)];
    if slip == Some(Slip::SecondDumpFirst) {
        order.reverse();
    }
    let found = order
        .into_iter()
        .find_map(|(dump, place)| place.map(|place| (dump, place)));
    let Some((dump, (mut start, mut end))) = found else {
        return Found::refused(9);
    };
    match slip {
        Some(Slip::WithoutMark) => start += 2,
        Some(Slip::WithoutHeader) => start += 4,
        Some(Slip::RouteOnly) => end = start + 4 + 21 + workload::octets(address).len(),
        _ => {}
    }
    Found {
        number: 0,
        dump,
        start,
        length: end - start,
    }
}

/// Where the last announcement of one dump starts and ends, if there is one; none at all for a dump that breaks a rule.
fn last_in(dump: &[u8], wanted: &[u8], slip: Option<Slip>) -> Option<Option<(usize, usize)>> {
    let taken = taken_apart(dump, slip)?;
    let counts = |one: &&Taken| announces(one, wanted, slip);
    let mut found = taken.iter().rev().find(counts);
    if slip == Some(Slip::FirstOfAll) {
        found = taken.iter().find(counts);
    }
    if slip == Some(Slip::WithdrawalHides) {
        let gone = |one: &&Taken| matches!(one.kind, 2 | 4) && one.body == wanted;
        let last_gone = taken.iter().rev().find(gone).map_or(0, |one| one.start);
        found = found.filter(|one| one.start > last_gone);
    }
    Some(found.map(|one| (one.start, one.end)))
}

fn taken_apart(dump: &[u8], slip: Option<Slip>) -> Option<Vec<Taken<'_>>> {
    let slipped = |one| slip == Some(one);
    if dump.is_empty() {
        return (!slipped(Slip::EmptyIsBroken)).then(Vec::new);
    }
    let mut taken = Vec::new();
    let mut start = 0;
    while start < dump.len() {
        let Some([high, low, kind, length]) = dump.get(start..start + 4) else {
            return slipped(Slip::CutTail).then_some(taken);
        };
        let end = start + 4 + usize::from(*length);
        let Some(body) = dump.get(start + 4..end) else {
            return slipped(Slip::CutTail).then_some(taken);
        };
        let mark = *high == 0xD5 && (*low == 0x4F || slipped(Slip::SecondMarkOctet));
        let placed = match (*kind, start) {
            (0, 0) => plate_is_good(body, slip),
            (0, _) => slipped(Slip::LaterPlate),
            (_, 0) => slipped(Slip::NoPlate) && length_is_good(*kind, body, slip),
            _ => length_is_good(*kind, body, slip),
        };
        if !mark || !placed {
            return None;
        }
        taken.push(Taken {
            kind: *kind,
            body,
            start,
            end,
        });
        start = end;
    }
    Some(taken)
}

fn plate_is_good(text: &[u8], slip: Option<Slip>) -> bool {
    match slip {
        Some(Slip::PlateLength) => text.len() == 29,
        Some(Slip::PlateReserved) => !text.starts_with(b"ff:ff:ff:ff:ff:ff:ff:ff:ff:ff"),
        _ => true,
    }
}

fn length_is_good(kind: u8, body: &[u8], slip: Option<Slip>) -> bool {
    let n = body.len();
    let slipped = |one| slip == Some(one);
    match kind {
        1 if n < 25 => false,
        1 if body[20] == 128 => n >= 37 || slipped(Slip::ShortV6Announcement),
        1 => true,
        2 => n == 4,
        3 => n % 4 == 0 && (n > 0 || slipped(Slip::EmptyQuery)),
        4 => n == 16 || n == 4 && slipped(Slip::V6WithdrawalOfFour),
        5 => n % 16 == 4 || n > 0 && n % 4 == 0 && slipped(Slip::V6QueryByFour),
        6 => slipped(Slip::KindSix),
        _ => false,
    }
}

/// Whether a record is an announcement that counts, of the address of these octets.
fn announces(one: &Taken, wanted: &[u8], slip: Option<Slip>) -> bool {
    let (body, n) = (one.body, wanted.len());
    let slipped = |one| slip == Some(one);
    if one.kind != 1 || body.len() < 21 + n {
        return false;
    }
    let bits = if n == 4 { 32 } else { 128 };
    let esi = &body[10..20];
    let address = &body[21..21 + n];
    let same = match slip {
        Some(Slip::FirstFourOctets) => address[..4] == wanted[..4],
        Some(Slip::LastFourOctets) => address[n - 4..] == wanted[n - 4..],
        _ => address == wanted,
    };
    if slipped(Slip::AnyRoute) {
        return same;
    }
    if slipped(Slip::OtherSegmentSkipped) && esi != workload::ESI {
        return false;
    }
    if slipped(Slip::ListLengthCounts) && (body.len() - 21 - n) % 8 != 0 {
        return false;
    }
    same && body[20] == bits
        && (body[0] == 4 || slipped(Slip::AnyType))
        && (usize::from(body[1]) == 19 + n || slipped(Slip::AnyLengthOctet))
        && (esi != [0; 10] || slipped(Slip::ZeroIdentifier))
        && (esi != [0xFF; 10] || slipped(Slip::OnesIdentifier))
}
