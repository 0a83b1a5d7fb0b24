//! The proved calls, as the crates `exports`, `circuit_exports`, `flow_exports`, `any_source_exports`, `backup_exports`, `candidate_list_c`, `dump_exports` and
//! `log_exports` hand them to C: a slice goes over as its start and its length.

use crate::answer::{
    self, Address, Answer, Backup, Candidate, Circuit, Family, Found, Logged, Segment, Sent,
    Verdict, CIRCUIT_WORDS,
};
use crate::dumps;
use std::{ptr, slice};

/// 64 rows of five words, the family and the address; 64 words of attributes; the count; the ten octets of the identifier in three words, the first octet low. Then the algorithm numbers set
/// for (S,G) and for (*,G), or zeros. Then the ranges of tags: how many there are, and 16 rows of three words, the first tag, the last and 2 or 3;
/// and 17 such rows once more, in falling order.
pub const WORDS: usize = 388 + 2 + 49 + 51;

/// The words of a segment, its table and its settings. Only the calls below write them, so they are always those of a segment that the calls made: their premise.
pub struct Table([u32; WORDS]);

/// 256 rows of seven words, the kind, the tag, the family and the address; then the number of routes.
pub const CIRCUITS_WORDS: usize = 256 * CIRCUIT_WORDS + 1;

/// The words of a table of Ethernet A-D routes. As above, only the calls below write them.
pub struct Circuits([u32; CIRCUITS_WORDS]);

/// A part of octets that were lent, as a call writes it: where it starts and how long it is.
#[repr(C)]
struct Part {
    start: *const u8,
    length: usize,
}

extern "C" {
    fn segment_fresh(t: *mut u32, esi: *const u8, esi_length: usize) -> u8;
    fn segment_announce(
        t: *mut u32,
        t_length: usize,
        route: *const u8,
        route_length: usize,
        communities: *const u8,
        communities_length: usize,
    ) -> Verdict;
    fn segment_withdraw(
        t: *mut u32,
        t_length: usize,
        v6: bool,
        w0: u32,
        w1: u32,
        w2: u32,
        w3: u32,
    ) -> u8;
    fn segment_set_flow_algorithms(
        s: *mut u32,
        s_length: usize,
        source_group: u8,
        any_source: u8,
    ) -> u8;
    fn segment_set_ranges(s: *mut u32, s_length: usize, run: *const u32, run_length: usize) -> u8;
    fn segment_elect(
        t: *const u32,
        t_length: usize,
        tag: u32,
        ready: *const u32,
        ready_length: usize,
    ) -> Answer;
    fn segment_elect_source_group(
        s: *const u32,
        s_length: usize,
        source: *const u8,
        source_length: usize,
        group: *const u8,
        group_length: usize,
        tag: u32,
        ready: *const u32,
        ready_length: usize,
    ) -> Answer;
    fn segment_elect_any_source(
        s: *const u32,
        s_length: usize,
        group: *const u8,
        group_length: usize,
        tag: u32,
        ready: *const u32,
        ready_length: usize,
    ) -> Answer;
    fn segment_returning(
        t: *const u32,
        t_length: usize,
        v6: bool,
        w0: u32,
        w1: u32,
        w2: u32,
        w3: u32,
        algorithm: u8,
        preference: u16,
        dp: bool,
    ) -> Sent;
    fn segment_digest(tag: u32, esi: *const u8) -> u32;
    fn dumps_last_announcement(
        first: *const u8,
        first_length: usize,
        second: *const u8,
        second_length: usize,
        v6: bool,
        w0: u32,
        w1: u32,
        w2: u32,
        w3: u32,
        part: *mut Part,
    ) -> u8;
    fn circuits_fresh(c: *mut u32);
    fn circuits_announce(
        c: *mut u32,
        c_length: usize,
        per_instance: bool,
        tag: u32,
        v6: bool,
        w0: u32,
        w1: u32,
        w2: u32,
        w3: u32,
    ) -> u8;
    fn circuits_withdraw(
        c: *mut u32,
        c_length: usize,
        per_instance: bool,
        tag: u32,
        v6: bool,
        w0: u32,
        w1: u32,
        w2: u32,
        w3: u32,
    ) -> u8;
    fn segment_elect_by_circuits(
        t: *const u32,
        t_length: usize,
        c: *const u32,
        c_length: usize,
        tag: u32,
    ) -> Answer;
    fn segment_name_backup(
        s: *const u32,
        s_length: usize,
        tag: u32,
        ready: *const u32,
        ready_length: usize,
    ) -> Backup;
    fn segment_name_backup_by_circuits(
        s: *const u32,
        s_length: usize,
        c: *const u32,
        c_length: usize,
        tag: u32,
    ) -> Backup;
    #[link_name = "name_backup_in"]
    fn list_name_backup(list: *const Candidate, list_length: usize, algorithm: u8) -> Backup;
    fn segment_write_log(s: *const u32, s_length: usize, out: *mut u8, out_length: usize)
        -> Logged;
}

// SAFETY, of every call: what is lent is live for the call and has the length that goes over with it, the words are lent for writing where they are
// written, and they are those of a segment that the calls made.
impl Segment for Table {
    type Circuits = Circuits;

    /// The words are no segment before the call that makes them one, and none of them is zero: one that the call leaves as it was will show.
    fn empty() -> Table {
        let mut table = Table([u32::MAX; WORDS]);
        table.fresh(&[]);
        table
    }

    #[inline]
    fn fresh(&mut self, esi: &[u8]) -> u8 {
        unsafe { segment_fresh(self.0.as_mut_ptr(), esi.as_ptr(), esi.len()) }
    }

    #[inline]
    fn announce(&mut self, route: &[u8], communities: &[u8]) -> Verdict {
        unsafe {
            segment_announce(
                self.0.as_mut_ptr(),
                WORDS,
                route.as_ptr(),
                route.len(),
                communities.as_ptr(),
                communities.len(),
            )
        }
    }

    #[inline]
    fn withdraw(&mut self, address: Address) -> u8 {
        let v6 = address.family == Family::V6;
        let [w0, w1, w2, w3] = address.words;
        unsafe { segment_withdraw(self.0.as_mut_ptr(), WORDS, v6, w0, w1, w2, w3) }
    }

    #[inline]
    fn set_flow_algorithms(&mut self, source_group: u8, any_source: u8) -> u8 {
        let s = self.0.as_mut_ptr();
        unsafe { segment_set_flow_algorithms(s, WORDS, source_group, any_source) }
    }

    #[inline]
    fn set_ranges(&mut self, run: &[u32]) -> u8 {
        unsafe { segment_set_ranges(self.0.as_mut_ptr(), WORDS, run.as_ptr(), run.len()) }
    }

    #[inline]
    fn elect(&self, tag: u32, ready: &[u32]) -> Answer {
        unsafe { segment_elect(self.0.as_ptr(), WORDS, tag, ready.as_ptr(), ready.len()) }
    }

    #[inline]
    fn elect_source_group(&self, source: &[u8], group: &[u8], tag: u32, ready: &[u32]) -> Answer {
        unsafe {
            segment_elect_source_group(
                self.0.as_ptr(),
                WORDS,
                source.as_ptr(),
                source.len(),
                group.as_ptr(),
                group.len(),
                tag,
                ready.as_ptr(),
                ready.len(),
            )
        }
    }

    #[inline]
    fn elect_any_source(&self, group: &[u8], tag: u32, ready: &[u32]) -> Answer {
        unsafe {
            segment_elect_any_source(
                self.0.as_ptr(),
                WORDS,
                group.as_ptr(),
                group.len(),
                tag,
                ready.as_ptr(),
                ready.len(),
            )
        }
    }

    #[inline]
    fn elect_by_circuits(&self, circuits: &Circuits, tag: u32) -> Answer {
        let (t, c) = (self.0.as_ptr(), circuits.0.as_ptr());
        unsafe { segment_elect_by_circuits(t, WORDS, c, CIRCUITS_WORDS, tag) }
    }

    #[inline]
    fn name_backup(&self, tag: u32, ready: &[u32]) -> Backup {
        unsafe { segment_name_backup(self.0.as_ptr(), WORDS, tag, ready.as_ptr(), ready.len()) }
    }

    #[inline]
    fn name_backup_by_circuits(&self, circuits: &Circuits, tag: u32) -> Backup {
        let (s, c) = (self.0.as_ptr(), circuits.0.as_ptr());
        unsafe { segment_name_backup_by_circuits(s, WORDS, c, CIRCUITS_WORDS, tag) }
    }

    #[inline]
    fn returning(&self, address: Address, algorithm: u8, preference: u16, dp: bool) -> Sent {
        let v6 = address.family == Family::V6;
        let [w0, w1, w2, w3] = address.words;
        unsafe {
            segment_returning(
                self.0.as_ptr(),
                WORDS,
                v6,
                w0,
                w1,
                w2,
                w3,
                algorithm,
                preference,
                dp,
            )
        }
    }

    #[inline]
    fn digest(tag: u32, esi: &[u8; 10]) -> u32 {
        unsafe { segment_digest(tag, esi.as_ptr()) }
    }

    #[inline]
    fn name_backup_in(list: &[Candidate], algorithm: u8) -> Backup {
        name_backup_in(list, algorithm)
    }

    /// The part is none before the call that writes it. With a refusal it is empty.
    #[inline]
    fn last_announcement(first: &[u8], second: &[u8], address: Address) -> Found {
        let v6 = address.family == Family::V6;
        let [w0, w1, w2, w3] = address.words;
        let mut part = Part {
            start: ptr::null(),
            length: usize::MAX,
        };
        let (one, other) = (first.as_ptr(), second.as_ptr());
        let (n, m) = (first.len(), second.len());
        let number =
            unsafe { dumps_last_announcement(one, n, other, m, v6, w0, w1, w2, w3, &mut part) };
        if number == 0 {
            let octets = unsafe { slice::from_raw_parts(part.start, part.length) };
            return dumps::found(Ok(octets), first, second);
        }
        assert_eq!(
            part.length, 0,
            "refused with {number}, and a part comes back"
        );
        Found::refused(number)
    }
}

/// Names the backup of a list of candidates kept as records.
// SAFETY: the records are live for the call, as many as the length says, laid out as in C, and a `bool` is 0 or 1.
#[inline]
pub fn name_backup_in(list: &[Candidate], algorithm: u8) -> Backup {
    unsafe { list_name_backup(list.as_ptr(), list.len(), algorithm) }
}

impl Table {
    /// All its words.
    pub fn words(&self) -> &[u32; WORDS] {
        &self.0
    }

    /// Writes the table out as records into octets that are lent.
    // SAFETY: as above.
    pub fn write_log(&self, out: &mut [u8]) -> Logged {
        unsafe { segment_write_log(self.0.as_ptr(), WORDS, out.as_mut_ptr(), out.len()) }
    }
}

impl Circuits {
    /// All its words.
    pub fn words(&self) -> &[u32; CIRCUITS_WORDS] {
        &self.0
    }
}

// SAFETY, of every call: as above.
impl answer::Circuits for Circuits {
    /// The words are no table before the call that makes them one, and none of them is zero: one that the call leaves as it was will show.
    fn empty() -> Circuits {
        let mut circuits = Circuits([u32::MAX; CIRCUITS_WORDS]);
        circuits.fresh();
        circuits
    }

    #[inline]
    fn fresh(&mut self) {
        unsafe { circuits_fresh(self.0.as_mut_ptr()) }
    }

    #[inline]
    fn announce(&mut self, route: Circuit) -> u8 {
        let v6 = route.address.family == Family::V6;
        let [w0, w1, w2, w3] = route.address.words;
        unsafe {
            circuits_announce(
                self.0.as_mut_ptr(),
                CIRCUITS_WORDS,
                route.per_instance,
                route.tag,
                v6,
                w0,
                w1,
                w2,
                w3,
            )
        }
    }

    #[inline]
    fn withdraw(&mut self, route: Circuit) -> u8 {
        let v6 = route.address.family == Family::V6;
        let [w0, w1, w2, w3] = route.address.words;
        unsafe {
            circuits_withdraw(
                self.0.as_mut_ptr(),
                CIRCUITS_WORDS,
                route.per_instance,
                route.tag,
                v6,
                w0,
                w1,
                w2,
                w3,
            )
        }
    }
}
