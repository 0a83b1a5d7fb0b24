//! The second in line of a list of candidates kept as records (document 02, M-113), in plain fast Rust: one pass over the records tests each and whether its
//! address was there before, and one keeps the two best. A record that is not better than the second, as most are not, costs one comparison.

use crate::answer::{Backup, Candidate};
use crate::octets::MAX_ROUTES;

/// Up to so many records each is compared with all before it; of more the addresses are hashed.
const FEW: usize = 4;
/// The places that an address may be hashed to: so many that half of them stay free.
const PLACES: usize = 2 * MAX_ROUTES;

/// The backup. A list over 64, an address zero, an address twice or a family that is none, 22; an algorithm other than 2 and 3, 15; fewer than two, 12.
pub fn name_backup_in(list: &[Candidate], algorithm: u8) -> Backup {
    if list.len() > MAX_ROUTES || is_wrong(list) {
        return Backup::refused(22);
    }
    match algorithm {
        2 => second_of(list, higher),
        3 => second_of(list, lower),
        _ => Backup::refused(15),
    }
}

/// Greater is better under algorithm 2.
#[inline(always)]
fn higher(one: &Candidate) -> u32 {
    u32::from(one.preference) << 1 | u32::from(one.dp)
}

/// Greater is better under algorithm 3.
#[inline(always)]
fn lower(one: &Candidate) -> u32 {
    u32::from(!one.preference) << 1 | u32::from(one.dp)
}

/// Whether a record is no address, or has one that another has.
#[inline(always)]
fn is_wrong(list: &[Candidate]) -> bool {
    if list.len() <= FEW {
        let is_before = |at: usize| list[..at].iter().any(|other| is_same(&list[at], other));
        return (0..list.len()).any(|at| is_none(&list[at]) || is_before(at));
    }
    is_wrong_by_hash(list)
}

/// The same, for many records. A place holds 0 or one more than the record that was put there.
#[inline(never)]
fn is_wrong_by_hash(list: &[Candidate]) -> bool {
    let mut places = [0_u8; PLACES];
    for (one, next) in list.iter().zip(1..) {
        if is_none(one) {
            return true;
        }
        let mut place = hash(one) % PLACES;
        while places[place] != 0 {
            if is_same(one, &list[usize::from(places[place]) - 1]) {
                return true;
            }
            place = (place + 1) % PLACES;
        }
        places[place] = next;
    }
    false
}

#[inline(always)]
fn hash(one: &Candidate) -> usize {
    let word = match one.family {
        4 => one.w0,
        _ => one.w0 ^ one.w1.rotate_left(8) ^ one.w2.rotate_left(16) ^ one.w3,
    };
    (word.wrapping_mul(0x9E37_79B9) >> 25) as usize
}

#[inline(always)]
fn is_none(one: &Candidate) -> bool {
    match one.family {
        4 => one.w0 == 0,
        6 => one.w0 | one.w1 | one.w2 | one.w3 == 0,
        _ => true,
    }
}

/// Whether two records that are addresses have the same.
#[inline(always)]
fn is_same(one: &Candidate, other: &Candidate) -> bool {
    let tails = |one: &Candidate| (one.w3, one.w2, one.w1);
    one.w0 == other.w0
        && one.family == other.family
        && (one.family == 4 || tails(one) == tails(other))
}

/// Whether a record's address is lower: every IPv4 address is lower than every IPv6 one.
#[inline(always)]
fn is_lower(one: &Candidate, other: &Candidate) -> bool {
    let key = |one: &Candidate| match one.family {
        4 => (4, one.w0, 0, 0, 0),
        family => (family, one.w0, one.w1, one.w2, one.w3),
    };
    key(one) < key(other)
}

/// The second of a list of different addresses. Of equal scores the lower address is better.
#[inline(always)]
fn second_of(list: &[Candidate], score: impl Fn(&Candidate) -> u32) -> Backup {
    let [one, other, rest @ ..] = list else {
        return Backup::refused(12);
    };
    let scored = |one| (score(one), one);
    let above = |(one, its): (u32, &Candidate), (other, theirs): (u32, &Candidate)| {
        one > other || one == other && is_lower(its, theirs)
    };
    let (mut best, mut second) = (scored(one), scored(other));
    if above(second, best) {
        (best, second) = (second, best);
    }
    for met in rest.iter().map(scored) {
        if above(met, second) {
            second = met;
            if above(met, best) {
                (best, second) = (met, best);
            }
        }
    }
    let second = second.1;
    Backup {
        number: 0,
        family: second.family,
        address: match second.family {
            4 => [second.w0, 0, 0, 0],
            _ => [second.w0, second.w1, second.w2, second.w3],
        },
    }
}
