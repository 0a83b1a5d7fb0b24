//! Text lines to bench records, so that a person can write a run of calls by hand.
//! One line gives one record. The forms, with optional parts in brackets:
//!
//! ```text
//! # anything                      a comment; it may also follow a line
//! plate TEXT                      the segment identifier; TEXT is taken as it is, good or bad
//! announce ADDRESS [OPTION..]     an announcement
//! withdraw ADDRESS                a withdrawal
//! query TAG [ready=ADDRESS,..]    a query that lists IPv4 routers as ready; without a list none is
//! query TAG ready6=[ADDRESS,..]   a query that lists IPv6 routers as ready, be they none
//! raw HEX..                       octets as they are, for damage
//! ```
//!
//! The options of an announcement:
//!
//! ```text
//! alg=N            the algorithm, 0 to 31
//! pref=N           the preference, 0 to 65535 (with alg=2 or alg=3; if left out, 32767)
//! dp               Don't Preempt (with alg=2 or alg=3)
//! acdf             the AC-DF bit
//! esi=TEXT         another identifier than that of the plate line
//! rd=HEX           the route distinguisher, 8 octets (if left out, zeros)
//! community=HEX    a community as it is, any length; may be given several times
//! ```
//!
//! An announcement with none of alg, pref, dp and acdf carries no election community of its
//! own; with any of them it carries one, before those given by `community=`.
//!
//! An IPv4 address is written as dotted decimals, an IPv6 one in any form of RFC 4291: groups of
//! hex digits, `::` for a run of zeros, the last two groups as dotted decimals. An announcement or
//! a withdrawal is of the family that its address is written in, so ::ffff:10.0.0.1 is an IPv6
//! router and not 10.0.0.1. A query lists routers of one family only, as its record does: `ready=`
//! is kind 3, `ready6=` is kind 5, and a query without a list is kind 3. Zero addresses, reserved
//! tags and reserved identifiers are encoded as written, so that their refusals can be seen.

use crate::address::Address;
use crate::community::{self, Community, COMMUNITY_LENGTH, DEFAULT_PREFERENCE};
use crate::esi::{self, Esi};
use crate::record::{
    self, KIND_ANNOUNCEMENT, KIND_ESI, KIND_QUERY, KIND_V6_QUERY, KIND_V6_WITHDRAWAL,
    KIND_WITHDRAWAL, MAX_BODY,
};
use crate::route::{octets_of, DISTINGUISHER_LENGTH};
use std::net::{Ipv4Addr, Ipv6Addr};
use std::str::FromStr;

/// What is known from earlier lines: the identifier of the plate line, if it could be read.
#[derive(Default)]
pub struct Encoder {
    esi: Option<Esi>,
}

/// The options of an announcement as they were written.
#[derive(Default)]
struct Options {
    algorithm: Option<u8>,
    preference: Option<u16>,
    dp: bool,
    ac_df: bool,
    esi: Option<Esi>,
    distinguisher: Option<[u8; DISTINGUISHER_LENGTH]>,
    communities: Vec<u8>,
}

impl Encoder {
    /// The octets of one line; none for an empty line or a comment. An error is a sentence.
    pub fn line(&mut self, line: &str) -> Result<Vec<u8>, String> {
        let text = without_comment(line);
        let (word, rest) = match text.split_once(char::is_whitespace) {
            Some((word, rest)) => (word, rest.trim()),
            None => (text, ""),
        };
        match word {
            "" => Ok(Vec::new()),
            "plate" => self.esi_line(rest),
            "announce" => self.announce_line(rest),
            "withdraw" => withdraw_line(rest),
            "query" => query_line(rest),
            "raw" => hex_octets(rest),
            _ => Err(format!("unknown word `{word}`")),
        }
    }

    fn esi_line(&mut self, text: &str) -> Result<Vec<u8>, String> {
        self.esi = esi::parse_text(text.as_bytes()).ok();
        record(KIND_ESI, text.as_bytes())
    }

    fn announce_line(&self, rest: &str) -> Result<Vec<u8>, String> {
        let mut words = rest.split_whitespace();
        let address = address(words.next().unwrap_or(""))?;
        let mut options = Options::default();
        for word in words {
            options.take(word)?;
        }
        let esi = options
            .esi
            .or(self.esi)
            .ok_or("no readable plate line before; give esi=")?;
        let mut body = octets_of(&options.distinguisher.unwrap_or_default(), &esi, address);
        body.extend(options.election_community()?);
        body.extend(&options.communities);
        record(KIND_ANNOUNCEMENT, &body)
    }
}

impl Options {
    /// Takes one word.
    fn take(&mut self, word: &str) -> Result<(), String> {
        match word.split_once('=') {
            None => self.take_bit(word),
            Some((name, value)) => self.take_value(name, value),
        }
    }

    fn take_bit(&mut self, word: &str) -> Result<(), String> {
        match word {
            "dp" => self.dp = true,
            "acdf" => self.ac_df = true,
            _ => return Err(format!("unknown option `{word}`")),
        }
        Ok(())
    }

    fn take_value(&mut self, name: &str, value: &str) -> Result<(), String> {
        match name {
            "alg" => set_once(&mut self.algorithm, name, decimal(value)?),
            "pref" => set_once(&mut self.preference, name, decimal(value)?),
            "esi" => set_once(&mut self.esi, name, esi_value(value)?),
            "rd" => set_once(&mut self.distinguisher, name, distinguisher(value)?),
            "community" => {
                self.communities.extend(hex_octets(value)?);
                Ok(())
            }
            _ => Err(format!("unknown option `{name}=`")),
        }
    }

    /// The election community that alg, pref, dp and acdf ask for; no octets if there are none.
    fn election_community(&self) -> Result<Vec<u8>, String> {
        let asks_preference = self.dp || self.preference.is_some();
        if self.algorithm.is_none() && !self.ac_df && !asks_preference {
            return Ok(Vec::new());
        }
        let algorithm = self.algorithm.unwrap_or(0);
        if asks_preference && !community::uses_preference(algorithm) {
            return Err("pref and dp need alg=2 or alg=3".to_string());
        }
        let community = Community {
            algorithm,
            ac_df: self.ac_df,
            dp: self.dp,
            preference: self.preference.unwrap_or(DEFAULT_PREFERENCE),
        };
        let mut octets = vec![0; COMMUNITY_LENGTH];
        community::write(&community, &mut octets)
            .map_err(|_| format!("algorithm {algorithm} is above 31"))?;
        Ok(octets)
    }
}

/// The line up to its comment, without blanks around it.
fn without_comment(line: &str) -> &str {
    line.split('#').next().unwrap_or("").trim()
}

fn withdraw_line(rest: &str) -> Result<Vec<u8>, String> {
    let address = address(rest)?;
    let kind = match address {
        Address::V4(_) => KIND_WITHDRAWAL,
        Address::V6(_) => KIND_V6_WITHDRAWAL,
    };
    record(kind, &address.octets())
}

fn query_line(rest: &str) -> Result<Vec<u8>, String> {
    let mut words = rest.split_whitespace();
    let tag: u32 = decimal(words.next().unwrap_or(""))?;
    let (kind, ready) = match words.next() {
        None => (KIND_QUERY, Vec::new()),
        Some(word) => ready_list(word)?,
    };
    match words.next() {
        Some(word) if word.starts_with("ready") => {
            return Err("a query has one list, ready= or ready6=".to_string());
        }
        Some(word) => return Err(format!("`{word}` is too much")),
        None => {}
    }
    let mut body = tag.to_be_bytes().to_vec();
    body.extend(ready);
    record(kind, &body)
}

/// The kind of query that a list asks for, and the octets of its addresses.
fn ready_list(word: &str) -> Result<(u8, Vec<u8>), String> {
    match word.split_once('=') {
        Some(("ready", list)) => Ok((KIND_QUERY, ready_octets(list, 4)?)),
        Some(("ready6", list)) => Ok((KIND_V6_QUERY, ready_octets(list, 6)?)),
        _ => Err(format!("unknown option `{word}`")),
    }
}

/// The octets of a list's addresses, all of one family.
fn ready_octets(list: &str, family: u8) -> Result<Vec<u8>, String> {
    let mut octets = Vec::new();
    for word in list.split(',').filter(|word| !word.is_empty()) {
        let address = address(word)?;
        if address.family() != family {
            return Err(format!(
                "`{word}` is of the other family: ready= lists IPv4 routers, ready6= IPv6 ones"
            ));
        }
        octets.extend(address.octets());
    }
    Ok(octets)
}

/// A whole record: mark, kind, length, octets.
fn record(kind: u8, body: &[u8]) -> Result<Vec<u8>, String> {
    record::octets_of(kind, body)
        .ok_or_else(|| format!("{} octets do not fit; {MAX_BODY} do", body.len()))
}

fn set_once<T>(slot: &mut Option<T>, name: &str, value: T) -> Result<(), String> {
    match slot.replace(value) {
        None => Ok(()),
        Some(_) => Err(format!("{name}= is given twice")),
    }
}

/// An address as people write it; only an IPv6 one has a colon.
fn address(word: &str) -> Result<Address, String> {
    if word.contains(':') {
        Ipv6Addr::from_str(word)
            .map(|address| Address::V6(address.into()))
            .map_err(|_| format!("`{word}` is no IPv6 address"))
    } else {
        Ipv4Addr::from_str(word)
            .map(|address| Address::V4(address.into()))
            .map_err(|_| format!("`{word}` is no IPv4 or IPv6 address"))
    }
}

fn decimal<T: FromStr>(word: &str) -> Result<T, String> {
    word.parse()
        .map_err(|_| format!("`{word}` is no number, or too large"))
}

fn esi_value(text: &str) -> Result<Esi, String> {
    esi::parse_text(text.as_bytes()).map_err(|_| format!("`{text}` is no identifier"))
}

fn distinguisher(text: &str) -> Result<[u8; DISTINGUISHER_LENGTH], String> {
    <[u8; DISTINGUISHER_LENGTH]>::try_from(hex_octets(text)?)
        .map_err(|_| "rd= takes 8 octets".to_string())
}

/// Pairs of hex digits, with or without blanks between the pairs.
fn hex_octets(text: &str) -> Result<Vec<u8>, String> {
    let mut octets = Vec::new();
    for word in text.split_whitespace() {
        let digits: Option<Vec<u8>> = word
            .chars()
            .map(|character| character.to_digit(16).map(|digit| digit as u8))
            .collect();
        match digits {
            Some(digits) if digits.len() % 2 == 0 => {
                octets.extend(digits.chunks_exact(2).map(|pair| 16 * pair[0] + pair[1]));
            }
            _ => return Err(format!("`{word}` is not pairs of hex digits")),
        }
    }
    Ok(octets)
}
