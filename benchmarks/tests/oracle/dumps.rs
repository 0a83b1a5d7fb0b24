//! The last announcement of an address in two dumps (document 02, M-111). A search is any function of two dumps and an address; each is held against the
//! reference on the same questions, number, dump, place and length. Searches with one slip each (`dump_slips`) must show on them.

use crate::dump_slips::{self, Slip};
use crate::theirs;
use benchmarks::answer::{Address, Found, Segment};
use benchmarks::random::Random;
use benchmarks::{array, proved, records, workload};
use reference::dumps::{last_announcement, Dump, Part};
use std::collections::BTreeMap;

const SEEDS: u64 = 3_000;
const ESI: [u8; 10] = workload::ESI;
const OTHER_ESI: [u8; 10] = [0x55; 10];
const TEXT: &[u8] = b"00:11:22:33:44:55:66:77:88:99";

/// A router of each family that dumps hold, and one that none holds.
const FOUR: Address = v4(0x0A00_0001);
const SIX: Address = v6(0x2001_0DB8_0A00_0001, 1);
const NOBODY: Address = v4(0x0A00_00FE);

const fn v4(number: u32) -> Address {
    Address {
        family: benchmarks::answer::Family::V4,
        words: [number, 0, 0, 0],
    }
}

const fn v6(high: u64, low: u32) -> Address {
    Address {
        family: benchmarks::answer::Family::V6,
        words: [(high >> 32) as u32, high as u32, 0, low],
    }
}

/// What the reference answers.
fn expected(first: &[u8], second: &[u8], address: Address) -> Found {
    match last_announcement(first, second, theirs(address)) {
        Ok(Part {
            dump,
            start,
            length,
        }) => Found {
            number: 0,
            dump: match dump {
                Dump::First => 1,
                Dump::Second => 2,
            },
            start,
            length,
        },
        Err(refusal) => Found::refused(refusal.number()),
    }
}

/// A search that is asked, what it first answered otherwise than the reference, and how often each kind of question was asked and each answer due.
struct Asked<S> {
    search: S,
    finding: Option<String>,
    seen: BTreeMap<String, usize>,
}

impl<S: Fn(&[u8], &[u8], Address) -> Found> Asked<S> {
    fn ask(&mut self, what: &str, first: &[u8], second: &[u8], address: Address) {
        if self.finding.is_some() {
            return;
        }
        let due = expected(first, second, address);
        let answer = (self.search)(first, second, address);
        if answer != due {
            self.finding = Some(format!(
                "{what}: {answer:?} and not {due:?} for {address:?} in\n{first:02X?}\nand in\n{second:02X?}"
            ));
        }
        let told = match due.dump {
            0 => due.number.to_string(),
            dump => format!("0 in dump {dump}"),
        };
        let family = theirs(address).family();
        *self.seen.entry(format!("{told} IPv{family}")).or_default() += 1;
        *self.seen.entry(what.into()).or_default() += 1;
    }

    /// Asks for both routers, for one that is in no dump, and for the zero addresses.
    fn ask_for_all(&mut self, what: &str, first: &[u8], second: &[u8]) {
        for address in [FOUR, SIX, NOBODY, Address::v4(0), Address::v6(0)] {
            self.ask(what, first, second, address);
        }
    }

    /// The same, with the dumps in both orders.
    fn ask_both_ways(&mut self, what: &str, one: &[u8], other: &[u8]) {
        self.ask_for_all(what, one, other);
        self.ask_for_all(what, other, one);
    }
}

fn record(kind: u8, body: &[u8]) -> Vec<u8> {
    let mut octets = vec![0xD5, 0x4F, kind, body.len() as u8];
    octets.extend(body);
    octets
}

fn plate() -> Vec<u8> {
    record(0, TEXT)
}

/// An announcement with so many octets of communities.
fn announcement(esi: &[u8; 10], address: Address, communities: usize) -> Vec<u8> {
    let mut body = workload::route(esi, address);
    body.extend(vec![6; communities]);
    record(1, &body)
}

fn announced(address: Address) -> Vec<u8> {
    announcement(&ESI, address, 8)
}

fn withdrawn(address: Address) -> Vec<u8> {
    let octets = workload::octets(address);
    record(if octets.len() == 4 { 2 } else { 4 }, &octets)
}

/// A query that lists routers of one family.
fn asked(ready: &[Address]) -> Vec<u8> {
    let mut body = vec![0, 0, 0, 5];
    let octets: Vec<u8> = ready
        .iter()
        .flat_map(|one| workload::octets(*one))
        .collect();
    body.extend(&octets);
    record(if octets.len() % 16 == 0 { 5 } else { 3 }, &body)
}

/// Records of every kind, the plate first.
fn every_kind() -> Vec<Vec<u8>> {
    vec![
        plate(),
        announced(FOUR),
        asked(&[FOUR]),
        announced(SIX),
        withdrawn(SIX),
        announcement(&OTHER_ESI, FOUR, 3),
        withdrawn(FOUR),
        asked(&[SIX, SIX]),
        announcement(&ESI, SIX, 0),
    ]
}

/// A dump that has neither router.
fn without() -> Vec<u8> {
    [plate(), announced(v4(0x0A00_0002)), withdrawn(FOUR)].concat()
}

/// Dumps that break a rule, each in its own way, and hold both routers before they do.
fn broken() -> Vec<Vec<u8>> {
    let good = [plate(), announced(FOUR), announced(SIX)].concat();
    let mut short = announced(SIX);
    short.truncate(4 + 36);
    short[3] = 36;
    let mut all = vec![announced(FOUR), [announced(FOUR), good.clone()].concat()];
    let tails = [
        vec![0xD5],
        vec![0],
        plate(),
        record(6, &[]),
        record(255, &[]),
        record(1, &[4; 24]),
        short,
        record(2, &[10, 0, 0]),
        record(2, &[0; 16]),
        record(3, &[]),
        record(3, &[0; 6]),
        record(4, &[0; 4]),
        record(5, &[0; 8]),
        record(5, &[0; 16]),
        vec![0xD5, 0x4F, 3, 4, 0, 0, 0],
        vec![0xD5, 0x4E, 3, 4, 0, 0, 0, 1],
        vec![0x4F, 0xD5, 3, 4, 0, 0, 0, 1],
    ];
    for tail in tails {
        all.push([good.clone(), tail.clone(), announced(FOUR)].concat());
        all.push([good.clone(), tail].concat());
    }
    all
}

/// Asks a search every question.
fn asked_all<S: Fn(&[u8], &[u8], Address) -> Found>(search: S) -> Asked<S> {
    let mut asked = Asked {
        search,
        finding: None,
        seen: BTreeMap::new(),
    };
    which_dump(&mut asked);
    duplicates(&mut asked);
    hidden(&mut asked);
    refused_routes(&mut asked);
    twins(&mut asked);
    plates(&mut asked);
    lengths(&mut asked);
    headers(&mut asked);
    cut_everywhere(&mut asked);
    at_every_offset(&mut asked);
    drawn(&mut asked);
    long(&mut asked);
    asked
}

/// In the first, in the second, in both, in none; good ones, empty ones and broken ones. Two dumps alike are told apart, and so is a dump handed over twice.
fn which_dump<S: Fn(&[u8], &[u8], Address) -> Found>(to: &mut Asked<S>) {
    let whole = every_kind().concat();
    let mut all = vec![
        Vec::new(),
        plate(),
        without(),
        [plate(), announced(FOUR)].concat(),
        [plate(), announced(SIX)].concat(),
        [plate(), announced(SIX), announced(FOUR), announced(NOBODY)].concat(),
        whole.clone(),
    ];
    all.extend(broken());
    for first in &all {
        for second in &all {
            to.ask_for_all("which dump", first, second);
        }
        to.ask_for_all("alike", first, &first.clone());
        to.ask_for_all("one dump twice", first, first);
        // the one behind the other in memory
        let both = [&first[..], &whole].concat();
        let (one, other) = both.split_at(first.len());
        to.ask_both_ways("side by side", one, other);
    }
}

/// Several announcements of an address, of one length and of several, others between them.
fn duplicates<S: Fn(&[u8], &[u8], Address) -> Found>(to: &mut Asked<S>) {
    for (address, other) in [(FOUR, SIX), (SIX, FOUR)] {
        for count in 1..6 {
            for lengths in [[8, 8, 8, 8, 8], [0, 8, 16, 24, 32], [9, 0, 5, 200, 1]] {
                let mut dump = plate();
                for (at, length) in lengths.into_iter().take(count).enumerate() {
                    let esi = if at % 2 == 0 { &ESI } else { &OTHER_ESI };
                    dump.extend(announcement(esi, address, length));
                    to.ask_both_ways("duplicates", &dump, &without());
                    dump.extend(announced(other));
                    to.ask_both_ways("duplicates", &dump, &[plate(), announced(address)].concat());
                }
            }
        }
    }
}

/// What comes behind an announcement does not hide it.
fn hidden<S: Fn(&[u8], &[u8], Address) -> Found>(to: &mut Asked<S>) {
    for address in [FOUR, SIX] {
        let older = [plate(), announced(address)].concat();
        for later in [
            withdrawn(address),
            [withdrawn(address), withdrawn(address)].concat(),
            asked(&[address]),
            asked(&[address; 15]),
            [withdrawn(address), announced(NOBODY)].concat(),
        ] {
            let dump = [older.clone(), later].concat();
            to.ask_both_ways("hidden", &dump, &[]);
            to.ask_both_ways("hidden", &dump, &without());
        }
    }
}

/// Routes with one octet changed, and with reserved identifiers and zero addresses: alone, behind a good one and before one.
fn refused_routes<S: Fn(&[u8], &[u8], Address) -> Found>(to: &mut Asked<S>) {
    for address in [FOUR, SIX] {
        let good = workload::route(&ESI, address);
        let mut changed = Vec::new();
        for place in 0..good.len() {
            for value in [0, 1, 4, 22, 23, 24, 31, 32, 33, 35, 64, 127, 128, 129, 255] {
                let mut route = good.clone();
                route[place] = value;
                changed.push(route);
            }
        }
        for octet in [0x00, 0xFF] {
            for esi in [[octet; 10], [octet ^ 1; 10]] {
                changed.push(workload::route(&esi, address));
            }
            for place in 0..10 {
                let mut esi = [octet; 10];
                esi[place] ^= 0x80;
                changed.push(workload::route(&esi, address));
            }
        }
        let mut zero = good.clone();
        zero[21..].fill(0);
        changed.push(zero);
        for route in changed {
            for more in [0, 8, 12, 20] {
                let mut body = route.clone();
                body.extend(vec![6; more]);
                let one = record(1, &body);
                let after = [plate(), announced(address), one.clone()].concat();
                let before = [plate(), one.clone(), announced(address)].concat();
                let alone = [plate(), one].concat();
                to.ask("refused routes", &after, &[], address);
                to.ask("refused routes", &before, &[], address);
                to.ask("refused routes", &alone, &[], address);
                to.ask("refused routes", &alone, &before, address);
                let four = u32::from_be_bytes([body[21], body[22], body[23], body[24]]);
                to.ask("refused routes", &alone, &after, Address::v4(four));
            }
        }
    }
}

/// An IPv4 address and the IPv6 ones that have its octets; addresses that differ in one bit; words behind an IPv4 address, which do not count.
fn twins<S: Fn(&[u8], &[u8], Address) -> Found>(to: &mut Asked<S>) {
    let number = 0x0A00_0001;
    let wide = u128::from(number);
    let mut all = vec![Address::v4(number)];
    all.extend([wide, 0xFFFF << 32 | wide, wide << 96, wide << 96 | wide].map(Address::v6));
    all.extend((0..32).map(|bit| Address::v4(number ^ 1 << bit)));
    all.extend((0..128).map(|bit| Address::v6(wide << 96 ^ 1 << bit)));
    for present in &all {
        let dump = [plate(), announced(*present)].concat();
        for address in &all {
            to.ask("twins", &dump, &without(), *address);
            to.ask("twins", &without(), &dump, *address);
        }
    }
    let mut loose = FOUR;
    loose.words[1..].copy_from_slice(&[1, 2, 3]);
    to.ask("twins", &without(), &every_kind().concat(), loose);
    let mut zero = loose;
    zero.words[0] = 0;
    to.ask("twins", &without(), &every_kind().concat(), zero);
}

/// No plate, a later plate at every place, a text of every length and of octets that look like records.
fn plates<S: Fn(&[u8], &[u8], Address) -> Found>(to: &mut Asked<S>) {
    let records = every_kind();
    for place in 1..=records.len() {
        let mut more = records.clone();
        more.insert(place, plate());
        to.ask_both_ways("plates", &more.concat(), &without());
        to.ask_both_ways("plates", &records[place..].concat(), &without());
    }
    for kind in 0..=255 {
        let dump = [record(kind, TEXT), announced(FOUR)].concat();
        to.ask_both_ways("plates", &dump, &[]);
    }
    for length in 0..=255 {
        for fill in [0, b'0', 0xD5] {
            let dump = [record(0, &vec![fill; length]), announced(SIX)].concat();
            to.ask_both_ways("plates", &dump, &every_kind().concat());
        }
    }
    let inside = [record(0, &announced(FOUR)), announced(SIX)].concat();
    to.ask_both_ways("plates", &inside, &[]);
    let reserved = [record(0, b"ff:ff:ff:ff:ff:ff:ff:ff:ff:ff"), announced(SIX)].concat();
    to.ask_both_ways("plates", &reserved, &without());
}

/// Every length of every kind, the octets zero or those of a route of either family; behind an announcement, and before one.
fn lengths<S: Fn(&[u8], &[u8], Address) -> Found>(to: &mut Asked<S>) {
    let bodies = [FOUR, SIX].map(|address| {
        let mut body = workload::route(&ESI, address);
        body.resize(255, 0);
        body
    });
    for kind in 1..=5 {
        for length in 0..=255 {
            for body in [&bodies[0], &bodies[1], &vec![0; 255]] {
                let one = record(kind, &body[..length]);
                let before = [plate(), one.clone(), announced(FOUR)].concat();
                let behind = [plate(), announced(SIX), one].concat();
                to.ask_both_ways("lengths", &before, &behind);
            }
        }
    }
}

/// Every value of every header octet of every record.
fn headers<S: Fn(&[u8], &[u8], Address) -> Found>(to: &mut Asked<S>) {
    let records = every_kind();
    let whole = records.concat();
    let mut start = 0;
    for record in &records {
        for place in start..start + 4 {
            for value in 0..=255 {
                let mut dump = whole.clone();
                dump[place] = value;
                for address in [FOUR, SIX] {
                    to.ask("headers", &dump, &whole, address);
                    to.ask("headers", &without(), &dump, address);
                }
            }
        }
        start += record.len();
    }
}

/// Dumps cut at every octet, beside others. What was cut off still lies behind the dump in memory.
fn cut_everywhere<S: Fn(&[u8], &[u8], Address) -> Found>(to: &mut Asked<S>) {
    let mut bad = every_kind();
    bad.push(plate());
    for whole in [every_kind().concat(), bad.concat()] {
        for cut in 0..=whole.len() {
            for other in [&[][..], &plate(), &without(), &whole] {
                to.ask_both_ways("cut", &whole[..cut], other);
            }
            to.ask_both_ways("cut", &whole[..cut], &whole[..cut]);
        }
    }
}

/// An announcement at every offset from 4 on, by a plate of any length and records before it.
fn at_every_offset<S: Fn(&[u8], &[u8], Address) -> Found>(to: &mut Asked<S>) {
    for length in 0..=255 {
        for address in [FOUR, SIX] {
            let dump = [record(0, &vec![0xD5; length]), announced(address)].concat();
            to.ask_both_ways("offsets", &dump, &without());
            for between in [
                withdrawn(SIX),
                asked(&[FOUR; 62]),
                announcement(&ESI, NOBODY, 230),
            ] {
                let mut dump = [record(0, &vec![0xD5; length]), between].concat();
                dump.extend(announcement(&ESI, address, length % 218));
                to.ask_both_ways("offsets", &dump, &without());
            }
        }
    }
}

/// Random dumps: records of every kind over a few addresses; some with an octet changed, some cut.
fn drawn<S: Fn(&[u8], &[u8], Address) -> Found>(to: &mut Asked<S>) {
    for seed in 0..SEEDS {
        let mut random = Random(seed);
        let mut pool = crate::addresses(&mut random);
        random.shuffle(&mut pool);
        pool.truncate(8);
        let pick = |random: &mut Random| pool[random.below(pool.len())];
        let [first, second] = [0, 1].map(|_| drawn_dump(&mut random, &pick));
        for _ in 0..6 {
            let address = pick(&mut random);
            to.ask("drawn", &first, &second, address);
        }
    }
}

fn drawn_dump(random: &mut Random, pick: &impl Fn(&mut Random) -> Address) -> Vec<u8> {
    if random.one_in(20) {
        return Vec::new();
    }
    let mut dump = record(0, &TEXT[..29 - random.below(2) * random.below(30)]);
    for _ in 0..random.below(30) {
        let address = pick(random);
        let esi = [ESI, ESI, ESI, OTHER_ESI, [0; 10], [0xFF; 10]][random.below(6)];
        let communities = [0, 8, 16, random.below(200)][random.below(4)];
        dump.extend(match random.below(5) {
            0 => withdrawn(address),
            1 => asked(&vec![address; random.below(15)]),
            2 => {
                let mut one = announcement(&esi, address, communities);
                let place = 4 + random.below(25);
                one[place] ^= 1 << random.below(8);
                one
            }
            _ => announcement(&esi, address, communities),
        });
    }
    match random.below(12) {
        0 => dump.truncate(random.below(dump.len())),
        1 => {
            let place = random.below(dump.len());
            dump[place] = random.octets::<1>()[0];
        }
        _ => {}
    }
    dump
}

/// Long dumps, as the benchmark has them.
fn long<S: Fn(&[u8], &[u8], Address) -> Found>(to: &mut Asked<S>) {
    let (first, second, addresses) = records::dumps(20_000);
    for address in addresses {
        to.ask("long", &first, &second, address);
        to.ask("long", &second, &first[..first.len() - 1], address);
    }
}

/// Holds a search against the reference: nothing differs, and enough of everything came up.
fn same_as_the_reference(search: impl Fn(&[u8], &[u8], Address) -> Found) {
    let asked = asked_all(search);
    println!("{:?}", asked.seen);
    if let Some(finding) = asked.finding {
        panic!("{finding}");
    }
    for (what, least) in [
        ("0 in dump 1 IPv4", 5_000),
        ("0 in dump 1 IPv6", 5_000),
        ("0 in dump 2 IPv4", 4_000),
        ("0 in dump 2 IPv6", 4_000),
        ("6 IPv4", 5_000),
        ("6 IPv6", 5_000),
        ("9 IPv4", 5_000),
        ("9 IPv6", 1_000),
        ("16 IPv4", 5_000),
        ("16 IPv6", 5_000),
        ("drawn", 10_000),
        ("long", 4),
    ] {
        let count = asked.seen.get(what).copied().unwrap_or(0);
        assert!(count >= least, "only {count} of {what}");
    }
}

#[test]
fn proved_is_right() {
    same_as_the_reference(<proved::Table as Segment>::last_announcement);
}

#[test]
fn baseline_is_right() {
    same_as_the_reference(<array::Table as Segment>::last_announcement);
}

/// A search written another way, and the same with each slip: only the one without a slip is right.
#[test]
fn every_slip_shows() {
    same_as_the_reference(|first, second, address| {
        dump_slips::search(first, second, address, None)
    });
    for slip in Slip::ALL {
        let search = |first: &[u8], second: &[u8], address| {
            dump_slips::search(first, second, address, Some(slip))
        };
        let asked = asked_all(search);
        assert!(asked.finding.is_some(), "{slip:?} does not show");
    }
}
