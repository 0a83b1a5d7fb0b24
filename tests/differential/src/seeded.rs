//! Families of inputs that are drawn from a seed: whole runs of calls for one segment, each
//! family with its own trouble in mind.

use crate::pools::{self, Families};
use crate::random::Random;
use crate::record::{self, Address, MAX_COMMUNITIES};
use crate::segment::{self, any_tag, Profile, Segment};
use crate::Make;
use Families::{Both, OnlyV4};

/// The families: name, number of inputs, and what makes an input from a seed.
pub fn families() -> Vec<(&'static str, u64, Make)> {
    vec![
        ("mixed", 1500, |seed| mixed(seed, OnlyV4)),
        ("agreed", 2000, |seed| agreed(seed, OnlyV4)),
        ("one-differs", 1500, |seed| one_differs(seed, OnlyV4)),
        ("preference-ties", 1000, |seed| {
            preference_ties(seed, OnlyV4)
        }),
        ("ac-df", 1500, |seed| ac_df(seed, OnlyV4)),
        ("full-table", 800, |seed| full_table(seed, OnlyV4)),
        ("full-table-faults", 400, |seed| {
            full_table_faults(seed, OnlyV4)
        }),
        ("weights", 1500, |seed| weights(seed, OnlyV4)),
        ("faulty-routes", 1000, |seed| faulty_routes(seed, OnlyV4)),
        ("community-lists", 1500, |seed| {
            community_lists(seed, OnlyV4)
        }),
        ("tags", 300, tags),
        ("esi-texts", 1000, esi_texts),
        ("bad-records", 1000, |seed| bad_records(seed, OnlyV4)),
        ("noise", 1000, |seed| noise(seed, OnlyV4)),
        ("nonsense", 400, nonsense),
        ("both-mixed", 1000, |seed| mixed(seed, Both)),
        ("both-agreed", 1200, |seed| agreed(seed, Both)),
        ("both-one-differs", 500, |seed| one_differs(seed, Both)),
        ("both-preference-ties", 600, |seed| {
            preference_ties(seed, Both)
        }),
        ("both-ac-df", 1200, |seed| ac_df(seed, Both)),
        ("both-full-table", 800, |seed| full_table(seed, Both)),
        ("both-full-table-faults", 300, |seed| {
            full_table_faults(seed, Both)
        }),
        ("both-weights", 1200, |seed| weights(seed, Both)),
        ("both-faulty-routes", 1000, |seed| faulty_routes(seed, Both)),
        ("both-community-lists", 400, |seed| {
            community_lists(seed, Both)
        }),
        ("both-bad-records", 600, |seed| bad_records(seed, Both)),
        ("both-noise", 800, |seed| noise(seed, Both)),
        ("long-runs", 6, |seed| long_runs(seed, OnlyV4)),
        ("both-long-runs", 3, |seed| long_runs(seed, Both)),
    ]
}

const FEW_PREFERENCES: [u16; 6] = [0, 1, 500, 32_767, 65_534, 65_535];

/// Any algorithm, any bits: mostly a fall back to the default.
fn any_profile(random: &mut Random) -> Profile {
    let mut algorithms: Vec<u8> = (0..=3).collect();
    if random.chance(50) {
        algorithms.extend(4..=31);
    }
    Profile {
        algorithms,
        ac_df: random.pick(&[0, 50, 100]),
        dp: 50,
        bare: random.pick(&[0, 20, 80]),
        preferences: FEW_PREFERENCES.to_vec(),
    }
}

/// One algorithm and one AC-DF bit for all routes.
fn agreed_profile(random: &mut Random) -> Profile {
    let algorithm = if random.chance(85) {
        random.below(4)
    } else {
        random.between(4, 31)
    };
    agreed_on(random, algorithm as u8)
}

fn agreed_on(random: &mut Random, algorithm: u8) -> Profile {
    let mut preferences = FEW_PREFERENCES.to_vec();
    if random.chance(50) {
        preferences.extend((0..20).map(|_| random.number() as u16));
    }
    Profile {
        algorithms: vec![algorithm],
        ac_df: random.pick(&[0, 100]),
        dp: random.pick(&[0, 30, 70, 100]),
        bare: 0,
        preferences,
    }
}

/// Every kind of call with every algorithm.
fn mixed(seed: u64, families: Families) -> Vec<u8> {
    let mut random = Random::new(!seed);
    let profile = any_profile(&mut random);
    let mut segment = Segment::new(seed, families, random.between(1, 12), profile);
    segment.steps(random.between(1, 90));
    segment.query_row(&[]);
    segment.octets
}

/// Every kind of call, and all routes agree.
fn agreed(seed: u64, families: Families) -> Vec<u8> {
    let mut random = Random::new(!seed);
    let profile = agreed_profile(&mut random);
    let mut segment = Segment::new(seed, families, random.between(1, 12), profile);
    segment.steps(random.between(1, 60));
    let pool = segment.pool.clone();
    segment.query_row(&pool);
    segment.octets
}

/// All routes agree, then one differs, then it agrees again or goes.
fn one_differs(seed: u64, families: Families) -> Vec<u8> {
    let mut random = Random::new(!seed);
    let profile = agreed_profile(&mut random);
    let mut segment = Segment::new(seed, families, random.between(2, 8), profile.clone());
    let ready: Vec<Address> = segment.pool.iter().copied().skip(1).collect();
    segment.fill();
    segment.query_row(&ready);
    let odd = segment.address();
    segment.profile = other_profile(&mut random, &profile);
    segment.announce(odd);
    segment.query_row(&ready);
    segment.profile = profile;
    if random.chance(50) {
        segment.announce(odd);
    } else {
        segment.withdraw(odd);
    }
    segment.query_row(&ready);
    segment.octets
}

/// A profile that differs in the algorithm, in the AC-DF bit, or in DP and preference alone.
fn other_profile(random: &mut Random, profile: &Profile) -> Profile {
    let mut other = profile.clone();
    match random.below(4) {
        0 => other.algorithms = vec![random.below(32) as u8],
        1 => other.ac_df = 100 - other.ac_df,
        2 => other.bare = 100,
        _ => {
            other.dp = 100 - other.dp;
            other.preferences = vec![random.number() as u16];
        }
    }
    other
}

/// Equal preferences with DP set and clear, under both preference algorithms.
fn preference_ties(seed: u64, families: Families) -> Vec<u8> {
    let mut random = Random::new(!seed);
    let algorithm = random.pick(&[2, 3]);
    let mut profile = agreed_on(&mut random, algorithm);
    let near = random.pick(&FEW_PREFERENCES);
    profile.preferences = vec![near, near, near.wrapping_add(1), near.swap_bytes()];
    let mut segment = Segment::new(seed, families, random.between(2, 10), profile);
    segment.fill();
    for _ in 0..random.between(4, 20) {
        let address = segment.address();
        segment.announce(address);
        let ready = segment.ready_list();
        segment.ask(7, &ready);
    }
    segment.octets
}

/// AC-DF agreed by all, with every kind of ready list and few routes ready.
fn ac_df(seed: u64, families: Families) -> Vec<u8> {
    let mut random = Random::new(!seed);
    let algorithm = random.below(4) as u8;
    let mut profile = agreed_on(&mut random, algorithm);
    profile.ac_df = 100;
    let mut segment = Segment::new(seed, families, random.between(1, 20), profile);
    segment.fill();
    for _ in 0..random.between(5, 30) {
        let ready = segment.ready_list();
        let tag = any_tag(&mut segment.random);
        segment.ask(tag, &ready);
        if segment.random.chance(20) {
            segment.step();
        }
    }
    segment.octets
}

/// Around 64 routes: the 65th, withdrawals, refills and replacements.
fn full_table(seed: u64, families: Families) -> Vec<u8> {
    let mut random = Random::new(!seed);
    let profile = if random.chance(70) {
        agreed_profile(&mut random)
    } else {
        any_profile(&mut random)
    };
    let mut segment = Segment::new(seed, families, random.between(63, 70), profile);
    segment.fill();
    for _ in 0..random.between(5, 40) {
        let address = segment.address();
        match segment.random.below(4) {
            0 => segment.withdraw(address),
            1 | 2 => segment.announce(address),
            _ => segment.query(),
        }
    }
    let mut ready = segment.pool.clone();
    segment.random.shuffle(&mut ready);
    segment.query_row(&ready);
    segment.octets
}

/// A full table met by announcements with several faults, and replacements among them.
fn full_table_faults(seed: u64, families: Families) -> Vec<u8> {
    let mut random = Random::new(!seed);
    let profile = agreed_profile(&mut random);
    let mut segment = Segment::new(seed, families, 66, profile);
    segment.fill();
    for _ in 0..random.between(5, 30) {
        let octets = faulty_announcement(&mut segment);
        segment.push(&octets);
        segment.query();
    }
    segment.octets
}

/// Weights: many tags, and addresses that tie.
fn weights(seed: u64, families: Families) -> Vec<u8> {
    let mut random = Random::new(!seed);
    let profile = agreed_on(&mut random, 1);
    let mut segment = Segment::new(seed, families, random.between(1, 16), profile);
    if random.chance(60) {
        segment.pool = pools::twins(&mut random, families, segment.pool.len() + 1);
    }
    segment.fill();
    for _ in 0..random.between(5, 30) {
        segment.query();
        if segment.random.chance(10) {
            let address = segment.any_address();
            segment.withdraw(address);
        }
    }
    segment.octets
}

/// Announcements with one fault or several, between good ones.
fn faulty_routes(seed: u64, families: Families) -> Vec<u8> {
    let mut random = Random::new(!seed);
    let profile = agreed_profile(&mut random);
    let mut segment = Segment::new(seed, families, random.between(1, 6), profile);
    for _ in 0..random.between(3, 40) {
        let octets = faulty_announcement(&mut segment);
        segment.push(&octets);
        if segment.random.chance(40) {
            segment.step();
        }
    }
    segment.query_row(&[]);
    segment.octets
}

/// An announcement that may have any of the faults of a route or a list.
fn faulty_announcement(segment: &mut Segment) -> Vec<u8> {
    let address = segment.address();
    let mut communities = segment.community();
    let random = &mut segment.random;
    let mut esi = segment.esi;
    match random.below(8) {
        0 => esi.fill(0x00),
        1 => esi.fill(0xFF),
        2 => esi[random.below(10)] ^= 1 << random.below(8),
        3 => esi.reverse(),
        _ => {}
    }
    let mut route = record::route(&random.octets(8), &esi, address);
    for place in [0, 1, 20] {
        let good = route[place];
        if random.chance(10) {
            route[place] = random.pick(&[good, good ^ 1, good ^ 128, 0, 255]);
        }
    }
    if random.chance(10) {
        route[21..].fill(0);
    }
    if random.chance(20) {
        let place = random.below(route.len());
        route[place] = random.octet();
    }
    if random.chance(15) {
        communities.extend(random.octets(1));
    }
    route.extend(communities);
    record::record(record::KIND_ANNOUNCEMENT, &route)
}

/// Lists with several communities of all kinds, of good and bad lengths.
fn community_lists(seed: u64, families: Families) -> Vec<u8> {
    let mut random = Random::new(!seed);
    let mut profile = agreed_profile(&mut random);
    profile.ac_df = 50;
    profile.algorithms.push(2);
    let mut segment = Segment::new(seed, families, random.between(1, 4), profile);
    for _ in 0..random.between(2, 16) {
        let address = segment.address();
        let list = community_list(&mut segment);
        segment.announce_with(address, &list);
        segment.query();
    }
    segment.query_row(&[]);
    segment.octets
}

/// A list of communities, sometimes cut short or with octets too many.
fn community_list(segment: &mut Segment) -> Vec<u8> {
    let count = segment.random.pick(&[1, 2, 3, 5, 28]);
    let mut list = Vec::new();
    for _ in 0..count {
        let one = segment.community();
        list.extend(some_community(&mut segment.random, one));
    }
    if segment.random.chance(20) {
        list.truncate(segment.random.below(list.len() + 1));
    }
    if segment.random.chance(20) {
        let more = segment.random.below(MAX_COMMUNITIES + 1);
        list.extend(segment.random.octets(more));
    }
    list.truncate(MAX_COMMUNITIES);
    list
}

/// An election community as it is, or turned into one of another kind.
fn some_community(random: &mut Random, mut octets: Vec<u8>) -> Vec<u8> {
    let kind = random.pick(&[
        [0x06, 0x06],
        [0x06, 0x06],
        [0x46, 0x06],
        [0x06, 0x05],
        [0x06, 0x07],
        [0x00, 0x06],
        [0x06, 0x00],
        [0x06, 0x86],
    ]);
    for (slot, octet) in octets.iter_mut().zip(kind) {
        *slot = octet;
    }
    octets
}

/// Reserved tags and tags at the limits, with and without routes.
fn tags(seed: u64) -> Vec<u8> {
    let mut random = Random::new(!seed);
    let profile = agreed_profile(&mut random);
    let mut segment = Segment::new(seed, OnlyV4, random.between(1, 9), profile);
    let tags = [
        0,
        1,
        2,
        255,
        256,
        65_535,
        65_536,
        0x7FFF_FFFF,
        0x8000_0000,
        0xFF00_0000,
    ];
    for tag in tags {
        let ready = segment.pool.clone();
        segment.push(&record::query(tag, &ready));
        segment.push(&record::query(!tag, &ready));
        let address = segment.address();
        segment.announce(address);
    }
    for back in 0..6 {
        let ready = segment.ready_list();
        segment.push(&record::query(u32::MAX - back, &ready));
    }
    segment.octets
}

/// Texts of identifiers: cases, wrong characters, wrong lengths, reserved ones.
fn esi_texts(seed: u64) -> Vec<u8> {
    let mut random = Random::new(seed);
    let esi = match random.below(6) {
        0 => [0x00; 10],
        1 => [0xFF; 10],
        _ => segment::identifier(&mut random),
    };
    let mut text = record::esi_text(&esi);
    recase(&mut random, &mut text);
    if random.chance(50) {
        damage_text(&mut random, &mut text);
    }
    let mut octets = record::record(record::KIND_ESI, &text);
    octets.extend(record::announcement(&esi, Address::V4(0x0A00_0001), &[]));
    octets.extend(record::query(1, &[]));
    octets
}

/// Lower, upper or mixed case.
fn recase(random: &mut Random, text: &mut [u8]) {
    let upper = random.pick(&[0, 50, 100]);
    for character in text {
        if random.chance(upper) {
            character.make_ascii_uppercase();
        }
    }
}

fn damage_text(random: &mut Random, text: &mut Vec<u8>) {
    let place = random.below(text.len());
    match random.below(6) {
        0 => text[place] = random.pick(b"OoIlgG:;.- \n@`/"),
        1 => text[place] = random.octet(),
        2 => {
            text.remove(place);
        }
        3 => text.insert(place, random.pick(b"0fF: \n")),
        4 => text.truncate(place),
        _ => {
            let more = random.between(1, 31);
            text.extend(b":00:11:22:33:44:55:66:77:88:99:aa".iter().take(more));
        }
    }
}

/// A good run with one record broken, and good records after it.
fn bad_records(seed: u64, families: Families) -> Vec<u8> {
    let mut random = Random::new(!seed);
    let profile = any_profile(&mut random);
    let mut segment = Segment::new(seed, families, random.between(1, 6), profile);
    segment.steps(random.below(12));
    let bad = bad_record(&mut segment, families);
    if segment.random.chance(10) {
        segment.octets.clear();
    }
    segment.push(&bad);
    segment.steps(random.below(6));
    segment.octets
}

fn bad_record(segment: &mut Segment, families: Families) -> Vec<u8> {
    let random = &mut segment.random;
    let length = random.below(256);
    let kinds = if families == Both { 6 } else { 4 };
    let mut octets = record::record(random.below(kinds) as u8, &random.octets(length));
    match random.below(6) {
        0 => octets[0] = random.octet(),
        1 => octets[1] = random.octet(),
        2 => octets[2] = random.octet(),
        3 => octets[3] = random.octet(),
        4 => octets = record::esi_record(&segment.esi),
        _ => {}
    }
    octets
}

/// A good run with octets changed, dropped or put in anywhere.
fn noise(seed: u64, families: Families) -> Vec<u8> {
    let mut random = Random::new(!seed);
    let profile = agreed_profile(&mut random);
    let mut segment = Segment::new(seed, families, random.between(1, 8), profile);
    segment.steps(random.between(1, 30));
    let mut octets = segment.octets;
    for _ in 0..random.between(1, 4) {
        let place = random.below(octets.len());
        match random.below(5) {
            0..=2 => octets[place] ^= 1 << random.below(8),
            3 => octets.insert(place, random.octet()),
            _ => octets.truncate(place.max(1)),
        }
    }
    octets
}

/// Octets without any sense, some of them after a good first record.
fn nonsense(seed: u64) -> Vec<u8> {
    let mut random = Random::new(seed);
    let mut octets = Vec::new();
    if random.chance(50) {
        octets.extend(record::esi_record(&segment::identifier(&mut random)));
    }
    if random.chance(50) {
        octets.extend([0xD5, 0x4F, random.below(4) as u8]);
    }
    let count = random.below(300);
    octets.extend(random.octets(count));
    octets
}

/// A hundred thousand records.
fn long_runs(seed: u64, families: Families) -> Vec<u8> {
    let mut random = Random::new(!seed);
    let profile = if random.chance(60) {
        agreed_profile(&mut random)
    } else {
        any_profile(&mut random)
    };
    let mut segment = Segment::new(seed, families, random.between(2, 70), profile);
    segment.steps(100_000);
    segment.octets
}
