//! One segment while an input for it is written: its identifier, a pool of addresses that come
//! and go, what its routers like to carry, and the octets so far.

use crate::pools::{self, Families};
use crate::random::Random;
use crate::record::{self, Address, Esi};

/// What announcements of a segment are drawn from.
#[derive(Clone)]
pub struct Profile {
    pub algorithms: Vec<u8>,
    /// How many of a hundred routes set AC-DF, set DP, and come without any community.
    pub ac_df: usize,
    pub dp: usize,
    pub bare: usize,
    pub preferences: Vec<u16>,
}

pub struct Segment {
    pub random: Random,
    pub esi: Esi,
    pub families: Families,
    pub pool: Vec<Address>,
    pub profile: Profile,
    pub octets: Vec<u8>,
}

impl Segment {
    /// A segment whose input starts with a good identifier.
    pub fn new(seed: u64, families: Families, pool_size: usize, profile: Profile) -> Segment {
        let mut random = Random::new(seed);
        let esi = identifier(&mut random);
        let pool = pools::some(&mut random, families, pool_size);
        Segment {
            octets: record::esi_record(&esi),
            random,
            esi,
            families,
            pool,
            profile,
        }
    }

    pub fn push(&mut self, octets: &[u8]) {
        self.octets.extend(octets);
    }

    /// An address of the pool.
    pub fn address(&mut self) -> Address {
        self.random.pick(&self.pool)
    }

    /// An address of the pool or, sometimes, a stranger or zero.
    pub fn any_address(&mut self) -> Address {
        let strange = self.random.below(12);
        if strange > 4 {
            return self.address();
        }
        let address = match strange {
            0 | 1 => Address::V4(0),
            _ => self.address(),
        };
        if self.families == Families::Both && self.random.chance(40) {
            return pools::in_other_family(&mut self.random, address);
        }
        match (strange, address) {
            (0, address) => address,
            (1, _) if self.families == Families::Both => pools::any(&mut self.random),
            (1, _) => Address::V4(self.random.number() as u32),
            (2, Address::V4(number)) => Address::V4(number.wrapping_add(1)),
            (2, Address::V6(number)) => Address::V6(number.wrapping_add(1)),
            (3, Address::V4(number)) => Address::V4(number ^ 1 << 31),
            (3, Address::V6(number)) => Address::V6(number ^ 1 << self.random.below(128)),
            (_, Address::V4(number)) => Address::V4(number.swap_bytes()),
            (_, Address::V6(number)) => Address::V6(number.swap_bytes()),
        }
    }

    /// A community drawn from the profile; none if the route is bare.
    pub fn community(&mut self) -> Vec<u8> {
        if self.random.chance(self.profile.bare) {
            return Vec::new();
        }
        let algorithm = self.random.pick(&self.profile.algorithms);
        let ac_df = self.random.chance(self.profile.ac_df);
        let dp = self.random.chance(self.profile.dp);
        let preference = self.random.pick(&self.profile.preferences);
        let mut octets = record::community(algorithm, ac_df, dp, preference);
        if self.random.chance(40) {
            octets[2] |= self.random.octet() & 0xE0;
            octets[3] |= self.random.octet() & 0x3F;
            octets[4] = self.random.octet();
            octets[5] = self.random.octet();
        }
        octets
    }

    /// Announces an address with a community of the profile.
    pub fn announce(&mut self, address: Address) {
        let communities = self.community();
        self.announce_with(address, &communities);
    }

    /// Announces an address with these communities and some distinguisher.
    pub fn announce_with(&mut self, address: Address, communities: &[u8]) {
        let distinguisher = self.random.octets(8);
        let mut body = record::route(&distinguisher, &self.esi, address);
        body.extend(communities);
        self.push(&record::record(record::KIND_ANNOUNCEMENT, &body));
    }

    pub fn withdraw(&mut self, address: Address) {
        self.push(&record::withdrawal(address));
    }

    /// A query for a tag that is mostly good, with some ready list.
    pub fn query(&mut self) {
        let tag = any_tag(&mut self.random);
        let ready = self.ready_list();
        self.ask(tag, &ready);
    }

    /// A query that lists the IPv4 addresses of the list as ready or, where the pool may have
    /// both families, those of either.
    pub fn ask(&mut self, tag: u32, ready: &[Address]) {
        let octets = if self.families == Families::Both && self.random.chance(60) {
            record::v6_query(tag, ready)
        } else {
            record::query(tag, ready)
        };
        self.push(&octets);
    }

    /// A ready list: empty, a part of the pool, with strangers, repeats and zeros, or long.
    pub fn ready_list(&mut self) -> Vec<Address> {
        match self.random.below(6) {
            0 => Vec::new(),
            1 => self.pool.clone(),
            2 => vec![self.address()],
            3 => vec![self.any_address(); record::MAX_READY],
            _ => {
                let count = self.random.below(2 * self.pool.len() + 2);
                (0..count).map(|_| self.any_address()).collect()
            }
        }
    }

    /// Queries for a row of tags, so that each eligible router shows in turn under rule 0.
    pub fn query_row(&mut self, ready: &[Address]) {
        let first = self.random.between(1, 5000) as u32;
        for step in 0..self.pool.len().min(8) as u32 {
            self.ask(first + step, ready);
        }
    }

    /// One call of any kind.
    pub fn step(&mut self) {
        match self.random.below(10) {
            0..=4 => {
                let address = self.address();
                self.announce(address);
            }
            5..=6 => {
                let address = self.any_address();
                self.withdraw(address);
            }
            _ => self.query(),
        }
    }

    pub fn steps(&mut self, count: usize) {
        for _ in 0..count {
            self.step();
        }
    }

    /// Announces the whole pool.
    pub fn fill(&mut self) {
        for address in self.pool.clone() {
            self.announce(address);
        }
    }
}

/// Some identifier that is not reserved, sometimes nearly so.
pub fn identifier(random: &mut Random) -> Esi {
    let mut esi = [random.pick(&[0x00, 0xFF, 0xA5]); 10];
    if random.chance(70) {
        esi.fill_with(|| random.octet());
    }
    esi[random.below(10)] = random.between(1, 254) as u8;
    esi
}

/// A tag: mostly good, sometimes reserved or at a limit.
pub fn any_tag(random: &mut Random) -> u32 {
    match random.below(12) {
        0 => random.pick(&[0, u32::MAX]),
        1 => random.pick(&[1, u32::MAX - 1, 0x7FFF_FFFF, 0x8000_0000]),
        2..=4 => random.number() as u32,
        _ => random.between(1, 4094) as u32,
    }
}
