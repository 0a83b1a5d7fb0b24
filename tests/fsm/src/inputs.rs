//! The inputs: every state with every event and every place of the clock, then lists of items
//! drawn from fixed seeds.

use crate::machine::{answer, Item, CALCULATED, DF_TIMER, DF_WAIT, ES_DOWN, ES_UP, FIRST, INIT};

/// Splitmix64: fixed seeds give fixed lists.
pub struct Random(u64);

impl Random {
    pub fn new(seed: u64) -> Self {
        Random(seed)
    }

    fn word(&mut self) -> u64 {
        self.0 = self.0.wrapping_add(0x9E37_79B9_7F4A_7C15);
        let mut z = self.0;
        z = (z ^ (z >> 30)).wrapping_mul(0xBF58_476D_1CE4_E5B9);
        z = (z ^ (z >> 27)).wrapping_mul(0x94D0_49BB_1331_11EB);
        z ^ (z >> 31)
    }

    fn below(&mut self, n: u64) -> u64 {
        self.word() % n
    }

    fn of<T: Copy>(&mut self, choices: &[T]) -> T {
        choices[self.below(choices.len() as u64) as usize]
    }
}

/// The waits about the limits, and some that are refused.
const WAITS: [u32; 12] = [
    0,
    1,
    2,
    3,
    300,
    599,
    600,
    601,
    602,
    65_536,
    u32::MAX - 1,
    u32::MAX,
];

/// The starts, from which the clock may run over.
const STARTS: [u32; 9] = [
    0,
    1,
    599,
    600,
    0x7FFF_FFFF,
    0x8000_0000,
    u32::MAX - 600,
    u32::MAX - 1,
    u32::MAX,
];

/// Readings about a start and the end of a wait, on both sides of each.
fn readings(since: u32, wait: u32) -> Vec<u32> {
    let ends = since.wrapping_add(wait);
    let mut out = Vec::new();
    for middle in [since, ends, 0, since.wrapping_add(0x8000_0000)] {
        for offset in [u32::MAX - 1, u32::MAX, 0, 1, 2] {
            out.push(middle.wrapping_add(offset));
        }
    }
    out
}

/// The items that lead a fresh machine with this start to each of the four states.
fn leads(since: u32) -> [Vec<Item>; 4] {
    let event = |number| Item::Event { number, now: since };
    [
        vec![],
        vec![event(ES_UP)],
        vec![event(ES_UP), event(DF_TIMER)],
        vec![event(ES_UP), event(DF_TIMER), event(CALCULATED)],
    ]
}

/// Every wait, start, state, and then every event's number or place of the clock, once.
pub fn systematic() -> Vec<Item> {
    let mut items = Vec::new();
    for wait in WAITS {
        for since in STARTS {
            for lead in leads(since) {
                for now in readings(since, wait) {
                    let mut last: Vec<Item> =
                        (0..=8).map(|number| Item::Event { number, now }).collect();
                    last.push(Item::Event { number: 255, now });
                    last.push(Item::Reading { now });
                    for item in last {
                        items.push(Item::Make { wait });
                        items.extend(&lead);
                        items.push(item);
                        items.push(Item::Reading { now });
                    }
                }
            }
        }
    }
    items
}

/// A list of items for one machine. The draws look at the machine as it should be, so that the
/// rare moments come often: a reading just before or at the end of the wait, ES_UP while waiting.
pub fn drawn(seed: u64, length: usize) -> Vec<Item> {
    let mut r = Random::new(seed);
    let wait = match r.below(4) {
        0 => r.of(&WAITS),
        1 => r.below(620) as u32,
        _ => 1 + r.below(600) as u32,
    };
    let mut items = vec![Item::Make { wait }];
    let mut m = answer(FIRST, items[0]).machine;
    let mut clock = if r.below(2) == 0 {
        r.of(&STARTS)
    } else {
        r.word() as u32
    };
    while items.len() < length {
        clock = clock.wrapping_add(r.below(1 + u64::from(m.wait.min(600)) / 2) as u32);
        let now = match r.below(8) {
            0 => r.of(&readings(m.since, m.wait)),
            1 => r.word() as u32,
            _ => clock,
        };
        let number = match (r.below(8), m.state) {
            (0, _) => r.word() as u8,
            (1, _) => ES_DOWN,
            (2..=4, INIT) => ES_UP,
            (2, DF_WAIT) => DF_TIMER,
            (2..=3, _) => CALCULATED,
            _ => r.below(7) as u8,
        };
        let item = match r.below(3) {
            0 => Item::Reading { now },
            // ES_DOWN is rarer than the rest, so that a machine gets through its wait
            _ if number == ES_DOWN && r.below(3) != 0 => Item::Reading { now },
            _ => Item::Event { number, now },
        };
        m = answer(m, item).machine;
        items.push(item);
    }
    items
}
