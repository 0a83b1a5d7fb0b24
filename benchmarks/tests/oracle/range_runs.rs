//! Runs of ranges of tags as they are handed in, right ones and ones with a single fault each (document 02, M-109).

use benchmarks::random::Random;
use std::collections::BTreeSet;

/// A range as it is handed in: its first tag, its last tag, and what it says.
pub type Row = [u32; 3];

/// What a run is made to show. The first five may be set.
#[derive(Clone, Copy, Debug, PartialEq, Eq)]
pub enum Kind {
    Empty,
    /// Up to 16 ranges.
    Any,
    Sixteen,
    /// One range ends next to the first tag of another.
    Touching,
    /// Each has one tag.
    OneTag,
    /// Two ranges have one tag in common.
    SharedTag,
    /// One range lies inside another.
    Nested,
    /// One range is there twice, whatever it says.
    Twice,
    Backwards,
    /// The lowest range starts at 0.
    Zero,
    /// The highest range ends at 4,294,967,295.
    AllOnes,
    /// From 17 on.
    TooMany,
    /// A range says neither Highest nor Lowest.
    NoAlgorithm,
    /// One or two words too many or too few.
    Ragged,
}

pub const KINDS: [Kind; 14] = [
    Kind::Empty,
    Kind::Any,
    Kind::Sixteen,
    Kind::Touching,
    Kind::OneTag,
    Kind::SharedTag,
    Kind::Nested,
    Kind::Twice,
    Kind::Backwards,
    Kind::Zero,
    Kind::AllOnes,
    Kind::TooMany,
    Kind::NoAlgorithm,
    Kind::Ragged,
];

/// Numbers that name no algorithm of a range, some of them 2 or 3 in one octet.
const NO_ALGORITHMS: [u32; 12] = [
    0,
    1,
    4,
    5,
    31,
    255,
    258,
    259,
    2 << 16,
    3 << 24,
    u32::MAX - 1,
    u32::MAX,
];

impl Kind {
    pub fn may_be_set(self) -> bool {
        (self as usize) < 5
    }

    /// A run of this kind, its ranges in any order.
    pub fn run(self, random: &mut Random) -> Vec<u32> {
        let most = 1 + random.below(15);
        let mut rows = match self {
            Kind::Empty => Vec::new(),
            Kind::Sixteen => apart(16, random),
            Kind::TooMany => apart(17 + random.below(4), random),
            Kind::Touching | Kind::SharedTag => apart(1 + most, random),
            _ => apart(most, random),
        };
        self.change(&mut rows, random);
        random.shuffle(&mut rows);
        let mut run = rows.concat();
        if self == Kind::Ragged {
            let length = run.len();
            let lengths = [length - 2, length - 1, length + 1, length + 2];
            run.resize(lengths[random.below(4)], 2);
        }
        run
    }

    /// Changes ranges that lie apart, in rising order, into those of this kind.
    fn change(self, rows: &mut Vec<Row>, random: &mut Random) {
        let last = rows.len().saturating_sub(1);
        // one that has a range before it, where there are two
        let at = 1 + random.below(last.max(1));
        let any = random.below(rows.len().max(1));
        match self {
            Kind::Touching => rows[at][0] = rows[at - 1][1] + 1,
            Kind::OneTag => rows.iter_mut().for_each(|row| row[0] = row[1]),
            Kind::SharedTag => rows[at][0] = rows[at - 1][1],
            Kind::Nested => {
                let [first, last, _] = rows[any];
                let low = first + random.below((last - first) as usize + 1) as u32;
                let high = low + random.below((last - low) as usize + 1) as u32;
                rows.push([low, high, says(random)]);
            }
            Kind::Twice => {
                let [first, last, _] = rows[any];
                rows.push([first, last, says(random)]);
            }
            Kind::Backwards => {
                let [low, high, _] = rows[last];
                let high = high.max(2);
                let low = if low < high { low } else { high - 1 };
                let low = [low, high - 1][random.below(2)];
                rows[last] = [high, low, says(random)];
            }
            Kind::Zero => {
                rows[0][0] = 0;
                if random.one_in(3) {
                    rows[0][1] = 0;
                }
            }
            Kind::AllOnes => {
                rows[last][1] = u32::MAX;
                if random.one_in(3) {
                    rows[last][0] = u32::MAX;
                }
            }
            Kind::NoAlgorithm => rows[any][2] = NO_ALGORITHMS[random.below(NO_ALGORITHMS.len())],
            Kind::Empty | Kind::Any | Kind::Sixteen | Kind::TooMany | Kind::Ragged => {}
        }
    }
}

fn says(random: &mut Random) -> u32 {
    2 + random.below(2) as u32
}

/// So many ranges without a tag in common, in rising order. They lie close together, or anywhere; the first may start with the lowest tag that there is, and
/// the last end with the highest.
fn apart(ranges: usize, random: &mut Random) -> Vec<Row> {
    let top = [90, 4094, u32::MAX as usize - 1][random.below(3)];
    let mut tags = BTreeSet::new();
    while tags.len() < 2 * ranges {
        tags.insert(1 + random.below(top) as u32);
    }
    let tags: Vec<u32> = tags.into_iter().collect();
    let pairs = tags.chunks_exact(2);
    let mut rows: Vec<Row> = pairs.map(|two| [two[0], two[1], says(random)]).collect();
    for row in &mut rows {
        match random.below(6) {
            0 => row[0] = row[1],
            1 => row[1] = row[0],
            _ => {}
        }
    }
    if random.one_in(3) {
        rows[0][0] = 1;
    }
    if random.one_in(3) {
        rows[ranges - 1][1] = u32::MAX - 1;
    }
    rows
}
