//! Rows of words, in rising order from the start of a run of words: one search by halving, one insertion and one removal, for rows of any width. A place
//! in a search is told by the word at which its row starts. Words are compared two at a time, as one number, and one look at a row decides less, equal or
//! greater. Of 64 rows at most seven are looked at.
//!
//! Words are read without a test of bounds, which the proved calls have none of either: whoever hands in words hands in those of n whole rows.

/// So many rows and fewer are moved one by one, more as a block.
const FEW: usize = 4;

/// Where a row stands, or would stand.
pub type Found = Result<usize, usize>;

/// What rows of W words are looked for by.
pub trait Key<const W: usize>: Copy {
    /// Looks at a row of W words where it lies.
    fn look(self, row: Lies) -> Look;
}

/// How a row stands to a key: they differ, or it is as their last words do, as numbers.
pub enum Look {
    Differ { less: bool },
    Last { row: u64, key: u64 },
}

use Look::{Differ, Last};

/// Two pairs of words that differ.
#[inline(always)]
fn differ(row: u64, key: u64) -> Look {
    Differ {
        less: turned(row) < turned(key),
    }
}

/// Where a row lies: at a word of a run.
#[derive(Clone, Copy)]
pub struct Lies(*const u32);

// SAFETY, of every function: see above.
impl Lies {
    #[inline(always)]
    pub fn at(words: &[u32], at: usize) -> Lies {
        debug_assert!(at < words.len());
        Lies(unsafe { words.as_ptr().add(at) })
    }

    /// So many words further.
    #[inline(always)]
    pub fn behind(self, words: usize) -> Lies {
        Lies(unsafe { self.0.add(words) })
    }

    /// At which word of a run this is.
    #[inline(always)]
    fn from(self, words: &[u32]) -> usize {
        unsafe { self.0.offset_from_unsigned(words.as_ptr()) }
    }

    /// A word of the row.
    #[inline(always)]
    pub fn word(self, at: usize) -> u32 {
        unsafe { self.0.add(at).read() }
    }

    /// Two words of the row as the machine loads them at once, the first low.
    #[inline(always)]
    pub fn pair(self, at: usize) -> u64 {
        let two = unsafe { self.0.add(at).cast::<[u32; 2]>().read() };
        joined(two[0], two[1])
    }
}

/// A word of a run.
#[inline(always)]
pub fn word(words: &[u32], at: usize) -> u32 {
    Lies::at(words, at).word(0)
}

/// Two words of a run, the first low.
#[inline(always)]
pub fn pair(words: &[u32], at: usize) -> u64 {
    debug_assert!(at + 1 < words.len());
    Lies::at(words, at).pair(0)
}

#[inline(always)]
pub fn joined(low: u32, high: u32) -> u64 {
    u64::from(low) | u64::from(high) << 32
}

/// The same two words with the first high, so that numbers stand to each other as their words do.
#[inline(always)]
pub fn turned(pair: u64) -> u64 {
    pair.rotate_left(32)
}

/// A key that is a whole row.
pub trait Row<const W: usize>: Key<W> {
    fn row(self) -> [u32; W];
}

/// An IPv4 address in a row: the family and the number decide, since zeros follow in every such row.
#[derive(Clone, Copy)]
pub struct Four {
    head: u64,
}

impl Four {
    #[inline(always)]
    pub fn new(number: u32) -> Four {
        let head = 4 << 32 | u64::from(number);
        Four { head }
    }
}

impl Key<5> for Four {
    #[inline(always)]
    fn look(self, row: Lies) -> Look {
        Last {
            row: turned(row.pair(0)),
            key: self.head,
        }
    }
}

impl Row<5> for Four {
    #[inline(always)]
    fn row(self) -> [u32; 5] {
        [4, self.head as u32, 0, 0, 0]
    }
}

/// An IPv6 address in a row.
#[derive(Clone, Copy)]
pub struct Six {
    head: u64,
    middle: u64,
    last: u32,
}

impl Six {
    #[inline(always)]
    pub fn new([a, b, c, d]: [u32; 4]) -> Six {
        Six {
            head: joined(6, a),
            middle: joined(b, c),
            last: d,
        }
    }
}

impl Key<5> for Six {
    #[inline(always)]
    fn look(self, row: Lies) -> Look {
        let head = row.pair(0);
        if head != self.head {
            return differ(head, self.head);
        }
        let middle = row.pair(2);
        if middle != self.middle {
            return differ(middle, self.middle);
        }
        Last {
            row: row.word(4).into(),
            key: self.last.into(),
        }
    }
}

impl Row<5> for Six {
    #[inline(always)]
    fn row(self) -> [u32; 5] {
        let high = |pair: u64| (pair >> 32) as u32;
        let [a, b, c] = [high(self.head), self.middle as u32, high(self.middle)];
        [6, a, b, c, self.last]
    }
}

/// Two words before the row of an address.
#[derive(Clone, Copy)]
pub struct Behind<K> {
    pub head: u64,
    pub key: K,
}

impl<K: Key<5>> Key<7> for Behind<K> {
    #[inline(always)]
    fn look(self, row: Lies) -> Look {
        let head = row.pair(0);
        if head != self.head {
            return differ(head, self.head);
        }
        self.key.look(row.behind(2))
    }
}

impl<K: Row<5>> Row<7> for Behind<K> {
    #[inline(always)]
    fn row(self) -> [u32; 7] {
        let [a, b, c, d, e] = self.key.row();
        [self.head as u32, (self.head >> 32) as u32, a, b, c, d, e]
    }
}

/// Two words with which rows start: it stands where the first of them does.
#[derive(Clone, Copy)]
pub struct Start(pub u64);

impl<const W: usize> Key<W> for Start {
    #[inline(always)]
    fn look(self, row: Lies) -> Look {
        differ(row.pair(0), self.0)
    }
}

/// What numbers of rows are told apart by: twice how often they can be halved, and one more where they are no power of two; none are like one.
static SHAPES: [u8; 257] = {
    let mut shapes = [0; 257];
    let mut n = 1;
    while n < shapes.len() {
        shapes[n] = 2 * n.ilog2() as u8 + !n.is_power_of_two() as u8;
        n += 1;
    }
    shapes
};

/// How n rows are told apart.
#[inline(always)]
pub fn shape(n: usize) -> u8 {
    // SAFETY: no table has more rows.
    unsafe { *SHAPES.get_unchecked(n) }
}

/// Looks a row up among the first n, of which there may be MOST, 64 or 256.
#[inline(always)]
pub fn search<const MOST: usize, const W: usize>(
    words: &[u32],
    n: usize,
    key: impl Key<W>,
) -> Found {
    match shape(n) {
        0 if n == 0 => Err(0),
        0 => among_all::<0, W>(words, key),
        2 => among_all::<1, W>(words, key),
        3 => among::<1, W>(words, n, key),
        4 => among_all::<2, W>(words, key),
        5 => among::<2, W>(words, n, key),
        6 => among_all::<3, W>(words, key),
        7 => among::<3, W>(words, n, key),
        8 => among_all::<4, W>(words, key),
        9 => among::<4, W>(words, n, key),
        10 => among_all::<5, W>(words, key),
        11 => among::<5, W>(words, n, key),
        _ if MOST == 64 => among_all::<6, W>(words, key),
        12 => among_all::<6, W>(words, key),
        13 => among::<6, W>(words, n, key),
        14 => among_all::<7, W>(words, key),
        15 => among::<7, W>(words, n, key),
        _ => among_all::<8, W>(words, key),
    }
}

/// The same among 2^L rows: all but the last are halved, and it is looked at where they are all below.
#[inline(always)]
pub fn among_all<const L: u32, const W: usize>(words: &[u32], key: impl Key<W>) -> Found {
    let last = ((1 << L) - 1) * W;
    match halved::<L, W>(words, 0, key) {
        Err(at) if at == last => {
            let less = match key.look(Lies::at(words, last)) {
                Last { row, key } if row == key => return Ok(last),
                Last { row, key } => row < key,
                Differ { less } => less,
            };
            Err(if less { last + W } else { last })
        }
        found => found,
    }
}

/// The same among more than 2^L rows, but not twice as many: the first look leaves 2^L - 1, of which some may be known to be below already.
#[inline(always)]
pub fn among<const L: u32, const W: usize>(words: &[u32], n: usize, key: impl Key<W>) -> Found {
    let look = ((1 << L) - 1) * W;
    let less = match key.look(Lies::at(words, look)) {
        Last { row, key } if row == key => return Ok(look),
        Last { row, key } => row < key,
        Differ { less } => less,
    };
    let behind = (n + 1 - (1 << L)) * W;
    halved::<L, W>(words, if less { behind } else { 0 }, key)
}

/// Looks a row up among 2^L - 1 from `start` on, by L looks at most. What is before them is below the key, and what is behind them is not.
#[inline(always)]
pub fn halved<const L: u32, const W: usize>(
    words: &[u32],
    start: usize,
    key: impl Key<W>,
) -> Found {
    if L == 0 {
        return Err(start);
    }
    debug_assert!(start + ((1 << L) - 1) * W <= words.len());
    let mut from = Lies::at(words, start);
    for n in (0..L).rev() {
        let step = W << n;
        let look = from.behind(step - W);
        let less = match key.look(look) {
            Last { row, key } if row == key => return Ok(look.from(words)),
            Last { row, key } => row < key,
            Differ { less } => less,
        };
        if less {
            from = look.behind(W);
        }
    }
    Err(from.from(words))
}

/// One row more, before the one at a place among n.
#[inline(always)]
pub fn insert<T: Copy, const N: usize>(rows: &mut [T; N], n: usize, place: usize, row: T) {
    if n - place > FEW {
        rows.copy_within(place..n, place + 1);
    } else {
        for at in (place..n).rev() {
            rows[(at + 1) % N] = rows[at % N];
        }
    }
    rows[place % N] = row;
}

/// One row less, the one at a place among n; `unused` is what the last place then has.
#[inline(always)]
pub fn remove<T: Copy, const N: usize>(rows: &mut [T; N], n: usize, place: usize, unused: T) {
    if n - place > FEW {
        rows.copy_within(place + 1..n, place);
    } else {
        for at in place + 1..n {
            rows[(at - 1) % N] = rows[at % N];
        }
    }
    rows[(n - 1) % N] = unused;
}
