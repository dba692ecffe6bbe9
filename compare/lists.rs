//! Random lists of requests: the addresses come in stretches that make hits, conflicts, write-backs or refusals, and a
//! list may be damaged afterwards.

use crate::random::Random;

pub const READ: u8 = 0;
pub const WRITE: u8 = 1;
pub const RETURN_BLOCK: u8 = 2;
pub const RETURN_ALL: u8 = 3;

/// A request word; the caller keeps to the layout or not, as wanted.
pub fn word(mode: u8, wait: u8, address: u16, data: u8) -> [u8; 4] {
    let [high, low] = address.to_be_bytes();
    [0x80 | mode << 5 | wait, high, low, data]
}

/// How often reads, writes, block returns and full returns stand in a stretch.
const MIXES: [[usize; 4]; 6] = [[1, 0, 0, 0], [0, 1, 0, 0], [8, 6, 1, 0], [20, 20, 4, 1], [2, 4, 3, 0], [4, 4, 2, 2]];

/// Where the addresses of a stretch lie.
#[derive(Clone, Copy)]
enum Addresses {
    Anywhere,
    Inside,
    /// Few bytes that lie together.
    Near {
        base: usize,
        bytes: usize,
    },
    /// Blocks that lie `step` bytes apart, so that they fall into one set or into few.
    Apart {
        base: usize,
        step: usize,
        blocks: usize,
    },
    Upwards {
        next: usize,
    },
    /// At the end of the memory, some past it.
    Edge,
}

impl Addresses {
    fn choose(random: &mut Random, size: usize) -> Self {
        let base = random.below(size);
        match random.below(10) {
            0 => Addresses::Anywhere,
            1 | 2 => Addresses::Inside,
            3 | 4 => Addresses::Near { base, bytes: random.between(1, 48) },
            5..=7 => Addresses::Apart { base, step: random.pick(&[4, 16, 32, 64]), blocks: random.between(2, 12) },
            8 => Addresses::Upwards { next: base },
            _ => Addresses::Edge,
        }
    }

    fn next(&mut self, random: &mut Random, size: usize) -> u16 {
        let address = match self {
            Addresses::Anywhere => random.below(65_536),
            Addresses::Inside => random.below(size),
            Addresses::Near { base, bytes } => (*base + random.below(*bytes)) % size,
            Addresses::Apart { base, step, blocks } => (*base + *step * random.below(*blocks) + random.below(4)) % size,
            Addresses::Upwards { next } => {
                *next += 1;
                *next % size
            }
            Addresses::Edge => size + random.below(12) - 8.min(size),
        };
        address.min(65_535) as u16
    }
}

/// A row of words inside the layout, for a memory of `size` bytes, which is not 0.
pub fn requests(random: &mut Random, size: usize, count: usize) -> Vec<[u8; 4]> {
    let mut words = Vec::with_capacity(count);
    while words.len() < count {
        let mix = random.pick(&MIXES);
        let mut addresses = Addresses::choose(random, size);
        for _ in 0..random.between(1, 80).min(count - words.len()) {
            let mode = random.weighted(&mix) as u8;
            let wait = random.below(32) as u8;
            words.push(match mode {
                RETURN_ALL => word(mode, wait, 0, 0),
                WRITE => word(mode, wait, addresses.next(random, size), random.byte()),
                _ => word(mode, wait, addresses.next(random, size), 0),
            });
        }
    }
    words
}

/// A word outside the layout.
pub fn bad_word(random: &mut Random) -> [u8; 4] {
    let wait = random.below(32) as u8;
    let address = random.next() as u16;
    let data = random.between(1, 255) as u8;
    match random.below(6) {
        0 => word(READ, wait, address, data),
        1 => word(RETURN_BLOCK, wait, address, data),
        2 => word(RETURN_ALL, wait, 0, data),
        3 => word(RETURN_ALL, wait, random.pick(&[1, 0x0100, address | 1]), 0),
        4 => [random.byte() & 0x7F, random.byte(), random.byte(), data],
        _ => random.pick(&[[0, 0, 0, 1], [0, 0, 1, 0], [0, 1, 0, 0], [1, 0, 0, 0], [0x7F, 0, 0, 0]]),
    }
}

/// What was done to a list.
#[derive(Clone, Copy, PartialEq, Eq, Debug)]
pub enum Kind {
    Whole,
    EndWordLast,
    EndWordMiddle,
    BadWord,
    BadWordPastEnd,
    OneBit,
    AnyBytes,
    Empty,
    OddLength,
    Longest,
    TooLong,
    SingleWord,
}

/// How often each kind is drawn, and how it is told.
pub const KINDS: [(Kind, usize, &str); 12] = [
    (Kind::Whole, 40, "requests up to the last byte"),
    (Kind::EndWordLast, 12, "end word as the last word"),
    (Kind::EndWordMiddle, 12, "end word in the middle, any bytes behind it"),
    (Kind::BadWord, 10, "a bad word at any place"),
    (Kind::BadWordPastEnd, 6, "a bad word, end word before or after it"),
    (Kind::OneBit, 6, "one bit turned over"),
    (Kind::AnyBytes, 3, "random bytes"),
    (Kind::Empty, 2, "empty"),
    (Kind::OddLength, 5, "length no multiple of 4"),
    (Kind::Longest, 2, "16,384 bytes"),
    (Kind::TooLong, 2, "16,385 bytes and more"),
    (Kind::SingleWord, 0, "every first byte, one word"),
];

/// A number of requests, mostly small.
fn some_count(random: &mut Random) -> usize {
    let most = random.pick(&[4, 16, 16, 64, 64, 256, 256, 1_000]);
    random.between(1, most)
}

/// A random list for a memory of `size` bytes, which is not 0.
pub fn list(random: &mut Random, size: usize) -> (Kind, Vec<u8>) {
    let kind = KINDS[random.weighted(&KINDS.map(|(_, weight, _)| weight))].0;
    let count = match kind {
        Kind::Empty => 0,
        Kind::Longest | Kind::TooLong => 4_096,
        _ => some_count(random),
    };
    let mut bytes = requests(random, size, count).concat();
    damage(random, kind, &mut bytes);
    (kind, bytes)
}

fn damage(random: &mut Random, kind: Kind, bytes: &mut Vec<u8>) {
    match kind {
        Kind::Whole | Kind::Empty | Kind::SingleWord => (),
        Kind::EndWordLast => bytes.extend([0; 4]),
        Kind::EndWordMiddle => {
            let place = put(random, bytes, [0; 4]);
            random.fill(&mut bytes[place + 4..]);
        }
        Kind::BadWord => {
            let bad = bad_word(random);
            put(random, bytes, bad);
        }
        Kind::BadWordPastEnd => {
            let bad = bad_word(random);
            put(random, bytes, bad);
            put(random, bytes, [0; 4]);
        }
        Kind::OneBit => {
            let at = random.below(bytes.len());
            bytes[at] ^= 1 << random.below(8);
        }
        Kind::AnyBytes => random.fill(bytes),
        Kind::OddLength => bytes.truncate(bytes.len() - random.between(1, 3)),
        Kind::Longest if random.one_in(2) => {
            let word = random.pick(&[[0; 4], [0x80, 0, 0, 1]]);
            put(random, bytes, word);
        }
        Kind::Longest => (),
        Kind::TooLong => bytes.extend(&[0x80, 0, 0, 0].repeat(12_300)[..random.pick(&[1, 3, 4, 4, 4, 8, 49_172])]),
    }
}

/// Puts a word over another one and gives its place in bytes.
fn put(random: &mut Random, bytes: &mut [u8], word: [u8; 4]) -> usize {
    let place = 4 * random.below(bytes.len() / 4);
    bytes[place..place + 4].copy_from_slice(&word);
    place
}
