//! Cases for the host call: what is handed to it, each row of bytes inside a larger one with random bytes around it.

use crate::lists::{self, Kind};
use crate::model;
use crate::random::Random;

pub type HostCall = fn(u32, &mut [u8], u32, &[u8], &mut [u8]) -> u32;

/// Bytes with guard bytes before and behind them.
#[derive(Clone, PartialEq, Eq)]
pub struct Guarded {
    all: Vec<u8>,
    before: usize,
    len: usize,
}

impl Guarded {
    /// Random bytes between random guards. The guard before them has 32 to 47 bytes, so that they may begin anywhere.
    pub fn random(random: &mut Random, len: usize) -> Self {
        let before = random.between(32, 47);
        let mut all = vec![0; before + len + 64];
        random.fill(&mut all);
        Guarded { all, before, len }
    }

    pub fn of(random: &mut Random, bytes: &[u8]) -> Self {
        let mut guarded = Guarded::random(random, bytes.len());
        guarded.inner_mut().copy_from_slice(bytes);
        guarded
    }

    pub fn inner(&self) -> &[u8] {
        &self.all[self.before..self.before + self.len]
    }

    pub fn inner_mut(&mut self) -> &mut [u8] {
        &mut self.all[self.before..self.before + self.len]
    }

    /// Where the two first differ, counted from the first byte between the guards, with both bytes.
    pub fn first_difference(&self, other: &Guarded) -> Option<(isize, u8, u8)> {
        let at = self.all.iter().zip(&other.all).position(|(one, two)| one != two)?;
        Some((at as isize - self.before as isize, self.all[at], other.all[at]))
    }
}

#[derive(Clone)]
pub struct Case {
    pub kind: Kind,
    pub pile: u32,
    pub clocks: u32,
    pub memory: Guarded,
    pub list: Guarded,
    pub results: Guarded,
}

impl Case {
    pub fn run(&mut self, host_call: HostCall) -> u32 {
        let (memory, results) = (self.memory.inner_mut(), self.results.inner_mut());
        host_call(self.pile, memory, self.clocks, self.list.inner(), results)
    }

    /// One word, results of its length and some bytes more.
    pub fn single_word(random: &mut Random, pile: u32, word: [u8; 4]) -> Self {
        Case {
            kind: Kind::SingleWord,
            pile,
            clocks: random.between(1, 15) as u32,
            memory: Guarded::random(random, 256),
            list: Guarded::of(random, &word),
            results: Guarded::random(random, 12),
        }
    }

    /// Anything at all.
    pub fn random(random: &mut Random) -> Self {
        let size = if random.one_in(20) { refused_size(random) } else { some_size(random) };
        let (kind, list) = lists::list(random, size.max(1));
        let results = some_results_len(random, &list);
        Case {
            kind,
            pile: if random.one_in(25) { refused_pile(random) } else { random.between(1, 3) as u32 },
            clocks: if random.one_in(20) { refused_clocks(random) } else { random.between(1, 15) as u32 },
            memory: Guarded::random(random, size),
            list: Guarded::of(random, &list),
            results: Guarded::random(random, results),
        }
    }

    /// A short valid list with the faults that the six bits of `faults` name, so that every order of tests shows.
    pub fn with_faults(random: &mut Random, faults: usize) -> Self {
        let fault = |number: usize| faults >> number & 1 == 1;
        let pile = if fault(0) { refused_pile(random) } else { random.between(1, 3) as u32 };
        let size = if fault(1) { refused_size(random) } else { random.pick(&[4, 64, 256, 1_024]) };
        let clocks = if fault(2) { refused_clocks(random) } else { random.between(1, 15) as u32 };
        let count = random.between(2, 12);
        let mut list = lists::requests(random, size.max(1), count).concat();
        let needed = 2 * list.len();
        if fault(4) {
            list[4..8].copy_from_slice(&lists::bad_word(random));
        }
        if fault(3) {
            list.truncate(list.len() - 1);
        }
        let kind = match (fault(3), fault(4)) {
            (true, _) => Kind::OddLength,
            (false, true) => Kind::BadWord,
            (false, false) => Kind::Whole,
        };
        Case {
            kind,
            pile,
            clocks,
            memory: Guarded::random(random, size),
            list: Guarded::of(random, &list),
            results: Guarded::random(random, needed - usize::from(fault(5))),
        }
    }
}

fn some_size(random: &mut Random) -> usize {
    match random.below(18) {
        0..=4 => 4 * random.between(1, 16),
        5..=8 => 256,
        9..=14 => 4 * random.between(1, 256),
        15 => 4 * random.between(1, 16_384),
        16 => 65_536,
        _ => random.pick(&[4, 65_532, 32_768]),
    }
}

fn refused_size(random: &mut Random) -> usize {
    random.pick(&[0, 0, 6, 6, 1, 3, 255, 257, 65_535, 65_537, 65_540, 65_540, 65_792, 131_072])
}

/// Beside the plain ones such as would pass if only their low bits were looked at.
fn refused_pile(random: &mut Random) -> u32 {
    random.pick(&[0, 4, u32::MAX, 257, 65_538, 0x8000_0001])
}

fn refused_clocks(random: &mut Random) -> u32 {
    random.pick(&[0, 16, 17, 259, 65_539, u32::MAX, 0x8000_0003])
}

/// Mostly enough bytes for the results of the list, at times too few.
fn some_results_len(random: &mut Random, list: &[u8]) -> usize {
    let requests = model::check_list(list).map_or(list.len() / 4, <[_]>::len);
    let needed = 8 * requests;
    match random.below(10) {
        0 => needed.saturating_sub(1),
        1 => random.between(0, needed),
        2..=5 => needed,
        6 => needed + random.between(1, 7),
        _ => needed + random.between(8, 200),
    }
}
