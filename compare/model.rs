//! A model of the product in plain Rust, written from docs/RULES.md alone and by another hand: it shares nothing with
//! the proved crates. `make compare` holds the two against each other, `make bench` times one by the other.
//!
//! It knows plain memory, one cache for every number of sets and ways with FIFO or LRU, the check of a list, the host
//! call and the text of indexrun.

use std::fmt::Write as _;

pub const MEMORY_MAX: usize = 65_536;
pub const LIST_MAX: usize = 16_384;

const LOOK: u32 = 1;
const BLOCK: u32 = 4;

pub type Block = [u8; BLOCK as usize];

/// What an accepted call gives; a return gives value 0.
#[derive(Clone, Copy, PartialEq, Eq, Debug)]
pub struct Done {
    pub value: u8,
    pub clocks: u32,
}

#[derive(Clone, Copy, PartialEq, Eq, Debug)]
pub struct Refusal {
    pub cause: u8,
    pub address: u16,
    pub depth: u8,
}

pub type Answer = Result<Done, Refusal>;

// ---- Plain memory -------------------------------------------------------------------------------------------------

/// Plain memory over bytes lent, held as blocks; every access to a byte costs `clocks`.
pub struct Plain<'m> {
    blocks: &'m mut [Block],
    clocks: u32,
}

impl<'m> Plain<'m> {
    /// The number of the refusal that a making would get, if any.
    pub fn check(length: usize, clocks: u32) -> Result<(), u32> {
        if length == 0 || length > MEMORY_MAX || length % 4 != 0 {
            Err(3)
        } else if !(1..=15).contains(&clocks) {
            Err(4)
        } else {
            Ok(())
        }
    }

    /// The caller has checked length and clocks.
    pub fn new(bytes: &'m mut [u8], clocks: u32) -> Self {
        Plain { blocks: bytes.as_chunks_mut().0, clocks }
    }

    fn query(&self, address: u16) -> Result<(), Refusal> {
        if usize::from(address / 4) < self.blocks.len() {
            Ok(())
        } else {
            Err(Refusal { cause: 1, address, depth: 0 })
        }
    }
}

// ---- The cache ----------------------------------------------------------------------------------------------------

/// The tag of an empty way. Real tags lie below 16,384.
const EMPTY: u16 = u16::MAX;

/// The order of the ways of a set, four bits for each: the lowest four name the first way, and so on.
#[derive(Clone, Copy)]
struct Order<const WAYS: usize>(u32);

impl<const WAYS: usize> Order<WAYS> {
    /// The highest way is first, way 0 is last.
    fn new() -> Self {
        Order((0..WAYS as u32).fold(0, |order, way| order << 4 | way))
    }

    #[inline]
    fn last(self) -> usize {
        (self.0 >> (4 * (WAYS - 1))) as usize
    }

    /// How many bits stand below those of `way`.
    #[inline]
    fn place(self, way: usize) -> u32 {
        const ONES: u32 = 0x1111_1111;
        let differs = self.0 ^ (way as u32 * ONES);
        // Where four bits are all 0, taking 1 away borrows; the lowest such place is the one.
        (differs.wrapping_sub(ONES) & !differs & ONES << 3).trailing_zeros() & !3
    }

    #[inline]
    fn move_front(&mut self, way: usize) {
        let place = self.place(way);
        let before = self.0 & ((1 << place) - 1);
        let behind = self.0 & (!0xF << place);
        self.0 = behind | before << 4 | way as u32;
    }

    /// As `move_front(last())`, but there is no place to look for.
    #[inline]
    fn move_last_front(&mut self) {
        let last = self.0 >> (4 * (WAYS - 1));
        self.0 = (self.0 << 4 | last) & (u32::MAX >> (32 - 4 * WAYS));
    }

    #[inline]
    fn move_back(&mut self, way: usize) {
        let place = self.place(way);
        let before = self.0 & ((1 << place) - 1);
        let behind = self.0 >> 4 & (!0 << place);
        self.0 = (way as u32) << (4 * (WAYS - 1)) | behind | before;
    }
}

#[derive(Clone, Copy)]
struct Set<const WAYS: usize> {
    tags: [u16; WAYS],
    dirty: [bool; WAYS],
    bytes: [Block; WAYS],
    order: Order<WAYS>,
}

impl<const WAYS: usize> Set<WAYS> {
    fn new() -> Self {
        Set { tags: [EMPTY; WAYS], dirty: [false; WAYS], bytes: [[0; 4]; WAYS], order: Order::new() }
    }

    /// The way that holds `tag`.
    #[inline]
    fn find(&self, tag: u16) -> Option<usize> {
        self.tags.iter().position(|&held| held == tag)
    }
}

/// A write-back cache over plain memory. It takes the hit way to the front if `LRU`, else it is FIFO.
pub struct Cache<'m, const SETS: usize, const WAYS: usize, const LRU: bool> {
    memory: Plain<'m>,
    sets: [Set<WAYS>; SETS],
}

pub type Direct<'m> = Cache<'m, 8, 1, false>;
pub type SetAssociative<'m> = Cache<'m, 4, 2, false>;
pub type Associative<'m> = Cache<'m, 1, 8, true>;

impl<'m, const SETS: usize, const WAYS: usize, const LRU: bool> Cache<'m, SETS, WAYS, LRU> {
    pub fn over(memory: Plain<'m>) -> Self {
        Cache { memory, sets: [Set::new(); SETS] }
    }

    pub fn call(&mut self, call: Call) -> Answer {
        match call {
            Call::Read(address) => self.read(address),
            Call::Write(address, value) => self.write(address, value),
            Call::ReturnBlock(address) => self.return_block(address),
            Call::ReturnAll => Ok(self.return_all()),
        }
    }

    #[inline]
    pub fn read(&mut self, address: u16) -> Answer {
        let (set, way, clocks) = self.bring(address)?;
        Ok(Done { value: self.sets[set].bytes[way][usize::from(address % 4)], clocks })
    }

    #[inline]
    pub fn write(&mut self, address: u16, value: u8) -> Answer {
        let (set, way, clocks) = self.bring(address)?;
        let set = &mut self.sets[set];
        set.bytes[way][usize::from(address % 4)] = value;
        set.dirty[way] = true;
        Ok(Done { value, clocks })
    }

    pub fn return_block(&mut self, address: u16) -> Answer {
        self.query(address)?;
        let (set, tag) = Self::split(address / 4);
        let emptying = self.sets[set].find(tag).map_or(0, |way| self.empty(set, way));
        Ok(Done { value: 0, clocks: LOOK + emptying })
    }

    pub fn return_all(&mut self) -> Done {
        let mut clocks = 0;
        for set in 0..SETS {
            for way in 0..WAYS {
                clocks += LOOK;
                if self.sets[set].tags[way] != EMPTY {
                    clocks += self.empty(set, way);
                }
            }
        }
        Done { value: 0, clocks }
    }

    fn query(&self, address: u16) -> Result<(), Refusal> {
        self.memory.query(address).map_err(|below| Refusal { depth: below.depth + 1, ..below })
    }

    fn split(block: u16) -> (usize, u16) {
        (usize::from(block) % SETS, block / SETS as u16)
    }

    fn join(set: usize, tag: u16) -> usize {
        usize::from(tag) * SETS + set
    }

    /// Sees to it that the block of the address is in the cache: gives its set and way, and the clocks of the call.
    #[inline]
    fn bring(&mut self, address: u16) -> Result<(usize, usize, u32), Refusal> {
        self.query(address)?;
        let (set, tag) = Self::split(address / 4);
        if let Some(way) = self.sets[set].find(tag) {
            if LRU {
                self.sets[set].order.move_front(way);
            }
            return Ok((set, way, LOOK));
        }
        let (way, clocks) = self.miss(set, tag);
        Ok((set, way, clocks))
    }

    /// Loads the block into the last way of its set; kept apart so that a hit stays short.
    #[inline(never)]
    fn miss(&mut self, set: usize, tag: u16) -> (usize, u32) {
        let way = self.sets[set].order.last();
        let writing = self.write_back(set, way);
        let reading = self.load(set, way, tag);
        (way, LOOK + writing + reading + LOOK)
    }

    /// Fills the way from below. Plain memory takes the same clocks for every byte, so where the reading starts does
    /// not show.
    fn load(&mut self, set: usize, way: usize, tag: u16) -> u32 {
        let entry = &mut self.sets[set];
        entry.bytes[way] = self.memory.blocks[Self::join(set, tag)];
        entry.tags[way] = tag;
        entry.order.move_last_front();
        BLOCK * (2 + self.memory.clocks)
    }

    /// Writes a dirty way below and makes it clean; gives the clocks, 0 for a clean way.
    fn write_back(&mut self, set: usize, way: usize) -> u32 {
        let entry = &mut self.sets[set];
        if !entry.dirty[way] {
            return 0;
        }
        entry.dirty[way] = false;
        self.memory.blocks[Self::join(set, entry.tags[way])] = entry.bytes[way];
        BLOCK * (1 + self.memory.clocks)
    }

    /// Empties a valid way; gives the clocks, with the look that belongs to the writing of a dirty one.
    fn empty(&mut self, set: usize, way: usize) -> u32 {
        let writing = match self.write_back(set, way) {
            0 => 0,
            clocks => clocks + LOOK,
        };
        let entry = &mut self.sets[set];
        entry.tags[way] = EMPTY;
        entry.order.move_back(way);
        writing
    }
}

// ---- Lists --------------------------------------------------------------------------------------------------------

#[derive(Clone, Copy, PartialEq, Eq, Debug)]
pub enum Call {
    Read(u16),
    Write(u16, u8),
    ReturnBlock(u16),
    ReturnAll,
}

impl Call {
    /// The call of a word inside the layout.
    #[inline]
    fn of(word: [u8; 4]) -> Call {
        let address = u16::from_be_bytes([word[1], word[2]]);
        match word[0] >> 5 & 3 {
            0 => Call::Read(address),
            1 => Call::Write(address, word[3]),
            2 => Call::ReturnBlock(address),
            _ => Call::ReturnAll,
        }
    }

    #[inline]
    fn address(self) -> u16 {
        match self {
            Call::Read(address) | Call::Write(address, _) | Call::ReturnBlock(address) => address,
            Call::ReturnAll => 0,
        }
    }

    fn letter(self) -> char {
        match self {
            Call::Read(_) => 'R',
            Call::Write(..) => 'W',
            Call::ReturnBlock(_) => 'S',
            Call::ReturnAll => 'A',
        }
    }
}

/// Why a list is refused; the place is that of the word, from 1, or 0 where there is none.
#[derive(Clone, Copy, PartialEq, Eq, Debug)]
pub struct BadList {
    pub cause: u32,
    pub place: usize,
}

/// Whether a word is a request: the valid bit is set, and what its mode does not use is 0.
#[inline]
fn inside_layout(word: [u8; 4]) -> bool {
    const UNUSED: [u32; 4] = [0xFF, 0, 0xFF, 0xFF_FFFF];
    let bits = u32::from_be_bytes(word);
    bits >> 31 == 1 && bits & UNUSED[(bits >> 29 & 3) as usize] == 0
}

/// The words of the requests of a list, all of them inside the layout.
pub fn check_list(list: &[u8]) -> Result<&[[u8; 4]], BadList> {
    let (words, rest) = list.as_chunks();
    if words.is_empty() || list.len() > LIST_MAX || !rest.is_empty() {
        return Err(BadList { cause: 7, place: 0 });
    }
    match words.iter().position(|&word| !inside_layout(word)) {
        None => Ok(words),
        Some(at) if words[at] == [0; 4] => Ok(&words[..at]),
        Some(at) => Err(BadList { cause: 8, place: at + 1 }),
    }
}

// ---- The host call ------------------------------------------------------------------------------------------------

/// The host call: the number of the refusal, or 0 after the list has been run.
#[inline(never)]
pub fn host_call(pile: u32, memory: &mut [u8], clocks: u32, list: &[u8], results: &mut [u8]) -> u32 {
    if !(1..=3).contains(&pile) {
        return 10;
    }
    if let Err(number) = Plain::check(memory.len(), clocks) {
        return number;
    }
    let words = match check_list(list) {
        Ok(words) => words,
        Err(bad) => return bad.cause,
    };
    let Some(results) = results.as_chunks_mut().0.get_mut(..words.len()) else {
        return 9;
    };
    let memory = Plain::new(memory, clocks);
    match pile {
        1 => run(Direct::over(memory), words, results),
        2 => run(SetAssociative::over(memory), words, results),
        _ => run(Associative::over(memory), words, results),
    }
    0
}

fn run<const SETS: usize, const WAYS: usize, const LRU: bool>(
    mut cache: Cache<SETS, WAYS, LRU>,
    words: &[[u8; 4]],
    results: &mut [[u8; 8]],
) {
    for (&word, result) in words.iter().zip(results) {
        let call = Call::of(word);
        *result = result_word(call.address(), cache.call(call));
    }
    cache.return_all();
}

#[inline]
fn result_word(address: u16, answer: Answer) -> [u8; 8] {
    let (first, second, address, clocks) = match answer {
        Ok(done) => (0, done.value, address, done.clocks),
        Err(refusal) => (0x80 | refusal.cause, refusal.depth, refusal.address, 0),
    };
    let high = u32::from_be_bytes([first, second, (address >> 8) as u8, address as u8]);
    (u64::from(high) << 32 | u64::from(clocks)).to_be_bytes()
}

// ---- indexrun -----------------------------------------------------------------------------------------------------

/// What indexrun prints for a list.
pub fn indexrun(list: &[u8]) -> String {
    let mut text = String::from("indexrun 1\n");
    let outcome = match check_list(list) {
        Ok(words) => run_lines(&mut text, words),
        Err(bad) => writeln!(text, "list no {} {}", bad.cause, bad.place),
    };
    outcome.expect("a String takes any text");
    text
}

fn run_lines(text: &mut String, words: &[[u8; 4]]) -> std::fmt::Result {
    let mut bytes = [0; 256];
    let mut cache = SetAssociative::over(Plain::new(&mut bytes, 3));
    let (mut waits, mut clocks) = (0, 0);
    for (at, &word) in words.iter().enumerate() {
        let call = Call::of(word);
        waits += u32::from(word[0] & 31);
        write!(text, "{} {} {} ", at + 1, call.letter(), call.address())?;
        match cache.call(call) {
            Err(no) => writeln!(text, "no {} {} {}", no.cause, no.address, no.depth)?,
            Ok(done) => {
                clocks += done.clocks;
                match call {
                    Call::Read(_) | Call::Write(..) => writeln!(text, "{} {}", done.value, done.clocks)?,
                    Call::ReturnBlock(_) | Call::ReturnAll => writeln!(text, "- {}", done.clocks)?,
                }
            }
        }
    }
    writeln!(text, "end {} {waits} {clocks}", words.len())
}
