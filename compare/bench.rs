//! make bench: how long the host call of the proved library takes, and the same call of the model in plain Rust.
//!
//! Both run the same lists in the same process, in turns. Each time is the least of all rounds: other work on the machine only adds.

#![deny(unsafe_code)]

mod library;
#[allow(dead_code)]
mod lists;
#[allow(dead_code)]
mod model;
#[allow(dead_code)]
mod random;

use lists::{word, READ, RETURN_ALL, RETURN_BLOCK, WRITE};
use random::Random;
use std::hint::black_box;
use std::process::ExitCode;
use std::time::Instant;

type HostCall = fn(u32, &mut [u8], u32, &[u8], &mut [u8]) -> u32;

const SEED: u64 = 31_415_926;
const ROUNDS: usize = 101;
/// Requests that one round runs with each of the two, about.
const REQUESTS_OF_ROUND: usize = 81_920;
const CLOCKS: u32 = 3;

#[derive(Clone, Copy)]
enum Share {
    Hits,
    Misses,
    Mixed,
}

const SHARES: [(Share, &str); 3] = [(Share::Hits, "hits"), (Share::Misses, "misses"), (Share::Mixed, "mixed")];

/// The first 32 bytes are eight blocks, which every pile can hold together. Random blocks of the whole memory miss.
fn list(random: &mut Random, share: Share, size: usize, count: usize) -> Vec<u8> {
    let mut bytes = Vec::with_capacity(4 * count);
    for _ in 0..count {
        let near = match share {
            Share::Hits => !random.one_in(100),
            Share::Misses => random.one_in(100),
            Share::Mixed => !random.one_in(4),
        };
        let address = random.below(if near { 32 } else { size }) as u16;
        let returns = matches!(share, Share::Mixed);
        let request = match random.below(100) {
            0 if returns => word(RETURN_ALL, 0, 0, 0),
            1..=5 if returns => word(RETURN_BLOCK, 0, address, 0),
            6..=39 => word(WRITE, 0, address, random.byte()),
            _ => word(READ, 0, address, 0),
        };
        bytes.extend(request);
    }
    bytes
}

/// One of the two, with memory and results of its own.
struct Side {
    host_call: HostCall,
    memory: Vec<u8>,
    results: Vec<u8>,
    times: Vec<f64>,
}

impl Side {
    fn new(host_call: HostCall, memory: &[u8], requests: usize) -> Self {
        Side { host_call, memory: memory.to_vec(), results: vec![0; 8 * requests], times: Vec::new() }
    }

    /// Runs the list `calls` times and notes the nanoseconds for a request.
    fn round(&mut self, pile: u32, list: &[u8], calls: usize) {
        let start = Instant::now();
        for _ in 0..calls {
            let code = black_box(self.host_call)(pile, &mut self.memory, CLOCKS, black_box(list), &mut self.results);
            assert_eq!(code, 0);
        }
        let requests = calls * list.len() / 4;
        self.times.push(start.elapsed().as_nanos() as f64 / requests as f64);
    }

    fn least(&self) -> f64 {
        self.times.iter().copied().fold(f64::INFINITY, f64::min)
    }
}

/// What is measured in one line of the table.
struct Setting {
    pile: u32,
    size: usize,
    requests: usize,
    share: (Share, &'static str),
}

impl Setting {
    fn all() -> Vec<Setting> {
        let mut settings = Vec::new();
        for pile in 1..=3 {
            for size in [256, 65_536] {
                for requests in [1_000, 4_096] {
                    settings.extend(SHARES.map(|share| Setting { pile, size, requests, share }));
                }
            }
        }
        settings
    }

    fn in_words(&self) -> String {
        format!("pile {}, {} bytes, {} requests, {}", self.pile, self.size, self.requests, self.share.1)
    }

    /// Measures the two, prints a line, and gives the ratio; none if they do not agree.
    fn measure(&self, random: &mut Random) -> Option<f64> {
        let list = list(random, self.share.0, self.size, self.requests);
        let mut memory = vec![0; self.size];
        random.fill(&mut memory);
        let mut proved = Side::new(library::host_call, &memory, self.requests);
        let mut plain = Side::new(model::host_call, &memory, self.requests);
        let calls = REQUESTS_OF_ROUND / self.requests;
        for round in 0..ROUNDS {
            if round % 2 == 0 {
                proved.round(self.pile, &list, calls);
                plain.round(self.pile, &list, calls);
            } else {
                plain.round(self.pile, &list, calls);
                proved.round(self.pile, &list, calls);
            }
        }
        if proved.memory != plain.memory || proved.results != plain.results {
            return None;
        }
        let (library, model) = (proved.least(), plain.least());
        let (hits, ratio) = (hit_share(&list, &plain.results), library / model);
        println!("{self} {hits:>6.1} {library:>10.2} {model:>8.2} {ratio:>7.2}");
        Some(ratio)
    }
}

impl std::fmt::Display for Setting {
    fn fmt(&self, f: &mut std::fmt::Formatter) -> std::fmt::Result {
        write!(f, "{:>4} {:>7} {:>9} {:<7}", self.pile, self.size, self.requests, self.share.1)
    }
}

/// How many of a hundred reads and writes were hits: they cost 1 clock.
fn hit_share(list: &[u8], results: &[u8]) -> f64 {
    let (words, results) = (list.as_chunks::<4>().0, results.as_chunks::<8>().0);
    let accesses = words.iter().zip(results).filter(|(word, _)| word[0] & 0x40 == 0);
    let (hits, all) = accesses.fold((0, 0), |(hits, all), (_, result)| (hits + u32::from(result[7] == 1), all + 1));
    100.0 * f64::from(hits) / f64::from(all)
}

fn main() -> ExitCode {
    println!("seed {SEED}; nanoseconds for a request, least of {ROUNDS} rounds of about {REQUESTS_OF_ROUND} requests");
    println!("pile  memory  requests list    hits %    library    model   ratio");
    let mut random = Random::new(SEED);
    let mut ratios = Vec::new();
    let mut largest = (0.0, String::new());
    for setting in Setting::all() {
        let Some(ratio) = setting.measure(&mut random) else {
            println!("{setting} the library and the model DO NOT AGREE");
            return ExitCode::from(1);
        };
        ratios.push(ratio);
        if ratio > largest.0 {
            largest = (ratio, setting.in_words());
        }
    }
    let mean = (ratios.iter().map(|ratio| ratio.ln()).sum::<f64>() / ratios.len() as f64).exp();
    println!("bench: library to model, largest ratio {:.2} ({}), geometric mean {mean:.2}", largest.0, largest.1);
    ExitCode::SUCCESS
}
