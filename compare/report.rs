//! Counting what was compared, and showing what differs.

use crate::cases::{Case, Guarded};
use crate::lists::{Kind, KINDS, RETURN_ALL, RETURN_BLOCK};
use crate::model;
use std::process::Output;

/// More differences than this are counted, but not shown.
const SHOWN: usize = 5;
/// Lists of more bytes than this are not shown whole.
const SHOWN_BYTES: usize = 256;

const CODES: [u32; 7] = [0, 3, 4, 7, 8, 9, 10];

const CALLS: [&str; 8] = [
    "hits",
    "clean misses",
    "dirty misses",
    "reads and writes refused",
    "block returns, dirty",
    "block returns, clean or not held",
    "block returns refused",
    "full returns",
];

#[derive(Default)]
pub struct Report {
    calls: usize,
    runs: usize,
    pub differences: usize,
    lists_of_calls: [usize; KINDS.len()],
    lists_of_runs: [usize; KINDS.len()],
    codes: [usize; CODES.len()],
    piles: [usize; 4],
    requests: [usize; CALLS.len()],
}

impl Report {
    /// Counts a host call after the model has made it.
    pub fn count_call(&mut self, case: &Case, code: u32) {
        self.calls += 1;
        self.lists_of_calls[index_of(case.kind)] += 1;
        self.codes[CODES.iter().position(|&known| known == code).expect("a code of the host call")] += 1;
        self.piles[if (1..=3).contains(&case.pile) { case.pile as usize } else { 0 }] += 1;
        if code == 0 {
            let words = model::check_list(case.list.inner()).expect("an accepted list");
            for (&word, &result) in words.iter().zip(case.results.inner().as_chunks().0) {
                self.requests[class_of(word, result, case.clocks)] += 1;
            }
        }
    }

    pub fn count_run(&mut self, kind: Kind) {
        self.runs += 1;
        self.lists_of_runs[index_of(kind)] += 1;
    }

    pub fn call_differs(&mut self, (expected, code): (&Case, u32), (found, found_code): (&Case, u32)) {
        self.differences += 1;
        if self.differences > SHOWN {
            return;
        }
        println!("DIFFERENCE in host call {}: list of kind '{}'", self.calls, KINDS[index_of(found.kind)].2);
        println!(
            "  pile {}, memory of {} bytes, T {}, list of {} bytes, results of {} bytes",
            found.pile,
            found.memory.inner().len(),
            found.clocks,
            found.list.inner().len(),
            found.results.inner().len()
        );
        println!("  number: model {code}, library {found_code}");
        show_list(expected.list.inner());
        show_bytes("memory", &expected.memory, &found.memory);
        show_bytes("list", &expected.list, &found.list);
        if let Some(at) = show_bytes("results", &expected.results, &found.results) {
            if let Some(word) = expected.list.inner().as_chunks::<4>().0.get(at / 8) {
                println!("    it belongs to request {}, the word {}", at / 8 + 1, hex(word));
            }
        }
    }

    pub fn run_differs(&mut self, kind: Kind, list: &[u8], expected: &str, output: &Output) {
        self.differences += 1;
        if self.differences > SHOWN {
            return;
        }
        println!("DIFFERENCE in indexrun run {}: list of kind '{}'", self.runs, KINDS[index_of(kind)].2);
        println!("  list of {} bytes, {}", list.len(), output.status);
        show_list(list);
        let found = &output.stdout;
        let same = expected.bytes().zip(found).take_while(|(one, two)| one == *two).count();
        let line = expected.as_bytes()[..same].iter().filter(|&&byte| byte == b'\n').count();
        if same < expected.len() || same < found.len() {
            println!("  output: first differs at byte {same} (from 0), in line {}", line + 1);
            println!("    model   {:?}", expected.lines().nth(line).unwrap_or(""));
            println!("    program {:?}", String::from_utf8_lossy(found).lines().nth(line).unwrap_or(""));
        }
    }

    pub fn print(&self) {
        println!("lists                                         host calls   indexrun runs");
        for (index, (_, _, name)) in KINDS.iter().enumerate() {
            println!("  {name:<44} {:>9} {:>15}", self.lists_of_calls[index], self.lists_of_runs[index]);
        }
        println!("host calls by pile");
        for (name, count) in ["not 1 to 3", "1", "2", "3"].iter().zip(self.piles) {
            println!("  {name:<44} {count:>9}");
        }
        println!("host calls by the number returned");
        for (code, count) in CODES.iter().zip(self.codes) {
            println!("  {code:<44} {count:>9}");
        }
        println!("requests run by the host calls");
        for (name, count) in CALLS.iter().zip(self.requests) {
            println!("  {name:<44} {count:>9}");
        }
        println!("compare: {} host calls, {} indexrun runs, {} differences", self.calls, self.runs, self.differences);
    }
}

fn index_of(kind: Kind) -> usize {
    KINDS.iter().position(|&(known, ..)| known == kind).expect("every kind is listed")
}

/// The index in `CALLS` of a request with its result.
fn class_of(word: [u8; 4], result: [u8; 8], t: u32) -> usize {
    let refused = result[0] & 0x80 != 0;
    let clocks = u32::from_be_bytes([result[4], result[5], result[6], result[7]]);
    match word[0] >> 5 & 3 {
        RETURN_ALL => 7,
        RETURN_BLOCK if refused => 6,
        RETURN_BLOCK => {
            if clocks == 1 {
                5
            } else {
                4
            }
        }
        _ if refused => 3,
        _ if clocks == 1 => 0,
        _ if clocks == 10 + 4 * t => 1,
        _ if clocks == 14 + 8 * t => 2,
        _ => unreachable!("a cost that the rules do not have"),
    }
}

fn hex(bytes: &[u8]) -> String {
    bytes.iter().map(|byte| format!("{byte:02X}")).collect::<Vec<_>>().join(" ")
}

fn show_list(list: &[u8]) {
    let shown = &list[..list.len().min(SHOWN_BYTES)];
    let more = if shown.len() < list.len() { " ..." } else { "" };
    println!("  list: {}{more}", hex(shown));
}

/// Shows the first byte that differs, and gives its place if it lies between the guards.
fn show_bytes(name: &str, expected: &Guarded, found: &Guarded) -> Option<usize> {
    let (at, model, library) = expected.first_difference(found)?;
    let len = expected.inner().len();
    let place = usize::try_from(at).ok().filter(|&at| at < len);
    let guard = if place.is_some() { "" } else { ", a guard byte" };
    println!("  {name}: first differs at byte {at} of {len} (from 0){guard}: model {model:02X}, library {library:02X}");
    place
}
