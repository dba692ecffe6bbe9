//! make compare: holds the proved library and the proved program indexrun against the model, on random input.
//!
//! compare           the worked examples on the model, then everything
//! compare --self    the worked examples on the model alone
//! compare SEED      everything, with another seed
//!
//! It is run in the folder of the repository. It ends with status 1 if anything differs, with 2 if indexrun cannot be
//! run.

#![deny(unsafe_code)]

mod cases;
mod library;
mod lists;
mod model;
mod program;
mod random;
mod report;
mod worked;

use cases::Case;
use lists::word;
use random::Random;
use report::Report;
use std::process::ExitCode;

const SEED: u64 = 31_415_926;
const RANDOM_CALLS: usize = 200_000;
const CALLS_OF_EACH_FAULT: usize = 40;
const PROGRAM_RUNS: usize = 3_000;

fn main() -> ExitCode {
    let argument = std::env::args().nth(1);
    let alone = argument.as_deref() == Some("--self");
    let seed = match argument.map(|text| text.parse()) {
        Some(Ok(seed)) => seed,
        Some(Err(_)) if !alone => {
            eprintln!("usage: compare [--self | SEED]");
            return ExitCode::from(2);
        }
        _ => SEED,
    };
    println!("seed {seed}");
    worked::examples();
    println!("the model gives the worked examples");
    if alone {
        return ExitCode::SUCCESS;
    }
    let mut report = Report::default();
    let outcome = compare_all(&mut Random::new(seed), &mut report);
    report.print();
    match outcome {
        Err(error) => {
            eprintln!("compare: {}: {error}", program::PATH);
            ExitCode::from(2)
        }
        Ok(()) if report.differences > 0 => ExitCode::from(1),
        Ok(()) => ExitCode::SUCCESS,
    }
}

/// An error means that indexrun could not be run.
fn compare_all(random: &mut Random, report: &mut Report) -> std::io::Result<()> {
    single_words(random, report);
    faults(random, report);
    for _ in 0..RANDOM_CALLS {
        compare_call(Case::random(random), report);
    }
    for turn in 0..PROGRAM_RUNS {
        compare_run(random, turn, report)?;
    }
    Ok(())
}

/// Every first byte of a word, with addresses and data that matter to the layout, on each pile.
fn single_words(random: &mut Random, report: &mut Report) {
    for first in 0..=255 {
        for address in [0, 1, 0x0100, 0xFFFF] {
            for data in [0, 1, 0x80, 0xFF] {
                let mut word = word(0, 0, address, data);
                word[0] = first;
                for pile in 1..=3 {
                    compare_call(Case::single_word(random, pile, word), report);
                }
            }
        }
    }
}

/// Every choice of the six faults that the host call tests for.
fn faults(random: &mut Random, report: &mut Report) {
    for chosen in 0..64 {
        for _ in 0..CALLS_OF_EACH_FAULT {
            compare_call(Case::with_faults(random, chosen), report);
        }
    }
}

/// One host call: the number, every byte of memory, list and results, and the guards around them must be the same.
fn compare_call(case: Case, report: &mut Report) {
    let (mut expected, mut found) = (case.clone(), case);
    let expected_code = expected.run(model::host_call);
    let found_code = found.run(library::host_call);
    report.count_call(&expected, expected_code);
    let same = expected_code == found_code
        && expected.memory == found.memory
        && expected.list == found.list
        && expected.results == found.results;
    if !same {
        report.call_differs((&expected, expected_code), (&found, found_code));
    }
}

/// One run of indexrun: it must print what the model prints, and end with status 0. The list comes from a file and
/// through a pipe in turn.
fn compare_run(random: &mut Random, turn: usize, report: &mut Report) -> std::io::Result<()> {
    let (kind, list) = lists::list(random, 256);
    let output = if turn % 2 == 0 {
        program::run_on_file(&list)?
    } else {
        program::run_on_pipe(&list, random.between(1, 5_000))?
    };
    let expected = model::indexrun(&list);
    report.count_run(kind);
    if !output.status.success() || output.stdout != expected.as_bytes() {
        report.run_differs(kind, &list, &expected, &output);
    }
    Ok(())
}
