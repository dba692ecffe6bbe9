//! Running indexrun.

use std::fs::{self, File};
use std::io::{self, Write};
use std::process::{Command, Output, Stdio};
use std::thread;

pub const PATH: &str = "target/bin/indexrun";
const LIST_FILE: &str = "target/compare-list";

/// Standard input is a file that holds the list.
pub fn run_on_file(list: &[u8]) -> io::Result<Output> {
    fs::write(LIST_FILE, list)?;
    Command::new(PATH).stdin(File::open(LIST_FILE)?).output()
}

/// Standard input is a pipe; the list is written in parts, so that a read may give less than was asked for. A program
/// that has seen enough may stop reading.
pub fn run_on_pipe(list: &[u8], part: usize) -> io::Result<Output> {
    let mut child = Command::new(PATH).stdin(Stdio::piped()).stdout(Stdio::piped()).stderr(Stdio::piped()).spawn()?;
    let mut stdin = child.stdin.take().expect("it is piped");
    thread::scope(|scope| {
        scope.spawn(move || list.chunks(part).try_for_each(|bytes| stdin.write_all(bytes)));
        child.wait_with_output()
    })
}
