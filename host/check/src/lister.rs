//! The pair lister, which is a program: one process a book.

use std::io::{Read, Write};
use std::path::{Path, PathBuf};
use std::process::{Child, Command, Stdio};
use std::thread;

/// How many bytes of its input are judged.
pub const JUDGED: usize = 65_536;

/// The repository's root.
pub fn root() -> PathBuf {
    Path::new(env!("CARGO_MANIFEST_DIR")).join("../..")
}

/// Starts the lister on an input.
pub fn start(input: &[u8]) -> Child {
    let program = root().join("target/bin/pairs");
    if !program.exists() {
        panic!("{} is missing: run `host/build`", program.display());
    }
    let started = Command::new(program).stdin(Stdio::piped()).stdout(Stdio::piped()).spawn();
    let mut child = started.expect("the lister starts");
    let mut stdin = child.stdin.take().unwrap();
    let input = input.to_vec();
    // The lister may end before it has read all of a long input: that is no fault.
    thread::spawn(move || stdin.write_all(&input));
    child
}

/// What the lister prints for an input, or nothing where it does not end well.
pub fn list(input: &[u8]) -> Option<Vec<u8>> {
    let mut child = start(input);
    let mut lines = Vec::new();
    child.stdout.take().unwrap().read_to_end(&mut lines).ok()?;
    child.wait().ok()?.success().then_some(lines)
}
