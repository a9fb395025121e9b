//! Compares every operation of the proved library, and the pair lister, with the plain ones, on books made at random:
//! `compare [CASES] [SEED]`.

use check::run::Run;
use std::time::Instant;

/// How many books the pair lister's inputs are made of.
const LISTED: usize = 300;

fn main() {
    let mut words = std::env::args().skip(1).map(|word| word.parse().expect("a number"));
    let cases = words.next().unwrap_or(1_000_000);
    let mut run = Run::new(words.next().unwrap_or(1));
    let since = Instant::now();
    eprintln!("three questions of four rides over 128 links between two companies ..");
    run.dearest();
    eprintln!("the pair lister on inputs made of {LISTED} books ..");
    run.lists(LISTED);
    run.until(cases);
    run.report();
    println!("  in {:.0} seconds", since.elapsed().as_secs_f64());
    std::process::exit(!run.calls.wrong.is_empty() as i32);
}
