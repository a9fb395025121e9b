//! What the pair lister is run on: books that are known, and inputs made of books at random.

use crate::damage;
use crate::lister::{root, JUDGED};
use crate::random::Random;
use std::fs;
use std::path::{Path, PathBuf};

/// A good book, the same damaged, each with bytes after it that go on beyond what is judged, and one that is cut in a body.
pub fn of_book(book: &[u8], random: &mut Random) -> Vec<Vec<u8>> {
    let mut damaged = book.to_vec();
    for _ in 0..random.pick(&[1, 1, 1, 2, 3]) {
        damage::book(&mut damaged, random);
    }
    let long = |input: &[u8], random: &mut Random| {
        let mut input = input.to_vec();
        input.resize(JUDGED + random.pick(&[1, 2, 1_000, 70_000]), random.pick(&[0, 1, 255]));
        input
    };
    let mut cut = book.to_vec();
    damage::cut_in_body(&mut cut, random);
    vec![book.to_vec(), long(book, random), long(&damaged, random), damaged, cut]
}

/// Bytes from hex digits; `-` is none.
pub fn bytes(digits: &str) -> Vec<u8> {
    let digits = if digits == "-" { "" } else { digits };
    (0..digits.len()).step_by(2).map(|i| u8::from_str_radix(&digits[i..i + 2], 16).unwrap()).collect()
}

/// The books under examples/.
pub fn examples() -> Vec<Vec<u8>> {
    let files = ending_in("hex", &root().join("examples"));
    files.iter().map(|path| bytes(fs::read_to_string(path).unwrap().trim())).collect()
}

/// The books of a folder of vectors, with their lines.
pub fn vectors(folder: &Path) -> Vec<(Vec<u8>, String)> {
    let lines = |path: &PathBuf| fs::read_to_string(path.with_extension("list")).unwrap();
    let files = ending_in("book", &folder.join("pairs"));
    files.iter().map(|path| (fs::read(path).unwrap(), lines(path))).collect()
}

/// The files of a folder whose names end so; none where there is no such folder.
fn ending_in(end: &str, folder: &Path) -> Vec<PathBuf> {
    let Ok(entries) = fs::read_dir(folder) else { return Vec::new() };
    entries.map(|entry| entry.unwrap().path()).filter(|path| path.extension().is_some_and(|e| e == end)).collect()
}
