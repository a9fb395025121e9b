//! The pair lister: one line per ordered pair of different stations.

use crate::book::parse;
use crate::search::cheapest_in;
use crate::Station;
use std::fmt::Write;

/// What the lister prints for this input.
pub fn list(input: &[u8]) -> String {
    let book = match parse(&input[..input.len().min(65_536)]) {
        Ok(book) => book,
        Err(refusal) => return format!("refused {} {}\n", refusal.number, refusal.place),
    };
    let mut stations: Vec<Station> = Vec::new();
    for (company, table) in book.tables.iter().enumerate() {
        stations.extend((0..table.len()).map(|station| (company as u8, station as u8)));
    }
    let mut lines = String::new();
    for &from in &stations {
        for &to in stations.iter().filter(|&&to| to != from) {
            write!(lines, "{} {} {} {} ", from.0, from.1, to.0, to.1).unwrap();
            match cheapest_in(&book, from, to, 4) {
                Ok(answer) => writeln!(lines, "{} {}", answer.fare, answer.rides.len()).unwrap(),
                Err(_) => writeln!(lines, "none 0").unwrap(),
            }
        }
    }
    lines
}

#[cfg(test)]
mod tests {
    /// Document 01's example of the pair lister.
    #[test]
    fn two_companies() {
        let mut sheet: Vec<u16> = vec![2, 1, 1];
        for fare in [130, 120] {
            sheet.extend([2, 0, fare, fare, 0]);
        }
        sheet.extend([0, 1, 1, 0]);
        sheet.extend([2, 0, 1, 255, 255, 10, 1, 0, 0, 0, 0, 2, 0, 0, 0, 0, 1]);
        sheet.extend([0; 15]);
        let book = crate::write(&sheet, 65_536).unwrap();
        let expected = "0 0 0 1 130 1\n0 0 1 0 none 0\n0 0 1 1 240 2\n0 1 0 0 130 1\n\
            0 1 1 0 none 0\n0 1 1 1 none 0\n1 0 0 0 none 0\n1 0 0 1 none 0\n\
            1 0 1 1 120 1\n1 1 0 0 250 2\n1 1 0 1 none 0\n1 1 1 0 120 1\n";
        assert_eq!(super::list(&book), expected);
        assert_eq!(super::list(&[]), "refused 1 0\n");
    }
}
