//! Holds the plain implementation to stored vectors, a case a line: `vectors FOLDER`.

use check::inputs::{self, bytes};
use std::fs;
use std::path::Path;

fn numbers(word: &str) -> Vec<u16> {
    bytes(word).chunks(2).map(|two| u16::from_be_bytes([two[0], two[1]])).collect()
}

fn told<T>(result: Result<T, plain::Refusal>, good: impl Fn(T) -> String) -> String {
    match result {
        Ok(value) => good(value),
        Err(refusal) => format!("refused {} {}", refusal.number, refusal.place),
    }
}

fn answer(answer: plain::Answer) -> String {
    let mut text = format!("fare {} rides {}", answer.fare, answer.rides.len());
    for (ride, paid) in answer.rides.iter().zip(&answer.paid) {
        let paid = paid.map_or("full".to_string(), |rule| rule.to_string());
        text += &format!(" {} {} {} {paid}", ride.company, ride.boarding, ride.alighting);
    }
    text
}

fn given(file: &str, words: &[&str]) -> String {
    let small = |i: usize| words[i].parse::<u8>().unwrap();
    match file {
        "books.txt" => told(plain::judge(&bytes(words[0])), |()| "ok".to_string()),
        "sheets.txt" => told(plain::write(&numbers(words[0]), usize::MAX), |book| {
            assert_eq!(plain::read(&book, usize::MAX).unwrap(), numbers(words[0]));
            book.iter().map(|b| format!("{b:02x}")).collect()
        }),
        "routes.txt" => told(plain::price(&bytes(words[0]), &bytes(words[1])), answer),
        _ => told(plain::cheapest(&bytes(words[0]), (small(1), small(2)), (small(3), small(4)), small(5)), answer),
    }
}

fn main() {
    let folder = std::env::args().nth(1).expect("a folder");
    let folder = Path::new(&folder);
    let (mut cases, mut wrong) = (0, 0);
    for file in ["books.txt", "sheets.txt", "routes.txt", "questions.txt"] {
        for line in fs::read_to_string(folder.join(file)).unwrap().lines() {
            let (case, want) = line.split_once(" = ").unwrap();
            let got = given(file, &case.split(' ').collect::<Vec<_>>());
            cases += 1;
            if got != want {
                wrong += 1;
                println!("{file}: {line} gave {got}");
            }
        }
    }
    for (book, lines) in inputs::vectors(folder) {
        cases += 1;
        if plain::list(&book) != lines {
            wrong += 1;
            println!("pairs: {book:02x?} gave other lines");
        }
    }
    println!("{cases} vectors, {wrong} wrong");
    std::process::exit((wrong > 0) as i32);
}
