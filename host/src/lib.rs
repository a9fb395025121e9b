//! Fare books of several railway companies: a safe face of the proved library (include/fares.h).
//!
//! Slices go in, enums come out. Nothing here decides anything: a call hands its slices over, and takes the word apart that
//! comes back.

mod raw;
mod refusal;

pub use refusal::Refusal;

/// The longest book, in bytes.
pub const LONGEST_BOOK: usize = 52_860;

/// The longest sheet, in numbers.
pub const LONGEST_SHEET: usize = 27_155;

/// How many numbers tell an answer: fare, rides, and four for each of four places.
pub const ANSWER: usize = 18;

/// A station: a company of the book and a station of that company.
#[derive(Clone, Copy, Debug, PartialEq, Eq)]
pub struct Station {
    pub company: u8,
    pub station: u8,
}

/// How a ride was paid for.
#[derive(Clone, Copy, Debug, PartialEq, Eq)]
pub enum Paid {
    Full,
    ByRule(u8),
}

/// A ride of an answer.
#[derive(Clone, Copy, Debug, PartialEq, Eq)]
pub struct Ride {
    pub company: u8,
    pub boarding: u8,
    pub alighting: u8,
    pub paid: Paid,
}

/// What a price or a question is answered with.
#[derive(Clone, Debug, PartialEq, Eq)]
pub struct Answer {
    pub fare: u16,
    pub rides: Vec<Ride>,
}

/// Whether a book is good, or why it is refused.
pub fn check(book: &[u8]) -> Result<(), Refusal> {
    raw::written(raw::check(book)).map(|_| ())
}

/// A company's body, a part of the book itself; empty where the book is refused or has no such company.
pub fn company_body(book: &[u8], company: u8) -> &[u8] {
    let (offset, length) = raw::part(raw::company(book, company));
    &book[offset..offset + length]
}

/// Reads a book into a lent sheet, and says how many numbers were written.
pub fn read(book: &[u8], sheet: &mut [u16]) -> Result<usize, Refusal> {
    raw::written(raw::read(book, sheet))
}

/// Writes a sheet's book into a lent buffer, and says how many bytes were written.
pub fn write(sheet: &[u16], book: &mut [u8]) -> Result<usize, Refusal> {
    raw::written(raw::write(sheet, book))
}

/// Prices a given route, 3 bytes to a ride, into a lent list of 18 numbers.
pub fn price_into(book: &[u8], route: &[u8], answer: &mut [u16]) -> Result<usize, Refusal> {
    raw::written(raw::price(book, route, answer))
}

/// Prices a given route, 3 bytes to a ride.
pub fn price(book: &[u8], route: &[u8]) -> Result<Answer, Refusal> {
    let mut numbers = [0; ANSWER];
    price_into(book, route, &mut numbers)?;
    Ok(answer_of(&numbers))
}

/// Finds the cheapest route between two stations, into a lent list of 18 numbers.
pub fn cheapest_into(book: &[u8], from: Station, to: Station, limit: u8, answer: &mut [u16]) -> Result<usize, Refusal> {
    raw::written(raw::cheapest(book, from, to, limit, answer))
}

/// Finds the cheapest route between two stations with at most so many rides.
pub fn cheapest(book: &[u8], from: Station, to: Station, limit: u8) -> Result<Answer, Refusal> {
    let mut numbers = [0; ANSWER];
    cheapest_into(book, from, to, limit, &mut numbers)?;
    Ok(answer_of(&numbers))
}

/// The answer that 18 numbers tell.
fn answer_of(numbers: &[u16; ANSWER]) -> Answer {
    let ride = |place: &[u16]| Ride {
        company: place[0] as u8,
        boarding: place[1] as u8,
        alighting: place[2] as u8,
        paid: if place[3] == 255 { Paid::Full } else { Paid::ByRule(place[3] as u8) },
    };
    Answer { fare: numbers[0], rides: numbers[2..].chunks(4).take(numbers[1] as usize).map(ride).collect() }
}
