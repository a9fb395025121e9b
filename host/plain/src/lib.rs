//! Document 01 once more, in plain Rust and by brute force. It was written from the document
//! alone and shares no code with the proved library, so that the two can be compared.

mod book;
mod list;
mod price;
mod search;
mod sheet;

pub use book::{company_body, judge, parse, Book, Link, Rule};
pub use list::list;
pub use price::{all_selections, earned, price, priced};
pub use search::{cheapest, cheapest_in};
pub use sheet::{read, write};

/// A refusal: its number in the document's table, and its place.
#[derive(Clone, Copy, Debug, PartialEq, Eq)]
pub struct Refusal {
    pub number: u8,
    pub place: u32,
}

pub fn refuse<T>(number: u8, place: usize) -> Result<T, Refusal> {
    Err(Refusal { number, place: place as u32 })
}

/// A station: its company and its number there.
pub type Station = (u8, u8);

/// A ride: company, boarding station, alighting station.
#[derive(Clone, Copy, Debug, PartialEq, Eq, PartialOrd, Ord)]
pub struct Ride {
    pub company: u8,
    pub boarding: u8,
    pub alighting: u8,
}

/// A route with its fare; `paid` has, for each ride, the rule that paid for it, or nothing.
#[derive(Clone, Debug, PartialEq, Eq)]
pub struct Answer {
    pub fare: u32,
    pub rides: Vec<Ride>,
    pub paid: Vec<Option<u8>>,
}
