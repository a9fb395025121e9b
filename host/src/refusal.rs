//! What is refused, in words, and where its place is.

use std::fmt;

/// Document 01's refusals, with their place where that is not always 0.
#[derive(Clone, Copy, Debug, PartialEq, Eq)]
pub enum Refusal {
    WrongLength,
    UnknownLayout,
    OutsideLimits,
    BadContents { entry: u32 },
    BadStations { company: u32 },
    BadEntry { place: u32 },
    BadLink { link: u32 },
    BadRule { rule: u32 },
    UnknownStation { end: u32 },
    SameStation,
    BadLimit,
    NoRoute,
    NoRoom,
    BadRide { ride: u32 },
}

use Refusal::*;

impl Refusal {
    /// The refusal of this number and place; 0 is none.
    pub(crate) fn of(number: u8, place: u32) -> Option<Refusal> {
        Some(match number {
            0 => return None,
            1 => WrongLength,
            2 => UnknownLayout,
            3 => OutsideLimits,
            4 => BadContents { entry: place },
            5 => BadStations { company: place },
            6 => BadEntry { place },
            7 => BadLink { link: place },
            8 => BadRule { rule: place },
            9 => UnknownStation { end: place },
            10 => SameStation,
            11 => BadLimit,
            12 => NoRoute,
            13 => NoRoom,
            14 => BadRide { ride: place },
            _ => unreachable!("the library has no refusal {number}"),
        })
    }

    /// Its number in document 01's table.
    pub fn number(self) -> u8 {
        match self {
            WrongLength => 1,
            UnknownLayout => 2,
            OutsideLimits => 3,
            BadContents { .. } => 4,
            BadStations { .. } => 5,
            BadEntry { .. } => 6,
            BadLink { .. } => 7,
            BadRule { .. } => 8,
            UnknownStation { .. } => 9,
            SameStation => 10,
            BadLimit => 11,
            NoRoute => 12,
            NoRoom => 13,
            BadRide { .. } => 14,
        }
    }

    /// Its place: 0 where the table says 0.
    pub fn place(self) -> u32 {
        match self {
            BadContents { entry } => entry,
            BadStations { company } => company,
            BadEntry { place } => place,
            BadLink { link } => link,
            BadRule { rule } => rule,
            UnknownStation { end } => end,
            BadRide { ride } => ride,
            _ => 0,
        }
    }
}

impl fmt::Display for Refusal {
    fn fmt(&self, f: &mut fmt::Formatter) -> fmt::Result {
        write!(f, "refusal {}: ", self.number())?;
        match *self {
            WrongLength => write!(f, "the book or sheet ends early, or the sheet goes on after its end"),
            UnknownLayout => write!(f, "the book's layout is not 1"),
            OutsideLimits => write!(f, "there are not 1 to 16 companies, at most 128 links and at most 32 rules"),
            BadContents { entry } => write!(f, "entry {entry} of the book's contents is wrong"),
            BadStations { company } => write!(f, "company {company} has not 2 to 40 stations"),
            BadEntry { place } => write!(
                f,
                "a fare is above 9,999, or is not 0 on the diagonal; it stands at byte {place} of the book, or is number {place} of the sheet"
            ),
            BadLink { link } => write!(f, "link {link} is bad or was there before"),
            BadRule { rule } => write!(f, "rule {rule} is bad"),
            UnknownStation { end: 0 } => write!(f, "the station to go from is not in the book"),
            UnknownStation { .. } => write!(f, "the station to go to is not in the book"),
            SameStation => write!(f, "both stations are the same"),
            BadLimit => write!(f, "the ride limit is not 1 to 4"),
            NoRoute => write!(f, "there is no admissible route within the ride limit"),
            NoRoom => write!(f, "the lent list is shorter than the result"),
            BadRide { ride } => write!(f, "the given route is not admissible: ride {ride} is the first bad one"),
        }
    }
}

impl std::error::Error for Refusal {}
