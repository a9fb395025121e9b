//! The cheapest route: every admissible route is walked and priced.

use crate::book::{parse, Book};
use crate::price::priced;
use crate::{refuse, Answer, Refusal, Ride, Station};

/// The order of "Cheapest means": the fare, then the rides, then the bytes of the route.
fn comes_earlier(a: &Answer, b: &Answer) -> bool {
    (a.fare, a.rides.len(), &a.rides) < (b.fare, b.rides.len(), &b.rides)
}

struct Walk<'a> {
    book: &'a Book,
    to: Station,
    limit: usize,
    rides: Vec<Ride>,
    met: Vec<Station>,
    best: Option<Answer>,
}

impl Walk<'_> {
    /// Every ride from this station, which is met here for the first time.
    fn by_rides(&mut self, (company, boarding): Station) {
        self.met.push((company, boarding));
        for alighting in 0..self.book.tables[company as usize].len() as u8 {
            let ride = Ride { company, boarding, alighting };
            if self.book.fare(ride).is_none() || self.met.contains(&(company, alighting)) {
                continue;
            }
            self.rides.push(ride);
            self.met.push((company, alighting));
            if (company, alighting) == self.to {
                let found = priced(self.book, &self.rides);
                if self.best.as_ref().is_none_or(|best| comes_earlier(&found, best)) {
                    self.best = Some(found);
                }
            } else {
                self.by_links((company, alighting));
            }
            self.met.pop();
            self.rides.pop();
        }
        self.met.pop();
    }

    /// Every change from this station.
    fn by_links(&mut self, from: Station) {
        if self.rides.len() == self.limit {
            return;
        }
        for link in self.book.links.iter() {
            let (one, other) = ((link[0], link[1]), (link[2], link[3]));
            if one == from && !self.met.contains(&other) {
                self.by_rides(other);
            }
            if other == from && !self.met.contains(&one) {
                self.by_rides(one);
            }
        }
    }
}

/// The cheapest route in a book that was taken apart.
pub fn cheapest_in(book: &Book, from: Station, to: Station, limit: u8) -> Result<Answer, Refusal> {
    if !book.has_station(from) {
        return refuse(9, 0);
    }
    if !book.has_station(to) {
        return refuse(9, 1);
    }
    if from == to {
        return refuse(10, 0);
    }
    if limit < 1 || limit > 4 {
        return refuse(11, 0);
    }
    let limit = limit as usize;
    let mut walk = Walk { book, to, limit, rides: Vec::new(), met: Vec::new(), best: None };
    walk.by_rides(from);
    match walk.best {
        Some(answer) => Ok(answer),
        None => refuse(12, 0),
    }
}

/// The cheapest route between two stations within a ride limit.
pub fn cheapest(book: &[u8], from: Station, to: Station, limit: u8) -> Result<Answer, Refusal> {
    cheapest_in(&parse(book)?, from, to, limit)
}
