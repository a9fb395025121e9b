//! Routes and questions at random, and what makes them hard.

use crate::random::Random;
use plain::{Book, Ride, Station};

/// A station of the book.
pub fn station(book: &Book, random: &mut Random) -> Station {
    let company = random.between(0, book.tables.len() - 1);
    (company as u8, random.between(0, book.tables[company].len() - 1) as u8)
}

/// A station that a link ends at, if there is one.
pub fn linked_station(book: &Book, random: &mut Random) -> Station {
    if book.links.is_empty() {
        return station(book, random);
    }
    let link = random.pick(&book.links);
    if random.chance(50) {
        (link[0], link[1])
    } else {
        (link[2], link[3])
    }
}

/// The stations that a link leads to from here.
fn beyond(book: &Book, here: Station) -> Vec<Station> {
    let mut ends = Vec::new();
    for link in &book.links {
        let (one, other) = ((link[0], link[1]), (link[2], link[3]));
        if one == here {
            ends.push(other);
        }
        if other == here {
            ends.push(one);
        }
    }
    ends
}

/// The bytes of a route that follows links for as many rides as it can. Now and then it takes a ride that is not sold, or
/// comes back to a station.
pub fn route(book: &Book, random: &mut Random) -> Vec<u8> {
    let wanted = random.pick(&[1, 2, 3, 4, 4]);
    let careful = random.chance(85);
    let mut here = if random.chance(50) { linked_station(book, random) } else { station(book, random) };
    let mut met = Vec::new();
    let mut bytes = Vec::new();
    while bytes.len() < 3 * wanted {
        met.push(here);
        let last = bytes.len() + 3 == 3 * wanted;
        let fits = |to: u8| {
            let sold = book.fare(Ride { company: here.0, boarding: here.1, alighting: to }).is_some();
            sold && !met.contains(&(here.0, to)) && (last || beyond(book, (here.0, to)).iter().any(|s| !met.contains(s)))
        };
        let all: Vec<u8> = (0..book.tables[here.0 as usize].len() as u8).filter(|&s| s != here.1).collect();
        let ends: Vec<u8> = all.iter().copied().filter(|&s| !careful || fits(s)).collect();
        let to = random.pick(if ends.is_empty() { &all } else { &ends });
        bytes.extend([here.0, here.1, to]);
        met.push((here.0, to));
        let next: Vec<Station> = beyond(book, (here.0, to)).into_iter().filter(|s| !careful || !met.contains(s)).collect();
        if next.is_empty() {
            break;
        }
        here = random.pick(&next);
    }
    bytes
}

/// Does something to a route that may make it bad.
pub fn damage_route(route: &mut Vec<u8>, random: &mut Random) {
    match random.between(0, 4) {
        0 => route.truncate(random.between(0, route.len())),
        1 => route.push(random.next() as u8),
        2 => {
            let again = route.clone();
            route.extend(again);
        }
        _ => {
            if !route.is_empty() {
                let at = random.between(0, route.len() - 1);
                route[at] = random.pick(&[0, 1, 2, 3, 4, 39, 40, 254, 255]);
            }
        }
    }
}

/// The lowest fare if a route might come back to a station, with at most so many rides.
pub fn lowest_looped_fare(book: &Book, from: Station, to: Station, limit: usize) -> Option<u32> {
    fn walk(book: &Book, here: Station, to: Station, left: usize, rides: &mut Vec<Ride>, lowest: &mut Option<u32>) {
        for alighting in 0..book.tables[here.0 as usize].len() as u8 {
            let ride = Ride { company: here.0, boarding: here.1, alighting };
            if book.fare(ride).is_none() {
                continue;
            }
            rides.push(ride);
            if (here.0, alighting) == to {
                let fare = plain::priced(book, rides).fare;
                *lowest = Some(lowest.map_or(fare, |l| l.min(fare)));
            }
            if left > 1 {
                for next in beyond(book, (here.0, alighting)) {
                    walk(book, next, to, left - 1, rides, lowest);
                }
            }
            rides.pop();
        }
    }
    let mut lowest = None;
    walk(book, from, to, limit, &mut Vec::new(), &mut lowest);
    lowest
}

/// How the discounts of a route get in each other's way.
#[derive(Clone, Copy, Default)]
pub struct Discounts {
    /// Two runs that share a ride could both be discounted.
    pub overlap: bool,
    /// More than one selection earns the most.
    pub tie: bool,
    /// Taking the largest discount first earns less.
    pub greedy: bool,
}

pub fn discounts(book: &Book, rides: &[Ride]) -> Discounts {
    let all = plain::all_selections(book, rides);
    let most = all.iter().map(|runs| plain::earned(book, runs)).max().unwrap();
    let runs: Vec<_> = all.iter().filter(|s| s.len() == 1).map(|s| s[0]).collect();
    let share = |a: &(usize, usize, usize), b: &(usize, usize, usize)| a.0 < b.0 + b.1 && b.0 < a.0 + a.1;
    let overlap = runs.iter().enumerate().any(|(i, a)| runs[..i].iter().any(|b| (a.0, a.1) != (b.0, b.1) && share(a, b)));
    let mut left = runs.clone();
    left.sort_by_key(|run| std::cmp::Reverse(book.rules[run.2].amount));
    let mut taken: Vec<(usize, usize, usize)> = Vec::new();
    for run in left {
        if !taken.iter().any(|t| share(t, &run)) {
            taken.push(run);
        }
    }
    Discounts {
        overlap,
        tie: all.iter().filter(|s| plain::earned(book, s) == most).count() > 1,
        greedy: plain::earned(book, &taken) < most,
    }
}
