//! "Price": every selection of discounted runs is tried, and the one that counts is kept.

use crate::book::{in_map, parse, Book};
use crate::{refuse, Answer, Refusal, Ride, Station};

/// A discounted run: its first ride, its number of rides and its rule.
pub type Run = (usize, usize, usize);

/// Whether a rule matches the run of these rides.
fn matches(book: &Book, rule: usize, run: &[Ride], sum: u32) -> bool {
    let rule = &book.rules[rule];
    let (first, last) = (run[0], run[run.len() - 1]);
    rule.companies.len() == run.len()
        && rule.companies.iter().zip(run).all(|(&company, ride)| company == ride.company)
        && in_map(&rule.boarding, first.boarding as usize)
        && in_map(&rule.alighting, last.alighting as usize)
        && run.windows(2).all(|pair| {
            let from = (pair[0].company, pair[0].alighting);
            let to = (pair[1].company, pair[1].boarding);
            book.link_between(from, to).is_some_and(|link| in_map(&rule.links, link))
        })
        && sum > rule.amount
}

/// All selections from the ride `at` onwards, added to the runs chosen before it.
fn selections(book: &Book, rides: &[Ride], at: usize, chosen: &mut Vec<Run>, all: &mut Vec<Vec<Run>>) {
    if at == rides.len() {
        all.push(chosen.clone());
        return;
    }
    selections(book, rides, at + 1, chosen, all);
    for m in 2..=rides.len() - at {
        let run = &rides[at..at + m];
        let sum = run.iter().map(|&ride| book.fare(ride).unwrap()).sum();
        for rule in 0..book.rules.len() {
            if matches(book, rule, run, sum) {
                chosen.push((at, m, rule));
                selections(book, rides, at + m, chosen, all);
                chosen.pop();
            }
        }
    }
}

/// Every selection of runs that may be discounted together, the empty one among them.
pub fn all_selections(book: &Book, rides: &[Ride]) -> Vec<Vec<Run>> {
    let mut all = Vec::new();
    selections(book, rides, 0, &mut Vec::new(), &mut all);
    all
}

/// What a selection earns.
pub fn earned(book: &Book, runs: &[Run]) -> u32 {
    runs.iter().map(|&(_, _, rule)| book.rules[rule].amount).sum()
}

/// The price of an admissible route.
pub fn priced(book: &Book, rides: &[Ride]) -> Answer {
    let all = all_selections(book, rides);
    let saved = |runs: &Vec<Run>| earned(book, runs);
    let counts = all.iter().min_by(|a, b| saved(b).cmp(&saved(a)).then(a.len().cmp(&b.len())).then(a.cmp(b))).unwrap();
    let sum: u32 = rides.iter().map(|&ride| book.fare(ride).unwrap()).sum();
    let mut paid = vec![None; rides.len()];
    for &(first, m, rule) in counts {
        for place in &mut paid[first..first + m] {
            *place = Some(rule as u8);
        }
    }
    Answer { fare: sum - saved(counts), rides: rides.to_vec(), paid }
}

/// The first bad ride of a given route, if there is one.
fn first_bad(book: &Book, rides: &[Ride]) -> Option<usize> {
    let mut met: Vec<Station> = Vec::new();
    for (i, &ride) in rides.iter().enumerate() {
        let (on, off) = ((ride.company, ride.boarding), (ride.company, ride.alighting));
        if book.fare(ride).is_none() || met.contains(&on) || met.contains(&off) {
            return Some(i);
        }
        if i > 0 && book.link_between((rides[i - 1].company, rides[i - 1].alighting), on).is_none() {
            return Some(i);
        }
        met.push(on);
        met.push(off);
    }
    None
}

/// The price of a given route, 3 bytes to a ride.
pub fn price(book: &[u8], route: &[u8]) -> Result<Answer, Refusal> {
    let book = parse(book)?;
    if ![3, 6, 9, 12].contains(&route.len()) {
        return refuse(14, 0);
    }
    let ride = |r: &[u8]| Ride { company: r[0], boarding: r[1], alighting: r[2] };
    let rides: Vec<Ride> = route.chunks(3).map(ride).collect();
    match first_bad(&book, &rides) {
        Some(bad) => refuse(14, bad),
        None => Ok(priced(&book, &rides)),
    }
}
