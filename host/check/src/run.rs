//! Every operation on books of each kind, whole and damaged.

use crate::books::{self, Kind};
use crate::calls::Calls;
use crate::lister::{self, JUDGED};
use crate::random::Random;
use crate::{damage, inputs, journeys};
use std::time::Instant;

/// What the cases were, so that a reader sees that the hard ones are among them.
#[derive(Default)]
struct Tally {
    books: u64,
    damaged: u64,
    largest: u64,
    largest_cases: u64,
    looped: u64,
    overlap: u64,
    tie: u64,
    greedy: u64,
    listed: u64,
    lines: u64,
    long: u64,
    cut: u64,
    vectors: u64,
}

pub struct Run {
    pub calls: Calls,
    random: Random,
    tally: Tally,
}

const WHOLE_ANSWER: usize = 18;

impl Run {
    pub fn new(seed: u64) -> Run {
        Run { calls: Calls::new(), random: Random::new(seed), tally: Tally::default() }
    }

    /// Compares until so many cases were compared, or five were wrong.
    pub fn until(&mut self, cases: u64) {
        let since = Instant::now();
        let small = [Kind::Tiny, Kind::Loops, Kind::Rows, Kind::Middling];
        let mut turn = 0;
        let mut shown = 0;
        while self.calls.cases < cases && self.calls.wrong.len() < 5 {
            turn += 1;
            let kind = match turn % 60 {
                1 => Kind::Spread,
                31 => Kind::TwoCompanies,
                _ => self.random.pick(&small),
            };
            self.book(kind);
            if self.calls.cases / 100_000 > shown {
                shown = self.calls.cases / 100_000;
                eprintln!("{} cases after {:.0} seconds", self.calls.cases, since.elapsed().as_secs_f64());
            }
        }
    }

    fn room(&mut self, exact: usize) -> usize {
        match self.random.between(0, 5) {
            0 => exact.saturating_sub(1),
            1 => exact + self.random.between(1, 40),
            2 => self.random.between(0, exact),
            _ => exact,
        }
    }

    /// What needs only the bytes: judging, bodies, reading.
    fn whole_book(&mut self, book: &[u8]) {
        self.calls.check(book);
        let companies = book.get(1).copied().unwrap_or(0);
        for company in [0, companies / 2, companies.wrapping_sub(1), companies, 255] {
            self.calls.company_body(book, company);
        }
        let exact = plain::read(book, usize::MAX).map_or(8, |sheet| sheet.len());
        for room in [exact, exact.saturating_sub(1), 0, exact + 7] {
            self.calls.read(book, room, &mut self.random);
        }
    }

    fn whole_sheet(&mut self, sheet: &[u16]) {
        let exact = plain::write(sheet, usize::MAX).map_or(8, |book| book.len());
        for room in [exact, exact.saturating_sub(1), 0, exact + 7] {
            self.calls.write(sheet, room, &mut self.random);
        }
    }

    /// Routes of a good book, and some that are bad.
    fn routes(&mut self, bytes: &[u8], book: &plain::Book, count: usize) {
        for _ in 0..count {
            let mut route = journeys::route(book, &mut self.random);
            if self.random.chance(30) {
                journeys::damage_route(&mut route, &mut self.random);
            }
            if let Ok(answer) = plain::price(bytes, &route) {
                let discounts = journeys::discounts(book, &answer.rides);
                self.tally.overlap += discounts.overlap as u64;
                self.tally.tie += discounts.tie as u64;
                self.tally.greedy += discounts.greedy as u64;
            }
            let room = self.room(WHOLE_ANSWER);
            self.calls.price(bytes, &route, room, &mut self.random);
        }
    }

    fn questions(&mut self, bytes: &[u8], book: &plain::Book, count: usize, most: u8, look_for_loops: bool) {
        for _ in 0..count {
            let mut from = journeys::station(book, &mut self.random);
            let mut to = journeys::linked_station(book, &mut self.random);
            let mut limit = self.random.pick(&[most, most, most, 1, 2.min(most), 3.min(most)]);
            match self.random.between(0, 30) {
                0 => from.0 = self.random.pick(&[16, 40, 255]),
                1 => from.1 = self.random.pick(&[40, 41, 255]),
                2 => to.1 = self.random.pick(&[40, 41, 255]),
                3 => to = from,
                4 => limit = self.random.pick(&[0, 5, 255]),
                _ => {}
            }
            let room = self.room(WHOLE_ANSWER);
            let answer = self.calls.cheapest(bytes, from, to, limit, room, &mut self.random);
            if let (true, Ok(answer)) = (look_for_loops, answer) {
                let looped = journeys::lowest_looped_fare(book, from, to, limit as usize).unwrap();
                self.tally.looped += (looped < answer.fare) as u64;
            }
        }
    }

    /// A book of this kind, whole and then damaged.
    fn book(&mut self, kind: Kind) {
        let large = kind == Kind::Spread || kind == Kind::TwoCompanies;
        let before = self.calls.cases;
        let sheet = books::sheet(kind, &mut self.random);
        let bytes = plain::write(&sheet, usize::MAX).expect("a sheet that was made is good");
        let book = plain::parse(&bytes).unwrap();
        self.whole_book(&bytes);
        self.whole_sheet(&sheet);
        let (routes, questions, most) = match kind {
            Kind::Spread => (20, 6, 4),
            Kind::TwoCompanies => (20, 10, 3),
            Kind::Middling => (10, 6, 4),
            _ => (10, 10, 4),
        };
        self.routes(&bytes, &book, routes);
        self.questions(&bytes, &book, questions, most, kind == Kind::Loops || kind == Kind::Tiny);
        self.tally.books += 1;
        for _ in 0..4 {
            self.damaged(&bytes, &sheet, &book);
        }
        if large {
            self.tally.largest += 1;
            self.tally.largest_cases += self.calls.cases - before;
        }
    }

    fn damaged(&mut self, bytes: &[u8], sheet: &[u16], book: &plain::Book) {
        let mut bytes = bytes.to_vec();
        let mut sheet = sheet.to_vec();
        for _ in 0..self.random.pick(&[1, 1, 1, 2, 3]) {
            damage::book(&mut bytes, &mut self.random);
            damage::sheet(&mut sheet, &mut self.random);
        }
        self.tally.damaged += 1;
        self.whole_book(&bytes);
        self.whole_sheet(&sheet);
        let route = journeys::route(book, &mut self.random);
        let room = self.room(WHOLE_ANSWER);
        self.calls.price(&bytes, &route, room, &mut self.random);
        let (from, to) = (journeys::station(book, &mut self.random), journeys::station(book, &mut self.random));
        let _ = self.calls.cheapest(&bytes, from, to, 2, room, &mut self.random);
    }

    /// Three questions of four rides in a largest book whose links all lie between two companies: the dearest of all.
    pub fn dearest(&mut self) {
        let bytes = self.good_book(Kind::TwoCompanies);
        let book = plain::parse(&bytes).unwrap();
        for _ in 0..3 {
            let from = journeys::linked_station(&book, &mut self.random);
            let to = journeys::linked_station(&book, &mut self.random);
            let _ = self.calls.cheapest(&bytes, from, to, 4, WHOLE_ANSWER, &mut self.random);
        }
    }

    /// The pair lister's whole output: on what is known, on inputs made of so many small books, and on some of more stations.
    pub fn lists(&mut self, small: usize) {
        self.list(&[]);
        for book in inputs::examples() {
            self.list(&book);
        }
        let vectors = inputs::vectors(&lister::root().join("../shared/vectors"));
        if vectors.is_empty() {
            eprintln!("no vectors at ../shared/vectors: the lister is not compared with them");
        }
        for (book, lines) in vectors {
            self.list(&book);
            self.calls.list(&book, &lines);
            self.tally.vectors += 1;
        }
        for _ in 0..small {
            let kind = self.random.pick(&[Kind::Tiny, Kind::Loops, Kind::Rows]);
            let book = self.good_book(kind);
            for input in inputs::of_book(&book, &mut self.random) {
                self.list(&input);
            }
        }
        for kind in [Kind::Middling, Kind::Middling, Kind::Middling, Kind::Sparse] {
            let book = self.good_book(kind);
            self.list(&book);
        }
    }

    fn good_book(&mut self, kind: Kind) -> Vec<u8> {
        let sheet = books::sheet(kind, &mut self.random);
        plain::write(&sheet, usize::MAX).expect("a sheet that was made is good")
    }

    fn list(&mut self, input: &[u8]) {
        let lines = plain::list(input);
        self.calls.list(input, &lines);
        self.tally.listed += 1;
        self.tally.lines += lines.lines().count() as u64;
        if input.len() > JUDGED {
            self.tally.long += 1;
            self.tally.cut += (plain::judge(input) != plain::judge(&input[..JUDGED])) as u64;
        }
    }

    pub fn report(&self) {
        for wrong in self.calls.wrong.iter().take(5) {
            println!("{}", wrong.chars().take(4_000).collect::<String>());
        }
        let t = &self.tally;
        println!("{} cases compared, {} wrong", self.calls.cases, self.calls.wrong.len());
        println!(
            "  books: {} good, {} damaged; the largest among them: {} books, {} cases",
            t.books, t.damaged, t.largest, t.largest_cases
        );
        println!("  questions where a route that comes back to a station would be cheaper: {}", t.looped);
        println!(
            "  routes where discounts overlap: {}, tie: {}, and where the largest first would earn less: {}",
            t.overlap, t.tie, t.greedy
        );
        println!(
            "  inputs of the pair lister: {}, {} lines; over 65,536 bytes: {}, of which the rest would change the answer: {}; vectors: {}",
            t.listed, t.lines, t.long, t.cut, t.vectors
        );
        let refused: Vec<String> = (1..15).map(|n| format!("{n}: {}", self.calls.refused[n])).collect();
        println!("  refusals, by number: {}", refused.join(", "));
    }
}
