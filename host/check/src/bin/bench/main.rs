//! Times every operation of the proved library, and the pair lister, beside the plain implementation, on two kinds of full-sized
//! book: `bench [SECONDS]`, the seconds that one measurement may take.

mod asking;
mod listing;
mod table;

use check::books::{self, Kind};
use check::journeys;
use check::random::Random;
use fares::{LONGEST_BOOK, LONGEST_SHEET};
use std::cell::RefCell;
use std::hint::black_box;
use table::{line, shares, timed, turns, Times};

/// A full-sized book.
pub struct Full {
    pub sheet: Vec<u16>,
    pub bytes: Vec<u8>,
    pub book: plain::Book,
}

impl Full {
    fn new(kind: Kind, random: &mut Random) -> Full {
        let sheet = books::sheet(kind, random);
        let bytes = plain::write(&sheet, usize::MAX).unwrap();
        let book = plain::parse(&bytes).unwrap();
        Full { sheet, bytes, book }
    }

    /// The bytes of the same book with no rules.
    pub fn without_rules(&self) -> Vec<u8> {
        let mut sheet = self.sheet.clone();
        sheet.truncate(sheet.len() - 32 * sheet[2] as usize);
        sheet[2] = 0;
        plain::write(&sheet, usize::MAX).unwrap()
    }
}

/// How often an operation is called at most.
const MOST: usize = 1_000_000;

/// Both on the same calls, in turn.
fn both(seconds: f64, what: &str, proved: impl Fn(), plain: impl Fn()) {
    let (means, calls) = turns(what, seconds, 1, MOST, |_| vec![Times { proved: timed(&proved), plain: timed(&plain) }]);
    line(what, &means[0], &format!("{calls} calls"));
}

/// Judging, reading and writing.
fn books_and_sheets(seconds: f64, Full { sheet, bytes, .. }: &Full) {
    let (book, sheet) = (|| black_box(bytes), || black_box(sheet));
    both(seconds, "judge", || _ = black_box(fares::check(book())), || _ = black_box(plain::judge(book())));
    let lent_sheet = RefCell::new(vec![0; LONGEST_SHEET]);
    let read = || _ = black_box(fares::read(book(), &mut lent_sheet.borrow_mut()));
    both(seconds, "read", read, || _ = black_box(plain::read(book(), LONGEST_SHEET)));
    let lent_book = RefCell::new(vec![0; LONGEST_BOOK]);
    let write = || _ = black_box(fares::write(sheet(), &mut lent_book.borrow_mut()));
    both(seconds, "write", write, || _ = black_box(plain::write(sheet(), LONGEST_BOOK)));
}

/// Pricing routes at random, most of them admissible, and how much of that is judging.
fn prices(seconds: f64, full: &Full, random: &mut Random) {
    let routes: Vec<Vec<u8>> = (0..200).map(|_| journeys::route(&full.book, random)).collect();
    let book = || black_box(&full.bytes);
    let (means, calls) = turns("price", seconds, 1, MOST, |i| {
        let route = &routes[i % routes.len()];
        vec![
            Times { proved: timed(|| fares::price(book(), route)), plain: timed(|| plain::price(book(), route)) },
            Times { proved: timed(|| fares::check(book())), plain: timed(|| plain::judge(book())) },
        ]
    });
    line("price", &means[0], &format!("{calls} calls; judging the book {}", shares(&means[1], &means[0])));
}

fn measure(seconds: f64, name: &str, kind: Kind) {
    let mut random = Random::new(7);
    let full = Full::new(kind, &mut random);
    println!("{name}: {} bytes, {} numbers", full.bytes.len(), full.sheet.len());
    table::head();
    books_and_sheets(seconds, &full);
    prices(seconds, &full, &mut random);
    let sorts = asking::by_sort(seconds, &full, &mut random);
    listing::all_pairs(seconds, &full, &sorts);
}

fn main() {
    let seconds = std::env::args().nth(1).map_or(3.0, |word| word.parse().expect("a number"));
    println!("16 companies of 40 stations, 128 links, 32 rules, ride limit 4: the time of one call, and proved / plain");
    println!("what cost what stands in shares: of the proved time / of the plain time");
    measure(seconds, "links spread at random", Kind::Spread);
    measure(seconds, "all links between two companies", Kind::TwoCompanies);
}
