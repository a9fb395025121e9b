//! Questions about the pairs of a book, by what they cost.

use crate::table::{line, shares, timed, turns, Times};
use crate::Full;
use check::random::Random;
use plain::Station;
use std::hint::black_box;

pub type Pair = (Station, Station);

/// How many pairs of a sort are asked at most.
const MOST: usize = 2_000;

/// How many are asked in any case, however long they take.
const LEAST: usize = 3;

/// Pairs whose questions cost about the same.
pub struct Sort {
    pub name: &'static str,
    pub from_linked: bool,
    /// How many pairs of the book are of this sort.
    pub pairs: usize,
    /// The time of a question, once the book is judged.
    search: Times,
}

impl Sort {
    /// The time of the search of all pairs, reckoned from those asked.
    pub fn all_searched(&self) -> Times {
        let pairs = self.pairs as f64;
        Times { proved: pairs * self.search.proved, plain: pairs * self.search.plain }
    }
}

/// Every station of a book.
pub fn stations(book: &plain::Book) -> Vec<Station> {
    let mut stations = Vec::new();
    for (company, table) in book.tables.iter().enumerate() {
        stations.extend((0..table.len()).map(|station| (company as u8, station as u8)));
    }
    stations
}

/// Whether a station's company has a link.
pub fn linked(book: &plain::Book, (company, _): Station) -> bool {
    book.links.iter().any(|l| l[0] == company || l[2] == company)
}

/// The names of the sorts, with the cheapest first.
const SORTS: [&str; 4] =
    ["from an unlinked company", "linked to unlinked company", "within a linked company", "between linked companies"];

fn sort_of(book: &plain::Book, (from, to): Pair) -> usize {
    match (linked(book, from), linked(book, to)) {
        (false, _) => 0,
        (true, false) => 1,
        (true, true) if from.0 == to.0 => 2,
        (true, true) => 3,
    }
}

/// The pairs of a book, by their sort.
fn pairs(book: &plain::Book) -> [Vec<Pair>; 4] {
    let mut sorts = [const { Vec::new() }; 4];
    let stations = stations(book);
    for &from in &stations {
        for &to in stations.iter().filter(|&&to| to != from) {
            sorts[sort_of(book, (from, to))].push((from, to));
        }
    }
    sorts
}

/// What is asked of a pair: in which book, within how many rides.
struct Asked<'a> {
    how: &'static str,
    book: &'a [u8],
    limit: u8,
}

impl Asked<'_> {
    /// The seconds of the proved question, and of judging its book.
    fn proved(&self, (from, to): Pair) -> [f64; 2] {
        let book = || black_box(self.book);
        let station = |(company, station): Station| fares::Station { company, station };
        [timed(|| fares::cheapest(book(), station(from), station(to), self.limit)), timed(|| fares::check(book()))]
    }

    /// The seconds of the plain question, of judging its book, and of the search.
    fn plain(&self, (from, to): Pair) -> [f64; 3] {
        let (mut judging, mut search) = (0.0, 0.0);
        let question = timed(|| {
            let mut book = None;
            judging = timed(|| book = plain::parse(black_box(self.book)).ok());
            search = timed(|| plain::cheapest_in(book.as_ref().unwrap(), from, to, self.limit));
        });
        [question, judging, search]
    }

    /// The times of the question, of judging its book, and of the search, which for the proved is what judging leaves.
    fn times(&self, pair: Pair) -> [Times; 3] {
        let ([question, judging], plain) = (self.proved(pair), self.plain(pair));
        let proved = [question, judging, question - judging];
        [0, 1, 2].map(|k| Times { proved: proved[k], plain: plain[k] })
    }
}

/// Asks pairs of each sort, and says how much of a question is judging. The last sort is asked in lesser ways too.
pub fn by_sort(seconds: f64, full: &Full, random: &mut Random) -> Vec<Sort> {
    let whole = Asked { how: "", book: &full.bytes, limit: 4 };
    let bare = full.without_rules();
    let lesser = [
        Asked { how: "within 1 ride", book: &full.bytes, limit: 1 },
        Asked { how: "within 2 rides", book: &full.bytes, limit: 2 },
        Asked { how: "within 3 rides", book: &full.bytes, limit: 3 },
        Asked { how: "no rules in the book", book: &bare, limit: 4 },
    ];
    let mut sorts = Vec::new();
    for (name, pairs) in SORTS.into_iter().zip(pairs(&full.book)).filter(|(_, pairs)| !pairs.is_empty()) {
        let lesser = if name == SORTS[3] { &lesser[..] } else { &[] };
        let chosen: Vec<Pair> = (0..MOST).map(|_| random.pick(&pairs)).collect();
        let what = format!("ask, {name}");
        let (means, calls) = turns(&what, seconds, LEAST, MOST, |i| {
            let less = lesser.iter().map(|asked| asked.times(chosen[i])[0]);
            whole.times(chosen[i]).into_iter().chain(less).collect()
        });
        let [question, judging, search] = [means[0], means[1], means[2]];
        line(&what, &question, &format!("{calls} calls; judging the book {}", shares(&judging, &question)));
        for (asked, times) in lesser.iter().zip(&means[3..]) {
            line(&format!("  the same, {}", asked.how), times, &format!("{} of it", shares(times, &question)));
        }
        let from_linked = linked(&full.book, pairs[0].0);
        sorts.push(Sort { name, from_linked, pairs: pairs.len(), search });
    }
    sorts
}
