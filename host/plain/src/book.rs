//! "The fare book", and the refusals 1 to 8 in the order of "What is refused, and when".

use crate::{refuse, Refusal, Ride, Station};

/// A link, with its ends in the order written.
pub type Link = [u8; 4];

#[derive(Clone, Debug, PartialEq, Eq)]
pub struct Rule {
    pub companies: Vec<u8>,
    pub amount: u32,
    pub boarding: [u8; 5],
    pub alighting: [u8; 5],
    pub links: [u8; 16],
}

/// What a valid book says.
#[derive(Clone, Debug, PartialEq, Eq)]
pub struct Book {
    /// For each company its table: row the boarding station, column the alighting one.
    pub tables: Vec<Vec<Vec<u16>>>,
    pub links: Vec<Link>,
    pub rules: Vec<Rule>,
}

/// Item i of a map: bit i mod 8 of byte i / 8, lowest bit first.
pub fn in_map(map: &[u8], item: usize) -> bool {
    map[item / 8] >> (item % 8) & 1 == 1
}

impl Book {
    pub fn has_station(&self, (company, station): Station) -> bool {
        (company as usize) < self.tables.len() && (station as usize) < self.tables[company as usize].len()
    }

    /// The fare of a ride that exists and is sold.
    pub fn fare(&self, ride: Ride) -> Option<u32> {
        let there = self.has_station((ride.company, ride.boarding)) && self.has_station((ride.company, ride.alighting));
        if !there || ride.boarding == ride.alighting {
            return None;
        }
        let entry = self.tables[ride.company as usize][ride.boarding as usize][ride.alighting as usize];
        if entry == 0 {
            return None;
        }
        Some(entry as u32)
    }

    /// The link that is walked from one station to another, either way.
    pub fn link_between(&self, from: Station, to: Station) -> Option<usize> {
        self.links.iter().position(|l| {
            let (one, other) = ((l[0], l[1]), (l[2], l[3]));
            (from == one && to == other) || (from == other && to == one)
        })
    }
}

fn two(bytes: &[u8], at: usize) -> usize {
    bytes[at] as usize + 256 * bytes[at + 1] as usize
}

/// Where the bodies lie, once the contents were judged: for each entry its offset and length.
fn contents(book: &[u8]) -> Result<Vec<(usize, usize)>, Refusal> {
    if book.len() < 4 {
        return refuse(1, 0);
    }
    if book[0] != 1 {
        return refuse(2, 0);
    }
    let (companies, links, rules) = (book[1] as usize, book[2] as usize, book[3] as usize);
    if companies < 1 || companies > 16 || links > 128 || rules > 32 {
        return refuse(3, 0);
    }
    let first = 4 + 4 * (companies + 2);
    if book.len() < first {
        return refuse(1, 0);
    }
    let mut parts = Vec::new();
    let mut end = first;
    for company in 0..companies {
        let (offset, length) = (two(book, 4 + 4 * company), two(book, 6 + 4 * company));
        if offset != end || length == 0 || offset + length > book.len() {
            return refuse(4, company);
        }
        let n = book[offset] as usize;
        if n < 2 || n > 40 {
            return refuse(5, company);
        }
        if length != 1 + 2 * n * n {
            return refuse(4, company);
        }
        parts.push((offset, length));
        end = offset + length;
    }
    for (entry, right) in [(companies, 4 * links), (companies + 1, 33 * rules)] {
        let (offset, length) = (two(book, 4 + 4 * entry), two(book, 6 + 4 * entry));
        if offset != end || offset + length > book.len() || length != right {
            return refuse(4, entry);
        }
        parts.push((offset, length));
        end = offset + length;
    }
    if end != book.len() {
        return refuse(4, companies + 1);
    }
    Ok(parts)
}

/// All of 6: `place` gives the place of an entry, by the number of entries before it in its table.
pub fn judge_table(table: &[Vec<u16>], place: impl Fn(usize) -> usize) -> Result<(), Refusal> {
    for (row, fares) in table.iter().enumerate() {
        for (column, &fare) in fares.iter().enumerate() {
            if fare > 9_999 || (row == column && fare != 0) {
                return refuse(6, place(row * table.len() + column));
            }
        }
    }
    Ok(())
}

/// All of 7. The numbers are a sheet's, so that one that is too large for a byte is seen.
pub fn judge_links(sizes: &[usize], links: &[[u16; 4]]) -> Result<(), Refusal> {
    for (i, link) in links.iter().enumerate() {
        let exists =
            |company: u16, station: u16| (company as usize) < sizes.len() && (station as usize) < sizes[company as usize];
        let good = link[0] < link[2] && exists(link[0], link[1]) && exists(link[2], link[3]);
        if !good || links[..i].contains(link) {
            return refuse(7, i);
        }
    }
    Ok(())
}

fn map_is_good(map: &[u16], items: usize) -> bool {
    map.iter().all(|&byte| byte < 256) && (items..8 * map.len()).all(|i| map[i / 8] >> (i % 8) & 1 == 0)
}

fn rule_is_good(sizes: &[usize], links: usize, rule: &[u16]) -> bool {
    let m = rule[0] as usize;
    if m < 2 || m > 4 {
        return false;
    }
    let companies = &rule[1..5];
    if companies[..m].iter().any(|&c| c as usize >= sizes.len()) {
        return false;
    }
    let neighbours_differ = (1..m).all(|i| companies[i - 1] != companies[i]);
    let rest_unused = companies[m..].iter().all(|&c| c == 255);
    let amount = rule[5];
    neighbours_differ
        && rest_unused
        && amount >= 1
        && amount <= 999
        && map_is_good(&rule[6..11], sizes[companies[0] as usize])
        && map_is_good(&rule[11..16], sizes[companies[m - 1] as usize])
        && map_is_good(&rule[16..32], links)
}

/// All of 8. A rule is its 32 numbers of the sheet.
pub fn judge_rules(sizes: &[usize], links: usize, rules: &[Vec<u16>]) -> Result<(), Refusal> {
    for (i, rule) in rules.iter().enumerate() {
        if !rule_is_good(sizes, links, rule) {
            return refuse(8, i);
        }
    }
    Ok(())
}

/// A rule from its 32 numbers, once they were judged.
fn rule_of(numbers: &[u16]) -> Rule {
    let mut rule = Rule {
        companies: numbers[1..1 + numbers[0] as usize].iter().map(|&c| c as u8).collect(),
        amount: numbers[5] as u32,
        boarding: [0; 5],
        alighting: [0; 5],
        links: [0; 16],
    };
    for i in 0..5 {
        rule.boarding[i] = numbers[6 + i] as u8;
        rule.alighting[i] = numbers[11 + i] as u8;
    }
    for i in 0..16 {
        rule.links[i] = numbers[16 + i] as u8;
    }
    rule
}

/// The 32 numbers of a rule's 33 bytes: the amount is one number.
fn numbers_of_rule(bytes: &[u8]) -> Vec<u16> {
    let mut numbers: Vec<u16> = bytes[..5].iter().map(|&b| b as u16).collect();
    numbers.push(two(bytes, 5) as u16);
    numbers.extend(bytes[7..].iter().map(|&b| b as u16));
    numbers
}

/// A book taken apart, and the numbers of its rules.
pub fn taken_apart(book: &[u8]) -> Result<(Book, Vec<Vec<u16>>), Refusal> {
    let parts = contents(book)?;
    let companies = parts.len() - 2;
    let mut tables = Vec::new();
    for &(offset, _) in &parts[..companies] {
        let n = book[offset] as usize;
        let row = |r: usize| (0..n).map(|c| two(book, offset + 1 + 2 * (r * n + c)) as u16).collect();
        tables.push((0..n).map(row).collect::<Vec<Vec<u16>>>());
    }
    for (table, &(offset, _)) in tables.iter().zip(&parts) {
        judge_table(table, |before| offset + 1 + 2 * before)?;
    }
    let sizes: Vec<usize> = tables.iter().map(|t| t.len()).collect();
    let body = |entry: usize| &book[parts[entry].0..parts[entry].0 + parts[entry].1];
    let links: Vec<Link> = body(companies).chunks(4).map(|l| [l[0], l[1], l[2], l[3]]).collect();
    let wide: Vec<[u16; 4]> = links.iter().map(|l| l.map(|b| b as u16)).collect();
    judge_links(&sizes, &wide)?;
    let rules: Vec<Vec<u16>> = body(companies + 1).chunks(33).map(numbers_of_rule).collect();
    judge_rules(&sizes, links.len(), &rules)?;
    let known = rules.iter().map(|r| rule_of(r)).collect();
    Ok((Book { tables, links, rules: known }, rules))
}

/// What a book says, or why it is refused.
pub fn parse(book: &[u8]) -> Result<Book, Refusal> {
    taken_apart(book).map(|(book, _)| book)
}

/// Whether a book is good, or why not.
pub fn judge(book: &[u8]) -> Result<(), Refusal> {
    parse(book).map(|_| ())
}

/// Where a company's body lies, as offset and length; nothing if refused or unknown.
pub fn company_body(book: &[u8], company: u8) -> Option<(usize, usize)> {
    parse(book).ok()?;
    let parts = contents(book).ok()?;
    let companies = parts.len() - 2;
    if (company as usize) < companies {
        Some(parts[company as usize])
    } else {
        None
    }
}
