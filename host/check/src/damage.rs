//! Books and sheets that are damaged, by a byte or by design.

use crate::lister::JUDGED;
use crate::random::Random;

/// Does something to a book that may make it bad.
pub fn book(book: &mut Vec<u8>, random: &mut Random) {
    if book.len() < 24 {
        book.push(random.next() as u8);
        return;
    }
    let companies = book[1] as usize;
    let length = book.len();
    match random.between(0, 9) {
        0 => book.truncate(random.between(0, length - 1)),
        1 => {
            for _ in 0..random.between(1, 5) {
                book.push(random.next() as u8);
            }
        }
        2 => book[random.between(0, 3)] = random.pick(&[0, 1, 2, 16, 17, 32, 33, 128, 129, 255]),
        3 => nudge(&mut book[random.between(4, 4 + 4 * (companies.min(16) + 2) - 1).min(length - 1)..], random),
        4 => {
            book.remove(random.between(0, length - 1));
        }
        5 => book.insert(random.between(0, length), random.next() as u8),
        6 => in_links(book, companies, random),
        7 => in_rules(book, companies, random),
        8 => in_tables(book, companies, random),
        _ => {
            let at = random.between(0, length - 1);
            book[at] = random.next() as u8;
        }
    }
}

/// Makes a company's n bad, and lets its body and the book end where the judging of the lister's input ends, or about there: by
/// how much is judged, the company is refused for its n or for its end.
pub fn cut_in_body(book: &mut Vec<u8>, random: &mut Random) {
    let company = random.between(0, book[1] as usize - 1);
    let (offset, _) = body(book, company).expect("the book is good");
    let length = (JUDGED + random.pick(&[0, 1, 2, 14]) - 1 - offset) as u16;
    book[6 + 4 * company..][..2].copy_from_slice(&length.to_le_bytes());
    book[offset] = random.pick(&[0, 1, 41, 255]);
    book.resize(JUDGED + random.pick(&[0, 1, 2, 15, 70_000]) - 1, 0);
}

fn nudge(part: &mut [u8], random: &mut Random) {
    part[0] = match random.between(0, 3) {
        0 => part[0].wrapping_add(1),
        1 => part[0].wrapping_sub(1),
        2 => 0,
        _ => random.next() as u8,
    };
}

/// Where the body of an entry of the contents lies, if it can be told.
fn body(book: &[u8], entry: usize) -> Option<(usize, usize)> {
    let at = 4 + 4 * entry;
    let two = |at: usize| Some(*book.get(at)? as usize + 256 * *book.get(at + 1)? as usize);
    let (offset, length) = (two(at)?, two(at + 2)?);
    if length > 0 && offset + length <= book.len() {
        Some((offset, length))
    } else {
        None
    }
}

/// A company's number of stations, an entry, or one on the diagonal.
fn in_tables(book: &mut [u8], companies: usize, random: &mut Random) {
    let Some((offset, length)) = body(book, random.between(0, companies.max(1) - 1)) else { return };
    let n = book[offset] as usize;
    let entries = length.saturating_sub(1) / 2;
    if random.chance(20) || entries == 0 {
        book[offset] = random.pick(&[0, 1, 2, 40, 41, 255]);
        return;
    }
    let entry = if random.chance(50) { random.between(0, entries - 1) } else { (random.between(0, 40) * (n + 1)) % entries };
    let fare: u16 = random.pick(&[0, 1, 9_999, 10_000, 10_240, 65_535]);
    book[offset + 1 + 2 * entry..][..2].copy_from_slice(&fare.to_le_bytes());
}

/// A link with its ends changed, or made the same as another.
fn in_links(book: &mut [u8], companies: usize, random: &mut Random) {
    let Some((offset, length)) = body(book, companies) else { return };
    let links = length / 4;
    if links == 0 {
        return;
    }
    let at = offset + 4 * random.between(0, links - 1);
    match random.between(0, 3) {
        0 => {
            let from = offset + 4 * random.between(0, links - 1);
            book.copy_within(from..from + 4, at);
        }
        1 => {
            book.swap(at, at + 2);
            book.swap(at + 1, at + 3);
        }
        2 => book[at] = book[at + 2],
        _ => nudge(&mut book[at + random.between(0, 3)..], random),
    }
}

/// A rule's number of rides, its companies, its amount, or a bit of its maps.
fn in_rules(book: &mut [u8], companies: usize, random: &mut Random) {
    let Some((offset, length)) = body(book, companies + 1) else { return };
    let rules = length / 33;
    if rules == 0 {
        return;
    }
    let rule = &mut book[offset + 33 * random.between(0, rules - 1)..][..33];
    match random.between(0, 5) {
        0 => rule[0] = random.pick(&[0, 1, 2, 3, 4, 5, 255]),
        1 => rule[random.between(1, 4)] = random.pick(&[0, 1, 15, 16, 254, 255]),
        2 => rule[2] = rule[1],
        3 => rule[5..7].copy_from_slice(&random.pick(&[0u16, 1, 999, 1_000, 65_535]).to_le_bytes()),
        _ => rule[random.between(7, 32)] ^= 1 << random.between(0, 7),
    }
}

/// Does something to a sheet that may make it bad.
pub fn sheet(sheet: &mut Vec<u16>, random: &mut Random) {
    let length = sheet.len();
    if length == 0 {
        return;
    }
    let odd = [0, 1, 2, 3, 4, 5, 16, 17, 32, 33, 40, 41, 128, 129, 255, 256, 257, 511, 999, 1_000, 9_999, 10_000, 65_280, 65_535];
    match random.between(0, 7) {
        0 => sheet.truncate(random.between(0, length - 1)),
        1 => sheet.push(random.next() as u16),
        2 => sheet[random.between(0, 2.min(length - 1))] = random.pick(&odd),
        3 => {
            sheet.remove(random.between(0, length - 1));
        }
        4 => {
            // among the links and rules, which come last
            let rest = 4 * sheet.get(1).map_or(0, |&l| l as usize) + 32 * sheet.get(2).map_or(0, |&r| r as usize);
            let at = length - 1 - random.between(0, rest.clamp(1, length) - 1);
            sheet[at] = if random.chance(50) { random.pick(&odd) } else { sheet[at] ^ (1 << random.between(0, 15)) };
        }
        5 => {
            // a link like an earlier one
            let rules = 32 * sheet.get(2).map_or(0, |&r| r as usize);
            let links = sheet.get(1).map_or(0, |&l| l as usize);
            if links > 1 && length > rules + 4 * links {
                let first = length - rules - 4 * links;
                let (from, to) = (random.between(0, links - 1), random.between(0, links - 1));
                sheet.copy_within(first + 4 * from..first + 4 * from + 4, first + 4 * to);
            }
        }
        _ => {
            let at = random.between(0, length - 1);
            sheet[at] = if random.chance(70) { random.pick(&odd) } else { random.next() as u16 };
        }
    }
}
