//! A book to its sheet, and a sheet to its book.

use crate::book::{judge_links, judge_rules, judge_table, taken_apart};
use crate::{refuse, Refusal};

/// The sheet of a book, for a list with room for so many numbers.
pub fn read(book: &[u8], room: usize) -> Result<Vec<u16>, Refusal> {
    let (book, rules) = taken_apart(book)?;
    let mut sheet = vec![book.tables.len() as u16, book.links.len() as u16, rules.len() as u16];
    for table in &book.tables {
        sheet.push(table.len() as u16);
        for row in table {
            sheet.extend(row);
        }
    }
    for link in &book.links {
        sheet.extend(link.iter().map(|&b| b as u16));
    }
    for rule in &rules {
        sheet.extend(rule);
    }
    if sheet.len() > room {
        return refuse(13, 0);
    }
    Ok(sheet)
}

/// The parts of a sheet, judged: tables, links, and rules of 32 numbers.
type Parts = (Vec<Vec<Vec<u16>>>, Vec<[u16; 4]>, Vec<Vec<u16>>);

fn parts(sheet: &[u16]) -> Result<Parts, Refusal> {
    if sheet.len() < 3 {
        return refuse(1, 0);
    }
    let (companies, links, rules) = (sheet[0] as usize, sheet[1] as usize, sheet[2] as usize);
    if companies < 1 || companies > 16 || links > 128 || rules > 32 {
        return refuse(3, 0);
    }
    let mut at = 3;
    let mut tables = Vec::new();
    let mut begins = Vec::new();
    for company in 0..companies {
        if at >= sheet.len() {
            return refuse(1, 0);
        }
        let n = sheet[at] as usize;
        if n < 2 || n > 40 {
            return refuse(5, company);
        }
        at += 1;
        if sheet.len() - at < n * n {
            return refuse(1, 0);
        }
        begins.push(at);
        tables.push(sheet[at..at + n * n].chunks(n).map(|row| row.to_vec()).collect::<Vec<_>>());
        at += n * n;
    }
    if sheet.len() - at != 4 * links + 32 * rules {
        return refuse(1, 0);
    }
    for (table, begin) in tables.iter().zip(&begins) {
        judge_table(table, |before| begin + before)?;
    }
    let sizes: Vec<usize> = tables.iter().map(|t| t.len()).collect();
    let rules_at = at + 4 * links;
    let links: Vec<[u16; 4]> = sheet[at..rules_at].chunks(4).map(|l| [l[0], l[1], l[2], l[3]]).collect();
    judge_links(&sizes, &links)?;
    let rules: Vec<Vec<u16>> = sheet[rules_at..].chunks(32).map(|r| r.to_vec()).collect();
    judge_rules(&sizes, links.len(), &rules)?;
    Ok((tables, links, rules))
}

fn put_two(book: &mut Vec<u8>, number: usize) {
    book.push((number % 256) as u8);
    book.push((number / 256) as u8);
}

/// The book of a sheet, for a buffer with room for so many bytes.
pub fn write(sheet: &[u16], room: usize) -> Result<Vec<u8>, Refusal> {
    let (tables, links, rules) = parts(sheet)?;
    let mut bodies: Vec<Vec<u8>> = Vec::new();
    for table in &tables {
        let mut body = vec![table.len() as u8];
        for &fare in table.iter().flatten() {
            put_two(&mut body, fare as usize);
        }
        bodies.push(body);
    }
    bodies.push(links.iter().flatten().map(|&x| x as u8).collect());
    let mut body = Vec::new();
    for rule in &rules {
        body.extend(rule[..5].iter().map(|&x| x as u8));
        put_two(&mut body, rule[5] as usize);
        body.extend(rule[6..].iter().map(|&x| x as u8));
    }
    bodies.push(body);
    let mut book = vec![1, tables.len() as u8, links.len() as u8, rules.len() as u8];
    let mut offset = 4 + 4 * bodies.len();
    for body in &bodies {
        put_two(&mut book, offset);
        put_two(&mut book, body.len());
        offset += body.len();
    }
    for body in bodies {
        book.extend(body);
    }
    if book.len() > room {
        return refuse(13, 0);
    }
    Ok(book)
}
