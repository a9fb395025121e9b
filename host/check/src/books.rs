//! Books at random, made as sheets.

use crate::random::Random;

#[derive(Clone, Copy, Debug, PartialEq, Eq)]
pub enum Kind {
    /// Few stations and few different fares: most routes tie.
    Tiny,
    /// Fares near to each other and discounts near to a ride's fare: a longer way round is often cheaper, also one that comes
    /// back to a station, which must not be given.
    Loops,
    /// Companies in a row, rides of about 100, and rules whose runs overlap and tie.
    Rows,
    /// Anything in between.
    Middling,
    /// 16 companies of 40 stations and few links: long lists that are soon made.
    Sparse,
    /// 16 companies of 40 stations, 128 links, 32 rules: links spread at random.
    Spread,
    /// The same, with all links between two companies.
    TwoCompanies,
}

struct Made {
    tables: Vec<Vec<u16>>,
    sizes: Vec<usize>,
    links: Vec<[u16; 4]>,
    rules: Vec<Vec<u16>>,
}

/// A good sheet of this kind.
pub fn sheet(kind: Kind, random: &mut Random) -> Vec<u16> {
    let (companies, low, high) = match kind {
        Kind::Tiny => (random.between(1, 4), 2, 4),
        Kind::Loops => (random.between(2, 3), 3, 5),
        Kind::Rows => (random.between(2, 4), 2, 5),
        Kind::Middling => (random.between(1, 9), 2, 14),
        Kind::Sparse | Kind::Spread | Kind::TwoCompanies => (16, 40, 40),
    };
    let sizes: Vec<usize> = (0..companies).map(|_| random.between(low, high)).collect();
    let tables = sizes.iter().map(|&n| table(kind, n, random)).collect();
    let links = links(kind, &sizes, random);
    let mut made = Made { tables, sizes, links, rules: Vec::new() };
    let rules = match kind {
        Kind::Spread | Kind::TwoCompanies => 32,
        Kind::Rows => random.between(3, 12),
        _ => random.between(0, 8),
    };
    for _ in 0..if companies > 1 { rules } else { 0 } {
        let rule = rule(kind, &made, random);
        made.rules.push(rule);
    }
    numbers(&made)
}

fn numbers(made: &Made) -> Vec<u16> {
    let mut sheet = vec![made.tables.len() as u16, made.links.len() as u16, made.rules.len() as u16];
    for (table, &n) in made.tables.iter().zip(&made.sizes) {
        sheet.push(n as u16);
        sheet.extend(table);
    }
    sheet.extend(made.links.iter().flatten());
    sheet.extend(made.rules.iter().flatten());
    sheet
}

fn table(kind: Kind, n: usize, random: &mut Random) -> Vec<u16> {
    let unsold = match kind {
        Kind::Rows | Kind::Spread | Kind::TwoCompanies => 3,
        _ => random.pick(&[0, 20, 50]),
    };
    let both_ways = random.chance(50);
    let mut fares = vec![0; n * n];
    for i in 0..n {
        for j in (0..n).filter(|&j| j != i) {
            fares[i * n + j] = if both_ways && j < i {
                fares[j * n + i]
            } else if random.chance(unsold) {
                0
            } else {
                fare(kind, random)
            };
        }
    }
    fares
}

fn fare(kind: Kind, random: &mut Random) -> u16 {
    (match kind {
        Kind::Tiny => random.between(1, 12),
        Kind::Loops => random.between(300, 700),
        Kind::Rows => 100 + random.pick(&[0, 0, 0, 10]),
        Kind::Middling => random.pick(&[1, 50, 9_999, 120, 400, 999]),
        Kind::Sparse | Kind::Spread | Kind::TwoCompanies => random.between(1, 9_999),
    }) as u16
}

fn links(kind: Kind, sizes: &[usize], random: &mut Random) -> Vec<[u16; 4]> {
    let most: usize =
        (0..sizes.len()).flat_map(|a| (a + 1..sizes.len()).map(move |b| (a, b))).map(|(a, b)| sizes[a] * sizes[b]).sum();
    let wanted = match kind {
        Kind::Tiny => random.between(0, 10),
        Kind::Loops => random.between(3, 16),
        Kind::Rows => random.between(6, 24),
        Kind::Middling => random.between(0, 60),
        Kind::Sparse => 12,
        Kind::Spread | Kind::TwoCompanies => 128,
    };
    let mut links: Vec<[u16; 4]> = Vec::new();
    let mut tries = 0;
    while links.len() < wanted.min(most) && tries < 100_000 {
        tries += 1;
        let (a, b) = match kind {
            // The last two: the lister comes to the lines that are soon made first, and a benchmark sees both sorts.
            Kind::TwoCompanies => (sizes.len() - 2, sizes.len() - 1),
            Kind::Rows => {
                let a = random.between(0, sizes.len() - 2);
                (a, a + 1)
            }
            _ => (random.between(0, sizes.len() - 1), random.between(0, sizes.len() - 1)),
        };
        let link = [a, random.between(0, sizes[a] - 1), b, random.between(0, sizes[b] - 1)].map(|x| x as u16);
        if a < b && !links.contains(&link) {
            links.push(link);
        }
    }
    links
}

/// A rule whose companies are mostly linked, one to the next.
fn rule(kind: Kind, made: &Made, random: &mut Random) -> Vec<u16> {
    let m = random.pick(&[2, 2, 2, 3, 3, 4]);
    let mut companies = vec![random.between(0, made.sizes.len() - 1) as u16];
    if !made.links.is_empty() {
        companies[0] = random.pick(&made.links)[random.pick(&[0, 2])];
    }
    while companies.len() < m {
        let last = companies[companies.len() - 1];
        let linked: Vec<u16> = made
            .links
            .iter()
            .filter_map(|l| {
                if l[0] == last {
                    Some(l[2])
                } else if l[2] == last {
                    Some(l[0])
                } else {
                    None
                }
            })
            .collect();
        let next = if linked.is_empty() || random.chance(5) {
            random.between(0, made.sizes.len() - 1) as u16
        } else {
            random.pick(&linked)
        };
        if next != last {
            companies.push(next);
        }
    }
    let (first, last) = (made.sizes[companies[0] as usize], made.sizes[companies[m - 1] as usize]);
    let mut rule = vec![m as u16];
    rule.extend(&companies);
    rule.resize(5, 255);
    rule.push(amount(kind, random));
    for (items, bytes) in [(first, 5), (last, 5), (made.links.len(), 16)] {
        let share = if kind == Kind::Rows { 100 } else { random.pick(&[100, 100, 100, 80, 50, 0]) };
        rule.extend(map(items, bytes, share, random));
    }
    rule
}

fn amount(kind: Kind, random: &mut Random) -> u16 {
    (match kind {
        Kind::Tiny => random.between(1, 14),
        Kind::Loops => random.between(300, 999),
        Kind::Rows => random.pick(&[10, 20, 20, 30, 40]),
        Kind::Middling => random.pick(&[1, 20, 100, 998, 999]),
        Kind::Sparse | Kind::Spread | Kind::TwoCompanies => random.between(1, 999),
    }) as u16
}

/// A map that has so many items in a hundred.
fn map(items: usize, bytes: usize, share: usize, random: &mut Random) -> Vec<u16> {
    let mut map = vec![0; bytes];
    for i in 0..items {
        if random.chance(share) {
            map[i / 8] |= 1 << (i % 8);
        }
    }
    map
}
