//! A call of the proved library beside the plain one: the answer, the place, and all lent memory afterwards.

use crate::lent::Lent;
use crate::lister;
use crate::random::Random;
use fares::{Paid, Refusal};

/// Compares calls, counts them, and keeps the first that differ.
pub struct Calls {
    pub cases: u64,
    pub wrong: Vec<String>,
    pub refused: [u64; 15],
}

impl Calls {
    pub fn new() -> Calls {
        Calls { cases: 0, wrong: Vec::new(), refused: [0; 15] }
    }

    fn count(&mut self, right: bool, number: u8, what: impl FnOnce() -> String) {
        self.cases += 1;
        self.refused[number as usize] += 1;
        if !right {
            self.wrong.push(what());
        }
    }

    pub fn check(&mut self, book: &[u8]) {
        let kept = book.to_vec();
        let (got, want) = (fares::check(book), plain::judge(book));
        let right = same(&got, &want, |_, _| true) && kept == book;
        self.count(right, number(&want), || format!("check {} gave {got:?}, not {want:?}", hex(book)));
    }

    pub fn company_body(&mut self, book: &[u8], company: u8) {
        let (got, want) = (fares::company_body(book, company), plain::company_body(book, company));
        let right = match want {
            None => got.is_empty(),
            Some((offset, length)) => std::ptr::eq(got, &book[offset..offset + length]),
        };
        self.count(right, 0, || format!("company {company} of {} gave {} bytes, not {want:?}", hex(book), got.len()));
    }

    pub fn read(&mut self, book: &[u8], room: usize, random: &mut Random) {
        let mut lent = Lent::new(room, random, |x| x as u16);
        let kept = book.to_vec();
        let got = fares::read(book, lent.lend());
        let want = plain::read(book, room);
        let right = same(&got, &want, |&n, sheet| n == sheet.len()) && lent.holds(written(&want)) && kept == book;
        self.count(right, number(&want), || format!("read into {room} of {} gave {got:?}, not {want:?}", hex(book)));
    }

    pub fn write(&mut self, sheet: &[u16], room: usize, random: &mut Random) {
        let mut lent = Lent::new(room, random, |x| x as u8);
        let kept = sheet.to_vec();
        let got = fares::write(sheet, lent.lend());
        let want = plain::write(sheet, room);
        let right = same(&got, &want, |&n, book| n == book.len()) && lent.holds(written(&want)) && kept == sheet;
        self.count(right, number(&want), || format!("write into {room} of {sheet:?} gave {got:?}, not {want:?}"));
    }

    pub fn price(&mut self, book: &[u8], route: &[u8], room: usize, random: &mut Random) {
        let answer = plain::price(book, route);
        let got_enum = fares::price(book, route);
        let right = same(&got_enum, &answer, same_answer);
        self.count(right, number(&answer), || format!("price of {route:?} in {} gave {got_enum:?}, not {answer:?}", hex(book)));
        let want = in_room(answer, room);
        let mut lent = Lent::new(room, random, |x| x as u16);
        let (kept, kept_route) = (book.to_vec(), route.to_vec());
        let got = fares::price_into(book, route, lent.lend());
        let right = same(&got, &want, |&n, numbers| n == numbers.len())
            && lent.holds(written(&want))
            && kept == book
            && kept_route == route;
        self.count(right, number(&want), || {
            format!("price into {room} of {route:?} in {} gave {got:?}, not {want:?}", hex(book))
        });
    }

    /// Gives back what the plain one answers.
    pub fn cheapest(
        &mut self,
        book: &[u8],
        from: plain::Station,
        to: plain::Station,
        limit: u8,
        room: usize,
        random: &mut Random,
    ) -> Result<plain::Answer, plain::Refusal> {
        let answer = plain::cheapest(book, from, to, limit);
        let want = in_room(answer.clone(), room);
        let mut lent = Lent::new(room, random, |x| x as u16);
        let kept = book.to_vec();
        let station = |(company, station): plain::Station| fares::Station { company, station };
        let got = fares::cheapest_into(book, station(from), station(to), limit, lent.lend());
        let right = same(&got, &want, |&n, numbers| n == numbers.len()) && lent.holds(written(&want)) && kept == book;
        self.count(right, number(&want), || {
            format!("cheapest into {room} from {from:?} to {to:?} within {limit} in {} gave {got:?}, not {want:?}", hex(book))
        });
        answer
    }

    /// Compares the pair lister's whole output with these lines.
    pub fn list(&mut self, input: &[u8], want: &str) {
        let got = lister::list(input);
        let right = got.as_ref().is_some_and(|lines| lines == want.as_bytes());
        self.count(right, refused(want), || {
            let got = got.map(|lines| String::from_utf8_lossy(&lines).into_owned());
            format!("the lister on {} gave {got:?}, not {want:?}", hex(input))
        });
    }
}

/// The number of the refusal that the lister's lines tell.
fn refused(lines: &str) -> u8 {
    let told = lines.strip_prefix("refused ").and_then(|rest| rest.split(' ').next());
    told.map_or(0, |number| number.parse().unwrap())
}

fn number<T>(result: &Result<T, plain::Refusal>) -> u8 {
    result.as_ref().err().map_or(0, |refusal| refusal.number)
}

fn same<T, U>(got: &Result<T, Refusal>, want: &Result<U, plain::Refusal>, good: impl Fn(&T, &U) -> bool) -> bool {
    match (got, want) {
        (Ok(got), Ok(want)) => good(got, want),
        (Err(got), Err(want)) => got.number() == want.number && got.place() == want.place,
        _ => false,
    }
}

fn written<T>(want: &Result<Vec<T>, plain::Refusal>) -> &[T] {
    match want {
        Ok(items) => items,
        Err(_) => &[],
    }
}

fn same_answer(got: &fares::Answer, want: &plain::Answer) -> bool {
    let rides = got.rides.iter().map(|r| (r.company, r.boarding, r.alighting));
    let paid = got.rides.iter().map(|r| match r.paid {
        Paid::Full => None,
        Paid::ByRule(rule) => Some(rule),
    });
    got.fare as u32 == want.fare
        && rides.eq(want.rides.iter().map(|r| (r.company, r.boarding, r.alighting)))
        && paid.eq(want.paid.iter().copied())
}

/// The 18 numbers of an answer, where there is room for them.
fn in_room(answer: Result<plain::Answer, plain::Refusal>, room: usize) -> Result<Vec<u16>, plain::Refusal> {
    let answer = answer?;
    if room < 18 {
        return Err(plain::Refusal { number: 13, place: 0 });
    }
    let mut numbers = vec![answer.fare as u16, answer.rides.len() as u16];
    for (ride, paid) in answer.rides.iter().zip(&answer.paid) {
        numbers.extend([ride.company, ride.boarding, ride.alighting, paid.unwrap_or(255)].map(|b| b as u16));
    }
    numbers.resize(18, 255);
    Ok(numbers)
}

fn hex(bytes: &[u8]) -> String {
    bytes.iter().map(|b| format!("{b:02x}")).collect()
}
