//! The C functions, and the word that they return. A slice's pointer is never null and is valid for its length, and a `&mut`
//! overlaps nothing: so what the C face asks of its caller holds for every call from here.

use crate::{Refusal, Station};

mod c {
    extern "C" {
        pub fn fares_check(book: *const u8, book_len: usize) -> u64;
        pub fn fares_company(book: *const u8, book_len: usize, company: u8) -> u64;
        pub fn fares_read(book: *const u8, book_len: usize, sheet: *mut u16, room: usize) -> u64;
        pub fn fares_write(sheet: *const u16, sheet_len: usize, book: *mut u8, room: usize) -> u64;
        pub fn fares_price(
            book: *const u8,
            book_len: usize,
            route: *const u8,
            route_len: usize,
            answer: *mut u16,
            room: usize,
        ) -> u64;
        pub fn fares_cheapest(
            book: *const u8,
            book_len: usize,
            from_company: u8,
            from_station: u8,
            to_company: u8,
            to_station: u8,
            limit: u8,
            answer: *mut u16,
            room: usize,
        ) -> u64;
    }
}

pub fn check(book: &[u8]) -> u64 {
    unsafe { c::fares_check(book.as_ptr(), book.len()) }
}

pub fn company(book: &[u8], company: u8) -> u64 {
    unsafe { c::fares_company(book.as_ptr(), book.len(), company) }
}

pub fn read(book: &[u8], sheet: &mut [u16]) -> u64 {
    unsafe { c::fares_read(book.as_ptr(), book.len(), sheet.as_mut_ptr(), sheet.len()) }
}

pub fn write(sheet: &[u16], book: &mut [u8]) -> u64 {
    unsafe { c::fares_write(sheet.as_ptr(), sheet.len(), book.as_mut_ptr(), book.len()) }
}

pub fn price(book: &[u8], route: &[u8], answer: &mut [u16]) -> u64 {
    unsafe { c::fares_price(book.as_ptr(), book.len(), route.as_ptr(), route.len(), answer.as_mut_ptr(), answer.len()) }
}

pub fn cheapest(book: &[u8], from: Station, to: Station, limit: u8, answer: &mut [u16]) -> u64 {
    unsafe {
        c::fares_cheapest(
            book.as_ptr(),
            book.len(),
            from.company,
            from.station,
            to.company,
            to.station,
            limit,
            answer.as_mut_ptr(),
            answer.len(),
        )
    }
}

/// Bits 32 to 39: the refusal's number; bits 40 to 63: its place; bits 0 to 31: how many were written.
pub fn written(word: u64) -> Result<usize, Refusal> {
    match Refusal::of((word >> 32) as u8, (word >> 40) as u32) {
        None => Ok(word as u32 as usize),
        Some(refusal) => Err(refusal),
    }
}

/// Bits 40 to 63: a part's offset; bits 0 to 31: its length.
pub fn part(word: u64) -> (usize, usize) {
    ((word >> 40) as usize, word as u32 as usize)
}
