//! A lent list that is looked at afterwards, with what stands before and after it.

use crate::random::Random;

const GUARD: usize = 8;

/// A list of `room` items at random, with a guard on either side.
pub struct Lent<T> {
    before: Vec<T>,
    now: Vec<T>,
    room: usize,
}

impl<T: Copy + PartialEq + std::fmt::Debug> Lent<T> {
    pub fn new(room: usize, random: &mut Random, item: impl Fn(u64) -> T) -> Lent<T> {
        let before: Vec<T> = (0..room + 2 * GUARD).map(|_| item(random.next())).collect();
        Lent { now: before.clone(), before, room }
    }

    pub fn lend(&mut self) -> &mut [T] {
        &mut self.now[GUARD..GUARD + self.room]
    }

    /// Whether it holds what was written, and else what it held before.
    pub fn holds(&self, written: &[T]) -> bool {
        let end = GUARD + written.len();
        self.now[..GUARD] == self.before[..GUARD] && self.now[GUARD..end] == *written && self.now[end..] == self.before[end..]
    }
}
