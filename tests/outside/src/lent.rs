//! Lent outputs with guard entries around them, so that a write past either end shows.

use crate::random::Random;

const GUARD: usize = 8;

/// Random entries, of which all but the outermost are lent.
#[derive(Clone, PartialEq, Debug)]
pub struct Lent<T>(Vec<T>);

impl Lent<u8> {
    pub fn bytes(random: &Random, length: usize) -> Self {
        Lent(random.bytes(length + 2 * GUARD))
    }
}

impl Lent<u32> {
    pub fn words(random: &Random, length: usize) -> Self {
        Lent(random.words(length + 2 * GUARD))
    }
}

impl<T> Lent<T> {
    pub fn lend(&mut self) -> &mut [T] {
        let end = self.0.len() - GUARD;
        &mut self.0[GUARD..end]
    }
}

/// A room for `needed` entries: exactly that, more, fewer, or none.
pub fn room(random: &Random, needed: usize) -> usize {
    match random.below(10) {
        0 => needed.saturating_sub(1),
        1 => random.below(needed + 1),
        2 => 0,
        3..=5 => needed,
        _ => needed + random.below(20),
    }
}
