//! Bytes or numbers that are lent, with others around them that nobody may change.

use oracle::rng::Rng;

/// Bytes, or numbers, on each side at least.
const FENCE: usize = 64;

/// What can be lent.
pub trait Lent: Copy + Default + PartialEq {
    /// Writes any of its kind over all of these.
    fn fill(rng: &mut Rng, all: &mut [Self]);
}

impl Lent for u8 {
    fn fill(rng: &mut Rng, all: &mut [u8]) {
        for part in all.chunks_mut(8) {
            part.copy_from_slice(&rng.bits().to_le_bytes()[..part.len()]);
        }
    }
}

impl Lent for u32 {
    fn fill(rng: &mut Rng, all: &mut [u32]) {
        for number in all {
            *number = rng.bits() as u32;
        }
    }
}

/// Lent bytes, or numbers, somewhere within others.
#[derive(Clone, PartialEq, Eq)]
pub struct Fenced<T = u8> {
    all: Vec<T>,
    from: usize,
    length: usize,
}

impl<T: Lent> Fenced<T> {
    /// With any others around them, and at any address.
    pub fn new(rng: &mut Rng, lent: &[T]) -> Fenced<T> {
        let from = FENCE + rng.below(16);
        let mut all = vec![T::default(); from + lent.len() + FENCE];
        T::fill(rng, &mut all);
        let mut fenced = Fenced { all, from, length: lent.len() };
        fenced.lent().copy_from_slice(lent);
        fenced
    }

    pub fn lent(&mut self) -> &mut [T] {
        &mut self.all[self.from..self.from + self.length]
    }

    /// The same fence around others.
    pub fn with(&self, lent: &[T]) -> Fenced<T> {
        let mut other = self.clone();
        other.lent().copy_from_slice(lent);
        other
    }
}
