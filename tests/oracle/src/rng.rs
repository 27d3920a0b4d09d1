//! A small deterministic generator of numbers (splitmix64).

use crate::table::Mask;

/// The state of the generator.
#[derive(Clone, Debug)]
pub struct Rng {
    state: u64,
}

impl Rng {
    /// A generator of its own for each seed, stream and index.
    pub fn new(seed: u64, stream: u64, index: u64) -> Rng {
        let mut rng = Rng { state: seed };
        for part in [stream, index] {
            rng.state = rng.bits() ^ part.wrapping_mul(0xD134_2543_DE82_EF95);
        }
        rng.bits();
        rng
    }

    /// The next 64 bits.
    pub fn bits(&mut self) -> u64 {
        self.state = self.state.wrapping_add(0x9E37_79B9_7F4A_7C15);
        let mut bits = self.state;
        bits = (bits ^ (bits >> 30)).wrapping_mul(0xBF58_476D_1CE4_E5B9);
        bits = (bits ^ (bits >> 27)).wrapping_mul(0x94D0_49BB_1331_11EB);
        bits ^ (bits >> 31)
    }

    /// A number below a bound, which is not 0.
    pub fn below(&mut self, bound: usize) -> usize {
        (self.bits() % bound as u64) as usize
    }

    /// A number from `least` to `most`, both included.
    pub fn range(&mut self, least: usize, most: usize) -> usize {
        least + self.below(most - least + 1)
    }

    /// A byte from `least` to `most`, both included.
    pub fn byte(&mut self, least: u8, most: u8) -> u8 {
        self.range(usize::from(least), usize::from(most)) as u8
    }

    /// True in so many cases of a hundred.
    pub fn chance(&mut self, percent: u64) -> bool {
        self.bits() % 100 < percent
    }

    /// One of the entries of a list that has some.
    pub fn pick<'a, T>(&mut self, list: &'a [T]) -> &'a T {
        &list[self.below(list.len())]
    }

    /// Brings a list into any order.
    pub fn shuffle<T>(&mut self, list: &mut [T]) {
        for end in (1..list.len()).rev() {
            list.swap(end, self.below(end + 1));
        }
    }

    /// One of the fluents of a mask that has some.
    pub fn fluent(&mut self, mask: Mask) -> u8 {
        let skipped = self.below(mask.count_ones() as usize);
        let mut left = mask;
        for _ in 0..skipped {
            left &= left - 1;
        }
        left.trailing_zeros() as u8
    }
}
