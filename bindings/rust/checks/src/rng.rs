//! A small generator with a seed, so that every run can be had again.

use clockivy_reference::field::amount::P;
use clockivy_reference::{MASK_LIMIT, MAX_AMOUNT};

/// SplitMix64 (Steele, Lea and Flood, 2014).
#[derive(Clone)]
pub struct Rng(u64);

impl Rng {
    /// The generator with this seed.
    pub fn new(seed: u64) -> Rng {
        Rng(seed)
    }

    /// A word.
    pub fn word(&mut self) -> u64 {
        self.0 = self.0.wrapping_add(0x9E37_79B9_7F4A_7C15);
        let mut mixed = self.0;
        mixed = (mixed ^ (mixed >> 30)).wrapping_mul(0xBF58_476D_1CE4_E5B9);
        mixed = (mixed ^ (mixed >> 27)).wrapping_mul(0x94D0_49BB_1331_11EB);
        mixed ^ (mixed >> 31)
    }

    /// A number below `limit`, which is not 0.
    pub fn below(&mut self, limit: u64) -> u64 {
        ((u128::from(self.word()) * u128::from(limit)) >> 64) as u64
    }

    /// A number from `first` to `last`.
    pub fn between(&mut self, first: u64, last: u64) -> u64 {
        first + self.below(last - first + 1)
    }

    /// A place in a list of `length` elements.
    pub fn place(&mut self, length: usize) -> usize {
        self.below(length as u64) as usize
    }

    /// True once in `times`.
    pub fn once_in(&mut self, times: u64) -> bool {
        self.below(times) == 0
    }

    /// One of the list.
    pub fn pick<T: Copy>(&mut self, list: &[T]) -> T {
        list[self.place(list.len())]
    }

    /// So many of the numbers from 1 to `most`, all different and in any order.
    pub fn numbers(&mut self, most: u64, count: u64) -> Vec<u64> {
        let mut numbers: Vec<u64> = (1..=most).collect();
        for place in 0..count as usize {
            let other = place + self.place(numbers.len() - place);
            numbers.swap(place, other);
        }
        numbers.truncate(count as usize);
        numbers
    }

    /// A byte.
    pub fn byte(&mut self) -> u8 {
        (self.word() >> 56) as u8
    }

    /// A share of an amount, or a coefficient. Now and then at an end of the
    /// range.
    pub fn amount_share(&mut self) -> u64 {
        match self.below(64) {
            0 => 0,
            1 => P - 1,
            _ => self.below(P),
        }
    }

    /// A mask. Now and then at an end of the range.
    pub fn mask(&mut self) -> u64 {
        match self.below(16) {
            0 => 0,
            1 => MASK_LIMIT - 1,
            _ => self.below(MASK_LIMIT),
        }
    }

    /// Words made by `one`.
    pub fn words(&mut self, length: usize, mut one: impl FnMut(&mut Rng) -> u64) -> Vec<u64> {
        (0..length).map(|_| one(self)).collect()
    }

    /// Bytes.
    pub fn bytes(&mut self, length: usize) -> Vec<u8> {
        (0..length).map(|_| self.byte()).collect()
    }

    /// A table of `k` prices that a bidder may bid.
    pub fn table(&mut self, k: usize) -> Vec<u64> {
        let largest = self.pick(&[0, 1, 3, 40, 5_000, MAX_AMOUNT]);
        let mut table = self.words(2 * k, |rng| rng.between(0, largest));
        table[..k].sort_unstable_by(|a, b| b.cmp(a));
        table[k..].sort_unstable();
        match self.below(8) {
            0 => table[..k].fill(0),
            1 => table[k..].fill(0),
            2 => table.fill(largest),
            _ => {}
        }
        table
    }
}
