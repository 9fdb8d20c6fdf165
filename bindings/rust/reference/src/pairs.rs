//! The pairs by which a carry is looked up in a list, and the operator that merges two
//! of them. On pairs of bits it can be grouped anyhow: a pair whose top is 1 hands on
//! the bottom of the pair before it, and one whose top is 0 has its own.

use crate::field::byte;

/// A pair: two bytes, or a party's shares of them.
#[derive(Clone, Copy, Debug, PartialEq, Eq)]
pub struct Pair {
    /// Whether the bottom of the pair before it is handed on.
    pub top: u8,
    /// The bit that this pair has for its carry.
    pub bottom: u8,
}

impl Pair {
    /// The one pair of this and the next.
    pub fn merged(self, next: Pair) -> Pair {
        let products = self.factors(next).map(|[u, v]| byte::mul(u, v));
        Pair::of(products, next)
    }

    /// The factors of the two products that a merger with the next pair takes: that of
    /// the top, then that of the bottom.
    pub fn factors(self, next: Pair) -> [[u8; 2]; 2] {
        let bottoms = byte::add(self.bottom, next.bottom);
        [[self.top, next.top], [next.top, bottoms]]
    }

    /// The pair that a merger with the next pair comes to, by those products.
    pub fn of([top, bottom]: [u8; 2], next: Pair) -> Pair {
        let bottom = byte::add(bottom, next.bottom);
        Pair { top, bottom }
    }
}
