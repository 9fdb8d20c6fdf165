//! The two fields in plain arithmetic, and the polynomial by which a secret is changed
//! without changing some parties' shares.

use clockivy::PRIME;

/// A field whose elements are words.
pub trait Field {
    /// An element.
    type Word: Copy;
    const ZERO: Self::Word;
    const ONE: Self::Word;
    /// An element to this power is its inverse.
    const INVERSE: u64;

    /// The point of a party.
    fn point(own: u64) -> Self::Word;
    fn add(a: Self::Word, b: Self::Word) -> Self::Word;
    fn sub(a: Self::Word, b: Self::Word) -> Self::Word;
    fn mul(a: Self::Word, b: Self::Word) -> Self::Word;

    /// The inverse of an element that is not 0.
    fn inverse(a: Self::Word) -> Self::Word {
        let mut power = Self::ONE;
        for bit in (0..u64::BITS).rev() {
            power = Self::mul(power, power);
            if Self::INVERSE >> bit & 1 == 1 {
                power = Self::mul(power, a);
            }
        }
        power
    }
}

/// Whole numbers modulo 2^61 - 1.
pub struct Amounts;

impl Field for Amounts {
    type Word = u64;
    const ZERO: u64 = 0;
    const ONE: u64 = 1;
    const INVERSE: u64 = PRIME - 2;

    fn point(own: u64) -> u64 {
        own
    }

    fn add(a: u64, b: u64) -> u64 {
        (a + b) % PRIME
    }

    fn sub(a: u64, b: u64) -> u64 {
        (a + PRIME - b) % PRIME
    }

    fn mul(a: u64, b: u64) -> u64 {
        (u128::from(a) * u128::from(b) % u128::from(PRIME)) as u64
    }
}

/// Bytes as polynomials of bits, modulo 11Bh.
pub struct Bytes;

impl Field for Bytes {
    type Word = u8;
    const ZERO: u8 = 0;
    const ONE: u8 = 1;
    const INVERSE: u64 = 254;

    fn point(own: u64) -> u8 {
        own as u8
    }

    fn add(a: u8, b: u8) -> u8 {
        a ^ b
    }

    fn sub(a: u8, b: u8) -> u8 {
        a ^ b
    }

    fn mul(a: u8, b: u8) -> u8 {
        let double = |a: u8| a << 1 ^ if a >= 0x80 { 0x1B } else { 0 };
        let multiples = std::iter::successors(Some(a), |&a| Some(double(a)));
        let terms = multiples.take(8).enumerate();
        let terms = terms.filter(|(bit, _)| b >> bit & 1 == 1);
        terms.fold(0, |product, (_, term)| product ^ term)
    }
}

/// The polynomial that is 1 at 0 and 0 at each of these parties, of as high a degree
/// as they are many: its coefficients but for the first, which is 1.
pub fn unseen_by<F: Field>(pool: &[u64]) -> Vec<F::Word> {
    let mut coefficients = vec![F::ONE];
    for &own in pool {
        // Times 1 - x / own.
        let slope = F::inverse(F::point(own));
        coefficients.push(F::ZERO);
        for place in (1..coefficients.len()).rev() {
            let carried = F::mul(coefficients[place - 1], slope);
            coefficients[place] = F::sub(coefficients[place], carried);
        }
    }
    coefficients.remove(0);
    coefficients
}

/// Moves the coefficients of a sharing so that its secret changes by `change`, and the
/// shares of those by whom the polynomial is unseen do not.
pub fn recolour<F: Field>(coefficients: &mut [F::Word], change: F::Word, unseen: &[F::Word]) {
    for (coefficient, &term) in coefficients.iter_mut().zip(unseen) {
        *coefficient = F::add(*coefficient, F::mul(change, term));
    }
}
