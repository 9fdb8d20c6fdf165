//! The two fields and polynomials over them. Amounts live modulo the prime
//! 2^61 - 1; bits live in the bytes of FIPS 197. The two modules have the same
//! functions, each on its own type, so a share of an amount cannot meet a
//! share of a bit.
//!
//! `share` evaluates a polynomial at a party's point. `open` takes words and the
//! points that they stand at, and gives the value at 0 of the polynomial of
//! degree at most t through all of them, or `None` where there is no such
//! polynomial. It is Lagrange's: through the first t + 1 words there is just one,
//! and the others have to lie on it.

/// The highest t: nine parties.
const MAX_T: usize = 4;
/// The points at which a polynomial is evaluated: 0 to 9.
const POINTS: usize = 10;

/// The points of all parties, in order.
const PARTIES: [usize; POINTS - 1] = [1, 2, 3, 4, 5, 6, 7, 8, 9];

/// The factors by which the values at t + 1 points are weighted to give the value
/// at another.
type Weights<T> = [T; MAX_T + 1];

/// Sharing and opening, over the `add`, `sub`, `mul` and `inverse` of the module
/// that calls it.
macro_rules! polynomials {
    ($word:ty) => {
        /// The value at `point` of the polynomial that starts with `secret`.
        pub fn share(secret: $word, coefficients: &[$word], point: $word) -> $word {
            let mut value = 0;
            for &coefficient in coefficients.iter().rev() {
                value = mul(add(value, coefficient), point);
            }
            add(value, secret)
        }

        /// The value at 0 of the polynomial of degree at most `t` through the
        /// words at these points, of which there are more than `t`: all different,
        /// from 1 to 9.
        pub fn open(points: &[usize], words: &[$word], t: usize) -> Option<$word> {
            let (first, others) = points.split_at(t + 1);
            // Most often these are the first parties, whose weights are there.
            let made;
            let weights = if first == &PARTIES[..=t] {
                &WEIGHTS[t]
            } else {
                made = weights_of(first, others);
                &made
            };
            for (&point, &word) in others.iter().zip(&words[t + 1..]) {
                if weighted(&weights[point], words, t) != word {
                    return None;
                }
            }
            Some(weighted(&weights[0], words, t))
        }

        fn weighted(weights: &Weights<$word>, words: &[$word], t: usize) -> $word {
            let mut value = 0;
            for j in 0..=t {
                value = add(value, mul(weights[j], words[j]));
            }
            value
        }

        /// The weights of the first points at 0 and at the others.
        fn weights_of(first: &[usize], others: &[usize]) -> [Weights<$word>; POINTS] {
            let mut all = [[0; MAX_T + 1]; POINTS];
            all[0] = weights(0, first);
            for &x in others {
                all[x] = weights(x, first);
            }
            all
        }

        /// For each of these points j: the product of (x - m) / (j - m) over the
        /// other points m.
        const fn weights(x: usize, points: &[usize]) -> Weights<$word> {
            let mut weights = [0; MAX_T + 1];
            let mut place = 0;
            while place < points.len() {
                let mut weight = 1;
                let mut other = 0;
                while other < points.len() {
                    if other != place {
                        let m = points[other];
                        let above = sub(x as $word, m as $word);
                        weight = mul(weight, mul(above, INVERSES[points[place]][m]));
                    }
                    other += 1;
                }
                weights[place] = weight;
                place += 1;
            }
            weights
        }

        /// For each t and each x, the weights of points 1 to t + 1.
        static WEIGHTS: [[Weights<$word>; POINTS]; MAX_T + 1] = {
            let mut all = [[[0; MAX_T + 1]; POINTS]; MAX_T + 1];
            let mut t = 0;
            while t <= MAX_T {
                let mut x = 0;
                while x < POINTS {
                    all[t][x] = weights(x, PARTIES.split_at(t + 1).0);
                    x += 1;
                }
                t += 1;
            }
            all
        };

        /// The inverse of j - m for each two points.
        static INVERSES: [[$word; POINTS]; POINTS] = {
            let mut all = [[0; POINTS]; POINTS];
            let mut j = 0;
            while j < POINTS {
                let mut m = 0;
                while m < POINTS {
                    if j != m {
                        all[j][m] = inverse(sub(j as $word, m as $word));
                    }
                    m += 1;
                }
                j += 1;
            }
            all
        };
    };
}

/// Whole numbers modulo the prime 2^61 - 1. Arguments are below the prime.
pub mod amount {
    use super::{Weights, MAX_T, PARTIES, POINTS};

    /// The prime.
    pub const P: u64 = (1 << 61) - 1;

    /// The sum.
    pub const fn add(a: u64, b: u64) -> u64 {
        let sum = a + b;
        if sum >= P {
            sum - P
        } else {
            sum
        }
    }

    /// The difference.
    pub const fn sub(a: u64, b: u64) -> u64 {
        add(a, if b == 0 { 0 } else { P - b })
    }

    /// The product. As 2^61 is 1 modulo P, the bits from 61 up are added to
    /// the bits below.
    pub const fn mul(a: u64, b: u64) -> u64 {
        let product = a as u128 * b as u128;
        let low = (product & P as u128) as u64;
        let high = (product >> 61) as u64;
        let sum = low + high;
        if sum >= P {
            sum - P
        } else {
            sum
        }
    }

    /// The inverse of a number that is not 0: its power P - 2.
    pub const fn inverse(a: u64) -> u64 {
        let mut power = 1;
        let mut square = a;
        let mut exponent = P - 2;
        while exponent > 0 {
            if exponent % 2 == 1 {
                power = mul(power, square);
            }
            square = mul(square, square);
            exponent /= 2;
        }
        power
    }

    polynomials!(u64);
}

/// Bytes: adding is exclusive or, multiplying is modulo the polynomial 11Bh.
pub mod byte {
    use super::{Weights, MAX_T, PARTIES, POINTS};

    /// The sum.
    pub const fn add(a: u8, b: u8) -> u8 {
        a ^ b
    }

    /// The difference, which is the sum.
    pub const fn sub(a: u8, b: u8) -> u8 {
        add(a, b)
    }

    /// The product, by shift and exclusive or.
    pub const fn mul(a: u8, b: u8) -> u8 {
        let mut product = 0;
        let mut shifted = a;
        let mut bit = 0;
        while bit < 8 {
            if (b >> bit) & 1 == 1 {
                product ^= shifted;
            }
            let carry = shifted >> 7;
            shifted <<= 1;
            if carry == 1 {
                shifted ^= 0x1B;
            }
            bit += 1;
        }
        product
    }

    /// The inverse of a byte that is not 0: its power 254.
    pub const fn inverse(a: u8) -> u8 {
        let mut power = 1;
        let mut count = 0;
        while count < 254 {
            power = mul(power, a);
            count += 1;
        }
        power
    }

    polynomials!(u8);
}

#[cfg(test)]
mod tests {
    use super::{amount, byte};

    #[test]
    fn products_of_amounts_are_remainders() {
        let p = amount::P;
        assert_eq!(amount::mul(p - 1, p - 1), 1);
        let mut a = 1;
        let mut b = p - 1;
        for _ in 0..10_000 {
            let remainder = (a as u128 * b as u128 % p as u128) as u64;
            assert_eq!(amount::mul(a, b), remainder);
            (a, b) = (b, amount::add(remainder, 0x0123_4567_89AB_CDEF));
        }
    }

    #[test]
    fn inverses() {
        for a in 1..=9 {
            assert_eq!(amount::mul(a, amount::inverse(a)), 1);
        }
        for a in 1..=255 {
            assert_eq!(byte::mul(a, byte::inverse(a)), 1);
        }
    }

    #[test]
    fn products_of_fips_197() {
        assert_eq!(byte::mul(0x57, 0x83), 0xC1);
        assert_eq!(byte::mul(0x57, 0x13), 0xFE);
        assert_eq!(byte::mul(0x57, 0x02), 0xAE);
        assert_eq!(byte::mul(0x57, 0x04), 0x47);
        assert_eq!(byte::mul(0x57, 0x08), 0x8E);
        assert_eq!(byte::mul(0x57, 0x10), 0x07);
    }

    #[test]
    fn lines_of_the_paper() {
        let p = amount::P;
        let five: Vec<u64> = (1..=5).map(|x| amount::share(7, &[3, 2], x)).collect();
        assert_eq!(five, [12, 21, 34, 51, 72]);
        let all = [1, 2, 3, 4, 5];
        assert_eq!(amount::open(&all, &five, 2), Some(7));
        assert_eq!(amount::open(&all, &[12, 21, 34, 51, 73], 2), None);
        // Without the last there is nothing wrong, and any three are enough.
        assert_eq!(amount::open(&all[..4], &[12, 21, 34, 51], 2), Some(7));
        assert_eq!(amount::open(&[1, 3, 5], &[12, 34, 72], 2), Some(7));
        // Three words open whatever they are.
        assert_eq!(amount::open(&[1, 3, 5], &[12, 34, 80], 2), Some(10));
        let three: Vec<u64> = (1..=3).map(|x| amount::share(0, &[p - 1], x)).collect();
        assert_eq!(three, [p - 1, p - 2, p - 3]);
        let bytes: Vec<u8> = (1..=3).map(|x| byte::share(1, &[0x80], x)).collect();
        assert_eq!(bytes, [0x81, 0x1A, 0x9A]);
        assert_eq!(byte::open(&[1, 2, 3], &bytes, 1), Some(1));
        assert_eq!(byte::open(&[2, 3], &bytes[1..], 1), Some(1));
    }

    /// Every set of at least so many points from 1 to `n`.
    fn sets(n: usize, least: usize) -> Vec<Vec<usize>> {
        let set = |bits: usize| -> Vec<usize> {
            let chosen = |point: &usize| bits >> (point - 1) & 1 == 1;
            (1..=n).filter(chosen).collect()
        };
        let all = (0..1 << n).map(set);
        all.filter(|points| points.len() >= least).collect()
    }

    /// Any t + 1 words or more open to the secret. One that is altered is noticed
    /// where there is one more, and else opens to something else.
    #[test]
    fn any_points_and_any_one_altered_word() {
        for n in 3..=9_usize {
            let t = (n - 1) / 2;
            let bytes: Vec<u8> = (0..t).map(|i| 0x35 + 7 * i as u8).collect();
            let amounts: Vec<u64> = (0..t).map(|i| amount::P - 5 - 9 * i as u64).collect();
            for points in sets(n, t + 1) {
                let shares = points.iter().map(|&x| byte::share(0xA7, &bytes, x as u8));
                let mut words: Vec<u8> = shares.collect();
                assert_eq!(byte::open(&points, &words, t), Some(0xA7));
                for place in 0..words.len() {
                    words[place] ^= 0x40;
                    let opened = byte::open(&points, &words, t);
                    assert_eq!(opened.is_none(), points.len() > t + 1);
                    assert_ne!(opened, Some(0xA7));
                    words[place] ^= 0x40;
                }

                let shares = points.iter().map(|&x| amount::share(7, &amounts, x as u64));
                let mut words: Vec<u64> = shares.collect();
                assert_eq!(amount::open(&points, &words, t), Some(7));
                for place in 0..words.len() {
                    words[place] = amount::add(words[place], 1);
                    let opened = amount::open(&points, &words, t);
                    assert_eq!(opened.is_none(), points.len() > t + 1);
                    assert_ne!(opened, Some(7));
                    words[place] = amount::sub(words[place], 1);
                }
            }
        }
    }

    /// The weights of the first parties are read and those of others made: in
    /// another order of the points, the words open to the same.
    #[test]
    fn the_order_of_the_points_does_not_matter() {
        // Values of a polynomial of degree 5, which is above every t.
        let word = |x: &usize| amount::share(3, &[0, 0, 0, 0, amount::P / 7], *x as u64);
        for n in 3..=9_usize {
            let t = (n - 1) / 2;
            for mut points in sets(n, t + 1) {
                let words: Vec<u64> = points.iter().map(word).collect();
                let opened = amount::open(&points, &words, t);
                assert_eq!(opened.is_none(), points.len() > t + 1);
                points.reverse();
                let words: Vec<u64> = points.iter().map(word).collect();
                assert_eq!(amount::open(&points, &words, t), opened);
            }
        }
    }
}
