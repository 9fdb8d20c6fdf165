//! The dealer's work: new coins for each probe, used for every party and gone before
//! those of the next probe are drawn.

use std::fmt;

use crate::refusal::{check_library, Refusal};
use crate::secret::Secret;
use crate::source::Source;
use crate::{
    deal, deal_bytes_len, deal_words_len, sheet_count, Seat, Sheets, Way, BLANK, MASK_LIMIT,
    MAX_PRICES, PARTIES, PRIME,
};

/// The sheets of all parties, for every probe that the two searches may make: the
/// dealer's counterpart of [`Entries`](crate::Entries). The coins of a probe are drawn
/// from a source, used for all n parties and overwritten. See
/// [sheets](crate::callers#sheets).
///
/// ```
/// use clockivy::{sheets_len, Dealing, System, Way};
///
/// # fn main() -> Result<(), clockivy::Refusal> {
/// let (n, k, way) = (5, 8, Way::Rounds33);
/// let sheets = Dealing::new(n, k, way, &mut System)?.deal_all()?;
/// assert_eq!(sheets.len(), 5);
/// // What party 1 is sent, and nobody else sees.
/// assert_eq!(sheets[0].words().len(), sheets_len(k, way));
/// # Ok(())
/// # }
/// ```
#[must_use = "nothing is dealt before it is asked for"]
pub struct Dealing<'a, S> {
    n: u64,
    k: u64,
    way: Way,
    source: &'a mut S,
}

impl<'a, S: Source> Dealing<'a, S> {
    /// The dealing of an auction of `n` parties and `k` listed prices. Nothing is
    /// drawn yet.
    ///
    /// Refused: [`OutOfRange`](Refusal::OutOfRange).
    ///
    /// # Panics
    ///
    /// Where the library that was linked is of another [version](crate::VERSION).
    pub fn new(n: u64, k: u64, way: Way, source: &'a mut S) -> Result<Dealing<'a, S>, Refusal> {
        check_library();
        if !PARTIES.contains(&n) || !(1..=MAX_PRICES).contains(&k) {
            return Err(Refusal::OutOfRange);
        }
        Ok(Dealing { n, k, way, source })
    }

    /// Draws and deals for all probes: the sheets of party 1, then those of party 2,
    /// and so on.
    ///
    /// Refused: [`CoinOutOfRange`](Refusal::CoinOutOfRange) where the source has no
    /// bits, and where all that it gave for a probe was 0: that was not drawn.
    pub fn deal_all(self) -> Result<Vec<Sheets>, Refusal> {
        let Dealing { n, k, way, source } = self;
        let mut sheets: Vec<Sheets> = (0..n).map(|_| Sheets::blank(k, way)).collect();
        for place in 0..sheet_count(k) {
            let coins = Coins::draw(n, way, source)?;
            for (own, sheets) in (1..).zip(&mut sheets) {
                let seat = Seat { n, own, k, way };
                let sheet = sheets.nth_mut(place, way).unwrap_or_default();
                deal(seat, &coins.words, &coins.bytes, sheet)?;
            }
        }
        Ok(sheets)
    }
}

/// What the dealer draws for one probe.
struct Coins {
    /// The mask and its coefficients.
    words: Secret<u64>,
    /// The coefficients of the shared bytes, and the factors of the products.
    bytes: Secret<u8>,
}

impl Coins {
    fn draw(n: u64, way: Way, source: &mut impl Source) -> Result<Coins, Refusal> {
        let mut coins = Coins {
            words: Secret::filled(BLANK, deal_words_len(n)),
            bytes: Secret::filled(0, deal_bytes_len(n, way)),
        };
        coins.fill(source).ok_or(Refusal::CoinOutOfRange)?;
        Ok(coins)
    }

    /// Draws all of them. Nothing is left where the source has no more.
    fn fill(&mut self, source: &mut impl Source) -> Option<()> {
        let (mask, coefficients) = self.words.split_first_mut()?;
        *mask = source.below(MASK_LIMIT)?;
        for coefficient in coefficients {
            *coefficient = source.below(PRIME)?;
        }
        for bytes in self.bytes.chunks_mut(8) {
            bytes.copy_from_slice(&source.bits()?.to_ne_bytes()[..bytes.len()]);
        }
        Some(())
    }
}

/// Shows what is dealt for. The source is secret.
impl<S> fmt::Debug for Dealing<'_, S> {
    fn fmt(&self, f: &mut fmt::Formatter<'_>) -> fmt::Result {
        f.debug_struct("Dealing")
            .field("n", &self.n)
            .field("k", &self.k)
            .field("way", &self.way)
            .finish_non_exhaustive()
    }
}
