//! What an auction comes to: the price, the totals there, and what each buyer gets by
//! them.

use std::num::NonZeroU64;

use crate::record::Record;
use crate::refusal::{result, Refusal};
use crate::{words, Way, OVER_ROUND, PAIRS_LEN, RECORD_LEN, ROLL_LEN};

/// What an auction comes to. The highest index at which total demand is at least total
/// supply is in the record, as [`first`](Record::first).
#[derive(Clone, Copy, Debug, PartialEq, Eq)]
#[non_exhaustive]
pub enum Outcome {
    /// There is a price.
    Price {
        /// Its index, from 1 on: the middle of those at which total demand equals total
        /// supply, rounded down, or, where there are none, the highest at which demand
        /// is above supply. [`Outcome::price_in`] looks it up.
        index: NonZeroU64,
        /// The number of probes made, of both searches.
        probes: u64,
        /// The totals there, by which every fleet works out its own hours.
        cleared: Cleared,
    },
    /// There is none: at every listed price more is for sale than wanted.
    NoPrice {
        /// The number of probes made.
        probes: u64,
    },
}

impl Outcome {
    /// The price itself, in the list of prices; nothing where there is none, or where
    /// the list is not that long.
    ///
    /// ```
    /// # use std::num::NonZeroU64;
    /// # use clockivy::{Cleared, Outcome, Refusal};
    /// # fn main() -> Result<(), Refusal> {
    /// # let (index, probes) = (NonZeroU64::MIN.saturating_add(1), 4);
    /// # let cleared = Cleared::new(20, 15)?;
    /// // Price 2 of the list clears.
    /// let outcome = Outcome::Price { index, probes, cleared };
    /// assert_eq!(outcome.price_in(&[100, 110, 120]), Some(&110));
    /// assert_eq!(Outcome::NoPrice { probes }.price_in(&[100, 110, 120]), None);
    /// # Ok(())
    /// # }
    /// ```
    pub fn price_in<'a, T>(&self, prices: &'a [T]) -> Option<&'a T> {
        match self {
            Outcome::Price { index, .. } => prices.get(index.get() as usize - 1),
            Outcome::NoPrice { .. } => None,
        }
    }

    /// What a record says, where its auction is over.
    pub(crate) fn of_record(record: &Record) -> Result<Option<Outcome>, Refusal> {
        let (mut index, mut probes) = (0, 0);
        match result(words::answer(&record.to_words(), &mut index, &mut probes)) {
            Err(Refusal::OutOfTurn) => return Ok(None),
            reply => reply?,
        }
        let cleared = Cleared {
            demand: record.demand,
            supply: record.supply,
        };
        Ok(Some(match NonZeroU64::new(index) {
            Some(index) => Outcome::Price {
                index,
                probes,
                cleared,
            },
            None => Outcome::NoPrice { probes },
        }))
    }
}

/// Total demand and total supply at the price of an auction that is over. It comes
/// with the [`Outcome`], and of [`Cleared::new`] for whoever was told the two: it holds
/// nothing else, and nothing that is secret. See
/// [hours at the price](crate::callers#hours-at-the-price).
///
/// ```
/// use clockivy::{Cleared, Fill, Refusal};
///
/// # fn main() -> Result<(), Refusal> {
/// // 2.0 hours are wanted at the price and 1.5 offered. Two fleets buy.
/// let cleared = Cleared::new(20, 15)?;
/// assert_eq!(cleared.fill(13)?, Fill { tenths: 9, remainder: 15 });
/// assert_eq!(cleared.fill(7)?, Fill { tenths: 5, remainder: 5 });
///
/// // One tenth is left over, and the remainders account for it.
/// assert_eq!((9 + 5) * 20 + (15 + 5), 20 * 15);
/// # Ok(())
/// # }
/// ```
///
/// Totals that were not judged do not compile:
///
/// ```compile_fail,E0451
/// # use clockivy::Cleared;
/// let cleared = Cleared { demand: 14, supply: 15 };
/// # let filled = cleared.fill(7);
/// ```
///
/// Nor does a fill by a session, which may not be over:
///
/// ```compile_fail,E0599
/// # use clockivy::{Collecting, Refusal, Seat, Sheets, Way};
/// # let seat = Seat { n: 3, own: 1, k: 1, way: Way::Rounds33 };
/// # let sheets = Sheets::blank(1, Way::Rounds33);
/// let speaking = Collecting::open(seat)?.speak(sheets);
/// let filled = speaking.fill(7);
/// # Ok::<(), Refusal>(())
/// ```
#[derive(Clone, Copy, Debug, PartialEq, Eq)]
pub struct Cleared {
    demand: u64,
    supply: u64,
}

/// What a buyer gets at the price. With the totals it tells what the buyer wants, and
/// is as secret as that.
#[derive(Clone, Copy, Debug, PartialEq, Eq)]
pub struct Fill {
    /// What it gets, in tenths of an hour: what it wants times total supply, divided
    /// by total demand and rounded down.
    pub tenths: u64,
    /// What that division leaves, below total demand.
    pub remainder: u64,
}

impl Cleared {
    /// The totals of an auction that is over with a price, by somebody who was told
    /// them.
    ///
    /// Refused: [`OutOfRange`](Refusal::OutOfRange) where one is 2^32 or more, or
    /// supply is above demand.
    pub fn new(demand: u64, supply: u64) -> Result<Cleared, Refusal> {
        let cleared = Cleared { demand, supply };
        cleared.fill(0)?;
        Ok(cleared)
    }

    /// Total demand at the price, in tenths of an hour.
    pub fn demand(&self) -> u64 {
        self.demand
    }

    /// Total supply at the price, in tenths of an hour: at most total demand.
    pub fn supply(&self) -> u64 {
        self.supply
    }

    /// What a buyer gets that wants this amount at the price: the amount in its
    /// table, at the price's index, in the half of the demand. A seller sells all
    /// that its table offers there, and has nothing to ask.
    ///
    /// Any amount may be asked about. This does not know what was bid.
    ///
    /// Refused: [`AmountTooLarge`](Refusal::AmountTooLarge).
    pub fn fill(&self, amount: u64) -> Result<Fill, Refusal> {
        let (mut tenths, mut remainder) = (0, 0);
        result(words::fill(
            &self.record(),
            amount,
            &mut tenths,
            &mut remainder,
        ))?;
        Ok(Fill { tenths, remainder })
    }

    /// The record of an auction of one price that is over with these totals. Of a
    /// record with a price, a fill depends on the totals alone.
    fn record(&self) -> [u64; RECORD_LEN] {
        Record {
            n: 3,
            own: 1,
            k: 1,
            bids: 0,
            lo: 0,
            hi: 1,
            probes: 2,
            round: OVER_ROUND,
            sum: 0,
            carry: 0,
            roll: [0; ROLL_LEN],
            search: 2,
            first: 1,
            first_probes: 1,
            demand: self.demand,
            supply: self.supply,
            last: Way::Rounds33.rounds(),
            pairs: [0; PAIRS_LEN],
        }
        .to_words()
    }
}
