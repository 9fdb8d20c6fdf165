//! The settlement page: what every bidder wanted and got at the price, as lines for a
//! board.

use std::fmt;

use crate::refusal::{result, Refusal};
use crate::{words, LINE_LEN, MAX_AMOUNT, MAX_BIDS, SETTLEMENT_LEN};

/// What every bidder wanted and got at the price, buying and selling: the amounts of a
/// [settlement page](crate::callers#the-settlement-page), which show every bidder's amounts.
/// They are in range from the first on, so that every settlement has a page at every
/// price.
///
/// ```
/// use clockivy::{Line, Refusal, Settlement, Side};
///
/// # fn main() -> Result<(), Refusal> {
/// // A buyer of 30.0 hours gets 12.5, at 110 pence an hour; whoever sells sells all.
/// let mut settlement = Settlement::new();
/// settlement.set(Line { bidder: 640, side: Side::Sell, wanted: 125, got: 125 })?;
/// settlement.set(Line { bidder: 1, side: Side::Buy, wanted: 300, got: 125 })?;
/// let page = settlement.write(110)?;
/// assert_eq!(
///     String::from_utf8_lossy(&page),
///     concat!(
///         "   1   buy        30.0        12.5                    1375 0\n",
///         " 640  sell        12.5        12.5                    1375 0\n",
///     )
/// );
///
/// // At the same price the page gives the same back, and at another one nothing.
/// assert_eq!(Settlement::read(110, &page)?, settlement);
/// assert_eq!(Settlement::read(120, &page), Err(Refusal::Malformed));
/// # Ok(())
/// # }
/// ```
///
/// Amounts that were not judged do not compile:
///
/// ```compile_fail,E0451
/// # use clockivy::{Settlement, SETTLEMENT_LEN};
/// let settlement = Settlement { amounts: Box::new([7; SETTLEMENT_LEN]) };
/// ```
#[derive(Clone, PartialEq, Eq)]
pub struct Settlement {
    /// For each bidder in turn: wanted and got, buying and then selling.
    amounts: Box<[u64; SETTLEMENT_LEN]>,
}

/// A side of the auction.
#[derive(Clone, Copy, Debug, PartialEq, Eq, Hash)]
pub enum Side {
    /// Hours that a bidder buys.
    Buy,
    /// Hours that it sells.
    Sell,
}

/// What a line of the page shows beside the pence.
#[derive(Clone, Copy, Debug, PartialEq, Eq)]
pub struct Line {
    /// The bidder's number, 1 to 1,000.
    pub bidder: u64,
    /// Whether it buys or sells.
    pub side: Side,
    /// What it wants at the price, in tenths of an hour.
    pub wanted: u64,
    /// What it gets of that. A seller gets to sell all.
    pub got: u64,
}

impl Settlement {
    /// That of nobody: no line.
    pub fn new() -> Settlement {
        Settlement {
            amounts: Box::new([0; SETTLEMENT_LEN]),
        }
    }

    /// Puts a line in, in place of the one that this bidder has on this side. One
    /// that wants 0 is left out of the page.
    ///
    /// Refused: [`OutOfRange`](Refusal::OutOfRange) where the bidder's number is none,
    /// [`AmountTooLarge`](Refusal::AmountTooLarge) where it got more than it wanted,
    /// too.
    pub fn set(&mut self, line: Line) -> Result<(), Refusal> {
        let place = place(line.bidder, line.side).ok_or(Refusal::OutOfRange)?;
        if line.wanted > MAX_AMOUNT || line.got > line.wanted {
            return Err(Refusal::AmountTooLarge);
        }
        self.amounts[place] = line.wanted;
        self.amounts[place + 1] = line.got;
        Ok(())
    }

    /// The line of a bidder on a side, where it has one. Any number may be asked
    /// about.
    pub fn line(&self, bidder: u64, side: Side) -> Option<Line> {
        let place = place(bidder, side)?;
        let [wanted, got] = [self.amounts[place], self.amounts[place + 1]];
        (wanted > 0).then_some(Line {
            bidder,
            side,
            wanted,
            got,
        })
    }

    /// All lines, in the order of the page: by bidder, buy before sell.
    pub fn lines(&self) -> impl Iterator<Item = Line> + '_ {
        let sides = [Side::Buy, Side::Sell];
        (1..=MAX_BIDS)
            .flat_map(move |bidder| sides.map(|side| self.line(bidder, side)))
            .flatten()
    }

    /// The bytes of the page: [`LINE_LEN`] for each line.
    pub fn page_len(&self) -> usize {
        LINE_LEN * self.lines().count()
    }

    /// The page at this price, in pence an hour.
    ///
    /// Refused: [`OutOfRange`](Refusal::OutOfRange) where the price is outside 1 to
    /// [`HIGHEST_PRICE`](crate::HIGHEST_PRICE).
    pub fn write(&self, price: u64) -> Result<Vec<u8>, Refusal> {
        let mut page = vec![0; self.page_len()];
        self.write_into(price, &mut page)?;
        Ok(page)
    }

    /// Writes the page at this price to the start of `page`, and gives its length.
    /// What `page` holds past it stays.
    ///
    /// Refused: [`OutOfRange`](Refusal::OutOfRange) for the price,
    /// [`PageTooShort`](Refusal::PageTooShort) where `page` has fewer than
    /// [`page_len`](Settlement::page_len) bytes. A refusal changes nothing.
    pub fn write_into(&self, price: u64, page: &mut [u8]) -> Result<usize, Refusal> {
        let mut written = 0;
        let reply = words::settlement_write(price, &self.amounts[..], page, &mut written);
        result(reply)?;
        Ok(written as usize)
    }

    /// The settlement whose page at this price these bytes are, all of them. That is
    /// all it tells: not that these are the amounts that were bid, or what an auction
    /// gave.
    ///
    /// Refused: [`OutOfRange`](Refusal::OutOfRange) for the price,
    /// [`Malformed`](Refusal::Malformed) where there is none.
    pub fn read(price: u64, page: &[u8]) -> Result<Settlement, Refusal> {
        let mut settlement = Settlement::new();
        result(words::settlement_read(
            price,
            page,
            &mut settlement.amounts[..],
        ))?;
        Ok(settlement)
    }
}

impl Default for Settlement {
    fn default() -> Settlement {
        Settlement::new()
    }
}

/// Shows how many lines there are. What they hold is for those who may see the page.
impl fmt::Debug for Settlement {
    fn fmt(&self, f: &mut fmt::Formatter<'_>) -> fmt::Result {
        f.debug_struct("Settlement")
            .field("lines", &self.lines().count())
            .finish_non_exhaustive()
    }
}

/// Where the amounts have what a bidder wanted on a side; what it got is next.
fn place(bidder: u64, side: Side) -> Option<usize> {
    let is_bidder = (1..=MAX_BIDS).contains(&bidder);
    is_bidder.then(|| 4 * (bidder as usize - 1) + 2 * side as usize)
}
