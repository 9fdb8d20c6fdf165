//! A bid split entry by entry. The coins of an entry are drawn, used for every
//! party and gone before those of the next are drawn: none serve two entries,
//! and all parties' shares of an entry come from the same.

use std::fmt;
use std::iter::FusedIterator;

use crate::refusal::{check_library, Refusal};
use crate::secret::Secret;
use crate::source::Source;
use crate::{split_entry, table_len, threshold, Seat, Way, BLANK, MAX_PRICES, PARTIES, PRIME};

/// The entries of a bid, written one after the other for all parties, with t
/// new coins for each: so t coins are held at a time, where
/// [`split`](crate::split) is lent all 2kt. What is written is the same. It is
/// the coins that are fewer: the shares of all parties are lent together, 2kn
/// words, 18,432 for the largest bid, and a desk that is short of room goes by
/// [`split_entry`]. See [a bid entry by entry](crate::callers#a-bid-entry-by-entry).
///
/// ```
/// use clockivy::{Entries, System, BLANK};
///
/// # fn main() -> Result<(), clockivy::Refusal> {
/// // Three parties and two listed prices: what each party is sent.
/// let (n, k, table) = (3, 2, [5, 2, 1, 4]);
/// let mut shares = [[BLANK; 4]; 3];
/// Entries::new(n, k, &table, shares.as_flattened_mut(), &mut System)?.write_all()?;
/// # Ok(())
/// # }
/// ```
///
/// [`write_all`](Entries::write_all) writes the whole bid. As an iterator,
/// `Entries` writes an entry for each item, and the item is the entry's number,
/// 1 to 2k in turn. An entry that is refused is the last item, and leaves all shares
/// blank, so that nobody can add them. While `Entries` lives, nobody reads the shares;
/// this does not compile:
///
/// ```compile_fail,E0502
/// # use clockivy::Entries;
/// # let (mut shares, mut source) = ([0; 6], || Some(7));
/// let mut entries = Entries::new(3, 1, &[5, 3], &mut shares, &mut source)?;
/// entries.next();
/// let sent = shares.to_vec();
/// entries.next();
/// # Ok::<(), clockivy::Refusal>(())
/// ```
///
/// # What remains the caller's
///
/// * **The source.** It draws coins below [`PRIME`], uniform and independent of all
///   others. One that repeats itself, within a bid or from one bid to another,
///   [gives bids away](crate::callers#four-uses-that-give-bids-away), and nothing
///   here can tell. One that has no bits is refused, and so is one that gave zeros
///   for a whole bid: those were not drawn.
/// * **The end.** Shares are whole once every entry is written. Hand out none
///   before, and none of a splitting that was refused, or that was left for
///   another one with new coins.
///
/// The coins of an entry are overwritten once they are used, as far as safe Rust
/// can see to that, and what the source keeps is its own.
#[must_use = "no entry is written before it is asked for"]
pub struct Entries<'a, S> {
    n: u64,
    k: u64,
    table: &'a [u64],
    shares: &'a mut [u64],
    source: &'a mut S,
    /// The entries from 1 on that are written.
    written: u64,
    /// Whether any coin so far was another number than 0.
    drawn: bool,
    refused: Option<Refusal>,
}

impl<'a, S: Source> Entries<'a, S> {
    /// The entries of a bid among `n` parties. `table` is demand at prices 1 to
    /// k, then supply; `shares` are those of all parties, party 1's 2k words
    /// first; `source` gives coins. Nothing is drawn yet, and the table is judged
    /// with each entry.
    ///
    /// The shares are filled with [`BLANK`], which is no share: what they held
    /// is gone, and where a place is not written, adding them is
    /// [`ShareOutOfRange`](Refusal::ShareOutOfRange). A refusal changes nothing.
    ///
    /// Refused: [`OutOfRange`](Refusal::OutOfRange),
    /// [`WrongLength`](Refusal::WrongLength) where `table` has not 2k words or
    /// `shares` not n times as many.
    ///
    /// # Panics
    ///
    /// Where the library that was linked is of another [version](crate::VERSION).
    pub fn new(
        n: u64,
        k: u64,
        table: &'a [u64],
        shares: &'a mut [u64],
        source: &'a mut S,
    ) -> Result<Entries<'a, S>, Refusal> {
        check_library();
        if !PARTIES.contains(&n) || !(1..=MAX_PRICES).contains(&k) {
            return Err(Refusal::OutOfRange);
        }
        if table.len() != table_len(k) || shares.len() != n as usize * table_len(k) {
            return Err(Refusal::WrongLength);
        }
        shares.fill(BLANK);
        Ok(Entries {
            n,
            k,
            table,
            shares,
            source,
            written: 0,
            drawn: false,
            refused: None,
        })
    }

    /// Writes all entries that are not written yet. Done, the shares are whole.
    ///
    /// Refused: [`CoinOutOfRange`](Refusal::CoinOutOfRange),
    /// [`AmountTooLarge`](Refusal::AmountTooLarge),
    /// [`NotMonotone`](Refusal::NotMonotone); also where an entry was refused
    /// before.
    pub fn write_all(mut self) -> Result<(), Refusal> {
        self.by_ref().for_each(drop);
        self.refused.map_or(Ok(()), Err)
    }

    /// Draws the coins of an entry and writes it for every party. What may be
    /// refused here is the same for all of them, so that it is refused for the first
    /// or for none.
    fn write(&mut self, entry: u64) -> Result<(), Refusal> {
        // To a bid the way makes no difference.
        let (n, k, way) = (self.n, self.k, Way::Rounds33);
        let coins = self.draw().ok_or(Refusal::CoinOutOfRange)?;
        self.drawn |= coins.iter().any(|&coin| coin != 0);
        if entry as usize == table_len(k) && !self.drawn {
            return Err(Refusal::CoinOutOfRange);
        }
        let shares = self.shares.chunks_exact_mut(table_len(k));
        (1..).zip(shares).try_for_each(|(own, shares)| {
            split_entry(Seat { n, own, k, way }, entry, self.table, &coins, shares)
        })
    }

    /// The t coins of an entry, where the source has so many.
    fn draw(&mut self) -> Option<Secret<u64>> {
        let mut coins = Secret::filled(BLANK, threshold(self.n));
        for coin in coins.iter_mut() {
            *coin = self.source.below(PRIME)?;
        }
        Some(coins)
    }
}

impl<S> Entries<'_, S> {
    /// The most items that are to come.
    fn left(&self) -> usize {
        match self.refused {
            Some(_) => 0,
            None => table_len(self.k) - self.written as usize,
        }
    }
}

impl<S: Source> Iterator for Entries<'_, S> {
    type Item = Result<u64, Refusal>;

    /// Draws t coins and writes the next entry for every party.
    fn next(&mut self) -> Option<Result<u64, Refusal>> {
        if self.left() == 0 {
            return None;
        }
        let entry = self.written + 1;
        let outcome = self.write(entry);
        match outcome {
            Ok(()) => self.written = entry,
            Err(refusal) => {
                self.refused = Some(refusal);
                self.shares.fill(BLANK);
            }
        }
        Some(outcome.map(|()| entry))
    }

    /// One item at least, where any is to come: it may be a refusal, and then
    /// the last.
    fn size_hint(&self) -> (usize, Option<usize>) {
        let left = self.left();
        (left.min(1), Some(left))
    }
}

impl<S: Source> FusedIterator for Entries<'_, S> {}

/// Shows how far it has come. The table, the shares and the source are secret.
impl<S> fmt::Debug for Entries<'_, S> {
    fn fmt(&self, f: &mut fmt::Formatter<'_>) -> fmt::Result {
        f.debug_struct("Entries")
            .field("n", &self.n)
            .field("k", &self.k)
            .field("written", &self.written)
            .field("refused", &self.refused)
            .finish_non_exhaustive()
    }
}
