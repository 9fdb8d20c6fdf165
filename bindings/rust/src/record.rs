use std::fmt;

use crate::refusal::{result, Refusal};
use crate::words::place;
use crate::{Way, DEMAND_ROUND, PAIRS_LEN, RECORD_LEN, ROLL_LEN};

/// Where a party stands in an auction, for reading: a session shows its record
/// and keeps it.
///
/// What stands here is no secret among the parties, and before they speak they compare
/// their rolls, which have to be the same. The record's words have more, which a
/// session shows to nobody: the opened sum of the probe, which the dealer must not see,
/// and this party's shares of the carry and of pairs. All are 0 again when the auction
/// is over.
///
/// What `lo` and `hi` tell depends on which of [the two
/// searches](crate::callers#the-two-searches) is on. A probe's verdict can be read off
/// the record that its last round leaves. In the first search it is 1 where `lo` is
/// the probed index now or, if that probe has ended the search, where `first`
/// is; in the second, where `hi` is.
#[derive(PartialEq, Eq)]
#[non_exhaustive]
pub struct Record {
    /// The number of parties, 3 to 9.
    pub n: u64,
    /// This party's number, 1 to `n`.
    pub own: u64,
    /// The number of listed prices, 1 to 1,024.
    pub k: u64,
    /// Bids added: the number of marks on the roll, at most 1,000.
    pub bids: u64,
    /// In the first search the highest index known to have demand at least
    /// supply, in the second the highest known to have less supply than demand;
    /// or 0.
    pub lo: u64,
    /// In the first search the lowest index known to have less demand than
    /// supply, or `k` + 1; in the second the lowest known to have supply at
    /// least demand, or `first` + 1.
    pub hi: u64,
    /// Probes done, of both searches.
    pub probes: u64,
    /// The round to be said and heard next: 1 to `last` in a probe, then, where the
    /// searches have ended with a price, [34](crate::DEMAND_ROUND) and
    /// [35](crate::SUPPLY_ROUND), and [36](crate::OVER_ROUND) when it is over.
    pub round: u64,
    /// The opened sum of this probe's round 1, else 0.
    pub(crate) sum: u64,
    /// This party's share of the carry, else 0: on the way of 33 rounds.
    pub(crate) carry: u64,
    /// Who is in: bidder b is bit b % 64 of word b / 64, the lowest being bit
    /// 0. See [`has_bid`](Record::has_bid).
    pub roll: [u64; ROLL_LEN],
    /// Which search is on: 1 or 2.
    pub search: u64,
    /// What the first search gave: the highest index at which demand is at
    /// least supply, or 0 where there is none. It is 0 until that search ends.
    pub first: u64,
    /// The probes of the first search; 0 until it ends.
    pub first_probes: u64,
    /// Total demand at the price; 0 until round 34 opens it.
    pub demand: u64,
    /// Total supply at the price, at most `demand`; 0 until round 35 opens it.
    pub supply: u64,
    /// The last round of a probe, 33 or 7. See [`way`](Record::way).
    pub last: u64,
    /// This party's shares of pairs, and zeros behind them: on the way of 7 rounds.
    pub(crate) pairs: [u64; PAIRS_LEN],
}

impl Record {
    /// In how many rounds a probe comes to its verdict. There is no way where `last` is
    /// out of range, and then every call refuses the record.
    pub fn way(&self) -> Option<Way> {
        Way::from_rounds(self.last)
    }

    /// Whether the roll marks this bidder. Any number may be asked about.
    pub fn has_bid(&self, bidder: u64) -> bool {
        let word = self.roll.get((bidder / 64) as usize);
        word.is_some_and(|word| word >> (bidder % 64) & 1 == 1)
    }

    /// The index that the current round is about: the probed one or, once the searches
    /// have ended, that of the price, and 0 where there is none.
    pub(crate) fn index(&self) -> u64 {
        match self.round {
            ..DEMAND_ROUND => self.lo.midpoint(self.hi),
            _ if self.hi <= self.first => self.first.midpoint(self.hi),
            _ => self.first,
        }
    }

    /// The words of a message of the current round. Where there is no way, any number
    /// of them is refused.
    pub(crate) fn message_len(&self) -> usize {
        self.way().map_or(1, |way| way.message_len(self.round))
    }

    /// The record as words, in the order of the fields.
    pub(crate) fn to_words(&self) -> [u64; RECORD_LEN] {
        let mut words = [0; RECORD_LEN];
        let (numbers, rest) = words.split_at_mut(place::ROLL);
        let (roll, rest) = rest.split_at_mut(ROLL_LEN);
        let (others, pairs) = rest.split_at_mut(place::PAIRS - place::SEARCH);
        numbers.copy_from_slice(&[
            self.n,
            self.own,
            self.k,
            self.bids,
            self.lo,
            self.hi,
            self.probes,
            self.round,
            self.sum,
            self.carry,
        ]);
        roll.copy_from_slice(&self.roll);
        others.copy_from_slice(&[
            self.search,
            self.first,
            self.first_probes,
            self.demand,
            self.supply,
            self.last,
        ]);
        pairs.copy_from_slice(&self.pairs);
        words
    }

    /// The record of these words. Each call judges what they say.
    pub(crate) fn from_words(words: [u64; RECORD_LEN]) -> Record {
        Record {
            n: words[place::N],
            own: words[place::OWN],
            k: words[place::K],
            bids: words[place::BIDS],
            lo: words[place::LO],
            hi: words[place::HI],
            probes: words[place::PROBES],
            round: words[place::ROUND],
            sum: words[place::SUM],
            carry: words[place::CARRY],
            roll: std::array::from_fn(|offset| words[place::ROLL + offset]),
            search: words[place::SEARCH],
            first: words[place::FIRST],
            first_probes: words[place::FIRST_PROBES],
            demand: words[place::DEMAND],
            supply: words[place::SUPPLY],
            last: words[place::LAST],
            pairs: std::array::from_fn(|offset| words[place::PAIRS + offset]),
        }
    }

    /// Makes a call that steps the record. A refused one leaves it as it was.
    pub(crate) fn step(&mut self, call: impl FnOnce(&mut [u64]) -> u64) -> Result<(), Refusal> {
        let mut words = self.to_words();
        result(call(&mut words))?;
        *self = Record::from_words(words);
        Ok(())
    }
}

/// Shows neither the sum nor the shares of the carry and of pairs.
impl fmt::Debug for Record {
    fn fmt(&self, f: &mut fmt::Formatter<'_>) -> fmt::Result {
        f.debug_struct("Record")
            .field("n", &self.n)
            .field("own", &self.own)
            .field("k", &self.k)
            .field("bids", &self.bids)
            .field("lo", &self.lo)
            .field("hi", &self.hi)
            .field("probes", &self.probes)
            .field("round", &self.round)
            .field("search", &self.search)
            .field("first", &self.first)
            .field("first_probes", &self.first_probes)
            .field("demand", &self.demand)
            .field("supply", &self.supply)
            .field("last", &self.last)
            .finish_non_exhaustive()
    }
}
