//! A record's roll by bidders, the index that it is about, what a message of its round
//! is, and how far it has come.

use clockivy::words::place::{FIRST, HI, LAST, LO, ROLL, ROUND, SEARCH};
use clockivy_reference::{
    message_len, DEMAND_ROUND, MAX_BIDS, NO_MORE_ROUNDS, ROUNDS_7, SECOND_SEARCH, SUPPLY_ROUND,
};

/// The numbers that have a place on the roll and are no bidder's: 0, and those
/// past the last bidder's.
pub const NOBODY: [u64; 24] = {
    let mut numbers = [0; 24];
    let mut place = 1;
    while place < numbers.len() {
        numbers[place] = MAX_BIDS + place as u64;
        place += 1;
    }
    numbers
};

/// Whether a number that has a place on the roll is marked there.
pub fn has_bid(record: &[u64], bidder: u64) -> bool {
    record[ROLL + bidder as usize / 64] >> (bidder % 64) & 1 == 1
}

/// Marks a number that has a place on the roll.
pub fn mark(record: &mut [u64], bidder: u64) {
    record[ROLL + bidder as usize / 64] |= 1 << (bidder % 64);
}

/// Takes the mark of a number that has a place on the roll away.
pub fn unmark(record: &mut [u64], bidder: u64) {
    record[ROLL + bidder as usize / 64] &= !(1 << (bidder % 64));
}

/// The number of marks on the roll.
pub fn marks(record: &[u64]) -> u64 {
    let roll = &record[ROLL..SEARCH];
    roll.iter().map(|word| u64::from(word.count_ones())).sum()
}

/// The probed index or, once the totals are opened, that of the price.
pub fn index(record: &[u64]) -> usize {
    let [lo, hi, first] = [LO, HI, FIRST].map(|place| record[place]);
    let index = match record[ROUND] {
        ..DEMAND_ROUND => lo.midpoint(hi),
        _ if hi <= first => first.midpoint(hi),
        _ => first,
    };
    index as usize
}

/// The place in [`WAYS`](clockivy_reference::WAYS) of the way of a record: the first
/// where it is another.
pub fn way(record: &[u64]) -> usize {
    usize::from(record[LAST] == ROUNDS_7)
}

/// The words of a message.
pub fn width(record: &[u64]) -> usize {
    message_len(record[LAST], record[ROUND])
}

/// Whether its one word is a share of an amount.
pub fn is_of_amounts(record: &[u64]) -> bool {
    [1, DEMAND_ROUND, SUPPLY_ROUND].contains(&record[ROUND])
}

/// Whether its one word is a share of the verdict.
pub fn is_of_a_verdict(record: &[u64]) -> bool {
    record[ROUND] == record[LAST]
}

/// Whether its words are those of a level, in which pairs are merged.
pub fn is_of_a_level(record: &[u64]) -> bool {
    record[LAST] == ROUNDS_7 && (2..ROUNDS_7).contains(&record[ROUND])
}

/// Whether the second search has ended.
pub fn has_searched(record: &[u64]) -> bool {
    record[SEARCH] == SECOND_SEARCH && record[HI].checked_sub(record[LO]) == Some(1)
}

/// Whether the searches have ended with a price: then the totals are opened.
pub fn has_cleared(record: &[u64]) -> bool {
    // Where the first search has found an index, so does the second, or it leaves
    // that of the first.
    has_searched(record) && record[FIRST] > 0
}

/// Whether nothing is left to say.
pub fn is_over(record: &[u64]) -> bool {
    if has_cleared(record) {
        record[ROUND] == NO_MORE_ROUNDS
    } else {
        has_searched(record)
    }
}
