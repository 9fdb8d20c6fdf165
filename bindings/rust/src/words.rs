//! The eleven calls on plain words, as the C library has them. The reply is 0,
//! or the number of the [refusal](crate::Refusal), and then nothing that was
//! lent has changed. Each call's refusals are listed in the order in which it
//! judges them. A record may have any length here; its words have [names](place).
//! Where it has not [`RECORD_LEN`](crate::RECORD_LEN) words, a call still judges
//! what needs no record, 1: the numbers of [`open`], the bidder's number of [`add`]
//! and the marks of [`hear`]. Then it is 2 before all else.
//!
//! Most callers want [`Collecting`](crate::Collecting) and what stands beside
//! it. This module serves those who keep records as words, and tests. Nothing
//! here guards against the
//! [four uses that give bids away](crate::callers#four-uses-that-give-bids-away),
//! or sees to anything else that [callers have to see to](crate::callers).
//!
//! Each function passes every slice as its pointer and its length. The library
//! asks nothing else of its caller: it reads and writes within the slices, on any
//! contents, always returns, and keeps no pointer. The borrows of one call cannot
//! overlap where one of them is written. Beside this module only
//! [`System`](crate::System) has `unsafe` in it, for one call of the C library's.

#![allow(unsafe_code)]

/// The places of a record's words. The roll has [`ROLL_LEN`](crate::ROLL_LEN) words
/// from its place on, the pairs [`PAIRS_LEN`](crate::PAIRS_LEN), and each of the others
/// one.
pub mod place {
    use crate::ROLL_LEN;

    /// The number of parties.
    pub const N: usize = 0;
    /// The party's number.
    pub const OWN: usize = 1;
    /// The number of listed prices.
    pub const K: usize = 2;
    /// Bids added.
    pub const BIDS: usize = 3;
    /// The lower end of the search that is on.
    pub const LO: usize = 4;
    /// The upper end of the search that is on.
    pub const HI: usize = 5;
    /// Probes done, of both searches.
    pub const PROBES: usize = 6;
    /// The current round.
    pub const ROUND: usize = 7;
    /// The opened sum of round 1, or 0.
    pub const SUM: usize = 8;
    /// The party's share of the carry, or 0.
    pub const CARRY: usize = 9;
    /// The first word of the roll.
    pub const ROLL: usize = 10;
    /// Which search is on.
    pub const SEARCH: usize = ROLL + ROLL_LEN;
    /// What the first search gave, or 0.
    pub const FIRST: usize = SEARCH + 1;
    /// The probes of the first search, or 0.
    pub const FIRST_PROBES: usize = SEARCH + 2;
    /// Total demand at the price, or 0.
    pub const DEMAND: usize = SEARCH + 3;
    /// Total supply at the price, or 0.
    pub const SUPPLY: usize = SEARCH + 4;
    /// The last round of a probe, 33 or 7.
    pub const LAST: usize = SEARCH + 5;
    /// The first word of the party's shares of pairs.
    pub const PAIRS: usize = LAST + 1;
}

extern "C" {
    fn clockivy_version() -> u64;
    fn clockivy_open(
        n: u64,
        own: u64,
        k: u64,
        last: u64,
        totals: *mut u64,
        totals_len: usize,
        record: *mut u64,
        record_len: usize,
    ) -> u64;
    fn clockivy_split(
        n: u64,
        own: u64,
        k: u64,
        table: *const u64,
        table_len: usize,
        coins: *const u64,
        coins_len: usize,
        shares: *mut u64,
        shares_len: usize,
    ) -> u64;
    fn clockivy_split_entry(
        n: u64,
        own: u64,
        k: u64,
        entry: u64,
        table: *const u64,
        table_len: usize,
        coins: *const u64,
        coins_len: usize,
        shares: *mut u64,
        shares_len: usize,
    ) -> u64;
    fn clockivy_deal(
        n: u64,
        own: u64,
        last: u64,
        words: *const u64,
        words_len: usize,
        bytes: *const u8,
        bytes_len: usize,
        sheet: *mut u64,
        sheet_len: usize,
    ) -> u64;
    fn clockivy_add(
        record: *mut u64,
        record_len: usize,
        totals: *mut u64,
        totals_len: usize,
        bidder: u64,
        shares: *const u64,
        shares_len: usize,
    ) -> u64;
    fn clockivy_say(
        record: *const u64,
        record_len: usize,
        totals: *const u64,
        totals_len: usize,
        sheets: *const u64,
        sheets_len: usize,
        messages: *mut u64,
        messages_len: usize,
    ) -> u64;
    fn clockivy_hear(
        record: *mut u64,
        record_len: usize,
        totals: *const u64,
        totals_len: usize,
        sheets: *const u64,
        sheets_len: usize,
        messages: *const u64,
        messages_len: usize,
        present: *const u8,
        present_len: usize,
    ) -> u64;
    fn clockivy_answer(
        record: *const u64,
        record_len: usize,
        index: *mut u64,
        probes: *mut u64,
    ) -> u64;
    fn clockivy_fill(
        record: *const u64,
        record_len: usize,
        amount: u64,
        tenths: *mut u64,
        remainder: *mut u64,
    ) -> u64;
    fn clockivy_settlement_write(
        price: u64,
        amounts: *const u64,
        amounts_len: usize,
        page: *mut u8,
        page_len: usize,
        written: *mut u64,
    ) -> u64;
    fn clockivy_settlement_read(
        price: u64,
        page: *const u8,
        page_len: usize,
        amounts: *mut u64,
        amounts_len: usize,
    ) -> u64;
}

/// The version of the library's calls and of the record's words, which is to be
/// [`VERSION`](crate::VERSION).
pub fn version() -> u64 {
    // SAFETY: see the head of this module; so for each call below.
    unsafe { clockivy_version() }
}

/// Zeroes `totals` and writes a new session's record. `last` is the last round of its
/// probes, 33 or 7. Refusals 1, 2.
pub fn open(n: u64, own: u64, k: u64, last: u64, totals: &mut [u64], record: &mut [u64]) -> u64 {
    unsafe {
        clockivy_open(
            n,
            own,
            k,
            last,
            totals.as_mut_ptr(),
            totals.len(),
            record.as_mut_ptr(),
            record.len(),
        )
    }
}

/// Writes one party's shares of a bid. Refusals 1, 2, 5, 6, 7.
pub fn split(n: u64, own: u64, k: u64, table: &[u64], coins: &[u64], shares: &mut [u64]) -> u64 {
    unsafe {
        clockivy_split(
            n,
            own,
            k,
            table.as_ptr(),
            table.len(),
            coins.as_ptr(),
            coins.len(),
            shares.as_mut_ptr(),
            shares.len(),
        )
    }
}

/// Writes one party's share of one entry of a bid, from t new coins. Refusals
/// 1, 2, 5, 6, 7.
pub fn split_entry(
    n: u64,
    own: u64,
    k: u64,
    entry: u64,
    table: &[u64],
    coins: &[u64],
    shares: &mut [u64],
) -> u64 {
    unsafe {
        clockivy_split_entry(
            n,
            own,
            k,
            entry,
            table.as_ptr(),
            table.len(),
            coins.as_ptr(),
            coins.len(),
            shares.as_mut_ptr(),
            shares.len(),
        )
    }
}

/// Writes one party's preprocessing for one probe, whose last round is `last`, 33 or 7.
/// Refusals 1, 2, 5.
pub fn deal(n: u64, own: u64, last: u64, words: &[u64], bytes: &[u8], sheet: &mut [u64]) -> u64 {
    unsafe {
        clockivy_deal(
            n,
            own,
            last,
            words.as_ptr(),
            words.len(),
            bytes.as_ptr(),
            bytes.len(),
            sheet.as_mut_ptr(),
            sheet.len(),
        )
    }
}

/// Adds a bid's shares to `totals` and marks its bidder; not after a message is
/// said. Refusals 1, 2, 3, 14, 8.
pub fn add(record: &mut [u64], totals: &mut [u64], bidder: u64, shares: &[u64]) -> u64 {
    unsafe {
        clockivy_add(
            record.as_mut_ptr(),
            record.len(),
            totals.as_mut_ptr(),
            totals.len(),
            bidder,
            shares.as_ptr(),
            shares.len(),
        )
    }
}

/// Writes the words that the party says in the current round, into as many as
/// [`Way::message_len`](crate::Way::message_len) has for it. Refusals 1, 2, 3, 8.
pub fn say(record: &[u64], totals: &[u64], sheets: &[u64], messages: &mut [u64]) -> u64 {
    unsafe {
        clockivy_say(
            record.as_ptr(),
            record.len(),
            totals.as_ptr(),
            totals.len(),
            sheets.as_ptr(),
            sheets.len(),
            messages.as_mut_ptr(),
            messages.len(),
        )
    }
}

/// Steps the record by the words of those whose mark in `present` is 1; the others may
/// be anything. Party 1's words of the round stand first, then party 2's, and so on.
/// Refusals 1, 2, 3, 15, 8 to 12.
pub fn hear(
    record: &mut [u64],
    totals: &[u64],
    sheets: &[u64],
    messages: &[u64],
    present: &[u8],
) -> u64 {
    unsafe {
        clockivy_hear(
            record.as_mut_ptr(),
            record.len(),
            totals.as_ptr(),
            totals.len(),
            sheets.as_ptr(),
            sheets.len(),
            messages.as_ptr(),
            messages.len(),
            present.as_ptr(),
            present.len(),
        )
    }
}

/// Writes the index of the price and the number of probes of both searches.
/// Refusals 1, 2, 3.
pub fn answer(record: &[u64], index: &mut u64, probes: &mut u64) -> u64 {
    unsafe { clockivy_answer(record.as_ptr(), record.len(), index, probes) }
}

/// Writes what a buyer of this amount gets at the price, in tenths of an hour, and
/// the remainder. Refusals 1, 2, 16, 6.
pub fn fill(record: &[u64], amount: u64, tenths: &mut u64, remainder: &mut u64) -> u64 {
    unsafe { clockivy_fill(record.as_ptr(), record.len(), amount, tenths, remainder) }
}

/// Writes the lines of a settlement's amounts, and how many bytes they are; what `page`
/// holds past them stays. Refusals 1, 2, 6, 17.
pub fn settlement_write(price: u64, amounts: &[u64], page: &mut [u8], written: &mut u64) -> u64 {
    unsafe {
        clockivy_settlement_write(
            price,
            amounts.as_ptr(),
            amounts.len(),
            page.as_mut_ptr(),
            page.len(),
            written,
        )
    }
}

/// Writes the settlement's amounts that lay out to `page`. Refusals 1, 2, 13.
pub fn settlement_read(price: u64, page: &[u8], amounts: &mut [u64]) -> u64 {
    unsafe {
        clockivy_settlement_read(
            price,
            page.as_ptr(),
            page.len(),
            amounts.as_mut_ptr(),
            amounts.len(),
        )
    }
}
