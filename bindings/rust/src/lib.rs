//! A sealed-bid uniform-price auction among n parties who hold every amount in
//! shares. The parties find the index of the price, and open total demand and total
//! supply there; nobody adds up the bids. The work is done by a verified library
//! for x86-64 behind a C ABI; this crate calls it from safe Rust.
//!
//! # A small auction
//!
//! ```
//! use clockivy::{
//!     Collecting, Dealing, Entries, Fill, Outcome, Refusal, Seat, Speaking, System, Way, BLANK,
//! };
//!
//! # fn main() -> Result<(), Refusal> {
//! // Three parties and two listed prices. Fleet 17 would buy 0.5 hours at the first
//! // and 0.2 at the second; fleet 640 would sell 0.3 and 0.9.
//! let (n, k, way) = (3, 2, Way::Rounds33);
//! let prices = [100, 110];
//! let bids = [(17, [5, 2, 0, 0]), (640, [0, 0, 3, 9])];
//!
//! // Each party opens its session.
//! let mut sessions = Vec::new();
//! for own in 1..=n {
//!     sessions.push(Collecting::open(Seat { n, own, k, way })?);
//! }
//! // Each fleet's desk splits its table, and sends each party its shares.
//! for (bidder, table) in bids {
//!     let mut shares = [[BLANK; 4]; 3];
//!     Entries::new(n, k, &table, shares.as_flattened_mut(), &mut System)?.write_all()?;
//!     for (session, shares) in sessions.iter_mut().zip(&shares) {
//!         session.add(bidder, shares)?;
//!         // Sent again, it is refused and does not count double.
//!         assert_eq!(session.add(bidder, shares), Err(Refusal::AlreadyEntered));
//!     }
//! }
//! // The dealer deals each party its sheets. From here on there are no more bids.
//! let dealt = Dealing::new(n, k, way, &mut System)?.deal_all()?;
//! let speak = |(session, sheets): (Collecting, _)| session.speak(sheets);
//! let mut parties: Vec<Speaking> = sessions.into_iter().zip(dealt).map(speak).collect();
//!
//! // Round after round each party says a message, and hears those of all.
//! while parties[0].outcome()?.is_none() {
//!     let say = |party: &Speaking| party.say().map(Some);
//!     let round = parties.iter().map(say).collect::<Result<Vec<_>, _>>()?;
//!     for party in &mut parties {
//!         party.hear(&round)?;
//!     }
//! }
//! let outcome = parties[0].outcome()?;
//! assert_eq!(outcome.and_then(|outcome| outcome.price_in(&prices).copied()), Some(100));
//!
//! // Anybody may know the totals at the price. The fleet that wants 5 tenths works
//! // out for itself that it gets 3.
//! if let Some(Outcome::Price { cleared, .. }) = outcome {
//!     assert_eq!((cleared.demand(), cleared.supply()), (5, 3));
//!     assert_eq!(cleared.fill(5)?, Fill { tenths: 3, remainder: 0 });
//! }
//! # Ok(())
//! # }
//! ```
//!
//! # The roles
//!
//! * A **bidder** has a number, 1 to 1,000, and a table: its demand in tenths
//!   of an hour at each of k listed prices, never rising, then its supply at
//!   each, never falling. Its desk splits the table for all parties with new coins
//!   ([`Entries`]), and sends each party its shares.
//! * The **dealer** draws coins for each of [`sheet_count`]`(k)` probes and deals
//!   ([`Dealing`]): each party is sent its [`Sheets`].
//! * A **party** has a [`Seat`] and keeps a session. The session is [`Collecting`]
//!   first, and adds each bid's shares, once for each bidder: it keeps a roll of who is
//!   in. Then it is [`Speaking`]: it says a [`Message`] and hears those of all who are
//!   present, t + 1 or more of the n, in the rounds, 33 or 7 by the [`Way`], of each
//!   probe of [two searches](callers#the-two-searches) and two more for the totals,
//!   until there is an [`Outcome`].
//! * A bidder that **buys** at the price is told the totals there ([`Cleared`]), and
//!   works out by them how many hours it gets.
//! * Whoever may see every bidder's hours lays them out as a page for a board
//!   ([`Settlement`]). No party does.
//!
//! A call judges all that it is lent, and where something is wrong it answers a
//! [`Refusal`] and changes nothing. Networks and signatures are the caller's, and so
//! is what no call can judge: read [what callers have to see to](callers), and before
//! all else the [four uses that give bids
//! away](callers#four-uses-that-give-bids-away). What any t parties learn, and what
//! that rests on, is said under [secrecy].
//!
//! [`words`] has the same calls on plain words.

mod dealing;
mod entries;
mod outcome;
mod record;
mod refusal;
mod seat;
mod secret;
mod session;
mod settlement;
mod sheets;
mod source;
pub mod words;

#[doc = include_str!("../../../docs/CALLERS.md")]
///
/// *This is docs/CALLERS.md; its links lead to files of the repository.*
pub mod callers {}

#[doc = include_str!("../../../docs/SECRECY.md")]
///
/// *This is docs/SECRECY.md; its links lead to files of the repository.*
pub mod secrecy {}

pub use dealing::Dealing;
pub use entries::Entries;
pub use outcome::{Cleared, Fill, Outcome};
pub use record::Record;
pub use refusal::Refusal;
pub use seat::{Seat, Way};
pub use session::{Collecting, Message, Speaking};
pub use settlement::{Line, Settlement, Side};
pub use sheets::Sheets;
pub use source::{Source, System};

use std::borrow::Cow;

use refusal::result;

// A u64 fits a usize, so that no length below is cut off.
const _: () = assert!(usize::BITS == u64::BITS, "libexchange.a is for x86-64");

/// The version of the calls and of the record's words that this crate is for. With a
/// library of another one no session, bid or dealing begins.
pub const VERSION: u64 = 2;
/// What is no share, no coin and no word of a sheet, and is refused wherever it is lent
/// as one. Whatever is to be written starts from it, and not from zeros, which pass.
pub const BLANK: u64 = u64::MAX;
/// The prime 2^61 - 1. Shares of amounts and their coefficients are below it.
pub const PRIME: u64 = (1 << 61) - 1;
/// A probe's mask is below this, 2^58.
pub const MASK_LIMIT: u64 = 1 << 58;
/// The fewest and the most parties.
pub const PARTIES: std::ops::RangeInclusive<u64> = 3..=9;
/// The most listed prices.
pub const MAX_PRICES: u64 = 1_024;
/// The most bids that are held, and the highest bidder number.
pub const MAX_BIDS: u64 = 1_000;
/// The largest amount, in tenths of an hour.
pub const MAX_AMOUNT: u64 = 4_194_303;
/// The highest price of an hour, in pence, at which a settlement page is written or
/// read. The lowest is 1.
pub const HIGHEST_PRICE: u64 = 1_000_000;
/// The round in which total demand at the price is opened.
pub const DEMAND_ROUND: u64 = 34;
/// The round in which total supply at the price is opened.
pub const SUPPLY_ROUND: u64 = 35;
/// What stands for the round once the totals are open. Without a price it is 1 to
/// the end.
pub const OVER_ROUND: u64 = 36;
/// Total demand and total supply at the price are below this, 2^32.
pub const TOTAL_LIMIT: u64 = 1 << 32;
/// The words of a roll, with a bit for each bidder's number.
pub const ROLL_LEN: usize = 16;
/// The words of a record that keep a party's shares of pairs, on the way of 7 rounds.
pub const PAIRS_LEN: usize = 32;
/// The words of a party's record: ten numbers, the roll, six numbers, then the pairs.
pub const RECORD_LEN: usize = 10 + ROLL_LEN + 6 + PAIRS_LEN;
/// The words of the longest message.
pub const MAX_MESSAGE_LEN: usize = Way::Rounds7.message_len(2);
/// The words of a stored session before its record: the version, and which of the two
/// types it is.
pub const STORED_HEAD: usize = 2;
/// The words of a settlement's amounts: two for each bidder and side.
pub const SETTLEMENT_LEN: usize = 4 * MAX_BIDS as usize;
/// The bytes of a line of a settlement page: 60, and a newline.
pub const LINE_LEN: usize = 60 + 1;
/// The bytes of the longest settlement page: a line for each bidder and side.
pub const MAX_PAGE_LEN: usize = 2 * MAX_BIDS as usize * LINE_LEN;

/// The number t of coefficients of a sharing among `n` parties.
pub const fn threshold(n: u64) -> usize {
    (n.saturating_sub(1) / 2) as usize
}

/// The most probes that one search over `k` prices makes: the base-2 logarithm
/// of `k` + 1, rounded up.
pub const fn probe_limit(k: u64) -> usize {
    (u64::BITS - k.leading_zeros()) as usize
}

/// The number of sheets that a party is lent, one for each probe that the two
/// searches may make: twice [`probe_limit`]`(k)`.
pub const fn sheet_count(k: u64) -> usize {
    2 * probe_limit(k)
}

/// The length of the totals, of a bid's table and of its shares: 2`k`, or
/// `usize::MAX` where that is no length.
pub const fn table_len(k: u64) -> usize {
    (k as usize).saturating_mul(2)
}

/// The length of a bid's coins: t for each entry of the table, or `usize::MAX`
/// where that is no length.
pub const fn coins_len(n: u64, k: u64) -> usize {
    table_len(k).saturating_mul(threshold(n))
}

/// The number of words that the dealer draws for one probe: 1 + t.
pub const fn deal_words_len(n: u64) -> usize {
    1 + threshold(n)
}

/// The number of bytes that the dealer draws for one probe of this [`Way`], or
/// `usize::MAX` where that is no length.
pub const fn deal_bytes_len(n: u64, way: Way) -> usize {
    way.deal_bytes_len(threshold(n))
}

/// The length of a party's preprocessing for all probes of both searches:
/// [`sheet_count`]`(k)` sheets.
pub const fn sheets_len(k: u64, way: Way) -> usize {
    way.sheet_len() * sheet_count(k)
}

/// The length of a stored session: its version, which of the two types it is, its
/// record and its totals; or `usize::MAX` where that is no length.
pub const fn stored_len(k: u64) -> usize {
    table_len(k).saturating_add(STORED_HEAD + RECORD_LEN)
}

/// Writes the shares of a bid for the party of this seat into `shares`.
///
/// `table` is demand at prices 1 to k, then supply; `coins` are t coefficients
/// below [`PRIME`] for each entry in turn. Call this once for each party with
/// the same table and the same coins, and draw new coins for each bid: used
/// again, or not drawn at all, they
/// [give bids away](crate::callers#four-uses-that-give-bids-away). [`Entries`] sees to
/// all of this.
///
/// Refused: [`OutOfRange`](Refusal::OutOfRange),
/// [`WrongLength`](Refusal::WrongLength),
/// [`CoinOutOfRange`](Refusal::CoinOutOfRange), also where all coins are 0,
/// [`AmountTooLarge`](Refusal::AmountTooLarge),
/// [`NotMonotone`](Refusal::NotMonotone).
pub fn split(seat: Seat, table: &[u64], coins: &[u64], shares: &mut [u64]) -> Result<(), Refusal> {
    let Seat { n, own, k, way: _ } = seat;
    let coins = blank_unless_drawn(coins, &[]);
    result(words::split(n, own, k, table, &coins, shares))
}

/// Writes the share of one entry of a bid, for the party of this seat, into `shares`,
/// 2k words, at place `entry` - 1. No other place changes. [`Entries`] makes these
/// calls for a whole bid.
///
/// `table` is that of the whole bid, as for [`split`]; `entry` is 1 to 2k, and
/// `coins` are its t coefficients below [`PRIME`]. Call this once for each party
/// with the same table and the same coins, and draw new coins for each entry:
/// used again, they [give bids away](crate::callers#four-uses-that-give-bids-away). All
/// 2k entries, in any order, leave what `split` writes from the coins of entry
/// 1, then those of entry 2, and so on. What that rests on is said of
/// [a bid entry by entry](crate::callers#a-bid-entry-by-entry).
///
/// ```
/// use clockivy::{split, split_entry, Seat, Way, BLANK};
///
/// # fn main() -> Result<(), clockivy::Refusal> {
/// // Of five parties the second, one listed price, two coins for each entry. They are
/// // fixed for the sake of the example; real ones are random.
/// let seat = Seat { n: 5, own: 2, k: 1, way: Way::Rounds33 };
/// let table = [7, 4];
/// let mut shares = [BLANK; 2];
/// split_entry(seat, 2, &table, &[9, 8], &mut shares)?;
/// assert_eq!(shares, [BLANK, 4 + 9 * 2 + 8 * 4]);
/// split_entry(seat, 1, &table, &[3, 2], &mut shares)?;
///
/// let mut whole = [BLANK; 2];
/// split(seat, &table, &[3, 2, 9, 8], &mut whole)?;
/// assert_eq!(shares, whole);
/// # Ok(())
/// # }
/// ```
///
/// Refused: [`OutOfRange`](Refusal::OutOfRange),
/// [`WrongLength`](Refusal::WrongLength),
/// [`CoinOutOfRange`](Refusal::CoinOutOfRange) for these coins,
/// [`AmountTooLarge`](Refusal::AmountTooLarge) and
/// [`NotMonotone`](Refusal::NotMonotone) for the whole table.
pub fn split_entry(
    seat: Seat,
    entry: u64,
    table: &[u64],
    coins: &[u64],
    shares: &mut [u64],
) -> Result<(), Refusal> {
    let Seat { n, own, k, way: _ } = seat;
    result(words::split_entry(n, own, k, entry, table, coins, shares))
}

/// Writes the preprocessing for one probe, for the party of this seat, into `sheet`.
/// [`Dealing`] makes these calls for all parties and probes.
///
/// `words` are the mask, below [`MASK_LIMIT`], and its t coefficients below
/// [`PRIME`]. `bytes` are t coefficients for each of bits 1 to 33 of the mask;
/// then, for each product of the way, alpha, beta and t coefficients each for
/// alpha, beta and their product. Call this once for each party with the same
/// words and bytes, and draw new ones for each of [`sheet_count`]`(k)` probes: used
/// again, or not drawn at all, they
/// [give bids away](crate::callers#four-uses-that-give-bids-away).
///
/// Refused: [`OutOfRange`](Refusal::OutOfRange) for n and own,
/// [`WrongLength`](Refusal::WrongLength),
/// [`CoinOutOfRange`](Refusal::CoinOutOfRange), also where all words and bytes are 0.
pub fn deal(seat: Seat, words: &[u64], bytes: &[u8], sheet: &mut [u64]) -> Result<(), Refusal> {
    let Seat { n, own, k: _, way } = seat;
    let words = blank_unless_drawn(words, bytes);
    result(words::deal(n, own, way.rounds(), &words, bytes, sheet))
}

/// The words or, where they and the bytes are all 0, as many blanks: zeros alone were
/// not drawn, and blanks are refused once what is judged before them is right.
fn blank_unless_drawn<'a>(words: &'a [u64], bytes: &[u8]) -> Cow<'a, [u64]> {
    let zeros = words.iter().all(|&word| word == 0) && bytes.iter().all(|&byte| byte == 0);
    match zeros {
        true => Cow::Owned(vec![BLANK; words.len()]),
        false => Cow::Borrowed(words),
    }
}
