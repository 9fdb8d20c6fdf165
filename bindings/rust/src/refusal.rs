use std::error::Error;
use std::fmt;

use crate::{words, VERSION};

/// Why a call did nothing. Each call lists its refusals in the order in which
/// it judges them, and names the first that applies; whatever was lent to it is
/// as before.
#[derive(Clone, Copy, Debug, PartialEq, Eq, Hash)]
#[non_exhaustive]
pub enum Refusal {
    /// 1: `n`, `own`, `k`, the last round of a probe, the entry's or the bidder's
    /// number is outside its range, or a field of the record is, or the version or
    /// the type of a stored session, or a mark of who was present is above 1, or the
    /// price of a settlement page; `bids` is not the number of marks on the roll, or
    /// the roll marks a number outside 1 to 1,000; the numbers of the two searches do
    /// not fit, as where the first has ended and the second has not begun; the round
    /// is none of those that the searches have come to; or total supply is above
    /// total demand.
    OutOfRange = 1,
    /// 2: a slice has not the length that the call states.
    WrongLength = 2,
    /// 3: a bid after the first heard round; a round when the auction is over;
    /// the answer before it is over; a stored session resumed as one of the
    /// other type.
    OutOfTurn = 3,
    /// 5: a coefficient is not below the prime, or a mask not below 2^58; or a
    /// source has no coins, or none but zeros.
    CoinOutOfRange = 5,
    /// 6: an amount is above 4,194,303, or a bidder got more than it wanted.
    AmountTooLarge = 6,
    /// 7: demand rises or supply falls.
    NotMonotone = 7,
    /// 8: a share of an amount is not below the prime, or one of a bit is
    /// above 255; or sheets were never dealt, or one of them stands in two places.
    ShareOutOfRange = 8,
    /// 9: the message in the party's own place is not what the party says, and
    /// the party is marked as present.
    OwnMessageDiffers = 9,
    /// 10: a word of those who were present is out of range, or no polynomial of degree
    /// at most t passes through what they said.
    Inconsistent = 10,
    /// 11: the opened sum of round 1 is outside its range; or a total that is
    /// opened in round 34 or 35 is 2^32 or more, or supply would be above demand.
    SumOutOfRange = 11,
    /// 12: the opened verdict is neither 0 nor 1.
    VerdictNotBit = 12,
    /// 13: no amounts lay out to a settlement page at its price. (The rehearsal has
    /// this number for a file that is none.)
    Malformed = 13,
    /// 14: a bid of this bidder has been added already.
    AlreadyEntered = 14,
    /// 15: fewer than t + 1 parties are marked as present.
    TooFewPresent = 15,
    /// 16: a fill is wanted before the totals at the price are open, or there is
    /// no price.
    NotCleared = 16,
    /// 17: the page that is lent cannot hold every line of a settlement.
    PageTooShort = 17,
}

impl Refusal {
    /// Every refusal, in the order of the numbers.
    pub const ALL: [Refusal; 16] = [
        Refusal::OutOfRange,
        Refusal::WrongLength,
        Refusal::OutOfTurn,
        Refusal::CoinOutOfRange,
        Refusal::AmountTooLarge,
        Refusal::NotMonotone,
        Refusal::ShareOutOfRange,
        Refusal::OwnMessageDiffers,
        Refusal::Inconsistent,
        Refusal::SumOutOfRange,
        Refusal::VerdictNotBit,
        Refusal::Malformed,
        Refusal::AlreadyEntered,
        Refusal::TooFewPresent,
        Refusal::NotCleared,
        Refusal::PageTooShort,
    ];

    /// The refusal's number, 1 to 17. The calls do not give 4.
    pub fn number(self) -> u64 {
        self as u64
    }

    /// The refusal with this number.
    pub fn from_number(number: u64) -> Option<Refusal> {
        Refusal::ALL
            .into_iter()
            .find(|refusal| refusal.number() == number)
    }
}

impl fmt::Display for Refusal {
    fn fmt(&self, f: &mut fmt::Formatter<'_>) -> fmt::Result {
        let text = match self {
            Refusal::OutOfRange => "a number, a mark or a field of the record is out of range",
            Refusal::WrongLength => "a slice has the wrong length",
            Refusal::OutOfTurn => "the call is out of turn",
            Refusal::CoinOutOfRange => "a coin is out of range",
            Refusal::AmountTooLarge => "an amount is too large",
            Refusal::NotMonotone => "demand rises or supply falls",
            Refusal::ShareOutOfRange => "a share is out of range",
            Refusal::OwnMessageDiffers => "the party's own message is not what it says",
            Refusal::Inconsistent => "the messages lie on no polynomial of the degree",
            Refusal::SumOutOfRange => "the opened sum or total is out of range",
            Refusal::VerdictNotBit => "the opened verdict is not a bit",
            Refusal::Malformed => "no amounts lay out to the page at this price",
            Refusal::AlreadyEntered => "a bid of this bidder has been added already",
            Refusal::TooFewPresent => "too few parties were present",
            Refusal::NotCleared => "no totals are open, or there is no price",
            Refusal::PageTooShort => "the page is too short for every line",
        };
        write!(f, "refusal {}: {text}", self.number())
    }
}

impl Error for Refusal {}

/// A reply as a result.
pub(crate) fn result(reply: u64) -> Result<(), Refusal> {
    if reply == 0 {
        return Ok(());
    }
    match Refusal::from_number(reply) {
        Some(refusal) => Err(refusal),
        None => panic!("the library replied {reply}: it is not the one that this crate is for"),
    }
}

/// Stops where the library that was linked is another one than this crate is for: it
/// would take arguments for others. No caller's input brings that about.
pub(crate) fn check_library() {
    let found = words::version();
    assert_eq!(
        found, VERSION,
        "the library is not the one that this crate is for"
    );
}
