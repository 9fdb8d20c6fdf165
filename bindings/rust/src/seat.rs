//! Whom a session is for, and in how many rounds its probes come to a verdict.

use crate::PAIRS_LEN;

/// In how many rounds a probe comes to its verdict. Fewer rounds are less waiting for
/// parties that are far apart, and take more words:
///
/// | | 33 rounds | 7 rounds |
/// |---|---|---|
/// | words that a party says in a probe | 33, one in each round | 64: 1, 32, 16, 8, 4, 2, 1 |
/// | products of shared bytes | 31 | 62 |
/// | words of a sheet | 127 | 220 |
/// | bytes that the dealer draws for a sheet | 126t + 62 | 219t + 124 |
///
/// The verdicts are the same, and what is kept secret is too. All parties of an auction
/// and its dealer choose alike. Those that choose differently do not understand each
/// other: their sheets and, from round 2 on, their messages have other lengths, and the
/// calls refuse them.
#[derive(Clone, Copy, Debug, PartialEq, Eq, Hash)]
#[non_exhaustive]
pub enum Way {
    /// In 33 rounds: the carry goes from bit to bit.
    Rounds33 = 33,
    /// In 7 rounds: the carries of 32 bits are merged two by two, in five levels.
    Rounds7 = 7,
}

impl Way {
    /// The way whose probes have so many rounds, where there is one.
    pub const fn from_rounds(rounds: u64) -> Option<Way> {
        match rounds {
            33 => Some(Way::Rounds33),
            7 => Some(Way::Rounds7),
            _ => None,
        }
    }

    /// The rounds of a probe.
    pub const fn rounds(self) -> u64 {
        self as u64
    }

    /// The words that a party says in this round, whatever its number: one for each
    /// product in rounds 2 to 6 of 7, and else one.
    pub const fn message_len(self, round: u64) -> usize {
        match (self, round) {
            (Way::Rounds7, 2..=6) => PAIRS_LEN >> (round - 2),
            _ => 1,
        }
    }

    /// The words of a sheet, a party's preprocessing for one probe: its shares of the
    /// mask, of 33 bits of the mask, and of three bytes for each product.
    pub const fn sheet_len(self) -> usize {
        1 + MASK_BITS + 3 * self.products()
    }

    /// The bytes that the dealer draws for a probe where a sharing has `t`
    /// coefficients: those of each shared byte, and two factors for each product. It
    /// is `usize::MAX` where that is no length.
    pub(crate) const fn deal_bytes_len(self, t: usize) -> usize {
        let shared = MASK_BITS + 3 * self.products();
        t.saturating_mul(shared).saturating_add(2 * self.products())
    }

    /// The products of shared bytes in a probe.
    const fn products(self) -> usize {
        match self {
            Way::Rounds33 => 31,
            Way::Rounds7 => 62,
        }
    }
}

/// The bits of a mask that are shared one by one.
const MASK_BITS: usize = 33;

/// A party's place in an auction. All parties of one have the same `n`, `k` and `way`.
///
/// Any numbers may stand here; the calls judge them.
#[derive(Clone, Copy, Debug, PartialEq, Eq)]
pub struct Seat {
    /// The number of parties, 3 to 9.
    pub n: u64,
    /// This party's number, 1 to `n`.
    pub own: u64,
    /// The number of listed prices, 1 to 1,024.
    pub k: u64,
    /// In how many rounds a probe comes to its verdict.
    pub way: Way,
}
