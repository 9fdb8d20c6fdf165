//! A party's preprocessing for all probes.

use std::fmt;

use crate::refusal::Refusal;
use crate::secret::Secret;
use crate::{sheets_len, Way, BLANK, MAX_PRICES, PRIME};

/// A party's sheets for all probes of both searches, in turn. They come of
/// [`Dealing`](crate::Dealing), or of [`Sheets::received`] from the words that the
/// dealer sent, and a session takes them ([`Collecting::speak`]): sheets that are used
/// again [give bids away](crate::callers#four-uses-that-give-bids-away). They are
/// overwritten when dropped.
///
/// [`Collecting::speak`]: crate::Collecting::speak
///
/// ```
/// use clockivy::{Dealing, Refusal, Sheets, System, Way};
///
/// # fn main() -> Result<(), Refusal> {
/// let (n, k, way) = (3, 1, Way::Rounds33);
/// let dealt = Dealing::new(n, k, way, &mut System)?.deal_all()?;
/// let sent = dealt[0].words().to_vec();
/// let sheets = Sheets::received(k, way, &sent)?;
/// # let _ = sheets;
///
/// // What was never dealt is no sheet, whether it was left blank or zeroed.
/// let refused = Some(Refusal::ShareOutOfRange);
/// assert_eq!(Sheets::received(k, way, Sheets::blank(k, way).words()).err(), refused);
/// assert_eq!(Sheets::received(k, way, &vec![0; sent.len()]).err(), refused);
/// # Ok(())
/// # }
/// ```
///
/// Two sessions with the same sheets do not compile, nor does a copy of them:
///
/// ```compile_fail,E0382
/// # use clockivy::{Collecting, Refusal, Seat, Sheets, Way};
/// # let seat = Seat { n: 3, own: 1, k: 1, way: Way::Rounds33 };
/// # let [one, other] = [Collecting::open(seat)?, Collecting::open(seat)?];
/// # let sheets = Sheets::blank(1, Way::Rounds33);
/// let one = one.speak(sheets);
/// let other = other.speak(sheets);
/// # Ok::<(), Refusal>(())
/// ```
///
/// ```compile_fail,E0599
/// # use clockivy::{Sheets, Way};
/// # let sheets = Sheets::blank(1, Way::Rounds33);
/// let copy = sheets.clone();
/// ```
pub struct Sheets {
    words: Secret<u64>,
}

impl Sheets {
    /// Sheets that are not dealt: [`BLANK`] in every place, so that a session which
    /// speaks from them is refused with [`ShareOutOfRange`](Refusal::ShareOutOfRange).
    pub fn blank(k: u64, way: Way) -> Sheets {
        Sheets {
            words: Secret::filled(BLANK, sheets_len(k, way)),
        }
    }

    /// The sheets that the dealer sent as these words. A session that is resumed takes
    /// those that it had; no other one takes them.
    ///
    /// Refused: [`OutOfRange`](Refusal::OutOfRange) for `k`,
    /// [`WrongLength`](Refusal::WrongLength),
    /// [`ShareOutOfRange`](Refusal::ShareOutOfRange) where a word is no share, as a
    /// blank is; where a sheet is all zeros, which no dealer sends; and where one
    /// sheet stands in two places.
    pub fn received(k: u64, way: Way, words: &[u64]) -> Result<Sheets, Refusal> {
        if !(1..=MAX_PRICES).contains(&k) {
            return Err(Refusal::OutOfRange);
        }
        if words.len() != sheets_len(k, way) {
            return Err(Refusal::WrongLength);
        }
        let mut sheets = words.chunks_exact(way.sheet_len()).enumerate();
        let are_dealt = sheets.all(|(place, sheet)| {
            let mut before = words.chunks_exact(way.sheet_len()).take(place);
            is_dealt(sheet) && before.all(|other| other != sheet)
        });
        if !are_dealt {
            return Err(Refusal::ShareOutOfRange);
        }
        Ok(Sheets {
            words: Secret::from(words),
        })
    }

    /// Their words, for the dealer to send to the party and to nobody else.
    pub fn words(&self) -> &[u64] {
        &self.words
    }

    /// One of them, for every place at which the sheets have a probe's.
    pub(crate) fn nth_mut(&mut self, place: usize, way: Way) -> Option<&mut [u64]> {
        self.words.chunks_exact_mut(way.sheet_len()).nth(place)
    }
}

/// Whether a sheet's words are shares: of an amount, and then of bytes. Zeros alone
/// are what a buffer holds that nobody has written.
fn is_dealt(sheet: &[u64]) -> bool {
    let (mask, bytes) = sheet.split_at(1);
    mask.iter().all(|&share| share < PRIME)
        && bytes.iter().all(|&share| share <= u64::from(u8::MAX))
        && sheet.iter().any(|&share| share != 0)
}

/// Shows how many words there are. They are secret.
impl fmt::Debug for Sheets {
    fn fmt(&self, f: &mut fmt::Formatter<'_>) -> fmt::Result {
        f.debug_struct("Sheets")
            .field("words", &self.words.len())
            .finish_non_exhaustive()
    }
}
