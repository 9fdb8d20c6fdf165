//! A party's session, in two types: one that collects bids and one that speaks.
//! A bid added between two messages would be given away by their difference, so
//! the way from the one to the other is a call that takes the session.

use std::fmt;
use std::ops::Deref;

use crate::outcome::Outcome;
use crate::record::Record;
use crate::refusal::{check_library, result, Refusal};
use crate::secret::Secret;
use crate::{table_len, words, Seat, Sheets, MAX_MESSAGE_LEN, MAX_PRICES, RECORD_LEN, VERSION};

/// What a stored session says of itself where it collects.
const COLLECTING: u64 = 0;
/// What it says where it speaks.
const SPEAKING: u64 = 1;

/// A party's session while it collects bids, with its totals. It says nothing yet: a
/// bid added between two messages
/// [would be given away](crate::callers#four-uses-that-give-bids-away).
///
/// ```
/// # use clockivy::{Collecting, Dealing, Refusal, Seat, System, Way};
/// # let (n, k, way) = (3, 1, Way::Rounds33);
/// # let seat = Seat { n, own: 1, k, way };
/// # let sheets = Dealing::new(n, k, way, &mut System)?.deal_all()?.remove(0);
/// let mut session = Collecting::open(seat)?;
/// session.add(1, &[5, 3])?;
/// let speaking = session.speak(sheets);
/// # speaking.say()?;
/// # Ok::<(), Refusal>(())
/// ```
///
/// A bid after [`speak`](Collecting::speak) does not compile:
///
/// ```compile_fail,E0382
/// # use clockivy::{Collecting, Refusal, Seat, Sheets, Way};
/// # let seat = Seat { n: 3, own: 1, k: 1, way: Way::Rounds33 };
/// # let sheets = Sheets::blank(1, seat.way);
/// let mut session = Collecting::open(seat)?;
/// let speaking = session.speak(sheets);
/// session.add(1, &[5, 3])?;
/// # Ok::<(), Refusal>(())
/// ```
///
/// Nor does a copy of the session, which could collect on while the other one
/// speaks:
///
/// ```compile_fail,E0599
/// # use clockivy::{Collecting, Refusal, Seat, Way};
/// # let seat = Seat { n: 3, own: 1, k: 1, way: Way::Rounds33 };
/// let session = Collecting::open(seat)?;
/// let copy = session.clone();
/// # Ok::<(), Refusal>(())
/// ```
///
/// Nor does a bid that goes to the totals of another session: they are in the session
/// that they were opened with.
///
/// ```compile_fail,E0616
/// # use clockivy::{Collecting, Refusal, Seat, Way};
/// # let seat = Seat { n: 3, own: 1, k: 1, way: Way::Rounds33 };
/// # let [mut one, other] = [Collecting::open(seat)?, Collecting::open(seat)?];
/// one.totals = other.totals;
/// # Ok::<(), Refusal>(())
/// ```
pub struct Collecting {
    record: Record,
    totals: Secret<u64>,
}

impl Collecting {
    /// Opens a session, without a bid.
    ///
    /// Refused: [`OutOfRange`](Refusal::OutOfRange).
    ///
    /// # Panics
    ///
    /// Where the library that was linked is of another [version](VERSION).
    pub fn open(seat: Seat) -> Result<Collecting, Refusal> {
        let Seat { n, own, k, way } = seat;
        check_library();
        // What is out of range is judged before the length, so no room is made for it.
        let length = if k > MAX_PRICES { 0 } else { table_len(k) };
        let mut totals = Secret::filled(0, length);
        let mut record = [0; RECORD_LEN];
        let last = way.rounds();
        result(words::open(n, own, k, last, &mut totals, &mut record))?;
        Ok(Collecting {
            record: Record::from_words(record),
            totals,
        })
    }

    /// Adds a bid's shares to the totals, counts the bid and marks its bidder, 1 to
    /// 1,000, on the roll.
    ///
    /// A bid that may not have arrived is sent again, the same shares under the
    /// same number. Where the party has it, it is `AlreadyEntered` and nothing
    /// has changed; see [a bid sent again](crate::callers#a-bid-sent-again).
    ///
    /// Refused: [`OutOfRange`](Refusal::OutOfRange),
    /// [`WrongLength`](Refusal::WrongLength),
    /// [`OutOfTurn`](Refusal::OutOfTurn),
    /// [`AlreadyEntered`](Refusal::AlreadyEntered),
    /// [`ShareOutOfRange`](Refusal::ShareOutOfRange).
    pub fn add(&mut self, bidder: u64, shares: &[u64]) -> Result<(), Refusal> {
        let totals = &mut self.totals;
        self.record
            .step(|record| words::add(record, totals, bidder, shares))
    }

    /// Ends the collecting. No session has spoken from these sheets yet: used again,
    /// they [give bids away](crate::callers#four-uses-that-give-bids-away). Saying and
    /// hearing judge them.
    pub fn speak(self, sheets: Sheets) -> Speaking {
        Speaking {
            record: self.record,
            totals: self.totals,
            sheets,
        }
    }

    /// Where the party stands.
    pub fn record(&self) -> &Record {
        &self.record
    }

    /// The session as words, [`stored_len`](crate::stored_len)`(k)` of them: the
    /// version, 0, the record and the totals, as one. Once the session speaks,
    /// [`Speaking::store`] takes their place, before the first message leaves. They
    /// hold shares, and are for this party alone.
    pub fn store(&self) -> Vec<u64> {
        stored(COLLECTING, &self.record, &self.totals)
    }

    /// The session that was stored as these words.
    ///
    /// Resume only the newest session stored, and let only one go on from it:
    /// [an older one](crate::callers#storing-a-session) is not refused.
    ///
    /// Refused: [`OutOfRange`](Refusal::OutOfRange) where the version is another than
    /// this crate's, the second word is above 1, or `k` or `last` is out of range,
    /// [`WrongLength`](Refusal::WrongLength), and
    /// [`OutOfTurn`](Refusal::OutOfTurn) where the session speaks. The rest of the
    /// record, and the totals, are judged by the calls on them.
    ///
    /// # Panics
    ///
    /// Where the library that was linked is of another [version](VERSION).
    pub fn resume(stored: &[u64]) -> Result<Collecting, Refusal> {
        let (record, totals) = resumed(COLLECTING, stored)?;
        Ok(Collecting { record, totals })
    }
}

/// A party's session while it speaks: it says and hears messages, and takes no
/// more bids. It comes of [`Collecting::speak`], or of [`Speaking::resume`] from
/// the newest session stored: an older one
/// [gives bids away](crate::callers#four-uses-that-give-bids-away).
///
/// ```
/// # use clockivy::{Collecting, Dealing, Refusal, Seat, System, Way};
/// # let (n, k, way) = (3, 1, Way::Rounds33);
/// # let session = Collecting::open(Seat { n, own: 1, k, way })?;
/// # let sheets = Dealing::new(n, k, way, &mut System)?.deal_all()?.remove(0);
/// let speaking = session.speak(sheets);
/// assert_eq!(speaking.say()?, speaking.say()?);
/// # Ok::<(), Refusal>(())
/// ```
///
/// A copy of the session, which could hear other messages, or the same with other
/// parties present, does not compile:
///
/// ```compile_fail,E0599
/// # use clockivy::{Collecting, Refusal, Seat, Sheets, Way};
/// # let seat = Seat { n: 3, own: 1, k: 1, way: Way::Rounds33 };
/// # let sheets = Sheets::blank(1, seat.way);
/// let speaking = Collecting::open(seat)?.speak(sheets);
/// let copy = speaking.clone();
/// # Ok::<(), Refusal>(())
/// ```
///
/// Nor does a bid:
///
/// ```compile_fail,E0599
/// # use clockivy::{Collecting, Refusal, Seat, Sheets, Way};
/// # let seat = Seat { n: 3, own: 1, k: 1, way: Way::Rounds33 };
/// # let sheets = Sheets::blank(1, seat.way);
/// let mut speaking = Collecting::open(seat)?.speak(sheets);
/// speaking.add(1, &[5, 3])?;
/// # Ok::<(), Refusal>(())
/// ```
pub struct Speaking {
    record: Record,
    totals: Secret<u64>,
    sheets: Sheets,
}

/// What a party says in one round: its words, as many as the [way](crate::Way) has for
/// the round, which every party hears and the dealer must not see.
#[derive(Clone, Copy, PartialEq, Eq)]
pub struct Message {
    /// The words, and zeros behind them.
    words: [u64; MAX_MESSAGE_LEN],
    length: usize,
}

impl Deref for Message {
    type Target = [u64];

    fn deref(&self) -> &[u64] {
        &self.words[..self.length]
    }
}

/// Shows the words.
impl fmt::Debug for Message {
    fn fmt(&self, f: &mut fmt::Formatter<'_>) -> fmt::Result {
        f.debug_tuple("Message").field(&&self[..]).finish()
    }
}

impl Speaking {
    /// This party's message of the current round. Until the round is heard, it
    /// is the same whenever it is said.
    ///
    /// Refused: [`OutOfRange`](Refusal::OutOfRange),
    /// [`WrongLength`](Refusal::WrongLength) where the sheets are those of another
    /// number of prices or of the other way,
    /// [`OutOfTurn`](Refusal::OutOfTurn),
    /// [`ShareOutOfRange`](Refusal::ShareOutOfRange).
    pub fn say(&self) -> Result<Message, Refusal> {
        let record = self.record.to_words();
        let (mut words, length) = ([0; MAX_MESSAGE_LEN], self.record.message_len());
        let said = &mut words[..length];
        let reply = words::say(&record, &self.totals, self.sheets.words(), said);
        result(reply)?;
        Ok(Message { words, length })
    }

    /// Takes the messages of the current round, of those who were present, and
    /// goes on to the next round. The last round of a probe opens the verdict, moves
    /// `lo` or `hi` and ends the probe; where that ends the first search, the second
    /// [begins](crate::callers#the-two-searches). Where it ends the second with a
    /// price, rounds 34 and 35 [open the
    /// totals](crate::callers#hours-at-the-price).
    ///
    /// There is a place for each of the n parties, party 1's first: its message, as a
    /// [`Message`] or as the words that were received, or `None` where it was away. Any
    /// t + 1 messages open the round. All parties hear it with the same ones present,
    /// each of which has heard every round before: see
    /// [a party that drops off](crate::callers#a-party-that-drops-off).
    ///
    /// ```
    /// # use clockivy::{Collecting, Dealing, Refusal, Seat, Speaking, System, Way};
    /// # fn main() -> Result<(), Refusal> {
    /// # let (n, k, way) = (3, 1, Way::Rounds33);
    /// # let mut parties = Vec::new();
    /// # for (own, sheets) in (1..).zip(Dealing::new(n, k, way, &mut System)?.deal_all()?) {
    /// #     parties.push(Collecting::open(Seat { n, own, k, way })?.speak(sheets));
    /// # }
    /// // Of three parties the second has dropped off.
    /// let round = [Some(parties[0].say()?), None, Some(parties[2].say()?)];
    /// parties[0].hear(&round)?;
    /// parties[2].hear(&round)?;
    ///
    /// // One is too few.
    /// let alone = [Some(parties[0].say()?), None, None];
    /// assert_eq!(parties[0].hear(&alone), Err(Refusal::TooFewPresent));
    ///
    /// // It comes back and hears the round that it missed, as the others heard it.
    /// // From the next round on it may be present.
    /// parties[1].hear(&round)?;
    /// assert_eq!(parties[1].record().round, parties[0].record().round);
    /// # Ok(())
    /// # }
    /// ```
    ///
    /// Refused: [`OutOfRange`](Refusal::OutOfRange),
    /// [`WrongLength`](Refusal::WrongLength), also where a message has not as many words
    /// as the round,
    /// [`OutOfTurn`](Refusal::OutOfTurn),
    /// [`TooFewPresent`](Refusal::TooFewPresent),
    /// [`ShareOutOfRange`](Refusal::ShareOutOfRange), for the totals only where
    /// this party is present,
    /// [`OwnMessageDiffers`](Refusal::OwnMessageDiffers) where it is,
    /// [`Inconsistent`](Refusal::Inconsistent),
    /// [`SumOutOfRange`](Refusal::SumOutOfRange),
    /// [`VerdictNotBit`](Refusal::VerdictNotBit).
    pub fn hear(&mut self, round: &[Option<impl Deref<Target = [u64]>>]) -> Result<(), Refusal> {
        let present: Vec<u8> = round.iter().map(|said| said.is_some().into()).collect();
        let messages = side_by_side(round, self.record.message_len());
        let (totals, sheets) = (&self.totals, self.sheets.words());
        self.record
            .step(|record| words::hear(record, totals, sheets, &messages, &present))
    }

    /// What the auction has come to, once it is over: where there is a price, when the
    /// totals there are open too.
    ///
    /// Refused: [`OutOfRange`](Refusal::OutOfRange).
    pub fn outcome(&self) -> Result<Option<Outcome>, Refusal> {
        Outcome::of_record(&self.record)
    }

    /// The index that the current round is about: the one that the probe asks
    /// about or, once the searches have ended, that of the price, and 0 where there
    /// is none.
    pub fn index(&self) -> u64 {
        self.record.index()
    }

    /// Where the party stands.
    pub fn record(&self) -> &Record {
        &self.record
    }

    /// The session as words, [`stored_len`](crate::stored_len)`(k)` of them: the
    /// version, 1, the record and the totals, as one. The sheets are stored once, as
    /// they were received. They hold shares, and are for this party alone.
    ///
    /// Store them before the message leaves: once before the first message, and
    /// after each hearing before the next one.
    pub fn store(&self) -> Vec<u64> {
        stored(SPEAKING, &self.record, &self.totals)
    }

    /// The session that was stored as these words, to go on with the sheets that it
    /// had. One that has come to its outcome, or to the rounds of the totals, reads no
    /// sheet any more: [`Sheets::blank`] will do.
    ///
    /// Resume only the newest session stored, and let only one go on from it.
    /// [An older one](crate::callers#storing-a-session), or a second one, is not
    /// refused, but uses masks and triples again. With other messages, or other
    /// parties present, that
    /// [gives bids away](crate::callers#four-uses-that-give-bids-away).
    ///
    /// Refused: [`OutOfRange`](Refusal::OutOfRange) where the version is another than
    /// this crate's, the second word is above 1, or `k` or `last` is out of range,
    /// [`WrongLength`](Refusal::WrongLength), and
    /// [`OutOfTurn`](Refusal::OutOfTurn) where the session collects. The rest of the
    /// record, the totals and the sheets are judged by the calls on them.
    ///
    /// # Panics
    ///
    /// Where the library that was linked is of another [version](VERSION).
    pub fn resume(stored: &[u64], sheets: Sheets) -> Result<Speaking, Refusal> {
        let (record, totals) = resumed(SPEAKING, stored)?;
        Ok(Speaking {
            record,
            totals,
            sheets,
        })
    }
}

/// Shows the record alone. The totals are secret.
impl fmt::Debug for Collecting {
    fn fmt(&self, f: &mut fmt::Formatter<'_>) -> fmt::Result {
        f.debug_struct("Collecting")
            .field("record", &self.record)
            .finish_non_exhaustive()
    }
}

/// Shows the record alone. The totals and the sheets are secret.
impl fmt::Debug for Speaking {
    fn fmt(&self, f: &mut fmt::Formatter<'_>) -> fmt::Result {
        f.debug_struct("Speaking")
            .field("record", &self.record)
            .finish_non_exhaustive()
    }
}

/// All messages of a round, each of this length, with something in the places of those
/// who were away. Where a message has another length there are none, so that the call
/// refuses them.
fn side_by_side(round: &[Option<impl Deref<Target = [u64]>>], length: usize) -> Vec<u64> {
    let mut messages = Vec::with_capacity(round.len() * length);
    for said in round {
        match said.as_deref() {
            Some(words) if words.len() != length => return Vec::new(),
            Some(words) => messages.extend_from_slice(words),
            None => messages.extend(std::iter::repeat_n(0, length)),
        }
    }
    messages
}

/// A session's words.
fn stored(phase: u64, record: &Record, totals: &[u64]) -> Vec<u64> {
    [&[VERSION, phase][..], &record.to_words(), totals].concat()
}

/// The record and the totals in the words of a session, which has to be of this phase.
fn resumed(phase: u64, stored: &[u64]) -> Result<(Record, Secret<u64>), Refusal> {
    check_library();
    let [version, found, rest @ ..] = stored else {
        return Err(Refusal::WrongLength);
    };
    if *version != VERSION || ![COLLECTING, SPEAKING].contains(found) {
        return Err(Refusal::OutOfRange);
    }
    let (record, totals) = rest.split_first_chunk().ok_or(Refusal::WrongLength)?;
    let record = Record::from_words(*record);
    if !(1..=MAX_PRICES).contains(&record.k) || record.way().is_none() {
        return Err(Refusal::OutOfRange);
    }
    if totals.len() != table_len(record.k) {
        return Err(Refusal::WrongLength);
    }
    if *found != phase {
        return Err(Refusal::OutOfTurn);
    }
    Ok((record, Secret::from(totals)))
}
