//! Parties with bids added and sheets dealt. The coins are the same each time, so that
//! a party can be had once more, with the same shares and the same sheets: for a test,
//! since it uses them again.

use clockivy::words::place::{LAST, ROUND};
use clockivy::{
    table_len, words, Collecting, Dealing, Entries, Message, Refusal, Seat, Sheets, Source,
    Speaking, Way, BLANK, RECORD_LEN, STORED_HEAD, VERSION,
};

/// Both ways to a verdict.
pub const WAYS: [Way; 2] = [Way::Rounds33, Way::Rounds7];
/// The way of tests in which it makes no difference.
pub const WAY: Way = WAYS[0];

/// A bidder's number and its table.
pub type Bid<'a> = (u64, &'a [u64]);

/// A source with a seed: SplitMix64 (Steele, Lea and Flood, 2014).
pub fn fixed(seed: u64) -> impl Source {
    let mut state = seed;
    move || {
        state = state.wrapping_add(0x9E37_79B9_7F4A_7C15);
        let mut mixed = state;
        mixed = (mixed ^ (mixed >> 30)).wrapping_mul(0xBF58_476D_1CE4_E5B9);
        mixed = (mixed ^ (mixed >> 27)).wrapping_mul(0x94D0_49BB_1331_11EB);
        Some(mixed ^ (mixed >> 31))
    }
}

/// The seat of one party of n.
pub fn seat(n: u64, own: u64, k: u64, way: Way) -> Seat {
    Seat { n, own, k, way }
}

/// The party of a seat that has these bids. A bid's coins go by its bidder.
pub fn collected(seat: Seat, bids: &[Bid]) -> Collecting {
    let Seat { n, own, k, way: _ } = seat;
    let mut session = Collecting::open(seat).expect("the seat is one");
    for &(bidder, table) in bids {
        let shares = split_for_all(n, k, table, &mut fixed(bidder));
        let own = &shares[(own as usize - 1) * table_len(k)..][..table_len(k)];
        session.add(bidder, own).expect("the bid is one");
    }
    session
}

/// All parties' shares of a bid.
fn split_for_all(n: u64, k: u64, table: &[u64], source: &mut impl Source) -> Vec<u64> {
    let mut shares = vec![BLANK; n as usize * table_len(k)];
    let entries = Entries::new(n, k, table, &mut shares, source);
    entries
        .and_then(Entries::write_all)
        .expect("the table is one");
    shares
}

/// The sheets of the party of a seat.
pub fn sheets(seat: Seat) -> Sheets {
    let Seat { n, own, k, way } = seat;
    dealt(n, k, way).swap_remove(own as usize - 1)
}

fn dealt(n: u64, k: u64, way: Way) -> Vec<Sheets> {
    let mut source = fixed(1_000 * n + k);
    Dealing::new(n, k, way, &mut source)
        .and_then(Dealing::deal_all)
        .expect("there are such parties")
}

/// All parties that have these bids, about to speak.
pub fn panel(n: u64, k: u64, way: Way, bids: &[Bid]) -> Vec<Speaking> {
    let sessions = (1..=n).map(|own| collected(seat(n, own, k, way), bids));
    sessions
        .zip(dealt(n, k, way))
        .map(|(session, sheets)| session.speak(sheets))
        .collect()
}

/// What all parties say.
pub fn said(parties: &[Speaking]) -> Vec<Option<Message>> {
    let say = |party: &Speaking| Some(party.say().expect("it is its turn"));
    parties.iter().map(say).collect()
}

/// Everybody says a message and hears all.
pub fn round(parties: &mut [Speaking]) {
    let round = said(parties);
    for party in parties {
        party.hear(&round).expect("the round is one");
    }
}

/// Rounds until this one is next, or the auction is over.
pub fn go_on_until(parties: &mut [Speaking], number: u64) {
    let is_over = |party: &Speaking| party.outcome().expect("the record is one").is_some();
    while !is_over(&parties[0]) && parties[0].record().round != number {
        round(parties);
    }
}

/// A round in which everybody is present and says one of these words, whatever they are.
pub fn from_all(messages: &[u64]) -> Vec<Option<&[u64]>> {
    messages.chunks(1).map(Some).collect()
}

/// A round in which those whose mark is 1 are present and say these words, whatever they
/// are. They stand party by party, with equally many for each mark.
pub fn from_marked<'a>(messages: &'a [u64], present: &[u8]) -> Vec<Option<&'a [u64]>> {
    let length = messages.len() / present.len();
    let one = |(message, &mark): (&'a [u64], &u8)| (mark == 1).then_some(message);
    messages.chunks(length).zip(present).map(one).collect()
}

/// The words of a message in the round that a record stands at; 1 where the record has
/// no way.
pub fn message_len(record: &[u64]) -> usize {
    let way = record.get(LAST).and_then(|&last| Way::from_rounds(last));
    way.map_or(1, |way| way.message_len(record[ROUND]))
}

/// A record with these words in their places, and 0 in all others.
pub fn record(fields: &[(usize, u64)]) -> [u64; RECORD_LEN] {
    let mut record = [0; RECORD_LEN];
    for &(place, word) in fields {
        record[place] = word;
    }
    record
}

/// The words of a session of this phase, with this record and these totals.
pub fn stored(phase: u64, record: &[u64], totals: &[u64]) -> Vec<u64> {
    [&[VERSION, phase], record, totals].concat()
}

/// The record and the totals of a stored session.
pub fn parts(stored: &[u64]) -> (&[u64], &[u64]) {
    stored[STORED_HEAD..].split_at(RECORD_LEN)
}

/// A party on plain words. It has whatever totals and sheets a test gives it, where the
/// types allow only what was collected and dealt.
#[derive(Clone, Debug, PartialEq, Eq)]
pub struct Plain {
    /// The party's record.
    pub record: Vec<u64>,
    /// The party's totals.
    pub totals: Vec<u64>,
    /// The party's sheets.
    pub sheets: Vec<u64>,
}

impl Plain {
    /// The party of a stored session, with these sheets.
    pub fn resume(stored: &[u64], sheets: &[u64]) -> Plain {
        let (record, totals) = parts(stored);
        Plain {
            record: record.to_vec(),
            totals: totals.to_vec(),
            sheets: sheets.to_vec(),
        }
    }

    /// Its message of the current round.
    pub fn say(&self) -> Result<Vec<u64>, Refusal> {
        let mut message = vec![BLANK; message_len(&self.record)];
        let number = words::say(&self.record, &self.totals, &self.sheets, &mut message);
        reply(number).map(|()| message)
    }

    /// Takes the messages of those whose mark is 1, one behind the other.
    pub fn hear(&mut self, messages: &[u64], present: &[u8]) -> Result<(), Refusal> {
        let (totals, sheets) = (&self.totals, &self.sheets);
        reply(words::hear(
            &mut self.record,
            totals,
            sheets,
            messages,
            present,
        ))
    }
}

/// Everybody on plain words says a message and hears all.
pub fn plain_round(parties: &mut [Plain]) {
    let say = |party: &Plain| party.say().expect("it is its turn");
    let messages: Vec<u64> = parties.iter().flat_map(say).collect();
    let present = vec![1; parties.len()];
    for party in parties {
        party.hear(&messages, &present).expect("the round is one");
    }
}

/// What a call on plain words replies, as a result.
pub fn reply(number: u64) -> Result<(), Refusal> {
    match number {
        0 => Ok(()),
        _ => Err(Refusal::from_number(number).expect("it is a refusal's")),
    }
}
