//! One call with everything that it is given and lent, as data: to be damaged,
//! made on either implementation, and compared afterwards.

use std::fmt;
use std::ops::{Deref, DerefMut};

use clockivy::{LINE_LEN, RECORD_LEN};
use clockivy_reference::{MAX_BIDS, MAX_PRICES, ROUNDS_7, WAYS};

use crate::engine::Engine;
use crate::record;

/// The eleven calls, in the order of the tables.
#[derive(Clone, Copy, Debug, PartialEq, Eq)]
pub enum Kind {
    /// Opens a session. Words: totals, record.
    Open,
    /// Splits a bid. Words: table, coins, shares.
    Split,
    /// Splits one entry of a bid. Words: table, coins, shares.
    SplitEntry,
    /// Writes preprocessing. Words: words, sheet. Bytes: bytes.
    Deal,
    /// Adds a bid. Words: record, totals, shares.
    Add,
    /// Says a message. Words: record, totals, sheets, the words said.
    Say,
    /// Hears the messages of those who were present. Words: record, totals,
    /// sheets, messages. Bytes: the marks.
    Hear,
    /// Asks for the answer. Words: record, the index, the probes.
    Answer,
    /// Asks for what a buyer gets. Words: record, the tenths, the remainder.
    Fill,
    /// Writes a settlement page. Words: amounts, the bytes written. Bytes: the page.
    SettlementWrite,
    /// Reads a settlement page. Words: amounts. Bytes: the page.
    SettlementRead,
}

impl Kind {
    /// All eleven.
    pub const ALL: [Kind; 11] = [
        Kind::Open,
        Kind::Split,
        Kind::SplitEntry,
        Kind::Deal,
        Kind::Add,
        Kind::Say,
        Kind::Hear,
        Kind::Answer,
        Kind::Fill,
        Kind::SettlementWrite,
        Kind::SettlementRead,
    ];

    /// The name in tables.
    pub fn name(self) -> &'static str {
        match self {
            Kind::Open => "open",
            Kind::Split => "split",
            Kind::SplitEntry => "split_entry",
            Kind::Deal => "deal",
            Kind::Add => "add",
            Kind::Say => "say",
            Kind::Hear => "hear",
            Kind::Answer => "answer",
            Kind::Fill => "fill",
            Kind::SettlementWrite => "settlement_write",
            Kind::SettlementRead => "settlement_read",
        }
    }

    /// The replies that the call can give.
    pub fn replies(self) -> &'static [u64] {
        match self {
            Kind::Open => &[0, 1, 2],
            Kind::Split | Kind::SplitEntry => &[0, 1, 2, 5, 6, 7],
            Kind::Deal => &[0, 1, 2, 5],
            Kind::Add => &[0, 1, 2, 3, 8, 14],
            Kind::Say => &[0, 1, 2, 3, 8],
            Kind::Hear => &[0, 1, 2, 3, 8, 9, 10, 11, 12, 15],
            Kind::Answer => &[0, 1, 2, 3],
            Kind::Fill => &[0, 1, 2, 6, 16],
            Kind::SettlementWrite => &[0, 1, 2, 6, 17],
            Kind::SettlementRead => &[0, 1, 2, 13],
        }
    }

    /// How many of the numbers n, own and k the call is given beside a record.
    pub fn numbers(self) -> usize {
        match self {
            Kind::Open | Kind::Split | Kind::SplitEntry => 3,
            Kind::Deal => 2,
            _ => 0,
        }
    }

    /// Whether the call is given the last round of a probe.
    pub fn has_last(self) -> bool {
        matches!(self, Kind::Open | Kind::Deal)
    }

    /// Whether the call goes one of the two ways: it is given the last round of a probe
    /// or a record, which has it.
    pub fn has_way(self) -> bool {
        self.has_last() || self.record().is_some()
    }

    /// Which of the word slices is the record.
    pub fn record(self) -> Option<usize> {
        match self {
            Kind::Open => Some(1),
            Kind::Add | Kind::Say | Kind::Hear | Kind::Answer | Kind::Fill => Some(0),
            _ => None,
        }
    }

    /// The calls that are lent a record.
    pub const LENT_RECORDS: [Kind; 6] = [
        Kind::Open,
        Kind::Add,
        Kind::Say,
        Kind::Hear,
        Kind::Answer,
        Kind::Fill,
    ];

    /// Those of them that judge something for which they need no record.
    pub const NEEDING_NONE: [Kind; 3] = [Kind::Open, Kind::Add, Kind::Hear];

    /// The calls that read a record, and so judge it.
    pub const ON_RECORDS: [Kind; 5] = [Kind::Add, Kind::Say, Kind::Hear, Kind::Answer, Kind::Fill];

    /// How many of the word slices have a length of their own; those after
    /// them are single words.
    pub fn slices(self) -> usize {
        match self {
            Kind::Open | Kind::Deal => 2,
            Kind::Split | Kind::SplitEntry | Kind::Add => 3,
            Kind::Say | Kind::Hear => 4,
            Kind::Answer | Kind::Fill | Kind::SettlementWrite | Kind::SettlementRead => 1,
        }
    }

    /// Whether the call is on a settlement page.
    pub fn has_page(self) -> bool {
        matches!(self, Kind::SettlementWrite | Kind::SettlementRead)
    }

    /// Whether the call is lent bytes.
    pub fn has_bytes(self) -> bool {
        matches!(self, Kind::Deal | Kind::Hear) || self.has_page()
    }
}

/// A lent slice with guard elements before and behind it. A store past either
/// end makes two buffers differ that should be the same.
#[derive(Clone, PartialEq)]
pub struct Lent<T> {
    guarded: Vec<T>,
}

/// The guard elements on each side.
const GUARD: usize = 4;

impl<T: Copy + From<u8>> Lent<T> {
    /// A slice with these contents.
    pub fn new(contents: &[T]) -> Lent<T> {
        let guard = [T::from(0xA5); GUARD];
        Lent {
            guarded: [&guard[..], contents, &guard].concat(),
        }
    }

    /// The slice with another length, filled up with `filler`.
    pub fn resize(&mut self, length: usize, filler: T) {
        let mut contents = self.to_vec();
        contents.resize(length, filler);
        *self = Lent::new(&contents);
    }
}

impl<T: Copy> Deref for Lent<T> {
    type Target = [T];

    fn deref(&self) -> &[T] {
        &self.guarded[GUARD..self.guarded.len() - GUARD]
    }
}

impl<T: Copy> DerefMut for Lent<T> {
    fn deref_mut(&mut self) -> &mut [T] {
        let end = self.guarded.len() - GUARD;
        &mut self.guarded[GUARD..end]
    }
}

/// A call.
#[derive(Clone, PartialEq)]
pub struct Call {
    /// Which one.
    pub kind: Kind,
    /// n, own and k; 0 where the call is not given them.
    pub numbers: [u64; 3],
    /// The last round of a probe, where the call [is given](Kind::has_last) it, else 0.
    pub last: u64,
    /// The entry that [`Kind::SplitEntry`] is given, else 0.
    pub entry: u64,
    /// The bidder that [`Kind::Add`] is given, else 0.
    pub bidder: u64,
    /// The amount that [`Kind::Fill`] is given, else 0.
    pub amount: u64,
    /// The price that a call on a settlement page is given, else 0.
    pub price: u64,
    /// The slices of words, and then the single words, in the order of the C
    /// declaration.
    pub words: Vec<Lent<u64>>,
    /// The bytes that [`Kind::Deal`] is lent, the marks that [`Kind::Hear`] is, or a
    /// settlement page.
    pub bytes: Lent<u8>,
}

impl Call {
    /// A call on words.
    pub fn new(kind: Kind, numbers: [u64; 3], words: &[&[u64]]) -> Call {
        Call {
            kind,
            numbers,
            last: 0,
            entry: 0,
            bidder: 0,
            amount: 0,
            price: 0,
            words: words.iter().map(|contents| Lent::new(contents)).collect(),
            bytes: Lent::new(&[]),
        }
    }

    /// Opens a session.
    pub fn open(n: u64, own: u64, k: u64, last: u64, totals: &[u64], record: &[u64]) -> Call {
        Call {
            last,
            ..Call::new(Kind::Open, [n, own, k], &[totals, record])
        }
    }

    /// Splits a bid.
    pub fn split(n: u64, own: u64, k: u64, table: &[u64], coins: &[u64], shares: &[u64]) -> Call {
        Call::new(Kind::Split, [n, own, k], &[table, coins, shares])
    }

    /// Splits one entry of a bid.
    pub fn split_entry(
        n: u64,
        own: u64,
        k: u64,
        entry: u64,
        table: &[u64],
        coins: &[u64],
        shares: &[u64],
    ) -> Call {
        Call {
            entry,
            ..Call::new(Kind::SplitEntry, [n, own, k], &[table, coins, shares])
        }
    }

    /// Writes preprocessing.
    pub fn deal(n: u64, own: u64, last: u64, words: &[u64], bytes: &[u8], sheet: &[u64]) -> Call {
        Call {
            last,
            bytes: Lent::new(bytes),
            ..Call::new(Kind::Deal, [n, own, 0], &[words, sheet])
        }
    }

    /// Adds a bid.
    pub fn add(record: &[u64], totals: &[u64], bidder: u64, shares: &[u64]) -> Call {
        Call {
            bidder,
            ..Call::new(Kind::Add, [0; 3], &[record, totals, shares])
        }
    }

    /// Says a message, into words that hold `messages`.
    pub fn say(record: &[u64], totals: &[u64], sheets: &[u64], messages: &[u64]) -> Call {
        Call::new(Kind::Say, [0; 3], &[record, totals, sheets, messages])
    }

    /// Hears the messages of those who were present.
    pub fn hear(
        record: &[u64],
        totals: &[u64],
        sheets: &[u64],
        messages: &[u64],
        present: &[u8],
    ) -> Call {
        Call {
            bytes: Lent::new(present),
            ..Call::new(Kind::Hear, [0; 3], &[record, totals, sheets, messages])
        }
    }

    /// Asks for the answer, into words that hold `index` and `probes`.
    pub fn answer(record: &[u64], index: u64, probes: u64) -> Call {
        Call::new(Kind::Answer, [0; 3], &[record, &[index], &[probes]])
    }

    /// Asks for what a buyer gets, into words that hold `tenths` and `remainder`.
    pub fn fill(record: &[u64], amount: u64, tenths: u64, remainder: u64) -> Call {
        Call {
            amount,
            ..Call::new(Kind::Fill, [0; 3], &[record, &[tenths], &[remainder]])
        }
    }

    /// Writes a settlement page into bytes that hold `page`, and their number into a
    /// word that holds `written`.
    pub fn settlement_write(price: u64, amounts: &[u64], page: &[u8], written: u64) -> Call {
        Call {
            price,
            bytes: Lent::new(page),
            ..Call::new(Kind::SettlementWrite, [0; 3], &[amounts, &[written]])
        }
    }

    /// Reads a settlement page, into words that hold `amounts`.
    pub fn settlement_read(price: u64, page: &[u8], amounts: &[u64]) -> Call {
        Call {
            price,
            bytes: Lent::new(page),
            ..Call::new(Kind::SettlementRead, [0; 3], &[amounts])
        }
    }

    /// The record that the call judges, where it has the length of one.
    pub fn judged_record(&self) -> Option<&[u64]> {
        let place = self.kind.record()?;
        let record = &self.words[place];
        (Kind::ON_RECORDS.contains(&self.kind) && record.len() == RECORD_LEN).then_some(record)
    }

    /// Whether the call is lent a record that has not the length of one.
    pub fn lacks_record(&self) -> bool {
        let place = self.kind.record();
        place.is_some_and(|place| self.words[place].len() != RECORD_LEN)
    }

    /// The place in [`WAYS`] of the way that the call goes, by its record or by the last
    /// round that it is given: the first where it is another, or none.
    pub fn way(&self) -> usize {
        match self.judged_record() {
            Some(record) => record::way(record),
            None => usize::from(self.last == ROUNDS_7),
        }
    }

    /// Whether what the call judges without a record is within its range: the numbers
    /// of an opening, a bidder's number and the marks of a hearing.
    pub fn in_range_without_record(&self) -> bool {
        let [n, own, k] = self.numbers;
        match self.kind {
            Kind::Open => {
                let party = (3..=9).contains(&n) && (1..=n).contains(&own);
                party && (1..=MAX_PRICES).contains(&k) && WAYS.contains(&self.last)
            }
            Kind::Add => (1..=MAX_BIDS).contains(&self.bidder),
            Kind::Hear => self.bytes.iter().all(|&mark| mark <= 1),
            _ => true,
        }
    }

    /// Makes the call and gives the reply.
    pub fn run<E: Engine>(&mut self) -> u64 {
        let [n, own, k] = self.numbers;
        match (self.kind, &mut self.words[..]) {
            (Kind::Open, [totals, record]) => E::open(n, own, k, self.last, totals, record),
            (Kind::Split, [table, coins, shares]) => E::split(n, own, k, table, coins, shares),
            (Kind::SplitEntry, [table, coins, shares]) => {
                E::split_entry(n, own, k, self.entry, table, coins, shares)
            }
            (Kind::Deal, [words, sheet]) => E::deal(n, own, self.last, words, &self.bytes, sheet),
            (Kind::Add, [record, totals, shares]) => E::add(record, totals, self.bidder, shares),
            (Kind::Say, [record, totals, sheets, messages]) => {
                E::say(record, totals, sheets, messages)
            }
            (Kind::Hear, [record, totals, sheets, messages]) => {
                E::hear(record, totals, sheets, messages, &self.bytes)
            }
            (Kind::Answer, [record, index, probes]) => {
                E::answer(record, &mut index[0], &mut probes[0])
            }
            (Kind::Fill, [record, tenths, remainder]) => {
                E::fill(record, self.amount, &mut tenths[0], &mut remainder[0])
            }
            (Kind::SettlementWrite, [amounts, written]) => {
                E::settlement_write(self.price, amounts, &mut self.bytes, &mut written[0])
            }
            (Kind::SettlementRead, [amounts]) => {
                E::settlement_read(self.price, &self.bytes, amounts)
            }
            _ => unreachable!("each kind of call is made with its own buffers"),
        }
    }
}

impl fmt::Display for Call {
    fn fmt(&self, f: &mut fmt::Formatter<'_>) -> fmt::Result {
        write!(f, "{} {:?}", self.kind.name(), self.numbers)?;
        if self.kind.has_last() {
            write!(f, " last {}", self.last)?;
        }
        if self.kind == Kind::SplitEntry {
            write!(f, " entry {}", self.entry)?;
        }
        if self.kind == Kind::Add {
            write!(f, " bidder {}", self.bidder)?;
        }
        if self.kind == Kind::Fill {
            write!(f, " amount {}", self.amount)?;
        }
        if self.kind.has_page() {
            write!(f, " price {}", self.price)?;
        }
        for (place, words) in self.words.iter().enumerate() {
            // A record is shown whole.
            let is_record = self.kind.record() == Some(place);
            let most = if is_record { RECORD_LEN } else { SHOWN };
            write!(f, "\n  {} words: {}", words.len(), start(words, most))?;
        }
        if self.kind.has_page() {
            let lines = &self.bytes[..self.bytes.len().min(SHOWN * LINE_LEN)];
            let text = lines.escape_ascii();
            write!(f, "\n  {} bytes, as text: {text}", self.bytes.len())?;
        } else if self.kind.has_bytes() {
            let bytes = start(&self.bytes, SHOWN);
            write!(f, "\n  {} bytes: {bytes}", self.bytes.len())?;
        }
        Ok(())
    }
}

/// How many elements of a slice are shown, or lines of a page.
const SHOWN: usize = 12;

/// The first elements of a slice, so many at most.
fn start<T: fmt::Display>(slice: &[T], most: usize) -> String {
    let shown: Vec<String> = slice.iter().take(most).map(T::to_string).collect();
    let dots = if slice.len() > shown.len() { " .." } else { "" };
    shown.join(" ") + dots
}
