//! When a settlement page is laid out, fault by fault, and what the calls on pages reply
//! and leave: a statement beside those of the two implementations, by which these calls
//! are counted. Each fault can be made by itself in a page that has none.

use std::iter;
use std::ops::Range;
use std::str;

use clockivy::{LINE_LEN, SETTLEMENT_LEN};
use clockivy_reference::{HIGHEST_PRICE, MAX_AMOUNT, MAX_BIDS};

use crate::call::{Call, Kind};
use crate::formatted::{self, Row, SIDES};
use crate::rng::Rng;

/// The pairs of amounts: two for each bidder.
const PAIRS: usize = SETTLEMENT_LEN / 2;

/// The columns of a line.
const BIDDER: Range<usize> = 0..4;
const SIDE: Range<usize> = 4..10;
const WANTED: Range<usize> = 10..22;
const GOT: Range<usize> = 22..34;
const DUE: Range<usize> = 34..60;
const END: usize = 60;

/// What a line shows, and where it stands. What its columns do not show is none.
struct Shown {
    price: u128,
    /// The first pair of amounts that it may be of.
    next: usize,
    whole: bool,
    ended: bool,
    bidder: Option<u128>,
    side: Option<usize>,
    wanted: Option<u128>,
    got: Option<u128>,
    due: Option<u128>,
}

impl Shown {
    /// What the bytes of a line show, or what is left of it.
    fn of(price: u64, next: usize, line: &[u8]) -> Shown {
        let text = |columns: Range<usize>| str::from_utf8(line.get(columns)?).ok();
        let side = |side: &&str| text(SIDE) == Some(&format!("{side:>6}"));
        Shown {
            price: price.into(),
            next,
            whole: line.len() == LINE_LEN,
            ended: line.get(END) == Some(&b'\n'),
            bidder: text(BIDDER).and_then(number),
            side: SIDES.iter().position(side),
            wanted: text(WANTED).and_then(|columns| tenths(columns, '.')),
            got: text(GOT).and_then(|columns| tenths(columns, '.')),
            due: text(DUE).and_then(|columns| tenths(columns, ' ')),
        }
    }

    /// The number of its pair of amounts, where the bidder and the side are some.
    fn pair(&self) -> Option<usize> {
        let bidder = self.bidder?.checked_sub(1)? as usize;
        Some(2 * bidder + self.side?)
    }
}

/// The number that columns show: laid out anew, it has to be the same.
fn number(columns: &str) -> Option<u128> {
    let number: u128 = columns.trim_start().parse().ok()?;
    let width = columns.len();
    (format!("{number:>width$}") == columns).then_some(number)
}

/// The tenths that columns show: a number, a mark and a digit.
fn tenths(columns: &str, mark: char) -> Option<u128> {
    let (whole, tenth) = columns.rsplit_once(mark)?;
    let tenth = Some(tenth).filter(|digits| digits.len() == 1)?;
    Some(10 * number(whole)? + number(tenth)?)
}

/// Something that can be wrong with a line.
pub struct Fault {
    /// What is wrong.
    pub name: &'static str,
    found: fn(&Shown) -> bool,
    make: fn(&mut Rng, &mut Torn),
}

impl Fault {
    /// Makes the fault in some line of a page that is laid out at this price and has
    /// any: it is the first that is found.
    pub fn make(&self, rng: &mut Rng, price: u64, page: &mut Vec<u8>) {
        let line = rng.place(page.len() / LINE_LEN);
        (self.make)(rng, &mut Torn { price, page, line });
    }
}

/// All faults, in the order in which they are looked for.
pub const FAULTS: [Fault; 14] = [
    Fault {
        name: "the last line is cut off",
        found: |line| !line.whole,
        make: |rng, torn| {
            let left = torn.page.len() - rng.between(1, END as u64) as usize;
            torn.page.truncate(left);
        },
    },
    Fault {
        name: "no newline at the end of a line",
        found: |line| !line.ended,
        make: |rng, torn| torn.columns(END..LINE_LEN)[0] = rng.pick(b" \r\0.0\x0B\xFF"),
    },
    Fault {
        name: "the bidder is no number",
        found: |line| line.bidder.is_none(),
        make: |rng, torn| no_number(rng, torn.columns(BIDDER)),
    },
    Fault {
        name: "the bidder is 0 or above 1,000",
        found: |line| line.bidder == Some(0) || line.bidder > Some(MAX_BIDS.into()),
        make: |rng, torn| {
            let bidder = rng.pick(&[0, MAX_BIDS + 1, MAX_BIDS + 2, 2 * MAX_BIDS, 9_999]);
            torn.put(Row {
                bidder,
                ..torn.row()
            });
        },
    },
    Fault {
        name: "the side is neither",
        found: |line| line.side.is_none(),
        make: |rng, torn| {
            let other = rng.pick(&[
                "   Buy", "  SELL", "buy   ", " sell ", "  b uy", "   bid", "      ",
            ]);
            torn.columns(SIDE).copy_from_slice(other.as_bytes());
        },
    },
    Fault {
        name: "the hours wanted are none",
        found: |line| line.wanted.is_none(),
        make: |rng, torn| no_tenths(rng, torn.columns(WANTED)),
    },
    Fault {
        name: "nothing is wanted",
        found: |line| line.wanted == Some(0),
        make: |_, torn| {
            torn.put(Row {
                wanted: 0,
                got: 0,
                due: 0,
                ..torn.row()
            });
        },
    },
    Fault {
        name: "the hours wanted are above the largest amount",
        found: |line| line.wanted > Some(MAX_AMOUNT.into()),
        make: |rng, torn| {
            let row = torn.row();
            let wanted = above(rng, MAX_AMOUNT, row.wanted);
            torn.put(Row { wanted, ..row });
        },
    },
    Fault {
        name: "the hours got are none",
        found: |line| line.got.is_none(),
        make: |rng, torn| no_tenths(rng, torn.columns(GOT)),
    },
    Fault {
        name: "the hours got are above those wanted",
        found: |line| line.got > line.wanted,
        make: |rng, torn| {
            let row = torn.row();
            let got = above(rng, row.wanted, row.got);
            let due = got * torn.price;
            torn.put(Row { got, due, ..row });
        },
    },
    Fault {
        name: "the pence are none",
        found: |line| line.due.is_none(),
        make: |rng, torn| no_tenths(rng, torn.columns(DUE)),
    },
    Fault {
        name: "the pence are not those of the hours",
        found: |line| line.due != line.got.map(|got| got * line.price),
        make: |rng, torn| {
            let Row { got, due, .. } = torn.row();
            let at_other_price = got.max(1) * (torn.price + 1);
            let more = [1, 10, 1 << 32, 1 << 64, 10 << 64];
            let mut wrong = u128::from(due) + rng.pick(&more);
            match rng.below(8) {
                0 => wrong = at_other_price.into(),
                1 if due > 0 => wrong = 0,
                2..=3 if due > 0 => wrong = (due - 1).into(),
                _ => {}
            }
            let shown = format!("{:>24} {}", wrong / 10, wrong % 10);
            torn.columns(DUE).copy_from_slice(shown.as_bytes());
        },
    },
    Fault {
        name: "a line twice",
        found: |line| line.pair().map(|pair| pair + 1) == Some(line.next),
        make: |_, torn| torn.insert(torn.line + 1, torn.row()),
    },
    Fault {
        name: "a line after one of a later bidder or side",
        found: |line| line.pair() < Some(line.next),
        make: |_, torn| {
            let row = torn.row();
            let pair = 2 * (row.bidder as usize - 1) + row.side;
            match pair + 1 {
                PAIRS => torn.insert(torn.line + 1, row.of_pair(pair - 1)),
                later => torn.insert(torn.line, row.of_pair(later)),
            }
        },
    },
];

impl Row {
    /// The same amounts of another bidder or side.
    fn of_pair(self, pair: usize) -> Row {
        Row {
            bidder: pair as u64 / 2 + 1,
            side: pair % 2,
            ..self
        }
    }
}

/// A page to make a fault in, and the line that gets it.
struct Torn<'a> {
    price: u64,
    page: &'a mut Vec<u8>,
    line: usize,
}

impl Torn<'_> {
    fn columns(&mut self, columns: Range<usize>) -> &mut [u8] {
        &mut self.page[self.line * LINE_LEN..][columns]
    }

    /// What the line shows.
    fn row(&self) -> Row {
        let line = &self.page[self.line * LINE_LEN..][..LINE_LEN];
        let shown = Shown::of(self.price, 0, line);
        let known = |amount: Option<u128>| amount.expect("it is laid out") as u64;
        Row {
            bidder: known(shown.bidder),
            side: shown.side.expect("it is laid out"),
            wanted: known(shown.wanted),
            got: known(shown.got),
            due: known(shown.due),
        }
    }

    /// Has the line show something else.
    fn put(&mut self, row: Row) {
        let line = formatted::page(iter::once(row));
        self.columns(0..LINE_LEN).copy_from_slice(line.as_bytes());
    }

    /// Puts a line in.
    fn insert(&mut self, line: usize, row: Row) {
        let inserted = formatted::page(iter::once(row)).into_bytes();
        self.page.splice(line * LINE_LEN..line * LINE_LEN, inserted);
    }
}

/// Tenths above a limit that still fit their columns: just above it, or such that their
/// lower half is `low`.
fn above(rng: &mut Rng, limit: u64, low: u64) -> u64 {
    let any = rng.between(limit + 1, 99_999_999_999);
    rng.pick(&[limit + 1, limit + 1, limit + 10, any, low + (1 << 32)])
}

/// Has columns with a number at their right show none.
fn no_number(rng: &mut Rng, columns: &mut [u8]) {
    let spaces = columns.iter().take_while(|&&byte| byte == b' ').count();
    match rng.below(8) {
        0..=2 if spaces > 0 => columns[spaces - 1] = rng.pick(b"000+-,\t\0\xA0"),
        3..=4 if spaces > 0 => columns.rotate_left(1),
        5 => columns.fill(b' '),
        _ => columns[columns.len() - 1] = rng.pick(b" ./:OxaB\0\xFF"),
    }
}

/// Has columns with tenths at their right show none.
fn no_tenths(rng: &mut Rng, columns: &mut [u8]) {
    let last = columns.len() - 1;
    match rng.below(4) {
        0 => {
            let mark = columns[last - 1];
            let others: Vec<u8> = b" .,:0".iter().copied().filter(|&b| b != mark).collect();
            columns[last - 1] = rng.pick(&others);
        }
        1 => {
            // Two decimals.
            columns.rotate_left(1);
            columns[last] = rng.pick(b"05");
        }
        _ => no_number(rng, columns),
    }
}

/// The first fault of the first line that has any.
pub fn fault(price: u64, page: &[u8]) -> Option<usize> {
    let mut next = 0;
    page.chunks(LINE_LEN).find_map(|line| {
        let shown = Shown::of(price, next, line);
        next = shown.pair().map_or(next, |pair| pair + 1);
        FAULTS.iter().position(|fault| (fault.found)(&shown))
    })
}

/// What came of a call on a page, or why, beyond its reply.
struct Case {
    name: &'static str,
    kind: Kind,
    reply: u64,
    holds: fn(&Call) -> bool,
}

const CASES: [Case; 11] = [
    Case {
        name: "written: no line",
        kind: Kind::SettlementWrite,
        reply: 0,
        holds: |call| length(&call.words[0]) == 0,
    },
    Case {
        name: "written: every line there can be",
        kind: Kind::SettlementWrite,
        reply: 0,
        holds: |call| length(&call.words[0]) == PAIRS * LINE_LEN,
    },
    Case {
        name: "written: to the end of the page",
        kind: Kind::SettlementWrite,
        reply: 0,
        holds: |call| length(&call.words[0]) == call.bytes.len(),
    },
    Case {
        name: "written: with something left behind the lines",
        kind: Kind::SettlementWrite,
        reply: 0,
        holds: |call| length(&call.words[0]) < call.bytes.len(),
    },
    Case {
        name: "not written: an amount too large",
        kind: Kind::SettlementWrite,
        reply: 6,
        holds: |call| call.words[0].iter().any(|&amount| amount > MAX_AMOUNT),
    },
    Case {
        name: "not written: got above wanted",
        kind: Kind::SettlementWrite,
        reply: 6,
        holds: |call| call.words[0].iter().all(|&amount| amount <= MAX_AMOUNT),
    },
    Case {
        name: "not written: one byte short",
        kind: Kind::SettlementWrite,
        reply: 17,
        holds: |call| call.bytes.len() + 1 == length(&call.words[0]),
    },
    Case {
        name: "not written: no room at all",
        kind: Kind::SettlementWrite,
        reply: 17,
        holds: |call| call.bytes.is_empty(),
    },
    Case {
        name: "read: no line",
        kind: Kind::SettlementRead,
        reply: 0,
        holds: |call| call.bytes.is_empty(),
    },
    Case {
        name: "read: some lines",
        kind: Kind::SettlementRead,
        reply: 0,
        holds: |call| !call.bytes.is_empty() && call.bytes.len() < PAIRS * LINE_LEN,
    },
    Case {
        name: "read: every line there can be",
        kind: Kind::SettlementRead,
        reply: 0,
        holds: |call| call.bytes.len() == PAIRS * LINE_LEN,
    },
];

/// What calls on pages are counted by: the cases, then the faults.
pub const CONDITIONS: usize = CASES.len() + FAULTS.len();

/// The name of a condition.
pub fn name(condition: usize) -> &'static str {
    match condition.checked_sub(CASES.len()) {
        None => CASES[condition].name,
        Some(fault) => FAULTS[fault].name,
    }
}

/// The conditions of a call with this reply.
pub fn conditions(call: &Call, reply: u64) -> impl Iterator<Item = usize> + '_ {
    let case = move |&case: &usize| {
        let case = &CASES[case];
        (case.kind, case.reply) == (call.kind, reply) && (case.holds)(call)
    };
    let fault = match (call.kind, reply) {
        (Kind::SettlementRead, 13) => fault(call.price, &call.bytes),
        _ => None,
    };
    (0..CASES.len())
        .filter(case)
        .chain(fault.map(|fault| CASES.len() + fault))
}

/// The bytes of the lines of amounts.
pub fn length(amounts: &[u64]) -> usize {
    let wanted = amounts.iter().step_by(2);
    LINE_LEN * wanted.filter(|&&wanted| wanted > 0).count()
}

/// What a call on a page has to reply.
pub fn reply(call: &Call) -> u64 {
    let (amounts, page) = (&call.words[0], &call.bytes);
    let too_large = |pair: &[u64]| pair[0] > MAX_AMOUNT || pair[1] > pair[0];
    match call.kind {
        _ if !(1..=HIGHEST_PRICE).contains(&call.price) => 1,
        _ if amounts.len() != SETTLEMENT_LEN => 2,
        Kind::SettlementRead if fault(call.price, page).is_some() => 13,
        Kind::SettlementRead => 0,
        _ if amounts.chunks(2).any(too_large) => 6,
        _ if page.len() < length(amounts) => 17,
        _ => 0,
    }
}

/// Whether a call on a page that is accepted has left what it has to leave.
pub fn settled(call: &Call, left: &Call) -> bool {
    let amounts = &left.words[0];
    let page = formatted::page(formatted::rows(call.price, amounts)).into_bytes();
    match call.kind {
        Kind::SettlementRead => page == call.bytes[..],
        _ => {
            let rest = &call.bytes[page.len()..];
            left.words[1][0] == page.len() as u64 && left.bytes[..] == [&page, rest].concat()
        }
    }
}
