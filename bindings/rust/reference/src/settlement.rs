//! The settlement page: who wanted and got how many hours, and what is due for them,
//! a line for each bidder and side.

use crate::{
    need, AMOUNT_TOO_LARGE, HIGHEST_PRICE, LINE, MALFORMED, MAX_AMOUNT, MAX_BIDS, OUT_OF_RANGE,
    PAGE_TOO_SHORT, SETTLEMENT, WRONG_LENGTH,
};

/// The sides as they stand in their columns.
const SIDES: [&[u8; 6]; 2] = [b"   buy", b"  sell"];

/// What stands on one line.
struct Line {
    /// The number of the pair of amounts, from 0: two to a bidder, buy before sell.
    pair: usize,
    wanted: u64,
    got: u64,
}

pub(crate) fn write(
    price: u64,
    amounts: &[u64],
    page: &mut [u8],
    written: &mut u64,
) -> Result<(), u64> {
    judge(price, amounts)?;
    let in_range = |pair: &[u64]| pair[0] <= MAX_AMOUNT && pair[1] <= pair[0];
    need(amounts.chunks_exact(2).all(in_range), AMOUNT_TOO_LARGE)?;
    let length = LINE * lines(amounts).count();
    need(length <= page.len(), PAGE_TOO_SHORT)?;
    for (columns, line) in page.chunks_exact_mut(LINE).zip(lines(amounts)) {
        line.put(price, columns);
    }
    *written = length as u64;
    Ok(())
}

pub(crate) fn read(price: u64, page: &[u8], amounts: &mut [u64]) -> Result<(), u64> {
    judge(price, amounts)?;
    need(page.len() % LINE == 0, MALFORMED)?;
    let mut found = [0; SETTLEMENT];
    // The first pair that a line may still be of.
    let mut next = 0;
    for columns in page.chunks_exact(LINE) {
        let line = Line::of(price, columns).ok_or(MALFORMED)?;
        need(line.pair >= next, MALFORMED)?;
        next = line.pair + 1;
        found[2 * line.pair] = line.wanted;
        found[2 * line.pair + 1] = line.got;
    }
    amounts.copy_from_slice(&found);
    Ok(())
}

/// Judges what both calls are given.
fn judge(price: u64, amounts: &[u64]) -> Result<(), u64> {
    need((1..=HIGHEST_PRICE).contains(&price), OUT_OF_RANGE)?;
    need(amounts.len() == SETTLEMENT, WRONG_LENGTH)
}

/// The lines of these amounts: what wants 0 has none.
fn lines(amounts: &[u64]) -> impl Iterator<Item = Line> + '_ {
    let pairs = amounts.chunks_exact(2).enumerate();
    let wanting = pairs.filter(|(_, words)| words[0] > 0);
    wanting.map(|(pair, words)| Line {
        pair,
        wanted: words[0],
        got: words[1],
    })
}

impl Line {
    /// Writes the line into its columns.
    fn put(&self, price: u64, columns: &mut [u8]) {
        columns.fill(b' ');
        put_number(&mut columns[..4], self.pair as u64 / 2 + 1);
        columns[4..10].copy_from_slice(SIDES[self.pair % 2]);
        put_tenths(&mut columns[10..22], b'.', self.wanted);
        put_tenths(&mut columns[22..34], b'.', self.got);
        put_tenths(&mut columns[34..60], b' ', self.got * price);
        columns[60] = b'\n';
    }

    /// The line in these columns, where they are those of one.
    fn of(price: u64, columns: &[u8]) -> Option<Line> {
        let bidder = number(&columns[..4])?;
        let side = SIDES.iter().position(|side| columns[4..10] == side[..])?;
        let wanted = tenths(&columns[10..22], b'.')?;
        let got = tenths(&columns[22..34], b'.')?;
        let due = tenths(&columns[34..60], b' ')?;
        let in_range =
            (1..=MAX_BIDS).contains(&bidder) && (1..=MAX_AMOUNT).contains(&wanted) && got <= wanted;
        (in_range && due == got * price && columns[60] == b'\n').then(|| Line {
            pair: 2 * (bidder as usize - 1) + side,
            wanted,
            got,
        })
    }
}

/// Writes a number at the right of its columns, which are spaces.
fn put_number(columns: &mut [u8], mut number: u64) {
    for column in columns.iter_mut().rev() {
        *column = b'0' + (number % 10) as u8;
        number /= 10;
        if number == 0 {
            break;
        }
    }
}

/// Writes tenths as a whole number, a mark and one digit.
fn put_tenths(columns: &mut [u8], mark: u8, tenths: u64) {
    if let [whole @ .., point, tenth] = columns {
        put_number(whole, tenths / 10);
        *point = mark;
        *tenth = b'0' + (tenths % 10) as u8;
    }
}

/// The number at the right of these columns, which are spaces else.
fn number(columns: &[u8]) -> Option<u64> {
    let start = columns.iter().position(|&column| column != b' ')?;
    match &columns[start..] {
        [b'0', _, ..] => None,
        digits => digits.iter().try_fold(0, |number: u64, &byte| {
            number.checked_mul(10)?.checked_add(digit(byte)?)
        }),
    }
}

/// The tenths in these columns.
fn tenths(columns: &[u8], mark: u8) -> Option<u64> {
    match columns {
        [whole @ .., point, tenth] if *point == mark => {
            number(whole)?.checked_mul(10)?.checked_add(digit(*tenth)?)
        }
        _ => None,
    }
}

fn digit(byte: u8) -> Option<u64> {
    byte.is_ascii_digit().then(|| u64::from(byte - b'0'))
}
