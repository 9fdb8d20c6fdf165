//! The settlement page by the formatting and parsing of the standard library, as a user
//! might write it who does not have the calls. The pages of both implementations are
//! held against it, and their time.

use std::fmt::Write;

use clockivy::{LINE_LEN, SETTLEMENT_LEN};
use clockivy_reference::MAX_AMOUNT;

/// The sides, in the order of the amounts.
pub const SIDES: [&str; 2] = ["buy", "sell"];

/// What stands on a line.
#[derive(Clone, Copy)]
pub struct Row {
    /// The bidder's number.
    pub bidder: u64,
    /// The place of the side in [`SIDES`].
    pub side: usize,
    /// Hours wanted, in tenths.
    pub wanted: u64,
    /// Hours got, in tenths.
    pub got: u64,
    /// Pence due, in tenths.
    pub due: u64,
}

/// The rows of amounts at a price: what wants 0 has none. All are in range.
pub fn rows(price: u64, amounts: &[u64]) -> impl Iterator<Item = Row> + '_ {
    let pairs = amounts.chunks_exact(2).enumerate();
    let wanting = pairs.filter(|(_, words)| words[0] > 0);
    wanting.map(move |(pair, words)| Row {
        bidder: pair as u64 / 2 + 1,
        side: pair % 2,
        wanted: words[0],
        got: words[1],
        due: words[1] * price,
    })
}

/// The lines of these rows.
pub fn page(rows: impl Iterator<Item = Row>) -> String {
    let mut page = String::new();
    write(rows, &mut page);
    page
}

/// Writes the lines of these rows behind what the page has.
pub fn write(rows: impl Iterator<Item = Row>, page: &mut String) {
    for row in rows {
        let Row {
            bidder,
            wanted,
            got,
            due,
            ..
        } = row;
        let written = writeln!(
            page,
            "{:>4}{:>6}{:>10}.{}{:>10}.{}{:>24} {}",
            bidder,
            SIDES[row.side],
            wanted / 10,
            wanted % 10,
            got / 10,
            got % 10,
            due / 10,
            due % 10
        );
        written.expect("a string takes all");
    }
}

/// The amounts that lay out to a page, where there are any: what stands on it is taken
/// for granted, and laid out anew.
pub fn read(price: u64, page: &[u8]) -> Option<Vec<u64>> {
    let text = std::str::from_utf8(page).ok()?;
    let mut amounts = vec![0; SETTLEMENT_LEN];
    for line in text.lines() {
        let mut words = line.split_whitespace();
        let bidder: u16 = words.next()?.parse().ok()?;
        let name = words.next()?;
        let side = SIDES.iter().position(|&side| side == name)?;
        let place = 4 * usize::from(bidder.checked_sub(1)?) + 2 * side;
        *amounts.get_mut(place)? = tenths(words.next()?)?;
        *amounts.get_mut(place + 1)? = tenths(words.next()?)?;
    }
    let in_range = |pair: &[u64]| pair[0] <= MAX_AMOUNT && pair[1] <= pair[0];
    if !amounts.chunks_exact(2).all(in_range) {
        return None;
    }
    let mut anew = String::with_capacity(page.len() + LINE_LEN);
    write(rows(price, &amounts), &mut anew);
    (anew.as_bytes() == page).then_some(amounts)
}

/// The tenths of hours that are shown with one decimal.
fn tenths(hours: &str) -> Option<u64> {
    let (whole, tenth) = hours.split_once('.')?;
    let whole: u64 = whole.parse().ok()?;
    whole.checked_mul(10)?.checked_add(tenth.parse().ok()?)
}
