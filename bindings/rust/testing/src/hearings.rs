//! Every choice of who was present, and the ways in which a hearing is refused.

use std::iter;
use std::ops::RangeInclusive;

use clockivy::words::place::{
    CARRY, DEMAND, FIRST, FIRST_PROBES, HI, LAST, LO, PAIRS, PROBES, ROUND, SEARCH, SUPPLY,
};
use clockivy::{Way, DEMAND_ROUND, OVER_ROUND, PAIRS_LEN, PRIME, SUPPLY_ROUND, TOTAL_LIMIT};

use crate::panel::message_len;

/// Every choice of who was present among so many.
pub fn choices(n: u64) -> impl Iterator<Item = Vec<u8>> {
    // The marks are the digits of a binary number that counts up.
    iter::successors(Some(vec![0; n as usize]), |present| {
        let place = present.iter().position(|&mark| mark == 0)?;
        let mut next = present.clone();
        next[..place].fill(0);
        next[place] = 1;
        Some(next)
    })
}

/// How many were present.
pub fn count(present: &[u8]) -> usize {
    present.iter().filter(|&&mark| mark == 1).count()
}

/// A hearing, with all that it is lent.
#[derive(Clone, Debug)]
pub struct Hearing {
    /// The party's record.
    pub record: Vec<u64>,
    /// The party's totals.
    pub totals: Vec<u64>,
    /// The party's sheets.
    pub sheets: Vec<u64>,
    /// A message of each party, one behind the other.
    pub messages: Vec<u64>,
    /// A mark of each party.
    pub present: Vec<u8>,
}

/// A change of a hearing, the number of the refusal that it then meets, and the
/// rounds in which it does.
type Change = (u64, Rounds, fn(&mut Hearing));
type Rounds = RangeInclusive<u64>;

const ANY: Rounds = 1..=SUPPLY_ROUND;
/// The rounds of a probe, in which a sheet is read.
const PROBE: Rounds = 1..=33;
/// The one of them whose messages are amounts.
const SUM: Rounds = 1..=1;
/// The rounds of the totals at the price.
const TOTALS: Rounds = DEMAND_ROUND..=SUPPLY_ROUND;

/// In the order in which they are judged.
const CHANGES: [Change; 41] = [
    (1, ANY, |h| put(&mut h.record, CARRY, 256)),
    (1, ANY, |h| put(&mut h.record, PAIRS, 256)),
    (1, ANY, |h| {
        put(&mut h.record, PAIRS + PAIRS_LEN - 1, u64::MAX)
    }),
    (1, ANY, |h| put(&mut h.record, LAST, 8)),
    (1, ANY, |h| put(&mut h.record, DEMAND, TOTAL_LIMIT)),
    (1, ANY, |h| {
        let demand = h.record.get(DEMAND).copied().unwrap_or(0);
        put(&mut h.record, SUPPLY, demand + 1);
    }),
    (1, ANY, |h| put(&mut h.present, 0, 2)),
    (1, ANY, |h| put(&mut h.present, 2, 255)),
    (1, ANY, |h| put(&mut h.present, 3, 128)),
    // In a slice that is too long.
    (1, ANY, |h| {
        h.present.resize(9, 1);
        put(&mut h.present, 1, 3);
    }),
    (2, ANY, |h| h.totals.clear()),
    (2, ANY, |h| h.totals.push(0)),
    (2, ANY, |h| h.totals.resize(4_000, 0)),
    (2, ANY, |h| h.sheets.truncate(sheet_len(h))),
    (2, ANY, |h| h.sheets.push(0)),
    (2, ANY, |h| h.sheets.resize(9_000, 0)),
    (2, ANY, |h| h.messages.truncate(4)),
    (2, ANY, |h| h.messages.resize(6, 0)),
    // Those of another round.
    (2, ANY, |h| {
        let length = 2 * h.messages.len();
        h.messages.resize(length, 0);
    }),
    (2, ANY, |h| h.present.truncate(4)),
    (2, ANY, |h| h.present.resize(6, 0)),
    // The first search has given 0, and with that all is over.
    (3, PROBE, |h| {
        let probes = h.record.get(PROBES).copied().unwrap_or(0);
        let fields = [
            (LO, 0),
            (HI, 1),
            (SEARCH, 2),
            (FIRST, 0),
            (FIRST_PROBES, probes),
        ];
        for (place, word) in fields {
            put(&mut h.record, place, word);
        }
    }),
    // Both totals are opened.
    (3, TOTALS, |h| put(&mut h.record, ROUND, OVER_ROUND)),
    (15, ANY, |h| take_marks(h, &[0, 1, 2])),
    (15, ANY, |h| take_marks(h, &[1, 2, 4])),
    (15, ANY, |h| take_marks(h, &[1, 3])),
    (15, ANY, |h| take_marks(h, &[0, 1, 2, 3, 4])),
    // At every index, and in every sheet: whichever the party has come to.
    (8, SUM, |h| fill_demand(h, PRIME)),
    (8, SUM, |h| fill_supply(h, u64::MAX)),
    (8, DEMAND_ROUND..=DEMAND_ROUND, |h| fill_demand(h, PRIME)),
    (8, SUPPLY_ROUND..=SUPPLY_ROUND, |h| fill_supply(h, u64::MAX)),
    (8, PROBE, |h| put_in_sheets(h, 0, PRIME)),
    (8, PROBE, |h| put_in_sheets(h, sheet_len(h) - 1, 256)),
    (9, ANY, |h| add_to_word(h, 3, 0)),
    (9, ANY, |h| add_to_word(h, 3, message_len(&h.record) - 1)),
    (9, ANY, |h| put_word(h, 3, 0, 12_345)),
    (9, ANY, |h| put_word(h, 3, 0, u64::MAX)),
    (10, ANY, |h| put_word(h, 0, 0, PRIME)),
    (10, ANY, |h| {
        put_word(h, 4, message_len(&h.record) - 1, u64::MAX)
    }),
    (10, ANY, |h| add_to_word(h, 1, 0)),
    (10, ANY, |h| add_to_word(h, 1, message_len(&h.record) - 1)),
];

/// A hearing changed in every way to be refused and in any two of them, made in
/// either order; each with the number of its refusal, which is that of the way judged
/// first. The hearing is that of the fourth of five parties in the first probe of the
/// first search, or in round 34 or 35, all but the third being present, and its
/// messages open.
pub fn refused(good: &Hearing) -> impl Iterator<Item = (Hearing, u64)> + '_ {
    let round = good.record[ROUND];
    let ways = move || {
        let all = CHANGES.into_iter().enumerate();
        all.filter(move |(_, (_, rounds, _))| rounds.contains(&round))
    };
    let pairs = ways().flat_map(move |one| ways().map(move |other| (one.clone(), other)));
    pairs.map(
        |((place, (number, _, change)), (other_place, (other, _, another)))| {
            let mut hearing = good.clone();
            change(&mut hearing);
            if place != other_place {
                another(&mut hearing);
            }
            let first = if place < other_place { number } else { other };
            (hearing, first)
        },
    )
}

/// Puts a word into every place of the demand.
fn fill_demand(hearing: &mut Hearing, word: u64) {
    let k = hearing.totals.len() / 2;
    hearing.totals[..k].fill(word);
}

/// Puts a word into every place of the supply.
fn fill_supply(hearing: &mut Hearing, word: u64) {
    let k = hearing.totals.len() / 2;
    hearing.totals[k..].fill(word);
}

/// Writes an element, where there is such a place.
fn put<T>(slice: &mut [T], place: usize, element: T) {
    if let Some(found) = slice.get_mut(place) {
        *found = element;
    }
}

/// The words of a sheet by the record; 1 where it has no way.
fn sheet_len(hearing: &Hearing) -> usize {
    let way = hearing.record.get(LAST).copied().and_then(Way::from_rounds);
    way.map_or(1, Way::sheet_len)
}

fn put_in_sheets(hearing: &mut Hearing, place: usize, word: u64) {
    let length = sheet_len(hearing);
    for sheet in hearing.sheets.chunks_mut(length) {
        put(sheet, place, word);
    }
}

/// Puts a word into a message: that of the party in this place.
fn put_word(hearing: &mut Hearing, party: usize, place: usize, word: u64) {
    let first = party * message_len(&hearing.record);
    put(&mut hearing.messages, first + place, word);
}

/// Another word in it, one that is in range, or nearly so.
fn add_to_word(hearing: &mut Hearing, party: usize, place: usize) {
    let first = party * message_len(&hearing.record);
    let before = hearing.messages.get(first + place).copied().unwrap_or(0);
    put_word(hearing, party, place, before.wrapping_add(1) % PRIME);
}

/// Those in these places were not present. What is no mark stays.
fn take_marks(hearing: &mut Hearing, places: &[usize]) {
    for &place in places {
        if hearing.present.get(place) == Some(&1) {
            put(&mut hearing.present, place, 0);
        }
    }
}

#[cfg(test)]
mod tests {
    use super::choices;

    #[test]
    fn every_choice_comes_up_once() {
        assert_eq!(choices(0).collect::<Vec<_>>(), [[]]);
        let expected = [[0, 0], [1, 0], [0, 1], [1, 1]];
        assert_eq!(choices(2).collect::<Vec<_>>(), expected);
        let mut all: Vec<_> = choices(9).collect();
        assert!(all.iter().flatten().all(|&mark| mark <= 1));
        all.sort();
        all.dedup();
        assert_eq!(all.len(), 512);
    }
}
