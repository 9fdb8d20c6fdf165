//! Every way in which one entry of a bid is refused, and any two of them at
//! once, on both implementations.

mod both;

use both::reply;
use clockivy_checks::call::Call;
use clockivy_reference::field::amount::P;
use clockivy_reference::{MAX_AMOUNT, MAX_PRICES};

/// The places of the slices.
const TABLE: usize = 0;
const COINS: usize = 1;
const SHARES: usize = 2;

/// A change that makes a good call one that is refused, and with which number.
type Change = (u64, fn(&mut Call));

const CHANGES: [Change; 30] = [
    (1, |call| call.numbers[0] = 2),
    (1, |call| call.numbers[0] = 10),
    (1, |call| call.numbers[0] = u64::MAX),
    (1, |call| call.numbers[1] = 0),
    (1, |call| call.numbers[1] = 6),
    (1, |call| call.numbers[1] = u64::MAX),
    (1, |call| call.numbers[2] = 0),
    (1, |call| call.numbers[2] = MAX_PRICES + 1),
    (1, |call| call.numbers[2] = (1 << 63) + 3),
    (1, |call| call.numbers[2] = u64::MAX),
    (1, |call| call.entry = 0),
    (1, |call| call.entry = 7),
    (1, |call| call.entry = (1 << 32) + 1),
    (1, |call| call.entry = u64::MAX),
    (2, |call| call.words[TABLE].resize(0, 0)),
    (2, |call| call.words[TABLE].resize(5, 0)),
    (2, |call| call.words[TABLE].resize(7, 0)),
    (2, |call| call.words[COINS].resize(0, 0)),
    (2, |call| call.words[COINS].resize(1, 0)),
    (2, |call| call.words[COINS].resize(3, 0)),
    (2, |call| call.words[COINS].resize(12, 0)),
    (2, |call| call.words[SHARES].resize(0, 0)),
    (2, |call| call.words[SHARES].resize(5, 0)),
    (2, |call| call.words[SHARES].resize(7, 0)),
    (5, |call| put(call, COINS, 0, P)),
    (5, |call| put(call, COINS, 1, u64::MAX)),
    (6, |call| put(call, TABLE, 0, MAX_AMOUNT + 1)),
    (6, |call| put(call, TABLE, 5, u64::MAX)),
    (7, |call| put(call, TABLE, 2, 6)),
    (7, |call| put(call, TABLE, 4, 8)),
];

/// Puts a word into a slice, where it is long enough.
fn put(call: &mut Call, slice: usize, place: usize, word: u64) {
    if let Some(held) = call.words[slice].get_mut(place) {
        *held = word;
    }
}

/// Five parties, three prices.
fn good(entry: u64) -> Call {
    let table = [9, 5, 5, 0, 2, 7];
    Call::split_entry(5, 4, 3, entry, &table, &[11, 12], &[u64::MAX; 6])
}

#[test]
fn every_way_to_be_refused_and_any_two() {
    for entry in 1..=6 {
        assert_eq!(reply(&good(entry)), 0);
        for (number, change) in CHANGES {
            let mut call = good(entry);
            change(&mut call);
            assert_eq!(reply(&call), number, "given\n{call}");
            for (other, change) in CHANGES {
                let mut both = call.clone();
                change(&mut both);
                assert_eq!(reply(&both), number.min(other), "given\n{both}");
            }
        }
    }
}
