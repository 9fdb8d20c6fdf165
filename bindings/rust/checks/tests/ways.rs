//! What a session and a deal are given of the way: any other number for its last round,
//! and every length, on both implementations; and that a deal of one way begins like
//! that of the other.

mod both;

use both::{made, reply};
use clockivy::words::place::{LAST, PAIRS};
use clockivy::{PAIRS_LEN, RECORD_LEN};
use clockivy_checks::call::Call;
use clockivy_checks::rng::Rng;
use clockivy_checks::soundness::NO_WAYS;
use clockivy_reference::field::amount::P;
use clockivy_reference::{drawn_len, sheet_len, threshold, MASK_LIMIT, ROUNDS_33, ROUNDS_7, WAYS};

/// The places of the slices of a deal.
const WORDS: usize = 0;
const SHEET: usize = 1;

fn deal(rng: &mut Rng, n: u64, last: u64) -> Call {
    let mut words = rng.words(1 + threshold(n), Rng::amount_share);
    words[0] = rng.mask();
    let bytes = rng.bytes(drawn_len(n, last));
    let own = rng.between(1, n);
    Call::deal(n, own, last, &words, &bytes, &vec![77; sheet_len(last)])
}

#[test]
fn any_last_round() {
    let mut rng = Rng::new(1979);
    for last in NO_WAYS.into_iter().chain(0..100).chain(WAYS) {
        let number = if WAYS.contains(&last) { 0 } else { 1 };
        for n in 3..=9 {
            let (totals, record) = ([9; 4], [9; RECORD_LEN]);
            let (opened, left) = made(&Call::open(n, n, 2, last, &totals, &record));
            assert_eq!(opened, number);
            if opened == 0 {
                assert_eq!(left.words[1][LAST], last);
                assert_eq!(left.words[1][PAIRS..], [0; PAIRS_LEN]);
            }
            assert_eq!(reply(&deal(&mut rng, n, last)), number);
            // Before any length.
            let number = if number == 1 { 1 } else { 2 };
            assert_eq!(reply(&Call::open(n, 1, 2, last, &[], &record)), number);
            assert_eq!(reply(&Call::open(n, 1, 2, last, &totals, &[])), number);
            assert_eq!(reply(&Call::deal(n, 1, last, &[], &[], &[])), number);
        }
    }
}

/// A change that makes a good deal one that is refused, and with which number.
type Change = (u64, fn(&mut Call));

const CHANGES: [Change; 17] = [
    (1, |call| call.numbers[0] = 2),
    (1, |call| call.numbers[0] = 10),
    (1, |call| call.numbers[1] = 0),
    (1, |call| call.numbers[1] = u64::MAX),
    (1, |call| call.last = 0),
    (1, |call| call.last = 34),
    (1, |call| call.last = u64::MAX),
    (2, |call| call.words[WORDS].resize(0, 0)),
    (2, |call| call.words[WORDS].resize(6, 0)),
    (2, |call| call.bytes.resize(0, 0)),
    (2, |call| call.bytes.resize(200, 0)),
    (2, |call| call.words[SHEET].resize(126, 0)),
    (2, |call| call.words[SHEET].resize(221, 0)),
    // The lengths of the other way.
    (2, |call| {
        let length = sheet_len(ROUNDS_33 + ROUNDS_7 - call.last.min(ROUNDS_33));
        call.words[SHEET].resize(length, 0);
    }),
    (5, |call| put(call, 0, MASK_LIMIT)),
    (5, |call| put(call, 0, u64::MAX)),
    (5, |call| put(call, 1, P)),
];

/// Puts a drawn word, where there is such a place.
fn put(call: &mut Call, place: usize, word: u64) {
    if let Some(held) = call.words[WORDS].get_mut(place) {
        *held = word;
    }
}

#[test]
fn every_way_to_be_refused_a_deal_and_any_two() {
    let mut rng = Rng::new(2010);
    for last in WAYS {
        for n in 3..=9 {
            let good = deal(&mut rng, n, last);
            assert_eq!(reply(&good), 0);
            for (number, change) in CHANGES {
                let mut call = good.clone();
                change(&mut call);
                assert_eq!(reply(&call), number, "given\n{call}");
                for (other, change) in CHANGES {
                    let mut both = call.clone();
                    change(&mut both);
                    assert_eq!(reply(&both), number.min(other), "given\n{both}");
                }
            }
        }
    }
}

/// Of the same mask and the same bytes a sheet of the longer list begins like one of
/// the shorter: the mask, its bits and the first 31 triples.
#[test]
fn both_ways_from_the_same_bytes() {
    let mut rng = Rng::new(2012);
    for n in 3..=9 {
        for _ in 0..100 {
            let seven = deal(&mut rng, n, ROUNDS_7);
            let [n, own, _] = seven.numbers;
            let bytes = &seven.bytes[..drawn_len(n, ROUNDS_33)];
            let words = &seven.words[WORDS];
            let other = Call::deal(n, own, ROUNDS_33, words, bytes, &[77; 127]);
            let [(done, long), (also_done, short)] = [made(&seven), made(&other)];
            assert_eq!([done, also_done], [0, 0]);
            assert_eq!(long.words[SHEET][..127], short.words[SHEET][..]);
        }
    }
}
