//! When a record's searches, its round, its totals, its way and its pairs are within
//! their ranges, number by number; and what a buyer gets by such a record.

use clockivy_reference::{
    answer, fill, probe_limit, sheet_count, MAX_AMOUNT, PAIRS as PAIR_WORDS, RECORD, ROUNDS_33,
    WAYS,
};
use clockivy_testing::place::{
    DEMAND, FIRST, FIRST_PROBES, HI, K, LAST, LO, N, OWN, PAIRS, PROBES, ROUND, SEARCH, SUPPLY,
};

/// A record among three parties over five prices, which take at most three
/// probes: lo, hi, probes, then search, first and its probes.
fn record([lo, hi, probes, search, first, first_probes]: [u64; 6]) -> [u64; RECORD] {
    // Where the searches have ended with a price, the totals are opened too.
    let ended = search == 2 && hi.wrapping_sub(lo) == 1;
    let round = if ended && first > 0 { 36 } else { 1 };
    clockivy_testing::record(&[
        (N, 3),
        (OWN, 1),
        (K, 5),
        (LO, lo),
        (HI, hi),
        (PROBES, probes),
        (ROUND, round),
        (SEARCH, search),
        (FIRST, first),
        (FIRST_PROBES, first_probes),
        (LAST, ROUNDS_33),
    ])
}

/// What asking for the answer replies, and the answer.
fn asked(numbers: [u64; 6]) -> (u64, u64, u64) {
    asked_of(&record(numbers))
}

fn asked_of(record: &[u64; RECORD]) -> (u64, u64, u64) {
    let (mut index, mut probes) = (77, 88);
    let reply = answer(record, &mut index, &mut probes);
    (reply, index, probes)
}

/// What asking for a fill replies, and the fill.
fn filled(record: &[u64; RECORD], amount: u64) -> (u64, u64, u64) {
    let (mut tenths, mut remainder) = (77, 88);
    let reply = fill(record, amount, &mut tenths, &mut remainder);
    (reply, tenths, remainder)
}

const SOUND: u64 = 3;
const REFUSED: (u64, u64, u64) = (1, 77, 88);
const NOT_CLEARED: (u64, u64, u64) = (16, 77, 88);

#[test]
fn the_first_search() {
    assert_eq!([probe_limit(5), sheet_count(5)], [3, 6]);
    // Sound, so that the answer is out of turn.
    for numbers in [
        [0, 6, 0, 1, 0, 0],
        [4, 6, 2, 1, 0, 0],
        [0, 2, 2, 1, 0, 0],
        [3, 5, 0, 1, 0, 0],
    ] {
        assert_eq!(asked(numbers), (SOUND, 77, 88));
    }
    for numbers in [
        // lo is not below hi, or hi is past the list.
        [3, 3, 0, 1, 0, 0],
        [4, 3, 0, 1, 0, 0],
        [u64::MAX, 3, 0, 1, 0, 0],
        [0, 0, 0, 1, 0, 0],
        [0, 7, 0, 1, 0, 0],
        [0, u64::MAX, 0, 1, 0, 0],
        // Too many probes.
        [0, 6, 3, 1, 0, 0],
        [0, 6, 4, 1, 0, 0],
        [0, 6, u64::MAX, 1, 0, 0],
        // It has ended.
        [0, 1, 0, 1, 0, 0],
        [2, 3, 2, 1, 0, 0],
        [2, 3, 3, 1, 0, 0],
        [5, 6, 3, 1, 0, 0],
        // What the first gave, before it ends.
        [0, 6, 0, 1, 1, 0],
        [0, 6, 0, 1, 5, 0],
        [0, 6, 0, 1, u64::MAX, 0],
        [0, 6, 0, 1, 0, 1],
        [0, 6, 2, 1, 0, 2],
        [0, 6, 0, 1, 0, u64::MAX],
    ] {
        assert_eq!(asked(numbers), REFUSED, "{numbers:?}");
    }
}

#[test]
fn the_second_search() {
    for numbers in [
        [0, 6, 3, 2, 5, 3],
        [0, 6, 0, 2, 5, 0],
        [0, 6, 2, 2, 5, 0],
        [0, 6, 5, 2, 5, 3],
        // Over three prices it makes at most two probes.
        [0, 4, 4, 2, 3, 3],
        [2, 4, 3, 2, 3, 2],
    ] {
        assert_eq!(asked(numbers), (SOUND, 77, 88));
    }
    for (numbers, index) in [
        // An ended one is sound, with any number of probes up to its limit.
        ([0, 1, 3, 2, 0, 3], 0),
        ([0, 1, 0, 2, 0, 0], 0),
        ([0, 1, 3, 2, 5, 3], 3),
        ([0, 1, 6, 2, 5, 3], 3),
        ([1, 2, 6, 2, 5, 3], 3),
        ([2, 3, 6, 2, 5, 3], 4),
        ([3, 4, 6, 2, 5, 3], 4),
        ([4, 5, 6, 2, 5, 3], 5),
        ([5, 6, 6, 2, 5, 3], 5),
        ([2, 3, 5, 2, 3, 3], 3),
        ([3, 4, 5, 2, 3, 3], 3),
    ] {
        assert_eq!(asked(numbers), (0, index, numbers[2]), "{numbers:?}");
    }
}

#[test]
fn a_second_search_out_of_range() {
    for numbers in [
        // The first gave more than there is.
        [0, 6, 3, 2, 6, 3],
        [0, 1, 3, 2, 6, 3],
        [0, 6, 3, 2, u64::MAX, 3],
        // Its probes are above their limit, or above all probes.
        [0, 6, 4, 2, 5, 4],
        [0, 6, u64::MAX, 2, 5, u64::MAX],
        [0, 6, 2, 2, 5, 3],
        [0, 6, 0, 2, 5, 1],
        [0, 1, 2, 2, 0, 3],
        // The second's own probes are above their limit, or at it too early.
        [0, 1, 4, 2, 0, 3],
        [2, 3, 6, 2, 3, 3],
        [5, 6, 7, 2, 5, 3],
        [5, 6, u64::MAX, 2, 5, 3],
        [0, 6, 6, 2, 5, 3],
        [3, 5, 6, 2, 5, 3],
        [2, 4, 5, 2, 3, 3],
        // hi is past one more than the first gave, or lo is not below hi.
        [0, 5, 3, 2, 3, 3],
        [4, 5, 3, 2, 3, 3],
        [0, 2, 3, 2, 0, 3],
        [1, 2, 3, 2, 0, 3],
        [0, u64::MAX, 3, 2, 5, 3],
        [2, 2, 3, 2, 5, 3],
        [3, 2, 3, 2, 5, 3],
        [0, 0, 3, 2, 5, 3],
        [u64::MAX, 0, 3, 2, 5, 3],
    ] {
        assert_eq!(asked(numbers), REFUSED, "{numbers:?}");
    }
}

#[test]
fn no_other_search() {
    for search in [0, 3, 4, 1 << 32, u64::MAX] {
        for numbers in [[0, 6, 0, search, 0, 0], [0, 1, 3, search, 0, 3]] {
            assert_eq!(asked(numbers), REFUSED);
        }
    }
}

/// The same record in another round, and with totals.
fn totalled(numbers: [u64; 6], [round, demand, supply]: [u64; 3]) -> [u64; RECORD] {
    let mut record = record(numbers);
    [record[ROUND], record[DEMAND], record[SUPPLY]] = [round, demand, supply];
    record
}

/// Searches that have ended with price 4, without one, and such as go on.
const ENDED: [u64; 6] = [2, 3, 6, 2, 5, 3];
const NO_PRICE: [u64; 6] = [0, 1, 3, 2, 0, 3];
const GOING_ON: [[u64; 6]; 2] = [[0, 6, 0, 1, 0, 0], [0, 6, 3, 2, 5, 3]];

#[test]
fn rounds_by_the_searches() {
    let most = u64::MAX;
    for round in (0..=40).chain([64, 290, 1 << 32, most]) {
        for last in WAYS {
            rounds_of_a_way(round, last);
        }
    }
}

fn rounds_of_a_way(round: u64, last: u64) {
    let totalled = |numbers| {
        let mut record = totalled(numbers, [round, 9, 9]);
        record[LAST] = last;
        record
    };
    let of_a_probe = (1..=last).contains(&round);
    for numbers in GOING_ON {
        let record = totalled(numbers);
        let reply = if of_a_probe { SOUND } else { 1 };
        assert_eq!(asked_of(&record), (reply, 77, 88));
        let reply = if of_a_probe { NOT_CLEARED } else { REFUSED };
        assert_eq!(filled(&record, 5), reply);
    }
    let record = totalled(NO_PRICE);
    let reply = if of_a_probe { (0, 0, 3) } else { REFUSED };
    assert_eq!(asked_of(&record), reply);
    let reply = if of_a_probe { NOT_CLEARED } else { REFUSED };
    assert_eq!(filled(&record, 5), reply);

    let record = totalled(ENDED);
    let (answered, filled_up) = match round {
        34 | 35 => ((SOUND, 77, 88), NOT_CLEARED),
        36 => ((0, 4, 6), (0, 5, 0)),
        _ => (REFUSED, REFUSED),
    };
    assert_eq!(asked_of(&record), answered);
    assert_eq!(filled(&record, 5), filled_up);
}

/// Records in every standing: with what they reply to asking for the answer.
const STANDINGS: [([u64; 6], u64, u64); 5] = [
    (GOING_ON[0], 1, SOUND),
    (GOING_ON[1], 7, SOUND),
    (NO_PRICE, 1, 0),
    (ENDED, 35, SOUND),
    (ENDED, 36, 0),
];

#[test]
fn no_other_way() {
    for (numbers, round, reply) in STANDINGS {
        let mut record = totalled(numbers, [round, 9, 9]);
        for last in (0..=70).chain([1 << 32, (1 << 32) + 7, 1 << 63, u64::MAX]) {
            record[LAST] = last;
            let number = if WAYS.contains(&last) { reply } else { 1 };
            assert_eq!(asked_of(&record).0, number, "{last}");
        }
    }
}

#[test]
fn pairs_of_a_record() {
    for (numbers, round, reply) in STANDINGS {
        for last in WAYS {
            for place in 0..PAIR_WORDS {
                // In every place, whichever the round, a byte is sound.
                for (share, number) in [(1, reply), (255, reply), (256, 1), (u64::MAX, 1)] {
                    let mut record = totalled(numbers, [round, 9, 9]);
                    record[LAST] = last;
                    record[PAIRS + place] = share;
                    assert_eq!(asked_of(&record).0, number, "{place}");
                }
            }
        }
    }
}

#[test]
fn totals_of_a_record() {
    let top = (1 << 32) - 1;
    let far = u64::MAX;
    for (numbers, round, reply) in [
        (GOING_ON[0], 1, SOUND),
        (GOING_ON[1], 33, SOUND),
        (NO_PRICE, 1, 0),
        (ENDED, 34, SOUND),
        (ENDED, 35, SOUND),
        (ENDED, 36, 0),
    ] {
        // Before they are opened any in range are sound.
        for [demand, supply] in [[0, 0], [1, 0], [7, 7], [top, 0], [top, top]] {
            let record = totalled(numbers, [round, demand, supply]);
            assert_eq!(asked_of(&record).0, reply);
        }
        for [demand, supply] in [
            [0, 1],
            [6, 7],
            [top - 1, top],
            [top + 1, 0],
            [top + 1, top],
            [top + 1, top + 1],
            [top, top + 1],
            [far, 0],
            [0, far],
            [far, far],
        ] {
            let record = totalled(numbers, [round, demand, supply]);
            assert_eq!(asked_of(&record), REFUSED);
            assert_eq!(filled(&record, 5), REFUSED);
        }
    }
}

#[test]
fn fills_and_their_remainders() {
    let filled = |demand, supply, amount| {
        let record = totalled(ENDED, [36, demand, supply]);
        filled(&record, amount)
    };
    assert_eq!(filled(20, 15, 20), (0, 15, 0));
    assert_eq!(filled(20, 15, 1), (0, 0, 15));
    assert_eq!(filled(20, 15, 7), (0, 5, 5));
    assert_eq!(filled(20, 0, 7), (0, 0, 0));
    for amount in [0, 1, MAX_AMOUNT] {
        assert_eq!(filled(0, 0, amount), (0, 0, 0));
        assert_eq!(filled(9, 9, amount), (0, amount, 0));
    }
    let top = (1 << 32) - 1;
    assert_eq!(filled(top, top, MAX_AMOUNT), (0, MAX_AMOUNT, 0));
    assert_eq!(
        filled(top, top - 1, MAX_AMOUNT),
        (0, MAX_AMOUNT - 1, top - MAX_AMOUNT)
    );
    assert_eq!(filled(1, 1, MAX_AMOUNT), (0, MAX_AMOUNT, 0));
    for amount in [MAX_AMOUNT + 1, 1 << 32, u64::MAX] {
        assert_eq!(filled(20, 15, amount), (6, 77, 88));
    }
}

/// First the record, then whether it has cleared, then the amount.
#[test]
fn a_fill_is_judged_in_its_order() {
    let large = MAX_AMOUNT + 1;
    let unsound = totalled(ENDED, [36, 6, 7]);
    assert_eq!(filled(&unsound, large), REFUSED);
    let early = totalled(ENDED, [35, 7, 7]);
    assert_eq!(filled(&early, large), NOT_CLEARED);
    assert_eq!(filled(&record(NO_PRICE), large), NOT_CLEARED);
    for length in [0, 29, RECORD - 1, RECORD + 1] {
        let (mut tenths, mut remainder) = (77, 88);
        let words = vec![u64::MAX; length];
        assert_eq!(fill(&words, large, &mut tenths, &mut remainder), 2);
        assert_eq!((tenths, remainder), (77, 88));
    }
}
