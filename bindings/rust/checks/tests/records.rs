//! Every clause by which a record is sound, broken by itself, on every call that
//! judges a record and on both implementations; and sound records beside them. Then
//! slices of another length, and every way in which a fill is refused.

mod both;

use both::reply;
use clockivy::words::place::{DEMAND, LAST, PAIRS, ROUND, SUPPLY};
use clockivy::{PAIRS_LEN, RECORD_LEN};
use clockivy_checks::call::{Call, Kind};
use clockivy_checks::generate::{call, first_search, second_search};
use clockivy_checks::record::has_cleared;
use clockivy_checks::rng::Rng;
use clockivy_checks::soundness::{found, name, Found, CLAUSES, LARGE_PAIR, NO_WAYS};
use clockivy_reference::{
    DEMAND_ROUND, MAX_AMOUNT, NO_MORE_ROUNDS, ROUNDS_33, ROUNDS_7, TOTAL_LIMIT,
};

/// A call of this kind whose record is sound.
fn sound(rng: &mut Rng, kind: Kind) -> Call {
    loop {
        let call = call(rng, kind);
        if matches!(call.judged_record().map(found), Some(Found::Sound(_))) {
            return call;
        }
    }
}

#[test]
fn each_clause_broken_by_itself_is_refused() {
    let mut rng = Rng::new(1999);
    for clause in &CLAUSES {
        for kind in Kind::ON_RECORDS {
            for _ in 0..300 {
                let mut call = sound(&mut rng, kind);
                clause.break_in(&mut rng, &mut call.words[0]);
                let found = found(&call.words[0]);
                let Found::Broken(broken) = found else {
                    panic!("{}: {found:?} in\n{call}", clause.name);
                };
                assert_eq!(name(broken), clause.name);
                assert_eq!(reply(&call), 1, "{}", clause.name);
            }
        }
    }
}

#[test]
fn any_two_clauses_broken_are_refused() {
    let mut rng = Rng::new(2001);
    for one in &CLAUSES {
        for other in &CLAUSES {
            for kind in Kind::ON_RECORDS {
                let mut call = sound(&mut rng, kind);
                one.break_in(&mut rng, &mut call.words[0]);
                other.break_in(&mut rng, &mut call.words[0]);
                assert_eq!(reply(&call), 1, "{}, {}", one.name, other.name);
            }
        }
    }
}

/// In every place, and on both ways: a pair share of 255 is sound and one of 256 is
/// not; and no other way is one.
#[test]
fn every_pair_share_and_any_other_way() {
    let mut rng = Rng::new(2002);
    for kind in Kind::ON_RECORDS {
        for place in 0..PAIRS_LEN {
            for last in [ROUNDS_33, ROUNDS_7] {
                let mut call = sound_on(&mut rng, kind, last);
                call.words[0][PAIRS + place] = 255;
                assert!(matches!(found(&call.words[0]), Found::Sound(_)), "{call}");
                reply(&call);
                for share in [256, 257, 511, 512, 1 << 32, 1 << 63, u64::MAX] {
                    call.words[0][PAIRS + place] = share;
                    let Found::Broken(broken) = found(&call.words[0]) else {
                        panic!("it is sound, {call}");
                    };
                    assert_eq!((name(broken), reply(&call)), (LARGE_PAIR, 1));
                }
            }
        }
        for last in NO_WAYS.into_iter().chain(9..32) {
            let mut call = sound(&mut rng, kind);
            call.words[0][LAST] = last;
            assert_eq!(reply(&call), 1, "{call}");
        }
    }
}

/// A call of this kind whose record is sound and goes this way.
fn sound_on(rng: &mut Rng, kind: Kind, last: u64) -> Call {
    loop {
        let call = sound(rng, kind);
        if call.words[0][LAST] == last {
            return call;
        }
    }
}

/// A search put into a sound record leaves it sound, and it is not refused with
/// 1 but for a bidder's number or a mark.
#[test]
fn sound_searches() {
    let mut rng = Rng::new(2003);
    for search in [first_search, second_search] {
        for kind in Kind::ON_RECORDS {
            for _ in 0..300 {
                let mut call = sound(&mut rng, kind);
                search(&mut rng, &mut call.words[0]);
                call.bidder = call.bidder.clamp(1, 1_000);
                call.bytes.iter_mut().for_each(|mark| *mark %= 2);
                assert!(matches!(found(&call.words[0]), Found::Sound(_)), "{call}");
                assert_ne!(reply(&call), 1, "{call}");
            }
        }
    }
}

/// Lent no record, a call judges what needs none, and then the length.
#[test]
fn another_length_than_a_record() {
    let mut rng = Rng::new(2008);
    for kind in Kind::LENT_RECORDS {
        for length in [0, 10, 26, 29, 31, 32, RECORD_LEN - 1, RECORD_LEN + 1] {
            let mut call = call(&mut rng, kind);
            call.words[kind.record().unwrap()].resize(length, 0);
            call.bidder = rng.pick(&[1, 1_000]);
            call.bytes.iter_mut().for_each(|mark| *mark %= 2);
            assert_eq!(reply(&call), 2, "{call}");
            for change in [no_panel, no_way, no_bidder, no_mark] {
                let mut other = call.clone();
                change(&mut other);
                let judged = !other.in_range_without_record();
                assert_eq!(reply(&other), if judged { 1 } else { 2 }, "{other}");
            }
        }
    }
}

fn no_panel(call: &mut Call) {
    call.numbers[1] = 0;
}

fn no_way(call: &mut Call) {
    call.last = 8;
}

fn no_bidder(call: &mut Call) {
    call.bidder = 1_001;
}

fn no_mark(call: &mut Call) {
    call.bytes.resize(3, 7);
    call.bytes[0] = 2;
}

/// A change that makes a good fill one that is refused, and with which number, in
/// the order in which they are judged.
type Change = (u64, fn(&mut Call));

const CHANGES: [Change; 18] = [
    // Without a record nothing else is judged.
    (2, |call| call.words[0].resize(0, 0)),
    (2, |call| call.words[0].resize(RECORD_LEN - 1, 0)),
    (2, |call| call.words[0].resize(RECORD_LEN + 1, 0)),
    (1, |call| put(call, DEMAND, TOTAL_LIMIT)),
    (1, |call| put(call, SUPPLY, TOTAL_LIMIT)),
    (1, |call| put(call, SUPPLY, 21)),
    (1, |call| put(call, LAST, 0)),
    (1, |call| put(call, LAST, DEMAND_ROUND)),
    (1, |call| put(call, PAIRS, 256)),
    (1, |call| put(call, PAIRS + PAIRS_LEN - 1, u64::MAX)),
    (1, |call| put(call, ROUND, ROUNDS_33)),
    (1, |call| put(call, ROUND, NO_MORE_ROUNDS + 1)),
    (1, |call| put(call, ROUND, u64::MAX)),
    (16, |call| put_round(call, DEMAND_ROUND)),
    (16, |call| put_round(call, NO_MORE_ROUNDS - 1)),
    (6, |call| call.amount = MAX_AMOUNT + 1),
    (6, |call| call.amount = 1 << 32),
    (6, |call| call.amount = u64::MAX),
];

/// Puts a word into the record, where it is long enough.
fn put(call: &mut Call, place: usize, word: u64) {
    if let Some(held) = call.words[0].get_mut(place) {
        *held = word;
    }
}

/// Another round, unless it is one that is none.
fn put_round(call: &mut Call, round: u64) {
    if call.words[0].get(ROUND) == Some(&NO_MORE_ROUNDS) {
        put(call, ROUND, round);
    }
}

/// A fill by a record with a price, demand 20 and supply 15.
fn good(rng: &mut Rng, amount: u64) -> Call {
    loop {
        let mut call = sound(rng, Kind::Fill);
        let record = &mut call.words[0];
        if has_cleared(record) {
            [record[ROUND], record[DEMAND], record[SUPPLY]] = [NO_MORE_ROUNDS, 20, 15];
            call.amount = amount;
            return call;
        }
    }
}

#[test]
fn every_way_to_be_refused_a_fill_and_any_two() {
    let mut rng = Rng::new(2007);
    for amount in [0, 1, 7, 20, MAX_AMOUNT] {
        assert_eq!(reply(&good(&mut rng, amount)), 0);
        for (place, (number, change)) in CHANGES.into_iter().enumerate() {
            let mut call = good(&mut rng, amount);
            change(&mut call);
            assert_eq!(reply(&call), number, "given\n{call}");
            for (number, change) in &CHANGES[place..] {
                let mut both = call.clone();
                change(&mut both);
                let first = CHANGES[place].0;
                assert_eq!(reply(&both), first, "{number} after\n{call}");
            }
        }
    }
}
