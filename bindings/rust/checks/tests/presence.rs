//! Every choice of who was present, in every round of both ways, on both
//! implementations; every way in which a hearing is refused, and any two of them at
//! once; and how many words are said and heard.

mod both;

use both::{made, reply};
use clockivy::words::place::{FIRST, FIRST_PROBES, HI, K, LAST, LO, N, OWN, PROBES, ROUND, SEARCH};
use clockivy_checks::call::{Call, Kind};
use clockivy_checks::generate;
use clockivy_checks::record::{is_of_a_verdict, is_of_amounts, width};
use clockivy_checks::rng::Rng;
use clockivy_checks::soundness::{found, Found};
use clockivy_reference::field::amount::P;
use clockivy_reference::{
    probe_limit, say, sheet_len, threshold, DEMAND_ROUND, NO_MORE_ROUNDS, ROUNDS_33, ROUNDS_7,
    SECOND_SEARCH, SUPPLY_ROUND, WAYS,
};
use clockivy_testing::{choices, count, refused, Hearing};

/// The places of the slices.
const RECORD: usize = 0;
const TOTALS: usize = 1;
const SHEETS: usize = 2;
const MESSAGES: usize = 3;

/// The reply, and the record that is left.
fn heard(call: &Call) -> (u64, Vec<u64>) {
    let (reply, left) = made(call);
    (reply, left.words[RECORD].to_vec())
}

/// A round of a way: its last one, and the number.
type When = (u64, u64);

/// All rounds of both ways.
fn all_rounds() -> impl Iterator<Item = When> {
    let rounds = |last| (1..=last).chain(DEMAND_ROUND..=SUPPLY_ROUND);
    let ways = WAYS.into_iter();
    ways.flat_map(move |last| rounds(last).map(move |round| (last, round)))
}

/// Some of each kind.
const ROUNDS: [When; 15] = [
    (ROUNDS_33, 1),
    (ROUNDS_33, 2),
    (ROUNDS_33, 17),
    (ROUNDS_33, 32),
    (ROUNDS_33, 33),
    (ROUNDS_33, DEMAND_ROUND),
    (ROUNDS_33, SUPPLY_ROUND),
    (ROUNDS_7, 1),
    (ROUNDS_7, 2),
    (ROUNDS_7, 3),
    (ROUNDS_7, 5),
    (ROUNDS_7, 6),
    (ROUNDS_7, 7),
    (ROUNDS_7, DEMAND_ROUND),
    (ROUNDS_7, SUPPLY_ROUND),
];

/// A hearing of n parties in this round that is accepted with everybody present.
fn good(rng: &mut Rng, n: u64, (last, round): When) -> Call {
    loop {
        let mut said = generate::call(rng, Kind::Say);
        let record = &mut said.words[RECORD];
        if record[LAST] != last {
            continue;
        }
        record[N] = n;
        record[OWN] = rng.between(1, n);
        record[ROUND] = round;
        if !matches!(found(record), Found::Sound(_)) {
            continue;
        }
        let [record, totals, sheets, _] = &said.words[..] else {
            unreachable!("it is a saying");
        };
        if say(record, totals, sheets, &mut vec![0; width(record)]) != 0 {
            continue;
        }
        for _ in 0..20 {
            let mut call = generate::hear(rng, &said);
            call.bytes.fill(1);
            if reply(&call) == 0 {
                return call;
            }
        }
    }
}

/// The words of one party of a hearing, from 0 on.
fn message(call: &mut Call, party: usize) -> &mut [u64] {
    let width = width(&call.words[RECORD]);
    &mut call.words[MESSAGES][party * width..(party + 1) * width]
}

/// The same hearing with other marks.
fn with(call: &Call, present: &[u8]) -> Call {
    let mut call = call.clone();
    call.bytes.copy_from_slice(present);
    call
}

#[test]
fn every_choice_of_who_was_present() {
    let mut rng = Rng::new(1979);
    for n in 3..=9 {
        for when in all_rounds() {
            let call = good(&mut rng, n, when);
            let (done, left) = heard(&call);
            assert_eq!(done, 0);
            for present in choices(n) {
                let call = with(&call, &present);
                if count(&present) <= threshold(n) {
                    assert_eq!(reply(&call), 15);
                    continue;
                }
                assert_eq!(heard(&call), (0, left.clone()));
                // What stands in the places that are not marked changes nothing.
                let mut other = call.clone();
                for party in (0..n as usize).filter(|&party| present[party] == 0) {
                    for word in message(&mut other, party) {
                        *word = rng.pick(&[0, 255, 65_536, P, u64::MAX]);
                    }
                }
                assert_eq!(heard(&other), (0, left.clone()));
            }
        }
    }
}

/// One altered word of a party that was present is noticed where more than
/// t + 1 were, and out of range where it is so.
#[test]
fn one_altered_word() {
    let mut rng = Rng::new(1991);
    for n in 3..=9 {
        for when in ROUNDS {
            let call = good(&mut rng, n, when);
            for present in choices(n).filter(|present| count(present) > threshold(n)) {
                for party in (0..n as usize).filter(|&party| present[party] == 1) {
                    let altered = with(&call, &present);
                    let place = rng.place(width(&call.words[RECORD]));
                    alter(&mut rng, altered, party, place);
                }
            }
        }
    }
}

/// The same in every place of every level, with everybody present or just enough.
#[test]
fn every_altered_word_of_a_level() {
    let mut rng = Rng::new(1993);
    for n in 3..=9 {
        for round in 2..ROUNDS_7 {
            let call = good(&mut rng, n, (ROUNDS_7, round));
            let own = call.words[RECORD][OWN] as usize - 1;
            let mut fewest = vec![0; n as usize];
            for party in 0..=threshold(n) {
                fewest[(own + party) % n as usize] = 1;
            }
            for present in [vec![1; n as usize], fewest] {
                for party in (0..n as usize).filter(|&party| present[party] == 1) {
                    for place in 0..width(&call.words[RECORD]) {
                        alter(&mut rng, with(&call, &present), party, place);
                    }
                }
            }
        }
    }
}

/// Alters a word of a hearing that is accepted, of a party that is marked.
fn alter(rng: &mut Rng, mut altered: Call, party: usize, place: usize) {
    let record = altered.words[RECORD].to_vec();
    let (own, least) = (record[OWN] as usize - 1, threshold(record[N]) + 1);
    let count = count(&altered.bytes);
    let word = &mut message(&mut altered, party)[place];
    *word = match &record {
        _ if is_of_amounts(&record) => (*word + rng.between(1, P - 1)) % P,
        _ if is_of_a_verdict(&record) => *word ^ rng.between(1, 255),
        _ => *word ^ rng.between(1, 65_535),
    };
    let expected: &[u64] = match party == own {
        true => &[9],
        false if count > least => &[10],
        false => &[0, 11, 12],
    };
    assert!(expected.contains(&reply(&altered)), "given\n{altered}");
    message(&mut altered, party)[place] = rng.pick(&[P, 1 << 62, u64::MAX]);
    let expected = if party == own { 9 } else { 10 };
    assert_eq!(reply(&altered), expected, "given\n{altered}");
}

/// A party that was away compares no own message and uses no totals; its sheet is
/// judged as ever, where one is read.
#[test]
fn an_own_place_that_is_not_marked() {
    let mut rng = Rng::new(1999);
    for n in 3..=9 {
        for when in ROUNDS {
            let call = good(&mut rng, n, when);
            let expected = heard(&call);
            let own = call.words[RECORD][OWN] as usize - 1;
            let enough = |present: &Vec<u8>| count(present) > threshold(n);
            for present in choices(n).filter(enough) {
                let mut away = with(&call, &present);
                away.words[TOTALS].fill(P);
                message(&mut away, own).fill(u64::MAX);
                let (marked, of_amounts) = (present[own] == 1, is_of_amounts(&call.words[RECORD]));
                match (marked, of_amounts) {
                    (true, true) => assert_eq!(reply(&away), 8, "given\n{away}"),
                    (true, false) => assert_eq!(reply(&away), 9, "given\n{away}"),
                    (false, _) => assert_eq!(heard(&away), expected, "given\n{away}"),
                }
                away.words[SHEETS].fill(P);
                if when.1 >= DEMAND_ROUND && !marked {
                    assert_eq!(heard(&away), expected, "given\n{away}");
                } else {
                    assert_eq!(reply(&away), 8, "given\n{away}");
                }
            }
        }
    }
}

#[test]
fn every_way_to_be_refused_and_any_two() {
    let mut rng = Rng::new(2005);
    for when in ROUNDS.into_iter().cycle().take(150) {
        // Five parties, of whom the third was away and the fourth hears: in the first
        // search, or once both have ended. Two changes together may leave a 0.
        let suits = |call: &mut Call| {
            let record = &call.words[RECORD];
            let early = when.1 >= DEMAND_ROUND || record[FIRST] == 0;
            record[OWN] == 4 && early && !message(call, 3).contains(&0)
        };
        let mut call = good(&mut rng, 5, when);
        while !suits(&mut call) {
            call = good(&mut rng, 5, when);
        }
        call.bytes[2] = 0;
        assert_eq!(reply(&call), 0);
        let [record, totals, sheets, messages] = &call.words[..] else {
            unreachable!("it is a hearing");
        };
        let hearing = Hearing {
            record: record.to_vec(),
            totals: totals.to_vec(),
            sheets: sheets.to_vec(),
            messages: messages.to_vec(),
            present: call.bytes.to_vec(),
        };
        for (h, number) in refused(&hearing) {
            let call = Call::hear(&h.record, &h.totals, &h.sheets, &h.messages, &h.present);
            assert_eq!(reply(&call), number, "given\n{call}");
        }
    }
}

/// The whole current sheet is judged in every round of a probe, by a saying and a
/// hearing, and no other.
#[test]
fn every_word_of_a_sheet() {
    let mut rng = Rng::new(2006);
    for when in all_rounds().filter(|&(last, round)| round <= last) {
        let call = good(&mut rng, 5, when);
        let current = call.words[RECORD][PROBES] as usize * sheet_len(when.0);
        for place in 0..call.words[SHEETS].len() {
            let mut other = call.clone();
            other.words[SHEETS][place] = if place == current { P } else { 256 };
            let inside = (current..current + sheet_len(when.0)).contains(&place);
            let number = if inside { 8 } else { 0 };
            assert_eq!(reply(&other), number, "given\n{other}");
            let [record, totals, sheets, _] = &other.words[..] else {
                unreachable!("it is a hearing");
            };
            let words = vec![77; width(record)];
            let said = reply(&Call::say(record, totals, sheets, &words));
            assert_eq!(said, number, "given\n{other}");
        }
    }
}

/// In every round of both ways a saying and a hearing are lent just its words; when it
/// is over, their number goes by the round all the same, and comes before the turn.
#[test]
fn words_of_every_round() {
    let mut rng = Rng::new(2009);
    for when in all_rounds() {
        let call = good(&mut rng, 5, when);
        let [record, totals, sheets, messages] = &call.words[..] else {
            unreachable!("it is a hearing");
        };
        let lengths = |over: bool, record: &[u64]| {
            for length in 0..=6 * 32 {
                let words = vec![77; length];
                let said = reply(&Call::say(record, totals, sheets, &words));
                let just = if over { 3 } else { 0 };
                assert_eq!(said, if length == width(record) { just } else { 2 });
                let mut messages = messages.to_vec();
                messages.resize(length, 77);
                let heard = reply(&Call::hear(record, totals, sheets, &messages, &[1; 5]));
                assert_eq!(heard, if length == 5 * width(record) { just } else { 2 });
            }
        };
        lengths(false, record);
        lengths(true, &over(record));
        let other = vec![0; sheets.len() / sheet_len(when.0) * sheet_len(33 + 7 - when.0)];
        let words = vec![77; width(record)];
        assert_eq!(reply(&Call::say(record, totals, &other, &words)), 2);
    }
}

/// The same record when all is over, without a price or, where the searches have one,
/// with it.
fn over(record: &[u64]) -> Vec<u64> {
    let mut over = record.to_vec();
    if record[ROUND] >= DEMAND_ROUND {
        over[ROUND] = NO_MORE_ROUNDS;
        return over;
    }
    over[LO] = 0;
    over[HI] = 1;
    over[SEARCH] = SECOND_SEARCH;
    over[FIRST] = 0;
    over[FIRST_PROBES] = over[PROBES].min(probe_limit(over[K]));
    over[PROBES] = over[FIRST_PROBES];
    over
}
