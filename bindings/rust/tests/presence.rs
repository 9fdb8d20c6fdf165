//! Parties that drop off: hearing by marks of who was present, hearing late, and
//! what goes wrong where the parties do not agree on the marks.

use std::num::NonZeroU64;
use std::ops::Range;

use clockivy::words::place::{CARRY, HI, LAST, LO, OWN, PAIRS, ROUND, SEARCH, SUM};
use clockivy::{
    threshold, words, Cleared, Collecting, Message, Outcome, Record, Refusal, Sheets, Speaking,
    Way, DEMAND_ROUND, OVER_ROUND, PARTIES, PRIME, RECORD_LEN, SUPPLY_ROUND,
};
use clockivy_testing::{
    choices, count, from_marked, go_on_until, message_len, panel, parts, refused, round, seat,
    sheets, stored, Bid, Hearing, Plain, WAYS,
};

const K: u64 = 2;
/// Demand 5 and 2, supply 1 and 4: they clear at index 1, after three probes.
const BIDS: &[Bid] = &[(640, &[5, 2, 1, 4])];
/// What a stored session says of itself where it speaks.
const SPEAKING: u64 = 1;

/// The rounds until all is over: those of the probes, and two of the totals.
fn all_rounds(way: Way) -> usize {
    3 * way.rounds() as usize + 2
}

/// All parties, about to speak.
fn parties(n: u64, way: Way) -> Vec<Speaking> {
    panel(n, K, way, BIDS)
}

/// The party has come to the price, with the totals there.
fn assert_answered(party: &Speaking) {
    let outcome = Outcome::Price {
        index: NonZeroU64::MIN,
        probes: 3,
        cleared: Cleared::new(5, 1).unwrap(),
    };
    assert_eq!(party.outcome(), Ok(Some(outcome)));
}

/// The party has come to no price yet, and on plain words there is no fill.
fn assert_going_on(party: &Speaking) {
    assert_eq!(party.outcome(), Ok(None));
    let reply = words::fill(parts(&party.store()).0, 0, &mut 0, &mut 0);
    assert_eq!(reply, Refusal::NotCleared.number());
}

fn is_over(party: &Speaking) -> bool {
    party.outcome().unwrap().is_some()
}

/// What those say whose mark is 1. The others are away.
fn said_by(parties: &[Speaking], present: &[u8]) -> Vec<Option<Message>> {
    let say = |(party, &mark): (&Speaking, &u8)| (mark == 1).then(|| party.say().unwrap());
    parties.iter().zip(present).map(say).collect()
}

/// The same as words, with what is no message in the places of the others.
fn words_by(parties: &[Speaking], present: &[u8]) -> Vec<u64> {
    let length = message_len(parts(&parties[0].store()).0);
    let words = |said: Option<Message>| said.map_or(vec![u64::MAX; length], |said| said.to_vec());
    let said = said_by(parties, present);
    said.into_iter().flat_map(words).collect()
}

/// A round of which the others were away.
fn those_marked(round: &[Option<Message>], present: &[u8]) -> Vec<Option<Message>> {
    let marked = |(said, &mark): (&Option<Message>, &u8)| said.filter(|_| mark == 1);
    round.iter().zip(present).map(marked).collect()
}

/// Those whose mark is this one hear a round.
fn heard_by(parties: &mut [Speaking], present: &[u8], mark: u8, round: &[Option<Message>]) {
    for (party, _) in parties.iter_mut().zip(present).filter(|of| *of.1 == mark) {
        party.hear(round).unwrap();
    }
}

/// Marks of the first so many parties.
fn first(n: u64, count: usize) -> Vec<u8> {
    (0..n as usize)
        .map(|place| u8::from(place < count))
        .collect()
}

/// A word of a party's record.
fn field(party: &Speaking, place: usize) -> u64 {
    parts(&party.store()).0[place]
}

/// What all parties' records have in common.
fn common(party: &Speaking) -> Vec<u64> {
    let mut record = parts(&party.store()).0.to_vec();
    [record[OWN], record[CARRY]] = [0, 0];
    record[PAIRS..].fill(0);
    record
}

/// A party once more from its stored session, with the words of its sheets: for a test,
/// since it uses a sheet again.
fn again(stored: &[u64], sheets: &[u64]) -> Speaking {
    Speaking::resume(stored, received(sheets).unwrap()).unwrap()
}

/// These words as sheets, of the way whose length they have.
fn received(words: &[u64]) -> Option<Sheets> {
    WAYS.into_iter()
        .find_map(|way| Sheets::received(K, way, words).ok())
}

/// The words of one party's sheets.
fn sheet_words(n: u64, own: u64, way: Way) -> Vec<u64> {
    sheets(seat(n, own, K, way)).words().to_vec()
}

/// Whoever is not among the first t + 1 is gone from some round on, in the middle of a
/// probe or at its end, and is marked no more. On the way of 7 rounds that is between
/// any two levels.
#[test]
fn t_plus_1_parties_come_to_the_answer_without_the_others() {
    for (n, way) in PARTIES.flat_map(|n| WAYS.map(|way| (n, way))) {
        for gone_from in 0..all_rounds(way) {
            let mut parties = parties(n, way);
            let there = threshold(n) + 1;
            for number in 0..all_rounds(way) {
                let gone = number >= gone_from;
                let present = first(n, if gone { there } else { n as usize });
                let round = said_by(&parties, &present);
                heard_by(&mut parties, &present, 1, &round);
            }
            let (stayed, gone) = parties.split_at(there);
            stayed.iter().for_each(assert_answered);
            for party in gone {
                assert_going_on(party);
                let Record { probes, round, .. } = *party.record();
                let heard = match round {
                    DEMAND_ROUND.. => way.rounds() * probes + round - DEMAND_ROUND,
                    _ => way.rounds() * probes + round - 1,
                };
                assert_eq!(heard as usize, gone_from);
            }
        }
    }
}

/// Rounds that somebody may miss: one or some of a probe, over the end of a probe or of
/// two, and those of the totals.
fn absences(way: Way) -> [Range<usize>; 7] {
    match way {
        Way::Rounds7 => [0..1, 2..4, 5..9, 3..17, 18..21, 20..22, 21..22],
        _ => [0..1, 5..9, 30..40, 20..75, 95..99, 98..100, 99..100],
    }
}

/// Each choice of who is away for some rounds and comes back.
#[test]
fn who_comes_back_hears_what_it_has_missed_and_is_marked_again() {
    let n = 5;
    for present in choices(n).filter(|present| count(present) > threshold(n)) {
        for way in WAYS {
            for away in absences(way) {
                assert_comes_back(parties(n, way), &present, away, all_rounds(way));
            }
        }
    }
}

/// So many rounds, in which those whose mark is 0 are away for some.
fn assert_comes_back(
    mut parties: Vec<Speaking>,
    present: &[u8],
    away: Range<usize>,
    rounds: usize,
) {
    let mut missed = Vec::new();
    for number in 0..rounds {
        if away.contains(&number) {
            let said = said_by(&parties, present);
            heard_by(&mut parties, present, 1, &said);
            missed.push(said);
            continue;
        }
        for said in missed.drain(..) {
            heard_by(&mut parties, present, 0, &said);
        }
        let expected = common(&parties[0]);
        for party in &parties {
            assert_eq!(common(party), expected);
        }
        round(&mut parties);
    }
    parties.iter().for_each(assert_answered);
}

/// A party that is marked in no round, and hears all of them when the others have
/// answered already.
#[test]
fn who_comes_back_when_the_auction_is_over_answers_too() {
    for way in WAYS {
        let mut parties = parties(3, way);
        let present = [1, 0, 1];
        let mut rounds = Vec::new();
        while !is_over(&parties[0]) {
            let said = said_by(&parties, &present);
            heard_by(&mut parties, &present, 1, &said);
            rounds.push(said);
        }
        let late = &mut parties[1];
        for said in &rounds {
            assert_going_on(late);
            late.hear(said).unwrap();
        }
        assert_answered(late);
        assert_eq!(late.hear(&rounds[0]), Err(Refusal::OutOfTurn));
    }
}

/// A marked party says its message and hears that round after the others; in the
/// next one it is away meanwhile.
#[test]
fn a_marked_party_may_hear_late() {
    for way in WAYS {
        let mut parties = parties(5, way);
        let without_last = [1, 1, 1, 1, 0];
        while !is_over(&parties[0]) {
            let one = said_by(&parties, &[1; 5]);
            heard_by(&mut parties, &without_last, 1, &one);
            let other = said_by(&parties, &without_last);
            heard_by(&mut parties, &without_last, 1, &other);
            parties[4].hear(&one).unwrap();
            parties[4].hear(&other).unwrap();
            // A probe has an odd number of rounds.
            if parties[0].record().round == way.rounds() {
                round(&mut parties);
            }
        }
        parties.iter().for_each(assert_answered);
    }
}

/// What each party finds in the places of the others is its own: on plain words, since a
/// session hears nothing from a party that was away.
#[test]
fn what_stands_in_an_unmarked_place_changes_nothing() {
    for way in WAYS {
        assert_unmarked_places_free(way);
    }
}

fn assert_unmarked_places_free(way: Way) {
    let n = 7;
    let mut parties: Vec<Plain> = (1..)
        .zip(parties(n, way))
        .map(|(own, party)| Plain::resume(&party.store(), &sheet_words(n, own, way)))
        .collect();
    for number in 0..all_rounds(way) {
        // Other parties each time, t + 1 of them and more in turn.
        let mut present = first(n, threshold(n) + 1 + number % 3);
        present.rotate_right(number % n as usize);
        let said: Vec<Vec<u64>> = parties.iter().map(|party| party.say().unwrap()).collect();
        for (own, party) in (1..).zip(&mut parties) {
            let mut messages = said.clone();
            for (place, message) in messages.iter_mut().enumerate() {
                if present[place] == 0 {
                    message.fill([0, own, PRIME - 1, PRIME, u64::MAX][(number + place) % 5]);
                }
            }
            party.hear(&messages.concat(), &present).unwrap();
        }
    }
    for Plain { record, totals, .. } in &parties {
        let stored = stored(SPEAKING, record, totals);
        assert_answered(&Speaking::resume(&stored, Sheets::blank(K, way)).unwrap());
    }
}

#[test]
fn any_t_plus_1_or_more_open_to_the_same_and_fewer_are_too_few() {
    for (n, way) in PARTIES.flat_map(|n| WAYS.map(|way| (n, way))) {
        let mut parties = parties(n, way);
        let sheets: Vec<_> = (1..=n).map(|own| sheet_words(n, own, way)).collect();
        // Each round is heard by one party in every way.
        while !is_over(&parties[0]) {
            let messages = words_by(&parties, &first(n, n as usize));
            let own = parties[0].record().round as usize % n as usize;
            let before = parties[own].store();
            round(&mut parties);
            let after = parties[own].store();
            for present in choices(n) {
                let mut party = again(&before, &sheets[own]);
                let reply = party.hear(&from_marked(&messages, &present));
                if count(&present) > threshold(n) {
                    assert_eq!(reply, Ok(()));
                    assert_eq!(party.store(), after);
                } else {
                    assert_eq!(reply, Err(Refusal::TooFewPresent));
                    assert_eq!(party.store(), before);
                }
            }
        }
    }
}

/// A hearing of five parties in round 1: of the fourth, the third being away.
fn good(way: Way) -> Hearing {
    good_in(way, 1)
}

/// The same in the first such round.
fn good_in(way: Way, number: u64) -> Hearing {
    let mut parties = parties(5, way);
    go_on_until(&mut parties, number);
    let present = vec![1, 1, 0, 1, 1];
    let stored = parties[3].store();
    let (record, totals) = parts(&stored);
    Hearing {
        record: record.to_vec(),
        totals: totals.to_vec(),
        sheets: sheet_words(5, 4, way),
        messages: words_by(&parties, &present),
        present,
    }
}

/// The record that has heard. A refusal has changed nothing. It is heard on plain words,
/// which may be anything, and by a session too, where there can be such a one.
fn heard(hearing: &Hearing) -> Result<Vec<u64>, Refusal> {
    let Hearing {
        record,
        totals,
        sheets,
        messages,
        present,
    } = hearing.clone();
    let mut party = Plain {
        record,
        totals,
        sheets,
    };
    let before = party.clone();
    let reply = party.hear(&messages, &present);
    assert!(reply.is_ok() || party == before);
    let heard = reply.map(|()| party.record);
    if let Some(by_session) = heard_by_session(hearing) {
        assert_eq!(by_session, heard);
    }
    heard
}

/// The same by a session: where the lengths of the record, the totals and the sheets are
/// right, the sheets are dealt, and each place has a message of the round and a mark.
fn heard_by_session(hearing: &Hearing) -> Option<Result<Vec<u64>, Refusal>> {
    let Hearing {
        messages, present, ..
    } = hearing;
    let length = present.len() * message_len(&hearing.record);
    if messages.len() != length || present.iter().any(|&mark| mark > 1) {
        return None;
    }
    let sheets = received(&hearing.sheets)?;
    let before = stored(SPEAKING, &hearing.record, &hearing.totals);
    let mut party = Speaking::resume(&before, sheets).ok()?;
    let reply = party.hear(&from_marked(messages, present));
    assert!(reply.is_ok() || party.store() == before);
    Some(reply.map(|()| parts(&party.store()).0.to_vec()))
}

#[test]
fn a_hearing_is_judged_in_its_order() {
    for way in WAYS {
        let probe = [1, 2, 3, 4, 5, 6, way.rounds()];
        for round in probe.into_iter().chain([DEMAND_ROUND, SUPPLY_ROUND]) {
            let good = good_in(way, round);
            assert_eq!(
                [good.record[LAST], good.record[ROUND]],
                [way.rounds(), round]
            );
            assert!(heard(&good).is_ok());
            let mut by_session = 0;
            for (hearing, number) in refused(&good) {
                let refusal = heard(&hearing).unwrap_err();
                assert_eq!(refusal.number(), number, "{hearing:?}");
                by_session += u64::from(heard_by_session(&hearing).is_some());
            }
            assert!(by_session > 100, "{by_session} by a session");
        }
    }
    // On plain words the record's length comes before all else but the marks, which
    // need no record.
    for length in [0, RECORD_LEN - 1, RECORD_LEN + 1] {
        for (present, refusal) in [
            (&[][..], Refusal::WrongLength),
            (&[0, 1, 1], Refusal::WrongLength),
            (&[2], Refusal::OutOfRange),
            (&[0, 1, 7], Refusal::OutOfRange),
        ] {
            let mut record = vec![u64::MAX; length];
            let number = words::hear(&mut record, &[], &[], &[], present);
            assert_eq!(number, refusal.number());
            assert_eq!(record, vec![u64::MAX; length]);
        }
    }
}

/// On plain words: a session has no other marks than a message and none.
#[test]
fn marks_are_judged_whatever_their_number() {
    for (way, round) in WAYS.into_iter().zip([1, 2]) {
        assert_marks_judged(good_in(way, round));
    }
}

fn assert_marks_judged(good: Hearing) {
    for length in 0..12 {
        let mut hearing = good.clone();
        hearing.present.resize(length, 1);
        if length != 5 {
            assert_eq!(heard(&hearing), Err(Refusal::WrongLength));
        }
        for place in 0..length {
            for mark in [2, 3, 128, 255] {
                let mut hearing = hearing.clone();
                hearing.present[place] = mark;
                assert_eq!(heard(&hearing), Err(Refusal::OutOfRange));
            }
        }
    }
}

/// By a session: a round has as many places as there are parties.
#[test]
fn a_round_of_another_length() {
    for way in WAYS {
        for number in [1, 2, 3] {
            let mut parties = parties(5, way);
            go_on_until(&mut parties, number);
            let good = said_by(&parties, &[1; 5]);
            let before = parties[3].store();
            for length in (0..12).filter(|&length| length != 5) {
                let mut round = good.clone();
                round.resize(length, good[0]);
                assert_eq!(parties[3].hear(&round), Err(Refusal::WrongLength));
                round.fill(None);
                assert_eq!(parties[3].hear(&round), Err(Refusal::WrongLength));
            }
            assert_eq!(parties[3].store(), before);
        }
    }
}

/// A party that was away compares no own message and uses no totals; its sheet is
/// judged as ever, where one is read.
#[test]
fn an_own_place_that_is_not_marked() {
    for way in WAYS {
        for round in [1, 2, 3, way.rounds(), DEMAND_ROUND, SUPPLY_ROUND] {
            let here = good_in(way, round);
            let mut away = here.clone();
            away.present = vec![1, 1, 0, 0, 1];
            assert_eq!(heard(&away), heard(&here));
            let length = way.message_len(round);
            away.messages[3 * length..][..length].fill(u64::MAX);
            away.totals.fill(u64::MAX);
            assert_eq!(heard(&away), heard(&here));
            away.sheets.fill(PRIME);
            if round <= way.rounds() {
                assert_eq!(heard(&away), Err(Refusal::ShareOutOfRange));
            } else {
                assert_eq!(heard(&away), heard(&here));
            }
        }
    }
}

/// Why everybody who is there is marked: with more than t + 1, one wrong message
/// is noticed; with t + 1 it opens.
#[test]
fn a_wrong_message_is_noticed_by_more_than_t_plus_1() {
    for (n, way) in PARTIES.flat_map(|n| WAYS.map(|way| (n, way))) {
        let mut parties = parties(n, way);
        let right = words_by(&parties, &first(n, n as usize));
        let (before, sheets) = (parties[0].store(), sheet_words(n, 1, way));
        round(&mut parties);
        let sum = field(&parties[0], SUM);
        for present in choices(n).filter(|present| count(present) > threshold(n)) {
            for place in (1..n as usize).filter(|&place| present[place] == 1) {
                let mut messages = right.clone();
                messages[place] = (messages[place] + 1) % PRIME;
                let mut party = again(&before, &sheets);
                let reply = party.hear(&from_marked(&messages, &present));
                if count(&present) > threshold(n) + 1 {
                    assert_eq!(reply, Err(Refusal::Inconsistent));
                } else if reply.is_ok() {
                    assert_ne!(field(&party, SUM), sum);
                } else {
                    assert_eq!(reply, Err(Refusal::SumOutOfRange));
                }
            }
        }
    }
}

/// Why the parties agree on the marks before they hear: two who hear a round with
/// other marks, of which one has a wrong message, step to two sums, and neither
/// is told.
#[test]
fn other_marks_may_lead_elsewhere() {
    for way in WAYS {
        let mut parties = parties(5, way);
        let mut messages = words_by(&parties, &[1; 5]);
        // Of points 1, 2 and 4, the first has weight 8/3 at 0.
        messages[0] = (messages[0] + 3) % PRIME;
        let sums = [(3, [1, 1, 0, 1, 0]), (4, [0, 1, 0, 1, 1])].map(|(place, present)| {
            let party: &mut Speaking = &mut parties[place];
            party.hear(&from_marked(&messages, &present)).unwrap();
            field(party, SUM)
        });
        assert_eq!(sums[0], sums[1] + 8);
    }
}

/// Five parties of which the fifth has heard one round and misses the next; and what
/// all of them say then.
fn with_one_behind(way: Way) -> (Vec<Speaking>, Vec<Option<Message>>) {
    let mut parties = parties(5, way);
    round(&mut parties);
    let present = first(5, 4);
    let said = said_by(&parties, &present);
    heard_by(&mut parties, &present, 1, &said);
    let rounds = [&parties[0], &parties[4]].map(|party| party.record().round);
    assert_eq!(rounds, [3, 2]);
    let early = said_by(&parties, &[1; 5]);
    (parties, early)
}

/// Why a party hears all that it has missed before it is marked: until then it says
/// the message of an earlier round. With more than t + 1 marked it is noticed; with
/// t + 1 it opens, to something else.
#[test]
fn a_party_that_is_marked_too_early() {
    let way = Way::Rounds33;
    let (mut parties, early) = with_one_behind(way);
    for party in &mut parties[..4] {
        assert_eq!(party.hear(&early), Err(Refusal::Inconsistent));
    }
    let carries = [[1, 0, 1, 0, 1], [1, 1, 1, 1, 0]].map(|present| {
        let mut party = again(&parties[0].store(), &sheet_words(5, 1, way));
        party.hear(&those_marked(&early, &present)).unwrap();
        field(&party, CARRY)
    });
    assert_ne!(carries[0], carries[1]);
}

/// On the way of 7 rounds a level has not as many words as another, so that it is
/// noticed whoever else is marked.
#[test]
fn a_party_that_is_marked_a_level_too_early() {
    let (mut parties, early) = with_one_behind(Way::Rounds7);
    for present in choices(5).filter(|present| present[4] == 1) {
        let round = those_marked(&early, &present);
        for party in &mut parties[..4] {
            assert_eq!(party.hear(&round), Err(Refusal::WrongLength));
        }
    }
}

/// Where a sheet has its share of beta of the first product: behind those of the mask,
/// of 33 bits and of alpha.
const BETA: usize = 1 + 33 + 1;

/// Why a round is heard once: from one stored session with other messages, the
/// next messages give away a share of the sheet. Points 1, 2 and 3 have weight 1
/// at 0 in the byte field, so that three bytes open to their sum.
#[test]
fn a_share_is_given_away_by_a_round_heard_twice() {
    for way in WAYS {
        assert_given_away_by_a_round_heard_twice(way);
    }
}

fn assert_given_away_by_a_round_heard_twice(way: Way) {
    let mut parties = parties(5, way);
    round(&mut parties);
    let present = [1, 1, 1, 0, 0];
    let said = said_by(&parties, &present);
    let messages: Vec<Vec<u64>> = said.into_iter().flatten().map(|it| it.to_vec()).collect();
    let (before, sheets) = (parties[3].store(), sheet_words(5, 4, way));
    // The low bytes of the first product, and with them D, are changed by 1; E stays.
    let mut changed = messages.clone();
    changed.iter_mut().for_each(|message| message[0] ^= 1);
    let [one, other] = [&messages, &changed].map(|messages| {
        let mut party = again(&before, &sheets);
        let mut round = vec![None; 5];
        for (said, message) in round.iter_mut().zip(messages) {
            *said = Some(&message[..]);
        }
        party.hear(&round).unwrap();
        party.say().unwrap()[0]
    });
    let e = messages.iter().fold(0, |e, message| e ^ (message[0] / 256));
    // The product is a factor of the next one: the second in 33 rounds, the first in 7.
    let given = match way {
        Way::Rounds7 => (one ^ other) % 256,
        _ => (one ^ other) / 256,
    };
    assert_eq!(given, sheets[BETA] ^ e);
}

/// Where shares do not fit, t + 1 parties alone may not notice.
#[test]
fn a_bid_missing_at_one_party_is_found_by_more_than_t_plus_1() {
    for way in WAYS {
        assert_missing_bid_found(way);
    }
}

fn assert_missing_bid_found(way: Way) {
    let parties = parties(5, way);
    // The fifth party has not added the bid.
    let seat = seat(5, 5, K, way);
    let lacking = Collecting::open(seat).unwrap().speak(sheets(seat));
    let mut messages = words_by(&parties, &[1; 5]);
    messages[4] = lacking.say().unwrap()[0];
    let (before, sheets) = (parties[0].store(), sheet_words(5, 1, way));
    for present in choices(5).filter(|present| count(present) > 2) {
        let mut party = again(&before, &sheets);
        let reply = party.hear(&from_marked(&messages, &present));
        match (present[4], count(&present)) {
            (0, _) => assert_eq!(reply, Ok(())),
            (_, 3) => assert!(matches!(reply, Ok(()) | Err(Refusal::SumOutOfRange))),
            _ => assert_eq!(reply, Err(Refusal::Inconsistent)),
        }
    }
}

#[test]
fn a_record_that_is_over_hears_nothing() {
    for way in WAYS {
        let mut hearings = [good(way), good_in(way, 2), good_in(way, SUPPLY_ROUND)];
        let [probing, level, cleared] = &mut hearings;
        for Hearing { record, .. } in [probing, level] {
            [record[LO], record[HI], record[SEARCH]] = [0, 1, 2];
        }
        cleared.record[ROUND] = OVER_ROUND;
        for present in choices(5) {
            for hearing in &mut hearings {
                hearing.present.clone_from(&present);
                assert_eq!(heard(hearing), Err(Refusal::OutOfTurn));
            }
        }
    }
}
