//! The two searches: whole auctions over every run of balanced prices, how the
//! second search begins and ends, and which records are out of range.

use clockivy::words::place;
use clockivy::{
    probe_limit, sheet_count, sheets_len, words, Collecting, Outcome, Record, Refusal, Sheets,
    Speaking, Way, BLANK, DEMAND_ROUND, OVER_ROUND, PAIRS_LEN, RECORD_LEN, SUPPLY_ROUND,
    TOTAL_LIMIT,
};
use clockivy_testing::{
    collected, from_all, from_marked, meeting, message_len, parts, plain_round, reply, round, seat,
    sheets, stored, Bid, Plain, WAYS,
};

const N: u64 = 3;

/// These tables as bids, of bidders 1, 2 and so on.
fn numbered(tables: &[Vec<u64>]) -> Vec<Bid<'_>> {
    (1..).zip(tables.iter().map(Vec::as_slice)).collect()
}

/// Three parties, about to speak.
fn panel(k: u64, way: Way, tables: &[Vec<u64>]) -> Vec<Speaking> {
    clockivy_testing::panel(N, k, way, &numbered(tables))
}

/// The same on plain words.
fn plain_panel(k: u64, way: Way, tables: &[Vec<u64>]) -> Vec<Plain> {
    (1..=N)
        .map(|own| {
            let seat = seat(N, own, k, way);
            let session = collected(seat, &numbered(tables));
            Plain::resume(&session.store(), sheets(seat).words())
        })
        .collect()
}

/// The first of three parties, without a bid.
fn alone(k: u64, way: Way) -> Collecting {
    collected(seat(N, 1, k, way), &[])
}

fn probe(parties: &mut [Speaking]) {
    for _ in 1..=parties[0].record().last {
        round(parties);
    }
}

/// What asking for the answer and for a fill replies to this record, on plain words.
fn asked(record: &[u64]) -> [Option<Refusal>; 2] {
    let answered = words::answer(record, &mut 0, &mut 0);
    let filled = words::fill(record, 0, &mut 0, &mut 0);
    [answered, filled].map(|number| reply(number).err())
}

/// What a record says of the searches: lo, hi, probes, then search, first and its
/// probes.
fn searches(record: &Record) -> [u64; 6] {
    let Record {
        lo,
        hi,
        probes,
        search,
        first,
        first_probes,
        ..
    } = *record;
    [lo, hi, probes, search, first, first_probes]
}

/// The auction is not over, and no call says that it is.
fn assert_not_yet(party: &Speaking) {
    assert_eq!(party.outcome(), Ok(None));
    let not_yet = [Some(Refusal::OutOfTurn), Some(Refusal::NotCleared)];
    assert_eq!(asked(parts(&party.store()).0), not_yet);
}

/// The price of these bids, or 0, and what the first search gave. Either way comes to
/// it by the same probes.
fn price(k: u64, tables: &[Vec<u64>]) -> (u64, u64) {
    let [(found, probes), other] = WAYS.map(|way| price_by(k, way, tables));
    assert_eq!((found, probes), other);
    found
}

/// The same on this way, with what the record says of the searches after each probe.
fn price_by(k: u64, way: Way, tables: &[Vec<u64>]) -> ((u64, u64), Vec<[u64; 6]>) {
    let mut parties = panel(k, way, tables);
    let mut made = Vec::new();
    while parties[0].outcome() == Ok(None) && parties[0].record().round == 1 {
        assert_not_yet(&parties[0]);
        probe(&mut parties);
        made.push(searches(parties[0].record()));
    }
    let first = parties[0].record().first;
    if first > 0 {
        for number in [DEMAND_ROUND, SUPPLY_ROUND] {
            assert_eq!(parties[0].record().round, number);
            assert_not_yet(&parties[0]);
            round(&mut parties);
        }
    }
    let outcome = parties[0].outcome();
    let (index, probes) = match outcome {
        Ok(Some(Outcome::Price { index, probes, .. })) => (index.get(), probes),
        Ok(Some(Outcome::NoPrice { probes })) => (0, probes),
        other => panic!("{other:?}"),
    };
    assert_eq!(probes as usize, made.len());
    assert!(made.len() <= probe_limit(k) + probe_limit(first));
    for party in &mut parties {
        assert_eq!((party.outcome(), party.record().first), (outcome, first));
        assert_eq!(party.index(), index);
        assert_eq!(party.say(), Err(Refusal::OutOfTurn));
        assert_eq!(party.hear(&from_all(&[0; 3])), Err(Refusal::OutOfTurn));
    }
    ((index, first), made)
}

#[test]
fn the_middle_of_every_run_of_balanced_prices() {
    for k in 1..=6 {
        for high in 0..=k {
            for low in 1..=high + 1 {
                let middle = if low <= high { (low + high) / 2 } else { high };
                assert_eq!(price(k, &[meeting(k, low, high)]), (middle, high));
            }
        }
    }
}

#[test]
fn no_bids_clear_at_the_middle_of_the_list() {
    for k in [1, 2, 3, 4, 5, 6, 7, 8, 15, 16, 1_023, 1_024] {
        assert_eq!(price(k, &[]), (k.div_ceil(2), k));
    }
}

#[test]
fn bids_of_several_bidders() {
    let bids = [
        vec![9, 7, 7, 7, 3, 0, 0, 0, 0, 4],
        vec![2, 2, 2, 2, 2, 1, 1, 1, 1, 1],
        vec![0, 0, 0, 0, 0, 3, 8, 8, 8, 8],
    ];
    // Demand 11, 9, 9, 9, 5 and supply 4, 9, 9, 9, 13.
    assert_eq!(price(5, &bids), (3, 4));
    // Without the seller there is demand at every price, and more than supply.
    assert_eq!(price(5, &bids[..2]), (5, 5));
    assert_eq!(price(5, &bids[2..]), (0, 0));
}

#[test]
fn the_hearing_that_ends_the_first_search_begins_the_second() {
    for way in WAYS {
        assert_second_begun(way);
    }
}

fn assert_second_begun(way: Way) {
    // Demand 5 and 2, supply 1 and 4: demand is at least supply at index 1, and
    // supply at least demand nowhere up to it.
    let mut parties = panel(2, way, &[vec![5, 2, 1, 4]]);
    for left in [[1, 3, 1, 1, 0, 0], [0, 2, 2, 2, 1, 2], [1, 2, 3, 2, 1, 2]] {
        probe(&mut parties);
        for party in &parties {
            assert_eq!(searches(party.record()), left);
            let number = match left {
                [1, 2, 3, 2, 1, 2] => DEMAND_ROUND,
                _ => 1,
            };
            assert_eq!(party.record().round, number);
            let stored = party.store();
            let (record, _) = parts(&stored);
            assert_eq!((record[place::SUM], record[place::CARRY]), (0, 0));
            assert_eq!(record[place::PAIRS..], [0; PAIRS_LEN]);
            assert_eq!(party.outcome(), Ok(None));
        }
    }
}

#[test]
fn without_a_price_the_second_search_is_over_as_it_begins() {
    for way in WAYS {
        let mut parties = panel(2, way, &[vec![0, 0, 1, 1]]);
        probe(&mut parties);
        for party in &parties {
            assert_eq!(searches(party.record()), [0, 1, 1, 2, 0, 1]);
            let none = Outcome::NoPrice { probes: 1 };
            assert_eq!(party.outcome(), Ok(Some(none)));
        }
    }
}

#[test]
fn sheets_are_lent_for_both_searches() {
    for way in WAYS {
        for k in [1, 2, 5, 8] {
            assert_lent(k, way);
        }
    }
}

fn assert_lent(k: u64, way: Way) {
    let wrong_length = Refusal::WrongLength;
    let (length, sheet) = (sheets_len(k, way), way.sheet_len());
    assert_eq!(length, 2 * probe_limit(k) * sheet);
    let good = sheets(seat(N, 1, k, way));
    for other in [0, length / 2, length - 1, length + 1, length + sheet] {
        // Sheets have the length of some k; on plain words they may have any.
        let mut words = good.words().to_vec();
        words.resize(other, 1);
        let received = Sheets::received(k, way, &words);
        assert_eq!(received.err(), Some(wrong_length));
        let mut party = Plain::resume(&alone(k, way).store(), &words);
        assert_eq!(party.say(), Err(wrong_length));
        assert_eq!(party.hear(&[0; 3], &[1; 3]), Err(wrong_length));
    }
    // Those of another k, where that takes another number of probes, and of another way.
    let others = [1, 2, 5, 8].map(|other| WAYS.map(|way| (other, way)));
    let others = others.into_iter().flatten();
    for (other, other_way) in others.filter(|&other| other != (k, way)) {
        let mut party = alone(k, way).speak(sheets(seat(N, 1, other, other_way)));
        assert_eq!(party.say(), Err(wrong_length));
        assert_eq!(party.hear(&from_all(&[0; 3])), Err(wrong_length));
    }
    assert!(alone(k, way).speak(good).say().is_ok());
}

/// The sheets of both searches are taken in turn: each probe finds its own in the
/// next place, and nothing that is a sheet elsewhere. The totals are opened without
/// a sheet. The words are plain, since no sheets are received that are blank in part.
#[test]
fn with_q_probes_done_the_current_sheet_is_the_next_one() {
    for way in WAYS {
        for (low, high) in [(1, 5), (2, 4), (4, 3), (1, 0), (6, 5)] {
            assert_sheets_in_turn(5, way, meeting(5, low, high));
        }
    }
}

fn assert_sheets_in_turn(k: u64, way: Way, table: Vec<u64>) {
    let mut parties = plain_panel(k, way, &[table]);
    let dealt: Vec<_> = parties.iter().map(|it| it.sheets.clone()).collect();
    let is_over = |party: &Plain| asked(&party.record)[0].is_none();
    for place in 0.. {
        for party in &mut parties {
            party.sheets.fill(BLANK);
        }
        if parties[0].record[place::ROUND] == DEMAND_ROUND {
            plain_round(&mut parties);
            plain_round(&mut parties);
            assert!(is_over(&parties[0]));
        }
        if is_over(&parties[0]) {
            break;
        }
        assert!(place < sheet_count(k));
        for (party, dealt) in parties.iter_mut().zip(&dealt) {
            let sheet = place * way.sheet_len()..(place + 1) * way.sheet_len();
            party.sheets[sheet.clone()].copy_from_slice(&dealt[sheet]);
        }
        for _ in 1..=way.rounds() {
            plain_round(&mut parties);
        }
    }
}

/// The record of party 1 over five prices, which take at most three probes, with
/// these numbers of the searches. Where they have ended with a price, the totals
/// are open.
fn record(way: Way, numbers: [u64; 6]) -> [u64; RECORD_LEN] {
    let [lo, hi, probes, search, first, first_probes] = numbers;
    let ended = search == 2 && hi.wrapping_sub(lo) == 1;
    let round = if ended && first > 0 { OVER_ROUND } else { 1 };
    clockivy_testing::record(&[
        (place::N, N),
        (place::OWN, 1),
        (place::K, 5),
        (place::LO, lo),
        (place::HI, hi),
        (place::PROBES, probes),
        (place::ROUND, round),
        (place::SEARCH, search),
        (place::FIRST, first),
        (place::FIRST_PROBES, first_probes),
        (place::LAST, way.rounds()),
    ])
}

/// What adding, saying, hearing and asking for the answer and for a fill reply
/// to a session with this record. A refused one has changed nothing.
fn replies(record: [u64; RECORD_LEN]) -> [Option<Refusal>; 5] {
    let [collects, speaks] = [0, 1].map(|phase| stored(phase, &record, &[0; 10]));
    let mut collecting = Collecting::resume(&collects).unwrap();
    let added = collecting.add(1, &[0; 10]).err();
    if added.is_some() {
        assert_eq!(collecting.store(), collects);
    }
    let way = Way::from_rounds(record[place::LAST]).unwrap_or(Way::Rounds33);
    let mut party = Speaking::resume(&speaks, sheets(seat(N, 1, 5, way))).unwrap();
    let said = party.say().err();
    // An outcome has the answer and the totals at once.
    let [answered, filled] = asked(&record);
    match party.outcome() {
        Err(refusal) => assert_eq!([answered, filled], [Some(refusal); 2]),
        Ok(None) => assert_eq!(answered, Some(Refusal::OutOfTurn)),
        Ok(Some(outcome)) => {
            let without = matches!(outcome, Outcome::NoPrice { .. });
            let not_cleared = without.then_some(Refusal::NotCleared);
            assert_eq!([answered, filled], [None, not_cleared]);
        }
    }
    // Words that the party does not say, so that a hearing is refused too.
    let words = vec![u64::MAX; 3 * message_len(&record)];
    let heard = party.hear(&from_marked(&words, &[1; 3])).err();
    assert_eq!(party.store(), speaks);
    [added, said, heard, answered, filled]
}

/// The same of plain words: a session whose record has no way is not resumed.
fn plain_replies(record: [u64; RECORD_LEN]) -> [Option<Refusal>; 5] {
    let mut added_to = record;
    let added = words::add(&mut added_to, &mut [0; 10], 1, &[0; 10]);
    let way = Way::from_rounds(record[place::LAST]).unwrap_or(Way::Rounds33);
    let mut party = Plain::resume(
        &stored(1, &record, &[0; 10]),
        sheets(seat(N, 1, 5, way)).words(),
    );
    let said = party.say().err();
    let words = vec![u64::MAX; 3 * message_len(&record)];
    let heard = party.hear(&words, &[1; 3]).err();
    let [answered, filled] = asked(&record);
    [reply(added).err(), said, heard, answered, filled]
}

#[test]
fn records_within_their_ranges() {
    for way in WAYS {
        assert_within_their_ranges(|numbers| record(way, numbers));
    }
}

fn assert_within_their_ranges(record: impl Fn([u64; 6]) -> [u64; RECORD_LEN]) {
    let out_of_turn = Some(Refusal::OutOfTurn);
    let differs = Some(Refusal::OwnMessageDiffers);
    let not_cleared = Some(Refusal::NotCleared);
    // Nothing probed yet, as the first search opens; and, in the second, what no
    // auction comes to, but a bid is out of turn by probes and round alone.
    for numbers in [[0, 6, 0, 1, 0, 0], [0, 6, 0, 2, 5, 0]] {
        let expected = [None, None, differs, out_of_turn, not_cleared];
        assert_eq!(replies(record(numbers)), expected);
    }
    for numbers in [
        [4, 6, 2, 1, 0, 0],
        [0, 2, 2, 1, 0, 0],
        [0, 6, 3, 2, 5, 3],
        [0, 6, 5, 2, 5, 3],
        [0, 6, 2, 2, 5, 0],
        [2, 4, 4, 2, 3, 3],
        [0, 2, 3, 2, 1, 3],
    ] {
        let expected = [out_of_turn, None, differs, out_of_turn, not_cleared];
        assert_eq!(replies(record(numbers)), expected, "{numbers:?}");
    }
    // A second search that has ended, without a price and with one.
    let expected = [out_of_turn, out_of_turn, out_of_turn, None, not_cleared];
    assert_eq!(replies(record([0, 1, 3, 2, 0, 3])), expected);
    for numbers in [[0, 1, 3, 2, 5, 3], [2, 3, 6, 2, 5, 3], [5, 6, 6, 2, 5, 3]] {
        let expected = [out_of_turn, out_of_turn, out_of_turn, None, None];
        assert_eq!(replies(record(numbers)), expected, "{numbers:?}");
        // While the totals are opened.
        for round in [DEMAND_ROUND, SUPPLY_ROUND] {
            let mut record = record(numbers);
            record[place::ROUND] = round;
            let expected = [out_of_turn, None, differs, out_of_turn, not_cleared];
            assert_eq!(replies(record), expected, "{numbers:?}");
        }
    }
}

/// What every call replies to a record that is not sound.
const UNSOUND: [Option<Refusal>; 5] = [Some(Refusal::OutOfRange); 5];
/// The numbers of searches that go on, and of some that have ended without a price.
const NO_PRICE: [[u64; 6]; 3] = [[0, 6, 0, 1, 0, 0], [0, 6, 3, 2, 5, 3], [0, 1, 3, 2, 0, 3]];
/// Those of searches that have ended with one.
const PRICE: [u64; 6] = [2, 3, 6, 2, 5, 3];

/// The rounds that a record may stand at go by its searches and its way.
#[test]
fn rounds_out_of_range() {
    for way in WAYS {
        for round in (0..=40).chain([1 << 32, u64::MAX]) {
            let is_sound = |numbers| {
                let mut record = record(way, numbers);
                record[place::ROUND] = round;
                replies(record) != UNSOUND
            };
            for numbers in NO_PRICE {
                let in_probe = (1..=way.rounds()).contains(&round);
                assert_eq!(is_sound(numbers), in_probe, "{round}");
            }
            assert_eq!(is_sound(PRICE), (34..=36).contains(&round), "{round}");
        }
    }
}

/// Its totals are totals, opened or not.
#[test]
fn totals_out_of_range() {
    let limit = TOTAL_LIMIT;
    let all = NO_PRICE.into_iter().chain([PRICE]);
    for (numbers, way) in all.flat_map(|numbers| WAYS.map(|way| (numbers, way))) {
        let is_sound = |[demand, supply]: [u64; 2]| {
            let mut record = record(way, numbers);
            [record[place::DEMAND], record[place::SUPPLY]] = [demand, supply];
            replies(record) != UNSOUND
        };
        for totals in [[0, 1], [6, 7], [limit, 0], [limit, limit], [0, u64::MAX]] {
            assert!(!is_sound(totals));
        }
        for totals in [[1, 0], [7, 7], [limit - 1, 0], [limit - 1, limit - 1]] {
            assert!(is_sound(totals));
        }
    }
}

/// Either way its carry and its pairs are bytes, wherever it stands, and there is no
/// third way.
#[test]
fn shares_and_ways_out_of_range() {
    let all = NO_PRICE.into_iter().chain([PRICE]);
    for (numbers, way) in all.flat_map(|numbers| WAYS.map(|way| (numbers, way))) {
        let is_sound = |place: usize, word| {
            let mut record = record(way, numbers);
            record[place] = word;
            replies(record) != UNSOUND
        };
        for place in (place::PAIRS..RECORD_LEN).chain([place::CARRY]) {
            assert!(is_sound(place, 1) && is_sound(place, 255));
            assert!(!is_sound(place, 256) && !is_sound(place, u64::MAX));
        }
        for last in (0..=40).chain([127, 220, (1 << 32) + 7, u64::MAX]) {
            let mut record = record(way, numbers);
            record[place::LAST] = last;
            let is_way = last == 7 || last == 33;
            assert_eq!(plain_replies(record) != UNSOUND, is_way);
            assert_eq!(
                Collecting::resume(&stored(0, &record, &[0; 10])).is_ok(),
                is_way
            );
        }
    }
}

#[test]
fn records_out_of_range() {
    let most = u64::MAX;
    for numbers in [
        // Neither search.
        [0, 6, 0, 0, 0, 0],
        [0, 6, 0, 3, 0, 0],
        [0, 6, 3, 0, 5, 3],
        [0, 6, 3, 3, 5, 3],
        [0, 6, 3, most, 5, 3],
        // The first: its bracket, its probes; it has ended; it has given already.
        [3, 3, 0, 1, 0, 0],
        [4, 3, 0, 1, 0, 0],
        [most, 0, 0, 1, 0, 0],
        [0, 7, 0, 1, 0, 0],
        [0, most, 0, 1, 0, 0],
        [0, 6, 3, 1, 0, 0],
        [0, 6, 4, 1, 0, 0],
        [0, 1, 0, 1, 0, 0],
        [2, 3, 3, 1, 0, 0],
        [5, 6, 3, 1, 0, 0],
        [0, 6, 0, 1, 1, 0],
        [0, 6, 2, 1, 0, 1],
        [0, 6, 2, 1, 5, 2],
        // The second: what the first gave is past the list.
        [0, 6, 3, 2, 6, 3],
        [0, 1, 3, 2, most, 3],
        // The probes of the first are too many, or more than all.
        [0, 6, 4, 2, 5, 4],
        [0, 6, most, 2, 5, most],
        [0, 6, 2, 2, 5, 3],
        [0, 1, 0, 2, 0, 1],
        // Its own are too many, or as many as there can be too early.
        [0, 1, 4, 2, 0, 3],
        [2, 3, 6, 2, 3, 3],
        [5, 6, 7, 2, 5, 3],
        [0, 6, most, 2, 5, 3],
        [3, 5, 6, 2, 5, 3],
        [2, 4, 5, 2, 3, 3],
        // Its bracket.
        [0, 5, 3, 2, 3, 3],
        [4, 5, 3, 2, 3, 3],
        [1, 2, 3, 2, 0, 3],
        [0, most, 3, 2, 5, 3],
        [2, 2, 3, 2, 5, 3],
        [3, 2, 3, 2, 5, 3],
        [0, 0, 3, 2, 5, 3],
    ] {
        for way in WAYS {
            assert_eq!(replies(record(way, numbers)), UNSOUND, "{numbers:?}");
        }
    }
}

/// Why the second search has sheets of its own: on one mask, the two opened sums
/// differ by the surpluses of the two probes, and every party has both sums. The words
/// are plain, since no sheets are received that have one of them twice.
#[test]
fn totals_are_given_away_by_a_sheet_that_serves_both_searches() {
    let (demand, supply) = (9_000, 70);
    for way in WAYS {
        let mut parties = plain_panel(1, way, &[vec![demand, supply]]);
        for Plain { sheets, .. } in &mut parties {
            let (first, second) = sheets.split_at_mut(way.sheet_len());
            second.copy_from_slice(first);
            let received = Sheets::received(1, way, sheets);
            assert_eq!(received.err(), Some(Refusal::ShareOutOfRange));
        }
        let mut sums = Vec::new();
        while asked(&parties[0].record)[0].is_some() {
            plain_round(&mut parties);
            let record = &parties[0].record;
            if record[place::ROUND] == 2 {
                sums.push(record[place::SUM]);
            }
        }
        assert_eq!(sums[0] - sums[1], 2 * (demand - supply));
    }
}
