//! The two types of a session, and storing and resuming each.

use clockivy::words::place;
use clockivy::{
    split, split_entry, stored_len, table_len, words, Cleared, Collecting, Outcome, Refusal, Seat,
    Sheets, Speaking, Way, MAX_PRICES, PAIRS_LEN, PRIME, RECORD_LEN, VERSION,
};
use clockivy_testing::{
    from_all, go_on_until, panel, parts, record, reply, said, sheets, stored, Plain, WAY, WAYS,
};

const N: u64 = 3;
const K: u64 = 2;
/// Demand 5 and 2, supply 1 and 4: they clear at index 1.
const TABLE: [u64; 4] = [5, 2, 1, 4];
/// The number of the one who bids it.
const BIDDER: u64 = 640;

/// The seat of one party.
fn seat(own: u64, way: Way) -> Seat {
    clockivy_testing::seat(N, own, K, way)
}

/// The record of party 1 before the first round, with these bidders on the roll. To a
/// bid the way makes no difference.
fn with_bids(bidders: &[u64]) -> [u64; RECORD_LEN] {
    with_bids_on(WAY, bidders)
}

/// The same on this way.
fn with_bids_on(way: Way, bidders: &[u64]) -> [u64; RECORD_LEN] {
    let mut record = record(&[
        (place::N, N),
        (place::OWN, 1),
        (place::K, K),
        (place::BIDS, bidders.len() as u64),
        (place::HI, K + 1),
        (place::ROUND, 1),
        (place::SEARCH, 1),
        (place::LAST, way.rounds()),
    ]);
    for bidder in bidders {
        record[place::ROLL + *bidder as usize / 64] |= 1 << (bidder % 64);
    }
    record
}

/// A party's shares of the table from these coins.
fn split_from(own: u64, coins: [u64; 4]) -> [u64; 4] {
    let mut shares = [0; 4];
    split(seat(own, WAY), &TABLE, &coins, &mut shares).unwrap();
    shares
}

fn shares(own: u64) -> [u64; 4] {
    split_from(own, [11, 12, 13, 14])
}

/// One party with the bid added.
fn collected(own: u64, way: Way) -> Collecting {
    clockivy_testing::collected(seat(own, way), &[(BIDDER, &TABLE)])
}

#[test]
fn bids_and_then_rounds() {
    for way in WAYS {
        let mut session = Collecting::open(seat(1, way)).unwrap();
        let opened = with_bids_on(way, &[]);
        assert_eq!(session.store(), stored(0, &opened, &[0; 4]));
        assert_eq!(session.record().way(), Some(way));
        session.add(BIDDER, &shares(1)).unwrap();
        let one_bid = with_bids_on(way, &[BIDDER]);
        assert_eq!(session.store(), stored(0, &one_bid, &shares(1)));

        let party = session.speak(sheets(seat(1, way)));
        assert_eq!(party.store(), stored(1, &one_bid, &shares(1)));
        assert_eq!((party.outcome(), party.index()), (Ok(None), 1));
        assert_eq!(party.say().unwrap(), party.say().unwrap());
    }
}

#[test]
fn the_fields_of_a_record_in_their_order() {
    // Each word is its place and 2 more, so that there are four prices and 33 rounds.
    let record: [u64; RECORD_LEN] = std::array::from_fn(|place| place as u64 + 2);
    let words = stored(1, &record, &[7; table_len(4)]);
    let party = Speaking::resume(&words, Sheets::blank(4, Way::Rounds33)).unwrap();
    let (left, record) = (party.store(), party.record());
    // The sum, the carry and the pairs are shown by the stored words alone.
    let (left, _) = parts(&left);
    let numbers = [
        (place::N, record.n),
        (place::OWN, record.own),
        (place::K, record.k),
        (place::BIDS, record.bids),
        (place::LO, record.lo),
        (place::HI, record.hi),
        (place::PROBES, record.probes),
        (place::ROUND, record.round),
        (place::SUM, left[place::SUM]),
        (place::CARRY, left[place::CARRY]),
    ];
    let expected = [2, 3, 4, 5, 6, 7, 8, 9, 10, 11];
    assert_eq!(numbers.map(|(_, number)| number), expected);
    assert_eq!(numbers.map(|(place, _)| left[place]), expected);
    assert_eq!(record.roll, std::array::from_fn(|place| place as u64 + 12));
    assert_eq!(left[place::ROLL..place::SEARCH], record.roll);
    let others = [
        (place::SEARCH, record.search),
        (place::FIRST, record.first),
        (place::FIRST_PROBES, record.first_probes),
        (place::DEMAND, record.demand),
        (place::SUPPLY, record.supply),
        (place::LAST, record.last),
    ];
    let expected = [28, 29, 30, 31, 32, 33];
    assert_eq!(others.map(|(_, number)| number), expected);
    assert_eq!(others.map(|(place, _)| left[place]), expected);
    let pairs: [u64; PAIRS_LEN] = std::array::from_fn(|place| place as u64 + 34);
    assert_eq!(left[place::PAIRS..], pairs);
    assert_eq!(party.store(), words);
}

#[test]
fn a_refused_call_leaves_the_session() {
    for way in WAYS {
        assert_refused_and_left(way);
    }
}

fn assert_refused_and_left(way: Way) {
    let mut session = collected(1, way);
    let before = session.store();
    for (bidder, shares, refusal) in [
        (0, &[1; 4][..], Refusal::OutOfRange),
        (1, &[1; 3], Refusal::WrongLength),
        (BIDDER, &[1; 4], Refusal::AlreadyEntered),
        (1, &[PRIME; 4], Refusal::ShareOutOfRange),
    ] {
        assert_eq!(session.add(bidder, shares), Err(refusal));
        assert_eq!(session.store(), before);
    }

    let mut party = session.speak(sheets(seat(1, way)));
    let (before, message) = (party.store(), party.say().unwrap());
    let own = message[0];
    for (messages, refusal) in [
        (&[own, own][..], Refusal::WrongLength),
        (&[own + 1, own, own], Refusal::OwnMessageDiffers),
        (&[own, own, PRIME], Refusal::Inconsistent),
        (&[own, own, own + 1], Refusal::Inconsistent),
    ] {
        assert_eq!(party.hear(&from_all(messages)), Err(refusal));
        assert_eq!((party.store(), party.say()), (before.clone(), Ok(message)));
    }
}

/// A message of another length is refused in any place and in any round, also where all
/// words together are as many as they should be.
#[test]
fn a_message_of_another_length() {
    for way in WAYS {
        for number in 1..=7 {
            let mut parties = panel(N, K, way, &[(BIDDER, &TABLE)]);
            go_on_until(&mut parties, number);
            assert_of_another_length(parties, way.message_len(number));
        }
    }
}

/// The parties hear their messages, which have this length, and no other ones.
fn assert_of_another_length(parties: Vec<Speaking>, length: usize) {
    let say = |party: &Speaking| party.say().unwrap().to_vec();
    let good: Vec<Vec<u64>> = parties.iter().map(say).collect();
    assert!(good.iter().all(|said| said.len() == length));
    for mut party in parties {
        let before = party.store();
        let mut hear = |round: &[Vec<u64>]| {
            let round: Vec<_> = round.iter().map(|said| Some(&said[..])).collect();
            (party.hear(&round), party.store())
        };
        let refused = (Err(Refusal::WrongLength), before);
        for place in 0..3 {
            let others = [0, length / 2, length - 1, length + 1, 2 * length, 64];
            for other in others.into_iter().filter(|&other| other != length) {
                let mut round = good.clone();
                round[place].resize(other, 0);
                assert_eq!(hear(&round), refused);
                round[(place + 1) % 3].resize(2 * length - other.min(2 * length), 0);
                assert_eq!(hear(&round), refused);
            }
        }
        assert_eq!(hear(&good).0, Ok(()));
    }
}

#[test]
fn a_session_resumed_after_every_call_comes_to_its_answer() {
    for way in WAYS {
        assert_resumed_after_every_call(way);
    }
}

fn assert_resumed_after_every_call(way: Way) {
    let mut parties: Vec<Speaking> = (1..=N)
        .map(|own| {
            let session = Collecting::resume(&collected(own, way).store()).unwrap();
            session.speak(sheets(seat(own, way)))
        })
        .collect();
    while parties[0].outcome() == Ok(None) {
        let messages = said(&parties);
        for (own, party) in (1..).zip(&mut parties) {
            party.hear(&messages).unwrap();
            let resumed = Speaking::resume(&party.store(), sheets(seat(own, way))).unwrap();
            assert_eq!(resumed.store(), party.store());
            assert_eq!(resumed.say(), party.say());
            *party = resumed;
        }
    }
    let outcome = Outcome::Price {
        index: 1.try_into().unwrap(),
        probes: 3,
        cleared: Cleared::new(5, 1).unwrap(),
    };
    for party in &parties {
        assert_eq!(party.outcome(), Ok(Some(outcome)));
        assert_eq!(party.say(), Err(Refusal::OutOfTurn));
    }
}

/// What either type replies to these words.
fn resume(stored: &[u64]) -> [Option<Refusal>; 2] {
    [
        Collecting::resume(stored).err(),
        Speaking::resume(stored, Sheets::blank(K, WAY)).err(),
    ]
}

#[test]
fn what_is_not_resumed() {
    let out_of_turn = Some(Refusal::OutOfTurn);
    let opened = with_bids(&[]);
    assert_eq!(resume(&stored(0, &opened, &[0; 4])), [None, out_of_turn]);
    assert_eq!(resume(&stored(1, &opened, &[0; 4])), [out_of_turn, None]);
    let out_of_range = [Some(Refusal::OutOfRange); 2];
    for phase in [2, u64::MAX] {
        assert_eq!(resume(&stored(phase, &opened, &[0; 4])), out_of_range);
    }
    for phase in [0, 1] {
        let good = stored(phase, &opened, &[0; 4]);
        assert_eq!(good.len(), stored_len(K));
        let mut longer = good.clone();
        longer.resize(stored_len(K) + 40, 0);
        for length in (0..longer.len()).filter(|&length| length != good.len()) {
            assert_eq!(resume(&longer[..length]), [Some(Refusal::WrongLength); 2]);
        }
        for version in [0, VERSION - 1, VERSION + 1, 33, u64::MAX] {
            let mut other = good.clone();
            other[0] = version;
            assert_eq!(resume(&other), out_of_range);
            assert_eq!(resume(&other[..2]), out_of_range);
        }
        for k in [0, MAX_PRICES + 1, 1 << 63, (1 << 63) + K, u64::MAX] {
            let mut record = opened;
            record[place::K] = k;
            assert_eq!(resume(&stored(phase, &record, &[0; 4])), out_of_range);
            assert_eq!(resume(&stored(phase, &record, &[])), out_of_range);
        }
        for last in [0, 1, 6, 8, 32, 34, u64::MAX] {
            let mut record = opened;
            record[place::LAST] = last;
            assert_eq!(resume(&stored(phase, &record, &[0; 4])), out_of_range);
            assert_eq!(resume(&stored(phase, &record, &[])), out_of_range);
        }
        // Eleven words were a session before there was a roll, 27 before there was a
        // second search, 30 before there were totals, and 32 before there was a version.
        // Then the record had 31 words, in version 1.
        let unversioned = [&[phase], &opened[..]].concat();
        for length in [11, 27, 30, 32] {
            assert_eq!(resume(&unversioned[..length]), out_of_range);
        }
        let of_version_1 = [&[1, phase], &opened[..31], &[0; 4]].concat();
        assert_eq!(resume(&of_version_1), out_of_range);
    }
}

/// Adds a bid to a session with this record and these totals: its words afterwards.
/// A refusal has left both as they were.
fn add_to(
    record: [u64; RECORD_LEN],
    bidder: u64,
    totals: [u64; 4],
    shares: &[u64],
) -> Result<Vec<u64>, Refusal> {
    let before = stored(0, &record, &totals);
    let mut session = Collecting::resume(&before).unwrap();
    let reply = session.add(bidder, shares);
    if reply.is_err() {
        assert_eq!(session.store(), before);
    }
    reply.map(|()| session.store())
}

#[test]
fn a_bid_sent_again_is_refused_and_changes_nothing() {
    let mut session = Collecting::open(seat(1, WAY)).unwrap();
    session.add(BIDDER, &shares(1)).unwrap();
    session.add(1, &[1, 2, 3, 4]).unwrap();
    let before = session.store();
    // The same shares, those of another bid, and either in a stored session.
    for shares in [shares(1), [9, 8, 7, 6]] {
        for _ in 0..3 {
            let again = session.add(BIDDER, &shares);
            assert_eq!(again, Err(Refusal::AlreadyEntered));
            assert_eq!(session.store(), before);
        }
        let mut resumed = Collecting::resume(&before).unwrap();
        let again = resumed.add(BIDDER, &shares);
        assert_eq!(again, Err(Refusal::AlreadyEntered));
        assert_eq!(resumed.store(), before);
    }
    // The next bidder's is none of these.
    session.add(BIDDER + 1, &[1; 4]).unwrap();
    let (record, _) = parts(&before);
    assert_eq!(record, with_bids(&[BIDDER, 1]));
    let left = session.store();
    assert_eq!(parts(&left).0, with_bids(&[BIDDER, 1, BIDDER + 1]));
}

#[test]
fn a_bid_marks_its_bidder_and_nobody_else() {
    for bidder in [1, 2, 62, 63, 64, 65, 127, 128, 512, 959, 960, 999, 1_000] {
        let others: Vec<u64> = [1, 63, 64, 128, 960, 999, 1_000]
            .into_iter()
            .filter(|&other| other != bidder)
            .collect();
        let left = add_to(with_bids(&others), bidder, [1; 4], &[2, 3, 4, 5]);
        let all = [&others[..], &[bidder]].concat();
        assert_eq!(left, Ok(stored(0, &with_bids(&all), &[3, 4, 5, 6])));
        let again = add_to(with_bids(&all), bidder, [1; 4], &[2, 3, 4, 5]);
        assert_eq!(again, Err(Refusal::AlreadyEntered));
    }
}

#[test]
fn the_roll_by_bidders() {
    let past = [1_024, 1_025, 2_048, 1 << 32, 1 << 38, 1 << 63, u64::MAX];
    for bidder in [0, 1, 63, 64, 640, 1_000, 1_001, 1_023] {
        let stored = stored(0, &with_bids(&[bidder]), &[0; 4]);
        let session = Collecting::resume(&stored).unwrap();
        let record = session.record();
        for other in (0..1_024).chain(past) {
            assert_eq!(record.has_bid(other), other == bidder);
        }
    }
}

/// What a fill by this record replies. On plain words it may be asked of any.
fn filled(record: &[u64]) -> Result<(), Refusal> {
    let (mut tenths, mut remainder) = (77, 77);
    let reply = reply(words::fill(record, 0, &mut tenths, &mut remainder));
    assert!(reply.is_ok() || (tenths, remainder) == (77, 77));
    reply
}

/// Every call on a record refuses one whose roll is not sound.
fn assert_unsound(record: [u64; RECORD_LEN]) {
    let out_of_range = Err(Refusal::OutOfRange);
    for bidder in [BIDDER, BIDDER + 1] {
        let reply = add_to(record, bidder, [0; 4], &[0; 4]);
        assert_eq!(reply.map(|_| ()), out_of_range);
    }
    let stored = stored(1, &record, &[0; 4]);
    let mut party = Speaking::resume(&stored, sheets(seat(1, WAY))).unwrap();
    assert_eq!(party.say().map(|_| ()), out_of_range);
    assert_eq!(party.hear(&from_all(&[0; 3])), out_of_range);
    assert_eq!(party.outcome().map(|_| ()), out_of_range);
    assert_eq!(filled(&record), out_of_range);
    assert_eq!(party.store(), stored);
}

#[test]
fn bids_are_the_marks_on_the_roll() {
    for bidders in [&[][..], &[BIDDER], &[1, 64, 1_000]] {
        let sound = with_bids(bidders);
        let marks = bidders.len() as u64;
        for bids in [marks.wrapping_sub(1), marks + 1, 1_000, 1_001, u64::MAX] {
            let mut record = sound;
            record[place::BIDS] = bids;
            assert_unsound(record);
        }
        assert!(add_to(sound, 7, [0; 4], &[0; 4]).is_ok());
    }
}

#[test]
fn a_roll_marks_bidders_alone() {
    // `with_bids` counts these marks too, so that only their place is wrong.
    for nobody in std::iter::once(0).chain(1_001..1_024) {
        assert_unsound(with_bids(&[nobody]));
        assert_unsound(with_bids(&[nobody, BIDDER]));
        assert_unsound(with_bids(&[nobody, 1, 1_000]));
    }
    let everybody: Vec<u64> = (0..1_024).collect();
    assert_unsound(with_bids(&everybody));
    assert_unsound(with_bids(&everybody[..1_001]));
    let full = with_bids(&everybody[1..1_001]);
    let reply = add_to(full, BIDDER, [0; 4], &[0; 4]);
    assert_eq!(reply, Err(Refusal::AlreadyEntered));
}

#[test]
fn a_bid_is_judged_in_its_order() {
    let sound = with_bids(&[BIDDER]);
    let mut unsound = sound;
    unsound[place::BIDS] = 2;
    let mut heard = sound;
    heard[place::ROUND] = 2;
    let mut probed = sound;
    probed[place::PROBES] = 1;
    let (short, foreign) = (&[PRIME; 3][..], &[PRIME; 4]);
    for (record, bidder, shares, refusal) in [
        (unsound, BIDDER, short, Refusal::OutOfRange),
        (heard, 0, short, Refusal::OutOfRange),
        (heard, BIDDER, short, Refusal::WrongLength),
        (heard, BIDDER, foreign, Refusal::OutOfTurn),
        (heard, 1, foreign, Refusal::OutOfTurn),
        (probed, BIDDER, foreign, Refusal::OutOfTurn),
        (sound, BIDDER, foreign, Refusal::AlreadyEntered),
        (sound, 1, foreign, Refusal::ShareOutOfRange),
    ] {
        for totals in [[0; 4], [PRIME; 4]] {
            assert_eq!(add_to(record, bidder, totals, shares), Err(refusal));
        }
    }
    // On plain words the record's length comes before all else but the bidder's
    // number, which needs no record.
    for length in [0, 10, 26, 29, RECORD_LEN - 1, RECORD_LEN + 1] {
        for (bidder, refusal) in [
            (1, Refusal::WrongLength),
            (1_000, Refusal::WrongLength),
            (0, Refusal::OutOfRange),
            (1_001, Refusal::OutOfRange),
        ] {
            let mut record = vec![u64::MAX; length];
            let number = words::add(&mut record, &mut [0; 4], bidder, short);
            assert_eq!(number, refusal.number());
            assert_eq!(record, vec![u64::MAX; length]);
        }
    }
}

#[test]
fn bids_in_another_order_leave_the_same() {
    let bids: [(u64, [u64; 4]); 3] = [
        (BIDDER, [PRIME - 1, 2, 3, PRIME - 4]),
        (64, [5, PRIME - 6, 7, 8]),
        (1_000, [9, 10, PRIME - 11, 12]),
    ];
    let left = |order: [usize; 3]| {
        let mut session = Collecting::open(seat(1, WAY)).unwrap();
        for (bidder, shares) in order.map(|place| bids[place]) {
            session.add(bidder, &shares).unwrap();
        }
        session.store()
    };
    for order in [[0, 2, 1], [1, 0, 2], [1, 2, 0], [2, 0, 1], [2, 1, 0]] {
        assert_eq!(left(order), left([0, 1, 2]));
    }
}

/// What three parties reply to round 1, each with its shares of a second bid,
/// or without it.
fn heard_with(second: impl Fn(u64) -> Option<[u64; 4]>) -> Vec<Result<(), Refusal>> {
    let mut parties: Vec<Speaking> = (1..=N)
        .map(|own| {
            let mut session = collected(own, WAY);
            if let Some(shares) = second(own) {
                session.add(1, &shares).unwrap();
            }
            session.speak(sheets(seat(own, WAY)))
        })
        .collect();
    let messages = said(&parties);
    parties
        .iter_mut()
        .map(|party| party.hear(&messages))
        .collect()
}

/// The coins of a second bid.
const COINS: [u64; 4] = [21, 22, 23, 24];

/// What they reply where the first two have the second bid from one splitting;
/// the third has it from these coins, or not at all.
fn heard_with_third(third: Option<[u64; 4]>) -> Vec<Result<(), Refusal>> {
    heard_with(|own| {
        let coins = if own == 3 { third } else { Some(COINS) };
        coins.map(|coins| split_from(own, coins))
    })
}

/// Why rolls are compared before the first message: what one party lacks, or
/// has from another splitting, shows in round 1, when no bid may be added.
#[test]
fn a_bid_missing_or_split_anew_at_one_party_is_found_in_round_1() {
    assert_eq!(heard_with_third(Some(COINS)), [Ok(()); 3]);
    // Coins that all moved alike would cancel in demand minus supply; that real
    // ones do has a chance of about 1 in 2^61.
    for third in [None, Some([31, 47, 59, 88])] {
        assert_eq!(heard_with_third(third), [Err(Refusal::Inconsistent); 3]);
    }
}

/// So it is with one entry that one party has from another coin, once its index
/// is probed. The first probe is at index 1, whose entries are 1 and 3.
#[test]
fn an_entry_split_anew_at_one_party_is_found_where_it_is_probed() {
    for entry in 1..=4 {
        let mut third = COINS;
        third[entry - 1] += 1;
        let reply = match entry {
            1 | 3 => Err(Refusal::Inconsistent),
            _ => Ok(()),
        };
        assert_eq!(heard_with_third(Some(third)), [reply; 3]);
    }
}

/// Why the shares are filled with what is no share before the first entry: a
/// place of zeros that is left out at all parties is accepted. Left out at some
/// of them, it is found where it is probed.
#[test]
fn a_place_of_zeros_that_is_left_out_is_accepted_from_all_parties_alone() {
    let some = [&[1][..], &[2], &[3], &[1, 2], &[1, 3], &[2, 3]];
    for left_out in 1..=4 {
        let heard_without = |parties: &[u64]| {
            heard_with(|own| {
                let mut shares = [0; 4];
                for (entry, coin) in (1..).zip(COINS) {
                    if entry != left_out || !parties.contains(&own) {
                        split_entry(seat(own, WAY), entry, &TABLE, &[coin], &mut shares).unwrap();
                    }
                }
                Some(shares)
            })
        };
        assert_eq!(heard_without(&[1, 2, 3]), [Ok(()); 3]);
        let reply = match left_out {
            1 | 3 => Err(Refusal::Inconsistent),
            _ => Ok(()),
        };
        for parties in some {
            assert_eq!(heard_without(parties), [reply; 3]);
        }
    }
}

/// Why session and totals are stored as one: an older record passes every judgement,
/// and does not know of the bid that the totals hold. On plain words, and in words that
/// were put together from two sessions, they come apart; a session's own do not.
#[test]
fn a_bid_sent_again_to_an_older_session_counts_double() {
    let (mut record, mut totals) = ([0; RECORD_LEN], [9; 4]);
    let opened = words::open(N, 1, K, WAY.rounds(), &mut totals, &mut record);
    assert_eq!(opened, 0);
    let older = record;
    let mut add = |record: &mut [u64]| words::add(record, &mut totals, BIDDER, &[1, 2, 3, 4]);
    assert_eq!(add(&mut record), 0);
    record = older;
    assert_eq!(add(&mut record), 0);
    assert_eq!((record[place::BIDS], totals), (1, [2, 4, 6, 8]));

    let put_together = add_to(older, BIDDER, [1, 2, 3, 4], &[1, 2, 3, 4]);
    assert_eq!(put_together, Ok(stored(0, &record, &[2, 4, 6, 8])));
    let whole = add_to(older, BIDDER, [0; 4], &[1, 2, 3, 4]);
    assert_eq!(whole, Ok(stored(0, &record, &[1, 2, 3, 4])));
}

#[test]
fn a_resumed_record_is_judged_by_the_next_call() {
    let mut heard = with_bids(&[]);
    heard[place::ROUND] = 2;
    let reply = add_to(heard, BIDDER, [0; 4], &[0; 4]);
    assert_eq!(reply, Err(Refusal::OutOfTurn));

    // Of the record, resuming judges the number of prices and the way alone.
    let mut none = [u64::MAX; RECORD_LEN];
    assert_eq!(
        resume(&stored(0, &none, &[])),
        [Some(Refusal::OutOfRange); 2]
    );
    let out_of_range = Err(Refusal::OutOfRange);
    [none[place::K], none[place::LAST]] = [K, WAY.rounds()];
    let reply = add_to(none, BIDDER, [0; 4], &[0; 4]);
    assert_eq!(reply.map(|_| ()), out_of_range);
    let stored = stored(1, &none, &[0; 4]);
    let mut party = Speaking::resume(&stored, Sheets::blank(K, WAY)).unwrap();
    assert_eq!(party.index(), u64::MAX);
    assert_eq!(party.say().map(|_| ()), out_of_range);
    assert_eq!(party.hear(&from_all(&[0; 3])), out_of_range);
    assert_eq!(party.outcome().map(|_| ()), out_of_range);
    assert_eq!(filled(&none), out_of_range);
}

/// On plain words no number of prices is judged before the call.
#[test]
fn a_record_of_no_prices_is_judged_by_every_call() {
    let out_of_range = Err(Refusal::OutOfRange);
    let none = [u64::MAX; RECORD_LEN];
    let mut party = Plain::resume(&stored(1, &none, &[]), &[]);
    assert_eq!(party.say().map(|_| ()), out_of_range);
    assert_eq!(party.hear(&[0; 3], &[1; 3]), out_of_range);
    assert_eq!(party.record, none);
    let mut record = none;
    let added = words::add(&mut record, &mut [0; 4], BIDDER, &[0; 4]);
    assert_eq!((reply(added), record), (out_of_range, none));
    let (mut index, mut probes) = (77, 77);
    let answered = words::answer(&none, &mut index, &mut probes);
    assert_eq!((reply(answered), index, probes), (out_of_range, 77, 77));
    assert_eq!(filled(&none), out_of_range);
}

/// The index by the words of a record, whatever they are.
fn index_by([lo, hi, round, first]: [u64; 4]) -> u64 {
    let (low, high) = match round {
        ..=33 => (lo, hi),
        _ if hi <= first => (first, hi),
        _ => (first, first),
    };
    ((u128::from(low) + u128::from(high)) / 2) as u64
}

/// Whatever the words of a stored session are, it tells where it stands; and of what
/// the auction has come to it tells once it is over, or that the words are none.
#[test]
fn any_words_tell_where_a_session_stands() {
    let edges = [0, 1, 2, 33, 34, 36, 1 << 63, u64::MAX - 1, u64::MAX];
    let mut sound = with_bids(&[]);
    sound[place::SEARCH] = 2;
    [sound[place::PROBES], sound[place::FIRST_PROBES]] = [2, 1];
    let mut unsound = [u64::MAX; RECORD_LEN];
    [unsound[place::K], unsound[place::SEARCH]] = [K, 2];
    unsound[place::LAST] = WAY.rounds();
    // How often there was an outcome, and how often none yet.
    let mut counts = [0, 0];
    for numbers in (0..edges.len().pow(4)).map(|number| {
        let digit = |place: u32| edges[number / edges.len().pow(place) % edges.len()];
        [0, 1, 2, 3].map(digit)
    }) {
        let [lo, hi, round, first] = numbers;
        let over = hi.checked_sub(lo) == Some(1) && (first == 0 || round == 36);
        for (others, is_sound) in [(sound, true), (unsound, false)] {
            let mut record = others;
            [record[place::LO], record[place::HI]] = [lo, hi];
            [record[place::ROUND], record[place::FIRST]] = [round, first];
            let stored = stored(1, &record, &[0; 4]);
            let party = Speaking::resume(&stored, Sheets::blank(K, WAY)).unwrap();
            assert_eq!(party.index(), index_by(numbers));
            match party.outcome() {
                Ok(outcome) => {
                    assert_eq!((outcome.is_some(), is_sound), (over, true));
                    counts[usize::from(outcome.is_none())] += 1;
                }
                Err(refusal) => assert_eq!(refusal, Refusal::OutOfRange),
            }
        }
    }
    assert!(counts.iter().all(|&count| count > 0), "{counts:?}");
}

/// Nor are the sum, the carry and the pairs, which rounds 1 and 2 leave in the record.
#[test]
fn neither_totals_nor_sheets_are_shown() {
    for way in WAYS {
        assert_not_shown(way);
    }
}

fn assert_not_shown(way: Way) {
    let session = collected(1, way);
    let expected = format!("Collecting {{ record: {:?}, .. }}", session.record());
    assert_eq!(format!("{session:?}"), expected);
    let sheets = sheets(seat(1, way));
    let expected = format!("Sheets {{ words: {}, .. }}", sheets.words().len());
    assert_eq!(format!("{sheets:?}"), expected);
    let mut parties = panel(N, K, way, &[(BIDDER, &TABLE)]);
    go_on_until(&mut parties, 3);
    let party = &parties[0];
    let expected = format!("Speaking {{ record: {:?}, .. }}", party.record());
    assert_eq!(format!("{party:?}"), expected);

    let left = party.store();
    let (record, _) = parts(&left);
    assert!(record[place::SUM] > 1 << 58);
    let shown = format!("{:?}", party.record());
    assert!(!shown.contains(&record[place::SUM].to_string()));
    let secret = ["sum", "carry", "pairs"];
    assert!(secret.iter().all(|name| !shown.contains(name)), "{shown}");
}

/// A message is shown as the words that it has.
#[test]
fn a_message_is_shown_as_its_words() {
    for way in WAYS {
        let mut parties = panel(N, K, way, &[]);
        for number in 1..=way.rounds() {
            go_on_until(&mut parties, number);
            let message = parties[0].say().unwrap();
            assert_eq!(
                format!("{message:?}"),
                format!("Message({:?})", &message[..])
            );
        }
    }
}

/// Why a session that starts anew gets new sheets: with those of one that has
/// spoken, its message differs from the other's by a share of the new bid.
#[test]
fn a_bid_is_given_away_by_sheets_used_again() {
    for way in WAYS {
        let sheets = || sheets(seat(1, way));
        let before = collected(1, way).speak(sheets()).say().unwrap();
        let mut anew = collected(1, way);
        let bid = [9_000, 8_000, 70, 60];
        anew.add(1, &bid).unwrap();
        let after = anew.speak(sheets()).say().unwrap();
        assert_eq!((after[0] + PRIME - before[0]) % PRIME, bid[0] - bid[2]);
    }
}

/// Why a session that speaks takes no bids: on plain words the library accepts
/// one, and the messages before and after differ by a share of it.
#[test]
fn a_bid_between_two_sayings_is_given_away() {
    for way in WAYS {
        let sheets = sheets(seat(1, way));
        let mut party = Plain::resume(&collected(1, way).store(), sheets.words());
        let before = party.say().unwrap();
        let bid = [9_000, 8_000, 70, 60];
        let Plain { record, totals, .. } = &mut party;
        assert_eq!(words::add(record, totals, 1, &bid), 0);
        let after = party.say().unwrap();
        assert_eq!((after[0] + PRIME - before[0]) % PRIME, bid[0] - bid[2]);
    }
}
