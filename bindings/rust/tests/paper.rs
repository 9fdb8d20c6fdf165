//! The paper's checked lines and limits, through the typed calls.

use clockivy::words::place;
use clockivy::{
    coins_len, deal, deal_bytes_len, deal_words_len, probe_limit, sheet_count, sheets_len, split,
    stored_len, table_len, threshold, words, Collecting, Outcome, Refusal, Sheets, Speaking, Way,
    DEMAND_ROUND, MASK_LIMIT, MAX_AMOUNT, OVER_ROUND, PAIRS_LEN, PRIME, RECORD_LEN, ROLL_LEN,
    SUPPLY_ROUND,
};
use clockivy_testing::{
    from_all, from_marked, parts, plain_round, record, reply, seat, stored, Plain, WAY, WAYS,
};

/// All parties' shares of one amount, written as demand at the only price.
fn shares_of(n: u64, secret: u64, coefficients: &[u64]) -> Vec<u64> {
    let mut coins = coefficients.to_vec();
    coins.resize(coins_len(n, 1), 0);
    (1..=n)
        .map(|own| {
            let mut shares = [0; 2];
            split(seat(n, own, 1, WAY), &[secret, 0], &coins, &mut shares).unwrap();
            shares[0]
        })
        .collect()
}

#[test]
fn shares_of_an_amount() {
    assert_eq!(shares_of(5, 7, &[3, 2]), [12, 21, 34, 51, 72]);
    assert_eq!(
        shares_of(3, 0, &[PRIME - 1]),
        [PRIME - 1, PRIME - 2, PRIME - 3]
    );
}

#[test]
fn shares_of_a_bit() {
    for way in WAYS {
        let mut bytes = vec![0; deal_bytes_len(3, way)];
        bytes[0] = 0x80;
        let shares = [1, 2, 3].map(|own| {
            let mut sheet = vec![0; way.sheet_len()];
            deal(seat(3, own, 1, way), &[1, 0], &bytes, &mut sheet).unwrap();
            sheet[1]
        });
        assert_eq!(shares, [0x81, 0x1A, 0x9A]);
    }
}

/// The share of alpha times beta, none of them masked, wherever a sheet has one.
fn product(alpha: u8, beta: u8) -> u64 {
    let mut found = Vec::new();
    for way in WAYS {
        // A product takes three words of a sheet and five of its bytes.
        let products = (way.sheet_len() - 34) / 3;
        for (factors, share) in (0..products).map(|place| (33 + 5 * place, 34 + 3 * place)) {
            let mut bytes = vec![0; deal_bytes_len(3, way)];
            [bytes[factors], bytes[factors + 1]] = [alpha, beta];
            let mut sheet = vec![0; way.sheet_len()];
            deal(seat(3, 1, 1, way), &[0, 0], &bytes, &mut sheet).unwrap();
            assert_eq!(sheet[share..share + 2], [alpha.into(), beta.into()]);
            found.push(sheet[share + 2]);
        }
    }
    assert_eq!(found.len(), 31 + 62);
    found.dedup();
    assert_eq!(found.len(), 1);
    found[0]
}

#[test]
fn products_of_bytes() {
    assert_eq!(product(0x57, 0x83), 0xC1);
    assert_eq!(product(0x57, 0x13), 0xFE);
    for power in 0..8 {
        let expected = [0x57, 0xAE, 0x47, 0x8E, 0x07, 0x0E, 0x1C, 0x38];
        assert_eq!(product(0x57, 1 << power), expected[power as usize]);
    }
}

#[test]
fn shares_wrap_around_the_prime() {
    assert_eq!(
        shares_of(5, 0, &[0, PRIME - 1]),
        [PRIME - 1, PRIME - 4, PRIME - 9, PRIME - 16, PRIME - 25]
    );
}

#[test]
fn a_round_that_lies_on_no_polynomial() {
    for way in WAYS {
        assert_lies_on_no_polynomial(way);
    }
}

fn assert_lies_on_no_polynomial(way: Way) {
    let session = Collecting::open(seat(5, 1, 1, way)).unwrap();
    // The second search's sheet is not come to, but may not be all zeros.
    let mut sheets = vec![0; sheets_len(1, way)];
    [sheets[0], sheets[way.sheet_len()]] = [(1 << 59) + (1 << 32) - 12, 1];
    let mut plain = Plain::resume(&session.store(), &sheets);
    let mut party = session.speak(Sheets::received(1, way, &sheets).unwrap());
    let message = party.say();
    assert_eq!(message.as_deref(), Ok(&[12][..]));
    let before = party.store();
    let mut hear = |last| party.hear(&from_all(&[12, 21, 34, 51, last]));
    assert_eq!(hear(73), Err(Refusal::Inconsistent));
    // These open to 7, which is consistent but no sum.
    assert_eq!(hear(72), Err(Refusal::SumOutOfRange));
    // So they do without the last, and by any three.
    for present in [[1, 1, 1, 1, 0], [1, 0, 1, 1, 0], [0, 1, 1, 1, 0]] {
        let round = from_marked(&[12, 21, 34, 51, 72], &present);
        assert_eq!(party.hear(&round), Err(Refusal::SumOutOfRange));
        // On plain words something stands in the place of the last, whatever it is.
        for last in [72, 73, u64::MAX] {
            let heard = plain.hear(&[12, 21, 34, 51, last], &present);
            assert_eq!(heard, Err(Refusal::SumOutOfRange));
        }
    }
    assert_eq!((party.store(), party.say()), (before.clone(), message));
    assert_eq!(plain.record, parts(&before).0);
}

/// A party of three over one price, of nobody's bids, in the first search or in the
/// second, which follows a verdict of 1. Its words are plain: totals can be larger than
/// any one bid, so they are shared by hand, each with its own coefficient; and the other
/// search's sheet is none.
fn probing(way: Way, search: u64, own: u64, [demand, supply]: [u64; 2], mask: u64) -> Plain {
    let share = |secret: u64, coefficient: u64| secret + coefficient * own;
    let words = [mask, 0x1234_5678];
    let bytes: Vec<u8> = (0..deal_bytes_len(3, way))
        .map(|i| (i * 89) as u8)
        .collect();
    // What the first search has left, 0 where it is on.
    let left = search - 1;
    let mut sheets = Sheets::blank(1, way).words().to_vec();
    let sheet = &mut sheets[left as usize * way.sheet_len()..][..way.sheet_len()];
    deal(seat(3, own, 1, way), &words, &bytes, sheet).unwrap();
    Plain {
        record: at(way, own, [0, 2, left, 1], [search, left, left], 0).to_vec(),
        totals: vec![share(demand, 99), share(supply, 55)],
        sheets,
    }
}

/// The record of a party of three over one price, of nobody's bids: lo, hi, the probes
/// and the round; search, first and its probes; and the carry.
fn at(
    way: Way,
    own: u64,
    [lo, hi, probes, round]: [u64; 4],
    [search, first, first_probes]: [u64; 3],
    carry: u64,
) -> [u64; RECORD_LEN] {
    record(&[
        (place::N, 3),
        (place::OWN, own),
        (place::K, 1),
        (place::LO, lo),
        (place::HI, hi),
        (place::PROBES, probes),
        (place::ROUND, round),
        (place::CARRY, carry),
        (place::SEARCH, search),
        (place::FIRST, first),
        (place::FIRST_PROBES, first_probes),
        (place::LAST, way.rounds()),
    ])
}

/// What a session with this record over one price says that the auction has come to.
fn outcome(record: &[u64]) -> Result<Option<Outcome>, Refusal> {
    let stored = stored(1, record, &[0; 2]);
    Speaking::resume(&stored, Sheets::blank(1, WAY))
        .unwrap()
        .outcome()
}

/// One probe of three parties on the given totals and mask, in the first search
/// over one price or in the second: the opened sum and the verdict.
fn probe(way: Way, search: u64, [demand, supply]: [u64; 2], mask: u64) -> (u64, bool) {
    let mut parties: Vec<Plain> = (1..=3)
        .map(|own| probing(way, search, own, [demand, supply], mask))
        .collect();
    plain_round(&mut parties);
    let sum = parties[0].record[place::SUM];
    assert!(parties.iter().all(|party| party.record[place::SUM] == sum));
    for _ in 2..=way.rounds() {
        plain_round(&mut parties);
    }
    let verdict = match search {
        1 => parties[0].record[place::FIRST] == 1,
        _ => parties[0].record[place::HI] == 1,
    };
    // The second search ends at lo 0 and hi 1, or at lo 1 and hi 2, and the totals
    // are next. The first ends with 0, and with that all, or the second begins over
    // 1 price.
    let (lo, hi, round, first) = match (search, verdict) {
        (1, _) => (0, 1 + u64::from(verdict), 1, u64::from(verdict)),
        (_, true) => (0, 1, DEMAND_ROUND, 1),
        (_, false) => (1, 2, DEMAND_ROUND, 1),
    };
    for (own, party) in (1..).zip(&parties) {
        assert_eq!(
            party.record,
            at(way, own, [lo, hi, search, round], [2, first, 1], 0)
        );
        let over = (first == 0).then_some(Outcome::NoPrice { probes: search });
        assert_eq!(outcome(&party.record), Ok(over));
    }
    (sum, verdict)
}

#[test]
fn comparisons() {
    // The second search has the sides exchanged, and the two ways come to the same.
    let probe = |more, less, mask| {
        let first = probe(WAY, 1, [more, less], mask);
        for way in WAYS {
            assert_eq!(probe(way, 1, [more, less], mask), first);
            assert_eq!(probe(way, 2, [less, more], mask), first);
        }
        first
    };
    let base = (1 << 59) + (1 << 32);
    assert_eq!(probe(5, 3, 7), (base - 5, true));
    assert_eq!(probe(3, 5, 7), (base - 9, false));
    assert_eq!(probe(0, 0, 0), (base, true));
    let top = (1 << 32) - 1;
    assert_eq!(probe(0, top, MASK_LIMIT - 1), ((1 << 58) + 2, false));
    assert_eq!(probe(top, 0, 0), (base + top, true));
    assert!(probe(top, top, MASK_LIMIT - 1).1);
    assert!(!probe(top - 1, top, 0).1);
}

#[test]
fn limits_of_a_bid() {
    let try_table = |table: &[u64]| {
        let k = table.len() as u64 / 2;
        let coins = vec![1; coins_len(3, k)];
        let mut shares = vec![5; table.len()];
        let reply = split(seat(3, 1, k, WAY), table, &coins, &mut shares);
        if reply.is_err() {
            assert!(shares.iter().all(|&share| share == 5));
        }
        reply
    };
    assert_eq!(try_table(&[MAX_AMOUNT, MAX_AMOUNT]), Ok(()));
    assert_eq!(
        try_table(&[MAX_AMOUNT + 1, 0]),
        Err(Refusal::AmountTooLarge)
    );
    assert_eq!(
        try_table(&[0, MAX_AMOUNT + 1]),
        Err(Refusal::AmountTooLarge)
    );
    assert_eq!(try_table(&[4, 4, 0, 0]), Ok(()));
    assert_eq!(try_table(&[4, 5, 0, 0]), Err(Refusal::NotMonotone));
    assert_eq!(try_table(&[5, 4, 1, 0]), Err(Refusal::NotMonotone));
    assert_eq!(try_table(&[0; 2 * 1_024]), Ok(()));
    assert_eq!(try_table(&[0; 2 * 1_025]), Err(Refusal::OutOfRange));
}

#[test]
fn a_thousand_bids_and_no_more() {
    let mut session = Collecting::open(seat(3, 2, 1, WAY)).unwrap();
    for bidder in 1..=1_000 {
        assert!(!session.record().has_bid(bidder));
        session.add(bidder, &[2, 3]).unwrap();
        assert_eq!(session.record().bids, bidder);
        assert!(session.record().has_bid(bidder));
    }
    let before = session.store();
    assert_eq!(parts(&before).1, [2_000, 3_000]);
    let mut full = [u64::MAX; ROLL_LEN];
    full[0] = u64::MAX - 1;
    full[ROLL_LEN - 1] = (1 << 41) - 1;
    assert_eq!(session.record().roll, full);

    for bidder in 0..=1_001 {
        let refusal = match bidder {
            0 | 1_001 => Refusal::OutOfRange,
            _ => Refusal::AlreadyEntered,
        };
        assert_eq!(session.add(bidder, &[2, 3]), Err(refusal));
        assert_eq!(session.store(), before);
    }
}

#[test]
fn bidders_are_numbered_from_1_to_1000() {
    let mut session = Collecting::open(seat(3, 2, 1, WAY)).unwrap();
    let before = session.store();
    assert_eq!(parts(&before).1, [0; 2]);
    let near = [0, 1_001, 1_023, 1_024, 1_025];
    // Cut to fewer bits, these would be bidder 1.
    let far = [10, 16, 32, 63].map(|bits| (1 << bits) + 1);
    for bidder in near.into_iter().chain(far).chain([u64::MAX]) {
        // Also where a length or a share is wrong.
        for shares in [&[2, 3][..], &[2], &[PRIME; 2]] {
            let refused = session.add(bidder, shares);
            assert_eq!(refused, Err(Refusal::OutOfRange));
            assert_eq!(session.store(), before);
        }
    }
    for bidder in [1_000, 1] {
        session.add(bidder, &[2, 3]).unwrap();
    }
    assert_eq!(session.record().bids, 2);
    assert_eq!(parts(&session.store()).1, [4, 6]);
}

/// What opening replies on plain words: the session's words, with totals of this length
/// that held something else. A refusal changes nothing.
fn open_plain([n, own, k, last]: [u64; 4], length: usize) -> Result<Vec<u64>, Refusal> {
    let (mut totals, mut record) = (vec![9; length], [7; RECORD_LEN]);
    let reply = reply(words::open(n, own, k, last, &mut totals, &mut record));
    if reply.is_err() {
        assert_eq!((totals, record), (vec![9; length], [7; RECORD_LEN]));
        return reply.map(|()| vec![]);
    }
    Ok(stored(0, &record, &totals))
}

#[test]
fn limits_of_a_session() {
    for way in WAYS {
        assert_limits_of_a_session(way);
    }
}

fn assert_limits_of_a_session(way: Way) {
    let last = way.rounds();
    let open = |n, own, k: u64| {
        let opened = Collecting::open(seat(n, own, k, way)).map(|session| session.store());
        // The session makes its own totals; on plain words those that are lent are zeroed.
        let length = if k > 2_000 { 0 } else { table_len(k) };
        assert_eq!(open_plain([n, own, k, last], length), opened);
        opened
    };
    for n in 3..=9 {
        let record = record(&[
            (place::N, n),
            (place::OWN, n),
            (place::K, 1_024),
            (place::HI, 1_025),
            (place::ROUND, 1),
            (place::SEARCH, 1),
            (place::LAST, last),
        ]);
        assert_eq!(open(n, n, 1_024), Ok(stored(0, &record, &[0; 2_048])));
        assert_eq!(open(n, n + 1, 1), Err(Refusal::OutOfRange));
        assert_eq!(open(n, 0, 1), Err(Refusal::OutOfRange));
    }
    assert_eq!(open(2, 1, 1), Err(Refusal::OutOfRange));
    assert_eq!(open(10, 1, 1), Err(Refusal::OutOfRange));
    // No room is made for totals that are not to be.
    for k in [0, 1_025, 1 << 63, u64::MAX] {
        assert_eq!(open(3, 1, k), Err(Refusal::OutOfRange));
    }
    for length in [0, 3, 5] {
        let opened = open_plain([3, 1, 2, last], length);
        assert_eq!(opened, Err(Refusal::WrongLength));
    }
}

#[test]
fn answers_wait_for_the_end() {
    for way in WAYS {
        assert_waits_for_the_end(way);
    }
}

fn assert_waits_for_the_end(way: Way) {
    let answer = |numbers: [u64; 4], searches: [u64; 3], carry| {
        let mut record = at(way, 1, numbers, searches, carry);
        [record[place::DEMAND], record[place::SUPPLY]] = [9, 7];
        let ([lo, hi, _, round], [search, first, _]) = (numbers, searches);
        let over = search == 2 && hi - lo == 1 && (first == 0 || round == 36);
        let outcome = outcome(&record);
        if let Ok(outcome) = outcome {
            assert_eq!(outcome.is_some(), over);
        }
        outcome.map(|outcome| {
            outcome.map(|outcome| match outcome {
                Outcome::Price {
                    index,
                    probes,
                    cleared,
                } => {
                    assert_eq!((cleared.demand(), cleared.supply()), (9, 7));
                    (index.get(), probes)
                }
                Outcome::NoPrice { probes } => (0, probes),
                other => panic!("{other:?}"),
            })
        })
    };
    let not_yet = Ok(None);
    assert_eq!(answer([0, 2, 0, 1], [1, 0, 0], 0), not_yet);
    assert_eq!(answer([0, 2, 1, 1], [2, 1, 1], 0), not_yet);
    // No price; a balanced one; one that is not. With a price both totals are
    // opened first.
    assert_eq!(answer([0, 1, 1, 1], [2, 0, 1], 0), Ok(Some((0, 1))));
    for round in [DEMAND_ROUND, SUPPLY_ROUND] {
        assert_eq!(answer([0, 1, 2, round], [2, 1, 1], 0), not_yet);
        assert_eq!(answer([1, 2, 2, round], [2, 1, 1], 0), not_yet);
    }
    for [lo, hi] in [[0, 1], [1, 2]] {
        let over = answer([lo, hi, 2, OVER_ROUND], [2, 1, 1], 0);
        assert_eq!(over, Ok(Some((1, 2))));
    }
    let out_of_range = Err(Refusal::OutOfRange);
    assert_eq!(answer([1, 2, 2, 36], [2, 1, 1], 256), out_of_range);
    // A first search that has ended has begun the second.
    assert_eq!(answer([1, 2, 1, 1], [1, 0, 0], 0), out_of_range);
    // Once the searches have ended with a price no probe goes on, and before that
    // no total is opened.
    assert_eq!(answer([0, 1, 2, 1], [2, 1, 1], 0), out_of_range);
    assert_eq!(answer([0, 1, 2, way.rounds()], [2, 1, 1], 0), out_of_range);
    assert_eq!(answer([0, 1, 2, 37], [2, 1, 1], 0), out_of_range);
    assert_eq!(answer([0, 1, 1, 36], [2, 0, 1], 0), out_of_range);
    assert_eq!(answer([0, 2, 1, 34], [2, 1, 1], 0), out_of_range);
    assert_eq!(answer([0, 2, 0, 36], [1, 0, 0], 0), out_of_range);
}

#[test]
fn refusals_by_number() {
    let numbers = [1, 2, 3, 5, 6, 7, 8, 9, 10, 11, 12, 13, 14, 15, 16, 17];
    assert_eq!(Refusal::ALL.map(Refusal::number), numbers);
    for (number, refusal) in numbers.into_iter().zip(Refusal::ALL) {
        assert_eq!(Refusal::from_number(number), Some(refusal));
        assert!(refusal
            .to_string()
            .starts_with(&format!("refusal {number}: ")));
    }
    for number in [0, 4, 18, u64::MAX] {
        assert_eq!(Refusal::from_number(number), None);
    }
}

#[test]
fn sizes() {
    assert_eq!([3, 4, 5, 6, 7, 8, 9].map(threshold), [1, 1, 2, 2, 3, 3, 4]);
    assert_eq!(
        [1, 2, 3, 4, 7, 8, 255, 256, 1_023, 1_024].map(probe_limit),
        [1, 2, 2, 3, 3, 4, 8, 9, 10, 11]
    );
    assert_eq!(
        [1, 2, 3, 4, 7, 8, 255, 256, 1_023, 1_024].map(sheet_count),
        [2, 4, 4, 6, 6, 8, 16, 18, 20, 22]
    );
    assert_eq!((deal_words_len(9), coins_len(9, 1_024)), (5, 8_192));
    assert_eq!(WAYS.map(Way::rounds), [33, 7]);
    assert_eq!(WAYS.map(Way::sheet_len), [127, 220]);
    assert_eq!(WAYS.map(|way| deal_bytes_len(3, way)), [188, 343]);
    assert_eq!(WAYS.map(|way| deal_bytes_len(9, way)), [566, 1_000]);
    assert_eq!(WAYS.map(|way| sheets_len(1_024, way)), [2_794, 4_840]);
    assert_eq!((RECORD_LEN, ROLL_LEN, PAIRS_LEN), (64, 16, 32));
    assert_eq!([1, 2, 1_024].map(stored_len), [68, 70, 2_114]);
}

#[test]
fn sizes_of_any_number() {
    const HALF: u64 = 1 << 63;
    const MOST: u64 = u64::MAX;
    assert_eq!([0, MOST].map(threshold), [0, (1 << 63) - 1]);
    assert_eq!([0, HALF - 1, HALF, MOST].map(probe_limit), [0, 63, 64, 64]);
    assert_eq!(
        [0, HALF - 1, HALF, MOST].map(table_len),
        [0, usize::MAX - 1, usize::MAX, usize::MAX]
    );
    assert_eq!([0, MOST].map(deal_words_len), [1, 1 << 63]);
    assert_eq!(WAYS.map(|way| deal_bytes_len(0, way)), [62, 124]);
    assert_eq!(WAYS.map(|way| deal_bytes_len(MOST, way)), [usize::MAX; 2]);
    assert_eq!(
        [0, HALF - 1, HALF, MOST].map(sheet_count),
        [0, 126, 128, 128]
    );
    for (k, count) in [(0, 0), (HALF, 128), (MOST, 128)] {
        let lengths = WAYS.map(|way| sheets_len(k, way));
        assert_eq!(lengths, [127 * count, 220 * count]);
    }
    assert_eq!(
        [0, HALF - 33, HALF - 32, MOST].map(stored_len),
        [66, usize::MAX, usize::MAX, usize::MAX]
    );
    assert_eq!(stored_len(HALF - 34), usize::MAX - 1);
    for k in [HALF, MOST] {
        assert_eq!(
            [0, 3, MOST].map(|n| coins_len(n, k)),
            [0, usize::MAX, usize::MAX]
        );
    }
    assert_eq!(coins_len(MOST, 1), usize::MAX - 1);
    assert_eq!(coins_len(MOST, 2), usize::MAX);
}
