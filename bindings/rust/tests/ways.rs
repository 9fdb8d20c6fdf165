//! The two ways to a verdict, in 33 rounds and in 7: what is said in each round, what a
//! record keeps from one to the next, and what becomes of those who choose differently.

use clockivy::words::place::{
    CARRY, DEMAND, FIRST, HI, LAST, LO, PAIRS, PROBES, ROUND, SEARCH, SUM, SUPPLY,
};
use clockivy::{
    deal_bytes_len, deal_words_len, table_len, threshold, words, Cleared, Collecting, Message,
    Outcome, Record, Refusal, Source, Speaking, Way, BLANK, DEMAND_ROUND, MAX_AMOUNT, OVER_ROUND,
    PAIRS_LEN, PARTIES, RECORD_LEN, STORED_HEAD, SUPPLY_ROUND,
};
use clockivy_testing::{
    choices, collected, count, fixed, from_marked, go_on_until, panel, plain_round, round, said,
    seat, sheets, Bid, Plain, WAYS,
};

const K: u64 = 2;
/// Demand 5 and 2, supply 1 and 4: they clear at index 1, after three probes.
const BIDS: &[Bid] = &[(640, &[5, 2, 1, 4])];

#[test]
fn words_of_each_round() {
    let lengths = WAYS.map(|way| {
        let rounds = 1..=way.rounds();
        rounds.map(|it| way.message_len(it)).collect::<Vec<_>>()
    });
    assert_eq!(lengths[0], [1; 33]);
    assert_eq!(lengths[1], [1, 32, 16, 8, 4, 2, 1]);
    for way in WAYS {
        for round in [0, 8, 9, 33, 34, 35, 36, 1 << 32, (1 << 32) + 2, u64::MAX] {
            assert_eq!(way.message_len(round), 1);
        }
    }
}

#[test]
fn a_way_by_its_rounds() {
    for rounds in (0..300).chain([(1 << 32) + 7, 1 << 63, u64::MAX]) {
        let expected = WAYS.into_iter().find(|way| way.rounds() == rounds);
        assert_eq!(Way::from_rounds(rounds), expected);
        let session = Collecting::open(seat(3, 1, K, WAYS[0])).unwrap();
        let mut stored = session.store();
        stored[STORED_HEAD + LAST] = rounds;
        let way = Collecting::resume(&stored).map(|session| session.record().way());
        assert_eq!(way, expected.map(Some).ok_or(Refusal::OutOfRange));
    }
}

/// On plain words: another last round than 33 or 7 is 1, before any length is judged.
#[test]
fn there_is_no_third_way() {
    let others = [0, 1, 6, 8, 32, 34, 36, 127, (1 << 32) + 7, u64::MAX];
    for last in others {
        for length in [0, table_len(K)] {
            let (mut totals, mut record) = (vec![9; length], [9; RECORD_LEN]);
            assert_eq!(words::open(3, 1, K, last, &mut totals, &mut record), 1);
            assert!(totals.iter().chain(&record).all(|&word| word == 9));
        }
        for way in WAYS {
            let drawn = vec![1; deal_words_len(3)];
            let bytes = vec![1; deal_bytes_len(3, way)];
            for length in [0, way.sheet_len()] {
                let mut sheet = vec![BLANK; length];
                assert_eq!(words::deal(3, 1, last, &drawn, &bytes, &mut sheet), 1);
                assert!(sheet.iter().all(|&word| word == BLANK));
            }
        }
    }
    // The lengths of a sheet and of what is drawn for it are those of the way.
    for (way, other) in WAYS.into_iter().zip(WAYS.into_iter().rev()) {
        let drawn = vec![1; deal_words_len(3)];
        for (bytes, sheet) in [(way, other), (other, way), (other, other)] {
            let bytes = vec![1; deal_bytes_len(3, bytes)];
            let mut sheet = vec![BLANK; sheet.sheet_len()];
            let reply = words::deal(3, 1, way.rounds(), &drawn, &bytes, &mut sheet);
            assert_eq!(reply, 2);
        }
    }
}

/// The first of five parties on plain words, once this round is next.
fn plain_at(way: Way, number: u64) -> Plain {
    let mut parties = panel(5, K, way, BIDS);
    go_on_until(&mut parties, number);
    let sheets = sheets(seat(5, 1, K, way));
    let party = Plain::resume(&parties[0].store(), sheets.words());
    assert_eq!(party.record[ROUND], number);
    party
}

/// Saying into as many words as the round has gives this reply, and into any other
/// number of them 2; what is refused writes nothing.
fn assert_says(party: &Plain, length: usize, expected: u64) {
    for lent in 0..70 {
        let mut messages = vec![BLANK; lent];
        let Plain {
            record,
            totals,
            sheets,
        } = party;
        let reply = words::say(record, totals, sheets, &mut messages);
        assert_eq!(reply, if lent == length { expected } else { 2 });
        let is_written = |&word: &u64| (word != BLANK) == (reply == 0);
        assert!(messages.iter().all(is_written));
    }
}

/// The same of hearing from five parties: where the number of words is right, the
/// reply is this one.
fn assert_hears(party: &Plain, length: usize, expected: u64) {
    for lent in 0..5 * 33 {
        let mut party = party.clone();
        let before = party.clone();
        let reply = party.hear(&vec![u64::MAX; lent], &[1; 5]).unwrap_err();
        let is_right = lent == 5 * length;
        assert_eq!(reply.number(), if is_right { expected } else { 2 });
        assert_eq!(party, before);
    }
}

#[test]
fn a_round_has_its_words_and_no_others() {
    for way in WAYS {
        let probe = 1..=way.rounds();
        for number in probe.clone().chain([DEMAND_ROUND, SUPPLY_ROUND]) {
            let party = plain_at(way, number);
            assert_says(&party, way.message_len(number), 0);
            assert_hears(&party, way.message_len(number), 9);
        }
        // When it is over, the length is judged first, by the round that the record has:
        // with a price, and without one in any round.
        let party = plain_at(way, OVER_ROUND);
        assert_says(&party, 1, 3);
        assert_hears(&party, 1, 3);
        for number in probe {
            let mut party = plain_at(way, number);
            [party.record[LO], party.record[HI], party.record[SEARCH]] = [0, 1, 2];
            assert_says(&party, way.message_len(number), 3);
            assert_hears(&party, way.message_len(number), 3);
        }
    }
}

/// Five parties on plain words.
fn plain_panel(k: u64, way: Way, bids: &[Bid]) -> Vec<Plain> {
    let party = |own| {
        let seat = seat(5, own, k, way);
        Plain::resume(&collected(seat, bids).store(), sheets(seat).words())
    };
    (1..=5).map(party).collect()
}

/// What the shares of five parties open to. Points 1, 2 and 3 have weight 1 at 0 in the
/// byte field, so that three bytes open to their sum.
fn opened(shares: impl Fn(&Plain) -> u64, parties: &[Plain]) -> u64 {
    parties[..3]
        .iter()
        .fold(0, |sum, party| sum ^ shares(party))
}

/// A bit of a number, bit 1 being the lowest.
fn nth(number: u64, bit: usize) -> u64 {
    number >> (bit - 1) & 1
}

/// The pair operator on bits.
fn merged((x, big_x): (u64, u64), (y, big_y): (u64, u64)) -> (u64, u64) {
    (x & y, y & (big_x ^ big_y) ^ big_y)
}

/// After each level the parties hold shares of half as many pairs: those of the sum and
/// the mask, merged two by two, each with pairs of bits. So the last one has the carry.
#[test]
fn levels_merge_the_pairs_of_bits_two_by_two() {
    let way = Way::Rounds7;
    for (seed, amount) in (1..=40).zip([0, 1, 5, 4_000_000].into_iter().cycle()) {
        let mut source = fixed(seed);
        let mut table = [amount, source.below(amount + 2).unwrap()];
        table.rotate_left(seed as usize % 2);
        let mut parties = plain_panel(1, way, &[(seed, &table)]);
        plain_round(&mut parties);
        let sum = parties[0].record[SUM];
        // The sum and the mask, added without carries.
        let added = |bit| nth(sum, bit) ^ opened(|party| party.sheets[bit], &parties);
        let last = added(33);
        let mut pairs: Vec<(u64, u64)> = (1..=32).map(|bit| (added(bit), nth(sum, bit))).collect();
        pairs[0] = merged((0, 0), pairs[0]);
        for level in 1..=5 {
            plain_round(&mut parties);
            pairs = pairs.chunks(2).map(|two| merged(two[0], two[1])).collect();
            assert_eq!(pairs.len(), 32 >> level);
            assert_kept(&parties, sum, &pairs, level + 2);
        }
        let verdict = last ^ pairs[0].1;
        assert_eq!(verdict == 1, table[0] >= table[1]);
        plain_round(&mut parties);
        assert_kept(&parties, 0, &[], 1);
        assert_eq!(parties[0].record[FIRST], verdict);
    }
}

/// What the records of these parties keep in this round: the sum, no carry, and shares
/// of these pairs, left first, top before bottom, with zeros behind them.
fn assert_kept(parties: &[Plain], sum: u64, pairs: &[(u64, u64)], round: u64) {
    for Plain { record, .. } in parties {
        assert_eq!([record[ROUND], record[SUM], record[CARRY]], [round, sum, 0]);
        let unused = &record[PAIRS + 2 * pairs.len()..];
        assert!(unused.iter().all(|&word| word == 0));
    }
    for (place, &(top, bottom)) in pairs.iter().enumerate() {
        let [tops, bottoms] = [0, 1].map(|it| PAIRS + 2 * place + it);
        assert_eq!(opened(|party| party.record[tops], parties), top);
        assert_eq!(opened(|party| party.record[bottoms], parties), bottom);
    }
}

/// A round of a probe in which the pairs stay as they are, though no run comes to a
/// record that has such ones there.
fn leaves_pairs(way: Way, number: u64) -> bool {
    match way {
        Way::Rounds7 => number == 1,
        _ => number < 33,
    }
}

/// Each round writes the pairs that it is about, and the verdict zeros; what else stands
/// there is neither read nor changed.
#[test]
fn pairs_that_no_run_comes_to() {
    let odd: [u64; PAIRS_LEN] = std::array::from_fn(|place| 7 * place as u64 + 1);
    let put = |parties: &mut [Plain]| {
        for Plain { record, .. } in parties {
            record[PAIRS..].copy_from_slice(&odd);
        }
    };
    for way in WAYS {
        let mut parties = plain_panel(K, way, BIDS);
        for number in 1..=way.rounds() {
            if leaves_pairs(way, number) {
                put(&mut parties);
            }
            plain_round(&mut parties);
            let left = parties[0].record[PAIRS..].to_vec();
            assert_eq!(left == odd, leaves_pairs(way, number));
        }
        let record = &parties[0].record;
        assert_eq!([record[LO], record[PROBES]], [1, 1]);
        assert_eq!(record[PAIRS..], [0; PAIRS_LEN]);
        while parties[0].record[ROUND] != DEMAND_ROUND {
            plain_round(&mut parties);
        }
        put(&mut parties);
        for _ in 0..2 {
            plain_round(&mut parties);
            assert_eq!(parties[0].record[PAIRS..], odd);
        }
        let record = &parties[0].record;
        let totals = [record[ROUND], record[DEMAND], record[SUPPLY]];
        assert_eq!(totals, [OVER_ROUND, 5, 1]);
    }
}

/// What the last round opens is a bit, or refused: any t + 1 can say what they like.
#[test]
fn a_verdict_that_is_no_bit() {
    for way in WAYS {
        let mut parties = panel(5, K, way, BIDS);
        go_on_until(&mut parties, way.rounds());
        let own = parties[0].say().unwrap()[0];
        let before = parties[0].store();
        for opens_to in 0..256 {
            let sheets = sheets(seat(5, 1, K, way));
            let mut party = Speaking::resume(&before, sheets).unwrap();
            let made_up = [own, own ^ opens_to, 0, 0, 0];
            let reply = party.hear(&from_marked(&made_up, &[1, 1, 1, 0, 0]));
            let outcome = party.outcome().unwrap();
            match opens_to {
                // The first probe is at index 1, below which there is no price.
                0 => assert_eq!(outcome, Some(Outcome::NoPrice { probes: 1 })),
                1 => assert_eq!((party.record().lo, outcome), (1, None)),
                _ => assert_eq!(party.store(), before),
            }
            let is_bit = opens_to <= 1;
            assert_eq!(reply.err(), (!is_bit).then_some(Refusal::VerdictNotBit));
        }
    }
}

/// The bids of some bidders over k prices, of amounts up to the largest.
fn drawn_tables(k: u64, source: &mut impl Source) -> Vec<Vec<u64>> {
    let bids = source.below(5).unwrap();
    let mut amounts = |most| {
        let mut amounts: Vec<u64> = (0..k).map(|_| source.below(most).unwrap()).collect();
        amounts.sort();
        amounts
    };
    let mut table = |bid| {
        let most = [3, 1_000, MAX_AMOUNT + 1][bid as usize % 3];
        let (demand, supply) = (amounts(most), amounts(most));
        demand.into_iter().rev().chain(supply).collect()
    };
    (0..bids).map(&mut table).collect()
}

/// Where the searches stand after each round of the totals and after the last one of
/// each probe, and what the auction comes to.
fn course(n: u64, k: u64, way: Way, tables: &[Vec<u64>]) -> (Vec<[u64; 5]>, Option<Outcome>) {
    let bids: Vec<Bid> = (1..).zip(tables.iter().map(Vec::as_slice)).collect();
    let mut parties = panel(n, k, way, &bids);
    let mut found = Vec::new();
    while parties[0].outcome() == Ok(None) {
        round(&mut parties);
        let record = parties[0].record();
        if record.round == 1 || record.round >= DEMAND_ROUND {
            let Record { lo, hi, search, .. } = *record;
            found.push([search, lo, hi, record.probes, record.round]);
        }
    }
    (found, parties[0].outcome().unwrap())
}

#[test]
fn both_ways_come_to_the_same_by_the_same_verdicts() {
    let mut source = fixed(8);
    let mut prices = 0;
    for _ in 0..30 {
        for n in PARTIES {
            let k = 1 + source.below(9).unwrap();
            let tables = drawn_tables(k, &mut source);
            let [one, other] = WAYS.map(|way| course(n, k, way, &tables));
            assert_eq!(one, other);
            prices += usize::from(matches!(one.1, Some(Outcome::Price { .. })));
        }
    }
    assert!((50..200).contains(&prices), "{prices} with a price");
}

#[test]
fn a_party_that_drops_off_between_two_levels() {
    for n in [3, 4, 5, 9] {
        for gone in 0..n as usize {
            for level in 1..=5 {
                assert_goes_on_without(n, gone, level);
            }
        }
    }
}

/// An auction of all parties but one, which says its words of each level of the first
/// probe up to this one, and is not heard of again.
fn assert_goes_on_without(n: u64, gone: usize, level: u64) {
    let mut parties = panel(n, K, Way::Rounds7, BIDS);
    // Level 1 is in round 2.
    go_on_until(&mut parties, level + 2);
    let gone_party = parties.remove(gone);
    while parties[0].outcome() == Ok(None) {
        let mut round = said(&parties);
        round.insert(gone, None);
        for party in &mut parties {
            party.hear(&round).unwrap();
        }
    }
    for party in &parties {
        let Ok(Some(Outcome::Price { index, cleared, .. })) = party.outcome() else {
            panic!("{party:?}");
        };
        assert_eq!((index.get(), Ok(cleared)), (1, Cleared::new(5, 1)));
    }
    let Record { probes, round, .. } = *gone_party.record();
    assert_eq!((probes, round), (0, level + 2));
}

/// In a level, one wrong word of many is noticed by more than t + 1. By t + 1 it opens,
/// to other pairs, and nobody is told.
#[test]
fn one_wrong_word_of_a_level() {
    let way = Way::Rounds7;
    for number in 2..=6 {
        let mut parties = panel(5, K, way, BIDS);
        go_on_until(&mut parties, number);
        let words = |said: Option<Message>| said.map_or(vec![], |said| said.to_vec());
        let right: Vec<u64> = said(&parties).into_iter().flat_map(words).collect();
        let before = parties[0].store();
        round(&mut parties);
        let after = parties[0].store();
        let length = way.message_len(number);
        for present in choices(5).filter(|it| it[1] == 1 && count(it) > threshold(5)) {
            for place in 0..length {
                let mut wrong = right.clone();
                wrong[length + place] ^= 1;
                let sheets = sheets(seat(5, 1, K, way));
                let mut party = Speaking::resume(&before, sheets).unwrap();
                let reply = party.hear(&from_marked(&wrong, &present));
                if count(&present) > threshold(5) + 1 {
                    assert_eq!(reply, Err(Refusal::Inconsistent));
                    assert_eq!(party.store(), before);
                } else {
                    assert_eq!(reply, Ok(()));
                    assert_ne!(party.store(), after);
                }
            }
        }
    }
}

/// Round 1 is the same either way, and here both have the same mask, so that nobody
/// notices it. From round 2 on, they do not understand each other.
#[test]
fn those_who_choose_differently() {
    for (way, other) in WAYS.into_iter().zip(WAYS.into_iter().rev()) {
        let mut parties = panel(5, K, way, BIDS);
        parties[4] = panel(5, K, other, BIDS).swap_remove(4);
        round(&mut parties);
        let all = said(&parties);
        for party in &mut parties {
            let before = party.store();
            assert_eq!(party.hear(&all), Err(Refusal::WrongLength));
            assert_eq!(party.store(), before);
        }
        // The others go on without the one.
        let mut without: Vec<Option<Message>> = all;
        without[4] = None;
        for party in &mut parties[..4] {
            assert_eq!(party.hear(&without), Ok(()));
        }
        assert_eq!(parties[4].hear(&without), Err(Refusal::WrongLength));
    }
}
