//! Hearing by marks: which words count, and in what order a hearing is judged.

use clockivy_reference::field::amount::P;
use clockivy_reference::field::{amount, byte};
use clockivy_reference::{
    hear, message_len, say, sheet_count, sheet_len, threshold, DEMAND_ROUND, RECORD, ROUNDS_33,
    ROUNDS_7, SUPPLY_ROUND, TOTAL_LIMIT, WAYS,
};
use clockivy_testing::place::{
    CARRY, DEMAND, FIRST, FIRST_PROBES, HI, K, LAST, LO, N, OWN, PAIRS, PROBES, ROUND, SEARCH, SUM,
    SUPPLY,
};
use clockivy_testing::{choices, count, refused, Hearing};

/// A round of a way.
#[derive(Clone, Copy, Debug)]
struct When {
    last: u64,
    round: u64,
}

impl When {
    /// Whether its messages are shares of amounts.
    fn is_of_amounts(self) -> bool {
        [1, DEMAND_ROUND, SUPPLY_ROUND].contains(&self.round)
    }

    fn is_of_a_verdict(self) -> bool {
        self.round == self.last
    }

    /// Whether it comes after all probes, and no sheet is read.
    fn is_of_totals(self) -> bool {
        self.round >= DEMAND_ROUND
    }

    /// The words of a message.
    fn width(self) -> usize {
        message_len(self.last, self.round)
    }

    /// The place in a sheet of the triple of the first product.
    fn triple(self) -> usize {
        let used: usize = (2..self.round)
            .map(|round| message_len(self.last, round))
            .sum();
        34 + 3 * used
    }
}

/// The record of a party in this round, over two prices: of the first probe, or of the
/// totals at the second price, and then every sheet has been used.
fn record(n: u64, own: u64, when: When) -> Vec<u64> {
    let When { last, round } = when;
    let party = [(N, n), (OWN, own), (K, 2), (ROUND, round), (LAST, last)];
    let search = if when.is_of_totals() {
        [
            (LO, 1),
            (HI, 2),
            (PROBES, 4),
            (SEARCH, 2),
            (FIRST, 2),
            (FIRST_PROBES, 2),
        ]
    } else {
        [
            (LO, 0),
            (HI, 3),
            (PROBES, 0),
            (SEARCH, 1),
            (FIRST, 0),
            (FIRST_PROBES, 0),
        ]
    };
    let demand = if round == SUPPLY_ROUND {
        TOTAL_LIMIT - 1
    } else {
        0
    };
    clockivy_testing::record(&[&party[..], &search, &[(DEMAND, demand)]].concat()).to_vec()
}

/// The messages of n parties in this round that open to these: in rounds of products
/// the two bytes apart, and each product to another.
fn messages(n: u64, when: When, opened: u64) -> Vec<u64> {
    let t = threshold(n);
    let bytes: Vec<u8> = (0..t).map(|i| 0x35 + 7 * i as u8).collect();
    let word = |point: u64, opened: u64| {
        let share = |secret: u64| byte::share(secret as u8, &bytes, point as u8);
        let low = u64::from(share(opened % 256));
        match when {
            _ if when.is_of_amounts() => amount::share(opened, &vec![P / 3; t], point),
            _ if when.is_of_a_verdict() => low,
            _ => low + 256 * u64::from(share(opened / 256)),
        }
    };
    let products = (0..).map(|product| opened + product * 0x3_07);
    let products: Vec<u64> = products.take(when.width()).collect();
    let message = |point| products.iter().map(move |&opened| word(point, opened));
    (1..=n).flat_map(message).collect()
}

/// A hearing of this round whose messages open to these. All are present.
fn hearing(n: u64, own: u64, when: When, opened: u64) -> Hearing {
    let mut hearing = Hearing {
        record: record(n, own, when),
        totals: vec![0; 4],
        sheets: vec![0; sheet_len(when.last) * sheet_count(2) as usize],
        messages: messages(n, when, opened),
        present: vec![1; n as usize],
    };
    // The own words are what the party says, by its sheet or its totals.
    let wanted = own_message(&hearing, own, when).to_vec();
    let words = said(&hearing);
    for (product, (word, wanted)) in words.into_iter().zip(&wanted).enumerate() {
        match when {
            _ if when.round == 1 => hearing.sheets[0] = amount::sub(word, *wanted),
            _ if when.is_of_a_verdict() => hearing.sheets[33] = word ^ wanted,
            _ if when.round == DEMAND_ROUND => hearing.totals[1] = *wanted,
            _ if when.round == SUPPLY_ROUND => hearing.totals[3] = *wanted,
            _ => {
                let triple = when.triple() + 3 * product;
                hearing.sheets[triple] = (word ^ wanted) % 256;
                hearing.sheets[triple + 1] = (word ^ wanted) / 256;
            }
        }
    }
    assert_eq!(said(&hearing), wanted);
    hearing
}

/// The words of one party.
fn own_message(hearing: &Hearing, party: u64, when: When) -> &[u64] {
    let start = (party as usize - 1) * when.width();
    &hearing.messages[start..start + when.width()]
}

fn said(h: &Hearing) -> Vec<u64> {
    let mut message = vec![0; message_len(h.record[LAST], h.record[ROUND])];
    assert_eq!(say(&h.record, &h.totals, &h.sheets, &mut message), 0);
    message
}

/// The reply, and the record that is left: as it was, where it is refused.
fn heard(h: &Hearing) -> (u64, Vec<u64>) {
    let mut record = h.record.clone();
    let reply = hear(&mut record, &h.totals, &h.sheets, &h.messages, &h.present);
    assert!(reply == 0 || record == h.record);
    (reply, record)
}

fn reply(h: &Hearing) -> u64 {
    heard(h).0
}

/// What the messages of each kind of round open to, and are accepted.
const ROUNDS: [(When, u64); 14] = [
    (of_33(1), (1 << 59) + 77),
    (of_33(2), 0x5A_C3),
    (of_33(32), 0),
    (of_33(33), 1),
    (of_33(34), 123_456),
    (of_33(35), 99),
    (of_7(1), (1 << 59) + 77),
    (of_7(2), 0x5A_C3),
    (of_7(3), 0),
    (of_7(5), 0x12_34),
    (of_7(6), 0xFF_00),
    (of_7(7), 1),
    (of_7(34), 123_456),
    (of_7(35), 99),
];

const fn of_33(round: u64) -> When {
    let last = ROUNDS_33;
    When { last, round }
}

const fn of_7(round: u64) -> When {
    let last = ROUNDS_7;
    When { last, round }
}

#[test]
fn any_t_plus_1_or_more_open_to_the_same_and_fewer_are_refused() {
    for n in 3..=9 {
        for (when, opened) in ROUNDS {
            for own in [1, n / 2, n] {
                let mut hearing = hearing(n, own, when, opened);
                let (done, left) = heard(&hearing);
                assert_eq!(done, 0);
                let place = match when.round {
                    1 => Some(SUM),
                    DEMAND_ROUND => Some(DEMAND),
                    SUPPLY_ROUND => Some(SUPPLY),
                    _ => None,
                };
                if let Some(place) = place {
                    assert_eq!((left[ROUND], left[place]), (when.round + 1, opened));
                }
                for present in choices(n) {
                    hearing.present = present;
                    let count = count(&hearing.present);
                    if count > threshold(n) {
                        assert_eq!(heard(&hearing), (0, left.clone()));
                    } else {
                        assert_eq!(reply(&hearing), 15);
                    }
                }
            }
        }
    }
}

#[test]
fn what_stands_in_an_unmarked_place_changes_nothing() {
    for n in 3..=9 {
        for (when, opened) in ROUNDS {
            let hearing = hearing(n, 1, when, opened);
            for present in choices(n) {
                let mut changed = hearing.clone();
                changed.present = present;
                let expected = heard(&changed);
                for word in [0, 255, 256, 65_536, P - 1, P, u64::MAX] {
                    let messages = changed.messages.chunks_exact_mut(when.width());
                    for (message, mark) in messages.zip(&changed.present) {
                        if *mark == 0 {
                            message.fill(word);
                        }
                    }
                    assert_eq!(heard(&changed), expected);
                }
            }
        }
    }
}

#[test]
fn one_altered_word_is_noticed_where_more_than_t_plus_1_are_present() {
    for n in 3..=9 {
        for (when, opened) in ROUNDS {
            let hearing = hearing(n, 1, when, opened);
            let enough = |present: &Vec<u8>| count(present) > threshold(n);
            for present in choices(n).filter(enough) {
                for party in (1..n as usize).filter(|&party| present[party] == 1) {
                    let mut altered = hearing.clone();
                    altered.present = present.clone();
                    // The first word of the message in one party, the last in the next.
                    let word = party * when.width() + party % 2 * (when.width() - 1);
                    altered.messages[word] ^= 1;
                    if count(&present) > threshold(n) + 1 {
                        assert_eq!(reply(&altered), 10);
                    } else {
                        // It opens, to something else, which may be no sum and
                        // no verdict.
                        assert!([0, 11, 12].contains(&reply(&altered)));
                    }
                    // Out of range is out of range with any number.
                    altered.messages[word] = u64::MAX;
                    assert_eq!(reply(&altered), 10);
                }
            }
        }
    }
}

/// In every place of every level: an own word that is another, one that is out of range
/// or off the polynomial elsewhere, in either byte.
#[test]
fn every_word_of_a_level_is_judged() {
    for round in 2..=6 {
        let when = of_7(round);
        let good = of_five(when, 0x5A_C3);
        for product in 0..when.width() {
            let word = |party: usize| (party - 1) * when.width() + product;
            let changed = |party, change: fn(u64) -> u64| {
                let mut hearing = good.clone();
                let message = &mut hearing.messages[word(party)];
                *message = change(*message);
                reply(&hearing)
            };
            for change in [|word| word ^ 1, |word| word ^ 0x80_00, |word| word | 65_536] {
                assert_eq!(
                    [1, 2, 4, 5].map(|party| changed(party, change)),
                    [10, 10, 9, 10]
                );
                assert_eq!(changed(3, change), 0);
            }
        }
    }
}

/// A hearing of five parties whose messages open to this: the third is away and
/// the fourth hears.
fn of_five(when: When, opened: u64) -> Hearing {
    let mut hearing = hearing(5, 4, when, opened);
    hearing.present[2] = 0;
    hearing.messages[2 * when.width()..3 * when.width()].fill(u64::MAX);
    hearing
}

#[test]
fn every_way_to_be_refused_and_any_two() {
    for (when, opened) in ROUNDS {
        let good = of_five(when, opened);
        assert_eq!(reply(&good), 0);
        for (hearing, number) in refused(&good) {
            assert_eq!(reply(&hearing), number, "{when:?}, {hearing:?}");
        }
    }
    // What the messages open to is judged last.
    for last in WAYS {
        for (round, wrong, number) in [
            (1, 7, 11),
            (34, 1 << 32, 11),
            (35, 1 << 32, 11),
            (last, 2, 12),
        ] {
            let no_sum = of_five(When { last, round }, wrong);
            assert_eq!(reply(&no_sum), number);
            for (hearing, number) in refused(&no_sum) {
                assert_eq!(reply(&hearing), number, "{hearing:?}");
            }
        }
    }
}

/// An opened total is below 2^32, and supply is at most demand, whichever of the
/// two comes to the other.
#[test]
fn totals_that_are_none() {
    let heard = |round, [demand, supply]: [u64; 2], opened| {
        let mut hearing = hearing(5, 2, of_33(round), opened);
        hearing.record[DEMAND] = demand;
        hearing.record[SUPPLY] = supply;
        let (reply, left) = heard(&hearing);
        (reply, [left[ROUND], left[DEMAND], left[SUPPLY]])
    };
    let top = TOTAL_LIMIT - 1;
    for opened in [0, 1, 77, top] {
        let done = (0, [35, opened, 0]);
        assert_eq!(heard(DEMAND_ROUND, [0, 0], opened), done);
        // What stood there before does not count.
        assert_eq!(heard(DEMAND_ROUND, [top, 0], opened), done);
        let done = (0, [36, top, opened]);
        assert_eq!(heard(SUPPLY_ROUND, [top, 0], opened), done);
        assert_eq!(heard(SUPPLY_ROUND, [top, top], opened), done);
    }
    for opened in [1 << 32, (1 << 32) + 1, 1 << 58, P - 1] {
        let refused = (11, [34, 0, 0]);
        assert_eq!(heard(DEMAND_ROUND, [0, 0], opened), refused);
        let refused = (11, [35, top, 0]);
        assert_eq!(heard(SUPPLY_ROUND, [top, 0], opened), refused);
    }
    // A supply that the record has already.
    assert_eq!(heard(DEMAND_ROUND, [99, 77], 77), (0, [35, 77, 77]));
    assert_eq!(heard(DEMAND_ROUND, [99, 77], 76), (11, [34, 99, 77]));
    assert_eq!(heard(DEMAND_ROUND, [99, 77], 0), (11, [34, 99, 77]));
    assert_eq!(heard(SUPPLY_ROUND, [77, 3], 77), (0, [36, 77, 77]));
    assert_eq!(heard(SUPPLY_ROUND, [77, 3], 78), (11, [35, 77, 3]));
    assert_eq!(heard(SUPPLY_ROUND, [0, 0], 1), (11, [35, 0, 0]));
}

/// The words are the totals at the price, and no sheet is read.
#[test]
fn totals_are_said_of_the_price_alone() {
    for (round, place) in [(DEMAND_ROUND, 1), (SUPPLY_ROUND, 3)] {
        for last in WAYS {
            let good = hearing(5, 4, When { last, round }, 5);
            let expected = heard(&good);
            assert_eq!(expected.0, 0);
            let mut other = good.clone();
            other.sheets.fill(u64::MAX);
            other.totals.fill(P);
            other.totals[place] = good.totals[place];
            assert_eq!(said(&other), [good.totals[place]]);
            assert_eq!(heard(&other), expected);
            other.totals[place] = P;
            assert_eq!(reply(&other), 8);
            let said = say(&other.record, &other.totals, &other.sheets, &mut [0]);
            assert_eq!(said, 8);
        }
    }
}

#[test]
fn a_verdict_that_is_no_bit() {
    for when in [of_33(33), of_7(7)] {
        for opened in [2, 3, 128, 255] {
            for present in choices(5) {
                let mut hearing = hearing(5, 2, when, opened);
                hearing.present = present;
                let many = count(&hearing.present);
                assert_eq!(reply(&hearing), if many > 2 { 12 } else { 15 });
            }
        }
    }
}

/// The length of a record comes before all else but the marks, which need none.
#[test]
fn a_record_that_is_none() {
    for length in [0, RECORD - 1, RECORD + 1] {
        let mut hearing = of_five(ROUNDS[0].0, ROUNDS[0].1);
        hearing.record.resize(length, u64::MAX);
        assert_eq!(reply(&hearing), 2);
        hearing.present[0] = 2;
        assert_eq!(reply(&hearing), 1);
    }
}

/// A party that was away compares no own word, and uses no word of the totals.
#[test]
fn an_own_place_that_is_not_marked() {
    for (when, opened) in ROUNDS {
        let here = hearing(5, 4, when, opened);
        let mut away = here.clone();
        away.present[3] = 0;
        assert_eq!(heard(&away), heard(&here));
        away.messages[3 * when.width()..4 * when.width()].fill(u64::MAX);
        away.totals.fill(u64::MAX);
        assert_eq!(heard(&away), heard(&here));
        // The sheet is judged as ever, where one is read: its last word too.
        for (place, word) in [(0, P), (sheet_len(when.last) - 1, 256)] {
            let mut other = away.clone();
            other.sheets[place] = word;
            let number = if when.is_of_totals() { 0 } else { 8 };
            assert_eq!(reply(&other), number);
        }
    }
    let mut here = hearing(5, 4, ROUNDS[0].0, ROUNDS[0].1);
    here.totals[0] = P;
    assert_eq!(reply(&here), 8);
}

/// Two hearings of one round with other words, t + 1 of them each, step to two
/// sums, and nothing tells: all parties have to hear a round with the same marks.
#[test]
fn other_marks_may_lead_elsewhere() {
    let mut one = hearing(5, 4, ROUNDS[0].0, ROUNDS[0].1);
    // Of points 1, 2 and 4, the first has weight 8/3 at 0.
    one.messages[0] += 3;
    let mut other = one.clone();
    one.present = vec![1, 1, 0, 1, 0];
    other.present = vec![0, 1, 0, 1, 1];
    let (left, right) = (heard(&one), heard(&other));
    assert_eq!((left.0, right.0), (0, 0));
    assert_eq!(left.1[SUM], right.1[SUM] + 8);
    // With one more it is noticed.
    one.present[4] = 1;
    assert_eq!(reply(&one), 10);
}

/// What a hearing leaves of the sum, the carry and the pairs: in the rounds of a probe
/// of 7 the carry stays, in those of 33 the pairs do, and a verdict ends all of them,
/// whatever they were.
#[test]
fn what_is_kept_of_a_probe() {
    for (when, opened) in ROUNDS {
        let mut hearing = hearing(5, 4, when, opened);
        hearing.present = vec![1, 1, 1, 0, 1];
        hearing.record[CARRY] = 0xC5;
        hearing.record[PAIRS..].fill(0x5C);
        if when.round > 1 {
            hearing.record[SUM] = 0x1234;
        }
        let (reply, left) = heard(&hearing);
        assert_eq!(reply, 0);
        assert_eq!(left[LAST], when.last);
        let kept = |place: usize| left[place] == hearing.record[place];
        let pairs_kept = left[PAIRS..] == hearing.record[PAIRS..];
        match when {
            _ if when.is_of_a_verdict() => {
                assert_eq!([left[SUM], left[CARRY]], [0, 0]);
                assert_eq!(left[PAIRS..], [0; 32]);
            }
            _ if when.is_of_totals() => assert!(kept(SUM) && kept(CARRY) && pairs_kept),
            When {
                last: ROUNDS_33, ..
            } => assert!(!kept(CARRY) && pairs_kept),
            When { round: 1, .. } => assert!(kept(CARRY) && pairs_kept),
            _ => {
                assert!(kept(SUM) && kept(CARRY) && !pairs_kept);
                let zeros = &left[PAIRS + when.width()..];
                assert!(zeros.iter().all(|&word| word == 0));
            }
        }
    }
}
