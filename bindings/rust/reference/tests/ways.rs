//! The two ways to a verdict: that they come to the same one, how long their slices
//! are, and that the pairs of the shorter one can be grouped anyhow.

use clockivy_reference::field::amount;
use clockivy_reference::field::amount::P;
use clockivy_reference::pairs::Pair;
use clockivy_reference::{
    deal, drawn_len, hear, message_len, open, say, sheet_count, sheet_len, threshold, DEMAND_ROUND,
    FIRST_SEARCH, MASK_LIMIT, NO_MORE_ROUNDS, RECORD, ROUNDS_33, ROUNDS_7, SECOND_SEARCH,
    SUPPLY_ROUND, TOTAL_LIMIT, WAYS,
};
use clockivy_testing::place::{
    CARRY, FIRST, FIRST_PROBES, HI, K, LAST, LO, N, OWN, PAIRS, PROBES, ROUND, SEARCH, SUM,
};

/// Words that differ from call to call: SplitMix64.
struct Rng(u64);

impl Rng {
    fn word(&mut self) -> u64 {
        self.0 = self.0.wrapping_add(0x9E37_79B9_7F4A_7C15);
        let mut mixed = self.0;
        mixed = (mixed ^ (mixed >> 30)).wrapping_mul(0xBF58_476D_1CE4_E5B9);
        mixed = (mixed ^ (mixed >> 27)).wrapping_mul(0x94D0_49BB_1331_11EB);
        mixed ^ (mixed >> 31)
    }

    fn below(&mut self, limit: u64) -> u64 {
        self.word() % limit
    }

    fn words(&mut self, length: usize, limit: u64) -> Vec<u64> {
        (0..length).map(|_| self.below(limit)).collect()
    }

    /// A pair of numbers below a limit.
    fn pair(&mut self, limit: u64) -> Pair {
        let [top, bottom] = [(); 2].map(|()| self.below(limit) as u8);
        Pair { top, bottom }
    }

    /// The one pair that a list comes to, grouped at random.
    fn grouped(&mut self, list: &[Pair]) -> Pair {
        if let [pair] = list {
            return *pair;
        }
        let (left, right) = list.split_at(1 + self.below(list.len() as u64 - 1) as usize);
        self.grouped(left).merged(self.grouped(right))
    }
}

/// The one pair that a list comes to, from the left.
fn from_the_left(list: &[Pair]) -> Pair {
    list.iter().copied().reduce(Pair::merged).unwrap()
}

/// The bottom of the last pair whose top is 0.
fn looked_up(list: &[Pair]) -> Option<u8> {
    let last = list.iter().rev().find(|pair| pair.top == 0);
    last.map(|pair| pair.bottom)
}

#[test]
fn bit_pairs_can_be_grouped_anyhow() {
    let mut rng = Rng(8);
    for _ in 0..20_000 {
        let length = 1 + rng.below(40) as usize;
        let list: Vec<Pair> = (0..length).map(|_| rng.pair(2)).collect();
        let merged = from_the_left(&list);
        assert_eq!(rng.grouped(&list), merged);
        let top = list.iter().all(|pair| pair.top == 1);
        assert_eq!(merged.top, u8::from(top));
        assert_eq!(merged.bottom, looked_up(&list).unwrap_or(list[0].bottom));
    }
}

/// Of three, every grouping of all bits; and bytes that show that it takes bits.
#[test]
fn three_pairs_in_both_groupings() {
    let pair = |bits: u8| Pair {
        top: bits & 1,
        bottom: bits >> 1,
    };
    for all in 0..64 {
        let [a, b, c] = [all & 3, all >> 2 & 3, all >> 4].map(pair);
        assert_eq!(a.merged(b).merged(c), a.merged(b.merged(c)));
    }
    let mut rng = Rng(80);
    let differ = (0..1_000).filter(|_| {
        let [a, b, c] = [(); 3].map(|()| rng.pair(256));
        a.merged(b).merged(c) != a.merged(b.merged(c))
    });
    assert!(differ.count() > 900);
}

/// All parties of a probe, over one price.
struct Probe {
    n: u64,
    last: u64,
    records: Vec<Vec<u64>>,
    totals: Vec<Vec<u64>>,
    sheets: Vec<Vec<u64>>,
}

/// What a probe is about: the search, the totals in the clear, and the mask.
#[derive(Clone, Copy, Debug)]
struct About {
    search: u64,
    demand: u64,
    supply: u64,
    mask: u64,
}

impl Probe {
    fn new(rng: &mut Rng, n: u64, last: u64, about: About) -> Probe {
        let t = threshold(n);
        let coins = [(); 2].map(|()| rng.words(t, P));
        let mut words = rng.words(1 + t, P);
        words[0] = about.mask;
        let bytes = rng.words(drawn_len(n, last), 256);
        let bytes: Vec<u8> = bytes.into_iter().map(|byte| byte as u8).collect();
        let mut probe = Probe {
            n,
            last,
            records: Vec::new(),
            totals: Vec::new(),
            sheets: Vec::new(),
        };
        for own in 1..=n {
            let (mut record, mut totals) = (vec![9; RECORD], vec![9; 2]);
            assert_eq!(open(n, own, 1, last, &mut totals, &mut record), 0);
            totals[0] = amount::share(about.demand, &coins[0], own);
            totals[1] = amount::share(about.supply, &coins[1], own);
            if about.search == SECOND_SEARCH {
                [record[SEARCH], record[FIRST]] = [SECOND_SEARCH, 1];
            }
            let mut sheets = vec![u64::MAX; sheet_len(last) * sheet_count(1) as usize];
            let sheet = &mut sheets[..sheet_len(last)];
            assert_eq!(deal(n, own, last, &words, &bytes, sheet), 0);
            probe.records.push(record);
            probe.totals.push(totals);
            probe.sheets.push(sheets);
        }
        probe
    }

    /// All rounds. Gives the opened sum, and what all records then have in common:
    /// lo, hi, probes, round, search, first and its probes.
    fn run(mut self) -> (u64, [u64; 7]) {
        let mut sum = 0;
        for round in 1..=self.last {
            self.round(round);
            if round == 1 {
                sum = self.records[0][SUM];
            }
        }
        let places = [LO, HI, PROBES, ROUND, SEARCH, FIRST, FIRST_PROBES];
        let common = |record: &Vec<u64>| places.map(|place| record[place]);
        let first = common(&self.records[0]);
        assert!(self.records.iter().all(|record| common(record) == first));
        (sum, first)
    }

    fn round(&mut self, round: u64) {
        let width = message_len(self.last, round);
        let mut messages = vec![u64::MAX; width * self.n as usize];
        let present = vec![1; self.n as usize];
        for (party, message) in messages.chunks_exact_mut(width).enumerate() {
            let lent = (&self.totals[party], &self.sheets[party]);
            assert_eq!(say(&self.records[party], lent.0, lent.1, message), 0);
        }
        for (party, record) in self.records.iter_mut().enumerate() {
            assert_eq!(record[ROUND], round);
            let lent = (&self.totals[party], &self.sheets[party]);
            assert_eq!(hear(record, lent.0, lent.1, &messages, &present), 0);
        }
    }
}

/// A total: mostly any, and often at an end of its range or near the other one.
fn total(rng: &mut Rng, other: u64) -> u64 {
    match rng.below(8) {
        0 => 0,
        1 => TOTAL_LIMIT - 1,
        2 => other,
        3 => (other + 1) % TOTAL_LIMIT,
        4 => rng.below(10),
        _ => rng.below(TOTAL_LIMIT),
    }
}

#[test]
fn the_same_verdict_for_the_same_totals_and_mask() {
    let mut rng = Rng(1979);
    for case in 0..1_500 {
        let n = 3 + case % 7;
        let demand = total(&mut rng, 0);
        let about = About {
            search: 1 + rng.below(2),
            demand,
            supply: total(&mut rng, demand),
            mask: match rng.below(8) {
                0 => 0,
                1 => MASK_LIMIT - 1,
                // Long runs of carries.
                2 => (1 << rng.below(58)) - 1,
                3 => rng.below(1 << 33),
                _ => rng.below(MASK_LIMIT),
            },
        };
        let [long, short] = WAYS.map(|last| Probe::new(&mut rng, n, last, about).run());
        assert_eq!(long, short, "{about:?}");
        // Over one price the first search ends at 1 or at 0, and the second at 1, or
        // finds none.
        let (sum, [lo, hi, .., first, _]) = long;
        let (plus, minus) = match about.search {
            FIRST_SEARCH => (about.demand, about.supply),
            _ => (about.supply, about.demand),
        };
        let verdict = plus >= minus;
        assert_eq!(sum, (1 << 59) + (1 << 32) + plus - minus - about.mask);
        match about.search {
            FIRST_SEARCH => assert_eq!([first, lo, hi], [verdict.into(), 0, first + 1]),
            _ => assert_eq!([lo, hi], if verdict { [0, 1] } else { [1, 2] }),
        }
    }
}

#[test]
fn lengths_of_a_way() {
    assert_eq!(WAYS.map(sheet_len), [127, 220]);
    for n in 3..=9 {
        let t = threshold(n);
        let lengths = WAYS.map(|last| drawn_len(n, last));
        assert_eq!(lengths, [126 * t + 62, 219 * t + 124]);
    }
    let words: Vec<usize> = (1..=7).map(|round| message_len(ROUNDS_7, round)).collect();
    assert_eq!(words, [1, 32, 16, 8, 4, 2, 1]);
    for round in 1..=NO_MORE_ROUNDS {
        assert_eq!(message_len(ROUNDS_33, round), 1);
    }
    for round in DEMAND_ROUND..=NO_MORE_ROUNDS {
        assert_eq!(message_len(ROUNDS_7, round), 1);
    }
}

/// No other way is opened or dealt, before any length is looked at.
#[test]
fn no_other_way_is_chosen() {
    let (words, bytes) = ([1, 2], [3; 219 + 124]);
    for last in (0..=70).chain([1 << 32, (1 << 32) + 33, 1 << 63, u64::MAX]) {
        let (mut totals, mut record) = ([9; 4], [9; RECORD]);
        let (mut sheet, length) = ([9; 220], sheet_len(last));
        let opened = open(3, 1, 2, last, &mut totals, &mut record);
        let bytes = &bytes[..drawn_len(3, last)];
        let dealt = deal(3, 1, last, &words, bytes, &mut sheet[..length]);
        let number = if WAYS.contains(&last) { 0 } else { 1 };
        assert_eq!([opened, dealt], [number; 2]);
        if number == 0 {
            assert_eq!([record[LAST], record[ROUND], record[CARRY]], [last, 1, 0]);
            assert_eq!(record[PAIRS..], [0; 32]);
            assert!(sheet[..length].iter().all(|&word| word != 9));
            continue;
        }
        assert_eq!((totals, record, sheet), ([9; 4], [9; RECORD], [9; 220]));
        assert_eq!(open(3, 1, 2, last, &mut [], &mut []), 1);
        assert_eq!(deal(3, 1, last, &[], &[], &mut []), 1);
    }
}

/// The sheet and the drawn bytes of one way are those of no other.
#[test]
fn lengths_of_a_deal() {
    for last in WAYS {
        let (words, bytes) = (vec![1; 3], vec![2; drawn_len(5, last)]);
        let dealt = |bytes: &[u8], length| deal(5, 4, last, &words, bytes, &mut vec![0; length]);
        assert_eq!(dealt(&bytes, sheet_len(last)), 0);
        for length in [
            0,
            126,
            128,
            219,
            221,
            sheet_len(ROUNDS_33 + ROUNDS_7 - last),
        ] {
            assert_eq!(dealt(&bytes, length), 2);
        }
        let other = vec![2; drawn_len(5, ROUNDS_33 + ROUNDS_7 - last)];
        for bytes in [&[], &bytes[1..], &[&bytes[..], &[2]].concat(), &other[..]] {
            assert_eq!(dealt(bytes, sheet_len(last)), 2);
        }
    }
}

/// A record of three parties over two prices in this round, or one that is over: with
/// the price, or without.
fn record(last: u64, round: u64, over: bool) -> Vec<u64> {
    let numbers = match round {
        DEMAND_ROUND.. => [1, 2, 4, SECOND_SEARCH, 2, 2],
        _ if over => [0, 1, 2, SECOND_SEARCH, 0, 2],
        _ => [0, 3, 0, FIRST_SEARCH, 0, 0],
    };
    let places = [LO, HI, PROBES, SEARCH, FIRST, FIRST_PROBES];
    let party = [(N, 3), (OWN, 2), (K, 2), (ROUND, round), (LAST, last)];
    let search: Vec<_> = places.into_iter().zip(numbers).collect();
    clockivy_testing::record(&[&party[..], &search].concat()).to_vec()
}

/// What is said into so many words, which then stay as they were where it is refused.
fn said(record: &[u64], sheets: &[u64], length: usize) -> u64 {
    let mut messages = vec![77; length];
    let reply = say(record, &[0; 4], sheets, &mut messages);
    assert!(reply == 0 || messages.iter().all(|&word| word == 77));
    assert!(reply != 0 || messages.iter().all(|&word| word != 77));
    reply
}

/// In every round just its words are said and three times as many heard; when it is
/// over, that goes by the round all the same, and comes before the turn.
#[test]
fn words_of_each_round() {
    for last in WAYS {
        let sheets = vec![1; sheet_len(last) * sheet_count(2) as usize];
        let over = (1..=last).map(|round| (round, true));
        let all = (1..=last).chain(DEMAND_ROUND..=SUPPLY_ROUND);
        let rounds = all.map(|round| (round, false)).chain(over);
        for (round, over) in rounds.chain([(NO_MORE_ROUNDS, true)]) {
            let record = record(last, round, over);
            let width = message_len(last, round);
            for length in 0..=100 {
                let reply = match over {
                    _ if length != width => 2,
                    true => 3,
                    false => 0,
                };
                assert_eq!(said(&record, &sheets, length), reply);
                let mut stepped = record.clone();
                let messages = vec![1 << 63; length];
                let reply = hear(&mut stepped, &[0; 4], &sheets, &messages, &[1, 0, 0]);
                let number = match over {
                    _ if length != 3 * width => 2,
                    true => 3,
                    false => 15,
                };
                assert_eq!((reply, &stepped), (number, &record));
            }
            // The sheets of the other way are of another length.
            let other = vec![1; sheet_len(ROUNDS_33 + ROUNDS_7 - last) * sheet_count(2) as usize];
            assert_eq!(said(&record, &other, width), 2);
        }
    }
}
