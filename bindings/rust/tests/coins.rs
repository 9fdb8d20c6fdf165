//! Where coins come from, what is dealt from them, and what goes wrong where they were
//! not drawn.

use std::cell::RefCell;

use clockivy::words::place;
use clockivy::{
    deal, deal_bytes_len, deal_words_len, sheet_count, sheets_len, split, table_len, threshold,
    words, Collecting, Dealing, Entries, Outcome, Refusal, Sheets, Source, Speaking, System, Way,
    BLANK, MASK_LIMIT, MAX_PRICES, PARTIES, PRIME, STORED_HEAD,
};
use clockivy_testing::{
    choices, collected, count, fixed, from_all, go_on_until, plain_round, round, seat, sheets,
    Plain, WAY, WAYS,
};

/// The words in a row that are of no use before a source is given up.
const TRIES: usize = 64;

/// A source of these words and then of none, and how many it was asked for.
struct Listed<I> {
    words: I,
    asked: usize,
}

fn listed<I: Iterator<Item = u64>>(words: impl IntoIterator<IntoIter = I>) -> Listed<I> {
    Listed {
        words: words.into_iter(),
        asked: 0,
    }
}

impl<I: Iterator<Item = u64>> Source for Listed<I> {
    fn bits(&mut self) -> Option<u64> {
        self.asked += 1;
        self.words.next()
    }
}

/// Limits above 0: small ones, powers of two with their neighbours, and those that coins
/// are drawn below.
fn limits() -> impl Iterator<Item = u64> {
    let powers = (1..64).flat_map(|bits| [(1 << bits) - 1, 1 << bits, (1 << bits) + 1]);
    let named = [PRIME, MASK_LIMIT, u64::MAX - 1, u64::MAX];
    (1..=300).chain(powers).chain(named)
}

/// The bits that the largest number below this limit has.
fn bits_below(limit: u64) -> u32 {
    (limit - 1).checked_ilog2().map_or(0, |bits| bits + 1)
}

/// The word with only those bits left.
fn cut(word: u64, bits: u32) -> u64 {
    (u128::from(word) % (1 << bits)) as u64
}

#[test]
fn there_is_no_number_below_0_and_nothing_is_drawn_for_it() {
    let mut source = listed([7]);
    assert_eq!((source.below(0), source.asked), (None, 0));
    assert_eq!((source.below(1), source.asked), (Some(0), 1));
    assert_eq!((source.below(1), source.asked), (None, 2));
}

/// The bits that are drawn are those that a number below the limit may have, and just
/// the numbers that are not below it are drawn again: each that is below comes of one
/// word in as many.
#[test]
fn just_what_is_not_below_is_drawn_again() {
    for limit in limits() {
        let bits = bits_below(limit);
        let near = [0, 1, limit - 1, limit, limit.wrapping_add(1), u64::MAX];
        // What stands above the bits that are kept makes no difference.
        let high = u64::MAX.checked_shl(bits).unwrap_or(0);
        let words = near
            .into_iter()
            .chain((0..256).filter(|&word| word >> bits.min(63) == 0));
        for word in words.flat_map(|word| [word, word | high, word & !high]) {
            let number = cut(word, bits);
            let once = (number < limit).then_some(number);
            let mut source = listed([word]);
            assert_eq!(source.below(limit), once, "{word} below {limit}");
            assert_eq!(source.asked, if once.is_some() { 1 } else { 2 });
            // The next word is as good as the first.
            let mut source = listed([word, limit - 1]);
            let twice = source.below(limit);
            assert_eq!(twice, once.or(Some(limit - 1)));
            assert_eq!(source.asked, if once.is_some() { 1 } else { 2 });
        }
    }
}

#[test]
fn every_number_below_comes_out_and_none_else() {
    for limit in 1..=300 {
        let words = 0..1_u64 << bits_below(limit);
        let mut found: Vec<u64> = words
            .filter_map(|word| listed([word]).below(limit))
            .collect();
        found.sort();
        assert!(found.into_iter().eq(0..limit));
    }
    // Of a real source too, and each about as often: 1,000 times of 6,000.
    let mut source = fixed(7);
    let mut counts = [0; 6];
    for _ in 0..6_000 {
        counts[source.below(6).unwrap() as usize] += 1;
    }
    assert!(
        counts.iter().all(|count| (850..1_150).contains(count)),
        "{counts:?}"
    );
}

#[test]
fn zeros_are_numbers_and_ones_are_where_the_limit_is_a_power_of_two() {
    for limit in limits() {
        assert_eq!(listed([0; 1]).below(limit), Some(0));
        let mut ones = listed(std::iter::repeat(u64::MAX));
        if limit.is_power_of_two() {
            assert_eq!((ones.below(limit), ones.asked), (Some(limit - 1), 1));
        } else {
            assert_eq!((ones.below(limit), ones.asked), (None, TRIES));
        }
    }
}

/// Words of no use, and then one of use, or none.
#[test]
fn a_source_that_fails_at_any_word() {
    for limit in limits().filter(|limit| !limit.is_power_of_two()) {
        for useless in 0..TRIES + 2 {
            let ones = std::iter::repeat_n(u64::MAX, useless);
            let mut failing = listed(ones.clone());
            assert_eq!(failing.below(limit), None);
            assert_eq!(failing.asked, TRIES.min(useless + 1));
            let mut late = listed(ones.chain([limit - 1]));
            let found = (useless < TRIES).then_some(limit - 1);
            assert_eq!(late.below(limit), found);
            assert_eq!(late.asked, TRIES.min(useless + 1));
        }
    }
}

#[test]
fn the_system_gives_different_words() {
    let mut words: Vec<u64> = (0..1_000).map(|_| System.bits().unwrap()).collect();
    // In each place there are zeros and ones.
    let (all, any) = words
        .iter()
        .fold((u64::MAX, 0), |(all, any), word| (all & word, any | word));
    assert_eq!((all, any), (0, u64::MAX));
    words.sort();
    words.dedup();
    assert_eq!(words.len(), 1_000);
    for limit in limits() {
        assert!(System.below(limit).unwrap() < limit);
    }
}

/// Makes a dealing with a source that must not be asked.
fn refused_dealing(n: u64, k: u64) -> Option<Refusal> {
    let mut source = || -> Option<u64> { panic!("nothing is drawn yet") };
    Dealing::new(n, k, WAY, &mut source).err()
}

#[test]
fn what_no_dealing_is_made_of() {
    const HALF: u64 = 1 << 63;
    const MOST: u64 = u64::MAX;
    let out_of_range = Some(Refusal::OutOfRange);
    for n in [0, 1, 2, 10, 1 << 32, (1 << 32) + 3, HALF, HALF + 3, MOST] {
        for k in [0, 1, MAX_PRICES, MAX_PRICES + 1, MOST] {
            assert_eq!(refused_dealing(n, k), out_of_range);
        }
    }
    for n in PARTIES {
        for k in [0, MAX_PRICES + 1, 1 << 32, HALF, HALF + 1, MOST] {
            assert_eq!(refused_dealing(n, k), out_of_range);
        }
        for k in [1, 2, MAX_PRICES] {
            assert_eq!(refused_dealing(n, k), None);
        }
    }
}

#[test]
fn the_source_of_a_dealing_is_not_shown() {
    for way in WAYS {
        let mut source = fixed(7);
        let dealing = Dealing::new(5, 8, way, &mut source).unwrap();
        let shown = format!("Dealing {{ n: 5, k: 8, way: {way:?}, .. }}");
        assert_eq!(format!("{dealing:?}"), shown);
    }
}

/// A field, by which shares are opened: that of the prime, or that of the bytes.
struct Field {
    less: fn(u64, u64) -> u64,
    times: fn(u64, u64) -> u64,
    /// An element to this power is its inverse.
    inverse: u64,
}

const AMOUNTS: Field = Field {
    less: |one, other| (one + PRIME - other) % PRIME,
    times: |one, other| (u128::from(one) * u128::from(other) % u128::from(PRIME)) as u64,
    inverse: PRIME - 2,
};

const BYTES: Field = Field {
    less: |one, other| one ^ other,
    times: |one, other| {
        // Carry-less, then reduced by x^8 + x^4 + x^3 + x + 1 from the top.
        let product = (0..8).fold(0, |sum, bit| sum ^ ((one << bit) * (other >> bit & 1)));
        (0..7).rev().fold(product, |left, bit| {
            left ^ ((0x11B << bit) * (left >> (8 + bit) & 1))
        })
    },
    inverse: 254,
};

impl Field {
    fn power(&self, base: u64, exponent: u64) -> u64 {
        let bits = (0..=exponent.ilog2()).rev();
        bits.fold(1, |power, bit| {
            let square = (self.times)(power, power);
            match exponent >> bit & 1 {
                0 => square,
                _ => (self.times)(square, base),
            }
        })
    }

    /// The value at `at` of the polynomial of least degree through these shares, each
    /// with its party's number.
    fn opened(&self, shares: &[(u64, u64)], at: u64) -> u64 {
        let term = |&(own, share): &(u64, u64)| {
            let others = shares.iter().filter(|&&(other, _)| other != own);
            others.fold(share, |product, &(other, _)| {
                let below = self.power((self.less)(own, other), self.inverse);
                (self.times)(product, (self.times)((self.less)(at, other), below))
            })
        };
        // A sum, by the difference from what is left of 0.
        let negative = shares.iter().map(term).fold(0, self.less);
        (self.less)(0, negative)
    }

    /// What one word of all parties' sheets opens to: the shares of any t + 1 lie on
    /// the polynomial that all others lie on too.
    fn secret(&self, shares: &[u64]) -> u64 {
        let n = shares.len() as u64;
        let numbered: Vec<(u64, u64)> = (1..).zip(shares.iter().copied()).collect();
        let first = &numbered[..=threshold(n)];
        let secret = self.opened(first, 0);
        for &(own, share) in &numbered {
            assert_eq!(self.opened(first, own), share);
        }
        let enough = choices(n).filter(|present| count(present) == threshold(n) + 1);
        for present in enough {
            let marked = numbered.iter().zip(&present).filter(|(_, &mark)| mark == 1);
            let some: Vec<(u64, u64)> = marked.map(|(&share, _)| share).collect();
            assert_eq!(self.opened(&some, 0), secret);
        }
        secret
    }
}

#[test]
fn the_fields_are_those_of_the_paper() {
    assert_eq!((BYTES.times)(0x57, 0x83), 0xC1);
    assert_eq!((BYTES.times)(0x57, 0x13), 0xFE);
    for byte in 1..256 {
        let inverse = BYTES.power(byte, BYTES.inverse);
        assert_eq!((BYTES.times)(byte, inverse), 1);
    }
    let shares = [(1, 12), (2, 21), (3, 34)];
    assert_eq!(AMOUNTS.opened(&shares, 0), 7);
    assert_eq!(AMOUNTS.opened(&shares, 5), 72);
}

/// The words that the dealer draws for a probe, where none is drawn again: a byte's are
/// drawn eight at a time.
fn words_of_a_probe(n: u64, way: Way) -> usize {
    deal_words_len(n) + deal_bytes_len(n, way).div_ceil(8)
}

/// The same parties and prices on either way.
fn on_both_ways<const LEN: usize>(
    cases: [(u64, u64); LEN],
) -> impl Iterator<Item = (u64, u64, Way)> {
    let both = |(n, k)| WAYS.map(|way| (n, k, way));
    cases.into_iter().flat_map(both)
}

/// The sheets of all parties, and the words that were drawn for them.
fn dealt(n: u64, k: u64, way: Way, source: &mut impl Source) -> (Vec<Sheets>, Vec<u64>) {
    let drawn = RefCell::new(Vec::new());
    let mut recording = || {
        let word = source.bits()?;
        drawn.borrow_mut().push(word);
        Some(word)
    };
    let dealing = Dealing::new(n, k, way, &mut recording).unwrap();
    let sheets = dealing.deal_all().unwrap();
    (sheets, drawn.into_inner())
}

/// The shares that all parties have in this place of these sheets.
fn shares_in(sheets: &[Sheets], place: usize) -> Vec<u64> {
    sheets.iter().map(|sheets| sheets.words()[place]).collect()
}

/// The mask and its bits, and the factors and the products, in each of the sheets.
#[test]
fn sheets_open_to_what_was_drawn() {
    let cases = [(3, 1), (4, 2), (5, 8), (6, 1), (7, 3), (8, 1), (9, 1)];
    for (n, k, way) in on_both_ways(cases) {
        let (sheets, drawn) = dealt(n, k, way, &mut fixed(n));
        assert_eq!(drawn.len(), sheet_count(k) * words_of_a_probe(n, way));
        for (probe, words) in drawn.chunks(words_of_a_probe(n, way)).enumerate() {
            let first = probe * way.sheet_len();
            let amount = |place| AMOUNTS.secret(&shares_in(&sheets, first + place));
            let byte = |place| BYTES.secret(&shares_in(&sheets, first + place));
            let mask = amount(0);
            assert_eq!(mask, words[0] % MASK_LIMIT);
            for bit in 0..33 {
                assert_eq!(byte(1 + bit), mask >> bit & 1);
            }
            let (_, bytes) = words.split_at(deal_words_len(n));
            let bytes: Vec<u8> = bytes.iter().flat_map(|word| word.to_ne_bytes()).collect();
            // The factors stand behind the coefficients of the bits, each pair before
            // the coefficients of three bytes.
            let t = threshold(n);
            let factors = bytes[33 * t..].chunks(2 + 3 * t);
            let products = (way.sheet_len() - 34) / 3;
            for (product, factors) in (0..products).zip(factors) {
                let [alpha, beta, gamma] = [34, 35, 36].map(|place| byte(3 * product + place));
                assert_eq!([alpha, beta], [0, 1].map(|it| u64::from(factors[it])));
                assert_eq!(gamma, (BYTES.times)(alpha, beta));
            }
        }
    }
}

/// Of good coins no two sheets are alike, neither those of two probes, nor two parties',
/// nor those of the next dealing from the same source.
#[test]
fn no_two_sheets_are_alike() {
    for (n, k, way) in on_both_ways([(3, 1), (5, 8), (9, 100)]) {
        let mut source = fixed(n);
        let [one, other] = [(); 2].map(|()| dealt(n, k, way, &mut source).0);
        let systems = dealt(n, k, way, &mut System).0;
        let all = [one, other, systems];
        let words = all.iter().flatten().map(Sheets::words);
        let sheets = words.flat_map(|words| words.chunks(way.sheet_len()));
        let mut sheets: Vec<&[u64]> = sheets.collect();
        let count = sheets.len();
        assert_eq!(count, 3 * n as usize * sheet_count(k));
        sheets.sort();
        sheets.dedup();
        assert_eq!(sheets.len(), count);
    }
}

/// The parties of an auction whose coins are drawn from these two sources.
fn parties(
    (n, k, way): (u64, u64, Way),
    table: &[u64],
    bidder: &mut impl Source,
    dealer: &mut impl Source,
) -> Vec<Speaking> {
    let mut shares = vec![BLANK; n as usize * table_len(k)];
    let entries = Entries::new(n, k, table, &mut shares, bidder).unwrap();
    entries.write_all().unwrap();
    let dealing = Dealing::new(n, k, way, dealer).unwrap();
    let shares = shares.chunks(table_len(k));
    let dealt = (1..).zip(shares).zip(dealing.deal_all().unwrap());
    let speak = |((own, shares), sheets): ((u64, &[u64]), Sheets)| {
        let mut session = Collecting::open(seat(n, own, k, way)).unwrap();
        session.add(1, shares).unwrap();
        session.speak(sheets)
    };
    dealt.map(speak).collect()
}

/// Demand 9, 7, 4, 2 and supply 1, 3, 5, 8: price 2 clears, by four probes.
const TABLE: [u64; 8] = [9, 7, 4, 2, 1, 3, 5, 8];

/// All parties' outcome is that of `TABLE`.
fn assert_price_2(parties: &[Speaking]) {
    for party in parties {
        let Ok(Some(Outcome::Price { index, cleared, .. })) = party.outcome() else {
            panic!("{party:?}");
        };
        let totals = (cleared.demand(), cleared.supply());
        assert_eq!((index.get(), totals), (2, (7, 3)));
    }
}

#[test]
fn an_auction_from_drawn_coins_comes_to_its_price() {
    for (n, k, way) in on_both_ways([3, 4, 5, 6, 7, 8, 9].map(|n| (n, 4))) {
        let mut both = [
            parties((n, k, way), &TABLE, &mut System, &mut System),
            parties((n, k, way), &TABLE, &mut fixed(n), &mut fixed(10 * n)),
        ];
        for parties in &mut both {
            while parties[0].outcome() == Ok(None) {
                round(parties);
            }
            assert_price_2(parties);
        }
    }
}

#[test]
fn a_dealing_whose_source_fails_at_any_word_is_refused() {
    for (n, k, way) in on_both_ways([(3, 1), (4, 2), (9, 1)]) {
        let (_, drawn) = dealt(n, k, way, &mut fixed(n));
        for length in 0..=drawn.len() {
            let mut source = listed(drawn[..length].iter().copied());
            let dealing = Dealing::new(n, k, way, &mut source).unwrap();
            let refused = dealing.deal_all().err();
            let expected = (length < drawn.len()).then_some(Refusal::CoinOutOfRange);
            assert_eq!(refused, expected);
            // It is not asked again.
            assert_eq!(source.asked, drawn.len().min(length + 1));
        }
    }
}

/// A source of ones has a mask, but no coefficient.
#[test]
fn a_dealing_from_a_source_that_is_stuck_is_refused() {
    for n in PARTIES {
        let mut ones = listed(std::iter::repeat(u64::MAX));
        let dealing = Dealing::new(n, 1, WAY, &mut ones).unwrap();
        assert_eq!(dealing.deal_all().err(), Some(Refusal::CoinOutOfRange));
        assert_eq!(ones.asked, 1 + TRIES);
    }
}

/// What dealing from these words for each probe replies.
fn dealt_from(n: u64, k: u64, way: Way, words: &[u64]) -> Result<Vec<Sheets>, Refusal> {
    let mut source = listed(words.iter().copied());
    Dealing::new(n, k, way, &mut source).unwrap().deal_all()
}

/// Zeros for a probe were not drawn, whatever the other probes have. One word that is
/// none is enough for a probe.
#[test]
fn a_dealing_from_zeros_is_refused() {
    for (n, k, way) in on_both_ways([(3, 1), (5, 2), (9, 1)]) {
        let (_, drawn) = dealt(n, k, way, &mut fixed(n));
        let length = words_of_a_probe(n, way);
        let deal = |words: &[u64]| dealt_from(n, k, way, words).err();
        let refused = Some(Refusal::CoinOutOfRange);
        assert_eq!(deal(&vec![0; drawn.len()]), refused);
        for probe in 0..sheet_count(k) {
            let mut words = drawn.clone();
            words[probe * length..][..length].fill(0);
            assert_eq!(deal(&words), refused);
            for place in 0..length {
                let mut words = words.clone();
                words[probe * length + place] = 1;
                assert_eq!(deal(&words), None);
            }
            // What is cut off from a mask does not count.
            words[probe * length] = MASK_LIMIT;
            assert_eq!(deal(&words), refused);
        }
    }
}

/// What a bid split from this source replies, and all shares.
fn split_by(n: u64, table: &[u64], source: &mut impl Source) -> (Result<(), Refusal>, Vec<u64>) {
    let mut shares = vec![7; n as usize * table.len()];
    let k = table.len() as u64 / 2;
    let entries = Entries::new(n, k, table, &mut shares, source).unwrap();
    (entries.write_all(), shares)
}

/// Each party adds its shares: `expected` for all of them.
fn assert_added(n: u64, shares: &[u64], expected: Result<(), Refusal>) {
    let length = shares.len() / n as usize;
    for (own, shares) in (1..).zip(shares.chunks(length)) {
        let mut session = Collecting::open(seat(n, own, length as u64 / 2, WAY)).unwrap();
        assert_eq!(session.add(1, shares), expected);
    }
}

#[test]
fn entries_from_a_source_that_fails_at_any_word() {
    for n in PARTIES {
        let t = threshold(n);
        for failed in 0..=t * TABLE.len() {
            let mut good = fixed(n);
            let mut words = (0..failed).map(|_| good.bits().unwrap());
            let mut source = || words.next();
            let (reply, shares) = split_by(n, &TABLE, &mut source);
            if failed == t * TABLE.len() {
                assert_eq!(reply, Ok(()));
                assert_added(n, &shares, Ok(()));
                continue;
            }
            // What was written before is blank again.
            assert_eq!(reply, Err(Refusal::CoinOutOfRange));
            assert!(shares.iter().all(|&share| share == BLANK));
            assert_added(n, &shares, Err(Refusal::ShareOutOfRange));
        }
    }
}

/// Zeros for a whole bid were not drawn. What was written from them are the amounts, so
/// it is blank again.
#[test]
fn entries_from_zeros_are_refused() {
    for n in PARTIES {
        let t = threshold(n);
        let (reply, shares) = split_by(n, &TABLE, &mut || Some(0));
        assert_eq!(reply, Err(Refusal::CoinOutOfRange));
        assert!(shares.iter().all(|&share| share == BLANK));
        // One coin that is another number is enough, in any place.
        for place in 0..t * TABLE.len() {
            let mut words = (0..).map(|drawn| u64::from(drawn == place));
            let (reply, shares) = split_by(n, &TABLE, &mut || words.next());
            assert_eq!(reply, Ok(()));
            assert_added(n, &shares, Ok(()));
        }
        // What is cut off from a coin does not count.
        let (reply, _) = split_by(n, &TABLE, &mut || Some(1 << 61));
        assert_eq!(reply, Err(Refusal::CoinOutOfRange));
    }
}

/// What receiving these words replies. Received, they are as they were.
fn received(k: u64, way: Way, words: &[u64]) -> Option<Refusal> {
    match Sheets::received(k, way, words) {
        Ok(sheets) => {
            assert_eq!(sheets.words(), words);
            None
        }
        Err(refusal) => Some(refusal),
    }
}

#[test]
fn dealt_sheets_are_received() {
    for (n, k, way) in on_both_ways([(3, 1), (5, 8), (9, MAX_PRICES)]) {
        for sheets in dealt(n, k, way, &mut fixed(n)).0 {
            assert_eq!(received(k, way, sheets.words()), None);
        }
        for sheets in dealt(n, k, way, &mut System).0 {
            assert_eq!(received(k, way, sheets.words()), None);
        }
    }
}

#[test]
fn received_sheets_are_judged_in_their_order() {
    for way in WAYS {
        assert_received_in_order(way);
    }
}

fn assert_received_in_order(way: Way) {
    let received = |k, words: &[u64]| received(k, way, words);
    let sheet = way.sheet_len();
    // Blanks and zeros, so that all that is judged later is wrong too.
    let mixed = |length: usize| {
        let mut words = vec![0; length];
        words[length / 2..].fill(BLANK);
        words
    };
    for k in [0, MAX_PRICES + 1, 1 << 32, (1 << 63) + 1, u64::MAX] {
        for length in [0, 1, sheets_len(1, way), sheets_len(k, way)] {
            assert_eq!(received(k, &mixed(length)), Some(Refusal::OutOfRange));
        }
    }
    for k in [1, 2, 7, 8, MAX_PRICES] {
        let length = sheets_len(k, way);
        let others = [0, 1, sheet, length / 2, length - sheet, length - 1];
        let longer = [length + 1, length + sheet, 2 * length];
        // Those of the other way too.
        let both = WAYS.map(|way| sheets_len(k, way)).into_iter();
        let of_other = both.filter(|&other| other != length);
        for other in others.into_iter().chain(longer).chain(of_other) {
            assert_eq!(received(k, &mixed(other)), Some(Refusal::WrongLength));
        }
        let out_of_range = Some(Refusal::ShareOutOfRange);
        assert_eq!(received(k, &mixed(length)), out_of_range);
        assert_eq!(received(k, &vec![0; length]), out_of_range);
        assert_eq!(received(k, &vec![1; length]), out_of_range);
        let blank = Sheets::blank(k, way);
        assert_eq!(blank.words(), vec![BLANK; length]);
        assert_eq!(received(k, blank.words()), out_of_range);
    }
}

#[test]
fn a_received_word_that_is_no_share() {
    for (n, k, way) in on_both_ways([(3, 1), (3, 4)]) {
        let good = sheets(seat(n, 1, k, way)).words().to_vec();
        for place in 0..good.len() {
            let limit = if place % way.sheet_len() == 0 {
                PRIME
            } else {
                256
            };
            let with = |word| {
                let mut words = good.clone();
                words[place] = word;
                received(k, way, &words)
            };
            for word in [limit, limit + 1, 1 << 63, BLANK - 1, BLANK] {
                assert_eq!(with(word), Some(Refusal::ShareOutOfRange));
            }
            assert_eq!(with(limit - 1), None);
        }
    }
}

#[test]
fn a_received_sheet_of_zeros() {
    for (n, k, way) in on_both_ways([(3, 4)]) {
        let good = sheets(seat(n, 1, k, way)).words().to_vec();
        let length = way.sheet_len();
        for place in 0..sheet_count(k) {
            let mut words = good.clone();
            words[place * length..][..length].fill(0);
            let refused = Some(Refusal::ShareOutOfRange);
            assert_eq!(received(k, way, &words), refused);
            // One word of it is enough.
            for other in 0..length {
                let mut words = words.clone();
                words[place * length + other] = 1;
                assert_eq!(received(k, way, &words), None);
            }
        }
    }
}

#[test]
fn a_received_sheet_in_two_places() {
    for (n, k, way) in on_both_ways([(3, 4)]) {
        let good = sheets(seat(n, 1, k, way)).words().to_vec();
        let length = way.sheet_len();
        let places = (0..sheet_count(k)).flat_map(|one| (0..one).map(move |other| (one, other)));
        for (one, other) in places {
            let mut words = good.clone();
            words.copy_within(one * length..(one + 1) * length, other * length);
            let refused = Some(Refusal::ShareOutOfRange);
            assert_eq!(received(k, way, &words), refused);
            // One word that differs is enough.
            for place in 0..length {
                let mut words = words.clone();
                words[other * length + place] ^= 1;
                assert_eq!(received(k, way, &words), None);
            }
        }
    }
}

/// A session that was given blank sheets says nothing.
#[test]
fn blank_sheets_are_refused_where_they_are_spoken_from() {
    for (n, k, way) in on_both_ways([(3, 1), (3, 4)]) {
        let session = collected(seat(n, 1, k, way), &[]);
        let mut party = session.speak(Sheets::blank(k, way));
        let refused = Err(Refusal::ShareOutOfRange);
        assert_eq!(party.say().map(|_| ()), refused);
        let heard = party.hear(&from_all(&[0; 3]));
        assert_eq!(heard, refused);
    }
}

/// Why sheets of zeros are not received: on plain words an auction runs on them to the
/// right price, no call refuses anything, and each opened sum tells every party by how
/// much total demand is above total supply at the probed index.
#[test]
fn totals_are_given_away_by_sheets_of_zeros() {
    let base = (1 << 59) + (1 << 32);
    for (n, way) in PARTIES.flat_map(|n| WAYS.map(|way| (n, way))) {
        let mut parties: Vec<Plain> = (1..=n)
            .map(|own| {
                let session = collected(seat(n, own, 4, way), &[(1, &TABLE)]);
                Plain::resume(&session.store(), &vec![0; sheets_len(4, way)])
            })
            .collect();
        let mut probes = 0;
        while words::answer(&parties[0].record, &mut 0, &mut 0) != 0 {
            let record = &parties[0].record;
            let is_sum = record[place::ROUND] == 1;
            let index = record[place::LO].midpoint(record[place::HI]) as usize;
            let [demand, supply] = [TABLE[index - 1], TABLE[3 + index]];
            let opened = match record[place::SEARCH] {
                1 => base + demand - supply,
                _ => base + supply - demand,
            };
            plain_round(&mut parties);
            if is_sum {
                probes += 1;
                let sums = parties.iter().map(|party| party.record[place::SUM]);
                assert!(sums.into_iter().all(|sum| sum == opened));
            }
        }
        for party in &parties {
            let (mut index, mut made) = (0, 0);
            assert_eq!(words::answer(&party.record, &mut index, &mut made), 0);
            assert_eq!((index, made), (2, probes));
            assert_eq!(party.record[place::DEMAND], 7);
            assert_eq!(party.record[place::SUPPLY], 3);
        }
    }
}

/// On sheets that were dealt, the opened sum of the same bid is another one each time.
#[test]
fn sums_on_dealt_sheets_differ() {
    for way in WAYS {
        let sum = |seed| {
            let mut parties = parties((3, 4, way), &TABLE, &mut fixed(1), &mut fixed(seed));
            go_on_until(&mut parties, 2);
            parties[0].store()[STORED_HEAD + place::SUM]
        };
        let mut sums: Vec<u64> = (0..100).map(sum).collect();
        sums.sort();
        sums.dedup();
        assert_eq!(sums.len(), 100);
    }
}

/// A dealer that drew nothing deals sheets of zeros. The call on plain words does not
/// refuse, and the typed one does, once the rest is right.
#[test]
fn coins_of_zeros_deal_sheets_of_zeros() {
    for (n, way) in PARTIES.flat_map(|n| WAYS.map(|way| (n, way))) {
        let (drawn, bytes) = (vec![0; deal_words_len(n)], vec![0; deal_bytes_len(n, way)]);
        for own in 1..=n {
            let mut sheet = vec![BLANK; way.sheet_len()];
            let dealt = words::deal(n, own, way.rounds(), &drawn, &bytes, &mut sheet);
            assert_eq!(dealt, 0);
            assert!(sheet.iter().all(|&word| word == 0));

            let deal = |words: &[u64], bytes: &[u8]| {
                let mut sheet = vec![BLANK; way.sheet_len()];
                deal(seat(n, own, 1, way), words, bytes, &mut sheet)
            };
            assert_eq!(deal(&drawn, &bytes), Err(Refusal::CoinOutOfRange));
            assert_eq!(deal(&drawn[1..], &bytes), Err(Refusal::WrongLength));
            for place in 0..drawn.len() {
                let mut drawn = drawn.clone();
                drawn[place] = 1;
                assert_eq!(deal(&drawn, &bytes), Ok(()));
            }
            for place in 0..bytes.len() {
                let mut bytes = bytes.clone();
                bytes[place] = 1;
                assert_eq!(deal(&drawn, &bytes), Ok(()));
            }
        }
    }
}

/// Why a bid from zeros is refused: from such coins a party's shares are the amounts.
/// The call on plain words takes them, and the typed one does not, once the rest is
/// right.
#[test]
fn amounts_are_given_away_by_coins_of_zeros() {
    for n in PARTIES {
        let coins = vec![0; threshold(n) * TABLE.len()];
        for own in 1..=n {
            let mut shares = [BLANK; 8];
            assert_eq!(words::split(n, own, 4, &TABLE, &coins, &mut shares), 0);
            assert_eq!(shares, TABLE);

            let mut shares = [BLANK; 8];
            let seat = seat(n, own, 4, WAY);
            let mut split = |coins: &[u64]| split(seat, &TABLE, coins, &mut shares);
            assert_eq!(split(&coins), Err(Refusal::CoinOutOfRange));
            assert_eq!(split(&coins[1..]), Err(Refusal::WrongLength));
            for place in 0..coins.len() {
                let mut coins = coins.clone();
                coins[place] = 1;
                assert_eq!(split(&coins), Ok(()));
            }
        }
    }
}
