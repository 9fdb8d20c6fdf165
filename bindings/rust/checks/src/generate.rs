//! Calls to compare, mostly such as are accepted: random parties, prices,
//! records and contents. Words that a call does not use hold anything.

use clockivy::words::place::{
    BIDS, CARRY, DEMAND, FIRST, FIRST_PROBES, HI, K, LAST, LO, N, OWN, PAIRS, PROBES, ROLL, ROUND,
    SEARCH, SUM, SUPPLY,
};
use clockivy::{
    coins_len, deal_words_len, sheet_count, table_len, LINE_LEN, PAIRS_LEN, RECORD_LEN,
    SETTLEMENT_LEN,
};
use clockivy_reference as reference;
use clockivy_reference::field::{amount, byte};
use clockivy_reference::{
    drawn_len, probe_limit, sheet_len, DEMAND_ROUND, FIRST_SEARCH, HIGHEST_PRICE, MAX_AMOUNT,
    MAX_BIDS, MAX_PRICES, NO_MORE_ROUNDS, ROUNDS_33, SECOND_SEARCH, SUM_LIMIT, SUM_LOW,
    SUPPLY_ROUND, TOTAL_LIMIT, WAYS,
};

use crate::call::{Call, Kind};
use crate::formatted;
use crate::page;
use crate::record::{
    has_bid, has_cleared, index, is_of_a_verdict, is_of_amounts, mark, marks, unmark, width, NOBODY,
};
use crate::rng::Rng;
use crate::soundness::NO_WAYS;

/// The reply where a word that is used is no share.
const SHARE_OUT_OF_RANGE: u64 = 8;

/// The numbers that fix the lengths of all buffers.
#[derive(Clone, Copy)]
pub struct Shape {
    /// The number of parties.
    pub n: u64,
    /// The party's number.
    pub own: u64,
    /// The number of listed prices.
    pub k: u64,
    /// The last round of a probe.
    pub last: u64,
}

impl Shape {
    /// A shape within its ranges or, now and then, one step outside them. The
    /// lengths fit it in either case.
    pub fn random(rng: &mut Rng) -> Shape {
        let n = rng.between(3, 9);
        let k = match rng.below(64) {
            0 => MAX_PRICES,
            1 => rng.between(1, MAX_PRICES),
            2 => rng.pick(&[63, 64, 127, 128, 255, 256, 511, 512, 1_023]),
            3..=15 => rng.between(1, 40),
            _ => rng.between(1, 6),
        };
        let shape = Shape {
            n,
            own: rng.between(1, n),
            k,
            last: rng.pick(&WAYS),
        };
        match rng.below(128) {
            0 => Shape { n: 2, ..shape },
            1 => Shape { n: 10, ..shape },
            2 => Shape { own: 0, ..shape },
            3 => Shape {
                own: n + 1,
                ..shape
            },
            4 => Shape { k: 0, ..shape },
            5 => Shape {
                k: MAX_PRICES + 1,
                ..shape
            },
            6 => Shape {
                last: rng.pick(&NO_WAYS),
                ..shape
            },
            _ => shape,
        }
    }

    fn threshold(self) -> usize {
        reference::threshold(self.n)
    }

    /// Changes the first coefficient so that the party's share is 0.
    fn vanish(self, secret: u64, coefficients: &mut [u64]) {
        if (1..=9).contains(&self.own) && !coefficients.is_empty() {
            coefficients[0] = 0;
            let rest = amount::share(secret, coefficients, self.own);
            coefficients[0] = amount::mul(amount::sub(0, rest), amount::inverse(self.own));
        }
    }
}

/// A call of this kind.
pub fn call(rng: &mut Rng, kind: Kind) -> Call {
    let shape = Shape::random(rng);
    match kind {
        Kind::Open => open(rng, shape),
        Kind::Split => split(rng, shape),
        Kind::SplitEntry => split_entry(rng, shape),
        Kind::Deal => deal(rng, shape),
        Kind::Add => add(rng, shape),
        Kind::Say => say(rng, shape),
        Kind::Hear => {
            let said = say(rng, shape);
            hear(rng, &said)
        }
        Kind::Answer => answer(rng, shape),
        Kind::Fill => fill(rng, shape),
        Kind::SettlementWrite => settlement_write(rng),
        Kind::SettlementRead => settlement_read(rng),
    }
}

fn open(rng: &mut Rng, shape: Shape) -> Call {
    let totals = rng.words(table_len(shape.k), Rng::word);
    let record = rng.words(RECORD_LEN, Rng::word);
    let Shape { n, own, k, last } = shape;
    Call::open(n, own, k, last, &totals, &record)
}

fn split(rng: &mut Rng, shape: Shape) -> Call {
    let table = rng.table(shape.k as usize);
    let t = shape.threshold();
    let mut coins = rng.words(coins_len(shape.n, shape.k), Rng::amount_share);
    if t > 0 {
        for (&entry, group) in table.iter().zip(coins.chunks_exact_mut(t)) {
            if rng.once_in(8) {
                shape.vanish(entry, group);
            }
        }
    }
    let shares = rng.words(table_len(shape.k), Rng::word);
    Call::split(shape.n, shape.own, shape.k, &table, &coins, &shares)
}

fn split_entry(rng: &mut Rng, shape: Shape) -> Call {
    let table = rng.table(shape.k as usize);
    let last = table.len() as u64;
    let entry = match rng.below(32) {
        0 => rng.pick(&[0, last + 1, last + 2, (1 << 32) + 1, u64::MAX]),
        1..=4 => rng.pick(&[1, shape.k, shape.k + 1, last]),
        _ => rng.between(1, last.max(1)),
    };
    let mut coins = rng.words(shape.threshold(), Rng::amount_share);
    let amount = table.get(entry.wrapping_sub(1) as usize);
    if let (Some(&amount), true) = (amount, rng.once_in(8)) {
        shape.vanish(amount, &mut coins);
    }
    let shares = rng.words(table_len(shape.k), Rng::word);
    Call::split_entry(shape.n, shape.own, shape.k, entry, &table, &coins, &shares)
}

fn deal(rng: &mut Rng, shape: Shape) -> Call {
    let mut words = rng.words(deal_words_len(shape.n), Rng::amount_share);
    words[0] = rng.mask();
    if let ([mask, coefficients @ ..], true) = (&mut words[..], rng.once_in(8)) {
        shape.vanish(*mask, coefficients);
    }
    let bytes = rng.bytes(drawn_len(shape.n, shape.last));
    let sheet = rng.words(sheet_len(shape.last), Rng::word);
    Call::deal(shape.n, shape.own, shape.last, &words, &bytes, &sheet)
}

fn add(rng: &mut Rng, shape: Shape) -> Call {
    let mut record = record(rng, shape);
    if !rng.once_in(8) {
        record[PROBES] = 0;
        record[FIRST_PROBES] = 0;
        record[ROUND] = 1;
        fit_round(rng, &mut record);
    }
    let totals = rng.words(table_len(shape.k), Rng::amount_share);
    let mut shares = rng.words(table_len(shape.k), Rng::amount_share);
    for (share, &total) in shares.iter_mut().zip(&totals) {
        if rng.once_in(8) {
            *share = amount::sub(0, total);
        }
    }
    let bidder = bidder(rng, &record);
    Call::add(&record, &totals, bidder, &shares)
}

/// A bidder for this record: mostly one who is not on the roll, often one who
/// is, and now and then a number that is no bidder's.
fn bidder(rng: &mut Rng, record: &[u64]) -> u64 {
    let anybody = rng.between(1, MAX_BIDS);
    let marked = match rng.below(16) {
        0 => return rng.pick(&[0, 1, MAX_BIDS, MAX_BIDS + 1, 1_023, 1_024, u64::MAX]),
        1 => return rng.pick(&NOBODY),
        2 => return anybody,
        3..=5 => true,
        _ => false,
    };
    (anybody..=MAX_BIDS)
        .chain(1..anybody)
        .find(|&bidder| has_bid(record, bidder) == marked)
        .unwrap_or(anybody)
}

fn say(rng: &mut Rng, shape: Shape) -> Call {
    let mut record = record(rng, shape);
    if rng.once_in(8) {
        end(rng, &mut record);
        if has_cleared(&record) {
            record[ROUND] = rng.between(DEMAND_ROUND, SUPPLY_ROUND);
        }
    }
    let mut totals = totals(rng, shape, &record);
    let mut sheets = sheets(rng, shape, &record);
    let messages = rng.words(width(&record), Rng::word);
    match rng.below(32) {
        0..=3 => silence(&record, &mut totals, &sheets),
        4 => spoil(rng, &record, &mut totals),
        5 => spoil_sheet(rng, &record, &mut sheets),
        _ => {}
    }
    Call::say(&record, &totals, &sheets, &messages)
}

/// Puts what is no share into a place of the totals that the round may use.
fn spoil(rng: &mut Rng, record: &[u64], totals: &mut [u64]) {
    let place = match rng.below(2) {
        0 => index(record),
        _ => index(record).saturating_add(record[K] as usize),
    };
    if let Some(word) = totals.get_mut(place.wrapping_sub(1)) {
        *word = rng.pick(&[amount::P, amount::P + 1, u64::MAX]);
    }
}

/// Puts what is no share into the current sheet, where there is one.
fn spoil_sheet(rng: &mut Rng, record: &[u64], sheets: &mut [u64]) {
    let length = sheet_len(record[LAST]);
    let mut all = sheets.chunks_exact_mut(length);
    if let Some(sheet) = all.nth(record[PROBES] as usize) {
        let place = rng.place(length);
        let least = if place == 0 { amount::P } else { 256 };
        sheet[place] = rng.pick(&[least, least + 1, u64::MAX]);
    }
}

/// Changes the demand that is probed so that the message of round 1 is 0. In the
/// second search the message has demand taken away.
fn silence(record: &[u64], totals: &mut [u64], sheets: &[u64]) {
    let mut message = [0];
    if record[ROUND] == 1 && reference::say(record, totals, sheets, &mut message) == 0 {
        let demand = &mut totals[index(record) - 1];
        *demand = match record[SEARCH] {
            FIRST_SEARCH => amount::sub(*demand, message[0]),
            _ => amount::add(*demand, message[0]),
        };
    }
}

/// A hearing with the record, totals and sheets of a saying, on messages that
/// open, mostly, to something that is accepted. A party that was not present may
/// have totals that are no shares.
pub fn hear(rng: &mut Rng, said: &Call) -> Call {
    let [record, totals, sheets, _] = &said.words[..] else {
        unreachable!("it is a saying");
    };
    let n = record.first().map_or(3, |&n| n.min(10) as usize);
    let present = present(rng, n);
    let width = if record.len() == RECORD_LEN {
        width(record)
    } else {
        1
    };
    let mut own_message = vec![0; width];
    let reply = reference::say(record, totals, sheets, &mut own_message);
    let (mut messages, mut totals) = (Vec::new(), totals.to_vec());
    if [0, SHARE_OUT_OF_RANGE].contains(&reply) {
        let own = record[OWN] as usize - 1;
        if present[own] != 1 {
            // Its message is not compared, nor are its totals used.
            own_message.fill_with(|| in_range(rng, record));
            if is_of_amounts(record) && rng.once_in(2) {
                spoil(rng, record, &mut totals);
            }
        }
        if rng.once_in(8) {
            // Something else than the party says, and yet the words open.
            own_message[rng.place(width)] = in_range(rng, record);
        }
        messages = self::messages(rng, record, &present, &own_message);
        if rng.once_in(16) {
            messages[own * width + rng.place(width)] = in_range(rng, record);
        }
    } else {
        messages.resize_with(n * width, || rng.below(256));
    }
    Call::hear(record, &totals, sheets, &messages, &present)
}

/// Marks of who was present among so many: mostly enough, and now and then one
/// that is no mark.
pub fn present(rng: &mut Rng, n: usize) -> Vec<u8> {
    let least = reference::threshold(n as u64) + 1;
    let count = match rng.below(16) {
        0 => rng.place(least),
        1 => least - 1,
        2..=5 => least,
        6..=10 => rng.between(least.min(n) as u64, n as u64) as usize,
        _ => n,
    };
    let mut present = vec![0; n];
    for party in rng.numbers(n as u64, count.min(n) as u64) {
        present[party as usize - 1] = 1;
    }
    if n > 0 && rng.once_in(32) {
        present[rng.place(n)] = rng.pick(&[2, 3, 128, 255]);
    }
    present
}

fn answer(rng: &mut Rng, shape: Shape) -> Call {
    let mut record = record(rng, shape);
    if !rng.once_in(4) {
        end(rng, &mut record);
    }
    Call::answer(&record, rng.word(), rng.word())
}

fn fill(rng: &mut Rng, shape: Shape) -> Call {
    let mut record = record(rng, shape);
    if !rng.once_in(4) {
        end(rng, &mut record);
    }
    let amount = match rng.below(16) {
        0 => 0,
        1 => MAX_AMOUNT,
        2 => rng.pick(&[MAX_AMOUNT + 1, 1 << 32, 1 << 63, u64::MAX]),
        3 => record[DEMAND].min(MAX_AMOUNT),
        4..=8 => rng.below(100),
        _ => rng.between(0, MAX_AMOUNT),
    };
    Call::fill(&record, amount, rng.word(), rng.word())
}

/// A page is written at any price, mostly into just the room that it needs.
fn settlement_write(rng: &mut Rng) -> Call {
    let amounts = amounts(rng);
    let length = page::length(&amounts);
    let room = match rng.below(16) {
        0 => 0,
        1 => length.saturating_sub(1),
        2 => length.saturating_sub(LINE_LEN),
        3 => rng.place(length + 1),
        4 => length + 1,
        5 => length + rng.place(2 * LINE_LEN),
        _ => length,
    };
    let page = rng.bytes(room);
    Call::settlement_write(price(rng), &amounts, &page, rng.word())
}

/// A page is read at the price at which it is laid out.
fn settlement_read(rng: &mut Rng) -> Call {
    let (price, amounts) = (price(rng), amounts(rng));
    let rows = formatted::rows(price.clamp(1, HIGHEST_PRICE), &amounts);
    let page = formatted::page(rows);
    let amounts = rng.words(SETTLEMENT_LEN, Rng::word);
    Call::settlement_read(price, page.as_bytes(), &amounts)
}

/// A price of an hour: often at an end of the range, and now and then outside it.
pub fn price(rng: &mut Rng) -> u64 {
    match rng.below(32) {
        0..=1 => 1,
        2..=3 => HIGHEST_PRICE,
        4 => rng.pick(&[0, HIGHEST_PRICE + 1, (1 << 32) + 1, u64::MAX]),
        5..=16 => rng.between(1, 1_000),
        _ => rng.between(1, HIGHEST_PRICE),
    }
}

/// The amounts of a settlement: mostly of a few bidders, now and then of none, of many
/// or of all.
fn amounts(rng: &mut Rng) -> Vec<u64> {
    let mut amounts = vec![0; SETTLEMENT_LEN];
    let nothing_got = rng.once_in(32);
    let once_in = match rng.below(128) {
        0 => 1,
        1..=2 => 2,
        3..=8 => 40,
        _ => 800,
    };
    for pair in amounts.chunks_exact_mut(2) {
        if rng.once_in(once_in) {
            pair.copy_from_slice(&wanted_and_got(rng));
            if nothing_got {
                pair[1] = 0;
            }
        }
    }
    // The ends of the page.
    for pair in [0, 1, SETTLEMENT_LEN / 2 - 2, SETTLEMENT_LEN / 2 - 1] {
        if rng.once_in(32) {
            amounts[2 * pair..2 * pair + 2].copy_from_slice(&wanted_and_got(rng));
        }
    }
    amounts
}

/// What a bidder wants and gets: often such that the number of digits just changes.
fn wanted_and_got(rng: &mut Rng) -> [u64; 2] {
    let round = 10_u64.pow(rng.below(7) as u32);
    let wanted = match rng.below(8) {
        0 => MAX_AMOUNT,
        1 => round,
        2 => (round - 1).max(1),
        3..=5 => rng.between(1, 999),
        _ => rng.between(1, MAX_AMOUNT),
    };
    let got = match rng.below(8) {
        0 => 0,
        1 => wanted,
        2 => wanted - 1,
        3 => round.min(wanted),
        _ => rng.between(0, wanted),
    };
    [wanted, got]
}

/// Ends the searches of a record, and mostly opens the totals where there is a
/// price.
fn end(rng: &mut Rng, record: &mut [u64]) {
    second_search(rng, record);
    record[LO] = record[HI] - 1;
    fit_round(rng, record);
    if has_cleared(record) && !rng.once_in(4) {
        record[ROUND] = NO_MORE_ROUNDS;
    }
}

/// A record, not always one that an auction can reach, and mostly a sound one.
fn record(rng: &mut Rng, shape: Shape) -> Vec<u64> {
    let Shape { n, own, k, last } = shape;
    let end = last.clamp(1, ROUNDS_33);
    let round = match rng.below(8) {
        0..=1 => 1,
        2..=3 => end,
        // Those with the most words, where there are more than one.
        4 => 2,
        5 => rng.between(2, 3),
        _ => rng.between(1, end),
    };
    let sum = match rng.below(16) {
        0 => 0,
        1 => SUM_LIMIT - 1,
        _ => rng.below(SUM_LIMIT),
    };
    let carry = u64::from(rng.byte());
    let fields = [
        (N, n),
        (OWN, own),
        (K, k),
        (ROUND, round),
        (SUM, sum),
        (CARRY, carry),
        (LAST, last),
    ];
    let mut record = clockivy_testing::record(&fields).to_vec();
    roll(rng, &mut record);
    any_search(rng, &mut record);
    opened_totals(rng, &mut record);
    pairs(rng, &mut record);
    record
}

/// Puts pairs into a record, sound ones: often just so many shares as its round is
/// about, or none.
fn pairs(rng: &mut Rng, record: &mut [u64]) {
    let shares = match rng.below(8) {
        0 => 0..0,
        1..=3 => 0..width(record),
        _ => 0..PAIRS_LEN,
    };
    for share in &mut record[PAIRS..][shares] {
        *share = u64::from(rng.byte());
    }
}

/// Puts totals into a record, sound ones: often none yet, and now and then such as
/// are at an end of their range.
fn opened_totals(rng: &mut Rng, record: &mut [u64]) {
    let top = TOTAL_LIMIT - 1;
    let demand = match rng.below(8) {
        0..=1 => 0,
        2 => top,
        3 => rng.between(1, 9),
        4 => rng.between(1, MAX_AMOUNT),
        _ => rng.between(0, top),
    };
    record[DEMAND] = demand;
    record[SUPPLY] = match rng.below(8) {
        0..=1 => 0,
        2 => demand,
        3 => demand.saturating_sub(1),
        _ => rng.between(0, demand),
    };
}

/// Puts a record into a round that its searches allow, where it is in none.
pub fn fit_round(rng: &mut Rng, record: &mut [u64]) {
    let (first, last) = if has_cleared(record) {
        (DEMAND_ROUND, NO_MORE_ROUNDS)
    } else {
        (1, record[LAST].clamp(1, ROUNDS_33))
    };
    if !(first..=last).contains(&record[ROUND]) {
        record[ROUND] = rng.between(first, last);
    }
}

/// Puts a search into a record, sound where the record allows one. Over no prices
/// only the second is: the first has nothing to probe.
pub fn any_search(rng: &mut Rng, record: &mut [u64]) {
    if record[K] > 0 && rng.once_in(2) {
        first_search(rng, record);
    } else {
        second_search(rng, record);
    }
}

/// Puts a first search into a record, sound where there is a price to probe.
pub fn first_search(rng: &mut Rng, record: &mut [u64]) {
    let k = prices(record).max(1);
    let hi = if rng.once_in(2) {
        k + 1
    } else {
        rng.between(2, k + 1)
    };
    let lo = match rng.below(4) {
        0 => 0,
        1 => hi - 2,
        _ => rng.below(hi - 1),
    };
    record[LO] = lo;
    record[HI] = hi;
    record[PROBES] = rng.below(probe_limit(k));
    record[SEARCH] = FIRST_SEARCH;
    record[FIRST] = 0;
    record[FIRST_PROBES] = 0;
    fit_round(rng, record);
}

/// Puts a sound second search into a record. Often it has ended, now and then as
/// it began.
pub fn second_search(rng: &mut Rng, record: &mut [u64]) {
    let k = prices(record);
    let first = match rng.below(16) {
        0 => 0,
        1..=4 => k,
        _ => rng.between(k.min(1), k),
    };
    let hi = if rng.once_in(2) {
        first + 1
    } else {
        rng.between(1, first + 1)
    };
    let lo = match rng.below(4) {
        0 => 0,
        1 => hi.saturating_sub(2),
        _ => rng.below(hi),
    };
    let own_probes = if hi - lo == 1 {
        rng.between(0, probe_limit(first))
    } else {
        rng.below(probe_limit(first))
    };
    record[LO] = lo;
    record[HI] = hi;
    record[SEARCH] = SECOND_SEARCH;
    record[FIRST] = first;
    record[FIRST_PROBES] = rng.between(0, probe_limit(k));
    record[PROBES] = record[FIRST_PROBES] + own_probes;
    fit_round(rng, record);
}

/// The prices of a record, or as many as leave room for numbers above.
fn prices(record: &[u64]) -> u64 {
    record[K].min(1 << 63)
}

/// Marks bidders on an empty roll and counts them. Now and then the count is
/// one off, or a number that is no bidder's is marked and counted too: such a
/// roll then meets every call, in every state of a record.
fn roll(rng: &mut Rng, record: &mut [u64]) {
    match rng.below(8) {
        0 => {}
        1 => record[ROLL..SEARCH].fill(u64::MAX),
        2 => {
            record[ROLL..SEARCH].fill(u64::MAX);
            unmark(record, rng.between(1, MAX_BIDS));
        }
        3..=4 => {
            for _ in 0..rng.between(1, 6) {
                let at_an_end = rng.pick(&[1, 2, 63, 64, 65, 959, 960, 999, MAX_BIDS]);
                let anybody = rng.between(1, MAX_BIDS);
                mark(record, rng.pick(&[at_an_end, anybody]));
            }
        }
        many => {
            for word in &mut record[ROLL..SEARCH] {
                *word = match many {
                    5 => rng.word() & rng.word(),
                    6 => rng.word(),
                    _ => rng.word() | rng.word(),
                };
            }
        }
    }
    for nobody in NOBODY {
        unmark(record, nobody);
    }
    match rng.below(64) {
        0 => mark(record, rng.pick(&NOBODY)),
        1 => mark(record, rng.pick(&[0, MAX_BIDS + 1, 1_023])),
        _ => {}
    }
    record[BIDS] = marks(record);
    match rng.below(64) {
        0 => record[BIDS] += 1,
        1 => record[BIDS] = record[BIDS].saturating_sub(1),
        _ => {}
    }
}

/// Totals: the words that the round uses are shares, the others anything.
fn totals(rng: &mut Rng, shape: Shape, record: &[u64]) -> Vec<u64> {
    if rng.once_in(2) {
        return rng.words(table_len(shape.k), Rng::amount_share);
    }
    let mut totals = rng.words(table_len(shape.k), Rng::word);
    let (index, round) = (index(record), record[ROUND]);
    if index > 0 && [1, DEMAND_ROUND].contains(&round) {
        totals[index - 1] = rng.amount_share();
    }
    if index > 0 && [1, SUPPLY_ROUND].contains(&round) {
        totals[shape.k as usize + index - 1] = rng.amount_share();
    }
    totals
}

/// Preprocessing: the current probe's is sound, the others hold anything.
fn sheets(rng: &mut Rng, shape: Shape, record: &[u64]) -> Vec<u64> {
    let current = (record[ROUND] < DEMAND_ROUND).then_some(record[PROBES]);
    let length = sheet_len(shape.last);
    let mut sheets = Vec::new();
    for probe in (0..).take(sheet_count(shape.k)) {
        if current == Some(probe) || rng.once_in(2) {
            sheets.push(rng.amount_share());
            sheets.extend(rng.words(length - 1, |rng| u64::from(rng.byte())));
        } else {
            sheets.extend(rng.words(length, Rng::word));
        }
    }
    sheets
}

/// A word of a message: any that is in range.
fn in_range(rng: &mut Rng, record: &[u64]) -> u64 {
    match record {
        _ if is_of_amounts(record) => rng.amount_share(),
        _ if is_of_a_verdict(record) => rng.below(256),
        _ => rng.below(65_536),
    }
}

/// A word that is out of range by what stands above one in range.
fn out_of_range(rng: &mut Rng, record: &[u64], word: u64) -> u64 {
    match record {
        _ if is_of_amounts(record) => word + amount::P,
        _ if is_of_a_verdict(record) => word | 1 << rng.between(8, 63),
        _ => word | 1 << rng.between(16, 63),
    }
}

/// All parties' messages for a record whose own message is given: each word on a random
/// polynomial through its own one or, one time in two, one of them bent off it
/// elsewhere, or out of range. In the places that are not marked there often is
/// something else.
fn messages(rng: &mut Rng, record: &[u64], present: &[u8], own_message: &[u64]) -> Vec<u64> {
    let places = Places {
        n: record[N],
        own: record[OWN],
    };
    let mut messages = vec![0; present.len() * own_message.len()];
    let bent = rng.place(2 * own_message.len());
    for (place, &own_word) in own_message.iter().enumerate() {
        let mut words = places.words(rng, record, own_word);
        if place == bent {
            places.bend(rng, record, present, &mut words);
        }
        for (message, word) in messages.chunks_exact_mut(own_message.len()).zip(words) {
            message[place] = word;
        }
    }
    if rng.once_in(2) {
        for (message, &mark) in messages.chunks_exact_mut(own_message.len()).zip(present) {
            if mark != 1 {
                for word in message {
                    let (any, fits) = (rng.word(), in_range(rng, record));
                    *word = rng.pick(&[*word, fits, any, 0, amount::P, u64::MAX]);
                }
            }
        }
    }
    messages
}

/// A sum of round 1: mostly in its range, often at an end of it.
fn sum(rng: &mut Rng) -> u64 {
    match rng.below(8) {
        0 => rng.below(amount::P),
        1 => rng.between(SUM_LOW - 2, SUM_LOW + 2),
        2 => rng.between(SUM_LIMIT - 3, SUM_LIMIT + 2),
        3 => rng.pick(&[0, 1, 1 << 58, 1 << 59, amount::P - 1]),
        _ => rng.between(SUM_LOW, SUM_LIMIT - 1),
    }
}

/// A total of round 34 or 35: mostly one that fits the other, often as it just does
/// or just does not.
fn total(rng: &mut Rng, record: &[u64]) -> u64 {
    let (least, most) = match record[ROUND] {
        DEMAND_ROUND => (record[SUPPLY], TOTAL_LIMIT - 1),
        _ => (0, record[DEMAND]),
    };
    match rng.below(8) {
        0 => rng.below(amount::P),
        1 => rng.between(TOTAL_LIMIT - 2, TOTAL_LIMIT + 2),
        2 => rng.between(least.saturating_sub(2), least + 1),
        3 => rng.between(most.saturating_sub(1), most + 2),
        4 => rng.pick(&[0, 1, 1 << 33, 1 << 58, amount::P - 1]),
        _ => rng.between(least, most),
    }
}

/// The parties' points 1 to n, and the one whose word is given.
struct Places {
    n: u64,
    own: u64,
}

impl Places {
    /// The words of all parties in one place of their messages, where the own one is
    /// given.
    fn words(&self, rng: &mut Rng, record: &[u64], own_word: u64) -> Vec<u64> {
        if is_of_amounts(record) {
            let other = rng.between(1, self.n);
            if rng.once_in(16) && other != self.own {
                // Another party's word is 0, or the prime, which is not 0.
                let mut words = self.amounts(rng, own_word, other, 0);
                words[other as usize - 1] = rng.pick(&[0, amount::P]);
                return words;
            }
            let opened = match record[ROUND] {
                1 => sum(rng),
                _ => total(rng, record),
            };
            return self.amounts(rng, own_word, 0, opened);
        }
        if is_of_a_verdict(record) {
            let verdict = match rng.below(8) {
                0 => rng.byte(),
                1 => rng.pick(&[2, 3, 128, 255]),
                even => (even % 2) as u8,
            };
            let bytes = self.bytes(rng, own_word as u8, verdict);
            return bytes.into_iter().map(u64::from).collect();
        }
        let (d, e) = (rng.byte(), rng.byte());
        let low = self.bytes(rng, own_word as u8, d);
        let high = self.bytes(rng, (own_word >> 8) as u8, e);
        let pairs = low.into_iter().zip(high);
        pairs
            .map(|(d, e)| u64::from(d) + 256 * u64::from(e))
            .collect()
    }

    /// The words of a random polynomial of degree at most t that has the given
    /// values at the own point and at another.
    fn amounts(&self, rng: &mut Rng, at_own: u64, point: u64, at_point: u64) -> Vec<u64> {
        let mut coefficients = rng.words(reference::threshold(self.n), Rng::amount_share);
        coefficients[0] = 0;
        let missing_at_own = amount::sub(at_own, amount::share(0, &coefficients, self.own));
        let missing = amount::sub(at_point, amount::share(0, &coefficients, point));
        let run = amount::inverse(amount::sub(self.own, point));
        coefficients[0] = amount::mul(amount::sub(missing_at_own, missing), run);
        let secret = amount::sub(missing, amount::mul(coefficients[0], point));
        let share = |point| amount::share(secret, &coefficients, point);
        (1..=self.n).map(share).collect()
    }

    /// The words of a random polynomial of degree at most t in the byte field
    /// that has the given values at the own point and at 0.
    fn bytes(&self, rng: &mut Rng, at_own: u8, at_zero: u8) -> Vec<u8> {
        let mut coefficients = rng.bytes(reference::threshold(self.n));
        coefficients[0] = 0;
        let rest = byte::share(at_zero, &coefficients, self.own as u8);
        let missing = byte::add(at_own, rest);
        coefficients[0] = byte::mul(missing, byte::inverse(self.own as u8));
        let share = |point| byte::share(at_zero, &coefficients, point);
        (1..=self.n as u8).map(share).collect()
    }

    /// Adds a polynomial of a degree above t that vanishes at the own point, if
    /// that is marked, and at as many other marked ones as its degree allows. With
    /// one less than are marked that alters one of their words; with t + 1 the
    /// most that can be altered unnoticed by a test that looks at too few. Now and then
    /// one of their words goes out of range instead. Where no more than t + 1 are
    /// marked any words in range will do, and each but the own one is another, or now
    /// and then one that is not.
    fn bend(&self, rng: &mut Rng, record: &[u64], present: &[u8], words: &mut [u64]) {
        let t = reference::threshold(self.n) as u64;
        let mut marked: Vec<u64> = (1..=self.n)
            .filter(|&point| present[point as usize - 1] == 1)
            .collect();
        let own = marked.iter().position(|&point| point == self.own);
        let mut roots: Vec<u64> = own
            .map(|place| marked.swap_remove(place))
            .into_iter()
            .collect();
        let most = (roots.len() + marked.len()) as u64;
        if most <= t + 1 {
            for &point in &marked {
                words[point as usize - 1] = in_range(rng, record);
            }
        }
        if !marked.is_empty() && rng.once_in(4) {
            let word = &mut words[rng.pick(&marked) as usize - 1];
            *word = out_of_range(rng, record, *word);
        } else if most > t + 1 {
            let degree = rng.between(t + 1, most - 1);
            while (roots.len() as u64) < degree {
                let place = rng.place(marked.len());
                roots.push(marked.swap_remove(place));
            }
            let factor = rng.between(1, 255);
            add_polynomial(record, factor, &roots, words);
        }
    }
}

/// Adds the polynomial with this factor and these roots to the words of the points from
/// 1 on: to one byte of each, in the rounds that have two by the factor.
fn add_polynomial(record: &[u64], factor: u64, roots: &[u64], words: &mut [u64]) {
    let high = !is_of_a_verdict(record) && factor % 2 == 0;
    for (point, word) in (1..).zip(words) {
        if is_of_amounts(record) {
            let mut value = factor;
            for &root in roots {
                value = amount::mul(value, amount::sub(point, root));
            }
            *word = amount::add(*word, value);
        } else {
            let mut value = factor as u8;
            for &root in roots {
                value = byte::mul(value, byte::add(point as u8, root as u8));
            }
            *word ^= u64::from(value) << if high { 8 } else { 0 };
        }
    }
}
