//! A plain implementation of the auction's eleven calls, written from the paper
//! and, for the layout of a record, from the C header: the ordinary loops,
//! 128-bit products, one test after the other. The library is compared with it
//! call by call, and timed against it.
//!
//! The functions have the shape of the C calls. Every slice may have any
//! length and any contents; the reply is 0, or the number of the refusal, and
//! then nothing has been written.

#![forbid(unsafe_code)]

pub mod field;
pub mod pairs;
mod settlement;

use std::ops::RangeInclusive;

use field::{amount, byte};
use pairs::Pair;

const OUT_OF_RANGE: u64 = 1;
const WRONG_LENGTH: u64 = 2;
const OUT_OF_TURN: u64 = 3;
const COIN_OUT_OF_RANGE: u64 = 5;
const AMOUNT_TOO_LARGE: u64 = 6;
const NOT_MONOTONE: u64 = 7;
const SHARE_OUT_OF_RANGE: u64 = 8;
const OWN_MESSAGE_DIFFERS: u64 = 9;
const INCONSISTENT: u64 = 10;
const SUM_OUT_OF_RANGE: u64 = 11;
const VERDICT_NOT_BIT: u64 = 12;
const MALFORMED: u64 = 13;
const ALREADY_ENTERED: u64 = 14;
const TOO_FEW_PRESENT: u64 = 15;
const NOT_CLEARED: u64 = 16;
const PAGE_TOO_SHORT: u64 = 17;

/// The words of a roll, with a bit for each bidder's number.
pub const ROLL: usize = 16;
/// The words of the kept pair shares: the top and the bottom of up to 16 pairs.
pub const PAIRS: usize = 32;
/// The words of a party's record: ten numbers, the roll, six numbers, and the pairs.
pub const RECORD: usize = 10 + ROLL + 6 + PAIRS;
/// The bits of a mask that are shared one by one.
pub const MASK_BITS: usize = 33;
/// The most words that a party says in a round.
pub const MOST_WORDS: usize = 32;
/// The most bids that are held, and the highest bidder number.
pub const MAX_BIDS: u64 = 1_000;
/// The most listed prices.
pub const MAX_PRICES: u64 = 1_024;
/// The largest amount, in tenths of an hour.
pub const MAX_AMOUNT: u64 = 4_194_303;
/// Masks are below this.
pub const MASK_LIMIT: u64 = 1 << 58;
/// The opened sum of round 1 is at least this ..
pub const SUM_LOW: u64 = (1 << 58) + 2;
/// .. and below this.
pub const SUM_LIMIT: u64 = (1 << 59) + (1 << 33);
/// The last round of a probe whose carries are made one after the other.
pub const ROUNDS_33: u64 = 33;
/// The last round of a probe whose carry is looked up in a list that is halved.
pub const ROUNDS_7: u64 = 7;
/// The two ways to a verdict, by their last rounds.
pub const WAYS: [u64; 2] = [ROUNDS_33, ROUNDS_7];
/// The round in which total demand at the price is opened.
pub const DEMAND_ROUND: u64 = 34;
/// The round in which total supply at the price is opened.
pub const SUPPLY_ROUND: u64 = 35;
/// The round at which a session that has a price is over.
pub const NO_MORE_ROUNDS: u64 = 36;
/// The opened totals are below this.
pub const TOTAL_LIMIT: u64 = 1 << 32;
/// The highest price of an hour, in pence; the lowest is 1.
pub const HIGHEST_PRICE: u64 = 1_000_000;
/// The amounts of a settlement: what each bidder wanted and got, buying and selling.
pub const SETTLEMENT: usize = 4 * MAX_BIDS as usize;
/// The bytes of a line of a settlement page, with its newline.
pub const LINE: usize = 60 + 1;
/// The search for the highest index with demand at least supply.
pub const FIRST_SEARCH: u64 = 1;
/// The search for the lowest index, up to that one, with supply at least demand.
pub const SECOND_SEARCH: u64 = 2;

/// The number of coefficients of a sharing among `n` parties.
pub fn threshold(n: u64) -> usize {
    (n.saturating_sub(1) / 2) as usize
}

/// The base-2 logarithm of `k` + 1, rounded up.
pub fn probe_limit(k: u64) -> u64 {
    let mut limit = 0;
    while limit < 64 && 1 << limit <= k {
        limit += 1;
    }
    limit
}

/// The sheets that are lent for `k` prices: enough for both searches.
pub fn sheet_count(k: u64) -> u64 {
    2 * probe_limit(k)
}

/// The products of shared bytes in a probe of this way.
fn products(last: u64) -> usize {
    match last {
        ROUNDS_7 => 62,
        _ => 31,
    }
}

/// The words of one probe's preprocessing.
pub fn sheet_len(last: u64) -> usize {
    1 + MASK_BITS + 3 * products(last)
}

/// The bytes that are drawn for one probe among `n` parties: the coefficients of each
/// shared byte, and two factors for each product.
pub fn drawn_len(n: u64, last: u64) -> usize {
    threshold(n) * (MASK_BITS + 3 * products(last)) + 2 * products(last)
}

/// The words that a party says in a round.
pub fn message_len(last: u64, round: u64) -> usize {
    match (last, round) {
        // One for each pair of the list that is halved.
        (ROUNDS_7, 2..=6) => 1 << (ROUNDS_7 - round),
        _ => 1,
    }
}

/// Opens a session: zeroes the totals and writes the record.
pub fn open(n: u64, own: u64, k: u64, last: u64, totals: &mut [u64], record: &mut [u64]) -> u64 {
    reply(try_open(n, own, k, last, totals, record))
}

/// Writes party `own`'s shares of a bid.
pub fn split(n: u64, own: u64, k: u64, table: &[u64], coins: &[u64], shares: &mut [u64]) -> u64 {
    reply(try_split(n, own, k, table, coins, shares))
}

/// Writes party `own`'s share of one entry of a bid.
pub fn split_entry(
    n: u64,
    own: u64,
    k: u64,
    entry: u64,
    table: &[u64],
    coins: &[u64],
    shares: &mut [u64],
) -> u64 {
    reply(try_split_entry(n, own, k, entry, table, coins, shares))
}

/// Writes party `own`'s preprocessing for one probe.
pub fn deal(n: u64, own: u64, last: u64, words: &[u64], bytes: &[u8], sheet: &mut [u64]) -> u64 {
    reply(try_deal(n, own, last, words, bytes, sheet))
}

/// Adds a bid's shares to the totals and marks its bidder.
pub fn add(record: &mut [u64], totals: &mut [u64], bidder: u64, shares: &[u64]) -> u64 {
    reply(try_add(record, totals, bidder, shares))
}

/// Writes the words that the party says in the current round.
pub fn say(record: &[u64], totals: &[u64], sheets: &[u64], messages: &mut [u64]) -> u64 {
    reply(try_say(record, totals, sheets, messages))
}

/// Takes the messages of those who were present in the current round and steps
/// the record.
pub fn hear(
    record: &mut [u64],
    totals: &[u64],
    sheets: &[u64],
    messages: &[u64],
    present: &[u8],
) -> u64 {
    reply(try_hear(record, totals, sheets, messages, present))
}

/// Writes the index of the price and the number of probes made.
pub fn answer(record: &[u64], index: &mut u64, probes: &mut u64) -> u64 {
    reply(try_answer(record, index, probes))
}

/// Writes what a buyer of this amount gets at the price, in tenths of an hour, and the
/// remainder.
pub fn fill(record: &[u64], amount: u64, tenths: &mut u64, remainder: &mut u64) -> u64 {
    reply(try_fill(record, amount, tenths, remainder))
}

/// Writes the page of these amounts at this price, and how many bytes it has.
pub fn settlement_write(price: u64, amounts: &[u64], page: &mut [u8], written: &mut u64) -> u64 {
    reply(settlement::write(price, amounts, page, written))
}

/// Writes the amounts whose page at this price is the one lent.
pub fn settlement_read(price: u64, page: &[u8], amounts: &mut [u64]) -> u64 {
    reply(settlement::read(price, page, amounts))
}

fn reply(outcome: Result<(), u64>) -> u64 {
    match outcome {
        Ok(()) => 0,
        Err(number) => number,
    }
}

fn need(holds: bool, refusal: u64) -> Result<(), u64> {
    if holds {
        Ok(())
    } else {
        Err(refusal)
    }
}

fn party_in_range(n: u64, own: u64) -> bool {
    (3..=9).contains(&n) && (1..=n).contains(&own)
}

fn prices_in_range(k: u64) -> bool {
    (1..=MAX_PRICES).contains(&k)
}

fn is_way(last: u64) -> bool {
    WAYS.contains(&last)
}

fn try_open(
    n: u64,
    own: u64,
    k: u64,
    last: u64,
    totals: &mut [u64],
    record: &mut [u64],
) -> Result<(), u64> {
    need(party_in_range(n, own) && prices_in_range(k), OUT_OF_RANGE)?;
    need(is_way(last), OUT_OF_RANGE)?;
    need(
        totals.len() == 2 * k as usize && record.len() == RECORD,
        WRONG_LENGTH,
    )?;
    totals.fill(0);
    let opened = Record {
        n,
        own,
        k,
        bids: 0,
        lo: 0,
        hi: k + 1,
        probes: 0,
        round: 1,
        sum: 0,
        carry: 0,
        roll: [0; ROLL],
        search: FIRST_SEARCH,
        first: 0,
        first_probes: 0,
        demand: 0,
        supply: 0,
        last,
        pairs: [0; PAIRS],
    };
    opened.write(record);
    Ok(())
}

fn try_split(
    n: u64,
    own: u64,
    k: u64,
    table: &[u64],
    coins: &[u64],
    shares: &mut [u64],
) -> Result<(), u64> {
    need(party_in_range(n, own) && prices_in_range(k), OUT_OF_RANGE)?;
    let length = 2 * k as usize;
    let t = threshold(n);
    need(
        table.len() == length && coins.len() == length * t && shares.len() == length,
        WRONG_LENGTH,
    )?;
    judge_bid(k as usize, table, coins)?;
    let entries = table.iter().zip(coins.chunks_exact(t));
    for (share, (&entry, coefficients)) in shares.iter_mut().zip(entries) {
        *share = amount::share(entry, coefficients, own);
    }
    Ok(())
}

fn try_split_entry(
    n: u64,
    own: u64,
    k: u64,
    entry: u64,
    table: &[u64],
    coins: &[u64],
    shares: &mut [u64],
) -> Result<(), u64> {
    need(party_in_range(n, own) && prices_in_range(k), OUT_OF_RANGE)?;
    need((1..=2 * k).contains(&entry), OUT_OF_RANGE)?;
    let length = 2 * k as usize;
    need(
        table.len() == length && coins.len() == threshold(n) && shares.len() == length,
        WRONG_LENGTH,
    )?;
    judge_bid(k as usize, table, coins)?;
    let place = entry as usize - 1;
    shares[place] = amount::share(table[place], coins, own);
    Ok(())
}

/// Judges what the coins and a table of so many prices hold.
fn judge_bid(prices: usize, table: &[u64], coins: &[u64]) -> Result<(), u64> {
    need(
        coins.iter().all(|&coin| coin < amount::P),
        COIN_OUT_OF_RANGE,
    )?;
    need(
        table.iter().all(|&entry| entry <= MAX_AMOUNT),
        AMOUNT_TOO_LARGE,
    )?;
    let (demand, supply) = table.split_at(prices);
    need(
        demand.windows(2).all(|pair| pair[0] >= pair[1])
            && supply.windows(2).all(|pair| pair[0] <= pair[1]),
        NOT_MONOTONE,
    )
}

fn try_deal(
    n: u64,
    own: u64,
    last: u64,
    words: &[u64],
    bytes: &[u8],
    sheet: &mut [u64],
) -> Result<(), u64> {
    need(party_in_range(n, own) && is_way(last), OUT_OF_RANGE)?;
    let t = threshold(n);
    need(
        words.len() == 1 + t && bytes.len() == drawn_len(n, last) && sheet.len() == sheet_len(last),
        WRONG_LENGTH,
    )?;
    let mask = words[0];
    need(
        mask < MASK_LIMIT && words[1..].iter().all(|&word| word < amount::P),
        COIN_OUT_OF_RANGE,
    )?;

    let point = own as u8;
    let mut drawn = Drawn { bytes };
    sheet[0] = amount::share(mask, &words[1..], own);
    for i in 1..=33_u64 {
        sheet[i as usize] = byte::share(bit(mask, i), drawn.take(t), point).into();
    }
    for triple in sheet[1 + MASK_BITS..].chunks_exact_mut(3) {
        let alpha = drawn.take(1)[0];
        let beta = drawn.take(1)[0];
        triple[0] = byte::share(alpha, drawn.take(t), point).into();
        triple[1] = byte::share(beta, drawn.take(t), point).into();
        triple[2] = byte::share(byte::mul(alpha, beta), drawn.take(t), point).into();
    }
    Ok(())
}

/// The drawn bytes that are still unused.
struct Drawn<'a> {
    bytes: &'a [u8],
}

impl<'a> Drawn<'a> {
    fn take(&mut self, count: usize) -> &'a [u8] {
        let (taken, rest) = self.bytes.split_at(count);
        self.bytes = rest;
        taken
    }
}

fn try_add(record: &mut [u64], totals: &mut [u64], bidder: u64, shares: &[u64]) -> Result<(), u64> {
    need((1..=MAX_BIDS).contains(&bidder), OUT_OF_RANGE)?;
    let mut party = Record::read(record)?;
    let length = 2 * party.k as usize;
    need(
        totals.len() == length && shares.len() == length,
        WRONG_LENGTH,
    )?;
    need(party.probes == 0 && party.round == 1, OUT_OF_TURN)?;
    need(!party.has_bid(bidder), ALREADY_ENTERED)?;
    need(
        totals.iter().all(|&word| word < amount::P) && shares.iter().all(|&word| word < amount::P),
        SHARE_OUT_OF_RANGE,
    )?;
    for (total, share) in totals.iter_mut().zip(shares) {
        *total = amount::add(*total, *share);
    }
    party.enter(bidder);
    party.write(record);
    Ok(())
}

fn try_say(
    record: &[u64],
    totals: &[u64],
    sheets: &[u64],
    messages: &mut [u64],
) -> Result<(), u64> {
    let party = Record::read(record)?;
    need(
        party.lengths_fit(totals, sheets) && messages.len() == party.width(),
        WRONG_LENGTH,
    )?;
    need(!party.is_over(), OUT_OF_TURN)?;
    need(party.totals_in_range(totals), SHARE_OUT_OF_RANGE)?;
    match party.total_share(totals) {
        Some(share) => messages[0] = share,
        None => party.say(totals, &party.current_sheet(sheets)?, messages),
    }
    Ok(())
}

fn try_hear(
    record: &mut [u64],
    totals: &[u64],
    sheets: &[u64],
    messages: &[u64],
    present: &[u8],
) -> Result<(), u64> {
    need(present.iter().all(|&mark| mark <= 1), OUT_OF_RANGE)?;
    let mut party = Record::read(record)?;
    let (n, width) = (party.n as usize, party.width());
    need(
        party.lengths_fit(totals, sheets) && messages.len() == n * width && present.len() == n,
        WRONG_LENGTH,
    )?;
    need(!party.is_over(), OUT_OF_TURN)?;
    let heard = Heard::of(messages, width, present);
    need(heard.count > threshold(party.n), TOO_FEW_PRESENT)?;
    let own = party.own as usize - 1;
    let own_message = &messages[own * width..(own + 1) * width];
    // The totals are used in the own message alone, and that only where the
    // party was present.
    let here = present[own] == 1;
    need(!here || party.totals_in_range(totals), SHARE_OUT_OF_RANGE)?;
    if let Some(share) = party.total_share(totals) {
        need(!here || own_message == [share], OWN_MESSAGE_DIFFERS)?;
        party.hear_total(&heard)?;
    } else {
        let sheet = party.current_sheet(sheets)?;
        if here {
            let mut said = [0; MOST_WORDS];
            party.say(totals, &sheet, &mut said[..width]);
            need(own_message == &said[..width], OWN_MESSAGE_DIFFERS)?;
        }
        party.hear_probe(&sheet, &heard)?;
    }
    party.write(record);
    Ok(())
}

fn try_answer(record: &[u64], index: &mut u64, probes: &mut u64) -> Result<(), u64> {
    let party = Record::read(record)?;
    need(party.is_over(), OUT_OF_TURN)?;
    *index = party.price();
    *probes = party.probes;
    Ok(())
}

fn try_fill(record: &[u64], amount: u64, tenths: &mut u64, remainder: &mut u64) -> Result<(), u64> {
    let party = Record::read(record)?;
    need(party.has_cleared() && party.is_over(), NOT_CLEARED)?;
    need(amount <= MAX_AMOUNT, AMOUNT_TOO_LARGE)?;
    // Without demand nobody buys.
    let (product, demand) = (amount * party.supply, party.demand);
    *tenths = product.checked_div(demand).unwrap_or(0);
    *remainder = product.checked_rem(demand).unwrap_or(0);
    Ok(())
}

/// The number of marks on a roll.
fn marks(roll: &[u64; ROLL]) -> u64 {
    roll.iter().map(|word| u64::from(word.count_ones())).sum()
}

/// Whether a roll has no mark below bidder 1 and none past bidder 1,000.
fn marks_bidders_alone(roll: &[u64; ROLL]) -> bool {
    roll[0] & 1 == 0 && roll[ROLL - 1] >> (MAX_BIDS % 64 + 1) == 0
}

/// Whether these can be total demand and total supply at the price.
fn are_totals(demand: u64, supply: u64) -> bool {
    demand < TOTAL_LIMIT && supply < TOTAL_LIMIT && supply <= demand
}

/// The words of a record from a place on.
fn part<const LENGTH: usize>(words: &[u64; RECORD], first: usize) -> [u64; LENGTH] {
    std::array::from_fn(|place| words[first + place])
}

/// Bit `i` of a number, bit 1 being the lowest.
fn bit(number: u64, i: u64) -> u8 {
    ((number >> (i - 1)) & 1) as u8
}

/// A party's record.
struct Record {
    n: u64,
    own: u64,
    k: u64,
    bids: u64,
    lo: u64,
    hi: u64,
    probes: u64,
    round: u64,
    sum: u64,
    carry: u64,
    roll: [u64; ROLL],
    /// Which search is on.
    search: u64,
    /// The index that the first search gave, and its probes; 0 until it ends.
    first: u64,
    first_probes: u64,
    /// Total demand and total supply at the price, once they are opened.
    demand: u64,
    supply: u64,
    /// The last round of a probe.
    last: u64,
    /// The shares of the pairs that the last level came to, top before bottom, and
    /// zeros after them.
    pairs: [u64; PAIRS],
}

/// The preprocessing of the current probe, judged.
struct Sheet<'a> {
    words: &'a [u64],
}

impl Sheet<'_> {
    /// The share of the mask.
    fn mask(&self) -> u64 {
        self.words[0]
    }

    /// The share of bit `i` of the mask.
    fn bit(&self, i: u64) -> u8 {
        self.words[i as usize] as u8
    }

    /// The share of bit `i` of the mask plus that of the sum.
    fn masked_bit(&self, sum: u64, i: u64) -> u8 {
        byte::add(self.bit(i), bit(sum, i))
    }

    /// The share of the carry out of bit 1 of the mask and the sum.
    fn first_carry(&self, sum: u64) -> u8 {
        let sum_bit = bit(sum, 1);
        byte::add(byte::mul(self.masked_bit(sum, 1), sum_bit), sum_bit)
    }

    /// The shares of alpha, beta and gamma for a product, counted from 0.
    fn triple(&self, product: usize) -> [u8; 3] {
        let first = 1 + MASK_BITS + 3 * product;
        [0, 1, 2].map(|place| self.words[first + place] as u8)
    }
}

/// The messages of all, `width` words of each, and the points of those who were
/// present. What stands in the places of the others is not looked at.
struct Heard<'a> {
    messages: &'a [u64],
    width: usize,
    count: usize,
    points: [usize; 9],
}

impl Heard<'_> {
    /// Of at most nine messages and as many marks.
    fn of<'a>(messages: &'a [u64], width: usize, present: &[u8]) -> Heard<'a> {
        let mut heard = Heard {
            messages,
            width,
            count: 0,
            points: [0; 9],
        };
        for (place, &mark) in present.iter().enumerate() {
            if mark == 1 {
                heard.points[heard.count] = place + 1;
                heard.count += 1;
            }
        }
        heard
    }

    fn points(&self) -> &[usize] {
        &self.points[..self.count]
    }

    /// The words in this place of the messages, where none is above `most`; as many
    /// as there are points.
    fn words(&self, place: usize, most: u64) -> Option<[u64; 9]> {
        let mut words = [0; 9];
        for (word, point) in words.iter_mut().zip(self.points()) {
            *word = self.messages[(point - 1) * self.width + place];
        }
        words.iter().all(|&word| word <= most).then_some(words)
    }

    /// Opens the amount of which the words are shares.
    fn open_amount(&self, t: usize) -> Option<u64> {
        let words = self.words(0, amount::P - 1)?;
        amount::open(self.points(), &words[..self.count], t)
    }

    /// Opens one byte of each word, the lowest where `shift` is 0.
    fn open_bytes(&self, words: &[u64; 9], shift: u32, t: usize) -> Option<u8> {
        let bytes = words.map(|word| (word >> shift) as u8);
        byte::open(self.points(), &bytes[..self.count], t)
    }

    /// Opens D and E of the product in this place.
    fn open_product(&self, place: usize, t: usize) -> Option<[u8; 2]> {
        let words = self.words(place, 65_535)?;
        let d = self.open_bytes(&words, 0, t)?;
        let e = self.open_bytes(&words, 8, t)?;
        Some([d, e])
    }
}

impl Record {
    /// The record in its words, judged.
    fn read(words: &[u64]) -> Result<Record, u64> {
        let words: &[u64; RECORD] = words.try_into().map_err(|_| WRONG_LENGTH)?;
        let [n, own, k, bids, lo, hi, probes, round, sum, carry] = part(words, 0);
        let roll = part(words, 10);
        let [search, first, first_probes, demand, supply, last] = part(words, 10 + ROLL);
        let pairs = part(words, RECORD - PAIRS);
        need(party_in_range(n, own) && prices_in_range(k), OUT_OF_RANGE)?;
        need(bids == marks(&roll), OUT_OF_RANGE)?;
        need(marks_bidders_alone(&roll), OUT_OF_RANGE)?;
        need(sum < SUM_LIMIT, OUT_OF_RANGE)?;
        need(carry <= 255, OUT_OF_RANGE)?;
        need(are_totals(demand, supply), OUT_OF_RANGE)?;
        need(is_way(last), OUT_OF_RANGE)?;
        need(pairs.iter().all(|&share| share <= 255), OUT_OF_RANGE)?;
        let party = Record {
            n,
            own,
            k,
            bids,
            lo,
            hi,
            probes,
            round,
            sum,
            carry,
            roll,
            search,
            first,
            first_probes,
            demand,
            supply,
            last,
            pairs,
        };
        need(party.search_in_range(), OUT_OF_RANGE)?;
        need(party.rounds().contains(&round), OUT_OF_RANGE)?;
        Ok(party)
    }

    fn write(&self, words: &mut [u64]) {
        let (numbers, rest) = words.split_at_mut(10);
        let (roll, rest) = rest.split_at_mut(ROLL);
        let (others, pairs) = rest.split_at_mut(6);
        numbers.copy_from_slice(&[
            self.n,
            self.own,
            self.k,
            self.bids,
            self.lo,
            self.hi,
            self.probes,
            self.round,
            self.sum,
            self.carry,
        ]);
        roll.copy_from_slice(&self.roll);
        others.copy_from_slice(&[
            self.search,
            self.first,
            self.first_probes,
            self.demand,
            self.supply,
            self.last,
        ]);
        pairs.copy_from_slice(&self.pairs);
    }

    /// The rounds that a record may stand at: those of a probe or, once the
    /// searches have ended with a price, those of the totals and the one after.
    fn rounds(&self) -> RangeInclusive<u64> {
        if self.has_cleared() {
            DEMAND_ROUND..=NO_MORE_ROUNDS
        } else {
            1..=self.last
        }
    }

    /// Whether the numbers of the search that is on are within their ranges. A
    /// first search that has ended is not: the hearing that ended it began the
    /// second.
    fn search_in_range(&self) -> bool {
        match self.search {
            FIRST_SEARCH => {
                self.first == 0
                    && self.first_probes == 0
                    && self.bracket_in_range(self.k, self.probes)
                    && !self.has_ended()
            }
            SECOND_SEARCH => {
                self.first <= self.k
                    && self.first_probes <= probe_limit(self.k)
                    && self.first_probes <= self.probes
                    && self.bracket_in_range(self.first, self.probes - self.first_probes)
            }
            _ => false,
        }
    }

    /// Whether lo and hi are those of a search over the indices 1 to `last` that
    /// has made so many probes.
    fn bracket_in_range(&self, last: u64, probes: u64) -> bool {
        self.lo < self.hi
            && self.hi <= last + 1
            && probes <= probe_limit(last)
            && (probes < probe_limit(last) || self.has_ended())
    }

    /// Whether the search that is on has nothing left to probe.
    fn has_ended(&self) -> bool {
        self.hi - self.lo == 1
    }

    /// Whether a bidder from 1 to 1,000 is on the roll.
    fn has_bid(&self, bidder: u64) -> bool {
        self.roll[bidder as usize / 64] >> (bidder % 64) & 1 == 1
    }

    /// Marks a bidder from 1 to 1,000 who is not on the roll.
    fn enter(&mut self, bidder: u64) {
        self.roll[bidder as usize / 64] |= 1 << (bidder % 64);
        self.bids += 1;
    }

    /// Whether both searches have ended.
    fn has_searched(&self) -> bool {
        self.search == SECOND_SEARCH && self.has_ended()
    }

    /// Whether the searches have ended with a price.
    fn has_cleared(&self) -> bool {
        self.has_searched() && self.price() != 0
    }

    /// Whether nothing is left to say: without a price there are no totals.
    fn is_over(&self) -> bool {
        if self.has_cleared() {
            self.round == NO_MORE_ROUNDS
        } else {
            self.has_searched()
        }
    }

    /// The index of the price, when the searches have ended: the middle of those
    /// at which demand equals supply or, where there are none, what the first
    /// search gave.
    fn price(&self) -> u64 {
        let lowest = self.hi;
        if lowest <= self.first {
            (self.first + lowest) / 2
        } else {
            self.first
        }
    }

    /// The probed index.
    fn index(&self) -> u64 {
        (self.lo + self.hi) / 2
    }

    fn lengths_fit(&self, totals: &[u64], sheets: &[u64]) -> bool {
        totals.len() == 2 * self.k as usize
            && sheets.len() == sheet_len(self.last) * sheet_count(self.k) as usize
    }

    /// The words that a party says in this round, or would if it were not over.
    fn width(&self) -> usize {
        message_len(self.last, self.round)
    }

    /// This party's shares of total demand and total supply at an index.
    fn totals_at(&self, index: u64, totals: &[u64]) -> (u64, u64) {
        let place = index as usize - 1;
        (totals[place], totals[self.k as usize + place])
    }

    /// The share that is this party's message in the two rounds of the totals,
    /// and nothing in the rounds of a probe.
    fn total_share(&self, totals: &[u64]) -> Option<u64> {
        match self.round {
            DEMAND_ROUND => Some(self.totals_at(self.price(), totals).0),
            SUPPLY_ROUND => Some(self.totals_at(self.price(), totals).1),
            _ => None,
        }
    }

    /// Whether the totals that the message of this round uses are shares. Of a
    /// probe only round 1 uses any.
    fn totals_in_range(&self, totals: &[u64]) -> bool {
        if let Some(share) = self.total_share(totals) {
            return share < amount::P;
        }
        if self.round != 1 {
            return true;
        }
        let (demand, supply) = self.totals_at(self.index(), totals);
        demand < amount::P && supply < amount::P
    }

    /// The preprocessing of the current probe, where every word of it is a share.
    fn current_sheet<'a>(&self, sheets: &'a [u64]) -> Result<Sheet<'a>, u64> {
        let length = sheet_len(self.last);
        let start = length * self.probes as usize;
        let words = &sheets[start..start + length];
        need(
            words[0] < amount::P && words[1..].iter().all(|&word| word <= 255),
            SHARE_OUT_OF_RANGE,
        )?;
        Ok(Sheet { words })
    }

    /// Writes what this party says in the current round of a probe: the share of the
    /// masked sum, that of the verdict, or d and e of each product.
    fn say(&self, totals: &[u64], sheet: &Sheet, message: &mut [u64]) {
        if self.round == 1 {
            message[0] = self.masked_share(totals, sheet);
        } else if self.round == self.last {
            let verdict = byte::add(sheet.masked_bit(self.sum, 33), self.last_carry());
            message[0] = verdict.into();
        } else {
            let (factors, triples) = (self.factors(sheet), self.used_triples()..);
            for ((word, [u, v]), triple) in message.iter_mut().zip(factors).zip(triples) {
                let [alpha, beta, _] = sheet.triple(triple);
                let d = byte::add(u, alpha);
                let e = byte::add(v, beta);
                *word = u64::from(d) + 256 * u64::from(e);
            }
        }
    }

    /// The share of 2^59 + 2^32 - mask + demand - supply, with the sides exchanged in
    /// the second search.
    fn masked_share(&self, totals: &[u64], sheet: &Sheet) -> u64 {
        let (demand, supply) = self.totals_at(self.index(), totals);
        let (plus, minus) = match self.search {
            FIRST_SEARCH => (demand, supply),
            _ => (supply, demand),
        };
        let constant = (1 << 59) + (1 << 32);
        let masked = amount::sub(constant, sheet.mask());
        amount::sub(amount::add(masked, plus), minus)
    }

    /// The share of the carry out of bit 32, before the last round.
    fn last_carry(&self) -> u8 {
        match self.last {
            ROUNDS_7 => self.pairs[1] as u8,
            _ => self.carry as u8,
        }
    }

    /// The shares of the factors of each product of this round. Where there are
    /// fewer than 32, zeros follow.
    fn factors(&self, sheet: &Sheet) -> [[u8; 2]; MOST_WORDS] {
        let mut factors = [[0; 2]; MOST_WORDS];
        if self.last == ROUNDS_7 {
            let pairs = self.list(sheet);
            let neighbours = pairs[..self.width()].chunks_exact(2);
            for (two, pair) in factors.chunks_exact_mut(2).zip(neighbours) {
                two.copy_from_slice(&pair[0].factors(pair[1]));
            }
        } else {
            let v = byte::add(self.carry as u8, bit(self.sum, self.round));
            factors[0] = [sheet.masked_bit(self.sum, self.round), v];
        }
        factors
    }

    /// The triples that the rounds of this probe before the current one have used: one
    /// each or, level by level, 32, 16, 8 and 4.
    fn used_triples(&self) -> usize {
        match self.last {
            ROUNDS_7 => 64 - 2 * self.width(),
            _ => self.round as usize - 2,
        }
    }

    /// The shares of the list of pairs that is halved in this round, 32 in round 2.
    /// Pair 0, which is (0, 0), is merged into the first of them.
    fn list(&self, sheet: &Sheet) -> [Pair; MOST_WORDS] {
        let mut pairs = [Pair { top: 0, bottom: 0 }; MOST_WORDS];
        if self.round == 2 {
            for (pair, i) in pairs.iter_mut().zip(1..) {
                pair.top = sheet.masked_bit(self.sum, i);
                pair.bottom = bit(self.sum, i);
            }
            pairs[0].top = 0;
            pairs[0].bottom = sheet.first_carry(self.sum);
        } else {
            for (pair, shares) in pairs.iter_mut().zip(self.pairs.chunks_exact(2)) {
                pair.top = shares[0] as u8;
                pair.bottom = shares[1] as u8;
            }
        }
        pairs
    }

    /// The rounds of a probe.
    fn hear_probe(&mut self, sheet: &Sheet, heard: &Heard) -> Result<(), u64> {
        match (self.round, self.last) {
            (1, _) => self.hear_sum(sheet, heard),
            (round, last) if round == last => self.hear_verdict(heard),
            (_, ROUNDS_7) => self.hear_level(sheet, heard),
            _ => self.hear_carry(sheet, heard),
        }
    }

    /// Round 1: opens the masked sum and, one by one, starts the carries.
    fn hear_sum(&mut self, sheet: &Sheet, heard: &Heard) -> Result<(), u64> {
        let sum = self.open_amount(heard)?;
        need((SUM_LOW..SUM_LIMIT).contains(&sum), SUM_OUT_OF_RANGE)?;
        self.sum = sum;
        if self.last == ROUNDS_33 {
            self.carry = sheet.first_carry(sum).into();
        }
        self.round = 2;
        Ok(())
    }

    /// The share of the product in this place of the messages.
    fn product(&self, sheet: &Sheet, heard: &Heard, place: usize) -> Result<u8, u64> {
        let opened = heard.open_product(place, threshold(self.n));
        let [d, e] = opened.ok_or(INCONSISTENT)?;
        let [alpha, beta, gamma] = sheet.triple(self.used_triples() + place);
        let mut product = gamma;
        product = byte::add(product, byte::mul(d, beta));
        product = byte::add(product, byte::mul(e, alpha));
        product = byte::add(product, byte::mul(d, e));
        Ok(product)
    }

    /// Rounds 2 to 32 of 33: steps the carry.
    fn hear_carry(&mut self, sheet: &Sheet, heard: &Heard) -> Result<(), u64> {
        let product = self.product(sheet, heard, 0)?;
        self.carry = byte::add(product, bit(self.sum, self.round)).into();
        self.round += 1;
        Ok(())
    }

    /// Rounds 2 to 6 of 7: merges each two neighbours of the list.
    fn hear_level(&mut self, sheet: &Sheet, heard: &Heard) -> Result<(), u64> {
        let list = self.list(sheet);
        let mut pairs = [0; PAIRS];
        for place in (0..self.width()).step_by(2) {
            let top = self.product(sheet, heard, place)?;
            let bottom = self.product(sheet, heard, place + 1)?;
            let merged = Pair::of([top, bottom], list[place + 1]);
            pairs[place] = merged.top.into();
            pairs[place + 1] = merged.bottom.into();
        }
        self.pairs = pairs;
        self.round += 1;
        Ok(())
    }

    /// The last round of a probe: opens the verdict and steps the search.
    fn hear_verdict(&mut self, heard: &Heard) -> Result<(), u64> {
        let words = heard.words(0, 255).ok_or(INCONSISTENT)?;
        let verdict = heard.open_bytes(&words, 0, threshold(self.n));
        match (self.search, verdict.ok_or(INCONSISTENT)?) {
            (FIRST_SEARCH, 1) | (SECOND_SEARCH, 0) => self.lo = self.index(),
            (FIRST_SEARCH, 0) | (SECOND_SEARCH, 1) => self.hi = self.index(),
            _ => return Err(VERDICT_NOT_BIT),
        }
        self.probes += 1;
        self.round = 1;
        self.sum = 0;
        self.carry = 0;
        self.pairs = [0; PAIRS];
        if self.search == FIRST_SEARCH && self.has_ended() {
            self.begin_second();
        }
        if self.has_cleared() {
            self.round = DEMAND_ROUND;
        }
        Ok(())
    }

    /// Rounds 34 and 35: opens total demand and then total supply.
    fn hear_total(&mut self, heard: &Heard) -> Result<(), u64> {
        let total = self.open_amount(heard)?;
        match self.round {
            DEMAND_ROUND => self.demand = total,
            _ => self.supply = total,
        }
        need(are_totals(self.demand, self.supply), SUM_OUT_OF_RANGE)?;
        self.round += 1;
        Ok(())
    }

    /// The amount of which the words are shares.
    fn open_amount(&self, heard: &Heard) -> Result<u64, u64> {
        let opened = heard.open_amount(threshold(self.n));
        opened.ok_or(INCONSISTENT)
    }

    /// Keeps what the first search came to and begins the second.
    fn begin_second(&mut self) {
        self.search = SECOND_SEARCH;
        self.first = self.lo;
        self.first_probes = self.probes;
        self.lo = 0;
        self.hi = self.first + 1;
    }
}
