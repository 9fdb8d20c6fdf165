//! Damage to a call: a number, a length, a field of the record, its roll, a word
//! or a mark of who was present is changed, mostly to a value at or next to a
//! limit, or a record or a settlement page is given one fault, or a page loses its
//! order or some bytes. Some damage leaves the call acceptable; that is for the
//! comparison to find out.

use clockivy::words::place::{
    BIDS, CARRY, DEMAND, FIRST, FIRST_PROBES, HI, K, LAST, LO, N, OWN, PAIRS, PROBES, ROLL, ROUND,
    SEARCH, SUM, SUPPLY,
};
use clockivy::{LINE_LEN, PAIRS_LEN, RECORD_LEN};
use clockivy_reference::field::amount::P;
use clockivy_reference::{
    probe_limit, sheet_len, DEMAND_ROUND, FIRST_SEARCH, HIGHEST_PRICE, MASK_LIMIT, MAX_AMOUNT,
    MAX_BIDS, MAX_PRICES, NO_MORE_ROUNDS, ROUNDS_33, ROUNDS_7, SECOND_SEARCH, SUM_LIMIT,
    TOTAL_LIMIT, WAYS,
};

use crate::call::{Call, Kind, Lent};
use crate::page::{reply, FAULTS};
use crate::record::{has_bid, index, mark, marks, unmark, width, NOBODY};
use crate::rng::Rng;
use crate::soundness::{CLAUSES, NO_WAYS};

/// Values at which one test or another turns.
const EDGES: [u64; 24] = [
    0,
    1,
    2,
    127,
    128,
    255,
    256,
    257,
    65_535,
    65_536,
    MAX_AMOUNT,
    MAX_AMOUNT + 1,
    (1 << 32) - 1,
    1 << 32,
    MASK_LIMIT - 1,
    MASK_LIMIT,
    P - 1,
    P,
    P + 1,
    1 << 62,
    (1 << 63) - 1,
    1 << 63,
    u64::MAX - 1,
    u64::MAX,
];

/// Damages a call in one place.
pub fn damage(rng: &mut Rng, call: &mut Call) {
    match rng.below(8) {
        0 if call.kind == Kind::SplitEntry => entry(rng, call),
        0 if call.kind.has_last() => last(rng, call),
        0..=1 if call.kind.numbers() > 0 => number(rng, call),
        0 if call.kind == Kind::Add => bidder(rng, call),
        0 if call.kind == Kind::Fill => amount(rng, call),
        0 if call.kind.has_page() => price(rng, call),
        1 | 2 | 5..=7 if call.kind == Kind::SettlementRead => page(rng, call),
        5..=7 if call.kind == Kind::SettlementWrite => pair(rng, call),
        0..=2 if call.kind.record().is_some() => record(rng, call),
        3..=4 => length(rng, call),
        5 if call.kind == Kind::Hear => swap(rng, call),
        6 if call.kind == Kind::Hear => marks_of_presence(rng, call),
        _ => word(rng, call),
    }
}

/// Changes n, own or k.
fn number(rng: &mut Rng, call: &mut Call) {
    let place = rng.place(call.kind.numbers());
    let [n, _, k] = call.numbers;
    let near = match place {
        0 => [0, 2, 3, 9, 10],
        1 => [0, 1, n.wrapping_sub(1), n, n.wrapping_add(1)],
        _ => [0, 1, k.wrapping_add(1), MAX_PRICES, MAX_PRICES + 1],
    };
    call.numbers[place] = value(rng, call.numbers[place], &near);
}

/// Changes the last round of a probe.
fn last(rng: &mut Rng, call: &mut Call) {
    let other = rng.pick(&NO_WAYS);
    call.last = value(rng, call.last, &[ROUNDS_33, ROUNDS_7, other]);
}

/// Changes the entry.
fn entry(rng: &mut Rng, call: &mut Call) {
    let [_, _, k] = call.numbers;
    let last = k.wrapping_mul(2);
    let near = [0, 1, k, last, last.wrapping_add(1)];
    call.entry = value(rng, call.entry, &near);
}

/// Changes the bidder.
fn bidder(rng: &mut Rng, call: &mut Call) {
    let near = [0, 1, MAX_BIDS, MAX_BIDS + 1, rng.between(1, MAX_BIDS)];
    call.bidder = value(rng, call.bidder, &near);
}

/// Changes the amount.
fn amount(rng: &mut Rng, call: &mut Call) {
    let near = [0, 1, MAX_AMOUNT, MAX_AMOUNT + 1, call.amount ^ (1 << 22)];
    call.amount = value(rng, call.amount, &near);
}

/// Changes the price.
fn price(rng: &mut Rng, call: &mut Call) {
    let near = [0, 1, HIGHEST_PRICE, HIGHEST_PRICE + 1, call.price ^ 1];
    call.price = value(rng, call.price, &near);
}

/// Changes what a bidder wants or gets.
fn pair(rng: &mut Rng, call: &mut Call) {
    let amounts = &mut call.words[0];
    let pairs = amounts.len() / 2;
    if pairs == 0 {
        return;
    }
    // A pair that has a line, if there is one from here on.
    let any = rng.place(pairs);
    let pair = (any..pairs).find(|pair| amounts[2 * pair] > 0);
    let place = 2 * pair.unwrap_or(any);
    let (wanted, got) = (amounts[place], amounts[place + 1]);
    let near = [wanted.wrapping_add(1), got.wrapping_sub(1), MAX_AMOUNT + 1];
    match rng.below(4) {
        0 => amounts[place] = value(rng, wanted, &near),
        1..=2 => amounts[place + 1] = value(rng, got, &near),
        _ => amounts[place..place + 2].fill(rng.pick(&[0, MAX_AMOUNT, MAX_AMOUNT + 1])),
    }
}

/// Makes a fault in a settlement page, or changes its bytes or its lines in a way that
/// mostly leaves faults.
fn page(rng: &mut Rng, call: &mut Call) {
    let mut page = call.bytes.to_vec();
    let lines = page.len() / LINE_LEN;
    if lines > 0 && rng.once_in(2) && reply(call) == 0 {
        FAULTS[rng.place(FAULTS.len())].make(rng, call.price, &mut page);
    } else if lines > 0 && rng.once_in(2) {
        move_line(rng, &mut page, lines);
    } else {
        change_byte(rng, &mut page);
    }
    call.bytes = Lent::new(&page);
}

/// Takes a line out of a page, puts it in at some other place, or does both.
fn move_line(rng: &mut Rng, page: &mut Vec<u8>, lines: usize) {
    let start = LINE_LEN * rng.place(lines);
    let line = page[start..start + LINE_LEN].to_vec();
    let way = rng.below(4);
    if way > 0 {
        page.drain(start..start + LINE_LEN);
    }
    if way < 3 {
        let place = LINE_LEN * rng.place(page.len() / LINE_LEN + 1);
        page.splice(place..place, line);
    }
}

/// Changes a byte of a page, takes one out or puts one in; or exchanges two that are
/// neighbours.
fn change_byte(rng: &mut Rng, page: &mut Vec<u8>) {
    let byte = match rng.below(4) {
        0 => rng.byte(),
        _ => rng.pick(b"0123456789  ..\n\rbuysell+-,\t\0\xFF"),
    };
    let place = rng.place(page.len() + 1);
    match rng.below(8) {
        0 => page.insert(place, byte),
        _ if place == page.len() => page.push(byte),
        1 => {
            page.remove(place);
        }
        2..=3 if place > 0 => page.swap(place - 1, place),
        _ => page[place] = byte,
    }
}

/// Makes a slice longer or shorter.
fn length(rng: &mut Rng, call: &mut Call) {
    let filler = rng.pick(&EDGES);
    if call.kind.has_bytes() && rng.once_in(3) {
        let length = other_length(rng, call.bytes.len());
        call.bytes.resize(length, filler as u8);
    } else {
        let slice = &mut call.words[rng.place(call.kind.slices())];
        let length = other_length(rng, slice.len());
        slice.resize(length, filler);
    }
}

fn other_length(rng: &mut Rng, length: usize) -> usize {
    match rng.below(8) {
        0 => 0,
        1 => 2 * length,
        2 => length / 2,
        3 => length + sheet_len(rng.pick(&WAYS)),
        4 => rng.place(length + 20),
        5..=6 => length + 1,
        _ => length.saturating_sub(1),
    }
}

/// Changes the record.
fn record(rng: &mut Rng, call: &mut Call) {
    let record = match call.kind.record() {
        Some(place) if call.words[place].len() == RECORD_LEN => &mut call.words[place],
        _ => return,
    };
    match rng.below(5) {
        0 => roll(rng, record),
        1..=2 => field(rng, record),
        _ => CLAUSES[rng.place(CLAUSES.len())].break_in(rng, record),
    }
}

/// Changes the roll: a mark more, at a bidder's place or at one that is no
/// bidder's, a mark less, one that moves, or another word. Every other time the
/// bids are counted anew, so that nothing but the places can be wrong.
fn roll(rng: &mut Rng, record: &mut [u64]) {
    let bidder = rng.between(1, MAX_BIDS);
    let nobody = rng.pick(&NOBODY);
    match rng.below(6) {
        0 => mark(record, nobody),
        1 => mark(record, rng.pick(&[0, MAX_BIDS, MAX_BIDS + 1, 1_023])),
        2 => mark(record, bidder),
        3 => unmark(record, bidder),
        4 => {
            let word = &mut record[ROLL..SEARCH][rng.place(SEARCH - ROLL)];
            *word = value(rng, *word, &EDGES);
        }
        _ => {
            // A mark moves, and their number stays.
            if has_bid(record, bidder) {
                unmark(record, bidder);
                mark(record, nobody);
            }
        }
    }
    if rng.once_in(2) {
        record[BIDS] = marks(record);
    }
}

/// The fields of a record beside the roll. That of the pairs stands for all of them.
const FIELDS: [usize; 17] = [
    N,
    OWN,
    K,
    BIDS,
    LO,
    HI,
    PROBES,
    ROUND,
    SUM,
    CARRY,
    SEARCH,
    FIRST,
    FIRST_PROBES,
    DEMAND,
    SUPPLY,
    LAST,
    PAIRS,
];

/// Changes a field of the record beside the roll.
fn field(rng: &mut Rng, record: &mut [u64]) {
    let mut field = rng.pick(&FIELDS);
    let near = match field {
        N | OWN | K | BIDS => near_size(field, record),
        LO | HI | PROBES | SEARCH | FIRST | FIRST_PROBES => near_search(rng, field, record),
        ROUND => {
            let last = record[LAST];
            let past = rng.between(NO_MORE_ROUNDS, NO_MORE_ROUNDS + 1);
            [rng.below(3), last, last.wrapping_add(1), DEMAND_ROUND, past]
        }
        LAST => {
            let other = rng.pick(&NO_WAYS);
            [ROUNDS_33, ROUNDS_7, other, other, record[ROUND]]
        }
        SUM => [0, 1, SUM_LIMIT - 1, SUM_LIMIT, SUM_LIMIT + 1],
        DEMAND => {
            let supply = record[SUPPLY];
            let below = supply.wrapping_sub(1);
            [0, below, supply, TOTAL_LIMIT - 1, TOTAL_LIMIT]
        }
        SUPPLY => {
            let demand = record[DEMAND];
            let above = demand.wrapping_add(1);
            [0, demand, above, TOTAL_LIMIT - 1, TOTAL_LIMIT]
        }
        _ => [0, 1, 255, 256, 511],
    };
    if field == PAIRS {
        field += rng.place(PAIRS_LEN);
    }
    record[field] = value(rng, record[field], &near);
}

/// What is at or next to a limit of the parties, the prices or the bids.
fn near_size(field: usize, record: &[u64]) -> [u64; 5] {
    let [n, own, bids, hi, first] = [N, OWN, BIDS, HI, FIRST].map(|place| record[place]);
    match field {
        N => [2, 3, 9, 10, own],
        OWN => [0, 1, n, n.wrapping_add(1), own ^ 1],
        K => [0, MAX_PRICES, MAX_PRICES + 1, hi.wrapping_sub(1), first],
        _ => {
            let (fewer, more) = (bids.wrapping_sub(1), bids.wrapping_add(1));
            [0, fewer, more, MAX_BIDS, MAX_BIDS + 1]
        }
    }
}

/// What is at or next to a limit of the search that is on.
fn near_search(rng: &mut Rng, field: usize, record: &[u64]) -> [u64; 5] {
    let [k, lo, hi, probes] = [K, LO, HI, PROBES].map(|place| record[place]);
    let [search, first, first_probes] = [SEARCH, FIRST, FIRST_PROBES].map(|place| record[place]);
    // The last index that the search may give, and the most probes by its end.
    let (last, most) = match search {
        SECOND_SEARCH => (first, first_probes.wrapping_add(probe_limit(first))),
        _ => (k, probe_limit(k)),
    };
    let below = |number: u64, step| number.wrapping_sub(step);
    let above = |number: u64, step| number.wrapping_add(step);
    match field {
        LO => [0, below(hi, 2), below(hi, 1), hi, above(hi, 1)],
        HI => [0, lo, above(lo, 1), above(last, 1), above(last, 2)],
        PROBES => {
            let before = below(first_probes, 1);
            [first_probes, before, below(most, 1), most, above(most, 1)]
        }
        SEARCH => [0, FIRST_SEARCH, SECOND_SEARCH, 3, search ^ 3],
        FIRST => [0, 1, k, above(k, 1), below(hi, rng.between(1, 2))],
        _ => {
            let limit = above(probe_limit(k), rng.below(2));
            [0, 1, limit, probes, above(probes, 1)]
        }
    }
}

/// Changes one word of a slice: the first, the last, one that the call uses,
/// or any. A record has its own way, and an empty slice is made longer.
fn word(rng: &mut Rng, call: &mut Call) {
    let slice = rng.place(call.kind.slices());
    if call.kind.record() == Some(slice) {
        return record(rng, call);
    }
    let length = call.words[slice].len();
    if length == 0 {
        return call.words[slice].resize(1, rng.pick(&EDGES));
    }
    let place = match rng.below(8) {
        0 => Some(0),
        1 => Some(length - 1),
        2..=4 => used(rng, call, slice).filter(|&place| place < length),
        _ => None,
    };
    let place = place.unwrap_or_else(|| rng.place(length));
    let old = call.words[slice][place];
    call.words[slice][place] = value(rng, old, &EDGES);
}

/// A place that a saying or hearing uses.
fn used(rng: &mut Rng, call: &Call, slice: usize) -> Option<usize> {
    if !matches!(call.kind, Kind::Say | Kind::Hear) || call.words[0].len() != RECORD_LEN {
        return None;
    }
    let record = &call.words[0];
    let [n, own, k, lo, hi, probes] = [N, OWN, K, LO, HI, PROBES].map(|place| record[place]);
    if k > MAX_PRICES || hi > k + 1 || lo >= hi || probes > 64 || n > 9 {
        return None;
    }
    let (index, length) = (index(record) as u64, sheet_len(record[LAST]));
    let place = match slice {
        1 => index.saturating_sub(1).saturating_add(rng.pick(&[0, k])),
        2 => probes * length as u64 + rng.pick(&[0, 1, 33, 34, 64, 126, length as u64 - 1]),
        _ => {
            let words = width(record);
            let first = own.saturating_sub(1).saturating_mul(words as u64);
            first.saturating_add(rng.place(words) as u64)
        }
    };
    Some(place as usize)
}

/// Exchanges two words of the messages.
fn swap(rng: &mut Rng, call: &mut Call) {
    let messages = &mut call.words[3];
    if !messages.is_empty() {
        let (one, other) = (rng.place(messages.len()), rng.place(messages.len()));
        messages.swap(one, other);
    }
}

/// Changes who was present: one party more or less, the hearing one or any; some
/// fewer; everybody; or a mark that is none.
fn marks_of_presence(rng: &mut Rng, call: &mut Call) {
    let own = call.words[0].get(OWN).copied().unwrap_or(0);
    let marks = &mut call.bytes;
    if marks.is_empty() {
        return marks.resize(1, rng.byte());
    }
    let any = rng.place(marks.len());
    let own = own.wrapping_sub(1) as usize;
    match rng.below(8) {
        0..=1 => marks[any] ^= 1,
        2 if own < marks.len() => marks[own] ^= 1,
        3..=4 => {
            for _ in 0..marks.len() {
                let place = rng.place(marks.len());
                marks[place] = 0;
            }
        }
        5 => marks.fill(1),
        6 => marks[any] = rng.pick(&[2, 3, 127, 128, 254, 255]),
        _ => marks[any] = rng.byte(),
    }
}

/// Another value for a word that holds `old`.
fn value(rng: &mut Rng, old: u64, near: &[u64]) -> u64 {
    match rng.below(10) {
        0 => rng.word(),
        1 => old.wrapping_add(1),
        2 => old.wrapping_sub(1),
        3 => old.wrapping_add(P),
        4 => old ^ (1 << rng.below(64)),
        5 => rng.pick(&EDGES),
        _ => rng.pick(near),
    }
}
