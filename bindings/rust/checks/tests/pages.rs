//! Every fault of a settlement page made by itself, every byte of one changed, and every
//! way in which a page is neither written nor read, and any two of them at once, on both
//! implementations.

mod both;

use both::reply;
use clockivy::{LINE_LEN, SETTLEMENT_LEN};
use clockivy_checks::call::{Call, Kind, Lent};
use clockivy_checks::formatted;
use clockivy_checks::generate;
use clockivy_checks::page::{fault, name, CONDITIONS, FAULTS};
use clockivy_checks::rng::Rng;
use clockivy_reference::{HIGHEST_PRICE, MAX_AMOUNT};

/// The place of the amounts.
const AMOUNTS: usize = 0;

const PRICE: u64 = 110;

/// The amounts of four lines: the first and the last that there can be, and two that are
/// neighbours.
fn amounts() -> Vec<u64> {
    let mut amounts = vec![0; SETTLEMENT_LEN];
    amounts[..2].copy_from_slice(&[300, 125]);
    amounts[400..404].copy_from_slice(&[MAX_AMOUNT, 1_000, 9, 9]);
    amounts[SETTLEMENT_LEN - 2..].copy_from_slice(&[41, 0]);
    amounts
}

fn good_write() -> Call {
    Call::settlement_write(PRICE, &amounts(), &[b'?'; 4 * LINE_LEN], 77)
}

/// What the page of the amounts holds.
fn page() -> Vec<u8> {
    formatted::page(formatted::rows(PRICE, &amounts())).into_bytes()
}

fn good_read() -> Call {
    Call::settlement_read(PRICE, &page(), &[99; SETTLEMENT_LEN])
}

#[test]
fn each_fault_made_by_itself_is_refused() {
    let mut rng = Rng::new(2011);
    for (number, made) in FAULTS.iter().enumerate() {
        assert_eq!(made.name, name(CONDITIONS - FAULTS.len() + number));
        let mut times = 0;
        while times < 300 {
            let mut call = generate::call(&mut rng, Kind::SettlementRead);
            let mut page = call.bytes.to_vec();
            if page.is_empty() || reply(&call) != 0 {
                continue;
            }
            made.make(&mut rng, call.price, &mut page);
            assert_eq!(fault(call.price, &page), Some(number), "{}", made.name);
            assert_eq!(formatted::read(call.price, &page), None);
            call.bytes = Lent::new(&page);
            assert_eq!(reply(&call), 13, "{}", made.name);
            times += 1;
        }
    }
}

/// Reads a page on both, and by the standard library. That they reply by its faults is
/// part of the comparison.
fn read(page: &[u8]) -> u64 {
    let reply = reply(&Call::settlement_read(PRICE, page, &[99; SETTLEMENT_LEN]));
    assert_eq!(formatted::read(PRICE, page).is_some(), reply == 0);
    reply
}

#[test]
fn every_byte_changed_taken_out_or_put_in() {
    let page = page();
    for place in 0..page.len() {
        let mut other = page.clone();
        for byte in 0..=u8::MAX {
            other[place] = byte;
            read(&other);
        }
        other.remove(place);
        assert_eq!(read(&other), 13);
        for byte in *b" 0.\n" {
            let mut other = page.clone();
            other.insert(place, byte);
            assert_eq!(read(&other), 13);
        }
        let whole = place % LINE_LEN == 0;
        assert_eq!(read(&page[..place]) == 0, whole, "{place} bytes");
        assert_eq!(read(&page[place..]) == 0, whole, "all but {place} bytes");
    }
    for byte in 0..=u8::MAX {
        assert_eq!(read(&[&page[..], &[byte]].concat()), 13);
    }
}

#[test]
fn lines_in_every_order() {
    let page = page();
    let lines: Vec<&[u8]> = page.chunks(LINE_LEN).collect();
    let none = &page[..0];
    let choices: Vec<Option<usize>> = [None].into_iter().chain((0..4).map(Some)).collect();
    for one in &choices {
        for two in &choices {
            for three in &choices {
                let chosen: Vec<usize> = [*one, *two, *three].into_iter().flatten().collect();
                let bytes = chosen.iter().map(|&line| lines[line]);
                let other = bytes.fold(none.to_vec(), |page, line| [&page, line].concat());
                let rising = chosen.is_sorted_by(|line, next| line < next);
                assert_eq!(read(&other), if rising { 0 } else { 13 }, "{chosen:?}");
            }
        }
    }
}

/// A change that makes a good call one that is refused, and with which number.
type Change = (u64, fn(&mut Call));

/// What both calls refuse.
const CHANGES: [Change; 9] = [
    (1, |call| call.price = 0),
    (1, |call| call.price = HIGHEST_PRICE + 1),
    (1, |call| call.price = (1 << 32) + PRICE),
    (1, |call| call.price = u64::MAX),
    (2, |call| call.words[AMOUNTS].resize(0, 0)),
    (2, |call| call.words[AMOUNTS].resize(1, 0)),
    (2, |call| call.words[AMOUNTS].resize(SETTLEMENT_LEN - 2, 0)),
    (2, |call| call.words[AMOUNTS].resize(SETTLEMENT_LEN + 1, 0)),
    (2, |call| call.words[AMOUNTS].resize(2 * SETTLEMENT_LEN, 0)),
];

const CHANGES_TO_WRITE: [Change; 11] = [
    (6, |call| put(call, 1, 301)),
    (6, |call| put(call, 0, 124)),
    (6, |call| put(call, 3, 1)),
    (6, |call| put(call, 400, MAX_AMOUNT + 1)),
    (6, |call| put(call, 401, MAX_AMOUNT + 1)),
    (6, |call| put(call, SETTLEMENT_LEN - 1, 42)),
    (6, |call| put(call, SETTLEMENT_LEN - 2, u64::MAX)),
    (6, |call| put(call, SETTLEMENT_LEN - 1, u64::MAX)),
    (17, |call| call.bytes.resize(0, 0)),
    (17, |call| call.bytes.resize(LINE_LEN, 0)),
    (17, |call| call.bytes.resize(4 * LINE_LEN - 1, 0)),
];

const CHANGES_TO_READ: [Change; 4] = [
    (13, |call| call.bytes.resize(4 * LINE_LEN - 1, 0)),
    (13, |call| call.bytes.resize(4 * LINE_LEN + 1, b'\n')),
    (13, |call| call.bytes.resize(1, 0)),
    (13, |call| call.bytes.fill(b' ')),
];

/// Puts a word into the amounts, where they are long enough.
fn put(call: &mut Call, place: usize, word: u64) {
    if let Some(held) = call.words[AMOUNTS].get_mut(place) {
        *held = word;
    }
}

#[test]
fn every_way_to_be_refused_and_any_two() {
    for (good, others) in [
        (good_write(), &CHANGES_TO_WRITE[..]),
        (good_read(), &CHANGES_TO_READ),
    ] {
        assert_eq!(reply(&good), 0);
        let ways: Vec<Change> = CHANGES.iter().chain(others).copied().collect();
        for &(number, change) in &ways {
            let mut call = good.clone();
            change(&mut call);
            assert_eq!(reply(&call), number, "given\n{call}");
            for &(other, change) in &ways {
                let mut both = call.clone();
                change(&mut both);
                assert_eq!(reply(&both), number.min(other), "given\n{both}");
            }
        }
    }
}
