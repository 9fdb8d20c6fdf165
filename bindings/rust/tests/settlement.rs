//! The settlement page, by the paper's sentences: "Lay it out in lines of exactly 60
//! bytes before the newline."

use clockivy::{
    words, Cleared, Line, Refusal, Settlement, Side, HIGHEST_PRICE, LINE_LEN, MAX_AMOUNT, MAX_BIDS,
    MAX_PAGE_LEN, SETTLEMENT_LEN,
};

const SAMPLE: &str = "   1   buy        30.0        12.5                    1375 0\n";

fn bought(bidder: u64, wanted: u64, got: u64) -> Line {
    Line {
        bidder,
        side: Side::Buy,
        wanted,
        got,
    }
}

fn sold(bidder: u64, wanted: u64, got: u64) -> Line {
    Line {
        side: Side::Sell,
        ..bought(bidder, wanted, got)
    }
}

fn settlement(lines: &[Line]) -> Settlement {
    let mut settlement = Settlement::new();
    for &line in lines {
        settlement.set(line).unwrap();
    }
    settlement
}

/// The page of these lines, as text.
fn page(price: u64, lines: &[Line]) -> String {
    let page = settlement(lines).write(price).unwrap();
    String::from_utf8(page).unwrap()
}

/// The amounts of a settlement, for the calls on words.
fn amounts(lines: &[Line]) -> Vec<u64> {
    let mut amounts = vec![0; SETTLEMENT_LEN];
    for line in lines {
        let place = 4 * (line.bidder as usize - 1) + 2 * line.side as usize;
        amounts[place..place + 2].copy_from_slice(&[line.wanted, line.got]);
    }
    amounts
}

/// What writing on words replies, with so much room. A refusal changes nothing.
fn write(price: u64, amounts: &[u64], room: usize) -> u64 {
    let (mut page, mut written) = (vec![b'?'; room], 77);
    let reply = words::settlement_write(price, amounts, &mut page, &mut written);
    assert!(reply == 0 || (written == 77 && page.iter().all(|&byte| byte == b'?')));
    reply
}

/// What reading on words replies, with room for so many amounts.
fn read(price: u64, page: &[u8], length: usize) -> u64 {
    let mut amounts = vec![99; length];
    let reply = words::settlement_read(price, page, &mut amounts);
    assert!(reply == 0 || amounts.iter().all(|&amount| amount == 99));
    reply
}

#[test]
fn sixty_bytes_before_the_newline() {
    assert_eq!(page(110, &[bought(1, 300, 125)]), SAMPLE);
    let full: Vec<Line> = (1..=MAX_BIDS)
        .flat_map(|bidder| {
            [
                bought(bidder, MAX_AMOUNT, MAX_AMOUNT),
                sold(bidder, bidder, 0),
            ]
        })
        .collect();
    let page = page(HIGHEST_PRICE, &full);
    assert_eq!((page.len(), MAX_PAGE_LEN), (122_000, 122_000));
    assert!(page.lines().all(|line| line.len() == 60));
}

#[test]
fn columns() {
    let line = page(999_999, &[sold(1_000, MAX_AMOUNT, 4_000_001)]);
    for (columns, width, shown) in [
        (0..4, 4, "1000"),
        (4..10, 6, "sell"),
        (10..22, 12, "419430.3"),
        (22..34, 12, "400000.1"),
        // 4,000,001 tenths at 999,999 pence: 3,999,996,999,999 tenths of a penny.
        (34..60, 26, "399999699999 9"),
        (60..61, 1, "\n"),
    ] {
        assert_eq!(line[columns], format!("{shown:>width$}"));
    }
}

#[test]
fn hours_show_one_decimal_and_pence_a_remainder() {
    for ([wanted, got, price], [shown, of_it, due]) in [
        ([1, 0, 1], ["0.1", "0.0", "0 0"]),
        ([1, 1, 1], ["0.1", "0.1", "0 1"]),
        ([10, 9, 1], ["1.0", "0.9", "0 9"]),
        ([11, 10, 1], ["1.1", "1.0", "1 0"]),
        ([99, 33, 33], ["9.9", "3.3", "108 9"]),
        ([100, 100, 110], ["10.0", "10.0", "1100 0"]),
    ] {
        let amounts = format!("{shown:>12}{of_it:>12}{due:>26}");
        assert_eq!(
            page(price, &[bought(5, wanted, got), sold(5, wanted, got)]),
            format!("   5   buy{amounts}\n   5  sell{amounts}\n")
        );
    }
}

#[test]
fn by_bidder_number_and_buy_before_sell_leaving_out_what_wants_0() {
    let lines = [
        sold(1_000, 1, 1),
        bought(1_000, 2, 2),
        sold(2, 3, 3),
        sold(1, 4, 4),
        bought(7, 0, 0),
    ];
    let settlement = settlement(&lines);
    let order: Vec<Line> = settlement.lines().collect();
    assert_eq!(order, [lines[3], lines[2], lines[1], lines[0]]);
    assert_eq!(settlement.page_len(), 4 * LINE_LEN);
    let page = settlement.write(1).unwrap();
    let starts: Vec<&[u8]> = page.chunks(LINE_LEN).map(|line| &line[..10]).collect();
    assert_eq!(
        starts,
        [b"   1  sell", b"   2  sell", b"1000   buy", b"1000  sell"]
    );
}

#[test]
fn the_reply_counts_the_bytes() {
    let settlement = settlement(&[bought(1, 300, 125), sold(9, 125, 125)]);
    for room in [2 * LINE_LEN, 2 * LINE_LEN + 1, MAX_PAGE_LEN] {
        let mut page = vec![b'?'; room];
        assert_eq!(settlement.write_into(110, &mut page), Ok(122));
        assert_eq!(page[..LINE_LEN], *SAMPLE.as_bytes());
        assert!(page[122..].iter().all(|&byte| byte == b'?'));
    }
    assert_eq!(Settlement::new().write_into(110, &mut []), Ok(0));
    assert_eq!(Settlement::new().write(110), Ok(vec![]));
}

#[test]
fn got_above_wanted_is_6() {
    let too_large = Err(Refusal::AmountTooLarge);
    let mut settlement = settlement(&[bought(3, 20, 20)]);
    assert_eq!(settlement.set(bought(3, 20, 21)), too_large);
    assert_eq!(settlement.set(bought(3, 0, 1)), too_large);
    assert_eq!(settlement.set(bought(3, MAX_AMOUNT + 1, 0)), too_large);
    assert_eq!(settlement.set(bought(3, u64::MAX, u64::MAX)), too_large);
    assert_eq!(settlement.line(3, Side::Buy), Some(bought(3, 20, 20)));
    for line in [
        bought(1, 20, 21),
        sold(1_000, 20, 21),
        sold(1_000, 0, 1),
        bought(500, MAX_AMOUNT + 1, 0),
        bought(500, u64::MAX, u64::MAX),
    ] {
        assert_eq!(write(110, &amounts(&[line]), LINE_LEN), 6);
    }
}

#[test]
fn a_bad_price_is_1() {
    let settlement = settlement(&[bought(1, 300, 125)]);
    for price in [0, HIGHEST_PRICE + 1, (1 << 32) + 110, u64::MAX] {
        assert_eq!(settlement.write(price), Err(Refusal::OutOfRange));
        let read = Settlement::read(price, SAMPLE.as_bytes());
        assert_eq!(read, Err(Refusal::OutOfRange));
    }
    for price in [1, HIGHEST_PRICE] {
        let page = settlement.write(price).unwrap();
        assert_eq!(Settlement::read(price, &page).as_ref(), Ok(&settlement));
    }
}

#[test]
fn a_bidder_that_is_none() {
    let mut settlement = Settlement::new();
    for bidder in [0, MAX_BIDS + 1, u64::MAX] {
        let refused = settlement.set(bought(bidder, 1, 1));
        assert_eq!(refused, Err(Refusal::OutOfRange));
        assert_eq!(settlement.line(bidder, Side::Sell), None);
    }
    assert_eq!(settlement, Settlement::default());
}

#[test]
fn reading_at_the_same_price_gives_the_same_back() {
    for lines in [
        &[][..],
        &[bought(1, 1, 0)],
        &[sold(1_000, MAX_AMOUNT, MAX_AMOUNT)],
        &[bought(1, 300, 125), sold(1, 9, 9), bought(640, 77, 76)],
    ] {
        for price in [1, 7, 110, 999_999, HIGHEST_PRICE] {
            let settlement = settlement(lines);
            let page = settlement.write(price).unwrap();
            assert_eq!(Settlement::read(price, &page), Ok(settlement));
        }
    }
}

#[test]
fn a_page_that_no_amounts_lay_out_to_is_13() {
    let torn = |page: &str| Settlement::read(110, page.as_bytes()) == Err(Refusal::Malformed);
    assert!(!torn(SAMPLE) && !torn(""));
    for (shown, other) in [
        ("0\n", "0"),
        ("0\n", "0\r"),
        ("0\n", "0\n\n"),
        ("   1   buy", "  01   buy"),
        ("   1   buy", "1      buy"),
        ("   1   buy", "   0   buy"),
        ("   1   buy", "1001   buy"),
        ("   buy ", "  buy  "),
        ("   buy ", "  SELL "),
        (" 30.0 ", "030.0 "),
        ("  30.0", "30.00 "),
        (" 30.0 ", " 12.4 "),
        (" 12.5 ", " 12.6 "),
        (" 1375 0", "01375 0"),
        (" 1375 0", " 1375.0"),
        (" 1375 0", " 1375 1"),
    ] {
        assert!(SAMPLE.contains(shown));
        let other = SAMPLE.replacen(shown, other, 1);
        assert!(torn(&other), "{other}");
    }
    // Nothing wanted, an amount too large, and pence that are right but for 2^64 tenths
    // or 2^64 whole ones.
    assert!(torn(
        "   1   buy         0.0         0.0                       0 0\n"
    ));
    assert!(torn(
        "   1   buy    419430.4        12.5                    1375 0\n"
    ));
    assert!(torn(
        "   1   buy        30.0        12.5     1844674407370956536 6\n"
    ));
    assert!(torn(
        "   1   buy        30.0        12.5    18446744073709552991 0\n"
    ));
    let [one, two] = [SAMPLE, &SAMPLE.replacen('1', "2", 1)];
    assert!(!torn(&[one, two].concat()));
    assert!(torn(&[two, one].concat()));
    assert!(torn(&[one, one].concat()));
}

#[test]
fn a_page_at_another_price() {
    assert_eq!(
        Settlement::read(111, SAMPLE.as_bytes()),
        Err(Refusal::Malformed)
    );
    // Where nobody gets anything nothing is due, at any price.
    let nothing = settlement(&[bought(1, 300, 0), sold(640, 5, 0)]);
    let page = nothing.write(110).unwrap();
    assert_eq!(Settlement::read(111, &page), Ok(nothing));
}

#[test]
fn a_page_too_short_is_17_judged_last() {
    let settlement = settlement(&[bought(1, 300, 125), sold(9, 125, 125)]);
    for room in [0, 1, LINE_LEN, 2 * LINE_LEN - 1] {
        let mut page = vec![b'?'; room];
        let refused = settlement.write_into(110, &mut page);
        assert_eq!(refused, Err(Refusal::PageTooShort));
        assert!(page.iter().all(|&byte| byte == b'?'));
    }
    let good = amounts(&[bought(1, 300, 125), sold(9, 125, 125)]);
    let above = amounts(&[bought(1, 300, 301)]);
    assert_eq!(write(110, &good, 121), 17);
    assert_eq!(write(110, &above, 0), 6);
    assert_eq!(write(110, &above[..SETTLEMENT_LEN - 1], 0), 2);
    assert_eq!(write(0, &above[..SETTLEMENT_LEN - 1], 0), 1);
}

#[test]
fn amounts_are_4_000() {
    assert_eq!(SETTLEMENT_LEN, 4_000);
    for length in [
        0,
        1,
        SETTLEMENT_LEN - 4,
        SETTLEMENT_LEN - 1,
        SETTLEMENT_LEN + 1,
    ] {
        assert_eq!(write(110, &vec![0; length], LINE_LEN), 2);
        assert_eq!(read(110, SAMPLE.as_bytes(), length), 2);
        assert_eq!(read(110, b"?", length), 2);
        assert_eq!(read(0, b"?", length), 1);
    }
    assert_eq!(read(110, SAMPLE.as_bytes(), SETTLEMENT_LEN), 0);
    assert_eq!(read(110, b"?", SETTLEMENT_LEN), 13);
}

/// From the totals of an auction to its page: what each buyer works out for itself, told
/// to whoever lays the page out.
#[test]
fn the_hours_of_an_auction() {
    let cleared = Cleared::new(20, 15).unwrap();
    let mut settlement = settlement(&[sold(1_000, 15, 15)]);
    for (bidder, wanted) in [(17, 13), (4, 7)] {
        let got = cleared.fill(wanted).unwrap().tenths;
        settlement.set(bought(bidder, wanted, got)).unwrap();
    }
    assert_eq!(
        String::from_utf8(settlement.write(90).unwrap()).unwrap(),
        concat!(
            "   4   buy         0.7         0.5                      45 0\n",
            "  17   buy         1.3         0.9                      81 0\n",
            "1000  sell         1.5         1.5                     135 0\n",
        )
    );
}

#[test]
fn a_line_is_replaced_or_taken_out() {
    let mut settlement = settlement(&[bought(1, 300, 125), sold(1, 9, 9)]);
    settlement.set(bought(1, 10, 5)).unwrap();
    settlement.set(sold(1, 0, 0)).unwrap();
    assert_eq!(settlement.line(1, Side::Sell), None);
    let lines: Vec<Line> = settlement.lines().collect();
    assert_eq!(lines, [bought(1, 10, 5)]);
}

#[test]
fn what_is_printed_of_a_settlement_shows_no_amount() {
    let settlement = settlement(&[bought(1, 300, 125), sold(9, 125, 125)]);
    assert_eq!(format!("{settlement:?}"), "Settlement { lines: 2, .. }");
}
