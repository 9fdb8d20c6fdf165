//! The settlement page: how it is laid out, that nothing but such a page is read, and
//! what both calls refuse, in their order.

use clockivy_reference::{
    settlement_read, settlement_write, HIGHEST_PRICE, LINE, MAX_AMOUNT, SETTLEMENT,
};

/// The amounts of some bidders and sides: bidder, side from 0, wanted and got.
fn amounts(lines: &[[u64; 4]]) -> Vec<u64> {
    let mut amounts = vec![0; SETTLEMENT];
    for &[bidder, side, wanted, got] in lines {
        let place = (4 * (bidder - 1) + 2 * side) as usize;
        amounts[place..place + 2].copy_from_slice(&[wanted, got]);
    }
    amounts
}

/// The page of these amounts, which is then read back.
fn page(price: u64, amounts: &[u64]) -> String {
    let (mut page, mut written) = (vec![0; LINE * SETTLEMENT / 2], 77);
    assert_eq!(settlement_write(price, amounts, &mut page, &mut written), 0);
    page.truncate(written as usize);
    let mut read = vec![99; SETTLEMENT];
    assert_eq!(settlement_read(price, &page, &mut read), 0);
    assert_eq!(read, amounts);
    String::from_utf8(page).unwrap()
}

/// What reading replies. A refusal changes nothing.
fn read(price: u64, page: impl AsRef<[u8]>) -> u64 {
    let mut amounts = vec![99; SETTLEMENT];
    let reply = settlement_read(price, page.as_ref(), &mut amounts);
    assert!(reply == 0 || amounts == [99; SETTLEMENT]);
    reply
}

/// What writing replies, with so much room. A refusal changes nothing.
fn write(price: u64, amounts: &[u64], room: usize) -> u64 {
    let (mut page, mut written) = (vec![b'?'; room], 77);
    let reply = settlement_write(price, amounts, &mut page, &mut written);
    assert!(reply == 0 || (written == 77 && page.iter().all(|&byte| byte == b'?')));
    reply
}

const SAMPLE: &str = "   1   buy        30.0        12.5                    1375 0\n";

#[test]
fn lines() {
    assert_eq!(page(110, &amounts(&[[1, 0, 300, 125]])), SAMPLE);
    assert_eq!(
        page(
            33,
            &amounts(&[
                [1_000, 1, 9, 9],
                [1_000, 0, 1, 0],
                [17, 1, 4_000, 4_000],
                [2, 0, 10, 1],
            ])
        ),
        concat!(
            "   2   buy         1.0         0.1                       3 3\n",
            "  17  sell       400.0       400.0                   13200 0\n",
            "1000   buy         0.1         0.0                       0 0\n",
            "1000  sell         0.9         0.9                      29 7\n",
        )
    );
    assert_eq!(
        page(
            HIGHEST_PRICE,
            &amounts(&[[500, 1, MAX_AMOUNT, MAX_AMOUNT], [500, 0, MAX_AMOUNT, 0]])
        ),
        concat!(
            " 500   buy    419430.3         0.0                       0 0\n",
            " 500  sell    419430.3    419430.3            419430300000 0\n",
        )
    );
    assert_eq!(page(1, &amounts(&[])), "");
}

#[test]
fn everybody() {
    let all: Vec<u64> = (0..SETTLEMENT as u64)
        .map(|place| match place % 2 {
            0 => 100 + 1_043 * place,
            _ => 17 * place,
        })
        .collect();
    let page = page(987_654, &all);
    assert_eq!(page.len(), 122_000);
    assert!(page.lines().all(|line| line.len() == 60));
}

#[test]
fn a_line_in_any_other_way_is_no_page() {
    assert_eq!(read(110, SAMPLE), 0);
    for other in [
        // The bidder's number.
        "   0   buy        30.0        12.5                    1375 0\n",
        "1001   buy        30.0        12.5                    1375 0\n",
        "0001   buy        30.0        12.5                    1375 0\n",
        "1      buy        30.0        12.5                    1375 0\n",
        "  +1   buy        30.0        12.5                    1375 0\n",
        "       buy        30.0        12.5                    1375 0\n",
        // The side.
        "   1   Buy        30.0        12.5                    1375 0\n",
        "   1  buy         30.0        12.5                    1375 0\n",
        "   1  bell        30.0        12.5                    1375 0\n",
        "   1               30.0        12.5                   1375 0\n",
        // The hours wanted.
        "   1   buy       030.0        12.5                    1375 0\n",
        "   1   buy          30        12.5                    1375 0\n",
        "   1   buy       30.00        12.5                    1375 0\n",
        "   1   buy        30,0        12.5                    1375 0\n",
        "   1   buy       30.0         12.5                    1375 0\n",
        "   1   buy    419430.4        12.5                    1375 0\n",
        "   1   buy9999999999.9        12.5                    1375 0\n",
        "   1   buy        12.4        12.5                    1375 0\n",
        "   1   buy         0.0         0.0                       0 0\n",
        // The hours got.
        "   1   buy        30.0       012.5                    1375 0\n",
        "   1   buy        30.0       12.5                     1375 0\n",
        "   1   buy        30.0        30.1                    3311 0\n",
        "   1   buy        30.0          .5                      55 0\n",
        // The pence, right but for 2^64 tenths or 2^64 whole ones among others.
        "   1   buy        30.0        12.5                    1375 1\n",
        "   1   buy        30.0        12.5                    1375.0\n",
        "   1   buy        30.0        12.5                   01375 0\n",
        "   1   buy        30.0        12.5                   1375  0\n",
        "   1   buy        30.0        12.5                   1375 0 \n",
        "   1   buy        30.0        12.5                  1375 00\n",
        "   1   buy        30.0        12.5     1844674407370956536 6\n",
        "   1   buy        30.0        12.5    18446744073709552991 0\n",
        "   1   buy        30.0        12.5999999999999999999999999 9\n",
        // The end.
        "   1   buy        30.0        12.5                    1375 0",
        "   1   buy        30.0        12.5                    1375 0 ",
        "   1   buy        30.0        12.5                    1375 0\r\n",
        "   1   buy        30.0        12.5                    1375 0\n\n",
        "\n",
        " ",
    ] {
        assert_eq!(read(110, other), 13, "{other}");
    }
}

#[test]
fn any_other_byte_is_no_page_or_that_of_other_amounts() {
    let mut pages = 0;
    for (place, held) in SAMPLE.bytes().enumerate() {
        for byte in (0..=u8::MAX).filter(|&byte| byte != held) {
            let mut other = SAMPLE.as_bytes().to_vec();
            other[place] = byte;
            let mut found = vec![99; SETTLEMENT];
            if settlement_read(110, &other, &mut found) == 0 {
                assert_eq!(page(110, &found).as_bytes(), other);
                pages += 1;
            }
        }
    }
    // Bidders 2 to 9, and 11, 21, .. 91; hours wanted 20, 40, .. 90, and 130, .. 930,
    // 31, .. 39 and 30.1, .. 30.9.
    assert_eq!(pages, 8 + 9 + 7 + 9 + 9 + 9);
}

#[test]
fn lines_have_one_order() {
    let lines = page(
        50,
        &amounts(&[[7, 0, 20, 10], [7, 1, 20, 10], [8, 0, 20, 10]]),
    );
    let [first, second, third] = [0, 1, 2].map(|line| &lines[LINE * line..LINE * (line + 1)]);
    for kept in [[first, second], [first, third], [second, third]] {
        assert_eq!(read(50, kept.concat()), 0);
        let [one, other] = kept;
        assert_eq!(read(50, [other, one].concat()), 13);
        assert_eq!(read(50, [one, one, other].concat()), 13);
        assert_eq!(read(50, [one, other, one].concat()), 13);
    }
    for length in 0..lines.len() {
        let whole = length % LINE == 0;
        assert_eq!(read(50, &lines[..length]) == 0, whole, "{length} bytes");
    }
}

#[test]
fn a_page_has_one_price() {
    for price in [1, 109, 111, 1_100, HIGHEST_PRICE] {
        assert_eq!(read(price, SAMPLE), 13);
    }
    // Where nobody gets anything, nothing is due at any.
    let page = page(110, &amounts(&[[1, 0, 300, 0], [640, 1, 5, 0]]));
    for price in [1, 110, HIGHEST_PRICE] {
        assert_eq!(read(price, &page), 0);
    }
    assert_eq!(read(0, &page), 1);
    assert_eq!(read(HIGHEST_PRICE + 1, &page), 1);
}

#[test]
fn writing_is_refused_in_order() {
    let good = amounts(&[[1, 0, 300, 125], [2, 1, 5, 5]]);
    let above = amounts(&[[1, 0, 300, 125], [2, 1, 5, 6]]);
    let large = amounts(&[[1_000, 1, MAX_AMOUNT + 1, 0]]);
    let huge = amounts(&[[1, 0, u64::MAX, u64::MAX]]);
    for price in [0, HIGHEST_PRICE + 1, u64::MAX] {
        assert_eq!(write(price, &good, 2 * LINE), 1);
        assert_eq!(write(price, &[], 0), 1);
        assert_eq!(write(price, &above, 0), 1);
    }
    for length in [0, 2, SETTLEMENT - 2, SETTLEMENT - 1, SETTLEMENT + 1] {
        let mut other = above.clone();
        other.resize(length, 9);
        assert_eq!(write(110, &other, 0), 2);
        assert_eq!(settlement_read(110, b"?", &mut other), 2);
        assert_eq!(settlement_read(0, b"?", &mut other), 1);
    }
    for amounts in [&above, &large, &huge] {
        assert_eq!(write(110, amounts, 0), 6);
        assert_eq!(write(110, amounts, 3 * LINE), 6);
    }
    for room in [0, LINE, 2 * LINE - 1] {
        assert_eq!(write(110, &good, room), 17);
    }
    for room in [2 * LINE, 2 * LINE + 1, 9 * LINE] {
        assert_eq!(write(110, &good, room), 0);
    }
    assert_eq!(write(110, &amounts(&[]), 0), 0);
}

#[test]
fn what_is_past_the_lines_stays() {
    let (mut page, mut written) = (vec![b'?'; LINE + 3], 0);
    let amounts = amounts(&[[1, 0, 300, 125]]);
    assert_eq!(settlement_write(110, &amounts, &mut page, &mut written), 0);
    assert_eq!(written, 61);
    assert_eq!(page, [SAMPLE, "???"].concat().as_bytes());
}
