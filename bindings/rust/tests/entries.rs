//! A bid split entry by entry: by the call for one entry and one party, and by
//! the iterator over all entries for all parties.

use std::cell::Cell;

use clockivy::{
    coins_len, split, split_entry, table_len, threshold, Collecting, Entries, Refusal, Seat, BLANK,
    MAX_AMOUNT, MAX_PRICES, PARTIES, PRIME,
};
use clockivy_testing::WAY;

/// The seat of one party of n. To a bid the way makes no difference.
fn seat(n: u64, own: u64, k: u64) -> Seat {
    clockivy_testing::seat(n, own, k, WAY)
}

/// A table that a bidder may bid: demand from the largest amount down, and
/// supply from 0 up.
fn table(k: u64) -> Vec<u64> {
    let demand = (0..k).map(|price| MAX_AMOUNT - 4_000 * price);
    let supply = (0..k).map(|price| 11 * price);
    demand.chain(supply).collect()
}

/// The coins of a bid, now and then at an end of their range.
fn coins(n: u64, k: u64) -> Vec<u64> {
    let coin = |place: u64| match place % 7 {
        3 => 0,
        5 => PRIME - 1,
        _ => (place + 1).wrapping_mul(0x9E37_79B9_7F4A_7C15) % PRIME,
    };
    (0..coins_len(n, k) as u64).map(coin).collect()
}

/// Those of one entry.
fn coins_of(n: u64, entry: u64, coins: &[u64]) -> &[u64] {
    let t = threshold(n);
    let start = (entry as usize - 1) * t;
    &coins[start..start + t]
}

/// A party's shares, by one call.
fn whole(n: u64, own: u64, k: u64, table: &[u64], coins: &[u64]) -> Vec<u64> {
    let mut shares = vec![BLANK; table_len(k)];
    split(seat(n, own, k), table, coins, &mut shares).unwrap();
    shares
}

/// A party's shares of these entries in their order, each from its own coins.
fn by_entries(
    (n, own, k): (u64, u64, u64),
    entries: impl IntoIterator<Item = u64>,
    table: &[u64],
    coins: &[u64],
    mut shares: Vec<u64>,
) -> Vec<u64> {
    for entry in entries {
        let coins = coins_of(n, entry, coins);
        split_entry(seat(n, own, k), entry, table, coins, &mut shares).unwrap();
    }
    shares
}

#[test]
fn entries_in_any_order_are_the_shares_split_at_once() {
    for n in PARTIES {
        for k in [1, 2, 3, 8, 31] {
            let (table, coins) = (table(k), coins(n, k));
            let last = 2 * k;
            let in_turn: Vec<u64> = (1..=last).collect();
            let from_behind: Vec<u64> = (1..=last).rev().collect();
            let every_other = (1..=last).step_by(2).chain((2..=last).step_by(2));
            let twice = (1..=last).chain((1..=last).rev());
            let orders = [in_turn, from_behind, every_other.collect(), twice.collect()];
            for own in 1..=n {
                let expected = whole(n, own, k, &table, &coins);
                for order in &orders {
                    for before in [0, 1, PRIME, BLANK] {
                        let held = vec![before; table_len(k)];
                        let order = order.iter().copied();
                        let left = by_entries((n, own, k), order, &table, &coins, held);
                        assert_eq!(left, expected);
                    }
                }
            }
        }
    }
}

#[test]
fn one_entry_changes_one_place() {
    for (n, own, k) in [(3, 1, 1), (4, 4, 5), (9, 9, MAX_PRICES)] {
        let (table, coins) = (table(k), coins(n, k));
        let whole = whole(n, own, k, &table, &coins);
        let held: Vec<u64> = (0..2 * k).map(|place| BLANK - place).collect();
        for entry in [1, 2, k, k + 1, 2 * k] {
            let left = by_entries((n, own, k), [entry], &table, &coins, held.clone());
            let mut expected = held.clone();
            expected[entry as usize - 1] = whole[entry as usize - 1];
            assert_eq!(left, expected);
        }
    }
}

/// A desk that is short of room takes each word as it is written.
#[test]
fn one_slice_serves_all_parties_in_turn() {
    let (n, k) = (5, 3);
    let (table, coins) = (table(k), coins(n, k));
    let mut shares = vec![BLANK; table_len(k)];
    for entry in 1..=2 * k {
        let place = entry as usize - 1;
        for own in 1..=n {
            shares = by_entries((n, own, k), [entry], &table, &coins, shares);
            assert_eq!(shares[place], whole(n, own, k, &table, &coins)[place]);
        }
    }
}

/// Asks for one entry of a bid among five parties, who have two coins for each.
/// A refusal has changed nothing.
fn try_entry(entry: u64, table: &[u64], coins: &[u64], length: usize) -> Result<(), Refusal> {
    let mut shares = vec![BLANK; length];
    let reply = split_entry(seat(5, 2, 3), entry, table, coins, &mut shares);
    if reply.is_err() {
        assert_eq!(shares, vec![BLANK; length]);
    }
    reply
}

#[test]
fn an_entry_is_judged_in_its_order() {
    let good = &[9, 5, 5, 0, 2, 7][..];
    let large = &[9, 5, MAX_AMOUNT + 1, 0, 2, 7][..];
    let rising = &[9, 5, 6, 0, 2, 7][..];
    let falling = &[9, 5, 5, 0, 2, 1][..];
    let (coins, worn) = (&[11, 12][..], &[11, PRIME][..]);
    for entry in 1..=6 {
        assert_eq!(try_entry(entry, good, coins, 6), Ok(()));
        for (table, coins, length, refusal) in [
            (&large[1..], worn, 6, Refusal::WrongLength),
            (large, &worn[1..], 6, Refusal::WrongLength),
            (large, &[PRIME; 12], 6, Refusal::WrongLength),
            (large, worn, 5, Refusal::WrongLength),
            (large, worn, 7, Refusal::WrongLength),
            (large, worn, 6, Refusal::CoinOutOfRange),
            (good, &[u64::MAX, 0], 6, Refusal::CoinOutOfRange),
            (large, coins, 6, Refusal::AmountTooLarge),
            (rising, coins, 6, Refusal::NotMonotone),
            (falling, coins, 6, Refusal::NotMonotone),
        ] {
            assert_eq!(try_entry(entry, table, coins, length), Err(refusal));
        }
    }
    // Cut to fewer bits, the far ones would be entry 1.
    let far = [8, 16, 32, 63].map(|bits| (1 << bits) + 1);
    for entry in [0, 7, u64::MAX].into_iter().chain(far) {
        for (table, coins, length) in [(good, coins, 6), (large, worn, 6), (rising, &[], 0)] {
            let reply = try_entry(entry, table, coins, length);
            assert_eq!(reply, Err(Refusal::OutOfRange));
        }
    }
}

#[test]
fn numbers_of_no_auction() {
    let (table, coins) = ([5, 3], [11]);
    for (n, own, k, entry) in [
        (2, 1, 1, 1),
        (10, 1, 1, 1),
        (3, 0, 1, 1),
        (3, 4, 1, 1),
        (3, 1, 0, 1),
        (3, 1, MAX_PRICES + 1, 1),
        // Twice this many entries would be two, where it is cut to 64 bits.
        (3, 1, (1 << 63) + 1, 1),
        (u64::MAX, u64::MAX, u64::MAX, u64::MAX),
    ] {
        let mut shares = [BLANK; 2];
        let reply = split_entry(seat(n, own, k), entry, &table, &coins, &mut shares);
        assert_eq!(reply, Err(Refusal::OutOfRange));
        assert_eq!(shares, [BLANK; 2]);
    }
}

#[test]
fn the_iterator_writes_what_is_split_at_once_from_the_words_it_drew() {
    for n in PARTIES {
        for k in [1, 2, 5, 64, MAX_PRICES] {
            let (table, coins) = (table(k), coins(n, k));
            let mut shares = vec![0; n as usize * table_len(k)];
            let mut drawn = coins.iter().copied();
            let mut source = || drawn.next();
            let entries = Entries::new(n, k, &table, &mut shares, &mut source).unwrap();
            assert_eq!(entries.write_all(), Ok(()));
            assert_eq!(drawn.next(), None);
            for (own, shares) in (1..).zip(shares.chunks(table_len(k))) {
                assert_eq!(shares, whole(n, own, k, &table, &coins));
            }
        }
    }
}

#[test]
fn each_item_is_an_entry_with_its_own_t_words() {
    for n in PARTIES {
        let k = 3;
        let drawn = Cell::new(0);
        let mut source = || {
            drawn.set(drawn.get() + 1);
            Some(7)
        };
        let (table, mut shares) = (table(k), vec![0; n as usize * table_len(k)]);
        let mut entries = Entries::new(n, k, &table, &mut shares, &mut source).unwrap();
        for entry in 1..=6 {
            assert_eq!(drawn.get(), (entry - 1) * threshold(n));
            assert_eq!(entries.size_hint(), (1, Some(7 - entry)));
            assert_eq!(entries.next(), Some(Ok(entry as u64)));
        }
        for _ in 0..3 {
            assert_eq!(entries.size_hint(), (0, Some(0)));
            assert_eq!(entries.next(), None);
        }
        assert_eq!(entries.write_all(), Ok(()));
        assert_eq!(drawn.get(), coins_len(n, k));
    }
}

#[test]
fn the_rest_is_written_all() {
    let (n, k) = (5, 4);
    let (table, coins) = (table(k), coins(n, k));
    let mut shares = vec![0; n as usize * table_len(k)];
    let mut drawn = coins.iter().copied();
    let mut source = || drawn.next();
    let mut entries = Entries::new(n, k, &table, &mut shares, &mut source).unwrap();
    assert_eq!(entries.nth(2), Some(Ok(3)));
    assert_eq!(entries.write_all(), Ok(()));
    for (own, shares) in (1..).zip(shares.chunks(table_len(k))) {
        assert_eq!(shares, whole(n, own, k, &table, &coins));
    }
}

/// The source is lent, even one that could be copied: from copies each bid would
/// have the same coins.
#[test]
fn the_next_bid_goes_on_with_the_source_from_where_this_one_ended() {
    let (n, k) = (5, 3);
    let (table, length) = (table(k), coins_len(n, k) as u64);
    let mut drawn = 0;
    let mut source = move || {
        drawn += 1;
        Some(drawn)
    };
    // It is `Copy`.
    let _copy = source;
    for bid in 0..3 {
        let mut shares = vec![0; n as usize * table_len(k)];
        let entries = Entries::new(n, k, &table, &mut shares, &mut source).unwrap();
        assert_eq!(entries.write_all(), Ok(()));
        let coins: Vec<u64> = (1..=length).map(|coin| bid * length + coin).collect();
        for (own, shares) in (1..).zip(shares.chunks(table_len(k))) {
            assert_eq!(shares, whole(n, own, k, &table, &coins));
        }
    }
}

/// A bid that is not whole is added by no party, whatever stood in its places.
#[test]
fn a_place_that_the_iterator_did_not_come_to_is_no_share() {
    let (n, k) = (5, 2);
    let table = table(k);
    for before in [0, 7, PRIME - 1] {
        for written in 0..=table_len(k) {
            let mut shares = vec![before; n as usize * table_len(k)];
            let mut source = || Some(31);
            let entries = Entries::new(n, k, &table, &mut shares, &mut source).unwrap();
            assert!(entries.take(written).all(|entry| entry.is_ok()));
            let expected = if written == table_len(k) {
                Ok(())
            } else {
                Err(Refusal::ShareOutOfRange)
            };
            for (own, shares) in (1..).zip(shares.chunks(table_len(k))) {
                let mut session = Collecting::open(seat(n, own, k)).unwrap();
                assert_eq!(session.add(1, shares), expected);
            }
        }
    }
}

/// How often a word of no use is drawn again, and then no more.
const TRIES: usize = 64;

/// Before each place of a bid's coins in turn stand words that are no coins. They are
/// drawn again, and what is written is the same.
#[test]
fn a_word_that_is_no_coin_is_drawn_again() {
    let (n, k) = (7, 2);
    let (table, coins) = (table(k), coins(n, k));
    for (worn, word) in (0..coins.len()).flat_map(|place| [(place, PRIME), (place, u64::MAX)]) {
        for times in [1, 2, TRIES - 1] {
            let mut shares = vec![0; n as usize * table_len(k)];
            let before = coins[..worn].iter().copied();
            let again = std::iter::repeat_n(word, times);
            let mut words = before.chain(again).chain(coins[worn..].iter().copied());
            let mut source = || words.next();
            let entries = Entries::new(n, k, &table, &mut shares, &mut source).unwrap();
            assert_eq!(entries.write_all(), Ok(()));
            assert_eq!(words.next(), None);
            for (own, shares) in (1..).zip(shares.chunks(table_len(k))) {
                assert_eq!(shares, whole(n, own, k, &table, &coins));
            }
        }
    }
}

/// How a source fails at a place of a bid's coins: it has nothing there, or there and
/// ever after, or from there on only words that are no coins.
#[derive(Clone, Copy)]
enum Worn {
    Once,
    Empty,
    Stuck(u64),
}

/// A source fails at each place of a bid's coins in turn.
#[test]
fn a_source_that_has_no_coin_ends_it_and_no_party_has_an_entry() {
    let (n, k) = (7, 2);
    let (table, coins) = (table(k), coins(n, k));
    let stuck = [PRIME, u64::MAX].map(Worn::Stuck);
    let ways = [Worn::Once, Worn::Empty, stuck[0], stuck[1]];
    for (failed, worn) in (0..coins.len()).flat_map(|place| ways.map(|worn| (place, worn))) {
        let refused = (failed / threshold(n)) as u64 + 1;
        let mut shares = vec![0; n as usize * table_len(k)];
        let mut places = 0..;
        let mut source = || match (places.next()?, worn) {
            (place, _) if place < failed => Some(coins[place]),
            (place, Worn::Once) if place > failed => Some(coins[place]),
            (_, Worn::Once | Worn::Empty) => None,
            (_, Worn::Stuck(word)) => Some(word),
        };
        let mut entries = Entries::new(n, k, &table, &mut shares, &mut source).unwrap();
        for entry in 1..refused {
            assert_eq!(entries.next(), Some(Ok(entry)));
        }
        let refusal = Refusal::CoinOutOfRange;
        assert_eq!(entries.next(), Some(Err(refusal)));
        for _ in 0..3 {
            assert_eq!(entries.size_hint(), (0, Some(0)));
            assert_eq!(entries.next(), None);
        }
        // What is not whole is not called so.
        assert_eq!(entries.write_all(), Err(refusal));
        // Nothing more was drawn, and what was written before is blank again.
        let tries = if matches!(worn, Worn::Stuck(_)) {
            TRIES
        } else {
            1
        };
        assert_eq!(places.start, failed + tries);
        assert!(shares.iter().all(|&share| share == BLANK));
    }
}

#[test]
fn a_table_is_refused_before_any_party_has_an_entry() {
    for (table, refusal) in [
        ([5, 2, 1, MAX_AMOUNT + 1], Refusal::AmountTooLarge),
        ([5, u64::MAX, 1, 4], Refusal::AmountTooLarge),
        ([5, 6, 1, 4], Refusal::NotMonotone),
        ([5, 2, 4, 1], Refusal::NotMonotone),
    ] {
        let (mut shares, mut source) = ([0; 3 * 4], || Some(7));
        let entries = Entries::new(3, 2, &table, &mut shares, &mut source).unwrap();
        assert_eq!(entries.write_all(), Err(refusal));
        let mut entries = Entries::new(3, 2, &table, &mut shares, &mut source).unwrap();
        assert_eq!(entries.next(), Some(Err(refusal)));
        assert_eq!(entries.next(), None);
        assert_eq!(shares, [BLANK; 3 * 4]);
    }
}

/// Makes an iterator with a source that must not be asked. Refused, it leaves
/// the shares as they were; else what they held is gone.
fn refused_entries(n: u64, k: u64, table: usize, shares: usize) -> Option<Refusal> {
    let (table, mut shares) = (vec![0; table], vec![7; shares]);
    let mut source = || -> Option<u64> { panic!("nothing is drawn yet") };
    let refusal = Entries::new(n, k, &table, &mut shares, &mut source).err();
    let expected = if refusal.is_some() { 7 } else { BLANK };
    assert!(shares.iter().all(|&share| share == expected));
    refusal
}

#[test]
fn what_no_iterator_is_made_of() {
    const HALF: u64 = 1 << 63;
    const MOST: u64 = u64::MAX;
    let out_of_range = Some(Refusal::OutOfRange);
    for n in [0, 1, 2, 10, 1 << 32, (1 << 32) + 3, HALF, HALF + 3, MOST] {
        for k in [0, 1, 2, MAX_PRICES, HALF, MOST] {
            for (table, shares) in [(0, 0), (2, 6), (4, 12)] {
                assert_eq!(refused_entries(n, k, table, shares), out_of_range);
            }
        }
    }
    for k in [0, MAX_PRICES + 1, 1 << 32, HALF, HALF + 1, MOST] {
        for n in PARTIES {
            for (table, shares) in [(0, 0), (2, 2 * n as usize)] {
                assert_eq!(refused_entries(n, k, table, shares), out_of_range);
            }
        }
    }
    let wrong_length = Some(Refusal::WrongLength);
    for n in PARTIES {
        for k in [1, 2, MAX_PRICES] {
            let (table, shares) = (table_len(k), n as usize * table_len(k));
            assert_eq!(refused_entries(n, k, table, shares), None);
            for (table, shares) in [
                (0, 0),
                (table - 1, shares),
                (table + 1, shares),
                (table, 0),
                (table, table),
                (table, shares - table),
                (table, shares - 1),
                (table, shares + 1),
                (table, shares + table),
            ] {
                assert_eq!(refused_entries(n, k, table, shares), wrong_length);
            }
        }
    }
}

#[test]
fn neither_table_nor_shares_are_shown() {
    let (table, mut shares) = ([5, 3], [0; 6]);
    let mut coins = [7].into_iter();
    let mut source = || coins.next();
    let mut entries = Entries::new(3, 1, &table, &mut shares, &mut source).unwrap();
    entries.next();
    let shown = "Entries { n: 3, k: 1, written: 1, refused: None, .. }";
    assert_eq!(format!("{entries:?}"), shown);
    entries.next();
    let shown = "Entries { n: 3, k: 1, written: 1, refused: Some(CoinOutOfRange), .. }";
    assert_eq!(format!("{entries:?}"), shown);
}

/// Party `own`'s share of one entry of a bid among n, from these coins.
fn share(n: u64, own: u64, entry: u64, table: &[u64], coins: &[u64]) -> u64 {
    let k = table.len() as u64 / 2;
    let mut shares = vec![BLANK; table.len()];
    split_entry(seat(n, own, k), entry, table, coins, &mut shares).unwrap();
    shares[entry as usize - 1]
}

/// What two shares differ by.
fn difference(one: u64, other: u64) -> u64 {
    (one + PRIME - other) % PRIME
}

/// Why every entry has new coins: from the same ones, what two amounts differ by
/// can be read by every party, alone.
#[test]
fn amounts_are_given_away_by_coins_used_again() {
    let coins = &coins(9, 1)[..4];
    let (table, another) = ([9_000, 8_200, 70, 950], [4_444, 10, 0, 0]);
    for own in 1..=9 {
        let first = share(9, own, 1, &table, coins);
        let read = |entry, table: &[u64]| difference(first, share(9, own, entry, table, coins));
        // Two entries of a bid.
        assert_eq!(read(2, &table), 9_000 - 8_200);
        assert_eq!(read(4, &table), 9_000 - 950);
        // An entry of another bid, or written anew with another amount.
        assert_eq!(read(1, &another), 9_000 - 4_444);
    }
}

/// So it is with a source that repeats itself, and nothing tells.
#[test]
fn amounts_are_given_away_by_a_source_that_repeats_itself() {
    let (table, mut shares) = ([9_000, 8_200, 70, 950], [0; 5 * 4]);
    let mut coins = [31, 47].into_iter().cycle();
    let mut source = || coins.next();
    let entries = Entries::new(5, 2, &table, &mut shares, &mut source).unwrap();
    assert_eq!(entries.write_all(), Ok(()));
    for shares in shares.chunks(4) {
        assert_eq!(shares[0] - shares[1], 9_000 - 8_200);
        assert_eq!(shares[3] - shares[2], 950 - 70);
    }
}

/// Any two of five parties put together what they have: the same secret, and
/// added to it one unknown word times the party's weight. Crosswise that word
/// cancels, and a small secret is read.
fn assert_two_read(secret: u64, weight: impl Fn(u64) -> u64, has: impl Fn(u64) -> u64) {
    let times = |weight: u64, word: u64| u128::from(weight) * u128::from(word);
    for other in 2..=5 {
        for own in 1..other {
            let (less, more) = (weight(own), weight(other));
            let crossed = times(more, has(own)) + times(less, PRIME - has(other));
            let crossed = (crossed % u128::from(PRIME)) as u64;
            assert_eq!(crossed / (more - less), secret);
        }
    }
}

/// Where one of two coins recurs, two parties read what two amounts differ by,
/// and one does not.
#[test]
fn amounts_are_given_away_to_two_parties_by_one_coin_of_two_used_again() {
    let coins = &coins(5, 2)[..3];
    let (table, another) = ([9_000, 70], [4_444, 0]);
    // The place of the coin that is new.
    for new in 0..2 {
        let weight = |own: u64| own.pow(new as u32 + 1);
        let mut again = [coins[0], coins[1]];
        again[new] = coins[2];
        assert_two_read(9_000 - 4_444, weight, |own| {
            let share = |table: &[u64], coins: &[u64]| share(5, own, 1, table, coins);
            difference(share(&table, &coins[..2]), share(&another, &again))
        });
        // A party alone has the same share of another amount.
        let mut fits = again;
        fits[new] -= 1;
        for own in 1..=5 {
            let larger = [4_444 + weight(own), 0];
            let held = share(5, own, 1, &another, &again);
            assert_eq!(share(5, own, 1, &larger, &fits), held);
        }
    }
}

/// One coin twice within an entry gives two parties the amount itself.
#[test]
fn an_amount_is_given_away_to_two_parties_by_one_coin_twice() {
    let coin = coins(5, 1)[0];
    let weight = |own: u64| own + own * own;
    let has = |own: u64| share(5, own, 1, &[9_000, 70], &[coin, coin]);
    assert_two_read(9_000, weight, has);
}

/// Why shares are handed out once all entries are written: zeros that are left
/// at all parties are shares of 0, and nothing tells.
#[test]
fn a_place_of_zeros_that_is_not_written_counts_as_0() {
    let n = 5;
    for own in 1..=n {
        let left = by_entries((n, own, 1), [2], &[5, 3], &[0, 0, 31, 47], vec![0; 2]);
        assert_eq!(left, whole(n, own, 1, &[0, 3], &[0, 0, 31, 47]));
    }
}

/// Why the same table is lent to all calls: each judges the one that it is lent.
#[test]
fn amounts_of_two_tables_make_a_bid_that_nothing_judges() {
    let coins = [31, 47, 59, 88];
    let (one, another, mixed) = ([2, 2, 0, 0], [5, 5, 0, 0], [2, 5, 0, 0]);
    let mut shares = by_entries((3, 1, 2), [1, 3, 4], &one, &coins, vec![BLANK; 4]);
    shares = by_entries((3, 1, 2), [2], &another, &coins, shares);
    assert_eq!(shares, [2 + 31, 5 + 47, 59, 88]);
    let refused = split(seat(3, 1, 2), &mixed, &coins, &mut shares);
    assert_eq!(refused, Err(Refusal::NotMonotone));
}
