//! Whole auctions by the plain calls, each on both ways and against its totals in the
//! clear: the verdicts, what the first search gives, the price, the totals that are
//! opened there and what each buyer gets. In some of them parties drop off, and come
//! back or do not.

use clockivy_reference::{
    add, answer, deal, drawn_len, fill, hear, message_len, open, probe_limit, say, sheet_count,
    sheet_len, split, threshold, DEMAND_ROUND, FIRST_SEARCH, MAX_AMOUNT, NO_MORE_ROUNDS, RECORD,
    SECOND_SEARCH, SUPPLY_ROUND, WAYS,
};
use clockivy_testing::place::{
    CARRY, DEMAND, FIRST, FIRST_PROBES, HI, LAST, LO, PAIRS, PROBES, ROUND, SEARCH, SUM, SUPPLY,
};
use clockivy_testing::{meeting, tables};

/// Total demand and total supply at each price.
struct Totals {
    demand: Vec<u64>,
    supply: Vec<u64>,
}

impl Totals {
    fn of(k: u64, bids: &[Vec<u64>]) -> Totals {
        let total = |place| bids.iter().map(|table| table[place]).sum();
        let k = k as usize;
        Totals {
            demand: (0..k).map(total).collect(),
            supply: (k..2 * k).map(total).collect(),
        }
    }

    fn prices(&self) -> u64 {
        self.demand.len() as u64
    }

    /// Demand and supply at an index.
    fn at(&self, index: u64) -> (u64, u64) {
        let place = index as usize - 1;
        (self.demand[place], self.supply[place])
    }

    /// The highest index with demand at least supply, or 0.
    fn highest(&self) -> u64 {
        let clears = |&index: &u64| self.at(index).0 >= self.at(index).1;
        (1..=self.prices()).filter(clears).max().unwrap_or(0)
    }

    /// The lowest index from 1 to that one with supply at least demand.
    fn lowest(&self) -> Option<u64> {
        let balances = |&index: &u64| self.at(index).1 >= self.at(index).0;
        (1..=self.highest()).filter(balances).min()
    }

    fn price(&self) -> u64 {
        match self.lowest() {
            Some(lowest) => (self.highest() + lowest) / 2,
            None => self.highest(),
        }
    }
}

/// Small words that differ from call to call.
struct Coins(u64);

impl Coins {
    fn word(&mut self) -> u64 {
        self.0 = self.0.wrapping_mul(6_364_136_223_846_793_005) + 1;
        self.0 >> 24
    }

    fn words(&mut self, length: usize) -> Vec<u64> {
        (0..length).map(|_| self.word()).collect()
    }
}

/// What one party keeps.
struct Seat {
    record: [u64; RECORD],
    totals: Vec<u64>,
    sheets: Vec<u64>,
    /// The rounds that it has heard.
    heard: usize,
}

/// A round: all messages, and the marks of who was present.
struct Round {
    messages: Vec<u64>,
    present: Vec<u8>,
}

/// When a round is: counted from 0 over the whole auction, and by its number, 1 to
/// the last one in each probe and then 34 and 35.
#[derive(Clone, Copy)]
struct When {
    count: u64,
    round: u64,
    last: u64,
}

/// Whether a party, from 1 to n, is away in a round.
type Away = fn(n: u64, party: u64, when: When) -> bool;

/// Everybody is there.
const NOBODY: Away = |_, _, _| false;

/// All parties of an auction with the bids added. No sheet is dealt yet, and
/// what stands in its place is none.
fn seats(n: u64, k: u64, last: u64, bids: &[Vec<u64>], coins: &mut Coins) -> Vec<Seat> {
    let length = 2 * k as usize;
    let mut seats: Vec<Seat> = (1..=n)
        .map(|own| {
            let (mut record, mut totals) = ([9; RECORD], vec![9; length]);
            assert_eq!(open(n, own, k, last, &mut totals, &mut record), 0);
            let sheets = vec![u64::MAX; sheet_len(last) * sheet_count(k) as usize];
            Seat {
                record,
                totals,
                sheets,
                heard: 0,
            }
        })
        .collect();
    for (bidder, table) in (1..).zip(bids) {
        let coins = coins.words(length * threshold(n));
        for (own, Seat { record, totals, .. }) in (1..).zip(&mut seats) {
            let mut shares = vec![0; length];
            assert_eq!(split(n, own, k, table, &coins, &mut shares), 0);
            assert_eq!(add(record, totals, bidder, &shares), 0);
        }
    }
    seats
}

/// An auction under way.
struct Auction<'a> {
    bids: &'a [Vec<u64>],
    /// What it has to come to.
    totals: Totals,
    last: u64,
    away: Away,
    coins: Coins,
    seats: Vec<Seat>,
    rounds: Vec<Round>,
}

impl Auction<'_> {
    fn open(away: Away, n: u64, k: u64, last: u64, bids: &[Vec<u64>]) -> Auction<'_> {
        let mut coins = Coins(k + 1);
        Auction {
            bids,
            totals: Totals::of(k, bids),
            last,
            away,
            seats: seats(n, k, last, bids, &mut coins),
            coins,
            rounds: Vec::new(),
        }
    }

    /// A party that has heard all rounds.
    fn front(&self) -> &Seat {
        let heard_all = |seat: &&Seat| seat.heard == self.rounds.len();
        self.seats.iter().find(heard_all).unwrap()
    }

    /// A search over the indices 1 to `last`, by its number and what the first one
    /// gave, checked at every probe against the totals. Gives lo, hi and its probes.
    fn search(&mut self, [number, first, first_probes]: [u64; 3], last: u64) -> [u64; 3] {
        let (mut lo, mut hi, mut probes) = (0, last + 1, 0);
        while hi - lo > 1 {
            let record = &self.front().record;
            assert_eq!(search(record), [number, lo, hi, first, first_probes]);
            assert_going_on(record);
            let index = (lo + hi) / 2;
            let (demand, supply) = self.totals.at(index);
            self.probe();
            probes += 1;
            let end = match number {
                FIRST_SEARCH if demand >= supply => &mut lo,
                FIRST_SEARCH => &mut hi,
                _ if supply >= demand => &mut hi,
                _ => &mut lo,
            };
            *end = index;
        }
        [lo, hi, probes]
    }

    /// One probe. Its sheet is the only one of a party that has heard all before.
    fn probe(&mut self) {
        let n = self.seats.len() as u64;
        let last = self.last;
        let words = self.coins.words(1 + threshold(n));
        let bytes = self.coins.words(drawn_len(n, last));
        let bytes: Vec<u8> = bytes.into_iter().map(|word| word as u8).collect();
        let length = sheet_len(last);
        let start = length * self.front().record[PROBES] as usize;
        for (own, seat) in (1..).zip(&mut self.seats) {
            let sheet = &mut seat.sheets[start..start + length];
            assert_eq!(deal(n, own, last, &words, &bytes, sheet), 0);
        }
        for _ in 1..=last {
            self.round();
        }
    }

    /// One round, of a probe or of the totals.
    fn round(&mut self) {
        let n = self.seats.len() as u64;
        let when = When {
            count: self.rounds.len() as u64,
            round: self.front().record[ROUND],
            last: self.last,
        };
        let width = message_len(when.last, when.round);
        let mut round = Round {
            messages: self.coins.words(width * self.seats.len()),
            present: vec![0; self.seats.len()],
        };
        let messages = round.messages.chunks_exact_mut(width);
        for (place, (seat, message)) in self.seats.iter_mut().zip(messages).enumerate() {
            if !(self.away)(n, place as u64 + 1, when) {
                // A party that comes back hears what it has missed, in order.
                catch_up(seat, &self.rounds);
                round.present[place] = 1;
                assert_eq!(say(&seat.record, &seat.totals, &seat.sheets, message), 0);
            }
        }
        self.rounds.push(round);
        for (own, seat) in (1..).zip(&mut self.seats) {
            if !(self.away)(n, own, when) {
                catch_up(seat, &self.rounds);
            }
        }
    }

    /// The two rounds of the totals, where there is a price.
    fn open_totals(&mut self) {
        if self.totals.price() > 0 {
            for round in [DEMAND_ROUND, SUPPLY_ROUND] {
                let record = &self.front().record;
                assert_eq!(record[ROUND], round);
                assert_going_on(record);
                self.round();
            }
        }
    }

    /// Asks every party. Gives how many have answered, after so many probes.
    fn ask(&self, probes: u64) -> u64 {
        let mut answered = 0;
        for seat in &self.seats {
            if seat.heard < self.rounds.len() {
                assert_going_on(&seat.record);
                continue;
            }
            let (mut index, mut made) = (0, 0);
            let reply = answer(&seat.record, &mut index, &mut made);
            assert_eq!((reply, index, made), (0, self.totals.price(), probes));
            assert_silent(seat, self.seats.len());
            assert_filled(&seat.record, &self.totals, self.bids);
            answered += 1;
        }
        answered
    }
}

/// A party hears all rounds that it has not heard yet. What stood in the place of
/// a sheet that has been used is none from then on.
fn catch_up(seat: &mut Seat, rounds: &[Round]) {
    let Seat {
        record,
        totals,
        sheets,
        heard,
    } = seat;
    for Round { messages, present } in &rounds[*heard..] {
        assert_eq!(hear(record, totals, sheets, messages, present), 0);
        sheets[..sheet_len(record[LAST]) * record[PROBES] as usize].fill(u64::MAX);
    }
    *heard = rounds.len();
}

/// The search's numbers in a record: search, lo, hi, first, first probes.
fn search(record: &[u64; RECORD]) -> [u64; 5] {
    [SEARCH, LO, HI, FIRST, FIRST_PROBES].map(|place| record[place])
}

/// Runs an auction of these bids on both ways with every party there, and checks it
/// at every probe.
fn run(n: u64, k: u64, bids: &[Vec<u64>]) {
    assert_eq!(run_without(NOBODY, n, k, bids), n);
}

/// The same with some of the parties away at times. Gives how many have answered,
/// which are as many on one way as on the other: those that were there in the last
/// round.
fn run_without(away: Away, n: u64, k: u64, bids: &[Vec<u64>]) -> u64 {
    let [one, other] = WAYS.map(|last| run_one(away, n, k, last, bids));
    assert_eq!(one, other);
    one
}

/// The same on one way.
fn run_one(away: Away, n: u64, k: u64, last: u64, bids: &[Vec<u64>]) -> u64 {
    let mut auction = Auction::open(away, n, k, last, bids);
    let [first, _, first_probes] = auction.search([FIRST_SEARCH, 0, 0], k);
    assert_eq!(first, auction.totals.highest());
    assert!(first_probes <= probe_limit(k));
    let [lo, hi, probes] = auction.search([SECOND_SEARCH, first, first_probes], first);
    let ended = [SECOND_SEARCH, lo, hi, first, first_probes];
    assert_eq!(search(&auction.front().record), ended);
    assert!(probes <= probe_limit(first));
    auction.open_totals();
    auction.ask(first_probes + probes)
}

/// Before the auction is over, there is no answer and no fill.
fn assert_going_on(record: &[u64; RECORD]) {
    assert_eq!(answer(record, &mut 0, &mut 0), 3);
    assert_eq!(fill(record, 0, &mut 0, &mut 0), 16);
}

/// The totals in a record that is over, and what each bid gets by them.
fn assert_filled(record: &[u64; RECORD], totals: &Totals, bids: &[Vec<u64>]) {
    let price = totals.price();
    let mut left = (7, 8);
    if price == 0 {
        assert_eq!([record[ROUND], record[DEMAND], record[SUPPLY]], [1, 0, 0]);
        for amount in [0, 1, u64::MAX] {
            assert_eq!(fill(record, amount, &mut left.0, &mut left.1), 16);
        }
        assert_eq!(left, (7, 8));
        return;
    }
    let (demand, supply) = totals.at(price);
    let opened = [record[ROUND], record[DEMAND], record[SUPPLY]];
    assert_eq!(opened, [NO_MORE_ROUNDS, demand, supply]);
    let (mut sold, mut remainders, mut buyers) = (0, 0, 0);
    for table in bids {
        let amount = table[price as usize - 1];
        let (mut tenths, mut remainder) = (7, 8);
        assert_eq!(fill(record, amount, &mut tenths, &mut remainder), 0);
        assert_eq!(tenths * demand + remainder, amount * supply);
        assert!(tenths <= amount && remainder < demand.max(1));
        sold += tenths;
        remainders += remainder;
        buyers += u64::from(amount > 0);
    }
    assert_eq!(sold * demand + remainders, demand * supply);
    if demand > 0 {
        assert!(supply - sold < buyers);
    }
    // Of any amount, and one that is too large.
    assert_eq!(fill(record, MAX_AMOUNT, &mut 0, &mut 0), 0);
    for amount in [MAX_AMOUNT + 1, u64::MAX] {
        assert_eq!(fill(record, amount, &mut left.0, &mut left.1), 6);
    }
    assert_eq!(left, (7, 8));
}

/// When the auction is over, nothing is said or heard, and nothing is kept of the last
/// probe.
fn assert_silent(seat: &Seat, parties: usize) {
    let (mut message, mut record) = ([7], seat.record);
    assert_eq!([record[SUM], record[CARRY]], [0, 0]);
    assert_eq!(record[PAIRS..], [0; 32]);
    let (messages, present) = (vec![0; parties], vec![1; parties]);
    let said = say(&record, &seat.totals, &seat.sheets, &mut message);
    let heard = hear(&mut record, &seat.totals, &seat.sheets, &messages, &present);
    assert_eq!([said, heard], [3, 3]);
    assert_eq!((message, record), ([7], seat.record));
}

#[test]
fn every_table_of_few_prices_and_small_amounts() {
    for k in 1..=4 {
        for table in tables(k, 2) {
            run(3, k, &[table]);
        }
    }
}

#[test]
fn every_run_of_balanced_prices() {
    for k in 1..=9 {
        for high in 0..=k {
            for low in 1..=high + 1 {
                let table = meeting(k, low, high);
                let totals = Totals::of(k, std::slice::from_ref(&table));
                let lowest = (low <= high).then_some(low);
                assert_eq!((totals.highest(), totals.lowest()), (high, lowest));
                run(3, k, &[table]);
            }
        }
    }
}

#[test]
fn bids_of_several_bidders_and_every_number_of_parties() {
    let bids = [
        vec![9, 7, 7, 7, 3, 0, 0, 0, 0, 4],
        vec![2, 2, 2, 2, 2, 1, 1, 1, 1, 1],
        vec![0, 0, 0, 0, 0, 3, 8, 8, 8, 8],
    ];
    assert_eq!(Totals::of(5, &bids).price(), 3);
    for n in 3..=9 {
        run(n, 5, &bids);
        run(n, 5, &bids[..2]);
        run(n, 5, &bids[2..]);
    }
}

#[test]
fn no_bids_give_the_middle_of_the_list() {
    for k in (1..=20).chain([63, 64, 255, 256, 1_023, 1_024]) {
        assert_eq!(Totals::of(k, &[]).price(), k.div_ceil(2));
        run(3, k, &[]);
    }
}

/// The parties that can be away: n - t - 1 of them.
fn spare(n: u64) -> u64 {
    n - threshold(n) as u64 - 1
}

/// A window of so many parties as can be away moves on by one every third round,
/// so that each comes back in the middle of a probe and drops off again.
const IN_TURN: Away = |n, party, when| (party + when.count / 3) % n < spare(n);

/// The first parties drop off in round 5 of the first probe and hear no more.
const FOR_GOOD: Away = |n, party, when| party <= spare(n) && when.count >= 4;

/// The last parties miss three rounds of each probe, the verdict's among them.
const OVER_THE_END: Away =
    |n, party, when| party > n - spare(n) && [when.last - 1, when.last, 1].contains(&when.round);

/// The first parties miss a round in the middle of each probe, between two levels where
/// there are such.
const BETWEEN_LEVELS: Away = |n, party, when| party <= spare(n) && when.round == 4;

/// The second party misses the whole first probe and more, and then the first two
/// rounds of the fourth.
const A_WHOLE_PROBE: Away = |_, party, when| {
    let (first, fourth) = (0..when.last + 3, 3 * when.last..3 * when.last + 2);
    party == 2 && (first.contains(&when.count) || fourth.contains(&when.count))
};

/// The last parties miss the round of total demand, and hear it before they say
/// their share of supply.
const WITHOUT_DEMAND: Away = |n, party, when| party > n - spare(n) && when.round == DEMAND_ROUND;

/// The first parties hear neither total.
const WITHOUT_TOTALS: Away = |n, party, when| party <= spare(n) && when.round >= DEMAND_ROUND;

#[test]
fn parties_that_drop_off() {
    let bids = [
        vec![9, 7, 7, 7, 3, 0, 0, 0, 0, 4],
        vec![2, 2, 2, 2, 2, 1, 1, 1, 1, 1],
        vec![0, 0, 0, 0, 0, 3, 8, 8, 8, 8],
    ];
    for n in 3..=9 {
        for bids in [&bids[..], &bids[..2], &bids[2..], &[]] {
            let clears = Totals::of(5, bids).price() > 0;
            let answered = |away| run_without(away, n, 5, bids);
            assert_eq!(answered(IN_TURN), n - spare(n));
            assert_eq!(answered(FOR_GOOD), n - spare(n));
            // Without a price the last round is one that is missed.
            let missed = if clears { 0 } else { spare(n) };
            assert_eq!(answered(OVER_THE_END), n - missed);
            assert_eq!(answered(BETWEEN_LEVELS), n);
            assert_eq!(answered(A_WHOLE_PROBE), n);
            assert_eq!(answered(WITHOUT_DEMAND), n);
            let missed = if clears { spare(n) } else { 0 };
            assert_eq!(answered(WITHOUT_TOTALS), n - missed);
        }
    }
}
