//! Whole auctions, on both ways: every call is compared, shares that are split at once
//! are checked against their entries, each verdict, what the first search gives, the
//! answer, the totals that are opened and what all buyers get against the totals of
//! the bids, the settlement page is read back, and damaged calls and bids that are sent
//! again stand in between. Parties drop off in the middle of a probe and come back, or
//! do not, and all who hear a round come to the same. So do the two ways in the end.

use clockivy::words::place::{
    BIDS, CARRY, DEMAND, FIRST, FIRST_PROBES, HI, LO, OWN, PAIRS, PROBES, ROLL, ROUND, SEARCH,
    SUPPLY,
};
use clockivy::{
    coins_len, deal_words_len, sheet_count, table_len, Refusal, PAIRS_LEN, RECORD_LEN,
    SETTLEMENT_LEN,
};
use clockivy_reference::field::amount::P;
use clockivy_reference::{
    drawn_len, probe_limit, sheet_len, threshold, DEMAND_ROUND, FIRST_SEARCH, HIGHEST_PRICE,
    MAX_AMOUNT, MAX_BIDS, SECOND_SEARCH, WAYS,
};
use clockivy_testing::count;

use crate::attendance::Attendance;
use crate::call::Call;
use crate::damage::damage;
use crate::differential::{Difference, Tally};
use crate::generate;
use crate::outcome::Totals;
use crate::page;
use crate::record::{
    has_bid, has_cleared, has_searched, index, is_of_a_level, is_of_a_verdict, is_over, mark, way,
    width,
};
use crate::rng::Rng;

/// A bid.
#[derive(Clone)]
struct Bid {
    bidder: u64,
    table: Vec<u64>,
}

/// How the parties of an auction attend.
#[derive(Clone, Copy)]
pub enum Attending {
    /// All are present in every round.
    Everybody,
    /// All but t + 1 may drop off in any round, and come back later or not.
    DroppingOff,
}

/// What one party keeps.
struct Seat {
    record: Vec<u64>,
    totals: Vec<u64>,
    sheets: Vec<u64>,
    /// Whether it takes part. Then it has heard every round.
    there: bool,
    /// The number of rounds that it has heard.
    heard: usize,
    /// Whether it has heard one late since it was last marked.
    was_late: bool,
}

/// A round, as it is kept for those who come back.
struct Round {
    messages: Vec<u64>,
    present: Vec<u8>,
    /// What the first party that heard it has in common with all others then.
    common: Vec<u64>,
}

/// How often a party that is there drops off, and one that is not comes back: once
/// in so many rounds.
struct Rates {
    off: u64,
    back: u64,
}

struct Auction<'a> {
    rng: &'a mut Rng,
    tally: &'a mut Tally,
    n: u64,
    k: u64,
    last: u64,
    bids: Vec<Bid>,
    /// The sums that nobody has, to hold the verdicts and the answer against.
    totals: Totals,
    seats: Vec<Seat>,
    /// None where everybody attends.
    rates: Option<Rates>,
    rounds: Vec<Round>,
    seen: Attendance,
}

/// Runs one auction on both ways, of bids with these tables, at most 1,000, of as many
/// bidders.
pub fn whole(
    rng: &mut Rng,
    n: u64,
    k: u64,
    tables: Vec<Vec<u64>>,
    attending: Attending,
    tally: &mut Tally,
) -> Result<(), Difference> {
    let bids: Vec<Bid> = rng
        .numbers(MAX_BIDS, tables.len() as u64)
        .into_iter()
        .zip(tables)
        .map(|(bidder, table)| Bid { bidder, table })
        .collect();
    let mut ends = Vec::new();
    for last in WAYS {
        let rates = match attending {
            Attending::Everybody => None,
            Attending::DroppingOff => Some(Rates {
                off: rng.pick(&[3, 20, 100]),
                back: rng.pick(&[2, 10, 50, 10_000]),
            }),
        };
        let mut auction = Auction {
            rng,
            tally,
            n,
            k,
            last,
            bids: bids.clone(),
            totals: Totals::of(k, bids.iter().map(|bid| &bid.table[..])),
            seats: Vec::new(),
            rates,
            rounds: Vec::new(),
            seen: Attendance::default(),
        };
        ends.push(auction.run()?);
        auction.holds(ends[0] == ends[ends.len() - 1], "the two ways differ")?;
    }
    Ok(())
}

/// What a record has in common with those of the other parties. The way is the last
/// word of it.
fn common(record: &[u64]) -> Vec<u64> {
    let [numbers, rest] = [&record[OWN + 1..CARRY], &record[ROLL..PAIRS]];
    [&record[..OWN], numbers, rest].concat()
}

/// Whether a record keeps nothing that is the party's own.
fn keeps_nothing(record: &[u64]) -> bool {
    record[CARRY] == 0 && record[PAIRS..] == [0; PAIRS_LEN]
}

impl Auction<'_> {
    /// All of it. Gives what all records have in common in the end, but for the way.
    fn run(&mut self) -> Result<Vec<u64>, Difference> {
        self.open()?;
        self.bid()?;
        self.deal()?;
        let mut verdicts = 0;
        while !has_searched(&self.front().record) {
            self.probe()?;
            verdicts += 1;
        }
        if has_cleared(&self.front().record) {
            self.open_totals()?;
        }
        self.come_back_at_the_end()?;
        self.ask(verdicts)?;
        self.share_out()?;
        let record = &self.front().record;
        let (way, mut end) = (way(record), common(record));
        let last = end.pop();
        self.holds(last == Some(self.last), "the way is another")?;
        self.tally.count_auction(way, &self.totals, &self.seen);
        Ok(end)
    }

    fn open(&mut self) -> Result<(), Difference> {
        for own in 1..=self.n {
            let totals = self.rng.words(table_len(self.k), Rng::word);
            let record = self.rng.words(RECORD_LEN, Rng::word);
            let call = Call::open(self.n, own, self.k, self.last, &totals, &record);
            let left = self.accepted(call)?;
            self.seats.push(Seat {
                totals: left.words[0].to_vec(),
                record: left.words[1].to_vec(),
                sheets: Vec::new(),
                there: true,
                heard: 0,
                was_late: false,
            });
        }
        Ok(())
    }

    /// Every party adds every bid, but not all in one order: where a line drops,
    /// the bid comes after the others.
    fn bid(&mut self) -> Result<(), Difference> {
        let mut expected = self.seats[0].record.clone();
        let mut late = Vec::new();
        for place in 0..self.bids.len() {
            let length = coins_len(self.n, self.k);
            let coins = self.rng.words(length, Rng::amount_share);
            let bidder = self.bids[place].bidder;
            for own in 1..=self.n {
                let shares = self.split(own, place, &coins)?;
                if self.rng.once_in(8) {
                    late.push((own, bidder, shares));
                } else {
                    self.add(own, bidder, &shares)?;
                }
            }
            mark(&mut expected, bidder);
            expected[BIDS] += 1;
        }
        while let Some((own, bidder, shares)) = late.pop() {
            self.add(own, bidder, &shares)?;
        }
        for (own, seat) in (1..).zip(&self.seats) {
            expected[OWN] = own;
            self.holds(seat.record == expected, "a roll is not that of the bids")?;
        }
        Ok(())
    }

    /// A party's shares of a bid. Now and then, less often where there are many
    /// prices, they are written once more, entry by entry, and come out the same.
    fn split(&mut self, own: u64, place: usize, coins: &[u64]) -> Result<Vec<u64>, Difference> {
        let table = &self.bids[place].table;
        let shares = self.rng.words(table.len(), Rng::word);
        let call = Call::split(self.n, own, self.k, table, coins, &shares);
        let shares = self.accepted(call)?.words[2].to_vec();
        let times = if self.k > 100 { 16 } else { 4 };
        if self.rng.once_in(times) {
            let by_entries = self.split_by_entries(own, place, coins)?;
            self.holds(by_entries == shares, "the entries are not those split")?;
        }
        Ok(shares)
    }

    /// The same from the same coins, entry by entry in any order.
    fn split_by_entries(
        &mut self,
        own: u64,
        place: usize,
        coins: &[u64],
    ) -> Result<Vec<u64>, Difference> {
        let t = threshold(self.n);
        let entries = 2 * self.k;
        let mut shares = self.rng.words(entries as usize, Rng::word);
        for entry in self.rng.numbers(entries, entries) {
            let start = (entry as usize - 1) * t;
            let coins = &coins[start..start + t];
            let table = &self.bids[place].table;
            let call = Call::split_entry(self.n, own, self.k, entry, table, coins, &shares);
            shares = self.accepted(call)?.words[2].to_vec();
        }
        Ok(shares)
    }

    /// A party adds a bid. Then that bid may come again, and others of those who
    /// are in.
    fn add(&mut self, own: u64, bidder: u64, shares: &[u64]) -> Result<(), Difference> {
        let seat = &self.seats[own as usize - 1];
        let call = Call::add(&seat.record, &seat.totals, bidder, shares);
        let left = self.accepted(call)?;
        let seat = &mut self.seats[own as usize - 1];
        seat.record = left.words[0].to_vec();
        seat.totals = left.words[1].to_vec();
        if self.rng.once_in(2) {
            self.send_again(own, bidder, shares)?;
        }
        let other = self.bids[self.rng.place(self.bids.len())].bidder;
        if has_bid(&self.seats[own as usize - 1].record, other) {
            let shares = self.rng.words(shares.len(), Rng::word);
            self.send_again(own, other, &shares)?;
        }
        Ok(())
    }

    /// A bid of someone who is in, the same as before or any other, is refused.
    /// That it changes nothing is part of the comparison.
    fn send_again(&mut self, own: u64, bidder: u64, shares: &[u64]) -> Result<(), Difference> {
        let seat = &self.seats[own as usize - 1];
        let call = Call::add(&seat.record, &seat.totals, bidder, shares);
        let (reply, _) = self.tally.compare(&call)?;
        self.holds(
            reply == Refusal::AlreadyEntered.number(),
            &format!("reply {reply} to a bid sent again,\n{call}\n"),
        )
    }

    fn deal(&mut self) -> Result<(), Difference> {
        for _ in 0..sheet_count(self.k) {
            let length = deal_words_len(self.n);
            let mut words = self.rng.words(length, Rng::amount_share);
            words[0] = self.rng.mask();
            let bytes = self.rng.bytes(drawn_len(self.n, self.last));
            for own in 1..=self.n {
                let sheet = self.rng.words(sheet_len(self.last), Rng::word);
                let call = Call::deal(self.n, own, self.last, &words, &bytes, &sheet);
                let left = self.accepted(call)?;
                self.seats[own as usize - 1]
                    .sheets
                    .extend_from_slice(&left.words[1]);
            }
        }
        Ok(())
    }

    /// A party that has heard every round.
    fn front(&self) -> &Seat {
        let there = self.seats.iter().find(|seat| seat.there);
        there.expect("t + 1 stay")
    }

    /// One probe: all rounds, then the verdict against the totals.
    fn probe(&mut self) -> Result<(), Difference> {
        let expected = self.probed(&self.front().record);
        for _ in 1..=self.last {
            self.round()?;
        }
        let after = &self.front().record;
        self.holds(
            common(after) == common(&expected) && keeps_nothing(after),
            "a verdict is not that of the totals",
        )
    }

    /// The record that a probe leaves, by the totals.
    fn probed(&self, before: &[u64]) -> Vec<u64> {
        let mut record = before.to_vec();
        let index = index(before) as u64;
        let end = match before[SEARCH] {
            FIRST_SEARCH if self.totals.clears(index) => LO,
            FIRST_SEARCH => HI,
            _ if self.totals.supplies(index) => HI,
            _ => LO,
        };
        record[end] = index;
        record[PROBES] += 1;
        if record[SEARCH] == FIRST_SEARCH && record[HI] - record[LO] == 1 {
            record[SEARCH] = SECOND_SEARCH;
            record[FIRST] = record[LO];
            record[FIRST_PROBES] = record[PROBES];
            record[HI] = record[FIRST] + 1;
            record[LO] = 0;
        }
        if has_cleared(&record) {
            record[ROUND] = DEMAND_ROUND;
        }
        record
    }

    /// The two rounds after the probes: the totals at the price, and then it is over.
    fn open_totals(&mut self) -> Result<(), Difference> {
        let (demand, supply) = self.totals.at(self.totals.price());
        let mut expected = self.front().record.clone();
        for (place, total) in [(DEMAND, demand), (SUPPLY, supply)] {
            self.holds(!is_over(&expected), "it is over before the totals are open")?;
            self.round()?;
            expected[place] = total;
            expected[ROUND] += 1;
            let after = &self.front().record;
            let right = common(after) == common(&expected) && keeps_nothing(after);
            self.holds(right, "a total is not that of the bids")?;
        }
        self.holds(
            is_over(&expected),
            "it is not over when the totals are open",
        )
    }

    /// One round: those who are there say their messages, and hear those that are
    /// marked.
    fn round(&mut self) -> Result<(), Difference> {
        for place in 0..self.seats.len() {
            self.come_or_go(place)?;
        }
        let present = self.marks();
        let length = width(&self.front().record);
        let mut messages = Vec::new();
        for (place, &mark) in present.iter().enumerate() {
            let mut message = self.rng.words(length, Rng::word);
            // One who is not marked may say something too: what it says where it
            // stands.
            if mark == 1 || self.rng.once_in(4) {
                let seat = &self.seats[place];
                message.resize(width(&seat.record), 0);
                let call = Call::say(&seat.record, &seat.totals, &seat.sheets, &message);
                message = self.accepted(call)?.words[3].to_vec();
                message.resize(length, 0);
            }
            messages.extend(message);
        }
        self.rounds.push(Round {
            messages,
            present,
            common: Vec::new(),
        });
        for place in 0..self.seats.len() {
            // A party may be cut off between what it says and what it hears.
            self.go(place);
            if self.seats[place].there {
                self.hear(place)?;
            }
        }
        Ok(())
    }

    /// How many more are there than have to be.
    fn spare(&self) -> usize {
        let there = self.seats.iter().filter(|seat| seat.there).count();
        there - (threshold(self.n) + 1)
    }

    /// A party that is there may drop off, where enough are left.
    fn go(&mut self, place: usize) {
        let spare = self.spare();
        if let Some(Rates { off, .. }) = self.rates {
            if self.seats[place].there && spare > 0 && self.rng.once_in(off) {
                self.seats[place].there = false;
                let record = &self.seats[place].record;
                let between = is_of_a_level(record) && record[ROUND] > 2;
                self.seen.off_between_levels += u64::from(between);
            }
        }
    }

    /// A party that is there may drop off; one that is not may come back, or hear a
    /// round that it has missed and stay away.
    fn come_or_go(&mut self, place: usize) -> Result<(), Difference> {
        let Some(Rates { back, .. }) = self.rates else {
            return Ok(());
        };
        if self.seats[place].there {
            self.go(place);
        } else if self.rng.once_in(back) {
            self.come_back(place)?;
        } else if self.seats[place].heard < self.rounds.len() && self.rng.once_in(4 * back) {
            self.hear(place)?;
        }
        Ok(())
    }

    /// A party hears all that it has missed, and is there again.
    fn come_back(&mut self, place: usize) -> Result<(), Difference> {
        while self.seats[place].heard < self.rounds.len() {
            self.hear(place)?;
        }
        self.seats[place].there = true;
        Ok(())
    }

    /// Marks those who are there, or now and then only some of them.
    fn marks(&mut self) -> Vec<u8> {
        let mut spare = self.spare();
        let mut present = Vec::new();
        for place in 0..self.seats.len() {
            let there = self.seats[place].there;
            let passed_over = self.rates.is_some() && there && spare > 0 && self.rng.once_in(16);
            spare -= usize::from(passed_over);
            present.push(u8::from(there && !passed_over));
        }
        let count = count(&present);
        self.seen.rounds_without_some += u64::from(count < present.len());
        self.seen.rounds_with_fewest += u64::from(count == threshold(self.n) + 1);
        for (seat, &mark) in self.seats.iter_mut().zip(&present) {
            if mark == 1 {
                self.seen.marked_again += u64::from(seat.was_late);
                seat.was_late = false;
            }
        }
        present
    }

    /// A party hears the next round that it has not heard, with anything in the
    /// places that are not marked. It comes to what the others have come to.
    fn hear(&mut self, place: usize) -> Result<(), Difference> {
        let number = self.seats[place].heard;
        let Round {
            messages, present, ..
        } = &self.rounds[number];
        let (mut messages, present) = (messages.clone(), present.clone());
        let length = messages.len() / present.len();
        for (message, &mark) in messages.chunks_exact_mut(length).zip(&present) {
            if mark == 0 {
                for word in message {
                    *word = self.rng.pick(&[*word, 0, 255, P, u64::MAX]);
                }
            }
        }
        let seat = &self.seats[place];
        let call = Call::hear(
            &seat.record,
            &seat.totals,
            &seat.sheets,
            &messages,
            &present,
        );
        self.count_hearing(place, present[place] == 1);
        let record = self.accepted(call)?.words[0].to_vec();
        let (found, kept) = (common(&record), &mut self.rounds[number].common);
        if kept.is_empty() {
            kept.clone_from(&found);
        }
        let agree = *kept == found;
        self.holds(agree, "the parties' records differ")?;
        self.seats[place].record = record;
        self.seats[place].heard += 1;
        Ok(())
    }

    /// Counts what a hearing is beside that of all who are there.
    fn count_hearing(&mut self, place: usize, marked: bool) {
        let seat = &mut self.seats[place];
        if seat.there {
            self.seen.heard_unmarked += u64::from(!marked);
            return;
        }
        seat.was_late = true;
        self.seen.heard_late += 1;
        self.seen.heard_late_though_marked += u64::from(marked);
        self.seen.verdicts_late += u64::from(is_of_a_verdict(&seat.record));
        self.seen.totals_late += u64::from(seat.record[ROUND] >= DEMAND_ROUND);
        self.seen.levels_late += u64::from(is_of_a_level(&seat.record));
    }

    /// When there is an answer, some of those who are away come back for it.
    fn come_back_at_the_end(&mut self) -> Result<(), Difference> {
        for place in 0..self.seats.len() {
            let behind = self.seats[place].heard < self.rounds.len();
            if behind && self.rng.once_in(2) {
                self.come_back(place)?;
                self.seen.back_at_the_end += 1;
            } else if behind {
                self.seen.gone += 1;
            }
        }
        Ok(())
    }

    /// Asks every party for the answer. Those that have heard every round have it.
    fn ask(&mut self, verdicts: u64) -> Result<(), Difference> {
        let (highest, price) = (self.totals.highest(), self.totals.price());
        for place in 0..self.seats.len() {
            let seat = &self.seats[place];
            let call = Call::answer(&seat.record, self.rng.word(), self.rng.word());
            if seat.heard < self.rounds.len() {
                let (reply, _) = self.tally.compare(&call)?;
                let out_of_turn = reply == Refusal::OutOfTurn.number();
                self.holds(out_of_turn, "one that is behind has an answer")?;
                continue;
            }
            let first = seat.record[FIRST];
            self.holds(first == highest, "the first search is wrong")?;
            let left = self.accepted(call)?;
            let (index, probes) = (left.words[1][0], left.words[2][0]);
            self.holds(index == price, "the answer is wrong")?;
            self.holds(probes == verdicts, "the number of probes is wrong")?;
        }
        self.holds(
            verdicts <= probe_limit(self.k) + probe_limit(highest),
            "there were too many probes",
        )
    }

    /// Asks every party for what each buyer gets. Those that have heard every round
    /// tell, where there is a price. Then all hours are settled.
    fn share_out(&mut self) -> Result<(), Difference> {
        let price = self.totals.price();
        let mut amounts = vec![0; SETTLEMENT_LEN];
        for place in 0..self.seats.len() {
            if price == 0 || self.seats[place].heard < self.rounds.len() {
                let record = &self.seats[place].record;
                let amount = self.rng.below(2 * MAX_AMOUNT);
                let call = Call::fill(record, amount, self.rng.word(), self.rng.word());
                let (reply, _) = self.tally.compare(&call)?;
                let not_cleared = reply == Refusal::NotCleared.number();
                self.holds(not_cleared, "a fill without totals")?;
                continue;
            }
            let (demand, supply) = self.totals.at(price);
            let (mut got, mut remainders, mut buyers) = (0, 0, 0);
            for bid in 0..self.bids.len() {
                let Bid { bidder, table } = &self.bids[bid];
                let first = 4 * (*bidder as usize - 1);
                let amount = table[price as usize - 1];
                let sold = table[(self.k + price) as usize - 1];
                let record = &self.seats[place].record;
                let call = Call::fill(record, amount, self.rng.word(), self.rng.word());
                let left = self.accepted(call)?;
                let (tenths, remainder) = (left.words[1][0], left.words[2][0]);
                self.holds(tenths <= amount, "a buyer gets more than it wants")?;
                amounts[first..first + 4].copy_from_slice(&[amount, tenths, sold, sold]);
                got += tenths;
                remainders += remainder;
                buyers += u64::from(amount > 0);
            }
            self.holds(
                got * demand + remainders == demand * supply,
                "what the buyers get does not come to what is sold",
            )?;
            let little = demand == 0 || supply - got < buyers;
            self.holds(little, "too much is left over")?;
        }
        self.settle(&amounts)
    }

    /// Writes the settlement page of these amounts, and reads it back.
    fn settle(&mut self, amounts: &[u64]) -> Result<(), Difference> {
        let price = self.rng.between(1, HIGHEST_PRICE);
        let room = self.rng.bytes(page::length(amounts));
        let call = Call::settlement_write(price, amounts, &room, self.rng.word());
        let page = self.accepted(call)?.bytes;
        let before = self.rng.words(SETTLEMENT_LEN, Rng::word);
        let left = self.accepted(Call::settlement_read(price, &page, &before))?;
        self.holds(left.words[0][..] == *amounts, "a page gives other amounts")
    }

    /// Makes a call that must be accepted, with damaged ones before it now and
    /// then.
    fn accepted(&mut self, call: Call) -> Result<Call, Difference> {
        if self.rng.once_in(4) {
            let mut damaged = call.clone();
            damage(self.rng, &mut damaged);
            self.tally.compare(&damaged)?;
        }
        if self.rng.once_in(16) {
            self.out_of_turn()?;
        }
        let (reply, left) = self.tally.compare(&call)?;
        self.holds(reply == 0, &format!("refusal {reply} of\n{call}\n"))?;
        Ok(left)
    }

    /// Calls on copies of a party's buffers that are refused, or whose outcome is
    /// thrown away: a bid before a round is heard may be accepted, and so may a
    /// hearing with t + 1 marks, the party's own not among them.
    fn out_of_turn(&mut self) -> Result<(), Difference> {
        if self.seats.is_empty() {
            return Ok(());
        }
        let seat = &self.seats[self.rng.place(self.seats.len())];
        let shares = vec![1; seat.totals.len()];
        let bidder = if self.bids.is_empty() || self.rng.once_in(2) {
            self.rng.between(1, MAX_BIDS)
        } else {
            self.bids[self.rng.place(self.bids.len())].bidder
        };
        let length = width(&seat.record) * self.n as usize;
        let messages = self.rng.words(length, |rng| rng.below(256));
        let present = generate::present(self.rng, self.n as usize);
        let amount = self.rng.below(2 * MAX_AMOUNT);
        let calls = [
            Call::answer(&seat.record, self.rng.word(), self.rng.word()),
            Call::fill(&seat.record, amount, self.rng.word(), self.rng.word()),
            Call::add(&seat.record, &seat.totals, bidder, &shares),
            Call::hear(
                &seat.record,
                &seat.totals,
                &seat.sheets,
                &messages,
                &present,
            ),
        ];
        for call in &calls {
            self.tally.compare(call)?;
        }
        Ok(())
    }

    fn holds(&self, fact: bool, otherwise: &str) -> Result<(), Difference> {
        if fact {
            return Ok(());
        }
        Err(Difference(format!(
            "{otherwise}, in an auction of {} parties, {} prices, {} rounds a probe, {} bids",
            self.n,
            self.k,
            self.last,
            self.bids.len()
        )))
    }
}
