//! A whole auction of five parties in one process, held with 33 rounds a probe and
//! again with 7: four bids, eight listed prices. A line drops while a bid is sent, and
//! the bid is sent again when the others are in. A party drops off in the middle of a
//! probe; the others go on, and it hears what it has missed when it comes back. Demand
//! equals supply at four neighbouring prices, and the middle one is taken, rounded
//! down; the totals there are opened, each fleet works out its hours, and the
//! settlement page has those of all. Prints the bid sent again, each probe, the party
//! that comes back, the price, the totals and the page, and checks all of it against
//! the tables, which only a program that plays every role can add up.
//!
//! The coins come from the operating system, so that no two auctions have the same
//! shares. What is printed does not depend on them.

use std::num::NonZeroU64;
use std::ops::Range;

use clockivy::{
    table_len, Cleared, Collecting, Dealing, Entries, Fill, Line, Message, Outcome, Record,
    Refusal, Seat, Settlement, Side, Speaking, System, Way, BLANK, MAX_BIDS,
};

const N: u64 = 5;
const K: u64 = 8;
const PRICES: [u64; K as usize] = [80, 90, 100, 110, 120, 130, 140, 150];
/// Demand at each price, then supply at each, in tenths of an hour.
const BIDS: [[u64; 2 * K as usize]; 4] = [
    [90, 80, 70, 40, 40, 40, 40, 5, 0, 0, 0, 0, 0, 0, 0, 0],
    [45, 45, 45, 41, 41, 41, 41, 0, 0, 0, 0, 0, 0, 0, 0, 9],
    [0, 0, 0, 0, 0, 0, 0, 0, 0, 10, 30, 52, 52, 52, 52, 75],
    [0, 0, 0, 0, 0, 0, 0, 0, 7, 7, 7, 29, 29, 29, 29, 90],
];

/// The numbers of those who bid.
const BIDDERS: [u64; BIDS.len()] = [17, 4, 640, MAX_BIDS];
/// The bid whose line drops, and the parties that it has reached by then.
const DROPPED: usize = 1;
const REACHED: usize = 2;
/// The party that drops off, from 0.
const AWAY: usize = 3;
/// In how many rounds a probe comes to its verdict, and for which of them the party is
/// away, counted from 0 over all probes: from the middle of the first probe into the
/// second. In 7 rounds that is between two levels.
const COURSES: [(Way, Range<u64>); 2] = [(Way::Rounds33, 20..45), (Way::Rounds7, 3..10)];

fn main() -> Result<(), Refusal> {
    for (way, without) in COURSES {
        println!("{} rounds a probe", way.rounds());
        hold(way, without)?;
    }
    Ok(())
}

/// The whole auction, without one party in these rounds.
fn hold(way: Way, without: Range<u64>) -> Result<(), Refusal> {
    let sessions = collect_bids(way)?;
    let mut meeting = Meeting::new(sessions, way, without)?;
    while let Some((search, index)) = meeting.probe_to_come() {
        for _ in 0..way.rounds() {
            meeting.exchange()?;
        }
        report_probe(search, index, meeting.parties[0].record());
    }
    // Two more, for the totals, where there is a price.
    while meeting.parties[0].outcome()?.is_none() {
        meeting.exchange()?;
    }
    report_outcome(&meeting)
}

/// Every party opens its session, and every desk sends its bid to all of them.
fn collect_bids(way: Way) -> Result<Vec<Collecting>, Refusal> {
    let (n, k) = (N, K);
    let mut sessions = Vec::new();
    for own in 1..=n {
        sessions.push(Collecting::open(Seat { n, own, k, way })?);
    }
    // What each desk keeps until every party has its bid.
    let desks = BIDS.iter().map(split_bid).collect::<Result<Vec<_>, _>>()?;
    for (place, (bidder, shares)) in BIDDERS.into_iter().zip(&desks).enumerate() {
        let reached = if place == DROPPED {
            REACHED
        } else {
            sessions.len()
        };
        for (session, shares) in sessions[..reached].iter_mut().zip(shares) {
            session.add(bidder, shares)?;
        }
    }
    send_again(&mut sessions, BIDDERS[DROPPED], &desks[DROPPED])?;
    for session in &sessions {
        let record = session.record();
        assert_eq!(record.bids as usize, BIDS.len());
        assert!(BIDDERS.iter().all(|&bidder| record.has_bid(bidder)));
    }
    Ok(sessions)
}

/// The desk splits its bidder's table for every party, with new coins for each entry.
fn split_bid<const LEN: usize>(table: &[u64; LEN]) -> Result<Vec<Vec<u64>>, Refusal> {
    let mut shares = vec![BLANK; N as usize * table_len(K)];
    Entries::new(N, K, table, &mut shares, &mut System)?.write_all()?;
    Ok(shares.chunks(table_len(K)).map(<[u64]>::to_vec).collect())
}

/// The same shares go to every party once more. Those that have the bid refuse
/// it and are as before; the others add it, after bids that came later.
fn send_again(
    sessions: &mut [Collecting],
    bidder: u64,
    shares: &[Vec<u64>],
) -> Result<(), Refusal> {
    let mut refused = 0;
    for (session, shares) in sessions.iter_mut().zip(shares) {
        let before = session.store();
        match session.add(bidder, shares) {
            Err(Refusal::AlreadyEntered) => {
                assert_eq!(session.store(), before);
                refused += 1;
            }
            reply => reply?,
        }
    }
    assert_eq!(refused, REACHED);
    let added = sessions.len() - refused;
    println!("bidder {bidder} sent again: {refused} refused, {added} added");
    Ok(())
}

/// A round, as it is kept for a party that comes back: each party's message, or that
/// it was away.
type Round = Vec<Option<Message>>;

/// The parties while they speak.
struct Meeting {
    parties: Vec<Speaking>,
    way: Way,
    /// The rounds in which a party is away.
    without: Range<u64>,
    /// The rounds that were held, of all probes.
    rounds: u64,
    /// Those that the party which is away has missed.
    missed: Vec<Round>,
}

impl Meeting {
    /// The dealer deals every party its sheets, and from here on there are no more
    /// bids.
    fn new(sessions: Vec<Collecting>, way: Way, without: Range<u64>) -> Result<Meeting, Refusal> {
        let dealt = Dealing::new(N, K, way, &mut System)?.deal_all()?;
        let dealt = sessions.into_iter().zip(dealt);
        Ok(Meeting {
            parties: dealt
                .map(|(session, sheets)| session.speak(sheets))
                .collect(),
            way,
            without,
            rounds: 0,
            missed: Vec::new(),
        })
    }

    /// The search and the index of the next probe, where there is another one.
    fn probe_to_come(&self) -> Option<(u64, u64)> {
        let party = &self.parties[0];
        let is_over = matches!(party.outcome(), Ok(Some(_)));
        let is_searching = party.record().round <= self.way.rounds() && !is_over;
        is_searching.then(|| (party.record().search, party.index()))
    }

    /// Each party that is there says its message, and each hears those of all who are.
    /// While one is away, the round is kept for it.
    fn exchange(&mut self) -> Result<(), Refusal> {
        if self.rounds == self.without.end {
            self.come_back()?;
        }
        let without = self.without.contains(&self.rounds);
        let is_there = |place: usize| !(without && place == AWAY);
        let say = |(place, party): (usize, &Speaking)| match is_there(place) {
            true => party.say().map(Some),
            false => Ok(None),
        };
        let round = self.parties.iter().enumerate().map(say);
        let round = round.collect::<Result<Round, _>>()?;
        for (place, party) in self.parties.iter_mut().enumerate() {
            if is_there(place) {
                party.hear(&round)?;
            }
        }
        if without {
            self.missed.push(round);
        }
        self.rounds += 1;
        Ok(())
    }

    /// The party that comes back hears every round that it has missed, in order, as the
    /// others have heard it. Then it stands where they do, and may be present again.
    fn come_back(&mut self) -> Result<(), Refusal> {
        let (own, late) = (AWAY + 1, self.missed.len());
        for round in self.missed.drain(..) {
            self.parties[AWAY].hear(&round)?;
        }
        let [back, there] = [AWAY, 0].map(|place| self.parties[place].record());
        assert_eq!((back.probes, back.round), (there.probes, there.round));
        println!("party {own} back: {late} rounds heard late");
        Ok(())
    }
}

/// Prints the verdict that a probe of this search at this index has left in a record.
fn report_probe(search: u64, index: u64, after: &Record) {
    let verdict = match (search, after.search) {
        (1, 1) => after.lo == index,
        (1, _) => after.first == index,
        _ => after.hi == index,
    };
    let (probes, bit) = (after.probes, u64::from(verdict));
    println!("probe {probes} index {index} verdict {bit}");
    assert_eq!(verdict, compared(search, index));
}

/// Prints what all parties have come to, and how the fleets share it out.
fn report_outcome(meeting: &Meeting) -> Result<(), Refusal> {
    let outcome = meeting.parties[0].outcome()?;
    for party in &meeting.parties {
        assert_eq!(party.outcome()?, outcome);
    }
    let Some(Outcome::Price {
        index,
        probes,
        cleared,
    }) = outcome
    else {
        println!("clears 0 none");
        println!("rounds {}", meeting.rounds);
        return Ok(());
    };
    assert_eq!(index.get(), expected_index());
    assert_eq!(meeting.rounds, meeting.way.rounds() * probes + 2);
    let [wanted, offered] = [cleared.demand(), cleared.supply()];
    assert_eq!(
        [wanted, offered],
        [demand(index.get()), supply(index.get())]
    );
    let price = outcome.and_then(|outcome| outcome.price_in(&PRICES).copied());
    let price = price.ok_or(Refusal::NotCleared)?;
    println!("clears {index} {price}");
    println!("demand {wanted} supply {offered}");
    println!("rounds {}", meeting.rounds);
    pin_up(&share_out(index, cleared)?, price)
}

/// Every fleet is told the index and the totals, and has its own table: what it sells
/// there is sold, and what it gets of what it wants it works out for itself. Here all
/// of them tell it to whoever lays out the page.
fn share_out(index: NonZeroU64, cleared: Cleared) -> Result<Settlement, Refusal> {
    let mut settlement = Settlement::new();
    let (mut bought, mut remainders) = (0, 0);
    for (bidder, table) in BIDDERS.into_iter().zip(&BIDS) {
        let (demand, supply) = table.split_at(K as usize);
        let place = index.get() as usize - 1;
        let [wants, sells] = [demand[place], supply[place]];
        let Fill { tenths, remainder } = cleared.fill(wants)?;
        for (side, wanted, got) in [(Side::Buy, wants, tenths), (Side::Sell, sells, sells)] {
            settlement.set(Line {
                bidder,
                side,
                wanted,
                got,
            })?;
        }
        bought += tenths;
        remainders += remainder;
    }
    // Nothing is lost: what is left over is in the remainders.
    let [demand, supply] = [cleared.demand(), cleared.supply()];
    assert_eq!(bought * demand + remainders, demand * supply);
    Ok(settlement)
}

/// Prints the page. Whoever knows the price reads the hours off it again.
fn pin_up(settlement: &Settlement, price: u64) -> Result<(), Refusal> {
    let page = settlement.write(price)?;
    print!("{}", String::from_utf8_lossy(&page));
    assert_eq!(Settlement::read(price, &page)?, *settlement);
    Ok(())
}

/// What the verdict of a search has to be at an index.
fn compared(search: u64, index: u64) -> bool {
    match search {
        1 => demand(index) >= supply(index),
        _ => supply(index) >= demand(index),
    }
}

/// The price by the tables: the middle of those that balance, or the highest.
fn expected_index() -> u64 {
    let clears = |index: &u64| demand(*index) >= supply(*index);
    let balances = |index: &u64| supply(*index) >= demand(*index);
    let highest = (1..=K).rev().find(clears).unwrap_or(0);
    match (1..=highest).find(balances) {
        Some(lowest) => (highest + lowest) / 2,
        None => highest,
    }
}

fn demand(index: u64) -> u64 {
    total(index as usize - 1)
}

fn supply(index: u64) -> u64 {
    total((K + index) as usize - 1)
}

/// The sum of all bids at a place of their tables.
fn total(place: usize) -> u64 {
    BIDS.iter().map(|table| table[place]).sum()
}
