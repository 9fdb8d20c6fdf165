//! An auction that was held, with all that anybody received in it.

use clockivy::{
    deal, split, table_len, Collecting, Message, Outcome, Refusal, Seat, Sheets, Speaking, Way,
    BLANK,
};

use crate::auction::{Auction, Totals};
use crate::coins::Coins;

/// What everybody received.
pub struct Held {
    /// What the words of each round were, all parties' together.
    pub rounds: Vec<Vec<u64>>,
    /// What was sent to each party.
    sent: Vec<Sent>,
    probes: Vec<Probe>,
    /// What each party has come to.
    outcomes: Vec<Outcome>,
    way: Way,
}

/// What is sent to a party, or to some of them together.
#[derive(Clone, Default)]
pub struct Sent {
    /// The shares of all bids.
    pub shares: Vec<u64>,
    /// The sheets of all probes.
    pub sheets: Vec<u64>,
}

/// A probe that was made.
pub struct Probe {
    /// Which search made it.
    search: u64,
    /// The index that it asked about.
    pub index: u64,
    /// The verdict that each party has read.
    verdicts: Vec<u64>,
}

impl Probe {
    /// The one that a party is at.
    fn of(party: &Speaking) -> Probe {
        Probe {
            search: party.record().search,
            index: party.index(),
            verdicts: Vec::new(),
        }
    }

    /// The same once it has ended, as these parties have read it off their records.
    fn read_by(self, parties: &[Speaking]) -> Probe {
        let verdict = |party: &Speaking| {
            let after = party.record();
            let is_one = match (self.search, after.search) {
                (1, 1) => after.lo == self.index,
                (1, _) => after.first == self.index,
                _ => after.hi == self.index,
            };
            is_one.into()
        };
        Probe {
            verdicts: parties.iter().map(verdict).collect(),
            ..self
        }
    }

    /// What the probe compares with 0: demand minus supply, and in the second search
    /// supply minus demand.
    pub fn surplus(&self, totals: &Totals) -> i64 {
        let (demand, supply) = totals.at(self.index);
        match self.search {
            1 => demand as i64 - supply as i64,
            _ => supply as i64 - demand as i64,
        }
    }
}

impl Held {
    /// Holds an auction with these coins, all parties being present.
    pub fn hold(auction: &Auction, coins: &Coins) -> Result<Held, Refusal> {
        let mut sent = Vec::new();
        let mut parties = Vec::new();
        for own in 1..=auction.n {
            let (n, k, way) = (auction.n, auction.k(), auction.way);
            let seat = Seat { n, own, k, way };
            let received = Sent::to(seat, auction, coins)?;
            let mut session = Collecting::open(seat)?;
            for (bidder, shares) in (1..).zip(received.shares.chunks(table_len(k))) {
                session.add(bidder, shares)?;
            }
            parties.push(session.speak(Sheets::received(k, way, &received.sheets)?));
            sent.push(received);
        }
        let mut rounds = Vec::new();
        let mut probes = Vec::new();
        while parties[0].outcome()?.is_none() {
            let before = Probe::of(&parties[0]);
            let made = parties[0].record().probes;
            rounds.push(hold_round(&mut parties)?);
            if parties[0].record().probes > made {
                probes.push(before.read_by(&parties));
            }
        }
        let outcomes = parties
            .iter()
            .filter_map(|party| party.outcome().transpose());
        let outcomes = outcomes.collect::<Result<_, _>>()?;
        Ok(Held {
            rounds,
            sent,
            probes,
            outcomes,
            way: auction.way,
        })
    }

    /// The number of parties.
    pub fn parties(&self) -> u64 {
        self.sent.len() as u64
    }

    /// The probes that were made.
    pub fn probes(&self) -> &[Probe] {
        &self.probes
    }

    /// All that was sent to these parties.
    pub fn of(&self, parties: &[u64]) -> Sent {
        let mut all = Sent::default();
        for sent in parties.iter().map(|&own| &self.sent[own as usize - 1]) {
            all.shares.extend(&sent.shares);
            all.sheets.extend(&sent.sheets);
        }
        all
    }

    /// The sheets that no probe came to, of all parties.
    pub fn unused(&self) -> Vec<u64> {
        let used = self.way.sheet_len() * self.probes.len();
        let unused = self.sent.iter().map(|sent| &sent.sheets[used..]);
        unused.collect::<Vec<_>>().concat()
    }

    /// What each probe opened, as each party has read it.
    pub fn verdicts(&self) -> Vec<u64> {
        let verdicts = self.probes.iter().map(|probe| &probe.verdicts[..]);
        verdicts.collect::<Vec<_>>().concat()
    }

    /// The index of the price, the probes made and the totals, of each party.
    pub fn answers(&self) -> Vec<u64> {
        let numbers = |outcome: &Outcome| match *outcome {
            Outcome::Price {
                index,
                probes,
                cleared,
            } => [index.get(), probes, cleared.demand(), cleared.supply()],
            Outcome::NoPrice { probes } => [0, probes, 0, 0],
            _ => [u64::MAX; 4],
        };
        self.outcomes.iter().flat_map(numbers).collect()
    }
}

impl Sent {
    /// What the bidders and the dealer send to one party.
    fn to(seat: Seat, auction: &Auction, coins: &Coins) -> Result<Sent, Refusal> {
        let mut sent = Sent::default();
        for (table, coins) in auction.bids.iter().zip(&coins.bids) {
            let mut shares = vec![BLANK; table_len(seat.k)];
            split(seat, table, coins, &mut shares)?;
            sent.shares.extend(shares);
        }
        for coins in &coins.sheets {
            let mut sheet = vec![BLANK; seat.way.sheet_len()];
            deal(seat, &coins.words, &coins.bytes, &mut sheet)?;
            sent.sheets.extend(sheet);
        }
        Ok(sent)
    }
}

/// Holds one round, and gives the words of all parties.
fn hold_round(parties: &mut [Speaking]) -> Result<Vec<u64>, Refusal> {
    let say = |party: &Speaking| party.say().map(Some);
    let round = parties.iter().map(say).collect::<Result<Vec<_>, _>>()?;
    for party in parties {
        party.hear(&round)?;
    }
    let words = |said: &Option<Message>| said.map_or(Vec::new(), |message| message.to_vec());
    Ok(round.iter().flat_map(words).collect())
}
