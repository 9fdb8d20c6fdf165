//! What an auction comes to, from the totals in the clear.

/// The bids of an auction, and their total demand and total supply at each price.
pub struct Totals {
    tables: Vec<Vec<u64>>,
    demand: Vec<u64>,
    supply: Vec<u64>,
}

impl Totals {
    /// The totals of these tables over `k` prices.
    pub fn of<'a>(k: u64, tables: impl IntoIterator<Item = &'a [u64]>) -> Totals {
        let k = k as usize;
        let mut totals = Totals {
            tables: tables.into_iter().map(<[u64]>::to_vec).collect(),
            demand: vec![0; k],
            supply: vec![0; k],
        };
        for table in &totals.tables {
            for place in 0..k {
                totals.demand[place] += table[place];
                totals.supply[place] += table[k + place];
            }
        }
        totals
    }

    fn prices(&self) -> u64 {
        self.demand.len() as u64
    }

    /// Total demand and total supply at an index.
    pub fn at(&self, index: u64) -> (u64, u64) {
        let place = index as usize - 1;
        (self.demand[place], self.supply[place])
    }

    /// Whether demand at an index is at least supply.
    pub fn clears(&self, index: u64) -> bool {
        let (demand, supply) = self.at(index);
        demand >= supply
    }

    /// Whether supply at an index is at least demand.
    pub fn supplies(&self, index: u64) -> bool {
        let (demand, supply) = self.at(index);
        supply >= demand
    }

    /// The highest index with demand at least supply, or 0.
    pub fn highest(&self) -> u64 {
        let mut falling = (1..=self.prices()).rev();
        falling.find(|&index| self.clears(index)).unwrap_or(0)
    }

    /// The lowest index from 1 to that one with supply at least demand.
    pub fn lowest(&self) -> Option<u64> {
        (1..=self.highest()).find(|&index| self.supplies(index))
    }

    /// The index of the price, or 0.
    pub fn price(&self) -> u64 {
        match self.lowest() {
            Some(lowest) => (self.highest() + lowest) / 2,
            None => self.highest(),
        }
    }

    /// Total demand and total supply at the price, where there is one.
    fn at_price(&self) -> Option<(u64, u64)> {
        match self.price() {
            0 => None,
            index => Some(self.at(index)),
        }
    }

    /// What is sold at the price and goes to nobody, where there is demand: each
    /// buyer's part is rounded down.
    fn left_over(&self) -> Option<u64> {
        let (demand, supply) = self.at_price().filter(|&(demand, _)| demand > 0)?;
        let place = self.price() as usize - 1;
        let part = |table: &Vec<u64>| table[place] * supply / demand;
        Some(supply - self.tables.iter().map(part).sum::<u64>())
    }

    /// How many indices are balanced.
    fn balanced(&self) -> u64 {
        self.lowest()
            .map_or(0, |lowest| self.highest() - lowest + 1)
    }

    fn is_odd(&self) -> bool {
        self.balanced() % 2 == 1
    }

    fn is_even(&self) -> bool {
        self.balanced() > 0 && !self.is_odd()
    }

    /// Where the balanced indices stand.
    fn stand(&self, from_first: bool, to_last: bool) -> bool {
        (self.lowest() == Some(1)) == from_first && (self.highest() == self.prices()) == to_last
    }
}

/// A way in which an auction can end.
struct Ending {
    name: &'static str,
    holds: fn(&Totals) -> bool,
}

/// The endings. An auction without bids has every price balanced, and is counted
/// there too.
const ENDINGS: [Ending; 16] = [
    Ending {
        name: "no price",
        holds: |totals| totals.highest() == 0,
    },
    Ending {
        name: "none balanced, inside",
        holds: |totals| {
            totals.balanced() == 0 && totals.highest() > 0 && totals.stand(false, false)
        },
    },
    Ending {
        name: "none balanced, at the last",
        holds: |totals| totals.balanced() == 0 && totals.stand(false, true),
    },
    Ending {
        name: "odd number balanced, inside",
        holds: |totals| totals.is_odd() && totals.stand(false, false),
    },
    Ending {
        name: "odd number balanced, from the first",
        holds: |totals| totals.is_odd() && totals.stand(true, false),
    },
    Ending {
        name: "odd number balanced, to the last",
        holds: |totals| totals.is_odd() && totals.stand(false, true),
    },
    Ending {
        name: "odd number balanced, all",
        holds: |totals| totals.is_odd() && totals.stand(true, true),
    },
    Ending {
        name: "even number balanced, inside",
        holds: |totals| totals.is_even() && totals.stand(false, false),
    },
    Ending {
        name: "even number balanced, from the first",
        holds: |totals| totals.is_even() && totals.stand(true, false),
    },
    Ending {
        name: "even number balanced, to the last",
        holds: |totals| totals.is_even() && totals.stand(false, true),
    },
    Ending {
        name: "even number balanced, all",
        holds: |totals| totals.is_even() && totals.stand(true, true),
    },
    Ending {
        name: "no bids",
        holds: |totals| totals.tables.is_empty(),
    },
    Ending {
        name: "at the price, no demand",
        holds: |totals| totals.at_price().is_some_and(|(demand, _)| demand == 0),
    },
    Ending {
        name: "at the price, demand and no supply",
        holds: |totals| {
            let at_price = totals.at_price();
            at_price.is_some_and(|(demand, supply)| demand > 0 && supply == 0)
        },
    },
    Ending {
        name: "at the price, less supply than demand",
        holds: |totals| {
            let at_price = totals.at_price();
            at_price.is_some_and(|(demand, supply)| demand > supply && supply > 0)
        },
    },
    Ending {
        name: "at the price, something left over",
        holds: |totals| totals.left_over().is_some_and(|tenths| tenths > 0),
    },
];

/// How many auctions had each ending.
#[derive(Default)]
pub struct Endings {
    counts: [u64; ENDINGS.len()],
    auctions: u64,
}

impl Endings {
    /// Counts an auction.
    pub fn count(&mut self, totals: &Totals) {
        self.auctions += 1;
        for (count, ending) in self.counts.iter_mut().zip(&ENDINGS) {
            *count += u64::from((ending.holds)(totals));
        }
    }

    /// The number of auctions.
    pub fn auctions(&self) -> u64 {
        self.auctions
    }

    /// Each ending and how often it came up.
    pub fn counts(&self) -> impl Iterator<Item = (&'static str, u64)> + '_ {
        let names = ENDINGS.iter().map(|ending| ending.name);
        names.zip(self.counts)
    }
}
