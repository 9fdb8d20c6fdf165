//! Bids whose totals meet where they are asked to.

use crate::rng::Rng;

/// Tables of one to five bids. Total demand is above total supply below index
/// `low`, equals it from `low` to `high`, and is below it from there on; with
/// `low` one above `high` it equals it nowhere. `low` is from 1 on and `high` up
/// to `k`.
pub fn meeting(rng: &mut Rng, k: u64, low: u64, high: u64) -> Vec<Vec<u64>> {
    let bids = rng.between(1, 5) as usize;
    let mut tables = Tables {
        k,
        tables: vec![vec![0; 2 * k as usize]; bids],
    };
    for _ in 0..rng.between(0, 3) {
        let (until, from) = (rng.between(high, k), rng.between(1, low));
        tables.add_pair(rng, until, from);
    }
    if low > 1 {
        if rng.once_in(2) {
            let amount = amount(rng);
            tables.buy(rng, low - 1, amount);
        } else {
            let until = rng.between(high, k);
            tables.add_pair(rng, until, low);
        }
        let (until, amount) = (rng.between(1, low - 1), amount(rng));
        tables.buy(rng, until, amount);
    }
    if high < k {
        if rng.once_in(2) {
            let amount = amount(rng);
            tables.sell(rng, high + 1, amount);
        } else {
            let from = rng.between(1, low);
            tables.add_pair(rng, high, from);
        }
        let (from, amount) = (rng.between(high + 1, k), amount(rng));
        tables.sell(rng, from, amount);
    }
    tables.tables
}

/// An amount of which a bid can have a dozen. Often the least, so that totals
/// which do not meet differ by no more.
fn amount(rng: &mut Rng) -> u64 {
    let any = rng.between(1, 5_000);
    rng.pick(&[1, 1, any, 300_000])
}

struct Tables {
    k: u64,
    tables: Vec<Vec<u64>>,
}

impl Tables {
    /// Somebody buys up to an index, and somebody sells as much from an index on.
    fn add_pair(&mut self, rng: &mut Rng, until: u64, from: u64) {
        let amount = amount(rng);
        self.buy(rng, until, amount);
        self.sell(rng, from, amount);
    }

    /// One of the bids buys this amount at indices 1 to `until`.
    fn buy(&mut self, rng: &mut Rng, until: u64, amount: u64) {
        let bid = rng.place(self.tables.len());
        for entry in &mut self.tables[bid][..until as usize] {
            *entry += amount;
        }
    }

    /// One of the bids sells this amount at indices `from` to k.
    fn sell(&mut self, rng: &mut Rng, from: u64, amount: u64) {
        let bid = rng.place(self.tables.len());
        for entry in &mut self.tables[bid][(self.k + from) as usize - 1..] {
            *entry += amount;
        }
    }
}
