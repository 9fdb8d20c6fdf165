//! An auction as it stands in a file, in the clear.

use std::fmt::Display;
use std::fs;
use std::num::NonZeroU64;
use std::path::Path;

use clockivy::Way;

/// The most prices of a file.
const MOST_PRICES: u64 = 256;
/// The most bids.
const MOST_BIDS: u64 = clockivy::MAX_BIDS;

/// What a file of the rehearsal holds, but for the seeds, and how it is held.
pub struct Auction {
    /// The number of parties.
    pub n: u64,
    /// The listed prices, in pence.
    pub prices: Vec<u64>,
    /// The tables of bidder 1, bidder 2 and so on: demand at each price, then supply.
    pub bids: Vec<Vec<u64>>,
    /// In how many rounds a probe comes to its verdict.
    pub way: Way,
}

impl Auction {
    /// Reads a file, to be held with 33 rounds a probe, as the rehearsal holds it. What
    /// the tables hold is judged by the calls.
    pub fn read(path: &Path) -> Result<Auction, String> {
        let name = path.display();
        let text = fs::read_to_string(path).map_err(|error| format!("{name}: {error}"))?;
        let mut lines = Lines::of(&text);
        Auction::parse(&mut lines).ok_or_else(|| format!("{name}: refused at line {}", lines.line))
    }

    fn parse(lines: &mut Lines) -> Option<Auction> {
        let n = lines.count(*clockivy::PARTIES.start(), *clockivy::PARTIES.end())?;
        lines.numbers(n)?;
        let k = lines.count(1, MOST_PRICES)?;
        let prices = lines.numbers(k)?;
        let bids = lines.count(0, MOST_BIDS)?;
        let bids = (0..bids).map(|_| lines.numbers(2 * k));
        let bids = bids.collect::<Option<Vec<_>>>()?;
        lines.end()?;
        Some(Auction {
            n,
            prices,
            bids,
            way: Way::Rounds33,
        })
    }

    /// The number of prices.
    pub fn k(&self) -> u64 {
        self.prices.len() as u64
    }

    /// Whether two auctions agree in what is not hidden; if not, in what they do not.
    pub fn agrees(&self, other: &Auction) -> Result<(), String> {
        let [rounds, others] = [self, other].map(|auction| auction.way.rounds());
        same("the number of rounds of a probe", rounds, others)?;
        same("the number of parties", self.n, other.n)?;
        same("the number of prices", self.k(), other.k())?;
        same("the number of bids", self.bids.len(), other.bids.len())?;
        let (one, other) = (Totals::of(self), Totals::of(other));
        same(
            "the highest index with demand at least supply (0: none)",
            one.highest(),
            other.highest(),
        )?;
        let [lowest, others] = [&one, &other].map(|totals| totals.lowest().unwrap_or(0));
        same("the lowest balanced index (0: none)", lowest, others)?;
        let Some(price) = NonZeroU64::new(one.price()) else {
            return Ok(());
        };
        let [(demand, supply), others] = [one, other].map(|totals| totals.at(price.get()));
        same("total demand at the price", demand, others.0)?;
        same("total supply at the price", supply, others.1)
    }
}

fn same<T: Display + PartialEq>(what: &str, one: T, other: T) -> Result<(), String> {
    if one == other {
        return Ok(());
    }
    Err(format!(
        "the auctions do not agree: {what} is {one} and {other}"
    ))
}

/// Total demand and total supply at each price, which nobody adds up in an auction.
pub struct Totals(Vec<(u64, u64)>);

impl Totals {
    /// Those of all bids.
    pub fn of(auction: &Auction) -> Totals {
        let k = auction.prices.len();
        let total = |place: usize| auction.bids.iter().map(|table| table[place]).sum();
        Totals(
            (0..k)
                .map(|place| (total(place), total(k + place)))
                .collect(),
        )
    }

    /// Demand and supply at an index from 1 on.
    pub fn at(&self, index: u64) -> (u64, u64) {
        self.0[index as usize - 1]
    }

    /// The highest index at which demand is at least supply, or 0.
    pub fn highest(&self) -> u64 {
        let covers = |(demand, supply): &(u64, u64)| demand >= supply;
        self.0
            .iter()
            .rposition(covers)
            .map_or(0, |place| place as u64 + 1)
    }

    /// The lowest index up to that one at which supply is at least demand.
    pub fn lowest(&self) -> Option<u64> {
        (1..=self.highest()).find(|&index| {
            let (demand, supply) = self.at(index);
            supply >= demand
        })
    }

    /// The index of the price, or 0.
    pub fn price(&self) -> u64 {
        let highest = self.highest();
        self.lowest()
            .map_or(highest, |lowest| (highest + lowest) / 2)
    }
}

/// The lines of a file that are still to be read.
struct Lines<'a> {
    rest: &'a str,
    /// The line that was read last.
    line: u64,
}

impl<'a> Lines<'a> {
    fn of(text: &'a str) -> Lines<'a> {
        Lines {
            rest: text,
            line: 0,
        }
    }

    /// The next line's number: digits and a newline, and no zeros in front.
    fn number(&mut self) -> Option<u64> {
        self.line += 1;
        let (line, rest) = self.rest.split_once('\n')?;
        let number: u64 = line.parse().ok()?;
        self.rest = rest;
        (number.to_string() == line).then_some(number)
    }

    /// A count from `least` to `most`.
    fn count(&mut self, least: u64, most: u64) -> Option<u64> {
        self.number().filter(|count| (least..=most).contains(count))
    }

    /// That there is no line more.
    fn end(&mut self) -> Option<()> {
        self.line += 1;
        self.rest.is_empty().then_some(())
    }

    fn numbers(&mut self, count: u64) -> Option<Vec<u64>> {
        (0..count).map(|_| self.number()).collect()
    }
}

#[cfg(test)]
mod tests {
    use super::{Auction, Lines};

    const GOOD: &str = "3\n7\n8\n9\n1\n100\n1\n5\n0\n";

    /// The line at which a text is refused.
    fn refused(text: &str) -> Option<u64> {
        let mut lines = Lines::of(text);
        let auction = Auction::parse(&mut lines);
        auction.is_none().then_some(lines.line)
    }

    #[test]
    fn what_is_no_auction_is_refused_at_its_line() {
        assert_eq!(refused(GOOD), None);
        for (text, line) in [
            ("", 1),
            ("2\n7\n8\n", 1),
            ("3\r\n", 1),
            ("\u{feff}3\n", 1),
            ("3\n07\n", 2),
            ("3\n+7\n", 2),
            ("3\n7\n8\n18446744073709551616\n", 4),
            ("3\n7\n8\n9\n257\n", 5),
            ("3\n7\n8\n9\n1\n100\n1001\n", 7),
            (&GOOD[..GOOD.len() - 1], 9),
            (&GOOD[..GOOD.len() - 2], 9),
            (&format!("{GOOD}\n"), 10),
        ] {
            assert_eq!(refused(text), Some(line), "{text:?}");
        }
    }
}
