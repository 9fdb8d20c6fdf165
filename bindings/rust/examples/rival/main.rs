//! What a rival sees that runs t of the n parties: nothing by which it could tell two
//! auctions apart, though every fleet bids quite differently in them.
//!
//!     cargo run --release --example rival -- [33|7] [ONE OTHER [N [PARTY...]]]
//!
//! Both are held with so many rounds a probe; without the number, with 33. ONE and OTHER
//! are files as the rehearsal reads them (docs/REHEARSAL.md), but for the seeds, which
//! are not used: the coins of the first auction come from the operating system. N is the
//! number of parties, in place of the files', and PARTY... are the t parties that put
//! together what they receive; without them, the first t. Without files it takes the two
//! in bindings/rival.
//!
//! The second auction is held with the one choice of coins that fits what these
//! parties received in the first: that there is just one, for any two auctions that
//! clear alike, is `demand-3` of the crate `auction`. Both are then held by the
//! library, with all parties present, and compared word for word.

mod auction;
mod coins;
mod field;
mod held;

use std::error::Error;
use std::path::Path;
use std::{env, fmt, iter};

use auction::{Auction, Totals};
use clockivy::{threshold, Refusal, Way, PARTIES};
use coins::Coins;
use held::{Held, Probe};

fn main() -> Result<(), Box<dyn Error>> {
    let Arguments { one, other, pool } = Arguments::read(env::args().skip(1).collect())?;
    one.agrees(&other)?;
    let (first, second) = hold_both(&one, &other, &pool)?;
    describe(&one, &other, &first);
    let names: Vec<String> = pool.iter().map(u64::to_string).collect();
    println!("what the pool receives: party {}", names.join(" and "));
    let received = received(&first, &second, &pool);
    for compared in &received {
        println!("  {compared}");
    }
    println!("what it does not receive");
    for compared in unseen(&first, &second, &pool) {
        println!("  {compared}");
    }
    if received.iter().any(|compared| compared.differ > 0) {
        return Err("the pool can tell the two apart".into());
    }
    println!("the pool cannot tell which of the two was held");
    Ok(())
}

/// Holds the first auction with coins from the system, and the second with those that
/// fit what the pool received.
fn hold_both(one: &Auction, other: &Auction, pool: &[u64]) -> Result<(Held, Held), Refusal> {
    loop {
        let coins = Coins::draw(one)?;
        let first = Held::hold(one, &coins)?;
        // At each probe at most 2^33 - 2 of the 2^58 masks leave their range when they
        // are moved. Then other coins are drawn.
        if let Some(fitting) = coins.fitting(one, other, pool, first.probes()) {
            return Ok((first, Held::hold(other, &fitting)?));
        }
    }
}

/// Prints in what the two auctions differ, and in what they agree.
fn describe(one: &Auction, other: &Auction, held: &Held) {
    let (n, k, bids) = (one.n, one.k(), one.bids.len());
    let probes = held.probes();
    println!(
        "two auctions of {n} parties, {k} prices, {bids} bids and {} probes",
        probes.len()
    );
    let (totals, others) = (Totals::of(one), Totals::of(other));
    let is_apart = |probe: &&Probe| totals.at(probe.index) != others.at(probe.index);
    let apart = Compared {
        name: "probes, by the totals there",
        words: probes.len(),
        differ: probes.iter().filter(is_apart).count(),
    };
    let amounts = Compared::new("amounts bid", &one.bids.concat(), &other.bids.concat());
    println!("  {amounts}\n  {apart}");
    match totals.price() {
        0 => println!("  no price clears in either"),
        index => {
            let (demand, supply) = totals.at(index);
            println!("  price {index} clears in both: demand {demand}, supply {supply}");
        }
    }
}

/// All that the pool receives, in both auctions.
fn received(one: &Held, other: &Held, pool: &[u64]) -> Vec<Compared> {
    let compare =
        |name, words: &dyn Fn(&Held) -> Vec<u64>| Compared::new(name, &words(one), &words(other));
    vec![
        compare("shares of the bids", &|held| held.of(pool).shares),
        compare("words of its sheets", &|held| held.of(pool).sheets),
        compare("words of unused sheets, of all parties", &Held::unused),
        compare("words said in all rounds, by all parties", &|held| {
            held.rounds.concat()
        }),
        compare("verdicts, of all parties", &Held::verdicts),
        compare("words of the outcome, of all parties", &Held::answers),
    ]
}

/// What the pool does not receive, by which one sees that the two are not the same.
fn unseen(one: &Held, other: &Held, pool: &[u64]) -> [Compared; 2] {
    let others: Vec<u64> = (1..=one.parties())
        .filter(|own| !pool.contains(own))
        .collect();
    let mut more = pool.to_vec();
    more.extend(others.first());
    let compare = |name, parties: &[u64]| {
        Compared::new(name, &one.of(parties).shares, &other.of(parties).shares)
    };
    [
        compare("shares of the bids, of the others", &others),
        compare("shares of the bids, with one party more", &more),
    ]
}

/// How many words were compared, and how many of them differ.
struct Compared {
    name: &'static str,
    words: usize,
    differ: usize,
}

impl Compared {
    /// Where one has more words, those count as differing.
    fn new(name: &'static str, one: &[u64], other: &[u64]) -> Compared {
        let words = one.len().max(other.len());
        let equal = iter::zip(one, other).filter(|(a, b)| a == b).count();
        Compared {
            name,
            words,
            differ: words - equal,
        }
    }
}

impl fmt::Display for Compared {
    fn fmt(&self, f: &mut fmt::Formatter<'_>) -> fmt::Result {
        let Compared {
            name,
            words,
            differ,
        } = self;
        write!(f, "{name:<40} {words:>5}, {differ} differ")
    }
}

/// What the program is asked for.
struct Arguments {
    one: Auction,
    other: Auction,
    pool: Vec<u64>,
}

impl Arguments {
    fn read(mut words: Vec<String>) -> Result<Arguments, Box<dyn Error>> {
        let rounds = words.first().and_then(|word| word.parse().ok());
        let way = rounds.and_then(Way::from_rounds);
        if way.is_some() {
            words.remove(0);
        }
        let (files, numbers) = words.split_at(words.len().min(2));
        let [one, other] = match files {
            [] => ["one.txt", "other.txt"].map(sample),
            [one, other] => [one, other].map(|name| Auction::read(Path::new(name))),
            _ => return Err("rival [33|7] [ONE OTHER [N [PARTY...]]]".into()),
        };
        let (mut one, mut other) = (one?, other?);
        if let Some(way) = way {
            (one.way, other.way) = (way, way);
        }
        let numbers = numbers.iter().map(|word| word.parse());
        let numbers = numbers.collect::<Result<Vec<u64>, _>>()?;
        if let Some(&n) = numbers.first() {
            (one.n, other.n) = (n, n);
        }
        if !PARTIES.contains(&one.n) {
            return Err("there are 3 to 9 parties".into());
        }
        let t = threshold(one.n);
        let pool = match numbers.get(1..) {
            None | Some([]) => (1..=t as u64).collect(),
            Some(pool) => pool.to_vec(),
        };
        let is_party = |own: &u64| (1..=one.n).contains(own);
        let is_new = |place: usize| !pool[..place].contains(&pool[place]);
        if pool.len() != t || !pool.iter().all(is_party) || !(0..t).all(is_new) {
            return Err(format!("name {t} different parties of 1 to {}", one.n).into());
        }
        Ok(Arguments { one, other, pool })
    }
}

/// One of the two files that come along.
fn sample(name: &str) -> Result<Auction, String> {
    let folder = Path::new(env!("CARGO_MANIFEST_DIR")).join("../rival");
    Auction::read(&folder.join(name))
}

#[cfg(test)]
mod tests {
    use super::*;
    use clockivy_testing::{choices, count, WAYS};

    /// How many words differ of what the pool receives, and of what it does not.
    fn differing((one, other): (Held, Held), pool: &[u64]) -> [usize; 2] {
        let differ = |all: &[Compared]| all.iter().map(|compared| compared.differ).sum();
        [
            differ(&received(&one, &other, pool)),
            differ(&unseen(&one, &other, pool)),
        ]
    }

    fn samples(n: u64, way: Way) -> (Auction, Auction) {
        let both = ["one.txt", "other.txt"].map(|name| sample(name).unwrap());
        let [one, other] = both.map(|auction| Auction { n, way, ..auction });
        (one, other)
    }

    #[test]
    fn any_t_of_any_n_receive_the_same() {
        for (n, way) in PARTIES.flat_map(|n| WAYS.map(|way| (n, way))) {
            let (one, other) = samples(n, way);
            assert_eq!(one.agrees(&other), Ok(()));
            for marks in choices(n).filter(|marks| count(marks) == threshold(n)) {
                let pool = (1..=n).filter(|&own| marks[own as usize - 1] == 1);
                let pool: Vec<u64> = pool.collect();
                let both = hold_both(&one, &other, &pool).unwrap();
                let [seen, unseen] = differing(both, &pool);
                assert!(seen == 0 && unseen > 0, "{pool:?} of {n}");
            }
        }
    }

    /// With the same coins in both, or with coins that fit another pool, they receive
    /// other words.
    #[test]
    fn with_coins_that_do_not_fit_they_do_not() {
        for (one, other) in WAYS.map(|way| samples(5, way)) {
            let coins = Coins::draw(&one).unwrap();
            let both = [&one, &other].map(|auction| Held::hold(auction, &coins).unwrap());
            assert!(differing(both.into(), &[1, 2])[0] > 0);
            let both = hold_both(&one, &other, &[1, 3]).unwrap();
            assert!(differing(both, &[1, 2])[0] > 0);
        }
    }

    #[test]
    fn what_may_not_differ() {
        let (one, mut other) = samples(5, Way::Rounds33);
        let disagreement = |other: &Auction| one.agrees(other).unwrap_err();
        other.bids[0][12] += 1;
        assert!(disagreement(&other).ends_with("supply at the price is 60 and 61"));
        // Supply reaches demand at price 5, and then exceeds it.
        other.bids[0][12] = 34;
        assert!(disagreement(&other).ends_with("balanced index (0: none) is 0 and 5"));
        other.bids[0][12] = 35;
        assert!(disagreement(&other).ends_with("(0: none) is 5 and 4"));
        other.bids.pop();
        assert!(disagreement(&other).ends_with("the number of bids is 4 and 3"));
        other.way = Way::Rounds7;
        assert!(disagreement(&other).ends_with("rounds of a probe is 33 and 7"));
    }
}
