//! The largest bid, 1,024 listed prices among nine parties, split entry by entry
//! while four coins are held at a time. Splitting it at once takes 8,192 coins
//! together; here only the check against that keeps them.
//!
//! The coins come from the operating system. A real desk keeps none of them.

use clockivy::{
    coins_len, split, table_len, threshold, Entries, Refusal, Seat, Source, System, Way, BLANK,
    MAX_AMOUNT, MAX_PRICES, PARTIES, PRIME,
};

const N: u64 = *PARTIES.end();
const K: u64 = MAX_PRICES;

fn main() -> Result<(), Refusal> {
    let table = table();
    let mut drawn = Vec::new();
    let mut source = || {
        let coin = System.below(PRIME)?;
        drawn.push(coin);
        Some(coin)
    };

    // What the desk keeps until every party has its bid.
    let mut shares = vec![BLANK; N as usize * table_len(K)];
    let mut written = 0;
    for entry in Entries::new(N, K, &table, &mut shares, &mut source)? {
        written = entry?;
    }
    assert_eq!(written as usize, table_len(K));
    println!("{N} parties, {K} prices: {written} entries, each for every party");
    println!(
        "coins drawn {}, held at a time {}",
        drawn.len(),
        threshold(N)
    );

    assert_eq!(drawn.len(), coins_len(N, K));
    for (own, shares) in (1..).zip(shares.chunks(table_len(K))) {
        let seat = Seat {
            n: N,
            own,
            k: K,
            way: Way::Rounds33,
        };
        let mut whole = vec![BLANK; table_len(K)];
        split(seat, &table, &drawn, &mut whole)?;
        assert_eq!(shares, whole);
    }
    println!("the shares are those split at once from the same coins");
    Ok(())
}

/// Demand falls from the largest amount by a step at each price, and supply
/// rises to it.
fn table() -> Vec<u64> {
    let step = MAX_AMOUNT / K;
    let demand = (0..K).map(|price| MAX_AMOUNT - step * price);
    let supply = (1..=K).map(|price| MAX_AMOUNT - step * (K - price));
    demand.chain(supply).collect()
}
