//! The coins of an auction, and those of another one that fit the same.

use clockivy::{
    coins_len, deal_bytes_len, deal_words_len, sheet_count, threshold, Refusal, Source, System,
    Way, MASK_LIMIT, PRIME,
};

use crate::auction::{Auction, Totals};
use crate::field::{recolour, unseen_by, Amounts, Bytes, Field};
use crate::held::Probe;

/// All that the bidders and the dealer draw.
pub struct Coins {
    /// The coins of each bid, t for each entry in turn.
    pub bids: Vec<Vec<u64>>,
    /// Those of each sheet.
    pub sheets: Vec<SheetCoins>,
}

/// What the dealer draws for one probe.
#[derive(Clone)]
pub struct SheetCoins {
    /// The mask and its t coefficients.
    pub words: Vec<u64>,
    /// t coefficients for each of bits 1 to 33 of the mask; then, for each product,
    /// alpha, beta and t coefficients each for alpha, beta and their product.
    pub bytes: Vec<u8>,
}

impl Coins {
    /// New coins from the system.
    pub fn draw(auction: &Auction) -> Result<Coins, Refusal> {
        let (n, k) = (auction.n, auction.k());
        let bid = |_| (0..coins_len(n, k)).map(|_| System.below(PRIME)).collect();
        let bids = auction.bids.iter().map(bid).collect::<Option<_>>();
        let sheets = (0..sheet_count(k)).map(|_| SheetCoins::draw(n, auction.way));
        let drawn = bids.zip(sheets.collect::<Option<_>>());
        let (bids, sheets) = drawn.ok_or(Refusal::CoinOutOfRange)?;
        Ok(Coins { bids, sheets })
    }

    /// The coins with which another auction leaves the pool what these leave it in this
    /// one; none where a mask leaves its range. Sheets that no probe came to keep
    /// theirs.
    pub fn fitting(
        &self,
        one: &Auction,
        other: &Auction,
        pool: &[u64],
        probes: &[Probe],
    ) -> Option<Coins> {
        let unseen = Unseen::by(pool);
        let t = threshold(one.n);
        let mut bids = self.bids.clone();
        for ((coins, table), new) in bids.iter_mut().zip(&one.bids).zip(&other.bids) {
            for ((coins, &amount), &new) in coins.chunks_mut(t).zip(table).zip(new) {
                recolour::<Amounts>(coins, Amounts::sub(new, amount), &unseen.amounts);
            }
        }
        let (totals, others) = (Totals::of(one), Totals::of(other));
        let mut sheets = self.sheets.clone();
        for (coins, probe) in sheets.iter_mut().zip(probes) {
            let surpluses = [&totals, &others].map(|totals| probe.surplus(totals));
            coins.fit(one.way, surpluses, &unseen)?;
        }
        Some(Coins { bids, sheets })
    }
}

/// The polynomial that the pool does not see, in both fields.
struct Unseen {
    amounts: Vec<u64>,
    bytes: Vec<u8>,
}

impl Unseen {
    fn by(pool: &[u64]) -> Unseen {
        Unseen {
            amounts: unseen_by::<Amounts>(pool),
            bytes: unseen_by::<Bytes>(pool),
        }
    }
}

impl SheetCoins {
    fn draw(n: u64, way: Way) -> Option<SheetCoins> {
        let mask = System.below(MASK_LIMIT);
        let coefficients = (1..deal_words_len(n)).map(|_| System.below(PRIME));
        let words = std::iter::once(mask).chain(coefficients).collect();
        let byte = |_| System.below(256).map(|byte| byte as u8);
        let bytes = (0..deal_bytes_len(n, way)).map(byte).collect();
        Option::zip(words, bytes).map(|(words, bytes)| SheetCoins { words, bytes })
    }

    /// Changes them to those that open the same with the other surplus. Each of what
    /// is opened is a secret plus something that was drawn: where the secret changes,
    /// what was drawn changes as much. Their sharings go along, unseen by the pool.
    fn fit(&mut self, way: Way, [surplus, other]: [i64; 2], unseen: &Unseen) -> Option<()> {
        let mask = self.words[0];
        let moved = mask.checked_add_signed(other - surplus)?;
        if moved >= MASK_LIMIT {
            return None;
        }
        let opened = OPENED_WITHOUT_MASK.checked_add_signed(surplus)? - mask;
        self.words[0] = moved;
        recolour::<Amounts>(
            &mut self.words[1..],
            Amounts::sub(moved, mask),
            &unseen.amounts,
        );
        let (bits, products) = self.bytes.split_at_mut(33 * unseen.bytes.len());
        for (bit, coins) in (1..).zip(bits.chunks_mut(unseen.bytes.len())) {
            recolour::<Bytes>(coins, nth(mask ^ moved, bit), &unseen.bytes);
        }
        let [before, after] = [mask, moved].map(|mask| factors(way, opened, mask));
        let products = products.chunks_mut(2 + 3 * unseen.bytes.len());
        for (coins, (before, after)) in products.zip(before.iter().zip(&after)) {
            let change = [before[0] ^ after[0], before[1] ^ after[1]];
            fit_product(coins, change, &unseen.bytes);
        }
        Some(())
    }
}

/// What round 1 opens is this, minus the mask, plus the surplus.
const OPENED_WITHOUT_MASK: u64 = (1 << 59) + (1 << 32);

/// Changes alpha, beta and the sharings of both and of their product.
fn fit_product(coins: &mut [u8], change: [u8; 2], unseen: &[u8]) {
    let (factors, coefficients) = coins.split_at_mut(2);
    let before = Bytes::mul(factors[0], factors[1]);
    factors[0] ^= change[0];
    factors[1] ^= change[1];
    let product = before ^ Bytes::mul(factors[0], factors[1]);
    let changes = [change[0], change[1], product];
    for (coefficients, change) in coefficients.chunks_mut(unseen.len()).zip(changes) {
        recolour::<Bytes>(coefficients, change, unseen);
    }
}

/// The factors of each product of a probe, in turn: what the parties have in shares when
/// they add the opened sum and the mask.
fn factors(way: Way, opened: u64, mask: u64) -> Vec<[u8; 2]> {
    let pair = |bit| (nth(opened ^ mask, bit), nth(opened, bit));
    let mut pairs: Vec<Pair> = (1..=32).map(pair).collect();
    pairs[0] = merged((0, 0), pairs[0]);
    let mut factors = Vec::new();
    // One after the other, of which the bottoms alone are needed; or two by two.
    if way == Way::Rounds33 {
        let carry = |left, &right: &Pair| {
            factors.push(merging(left, right)[1]);
            merged(left, right)
        };
        pairs[1..].iter().fold(pairs[0], carry);
        return factors;
    }
    while pairs.len() > 1 {
        factors.extend(pairs.chunks(2).flat_map(|two| merging(two[0], two[1])));
        pairs = pairs.chunks(2).map(|two| merged(two[0], two[1])).collect();
    }
    factors
}

/// A bit of the sum and the mask added without carries, and the carry that it makes where
/// that is 0. Merged with its neighbours it stands for several bits.
type Pair = (u8, u8);

/// The factors of the two products with which two pairs are merged, top and bottom.
fn merging((x, big_x): Pair, (y, big_y): Pair) -> [[u8; 2]; 2] {
    [[x, y], [y, big_x ^ big_y]]
}

fn merged(left: Pair, right: Pair) -> Pair {
    let [top, bottom] = merging(left, right).map(|[u, v]| u & v);
    (top, bottom ^ right.1)
}

/// A bit of a number, bit 1 being the lowest.
fn nth(number: u64, bit: usize) -> u8 {
    (number >> (bit - 1) & 1) as u8
}
