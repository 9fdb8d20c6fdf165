//! Times the verified library against the plain reference, same inputs, both
//! optimised, in one run:
//!
//!     cargo run --release --bin benchmark
//!
//! In each repeat the two take turns, one short batch of calls after the other,
//! and the shortest batch of each is kept: the one that the rest of the machine
//! disturbed least. Their ratio, verified time divided by plain time, is the
//! figure of the repeat. The table has the middle figure of all repeats, the
//! least and the greatest.
//!
//! The byte product by itself is timed along a chain, where each product waits for
//! the one before; the time is that of one product. On both sides a product is one
//! call.
//!
//! A second table has one party's shares of a bid written entry by entry beside
//! the same by one call, on either side, in the same way. A third has the two ways to a
//! verdict beside each other: one party's sheet, and all that it says and hears in a
//! probe. A fourth has hearings at which just t + 1 parties were present beside those of
//! the same rounds at which all were. A fifth has the settlement page of all bidders and
//! sides beside the formatting and parsing of the standard library: `writeln!` of each
//! line, without a judgement, and lines that are split and parsed, then laid out anew
//! and compared.
//!
//! All inputs are drawn before the clock starts. Buffers that a call writes
//! are not cleared between calls. The record that a call steps is set back
//! before each call, on both sides.

use std::process::ExitCode;
use std::thread::available_parallelism;
use std::time::{Duration, Instant};

use clockivy::words::place::{self, BIDS};
use clockivy::{
    coins_len, deal_words_len, sheet_count, table_len, threshold, DEMAND_ROUND, HIGHEST_PRICE,
    MAX_AMOUNT, MAX_BIDS, MAX_PAGE_LEN, MAX_PRICES, RECORD_LEN, SETTLEMENT_LEN, SUPPLY_ROUND,
};
use clockivy_checks::engine::{ByteProduct, Engine, Plain, Verified};
use clockivy_checks::formatted;
use clockivy_checks::outcome::Totals;
use clockivy_checks::record::{has_cleared, is_over, mark, marks, width};
use clockivy_checks::rng::Rng;
use clockivy_reference::{
    drawn_len, message_len, sheet_len, MOST_WORDS, ROUNDS_33, ROUNDS_7, WAYS,
};

const N: u64 = 5;
const K: u64 = MAX_PRICES;
const TABLE: usize = table_len(K);
/// The numbers of parties whose two ways are timed.
const PANELS: [u64; 3] = [3, N, 9];
/// The party whose calls are timed one by one, or the last where there are fewer.
const OWN: u64 = 4;
/// The entry that is timed: all do the same work.
const ENTRY: u64 = K;
/// The bidder who is added: an even one, and the odd ones are on the roll.
const NEXT: u64 = MAX_BIDS / 2;
/// The round that stands for rounds 2 to 32, which do the same work.
const MIDDLE: u64 = 17;
/// What a buyer wants at the price.
const AMOUNT: u64 = 123_456;
/// The price of the settlement page, in pence: one of as many digits as any below the
/// highest.
const PRICE: u64 = HIGHEST_PRICE - 54_321;
/// Marks of everybody, and of t + 1 of N parties with the timed one among them. These
/// are not the first ones: nothing is known of them before.
const ALL: [u8; 9] = [1; 9];
const FEWEST: [u8; N as usize] = [0, 1, 0, 1, 1];

/// The products of a chain.
const CHAIN: u32 = 1_000;

const SEED: u64 = 1979;

/// How often a case is timed.
struct Plan {
    repeats: usize,
    /// Batches of each side in a repeat.
    batches: usize,
    /// The least time of a batch.
    batch: Duration,
}

const CALL_PLAN: Plan = Plan {
    repeats: 31,
    batches: 25,
    batch: Duration::from_micros(100),
};

/// A batch is one bid: entry by entry, that is long enough.
const BID_PLAN: Plan = Plan {
    batch: Duration::ZERO,
    ..CALL_PLAN
};

/// A batch is one auction.
const AUCTION_PLAN: Plan = Plan {
    repeats: 7,
    batches: 5,
    batch: Duration::ZERO,
};

/// What is timed, and beside what.
struct Case {
    name: &'static str,
    timed: fn(&mut Inputs),
    beside: fn(&mut Inputs),
    /// How many times what the row names is done in a run.
    parts: u32,
}

/// One call, or one auction, verified and beside that plain.
macro_rules! case {
    ($name:literal, $run:ident $(, $of:expr)*) => {
        Case {
            name: $name,
            timed: $run::<Verified $(, { $of })*>,
            beside: $run::<Plain $(, { $of })*>,
            parts: 1,
        }
    };
}

const CALLS: [Case; 39] = [
    case!("split", split),
    case!("split_entry", split_entry),
    case!("deal", deal, N, ROUNDS_33),
    case!("deal, 7 rounds", deal, N, ROUNDS_7),
    case!("add", add),
    case!("say, round 1", say, ROUNDS_33, 1),
    case!("say, rounds 2 to 32", say, ROUNDS_33, MIDDLE),
    case!("say, round 33", say, ROUNDS_33, ROUNDS_33),
    case!("say, round 34", say, ROUNDS_33, DEMAND_ROUND),
    case!("say, round 35", say, ROUNDS_33, SUPPLY_ROUND),
    case!("say, round 1 of 7", say, ROUNDS_7, 1),
    case!("say, round 2 of 7", say, ROUNDS_7, 2),
    case!("say, round 3 of 7", say, ROUNDS_7, 3),
    case!("say, round 4 of 7", say, ROUNDS_7, 4),
    case!("say, round 5 of 7", say, ROUNDS_7, 5),
    case!("say, round 6 of 7", say, ROUNDS_7, 6),
    case!("say, round 7 of 7", say, ROUNDS_7, ROUNDS_7),
    case!("hear, round 1", hear, ROUNDS_33, 1, false),
    case!("hear, rounds 2 to 32", hear, ROUNDS_33, MIDDLE, false),
    case!("hear, round 33", hear, ROUNDS_33, ROUNDS_33, false),
    case!("hear, round 34", hear, ROUNDS_33, DEMAND_ROUND, false),
    case!("hear, round 35", hear, ROUNDS_33, SUPPLY_ROUND, false),
    case!("hear, round 1 of 7", hear, ROUNDS_7, 1, false),
    case!("hear, round 2 of 7", hear, ROUNDS_7, 2, false),
    case!("hear, round 3 of 7", hear, ROUNDS_7, 3, false),
    case!("hear, round 4 of 7", hear, ROUNDS_7, 4, false),
    case!("hear, round 5 of 7", hear, ROUNDS_7, 5, false),
    case!("hear, round 6 of 7", hear, ROUNDS_7, 6, false),
    case!("hear, round 7 of 7", hear, ROUNDS_7, ROUNDS_7, false),
    case!("hear, round 1, t + 1 present", hear, ROUNDS_33, 1, true),
    case!(
        "hear, rounds 2 to 32, t + 1 present",
        hear,
        ROUNDS_33,
        MIDDLE,
        true
    ),
    case!(
        "hear, round 33, t + 1 present",
        hear,
        ROUNDS_33,
        ROUNDS_33,
        true
    ),
    case!(
        "hear, round 34, t + 1 present",
        hear,
        ROUNDS_33,
        DEMAND_ROUND,
        true
    ),
    case!(
        "hear, round 35, t + 1 present",
        hear,
        ROUNDS_33,
        SUPPLY_ROUND,
        true
    ),
    case!("a probe of one party, 33 rounds", probe, N, ROUNDS_33),
    case!("a probe of one party, 7 rounds", probe, N, ROUNDS_7),
    case!("fill", fill),
    case!("settlement_write, 2,000 lines", settlement_write),
    case!("settlement_read, 2,000 lines", settlement_read),
];

const AUCTION: Case = case!("whole auction, 1,000 bids", auction);

/// A run is a chain of products.
const PRODUCT: Case = Case {
    parts: CHAIN,
    ..case!("byte product", products)
};

/// One party's shares of a bid by entries, beside one call.
const BIDS_BY_ENTRIES: [Case; 2] = [by_entries::<Verified>(), by_entries::<Plain>()];

const fn by_entries<E: Engine>() -> Case {
    Case {
        name: E::NAME,
        timed: split_entries::<E>,
        beside: split::<E>,
        parts: 1,
    }
}

/// A sheet or a probe of 7 rounds, beside one of 33.
macro_rules! ways {
    ($name:literal, $run:ident, $engine:ident, $n:expr) => {
        Case {
            name: $name,
            timed: $run::<$engine, { $n }, ROUNDS_7>,
            beside: $run::<$engine, { $n }, ROUNDS_33>,
            parts: 1,
        }
    };
}

const TWO_WAYS: [Case; 12] = [
    ways!("verified, deal, 3 parties", deal, Verified, 3),
    ways!("verified, deal, 5 parties", deal, Verified, 5),
    ways!("verified, deal, 9 parties", deal, Verified, 9),
    ways!("verified, a probe, 3 parties", probe, Verified, 3),
    ways!("verified, a probe, 5 parties", probe, Verified, 5),
    ways!("verified, a probe, 9 parties", probe, Verified, 9),
    ways!("plain, deal, 3 parties", deal, Plain, 3),
    ways!("plain, deal, 5 parties", deal, Plain, 5),
    ways!("plain, deal, 9 parties", deal, Plain, 9),
    ways!("plain, a probe, 3 parties", probe, Plain, 3),
    ways!("plain, a probe, 5 parties", probe, Plain, 5),
    ways!("plain, a probe, 9 parties", probe, Plain, 9),
];

/// A hearing at which t + 1 parties were present, beside one at which all were.
macro_rules! fewest {
    ($name:literal, $engine:ident, $last:expr, $round:expr) => {
        Case {
            name: $name,
            timed: hear::<$engine, { $last }, { $round }, true>,
            beside: hear::<$engine, { $last }, { $round }, false>,
            parts: 1,
        }
    };
}

const HEARINGS_BY_FEWEST: [Case; 10] = [
    fewest!("verified, round 1", Verified, ROUNDS_33, 1),
    fewest!("verified, rounds 2 to 32", Verified, ROUNDS_33, MIDDLE),
    fewest!("verified, round 33", Verified, ROUNDS_33, ROUNDS_33),
    fewest!("verified, round 34", Verified, ROUNDS_33, DEMAND_ROUND),
    fewest!("verified, round 2 of 7", Verified, ROUNDS_7, 2),
    fewest!("plain, round 1", Plain, ROUNDS_33, 1),
    fewest!("plain, rounds 2 to 32", Plain, ROUNDS_33, MIDDLE),
    fewest!("plain, round 33", Plain, ROUNDS_33, ROUNDS_33),
    fewest!("plain, round 34", Plain, ROUNDS_33, DEMAND_ROUND),
    fewest!("plain, round 2 of 7", Plain, ROUNDS_7, 2),
];

/// A call on a settlement page, beside what the standard library has for it.
macro_rules! page {
    ($name:literal, $engine:ident, $call:ident, $beside:ident) => {
        Case {
            name: $name,
            timed: $call::<$engine>,
            beside: $beside,
            parts: 1,
        }
    };
}

const PAGES: [Case; 4] = [
    page!("verified, write", Verified, settlement_write, format_page),
    page!("verified, read", Verified, settlement_read, parse_page),
    page!("plain, write", Plain, settlement_write, format_page),
    page!("plain, read", Plain, settlement_read, parse_page),
];

fn main() -> ExitCode {
    let cores = available_parallelism().map_or(1, usize::from);
    println!("n = {N}, k = {K}, one thread, {cores} cores\n");

    let mut inputs = Inputs::draw(&mut Rng::new(SEED));
    heading(["call", Verified::NAME, Plain::NAME]);
    for case in &CALLS {
        println!("{}", measure(case, &mut inputs, &CALL_PLAN));
    }
    println!("{}", measure(&PRODUCT, &mut inputs, &CALL_PLAN));
    println!("{}", measure(&AUCTION, &mut inputs, &AUCTION_PLAN));

    println!();
    heading(["a bid for one party", "2,048 split_entry", "split"]);
    for case in &BIDS_BY_ENTRIES {
        println!("{}", measure(case, &mut inputs, &BID_PLAN));
    }

    println!();
    heading(["one party", "7 rounds", "33 rounds"]);
    for case in &TWO_WAYS {
        println!("{}", measure(case, &mut inputs, &CALL_PLAN));
    }

    println!();
    heading(["hear", "t + 1 present", "all present"]);
    for case in &HEARINGS_BY_FEWEST {
        println!("{}", measure(case, &mut inputs, &CALL_PLAN));
    }

    println!();
    heading(["a page of 2,000 lines", "call", "standard library"]);
    for case in &PAGES {
        println!("{}", measure(case, &mut inputs, &CALL_PLAN));
    }

    let verified = outcome::<Verified>(&mut inputs);
    let plain = outcome::<Plain>(&mut inputs);
    format_page(&mut inputs);
    parse_page(&mut inputs);
    let formatted = (inputs.formatted.as_bytes(), &inputs.read);
    let ways_agree = verified.probed.chunks(2).all(|ways| ways[0] == ways[1]);
    if verified != plain || formatted != (&verified.page, &verified.amounts) || !ways_agree {
        println!("\nbenchmark: FAILED, the answers, the fills, the probes, the pages or the products differ");
        return ExitCode::FAILURE;
    }
    println!("\nbenchmark: done, same answers, fills, probes, pages and products");
    ExitCode::SUCCESS
}

/// What an auction, a fill, the probes of each number of parties on each way, a page
/// written and read, and a chain of products come to.
#[derive(PartialEq)]
struct Outcome {
    answer: [u64; 2],
    filled: [u64; 2],
    probed: Vec<[u64; RECORD_LEN]>,
    page: Vec<u8>,
    amounts: Vec<u64>,
    product: u8,
}

fn outcome<E: Engine + ByteProduct>(inputs: &mut Inputs) -> Outcome {
    auction::<E>(inputs);
    fill::<E>(inputs);
    let probed = inputs.panels.iter().map(probed::<E>).collect();
    settlement_write::<E>(inputs);
    settlement_read::<E>(inputs);
    products::<E>(inputs);
    Outcome {
        answer: inputs.answer,
        filled: inputs.filled,
        probed,
        page: inputs.written.clone(),
        amounts: inputs.read.clone(),
        product: inputs.product,
    }
}

/// The first two lines of a table: what a row is, what is timed, beside what.
fn heading([row, timed, beside]: [&str; 3]) {
    println!("| {row} | {timed} | {beside} | ratio | least | greatest |");
    println!("|---|---:|---:|---:|---:|---:|");
}

/// A row of a table.
fn measure(case: &Case, inputs: &mut Inputs, plan: &Plan) -> String {
    let mut times = 1;
    while batch(case.beside, inputs, times) < plan.batch {
        times *= 2;
    }
    let mut timed = Vec::new();
    let mut beside = Vec::new();
    for _ in 0..plan.repeats {
        let mut least = [Duration::MAX; 2];
        for _ in 0..plan.batches {
            least[0] = least[0].min(batch(case.timed, inputs, times));
            least[1] = least[1].min(batch(case.beside, inputs, times));
        }
        let parts = f64::from(times) * f64::from(case.parts);
        timed.push(least[0].as_secs_f64() / parts);
        beside.push(least[1].as_secs_f64() / parts);
    }
    let mut ratios: Vec<f64> = timed.iter().zip(&beside).map(|(t, b)| t / b).collect();
    format!(
        "| {} | {} | {} | {} | {} | {} |",
        case.name,
        shown(middle(&mut timed)),
        shown(middle(&mut beside)),
        digits(middle(&mut ratios)),
        digits(ratios[0]),
        digits(ratios[plan.repeats - 1])
    )
}

/// The time of a number of calls.
fn batch(run: fn(&mut Inputs), inputs: &mut Inputs, times: u32) -> Duration {
    let start = Instant::now();
    for _ in 0..times {
        run(inputs);
    }
    start.elapsed()
}

/// Sorts and gives the middle one.
fn middle(figures: &mut [f64]) -> f64 {
    figures.sort_by(f64::total_cmp);
    figures[figures.len() / 2]
}

/// A time in a unit that suits it.
fn shown(seconds: f64) -> String {
    match seconds {
        s if s < 1e-8 => format!("{:.1} ns", s * 1e9),
        s if s < 1e-6 => format!("{:.0} ns", s * 1e9),
        s if s < 1e-4 => format!("{:.2} us", s * 1e6),
        s if s < 1e-3 => format!("{:.3} ms", s * 1e3),
        s => format!("{:.1} ms", s * 1e3),
    }
}

/// A ratio, with three digits.
fn digits(ratio: f64) -> String {
    match ratio {
        r if r < 10.0 => format!("{r:.2}"),
        r if r < 100.0 => format!("{r:.1}"),
        r => format!("{r:.0}"),
    }
}

/// A bidder's table and coins.
struct Bid {
    table: Vec<u64>,
    coins: Vec<u64>,
}

/// The dealer's coins for one probe.
struct Drawn {
    words: Vec<u64>,
    bytes: Vec<u8>,
}

/// What one party keeps.
struct Seat {
    record: [u64; RECORD_LEN],
    totals: Vec<u64>,
    sheets: Vec<u64>,
}

/// What one party holds before a round, and what it then hears.
struct Round {
    record: [u64; RECORD_LEN],
    messages: Vec<u64>,
}

/// The timed party of so many on one way.
struct Panel {
    n: u64,
    last: u64,
    /// What was drawn for its first sheet.
    drawn: Drawn,
    /// The party when the auction is over, the rounds of its first probe and then the
    /// two of the totals.
    seat: Seat,
    rounds: Vec<Round>,
}

/// All that the calls are given and lent.
struct Inputs {
    bids: Vec<Bid>,
    draws: Vec<Drawn>,
    /// Of each number of parties the two ways.
    panels: Vec<Panel>,
    /// The timed party with half of the bids added, shares below the prime that
    /// are added over and over, and to what.
    half: [u64; RECORD_LEN],
    addend: Vec<u64>,
    sum: Vec<u64>,
    /// The factors of a chain of products. None is 0, so that no product is.
    factors: Vec<u8>,
    /// What every bidder wants and gets on both sides, and its page at the price.
    amounts: Vec<u64>,
    page: Vec<u8>,
    /// What the calls write.
    shares: Vec<u64>,
    sheet: Vec<u64>,
    message: [u64; MOST_WORDS],
    stepped: [u64; RECORD_LEN],
    answer: [u64; 2],
    filled: [u64; 2],
    written: Vec<u8>,
    read: Vec<u64>,
    formatted: String,
    product: u8,
}

impl Inputs {
    fn draw(rng: &mut Rng) -> Inputs {
        let bids: Vec<Bid> = (0..MAX_BIDS)
            .map(|_| Bid {
                table: rng.table(K as usize),
                coins: rng.words(coins_len(N, K), Rng::amount_share),
            })
            .collect();
        let draws = Drawn::for_all(rng, N, ROUNDS_33);
        let clears = |bid: &&Bid| Totals::of(K, [&bid.table[..]]).price() > 0;
        let table = &bids.iter().find(clears).expect("one has a price").table;
        let ways = PANELS.iter().flat_map(|n| WAYS.map(|last| (*n, last)));
        let panels = ways
            .map(|(n, last)| Panel::draw(rng, n, last, table))
            .collect();
        let amounts = amounts(rng);
        let page = formatted::page(formatted::rows(PRICE, &amounts)).into_bytes();
        assert_eq!(page.len(), MAX_PAGE_LEN, "everybody wants something");
        Inputs {
            panels,
            bids,
            draws,
            half: half(),
            addend: rng.words(TABLE, Rng::amount_share),
            sum: vec![0; TABLE],
            factors: (0..CHAIN).map(|_| rng.between(1, 255) as u8).collect(),
            shares: vec![0; TABLE],
            sheet: vec![0; sheet_len(ROUNDS_7)],
            message: [0; MOST_WORDS],
            stepped: [0; RECORD_LEN],
            answer: [0; 2],
            filled: [0; 2],
            written: vec![0; page.len()],
            read: vec![0; SETTLEMENT_LEN],
            formatted: String::with_capacity(page.len()),
            amounts,
            page,
            product: 0,
        }
    }
}

/// The place of the timed party of `n` on a way among those drawn.
const fn panel(n: u64, last: u64) -> usize {
    let mut place = 0;
    while PANELS[place] != n {
        place += 1;
    }
    place * WAYS.len() + (last == ROUNDS_7) as usize
}

impl Drawn {
    /// The dealer's coins for all probes.
    fn for_all(rng: &mut Rng, n: u64, last: u64) -> Vec<Drawn> {
        let one = |_| {
            let mut words = rng.words(deal_words_len(n), Rng::amount_share);
            words[0] = rng.mask();
            let bytes = rng.bytes(drawn_len(n, last));
            Drawn { words, bytes }
        };
        (0..sheet_count(K)).map(one).collect()
    }
}

impl Panel {
    /// An auction of one bid with this table, which has a price; everybody is on the
    /// roll.
    fn draw(rng: &mut Rng, n: u64, last: u64, table: &[u64]) -> Panel {
        let bid = Bid {
            table: table.to_vec(),
            coins: rng.words(coins_len(n, K), Rng::amount_share),
        };
        let mut draws = Drawn::for_all(rng, n, last);
        let mut seats = seats::<Plain>(n, last, &[bid], &draws);
        for seat in &mut seats {
            enter(&mut seat.record, 1);
        }
        let own = OWN.min(n) as usize - 1;
        let mut rounds = Vec::new();
        while !is_over(&seats[0].record) {
            let record = seats[own].record;
            let messages = round::<Plain>(&mut seats);
            if (rounds.len() as u64) < last || has_cleared(&record) {
                rounds.push(Round { record, messages });
            }
        }
        assert_eq!(rounds.len() as u64, last + 2, "there is a price");
        Panel {
            n,
            last,
            drawn: draws.swap_remove(0),
            seat: seats.swap_remove(own),
            rounds,
        }
    }

    /// A round of the first probe, or one of the totals.
    fn round(&self, number: u64) -> &Round {
        let place = match number {
            DEMAND_ROUND.. => self.last + number - DEMAND_ROUND,
            _ => number - 1,
        };
        &self.rounds[place as usize]
    }
}

fn split<E: Engine>(inputs: &mut Inputs) {
    let Bid { table, coins } = &inputs.bids[0];
    done(E::split(N, OWN, K, table, coins, &mut inputs.shares));
}

/// One entry, from the coins that `split` has for it.
fn write_entry<E: Engine>(inputs: &mut Inputs, entry: u64) {
    let Bid { table, coins } = &inputs.bids[0];
    let t = threshold(N);
    let start = (entry as usize - 1) * t;
    let coins = &coins[start..start + t];
    done(E::split_entry(
        N,
        OWN,
        K,
        entry,
        table,
        coins,
        &mut inputs.shares,
    ));
}

fn split_entry<E: Engine>(inputs: &mut Inputs) {
    write_entry::<E>(inputs, ENTRY);
}

fn split_entries<E: Engine>(inputs: &mut Inputs) {
    for entry in 1..=2 * K {
        write_entry::<E>(inputs, entry);
    }
}

fn deal<E: Engine, const PARTIES: u64, const LAST: u64>(inputs: &mut Inputs) {
    let Drawn { words, bytes } = &inputs.panels[const { panel(PARTIES, LAST) }].drawn;
    let own = OWN.min(PARTIES);
    let length = sheet_len(LAST);
    let sheet = &mut inputs.sheet[..length];
    done(E::deal(PARTIES, own, LAST, words, bytes, sheet));
}

fn add<E: Engine>(inputs: &mut Inputs) {
    let mut record = inputs.half;
    done(E::add(&mut record, &mut inputs.sum, NEXT, &inputs.addend));
}

fn say<E: Engine, const LAST: u64, const ROUND: u64>(inputs: &mut Inputs) {
    let panel = &inputs.panels[const { panel(N, LAST) }];
    let Seat { totals, sheets, .. } = &panel.seat;
    let round = panel.round(ROUND);
    let message = &mut inputs.message[..message_len(LAST, ROUND)];
    done(E::say(&round.record, totals, sheets, message));
    let own = (OWN as usize - 1) * message.len();
    assert_eq!(*message, round.messages[own..own + message.len()]);
}

fn hear<E: Engine, const LAST: u64, const ROUND: u64, const BY_FEWEST: bool>(inputs: &mut Inputs) {
    let panel = &inputs.panels[const { panel(N, LAST) }];
    let Seat { totals, sheets, .. } = &panel.seat;
    let round = panel.round(ROUND);
    let present = if BY_FEWEST {
        &FEWEST
    } else {
        &ALL[..N as usize]
    };
    let mut record = round.record;
    done(E::hear(
        &mut record,
        totals,
        sheets,
        &round.messages,
        present,
    ));
}

/// All that one party says and hears in a probe, everybody being present.
fn probe<E: Engine, const PARTIES: u64, const LAST: u64>(inputs: &mut Inputs) {
    let panel = &inputs.panels[const { panel(PARTIES, LAST) }];
    inputs.stepped = probed::<E>(panel);
}

/// The record that the first probe of a party leaves, without the way.
fn probed<E: Engine>(panel: &Panel) -> [u64; RECORD_LEN] {
    let Seat { totals, sheets, .. } = &panel.seat;
    let present = &ALL[..panel.n as usize];
    let mut record = panel.rounds[0].record;
    let mut message = [0; MOST_WORDS];
    for Round { messages, .. } in &panel.rounds[..panel.last as usize] {
        let width = messages.len() / present.len();
        done(E::say(&record, totals, sheets, &mut message[..width]));
        done(E::hear(&mut record, totals, sheets, messages, present));
    }
    record[place::LAST] = 0;
    record
}

fn fill<E: Engine>(inputs: &mut Inputs) {
    let [tenths, remainder] = &mut inputs.filled;
    let record = &inputs.panels[const { panel(N, ROUNDS_33) }].seat.record;
    done(E::fill(record, AMOUNT, tenths, remainder));
}

fn settlement_write<E: Engine>(inputs: &mut Inputs) {
    let mut length = 0;
    done(E::settlement_write(
        PRICE,
        &inputs.amounts,
        &mut inputs.written,
        &mut length,
    ));
}

fn settlement_read<E: Engine>(inputs: &mut Inputs) {
    done(E::settlement_read(PRICE, &inputs.page, &mut inputs.read));
}

/// The page by the standard library, into a string that has the room.
fn format_page(inputs: &mut Inputs) {
    inputs.formatted.clear();
    let rows = formatted::rows(PRICE, &inputs.amounts);
    formatted::write(rows, &mut inputs.formatted);
}

fn parse_page(inputs: &mut Inputs) {
    inputs.read = formatted::read(PRICE, &inputs.page).expect("it is laid out");
}

/// What everybody wants, more than 0, and gets.
fn amounts(rng: &mut Rng) -> Vec<u64> {
    let pair = |_| {
        let wanted = rng.between(1, MAX_AMOUNT);
        [wanted, rng.between(0, wanted)]
    };
    (0..SETTLEMENT_LEN / 2).flat_map(pair).collect()
}

/// A chain of products, each made from the one before.
fn products<E: ByteProduct>(inputs: &mut Inputs) {
    let mut product = 1;
    for &factor in &inputs.factors {
        product = E::byte_product(product, factor);
    }
    inputs.product = product;
}

/// The record of the timed party before the first round, with every second
/// bidder on the roll.
fn half() -> [u64; RECORD_LEN] {
    let mut record = [0; RECORD_LEN];
    let totals = &mut [0; TABLE];
    done(Plain::open(N, OWN, K, ROUNDS_33, totals, &mut record));
    enter(&mut record, 2);
    record
}

/// Puts the bidders 1, 1 + `step` and so on onto the roll of a record.
fn enter(record: &mut [u64], step: usize) {
    for bidder in (1..=MAX_BIDS).step_by(step) {
        mark(record, bidder);
    }
    record[BIDS] = marks(record);
}

/// Every call of an auction, for all parties.
fn auction<E: Engine>(inputs: &mut Inputs) {
    let mut seats = seats::<E>(N, ROUNDS_33, &inputs.bids, &inputs.draws);
    while !is_over(&seats[0].record) {
        round::<E>(&mut seats);
    }
    for seat in &seats {
        let [index, probes] = &mut inputs.answer;
        done(E::answer(&seat.record, index, probes));
    }
}

/// All parties with the bids added and the sheets dealt.
fn seats<E: Engine>(n: u64, last: u64, bids: &[Bid], draws: &[Drawn]) -> Vec<Seat> {
    let length = sheet_len(last);
    let mut seats = Vec::new();
    for own in 1..=n {
        let mut seat = Seat {
            record: [0; RECORD_LEN],
            totals: vec![0; TABLE],
            sheets: vec![0; length * draws.len()],
        };
        let Seat { record, totals, .. } = &mut seat;
        done(E::open(n, own, K, last, totals, record));
        seats.push(seat);
    }
    let mut shares = vec![0; TABLE];
    for (bidder, Bid { table, coins }) in (1..).zip(bids) {
        for (own, seat) in (1..).zip(&mut seats) {
            done(E::split(n, own, K, table, coins, &mut shares));
            done(E::add(&mut seat.record, &mut seat.totals, bidder, &shares));
        }
    }
    for (probe, Drawn { words, bytes }) in draws.iter().enumerate() {
        for (own, seat) in (1..).zip(&mut seats) {
            let sheet = &mut seat.sheets[length * probe..length * (probe + 1)];
            done(E::deal(n, own, last, words, bytes, sheet));
        }
    }
    seats
}

/// One round of all parties; gives the messages.
fn round<E: Engine>(seats: &mut [Seat]) -> Vec<u64> {
    let width = width(&seats[0].record);
    let mut messages = vec![0; width * seats.len()];
    for (seat, message) in seats.iter().zip(messages.chunks_exact_mut(width)) {
        done(E::say(&seat.record, &seat.totals, &seat.sheets, message));
    }
    let present = &ALL[..seats.len()];
    for seat in seats {
        done(E::hear(
            &mut seat.record,
            &seat.totals,
            &seat.sheets,
            &messages,
            present,
        ));
    }
    messages
}

fn done(reply: u64) {
    assert_eq!(reply, 0, "a call was refused");
}
