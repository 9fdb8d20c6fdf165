//! Hours at the price: the totals that are opened there, what each buyer gets by
//! them, and what they give away.

use clockivy::words::place::{DEMAND, FIRST, HI, LO, OWN, ROUND, SEARCH, SUPPLY};
use clockivy::{
    table_len, words, Cleared, Collecting, Fill, Outcome, Refusal, Sheets, Speaking, Way,
    DEMAND_ROUND, MAX_AMOUNT, OVER_ROUND, PRIME, RECORD_LEN, STORED_HEAD, SUPPLY_ROUND,
    TOTAL_LIMIT,
};
use clockivy_testing::{
    from_all, from_marked, go_on_until, panel, parts, said, seat, tables, Bid, Plain, WAYS,
};

const N: u64 = 3;

/// The paper's: four prices, one that buys and one that sells. Demand is at least
/// supply up to index 2, and equals it nowhere.
const SAMPLE: [[u64; 8]; 2] = [[30, 20, 15, 0, 0, 0, 0, 0], [0, 0, 0, 0, 5, 15, 18, 40]];

/// Three parties with the bids of bidders 1, 2 and so on, about to speak.
fn parties(k: u64, way: Way, bids: &[Vec<u64>]) -> Vec<Speaking> {
    let bids: Vec<Bid> = (1..).zip(bids.iter().map(Vec::as_slice)).collect();
    panel(N, k, way, &bids)
}

/// Those of the sample.
fn sample(way: Way) -> Vec<Speaking> {
    parties(4, way, &SAMPLE.map(Vec::from))
}

/// A session of the sample that was stored. From round 34 on it reads no sheet.
fn resumed(stored: &[u64], way: Way) -> Speaking {
    Speaking::resume(stored, Sheets::blank(4, way)).unwrap()
}

/// What an auction of these bids comes to, for every party and either way the same.
fn outcome(k: u64, bids: &[Vec<u64>]) -> Outcome {
    let [found, other] = WAYS.map(|way| {
        let mut parties = parties(k, way, bids);
        go_on_until(&mut parties, OVER_ROUND);
        let outcome = parties[0].outcome().unwrap().unwrap();
        for party in &parties {
            assert_eq!(party.outcome(), Ok(Some(outcome)));
        }
        outcome
    });
    assert_eq!(found, other);
    found
}

/// The totals at the price of these bids, and its index.
fn cleared(k: u64, bids: &[Vec<u64>]) -> (u64, Cleared) {
    match outcome(k, bids) {
        Outcome::Price { index, cleared, .. } => (index.get(), cleared),
        other => panic!("{other:?}"),
    }
}

fn filled(tenths: u64, remainder: u64) -> Result<Fill, Refusal> {
    Ok(Fill { tenths, remainder })
}

/// A fill on plain words that hold 77 and 88: the reply, and what they hold then.
fn fill(record: &[u64], amount: u64) -> (u64, u64, u64) {
    let (mut tenths, mut remainder) = (77, 88);
    let reply = words::fill(record, amount, &mut tenths, &mut remainder);
    (reply, tenths, remainder)
}

/// What every bid gets at the price, held against the totals of the tables.
fn assert_shared_out(index: u64, cleared: Cleared, bids: &[Vec<u64>]) {
    let place = index as usize - 1;
    let total = |place: usize| bids.iter().map(|table| table[place]).sum::<u64>();
    let k = bids.first().map_or(0, |table| table.len() / 2);
    let [demand, supply] = [cleared.demand(), cleared.supply()];
    assert_eq!([demand, supply], [total(place), total(k + place)]);
    assert!(supply <= demand);
    let (mut got, mut remainders, mut buyers) = (0, 0, 0);
    for table in bids {
        let wants = table[place];
        let Fill { tenths, remainder } = cleared.fill(wants).unwrap();
        assert_eq!(tenths * demand + remainder, wants * supply);
        assert!(tenths <= wants && remainder < demand.max(1));
        got += tenths;
        remainders += remainder;
        buyers += u64::from(wants > 0);
    }
    assert_eq!(got * demand + remainders, demand * supply);
    assert!(demand == 0 || supply - got < buyers);
}

#[test]
fn the_sample_of_the_paper() {
    let bids = SAMPLE.map(Vec::from);
    let (index, cleared) = cleared(4, &bids);
    assert_eq!(index, 2);
    assert_eq!(Ok(cleared), Cleared::new(20, 15));
    // The one that buys wants 20 there, and gets all that is sold.
    assert_eq!(cleared.fill(20), filled(15, 0));
    assert_shared_out(index, cleared, &bids);
}

#[test]
fn several_buyers_share_what_is_sold() {
    let bids = [
        vec![9, 8, 7, 0, 0, 0, 0, 0],
        vec![9, 8, 7, 0, 0, 0, 0, 0],
        vec![9, 8, 6, 0, 0, 1, 2, 9],
        vec![0, 0, 0, 0, 1, 5, 9, 70],
    ];
    let (index, cleared) = cleared(4, &bids);
    assert_eq!((index, Ok(cleared)), (3, Cleared::new(20, 11)));
    // Nine of eleven tenths: what is left over is less than one for each.
    assert_eq!(
        [7, 6, 0].map(|wants| cleared.fill(wants)),
        [filled(3, 17), filled(3, 6), filled(0, 0)]
    );
    assert_shared_out(index, cleared, &bids);
}

#[test]
fn at_a_balanced_price_everybody_gets_all() {
    let bids = [
        vec![9, 7, 7, 7, 3, 0, 0, 0, 0, 4],
        vec![2, 2, 2, 2, 2, 1, 1, 1, 1, 1],
        vec![0, 0, 0, 0, 0, 3, 8, 8, 8, 8],
    ];
    let (index, cleared) = cleared(5, &bids);
    assert_eq!((index, Ok(cleared)), (3, Cleared::new(9, 9)));
    for wants in [0, 1, 2, 7, 9, 1_000, MAX_AMOUNT] {
        assert_eq!(cleared.fill(wants), filled(wants, 0));
    }
    assert_shared_out(index, cleared, &bids);
}

/// Without demand a fill is 0 and 0, of any amount.
#[test]
fn no_demand() {
    for k in [1, 2, 3, 4, 7, 8, 1_024] {
        let (index, cleared) = cleared(k, &[]);
        assert_eq!((index, Ok(cleared)), (k.div_ceil(2), Cleared::new(0, 0)));
        for amount in [0, 1, 20, MAX_AMOUNT] {
            assert_eq!(cleared.fill(amount), filled(0, 0));
        }
        assert_eq!(cleared.fill(MAX_AMOUNT + 1), Err(Refusal::AmountTooLarge));
    }
    // Nobody wants any at the price, though somebody does at a lower one.
    let (index, cleared) = cleared(3, &[vec![4, 0, 0, 0, 0, 0]]);
    assert_eq!((index, Ok(cleared)), (2, Cleared::new(0, 0)));
}

#[test]
fn no_supply() {
    let bids = [vec![5, 4, 4, 4, 0, 0, 0, 0], vec![3, 3, 3, 3, 0, 0, 0, 0]];
    let (index, cleared) = cleared(4, &bids);
    assert_eq!((index, Ok(cleared)), (4, Cleared::new(7, 0)));
    assert_eq!(cleared.fill(4), filled(0, 0));
    assert_shared_out(index, cleared, &bids);
}

#[test]
fn without_a_price_there_are_no_totals() {
    for (k, way) in [1, 2, 5].into_iter().flat_map(|k| WAYS.map(|way| (k, way))) {
        let mut bid = vec![0; table_len(k)];
        bid[k as usize..].fill(1);
        let mut parties = parties(k, way, &[bid]);
        go_on_until(&mut parties, OVER_ROUND);
        for party in &parties {
            let record = party.record();
            assert_eq!((record.round, record.demand, record.supply), (1, 0, 0));
            let probes = record.probes;
            assert_eq!(party.outcome(), Ok(Some(Outcome::NoPrice { probes })));
            assert_eq!(party.say(), Err(Refusal::OutOfTurn));
            // Such an outcome has no totals to fill by. A call on the record is refused.
            let refused = (Refusal::NotCleared.number(), 77, 88);
            assert_eq!(fill(parts(&party.store()).0, 0), refused);
        }
    }
}

/// Every two tables of one price or two and small amounts, and a third beside them.
#[test]
fn small_tables() {
    let third = [vec![3, 1], vec![2, 2, 0, 1]];
    for (k, most) in [(1, 3), (2, 2)] {
        let tables = tables(k, most);
        for one in &tables {
            for other in &tables {
                let bids = [one.clone(), other.clone(), third[k as usize - 1].clone()];
                match outcome(k, &bids) {
                    Outcome::Price { index, cleared, .. } => {
                        assert_shared_out(index.get(), cleared, &bids);
                    }
                    _ => assert_more_for_sale(k as usize, &bids),
                }
            }
        }
    }
}

/// At every price more is for sale than wanted.
fn assert_more_for_sale(k: usize, bids: &[Vec<u64>]) {
    let total = |place: usize| bids.iter().map(|table| table[place]).sum::<u64>();
    assert!((0..k).all(|place| total(k + place) > total(place)));
}

/// Amounts as large as there are, of so many bids as there are.
#[test]
fn the_largest_totals() {
    for way in WAYS {
        assert_largest_totals(way);
    }
}

fn assert_largest_totals(way: Way) {
    let k = 1;
    let mut session = Collecting::open(seat(N, 1, k, way)).unwrap();
    for bidder in 1..=1_000 {
        // The coins are 0, so that the shares are the amounts.
        session.add(bidder, &[MAX_AMOUNT; 2]).unwrap();
    }
    const { assert!(1_000 * MAX_AMOUNT < TOTAL_LIMIT) };
    // The session speaks, and both searches have ended at the one price.
    let mut stored = session.speak(Sheets::blank(k, way)).store();
    let record = &mut stored[STORED_HEAD..];
    [record[HI], record[ROUND], record[SEARCH], record[FIRST]] = [1, DEMAND_ROUND, 2, 1];
    let mut party = Speaking::resume(&stored, Sheets::blank(k, way)).unwrap();
    for _ in 0..2 {
        assert_eq!(*party.say().unwrap(), [1_000 * MAX_AMOUNT]);
        party.hear(&from_all(&[1_000 * MAX_AMOUNT; 3])).unwrap();
    }
    let Ok(Some(Outcome::Price { cleared, .. })) = party.outcome() else {
        panic!("it is over with a price");
    };
    assert_eq!(cleared.fill(MAX_AMOUNT), filled(MAX_AMOUNT, 0));
    assert_eq!(cleared.supply(), 1_000 * MAX_AMOUNT);
}

#[test]
fn totals_by_whoever_was_told_them() {
    let top = TOTAL_LIMIT - 1;
    for [demand, supply] in [[0, 0], [1, 0], [1, 1], [20, 15], [top, 0], [top, top]] {
        let cleared = Cleared::new(demand, supply).unwrap();
        assert_eq!([cleared.demand(), cleared.supply()], [demand, supply]);
        for amount in [0, 1, 2, 7, 4_095, MAX_AMOUNT - 1, MAX_AMOUNT] {
            let product = amount * supply;
            let expected = match demand {
                0 => filled(0, 0),
                _ => filled(product / demand, product % demand),
            };
            assert_eq!(cleared.fill(amount), expected);
        }
        for amount in [MAX_AMOUNT + 1, 1 << 32, 1 << 63, u64::MAX] {
            assert_eq!(cleared.fill(amount), Err(Refusal::AmountTooLarge));
        }
    }
    let most = u64::MAX;
    for [demand, supply] in [
        [0, 1],
        [14, 15],
        [top + 1, 0],
        [top, top + 1],
        [most, most],
        [0, most],
    ] {
        assert_eq!(Cleared::new(demand, supply), Err(Refusal::OutOfRange));
    }
}

/// A fill on plain words: the record is judged first, then whether it has cleared,
/// then the amount; what is refused writes nothing.
#[test]
fn a_fill_is_judged_in_its_order() {
    for way in WAYS {
        assert_fill_judged(way);
    }
}

fn assert_fill_judged(way: Way) {
    let [before, over] = [DEMAND_ROUND, OVER_ROUND].map(|round| {
        let mut parties = sample(way);
        go_on_until(&mut parties, round);
        parts(&parties[1].store()).0.to_vec()
    });
    assert_eq!(fill(&over, 7), (0, 5, 5));
    assert_eq!(fill(&over, MAX_AMOUNT), (0, 3_145_727, 5));
    let large = MAX_AMOUNT + 1;
    assert_eq!(fill(&over, large), (6, 77, 88));
    assert_eq!(fill(&before, large), (16, 77, 88));
    let mut unsound = over.clone();
    unsound[SUPPLY] = 21;
    assert_eq!(fill(&unsound, large), (1, 77, 88));
    for length in [0, 10, 26, 29, RECORD_LEN - 1, RECORD_LEN + 1] {
        assert_eq!(fill(&vec![u64::MAX; length], large), (2, 77, 88));
    }
}

/// The first party once more from its stored session, hearing messages that were made up:
/// the round, the demand and the supply of the record then. With two of three parties
/// present they open to anything: points 1 and 2 have weights 2 and -1 at 0.
fn opening(stored: &[u64], way: Way, opened: u64) -> Result<[u64; 3], Refusal> {
    let mut party = resumed(stored, way);
    let own = party.say().unwrap()[0];
    let other = (2 * own + PRIME - opened) % PRIME;
    let reply = party.hear(&from_marked(&[own, other, u64::MAX], &[1, 1, 0]));
    assert!(reply.is_ok() || party.store() == stored);
    let record = party.record();
    reply.map(|()| [record.round, record.demand, record.supply])
}

/// The opened totals are below 2^32, and supply is at most demand.
#[test]
fn totals_that_are_none() {
    for way in WAYS {
        assert_totals_that_are_none(way);
    }
}

fn assert_totals_that_are_none(way: Way) {
    let mut parties = sample(way);
    let opening = |stored: &[u64], opened| opening(stored, way, opened);
    let wild = Err(Refusal::SumOutOfRange);
    let top = TOTAL_LIMIT - 1;

    go_on_until(&mut parties, DEMAND_ROUND);
    let first = parties[0].store();
    assert_eq!(opening(&first, 20), Ok([35, 20, 0]));
    assert_eq!(opening(&first, 0), Ok([35, 0, 0]));
    assert_eq!(opening(&first, top), Ok([35, top, 0]));
    for opened in [top + 1, 1 << 59, PRIME - 1] {
        assert_eq!(opening(&first, opened), wild);
    }
    // A supply that the record has before it is opened counts too.
    let mut supplied = first.clone();
    supplied[STORED_HEAD + DEMAND] = 21;
    supplied[STORED_HEAD + SUPPLY] = 21;
    assert_eq!(opening(&supplied, 21), Ok([35, 21, 21]));
    assert_eq!(opening(&supplied, 20), wild);

    go_on_until(&mut parties, SUPPLY_ROUND);
    let second = parties[0].store();
    assert_eq!(opening(&second, 15), Ok([36, 20, 15]));
    assert_eq!(opening(&second, 20), Ok([36, 20, 20]));
    for opened in [21, top, top + 1, PRIME - 1] {
        assert_eq!(opening(&second, opened), wild);
    }
}

/// What is said in rounds 34 and 35 is the party's share of a total at the price, and
/// no other word of the totals and none of the sheets is used: on plain words, since a
/// session keeps the totals that it collected.
#[test]
fn shares_of_the_totals_at_the_price() {
    for way in WAYS {
        assert_shares_at_the_price(way);
    }
}

fn assert_shares_at_the_price(way: Way) {
    let mut parties = sample(way);
    for (round, place) in [(DEMAND_ROUND, 1), (SUPPLY_ROUND, 5)] {
        go_on_until(&mut parties, round);
        for party in &parties {
            let stored = party.store();
            let share = parts(&stored).1[place];
            assert_eq!(*party.say().unwrap(), [share]);
            assert_eq!(party.index(), 2);
            let mut alone = Plain::resume(&stored, Sheets::blank(4, way).words());
            alone.totals.fill(u64::MAX);
            alone.totals[place] = share;
            assert_eq!(alone.say(), Ok(vec![share]));
            // The lengths count as ever.
            let mut short = alone.clone();
            short.sheets.pop();
            assert_eq!(short.say(), Err(Refusal::WrongLength));
            alone.totals[place] = PRIME;
            assert_eq!(alone.say(), Err(Refusal::ShareOutOfRange));
        }
    }
}

/// Why anybody may see the record of a session that is over: but for the party's
/// number it is the same at all parties, so that it holds no share.
#[test]
fn a_record_that_is_over_holds_no_share() {
    for way in WAYS {
        let mut parties = sample(way);
        go_on_until(&mut parties, OVER_ROUND);
        let mut records: Vec<_> = parties
            .iter()
            .map(|party| parts(&party.store()).0.to_vec())
            .collect();
        for (own, record) in (1..).zip(&mut records) {
            assert_eq!(record[OWN], own);
            record[OWN] = 0;
        }
        assert_eq!(records[0], records[1]);
        assert_eq!(records[0], records[2]);
    }
}

/// Why a fleet tells nobody what it gets: with the totals, that is what it wants.
#[test]
fn an_amount_is_given_away_by_its_fill() {
    let cleared = Cleared::new(20_000, 15_001).unwrap();
    for wants in 0..20_000 {
        let Fill { tenths, remainder } = cleared.fill(wants).unwrap();
        let told = (tenths * cleared.demand() + remainder) / cleared.supply();
        assert_eq!(told, wants);
        // By the tenths alone there are few that it can be.
        let others = [wants + 2, wants.saturating_sub(2)].map(|other| cleared.fill(other).unwrap());
        assert!(others[0].tenths > tenths && (others[1].tenths < tenths || wants < 2));
    }
}

/// Why an auction is not held again with a bid more: at the same price the totals
/// differ by what is in it.
#[test]
fn a_bid_is_given_away_by_an_auction_held_again() {
    let mut bids = SAMPLE.map(Vec::from).to_vec();
    let (index, before) = cleared(4, &bids);
    bids.push(vec![9, 3, 0, 0, 0, 1, 1, 8]);
    let (again, after) = cleared(4, &bids);
    assert_eq!(index, again);
    assert_eq!(after.demand() - before.demand(), 3);
    assert_eq!(after.supply() - before.supply(), 1);
}

/// Why a stored session is kept where nobody else writes: one that was made to have
/// ended elsewhere says its shares of the totals there, with no mask.
#[test]
fn totals_are_given_away_by_a_session_that_somebody_altered() {
    for way in WAYS {
        let parties = sample(way);
        for index in 1..=4 {
            for party in &parties {
                let mut stored = party.store();
                let share = parts(&stored).1[index as usize - 1];
                let record = &mut stored[STORED_HEAD..];
                [record[LO], record[HI]] = [index, index + 1];
                [record[ROUND], record[SEARCH], record[FIRST]] = [DEMAND_ROUND, 2, index];
                assert_eq!(*resumed(&stored, way).say().unwrap(), [share]);
            }
        }
    }
}

/// The two rounds are rounds like others: a wrong message is noticed by three of
/// three parties, and opens to something else by two.
#[test]
fn a_wrong_share_of_a_total() {
    for way in WAYS {
        assert_wrong_share(way);
    }
}

fn assert_wrong_share(way: Way) {
    let mut parties = sample(way);
    for (round, right) in [(DEMAND_ROUND, 20), (SUPPLY_ROUND, 15)] {
        go_on_until(&mut parties, round);
        let mut messages: Vec<u64> = said(&parties)
            .iter()
            .flatten()
            .map(|said| said[0])
            .collect();
        messages[1] = (messages[1] + 1) % PRIME;
        let heard = |present| from_marked(&messages, present);
        let refused = parties[0].hear(&heard(&[1, 1, 1]));
        assert_eq!(refused, Err(Refusal::Inconsistent));
        let refused = parties[1].hear(&heard(&[1, 1, 0]));
        assert_eq!(refused, Err(Refusal::OwnMessageDiffers));
        let refused = parties[0].hear(&heard(&[1, 0, 0]));
        assert_eq!(refused, Err(Refusal::TooFewPresent));
        let mut misled = resumed(&parties[2].store(), way);
        misled.hear(&heard(&[1, 1, 0])).unwrap();
        let record = misled.record();
        let opened = match round {
            DEMAND_ROUND => record.demand,
            _ => record.supply,
        };
        assert_eq!(opened, right - 1);
    }
}
