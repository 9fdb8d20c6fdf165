//! When a record is sound, clause by clause: a statement beside those of the two
//! implementations, by which the records of all calls are counted. Each clause
//! can be broken by itself in a record that is otherwise sound.

use clockivy::words::place::{
    BIDS, CARRY, DEMAND, FIRST, FIRST_PROBES, HI, K, LAST, LO, N, OWN, PAIRS, PROBES, ROUND,
    SEARCH, SUM, SUPPLY,
};
use clockivy::{PAIRS_LEN, RECORD_LEN};
use clockivy_reference::{
    probe_limit, DEMAND_ROUND, FIRST_SEARCH, MAX_PRICES, NO_MORE_ROUNDS, ROUNDS_33, ROUNDS_7,
    SECOND_SEARCH, SUM_LIMIT, SUPPLY_ROUND, TOTAL_LIMIT, WAYS,
};

use crate::generate::{any_search, first_search, fit_round, second_search};
use crate::record::{has_bid, mark, marks, NOBODY};
use crate::rng::Rng;

/// A record's numbers, wide enough to be added and taken from each other.
struct Numbers {
    n: i128,
    own: i128,
    k: i128,
    bids: i128,
    lo: i128,
    hi: i128,
    probes: i128,
    round: u64,
    sum: i128,
    carry: i128,
    search: u64,
    first: i128,
    first_probes: i128,
    demand: u64,
    supply: u64,
    last: u64,
    /// The pair shares that are no bytes.
    large_pairs: usize,
    /// The marks on the roll, and whether one of them is nobody's.
    marks: i128,
    marks_nobody: bool,
}

impl Numbers {
    fn of(record: &[u64]) -> Numbers {
        let number = |place: usize| i128::from(record[place]);
        Numbers {
            n: number(N),
            own: number(OWN),
            k: number(K),
            bids: number(BIDS),
            lo: number(LO),
            hi: number(HI),
            probes: number(PROBES),
            round: record[ROUND],
            sum: number(SUM),
            carry: number(CARRY),
            search: record[SEARCH],
            first: number(FIRST),
            first_probes: number(FIRST_PROBES),
            demand: record[DEMAND],
            supply: record[SUPPLY],
            last: record[LAST],
            large_pairs: large_pairs(record).count(),
            marks: i128::from(marks(record)),
            marks_nobody: NOBODY.iter().any(|&nobody| has_bid(record, nobody)),
        }
    }

    fn in_first(&self) -> bool {
        self.search == FIRST_SEARCH
    }

    fn in_second(&self) -> bool {
        self.search == SECOND_SEARCH
    }

    /// The indices between lo and hi, and one.
    fn width(&self) -> i128 {
        self.hi - self.lo
    }

    /// The probes of the second search.
    fn own_probes(&self) -> i128 {
        self.probes - self.first_probes
    }

    /// Whether both searches have ended.
    fn has_searched(&self) -> bool {
        self.in_second() && self.width() == 1
    }

    /// Whether they have ended with a price.
    fn has_cleared(&self) -> bool {
        let price = if self.hi <= self.first {
            (self.first + self.hi) / 2
        } else {
            self.first
        };
        self.has_searched() && price != 0
    }
}

/// The places of the pair shares in a record that are above 255, counted from 0.
pub fn large_pairs(record: &[u64]) -> impl Iterator<Item = usize> + '_ {
    (0..PAIRS_LEN).filter(|place| record[PAIRS + place] > 255)
}

/// The most probes of a search that can give `last`.
fn limit(last: i128) -> i128 {
    probe_limit(last as u64).into()
}

/// One of the clauses by which a record is sound.
pub struct Clause {
    /// What is so where it is broken.
    pub name: &'static str,
    broken: fn(&Numbers) -> bool,
    break_in: fn(&mut Rng, &mut [u64]),
}

impl Clause {
    /// Breaks the clause in a record. Where it was sound, no other is broken: where
    /// the searches then have a price, or have none any more, the round is another.
    pub fn break_in(&self, rng: &mut Rng, record: &mut [u64]) {
        (self.break_in)(rng, record);
    }
}

/// The clause that only a record on the way of 7 can break.
const NO_ROUND_OF_7: &str = "no price, or not yet: round 8 to 33 of 7";
/// The clause of which a record that breaks it is on neither way.
const NO_WAY: &str = "last neither 33 nor 7";
/// The clause that is broken in one of 32 places.
pub const LARGE_PAIR: &str = "a pair share above 255";

/// Numbers that are the last round of no way.
pub const NO_WAYS: [u64; 14] = [
    0,
    1,
    6,
    8,
    32,
    34,
    35,
    39,
    40,
    (1 << 32) + 7,
    (1 << 32) + 33,
    1 << 63,
    (1 << 63) + 7,
    u64::MAX,
];

/// All clauses.
pub const CLAUSES: [Clause; 31] = [
    Clause {
        name: "n outside 3 to 9",
        broken: |r| !(3..=9).contains(&r.n),
        break_in: |rng, record| {
            record[N] = rng.pick(&[2, 10, 11, 1 << 32, u64::MAX]);
            record[OWN] = record[OWN].min(record[N]);
        },
    },
    Clause {
        name: "own outside 1 to n",
        broken: |r| !(1..=r.n).contains(&r.own),
        break_in: |rng, record| {
            record[OWN] = if rng.once_in(2) {
                0
            } else {
                at_least(rng, record[N].saturating_add(1))
            };
        },
    },
    Clause {
        name: "k outside 1 to 1,024",
        broken: |r| !(1..=i128::from(MAX_PRICES)).contains(&r.k),
        break_in: |rng, record| {
            record[K] = rng.pick(&[0, MAX_PRICES + 1, 2 * MAX_PRICES, 1 << 32, 1 << 63]);
            any_search(rng, record);
        },
    },
    Clause {
        name: "bids not the marks",
        broken: |r| r.bids != r.marks,
        break_in: |rng, record| {
            let marks = marks(record);
            record[BIDS] = match rng.below(4) {
                0 => rng.below(marks.max(1)),
                1 => marks.saturating_sub(1),
                _ => marks,
            };
            if record[BIDS] == marks {
                record[BIDS] = at_least(rng, marks + 1);
            }
        },
    },
    Clause {
        name: "a mark of nobody",
        broken: |r| r.marks_nobody,
        break_in: |rng, record| {
            mark(record, rng.pick(&NOBODY));
            record[BIDS] = marks(record);
        },
    },
    Clause {
        name: "no price, or not yet: round outside 1 to 33",
        broken: |r| !r.has_cleared() && !(1..=ROUNDS_33).contains(&r.round),
        break_in: |rng, record| {
            no_price_or_not_yet(rng, record);
            record[ROUND] = match rng.below(4) {
                0 => 0,
                1..=2 => rng.between(DEMAND_ROUND, NO_MORE_ROUNDS),
                _ => at_least(rng, DEMAND_ROUND),
            };
        },
    },
    Clause {
        name: NO_ROUND_OF_7,
        broken: |r| {
            let between = (ROUNDS_7 + 1..=ROUNDS_33).contains(&r.round);
            !r.has_cleared() && r.last == ROUNDS_7 && between
        },
        break_in: |rng, record| {
            record[LAST] = ROUNDS_7;
            no_price_or_not_yet(rng, record);
            record[ROUND] = match rng.below(4) {
                0 => ROUNDS_7 + 1,
                1 => ROUNDS_33,
                _ => rng.between(ROUNDS_7 + 1, ROUNDS_33),
            };
        },
    },
    Clause {
        name: "ended with a price: round outside 34 to 36",
        broken: |r| r.has_cleared() && !(DEMAND_ROUND..=NO_MORE_ROUNDS).contains(&r.round),
        break_in: |rng, record| {
            second_search(rng, record);
            record[FIRST] = rng.between(1, record[K].max(1));
            record[HI] = rng.between(1, record[FIRST].saturating_add(1));
            record[LO] = record[HI] - 1;
            record[PROBES] = record[FIRST_PROBES] + rng.between(0, probe_limit(record[FIRST]));
            record[ROUND] = match rng.below(4) {
                0 => rng.pick(&WAYS),
                1 => rng.below(ROUNDS_33),
                _ => at_least(rng, NO_MORE_ROUNDS + 1),
            };
        },
    },
    Clause {
        name: NO_WAY,
        broken: |r| !WAYS.contains(&r.last),
        break_in: |rng, record| record[LAST] = rng.pick(&NO_WAYS),
    },
    Clause {
        name: LARGE_PAIR,
        broken: |r| r.large_pairs > 0,
        break_in: |rng, record| record[PAIRS + rng.place(PAIRS_LEN)] = at_least(rng, 256),
    },
    Clause {
        name: "demand 2^32 or more",
        broken: |r| r.demand >= TOTAL_LIMIT,
        break_in: |rng, record| record[DEMAND] = at_least(rng, TOTAL_LIMIT),
    },
    Clause {
        name: "supply above demand",
        broken: |r| r.supply > r.demand && r.supply < TOTAL_LIMIT,
        break_in: |rng, record| {
            let demand = record[DEMAND].min(TOTAL_LIMIT - 2);
            record[DEMAND] = demand;
            record[SUPPLY] = if rng.once_in(2) {
                demand + 1
            } else {
                rng.between(demand + 1, TOTAL_LIMIT - 1)
            };
        },
    },
    // It is above every demand that is in range, and that is counted here alone.
    Clause {
        name: "supply 2^32 or more",
        broken: |r| r.supply >= TOTAL_LIMIT,
        break_in: |rng, record| record[SUPPLY] = at_least(rng, TOTAL_LIMIT),
    },
    Clause {
        name: "sum at or above its limit",
        broken: |r| r.sum >= i128::from(SUM_LIMIT),
        break_in: |rng, record| record[SUM] = at_least(rng, SUM_LIMIT),
    },
    Clause {
        name: "carry above 255",
        broken: |r| r.carry > 255,
        break_in: |rng, record| record[CARRY] = at_least(rng, 256),
    },
    Clause {
        name: "search below 1",
        broken: |r| r.search < FIRST_SEARCH,
        break_in: |rng, record| {
            record[SEARCH] = 0;
            fit_round(rng, record);
        },
    },
    Clause {
        name: "search above 2",
        broken: |r| r.search > SECOND_SEARCH,
        break_in: |rng, record| {
            record[SEARCH] = at_least(rng, SECOND_SEARCH + 1);
            fit_round(rng, record);
        },
    },
    Clause {
        name: "first search: lo not below hi",
        broken: |r| r.in_first() && r.lo >= r.hi,
        break_in: |rng, record| {
            first_search(rng, record);
            record[HI] = rng.between(0, record[HI]);
            record[LO] = at_least(rng, record[HI]);
        },
    },
    Clause {
        name: "first search: hi above k + 1",
        broken: |r| r.in_first() && r.hi > r.k + 1,
        break_in: |rng, record| {
            first_search(rng, record);
            record[HI] = at_least(rng, record[K].saturating_add(2));
        },
    },
    Clause {
        name: "first search: probes above P",
        broken: |r| r.in_first() && r.probes > limit(r.k),
        break_in: |rng, record| {
            first_search(rng, record);
            record[PROBES] = at_least(rng, probe_limit(record[K]) + 1);
        },
    },
    Clause {
        name: "first search: probes P, hi - lo above 1",
        broken: |r| r.in_first() && r.probes == limit(r.k) && r.width() > 1,
        break_in: |rng, record| {
            first_search(rng, record);
            record[PROBES] = probe_limit(record[K]);
        },
    },
    Clause {
        name: "first search: ended",
        broken: |r| r.in_first() && r.width() == 1,
        break_in: |rng, record| {
            first_search(rng, record);
            record[HI] = rng.between(1, record[HI]);
            record[LO] = record[HI] - 1;
            record[PROBES] = rng.between(0, probe_limit(record[K]));
        },
    },
    Clause {
        name: "first search: first not 0",
        broken: |r| r.in_first() && r.first != 0,
        break_in: |rng, record| {
            first_search(rng, record);
            record[FIRST] = if rng.once_in(2) {
                rng.between(1, record[HI])
            } else {
                at_least(rng, 1)
            };
        },
    },
    Clause {
        name: "first search: first probes not 0",
        broken: |r| r.in_first() && r.first_probes != 0,
        break_in: |rng, record| {
            first_search(rng, record);
            record[FIRST_PROBES] = if rng.once_in(2) {
                record[PROBES].max(1)
            } else {
                at_least(rng, 1)
            };
        },
    },
    Clause {
        name: "second search: first above k",
        broken: |r| r.in_second() && r.first > r.k,
        break_in: |rng, record| {
            second_search(rng, record);
            record[FIRST] = at_least(rng, record[K].saturating_add(1));
            fit_round(rng, record);
        },
    },
    Clause {
        name: "second search: first probes above P",
        broken: |r| r.in_second() && r.first_probes > limit(r.k),
        break_in: |rng, record| {
            second_search(rng, record);
            let own_probes = record[PROBES] - record[FIRST_PROBES];
            let first_probes = at_least(rng, probe_limit(record[K]) + 1);
            record[FIRST_PROBES] = first_probes.min(u64::MAX - own_probes);
            record[PROBES] = record[FIRST_PROBES] + own_probes;
        },
    },
    Clause {
        name: "second search: first probes above probes",
        broken: |r| r.in_second() && r.first_probes > r.probes,
        break_in: |rng, record| {
            second_search(rng, record);
            record[FIRST_PROBES] = rng.between(1, probe_limit(record[K]).max(1));
            record[PROBES] = rng.below(record[FIRST_PROBES]);
        },
    },
    Clause {
        name: "second search: own probes above their limit",
        broken: |r| r.in_second() && r.own_probes() > limit(r.first),
        break_in: |rng, record| {
            second_search(rng, record);
            let own_probes = at_least(rng, probe_limit(record[FIRST]) + 1);
            record[PROBES] = record[FIRST_PROBES].saturating_add(own_probes);
        },
    },
    Clause {
        name: "second search: own probes at it, hi - lo above 1",
        broken: |r| r.in_second() && r.own_probes() == limit(r.first) && r.width() > 1,
        break_in: |rng, record| {
            second_search(rng, record);
            record[FIRST] = rng.between(1, record[K].max(1));
            record[HI] = rng.between(2, record[FIRST].saturating_add(1));
            record[LO] = rng.below(record[HI] - 1);
            record[PROBES] = record[FIRST_PROBES] + probe_limit(record[FIRST]);
            fit_round(rng, record);
        },
    },
    Clause {
        name: "second search: lo not below hi",
        broken: |r| r.in_second() && r.lo >= r.hi,
        break_in: |rng, record| {
            second_search(rng, record);
            record[HI] = rng.between(0, record[FIRST] + 1);
            record[LO] = at_least(rng, record[HI]);
            fit_round(rng, record);
        },
    },
    Clause {
        name: "second search: hi above first + 1",
        broken: |r| r.in_second() && r.hi > r.first + 1,
        break_in: |rng, record| {
            second_search(rng, record);
            record[HI] = at_least(rng, record[FIRST] + 2);
            let own_probes = record[PROBES] - record[FIRST_PROBES];
            if own_probes == probe_limit(record[FIRST]) || rng.once_in(2) {
                record[LO] = record[HI] - 1;
            }
            fit_round(rng, record);
        },
    },
];

/// Puts a search into a record that goes on or ends without a price.
fn no_price_or_not_yet(rng: &mut Rng, record: &mut [u64]) {
    match rng.below(8) {
        0 => no_price(rng, record),
        1..=4 => first_search(rng, record),
        _ => {
            second_search(rng, record);
            if record[HI] - record[LO] == 1 {
                no_price(rng, record);
            }
        }
    }
}

/// Ends the searches of a record without a price.
fn no_price(rng: &mut Rng, record: &mut [u64]) {
    second_search(rng, record);
    record[LO] = 0;
    record[HI] = 1;
    record[FIRST] = 0;
    record[PROBES] = record[FIRST_PROBES];
}

/// A number that is at least so much, mostly at or near it.
fn at_least(rng: &mut Rng, least: u64) -> u64 {
    match rng.below(8) {
        0..=3 => least,
        4..=5 => least.saturating_add(rng.between(1, 9)),
        6 => least.saturating_add(1 << rng.between(8, 62)),
        _ => u64::MAX,
    }
}

/// Where a sound record stands.
struct Standing {
    name: &'static str,
    holds: fn(&Numbers) -> bool,
}

const STANDINGS: [Standing; 7] = [
    Standing {
        name: "sound: first search",
        holds: |r| r.in_first(),
    },
    Standing {
        name: "sound: second search",
        holds: |r| r.in_second() && r.width() > 1,
    },
    Standing {
        name: "sound: round 34",
        holds: |r| r.has_cleared() && r.round == DEMAND_ROUND,
    },
    Standing {
        name: "sound: round 35",
        holds: |r| r.has_cleared() && r.round == SUPPLY_ROUND,
    },
    Standing {
        name: "sound: over, balanced",
        holds: |r| r.has_searched() && r.hi <= r.first,
    },
    Standing {
        name: "sound: over, none balanced",
        holds: |r| r.has_searched() && r.hi > r.first && r.first > 0,
    },
    Standing {
        name: "sound: over, no price",
        holds: |r| r.in_second() && r.first == 0,
    },
];

/// The conditions of a record that are told apart: sound in one of its standings,
/// or with one clause broken.
pub const CONDITIONS: usize = STANDINGS.len() + CLAUSES.len();

/// The name of a condition.
pub fn name(condition: usize) -> &'static str {
    match condition.checked_sub(STANDINGS.len()) {
        None => STANDINGS[condition].name,
        Some(clause) => CLAUSES[clause].name,
    }
}

/// Whether a record on this way can be in a condition, the way being its place in
/// [`WAYS`]. One on neither is counted on the first.
pub fn can_be(way: usize, condition: usize) -> bool {
    match name(condition) {
        NO_ROUND_OF_7 => WAYS[way] == ROUNDS_7,
        NO_WAY => WAYS[way] == ROUNDS_33,
        _ => true,
    }
}

/// What is found of a record.
#[derive(Debug, PartialEq, Eq)]
pub enum Found {
    /// It is sound, and in this condition.
    Sound(usize),
    /// One clause is broken, which is this condition.
    Broken(usize),
    /// More than one is broken.
    BrokenTwice,
}

/// Judges the words of a record.
pub fn found(record: &[u64]) -> Found {
    assert_eq!(record.len(), RECORD_LEN);
    let numbers = Numbers::of(record);
    let mut broken = (0..CLAUSES.len()).filter(|&clause| (CLAUSES[clause].broken)(&numbers));
    match (broken.next(), broken.next()) {
        (None, _) => {
            let standing = STANDINGS.iter().position(|one| (one.holds)(&numbers));
            Found::Sound(standing.expect("a sound record stands somewhere"))
        }
        (Some(clause), None) => Found::Broken(STANDINGS.len() + clause),
        _ => Found::BrokenTwice,
    }
}
