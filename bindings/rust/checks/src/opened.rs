//! Why what was opened is refused with 11: a statement beside those of the two
//! implementations, by which such hearings are counted.

use clockivy::words::place::{DEMAND, N, ROUND, SUPPLY};
use clockivy_reference::field::amount;
use clockivy_reference::{threshold, DEMAND_ROUND, SUM_LIMIT, SUM_LOW, SUPPLY_ROUND, TOTAL_LIMIT};

use crate::call::Call;

/// A reason, by the record of the hearing and what its messages open to.
struct Reason {
    name: &'static str,
    holds: fn(&[u64], u64) -> bool,
}

/// No two hold at once.
const REASONS: [Reason; 6] = [
    Reason {
        name: "round 1: sum below its range",
        holds: |record, opened| record[ROUND] == 1 && opened < SUM_LOW,
    },
    Reason {
        name: "round 1: sum above its range",
        holds: |record, opened| record[ROUND] == 1 && opened >= SUM_LIMIT,
    },
    Reason {
        name: "round 34: demand 2^32 or more",
        holds: |record, opened| record[ROUND] == DEMAND_ROUND && opened >= TOTAL_LIMIT,
    },
    Reason {
        name: "round 34: demand below the record's supply",
        holds: |record, opened| record[ROUND] == DEMAND_ROUND && opened < record[SUPPLY],
    },
    Reason {
        name: "round 35: supply 2^32 or more",
        holds: |record, opened| record[ROUND] == SUPPLY_ROUND && opened >= TOTAL_LIMIT,
    },
    Reason {
        name: "round 35: supply above the record's demand",
        holds: |record, opened| {
            let above = record[DEMAND] < opened && opened < TOTAL_LIMIT;
            record[ROUND] == SUPPLY_ROUND && above
        },
    },
];

/// The number of reasons.
pub const COUNT: usize = REASONS.len();

/// The name of a reason.
pub fn name(reason: usize) -> &'static str {
    REASONS[reason].name
}

/// Why a hearing is refused, where it is for what was opened.
pub fn reason(call: &Call) -> Option<usize> {
    let record = &call.words[0];
    let marked = call.words[3].iter().zip(call.bytes.iter()).enumerate();
    let (points, words): (Vec<usize>, Vec<u64>) = marked
        .filter(|(_, (_, &mark))| mark == 1)
        .map(|(place, (&word, _))| (place + 1, word))
        .unzip();
    let opened = amount::open(&points, &words, threshold(record[N]))?;
    REASONS
        .iter()
        .position(|reason| (reason.holds)(record, opened))
}
