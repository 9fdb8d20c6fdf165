//! Who was present at a hearing, and what it can then reply: a statement beside
//! those of the two implementations, by which the hearings are counted.

use clockivy::words::place::{N, OWN, ROUND};
use clockivy_reference::{threshold, DEMAND_ROUND, SUPPLY_ROUND};
use clockivy_testing::count;

use crate::record::{is_of_a_verdict, way};

/// The replies for which it counts who was present. A hearing of an unsound
/// record, one that is lent a wrong length and one when over are refused before.
pub const REPLIES: [u64; 7] = [0, 8, 9, 10, 11, 12, 15];

/// The rounds, by what their messages are: those of the way of 33, and in the same
/// order those of the way of 7.
const ROUNDS: [&str; 2 * MESSAGES] = [
    "round 1 of 33",
    "rounds 2 to 32 of 33",
    "round 33 of 33",
    "round 34 after 33",
    "round 35 after 33",
    "round 1 of 7",
    "rounds 2 to 6 of 7",
    "round 7 of 7",
    "round 34 after 7",
    "round 35 after 7",
];

/// The kinds of messages: masked sums, products, verdicts, demand and supply.
const MESSAGES: usize = 5;

/// Who was present, by how many and whether the hearing party is among them.
const WHO: [&str; 6] = [
    "all",
    "more than t + 1, own too",
    "more than t + 1, own not",
    "t + 1, own too",
    "t + 1, own not",
    "fewer",
];

/// The last of these, too few to open a round.
const FEWER: usize = WHO.len() - 1;

/// The conditions of a hearing that are told apart.
pub const CONDITIONS: usize = ROUNDS.len() * WHO.len();

/// The name of a condition.
pub fn name(condition: usize) -> String {
    let (round, who) = parts(condition);
    format!("{}: {}", ROUNDS[round], WHO[who])
}

/// Whether a hearing in this condition can give one of the replies. A party that is
/// not marked uses no totals, and the rounds of the totals read no sheet.
pub fn can_reply(condition: usize, reply: u64) -> bool {
    let (round, who) = parts(condition);
    let messages = round % MESSAGES;
    let own = [0, 1, 3].contains(&who);
    match reply {
        15 => who == FEWER,
        _ if who == FEWER => false,
        8 => own || messages < 3,
        9 => own,
        11 => [0, 3, 4].contains(&messages),
        12 => messages == 2,
        _ => true,
    }
}

/// The condition of a hearing by a sound record and as many marks as parties.
pub fn found(record: &[u64], present: &[u8]) -> usize {
    let least = threshold(record[N]) + 1;
    let own = present[record[OWN] as usize - 1] == 1;
    let count = count(present);
    let who = match (count, own) {
        _ if count < least => FEWER,
        _ if count == present.len() => 0,
        (_, true) if count > least => 1,
        (_, false) if count > least => 2,
        (_, true) => 3,
        (_, false) => 4,
    };
    let messages = match record[ROUND] {
        1 => 0,
        _ if is_of_a_verdict(record) => 2,
        DEMAND_ROUND => 3,
        SUPPLY_ROUND => 4,
        _ => 1,
    };
    (way(record) * MESSAGES + messages) * WHO.len() + who
}

/// The group of the round, and who was present.
fn parts(condition: usize) -> (usize, usize) {
    (condition / WHO.len(), condition % WHO.len())
}
