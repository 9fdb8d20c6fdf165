//! Which words of a level a hearing is refused for: a statement beside those of the two
//! implementations, by which such hearings are counted.

use clockivy::words::place::{N, OWN, ROUND};
use clockivy_reference::field::byte;
use clockivy_reference::{message_len, say, threshold, ROUNDS_7};

use crate::call::Call;
use crate::record::width;

/// What can be wrong with the words in one place of all messages. The first is
/// refused with 9, the others with 10.
pub const FAULTS: [&str; 4] = [
    "an own word that differs",
    "a word above 65,535",
    "low bytes on no polynomial",
    "high bytes on no polynomial",
];

/// The words that a party says in all levels of a probe.
pub const WORDS: usize = 62;

/// The rounds that are levels, each with its words among all of them.
pub fn rounds() -> impl Iterator<Item = (u64, std::ops::Range<usize>)> {
    (2..ROUNDS_7).map(|round| {
        let first = first_word(round);
        (round, first..first + message_len(ROUNDS_7, round))
    })
}

/// The words of the levels before that of a round.
fn first_word(round: u64) -> usize {
    (2..round).map(|round| message_len(ROUNDS_7, round)).sum()
}

/// What is wrong with the words of a hearing that is judged so far: each fault, by its
/// place in [`FAULTS`], and the word among all [`WORDS`] that has it. Where own words
/// differ, nothing else counts.
pub fn faults(call: &Call) -> Vec<(usize, usize)> {
    let [record, totals, sheets, messages] = &call.words[..] else {
        unreachable!("it is a hearing");
    };
    let (own, width) = (record[OWN] as usize - 1, width(record));
    let mut said = vec![0; width];
    say(record, totals, sheets, &mut said);
    let mut faults = Vec::new();
    for (place, &own_word) in said.iter().enumerate() {
        let words = messages.iter().skip(place).step_by(width);
        let marked = (1..).zip(words).zip(call.bytes.iter());
        let marked = marked.filter(|(_, &mark)| mark == 1);
        let (points, words): (Vec<usize>, Vec<u64>) =
            marked.map(|((point, &word), _)| (point, word)).unzip();
        let bent = |shift: u32| {
            let bytes: Vec<u8> = words.iter().map(|word| (word >> shift) as u8).collect();
            byte::open(&points, &bytes, threshold(record[N])).is_none()
        };
        let found = [
            call.bytes[own] == 1 && messages[own * width + place] != own_word,
            words.iter().any(|&word| word > 65_535),
            bent(0),
            bent(8),
        ];
        let word = first_word(record[ROUND]) + place;
        let here = (0..).zip(found).filter(|&(_, holds)| holds);
        faults.extend(here.map(|(fault, _)| (fault, word)));
    }
    if reply(&faults) == 9 {
        faults.retain(|&(fault, _)| fault == 0);
    }
    faults
}

/// What a hearing replies that has these faults.
pub fn reply(faults: &[(usize, usize)]) -> u64 {
    match faults.iter().min() {
        None => 0,
        Some((0, _)) => 9,
        _ => 10,
    }
}
