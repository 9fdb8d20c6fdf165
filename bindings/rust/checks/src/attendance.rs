//! Who was there in a whole auction, round by round.

/// What came up in an auction.
#[derive(Default)]
pub struct Attendance {
    /// Rounds in which somebody was not marked.
    pub rounds_without_some: u64,
    /// Rounds in which just t + 1 were.
    pub rounds_with_fewest: u64,
    /// Rounds that a party heard with the others without being marked.
    pub heard_unmarked: u64,
    /// Rounds that a party heard after the others.
    pub heard_late: u64,
    /// Those among them in which it was marked.
    pub heard_late_though_marked: u64,
    /// Those among them that were the last of a probe.
    pub verdicts_late: u64,
    /// Those among them that opened a total.
    pub totals_late: u64,
    /// Those among them that merged pairs.
    pub levels_late: u64,
    /// How often a party dropped off that had heard a level and had one to hear.
    pub off_between_levels: u64,
    /// How often a party that had heard late was marked again.
    pub marked_again: u64,
    /// Parties that came back when the others had their answer.
    pub back_at_the_end: u64,
    /// Parties that never came back.
    pub gone: u64,
}

/// Something that can come up.
struct Event {
    name: &'static str,
    holds: fn(&Attendance) -> bool,
}

/// Those that need levels are the last ones, and do not come up on the way of 33.
const EVENTS: [Event; 13] = [
    Event {
        name: "all marked in every round",
        holds: |seen| seen.rounds_without_some == 0,
    },
    Event {
        name: "some not marked, all answered",
        holds: |seen| seen.rounds_without_some > 0 && seen.gone == 0,
    },
    Event {
        name: "some never came back",
        holds: |seen| seen.gone > 0,
    },
    Event {
        name: "just t + 1 marked in a round",
        holds: |seen| seen.rounds_with_fewest > 0,
    },
    Event {
        name: "not marked, and heard with the others",
        holds: |seen| seen.heard_unmarked > 0,
    },
    Event {
        name: "a round heard late",
        holds: |seen| seen.heard_late > 0,
    },
    Event {
        name: "a round heard late by a marked party",
        holds: |seen| seen.heard_late_though_marked > 0,
    },
    Event {
        name: "a verdict heard late",
        holds: |seen| seen.verdicts_late > 0,
    },
    Event {
        name: "a total heard late",
        holds: |seen| seen.totals_late > 0,
    },
    Event {
        name: "marked again after hearing late",
        holds: |seen| seen.marked_again > 0,
    },
    Event {
        name: "back when the others had their answer",
        holds: |seen| seen.back_at_the_end > 0,
    },
    Event {
        name: "a level heard late",
        holds: |seen| seen.levels_late > 0,
    },
    Event {
        name: "dropped off between two levels",
        holds: |seen| seen.off_between_levels > 0,
    },
];

/// The number of those.
const OF_LEVELS: usize = 2;

/// In how many auctions each came up.
#[derive(Default)]
pub struct Events {
    counts: [u64; EVENTS.len()],
}

impl Events {
    /// Counts an auction.
    pub fn count(&mut self, seen: &Attendance) {
        for (count, event) in self.counts.iter_mut().zip(&EVENTS) {
            *count += u64::from((event.holds)(seen));
        }
    }

    /// Each of them that can come up, with levels or without, and how often it did.
    pub fn counts(&self, levels: bool) -> impl Iterator<Item = (&'static str, u64)> + '_ {
        let without = if levels { 0 } else { OF_LEVELS };
        let names = EVENTS.iter().map(|event| event.name);
        names.zip(self.counts).take(EVENTS.len() - without)
    }
}
