//! Makes calls on both implementations and compares everything they leave.

use std::fmt;

use clockivy::words::place::{DEMAND, SUPPLY};
use clockivy::{words, PAIRS_LEN, VERSION};
use clockivy_reference::{MAX_BIDS, ROUNDS_7, WAYS};

use crate::attendance::{Attendance, Events};
use crate::auction::Attending;
use crate::call::{Call, Kind};
use crate::damage::damage;
use crate::engine::{ByteProduct, Engine, Plain, Verified};
use crate::meeting::meeting;
use crate::outcome::{Endings, Totals};
use crate::record::is_of_a_level;
use crate::rng::Rng;
use crate::soundness::{self, Found};
use crate::{auction, generate, levels, opened, page, presence};

/// The two implementations differ, or an auction went wrong.
pub struct Difference(pub String);

/// One more than the highest reply.
const REPLIES: usize = 18;

/// The reply to a record that is not sound, and to what needs no record and is out
/// of its range.
const OUT_OF_RANGE: u64 = 1;

/// The reply to a record that has not the length of one.
const WRONG_LENGTH: u64 = 2;

/// The reply to a sum or a total that is none.
const SUM_OUT_OF_RANGE: u64 = 11;

/// What is counted on each way, in the order of [`WAYS`]. What goes neither is counted
/// on the first.
type ByWay<T> = [T; WAYS.len()];

/// How many calls of each kind had each reply, how many were lent a record in each
/// condition, and how many one with a pair share in each place that is none; how many
/// were lent no record and had what needs none out of its range or within; how many
/// hearings had each reply by who was present, how many were refused for one word of a
/// level, and how many for what was opened; what came of the settlement pages; how the
/// whole auctions ended, and who was there; and how many byte products were the same.
pub struct Tally {
    counts: ByWay<[[u64; REPLIES]; Kind::ALL.len()]>,
    records: ByWay<[[u64; Kind::ALL.len()]; soundness::CONDITIONS]>,
    pairs: ByWay<[u64; PAIRS_LEN]>,
    lacking: [[u64; 2]; Kind::ALL.len()],
    hearings: [[u64; presence::REPLIES.len()]; presence::CONDITIONS],
    levels: [[u64; levels::WORDS]; levels::FAULTS.len()],
    opened: ByWay<[u64; opened::COUNT]>,
    pages: [u64; page::CONDITIONS],
    endings: ByWay<Endings>,
    events: ByWay<Events>,
    byte_products: u64,
}

impl Default for Tally {
    fn default() -> Tally {
        Tally {
            counts: Default::default(),
            records: [[[0; Kind::ALL.len()]; soundness::CONDITIONS]; WAYS.len()],
            pairs: Default::default(),
            lacking: Default::default(),
            hearings: [[0; presence::REPLIES.len()]; presence::CONDITIONS],
            levels: [[0; levels::WORDS]; levels::FAULTS.len()],
            opened: Default::default(),
            pages: [0; page::CONDITIONS],
            endings: Default::default(),
            events: Default::default(),
            byte_products: 0,
        }
    }
}

impl Tally {
    /// Makes one call on both implementations. They must give the same reply
    /// and leave every buffer the same; a refused call must leave them as they
    /// were. Gives the reply and what the call left.
    pub fn compare(&mut self, call: &Call) -> Result<(u64, Call), Difference> {
        let mut verified = call.clone();
        let mut plain = call.clone();
        let reply = verified.run::<Verified>();
        let expected = plain.run::<Plain>();
        if reply != expected {
            return Err(Difference(format!(
                "{} replied {reply}, {} replied {expected}, given\n{call}",
                Verified::NAME,
                Plain::NAME
            )));
        }
        if verified != plain {
            return Err(Difference(format!(
                "both replied {reply}, given\n{call}\n{} left\n{verified}\n{} left\n{plain}",
                Verified::NAME,
                Plain::NAME
            )));
        }
        if reply != 0 && verified != *call {
            return Err(Difference(format!(
                "refusal {reply} changed something, given\n{call}\nit left\n{verified}"
            )));
        }
        self.counts[call.way()][call.kind as usize][reply as usize] += 1;
        if call.lacks_record() {
            self.count_lacking(call, reply)?;
        } else {
            self.count_record(call, reply)?;
        }
        match (call.kind, reply) {
            (Kind::Hear, _) => self.count_hearing(call, reply)?,
            (Kind::Fill, 0) => filled(&verified)?,
            (Kind::SettlementWrite | Kind::SettlementRead, _) => {
                self.count_page(call, reply, &verified)?;
            }
            _ => {}
        }
        Ok((reply, verified))
    }

    /// Counts the record that a call was lent. It is refused where a clause is
    /// broken, and a sound one is not.
    fn count_record(&mut self, call: &Call, reply: u64) -> Result<(), Difference> {
        let Some(record) = call.judged_record() else {
            return Ok(());
        };
        let found = soundness::found(record);
        let sound = matches!(found, Found::Sound(_));
        if (reply == OUT_OF_RANGE) == (sound && call.in_range_without_record()) {
            return Err(Difference(format!(
                "both replied {reply} to a record of which is found {found:?}, given\n{call}"
            )));
        }
        if let Found::Sound(condition) | Found::Broken(condition) = found {
            self.records[call.way()][condition][call.kind as usize] += 1;
            let mut large = soundness::large_pairs(record);
            if let (Some(place), None) = (large.next(), large.next()) {
                self.pairs[call.way()][place] += 1;
            }
        }
        Ok(())
    }

    /// Counts a call that was lent no record. What needs none is judged before that.
    fn count_lacking(&mut self, call: &Call, reply: u64) -> Result<(), Difference> {
        let within = call.in_range_without_record();
        let expected = if within { WRONG_LENGTH } else { OUT_OF_RANGE };
        if reply != expected {
            return Err(Difference(format!(
                "both replied {reply} in place of {expected}, given\n{call}"
            )));
        }
        self.lacking[call.kind as usize][usize::from(within)] += 1;
        Ok(())
    }

    /// Counts a hearing by who was present, where its reply depends on that.
    fn count_hearing(&mut self, call: &Call, reply: u64) -> Result<(), Difference> {
        let Some(column) = presence::REPLIES.iter().position(|&one| one == reply) else {
            return Ok(());
        };
        let condition = presence::found(&call.words[0], &call.bytes);
        if !presence::can_reply(condition, reply) {
            return Err(Difference(format!(
                "both replied {reply} in {}, given\n{call}",
                presence::name(condition)
            )));
        }
        self.hearings[condition][column] += 1;
        if reply == SUM_OUT_OF_RANGE {
            match opened::reason(call) {
                Some(reason) => self.opened[call.way()][reason] += 1,
                None => {
                    return Err(Difference(format!(
                        "both replied {reply} for no reason, given\n{call}"
                    )))
                }
            }
        }
        if is_of_a_level(&call.words[0]) && [0, 9, 10].contains(&reply) {
            self.count_level(call, reply)?;
        }
        Ok(())
    }

    /// Counts a hearing of a level by the one word that it is refused for.
    fn count_level(&mut self, call: &Call, reply: u64) -> Result<(), Difference> {
        let faults = levels::faults(call);
        let expected = levels::reply(&faults);
        if reply != expected {
            return Err(Difference(format!(
                "both replied {reply} in place of {expected}, given\n{call}"
            )));
        }
        if let [(fault, word)] = faults[..] {
            self.levels[fault][word] += 1;
        }
        Ok(())
    }

    /// Counts a call on a settlement page, where its reply and what it left are right.
    fn count_page(&mut self, call: &Call, reply: u64, left: &Call) -> Result<(), Difference> {
        let expected = page::reply(call);
        if reply != expected {
            return Err(Difference(format!(
                "both replied {reply} in place of {expected}, given\n{call}"
            )));
        }
        if reply == 0 && !page::settled(call, left) {
            return Err(Difference(format!(
                "both left a page and amounts that do not belong together, given\n{call}"
            )));
        }
        for condition in page::conditions(call, reply) {
            self.pages[condition] += 1;
        }
        Ok(())
    }

    /// Makes every product of two bytes on both implementations.
    pub fn compare_byte_products(&mut self) -> Result<(), Difference> {
        for a in 0..=u8::MAX {
            for b in 0..=u8::MAX {
                let verified = Verified::byte_product(a, b);
                let plain = Plain::byte_product(a, b);
                if verified != plain {
                    return Err(Difference(format!(
                        "{} makes {a:02X}h times {b:02X}h {verified:02X}h, {} makes it {plain:02X}h",
                        Verified::NAME,
                        Plain::NAME
                    )));
                }
                self.byte_products += 1;
            }
        }
        Ok(())
    }

    /// The byte products that were the same.
    pub fn byte_products(&self) -> u64 {
        self.byte_products
    }

    /// Counts a whole auction on the way of this place in [`WAYS`].
    pub fn count_auction(&mut self, way: usize, totals: &Totals, attendance: &Attendance) {
        self.endings[way].count(totals);
        self.events[way].count(attendance);
    }

    /// The whole auctions.
    pub fn auctions(&self) -> u64 {
        self.endings.iter().map(Endings::auctions).sum()
    }

    /// The number of calls compared.
    pub fn calls(&self) -> u64 {
        self.counts.iter().flatten().flatten().sum()
    }

    /// The replies that a call can give and that did not come up on one of the ways, if
    /// it goes one.
    pub fn unreached(&self) -> Vec<(Kind, u64, u64)> {
        let mut unreached = Vec::new();
        for (way, counts) in self.counts.iter().enumerate() {
            for kind in going(way) {
                let none = |reply: &u64| counts[kind as usize][*reply as usize] == 0;
                let replies = replies(kind, way).filter(none);
                unreached.extend(replies.map(|reply| (kind, WAYS[way], reply)));
            }
        }
        unreached
    }

    /// The conditions of a record that a call judges and did not meet on one of the
    /// ways: each clause of refusal 1 broken by itself, and each standing of a sound one.
    pub fn unmet(&self) -> Vec<(Kind, u64, &'static str)> {
        let mut unmet = Vec::new();
        for (way, records) in self.records.iter().enumerate() {
            let possible = (0..soundness::CONDITIONS).filter(|&one| soundness::can_be(way, one));
            for condition in possible {
                let counts = records[condition];
                let kinds = Kind::ON_RECORDS.into_iter();
                let none = kinds.filter(|&kind| counts[kind as usize] == 0);
                unmet.extend(none.map(|kind| (kind, WAYS[way], soundness::name(condition))));
            }
        }
        unmet
    }

    /// The places of a pair share in which there was none above 255 by itself on one of
    /// the ways.
    pub fn unpaired(&self) -> Vec<(u64, usize)> {
        let places = |(last, counts): (u64, [u64; PAIRS_LEN])| {
            let none = (0..PAIRS_LEN).filter(move |&place| counts[place] == 0);
            none.map(move |place| (last, place))
        };
        WAYS.into_iter().zip(self.pairs).flat_map(places).collect()
    }

    /// The words of a level for which alone no hearing was refused, by their faults.
    pub fn unfaulted(&self) -> Vec<(&'static str, usize)> {
        let words = |(fault, counts): (&'static str, [u64; levels::WORDS])| {
            let none = (0..levels::WORDS).filter(move |&word| counts[word] == 0);
            none.map(move |word| (fault, word))
        };
        levels::FAULTS
            .into_iter()
            .zip(self.levels)
            .flat_map(words)
            .collect()
    }

    /// The calls that were never lent another slice than a record with what needs none
    /// within its range, or out of it.
    pub fn unlent(&self) -> Vec<(Kind, u64)> {
        let within = Kind::LENT_RECORDS.map(|kind| (kind, WRONG_LENGTH));
        let outside = Kind::NEEDING_NONE.map(|kind| (kind, OUT_OF_RANGE));
        within
            .into_iter()
            .chain(outside)
            .filter(|&(kind, reply)| self.lacking[kind as usize][reply as usize - 1] == 0)
            .collect()
    }

    /// The replies that a hearing can give by who was present and that did not come
    /// up.
    pub fn unheard(&self) -> Vec<(String, u64)> {
        let cell = |condition: usize| (0..presence::REPLIES.len()).map(move |c| (condition, c));
        (0..presence::CONDITIONS)
            .flat_map(cell)
            .filter(|&(condition, column)| {
                presence::can_reply(condition, presence::REPLIES[column])
                    && self.hearings[condition][column] == 0
            })
            .map(|(condition, column)| (presence::name(condition), presence::REPLIES[column]))
            .collect()
    }

    /// The reasons to refuse what was opened that did not come up on one of the ways.
    pub fn unopened(&self) -> Vec<&'static str> {
        (0..opened::COUNT)
            .filter(|&reason| self.opened.iter().any(|counts| counts[reason] == 0))
            .map(opened::name)
            .collect()
    }

    /// What did not come of any settlement page.
    pub fn unsettled(&self) -> Vec<&'static str> {
        (0..page::CONDITIONS)
            .filter(|&condition| self.pages[condition] == 0)
            .map(page::name)
            .collect()
    }

    /// The endings that no auction of a way had, and what did not come up in any.
    pub fn unended(&self) -> Vec<&'static str> {
        let endings = self.endings.iter().flat_map(Endings::counts);
        let events = self.events_by_way().into_iter().flatten();
        let none = endings.chain(events).filter(|&(_, count)| count == 0);
        none.map(|(name, _)| name).collect()
    }

    /// What can come up in the auctions of each way, and how often it did.
    fn events_by_way(&self) -> ByWay<impl Iterator<Item = (&'static str, u64)> + '_> {
        [0, 1].map(|way| self.events[way].counts(WAYS[way] == ROUNDS_7))
    }

    /// The replies that came up and that a call cannot give.
    pub fn unexpected(&self) -> Vec<(Kind, u64)> {
        let counted = |kind: Kind| (0..REPLIES as u64).map(move |reply| (kind, reply));
        Kind::ALL
            .into_iter()
            .flat_map(counted)
            .filter(|&(kind, reply)| {
                let count = |way: &[[u64; REPLIES]; _]| way[kind as usize][reply as usize];
                !kind.replies().contains(&reply) && self.counts.iter().map(count).sum::<u64>() > 0
            })
            .collect()
    }
}

/// The calls that are counted on a way: on the first those that go none too.
fn going(way: usize) -> impl Iterator<Item = Kind> {
    let kinds = Kind::ALL.into_iter();
    kinds.filter(move |kind| way == 0 || kind.has_way())
}

/// The replies that a call can give on a way. A record of another length goes none, and
/// some calls are lent nothing else.
fn replies(kind: Kind, way: usize) -> impl Iterator<Item = u64> {
    let all = kind.replies().iter().copied();
    all.filter(move |&reply| way == 0 || reply != WRONG_LENGTH || kind.slices() > 1)
}

/// The tables of all counts.
impl fmt::Display for Tally {
    fn fmt(&self, f: &mut fmt::Formatter<'_>) -> fmt::Result {
        for (way, last) in WAYS.into_iter().enumerate() {
            let none = if way == 0 { ", or no way" } else { "" };
            writeln!(
                f,
                "Calls by reply, {last} rounds{none}: 0 (done) or the number of the refusal\n"
            )?;
            self.write_replies(f, way)?;
            writeln!(
                f,
                "\n\nCalls by the record lent, {last} rounds: sound, or with one fault\n"
            )?;
            self.write_records(f, way)?;
            writeln!(f, "\n")?;
        }
        writeln!(f, "Calls by the one pair share above 255, in 32 places\n")?;
        self.write_pairs(f)?;
        writeln!(f, "\n\nCalls lent a record of another length, by reply\n")?;
        self.write_lacking(f)?;
        writeln!(f, "\n\nHearings by who was present, and by reply\n")?;
        self.write_hearings(f)?;
        writeln!(
            f,
            "\n\nHearings refused with 9 or 10 for one word of a level, by its fault\n"
        )?;
        self.write_levels(f)?;
        writeln!(f, "\n\nHearings refused with 11, by what was opened\n")?;
        let reasons = self
            .opened
            .map(|counts| (0..opened::COUNT).map(opened::name).zip(counts));
        write_by_way(f, "opened", reasons)?;
        writeln!(
            f,
            "\n\nSettlement pages, and those refused with 13 by their first fault\n"
        )?;
        let pages = (0..page::CONDITIONS).map(page::name).zip(self.pages);
        write_counts(f, ["page", "calls"], pages)?;
        writeln!(
            f,
            "\n\nWhole auctions by the balanced prices, and by the totals\n"
        )?;
        write_by_way(f, "prices", self.endings.each_ref().map(Endings::counts))?;
        writeln!(f, "\n\nWhole auctions by who was there\n")?;
        write_by_way(f, "parties", self.events_by_way())
    }
}

/// A fill is a times S divided by D, and the remainder, or 0 and 0.
fn filled(left: &Call) -> Result<(), Difference> {
    let [record, tenths, remainder] = &left.words[..] else {
        unreachable!("it is a fill");
    };
    let (demand, supply) = (record[DEMAND], record[SUPPLY]);
    let exact = match demand {
        0 => tenths[0] == 0 && remainder[0] == 0,
        _ => tenths[0] * demand + remainder[0] == left.amount * supply && remainder[0] < demand,
    };
    if exact {
        return Ok(());
    }
    Err(Difference(format!(
        "both left a fill that is none,\n{left}"
    )))
}

/// A table of what came up, and how often.
fn write_counts(
    f: &mut fmt::Formatter<'_>,
    [heading, counted]: [&str; 2],
    counts: impl Iterator<Item = (&'static str, u64)>,
) -> fmt::Result {
    write!(f, "{heading:<50}{counted:>8}")?;
    for (name, count) in counts {
        write!(f, "\n{name:<50}{count:>8}")?;
    }
    Ok(())
}

/// The same on each way. What cannot come up on the first stands last on the second.
fn write_by_way(
    f: &mut fmt::Formatter<'_>,
    heading: &str,
    [first, second]: ByWay<impl Iterator<Item = (&'static str, u64)>>,
) -> fmt::Result {
    write!(f, "{heading:<50}")?;
    for last in WAYS {
        write!(f, "{:>12}", format!("{last} rounds"))?;
    }
    let mut first = first.map(|(_, count)| count);
    for (name, count) in second {
        let before = first.next().map_or("-".into(), |count| count.to_string());
        write!(f, "\n{name:<50}{before:>12}{count:>12}")?;
    }
    Ok(())
}

/// A row of a table about places: how many there are, the least count and all counts.
fn write_places(f: &mut fmt::Formatter<'_>, name: &str, counts: &[u64]) -> fmt::Result {
    let least = counts.iter().min().expect("there are places");
    let (places, all) = (counts.len(), counts.iter().sum::<u64>());
    write!(f, "\n{name:<50}{places:>8}{least:>8}{all:>8}")
}

impl Tally {
    /// By call and reply, on one way. A reply that no call can give, and that none gave,
    /// has no column.
    fn write_replies(&self, f: &mut fmt::Formatter<'_>, way: usize) -> fmt::Result {
        let count = |kind: Kind, reply: usize| {
            let count = self.counts[way][kind as usize][reply];
            let shown = replies(kind, way).any(|one| one == reply as u64) || count > 0;
            shown.then_some(count)
        };
        let columns: Vec<usize> = (1..REPLIES)
            .filter(|&reply| going(way).any(|kind| count(kind, reply).is_some()))
            .collect();
        write!(f, "{:<17}{:>9}", "call", "done")?;
        for reply in &columns {
            write!(f, "{reply:>8}")?;
        }
        for kind in going(way) {
            let done = self.counts[way][kind as usize][0];
            write!(f, "\n{:<17}{done:>9}", kind.name())?;
            for &reply in &columns {
                match count(kind, reply) {
                    Some(count) => write!(f, "{count:>8}")?,
                    None => write!(f, "{:>8}", "-")?,
                }
            }
        }
        Ok(())
    }

    /// By the condition of the record and the call that judges it, on one way.
    fn write_records(&self, f: &mut fmt::Formatter<'_>, way: usize) -> fmt::Result {
        write!(f, "{:<50}", "record")?;
        for kind in Kind::ON_RECORDS {
            write!(f, "{:>8}", kind.name())?;
        }
        for (condition, counts) in self.records[way].iter().enumerate() {
            if soundness::can_be(way, condition) {
                write!(f, "\n{:<50}", soundness::name(condition))?;
                for kind in Kind::ON_RECORDS {
                    write!(f, "{:>8}", counts[kind as usize])?;
                }
            }
        }
        Ok(())
    }

    /// By the way of a record whose pair shares are not all bytes.
    fn write_pairs(&self, f: &mut fmt::Formatter<'_>) -> fmt::Result {
        write!(
            f,
            "{:<50}{:>8}{:>8}{:>8}",
            "record", "places", "least", "all"
        )?;
        for (last, counts) in WAYS.into_iter().zip(&self.pairs) {
            write_places(f, &format!("{last} rounds"), counts)?;
        }
        Ok(())
    }

    /// By the round and the fault, for every word of the round.
    fn write_levels(&self, f: &mut fmt::Formatter<'_>) -> fmt::Result {
        write!(f, "{:<50}{:>8}{:>8}{:>8}", "level", "words", "least", "all")?;
        for (round, words) in levels::rounds() {
            for (fault, counts) in levels::FAULTS.into_iter().zip(&self.levels) {
                write_places(
                    f,
                    &format!("round {round}: {fault}"),
                    &counts[words.clone()],
                )?;
            }
        }
        Ok(())
    }

    /// By the call that is lent no record, and the reply.
    fn write_lacking(&self, f: &mut fmt::Formatter<'_>) -> fmt::Result {
        write!(f, "{:<17}{OUT_OF_RANGE:>8}{WRONG_LENGTH:>8}", "call")?;
        for kind in Kind::LENT_RECORDS {
            let [outside, within] = self.lacking[kind as usize];
            write!(f, "\n{:<17}", kind.name())?;
            if Kind::NEEDING_NONE.contains(&kind) {
                write!(f, "{outside:>8}{within:>8}")?;
            } else {
                write!(f, "{:>8}{within:>8}", "-")?;
            }
        }
        Ok(())
    }

    /// By who was present in which round, and the reply.
    fn write_hearings(&self, f: &mut fmt::Formatter<'_>) -> fmt::Result {
        write!(f, "{:<50}{:>8}", "present", "done")?;
        for reply in &presence::REPLIES[1..] {
            write!(f, "{reply:>8}")?;
        }
        for (condition, counts) in self.hearings.iter().enumerate() {
            write!(f, "\n{:<50}", presence::name(condition))?;
            for (&reply, count) in presence::REPLIES.iter().zip(counts) {
                if presence::can_reply(condition, reply) {
                    write!(f, "{count:>8}")?;
                } else {
                    write!(f, "{:>8}", "-")?;
                }
            }
        }
        Ok(())
    }
}

/// How many settlement pages are written.
const PAGES: usize = 4_000;

/// The longest list over which every run of balanced prices is tried.
const SHORT_LIST: u64 = 5;

/// The version, and every byte product by itself; whole auctions on both ways, of every
/// number of parties over the given numbers of prices, in which everybody attends and in
/// which parties drop off, those in which the totals meet in every place of a short
/// list, and one that fills the roll, with refused calls in between; settlement pages,
/// read back and damaged; then single calls, valid and damaged, until there are `calls`
/// in all.
pub fn run(seed: u64, prices: &[u64], calls: u64, tally: &mut Tally) -> Result<(), Difference> {
    compare_version()?;
    tally.compare_byte_products()?;
    let mut rng = Rng::new(seed);
    for n in 3..=9 {
        for &k in prices {
            for attending in [Attending::Everybody, Attending::DroppingOff] {
                let tables = tables(&mut rng, k);
                auction::whole(&mut rng, n, k, tables, attending, tally)?;
            }
        }
    }
    for k in 1..=SHORT_LIST {
        short_lists(&mut rng, k, tally)?;
    }
    let many = (0..MAX_BIDS).map(|_| rng.table(2)).collect();
    auction::whole(&mut rng, 3, 2, many, Attending::Everybody, tally)?;
    for _ in 0..PAGES {
        settlement(&mut rng, tally)?;
    }
    while tally.calls() < calls {
        let call = single(&mut rng);
        tally.compare(&call)?;
    }
    Ok(())
}

/// The version of the library is the one that its calls are compared for.
fn compare_version() -> Result<(), Difference> {
    match words::version() {
        VERSION => Ok(()),
        found => Err(Difference(format!(
            "{} has version {found} in place of {VERSION}",
            Verified::NAME
        ))),
    }
}

/// The tables of up to five bids: any, or such as balance somewhere, or just not.
fn tables(rng: &mut Rng, k: u64) -> Vec<Vec<u64>> {
    if rng.once_in(2) {
        let bids = rng.between(0, 5);
        return (0..bids).map(|_| rng.table(k as usize)).collect();
    }
    let anywhere = rng.between(0, k);
    let high = rng.pick(&[anywhere, anywhere, k]);
    let anywhere = rng.between(1, high + 1);
    let low = rng.pick(&[anywhere, anywhere, 1, high + 1]);
    meeting(rng, k, low, high)
}

/// Every run of balanced prices in a list of `k`, none in every place, and no
/// bids.
fn short_lists(rng: &mut Rng, k: u64, tally: &mut Tally) -> Result<(), Difference> {
    for high in 0..=k {
        for low in 1..=high + 1 {
            let n = rng.between(3, 9);
            let tables = meeting(rng, k, low, high);
            auction::whole(rng, n, k, tables, Attending::DroppingOff, tally)?;
        }
    }
    let n = rng.between(3, 9);
    auction::whole(rng, n, k, Vec::new(), Attending::DroppingOff, tally)
}

/// A settlement page is written. It gives the amounts back, and is read again with
/// damage, at the same price or at another.
fn settlement(rng: &mut Rng, tally: &mut Tally) -> Result<(), Difference> {
    let call = generate::call(rng, Kind::SettlementWrite);
    let (reply, left) = tally.compare(&call)?;
    if reply != 0 {
        return Ok(());
    }
    let page = &left.bytes[..left.words[1][0] as usize];
    let before = rng.words(call.words[0].len(), Rng::word);
    let mut call = Call::settlement_read(call.price, page, &before);
    let (_, read) = tally.compare(&call)?;
    if read.words[0][..] != left.words[0][..] {
        return Err(Difference(format!("a page gives other amounts,\n{call}")));
    }
    for _ in 0..3 {
        damage(rng, &mut call);
        tally.compare(&call)?;
    }
    Ok(())
}

/// One call with damage in up to three places. A hearing has the most to
/// judge, so it comes more often than the others.
fn single(rng: &mut Rng) -> Call {
    let kind = if rng.once_in(4) {
        Kind::Hear
    } else {
        rng.pick(&Kind::ALL)
    };
    let places = rng.pick(&[0, 0, 0, 0, 1, 1, 1, 1, 2, 3]);
    if kind == Kind::Hear && rng.once_in(2) {
        // The messages are made after the damage and fit a damaged record and
        // sheet, so that the judgements behind these are reached as well.
        let mut said = generate::call(rng, Kind::Say);
        for _ in 0..places {
            damage(rng, &mut said);
        }
        return generate::hear(rng, &said);
    }
    let mut call = generate::call(rng, kind);
    for _ in 0..places {
        damage(rng, &mut call);
    }
    call
}
