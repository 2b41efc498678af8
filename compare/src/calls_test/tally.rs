//! What the cases reach.

use crate::command::Command;
use crate::events::TIMERS;
use std::collections::BTreeMap;
use std::fmt;
use std::ops::RangeInclusive;

/// How often each sort of case came.
#[derive(Default)]
pub struct Tally {
    pub section: &'static str,
    /// Calls, by section.
    pub sections: BTreeMap<&'static str, usize>,
    /// Calls, by number and answer.
    pub calls: BTreeMap<(u32, u32), usize>,
    /// Played words, by kind and answer.
    pub events: BTreeMap<(u32, u32), usize>,
    /// Previewed words, by kind and answer.
    pub previewed: BTreeMap<(u32, u32), usize>,
    /// Accepted deliveries to a running node, by type, and accepted echoes to one.
    pub delivered: BTreeMap<u32, usize>,
    pub echoed: BTreeMap<u32, usize>,
    /// Accepted timers.
    pub timers: BTreeMap<u32, usize>,
    /// Answers that replays wrote.
    pub replayed: BTreeMap<u32, usize>,
    /// Answers that lists on a ring wrote.
    pub listed: BTreeMap<u32, usize>,
    /// Accepted routes, by hops.
    pub hops: BTreeMap<u64, usize>,
    /// Accepted reaches, by hops.
    pub reached: BTreeMap<u32, usize>,
    /// Accepted screens, by n and m.
    pub shown: BTreeMap<(u32, usize), usize>,
    /// Accepted joins, by the two numbers of nodes, and by the two numbers of messages.
    pub joined: BTreeMap<(usize, usize), usize>,
    pub joined_messages: BTreeMap<(usize, usize), usize>,
    /// Accepted conversions each way, by n and m.
    pub shortened: BTreeMap<(usize, usize), usize>,
    pub lengthened: BTreeMap<(usize, usize), usize>,
    /// Short inputs, by length.
    pub inputs: BTreeMap<usize, usize>,
    /// Words damaged.
    pub damages: usize,
}

pub fn count<K: Ord>(counts: &mut BTreeMap<K, usize>, key: K) {
    *counts.entry(key).or_default() += 1;
}

/// A deliver with bit 10, as if it were a kind of its own.
pub const ECHO: u32 = 16;

/// The kind of a word.
pub fn kind(word: u32) -> u32 {
    match word >> 28 {
        14 if word >> 10 & 1 == 1 => ECHO,
        kind => kind,
    }
}

/// The answers that each call can give.
const CALLS: [(&str, u32, &[u32]); 19] = [
    ("open", Command::OPEN, &[0, 1, 2, 3]),
    ("play", Command::PLAY, &[0, 1, 4, 5, 6, 7, 8, 9, 10, 11, 17]),
    ("leafset", Command::LEAFSET, &[0, 1, 6, 7, 8]),
    ("connected", Command::CONNECTED, &[0, 1, 6, 7, 8]),
    ("groups", Command::GROUPS, &[0, 1, 6]),
    ("read", Command::READ, &[0, 4, 5]),
    ("write", Command::WRITE, &[0, 4, 5]),
    ("replay", Command::REPLAY, &[0, 1, 2, 3]),
    ("play_all", Command::PLAY_ALL, &[0, 1, 6]),
    ("route", Command::ROUTE, &[0, 1, 6, 7, 8, 12, 13]),
    ("preview", Command::PREVIEW, &[0, 1, 4, 5, 6, 7, 8, 9, 10, 11, 17]),
    ("conductor", Command::CONDUCTOR, &[0, 1, 6]),
    ("technician", Command::TECHNICIAN, &[0, 1, 6]),
    ("messages", Command::MESSAGES, &[0]),
    ("join", Command::JOIN, &[0, 1, 6, 14, 15, 16]),
    ("joined with itself", Command::JOIN_ITSELF, &[1, 6, 15]),
    ("reach", Command::REACH, &[0, 1, 6, 7, 8, 12]),
    ("shorten", Command::SHORTEN, &[0, 1, 6, 20]),
    ("lengthen", Command::LENGTHEN, &[0, 1, 19]),
];

/// The answers that playing or previewing a word of each event kind can give.
const EVENTS: [(&str, u32, &[u32]); 8] = [
    ("on", 9, &[0, 1, 4, 6, 7, 9, 10]),
    ("off", 10, &[0, 1, 4, 6, 7, 8, 11, 17]),
    ("notice", 11, &[0, 1, 4, 5, 6, 7, 8, 10]),
    ("contact", 12, &[0, 1, 4, 5, 6, 7, 8, 10, 11, 17]),
    ("timer", 13, &[0, 1, 4, 6, 7, 8, 10, 11, 17]),
    ("deliver", 14, &[0, 1, 4, 6, 7, 10, 17]),
    ("lose", 15, &[0, 1, 4, 6, 7]),
    ("echo", ECHO, &[0, 1, 4, 6, 7, 10, 11, 17]),
];

/// The answers in a replay's places, where no clock is ever spent.
const REPLAYED: [u32; 8] = [0, 4, 5, 7, 8, 9, 11, 17];

/// The answers in the places of a list on a ring.
const LISTED: [u32; 9] = [0, 4, 5, 7, 8, 9, 10, 11, 17];

/// The fewest and the most nodes, without messages and with a full pool.
const LIMITS: [(u32, usize); 3] = [(1, 0), (64, 0), (64, 1_024)];

/// Joins with 64 nodes, and with 1,024 messages.
const JOINED: [(usize, usize); 3] = [(1, 63), (63, 1), (32, 32)];
const JOINED_MESSAGES: [(usize, usize); 3] = [(512, 512), (1_024, 0), (0, 1_024)];

/// Conversions of small rings and of rings at their limits, and the lengths of small inputs.
const EDITIONS: [(usize, usize); 6] = [(1, 0), (2, 0), (2, 1), (64, 0), (64, 1), (64, 1_024)];
const SMALL: RangeInclusive<usize> = 0..=20;

impl Tally {
    /// Every answer that can come has come, and no other; every type was delivered and echoed, every timer accepted,
    /// reaches of 0 to 24 hops made, rings at their limits shown, joined and converted.
    pub fn is_full(&self) -> bool {
        let every_event = |counts: &BTreeMap<(u32, u32), usize>| {
            counts.keys().filter(|(kind, _)| *kind >= 9).copied().eq(each(&EVENTS))
        };
        self.calls.keys().copied().eq(each(&CALLS))
            && every_event(&self.events)
            && every_event(&self.previewed)
            && self.replayed.keys().copied().eq(REPLAYED)
            && self.listed.keys().copied().eq(LISTED)
            && self.delivered.keys().copied().eq(1..=13)
            && self.echoed.keys().copied().eq(1..=13)
            && self.timers.keys().copied().eq(TIMERS)
            && self.reached.keys().copied().eq(0..=24)
            && LIMITS.iter().all(|limit| self.shown.contains_key(limit))
            && JOINED.iter().all(|sizes| self.joined.contains_key(sizes))
            && JOINED_MESSAGES.iter().all(|sizes| self.joined_messages.contains_key(sizes))
            && EDITIONS.iter().all(|sizes| self.shortened.contains_key(sizes) && self.lengthened.contains_key(sizes))
            && SMALL.into_iter().all(|length| self.inputs.contains_key(&length))
    }
}

fn each(table: &'static [(&str, u32, &[u32])]) -> impl Iterator<Item = (u32, u32)> {
    table.iter().flat_map(|(_, number, answers)| answers.iter().map(|answer| (*number, *answer)))
}

impl fmt::Display for Tally {
    fn fmt(&self, f: &mut fmt::Formatter) -> fmt::Result {
        writeln!(f, "calls: {:?}, words damaged: {}", self.sections, self.damages)?;
        rows(f, &CALLS, &self.calls)?;
        rows(f, &EVENTS, &self.events)?;
        writeln!(f, "previewed")?;
        rows(f, &EVENTS, &self.previewed)?;
        writeln!(f, "delivered, by type: {:?}", self.delivered)?;
        writeln!(f, "echoed, by type: {:?}", self.echoed)?;
        writeln!(f, "timers accepted: {:?}", self.timers)?;
        writeln!(f, "answers of replayed words: {:?}", self.replayed)?;
        writeln!(f, "answers of words in lists: {:?}", self.listed)?;
        writeln!(f, "accepted routes, by hops: {:?}", self.hops)?;
        writeln!(f, "accepted reaches, by hops: {:?}", self.reached)?;
        writeln!(f, "accepted screens, by n and m: {:?}", self.shown)?;
        writeln!(f, "accepted joins, by n: {:?}, by m: {:?}", self.joined, self.joined_messages)?;
        writeln!(f, "turned short, by n and m: {:?}", self.shortened)?;
        writeln!(f, "made long, by n and m: {:?}", self.lengthened)?;
        write!(f, "short inputs, by length: {:?}", self.inputs)
    }
}

/// A line for each row of a table, with how often each answer came.
fn rows(f: &mut fmt::Formatter, table: &[(&str, u32, &[u32])], counts: &BTreeMap<(u32, u32), usize>) -> fmt::Result {
    for (name, number, _) in table {
        write!(f, "{name:>10}, by answer:")?;
        for ((_, answer), count) in counts.range((*number, 0)..(number + 1, 0)) {
            write!(f, " {answer}: {count}")?;
        }
        writeln!(f)?;
    }
    Ok(())
}
