//! Random calls, and records to begin with.

use super::{Call, Record, Reply};
use crate::random::Random;

/// How often each call comes, and of which nodes.
pub struct Script {
    random: Random,
    /// The nodes that most calls name.
    nodes: Vec<u32>,
    /// Ticks, and watchings, of 100 calls.
    ticks: usize,
    watchings: usize,
    /// Only nodes with a notice are heard, so that windows grow.
    late: bool,
    noticed: u64,
    pub length: usize,
}

/// Ticks after which a node that is heard after each notice has been noticed three times with a window of 255.
const FULL: usize = 255 * 256 / 2 - 6 + 3 * 255;

impl Script {
    /// A list from an empty record: one of 500 so long that windows reach 255.
    pub fn from_empty(mut random: Random) -> Script {
        let some = nodes(&mut random);
        let all = random.percent(10);
        let nodes = if all { (0..64).collect() } else { some };
        let (ticks, watchings) = (random.pick(&[30, 60, 80, 90]), random.pick(&[1, 5, 10]));
        match random.below(500) {
            0 => {
                let length = FULL + 256 * nodes.len();
                Script { random, nodes, ticks: 100, watchings: 0, late: true, noticed: 0, length }
            }
            1..=99 => Script { random, nodes, ticks: 90, watchings, late: true, noticed: 0, length: 1_500 },
            _ => {
                let length = 1 + random.below(400);
                Script { random, nodes, ticks, watchings, late: false, noticed: 0, length }
            }
        }
    }

    /// A list on a record made by hand.
    pub fn by_hand(mut random: Random) -> (Script, Record) {
        let nodes = nodes(&mut random);
        let record = record(&mut random, &nodes);
        let length = 1 + random.below(30);
        let script = Script { random, nodes, ticks: 40, watchings: 15, late: false, noticed: 0, length };
        (script, record)
    }

    /// The call after `made` others, the last of which was replied to so.
    pub fn next(&mut self, made: usize, last: Reply) -> Call {
        self.noticed |= last.notices;
        if self.late && made < self.nodes.len() {
            return Call::Watch(self.nodes[made]);
        }
        if self.late && self.noticed != 0 {
            let s = self.noticed.trailing_zeros();
            self.noticed &= self.noticed - 1;
            return Call::Hear(s);
        }
        let kind = self.random.below(100);
        if kind < self.ticks {
            return Call::Tick;
        }
        if kind < self.ticks + self.watchings {
            return Call::Watch(self.node());
        }
        let node = self.node();
        if self.late { Call::Watch(node) } else { Call::Hear(node) }
    }

    /// Mostly one of the script's; also any, and numbers above 63, some of which have one of the script's in their
    /// lowest bits.
    fn node(&mut self) -> u32 {
        let s = self.random.pick(&self.nodes);
        match self.random.below(40) {
            0 => self.random.pick(&[64, 65, 127, 128, 255, 256, 1 << 31, u32::MAX]),
            1 => 64 + s,
            2 => 256 + s,
            3 => self.random.word() & !63 | s,
            4..=6 => self.random.below(64) as u32,
            _ => s,
        }
    }
}

/// A few nodes, often the first and the last.
fn nodes(random: &mut Random) -> Vec<u32> {
    let count = 1 + random.below(6);
    let mut nodes: Vec<u32> = (0..count).map(|_| random.below(64) as u32).collect();
    nodes[0] = random.pick(&[nodes[0], nodes[0], 0, 31, 32, 63]);
    nodes
}

/// Any watched set, any bytes; windows at their ends and silences near them are frequent.
fn record(random: &mut Random, nodes: &[u32]) -> Record {
    let some = nodes.iter().fold(0, |set, s| set | 1 << s);
    let any = random.next();
    let watched = random.pick(&[some, some, any, any | some, 0, u64::MAX]);
    let mut record = Record { watched, ..Record::EMPTY };
    for s in 0..64 {
        let (byte, other) = (random.word() as u8, random.word() as u8);
        let window = random.pick(&[0, 1, 4, 5, 253, 254, 255, byte]);
        record.windows[s] = window;
        record.silences[s] = match random.below(8) {
            0 => window,
            1 => window.saturating_add(1),
            2 | 3 => window.saturating_sub(1),
            4 => window.saturating_sub(2),
            5 => random.pick(&[0, 255]),
            _ => other,
        };
    }
    record
}
