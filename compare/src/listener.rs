//! Listener records, beside the ring: the calls on them, and random lists of calls through every implementation.

mod claims;
mod lists;
mod made;
mod shorten;

pub use made::Made;
use std::fmt;

/// "a listener record of watched stands, silences and windows"; all 0 is the empty one.
#[derive(Clone, Copy, PartialEq, Eq, Debug)]
pub struct Record {
    pub watched: u64,
    pub silences: [u8; 64],
    pub windows: [u8; 64],
}

impl Record {
    pub const EMPTY: Record = Record { watched: 0, silences: [0; 64], windows: [0; 64] };
}

/// An implementation of the three calls.
pub trait Listener: Sync {
    fn name(&self) -> &'static str;
    fn watch(&self, record: &mut Record, node: u32) -> u32;
    fn tick(&self, record: &mut Record) -> u64;
    fn hear(&self, record: &mut Record, node: u32) -> u32;
}

#[derive(Clone, Copy, PartialEq, Debug)]
pub enum Call {
    Watch(u32),
    Tick,
    Hear(u32),
}

/// What a call gives: an answer, 0 for a tick, and notices, 0 for the others.
#[derive(Clone, Copy, PartialEq, Default, Debug)]
pub struct Reply {
    pub answer: u32,
    pub notices: u64,
}

impl Call {
    pub fn make(self, listener: &dyn Listener, record: &mut Record) -> Reply {
        match self {
            Call::Watch(node) => Reply { answer: listener.watch(record, node), notices: 0 },
            Call::Tick => Reply { answer: 0, notices: listener.tick(record) },
            Call::Hear(node) => Reply { answer: listener.hear(record, node), notices: 0 },
        }
    }
}

/// A record to begin with, and calls on it.
#[derive(Clone)]
struct Case {
    start: Record,
    calls: Vec<Call>,
}

impl Case {
    /// What is wrong with it, and after how many calls: two implementations differ, or they reply otherwise than the
    /// note claims.
    fn fault(&self, listeners: &[&dyn Listener]) -> Option<(usize, String)> {
        let mut records = vec![self.start; listeners.len()];
        let mut replies = Vec::with_capacity(self.calls.len());
        for (place, &call) in self.calls.iter().enumerate() {
            match in_step(call, listeners, &mut records) {
                Ok(reply) => replies.push(reply),
                Err(difference) => return Some((place + 1, difference)),
            }
        }
        self.unlike_claims(&replies)
    }

    fn unlike_claims(&self, replies: &[Reply]) -> Option<(usize, String)> {
        if self.start != Record::EMPTY {
            return None;
        }
        let claimed = claims::replies(&self.calls);
        let place = (0..replies.len()).find(|&place| replies[place] != claimed[place])?;
        Some((place + 1, format!("{} where the note claims {}", replies[place], claimed[place])))
    }
}

/// One call of every implementation, each on its own record.
fn in_step(call: Call, listeners: &[&dyn Listener], records: &mut [Record]) -> Result<Reply, String> {
    let reply = call.make(listeners[0], &mut records[0]);
    for place in 1..listeners.len() {
        let other = call.make(listeners[place], &mut records[place]);
        let names = || format!("{} and {}", listeners[0].name(), listeners[place].name());
        if reply != other {
            return Err(format!("{}: {reply} and {other}", names()));
        }
        if records[place] != records[0] {
            return Err(format!("{}: {} and {}", names(), records[0], records[place]));
        }
    }
    Ok(reply)
}

impl fmt::Display for Reply {
    fn fmt(&self, f: &mut fmt::Formatter) -> fmt::Result {
        write!(f, "answer {}, notices {:X}", self.answer, self.notices)
    }
}

/// The watched set, and each node's silence and window where they aren't 0.
impl fmt::Display for Record {
    fn fmt(&self, f: &mut fmt::Formatter) -> fmt::Result {
        write!(f, "watched {:X}", self.watched)?;
        let values = self.silences.iter().zip(&self.windows).enumerate();
        for (s, (silence, window)) in values.filter(|(_, values)| *values != (&0, &0)) {
            write!(f, ", {s}: {silence} of {window}")?;
        }
        Ok(())
    }
}

impl fmt::Display for Case {
    fn fmt(&self, f: &mut fmt::Formatter) -> fmt::Result {
        writeln!(f, "from {}", self.start)?;
        self.calls.iter().try_for_each(|call| write!(f, "{call:?} "))
    }
}
