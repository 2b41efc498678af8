//! Document 02's note 13: hearing silence ourselves.

use crate::listener::{Listener, Record};

/// Wrong listeners.
#[derive(Clone, Copy, PartialEq, Debug)]
pub enum Slip {
    /// A window starts as 3.
    Window3,
    /// A window starts as 5.
    Window5,
    /// The notice comes a tick after the silence has reached its window.
    NoticeLate,
    /// A notice at each tick once the silence has reached its window.
    NoticeAgain,
    /// A tick adds to silences above their window, too.
    TickAbove,
    /// A tick counts for nodes that aren't watched, too.
    TickUnwatched,
    /// A notice has the bit of the next node.
    NoticeNext,
    /// Notices of the first 32 nodes only.
    Notice32,
    /// The window grows at every hearing.
    GrowsAlways,
    /// The window grows where one more tick would have given the notice.
    GrowsEarly,
    /// Hearing in time makes the window 4 again.
    FallsBack,
    /// The window grows up to 254.
    Stops254,
    /// A window of 255 grows to 0.
    Wraps,
    /// Noticed is a silence that equals its window.
    NoticedEqual,
    /// A window of 0 isn't noticed.
    NoticedAbove0,
    /// Hearing leaves the silence.
    HearKeeps,
    /// Hearing a node that isn't watched sets its silence to 0, though it is refused.
    RefusedClears,
    /// Hearing a node that isn't watched watches it.
    HearWatches,
    /// Watching again sets the silence to 0.
    AgainSilence,
    /// Watching again sets the window to 4.
    AgainWindow,
    /// The first watching leaves the silence.
    WatchKeeps,
    /// Hearing is refused with 18 where 7 applies.
    NotWatchedFirst,
    /// Node 63 is refused.
    Bound62,
    /// Node 64 is taken for node 0.
    Bound64,
    /// Nodes are taken by their lowest 6 bits.
    Modulo64,
    /// Nodes are taken by their lowest 8 bits.
    Modulo256,
}

impl Slip {
    pub const ALL: [Slip; 26] = [
        Slip::Window3,
        Slip::Window5,
        Slip::NoticeLate,
        Slip::NoticeAgain,
        Slip::TickAbove,
        Slip::TickUnwatched,
        Slip::NoticeNext,
        Slip::Notice32,
        Slip::GrowsAlways,
        Slip::GrowsEarly,
        Slip::FallsBack,
        Slip::Stops254,
        Slip::Wraps,
        Slip::NoticedEqual,
        Slip::NoticedAbove0,
        Slip::HearKeeps,
        Slip::RefusedClears,
        Slip::HearWatches,
        Slip::AgainSilence,
        Slip::AgainWindow,
        Slip::WatchKeeps,
        Slip::NotWatchedFirst,
        Slip::Bound62,
        Slip::Bound64,
        Slip::Modulo64,
        Slip::Modulo256,
    ];
}

pub struct Plain {
    pub slip: Option<Slip>,
}

impl Record {
    fn watches(&self, s: usize) -> bool {
        self.watched >> s & 1 == 1
    }
}

impl Plain {
    fn has(&self, slip: Slip) -> bool {
        self.slip == Some(slip)
    }

    /// "A stand number above 63 is refused with 7, tried first."
    fn known(&self, node: u32) -> Result<usize, u32> {
        let (node, most) = match self.slip {
            Some(Slip::Modulo64) => (node % 64, 63),
            Some(Slip::Modulo256) => (node % 256, 63),
            Some(Slip::Bound62) => (node, 62),
            Some(Slip::Bound64) => (node, 64),
            _ => (node, 63),
        };
        if node > most { Err(7) } else { Ok(node as usize % 64) }
    }

    /// "A watched stand starts with silence 0 and window 4. Watching it again changes nothing."
    fn try_watch(&self, record: &mut Record, node: u32) -> Result<(), u32> {
        let s = self.known(node)?;
        let first = !record.watches(s);
        record.watched |= 1 << s;
        if first && !self.has(Slip::WatchKeeps) || self.has(Slip::AgainSilence) {
            record.silences[s] = 0;
        }
        if first || self.has(Slip::AgainWindow) {
            record.windows[s] = match self.slip {
                Some(Slip::Window3) => 3,
                Some(Slip::Window5) => 5,
                _ => 4,
            };
        }
        Ok(())
    }

    /// A node's part of a tick, which says whether there is a notice.
    fn notices(&self, silence: &mut u8, window: u8) -> bool {
        let before = *silence;
        let adds = match self.slip {
            Some(Slip::NoticeLate) => before <= window && before < 255,
            Some(Slip::TickAbove) => before != window && before < 255,
            _ => before < window,
        };
        *silence += adds as u8;
        match self.slip {
            Some(Slip::NoticeLate) => adds && before == window,
            Some(Slip::NoticeAgain) => *silence >= window,
            _ => adds && *silence == window,
        }
    }

    /// "If it had been noticed, that is, its silence had reached its window"
    fn was_noticed(&self, silence: u8, window: u8) -> bool {
        match self.slip {
            Some(Slip::GrowsAlways) => true,
            Some(Slip::GrowsEarly) => silence as u32 + 1 >= window as u32,
            Some(Slip::NoticedEqual) => silence == window,
            Some(Slip::NoticedAbove0) => silence >= window && window > 0,
            _ => silence >= window,
        }
    }

    /// "the window also grows by 1, up to 255"
    fn grown(&self, window: u8) -> u8 {
        match window {
            254 if self.has(Slip::Stops254) => 254,
            255 if self.has(Slip::Wraps) => 0,
            255 => 255,
            _ => window + 1,
        }
    }

    /// "Hearing a watched stand sets its silence to 0."
    fn try_hear(&self, record: &mut Record, node: u32) -> Result<(), u32> {
        let s = match self.known(node) {
            Err(7) if self.has(Slip::NotWatchedFirst) => return Err(18),
            known => known?,
        };
        if !record.watches(s) {
            match self.slip {
                Some(Slip::RefusedClears) => record.silences[s] = 0,
                Some(Slip::HearWatches) => return self.try_watch(record, node),
                _ => {}
            }
            return Err(18);
        }
        let window = record.windows[s];
        if self.was_noticed(record.silences[s], window) {
            record.windows[s] = self.grown(window);
        } else if self.has(Slip::FallsBack) {
            record.windows[s] = 4;
        }
        if !self.has(Slip::HearKeeps) {
            record.silences[s] = 0;
        }
        Ok(())
    }
}

impl Listener for Plain {
    fn name(&self) -> &'static str {
        "plain"
    }

    fn watch(&self, record: &mut Record, node: u32) -> u32 {
        self.try_watch(record, node).err().unwrap_or(0)
    }

    /// "A tick adds 1 to each silence that is below its window and gives a notice for each that thereby reaches it"
    fn tick(&self, record: &mut Record) -> u64 {
        let mut notices = 0;
        for s in 0..64 {
            let counts = record.watches(s) || self.has(Slip::TickUnwatched);
            if counts && self.notices(&mut record.silences[s], record.windows[s]) {
                notices |= 1u64 << s;
            }
        }
        match self.slip {
            Some(Slip::NoticeNext) => notices.rotate_left(1),
            Some(Slip::Notice32) => notices & u32::MAX as u64,
            _ => notices,
        }
    }

    fn hear(&self, record: &mut Record, node: u32) -> u32 {
        self.try_hear(record, node).err().unwrap_or(0)
    }
}
