//! The words of events.

pub const TIMERS: [u32; 4] = [0, 2, 3, 4];

/// Values in a timer's place that are none.
pub const NO_TIMERS: [u32; 4] = [1, 5, 6, 7];

pub fn on(x: u32) -> u32 {
    9 << 28 | x
}

pub fn off(x: u32) -> u32 {
    10 << 28 | x
}

/// A polite off.
pub fn leave(x: u32) -> u32 {
    off(x) | 1 << 12
}

pub fn notice(x: u32, subject: u32) -> u32 {
    11 << 28 | subject << 6 | x
}

pub fn contact(x: u32, y: u32) -> u32 {
    12 << 28 | y << 6 | x
}

pub fn timer(x: u32, timer: u32) -> u32 {
    13 << 28 | timer << 12 | x
}

pub fn deliver(position: u32) -> u32 {
    14 << 28 | position
}

/// A delivery after which the message stays.
pub fn echo(position: u32) -> u32 {
    deliver(position) | 1 << 10
}

pub fn lose(position: u32) -> u32 {
    15 << 28 | position
}
