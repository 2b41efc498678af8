//! Where document 01 puts each thing in the ring's words ("The ring's words").

use crate::ring::Sides;

/// "A ring fills 13,441 words of 32 bits."
pub const WORDS: usize = 13_441;
pub type Words = [u32; WORDS];

/// Nodes at most, and the subject or spare that means none.
pub const NODES: usize = 64;
pub const NONE: u32 = 64;
/// Messages at most, and of one sender.
pub const POOL: usize = 1_024;
pub const OF_SENDER: usize = 256;

/// The words of the pairs and of the messages start here.
pub const PAIRS: usize = 129;
pub const MESSAGES: usize = 8_321;
/// Words of one node's row of pairs, and of one message.
pub const ROW: usize = 128;
pub const MESSAGE: usize = 5;

pub const KIND_RING: u32 = 1 << 28;
pub const KIND_KEY: u32 = 2 << 28;
pub const KIND_PAIR: u32 = 3 << 28;
pub const KIND_SPARE: u32 = 4 << 28;
pub const KIND_CLOCK: u32 = 5 << 28;
pub const KIND_MESSAGE: u32 = 6 << 28;
pub const KIND_STAMP: u32 = 7 << 28;
pub const KIND_VIEW: u32 = 8 << 28;

/// Keys, clocks and stamps are 24 bits.
pub const LOW24: u32 = 0xFF_FFFF;
pub const RUNNING: u32 = 1 << 24;
pub const HELD: u32 = 1 << 24;
pub const CANDIDATE: u32 = 1 << 25;

/// A pair that is neither held nor candidate, and the spare word that names none.
pub const IDLE: u32 = KIND_PAIR;
pub const NO_SPARE: u32 = KIND_SPARE | NONE;

/// The place of node `s`'s key word; its clock word follows.
pub fn node_at(s: usize) -> usize {
    1 + 2 * s
}

/// The place of the first word of the pair (x, z); its spare word follows.
pub fn pair_at(x: usize, z: usize) -> usize {
    PAIRS + 2 * (NODES * x + z)
}

/// The place of the first word of the message at `position`.
pub fn message_at(position: usize) -> usize {
    MESSAGES + MESSAGE * position
}

/// What word 0 says: A, B, n and m.
#[derive(Clone, Copy)]
pub struct Header {
    pub sides: Sides,
    pub nodes: usize,
    pub messages: usize,
}

impl Header {
    /// None where the word is no word 0 of a ring.
    pub fn read(word: u32) -> Option<Header> {
        let header = Header {
            sides: Sides::of_word(word),
            nodes: (word >> 4 & 127) as usize,
            messages: (word >> 11 & 2047) as usize,
        };
        let fits = word & 0xFC00_0000 == KIND_RING
            && header.sides.fit()
            && (1..=NODES).contains(&header.nodes)
            && header.messages <= POOL;
        fits.then_some(header)
    }

    pub fn word(&self) -> u32 {
        KIND_RING | (self.messages as u32) << 11 | (self.nodes as u32) << 4 | self.sides.bits()
    }
}
