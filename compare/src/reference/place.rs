//! A valid ring in the lent words: its parts, read and written in place.

use super::layout::*;
use super::sets::Table;

pub struct Place<'a> {
    pub words: &'a mut Words,
    pub header: Header,
}

/// A message in flight, without its view.
#[derive(Clone, Copy)]
pub struct Message {
    pub kind: u32,
    pub sender: usize,
    pub receiver: usize,
    pub subject: u32,
    pub stamp: u32,
}

impl Message {
    /// A message whose type uses no field.
    pub fn new(kind: u32, sender: usize, receiver: usize) -> Message {
        Message { kind, sender, receiver, subject: NONE, stamp: 0 }
    }

    pub fn about(self, subject: u32) -> Message {
        Message { subject, ..self }
    }

    pub fn stamped(self, stamp: u32) -> Message {
        Message { stamp, ..self }
    }
}

pub fn is_running(words: &Words, x: usize) -> bool {
    words[node_at(x)] & RUNNING != 0
}

/// The nodes whose pair with `x` has the mark.
pub fn marked(words: &Words, x: usize, mark: u32) -> u64 {
    let row: &[u32; ROW] = words[pair_at(x, 0)..][..ROW].try_into().unwrap();
    let mut set = 0;
    for (z, pair) in row.chunks_exact(2).enumerate() {
        set |= ((pair[0] & mark != 0) as u64) << z;
    }
    set
}

pub fn table(words: &Words, header: Header) -> Table {
    let mut keys = [0; NODES];
    for (key, node) in keys.iter_mut().zip(words[1..PAIRS].chunks_exact(2)) {
        *key = node[0] & LOW24;
    }
    Table { keys, sides: header.sides }
}

impl Place<'_> {
    pub fn table(&self) -> Table {
        table(self.words, self.header)
    }

    pub fn is_running(&self, x: usize) -> bool {
        is_running(self.words, x)
    }

    pub fn clock(&self, x: usize) -> u32 {
        self.words[node_at(x) + 1] & LOW24
    }

    /// Adds 1 to the clock of `x`; the new value is "now".
    pub fn tick(&mut self, x: usize) -> u32 {
        let now = self.clock(x) + 1;
        self.words[node_at(x) + 1] = KIND_CLOCK | now;
        now
    }

    pub fn switch_on(&mut self, x: usize) {
        self.words[node_at(x)] |= RUNNING;
    }

    /// "Off clears the mark, its held set, candidates, stamps and spares but keeps its clock."
    pub fn switch_off(&mut self, x: usize) {
        self.words[node_at(x)] &= !RUNNING;
        for z in (0..self.header.nodes).filter(|&z| z != x) {
            self.words[pair_at(x, z)] = IDLE;
            self.words[pair_at(x, z) + 1] = NO_SPARE;
        }
    }

    pub fn held(&self, x: usize) -> u64 {
        marked(self.words, x, HELD)
    }

    pub fn candidates(&self, x: usize) -> u64 {
        marked(self.words, x, CANDIDATE)
    }

    pub fn holds(&self, x: usize, z: usize) -> bool {
        self.words[pair_at(x, z)] & HELD != 0
    }

    /// Document 01's "take in".
    pub fn hold(&mut self, x: usize, y: usize, now: u32) {
        if !self.holds(x, y) {
            self.words[pair_at(x, y)] |= HELD | now;
        }
    }

    /// Document 01's "let go"; the candidate mark stays.
    pub fn release(&mut self, x: usize, z: usize) {
        self.words[pair_at(x, z)] &= !(HELD | LOW24);
        self.words[pair_at(x, z) + 1] = NO_SPARE;
    }

    pub fn commit(&self, x: usize, z: usize) -> u32 {
        self.words[pair_at(x, z)] & LOW24
    }

    pub fn set_commit(&mut self, x: usize, z: usize, now: u32) {
        let pair = &mut self.words[pair_at(x, z)];
        *pair = *pair & !LOW24 | now;
    }

    pub fn spare(&self, x: usize, z: usize) -> u32 {
        self.words[pair_at(x, z) + 1] & 127
    }

    pub fn set_spare(&mut self, x: usize, z: usize, spare: u32) {
        self.words[pair_at(x, z) + 1] = KIND_SPARE | spare;
    }

    pub fn strike_candidate(&mut self, x: usize, z: usize) {
        self.words[pair_at(x, z)] &= !CANDIDATE;
    }

    pub fn add_candidate(&mut self, x: usize, z: usize) {
        self.words[pair_at(x, z)] |= CANDIDATE;
    }

    /// The places of a node with itself and beyond n are 0, and stay so.
    pub fn empty_candidates(&mut self, x: usize) {
        for pair in self.words[pair_at(x, 0)..][..ROW].chunks_exact_mut(2) {
            pair[0] &= !CANDIDATE;
        }
    }

    pub fn message(&self, position: usize) -> Message {
        let at = message_at(position);
        let head = self.words[at];
        Message {
            kind: head & 15,
            sender: (head >> 4 & 63) as usize,
            receiver: (head >> 10 & 63) as usize,
            subject: head >> 16 & 127,
            stamp: self.words[at + 1] & LOW24,
        }
    }

    pub fn view(&self, position: usize) -> u64 {
        let at = message_at(position) + 2;
        let part = |k: usize| (self.words[at + k] & LOW24) as u64;
        part(0) | part(1) << 24 | part(2) << 48
    }

    /// Takes the message out: the later ones move up, and the last place becomes 0.
    pub fn take_out(&mut self, position: usize) {
        let end = message_at(self.header.messages);
        self.words.copy_within(message_at(position + 1)..end, message_at(position));
        self.words[end - MESSAGE..end].fill(0);
        self.header.messages -= 1;
        self.words[0] = self.header.word();
    }

    /// "New messages go to the end." The caller has seen to the room.
    pub fn send(&mut self, message: Message, view: u64) {
        let at = message_at(self.header.messages);
        let place: &mut [u32; MESSAGE] = (&mut self.words[at..at + MESSAGE]).try_into().unwrap();
        *place = [
            KIND_MESSAGE
                | message.subject << 16
                | (message.receiver as u32) << 10
                | (message.sender as u32) << 4
                | message.kind,
            KIND_STAMP | message.stamp,
            KIND_VIEW | view as u32 & LOW24,
            KIND_VIEW | (view >> 24) as u32 & LOW24,
            KIND_VIEW | (view >> 48) as u32,
        ];
        self.header.messages += 1;
        self.words[0] = self.header.word();
    }
}
