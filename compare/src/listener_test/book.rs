//! The commands written so far, with the lines that they have to give. Every case says the answer or the notices that
//! the note demands; the records are those of the plain implementation, with which the reference has to agree.

use super::machine::*;
use crate::command::Command;
use crate::listener::{Record, Reply};
use crate::plain::listener::{Plain, Slip};
use crate::reference::Reference;
use std::collections::BTreeMap;

pub struct Book {
    plain: Machine<'static>,
    reference: Machine<'static>,
    pub input: Vec<u8>,
    pub output: String,
    /// Calls, by number and answer.
    pub calls: BTreeMap<(u32, u32), usize>,
    pub notices: u32,
}

impl Book {
    pub fn new() -> Book {
        Book {
            plain: Machine::new(&Plain { slip: None }),
            reference: Machine::new(&Reference),
            input: Vec::new(),
            output: String::new(),
            calls: BTreeMap::new(),
            notices: 0,
        }
    }

    /// Whether a wrong listener gives other lines.
    pub fn differs(&self, slip: Slip) -> bool {
        printed(&Plain { slip: Some(slip) }, &self.input) != self.output
    }

    /// Every answer that a call can give has come, and no other.
    pub fn is_full(&self) -> bool {
        let all = [(WATCH, 0), (WATCH, 7), (TICK, 0), (HEAR, 0), (HEAR, 7), (HEAR, 18)];
        self.calls.keys().copied().eq(all)
    }

    pub fn record(&self) -> &Record {
        &self.plain.record
    }

    fn run(&mut self, number: u32, [a, b, c]: [u32; 3]) -> Option<Reply> {
        let command = Command { number, a, b, c, ..Command::default() };
        self.input.extend(command.bytes());
        let reply = self.plain.run(command);
        assert_eq!(reply, self.reference.run(command), "{command:?}");
        assert_eq!(self.plain.record, self.reference.record, "{command:?}");
        reply
    }

    /// A call, with its line.
    fn call(&mut self, number: u32, node: u32) -> Reply {
        let reply = self.run(number, [node, 0, 0]).unwrap();
        *self.calls.entry((number, reply.answer)).or_default() += 1;
        self.notices += reply.notices.count_ones();
        self.output += &self.plain.line(number, reply);
        reply
    }

    pub fn empty(&mut self) {
        self.run(EMPTY, [0; 3]);
    }

    pub fn watched(&mut self, set: u64) {
        self.run(WATCHED, [set as u32, (set >> 32) as u32, 0]);
    }

    pub fn values(&mut self, s: u32, silence: u8, window: u8) {
        self.run(VALUES, [s, silence as u32, window as u32]);
    }

    pub fn watch(&mut self, node: u32, answer: u32) {
        assert_eq!(self.call(WATCH, node).answer, answer, "watch {node}");
    }

    pub fn hear(&mut self, node: u32, answer: u32) {
        assert_eq!(self.call(HEAR, node).answer, answer, "hear {node}");
    }

    pub fn tick(&mut self, notices: u64) {
        assert_eq!(self.call(TICK, 0).notices, notices, "tick");
    }

    /// Ticks without a notice.
    pub fn ticks(&mut self, count: usize) {
        (0..count).for_each(|_| self.tick(0));
    }

    /// A tick whose notices the case doesn't know.
    pub fn any_tick(&mut self) {
        self.call(TICK, 0);
    }

    pub fn any_watch(&mut self, node: u32) {
        self.call(WATCH, node);
    }

    pub fn any_hear(&mut self, node: u32) {
        self.call(HEAR, node);
    }
}
