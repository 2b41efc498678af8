//! What `crates/test_listener` does with its commands, on any implementation.

use crate::command::{digest, set_words, Command};
use crate::listener::{Call, Listener, Record, Reply};

pub const EMPTY: u32 = 0;
pub const WATCHED: u32 = 1;
pub const VALUES: u32 = 2;
pub const WATCH: u32 = 3;
pub const TICK: u32 = 4;
pub const HEAR: u32 = 5;

pub struct Machine<'a> {
    listener: &'a dyn Listener,
    pub record: Record,
}

impl<'a> Machine<'a> {
    pub fn new(listener: &'a dyn Listener) -> Machine<'a> {
        Machine { listener, record: Record::EMPTY }
    }

    /// The reply of a call; None where a record is made by hand. A node number is a byte.
    pub fn run(&mut self, command: Command) -> Option<Reply> {
        let Command { number, a, b, c, .. } = command;
        let call = match number {
            WATCH => Call::Watch(a % 256),
            HEAR => Call::Hear(a % 256),
            TICK => Call::Tick,
            _ => {
                self.set(number, a, b, c);
                return None;
            }
        };
        Some(call.make(self.listener, &mut self.record))
    }

    fn set(&mut self, number: u32, a: u32, b: u32, c: u32) {
        match number {
            EMPTY => self.record = Record::EMPTY,
            WATCHED => self.record.watched = (b as u64) << 32 | a as u64,
            _ => {
                let s = a as usize % 64;
                self.record.silences[s] = b as u8;
                self.record.windows[s] = c as u8;
            }
        }
    }

    /// The command's number, the answer, the notices, and the digest of the record after it.
    pub fn line(&self, number: u32, reply: Reply) -> String {
        let Record { watched, silences, windows } = &self.record;
        let bytes = silences.iter().chain(windows).map(|&byte| byte as u32);
        let digest = digest(set_words(std::slice::from_ref(watched)).chain(bytes));
        format!("{number} {} {} {digest}\n", reply.answer, reply.notices)
    }
}

/// What an implementation prints for the commands in these bytes.
pub fn printed(listener: &dyn Listener, input: &[u8]) -> String {
    let mut machine = Machine::new(listener);
    let line = |command: Command| machine.run(command).map(|reply| machine.line(command.number, reply));
    Command::all(input).filter_map(line).collect()
}
