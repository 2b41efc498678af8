//! What `crates/test_calls` does with its commands, on any implementation.

use super::event_word;
use crate::command::{digest, set_words, Command};
use crate::ring::{Conductor, Ring, Routed, Shortened, Sides, Technician};
use crate::LENGTH;
use std::fmt;

impl Command {
    pub const FILL_WORDS: u32 = 0;
    pub const FILL_LIST: u32 = 1;
    pub const OPEN: u32 = 2;
    pub const PLAY: u32 = 3;
    pub const LEAFSET: u32 = 4;
    pub const CONNECTED: u32 = 5;
    pub const GROUPS: u32 = 6;
    pub const READ: u32 = 7;
    pub const WRITE: u32 = 8;
    pub const REPLAY: u32 = 9;
    pub const PLAY_ALL: u32 = 10;
    pub const ROUTE: u32 = 11;
    pub const PREVIEW: u32 = 12;
    pub const FILL_SECOND: u32 = 13;
    pub const CONDUCTOR: u32 = 14;
    pub const TECHNICIAN: u32 = 15;
    pub const MESSAGES: u32 = 16;
    pub const FILL_SCREEN: u32 = 17;
    pub const KEEP: u32 = 18;
    pub const TAKE: u32 = 19;
    pub const FILL_THIRD: u32 = 20;
    pub const JOIN: u32 = 21;
    pub const JOIN_ITSELF: u32 = 22;
    pub const REACH: u32 = 23;
    pub const SHORTEN: u32 = 24;
    pub const LENGTHEN: u32 = 25;
}

/// What a call gives: the answer, the value that comes with it, how many words it changed, and the digest of all words.
#[derive(PartialEq, Debug)]
pub struct Line {
    pub number: u32,
    pub answer: u32,
    pub value: u64,
    pub changed: usize,
    pub digest: u64,
}

impl fmt::Display for Line {
    fn fmt(&self, f: &mut fmt::Formatter) -> fmt::Result {
        let Line { number, answer, value, changed, digest } = self;
        writeln!(f, "{number} {answer} {value} {changed} {digest}")
    }
}

/// A buffer of one word more than a ring, a list with keys and after them a script, places for the answers of its words
/// or for the nodes of a route, a second buffer for previews and joins and a third one for joins and short editions, as
/// long as the first, and what the screens show.
#[derive(Clone)]
pub struct Machine<'a> {
    ring: &'a dyn Ring,
    pub words: Vec<u32>,
    pub list: Vec<u32>,
    pub places: Vec<u8>,
    pub second: Vec<u32>,
    pub third: Vec<u32>,
    pub conductor: Conductor,
    pub technician: Box<Technician>,
    /// The part, as the last call for it gave it.
    pub part: Vec<u32>,
}

/// What the screens' own places have before each call; stamps and spares have what they had.
const OLD: Conductor = Conductor {
    sides: Sides { clockwise: u32::MAX, counter_clockwise: u32::MAX },
    nodes: u32::MAX,
    running: u64::MAX,
    keys: [u32::MAX; 64],
    leafsets: [u64::MAX; 64],
};

impl<'a> Machine<'a> {
    pub fn new(ring: &'a dyn Ring) -> Machine<'a> {
        let words = vec![0; LENGTH + 1];
        Machine {
            ring,
            second: words.clone(),
            third: words.clone(),
            words,
            list: vec![0; 1_200],
            places: vec![0; 1_040],
            conductor: OLD,
            technician: Box::new(Technician::EMPTY),
            part: Vec::new(),
        }
    }

    /// The same with another implementation.
    fn with<'b>(&self, ring: &'b dyn Ring) -> Machine<'b> {
        let Machine { words, list, places, second, third, conductor, technician, part, .. } = self.clone();
        Machine { ring, words, list, places, second, third, conductor, technician, part }
    }

    pub fn run(&mut self, command: Command) -> Option<Line> {
        let Command { number, a, b, c, .. } = command;
        match number {
            Command::FILL_WORDS => self.words[a as usize..b as usize].fill(c),
            Command::FILL_LIST => self.list[a as usize..b as usize].fill(c),
            Command::FILL_SECOND => self.second[a as usize..b as usize].fill(c),
            Command::FILL_THIRD => self.third[a as usize..b as usize].fill(c),
            Command::KEEP => self.second.copy_from_slice(&self.words),
            Command::TAKE => self.words.copy_from_slice(&self.third),
            Command::FILL_SCREEN => {
                self.technician.stamps.fill(a);
                self.technician.spares.fill(b as u8);
            }
            _ => {
                let before = self.words.clone();
                let (answer, value) = self.call(command);
                let changed = before.iter().zip(&self.words).filter(|(old, new)| old != new).count();
                return Some(Line { number, answer, value, changed, digest: digest(self.words.iter().copied()) });
            }
        }
        None
    }

    fn call(&mut self, command: Command) -> (u32, u64) {
        let Command { number, a, b, c, lent, .. } = command;
        let words = &mut self.words[..lent as usize];
        match number {
            Command::OPEN => (self.ring.open(words, (a, b).into(), &self.list[..c as usize]), 0),
            Command::PLAY => (self.ring.play(words, a), 0),
            Command::LEAFSET => self.ring.leafset_of(words, a),
            Command::CONNECTED => {
                let (answer, yes) = self.ring.connected(words, a, b);
                (answer, yes as u64)
            }
            Command::GROUPS => {
                let (answer, groups) = self.ring.groups(words);
                (answer, groups as u64)
            }
            Command::READ => event_word::read(a),
            Command::WRITE => event_word::write(a, b, c),
            Command::REPLAY => self.replay(command),
            Command::PLAY_ALL => self.play_all(command),
            Command::ROUTE => self.route(command),
            Command::REACH => self.reach(command),
            Command::CONDUCTOR => self.conductor(command),
            Command::TECHNICIAN => self.technician(command),
            Command::MESSAGES => self.messages(command),
            Command::JOIN | Command::JOIN_ITSELF => self.join(command),
            Command::SHORTEN => self.shorten(command),
            Command::LENGTHEN => (self.ring.lengthen(&self.third[..a as usize], words), 0),
            _ => self.preview(command),
        }
    }

    /// Opens, and plays each word on what the one before left; answers without a place are dropped.
    fn replay(&mut self, command: Command) -> (u32, u64) {
        let (keys, rest) = self.list.split_at(command.c as usize);
        let words = &mut self.words[..command.lent as usize];
        let opened = self.ring.open(words, (command.a, command.b).into(), keys);
        if opened == 0 {
            for (position, &word) in rest[..command.d as usize].iter().enumerate() {
                let answer = self.ring.play(words, word);
                if let Some(place) = self.places.get_mut(position) {
                    *place = answer as u8;
                }
            }
        }
        (opened, self.places_digest())
    }

    /// Plays words of the list on the ring that is there, with some of the places.
    fn play_all(&mut self, command: Command) -> (u32, u64) {
        let words = &mut self.words[..command.lent as usize];
        let list = &self.list[command.a as usize..command.b as usize];
        let places = &mut self.places[..command.c as usize];
        (self.ring.play_all(words, list, places), self.places_digest())
    }

    /// A route, with some of the places: the value has the digest of all, then end and hops, two decimal digits each.
    fn route(&mut self, command: Command) -> (u32, u64) {
        let words = &self.words[..command.lent as usize];
        let places = &mut self.places[..command.c as usize];
        let Routed { answer, end, hops } = self.ring.route(words, command.a, command.b, places);
        (answer, self.places_digest() * 10_000 + end as u64 * 100 + hops as u64)
    }

    /// A reach: the value has end and hops, two decimal digits each.
    fn reach(&mut self, command: Command) -> (u32, u64) {
        let words = &self.words[..command.lent as usize];
        let Routed { answer, end, hops } = self.ring.reach(words, command.a, command.b);
        (answer, end as u64 * 100 + hops as u64)
    }

    /// A preview, with some words of the second buffer: the value is the digest of all.
    fn preview(&mut self, command: Command) -> (u32, u64) {
        let words = &mut self.words[..command.lent as usize];
        let second = &mut self.second[..command.b as usize];
        let answer = self.ring.preview(words, command.a, second);
        (answer, digest(self.second.iter().copied()))
    }

    /// A join, with some words of the second buffer, or of the first once more, and some of the third: the value is the
    /// digest of the whole second and the whole third.
    fn join(&mut self, command: Command) -> (u32, u64) {
        let first = &self.words[..command.lent as usize];
        let itself = command.number == Command::JOIN_ITSELF;
        let second = if itself { first } else { &self.second[..command.a as usize] };
        let answer = self.ring.join(first, second, &mut self.third[..command.b as usize]);
        (answer, digest(self.second.iter().chain(&self.third).copied()))
    }

    /// A short edition, in some words of the third buffer: the value has the digest of all, then the length written, in
    /// five decimal digits.
    fn shorten(&mut self, command: Command) -> (u32, u64) {
        let words = &self.words[..command.lent as usize];
        let Shortened { answer, written } = self.ring.shorten(words, &mut self.third[..command.a as usize]);
        (answer, digest(self.third.iter().copied()) * 100_000 + written as u64)
    }

    /// The value is the digest of all that the screen shows.
    fn conductor(&mut self, command: Command) -> (u32, u64) {
        self.conductor = OLD;
        let answer = self.ring.conductor(&self.words[..command.lent as usize], &mut self.conductor);
        (answer, digest(conductor_words(&self.conductor)))
    }

    /// The value is the digest of all that the screen shows, the conductor's first.
    fn technician(&mut self, command: Command) -> (u32, u64) {
        self.technician.conductor = OLD;
        self.technician.candidates.fill(u64::MAX);
        let answer = self.ring.technician(&self.words[..command.lent as usize], &mut self.technician);
        let Technician { conductor, candidates, stamps, spares } = &*self.technician;
        let more = set_words(candidates).chain(stamps.iter().copied()).chain(spares.iter().map(|&spare| spare as u32));
        (answer, digest(conductor_words(conductor).chain(more)))
    }

    /// The value has the digest of the part, then its length, four decimal digits. The call has no answer, for which 0
    /// stands.
    fn messages(&mut self, command: Command) -> (u32, u64) {
        self.part = self.ring.messages(&self.words[..command.lent as usize]).to_vec();
        (0, digest(self.part.iter().copied()) * 10_000 + self.part.len() as u64)
    }

    fn places_digest(&self) -> u64 {
        digest(self.places.iter().map(|&place| place as u32))
    }
}

/// A, B, n, the running nodes, the keys and the leafsets.
fn conductor_words(screen: &Conductor) -> impl Iterator<Item = u32> + '_ {
    let Conductor { sides, nodes, running, keys, leafsets } = screen;
    let numbers = [sides.clockwise, sides.counter_clockwise, *nodes].into_iter();
    numbers.chain(set_words(std::slice::from_ref(running))).chain(keys.iter().copied()).chain(set_words(leafsets))
}

/// Whether an implementation gives other lines for the commands in these bytes, from a machine as it is.
pub fn differs(ring: &dyn Ring, machine: &Machine, input: &[u8], output: &str) -> bool {
    let mut machine = machine.with(ring);
    let lines = Command::all(input).filter_map(|command| machine.run(command));
    !lines.map(|line| line.to_string()).eq(output.split_inclusive('\n'))
}
