//! The commands written so far, with the lines that they have to give. Every case says the answer that document 01 demands;
//! values and words are those of the plain implementation, with which the reference has to agree.

use super::machine::{differs, Line, Machine};
use super::tally::{count, kind, Tally, ECHO};
use crate::command::Command;
use crate::events::{deliver, echo, on, timer};
use crate::look;
use crate::plain::{Plain, Slip};
use crate::reference::Reference;
use crate::ring::{Conductor, Ring, Routed, Sides, Technician};
use crate::LENGTH;

/// Where a section begins: the machine as it is there, and how much is written.
struct Section {
    name: &'static str,
    machine: Machine<'static>,
    input: usize,
    output: usize,
}

pub struct Book {
    plain: Machine<'static>,
    reference: Machine<'static>,
    /// How many words the calls are lent.
    lent: u32,
    pub input: Vec<u8>,
    pub output: String,
    pub tally: Tally,
    sections: Vec<Section>,
}

impl Book {
    pub fn new() -> Book {
        Book {
            plain: Machine::new(&Plain { slip: None }),
            reference: Machine::new(&Reference),
            lent: LENGTH as u32,
            input: Vec::new(),
            output: String::new(),
            tally: Tally::default(),
            sections: Vec::new(),
        }
    }

    pub fn section(&mut self, name: &'static str) {
        self.tally.section = name;
        let (machine, input, output) = (self.plain.clone(), self.input.len(), self.output.len());
        self.sections.push(Section { name, machine, input, output });
    }

    /// Whether a wrong program gives other lines for some section, from where the right one begins it: until it has
    /// given other lines it is where the right one is. The section of its own is tried first.
    pub fn notices(&self, slip: Slip) -> bool {
        let name = format!("{slip:?}").to_lowercase();
        let mut places: Vec<usize> = (0..self.sections.len()).collect();
        places.sort_by_key(|&place| !name.starts_with(&self.sections[place].name[..4]));
        places.into_iter().any(|place| {
            let Section { machine, input, output, .. } = &self.sections[place];
            let next = self.sections.get(place + 1);
            let (end, last) = next.map_or((self.input.len(), self.output.len()), |next| (next.input, next.output));
            differs(&Plain { slip: Some(slip) }, machine, &self.input[*input..end], &self.output[*output..last])
        })
    }

    /// Lends so many words to the calls from now on.
    pub fn lend(&mut self, length: usize) {
        self.lent = length as u32;
    }

    pub fn words(&self) -> &[u32] {
        &self.plain.words[..LENGTH]
    }

    pub fn second(&self) -> &[u32] {
        &self.plain.second[..LENGTH]
    }

    pub fn places(&self) -> &[u8] {
        &self.plain.places
    }

    fn run(&mut self, number: u32, [a, b, c, d]: [u32; 4]) -> Option<Line> {
        let command = Command { number, a, b, c, d, lent: self.lent };
        self.input.extend(command.bytes());
        let line = self.plain.run(command);
        assert_eq!(line, self.reference.run(command), "plain and reference, {command:?}");
        line
    }

    /// Writes a call with its line, which has to have the answer.
    fn call(&mut self, number: u32, parts: [u32; 4], answer: u32) -> Line {
        let line = self.run(number, parts).unwrap();
        let section = self.tally.section;
        assert_eq!(line.answer, answer, "{section}: call {number} of {parts:#X?}");
        assert!(answer == 0 || line.changed == 0, "{section}: a refused call wrote");
        self.output += &line.to_string();
        count(&mut self.tally.sections, section);
        count(&mut self.tally.calls, (number, answer));
        line
    }

    pub fn fill_words(&mut self, from: u32, to: u32, value: u32) {
        self.run(Command::FILL_WORDS, [from, to, value, 0]);
    }

    pub fn set_word(&mut self, at: usize, value: u32) {
        if self.plain.words[at] != value {
            self.fill_words(at as u32, at as u32 + 1, value);
        }
    }

    pub fn fill_list(&mut self, from: u32, to: u32, value: u32) {
        self.run(Command::FILL_LIST, [from, to, value, 0]);
    }

    pub fn fill_second(&mut self, from: u32, to: u32, value: u32) {
        self.run(Command::FILL_SECOND, [from, to, value, 0]);
    }

    /// Puts the words into the list.
    pub fn list(&mut self, from: u32, words: &[u32]) {
        for (at, &word) in (from..).zip(words) {
            if self.plain.list[at as usize] != word {
                self.fill_list(at, at + 1, word);
            }
        }
    }

    pub fn open(&mut self, sides: impl Into<Sides>, keys: &[u32], answer: u32) {
        let sides = sides.into();
        self.list(0, keys);
        self.call(Command::OPEN, [sides.clockwise, sides.counter_clockwise, keys.len() as u32, 0], answer);
    }

    /// Opens with all nodes on, by a replay.
    pub fn open_running(&mut self, sides: impl Into<Sides>, keys: &[u32]) {
        let n = keys.len() as u32;
        self.list(n, &(0..n).map(on).collect::<Vec<u32>>());
        self.replay(sides, keys, n, 0);
    }

    /// The answer of the plain implementation, where no case says it.
    fn judged(&self, word: u32) -> u32 {
        Plain { slip: None }.play(&mut self.words().to_vec(), word)
    }

    /// Plays a word that the implementations alone judge.
    pub fn play_any(&mut self, word: u32) {
        self.play(word, self.judged(word));
    }

    pub fn play(&mut self, word: u32, answer: u32) {
        let kind = kind(word);
        if let (0, Some(delivered)) = (answer, self.delivery(word)) {
            let counts = if kind == ECHO { &mut self.tally.echoed } else { &mut self.tally.delivered };
            count(counts, delivered);
        }
        if kind == 13 && answer == 0 {
            count(&mut self.tally.timers, word >> 12 & 7);
        }
        count(&mut self.tally.events, (kind, answer));
        self.call(Command::PLAY, [word, 0, 0, 0], answer);
    }

    /// Plays an echo: what the delivery leaves, with the message in its position again.
    pub fn echo(&mut self, position: u32) {
        let message = 8_321 + 5 * position as usize;
        let words = self.words()[message..message + 5].to_vec();
        let mut expected = self.words().to_vec();
        Plain { slip: None }.play(&mut expected, deliver(position));
        expected.splice(message..message, words);
        expected.truncate(LENGTH);
        expected[0] += 1 << 11;
        self.play(echo(position), 0);
        assert!(self.words() == expected, "{}: an echo of message {position}", self.tally.section);
    }

    /// Plays timer 0 at node 0: an invitation to each of the invited, then a question to each of the asked, in one step of
    /// the clock, and no candidate is left.
    pub fn invite_and_ask(&mut self, invited: &[u32], asked: &[u32]) {
        let (clock, first) = (look::clock(self.words(), 0), look::messages(self.words()));
        self.play(timer(0, 0), 0);
        let words = self.words();
        let of_message = |position| (look::message_type(words, position), look::receiver(words, position) as u32);
        let sent = (first..look::messages(words)).map(of_message);
        assert!(sent.eq(invited.iter().map(|&y| (5, y)).chain(asked.iter().map(|&y| (3, y)))));
        assert_eq!(look::clock(words, 0), clock + 1);
        assert!((1..64).all(|z| words[pair(0, z)] >> 25 & 1 == 0));
    }

    /// The type of the message that the word would deliver to a running node.
    fn delivery(&self, word: u32) -> Option<u32> {
        let position = word as usize & 1_023;
        (word >> 28 == 14 && look::is_running(self.words(), look::receiver(self.words(), position)))
            .then(|| look::message_type(self.words(), position))
    }

    pub fn leafset(&mut self, x: u32, answer: u32) -> u64 {
        self.call(Command::LEAFSET, [x, 0, 0, 0], answer).value
    }

    pub fn connected(&mut self, a: u32, b: u32, answer: u32) -> bool {
        self.call(Command::CONNECTED, [a, b, 0, 0], answer).value == 1
    }

    pub fn groups(&mut self, answer: u32) -> u64 {
        self.call(Command::GROUPS, [0; 4], answer).value
    }

    pub fn read(&mut self, word: u32, answer: u32) {
        self.call(Command::READ, [word, 0, 0, 0], answer);
    }

    pub fn write(&mut self, kind: u32, first: u32, second: u32, answer: u32) {
        self.call(Command::WRITE, [kind, first, second, 0], answer);
    }

    /// Replays the `count` words of the list after the keys.
    pub fn replay(&mut self, sides: impl Into<Sides>, keys: &[u32], length: u32, answer: u32) {
        let sides = sides.into();
        self.list(0, keys);
        self.call(Command::REPLAY, [sides.clockwise, sides.counter_clockwise, keys.len() as u32, length], answer);
        if answer == 0 {
            for &answer in self.plain.places.iter().take(length as usize) {
                count(&mut self.tally.replayed, answer as u32);
            }
        }
    }

    /// Plays words of the list by one call, which is lent so many places. Each case says their answers, too: a place past
    /// the words is kept, and every place where the call is refused.
    pub fn play_all(&mut self, from: u32, answers: &[u8], places: usize, answer: u32) {
        let written = if answer == 0 { answers.len().min(places) } else { 0 };
        let mut expected = self.plain.places.clone();
        expected[..written].copy_from_slice(&answers[..written]);
        self.call(Command::PLAY_ALL, [from, from + answers.len() as u32, places as u32, 0], answer);
        assert!(self.plain.places == expected, "{}: the places of a list", self.tally.section);
        answers[..written].iter().for_each(|&answer| count(&mut self.tally.listed, answer as u32));
    }

    /// A route that is lent so many places: its nodes, the start first, are written there, and no other place.
    pub fn route(&mut self, key: u32, nodes: &[u8], places: usize) {
        let mut expected = self.plain.places.clone();
        expected[..nodes.len()].copy_from_slice(nodes);
        let value = self.call(Command::ROUTE, [nodes[0] as u32, key, places as u32, 0], 0).value;
        let (end, hops) = (nodes[nodes.len() - 1] as u64, nodes.len() as u64 - 1);
        assert_eq!(value % 10_000, 100 * end + hops, "{}: {nodes:?} to {key}", self.tally.section);
        assert!(self.plain.places == expected, "{}: {nodes:?} to {key}", self.tally.section);
        count(&mut self.tally.hops, hops);
    }

    /// A route that the implementations alone judge.
    pub fn route_any(&mut self, start: u32, key: u32) {
        let mut list = [0; 64];
        let routed = Plain { slip: None }.route(self.words(), start, key, &mut list);
        match routed.answer {
            0 => self.route(key, &list[..=routed.hops as usize], 64),
            answer => self.route_refused(start, key, 64, answer),
        }
    }

    /// "A refused route answers 0 hops and stand 64, and the list is untouched."
    pub fn route_refused(&mut self, start: u32, key: u32, places: usize, answer: u32) {
        let before = self.plain.places.clone();
        let value = self.call(Command::ROUTE, [start, key, places as u32, 0], answer).value;
        assert_eq!(value % 10_000, 6_400, "{}: refused, {start} to {key}", self.tally.section);
        assert!(self.plain.places == before, "{}: refused, {start} to {key}", self.tally.section);
    }

    /// A reach that ends at a node after so many hops.
    pub fn reach(&mut self, start: u32, key: u32, end: u32, hops: u32) {
        let value = self.call(Command::REACH, [start, key, 0, 0], 0).value;
        assert_eq!(value, (100 * end + hops) as u64, "{}: {start} to {key}", self.tally.section);
        count(&mut self.tally.reached, hops);
    }

    /// A reach that the implementations alone judge.
    pub fn reach_any(&mut self, start: u32, key: u32) {
        let Routed { answer, end, hops } = Plain { slip: None }.reach(self.words(), start, key);
        match answer {
            0 => self.reach(start, key, end, hops),
            answer => self.reach_refused(start, key, answer),
        }
    }

    /// "A refused reach answers 0 hops and stand 64."
    pub fn reach_refused(&mut self, start: u32, key: u32, answer: u32) {
        let value = self.call(Command::REACH, [start, key, 0, 0], answer).value;
        assert_eq!(value, 6_400, "{}: refused, {start} to {key}", self.tally.section);
    }

    /// A preview that is lent so many words of the second buffer, and leaves the ring as it is. Accepted, they become
    /// what the event would leave; refused, they stay.
    pub fn preview(&mut self, word: u32, length: usize, answer: u32) {
        let mut expected = self.plain.second.clone();
        if answer == 0 {
            expected[..LENGTH].copy_from_slice(self.words());
            Plain { slip: None }.play(&mut expected[..LENGTH], word);
        }
        let line = self.call(Command::PREVIEW, [word, length as u32, 0, 0], answer);
        assert!(line.changed == 0, "{}: a preview of {word:X} wrote the ring", self.tally.section);
        assert!(self.plain.second == expected, "{}: the second buffer, {word:X}", self.tally.section);
        count(&mut self.tally.previewed, (kind(word), answer));
    }

    /// A preview that the implementations alone judge.
    pub fn preview_any(&mut self, word: u32) {
        self.preview(word, LENGTH, self.judged(word));
    }

    pub fn fill_third(&mut self, from: u32, to: u32, value: u32) {
        self.run(Command::FILL_THIRD, [from, to, value, 0]);
    }

    /// The second buffer becomes the buffer.
    pub fn keep(&mut self) {
        self.run(Command::KEEP, [0; 4]);
    }

    /// The buffer becomes the third one.
    pub fn take(&mut self) {
        self.run(Command::TAKE, [0; 4]);
    }

    /// A join of the buffer and the second one, which is lent so many words of the second and the third. The sources
    /// stay; refused, so does the third.
    pub fn join(&mut self, lengths: [usize; 2], answer: u32) {
        self.join_by(Command::JOIN, lengths, answer);
    }

    /// A join of the buffer and itself, which every ring refuses.
    pub fn join_itself(&mut self, length: usize, answer: u32) {
        self.join_by(Command::JOIN_ITSELF, [0, length], answer);
    }

    fn join_by(&mut self, number: u32, [second, third]: [usize; 2], answer: u32) {
        let (kept, old) = (self.plain.second.clone(), self.plain.third.clone());
        let line = self.call(number, [second as u32, third as u32, 0, 0], answer);
        let section = self.tally.section;
        assert!(line.changed == 0 && self.plain.second == kept, "{section}: a source was written");
        assert!(answer == 0 || self.plain.third == old, "{section}: a refused join wrote");
        assert!(self.plain.third[LENGTH] == old[LENGTH], "{section}: a join wrote past the ring");
    }

    /// An accepted join of the two. Its groups are those of both.
    pub fn joined(&mut self) -> &[u32] {
        self.join([LENGTH; 2], 0);
        let sizes = [self.words(), &self.plain.second].map(|words| (look::nodes(words), look::messages(words)));
        count(&mut self.tally.joined, (sizes[0].0, sizes[1].0));
        count(&mut self.tally.joined_messages, (sizes[0].1, sizes[1].1));
        let rings = [self.words(), &self.plain.second[..LENGTH], &self.plain.third[..LENGTH]];
        let groups = rings.map(|words| Plain { slip: None }.groups(words));
        assert_eq!(groups[2], (0, groups[0].1 + groups[1].1), "{}: groups of a join", self.tally.section);
        &self.plain.third[..LENGTH]
    }

    /// Puts a short input into the third buffer.
    pub fn short(&mut self, words: &[u32]) {
        for (at, &word) in (0..).zip(words) {
            if self.plain.third[at as usize] != word {
                self.fill_third(at, at + 1, word);
            }
        }
    }

    /// The first words of the third buffer.
    pub fn third(&self, length: usize) -> &[u32] {
        &self.plain.third[..length]
    }

    /// The ring turned short in so many words of the third buffer. Words beyond it stay; refused, all do.
    pub fn shorten(&mut self, places: usize, answer: u32) {
        let mut expected = self.plain.third.clone();
        let short = if answer == 0 { look::short(self.words()) } else { Vec::new() };
        expected[..short.len()].copy_from_slice(&short);
        let line = self.call(Command::SHORTEN, [places as u32, 0, 0, 0], answer);
        let section = self.tally.section;
        assert!(line.changed == 0, "{section}: a ring turned short was written");
        assert!(self.plain.third == expected, "{section}: the place of a short edition");
        assert_eq!(line.value % 100_000, short.len() as u64, "{section}: the length of a short edition");
        if answer == 0 {
            let sizes = (look::nodes(self.words()), look::messages(self.words()));
            count(&mut self.tally.shortened, sizes);
        }
    }

    /// The first words of the third buffer made long: the ring of which they are the short edition.
    pub fn lengthen(&mut self, length: usize, answer: u32) {
        let third = self.plain.third.clone();
        self.call(Command::LENGTHEN, [length as u32, 0, 0, 0], answer);
        assert!(self.plain.third == third, "{}: a short input was written", self.tally.section);
        count(&mut self.tally.inputs, length);
        if answer == 0 {
            assert!(look::short(self.words()) == third[..length], "{}: a ring made long", self.tally.section);
            let sizes = (look::nodes(self.words()), look::messages(self.words()));
            count(&mut self.tally.lengthened, sizes);
        }
    }

    /// A short input that the implementations alone judge.
    pub fn lengthen_any(&mut self, length: usize) {
        let answer = Plain { slip: None }.lengthen(self.third(length), &mut vec![0; LENGTH]);
        self.lengthen(length, answer);
    }

    pub fn fill_screen(&mut self, stamp: u32, spare: u32) {
        self.run(Command::FILL_SCREEN, [stamp, spare, 0, 0]);
    }

    /// Both screens and the part, refused: "each number 0, each set empty", and "of length 0".
    pub fn screens_refused(&mut self, answer: u32) {
        self.ask_screens(answer);
        let section = self.tally.section;
        assert!(self.plain.conductor == Conductor::EMPTY, "{section}: a refused conductor's screen");
        assert!(*self.plain.technician == Technician::EMPTY, "{section}: a refused technician's screen");
        assert!(self.plain.part.is_empty(), "{section}: a refused part");
    }

    /// Both screens and the part, accepted: the part is the 5 m words from the first message on, and the technician's
    /// screen has the conductor's.
    pub fn screens(&mut self) -> &Technician {
        self.ask_screens(0);
        let (section, part) = (self.tally.section, 5 * look::messages(self.words()));
        assert!(self.plain.part == self.words()[8_321..][..part], "{section}: the part");
        assert!(self.plain.technician.conductor == self.plain.conductor, "{section}: two conductor's screens");
        count(&mut self.tally.shown, (self.plain.conductor.nodes, part / 5));
        &self.plain.technician
    }

    fn ask_screens(&mut self, answer: u32) {
        for (number, answer) in [(Command::CONDUCTOR, answer), (Command::TECHNICIAN, answer), (Command::MESSAGES, 0)] {
            let line = self.call(number, [0; 4], answer);
            assert!(line.changed == 0, "{}: a screen wrote the ring", self.tally.section);
        }
    }

    // Parts of a ring, written as words.

    pub fn set_clock(&mut self, x: u32, clock: u32) {
        self.set_word(2 + 2 * x as usize, 5 << 28 | clock);
    }

    /// Node x holds z, with a commit stamp and a spare.
    pub fn hold(&mut self, x: u32, z: u32, commit: u32, spare: u32) {
        let at = pair(x, z);
        self.set_word(at, self.words()[at] & !0xFF_FFFF | 1 << 24 | commit);
        self.set_word(at + 1, 4 << 28 | spare);
    }

    pub fn candidate(&mut self, x: u32, z: u32) {
        let at = pair(x, z);
        self.set_word(at, self.words()[at] | 1 << 25);
    }

    /// A message more.
    pub fn send(&mut self, message: Message) {
        let at = 8_321 + 5 * look::messages(self.words());
        for (part, word) in message.words().into_iter().enumerate() {
            self.set_word(at + part, word);
        }
        self.set_word(0, self.words()[0] + (1 << 11));
    }
}

/// The place of the first word of a pair.
pub fn pair(x: u32, z: u32) -> usize {
    129 + 2 * (64 * x + z) as usize
}

#[derive(Clone, Copy)]
pub struct Message {
    pub kind: u32,
    pub sender: u32,
    pub receiver: u32,
    /// 64 is none.
    pub subject: u32,
    pub stamp: u32,
    pub view: u64,
}

impl Message {
    pub fn new(kind: u32, sender: u32, receiver: u32) -> Message {
        Message { kind, sender, receiver, subject: 64, stamp: 0, view: 0 }
    }

    pub fn about(self, subject: u32) -> Message {
        Message { subject, ..self }
    }

    pub fn stamped(self, stamp: u32) -> Message {
        Message { stamp, ..self }
    }

    pub fn seeing(self, nodes: &[u32]) -> Message {
        Message { view: nodes.iter().map(|s| 1 << s).sum(), ..self }
    }

    fn words(self) -> [u32; 5] {
        let Message { kind, sender, receiver, subject, stamp, view } = self;
        let part = |k: u32| 8 << 28 | (view >> (24 * k)) as u32 & 0xFF_FFFF;
        [6 << 28 | subject << 16 | receiver << 10 | sender << 4 | kind, 7 << 28 | stamp, part(0), part(1), part(2)]
    }
}
