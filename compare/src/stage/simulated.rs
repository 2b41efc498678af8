//! A stage in simulated time: each timer of each node fires once a second, and a radio delays and loses messages.

use crate::events::{deliver, lose, timer, TIMERS};
use crate::look;
use crate::random::Random;
use crate::ring::Ring;
use crate::ANSWERS;
use std::collections::VecDeque;

/// In microseconds, as every time here.
pub const MILLISECOND: u64 = 1_000;
pub const SECOND: u64 = 1_000_000;

pub const CLOCK_SPENT: usize = 10;
pub const POOL_FULL: usize = 11;
pub const SENDER_FULL: usize = 17;

#[derive(Clone, Copy, Debug)]
pub struct Conditions {
    /// A message arrives after 0 to twice this time, each time in between as likely.
    pub mean_delay: u64,
    /// Of 100 messages so many are lost, at the moment at which they would arrive.
    pub lost: usize,
    pub firing: Firing,
    pub refused: Refused,
}

impl Conditions {
    /// A quick radio that loses nothing, and timers as they should fire.
    pub const GOOD: Conditions =
        Conditions { mean_delay: 10 * MILLISECOND, lost: 0, firing: Firing::Spread, refused: Refused::TriedAgain };
}

/// At which moments of a second timers fire.
#[derive(Clone, Copy, Debug, PartialEq)]
pub enum Firing {
    /// Each timer of each node at a moment of its own, the same in every second.
    Spread,
    /// All of a kind at one moment, by rising node, and the kinds a quarter of a second apart.
    ByKind,
    /// All at one moment, by rising kind, then node.
    AtOnce,
}

/// What becomes of a timer that is refused with 11 or 17.
#[derive(Clone, Copy, Debug, PartialEq)]
pub enum Refused {
    /// Nothing, until its moment in the next second.
    Dropped,
    /// It is tried again after each arrival until it is accepted, the first refused first.
    TriedAgain,
}

/// What has happened since the start, or since the tally was taken away.
#[derive(Clone, Default)]
pub struct Tally {
    /// How often each answer was given.
    pub answers: [u64; ANSWERS],
    /// The most messages in flight, and of one node.
    pub most: usize,
    pub most_of_node: usize,
    /// Messages in flight, summed over the time.
    in_flight: u64,
    time: u64,
}

impl Tally {
    /// The mean number of messages in flight.
    pub fn mean(&self) -> f64 {
        self.in_flight as f64 / self.time as f64
    }
}

#[derive(Clone)]
pub struct Stage<'a> {
    pub words: Vec<u32>,
    pub tally: Tally,
    ring: &'a dyn Ring,
    random: Random,
    conditions: Conditions,
    /// The moment in a second and the event word of each timer, in the order of firing.
    timers: Vec<(u64, u32)>,
    /// How many times a timer has fired, of all.
    fired: usize,
    /// Timers that are to be tried again.
    waiting: VecDeque<u32>,
    pub now: u64,
    /// When each message in flight arrives, by its position.
    arrivals: Vec<u64>,
    /// Receiver and sender of each message delivered since the last call of `until` began.
    pub heard: Vec<(usize, usize)>,
}

impl<'a> Stage<'a> {
    /// On a ring with no message in flight. Timers of a node that is off are refused.
    pub fn new(ring: &'a dyn Ring, mut random: Random, words: Vec<u32>, conditions: Conditions) -> Stage<'a> {
        let timers = timers(conditions.firing, &mut random, look::nodes(&words));
        let (tally, waiting, arrivals, heard) = (Tally::default(), VecDeque::new(), Vec::new(), Vec::new());
        Stage { words, tally, ring, random, conditions, timers, fired: 0, waiting, now: 0, arrivals, heard }
    }

    /// Each timer of each node fires once, and the messages that are due arrive.
    pub fn second(&mut self) {
        self.until(self.now + SECOND);
        assert_eq!(self.arrivals.len(), look::messages(&self.words), "each message in flight has its arrival");
    }

    /// The timers fire and the messages arrive that are due before a moment.
    pub fn until(&mut self, end: u64) {
        self.heard.clear();
        let (mut moment, mut word) = self.next_timer();
        while moment < end {
            self.wait_until(moment);
            self.fire(word);
            self.fired += 1;
            (moment, word) = self.next_timer();
        }
        self.wait_until(end);
    }

    fn next_timer(&self) -> (u64, u32) {
        let (seconds, place) = (self.fired / self.timers.len(), self.fired % self.timers.len());
        let (moment, word) = self.timers[place];
        (seconds as u64 * SECOND + moment, word)
    }

    fn wait_until(&mut self, moment: u64) {
        while let Some((position, arrival)) = self.next_arrival().filter(|&(_, arrival)| arrival < moment) {
            self.pass(arrival);
            self.arrive(position);
            self.try_waiting();
        }
        self.pass(moment);
    }

    /// The message that arrives next; of two at one moment, the older.
    fn next_arrival(&self) -> Option<(usize, u64)> {
        self.arrivals.iter().copied().enumerate().min_by_key(|&(_, arrival)| arrival)
    }

    fn pass(&mut self, moment: u64) {
        self.tally.in_flight += self.arrivals.len() as u64 * (moment - self.now);
        self.tally.time += moment - self.now;
        self.now = moment;
    }

    /// A message that is refused is lost.
    fn arrive(&mut self, position: usize) {
        self.arrivals.remove(position);
        let ends = (look::receiver(&self.words, position), look::sender(&self.words, position));
        let position = position as u32;
        if self.random.percent(self.conditions.lost) || self.play(deliver(position)) != 0 {
            self.play(lose(position));
        } else {
            self.heard.push(ends);
        }
    }

    /// A timer that still waits does not fire once more.
    fn fire(&mut self, word: u32) {
        let waits = self.waiting.contains(&word);
        if !waits && is_full(self.play(word)) && self.conditions.refused == Refused::TriedAgain {
            self.waiting.push_back(word);
        }
    }

    fn try_waiting(&mut self) {
        while let Some(&word) = self.waiting.front() {
            if is_full(self.play(word)) {
                return;
            }
            self.waiting.pop_front();
        }
    }

    /// Plays an event, whose new messages set out.
    pub fn play(&mut self, word: u32) -> usize {
        let answer = self.ring.play(&mut self.words, word) as usize;
        self.tally.answers[answer] += 1;
        if answer == 0 {
            for _ in self.arrivals.len()..look::messages(&self.words) {
                let delay = self.random.below(2 * self.conditions.mean_delay as usize + 1);
                self.arrivals.push(self.now + delay as u64);
            }
            self.tally.most = self.tally.most.max(self.arrivals.len());
            self.tally.most_of_node = self.tally.most_of_node.max(look::busiest(&self.words).1);
        }
        answer
    }
}

/// Whether there was no room, of all or of the sender.
fn is_full(answer: usize) -> bool {
    answer == POOL_FULL || answer == SENDER_FULL
}

fn timers(firing: Firing, random: &mut Random, n: usize) -> Vec<(u64, u32)> {
    let mut moment = |kind: usize| match firing {
        Firing::Spread => random.below(SECOND as usize) as u64,
        Firing::ByKind => kind as u64 * SECOND / TIMERS.len() as u64,
        Firing::AtOnce => 0,
    };
    let each = (0..TIMERS.len()).flat_map(|kind| (0..n as u32).map(move |x| (kind, timer(x, TIMERS[kind]))));
    let mut timers: Vec<(u64, u32)> = each.map(|(kind, word)| (moment(kind), word)).collect();
    timers.sort();
    timers
}
