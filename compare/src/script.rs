//! Random openings and event words, in several mixes.

use crate::look;
use crate::random::Random;
use crate::ring::Sides;

#[derive(Clone, Copy, PartialEq, Debug)]
pub enum Mix {
    /// Mostly timers and deliveries; a notice names a node that is off.
    Gentle,
    /// All kinds, with wrong notices and losses.
    Chaos,
    /// Chaos with words among the events that are none.
    Garbage,
    /// Many links, timers 2 and 3 and their deliveries, so that requests and acknowledgements (types 9 and 10) are
    /// often in flight together.
    Replacement,
    /// One node's contacts and timers far more often than the others', and few deliveries, so that it stands near its
    /// 256 messages for long.
    Talkative,
}

impl Mix {
    pub const ALL: [Mix; 5] = [Mix::Gentle, Mix::Chaos, Mix::Garbage, Mix::Replacement, Mix::Talkative];

    pub fn named(name: &str) -> Option<Mix> {
        Mix::ALL.into_iter().find(|mix| mix.name() == name)
    }

    pub fn name(self) -> String {
        format!("{self:?}").to_lowercase()
    }

    /// How often each choice comes, beside the others.
    fn weights(self) -> [(Choice, usize); 16] {
        use Choice::*;
        let [on, off, leave, notice, wrong, contact, deliver, lose, anything] = match self {
            Mix::Gentle => [2, 1, 1, 10, 0, 30, 600, 15, 0],
            Mix::Chaos => [30, 6, 6, 15, 20, 80, 350, 60, 0],
            Mix::Garbage => [30, 6, 6, 15, 20, 80, 350, 60, 250],
            Mix::Replacement => [6, 2, 2, 6, 0, 60, 800, 10, 0],
            Mix::Talkative => [10, 1, 4, 4, 4, 150, 200, 60, 4],
        };
        let [timer_0, timer_2, timer_3, timer_4, no_timer, sweep, restart] = match self {
            Mix::Gentle => [40, 20, 20, 15, 1, 2, 0],
            Mix::Chaos | Mix::Garbage => [30, 30, 30, 30, 5, 2, 5],
            Mix::Replacement => [4, 20, 40, 4, 1, 10, 6],
            Mix::Talkative => [40, 20, 20, 20, 1, 1, 1],
        };
        [
            (On, on),
            (Off, off),
            (Leave, leave),
            (NoticeOfOff, notice),
            (NoticeOfAny, wrong),
            (Contact, contact),
            (Deliver, deliver),
            (Lose, lose),
            (Anything, anything),
            (Timer(0), timer_0),
            (Timer(2), timer_2),
            (Timer(3), timer_3),
            (Timer(4), timer_4),
            (NoTimer, no_timer),
            (Sweep, sweep),
            (Restart, restart),
        ]
    }
}

#[derive(Clone, Copy, PartialEq)]
enum Choice {
    On,
    Off,
    /// A polite off.
    Leave,
    NoticeOfOff,
    NoticeOfAny,
    Contact,
    Timer(u32),
    /// A timer that is none, mostly 1.
    NoTimer,
    Deliver,
    Lose,
    Anything,
    /// Timer 2 or 3 at every node of the circle.
    Sweep,
    /// A node goes off, politely or not, and on again at once: it holds nobody, and those that hold it don't know yet.
    Restart,
}

pub struct Script {
    random: Random,
    mix: Mix,
    n: usize,
    /// With fewer messages in flight more are sent; with more, mostly deliveries follow.
    crowd: usize,
    /// How many of 100 contacts are made: with few of them links are few, and each one matters.
    contacts: usize,
    /// Words that come before anything else, the last first.
    waiting: Vec<u32>,
    /// Events are mostly at these nodes: some that link up densely, or all.
    circle: Vec<usize>,
    /// The talkative one, where there is such a one.
    talker: Option<u32>,
}

impl Script {
    pub fn new(mut random: Random, mix: Mix, n: usize) -> Script {
        let talkative = mix == Mix::Talkative;
        let crowds: &[usize] = if talkative { &[900, 2_000] } else { &[3, 20, 80, 300, 900, 2_000] };
        let crowd = random.pick(crowds);
        let contacts = if talkative { 100 } else { random.pick(&[100, 100, 25, 5]) };
        let share = random.pick(&[60, 90, 100]);
        let mut waiting: Vec<u32> = (0..n as u32).filter(|_| random.percent(share)).map(|x| 9 << 28 | x).collect();
        let size = if mix == Mix::Replacement { 4 + random.below(7) } else { n };
        let first = random.below(n);
        let circle = (0..size.min(n)).map(|k| (first + k) % n).collect();
        let talker = (talkative && n > 1).then(|| random.below(n) as u32);
        if let Some(x) = talker {
            let talk: Vec<u32> = (0..230 + random.below(30)).map(|_| random.below(n) as u32).collect();
            waiting.splice(0..0, talk.into_iter().map(|y| 12 << 28 | y << 6 | x).chain([9 << 28 | x]));
        }
        Script { random, mix, n, crowd, contacts, waiting, circle, talker }
    }

    fn side(&mut self) -> u32 {
        match (self.mix, self.random.below(100)) {
            (Mix::Replacement, 0..80) => 1,
            (_, 0..60) => 1 + self.random.below(2) as u32,
            _ => 1 + self.random.below(8) as u32,
        }
    }

    /// A and B, small more often than not so that nodes lie outside leafsets, and n different keys.
    pub fn opening(&mut self) -> (Sides, Vec<u32>) {
        let sides = Sides { clockwise: self.side(), counter_clockwise: self.side() };
        let style = self.random.below(4);
        let keys = self.random.keys(self.n, |random| match style {
            // Anywhere.
            0 | 1 => random.word(),
            // Round zero, close together.
            2 => (random.below(200) as u32).wrapping_sub(100),
            // On a grid of 128 places: many distances are equal.
            _ => (random.below(128) as u32) << 17,
        });
        (sides, keys)
    }

    /// The next event word, chosen by the ring in the words.
    pub fn next(&mut self, words: &[u32]) -> u32 {
        match self.waiting.pop() {
            Some(word) => word,
            None => self.any(words),
        }
    }

    /// An event word by the mix.
    pub fn any(&mut self, words: &[u32]) -> u32 {
        let messages = look::messages(words);
        let choice = match self.choose(messages) {
            Choice::Contact if !self.random.percent(self.contacts) => self.random.pick(&[Choice::Timer(3), Choice::Deliver]),
            choice => choice,
        };
        let idle = choice == Choice::Deliver && messages == 0 && self.random.percent(90);
        self.word_of(if idle { Choice::Contact } else { choice }, words)
    }

    fn choose(&mut self, messages: usize) -> Choice {
        if messages > self.crowd && self.random.percent(90) {
            return Choice::Deliver;
        }
        let eagerness = if self.crowd < 900 { 20 } else { 60 };
        if messages < self.crowd && self.random.percent(eagerness) {
            let asking = if self.mix == Mix::Replacement { Choice::Timer(2) } else { Choice::Timer(0) };
            return self.random.pick(&[Choice::Contact, asking, Choice::Timer(3)]);
        }
        let weights = self.mix.weights();
        let mut left = self.random.below(weights.iter().map(|&(_, weight)| weight).sum());
        for (choice, weight) in weights {
            if left < weight {
                return choice;
            }
            left -= weight;
        }
        unreachable!("the weights sum up")
    }

    fn word_of(&mut self, choice: Choice, words: &[u32]) -> u32 {
        match choice {
            Choice::On => 9 << 28 | self.node(words, false),
            Choice::Off => 10 << 28 | self.node(words, true),
            Choice::Leave => 10 << 28 | 1 << 12 | self.node(words, true),
            Choice::NoticeOfOff => self.notice_of_off(words),
            Choice::NoticeOfAny => self.of_two(11, words),
            Choice::Contact => self.of_two(12, words),
            Choice::Timer(timer) => 13 << 28 | timer << 12 | self.node(words, true),
            Choice::NoTimer => 13 << 28 | self.random.pick(&[1, 1, 1, 5, 6, 7]) << 12 | self.node(words, true),
            Choice::Deliver => 14 << 28 | self.bit_10(20) | self.position(words),
            Choice::Lose => 15 << 28 | self.bit_10(2) | self.position(words),
            Choice::Anything => self.anything(),
            Choice::Sweep => {
                let timer = 13 << 28 | (2 + self.random.below(2) as u32) << 12;
                self.waiting.extend(self.circle.iter().map(|&x| timer | x as u32));
                timer | self.node(words, true)
            }
            Choice::Restart => {
                let x = self.node(words, true);
                self.waiting.push(9 << 28 | x);
                10 << 28 | (self.random.below(2) as u32) << 12 | x
            }
        }
    }

    /// The talkative one, where there is such a one and nodes that run are wished, more often than not; else any.
    fn node(&mut self, words: &[u32], running: bool) -> u32 {
        match self.talker {
            Some(x) if running && self.random.percent(60) => x,
            _ => self.any_node(words, running),
        }
    }

    /// Mostly a node that runs, or is off, as wished; sometimes any, also one that the ring doesn't have.
    fn any_node(&mut self, words: &[u32], running: bool) -> u32 {
        if self.random.percent(2) {
            return self.random.below(64) as u32;
        }
        if self.random.percent(3) {
            return self.random.below(self.n) as u32;
        }
        let start = self.random.below(self.circle.len());
        let in_turn = self.circle[start..].iter().chain(&self.circle[..start]);
        let found = in_turn.copied().find(|&s| look::is_running(words, s) == running);
        found.unwrap_or(self.circle[start]) as u32
    }

    /// A notice or contact at a running node, the other mostly a running one too.
    fn of_two(&mut self, kind: u32, words: &[u32]) -> u32 {
        let running = self.random.percent(90);
        kind << 28 | self.any_node(words, running) << 6 | self.node(words, true)
    }

    /// A notice at a running node about one that is off, where there is such a one, or else timer 4.
    fn notice_of_off(&mut self, words: &[u32]) -> u32 {
        let (x, subject) = (self.node(words, true), self.node(words, false));
        let off = (subject as usize) < self.n && !look::is_running(words, subject as usize);
        if off {
            11 << 28 | subject << 6 | x
        } else {
            13 << 28 | 4 << 12 | x
        }
    }

    /// Often the oldest, the newest or any message; sometimes a position that the ring doesn't have.
    fn position(&mut self, words: &[u32]) -> u32 {
        let messages = look::messages(words);
        if let Some(position) = self.to_talker(words) {
            return position as u32;
        }
        let position = match self.random.below(100) {
            _ if messages == 0 => self.random.below(3),
            0..=1 => messages + self.random.below(2),
            2..=49 => 0,
            50..=64 => messages - 1,
            _ => self.random.below(messages),
        };
        position.min(1_023) as u32
    }

    /// A message to the talkative node, sometimes.
    fn to_talker(&mut self, words: &[u32]) -> Option<usize> {
        let messages = look::messages(words);
        let x = self.talker.filter(|_| messages > 0 && self.random.percent(30))? as usize;
        let start = self.random.below(messages);
        (start..messages).chain(0..start).find(|&position| look::receiver(words, position) == x)
    }

    /// Bit 10, so many times of a hundred: of a deliver it makes an echo, of a lose no event.
    fn bit_10(&mut self, percent: usize) -> u32 {
        (self.random.percent(percent) as u32) << 10
    }

    /// A word that is mostly no event: wholly random, an event's kind with random low bits, or an event with one bit wrong.
    fn anything(&mut self) -> u32 {
        let kind = (9 + self.random.below(7) as u32) << 28;
        match self.random.below(3) {
            0 => self.random.word(),
            1 => kind | self.random.word() & (0x0FFF_FFFF >> self.random.below(24)),
            _ => (kind | self.random.below(64) as u32) ^ 1 << self.random.below(32),
        }
    }
}
