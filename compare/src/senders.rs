//! Rings written as words in which senders stand at their bound: "No sender may have more than 256 messages
//! travelling."

use crate::alike;
use crate::events::{contact, deliver, echo, leave, lose, timer, TIMERS};
use crate::look;
use crate::random::Random;
use std::fmt;

/// Of one sender at most.
pub const MOST: usize = 256;

/// In all at most.
const POOL: usize = 1_024;

/// Writes a message of each of these senders, in their order, over those that are there.
pub fn write(random: &mut Random, words: &mut [u32], senders: &[usize]) {
    let n = look::nodes(words);
    words[0] = words[0] & !(2_047 << 11) | (senders.len() as u32) << 11;
    words[8_321..].fill(0);
    for (message, &sender) in words[8_321..].chunks_exact_mut(5).zip(senders) {
        alike::draw_message(random, message, n, sender);
    }
}

/// How many messages some nodes of n, which are two at least, have, one of them round the bound: alone, beside another
/// there, beside a few messages of others, or with the pool full.
fn counts(random: &mut Random, n: usize, x: usize) -> [usize; 64] {
    let mut counts = [0; 64];
    let around = [MOST - 1, MOST, MOST, MOST, MOST + 1, MOST + 1, MOST + 2];
    counts[x] = random.pick(&around);
    match random.below(4) {
        0 => {}
        1 => counts[(x + 1 + random.below(n - 1)) % n] = random.pick(&around),
        2 => (0..random.below(80)).for_each(|_| counts[(x + 1 + random.below(n - 1)) % n] += 1),
        _ => fill(random, n, x, &mut counts),
    }
    counts
}

/// The pool full, or one or two places left, where the nodes are enough.
fn fill(random: &mut Random, n: usize, x: usize, counts: &mut [usize; 64]) {
    let room = POOL - counts[x] - random.pick(&[0, 0, 0, 1, 2]);
    let room = room.min((n - 1) * MOST);
    for _ in 0..room {
        let first = random.below(n);
        let with_room = |s: &usize| *s != x && counts[*s] < MOST;
        let sender = (first..n).chain(0..first).find(with_room).unwrap();
        counts[sender] += 1;
    }
}

/// The words with other messages, of which one node has about as many as it may; and that node.
pub fn at_the_bound(random: &mut Random, words: &[u32]) -> (Vec<u32>, usize) {
    let (n, mut at_bound) = (look::nodes(words), words.to_vec());
    let first = random.below(n);
    // Where there is one, a node that runs.
    let x = (first..n).chain(0..first).find(|&s| look::is_running(words, s)).unwrap_or(first);
    let counts = counts(random, n, x);
    let mut senders: Vec<usize> = (0..n).flat_map(|s| std::iter::repeat_n(s, counts[s])).collect();
    for place in (1..senders.len()).rev() {
        senders.swap(place, random.below(place + 1));
    }
    write(random, &mut at_bound, &senders);
    (at_bound, x)
}

/// An event at the node, or one that takes out a message.
pub fn event(random: &mut Random, words: &[u32], x: usize) -> u32 {
    let (n, m) = (look::nodes(words), look::messages(words));
    let first = random.below(m);
    let to_x = (first..m).chain(0..first).find(|&position| look::receiver(words, position) == x);
    let position = to_x.unwrap_or(first).min(1_023) as u32;
    let y = ((x + 1 + random.below(n - 1)) % n) as u32;
    let timer = timer(x as u32, random.pick(&TIMERS));
    let x = x as u32;
    random.pick(&[contact(x, y), contact(y, x), timer, leave(x), deliver(position), echo(position), lose(position)])
}

/// What was seen of the bound.
#[derive(Clone, Copy, Default)]
pub struct Tally {
    /// Events refused with 17, by kind.
    refused: [u64; 5],
    /// Accepted events after which a node has just as many as it may, and two or more nodes have.
    at_bound: u64,
    two_at_bound: u64,
}

/// Those that can be refused with 17.
const KINDS: [&str; 5] = ["polite offs", "contacts", "timers", "deliveries", "echoes"];

impl Tally {
    pub fn add(&mut self, other: &Tally) {
        self.refused.iter_mut().zip(other.refused).for_each(|(sum, count)| *sum += count);
        self.at_bound += other.at_bound;
        self.two_at_bound += other.two_at_bound;
    }

    /// An event that was answered so, and left these words.
    pub fn note(&mut self, word: u32, answer: u32, words: &[u32]) {
        if answer == 17 {
            let echo = word >> 28 == 14 && word >> 10 & 1 == 1;
            let kind = [10, 12, 13, 14].iter().position(|&kind| kind == word >> 28).unwrap_or(0);
            self.refused[kind + echo as usize] += 1;
        }
        if answer == 0 && look::messages(words) >= MOST {
            let full = look::of_senders(words).iter().filter(|&&count| count == MOST).count();
            self.at_bound += (full > 0) as u64;
            self.two_at_bound += (full > 1) as u64;
        }
    }
}

impl fmt::Display for Tally {
    fn fmt(&self, f: &mut fmt::Formatter) -> fmt::Result {
        write!(f, "refused with 17:")?;
        KINDS.iter().zip(self.refused).try_for_each(|(kind, count)| write!(f, " {kind} {count},"))?;
        write!(f, " in all {};", self.refused.iter().sum::<u64>())?;
        write!(f, " accepted and a sender at {MOST}: {}, two or more: {}", self.at_bound, self.two_at_bound)
    }
}
