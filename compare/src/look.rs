//! What the harness itself reads from words that read as a ring: enough to choose events and to judge connection.

use crate::ring::Sides;

pub fn sides(words: &[u32]) -> Sides {
    Sides::of_word(words[0])
}

pub fn nodes(words: &[u32]) -> usize {
    (words[0] >> 4 & 127) as usize
}

pub fn messages(words: &[u32]) -> usize {
    (words[0] >> 11 & 2047) as usize
}

pub fn key(words: &[u32], s: usize) -> u32 {
    words[1 + 2 * s] & 0xFF_FFFF
}

pub fn is_running(words: &[u32], s: usize) -> bool {
    words[1 + 2 * s] >> 24 & 1 == 1
}

pub fn clock(words: &[u32], s: usize) -> u32 {
    words[2 + 2 * s] & 0xFF_FFFF
}

pub fn holds(words: &[u32], x: usize, z: usize) -> bool {
    words[129 + 2 * (64 * x + z)] >> 24 & 1 == 1
}

/// The nodes that x holds, bit s for node s.
pub fn held(words: &[u32], x: usize) -> u64 {
    (0..nodes(words)).fold(0, |set, z| set | (holds(words, x, z) as u64) << z)
}

/// The type of the message at a position.
pub fn message_type(words: &[u32], position: usize) -> u32 {
    words[8_321 + 5 * position] & 15
}

/// The sender of the message at a position.
pub fn sender(words: &[u32], position: usize) -> usize {
    (words[8_321 + 5 * position] >> 4 & 63) as usize
}

/// How many messages each node has in flight.
pub fn of_senders(words: &[u32]) -> [usize; 64] {
    let mut counts = [0; 64];
    (0..messages(words)).for_each(|position| counts[sender(words, position)] += 1);
    counts
}

/// A node of which the most messages are in flight, the lowest of such, and how many they are.
pub fn busiest(words: &[u32]) -> (usize, usize) {
    let counts = of_senders(words);
    let most = counts.into_iter().max().unwrap_or(0);
    (counts.iter().position(|&count| count == most).unwrap_or(0), most)
}

/// The receiver of the message at a position.
pub fn receiver(words: &[u32], position: usize) -> usize {
    (words[8_321 + 5 * position] >> 10 & 63) as usize
}

/// The short edition by word 0, of any words.
pub fn short(words: &[u32]) -> Vec<u32> {
    let (n, m) = (nodes(words).min(64), messages(words).min(1_024));
    let others = |x: usize| (0..n).filter(move |&z| z != x);
    let pairs = (0..n).flat_map(|x| others(x).map(move |z| 129 + 2 * (64 * x + z)));
    let pairs = pairs.flat_map(|at| [words[at], words[at + 1]]);
    let messages = &words[8_321..8_321 + 5 * m];
    words[..1 + 2 * n].iter().copied().chain(pairs).chain(messages.iter().copied()).collect()
}

/// How many words the short edition has, by word 0.
pub fn short_length(word: u32) -> usize {
    let (n, m) = ((word >> 4 & 127) as usize, (word >> 11 & 2_047) as usize);
    1 + 2 * n * n + 5 * m
}
