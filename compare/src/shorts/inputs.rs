//! What is converted: rings, damaged buffers, and short inputs, whole and damaged.

use super::{Conversion, Way};
use crate::damage::{spoil, with};
use crate::random::Random;
use crate::ring::{Ring, Sides};
use crate::{alike, joins, look, senders, LENGTH};

/// A ring as joins have them; in half of them other messages. The first implementation plays what leads there.
pub fn ring(random: &mut Random, ring: &dyn Ring) -> Vec<u32> {
    let any = 1 + random.below(64);
    let n = random.pick(&[1, 2, 2, 3, 63, 64, 64, 1 + any % 8, any, any]);
    let keys = random.keys(n, |random| random.word());
    let mut side = || 1 + random.below(8) as u32;
    let sides = Sides { clockwise: side(), counter_clockwise: side() };
    let mut words = joins::any_ring(random, ring, sides, &keys);
    if random.percent(50) {
        let any = random.below(1_025);
        let count = random.pick(&[0, 1, 1, 2, any % 40, any, 1_024, 1_024]);
        alike::draw_messages(random, &mut words, count);
    }
    words
}

/// A quarter of the buffers is damaged, some so that they still read as a ring; one in twelve has a wrong length.
pub fn to_short(random: &mut Random, ring: &[u32], other: &[u32]) -> Conversion {
    let mut source = ring.to_vec();
    if random.percent(25) {
        spoil(random, &mut source, 2);
    }
    if random.percent(8) {
        source.resize(random.pick(&[0, 1, 8_321, LENGTH - 1, LENGTH + 1]), 0);
    }
    let (length, any) = (look::short_length(ring[0]), random.below(LENGTH + 2));
    let lent = random.pick(&[0, length - 1, length, length, length + 1, LENGTH, LENGTH + 1, any]);
    Conversion { way: Way::ToShort, source, old: joins::old_words(random, other), lent }
}

/// One long buffer in twelve has a wrong length.
pub fn to_long(random: &mut Random, ring: &[u32], other: &[u32]) -> Conversion {
    let source = short_input(random, ring);
    let lent = if random.percent(8) { random.pick(&[0, 1, 8_321, LENGTH - 1, LENGTH + 1]) } else { LENGTH };
    Conversion { way: Way::ToLong, source, old: joins::old_words(random, other), lent }
}

/// Of the ring, of one that was damaged, or of one with senders round their bound; in most something is changed.
fn short_input(random: &mut Random, ring: &[u32]) -> Vec<u32> {
    let mut words = ring.to_vec();
    match random.below(20) {
        0..=3 => spoil(random, &mut words, 2),
        4 if look::nodes(ring) > 1 => words = senders::at_the_bound(random, ring).0,
        _ => {}
    }
    let mut short = look::short(&words);
    if random.percent(60) {
        change(random, &mut short);
    }
    short
}

/// A word changed, missing, too many, or at another place; another word 0, with the length that it says or without; or
/// up to 20 words.
fn change(random: &mut Random, short: &mut Vec<u32>) {
    let (at, to, word) = (random.below(short.len()), random.below(short.len()), random.word());
    let word = random.pick(&[0, word, short[at], 3 << 28, 4 << 28 | 64]);
    match random.below(11) {
        0 => short[at] = word,
        1 => short[at] ^= 1 << random.below(32),
        2 => short[0] = head(random, short[0]),
        3 => {
            short[0] = head(random, short[0]);
            fit(short);
        }
        4 => short.truncate(short.len() - 1),
        5 => short.push(word),
        6 => _ = short.remove(at),
        7 => short.insert(at, word),
        8 => short.swap(at, to),
        9 => {
            let moved = short.remove(at);
            short.insert(to, moved);
        }
        _ => short.resize(random.below(21), word),
    }
}

/// Another word 0: n, m, A, B, the kind or an unnamed bit.
fn head(random: &mut Random, word: u32) -> u32 {
    let (n, m) = (word >> 4 & 127, word >> 11 & 2_047);
    let side = random.pick(&[0, 1, 8, 9, 15]);
    match random.below(8) {
        0 => with(word, 4, 7, random.pick(&[0, n.wrapping_sub(1), n + 1, 64, 65, 127])),
        1 => with(word, 11, 11, random.pick(&[0, m.wrapping_sub(1), m + 1, m + 1, 1_024, 1_025, 2_047])),
        2 => with(word, 0, 4, side),
        3 => with(word, 22, 4, side),
        4 => with(word, 28, 4, random.pick(&[0, 2, 3, 9])),
        5 => with(word, 26, 2, random.pick(&[1, 2, 3])),
        6 => with(with(word, 4, 7, 0), 11, 11, random.pick(&[0, 0, 1])),
        _ => word ^ 1 << random.below(32),
    }
}

/// As many words as word 0 says: fewer, or the last five once more.
fn fit(short: &mut Vec<u32>) {
    let length = look::short_length(short[0]);
    while short.len() < length {
        short.push(short[short.len().saturating_sub(5)]);
    }
    short.truncate(length);
}
