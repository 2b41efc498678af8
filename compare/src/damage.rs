//! Damage to a valid ring, in any region of the words: single bits flipped, fields changed, often just in or out of
//! range. Some of it leaves a valid ring that the events alone don't reach.

use crate::case::Step;
use crate::look;
use crate::random::Random;
use crate::senders;

const LIMIT: u32 = 0xFF_FFFF;

/// What is overwritten, and where it matters which event looks at it, that event.
pub struct Damage {
    pub pokes: Vec<Step>,
    pub event: Option<u32>,
}

/// One damage of the ring in the words, so many times in a hundred of its messages, where a sender stands at its bound.
pub fn damage(random: &mut Random, words: &[u32], at_bound: usize) -> Damage {
    if look::nodes(words) > 1 && random.percent(at_bound) {
        return at_the_bound(random, words);
    }
    if random.percent(30) {
        return scene(random, words);
    }
    let changes = if random.percent(75) { 1 } else { 2 + random.below(2) };
    let pokes = (0..changes).map(|_| change(random, words)).collect();
    Damage { pokes, event: None }
}

/// One damage of the ring, done.
pub fn spoil(random: &mut Random, words: &mut [u32], at_bound: usize) {
    for poke in damage(random, words, at_bound).pokes {
        if let Step::Poke(at, value) = poke {
            words[at] = value;
        }
    }
}

fn pair_at(x: usize, z: usize) -> usize {
    129 + 2 * (64 * x + z)
}

fn message_at(position: usize) -> usize {
    8_321 + 5 * position
}

/// The word with `width` bits from `low` on set to the value.
pub fn with(word: u32, low: u32, width: u32, value: u32) -> u32 {
    let field = ((1u64 << width) - 1) as u32;
    word & !(field << low) | (value & field) << low
}

// Single words.

/// A word of a random region, with one bit flipped or a field changed.
fn change(random: &mut Random, words: &[u32]) -> Step {
    let (n, m) = (look::nodes(words), look::messages(words));
    let (x, z) = (random.below(n), random.below(n));
    let message = message_at(random.below(m.max(1)));
    let (at, value) = match random.below(9) {
        0 => (0, header(random, words)),
        1 => (1 + 2 * x, key(random, words, x)),
        2 => (2 + 2 * x, clock(random, words, x, z)),
        3 if x != z => (pair_at(x, z), link(random, words, x, z)),
        4 if x != z => (pair_at(x, z) + 1, spare(random, words, x, z)),
        5 => (pair_at(x, x) + random.below(2), filled(random)),
        6 if m > 0 => (message, head(random, words, message)),
        7 if m > 0 => rest(random, words, message),
        _ => (unused(random, n, m), filled(random)),
    };
    let flip = random.percent(40);
    Step::Poke(at, if flip { words[at] ^ 1 << random.below(32) } else { value })
}

fn header(random: &mut Random, words: &[u32]) -> u32 {
    let (n, m) = (look::nodes(words) as u32, look::messages(words) as u32);
    match random.below(5) {
        0 => with(words[0], 0, 4, random.below(16) as u32),
        1 => with(words[0], 22, 4, random.below(16) as u32),
        2 => with(words[0], 4, 7, random.pick(&[0, n - 1, n + 1, 64, 65, 127])),
        3 => with(words[0], 11, 11, random.pick(&[0, m.wrapping_sub(1), m + 1, 1_024, 1_025, 2_047])),
        _ => with(words[0], 26, 6, random.word()),
    }
}

fn key(random: &mut Random, words: &[u32], x: usize) -> u32 {
    let other = random.below(look::nodes(words));
    match random.below(4) {
        0 => with(words[1 + 2 * x], 0, 24, look::key(words, other)),
        1 => with(words[1 + 2 * x], 0, 24, random.pick(&[0, 1, LIMIT])),
        2 => words[1 + 2 * x] ^ 1 << 24,
        _ => with(words[1 + 2 * x], 24, 8, random.word()),
    }
}

/// The limit, or round the commit stamp of (x, z).
fn clock(random: &mut Random, words: &[u32], x: usize, z: usize) -> u32 {
    let (commit, any) = (words[pair_at(x, z)] & LIMIT, random.word());
    let values = [LIMIT, LIMIT - 1, commit, commit.wrapping_sub(1), 0, any];
    with(words[2 + 2 * x], 0, 24, random.pick(&values))
}

fn link(random: &mut Random, words: &[u32], x: usize, z: usize) -> u32 {
    let (word, clock, any) = (words[pair_at(x, z)], look::clock(words, x), random.word());
    match random.below(5) {
        0 => with(word, 0, 24, random.pick(&[0, 1, clock, clock + 1, any])),
        1 => word ^ 1 << 24,
        2 => word ^ 1 << 25,
        3 => with(word, 0, 25, 1 << 24 | random.pick(&[0, 1, clock, clock + 1])),
        _ => with(word, 26, 6, any),
    }
}

fn spare(random: &mut Random, words: &[u32], x: usize, z: usize) -> u32 {
    let n = look::nodes(words) as u32;
    let any = random.below(128) as u32;
    4 << 28 | random.pick(&[x as u32, z as u32, n - 1, n, 64, 65, 127, any, any % n])
}

/// The first word of a message.
fn head(random: &mut Random, words: &[u32], message: usize) -> u32 {
    let (word, n) = (words[message], look::nodes(words) as u32);
    let (sender, receiver) = (word >> 4 & 63, word >> 10 & 63);
    let node = random.below(n as usize) as u32;
    match random.below(5) {
        0 => with(word, 0, 4, random.below(16) as u32),
        1 => with(word, 4, 6, random.pick(&[receiver, n, node, look::busiest(words).0 as u32])),
        2 => with(word, 10, 6, random.pick(&[sender, n, node])),
        3 => with(word, 16, 7, random.pick(&[sender, receiver, n - 1, n, 64, 65, 127, node])),
        _ => with(word, 23, 9, random.word()),
    }
}

/// The stamp or a view word of a message.
fn rest(random: &mut Random, words: &[u32], message: usize) -> (usize, u32) {
    let n = look::nodes(words);
    let receiver = (words[message] >> 10 & 63) as usize;
    let any = random.below(64);
    let s = random.pick(&[receiver, n - 1, n.min(63), any]);
    match random.below(3) {
        0 => (message + 1, 7 << 28 | random.pick(&[0, 1, LIMIT])),
        1 => (message + 2 + s / 24, words[message + 2 + s / 24] ^ 1 << (s % 24)),
        _ => (message + 4, words[message + 4] ^ 1 << (16 + random.below(8))),
    }
}

/// A word that belongs to no node, pair or message, where there is such a one: any, or at the edge of its region.
fn unused(random: &mut Random, n: usize, m: usize) -> usize {
    if n < 64 && m < 1_024 && random.percent(20) {
        return random.pick(&[1 + 2 * n, 128, pair_at(0, n), pair_at(n, 0), 8_320, message_at(m), 13_440]);
    }
    let node = n + random.below((64 - n).max(1));
    let at = match random.below(4) {
        0 if n < 64 => 1 + 2 * node,
        1 if n < 64 => pair_at(random.below(n), node),
        2 if n < 64 => pair_at(node, random.below(64)),
        _ if m < 1_024 => message_at(m + random.below(1_024 - m)) + random.below(4),
        _ => pair_at(0, 0),
    };
    at + random.below(2)
}

/// What may be wrongly in an unused word: what a used one has, or one bit.
fn filled(random: &mut Random) -> u32 {
    let bit = 1 << random.below(32);
    random.pick(&[2 << 28, 5 << 28, 3 << 28, 4 << 28 | 64, 6 << 28, 8 << 28, 0x3100_0001, bit, bit])
}

// Scenes: several words that belong together, mostly a valid ring, and the event that meets them.

fn scene(random: &mut Random, words: &[u32]) -> Damage {
    let (n, m) = (look::nodes(words), look::messages(words));
    let (x, y, z) = (random.below(n), random.below(n), random.below(n));
    if m == 0 || x == y || random.percent(10) {
        return last_tick(random, words, x);
    }
    let position = if random.percent(80) { 0 } else { random.below(m) };
    let mut pokes = Vec::new();
    let kind = 1 + random.below(13) as u32;
    let awaited = kind == 10 && z != x && z != y;
    let commit = if awaited { held(random, words, &mut pokes, x, z, y) } else { words[pair_at(x, z)] & LIMIT };
    let stamps = [commit, commit, commit.saturating_sub(1), (commit + 1).min(LIMIT), 0, LIMIT];
    let subject = match kind {
        8..=11 => z as u32,
        // Of a type that uses none: it doesn't fit.
        _ if random.percent(5) => y as u32,
        _ => 64,
    };
    let stamp = if kind == 9 || kind == 10 { random.pick(&stamps) } else { 0 };
    let view = if kind == 4 { random.next() & u64::MAX >> (64 - n) & !(1 << x) } else { 0 };
    let at = message_at(position);
    pokes.push(Step::Poke(at, 6 << 28 | subject << 16 | (x as u32) << 10 | (y as u32) << 4 | kind));
    pokes.push(Step::Poke(at + 1, 7 << 28 | stamp));
    for part in 0..3 {
        pokes.push(Step::Poke(at + 2 + part, 8 << 28 | (view >> (24 * part)) as u32 & LIMIT));
    }
    let echo = (random.percent(20) as u32) << 10;
    Damage { pokes, event: Some(14 << 28 | echo | position as u32) }
}

/// Messages of which one node has about as many as it may; in a third of the times one of another's becomes its own.
fn at_the_bound(random: &mut Random, words: &[u32]) -> Damage {
    let (mut other, x) = senders::at_the_bound(random, words);
    let m = look::messages(&other);
    let first = random.below(m);
    let fits = |position: &usize| look::sender(&other, *position) != x && look::receiver(&other, *position) != x;
    let changed = (first..m).chain(0..first).find(fits).filter(|_| random.percent(33));
    if let Some(position) = changed {
        other[message_at(position)] = with(other[message_at(position)], 4, 6, x as u32);
    }
    let event = senders::event(random, &other, x);
    let pokes = other.iter().zip(words).enumerate().filter(|(_, (new, old))| new != old);
    Damage { pokes: pokes.map(|(at, (&word, _))| Step::Poke(at, word)).collect(), event: Some(event) }
}

/// x holds z, with a commit stamp that is the result, and y as spare.
fn held(random: &mut Random, words: &[u32], pokes: &mut Vec<Step>, x: usize, z: usize, y: usize) -> u32 {
    let at = pair_at(x, z);
    let commit = 1 + random.below(look::clock(words, x).max(1) as usize) as u32;
    pokes.push(Step::Poke(at, with(words[at], 0, 25, 1 << 24 | commit)));
    pokes.push(Step::Poke(at + 1, 4 << 28 | y as u32));
    commit
}

/// The clock of x at its limit or one below, and an event there.
fn last_tick(random: &mut Random, words: &[u32], x: usize) -> Damage {
    let clock = LIMIT - random.below(2) as u32;
    let timer = 13 << 28 | random.pick(&[0, 0, 1, 3]) << 12;
    let x_and_kind = random.pick(&[9 << 28, 10 << 28, 10 << 28 | 1 << 12, timer, timer]) | x as u32;
    let event = if look::is_running(words, x) { x_and_kind } else { 9 << 28 | x as u32 };
    Damage { pokes: vec![Step::Poke(2 + 2 * x, 5 << 28 | clock)], event: Some(event) }
}
