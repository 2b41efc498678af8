//! Reaches of document 02's note 11: random ones, what came of them, and rings made for them.

use crate::look;
use crate::random::Random;
use crate::ring::{Ring, Routed, Sides};
use crate::routes::{self, clockwise};
use crate::LENGTH;
use std::{fmt, thread};

const LIMIT: u32 = 0xFF_FFFF;

/// The most hops that occur.
const MOST: usize = 24;

/// A reach to ask for, and how many words are lent to it.
#[derive(Clone, Copy)]
pub struct Reach {
    pub start: u32,
    pub key: u32,
    pub lent: usize,
}

impl Reach {
    /// A reach among n nodes. The words may be damaged.
    pub fn any(random: &mut Random, words: &[u32], n: usize) -> Reach {
        let wrong = random.pick(&[0, 1, 129, LENGTH - 1, LENGTH - 1, LENGTH + 1, LENGTH + 1]);
        let lent = if random.percent(97) { LENGTH } else { wrong };
        let near = look::key(words, random.below(n));
        Reach { start: routes::start(random, words, n), key: key(random, near), lent }
    }

    /// On the words, or on fewer, or on one more.
    pub fn ask(&self, ring: &dyn Ring, words: &[u32]) -> Routed {
        match words.get(..self.lent) {
            Some(words) => ring.reach(words, self.start, self.key),
            None => ring.reach(&[words, &[0]].concat(), self.start, self.key),
        }
    }

    /// What is wrong with it by itself: another end than the owner, too many hops, or a refusal with an end.
    pub fn fault(&self, words: &[u32], reached: Routed) -> Option<String> {
        let Routed { answer, end, hops } = reached;
        if answer != 0 {
            return (reached != Routed::refused(answer)).then(|| format!("{self}: {reached:?}"));
        }
        let owner = owner(words, self.key);
        let stays = owner == Some(self.start as usize);
        let right = owner == Some(end as usize) && hops as usize <= MOST && (hops == 0) == stays;
        (!right).then(|| format!("{self}: {reached:?}, the owner is {owner:?}"))
    }
}

impl fmt::Display for Reach {
    fn fmt(&self, f: &mut fmt::Formatter) -> fmt::Result {
        write!(f, "reach({} to {:06X} in {} words)", self.start, self.key, self.lent)
    }
}

/// "The owner of a key is the running stand first met clockwise from it, one at the key included."
fn owner(words: &[u32], key: u32) -> Option<usize> {
    let running = (0..look::nodes(words)).filter(|&s| look::is_running(words, s));
    running.min_by_key(|&s| clockwise(key, look::key(words, s)))
}

/// Any key, one a span from a node's or just beside that, a node's, one beside it; the edges.
fn key(random: &mut Random, near: u32) -> u32 {
    match random.below(100) {
        0..=24 => random.word() & LIMIT,
        25..=44 => spanned(random, near),
        45..=64 => near,
        65..=84 => near.wrapping_add(random.pick(&[1, LIMIT])) & LIMIT,
        85..=89 => 0,
        90..=94 => LIMIT,
        95..=97 => LIMIT + 1,
        _ => random.pick(&[u32::MAX, 1 << 31, LIMIT + 2 + near]),
    }
}

/// A span from a key, either way round, or one place beside that.
fn spanned(random: &mut Random, key: u32) -> u32 {
    let far = (1u32 << random.below(24)).wrapping_add(random.pick(&[0, 0, 1, u32::MAX]));
    random.pick(&[key.wrapping_add(far), key.wrapping_sub(far)]) & LIMIT
}

// What came of them.

#[derive(Clone, Copy, Default)]
pub struct Tally {
    /// By answer.
    answers: [u64; 13],
    /// Accepted ones, by hops.
    hops: [u64; MOST + 1],
}

impl Tally {
    pub fn count(&self) -> u64 {
        self.answers.iter().sum()
    }

    pub fn add(&mut self, other: &Tally) {
        self.answers.iter_mut().zip(other.answers).for_each(|(sum, count)| *sum += count);
        self.hops.iter_mut().zip(other.hops).for_each(|(sum, count)| *sum += count);
    }

    /// Counts a reach without a fault.
    pub fn note(&mut self, reached: Routed) {
        self.answers[reached.answer as usize] += 1;
        self.hops[reached.hops as usize] += (reached.answer == 0) as u64;
    }
}

impl fmt::Display for Tally {
    fn fmt(&self, f: &mut fmt::Formatter) -> fmt::Result {
        let Tally { answers, hops } = self;
        let most = hops.iter().rposition(|&count| count > 0).unwrap_or(0);
        writeln!(f, "{} reaches of at most {most} hops; answers 0 to 12: {answers:?}", self.count())?;
        write!(f, "  accepted, with 0 to {MOST} hops: {hops:?}")
    }
}

// Rings made for them.

/// Keys with who runs, and a reach between them that is asked for first, by start and key.
struct Table {
    keys: Vec<u32>,
    running: Vec<bool>,
    first: Option<(u32, u32)>,
}

fn table(random: &mut Random) -> Table {
    match random.below(10) {
        0..=2 => steep_table(random),
        3..=5 => spanned_table(random),
        6 => edge_table(random),
        _ => {
            let (_, keys, running) = routes::table(random);
            Table { keys, running, first: None }
        }
    }
}

/// Up to n different keys more, mostly a span from one that is there or just beside that.
fn grow(random: &mut Random, keys: &mut Vec<u32>, n: usize, share: usize) {
    while keys.len() < n {
        let near = random.pick(keys);
        let key = if random.percent(share) { spanned(random, near) } else { random.word() & LIMIT };
        if !keys.contains(&key) {
            keys.push(key);
        }
    }
}

fn any_running(random: &mut Random, n: usize) -> Vec<bool> {
    let share = random.pick(&[20, 60, 90, 100]);
    (0..n).map(|_| random.percent(share)).collect()
}

fn spanned_table(random: &mut Random) -> Table {
    let any = random.word() & LIMIT;
    let mut keys = vec![random.pick(&[0, LIMIT, any])];
    let n = 1 + random.below(64);
    grow(random, &mut keys, n, 95);
    Table { running: any_running(random, n), keys, first: None }
}

/// One, two or 64 nodes; 0 and 16,777,215 are often among the keys, others just beside them.
fn edge_table(random: &mut Random) -> Table {
    let n = random.pick(&[1, 2, 64]);
    let keys = random.keys(n, |random| match random.below(4) {
        0 => 0,
        1 => LIMIT,
        2 => (random.below(40) as u32).wrapping_sub(20),
        _ => random.word(),
    });
    Table { running: any_running(random, n), keys, first: None }
}

/// The keys of a reach of 24 hops to a key, from the first of them. 23 hops go by a span each, from the longest to the
/// shortest, with one left out, to the last node before the key. `before` places are free between that node and the key,
/// `behind` from the key on up to the owner: together fewer than the span left out.
pub fn steep(key: u32, left_out: u32, before: u32, behind: u32) -> Vec<u32> {
    let last = key.wrapping_sub(1 + before);
    let mut far = LIMIT - (1 << left_out);
    let mut keys = vec![last.wrapping_sub(far)];
    for bit in (0..24).rev().filter(|&bit| bit != left_out) {
        far -= 1 << bit;
        keys.push(last.wrapping_sub(far));
    }
    keys.push(key.wrapping_add(behind));
    keys.iter().map(|key| key & LIMIT).collect()
}

/// Mostly with more nodes among those of a reach of 24 hops, sometimes with one of these off.
fn steep_table(random: &mut Random) -> Table {
    let any = random.word() & LIMIT;
    let (key, left_out) = (random.pick(&[any, any, any, 0, 1, LIMIT - 1, LIMIT]), random.below(24) as u32);
    let before = random.below(1 << left_out) as u32;
    let behind = random.below((1 << left_out) - before as usize) as u32;
    let mut keys = steep(key, left_out, before, behind);
    let start = keys[0];
    let n = random.pick(&[25, 26, 40, 64]);
    grow(random, &mut keys, n, 50);
    let mut running = any_running(random, n);
    running[..25].fill(true);
    running[1 + random.below(24)] = random.percent(80);
    for place in (1..n).rev() {
        let other = random.below(place + 1);
        keys.swap(place, other);
        running.swap(place, other);
    }
    let start = keys.iter().position(|&key| key == start).unwrap();
    Table { keys, running, first: Some((start as u32, key)) }
}

/// What came of the reaches on made rings, and lines for those that differ or have a fault by themselves.
#[derive(Default)]
pub struct Made {
    pub tally: Tally,
    pub found: Vec<String>,
}

impl Made {
    const EACH: u64 = 10;

    pub fn run(seed: u64, count: u64, threads: u64, rings: &[&dyn Ring]) -> Made {
        let share = count.div_ceil(threads * Made::EACH);
        let parts: Vec<Made> = thread::scope(|scope| {
            let start = |number| {
                let random = Random::new(seed, u64::MAX / 8 - number);
                scope.spawn(move || Made::run_thread(random, share, rings))
            };
            let threads: Vec<_> = (0..threads).map(start).collect();
            threads.into_iter().map(|thread| thread.join().unwrap()).collect()
        });
        let mut made = Made::default();
        for part in parts {
            made.tally.add(&part.tally);
            made.found.extend(part.found);
        }
        made
    }

    fn run_thread(mut random: Random, count: u64, rings: &[&dyn Ring]) -> Made {
        let mut made = Made::default();
        for _ in 0..count {
            let Table { keys, running, first } = table(&mut random);
            let mut side = || 1 + random.below(8) as u32;
            let sides = Sides { clockwise: side(), counter_clockwise: side() };
            let words = routes::scattered(&mut random, sides, &keys, &running);
            let mut first = first.map(|(start, key)| Reach { start, key, lent: LENGTH });
            for _ in 0..Made::EACH {
                let reach = first.take().unwrap_or_else(|| Reach::any(&mut random, &words, keys.len()));
                made.ask(reach, &words, rings);
            }
        }
        made
    }

    fn ask(&mut self, reach: Reach, words: &[u32], rings: &[&dyn Ring]) {
        let reached: Vec<Routed> = rings.iter().map(|ring| reach.ask(*ring, words)).collect();
        let fault = reach.fault(words, reached[0]);
        if fault.is_some() || reached.iter().any(|other| *other != reached[0]) {
            let fault = fault.unwrap_or_else(|| format!("{reach}: {reached:?}"));
            self.found.push(format!("{fault}\n{}", routes::marked(words)));
            return;
        }
        self.tally.note(reached[0]);
    }
}
