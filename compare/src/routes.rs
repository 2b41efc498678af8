//! Routes of document 02's note 5: random ones, what came of them, and rings made for them.

use crate::look;
use crate::random::Random;
use crate::ring::{Ring, Routed, Sides};
use crate::LENGTH;
use std::{fmt, thread};

const LIMIT: u32 = 0xFF_FFFF;

/// A route to ask for: start, key, and a list of so many places, with old bytes that a seed determines.
#[derive(Clone, Copy)]
pub struct Route {
    pub start: u32,
    pub key: u32,
    pub places: usize,
    pub old: u32,
}

impl Route {
    /// A route among n nodes. The words may be damaged.
    pub fn any(random: &mut Random, words: &[u32], n: usize) -> Route {
        let start = start(random, words, n);
        Route { start, key: key(random, words, n, start), places: places(random, n), old: random.word() }
    }

    /// What an implementation gives, and the list after it.
    pub fn ask(&self, ring: &dyn Ring, words: &[u32]) -> (Routed, Vec<u8>) {
        let mut old = Random::new(self.old as u64, 0);
        let mut list: Vec<u8> = (0..self.places).map(|_| old.word() as u8).collect();
        let routed = ring.route(words, self.start, self.key, &mut list);
        (routed, list)
    }
}

impl fmt::Display for Route {
    fn fmt(&self, f: &mut fmt::Formatter) -> fmt::Result {
        let Route { start, key, places, old } = self;
        write!(f, "route({start} to {key:06X} in {places} places, old {old:X})")
    }
}

/// Mostly a node that runs; sometimes any, also one that the ring doesn't have.
pub fn start(random: &mut Random, words: &[u32], n: usize) -> u32 {
    let any = random.below(n + 1);
    match random.below(100) {
        0..=2 => random.pick(&[n as u32, 64, 255, 256 + any as u32, u32::MAX]),
        3..=9 => any as u32,
        _ => (any..n).chain(0..any).find(|&s| look::is_running(words, s)).unwrap_or(any) as u32,
    }
}

/// Any key, a node's, one halfway between two nodes' on either side; the edges.
fn key(random: &mut Random, words: &[u32], n: usize, start: u32) -> u32 {
    let (x, y) = two(random, words, n, start as usize);
    let (a, b) = (look::key(words, x), look::key(words, y));
    match random.below(100) {
        0..=29 => random.word() & LIMIT,
        30..=44 => b,
        45..=84 => a.wrapping_add((b.wrapping_sub(a) & LIMIT) / 2) & LIMIT,
        85..=88 => b.wrapping_add(random.pick(&[1, LIMIT])) & LIMIT,
        89..=92 => 0,
        93..=96 => LIMIT,
        97..=98 => LIMIT + 1,
        _ => random.pick(&[u32::MAX, 1 << 31, LIMIT + 2 + b]),
    }
}

/// Any two nodes, or often the start and a held one, or two held ones, where there are such.
fn two(random: &mut Random, words: &[u32], n: usize, start: usize) -> (usize, usize) {
    let any = (random.below(n), random.below(n));
    let held: Vec<usize> = (0..n).filter(|&z| start < n && look::holds(words, start, z)).collect();
    if held.is_empty() || random.percent(30) {
        return any;
    }
    let (one, other) = (random.pick(&held), random.pick(&held));
    random.pick(&[(start, one), (start, one), (one, start), (one, other)])
}

fn places(random: &mut Random, n: usize) -> usize {
    if random.percent(80) {
        64
    } else {
        random.pick(&[0, 1, n, 63, 65, 65, 65, 200, 200, 200])
    }
}

/// "Clockwise distance from a to b is (b − a) modulo 16,777,216."
pub fn clockwise(a: u32, b: u32) -> u32 {
    (LIMIT + 1 + b - a) % (LIMIT + 1)
}

/// "Distance is the smaller of the two."
fn distance(a: u32, b: u32) -> u32 {
    clockwise(a, b).min(clockwise(b, a))
}

// What came of them.

#[derive(Clone, Copy, Default)]
pub struct Tally {
    /// By answer.
    answers: [u64; 14],
    /// Accepted ones with 0, 1 and 2 hops, and with 3 or more.
    by_hops: [u64; 4],
    hops: u64,
    /// The most hops of one route.
    most: u32,
    /// Accepted ones whose last hop goes to a node that is equally near, and those that end beside a held one that is.
    tied_hops: u64,
    tied_ends: u64,
}

impl Tally {
    pub fn count(&self) -> u64 {
        self.answers.iter().sum()
    }

    pub fn add(&mut self, other: &Tally) {
        self.answers.iter_mut().zip(other.answers).for_each(|(sum, count)| *sum += count);
        self.by_hops.iter_mut().zip(other.by_hops).for_each(|(sum, count)| *sum += count);
        self.hops += other.hops;
        self.most = self.most.max(other.most);
        self.tied_hops += other.tied_hops;
        self.tied_ends += other.tied_ends;
    }

    /// Counts a route on the words.
    pub fn note(&mut self, words: &[u32], key: u32, routed: Routed, list: &[u8]) {
        self.answers[routed.answer as usize] += 1;
        if routed.answer != 0 {
            return;
        }
        let (end, hops) = (routed.end as usize, routed.hops as usize);
        let far = |s: usize| distance(key, look::key(words, s));
        self.by_hops[hops.min(3)] += 1;
        self.hops += hops as u64;
        self.most = self.most.max(routed.hops);
        self.tied_hops += (hops > 0 && far(list[hops - 1] as usize) == far(end)) as u64;
        let beside = |z: usize| look::holds(words, end, z) && look::is_running(words, z) && far(z) == far(end);
        self.tied_ends += (0..look::nodes(words)).any(beside) as u64;
    }
}

impl fmt::Display for Tally {
    fn fmt(&self, f: &mut fmt::Formatter) -> fmt::Result {
        let Tally { answers, by_hops, hops, most, tied_hops, tied_ends } = self;
        writeln!(f, "{} routes with {hops} hops, at most {most}; answers 0 to 13: {answers:?}", self.count())?;
        writeln!(f, "  with 0, 1, 2, and 3 or more hops: {by_hops:?}")?;
        write!(f, "  {tied_hops} end by a hop to a node equally near, {tied_ends} beside a held node equally near")
    }
}

// Rings made for them.

/// A ring with these nodes running, each of which holds what `held` says.
pub fn ring(sides: Sides, keys: &[u32], running: &[bool], held: impl Fn(usize) -> Vec<usize>) -> Vec<u32> {
    let mut words = vec![0; LENGTH];
    let n = keys.len();
    words[0] = 1 << 28 | (n as u32) << 4 | sides.bits();
    for x in 0..n {
        words[1 + 2 * x] = 2 << 28 | (running[x] as u32) << 24 | keys[x];
        words[2 + 2 * x] = 5 << 28 | 1;
        for z in (0..n).filter(|&z| z != x) {
            words[pair_at(x, z)..][..2].copy_from_slice(&[3 << 28, 4 << 28 | 64]);
        }
    }
    for x in (0..n).filter(|&x| running[x]) {
        held(x).into_iter().for_each(|z| words[pair_at(x, z)] |= 1 << 24 | 1);
    }
    words
}

fn pair_at(x: usize, z: usize) -> usize {
    129 + 2 * (64 * x + z)
}

/// Every running node holds exactly its leafset of all running nodes.
pub fn converged(sides: Sides, keys: &[u32], running: &[bool]) -> Vec<u32> {
    ring(sides, keys, running, |x| {
        let mut others: Vec<usize> = (0..keys.len()).filter(|&z| z != x && running[z]).collect();
        others.sort_by_key(|&z| clockwise(keys[x], keys[z]));
        if others.len() >= sides.both() {
            others.drain(sides.clockwise as usize..others.len() - sides.counter_clockwise as usize);
        }
        others
    })
}

/// Every running node holds a few others and has a few candidates, mostly near ones, also such as are off.
pub fn scattered(random: &mut Random, sides: Sides, keys: &[u32], running: &[bool]) -> Vec<u32> {
    let mut words = ring(sides, keys, running, |_| Vec::new());
    let n = keys.len();
    let mut round: Vec<usize> = (0..n).collect();
    round.sort_by_key(|&s| keys[s]);
    let (most, reach) = (1 + random.below(6), random.pick(&[1, 2, 4, n]));
    for place in (0..n).filter(|&place| running[round[place]]) {
        for mark in [1 << 24 | 1, 1 << 24 | 1, 1 << 25] {
            for _ in 0..random.below(most) {
                let ahead = 1 + random.below(reach);
                let (x, z) = (round[place], round[(place + random.pick(&[ahead, n * ahead - ahead])) % n]);
                words[pair_at(x, z)] |= if z == x { 0 } else { mark };
            }
        }
    }
    words
}

/// Any n, A and B; keys anywhere, close together round zero, or on a grid with many equal distances; any of them run.
pub fn table(random: &mut Random) -> (Sides, Vec<u32>, Vec<bool>) {
    let n = 1 + random.below(64);
    let mut side = || 1 + random.below(8) as u32;
    let sides = Sides { clockwise: side(), counter_clockwise: side() };
    let style = random.below(3);
    let keys = random.keys(n, |random| match style {
        0 => random.word(),
        1 => (random.below(200) as u32).wrapping_sub(100),
        _ => (random.below(128) as u32) << 17,
    });
    let share = random.pick(&[20, 60, 90, 100]);
    let running = (0..n).map(|_| random.percent(share)).collect();
    (sides, keys, running)
}

/// The running node nearest to a key: "smallest distance, the clockwise one from the key on a tie".
fn nearest(words: &[u32], key: u32) -> Option<usize> {
    let near = |&s: &usize| (distance(key, look::key(words, s)), clockwise(key, look::key(words, s)));
    (0..look::nodes(words)).filter(|&s| look::is_running(words, s)).min_by_key(near)
}

/// What came of the routes on made rings, and lines for those that differ or end at another node than the nearest.
#[derive(Default)]
pub struct Made {
    pub converged: Tally,
    pub scattered: Tally,
    pub found: Vec<String>,
}

impl Made {
    const EACH: u64 = 10;

    /// So many routes on rings of either sort.
    pub fn run(seed: u64, count: u64, threads: u64, rings: &[&dyn Ring]) -> Made {
        let share = count.div_ceil(threads * Made::EACH);
        let parts: Vec<Made> = thread::scope(|scope| {
            let start = |number| {
                let random = Random::new(seed, u64::MAX - 1 - number);
                scope.spawn(move || Made::run_thread(random, share, rings))
            };
            let threads: Vec<_> = (0..threads).map(start).collect();
            threads.into_iter().map(|thread| thread.join().unwrap()).collect()
        });
        let mut made = Made::default();
        for part in parts {
            made.converged.add(&part.converged);
            made.scattered.add(&part.scattered);
            made.found.extend(part.found);
        }
        made
    }

    fn run_thread(mut random: Random, count: u64, rings: &[&dyn Ring]) -> Made {
        let mut made = Made::default();
        for _ in 0..count {
            let (sides, keys, running) = table(&mut random);
            let words = converged(sides, &keys, &running);
            (0..Made::EACH).for_each(|_| made.ask(&mut random, &words, true, rings));
            let words = scattered(&mut random, sides, &keys, &running);
            (0..Made::EACH).for_each(|_| made.ask(&mut random, &words, false, rings));
        }
        made
    }

    fn ask(&mut self, random: &mut Random, words: &[u32], converged: bool, rings: &[&dyn Ring]) {
        let route = Route::any(random, words, look::nodes(words));
        let outcomes: Vec<(Routed, Vec<u8>)> = rings.iter().map(|ring| route.ask(*ring, words)).collect();
        let (first, list) = &outcomes[0];
        let astray = converged && first.answer == 0 && nearest(words, route.key) != Some(first.end as usize);
        if astray || outcomes.iter().any(|outcome| *outcome != outcomes[0]) {
            self.found.push(format!("{route}: {outcomes:?}\n{}", marked(words)));
            return;
        }
        let tally = if converged { &mut self.converged } else { &mut self.scattered };
        tally.note(words, route.key, *first, list);
    }
}

/// The words of a made ring that say something, with their places.
pub fn marked(words: &[u32]) -> String {
    let says = |word: u32| word != 0 && word != 3 << 28 && word >> 28 != 4;
    let words = words.iter().enumerate().filter(|(_, &word)| says(word));
    words.map(|(at, word)| format!("@{at}={word:08X} ")).collect()
}
