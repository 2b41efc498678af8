//! Two rings that agree in what the conductor sees: "The conductor's answer must be alike for any two valid rings that
//! agree in A, B, table, running marks and held sets." The technician's screen differs in what else was changed, and in
//! that alone.

use crate::look;
use crate::random::Random;
use crate::ring::{Ring, Sides};
use crate::routes;
use crate::screens::{Screens, Seen};
use crate::senders;
use crate::LENGTH;
use std::{fmt, thread};

const LIMIT: u32 = 0xFF_FFFF;

/// What the conductor doesn't see. A clock is on neither screen.
const SORTS: [&str; 5] = ["candidates", "stamps", "spares", "messages", "clocks"];

/// Which of the sorts are drawn anew.
type Drawn = [bool; 5];

/// In which of them two rings differ.
pub type Changed = [bool; 5];

fn pair_at(x: usize, z: usize) -> usize {
    129 + 2 * (64 * x + z)
}

/// One sort alone, or any of them.
fn drawn(random: &mut Random) -> Drawn {
    let alone = random.below(5);
    if random.percent(50) {
        return [0, 1, 2, 3, 4].map(|sort| sort == alone);
    }
    [(); 5].map(|_| random.percent(60))
}

/// The ring with other values of some sorts, as far as they still make a ring.
fn other_ring(random: &mut Random, words: &[u32], [candidates, stamps, spares, messages, clocks]: Drawn) -> Vec<u32> {
    let mut other = words.to_vec();
    let n = look::nodes(words);
    for x in (0..n).filter(|&x| look::is_running(words, x)) {
        let share = random.pick(&[0, 5, 50, 100]);
        for z in (0..n).filter(|&z| z != x) {
            let at = pair_at(x, z);
            if candidates {
                other[at] = other[at] & !(1 << 25) | (random.percent(share) as u32) << 25;
            }
            if stamps && look::holds(words, x, z) {
                other[at] = other[at] & !LIMIT | 1 + random.below(look::clock(words, x) as usize) as u32;
            }
            if spares && look::holds(words, x, z) {
                other[at + 1] = 4 << 28 | other_node(random, n, [x, z]).unwrap_or(64) as u32;
            }
        }
    }
    if clocks {
        (0..n).for_each(|x| draw_clock(random, &mut other, x));
    }
    if messages {
        let any = random.below(1_025);
        let count = random.pick(&[0, 1, 2, any % 40, any % 40, any, 1_024]);
        draw_messages(random, &mut other, count);
    }
    other
}

/// A ring in which every running node holds a few others, with values of every sort.
pub fn made_ring(random: &mut Random, sides: Sides, keys: &[u32], running: &[bool]) -> Vec<u32> {
    let words = routes::scattered(random, sides, keys, running);
    // Clocks above 1 first, then stamps up to them.
    let words = other_ring(random, &words, [false, false, false, false, true]);
    other_ring(random, &words, [true; 5])
}

/// None, or a node that is neither of the two.
fn other_node(random: &mut Random, n: usize, two: [usize; 2]) -> Option<usize> {
    let node = random.below(n);
    (!two.contains(&node) && random.percent(80)).then_some(node)
}

/// A clock not below the stamps of its node.
fn draw_clock(random: &mut Random, words: &mut [u32], x: usize) {
    let stamps = words[pair_at(x, 0)..pair_at(x, 64)].iter().step_by(2).map(|word| word & LIMIT);
    let least = stamps.max().unwrap_or(0);
    let any = least + random.below((LIMIT - least + 1) as usize) as u32;
    words[2 + 2 * x] = 5 << 28 | random.pick(&[least, any, any, LIMIT]);
}

/// So many messages, or as many as the nodes may have in flight, of any types; none at a node alone.
pub fn draw_messages(random: &mut Random, words: &mut [u32], count: usize) {
    let n = look::nodes(words);
    let mut left = [senders::MOST; 64];
    let count = if n == 1 { 0 } else { count.min(n * senders::MOST) };
    let senders: Vec<usize> = (0..count)
        .map(|_| {
            let first = random.below(n);
            let sender = (first..n).chain(0..first).find(|&s| left[s] > 0).unwrap();
            left[sender] -= 1;
            sender
        })
        .collect();
    senders::write(random, words, &senders);
}

/// A message of a node, to any other and of any type.
pub fn draw_message(random: &mut Random, message: &mut [u32], n: usize, sender: usize) {
    let kind = 1 + random.below(13);
    let receiver = (sender + 1 + random.below(n - 1)) % n;
    let subject = match kind {
        8 => other_node(random, n, [sender, receiver]).unwrap_or(64),
        9..=11 => random.below(n),
        _ => 64,
    };
    let stamp = if kind == 9 || kind == 10 { random.word() & LIMIT } else { 0 };
    let view = if kind == 4 { random.next() & u64::MAX >> (64 - n) & !(1 << receiver) } else { 0 };
    message[0] = 6 << 28 | (subject << 16 | receiver << 10 | sender << 4 | kind) as u32;
    message[1] = 7 << 28 | stamp;
    for part in 0..3 {
        message[2 + part] = 8 << 28 | (view >> (24 * part)) as u32 & LIMIT;
    }
}

/// The sorts in which the words of two rings differ.
fn changed(one: &[u32], other: &[u32]) -> Changed {
    let differ = |from: usize, to: usize, step: usize, mask: u32| {
        (from..to).step_by(step).any(|at| (one[at] ^ other[at]) & mask != 0)
    };
    [
        differ(129, 8_321, 2, 1 << 25),
        differ(129, 8_321, 2, LIMIT),
        differ(130, 8_321, 2, !0),
        differ(8_321, LENGTH, 1, !0),
        differ(2, 129, 2, LIMIT),
    ]
}

/// Pairs of rings, and how many of them differed in each sort.
#[derive(Clone, Copy, Default)]
pub struct Tally {
    pairs: u64,
    changed: [u64; 5],
    /// In the clocks alone.
    clocks_only: u64,
}

impl Tally {
    pub fn count(&self) -> u64 {
        self.pairs
    }

    pub fn add(&mut self, other: &Tally) {
        self.pairs += other.pairs;
        self.changed.iter_mut().zip(other.changed).for_each(|(sum, count)| *sum += count);
        self.clocks_only += other.clocks_only;
    }

    pub fn note(&mut self, changed: Changed) {
        self.pairs += 1;
        self.changed.iter_mut().zip(changed).for_each(|(sum, changed)| *sum += changed as u64);
        self.clocks_only += (changed == [false, false, false, false, true]) as u64;
    }
}

impl fmt::Display for Tally {
    fn fmt(&self, f: &mut fmt::Formatter) -> fmt::Result {
        write!(f, "{} pairs of rings alike for the conductor; other", self.pairs)?;
        SORTS.iter().zip(self.changed).try_for_each(|(name, count)| write!(f, " {name} {count},"))?;
        write!(f, " clocks alone {}", self.clocks_only)
    }
}

/// The ring, and another that the number determines: both read as rings, and show what they have to. The sorts in which
/// they differ, or a line that says what is wrong.
pub fn hold(ring: &dyn Ring, words: &[u32], number: u32) -> Result<Changed, String> {
    let mut random = Random::new(number as u64, 2);
    let drawn = drawn(&mut random);
    let other = other_ring(&mut random, words, drawn);
    let [one, two] = [words, &other].map(|words| Screens { lent: LENGTH, old: random.word() }.ask(ring, words));
    if [&one, &two].iter().any(|seen| seen.answer != 0 || seen.conductor_answer != 0) {
        return Err(format!("{}: a ring is refused", ring.name()));
    }
    if [&one, &two].iter().any(|seen| seen.technician.conductor != seen.conductor) {
        return Err(format!("{}: the technician sees another conductor's screen", ring.name()));
    }
    let changed = changed(words, &other);
    let visible = SORTS.into_iter().zip(changed).filter(|&(sort, changed)| changed && sort != "clocks");
    let expected: Vec<&str> = visible.map(|(sort, _)| sort).collect();
    let shown = Seen::differing(&one, &two);
    if shown != expected {
        return Err(format!("{}: rings differ in {expected:?}, their screens in {shown:?}", ring.name()));
    }
    Ok(changed)
}

/// What came of pairs of made rings, and lines for those that don't show what they have to.
#[derive(Default)]
pub struct Made {
    pub tally: Tally,
    pub found: Vec<String>,
}

impl Made {
    /// So many pairs, in which every running node holds a few others.
    pub fn run(seed: u64, count: u64, threads: u64, rings: &[&dyn Ring]) -> Made {
        let share = count.div_ceil(threads);
        let parts: Vec<Made> = thread::scope(|scope| {
            let start = |number| {
                let random = Random::new(seed, u64::MAX / 2 - number);
                scope.spawn(move || Made::run_thread(random, share, rings))
            };
            let threads: Vec<_> = (0..threads).map(start).collect();
            threads.into_iter().map(|thread| thread.join().unwrap()).collect()
        });
        let mut made = Made::default();
        for part in parts {
            made.tally.add(&part.tally);
            made.found.extend(part.found);
        }
        made
    }

    fn run_thread(mut random: Random, count: u64, rings: &[&dyn Ring]) -> Made {
        let mut made = Made::default();
        for _ in 0..count {
            let (sides, keys, running) = routes::table(&mut random);
            let words = made_ring(&mut random, sides, &keys, &running);
            let number = random.word();
            for (place, ring) in rings.iter().enumerate() {
                match hold(*ring, &words, number) {
                    Ok(changed) if place == 0 => made.tally.note(changed),
                    Ok(_) => {}
                    Err(line) => made.found.push(line),
                }
            }
        }
        made
    }
}
