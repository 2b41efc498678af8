//! Joins of document 02's note 10: random pairs of rings, what came of their joins, and events played on these.

use crate::alike;
use crate::case::{Fault, Runner, Step};
use crate::damage::spoil;
use crate::look;
use crate::random::Random;
use crate::ring::{Ring, Sides};
use crate::script::{Mix, Script};
use crate::senders;
use crate::unbroken::Tested;
use crate::{ANSWERS, LENGTH};
use std::sync::atomic::{AtomicBool, Ordering};
use std::{fmt, thread};

/// Events on each accepted join.
const PLAYED: usize = 50;

/// A ring to join.
struct Source {
    words: Vec<u32>,
    /// Events led there from an opening or from a join of such rings: demand 3 speaks of it.
    reached: bool,
    /// It is a join, or events led there from one.
    of_join: bool,
}

/// A join to ask for. Each buffer has one word more than a ring.
struct Trial {
    first: Vec<u32>,
    second: Vec<u32>,
    old: Vec<u32>,
    /// How many words of each are lent.
    lent: [usize; 3],
    /// The first buffer is both sources.
    one_buffer: bool,
    reached: bool,
    of_join: bool,
}

// What is joined.

/// Mostly up to 64 nodes together, often just so many, sometimes more.
fn sizes(random: &mut Random) -> (usize, usize) {
    let most = random.pick(&[8, 8, 20, 64]);
    let n = 1 + random.below(most - 1);
    match random.below(100) {
        0..=6 => random.pick(&[(64, 1), (1, 64), (33, 32), (32, 33), (63, 2), (64, 64)]),
        7..=11 => random.pick(&[(1, 63), (63, 1), (32, 32), (24, 40), (48, 16)]),
        12..=16 => (n, 64 - n),
        _ => (n, 1 + random.below(most - n)),
    }
}

/// Different keys, but for one in 20 pairs, which share one.
fn tables(random: &mut Random) -> (Vec<u32>, Vec<u32>) {
    let (n, more) = sizes(random);
    let style = random.below(3);
    let mut first = random.keys(n + more, |random| match style {
        0 => random.word(),
        1 => (random.below(200) as u32).wrapping_sub(100),
        _ => (random.below(128) as u32) << 17,
    });
    let mut second = first.split_off(n);
    if random.percent(5) {
        second[random.below(more)] = first[random.below(n)];
    }
    (first, second)
}

/// The same A and B, but for one in 12 pairs.
fn sides(random: &mut Random) -> (Sides, Sides) {
    let mut side = || if random.percent(60) { 1 + random.below(2) as u32 } else { 1 + random.below(8) as u32 };
    let first = Sides { clockwise: side(), counter_clockwise: side() };
    let other = |side: u32| 1 + side % 8;
    let (clockwise, counter_clockwise) = (other(first.clockwise), other(first.counter_clockwise));
    let second = match random.below(36) {
        0 => Sides { clockwise, ..first },
        1 => Sides { counter_clockwise, ..first },
        2 => Sides { clockwise, counter_clockwise },
        _ => first,
    };
    (first, second)
}

/// Made as words, played from an opening, or joined from two, which may be joins too.
fn source(random: &mut Random, ring: &dyn Ring, sides: Sides, keys: &[u32]) -> Source {
    match random.below(100) {
        0..=39 => made(random, sides, keys),
        40..=54 if keys.len() > 1 => joined(random, ring, sides, keys),
        _ => played(random, ring, sides, keys),
    }
}

/// The words of such a ring.
pub fn any_ring(random: &mut Random, ring: &dyn Ring, sides: Sides, keys: &[u32]) -> Vec<u32> {
    source(random, ring, sides, keys).words
}

fn made(random: &mut Random, sides: Sides, keys: &[u32]) -> Source {
    let share = random.pick(&[20, 60, 90, 100]);
    let running: Vec<bool> = keys.iter().map(|_| random.percent(share)).collect();
    let mut words = alike::made_ring(random, sides, keys, &running);
    if random.percent(60) {
        let few = random.below(12);
        alike::draw_messages(random, &mut words, few);
    }
    Source { words, reached: false, of_join: false }
}

fn played(random: &mut Random, ring: &dyn Ring, sides: Sides, keys: &[u32]) -> Source {
    let mut words = vec![0; LENGTH];
    ring.open(&mut words, sides, keys);
    let mut script = script(random, keys.len());
    let few = keys.len() + random.below(40);
    for _ in 0..random.pick(&[0, few, few, 200, 600]) {
        let word = script.next(&words);
        ring.play(&mut words, word);
    }
    Source { words, reached: true, of_join: false }
}

fn joined(random: &mut Random, ring: &dyn Ring, sides: Sides, keys: &[u32]) -> Source {
    let (ours, theirs) = keys.split_at(1 + random.below(keys.len() - 1));
    let (one, other) = (source(random, ring, sides, ours), source(random, ring, sides, theirs));
    let mut words = vec![0; LENGTH];
    if ring.join(&one.words, &other.words, &mut words) != 0 {
        return one;
    }
    let mut script = script(random, keys.len());
    for _ in 0..random.pick(&[0, 5, 50]) {
        let word = script.any(&words);
        ring.play(&mut words, word);
    }
    Source { words, reached: one.reached && other.reached, of_join: true }
}

fn script(random: &mut Random, n: usize) -> Script {
    let mix = random.pick(&Mix::ALL);
    Script::new(Random::new(random.next(), 0), mix, n)
}

/// One ring in 12 damaged, some of them so that they still read as a ring.
fn damaged(random: &mut Random, source: &mut Source) {
    if !random.percent(8) {
        return;
    }
    spoil(random, &mut source.words, 2);
    source.reached = false;
}

/// In some pairs of made rings senders at their bound; in some 1,024 messages together, or 1,025, where the nodes are
/// enough.
fn crowd(random: &mut Random, first: &mut Source, second: &mut Source) {
    if first.reached || second.reached || !random.percent(25) {
        return;
    }
    if random.percent(40) {
        talkative(random, first);
        return talkative(random, second);
    }
    if random.percent(50) {
        alike::draw_messages(random, &mut first.words, 512);
    }
    let room = 1_024 - look::messages(&first.words);
    let more = random.below(2);
    alike::draw_messages(random, &mut second.words, (room + more).min(1_024));
}

/// Mostly a sender that has about as many messages as it may.
fn talkative(random: &mut Random, source: &mut Source) {
    if look::nodes(&source.words) > 1 && random.percent(70) {
        source.words = senders::at_the_bound(random, &source.words).0;
    }
}

/// What a buffer that is written has before, one word more than a ring: words that all differ, zeros, ones, a ring.
pub fn old_words(random: &mut Random, first: &[u32]) -> Vec<u32> {
    let number = random.word();
    match random.below(5) {
        0 => vec![0; LENGTH + 1],
        1 => vec![u32::MAX; LENGTH + 1],
        2 => with_one_more(first.to_vec(), number),
        _ => (0..=LENGTH as u32).map(|place| number ^ place.wrapping_mul(0x9E37_79B1)).collect(),
    }
}

fn with_one_more(mut words: Vec<u32>, more: u32) -> Vec<u32> {
    words.push(more);
    words
}

/// One time in 16 some of the buffers have a wrong length.
fn lengths(random: &mut Random) -> [usize; 3] {
    let mut lent = [LENGTH; 3];
    if random.percent(6) {
        for _ in 0..1 + random.below(2) {
            lent[random.below(3)] = random.pick(&[0, 1, LENGTH - 1, LENGTH + 1, LENGTH + 1]);
        }
    }
    lent
}

impl Trial {
    /// The ring plays what leads to the sources.
    fn any(random: &mut Random, ring: &dyn Ring) -> Trial {
        let ((ours, theirs), (first_keys, second_keys)) = (sides(random), tables(random));
        let mut first = source(random, ring, ours, &first_keys);
        let mut second = source(random, ring, theirs, &second_keys);
        crowd(random, &mut first, &mut second);
        damaged(random, &mut first);
        damaged(random, &mut second);
        Trial {
            old: old_words(random, &first.words),
            first: with_one_more(first.words, random.word()),
            second: with_one_more(second.words, random.word()),
            lent: lengths(random),
            one_buffer: random.percent(3),
            reached: first.reached && second.reached,
            of_join: first.of_join || second.of_join,
        }
    }

    fn sources(&self) -> [&[u32]; 2] {
        let second = if self.one_buffer { &self.first } else { &self.second };
        [&self.first[..self.lent[0]], &second[..self.lent[1]]]
    }

    /// The answer of an implementation and the third buffer after it, or what is wrong without another's.
    fn ask(&self, ring: &dyn Ring) -> Result<(u32, Vec<u32>), String> {
        let before = self.sources().map(<[u32]>::to_vec);
        let [first, second] = self.sources();
        let mut joined = self.old.clone();
        let answer = ring.join(first, second, &mut joined[..self.lent[2]]);
        if std::hint::black_box(self).sources() != [&before[0][..], &before[1]] {
            return Err("a source is written".into());
        }
        if answer != 0 && joined != self.old || joined[LENGTH] != self.old[LENGTH] {
            return Err(format!("answer {answer}, and the third buffer is written where it may not be"));
        }
        Ok((answer, joined))
    }

    /// "Two stands are connected in it exactly when they came from one ring and were connected there."
    fn connection(&self, random: &mut Random, ring: &dyn Ring, joined: &[u32]) -> Result<(), String> {
        let [first, second] = self.sources();
        let groups = [first, second, joined].map(|words| ring.groups(words));
        if groups[2] != (0, groups[0].1 + groups[1].1) {
            return Err(format!("groups {groups:?}"));
        }
        let (n, all) = (look::nodes(first), look::nodes(joined));
        let connected = |words: &[u32], a: usize, b: usize| ring.connected(words, a as u32, b as u32);
        for _ in 0..4 {
            let (a, b) = (random.below(all), random.below(all));
            let expected = match (a < n, b < n) {
                (true, true) => connected(first, a, b),
                (false, false) => connected(second, a - n, b - n),
                _ if look::is_running(joined, a) && look::is_running(joined, b) => (0, false),
                _ => (8, false),
            };
            if connected(joined, a, b) != expected {
                return Err(format!("nodes {a} and {b} of the join are connected otherwise than {expected:?}"));
            }
        }
        Ok(())
    }

    /// The answer and the third buffer, on which all implementations agree.
    fn ask_all(&self, rings: &[&dyn Ring]) -> Result<(u32, Vec<u32>), String> {
        let ask = |ring: &dyn Ring| self.ask(ring).map_err(|line| format!("{}: {line}", ring.name()));
        let (answer, joined) = ask(rings[0])?;
        for &ring in &rings[1..] {
            let (other, words) = ask(ring)?;
            if other != answer || words != joined {
                let differ = words.iter().zip(&joined).filter(|(one, other)| one != other).count();
                let (name, first) = (ring.name(), rings[0].name());
                return Err(format!("{name} answers {other}, {first} {answer}; {differ} words differ"));
            }
        }
        Ok((answer, joined))
    }

    /// The join on every implementation. Accepted, events follow.
    fn run(
        &self, random: &mut Random, runner: &mut Runner, rings: &[&dyn Ring], tally: &mut Tally,
    ) -> Result<(), String> {
        let (answer, joined) = self.ask_all(rings)?;
        let joined = &joined[..LENGTH];
        tally.note(self, answer, joined);
        if answer != 0 {
            return Ok(());
        }
        let (node, most) = look::busiest(joined);
        if most > senders::MOST {
            return Err(format!("node {node} of the join has {most} messages"));
        }
        for &ring in rings {
            self.connection(random, ring, joined).map_err(|line| format!("{}: {line}", ring.name()))?;
        }
        runner.restore(joined);
        self.play(random, runner, tally).map_err(|fault| format!("after the join\n{fault}"))
    }

    /// All implementations in step; demand 3 is judged where it speaks of the join.
    fn play(&self, random: &mut Random, runner: &mut Runner, tally: &mut Tally) -> Result<(), Fault> {
        runner.unbroken.restart();
        let mut script = script(random, look::nodes(runner.words()));
        for _ in 0..PLAYED {
            let word = script.any(runner.words());
            let answer = if self.reached { runner.play_watched(word)? } else { runner.step(Step::Play(word))? };
            tally.events += 1;
            tally.accepted_events += (answer == 0) as u64;
        }
        Ok(())
    }
}

/// The words of both sources that say something, with their places.
impl fmt::Display for Trial {
    fn fmt(&self, f: &mut fmt::Formatter) -> fmt::Result {
        write!(f, "join({:?} words, one buffer: {})", self.lent, self.one_buffer)?;
        for (name, words) in ["first", "second"].iter().zip(self.sources()) {
            write!(f, "\n  {name}:")?;
            let says = |word: u32| word != 0 && word != 3 << 28 && word != 4 << 28 | 64;
            let mut words = words.iter().enumerate().filter(|(_, &word)| says(word));
            words.try_for_each(|(at, word)| write!(f, " @{at}={word:08X}"))?;
        }
        Ok(())
    }
}

/// What came of them.
#[derive(Clone, Copy, Default)]
pub struct Tally {
    /// By answer.
    answers: [u64; ANSWERS],
    one_buffer: u64,
    /// Of the accepted: those of a join, of rings that events led to, with 64 nodes, with 1,024 messages, with a sender
    /// at its bound, with a view.
    of_join: u64,
    reached: u64,
    full: u64,
    crowded: u64,
    talkative: u64,
    viewed: u64,
    events: u64,
    accepted_events: u64,
    tested: Tested,
}

impl Tally {
    fn add(&mut self, other: &Tally) {
        self.answers.iter_mut().zip(other.answers).for_each(|(sum, count)| *sum += count);
        self.one_buffer += other.one_buffer;
        self.of_join += other.of_join;
        self.reached += other.reached;
        self.full += other.full;
        self.crowded += other.crowded;
        self.talkative += other.talkative;
        self.viewed += other.viewed;
        self.events += other.events;
        self.accepted_events += other.accepted_events;
        self.tested.add(other.tested);
    }

    fn note(&mut self, trial: &Trial, answer: u32, joined: &[u32]) {
        self.answers[answer as usize] += 1;
        self.one_buffer += trial.one_buffer as u64;
        if answer == 0 {
            let (n, m) = (look::nodes(joined), look::messages(joined));
            self.of_join += trial.of_join as u64;
            self.reached += trial.reached as u64;
            self.full += (n == 64) as u64;
            self.crowded += (m == 1_024) as u64;
            self.talkative += (look::busiest(joined).1 == senders::MOST) as u64;
            let theirs = look::messages(&trial.first)..m;
            self.viewed += theirs.into_iter().any(|position| look::message_type(joined, position) == 4) as u64;
        }
    }
}

impl fmt::Display for Tally {
    fn fmt(&self, f: &mut fmt::Formatter) -> fmt::Result {
        let Tally { answers, one_buffer, of_join, reached, full, crowded, talkative, viewed, .. } = self;
        writeln!(f, "{} joins, {one_buffer} of one buffer; answers 0 to 17: {answers:?}", answers.iter().sum::<u64>())?;
        write!(f, "  accepted: {reached} of rings that events led to, {of_join} of a join, {full} with 64 nodes, ")?;
        writeln!(f, "{crowded} with 1024 messages, {talkative} with 256 of a sender, {viewed} with a view that rises")?;
        let Tested { starts, points, released, .. } = self.tested;
        let Tally { events, accepted_events, .. } = self;
        write!(f, "  {events} events on them, {accepted_events} accepted; demand 3: {points} points tested, ")?;
        write!(f, "against {starts} chosen points, {released} links released")
    }
}

/// What came of so many joins, and a line for each thread that found something.
#[derive(Default)]
pub struct Made {
    pub tally: Tally,
    pub found: Vec<String>,
}

impl Made {
    pub fn run(seed: u64, count: u64, threads: u64, rings: &[&dyn Ring]) -> Made {
        let (share, stop) = (count.div_ceil(threads), AtomicBool::new(false));
        let parts: Vec<Made> = thread::scope(|scope| {
            let start = |number| {
                let (random, stop) = (Random::new(seed, u64::MAX / 4 - number), &stop);
                scope.spawn(move || Made::run_thread(random, share, rings, stop))
            };
            let threads: Vec<_> = (0..threads).map(start).collect();
            threads.into_iter().map(|thread| thread.join().unwrap()).collect()
        });
        let mut made = Made::default();
        for part in parts {
            made.tally.add(&part.tally);
            made.found.extend(part.found);
        }
        made
    }

    fn run_thread(mut random: Random, count: u64, rings: &[&dyn Ring], stop: &AtomicBool) -> Made {
        let mut made = Made::default();
        let mut runner = Runner::new(rings);
        for number in 0..count {
            if stop.load(Ordering::Relaxed) {
                break;
            }
            let trial = Trial::any(&mut random, rings[0]);
            if let Err(line) = trial.run(&mut random, &mut runner, rings, &mut made.tally) {
                stop.store(true, Ordering::Relaxed);
                made.found.push(format!("join {number}: {line}\n{trial}"));
            }
        }
        made.tally.tested.add(runner.unbroken.tested);
        made
    }
}
