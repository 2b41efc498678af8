//! Openings of every sort, over old words of any sort, and every call on a buffer of another length.

use crate::random::Random;
use crate::ring::{Ring, Routed, Sides};
use crate::screens::{Screens, Seen};
use crate::LENGTH;

/// A line for each difference found in `count` random openings.
pub fn run(seed: u64, count: u64, rings: &[&dyn Ring]) -> Vec<String> {
    let mut random = Random::new(seed, u64::MAX);
    let mut found = Vec::new();
    for _ in 0..count {
        let length = if random.percent(80) { LENGTH } else { random.pick(&[0, 1, LENGTH - 1, LENGTH + 1, 2 * LENGTH]) };
        let any = random.word();
        let filler = random.pick(&[0, u32::MAX, any]);
        let (sides, keys) = opening(&mut random);
        let word = 9 << 28 | random.below(64) as u32;
        let outcomes: Vec<_> = rings.iter().map(|ring| calls(*ring, vec![filler; length], sides, &keys, word)).collect();
        for (ring, outcome) in rings.iter().zip(&outcomes) {
            if *outcome != outcomes[0] {
                let (name, first) = (ring.name(), rings[0].name());
                let (answers, others) = (&outcome.0, &outcomes[0].0);
                found.push(format!(
                    "{name} {answers:?}, {first} {others:?}: {length} words of {filler:08X}, {sides:?}, keys {keys:X?}"
                ));
            }
        }
    }
    found
}

/// An A, a B and keys that are often just in or out of range.
fn opening(random: &mut Random) -> (Sides, Vec<u32>) {
    let mut side = || random.pick(&[0, 1, 2, 3, 4, 5, 6, 7, 8, 1, 3, 5, 7, 8, 9, 16, u32::MAX]);
    let sides = Sides { clockwise: side(), counter_clockwise: side() };
    let any = 1 + random.below(64);
    let n = random.pick(&[0, 1, 2, 63, 64, 65, 66, any, any]);
    let mut keys: Vec<u32> = (0..n).map(|_| random.word() & 0xFF_FFFF).collect();
    if n > 0 && random.percent(50) {
        let (at, other) = (random.below(n), random.below(n));
        keys[at] = random.pick(&[0, 0xFF_FFFF, 0x100_0000, u32::MAX, keys[other]]);
    }
    (sides, keys)
}

/// The answers of all calls; all words after them, the ring's, then those of a second buffer for a preview and a join; the screens.
fn calls(ring: &dyn Ring, mut words: Vec<u32>, sides: Sides, keys: &[u32], word: u32) -> (Vec<u64>, Vec<u32>, Seen) {
    let mut answers = vec![ring.open(&mut words, sides, keys) as u64];
    answers.push(ring.play(&mut words, word) as u64);
    let mut places = [0xA5; 3];
    answers.push(ring.play_all(&mut words, &[word, word ^ 3 << 28, word ^ 1], &mut places) as u64);
    answers.extend(places.map(u64::from));
    let (answer, set) = ring.leafset_of(&words, word & 63);
    answers.extend([answer as u64, set]);
    let (answer, yes) = ring.connected(&words, word & 63, word & 63);
    answers.extend([answer as u64, yes as u64]);
    let (answer, number) = ring.groups(&words);
    answers.extend([answer as u64, number as u64]);
    let mut list = [0xA5; 64];
    let places = 64 - (word & 1) as usize;
    let Routed { answer, end, hops } = ring.route(&words, word & 63, word & 0xFF_FFFF, &mut list[..places]);
    answers.extend([answer, end, hops].map(u64::from));
    answers.extend(list.map(u64::from));
    let Routed { answer, end, hops } = ring.reach(&words, word & 63, word & 0xFF_FFFF);
    answers.extend([answer, end, hops].map(u64::from));
    let mut second = vec![!word; [LENGTH, LENGTH, LENGTH - 1, LENGTH + 1][word as usize & 3]];
    answers.push(ring.preview(&mut words, word, &mut second) as u64);
    answers.push(ring.join(&words, &words, &mut second) as u64);
    let seen = Screens { lent: words.len(), old: word }.ask(ring, &words);
    answers.extend([seen.conductor_answer, seen.answer, seen.part.len() as u32].map(u64::from));
    words.extend(second);
    (answers, words, seen)
}
