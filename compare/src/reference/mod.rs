//! Document 01 over the lent words, in place and tuned by hand: no allocation, and no copy of the buffer but that of a
//! preview and of a short ring made long. Written from the document's text alone.

mod events;
mod joins;
mod lanes;
mod layout;
mod listener;
mod messages;
mod place;
mod questions;
mod reaches;
mod row;
mod screens;
mod sets;
mod shorts;
mod validity;

use crate::ring::{Conductor, Ring, Routed, Shortened, Sides, Technician};
use events::Event;
use layout::*;
use place::Place;

pub struct Reference;

impl Ring for Reference {
    fn name(&self) -> &'static str {
        "reference"
    }

    fn open(&self, words: &mut [u32], sides: Sides, keys: &[u32]) -> u32 {
        answer(open(words, sides, keys))
    }

    fn play(&self, words: &mut [u32], word: u32) -> u32 {
        answer(play(words, word))
    }

    fn preview(&self, words: &mut [u32], word: u32, second: &mut [u32]) -> u32 {
        answer(preview(words, word, second))
    }

    fn join(&self, first: &[u32], second: &[u32], joined: &mut [u32]) -> u32 {
        answer(joins::join(first, second, joined))
    }

    fn shorten(&self, words: &[u32], place: &mut [u32]) -> Shortened {
        let (answer, written) = with_answer(shorts::shorten(words, place));
        Shortened { answer, written }
    }

    fn lengthen(&self, short: &[u32], words: &mut [u32]) -> u32 {
        answer(shorts::lengthen(short, words))
    }

    fn leafset_of(&self, words: &[u32], node: u32) -> (u32, u64) {
        with_answer(questions::leafset_of(words, node))
    }

    fn connected(&self, words: &[u32], a: u32, b: u32) -> (u32, bool) {
        with_answer(questions::connected(words, a, b))
    }

    fn groups(&self, words: &[u32]) -> (u32, u32) {
        with_answer(questions::groups(words))
    }

    fn route(&self, words: &[u32], start: u32, key: u32, list: &mut [u8]) -> Routed {
        questions::route(words, start, key, list).unwrap_or_else(Routed::refused)
    }

    fn reach(&self, words: &[u32], start: u32, key: u32) -> Routed {
        reaches::reach(words, start, key).unwrap_or_else(Routed::refused)
    }

    fn conductor(&self, words: &[u32], screen: &mut Conductor) -> u32 {
        screens::conductor(words, screen)
    }

    fn technician(&self, words: &[u32], screen: &mut Technician) -> u32 {
        screens::technician(words, screen)
    }

    fn messages<'a>(&self, words: &'a [u32]) -> &'a [u32] {
        screens::messages(words)
    }
}

/// 0 where accepted, or the refusal's number.
fn answer(outcome: Result<(), u32>) -> u32 {
    outcome.err().unwrap_or(0)
}

fn with_answer<T: Default>(outcome: Result<T, u32>) -> (u32, T) {
    match outcome {
        Ok(value) => (0, value),
        Err(refusal) => (refusal, T::default()),
    }
}

fn open(words: &mut [u32], sides: Sides, keys: &[u32]) -> Result<(), u32> {
    let words: &mut Words = words.try_into().map_err(|_| 1u32)?;
    if !sides.fit() || !(1..=NODES).contains(&keys.len()) {
        return Err(2);
    }
    let repeated = (1..keys.len()).any(|s| keys[..s].contains(&keys[s]));
    if repeated || keys.iter().any(|&key| key > LOW24) {
        return Err(3);
    }
    write_initial(words, sides, keys);
    Ok(())
}

/// "A fresh ring has every stand off, all clocks 0, no messages."
fn write_initial(words: &mut Words, sides: Sides, keys: &[u32]) {
    let n = keys.len();
    words.fill(0);
    words[0] = Header { sides, nodes: n, messages: 0 }.word();
    for (x, &key) in keys.iter().enumerate() {
        words[node_at(x)] = KIND_KEY | key;
        words[node_at(x) + 1] = KIND_CLOCK;
        for z in (0..n).filter(|&z| z != x) {
            words[pair_at(x, z)] = IDLE;
            words[pair_at(x, z) + 1] = NO_SPARE;
        }
    }
}

fn play(words: &mut [u32], word: u32) -> Result<(), u32> {
    let words: &mut Words = words.try_into().map_err(|_| 1u32)?;
    let event = Event::read(word)?;
    let header = validity::reads_as_ring(words).ok_or(6u32)?;
    Place { words, header }.play(event)
}

fn preview(words: &[u32], word: u32, second: &mut [u32]) -> Result<(), u32> {
    let mut copy: Words = words.try_into().map_err(|_| 1u32)?;
    let second: &mut Words = second.try_into().map_err(|_| 1u32)?;
    play(&mut copy, word)?;
    *second = copy;
    Ok(())
}
