//! Document 01's bench program, over any implementation.

use crate::ring::{Ring, Sides};
use crate::{LENGTH, look};
use std::fmt::Write;

/// What the bench program prints for these bytes.
pub fn run(ring: &dyn Ring, input: &[u8]) -> String {
    let mut words = vec![0; LENGTH];
    let mut out = String::new();
    match open(ring, &mut words, input) {
        Ok(events) => {
            play_all(ring, &mut words, events, &mut out);
            show(ring, &words, &mut out);
        }
        Err(refusal) => writeln!(out, "0 {refusal} 0").unwrap(),
    }
    out
}

/// A word from its four bytes, lowest first.
pub fn little_endian(bytes: &[u8]) -> u32 {
    u32::from_le_bytes(bytes.try_into().unwrap())
}

/// The sides and the keys that a script begins with, and the bytes after them.
pub struct Opening<'a> {
    pub sides: Sides,
    pub keys: Vec<u32>,
    pub events: &'a [u8],
}

/// Reads word 0 and the key words. Whether two keys are equal is not looked at.
pub fn opening(input: &[u8]) -> Result<Opening<'_>, u32> {
    let (first, rest) = input.split_at_checked(4).ok_or(2u32)?;
    let word = little_endian(first);
    // Kind 1, no message, no unnamed bit.
    if word & 0xFC3F_F800 != 0x1000_0000 {
        return Err(2);
    }
    let (sides, n) = (Sides::of_word(word), (word >> 4 & 127) as usize);
    if !sides.fit() || !(1..=64).contains(&n) {
        return Err(2);
    }
    let (table, events) = rest.split_at_checked(4 * n).ok_or(2u32)?;
    let keys: Vec<u32> = table.chunks_exact(4).map(little_endian).collect();
    // Kind 2, running 0, no unnamed bit.
    if keys.iter().any(|key| key >> 24 != 0x20) {
        return Err(3);
    }
    let keys = keys.iter().map(|key| key & 0xFF_FFFF).collect();
    Ok(Opening { sides, keys, events })
}

/// Opens by word 0 and the key words; the bytes after them are the events.
pub fn open<'a>(ring: &dyn Ring, words: &mut [u32], input: &'a [u8]) -> Result<&'a [u8], u32> {
    let Opening { sides, keys, events } = opening(input)?;
    match ring.open(words, sides, &keys) {
        0 => Ok(events),
        refusal => Err(refusal),
    }
}

/// Why a script opens no ring: "word 0 with m = 0 (any fault is 2), n key words with running 0 (a wrong one is 3, a
/// missing or cut one 2)".
pub fn fault(refusal: u32) -> &'static str {
    match refusal {
        2 => "the first word is at fault, or a key is missing",
        _ => "a key is at fault, or two are equal",
    }
}

fn play_all(ring: &dyn Ring, words: &mut [u32], events: &[u8], out: &mut String) {
    for (before, event) in events.chunks(4).enumerate() {
        // "A tail under 4 bytes is an event answered 4."
        let answer = if event.len() == 4 { ring.play(words, little_endian(event)) } else { 4 };
        writeln!(out, "{} {} {}", before + 1, answer, look::messages(words)).unwrap();
    }
}

fn show(ring: &dyn Ring, words: &[u32], out: &mut String) {
    for s in 0..look::nodes(words) {
        let (key, running, clock) = (look::key(words, s), look::is_running(words, s), look::clock(words, s));
        let held: Vec<usize> = (0..look::nodes(words)).filter(|&z| look::holds(words, s, z)).collect();
        write!(out, "{s} {key} {} {clock} {}", running as u32, held.len()).unwrap();
        for z in held {
            write!(out, " {z}").unwrap();
        }
        out.push('\n');
    }
    writeln!(out, "groups {}", ring.groups(words).1).unwrap();
}
