//! The two screens, and the messages as a part of the words.

use super::layout::*;
use super::place::{marked, table};
use super::questions::{ring, running};
use super::sets::members;
use crate::ring::{Conductor, Technician};

pub fn conductor(words: &[u32], screen: &mut Conductor) -> u32 {
    match ring(words) {
        Ok((words, header)) => {
            show_conductor(words, header, screen);
            0
        }
        Err(refusal) => {
            *screen = Conductor::EMPTY;
            refusal
        }
    }
}

pub fn technician(words: &[u32], screen: &mut Technician) -> u32 {
    match ring(words) {
        Ok((words, header)) => {
            show_conductor(words, header, &mut screen.conductor);
            show_pairs(words, screen);
            0
        }
        Err(refusal) => {
            *screen = Technician::EMPTY;
            refusal
        }
    }
}

pub fn messages(words: &[u32]) -> &[u32] {
    match ring(words) {
        Ok((words, header)) => &words[MESSAGES..message_at(header.messages)],
        Err(_) => &[],
    }
}

fn show_conductor(words: &Words, header: Header, screen: &mut Conductor) {
    let table = table(words, header);
    screen.sides = header.sides;
    screen.nodes = header.nodes as u32;
    screen.running = running(words, header);
    screen.leafsets = [0; NODES];
    for x in members(screen.running) {
        screen.leafsets[x] = table.leafset(x, marked(words, x, HELD));
    }
    screen.keys = table.keys;
}

/// Words of no pair are 0, as their places have to be.
fn show_pairs(words: &Words, screen: &mut Technician) {
    let pairs = words[PAIRS..MESSAGES].chunks_exact(2);
    for ((pair, stamp), spare) in pairs.zip(&mut screen.stamps).zip(&mut screen.spares) {
        *stamp = pair[0] & LOW24;
        *spare = pair[1] as u8 & 127;
    }
    for (x, set) in screen.candidates.iter_mut().enumerate() {
        *set = marked(words, x, CANDIDATE);
    }
}
