//! Damaged buffers: each field of each word set wrong, one at a time, and changes after which the words still read as a ring.

use super::book::{pair, Book, Message};
use super::openings::spread;
use crate::events::*;
use crate::damage::with;
use crate::{look, LENGTH};

const N: u32 = 5;

pub fn write(book: &mut Book) {
    book.section("damage");
    five(book);
    head(book);
    nodes(book);
    pairs(book);
    spares(book);
    (0..13).for_each(|position| message(book, position));
    nobody(book);
    every_kind_and_bit(book);
    smallest(book);
    largest(book);
}

/// Five nodes at A = B = 2, of which node 4 is off with clock 3, and a message of each type. Nodes 0 and 1 hold, node 2 has only a
/// candidate, and node 3 nothing.
fn five(book: &mut Book) {
    book.open(2, &[100, 200, 300, 400, 500], 0);
    (0..4).for_each(|x| book.play(on(x), 0));
    book.set_clock(0, 9);
    book.set_clock(4, 3);
    book.hold(0, 1, 9, 2);
    book.hold(0, 2, 3, 64);
    book.candidate(0, 2);
    book.candidate(0, 3);
    book.hold(1, 0, 1, 4);
    book.candidate(2, 1);
    let messages = [
        Message::new(1, 0, 1),
        Message::new(2, 1, 0),
        Message::new(3, 4, 2),
        Message::new(4, 2, 0).seeing(&[1, 2, 4]),
        Message::new(5, 0, 4),
        Message::new(6, 3, 0),
        Message::new(7, 0, 1),
        Message::new(8, 1, 0).about(2),
        Message::new(9, 0, 2).about(1).stamped(4),
        Message::new(10, 2, 0).about(1).stamped(4),
        Message::new(11, 3, 0).about(3),
        Message::new(12, 0, 3),
        Message::new(13, 1, 2),
    ];
    messages.into_iter().for_each(|message| book.send(message));
    probe(book, 0);
}

/// An event and the questions, which are all accepted or all refused.
fn probe(book: &mut Book, answer: u32) {
    // Of a node that is not held: only the clock rises.
    book.play(notice(0, 3), answer);
    book.leafset(0, answer);
    book.connected(0, 1, answer);
    book.groups(answer);
}

/// Damages a word, and mends it.
fn wrong(book: &mut Book, at: usize, value: u32) {
    let whole = book.words()[at];
    assert_ne!(value, whole);
    book.tally.damages += 1;
    book.set_word(at, value);
    probe(book, 6);
    book.set_word(at, whole);
    book.play(notice(0, 3), 0);
}

/// Changes a word so that the words still read as a ring, and changes it back.
fn right(book: &mut Book, at: usize, value: u32) {
    let whole = book.words()[at];
    book.set_word(at, value);
    probe(book, 0);
    book.set_word(at, whole);
}

/// A field, `width` bits from `low` on, set to values that are all wrong.
fn wrong_field(book: &mut Book, at: usize, (low, width): (u32, u32), values: &[u32]) {
    for &value in values {
        wrong(book, at, with(book.words()[at], low, width, value));
    }
}

fn right_field(book: &mut Book, at: usize, (low, width): (u32, u32), values: &[u32]) {
    for &value in values {
        right(book, at, with(book.words()[at], low, width, value));
    }
}

/// The kind, and the unnamed bits from the lowest up to bit 27.
fn wrong_frame(book: &mut Book, at: usize, lowest: u32) {
    let kind = book.words()[at] >> 28;
    wrong_field(book, at, (28, 4), &[kind - 1, kind + 1]);
    [lowest, 27].into_iter().for_each(|bit| wrong_field(book, at, (bit, 1), &[1]));
}

fn head(book: &mut Book) {
    wrong_frame(book, 0, 26);
    for side in [(0, 4), (22, 4)] {
        wrong_field(book, 0, side, &[0, 9, 15]);
        right_field(book, 0, side, &[1, 8]);
    }
    wrong_field(book, 0, (4, 7), &[0, N - 1, N + 1, 64, 65, 127]);
    wrong_field(book, 0, (11, 11), &[0, 12, 14, 1_024, 1_025, 2_047]);
}

/// Key and clock words.
fn nodes(book: &mut Book) {
    let (key, clock, running) = ((0, 24), (0, 24), (24, 1));
    for x in [0, 4] {
        let at = 1 + 2 * x;
        wrong_frame(book, at, 25);
        let others: Vec<u32> = (0..5).filter(|&s| s != x).map(|s| look::key(book.words(), s)).collect();
        wrong_field(book, at, key, &others);
        right_field(book, at, key, &[0, 16_777_215]);
        wrong_frame(book, at + 1, 24);
    }
    // Off while it holds, or has a candidate; node 3 has neither.
    [0, 1, 2].into_iter().for_each(|x| wrong_field(book, 1 + 2 * x, running, &[0]));
    right_field(book, 1 + 2 * 3, running, &[0]);
    right_field(book, 1 + 2 * 4, running, &[1]);
    // The clock below a commit stamp.
    wrong_field(book, 2, clock, &[0, 2, 8]);
    right_field(book, 2, clock, &[9, 16_777_214]);
    wrong_field(book, 4, clock, &[0]);
    right_field(book, 4, clock, &[1]);
    right_field(book, 2 + 2 * 4, clock, &[0, 16_777_215]);
}

/// The words of commit stamps: of a pair that is held, one that isn't, and one of a node that is off.
fn pairs(book: &mut Book) {
    let (commit, held, candidate) = ((0, 24), (24, 1), (25, 1));
    let clock = look::clock(book.words(), 0);
    for (x, z) in [(0, 1), (0, 3), (4, 0)] {
        wrong_frame(book, pair(x, z), 26);
    }
    wrong_field(book, pair(0, 1), commit, &[0, 16_777_215]);
    let above = look::clock(book.words(), 0) + 1;
    wrong_field(book, pair(0, 1), commit, &[above]);
    right_field(book, pair(0, 1), commit, &[1, clock]);
    wrong_field(book, pair(0, 1), held, &[0]);
    right_field(book, pair(0, 1), candidate, &[1]);
    wrong_field(book, pair(0, 3), commit, &[1, 16_777_215]);
    wrong_field(book, pair(0, 3), held, &[1]);
    right_field(book, pair(0, 3), candidate, &[0]);
    right(book, pair(0, 3), 0x3100_0001);
    // Node 4 is off, and its clock would allow the stamp.
    wrong(book, pair(4, 0), 0x3100_0001);
    wrong_field(book, pair(4, 0), candidate, &[1]);
}

/// The words of spares.
fn spares(book: &mut Book) {
    let spare = (0, 7);
    for (x, z) in [(0, 1), (0, 3), (4, 0)] {
        wrong_frame(book, pair(x, z) + 1, 7);
    }
    // Held by node 0: neither node 0 nor node 1.
    wrong_field(book, pair(0, 1) + 1, spare, &[0, 1, N, 63, 65, 127]);
    right_field(book, pair(0, 1) + 1, spare, &[3, 4, 64]);
    // Not held: none.
    wrong_field(book, pair(0, 3) + 1, spare, &[0, 1, 3, 4, N, 63, 65, 127]);
    wrong_field(book, pair(4, 0) + 1, spare, &[1, N, 65]);
}

/// The five words of a message of type `position + 1`.
fn message(book: &mut Book, position: usize) {
    let at = 8_321 + 5 * position;
    let (kind, sender, receiver, subject) = ((0, 4), (4, 6), (10, 6), (16, 7));
    let head = book.words()[at];
    let (from, to) = (head >> 4 & 63, head >> 10 & 63);
    wrong_frame(book, at, 23);
    wrong_field(book, at, kind, &[0, 14, 15]);
    wrong_field(book, at, sender, &[to, N, 63]);
    wrong_field(book, at, receiver, &[from, N, 63]);
    wrong_field(book, at, subject, &[N, 63, 65, 127]);
    match position + 1 {
        8 => {
            wrong_field(book, at, subject, &[from, to]);
            right_field(book, at, subject, &[3, 4, 64]);
        }
        9..=11 => {
            wrong_field(book, at, subject, &[64]);
            right_field(book, at, subject, &[0, 1, 2, 3, 4]);
        }
        13 => wrong_field(book, at, subject, &[from, to]),
        _ => wrong_field(book, at, subject, &[0, 4]),
    }
    stamp(book, position);
    view(book, position);
}

fn stamp(book: &mut Book, position: usize) {
    let at = 8_322 + 5 * position;
    wrong_frame(book, at, 24);
    match position + 1 {
        9 | 10 => right_field(book, at, (0, 24), &[0, 16_777_215]),
        _ => wrong_field(book, at, (0, 24), &[1, 16_777_215]),
    }
}

fn view(book: &mut Book, position: usize) {
    let at = 8_323 + 5 * position;
    [24, 24, 16].into_iter().enumerate().for_each(|(part, lowest)| wrong_frame(book, at + part, lowest));
    let seen = if position + 1 == 4 {
        // Not the receiver; the sender and nobody are fine.
        wrong_field(book, at, (0, 1), &[1]);
        right_field(book, at, (0, 24), &[0b11110, 0b00100, 0]);
        N
    } else {
        0
    };
    for s in [seen, 23, 24, 47, 48, 63] {
        wrong_field(book, at + s as usize / 24, (s % 24, 1), &[1]);
    }
}

/// "A word belonging to no stand, pair or message is wholly 0", and the places of a node with itself.
fn nobody(book: &mut Book) {
    let node = [5, 63].map(|x| 1 + 2 * x);
    let own = [(0, 0), (4, 4)].map(|(x, z)| pair(x, z));
    let beyond = [(0, 5), (0, 63), (5, 0), (5, 5), (5, 6), (63, 0), (63, 62), (63, 63)].map(|(x, z)| pair(x, z));
    for at in node {
        [1, 2 << 28 | 7].into_iter().for_each(|value| wrong(book, at, value));
        [1, 5 << 28].into_iter().for_each(|value| wrong(book, at + 1, value));
    }
    for at in own.into_iter().chain(beyond) {
        [1, 3 << 28].into_iter().for_each(|value| wrong(book, at, value));
        [1 << 31, 4 << 28 | 64].into_iter().for_each(|value| wrong(book, at + 1, value));
    }
    for at in (8_386..8_391).chain([8_391, 13_435, LENGTH - 1]) {
        [1, 1 << 31].into_iter().for_each(|value| wrong(book, at, value));
    }
}

/// Every other kind and every unnamed bit, in one word of each sort.
fn every_kind_and_bit(book: &mut Book) {
    let message = 8_321;
    for (at, lowest) in [
        (0, 26),
        (1, 25),
        (2, 24),
        (pair(0, 1), 26),
        (pair(0, 1) + 1, 7),
        (message, 23),
        (message + 1, 24),
        (message + 2, 24),
        (message + 3, 24),
        (message + 4, 16),
    ] {
        let word = book.words()[at];
        (1..16).for_each(|change| wrong_alone(book, at, word ^ change << 28));
        (lowest..28).for_each(|bit| wrong_alone(book, at, word ^ 1 << bit));
    }
}

/// A word wrong in a ring of one node, which is on.
fn smallest(book: &mut Book) {
    book.open_running(1, &[0]);
    for (at, value) in [(1, 0), (2, 0), (3, 0x2000_0001), (4, 0x5000_0000), (129, 0x3000_0000), (131, 0x3000_0000)] {
        wrong_alone(book, at, value);
    }
    for (at, value) in [(0, 0x1040_0001), (0, 0x1040_0021), (0, 0x1040_0811), (8_321, 0x6040_0401), (LENGTH - 1, 1)] {
        wrong_alone(book, at, value);
    }
}

/// The last word of each region wrong in a ring of 64 nodes, all on.
fn largest(book: &mut Book) {
    book.open_running(8, &spread(64));
    book.hold(63, 62, 1, 61);
    let first_key = look::key(book.words(), 0);
    for (at, value) in [
        (0, 0x1200_0418),
        (127, 0x2100_0000 | first_key),
        (127, 0x2000_0000 | look::key(book.words(), 63)),
        (128, 0x5000_0000),
        (pair(62, 63), 0x3000_0001),
        (pair(62, 63) + 1, 0x4000_003F),
        (pair(63, 62), 0x3100_0000),
        (pair(63, 62), 0x3100_0002),
        (pair(63, 62) + 1, 0x4000_003E),
        (pair(63, 62) + 1, 0x4000_003F),
        (pair(63, 63), 0x3000_0000),
        (pair(63, 63) + 1, 0x4000_0040),
    ] {
        wrong_alone(book, at, value);
    }
}

/// Damages a word and mends it, asking only for the groups.
fn wrong_alone(book: &mut Book, at: usize, value: u32) {
    let whole = book.words()[at];
    assert_ne!(value, whole);
    book.tally.damages += 1;
    book.set_word(at, value);
    book.groups(6);
    book.set_word(at, whole);
    book.groups(0);
}
