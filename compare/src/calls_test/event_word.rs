//! Reading and writing event words: the documents' rules, and the cases.

use super::book::Book;
use crate::events::*;
use crate::numbers;

/// The answer, and the event as a number: its kind and its two parts, four decimal digits each.
pub fn read(word: u32) -> (u32, u64) {
    match numbers::read(word).map(|numbers| numbers.map(u64::from)) {
        Ok([kind, first, second]) => (0, kind * 100_000_000 + first * 10_000 + second),
        Err(refusal) => (refusal, 0),
    }
}

/// The answer, and the word of the event of that kind with these parts.
pub fn write(kind: u32, first: u32, second: u32) -> (u32, u64) {
    let (fits, word) = match kind {
        9 => (first < 64, on(first)),
        10 => (first < 64, if second == 1 { leave(first) } else { off(first) }),
        11 => (first < 64 && second < 64, notice(first, second)),
        12 => (first < 64 && second < 64, contact(first, second)),
        13 => (first < 64 && TIMERS.contains(&second), timer(first, second)),
        14 => (first < 1_024, if second == 1 { echo(first) } else { deliver(first) }),
        _ => (first < 1_024, lose(first)),
    };
    if !fits {
        (4, 0)
    } else if (kind == 11 || kind == 12) && first == second {
        (5, 0)
    } else {
        (0, word as u64)
    }
}

pub fn write_cases(book: &mut Book) {
    book.section("event words");
    readings(book);
    writings(book);
}

fn readings(book: &mut Book) {
    for word in [on(0), on(63), off(0), off(63), leave(0), leave(63)] {
        book.read(word, 0);
    }
    for position in [0, 1, 512, 1_023] {
        [deliver(position), echo(position), lose(position)].into_iter().for_each(|word| book.read(word, 0));
        book.read(lose(position) | 1 << 10, 4);
    }
    for word in [notice(0, 1), notice(63, 62), notice(1, 0), contact(0, 1), contact(63, 62), contact(0, 63)] {
        book.read(word, 0);
    }
    for x in [0, 63] {
        TIMERS.iter().for_each(|&k| book.read(timer(x, k), 0));
        NO_TIMERS.iter().for_each(|&k| book.read(timer(x, k), 4));
    }
    (1..63).for_each(|x| book.read(timer(x, 1), 4));
    for x in [0, 1, 63] {
        book.read(notice(x, x), 5);
        book.read(contact(x, x), 5);
    }
    // Kinds that are no event's, with no other bit and with all.
    for kind in 0..9 {
        book.read(kind << 28, 4);
        book.read(kind << 28 | 0xFFF_FFFF, 4);
    }
    unnamed_bits().for_each(|word| book.read(word, 4));
}

/// An event of each kind with each of its unnamed bits.
pub fn unnamed_bits() -> impl Iterator<Item = u32> {
    let events = [
        (on(1), 6..28),
        (off(1), 6..12),
        (off(1), 13..28),
        (leave(1), 6..12),
        (leave(1), 13..28),
        (notice(1, 2), 12..28),
        (contact(1, 2), 12..28),
        (timer(1, 0), 6..12),
        (timer(1, 0), 15..28),
        (deliver(0), 11..28),
        (echo(0), 11..28),
        (lose(0), 10..28),
    ];
    events.into_iter().flat_map(|(word, bits)| bits.map(move |bit| word | 1 << bit))
}

fn writings(book: &mut Book) {
    for kind in [9, 10] {
        [0, 63].iter().for_each(|&x| book.write(kind, x, 0, 0));
        [64, 255].iter().for_each(|&x| book.write(kind, x, 0, 4));
    }
    [0, 63].iter().for_each(|&x| book.write(10, x, 1, 0));
    [64, 255].iter().for_each(|&x| book.write(10, x, 1, 4));
    for kind in [11, 12] {
        [(0, 1), (63, 62), (5, 63)].iter().for_each(|&(x, y)| book.write(kind, x, y, 0));
        [(64, 0), (0, 64), (255, 1), (63, 255)].iter().for_each(|&(x, y)| book.write(kind, x, y, 4));
        [0, 63].iter().for_each(|&x| book.write(kind, x, x, 5));
        // Both 4 and 5.
        book.write(kind, 64, 64, 4);
    }
    for x in [0, 63] {
        TIMERS.iter().for_each(|&k| book.write(13, x, k, 0));
        NO_TIMERS.iter().chain(&[8, 255]).for_each(|&k| book.write(13, x, k, 4));
    }
    [0, 1, 255].iter().for_each(|&k| book.write(13, 64, k, 4));
    for kind in [14, 15] {
        [0, 1, 1_023].iter().for_each(|&i| book.write(kind, i, 0, 0));
        [1_024, 65_535].iter().for_each(|&i| book.write(kind, i, 0, 4));
    }
    [0, 1, 1_023].iter().for_each(|&i| book.write(14, i, 1, 0));
    [1_024, 65_535].iter().for_each(|&i| book.write(14, i, 1, 4));
}
