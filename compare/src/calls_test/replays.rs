//! Replays: an opening's refusals, and words of every sort played one after the other.

use super::book::Book;
use crate::events::*;
use crate::ring::Sides;
use crate::LENGTH;

/// A script of each mix but the talkative one, and one with many echoes, drawn once and kept: later changes of the mixes
/// leave the cases as they are.
const STORED: [&[u8]; 5] = [
    include_bytes!("replayed/gentle.bin"),
    include_bytes!("replayed/chaos.bin"),
    include_bytes!("replayed/garbage.bin"),
    include_bytes!("replayed/replacement.bin"),
    include_bytes!("replayed/echoes.bin"),
];

pub fn write(book: &mut Book) {
    book.section("replays");
    refused(book);
    every_answer(book);
    stored(book);
}

/// 1, 2 and 3: neither a word nor a place is written.
fn refused(book: &mut Book) {
    book.list(0, &[10, 20, on(0), on(1), contact(0, 1)]);
    for length in [0, LENGTH - 1, LENGTH + 1] {
        book.lend(length);
        book.replay(1, &[10, 20], 3, 1);
        book.replay(0, &[10, 20], 3, 1);
        book.lend(LENGTH);
    }
    book.replay(0, &[10, 20], 3, 2);
    book.replay(9, &[10, 20], 3, 2);
    book.replay(1, &[], 3, 2);
    book.replay(1, &[10, 10], 3, 3);
    book.replay(1, &[10, 16_777_216], 3, 3);
    book.replay(0, &[10, 10], 3, 2);
}

/// A list that is answered with each number that a list can reach, but for 11; and no list.
fn every_answer(book: &mut Book) {
    let keys = [10, 20, 30];
    let script = [
        on(0),
        on(0),
        on(3),
        contact(0, 1),
        contact(1, 0),
        contact(1, 1),
        0,
        deliver(0) | 1 << 20,
        deliver(0),
        on(1),
        contact(0, 1),
        deliver(0),
        deliver(0),
        deliver(0),
        timer(0, 0),
        timer(0, 1),
        timer(0, 5),
        off(2),
        lose(0),
    ];
    book.list(3, &script);
    (0..=script.len() as u32).for_each(|length| book.replay(1, &keys, length, 0));
}

/// Routes and reaches from each node to a few others' keys, and halfway to them.
fn routes(book: &mut Book, n: u32, keys: &[u32]) {
    for start in 0..n {
        for ahead in [1, n / 2, n - 1] {
            let (from, to) = (keys[start as usize], keys[((start + ahead) % n) as usize]);
            let halfway = from.wrapping_add((to.wrapping_sub(from) & 0xFF_FFFF) / 2) & 0xFF_FFFF;
            for key in [to, halfway] {
                book.route_any(start, key);
                book.reach_any(start, key);
            }
        }
    }
}

/// "Previews inserted in a list of events change no later answer": of the word itself, and of one that comes later.
fn previewed(book: &mut Book, events: &[u32], answers: &[u8]) {
    for (place, (&word, &answer)) in events.iter().zip(answers).enumerate() {
        book.preview_any(events[(place + 7) % events.len()]);
        book.preview(word, LENGTH, answer as u32);
        book.play(word, answer as u32);
    }
}

/// Stored scripts, played word by word, replayed, by one call on the ring that is opened first, and with previews between
/// the words.
fn stored(book: &mut Book) {
    for script in STORED {
        let words: Vec<u32> = script.chunks_exact(4).map(|word| u32::from_le_bytes(word.try_into().unwrap())).collect();
        let (sides, n) = (Sides::of_word(words[0]), words[0] >> 4 & 127);
        let (keys, events) = words[1..].split_at(n as usize);
        let keys: Vec<u32> = keys.iter().map(|word| word & 0xFF_FFFF).collect();
        book.open(sides, &keys, 0);
        events.iter().for_each(|&word| book.play_any(word));
        book.groups(0);
        routes(book, n, &keys);
        book.list(n, events);
        book.replay(sides, &keys, events.len() as u32, 0);
        let answers = book.places()[..events.len()].to_vec();
        book.open(sides, &keys, 0);
        book.play_all(n, &answers, answers.len(), 0);
        book.open(sides, &keys, 0);
        previewed(book, events, &answers);
    }
}
