//! Lists of words on a ring that is there, by one call: the places that take the answers, and the two refusals.

use super::book::{Book, Message};
use super::pool::SIX;
use crate::events::*;
use crate::LENGTH;

const KEYS: [u32; 3] = [10, 20, 30];
const CLOCK_LIMIT: u32 = 16_777_215;

/// All places of the machine.
const PLACES: usize = 1_040;

pub fn write(book: &mut Book) {
    book.section("lists");
    more_words_than_places(book);
    short(book);
    refused_words(book);
    wrong_length(book);
    not_a_ring(book);
}

/// 1,200 words, which fill the pool: the last are refused by 11, or by 17 where they are all of one node, and past the
/// places they are dropped.
fn more_words_than_places(book: &mut Book) {
    for (senders, accepted, refusal) in [(5, 1_024, 11), (1, 256, 17)] {
        let mut answers = [0; 1_200];
        answers[accepted..].fill(refusal);
        for places in [PLACES, 3, 0] {
            book.open_running(1, &SIX);
            let part = 1_200 / senders;
            (0..senders).for_each(|x| book.fill_list(part * x, part * (x + 1), contact(x, 5)));
            book.play_all(0, &answers, places, 0);
        }
    }
    // Every place takes a refusal, so that an accepted word later is seen.
    book.fill_list(0, 1_200, 0);
    book.play_all(0, &[4; 1_200], PLACES, 0);
}

/// No word, one, and two, with fewer places, as many and more.
fn short(book: &mut Book) {
    book.open(1, &KEYS, 0);
    book.list(0, &[on(0), on(1)]);
    for places in [0, 1, PLACES] {
        book.play_all(0, &[], places, 0);
        book.play_all(0, &[0], places, 0);
        book.play(off(0), 0);
        book.play_all(0, &[0, 0], places, 0);
        book.play(off(0), 0);
        book.play(off(1), 0);
        book.play_all(1, &[0], places, 0);
        book.play(off(1), 0);
    }
}

/// Refused words between accepted ones, each played on what the one before left.
fn refused_words(book: &mut Book) {
    let list = [
        (on(2), 10),
        (on(0), 0),
        (on(0), 9),
        (on(3), 7),
        (contact(0, 1), 0),
        (contact(1, 0), 8),
        (contact(1, 1), 5),
        (0, 4),
        (deliver(0) | 1 << 20, 4),
        (deliver(0), 0),
        (deliver(0), 7),
        (on(1), 0),
        (contact(0, 1), 0),
        (deliver(0), 0),
        (deliver(0), 0),
        (lose(0), 7),
        (timer(0, 1), 4),
        (timer(0, 0), 0),
        (timer(2, 1), 4),
    ];
    let (words, answers): (Vec<u32>, Vec<u8>) = list.into_iter().unzip();
    for (places, length) in [(PLACES, 19), (19, 19), (5, 19), (19, 5), (18, 19), (1, 11)] {
        book.open(1, &KEYS, 0);
        book.set_clock(2, CLOCK_LIMIT);
        book.list(0, &words);
        book.play_all(0, &answers[..length], places, 0);
    }
}

/// Node 0 runs, with a message to it, and the list would be accepted.
fn ready(book: &mut Book) {
    book.open(1, &KEYS, 0);
    book.play(on(0), 0);
    book.send(Message::new(3, 1, 0));
    book.list(0, &[contact(0, 1), deliver(0), off(0)]);
}

/// 1, also where 6 applies too.
fn wrong_length(book: &mut Book) {
    ready(book);
    for word in [book.words()[0], u32::MAX] {
        book.set_word(0, word);
        for length in [0, 1, LENGTH - 1, LENGTH + 1] {
            book.lend(length);
            book.play_all(0, &[0; 3], PLACES, 1);
            book.play_all(0, &[], PLACES, 1);
            book.play_all(0, &[0; 3], 0, 1);
            book.lend(LENGTH);
        }
    }
}

/// 6, by a word of each region; mended, the list is played.
fn not_a_ring(book: &mut Book) {
    ready(book);
    for (at, value) in [(0, u32::MAX), (2, 0), (129, 1), (8_321, 0), (LENGTH - 1, 1)] {
        let word = book.words()[at];
        book.set_word(at, value);
        book.play_all(0, &[0; 3], PLACES, 6);
        book.play_all(0, &[], PLACES, 6);
        book.play_all(0, &[0; 3], 0, 6);
        // Words that are no events: 6 all the same.
        book.play_all(3, &[0; 2], 2, 6);
        book.set_word(at, word);
    }
    book.play_all(0, &[0; 3], PLACES, 0);
}
