//! Refusals from the input and from the state, one at a time and together: "The lowest number that applies is given".

use super::book::{Book, Message};
use super::event_word::unnamed_bits;
use crate::events::*;
use crate::LENGTH;

const CLOCK_LIMIT: u32 = 16_777_215;

pub fn write(book: &mut Book) {
    book.section("refusals");
    wrong_length(book);
    not_events(book);
    out_of_table(book);
    switched_off(book);
    running(book);
    spent_clock(book);
}

/// Three nodes at L = 2, of which 0 and 1 run, and 0 holds 1; with two messages, the second to node 2.
fn three(book: &mut Book) {
    book.open(2, &[10, 20, 30], 0);
    book.play(on(0), 0);
    book.play(on(1), 0);
    book.hold(0, 1, 1, 64);
    book.send(Message::new(1, 1, 0));
    book.send(Message::new(5, 0, 2));
}

/// An acceptable event of each kind on the ring of three.
fn acceptable() -> [u32; 9] {
    [on(2), off(0), leave(0), notice(0, 1), contact(0, 1), timer(0, 0), deliver(0), echo(0), lose(1)]
}

/// 1, also where any other applies too.
fn wrong_length(book: &mut Book) {
    three(book);
    for length in [0, 1, LENGTH - 1, LENGTH + 1] {
        book.lend(length);
        acceptable().into_iter().for_each(|word| book.play(word, 1));
        [0, u32::MAX, timer(0, 1), contact(1, 1), on(3), off(2), on(0), deliver(9)]
            .into_iter()
            .for_each(|word| book.play(word, 1));
        [0, 2, 3, 255].into_iter().for_each(|x| {
            book.leafset(x, 1);
            book.connected(x, 0, 1);
        });
        book.groups(1);
        book.lend(LENGTH);
    }
    book.groups(0);
}

/// 4 and 5 before 6 to 11.
fn not_events(book: &mut Book) {
    for damaged in [false, true] {
        three(book);
        if damaged {
            book.set_word(0, 0);
        }
        (0..9).for_each(|kind| book.play(kind << 28, 4));
        unnamed_bits().for_each(|word| book.play(word, 4));
        // At a node that runs, one that is off, and two that aren't there.
        for x in [0, 2, 3, 63] {
            NO_TIMERS.into_iter().for_each(|k| book.play(timer(x, k), 4));
        }
        // An unnamed bit beside a node with itself, and one that runs.
        [contact(0, 0) | 1 << 12, notice(3, 3) | 1 << 27, on(0) | 1 << 6, lose(1_023) | 1 << 10]
            .into_iter()
            .for_each(|word| book.play(word, 4));
        [0, 2, 3, 63].into_iter().for_each(|x| {
            book.play(contact(x, x), 5);
            book.play(notice(x, x), 5);
        });
    }
    // 6, also where 7, 8 or 9 applies too.
    acceptable().into_iter().for_each(|word| book.play(word, 6));
    [on(3), off(63), deliver(2), lose(2), off(2), notice(2, 0), on(0)].into_iter().for_each(|word| book.play(word, 6));
    book.leafset(3, 6);
    book.leafset(2, 6);
    book.connected(3, 2, 6);
}

/// 7, also where 8 applies too.
fn out_of_table(book: &mut Book) {
    three(book);
    for x in [3, 63] {
        for word in [on(x), off(x), leave(x), notice(x, 0), notice(0, x), contact(x, 0), contact(0, x)] {
            book.play(word, 7);
        }
        TIMERS.into_iter().for_each(|k| book.play(timer(x, k), 7));
        // The other node is off.
        [notice(2, x), contact(2, x), notice(x, 2), contact(x, 2)].into_iter().for_each(|word| book.play(word, 7));
    }
    for position in [2, 1_023] {
        book.play(deliver(position), 7);
        book.play(lose(position), 7);
    }
    for x in [3, 63, 64, 255] {
        book.leafset(x, 7);
        book.connected(x, 0, 7);
        book.connected(0, x, 7);
        book.connected(x, x, 7);
        book.connected(2, x, 7);
        book.connected(x, 2, 7);
    }
}

/// 8.
fn switched_off(book: &mut Book) {
    three(book);
    for word in [off(2), leave(2), notice(2, 0), contact(2, 0)] {
        book.play(word, 8);
    }
    TIMERS.into_iter().for_each(|k| book.play(timer(2, k), 8));
    book.leafset(2, 8);
    book.connected(2, 0, 8);
    book.connected(0, 2, 8);
    book.connected(2, 2, 8);
    // The other node may be off.
    book.play(notice(0, 2), 0);
    book.play(contact(0, 2), 0);
}

/// 9, and 9 before 10.
fn running(book: &mut Book) {
    three(book);
    book.play(on(0), 9);
    book.play(on(1), 9);
    book.set_clock(0, CLOCK_LIMIT);
    book.play(on(0), 9);
}

/// 10, for each event that has the clock rise, and not for the others; 7 and 8 before it.
fn spent_clock(book: &mut Book) {
    three(book);
    book.candidate(0, 2);
    (0..3).for_each(|x| book.set_clock(x, CLOCK_LIMIT));
    for word in [on(2), notice(0, 1), notice(0, 2), contact(0, 1), deliver(0)] {
        book.play(word, 10);
    }
    TIMERS.into_iter().for_each(|k| book.play(timer(0, k), 10));
    book.play(timer(0, 1), 4);
    [on(3), notice(0, 3), contact(0, 3), deliver(2)].into_iter().for_each(|word| book.play(word, 7));
    [notice(2, 0), contact(2, 0), timer(2, 0), off(2)].into_iter().for_each(|word| book.play(word, 8));
    book.leafset(0, 0);
    book.connected(0, 1, 0);
    // To a node that is off, no clock must rise.
    [deliver(1), off(1), lose(0), leave(0)].into_iter().for_each(|word| book.play(word, 0));
    [on(0), on(1)].into_iter().for_each(|word| book.play(word, 10));
    // One below the limit, the clock rises once more.
    three(book);
    (0..3).for_each(|x| book.set_clock(x, CLOCK_LIMIT - 1));
    for word in [on(2), deliver(0), timer(1, 4)] {
        book.play(word, 0);
    }
    [timer(0, 0), timer(1, 4), timer(2, 0)].into_iter().for_each(|word| book.play(word, 10));
    // Timer 0 needs one step for its two parts.
    three(book);
    book.candidate(0, 2);
    book.set_clock(0, CLOCK_LIMIT - 1);
    book.invite_and_ask(&[2], &[1]);
    book.candidate(0, 2);
    book.play(timer(0, 0), 10);
}
