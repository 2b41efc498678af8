//! Previews: what each kind of event would leave, the refusals in their order, and what comes after a preview.

use super::book::{Book, Message};
use super::event_word::unnamed_bits;
use super::pool::{crowded, SIX};
use crate::events::*;
use crate::LENGTH;

const CLOCK_LIMIT: u32 = 16_777_215;

pub fn write(book: &mut Book) {
    book.section("previews");
    accepted(book);
    wrong_length(book);
    not_events(book);
    not_a_ring(book);
    by_state(book);
    spent_clock(book);
    full_pool(book);
    played_after(book);
    in_a_row(book);
}

/// Five nodes at A = B = 1, of which all but node 4 run. Node 0 lies before key 0 and holds 1, 2 and 3; node 2 is
/// outside its leafset and has a spare; node 4 is a candidate. Messages 0 to 7 go to node 0, message 8 to node 4.
fn five(book: &mut Book) {
    book.open(1, &[16_777_200, 100, 200, 300, 400], 0);
    (0..4).for_each(|x| book.play(on(x), 0));
    [(1, 64), (2, 3), (3, 64)].into_iter().for_each(|(z, spare)| book.hold(0, z, 1, spare));
    book.candidate(0, 4);
    let messages = [
        Message::new(1, 1, 0),
        Message::new(2, 4, 0),
        Message::new(3, 2, 0),
        Message::new(4, 1, 0).seeing(&[2, 3]),
        Message::new(7, 3, 0),
        Message::new(9, 1, 0).about(3).stamped(5),
        Message::new(10, 3, 0).about(2).stamped(2),
        Message::new(13, 1, 0),
        Message::new(5, 0, 4),
    ];
    messages.into_iter().for_each(|message| book.send(message));
}

/// An acceptable event of each kind on the ring of five.
fn acceptable() -> [u32; 9] {
    [on(4), off(0), leave(0), notice(0, 1), contact(0, 1), timer(0, 0), deliver(0), echo(0), lose(8)]
}

/// These, all timers, and the delivery and the echo of every message.
fn every_acceptable() -> impl Iterator<Item = u32> {
    let timers = (2..=4).map(|k| timer(0, k));
    acceptable().into_iter().chain(timers).chain((1..=8).flat_map(|i| [deliver(i), echo(i)])).chain([lose(0)])
}

/// Events that the ring of five refuses, by 7, 8 and 9.
fn refused() -> impl Iterator<Item = (u32, u32)> {
    let nodes = [on(5), off(63), leave(5), notice(0, 5), contact(5, 0), timer(5, 2)];
    let out_of_table = nodes.into_iter().chain([deliver(9), echo(9), lose(1_023)]);
    let switched_off = [off(4), leave(4), notice(4, 0), contact(4, 1), timer(4, 4)];
    let by = |answer: u32| move |word: u32| (word, answer);
    out_of_table.map(by(7)).chain(switched_off.into_iter().map(by(8))).chain([(on(0), 9)])
}

/// Other words in the second buffer, of two sorts.
fn old_words(book: &mut Book, number: u32) {
    book.fill_second(0, 9_000, number);
    book.fill_second(9_000, LENGTH as u32 + 1, !number);
}

/// A preview of each word, with a second buffer of the right length.
fn each(book: &mut Book, words: impl IntoIterator<Item = u32>, answer: u32) {
    words.into_iter().for_each(|word| book.preview(word, LENGTH, answer));
}

fn accepted(book: &mut Book) {
    five(book);
    for (number, word) in (1..).zip(every_acceptable()) {
        old_words(book, number);
        book.preview(word, LENGTH, 0);
    }
}

/// 1, by the ring, by the second buffer and by both, also where any other applies too.
fn wrong_length(book: &mut Book) {
    const LENGTHS: [(usize, usize); 12] = [
        (LENGTH, 0),
        (LENGTH, 1),
        (LENGTH, LENGTH - 1),
        (LENGTH, LENGTH + 1),
        (0, LENGTH),
        (1, LENGTH),
        (LENGTH - 1, LENGTH),
        (LENGTH + 1, LENGTH),
        (0, 0),
        (LENGTH - 1, LENGTH - 1),
        (LENGTH + 1, LENGTH + 1),
        (LENGTH - 1, LENGTH + 1),
    ];
    five(book);
    old_words(book, 100);
    let head = book.words()[0];
    for word in [head, u32::MAX] {
        book.set_word(0, word);
        for (lent, length) in LENGTHS {
            book.lend(lent);
            let refused = [0, u32::MAX, timer(0, 1), contact(1, 1), on(5), off(4), on(0)];
            acceptable().into_iter().chain(refused).for_each(|word| book.preview(word, length, 1));
            book.lend(LENGTH);
        }
    }
    book.set_word(0, head);
    book.preview(on(4), LENGTH, 0);
}

/// 4 and 5, on a ring and on words that are none.
fn not_events(book: &mut Book) {
    for damaged in [false, true] {
        five(book);
        old_words(book, 101);
        if damaged {
            book.set_word(0, 0);
        }
        each(book, (0..9).map(|kind| kind << 28), 4);
        each(book, unnamed_bits().step_by(5), 4);
        // At a node that runs, one that is off, and two that aren't there.
        each(book, [0, 4, 5, 63].into_iter().flat_map(|x| NO_TIMERS.map(|k| timer(x, k))), 4);
        each(book, [contact(0, 0) | 1 << 12, on(5) | 1 << 6], 4);
        each(book, [0, 4, 5, 63].into_iter().flat_map(|x| [contact(x, x), notice(x, x)]), 5);
    }
}

/// 6, by a word of each region, also where a higher one applies too; mended, the preview is accepted.
fn not_a_ring(book: &mut Book) {
    five(book);
    for (at, value) in [(0, u32::MAX), (2, 0), (129, 1), (8_321, 0), (LENGTH - 1, 1)] {
        let word = book.words()[at];
        old_words(book, at as u32);
        book.set_word(at, value);
        each(book, acceptable(), 6);
        each(book, refused().map(|(word, _)| word), 6);
        book.set_word(at, word);
        book.preview(contact(0, 1), LENGTH, 0);
    }
}

/// 7, 8 and 9.
fn by_state(book: &mut Book) {
    five(book);
    old_words(book, 102);
    refused().for_each(|(word, answer)| book.preview(word, LENGTH, answer));
}

/// 10, for each event that has the clock rise, and not for the others.
fn spent_clock(book: &mut Book) {
    five(book);
    old_words(book, 103);
    (0..5).for_each(|x| book.set_clock(x, CLOCK_LIMIT));
    each(book, [on(4), notice(0, 1), contact(0, 1), deliver(0), echo(0)], 10);
    each(book, TIMERS.map(|k| timer(0, k)), 10);
    book.preview(timer(0, 1), LENGTH, 4);
    refused().for_each(|(word, answer)| book.preview(word, LENGTH, answer));
    each(book, [off(0), leave(0), deliver(8), echo(8), lose(0)], 0);
}

/// 11; and what would be left of a full pool, over which a small ring's preview comes.
fn full_pool(book: &mut Book) {
    crowded(book, &SIX, 1_024);
    old_words(book, 104);
    book.hold(0, 1, 1, 64);
    each(book, [contact(0, 1), timer(0, 0), leave(0), echo(0), echo(1_023)], 11);
    book.preview(timer(0, 1), LENGTH, 4);
    each(book, [off(0), notice(0, 1), timer(1, 0), deliver(0), lose(1_023)], 0);
    book.open(1, &[5], 0);
    book.preview(on(1), LENGTH, 7);
    book.preview(on(0), LENGTH, 0);
}

/// A preview, then the event; and a preview, then another event.
fn played_after(book: &mut Book) {
    for word in every_acceptable() {
        five(book);
        book.preview(word, LENGTH, 0);
        book.play(word, 0);
    }
    for (word, answer) in refused() {
        five(book);
        book.preview(word, LENGTH, answer);
        book.play(word, answer);
        book.preview(off(0), LENGTH, 0);
        book.play(contact(0, 1), 0);
        book.play(deliver(9), 0);
    }
}

/// Previews over what others left: the same again, others, refused ones between them.
fn in_a_row(book: &mut Book) {
    five(book);
    for word in every_acceptable() {
        book.preview(word, LENGTH, 0);
        book.preview(word, LENGTH, 0);
        book.preview(on(0), LENGTH, 9);
    }
    each(book, every_acceptable(), 0);
    book.groups(0);
}
