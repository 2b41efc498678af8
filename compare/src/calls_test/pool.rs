//! The pool of messages filled to its end: refusal 11, alone and after the others.

use super::book::Book;
use crate::events::*;
use crate::{look, LENGTH};

const CLOCK_LIMIT: u32 = 16_777_215;

pub fn write(book: &mut Book) {
    book.section("pool");
    largest(book);
    smallest(book);
    last_places(book);
    invite_and_ask(book);
}

/// Six nodes: with node 0 free the others can have 1,024 messages.
pub const SIX: [u32; 6] = [10, 20, 30, 40, 50, 60];

/// Replays an opening with all nodes on and contacts: from one node to another, so many times.
pub fn contacted(book: &mut Book, keys: &[u32], contacts: &[(u32, u32, u32)]) {
    let n = keys.len() as u32;
    book.list(n, &(0..n).map(on).collect::<Vec<u32>>());
    let mut end = 2 * n;
    for &(x, y, times) in contacts {
        book.fill_list(end, end + times, contact(x, y));
        end += times;
    }
    book.replay(1, keys, end - n, 0);
}

/// So with as many contacts in all, of each node but node 0 an equal part, the last node's first: to node 1, and of
/// node 1 to node 0.
pub fn crowded(book: &mut Book, keys: &[u32], messages: u32) {
    let others = keys.len() as u32 - 1;
    let part = |x: u32| messages / others + (x <= messages % others) as u32;
    let contacts: Vec<(u32, u32, u32)> = (1..=others).rev().map(|x| (x, (x != 1) as u32, part(x))).collect();
    contacted(book, keys, &contacts);
}

/// 64 nodes with 1,024 messages. Node 0 lies before key 0 and holds all others, each with a spare; node 5 has a candidate.
fn largest(book: &mut Book) {
    crowded(book, &(0..64).map(|s| (16_777_200 + 100 * s) % 16_777_216).collect::<Vec<u32>>(), 1_024);
    (1..64).for_each(|z| book.hold(0, z, 1, z % 63 + 1));
    book.candidate(5, 7);
    book.groups(0);
    refused(book);
    accepted(book);
    // 6 before 11.
    let head = book.words()[0];
    book.set_word(0, head + (1 << 11));
    [contact(5, 0), timer(0, 0), deliver(0)].into_iter().for_each(|word| book.play(word, 6));
    book.groups(6);
    book.set_word(0, head);
    book.play(contact(5, 0), 11);
}

/// Each event that would send: a contact, a polite off and each timer. Before 11 come 4, 5, 8 and 10.
fn refused(book: &mut Book) {
    [contact(0, 1), contact(5, 0), timer(5, 0), leave(0)].into_iter().for_each(|word| book.play(word, 11));
    TIMERS.into_iter().for_each(|k| book.play(timer(0, k), 11));
    [contact(0, 1) | 1 << 27, timer(0, 1), timer(0, 5)].into_iter().for_each(|word| book.play(word, 4));
    book.play(contact(0, 0), 5);
    book.play(off(9), 0);
    [contact(9, 0), timer(9, 0)].into_iter().for_each(|word| book.play(word, 8));
    let clock = look::clock(book.words(), 0);
    book.set_clock(0, CLOCK_LIMIT);
    [contact(0, 1), timer(0, 0), timer(0, 3)].into_iter().for_each(|word| book.play(word, 10));
    book.set_clock(0, clock);
}

/// Events that send nothing, and deliveries: each takes its message out first, so that its answer has room.
fn accepted(book: &mut Book) {
    [on(9), leave(9), on(9), notice(0, 9), timer(6, 0), timer(7, 0), timer(5, 2), timer(5, 3), timer(5, 4)]
        .into_iter()
        .for_each(|word| book.play(word, 0));
    [deliver(1_023), deliver(0), deliver(500)].into_iter().for_each(|word| book.play(word, 0));
    assert_eq!(look::messages(book.words()), 1_024);
    // The newest is an answer now, which sends nothing.
    book.play(deliver(1_023), 0);
    book.play(contact(5, 0), 0);
    book.play(contact(5, 0), 11);
    book.play(lose(1_023), 0);
    book.play(lose(1_023), 7);
    book.play(deliver(1_023), 7);
    book.play(contact(5, 0), 0);
}

/// Five nodes with 1,024 messages, the fewest of which one can send no more by 11 alone: 7 before 11.
fn smallest(book: &mut Book) {
    crowded(book, &SIX[..5], 1_024);
    book.play(contact(0, 1), 11);
    [contact(0, 5), contact(5, 0), notice(0, 5), timer(5, 0), on(5)].into_iter().for_each(|word| book.play(word, 7));
    // The last contact of the list is refused.
    crowded(book, &SIX, 1_025);
    // Not every answer has a place.
    crowded(book, &SIX, 1_100);
}

/// A timer and a polite off that send two messages, with two places left, and with one.
fn last_places(book: &mut Book) {
    for (messages, answer) in [(1_021, 0), (1_022, 0), (1_023, 11), (1_024, 11)] {
        crowded(book, &SIX, messages);
        book.hold(0, 1, 1, 64);
        book.hold(0, 2, 1, 64);
        book.play(timer(0, 0), answer);
    }
    // A polite off likewise, with the clock spent: it is no 10.
    for (messages, answer) in [(1_022, 0), (1_023, 11), (1_024, 11)] {
        crowded(book, &SIX, messages);
        book.hold(0, 1, 1, 64);
        book.hold(0, 2, 1, 64);
        book.set_clock(0, CLOCK_LIMIT);
        book.play(leave(0), answer);
    }
}

/// Timer 0 at a node with two to invite and two to ask: all of it fits, the invitations fit and not all questions, not
/// even the invitations do. Refused, nothing of it is done; once there is room, all of it is.
fn invite_and_ask(book: &mut Book) {
    for messages in 1_019..=1_024 {
        crowded(book, &[100, 130, 90, 110, 16_777_200, 5_000_000], messages);
        [1, 4].into_iter().for_each(|z| book.hold(0, z, 1, 64));
        [2, 3, 5].into_iter().for_each(|z| book.candidate(0, z));
        for _ in 1_020..messages {
            book.preview(timer(0, 0), LENGTH, 11);
            book.play(timer(0, 0), 11);
            book.play(lose(0), 0);
        }
        book.preview(timer(0, 0), LENGTH, 0);
        book.invite_and_ask(&[2, 3], &[1, 4]);
        book.play(timer(0, 0), 11);
    }
}
