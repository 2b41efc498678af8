//! Senders at their bound: "No sender may have more than 256 messages travelling." Refusal 17 at each event that sends,
//! its place among the others, and words that don't read as a ring by it.

use super::book::{Book, Message};
use super::echoes::{hold_three, to_node_0};
use super::pool::{contacted, SIX};
use super::steps::KEYS;
use crate::events::*;
use crate::{look, LENGTH};

const CLOCK_LIMIT: u32 = 16_777_215;

pub fn write(book: &mut Book) {
    book.section("senders");
    one_sender(book);
    every_sender(book);
    timers(book);
    polite_offs(book);
    answers(book);
    askers(book);
    lower_first(book);
    full_pool(book);
    lists(book);
    not_a_ring(book);
    by_a_changed_sender(book);
    only_written(book);
}

/// A preview, then the event.
fn shown(book: &mut Book, word: u32, answer: u32) {
    book.preview(word, LENGTH, answer);
    book.play(word, answer);
}

/// Of 257 contacts of one node the last is refused; the others may send, and a lost or delivered one makes room, an
/// echoed one none.
fn one_sender(book: &mut Book) {
    contacted(book, &SIX[..3], &[(0, 1, 257)]);
    assert_eq!(look::messages(book.words()), 256);
    [contact(0, 1), contact(0, 2)].into_iter().for_each(|word| shown(book, word, 17));
    [contact(1, 0), contact(2, 1), notice(0, 1), timer(0, 0)].into_iter().for_each(|word| shown(book, word, 0));
    // Another's makes no room.
    book.play(lose(256), 0);
    book.play(contact(0, 1), 17);
    for taken_out in [lose(0), deliver(0), lose(255), deliver(100)] {
        book.play(taken_out, 0);
        shown(book, contact(0, 2), 0);
        shown(book, contact(0, 2), 17);
    }
    book.echo(0);
    book.play(contact(0, 1), 17);
    // To a node that is off.
    book.play(off(2), 0);
    book.echo(255);
    book.play(contact(0, 1), 17);
    book.play(deliver(255), 0);
    book.play(contact(0, 1), 0);
    // Off and on again it has as many.
    [off(0), on(0)].into_iter().for_each(|word| book.play(word, 0));
    book.play(contact(0, 1), 17);
}

/// Nodes of a large ring, the first and the last among them, beside others just below and just there.
fn every_sender(book: &mut Book) {
    let keys: Vec<u32> = (0..64).map(|s| 1_000 * s).collect();
    for x in [0, 1, 23, 31, 32, 62, 63] {
        let beside = (x + 1) % 64;
        contacted(book, &keys, &[(beside, 5, 255), (x, 7, 256), (40, 7, 1)]);
        shown(book, contact(x, 9), 17);
        [contact(beside, 9), contact(40, 9)].into_iter().for_each(|word| book.play(word, 0));
        book.play(contact(beside, x), 17);
        book.groups(0);
    }
}

/// Timers that send two, from two places left to none: refused whole. At a node that holds nobody they send nothing.
fn timers(book: &mut Book) {
    for (messages, answer) in [(254, 0), (255, 17), (256, 17)] {
        for k in TIMERS {
            // Node 4 lies before key 0: timer 4 sends one.
            let answer = if k == 4 && messages == 255 { 0 } else { answer };
            contacted(book, &KEYS, &[(4, 1, messages)]);
            book.play(timer(4, k), 0);
            // Its leafset is nodes 2 and 5; nodes 0 and 1 are outside.
            [2, 5].into_iter().for_each(|z| book.hold(4, z, 1, 64));
            let outside = if k == 0 { &[][..] } else { &[0, 1] };
            outside.iter().for_each(|&z| book.hold(4, z, 1, 3));
            shown(book, timer(4, k), answer);
        }
    }
    // An invitation fits, and no question.
    contacted(book, &KEYS, &[(0, 1, 255)]);
    book.hold(0, 1, 1, 64);
    book.candidate(0, 3);
    shown(book, timer(0, 0), 17);
    book.play(lose(0), 0);
    book.invite_and_ask(&[3], &[1]);
    shown(book, timer(0, 0), 17);
}

/// A polite off that sends two, also with the clock spent, when it is no 10; an off that isn't polite sends none.
fn polite_offs(book: &mut Book) {
    for (messages, answer) in [(253, 0), (254, 0), (255, 17), (256, 17)] {
        for clock in [1_000, CLOCK_LIMIT] {
            contacted(book, &SIX[..3], &[(0, 1, messages)]);
            [1, 2].into_iter().for_each(|z| book.hold(0, z, 1, 64));
            book.set_clock(0, clock);
            shown(book, leave(0), answer);
            book.play(off(0), if answer == 0 { 8 } else { 0 });
        }
    }
    // Nobody is held.
    contacted(book, &SIX[..3], &[(0, 1, 256)]);
    shown(book, leave(0), 0);
}

/// Messages of each type to node 0, which has 255 in flight, then 256: an answer is refused then, by delivery and by
/// echo. The message that an echo leaves is another's.
fn answers(book: &mut Book) {
    for (message, answered) in to_node_0() {
        for messages in [255, 256] {
            let answer = if answered && messages == 256 { 17 } else { 0 };
            contacted(book, &KEYS, &[(0, 1, messages)]);
            hold_three(book);
            book.send(message);
            book.preview(echo(messages), LENGTH, answer);
            if answer == 0 {
                book.echo(messages);
            } else {
                book.play(echo(messages), 17);
            }
            // An answered echo has taken the last place.
            shown(book, deliver(messages), if answered { 17 } else { 0 });
        }
    }
}

/// The node that asks has 256: that matters to no answer of another's, echoed or not.
fn askers(book: &mut Book) {
    contacted(book, &SIX[..3], &[(0, 1, 256)]);
    (0..3).for_each(|_| book.echo(0));
    book.play(deliver(255), 0);
    book.play(contact(0, 1), 0);
    book.play(contact(1, 0), 0);
    let last = look::messages(book.words()) as u32 - 1;
    // Node 0 would answer.
    [deliver(last), echo(last)].into_iter().for_each(|word| shown(book, word, 17));
    book.play(lose(0), 0);
    shown(book, deliver(last - 1), 0);
}

/// 4, 5, 7, 8 and 10 before 17.
fn lower_first(book: &mut Book) {
    contacted(book, &SIX[..3], &[(2, 0, 1), (0, 1, 256)]);
    book.hold(0, 1, 1, 64);
    let each = |book: &mut Book, words: &[u32], answer: u32| {
        words.iter().for_each(|&word| shown(book, word, answer));
    };
    each(book, &[contact(0, 1), timer(0, 0), leave(0), deliver(0), echo(0)], 17);
    each(book, &[contact(0, 1) | 1 << 27, timer(0, 1), leave(0) | 1 << 13, deliver(0) | 1 << 11], 4);
    each(book, &[contact(0, 0)], 5);
    each(book, &[contact(0, 3), timer(3, 0), leave(3), deliver(257), echo(257)], 7);
    book.set_clock(0, CLOCK_LIMIT);
    each(book, &[contact(0, 1), timer(0, 0), deliver(0), echo(0)], 10);
    each(book, &[leave(0)], 17);
    book.play(off(0), 0);
    each(book, &[contact(0, 1), timer(0, 0), leave(0)], 8);
    each(book, &[echo(0), deliver(0)], 0);
}

/// 11 where both apply, and 17 once another's message is lost; of five nodes the fifth gets 11 alone. A delivery takes
/// its message out first: it can be refused with 17 alone.
fn full_pool(book: &mut Book) {
    let full = [(1, 0, 256), (2, 0, 256), (3, 0, 256), (4, 1, 256)];
    contacted(book, &SIX[..5], &full);
    for word in [contact(1, 0), contact(4, 0), contact(0, 1), echo(1_023), echo(0)] {
        shown(book, word, 11);
    }
    book.preview(deliver(1_023), LENGTH, 17);
    book.play(deliver(1_023), 17);
    book.preview(deliver(0), LENGTH, 0);
    book.play(lose(300), 0);
    [contact(1, 0), contact(4, 0), echo(1_022)].into_iter().for_each(|word| shown(book, word, 17));
    book.play(contact(0, 1), 0);
    shown(book, contact(1, 0), 11);
    // A timer that would pass both, by two where one is left.
    contacted(book, &SIX[..5], &[(1, 0, 256), (2, 0, 256), (3, 0, 256), (4, 0, 255)]);
    [0, 1].into_iter().for_each(|z| book.hold(4, z, 1, 64));
    shown(book, timer(4, 0), 11);
    shown(book, leave(4), 11);
    book.play(lose(0), 0);
    shown(book, timer(4, 0), 17);
    book.play(lose(1_021), 0);
    shown(book, timer(4, 0), 0);
    // Of four nodes none can get 11 alone.
    contacted(book, &SIX[..4], &[(0, 1, 256), (1, 0, 256), (2, 0, 256), (3, 0, 256)]);
    (0..4).for_each(|x| shown(book, contact(x, (x + 1) % 4), 11));
}

/// Refused, lost and accepted in one list: what is lost counts no more.
fn lists(book: &mut Book) {
    let list = [
        (contact(0, 1), 0),
        (contact(0, 1), 17),
        (lose(0), 0),
        (contact(0, 2), 0),
        (contact(0, 2), 17),
        (contact(1, 0), 0),
        (deliver(256), 17),
        (echo(256), 17),
        (lose(0), 0),
        (lose(0), 0),
        (echo(254), 0),
        (deliver(254), 0),
        (leave(0), 0),
        (on(0), 0),
        (timer(0, 0), 0),
        (contact(0, 1), 17),
    ];
    let (words, given): (Vec<u32>, Vec<u8>) = list.into_iter().unzip();
    for places in [list.len(), 3, 0] {
        contacted(book, &SIX[..3], &[(0, 1, 255)]);
        book.list(0, &words);
        book.play_all(0, &given, places, 0);
    }
}

/// All calls on words that don't read as a ring, and where a lower number comes first.
fn refused_by_6(book: &mut Book) {
    let events = [on(2), off(0), leave(0), notice(0, 1), contact(1, 2), timer(0, 0), deliver(0), echo(0), lose(0)];
    for word in events.into_iter().chain([lose(256), contact(0, 9), contact(0, 1), on(0), deliver(1_023)]) {
        shown(book, word, 6);
    }
    [0, contact(0, 1) | 1 << 27, timer(0, 1), lose(0) | 1 << 10].into_iter().for_each(|word| shown(book, word, 4));
    [contact(1, 1), notice(9, 9)].into_iter().for_each(|word| shown(book, word, 5));
    book.list(0, &[lose(0), contact(0, 1)]);
    book.play_all(0, &[0, 0], 2, 6);
    [0, 9].into_iter().for_each(|x| _ = book.leafset(x, 6));
    book.connected(0, 1, 6);
    book.groups(6);
    book.route_refused(0, 1 << 24, 3, 6);
    book.reach_refused(9, 20, 6);
    book.screens_refused(6);
    book.join([LENGTH; 2], 6);
    book.join_itself(LENGTH, 6);
}

/// And with a wrong length.
fn refused_by_1(book: &mut Book) {
    for length in [0, LENGTH - 1, LENGTH + 1] {
        book.lend(length);
        [lose(0), 0, contact(0, 0)].into_iter().for_each(|word| book.play(word, 1));
        book.preview(lose(0), LENGTH, 1);
        book.play_all(0, &[0], 1, 1);
        book.leafset(0, 1);
        book.connected(0, 1, 1);
        book.groups(1);
        book.route_refused(0, 20, 64, 1);
        book.reach_refused(0, 20, 1);
        book.screens_refused(1);
        book.join([LENGTH; 2], 1);
        book.lend(LENGTH);
    }
}

/// 256 of one sender and one of another, whose sender becomes the first: 257.
fn overfull(book: &mut Book, keys: &[u32]) {
    contacted(book, keys, &[(0, 1, 256), (2, 1, 1)]);
    let at = 8_321 + 5 * 256;
    book.set_word(at, book.words()[at] & !(63 << 4));
}

/// 257 messages of one sender. With one of them taken out by hand the words read again.
fn not_a_ring(book: &mut Book) {
    let other = [100, 200];
    book.open(1, &other, 0);
    book.keep();
    overfull(book, &SIX[..3]);
    refused_by_6(book);
    refused_by_1(book);
    let head = book.words()[0];
    book.set_word(0, head - (1 << 11));
    book.groups(6);
    (0..5).for_each(|part| book.set_word(8_321 + 5 * 256 + part, 0));
    book.groups(0);
    book.play(contact(0, 1), 17);
    book.play(lose(0), 0);
    book.play(contact(0, 1), 0);
    book.open(1, &other, 0);
    overfull(book, &SIX[..3]);
    book.keep();
    book.open(1, &other, 0);
    book.join([LENGTH; 2], 6);
    book.send(Message::new(1, 0, 1));
    book.join([LENGTH; 2], 6);
}

/// The sender of one message changed, at several places, to one that has 256, 255 or fewer; and two at the bound.
fn by_a_changed_sender(book: &mut Book) {
    for (contacts, position, answer) in [
        (&[(4, 1, 1), (0, 1, 256)][..], 0, 6),
        (&[(0, 1, 100), (4, 1, 1), (0, 1, 156)], 100, 6),
        (&[(0, 1, 256), (4, 1, 1)], 256, 6),
        (&[(0, 1, 255), (4, 1, 1)], 255, 0),
        (&[(4, 1, 256), (0, 1, 256)], 0, 6),
        (&[(4, 1, 256), (0, 1, 255)], 255, 0),
        (&[(4, 1, 256), (3, 1, 256), (2, 1, 256), (0, 1, 256)], 511, 6),
        (&[(4, 1, 256), (3, 1, 256), (2, 1, 256), (0, 1, 255), (5, 1, 1)], 1_023, 0),
        (&[(4, 1, 200), (3, 1, 200), (2, 1, 200), (0, 1, 256)], 599, 6),
    ] {
        contacted(book, &SIX, contacts);
        let at = 8_321 + 5 * position;
        let whole = book.words()[at];
        book.set_word(at, whole & !(63 << 4));
        book.groups(answer);
        shown(book, notice(5, 0), answer);
        book.set_word(at, whole);
        book.groups(0);
        shown(book, contact(5, 0), if look::messages(book.words()) == 1_024 { 11 } else { 0 });
    }
}

/// "buffers that are only written to are not looked at": a preview's second, a join's third and what is opened over.
fn only_written(book: &mut Book) {
    overfull(book, &SIX[..3]);
    book.keep();
    book.open(1, &[100, 200], 0);
    book.preview(on(0), LENGTH, 0);
    overfull(book, &SIX[..3]);
    let over = book.words().to_vec();
    book.groups(6);
    for (at, &word) in over.iter().enumerate().filter(|(_, word)| **word != 0) {
        book.fill_third(at as u32, at as u32 + 1, word);
    }
    book.open(1, &[100, 200], 0);
    book.keep();
    book.open(1, &[7], 0);
    book.joined();
}
