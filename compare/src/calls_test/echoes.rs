//! Echoes: "A deliver event with bit 10 set delivers and leaves the message in its position."

use super::book::{pair, Book, Message};
use super::pool::crowded;
use super::steps::{six, six_holding, KEYS};
use crate::events::*;
use crate::{look, LENGTH};

const CLOCK_LIMIT: u32 = 16_777_215;

pub fn write(book: &mut Book) {
    book.section("echoes");
    each_type(book);
    positions(book);
    ten_times(book);
    bites_once(book);
    again(book);
    switched_off(book);
    past_the_last(book);
    spent_clock(book);
    full_pool(book);
    one_place_left(book);
    lists(book);
}

/// Messages of each type to node 0, and whether it sends one on each while it holds 1, 2 and 3.
pub fn to_node_0() -> [(Message, bool); 16] {
    [
        (Message::new(1, 4, 0), true),
        (Message::new(2, 4, 0), false),
        (Message::new(3, 1, 0), true),
        (Message::new(4, 1, 0).seeing(&[1, 3, 4, 5]), false),
        (Message::new(5, 4, 0), true),
        (Message::new(6, 4, 0), false),
        (Message::new(7, 5, 0), true),
        (Message::new(8, 1, 0).about(4), false),
        // Of a subject that is held, and of one that isn't.
        (Message::new(9, 5, 0).about(1).stamped(3), true),
        (Message::new(9, 5, 0).about(4).stamped(3), false),
        // Below the stamp, and not.
        (Message::new(10, 5, 0).about(1).stamped(7), false),
        (Message::new(10, 5, 0).about(1).stamped(6), false),
        // About another, and about the receiver.
        (Message::new(11, 4, 0).about(5), true),
        (Message::new(11, 4, 0).about(0), false),
        (Message::new(12, 4, 0), false),
        (Message::new(13, 1, 0), false),
    ]
}

/// Node 0 holds 1, 2 and 3; node 1 lies outside its leafset, has commit 6 and spare 5, and is a candidate, too.
pub fn hold_three(book: &mut Book) {
    [2, 3].into_iter().for_each(|z| book.hold(0, z, 5, 64));
    book.hold(0, 1, 6, 5);
    book.candidate(0, 1);
}

/// An echo of each type, three times, between two messages that stay where they are; then the delivery, and the loss.
fn each_type(book: &mut Book) {
    for (message, answered) in to_node_0() {
        six(book);
        hold_three(book);
        book.send(Message::new(3, 1, 4));
        book.send(message);
        book.send(Message::new(12, 4, 2));
        (0..3).for_each(|_| book.echo(1));
        assert_eq!(look::clock(book.words(), 0), 23);
        book.play(deliver(1), 0);
        assert_eq!(look::messages(book.words()), if answered { 2 + 4 } else { 2 });
    }
    // On 6 the sender is taken in; on 11 nobody is held, or the successor passes zero.
    six_holding(book, &[2]);
    book.send(Message::new(6, 3, 0));
    (0..2).for_each(|_| book.echo(0));
    for held in [&[][..], &[0]] {
        six(book);
        held.iter().for_each(|&z| book.hold(4, z, 1, 64));
        book.send(Message::new(11, 1, 4).about(3));
        (0..2).for_each(|_| book.echo(0));
    }
}

/// The oldest, the newest and those between; new messages go to the end.
fn positions(book: &mut Book) {
    six(book);
    [1, 2, 3, 4, 5].into_iter().for_each(|y| book.play(contact(0, y), 0));
    [0, 4, 2, 5, 7, 0].into_iter().for_each(|position| book.echo(position));
    [deliver(2), lose(0), deliver(0), lose(5)].into_iter().for_each(|word| book.play(word, 0));
    (0..look::messages(book.words()) as u32).for_each(|position| book.echo(position));
}

/// One message ten times: ten answers, each after the others.
fn ten_times(book: &mut Book) {
    for kind in [1, 3, 5, 7] {
        six_holding(book, &[1, 2, 3]);
        book.send(Message::new(kind, 4, 0));
        (0..10).for_each(|_| book.echo(0));
        assert_eq!(look::messages(book.words()), 11);
        assert_eq!(look::clock(book.words(), 0), 30);
    }
}

/// An acknowledgement ten times: the first lets go. Held again, with the same spare, node 1 stays.
fn bites_once(book: &mut Book) {
    six(book);
    hold_three(book);
    book.send(Message::new(10, 5, 0).about(1).stamped(7));
    for count in 1..=10 {
        book.echo(0);
        assert!(!look::holds(book.words(), 0, 1) && look::holds(book.words(), 0, 5));
        // Node 5's commit is the first echo's now.
        assert_eq!(book.words()[pair(0, 5)] & 0xFF_FFFF, 21);
        assert_eq!(look::clock(book.words(), 0), 20 + count);
    }
    book.hold(0, 1, 30, 5);
    book.echo(0);
    book.play(deliver(0), 0);
    assert!(look::holds(book.words(), 0, 1));
}

/// A request raises the commit each time; type 13 lets go of a node that was taken in again; type 2 takes it in again
/// after a notice.
fn again(book: &mut Book) {
    six(book);
    hold_three(book);
    book.send(Message::new(9, 5, 0).about(1).stamped(3));
    for now in [21, 22] {
        book.echo(0);
        assert_eq!(book.words()[pair(0, 1)] & 0xFF_FFFF, now);
    }
    six(book);
    [Message::new(13, 1, 0), Message::new(2, 1, 0)].into_iter().for_each(|message| book.send(message));
    for _ in 0..2 {
        book.echo(1);
        assert!(look::holds(book.words(), 0, 1));
        book.echo(0);
        assert!(!look::holds(book.words(), 0, 1));
    }
    book.echo(1);
    book.play(notice(0, 1), 0);
    book.echo(1);
    assert!(look::holds(book.words(), 0, 1));
}

/// "To a stand that is off": accepted, and no word changes; on again, the message is there.
fn switched_off(book: &mut Book) {
    six(book);
    let messages = to_node_0();
    messages.iter().for_each(|&(message, _)| book.send(message));
    book.play(off(0), 0);
    let before = book.words().to_vec();
    (0..messages.len() as u32).for_each(|position| book.echo(position));
    assert!(book.words() == before);
    book.set_clock(0, CLOCK_LIMIT);
    book.echo(3);
    book.set_clock(0, 20);
    book.play(deliver(2), 0);
    book.play(on(0), 0);
    book.echo(0);
    // The sender is off: the answer travels all the same.
    book.play(off(4), 0);
    book.echo(0);
}

/// 7, without a message and with some; 6 and 1 before it, and 4 before these.
fn past_the_last(book: &mut Book) {
    six(book);
    [0, 1, 1_023].into_iter().for_each(|position| book.play(echo(position), 7));
    book.send(Message::new(1, 4, 0));
    book.send(Message::new(1, 0, 4));
    book.play(off(4), 0);
    [2, 3, 1_023].into_iter().for_each(|position| book.play(echo(position), 7));
    book.set_clock(0, CLOCK_LIMIT);
    book.play(echo(2), 7);
    let head = book.words()[0];
    book.set_word(0, 0);
    [0, 1, 2].into_iter().for_each(|position| book.play(echo(position), 6));
    book.play(echo(0) | 1 << 11, 4);
    for length in [0, LENGTH - 1, LENGTH + 1] {
        book.lend(length);
        [echo(0), echo(2), echo(0) | 1 << 11].into_iter().for_each(|word| book.play(word, 1));
        book.lend(LENGTH);
    }
    book.set_word(0, head);
}

/// 10 where the receiver runs, whatever the type; one below the limit, once.
fn spent_clock(book: &mut Book) {
    six(book);
    hold_three(book);
    let messages = to_node_0();
    messages.iter().for_each(|&(message, _)| book.send(message));
    book.set_clock(0, CLOCK_LIMIT);
    (0..messages.len() as u32).for_each(|position| book.play(echo(position), 10));
    book.set_clock(0, CLOCK_LIMIT - 1);
    book.echo(0);
    book.play(echo(0), 10);
    book.play(deliver(0), 10);
    book.play(lose(0), 0);
}

/// "Refusal 11 counts the message that stays": of 1,024, an echo is refused where it is answered. The delivery at the
/// same place is not, and 10 comes before 11.
fn full_pool(book: &mut Book) {
    for (message, answered) in to_node_0() {
        crowded(book, &KEYS, 1_023);
        book.set_clock(0, CLOCK_LIMIT);
        hold_three(book);
        book.send(message);
        book.play(echo(1_023), 10);
        book.set_clock(0, 20);
        if answered {
            book.preview(echo(1_023), LENGTH, 11);
            book.play(echo(1_023), 11);
        } else {
            book.preview(echo(1_023), LENGTH, 0);
            book.echo(1_023);
        }
        book.play(deliver(1_023), 0);
        assert_eq!(look::messages(book.words()), if answered { 1_024 } else { 1_023 });
    }
    // The oldest and one in the middle; node 1, to which they go, is off.
    crowded(book, &KEYS, 1_024);
    [0, 500].into_iter().for_each(|position| book.play(echo(position), 11));
    book.play(deliver(500), 0);
    book.echo(1_023);
    book.play(echo(0), 11);
    book.play(off(1), 0);
    [0, 500].into_iter().for_each(|position| book.echo(position));
}

/// One place: an echo that is answered takes it, and the next is refused until there is one again.
fn one_place_left(book: &mut Book) {
    crowded(book, &KEYS, 1_023);
    book.echo(1_022);
    for position in [0, 1_022] {
        book.play(echo(position), 11);
        book.play(lose(1_023), 0);
        book.echo(position);
        book.play(echo(position), 11);
    }
}

/// Lists with echoes, replayed and on a ring that is there; and one message echoed until its receiver may send no more.
fn lists(book: &mut Book) {
    let script = [
        (on(0), 0),
        (on(1), 0),
        (echo(0), 7),
        (contact(0, 1), 0),
        (echo(0), 0),
        (echo(0), 0),
        (echo(2), 0),
        (echo(3), 7),
        (echo(1) | 1 << 11, 4),
        (lose(1) | 1 << 10, 4),
        (deliver(0), 0),
        (echo(1), 0),
        (off(0), 0),
        (echo(1), 0),
        (deliver(1), 0),
        (on(0), 0),
        (echo(0), 0),
        (lose(0), 0),
        (lose(0), 0),
        (echo(0), 7),
    ];
    let (words, answers): (Vec<u32>, Vec<u8>) = script.into_iter().unzip();
    let keys = [10, 20, 30];
    book.list(3, &words);
    (0..=words.len() as u32).for_each(|length| book.replay(1, &keys, length, 0));
    assert!(book.places()[..words.len()] == answers);
    for places in [words.len(), 12] {
        book.open(1, &keys, 0);
        book.play_all(3, &answers, places, 0);
    }
    let mut answers = [0; 260];
    answers[256..].fill(17);
    book.open_running(1, &keys);
    book.play(contact(0, 1), 0);
    book.fill_list(0, 260, echo(0));
    book.play_all(0, &answers, 260, 0);
    assert_eq!(look::messages(book.words()), 257);
}
