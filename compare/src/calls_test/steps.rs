//! Accepted events: each kind, each timer, the delivery of each message type, and each side of each rule.

use super::book::{pair, Book, Message};
use super::openings::spread;
use crate::events::*;
use crate::look;

/// Node 0 has key 100. At L = 1 its leafset among all the others is nodes 3 and 2.
pub const KEYS: [u32; 6] = [100, 130, 90, 110, 16_777_200, 5_000_000];

pub fn write(book: &mut Book) {
    book.section("steps");
    worked_example(book);
    leafsets(book);
    switching(book);
    leaving(book);
    contact_and_notice(book);
    views(book);
    invitations(book);
    spares(book);
    requests(book);
    acknowledgements(book);
    zero(book);
    taking_out(book);
    connection(book);
    many(book);
}

/// The ring of six at L = 1, all on, with clock 20 at node 0.
pub fn six(book: &mut Book) {
    book.open_running(1, &KEYS);
    book.set_clock(0, 20);
}

/// On the ring of six, node 0 holds these, without spares.
pub fn six_holding(book: &mut Book, held: &[u32]) {
    six(book);
    held.iter().for_each(|&z| book.hold(0, z, 5, 64));
}

/// Delivers the message alone to its receiver.
fn receive(book: &mut Book, message: Message) {
    book.send(message);
    book.play(deliver(0), 0);
}

fn worked_example(book: &mut Book) {
    book.open(1, &[10, 20, 30], 0);
    let events = [on(0), on(1), contact(0, 1), deliver(0), deliver(0)];
    events.into_iter().for_each(|word| book.play(word, 0));
    book.play(deliver(0), 7);
    assert_eq!(book.groups(0), 1);
}

/// Points 4 to 6, and sets around A + B.
fn leafsets(book: &mut Book) {
    for (held, leafset) in [(&[1, 2, 3][..], 0b1010), (&[1], 0b10), (&[1, 2], 0b110), (&[], 0)] {
        book.open_running(1, &[10, 20, 30, 16_777_210]);
        held.iter().for_each(|&z| book.hold(0, z, 1, 64));
        assert_eq!(book.leafset(0, 0), leafset);
    }
    for (a, b) in (1..=8).flat_map(|a| (1..=8).map(move |b| (a, b))) {
        book.open_running((a, b), &spread(18));
        (1..18).for_each(|z| book.hold(0, z, 1, 64));
        assert_eq!(book.leafset(0, 0).count_ones(), a + b);
    }
    // Keys 10 to 60: three clockwise and one the other way, and the other way round.
    for (sides, leafset) in [((3, 1), 0b101110), ((1, 3), 0b111010), ((3, 2), 0b111110), ((3, 3), 0b111110)] {
        book.open_running(sides, &[10, 20, 30, 40, 50, 60]);
        (1..6).for_each(|z| book.hold(0, z, 1, 64));
        assert_eq!(book.leafset(0, 0), leafset);
    }
}

/// On and off: off clears all but the clock.
fn switching(book: &mut Book) {
    six(book);
    book.hold(0, 1, 7, 5);
    book.hold(0, 2, 20, 64);
    book.candidate(0, 2);
    book.candidate(0, 4);
    book.play(off(0), 0);
    book.play(on(0), 0);
    book.play(off(5), 0);
    book.play(off(4), 0);
    book.play(on(5), 0);
    // One node.
    book.open(4, &[16_777_215], 0);
    book.play(on(0), 0);
    TIMERS.into_iter().for_each(|k| book.play(timer(0, k), 0));
    book.play(off(0), 0);
}

/// A polite off, and type 13: to held nodes that run and to one that is off, rising; to one that holds the sender, has it as a
/// candidate, both, or neither.
fn leaving(book: &mut Book) {
    six_holding(book, &[4, 1, 3, 5]);
    book.candidate(0, 2);
    book.hold(1, 0, 1, 4);
    book.candidate(1, 0);
    book.candidate(1, 5);
    book.candidate(3, 0);
    book.hold(5, 0, 1, 64);
    book.play(off(4), 0);
    book.play(leave(0), 0);
    assert_eq!(look::messages(book.words()), 4);
    assert_eq!(look::clock(book.words(), 0), 20);
    (0..4).for_each(|_| book.play(deliver(0), 0));
    assert!(!look::holds(book.words(), 1, 0) && !look::holds(book.words(), 5, 0));
    // Holding nobody; then back again, and an old type 13 arrives.
    book.play(on(0), 0);
    book.play(leave(0), 0);
    book.play(on(0), 0);
    book.hold(1, 0, 1, 64);
    receive(book, Message::new(13, 0, 1));
    receive(book, Message::new(13, 2, 3));
}

/// Types 1 and 2, to nodes that run and to one that is off; a notice of a node held, or not, on or off.
fn contact_and_notice(book: &mut Book) {
    six(book);
    for _ in 0..2 {
        // The second time, node 1 is held already.
        [contact(0, 1), deliver(0), deliver(0)].into_iter().for_each(|word| book.play(word, 0));
    }
    book.play(off(1), 0);
    book.play(contact(0, 1), 0);
    book.play(deliver(0), 0);
    book.hold(0, 1, 9, 3);
    book.candidate(0, 1);
    book.candidate(0, 4);
    // Held and a candidate; then neither.
    book.play(notice(0, 1), 0);
    book.play(notice(0, 1), 0);
    book.hold(0, 2, 9, 3);
    book.play(notice(0, 2), 0);
    // A candidate that is not held, which an old view brings back.
    book.play(notice(0, 4), 0);
    receive(book, Message::new(4, 1, 0).seeing(&[4]));
}

/// Timer 0 without candidates, and types 3 and 4.
fn views(book: &mut Book) {
    six(book);
    book.play(timer(0, 0), 0);
    six_holding(book, &[2, 4, 1]);
    book.play(timer(0, 0), 0);
    for held in [&[][..], &[0], &[0, 2], &[2, 3, 4, 5], &[0, 2, 3, 4, 5]] {
        six(book);
        held.iter().for_each(|&z| book.hold(1, z, 1, 64));
        receive(book, Message::new(3, 0, 1));
    }
    for view in [&[][..], &[1], &[1, 2, 3, 4, 5], &[3, 5]] {
        six_holding(book, &[3]);
        book.candidate(0, 5);
        receive(book, Message::new(4, 1, 0).seeing(view));
    }
}

/// Timer 0 with candidates, and types 5 and 6.
fn invitations(book: &mut Book) {
    for (held, candidates, invited) in [
        (&[][..], &[][..], &[][..]),
        (&[], &[5], &[5]),
        (&[2], &[3, 5], &[3]),
        (&[2, 3], &[1, 3, 5], &[]),
        (&[1, 4], &[2, 3, 5], &[2, 3]),
        (&[3], &[3], &[]),
        (&[1, 2], &[1, 3], &[3]),
        (&[4, 5], &[1, 2, 3, 4, 5], &[2, 3]),
    ] {
        six_holding(book, held);
        candidates.iter().for_each(|&z| book.candidate(0, z));
        book.invite_and_ask(invited, held);
        book.invite_and_ask(&[], held);
    }
    six(book);
    receive(book, Message::new(5, 1, 0));
    for (held, sender) in [(&[][..], 5), (&[5], 1), (&[2, 3], 5), (&[2, 3], 1), (&[2, 1], 3), (&[2, 3], 3)] {
        six_holding(book, held);
        receive(book, Message::new(6, sender, 0));
    }
}

/// Timer 2, and types 7 and 8.
fn spares(book: &mut Book) {
    for held in [&[][..], &[1], &[2, 3], &[1, 2, 3], &[1, 2, 3, 4, 5]] {
        six_holding(book, held);
        book.play(timer(0, 2), 0);
    }
    // Asked by node 0, of key 100. Points 7 and 8 are the first two.
    for (receiver, held, subject) in [
        (1, &[2, 3][..], 3),
        (3, &[2], 64),
        (1, &[2], 2),
        (1, &[0, 2], 2),
        (1, &[0], 64),
        (5, &[2, 4], 2),
        (5, &[], 64),
        (2, &[4, 5], 64),
    ] {
        six(book);
        held.iter().for_each(|&z| book.hold(receiver, z, 1, 64));
        receive(book, Message::new(7, 0, receiver));
        assert_eq!(book.words()[8_321] >> 16 & 127, subject);
    }
    for subject in [3, 64] {
        six_holding(book, &[1]);
        book.hold(0, 2, 5, 4);
        receive(book, Message::new(8, 1, 0).about(subject));
        receive(book, Message::new(8, 2, 0).about(subject));
        receive(book, Message::new(8, 5, 0).about(subject));
    }
}

/// Timer 3, and type 9.
fn requests(book: &mut Book) {
    six_holding(book, &[1, 2, 3]);
    book.play(timer(0, 3), 0);
    // A spare of a leafset member sends nothing.
    book.hold(0, 3, 5, 4);
    book.play(timer(0, 3), 0);
    book.hold(0, 1, 5, 4);
    book.play(timer(0, 3), 0);
    book.hold(0, 5, 6, 4);
    book.play(timer(0, 3), 0);
    // A subject that is held, one that isn't, the receiver, and the sender.
    for (held, subject) in [(&[1][..], 1), (&[1], 2), (&[1], 0), (&[5], 5)] {
        six_holding(book, held);
        receive(book, Message::new(9, 5, 0).about(subject).stamped(3));
    }
    six_holding(book, &[1]);
    receive(book, Message::new(9, 5, 0).about(1).stamped(0));
    receive(book, Message::new(9, 5, 0).about(1).stamped(16_777_215));
}

/// Type 10, from node 5 about node 1. Points 9 and 10 are those with stamp 7 on commits 7 and 6.
fn acknowledgements(book: &mut Book) {
    for (commit, stamp) in [(7, 7), (6, 7), (8, 7), (1, 16_777_215), (1, 0)] {
        six_holding(book, &[2, 3]);
        book.hold(0, 1, commit, 5);
        receive(book, Message::new(10, 5, 0).about(1).stamped(stamp));
        assert_eq!(look::holds(book.words(), 0, 1), commit >= stamp);
        assert!(look::holds(book.words(), 0, 5));
        // Once more, with what is left.
        receive(book, Message::new(10, 5, 0).about(1).stamped(stamp));
    }
    // Node 5 is held already, outside the leafset or in it.
    for held in [&[2, 3][..], &[3]] {
        six_holding(book, held);
        book.hold(0, 5, 2, 4);
        book.hold(0, 1, 6, 5);
        receive(book, Message::new(10, 5, 0).about(1).stamped(7));
    }
    // Node 1 is not held, is in the leafset, has another spare, has none.
    six_holding(book, &[2, 3]);
    receive(book, Message::new(10, 5, 0).about(1).stamped(7));
    for (held, spare) in [(&[2][..], 5), (&[2, 3], 4), (&[2, 3], 64)] {
        six_holding(book, held);
        book.hold(0, 1, 6, spare);
        receive(book, Message::new(10, 5, 0).about(1).stamped(7));
        assert!(look::holds(book.words(), 0, 1) && !look::holds(book.words(), 0, 5));
    }
    // Taking node 3 in would put node 1 outside the leafset: the leafset is the one before.
    six_holding(book, &[2]);
    book.hold(0, 1, 6, 3);
    receive(book, Message::new(10, 3, 0).about(1).stamped(7));
    assert!(look::holds(book.words(), 0, 1));
    // About the receiver, and about the sender.
    six_holding(book, &[1, 2, 3, 5]);
    receive(book, Message::new(10, 5, 0).about(0).stamped(7));
    receive(book, Message::new(10, 5, 0).about(5).stamped(7));
}

/// Timer 4, and types 11 and 12: nodes before key 0, after it and at it.
fn zero(book: &mut Book) {
    // Node 4 passes zero to node 0; node 0 doesn't, but for a successor round the ring.
    for (x, held) in
        [(4, &[][..]), (4, &[0]), (4, &[0, 2]), (0, &[3, 4]), (0, &[2]), (5, &[4]), (5, &[4, 0]), (5, &[0])]
    {
        for origin in [3, x] {
            six(book);
            held.iter().for_each(|&z| book.hold(x, z, 1, 64));
            book.play(timer(x, 4), 0);
            book.play(lose(0), if look::messages(book.words()) == 0 { 7 } else { 0 });
            receive(book, Message::new(11, 1, x).about(origin));
        }
    }
    // A node at key 0 passes it; one whose successor is at key 0 doesn't.
    book.open_running(1, &[0, 10, 16_777_215]);
    [(0, 1), (1, 2), (2, 0)].into_iter().for_each(|(x, z)| book.hold(x, z, 1, 64));
    (0..3).for_each(|x| book.play(timer(x, 4), 0));
    book.play(deliver(0), 0);
    book.play(deliver(0), 0);
    book.play(deliver(0), 0);
    // The message goes on to the node that it is about.
    six(book);
    book.hold(2, 0, 1, 64);
    receive(book, Message::new(11, 1, 2).about(0));
    book.play(deliver(0), 0);
    receive(book, Message::new(12, 1, 0));
    receive(book, Message::new(12, 1, 0));
}

/// Deliveries and losses at the start, in the middle and at the end; to and from nodes that are off.
fn taking_out(book: &mut Book) {
    six(book);
    [1, 2, 3, 4, 5].into_iter().for_each(|y| book.play(contact(0, y), 0));
    [lose(4), deliver(2), lose(1), deliver(0), lose(0)].into_iter().for_each(|word| book.play(word, 0));
    book.play(off(0), 0);
    book.play(deliver(0), 0);
    book.send(Message::new(3, 0, 1));
    book.play(deliver(0), 0);
    assert_eq!(look::messages(book.words()), 1);
    book.play(off(1), 0);
    book.send(Message::new(6, 2, 1));
    book.play(deliver(1), 0);
}

/// Groups of running nodes: through a pair held either way, and never through a node that is off.
fn connection(book: &mut Book) {
    book.open(1, &KEYS, 0);
    assert_eq!(book.groups(0), 0);
    six(book);
    assert_eq!(book.groups(0), 6);
    assert!(book.connected(2, 2, 0) && !book.connected(2, 3, 0));
    [(1, 0), (2, 1), (3, 4)].into_iter().for_each(|(x, z)| book.hold(x, z, 1, 64));
    assert_eq!(book.groups(0), 3);
    assert!(book.connected(0, 2, 0) && book.connected(2, 0, 0) && !book.connected(0, 3, 0) && !book.connected(5, 4, 0));
    book.hold(3, 2, 1, 64);
    assert!(book.connected(4, 0, 0) && book.groups(0) == 2);
    // Candidates connect nothing.
    book.candidate(5, 0);
    assert!(!book.connected(5, 0, 0));
    // Node 1, in the middle, goes off; nodes 2, 3 and 4 still hold it or are held.
    book.play(off(1), 0);
    assert!(!book.connected(0, 2, 0) && book.connected(2, 4, 0) && book.groups(0) == 3);
}

/// 64 nodes at L = 8: views of three words, and answers that need all 64 bits.
fn many(book: &mut Book) {
    book.open_running(8, &spread(64));
    for z in 0..64 {
        if z != 40 {
            book.hold(40, z, 1, 64);
        }
    }
    assert_eq!(book.leafset(40, 0).count_ones(), 16);
    [0, 23, 24, 47, 48, 63].into_iter().for_each(|sender| receive_last(book, Message::new(3, sender, 40)));
    receive_last(book, Message::new(4, 40, 63).seeing(&[0, 23, 24, 47, 48, 62]));
    receive_last(book, Message::new(4, 63, 0).seeing(&[1, 22, 25, 46, 49, 63]));
    [2, 23, 24, 47, 50, 62].into_iter().for_each(|z| book.hold(0, z, 1, 64));
    book.invite_and_ask(&[1, 22, 25, 46, 49, 63], &[2, 23, 24, 47, 50, 62]);
    (0..6).for_each(|_| book.play(deliver(0), 0));
    [timer(40, 0), timer(40, 2), timer(63, 0)].into_iter().for_each(|word| book.play(word, 0));
    [63, 0, 23, 24, 47].into_iter().for_each(|position| book.play(deliver(position), 0));
    book.connected(0, 63, 0);
    book.groups(0);
    assert_eq!(book.words()[pair(40, 40)], 0);
}

/// Delivers the message after those that are in flight.
fn receive_last(book: &mut Book, message: Message) {
    let position = look::messages(book.words()) as u32;
    book.send(message);
    book.play(deliver(position), 0);
}
