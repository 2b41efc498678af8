//! Joins: what becomes of each part, rings at their limits, the refusals in their order, and events on joins.

use super::book::{pair, Book, Message};
use super::pool::{contacted, crowded, SIX};
use crate::events::*;
use crate::look;
use crate::LENGTH;

const LIMIT: u32 = 16_777_215;

/// Six nodes more.
const MORE: [u32; 6] = [15, 25, 35, 45, 55, 65];

pub fn write(book: &mut Book) {
    book.section("joins");
    parts(book);
    views(book);
    sizes(book);
    messages(book);
    old_words(book);
    wrong_length(book);
    not_a_ring(book);
    by_sides(book);
    by_tables(book);
    by_messages(book);
    at_the_bound(book);
    one_group(book);
    joins_of_joins(book);
}

/// Four nodes at A = 2 and B = 1, of which node 3 is off. Pairs and messages have every field.
fn four(book: &mut Book, key: u32) {
    book.open((2, 1), &[key, key + 10, key + 20, key + 30], 0);
    (0..3).for_each(|x| book.play(on(x), 0));
    [7, LIMIT, 9, 11].into_iter().zip(0..).for_each(|(clock, x)| book.set_clock(x, clock));
    book.hold(0, 1, 3, 2);
    book.hold(0, 2, 7, 64);
    book.hold(1, 3, LIMIT, 0);
    book.candidate(0, 1);
    book.candidate(2, 3);
    for message in of_every_type() {
        book.send(message);
    }
}

/// Of each type one or more among four nodes: subjects, none, stamps and views.
fn of_every_type() -> impl Iterator<Item = Message> {
    let plain = [1, 2, 3, 5, 6, 7, 12, 13].into_iter().map(|kind| Message::new(kind, kind % 4, (kind + 1) % 4));
    let of_fields = [
        Message::new(4, 0, 1).seeing(&[0, 2, 3]),
        Message::new(4, 3, 0),
        Message::new(8, 1, 0).about(3),
        Message::new(8, 2, 3),
        Message::new(9, 0, 2).about(1).stamped(5),
        Message::new(10, 2, 0).about(0).stamped(LIMIT),
        Message::new(11, 3, 1).about(2),
    ];
    plain.chain(of_fields)
}

/// Other words in the third buffer, of two sorts.
fn old(book: &mut Book, number: u32) {
    book.fill_third(0, 9_000, number);
    book.fill_third(9_000, LENGTH as u32 + 1, !number);
}

/// The parts of a join of four and four, one by one.
fn parts(book: &mut Book) {
    four(book, 1_000);
    book.keep();
    four(book, 100);
    let source = book.words().to_vec();
    old(book, 1);
    let joined = book.joined().to_vec();
    assert_eq!(joined[0], source[0] + (4 << 4) + (15 << 11));
    for x in 0..4 {
        assert_eq!([look::key(&joined, x), look::key(&joined, 4 + x)], [100, 1_000].map(|key| key + 10 * x as u32));
        assert!([0, 4].iter().all(|n| look::is_running(&joined, n + x) == (x < 3)));
        assert!([0, 4].iter().all(|n| look::clock(&joined, n + x) == look::clock(&source, x)));
        (0..4).filter(|&z| z != x).for_each(|z| of_pair(&source, &joined, x as u32, z as u32));
        (0..4).for_each(|z| assert_eq!(joined[pair(x as u32, 4 + z)..][..2], [3 << 28, 4 << 28 | 64]));
        (0..4).for_each(|z| assert_eq!(joined[pair(4 + z, x as u32)..][..2], [3 << 28, 4 << 28 | 64]));
    }
    assert_eq!(joined[8_321..8_396], source[8_321..8_396]);
    (0..15).for_each(|position| of_message(&source, &joined, position));
    assert!(joined[8_321 + 150..].iter().all(|&word| word == 0));
}

/// The pair (x, z) of both rings, where each has four nodes.
fn of_pair(source: &[u32], joined: &[u32], x: u32, z: u32) {
    let (word, spare) = (source[pair(x, z)], source[pair(x, z) + 1] & 127);
    let risen = if spare == 64 { 64 } else { spare + 4 };
    assert_eq!(joined[pair(x, z)..][..2], source[pair(x, z)..][..2]);
    assert_eq!(joined[pair(4 + x, 4 + z)..][..2], [word, 4 << 28 | risen]);
}

/// The second's message at a position, after the first's fifteen. No view leaves its word.
fn of_message(source: &[u32], joined: &[u32], position: usize) {
    let [one, other] = [(source, position), (joined, 15 + position)].map(|(words, at)| &words[8_321 + 5 * at..][..5]);
    let subject = one[0] >> 16 & 127;
    let risen = if subject == 64 { 64 } else { subject + 4 };
    assert_eq!(other[0], one[0] - (subject << 16) + (risen << 16) + (4 << 10) + (4 << 4));
    assert_eq!(other[1], one[1]);
    assert_eq!(other[2], one[2] + 15 * (one[2] & 0xFF_FFFF));
}

fn keys(first: u32, n: u32) -> Vec<u32> {
    (0..n).map(|s| first + 100 * s).collect()
}

/// Views of the second ring, in which each node but the receiver is seen alone, and all of them, by a first of n nodes.
fn views(book: &mut Book) {
    for (n, more) in [(1, 63), (8, 56), (23, 41), (24, 40), (25, 39), (40, 24), (47, 17), (48, 16), (49, 15), (62, 2)] {
        book.open(1, &keys(50_000, more), 0);
        for seen in 0..more {
            let receiver = (seen + 1) % more;
            book.send(Message::new(4, seen, receiver).seeing(&[seen]));
        }
        let all: Vec<u32> = (1..more).collect();
        book.send(Message::new(4, 1, 0).seeing(&all));
        book.keep();
        book.open(1, &keys(7, n), 0);
        old(book, n);
        let joined = book.joined().to_vec();
        (0..more as usize).for_each(|position| assert_eq!(view(&joined, position), 1 << (n as usize + position)));
        assert_eq!(view(&joined, more as usize), (u64::MAX >> (64 - more) & !1) << n);
    }
}

/// The view of the message at a position, as a set.
fn view(words: &[u32], position: usize) -> u64 {
    let part = |k: usize| (words[8_323 + 5 * position + k] & 0xFF_FFFF) as u64;
    part(0) | part(1) << 24 | part(2) << 48
}

/// Up to 64 nodes together, in which each holds those beside it and has a spare; then the joins as second rings.
fn sizes(book: &mut Book) {
    for (n, more) in [(1, 1), (1, 63), (63, 1), (32, 32), (31, 33), (2, 3), (60, 4)] {
        chain(book, 9, more);
        book.keep();
        chain(book, 5_000_000, n);
        old(book, n + more);
        book.joined();
        book.take();
        book.groups(0);
        book.screens();
        book.play(contact(0, n), 0);
        book.connected(0, n, 0);
        book.play(timer(n, 0), 0);
        book.play(deliver(0), 0);
        book.connected(0, n, 0);
    }
}

/// n running nodes, of which each holds the next, with the one after that as a spare.
fn chain(book: &mut Book, first: u32, n: u32) {
    book.open_running((3, 2), &keys(first, n));
    (1..n).for_each(|x| book.hold(x - 1, x, 1, if x + 1 < n { x + 1 } else { 64 }));
}

/// 512 + 512, 1,024 + 0 and 0 + 1,024 messages, also of one node alone, which carries none.
fn messages(book: &mut Book) {
    for (ours, theirs) in [(512, 512), (1_024, 0), (0, 1_024), (1_023, 1)] {
        crowded(book, &SIX, theirs);
        book.keep();
        crowded(book, &MORE, ours);
        old(book, ours);
        book.joined();
        book.take();
        book.screens();
        book.play(contact(0, 2), 11);
        book.play(deliver(ours.min(1_023)), 0);
    }
    crowded(book, &SIX, 1_024);
    book.keep();
    book.open(1, &[5], 0);
    book.joined();
    book.take();
    book.keep();
    book.open(1, &[6], 0);
    book.joined();
    book.take();
    book.screens();
    book.play(on(0), 0);
    book.play(contact(0, 2), 11);
    book.play(lose(1_023), 0);
    book.play(contact(0, 2), 0);
}

/// The third buffer's old words don't matter: zeros, ones, a ring, another join, words that are almost the join.
fn old_words(book: &mut Book) {
    four(book, 1_000);
    book.keep();
    four(book, 100);
    book.fill_third(0, LENGTH as u32 + 1, 0);
    book.joined();
    book.joined();
    book.fill_third(0, LENGTH as u32, u32::MAX);
    book.joined();
    [0, 1, 129, 130, 8_320, 8_321, LENGTH as u32 - 1].into_iter().for_each(|at| {
        book.fill_third(at, at + 1, 5);
        book.joined();
    });
    crowded(book, &SIX, 1_024);
    book.keep();
    chain(book, 5_000, 58);
    book.join([LENGTH; 2], 14);
    book.open(1, &keys(5_000, 58), 0);
    book.joined();
    book.open(1, &[3], 0);
    book.joined();
}

/// 1, by each buffer and by several, on two rings, on damaged ones, and where 14, 15 and 16 apply.
fn wrong_length(book: &mut Book) {
    let wrong = [0, 1, 8_321, LENGTH - 1, LENGTH + 1];
    let clash = |book: &mut Book| crowded(book, &[100, 20, 30, 40, 50], 1_000);
    let fit = |book: &mut Book| four(book, 100);
    for (first, second) in [(0, 0), (1, 0), (0, 1), (1, 1)] {
        let build = |book: &mut Book, sort| if sort == 0 { fit(book) } else { clash(book) };
        four(book, 1_000);
        if second == 1 {
            clash(book);
            book.set_word(1, 0);
        }
        book.keep();
        build(book, first);
        old(book, 2);
        for length in wrong {
            book.join([length, LENGTH], 1);
            book.join([LENGTH, length], 1);
            book.join([length, length], 1);
            book.join_itself(length, 1);
            book.lend(length);
            book.join([LENGTH, LENGTH], 1);
            book.join([length, LENGTH], 1);
            book.join_itself(LENGTH, 1);
            book.lend(LENGTH);
        }
    }
    four(book, 100);
    book.set_word(0, 0);
    wrong.into_iter().for_each(|length| book.join([LENGTH, length], 1));
    wrong.into_iter().for_each(|length| book.join([length, LENGTH], 1));
}

/// 6 by either source, at each region, where nothing else applies and where 14, 15 and 16 would.
fn not_a_ring(book: &mut Book) {
    const WORDS: [(usize, u32); 7] =
        [(0, u32::MAX), (0, 0), (2, 0), (129, 1), (131, 0), (8_321, 0), (LENGTH - 1, 1)];
    for clashing in [false, true] {
        four(book, 1_000);
        book.keep();
        if clashing {
            crowded(book, &[1_000, 2_000, 3_000, 4_000, 5_000], 1_020);
        } else {
            four(book, 100);
        }
        old(book, 3);
        for (at, value) in WORDS {
            let word = book.words()[at];
            book.set_word(at, value);
            book.join([LENGTH; 2], 6);
            book.join_itself(LENGTH, 6);
            book.set_word(at, word);
        }
        for (at, value) in WORDS {
            let word = book.second()[at];
            book.fill_second(at as u32, at as u32 + 1, value);
            book.join([LENGTH; 2], 6);
            book.fill_second(at as u32, at as u32 + 1, word);
        }
        book.join([LENGTH; 2], if clashing { 14 } else { 0 });
    }
}

/// 14 by A, by B and by both, before 15 and 16.
fn by_sides(book: &mut Book) {
    let differing = [((2, 1), (3, 1)), ((2, 1), (2, 2)), ((2, 1), (1, 2)), ((8, 8), (8, 1)), ((1, 8), (8, 8))];
    for (ours, theirs) in differing {
        book.open(theirs, &[10, 20], 0);
        book.keep();
        old(book, 4);
        book.open(ours, &[30], 0);
        book.join([LENGTH; 2], 14);
        book.open(ours, &[20], 0);
        book.join([LENGTH; 2], 14);
        book.open(ours, &keys(1_000, 63), 0);
        book.join([LENGTH; 2], 14);
        book.open(theirs, &[30], 0);
        book.joined();
    }
    // At A = B = 1 with 1,024 messages beside one.
    crowded(book, &SIX, 1_024);
    book.keep();
    old(book, 5);
    for (keys, sides, answer) in [([35, 45], (1, 2), 14), ([10, 45], (2, 1), 14), ([35, 45], (1, 1), 16)] {
        book.open(sides, &keys, 0);
        book.send(Message::new(1, 0, 1));
        book.join([LENGTH; 2], answer);
    }
}

/// 15 by the nodes, by a key and by both; each ring beside itself, and one buffer as both sources. Before 16.
fn by_tables(book: &mut Book) {
    let sizes = [(64, 1, 15), (1, 64, 15), (33, 32, 15), (64, 64, 15), (2, 63, 15), (63, 1, 0), (2, 62, 0)];
    for (n, more, answer) in sizes {
        book.open(1, &keys(9, more), 0);
        book.keep();
        old(book, n);
        book.open(1, &keys(5_000_000, n), 0);
        book.join([LENGTH; 2], answer);
        book.open(1, &keys(9, n), 0);
        book.join([LENGTH; 2], 15);
    }
    shared_keys(book);
    let builds: [fn(&mut Book); 3] = [|book| four(book, 100), |book| book.open(8, &[0], 0), |book| chain(book, 77, 64)];
    for build in builds {
        build(book);
        book.keep();
        book.join([LENGTH; 2], 15);
        book.join_itself(LENGTH, 15);
    }
    crowded(book, &SIX, 1_024);
    book.keep();
    for keys in [vec![20, 35], keys(5_000, 63)] {
        crowded(book, &keys, 1);
        book.join([LENGTH; 2], 15);
    }
}

/// One key in both, first, last and between, of nodes that run or are off.
fn shared_keys(book: &mut Book) {
    book.open(1, &[0, 500, LIMIT], 0);
    book.play(on(1), 0);
    book.keep();
    old(book, 6);
    for shared in [0, 500, LIMIT] {
        for place in 0..3 {
            let mut keys = [1, 501, LIMIT - 1];
            keys[place] = shared;
            book.open(1, &keys, 0);
            book.join([LENGTH; 2], 15);
            book.play(on(place as u32), 0);
            book.join([LENGTH; 2], 15);
        }
    }
    book.open(1, &[1, 501, LIMIT - 1], 0);
    book.joined();
}

/// 16 by 512 + 513, 1 + 1,024 and 1,024 + 1,024.
fn by_messages(book: &mut Book) {
    for (ours, theirs, answer) in [(512, 513, 16), (513, 512, 16), (1, 1_024, 16), (1_024, 1_024, 16), (513, 511, 0)] {
        crowded(book, &SIX, theirs);
        book.keep();
        crowded(book, &MORE, ours);
        old(book, 7);
        book.join([LENGTH; 2], answer);
    }
}

/// Senders with 256 messages in either ring: their numbers rise with the second's, and each stays at its bound. With
/// 257 in either one it is no ring.
fn at_the_bound(book: &mut Book) {
    for (ours, theirs, answer) in [(256, 256, 0), (257, 256, 6), (256, 257, 6), (257, 257, 6), (255, 256, 0)] {
        talkative(book, &SIX, theirs);
        book.keep();
        talkative(book, &MORE, ours);
        old(book, ours + theirs);
        book.join([LENGTH; 2], answer);
    }
    book.joined();
    book.take();
    book.screens();
    [contact(7, 0), contact(7, 11)].into_iter().for_each(|word| book.play(word, 17));
    book.play(contact(1, 7), 0);
    book.play(contact(1, 2), 17);
    [timer(7, 0), contact(6, 7), contact(0, 1)].into_iter().for_each(|word| book.play(word, 0));
    full_and_full(book);
}

/// 256 contacts of node 1 to node 2, or 255, and one of node 3's, whose sender becomes node 1 where they are to be 257.
fn talkative(book: &mut Book, keys: &[u32], messages: u32) {
    contacted(book, keys, &[(1, 2, messages.min(256)), (3, 2, 1)]);
    if messages == 257 {
        let at = 8_321 + 5 * 256;
        book.set_word(at, book.words()[at] & !(63 << 4) | 1 << 4);
    }
}

/// Two of each ring with 256, so that the pool is full: 11 before 17.
fn full_and_full(book: &mut Book) {
    contacted(book, &SIX, &[(0, 1, 256), (5, 1, 256)]);
    book.keep();
    contacted(book, &MORE, &[(0, 1, 256), (5, 1, 256)]);
    book.joined();
    book.take();
    [contact(0, 1), contact(11, 0), contact(2, 1)].into_iter().for_each(|word| book.play(word, 11));
    book.play(lose(0), 0);
    book.play(contact(11, 0), 17);
    book.play(contact(0, 11), 0);
}

/// Two rings of which each is one group: a contact across, delivered and answered, makes one of them.
fn one_group(book: &mut Book) {
    book.open_running(2, &[100, 200, 300]);
    [(0, 1), (1, 2), (2, 0)].into_iter().for_each(|(x, z)| book.hold(x, z, 1, 64));
    book.keep();
    book.open_running(2, &[150, 250]);
    book.hold(1, 0, 1, 64);
    old(book, 8);
    book.joined();
    book.take();
    assert_eq!(book.groups(0), 2);
    [(0, 1), (2, 4)].into_iter().for_each(|(a, b)| assert!(book.connected(a, b, 0)));
    [(0, 2), (1, 4)].into_iter().for_each(|(a, b)| assert!(!book.connected(a, b, 0)));
    book.play(contact(1, 3), 0);
    assert_eq!(book.groups(0), 2);
    book.play(deliver(0), 0);
    book.play(deliver(0), 0);
    assert_eq!(book.groups(0), 1);
    assert!(book.connected(0, 4, 0));
    for x in 0..5 {
        TIMERS.into_iter().for_each(|k| book.play(timer(x, k), 0));
    }
    (0..200).for_each(|_| book.play_any(deliver(0)));
    assert_eq!(book.groups(0), 1);
    book.screens();
}

/// Of three and of four rings, by either side, with events between them.
fn joins_of_joins(book: &mut Book) {
    four(book, 1_000);
    book.keep();
    four(book, 100);
    book.joined();
    book.take();
    book.play(contact(0, 6), 0);
    book.play(deliver(30), 0);
    book.keep();
    four(book, 9_000);
    book.joined();
    book.take();
    assert_eq!(look::nodes(book.words()), 12);
    book.play(timer(4, 0), 0);
    book.play(off(5), 0);
    book.play_any(echo(20));
    book.groups(0);
    book.join([LENGTH; 2], 15);
    book.keep();
    four(book, 5_000);
    book.joined();
    book.take();
    (0..16).for_each(|x| book.play_any(timer(x, 3)));
    (0..20).for_each(|position| book.play_any(deliver(3 * position)));
    book.screens();
    book.groups(0);
}
