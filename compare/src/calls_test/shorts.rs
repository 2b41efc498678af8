//! Short editions: rings of each size there and back, the refusals in their order, short inputs of each small length,
//! and each word of a short input wrong.

use super::book::{Book, Message};
use super::pool::{contacted, crowded, SIX};
use crate::events::*;
use crate::look;
use crate::LENGTH;

const LIMIT: u32 = 16_777_215;

/// Lengths that no ring has.
const WRONG: [usize; 5] = [0, 1, 8_321, LENGTH - 1, LENGTH + 1];

pub fn write(book: &mut Book) {
    book.section("shorts");
    sizes(book);
    places(book);
    not_a_ring(book);
    wrong_length(book);
    lengths(book);
    heads(book);
    words(book);
    moved(book);
    at_the_bound(book);
    full(book);
    old_words(book);
    played_on(book);
}

/// Other words in the third buffer, of two sorts.
fn old(book: &mut Book, number: u32) {
    book.fill_third(0, 5_000, number);
    book.fill_third(5_000, LENGTH as u32 + 1, !number);
}

/// Three nodes at A = 2 and B = 1, of which node 2 is off. Pairs and messages have every field; two messages.
fn three(book: &mut Book) {
    book.open((2, 1), &[100, 200, 300], 0);
    (0..2).for_each(|x| book.play(on(x), 0));
    [7, LIMIT, 9].into_iter().zip(0..).for_each(|(clock, x)| book.set_clock(x, clock));
    book.hold(0, 1, 3, 2);
    book.hold(1, 2, LIMIT, 64);
    book.candidate(0, 2);
    book.candidate(1, 2);
    book.send(Message::new(4, 2, 0).seeing(&[1, 2]));
    book.send(Message::new(10, 0, 1).about(2).stamped(LIMIT));
}

/// n running nodes, of which each holds the next, with the one after that as a spare.
fn chain(book: &mut Book, n: u32) {
    let keys: Vec<u32> = (0..n).map(|s| 77 + 100 * s).collect();
    book.open_running((3, 2), &keys);
    (1..n).for_each(|x| book.hold(x - 1, x, 1, if x + 1 < n { x + 1 } else { 64 }));
}

/// The length of the ring's short edition.
fn length(book: &Book) -> usize {
    look::short_length(book.words()[0])
}

/// The ring turned short over old words, and made long over others; then short once more.
fn there_and_back(book: &mut Book, number: u32) {
    let (ring, length) = (book.words().to_vec(), length(book));
    old(book, number);
    book.shorten(length, 0);
    book.fill_words(0, LENGTH as u32 + 1, number);
    book.lengthen(length, 0);
    assert!(book.words() == ring, "a ring turned short and back");
    let short = book.third(length).to_vec();
    old(book, !number);
    book.shorten(LENGTH, 0);
    assert!(book.third(length) == short, "a short ring made long and short again");
}

/// 1, 2, 3, 63 and 64 nodes; no message, one, and 1,024.
fn sizes(book: &mut Book) {
    for n in [1, 2, 3, 5, 63, 64] {
        chain(book, n);
        there_and_back(book, n);
        if n > 1 {
            book.send(Message::new(1, n - 1, 0));
            there_and_back(book, n << 8);
        }
    }
    three(book);
    there_and_back(book, 1);
    crowded(book, &SIX, 1_024);
    there_and_back(book, 2);
    crowded(book, &(0..64).map(|s| 9 + 100 * s).collect::<Vec<u32>>(), 1_024);
    (1..64).for_each(|z| book.hold(0, z, 1, z % 63 + 1));
    assert_eq!(length(book), 13_313);
    there_and_back(book, 3);
}

/// 20 where the place has fewer words than the short edition; more are accepted, and stay.
fn places(book: &mut Book) {
    let builds: [fn(&mut Book); 4] =
        [three, |book| book.open(8, &[0], 0), |book| chain(book, 64), |book| crowded(book, &SIX, 1_024)];
    for build in builds {
        build(book);
        old(book, 4);
        let length = length(book);
        for places in [0, 1, 2, length - 1] {
            book.shorten(places, 20);
        }
        for places in [length, length + 1, length + 2, LENGTH - 1, LENGTH, LENGTH + 1] {
            old(book, places as u32);
            book.shorten(places, 0);
        }
    }
}

/// 6 at each region, before 20; and the ring mended.
fn not_a_ring(book: &mut Book) {
    three(book);
    old(book, 5);
    let length = length(book);
    let one_more = book.words()[0] + (1 << 11);
    let heads = [(0, 0), (0, u32::MAX), (0, one_more)];
    let others = [(2, 0), (7, 1), (129, 1), (131, 0), (8_321, 0), (8_331, 1), (LENGTH - 1, 1)];
    for (at, value) in heads.into_iter().chain(others) {
        let word = book.words()[at];
        book.set_word(at, value);
        [0, length - 1, length, LENGTH].into_iter().for_each(|places| book.shorten(places, 6));
        book.set_word(at, word);
    }
    book.shorten(length - 1, 20);
    book.shorten(length, 0);
}

/// 1 first: of the ring, where 6 and 20 apply, too; of the long buffer, where 19 does.
fn wrong_length(book: &mut Book) {
    three(book);
    old(book, 6);
    let length = length(book);
    for damaged in [false, true] {
        if damaged {
            book.set_word(2, 0);
        }
        for lent in WRONG {
            book.lend(lent);
            [0, length - 1, length, LENGTH + 1].into_iter().for_each(|places| book.shorten(places, 1));
        }
        book.lend(LENGTH);
    }
    three(book);
    book.shorten(length, 0);
    for lent in WRONG {
        book.lend(lent);
        [0, 1, length - 1, length, length + 1, LENGTH + 1].into_iter().for_each(|length| book.lengthen(length, 1));
    }
    book.lend(LENGTH);
    book.lengthen(length, 0);
    book.lengthen(length - 1, 19);
}

/// Every length from 0 to 20, and others, of small rings: only the one that word 0 says is accepted.
fn lengths(book: &mut Book) {
    for (n, messages) in [(1, 0), (2, 0), (2, 1), (2, 2), (3, 0), (3, 1)] {
        chain(book, n);
        (0..messages).for_each(|sender| book.send(Message::new(3, sender, 1 - sender)));
        old(book, 0);
        let length = length(book);
        book.shorten(length, 0);
        book.open(8, &[5, 6, 7, 8], 0);
        for given in (0..=20).chain([24, 72, LENGTH - 1, LENGTH, LENGTH + 1]) {
            book.lengthen(given, if given == length { 0 } else { 19 });
        }
    }
    // Other words first; one of them is a word 0 for what follows.
    for word in [0, 1, u32::MAX, 1 << 28, 0x1040_0001, 0x1040_0011] {
        book.short(&[word]);
        (0..=20).for_each(|length| book.lengthen_any(length));
    }
}

/// Each field of word 0 wrong, with the length that it says.
fn heads(book: &mut Book) {
    three(book);
    let (head, short) = (book.words()[0], look::short(book.words()));
    let with = |low: u32, width: u32, value: u32| head & !(((1 << width) - 1) << low) | value << low;
    let sides = [0, 9, 15].into_iter().flat_map(|side| [with(0, 4, side), with(22, 4, side)]);
    let kinds = [0, 2, 9, 15].map(|kind| with(28, 4, kind));
    let unnamed = [1, 2, 3].map(|bits| with(26, 2, bits));
    let nodes = [0, 1, 2, 4, 64, 65, 127].map(|n| with(4, 7, n));
    let messages = [0, 1, 3, 2, 1_024, 1_025, 2_047].map(|m| with(11, 11, m));
    let alone = [0, 1].map(|m| head & !(0x3FFFF << 4) | m << 11);
    book.short(&short);
    book.fill_third(short.len() as u32, LENGTH as u32, 0);
    for word in sides.chain(kinds).chain(unnamed).chain(nodes).chain(messages).chain(alone) {
        book.short(&[word]);
        for length in [short.len(), look::short_length(word).min(LENGTH)] {
            book.lengthen_any(length);
        }
    }
    // Other sides are no fault.
    for side in [1, 8] {
        [with(0, 4, side), with(22, 4, side)].into_iter().for_each(|word| {
            book.short(&[word]);
            book.lengthen(short.len(), 0);
        });
    }
}

/// Each word of a short input with other values, one at a time, and mended.
fn words(book: &mut Book) {
    three(book);
    let length = length(book);
    book.shorten(length, 0);
    let short = book.third(length).to_vec();
    for at in 0..length {
        for value in [0, short[at] ^ 1, short[at] ^ 1 << 27, short[at] ^ 1 << 30, short[at] | LIMIT] {
            book.fill_third(at as u32, at as u32 + 1, value);
            book.lengthen_any(length);
        }
        book.fill_third(at as u32, at as u32 + 1, short[at]);
    }
    book.lengthen(length, 0);
}

/// Words at other places: one missing in front of the rest, one more, two swapped.
fn moved(book: &mut Book) {
    three(book);
    let short = look::short(book.words());
    for at in [0, 1, 6, 7, 8, 12, 18, 19, 24, 28] {
        let mut missing = short.clone();
        missing.remove(at);
        let mut more = short.clone();
        more.insert(at, short[at]);
        let mut swapped = short.clone();
        swapped.swap(at, (at + 2) % short.len());
        // The length stays: the last word is dropped, or comes twice.
        let shifted = [&missing[..], &missing[missing.len() - 1..]].concat();
        for input in [missing, more.clone(), more[..short.len()].to_vec(), shifted, swapped] {
            book.short(&input);
            book.lengthen_any(input.len());
        }
    }
    book.short(&short);
    book.lengthen(short.len(), 0);
}

/// 256 messages of one sender are made long, 257 are refused, as a ring with them is.
fn at_the_bound(book: &mut Book) {
    contacted(book, &SIX, &[(1, 2, 256), (3, 2, 1)]);
    there_and_back(book, 7);
    let (length, last) = (length(book), 8_321 + 5 * 256);
    // The last message becomes node 1's, too.
    let word = book.words()[last] - (2 << 4);
    book.fill_third(length as u32 - 5, length as u32 - 4, word);
    book.lengthen(length, 19);
    book.set_word(last, word);
    [0, length - 1, length].into_iter().for_each(|places| book.shorten(places, 6));
}

/// A message more than 1,024, in a short input of the length that word 0 says.
fn full(book: &mut Book) {
    crowded(book, &SIX, 1_024);
    let length = length(book);
    old(book, 8);
    book.shorten(length, 0);
    let message = book.third(length)[length - 5..].to_vec();
    let head = book.words()[0];
    book.short(&[head + (1 << 11)]);
    (length as u32..).zip(message).for_each(|(at, word)| book.fill_third(at, at + 1, word));
    book.lengthen(length + 5, 19);
    book.lengthen(length, 19);
    book.short(&[head]);
    book.lengthen(length + 5, 19);
    book.lengthen(length, 0);
}

/// The long buffer's old words don't matter: zeros, ones, another ring, words that are almost a ring.
fn old_words(book: &mut Book) {
    three(book);
    let length = length(book);
    book.shorten(length, 0);
    for value in [0, u32::MAX] {
        book.fill_words(0, LENGTH as u32, value);
        book.lengthen(length, 0);
        book.lengthen(length, 0);
        book.lengthen(length - 1, 19);
    }
    for at in [0, 7, 128, 129, 135, 8_320, 8_331, LENGTH - 1] {
        book.set_word(at, 5);
        book.lengthen(length, 0);
    }
    crowded(book, &(0..64).map(|s| 9 + 100 * s).collect::<Vec<u32>>(), 1_024);
    book.lengthen(length - 1, 19);
    book.lengthen(length, 0);
}

/// Events on a ring that came back, converted after each.
fn played_on(book: &mut Book) {
    book.open_running(2, &[100, 200, 300, 400]);
    let contacts = [contact(0, 1), contact(2, 3), deliver(0), deliver(0), deliver(0)];
    let events = contacts.into_iter().chain([leave(3), timer(0, 0), echo(0), off(1)]);
    for (number, word) in (0..).zip(events) {
        book.play_any(word);
        there_and_back(book, number);
    }
    book.screens();
    book.groups(0);
}
