//! The two screens and the messages as a part of the words: rings at their limits, what belongs to one screen alone,
//! and refused calls over other values.

use super::book::{pair, Book, Message};
use super::pool::{crowded, SIX};
use crate::events::*;
use crate::{look, LENGTH};

const CLOCK_LIMIT: u32 = 16_777_215;

/// Words of each region, each with a value by which the words no longer read as a ring.
const DAMAGES: [(usize, u32); 9] = [
    (0, 0),
    (0, u32::MAX),
    (0, 1 << 28 | 1 << 22 | 1_025 << 11 | 64 << 4 | 1),
    (1, 0),
    (2, 1 << 28),
    (129, 1),
    (131, 3 << 28 | 1 << 24),
    (8_321, 0),
    (LENGTH - 1, 1),
];

pub fn write(book: &mut Book) {
    book.section("screens");
    alone(book);
    three(book);
    leafsets(book);
    off_nodes(book);
    technician_only(book);
    every_spare(book);
    parts(book);
    full_pool(book);
    evenly(book);
    everybody(book);
    wrong_length(book);
    not_a_ring(book);
    in_a_row(book);
    after_events(book);
}

/// One node, off, then on: its place with itself stays 0.
fn alone(book: &mut Book) {
    for (sides, key) in [((1, 1), 0), ((8, 8), CLOCK_LIMIT), ((1, 8), 5)] {
        book.fill_screen(u32::MAX, 255);
        book.open(sides, &[key], 0);
        let shown = book.screens();
        assert_eq!((shown.conductor.nodes, shown.conductor.running, shown.conductor.keys[0]), (1, 0, key));
        book.play(on(0), 0);
        let shown = book.screens();
        assert_eq!((shown.conductor.sides, shown.conductor.running), (sides.into(), 1));
        assert!(shown.stamps == [0; 4_096] && shown.spares == [0; 4_096]);
    }
}

/// Three nodes: only the places of their six pairs have 64, where there is no spare.
fn three(book: &mut Book) {
    book.fill_screen(77, 64);
    book.open((2, 5), &[10, 20, 30], 0);
    let shown = book.screens();
    let pairs = [1, 2, 64, 66, 128, 129];
    assert!((0..4_096).all(|at| shown.spares[at] == if pairs.contains(&at) { 64 } else { 0 }));
    assert!(shown.stamps == [0; 4_096] && shown.candidates == [0; 64]);
    book.play(on(1), 0);
    book.play(on(2), 0);
    book.hold(1, 0, 1, 2);
    book.hold(1, 2, 1, 64);
    book.candidate(2, 0);
    let shown = book.screens();
    assert_eq!(shown.conductor.leafsets[..3], [0, 0b101, 0]);
    assert_eq!(shown.candidates[..3], [0, 0, 0b1]);
    assert_eq!((shown.stamps[64], shown.stamps[66], shown.stamps[128], shown.stamps[1]), (1, 1, 0, 0));
    assert_eq!((shown.spares[64], shown.spares[66], shown.spares[65]), (2, 64, 0));
}

/// Node 0 holds nodes on both sides, of which A and B say which it shows.
fn leafsets(book: &mut Book) {
    let keys = [100, 130, 90, 110, 16_777_200, 5_000_000];
    // Clockwise from node 0: 3, 1, 5, 4, 2.
    let cases = [((1, 1), 0b1100), ((2, 1), 0b1110), ((1, 3), 0b111100), ((3, 2), 0b111110), ((8, 8), 0b111110)];
    for (sides, leafset) in cases {
        book.open_running(sides, &keys);
        (1..6).for_each(|z| book.hold(0, z, 1, 64));
        book.hold(5, 0, 1, 64);
        book.candidate(3, 0);
        assert_eq!(book.screens().conductor.leafsets[..6], [leafset, 0, 0, 0, 0, 1]);
    }
    // Held ones that are off count as others do.
    book.open_running(1, &keys);
    (1..6).for_each(|z| book.hold(0, z, 1, 64));
    book.play(off(3), 0);
    book.play(off(2), 0);
    assert_eq!(book.screens().conductor.leafsets[0], 0b1100);
    assert_eq!(book.leafset(0, 0), 0b1100);
}

/// Nodes that are off show nothing but their key, held by others or not; then all of them run.
fn off_nodes(book: &mut Book) {
    let keys = [400, 300, 200, 100];
    book.open(2, &keys, 0);
    assert_eq!(book.screens().conductor.running, 0);
    for x in 0..4 {
        book.play(on(x), 0);
        (0..4).filter(|&z| z != x).for_each(|z| book.hold(x, z, 1, 64));
        let shown = book.screens();
        assert_eq!(shown.conductor.running, (2 << x) - 1);
        assert_eq!(shown.conductor.leafsets[x as usize], 0b1111 & !(1 << x));
        assert!(shown.conductor.leafsets[x as usize + 1..] == [0; 64][x as usize + 1..]);
    }
    book.play(off(2), 0);
    let shown = book.screens();
    assert_eq!((shown.conductor.running, shown.conductor.leafsets[2]), (0b1011, 0));
    assert_eq!((shown.conductor.leafsets[0], shown.stamps[2]), (0b1110, 1));
    (0..4).filter(|&x| x != 2).for_each(|x| book.play(off(x), 0));
    assert_eq!(book.screens().conductor.running, 0);
}

/// Clocks, candidates, stamps, spares and messages, each changed alone: the conductor's screen stays.
fn technician_only(book: &mut Book) {
    book.open_running(1, &[10, 20, 30, 40]);
    (1..4).for_each(|z| book.hold(0, z, 1, 64));
    book.hold(2, 1, 1, 64);
    let conductor = book.screens().conductor.clone();
    let changes: [&dyn Fn(&mut Book); 7] = [
        &|book| (0..4).for_each(|x| book.set_clock(x, 300 + x)),
        &|book| book.candidate(1, 3),
        &|book| book.candidate(0, 2),
        &|book| book.hold(0, 2, 300, 64),
        &|book| book.hold(0, 2, 300, 3),
        &|book| book.hold(2, 1, 2, 0),
        &|book| book.send(Message::new(4, 0, 3).seeing(&[0, 2])),
    ];
    for change in changes {
        change(book);
        assert!(book.screens().conductor == conductor);
    }
    let shown = book.screens();
    assert_eq!(shown.candidates[..4], [0b100, 0b1000, 0, 0]);
    assert_eq!((shown.stamps[2], shown.stamps[128], shown.stamps[129]), (300, 0, 2));
    assert_eq!((shown.spares[2], shown.spares[129], shown.spares[3]), (3, 0, 64));
    (0..4).for_each(|x| book.set_clock(x, CLOCK_LIMIT));
    book.hold(0, 1, CLOCK_LIMIT, 2);
    assert_eq!(book.screens().stamps[1], CLOCK_LIMIT);
}

/// Each node of four as the spare of a pair, and 63 where there are 64.
fn every_spare(book: &mut Book) {
    book.open_running(2, &[10, 20, 30, 40]);
    for x in 0..4 {
        for z in (0..4).filter(|&z| z != x) {
            (0..4).filter(|s| ![x, z].contains(s)).for_each(|spare| {
                book.hold(x, z, 1, spare);
                assert_eq!(book.screens().spares[(64 * x + z) as usize], spare as u8);
            });
        }
    }
    book.open_running(8, &(0..64).map(|s| 7 * s).collect::<Vec<u32>>());
    book.hold(62, 61, 1, 63);
    book.hold(63, 0, 1, 62);
    book.hold(0, 63, 1, 64);
    book.candidate(63, 62);
    let shown = book.screens();
    assert_eq!([64 * 62 + 61, 64 * 63, 63, 4_095, 4_094].map(|at| shown.spares[at]), [63, 62, 64, 0, 64]);
    assert_eq!((shown.candidates[63], shown.conductor.running), (1 << 62, u64::MAX));
    assert_eq!((shown.conductor.leafsets[0], shown.conductor.leafsets[63]), (1 << 63, 1));
}

/// The part with 0, 1, 2 and 13 messages, one of each type, and as they are taken out again.
fn parts(book: &mut Book) {
    book.open_running(2, &[10, 20, 30]);
    book.screens();
    for kind in 1..=13 {
        let message = match kind {
            4 => Message::new(4, 0, 1).seeing(&[0, 2]),
            8 => Message::new(8, 0, 1).about(2),
            9 | 10 => Message::new(kind, 1, 2).about(0).stamped(CLOCK_LIMIT - kind),
            11 => Message::new(11, 2, 0).about(1),
            _ => Message::new(kind, 2, 1),
        };
        book.send(message);
        book.screens();
    }
    for position in [12, 0, 5, 3] {
        book.play(lose(position), 0);
        book.screens();
    }
}

/// A part to the last word, and one message less.
fn full_pool(book: &mut Book) {
    crowded(book, &SIX, 1_024);
    book.screens();
    book.play(deliver(1_023), 0);
    book.screens();
    crowded(book, &(0..64).map(|s| 3 * s).collect::<Vec<u32>>(), 1_024);
    book.screens();
    book.play(lose(0), 0);
    book.screens();
}

/// 64 nodes spread evenly, each of which holds the next ten and the ten before: the leafsets at several A and B, round
/// zero.
fn evenly(book: &mut Book) {
    let keys: Vec<u32> = (0..64).map(|s| s << 18).collect();
    book.open((8, 8), &keys, 0);
    assert_eq!(book.screens().conductor.running, 0);
    book.open_running((8, 8), &keys);
    assert_eq!(book.screens().conductor.running, u64::MAX);
    for x in 0..64 {
        (1..=10).flat_map(|far| [(x + far) % 64, (x + 64 - far) % 64]).for_each(|z| book.hold(x, z, 1, 64));
    }
    for (a, b) in [(8, 8), (1, 8), (8, 1), (1, 1), (3, 5)] {
        book.set_word(0, 1 << 28 | b << 22 | 64 << 4 | a);
        let shown = book.screens();
        let ahead = |x: u32| (1..=a).fold(0, |set, far| set | 1u64 << ((x + far) % 64));
        let behind = |x: u32| (1..=b).fold(0, |set, far| set | 1u64 << ((x + 64 - far) % 64));
        assert!((0..64).all(|x| shown.conductor.leafsets[x as usize] == ahead(x) | behind(x)));
    }
}

/// Of 64 nodes the first, the last and one between hold everybody and have everybody as candidate: each pair has a stamp
/// of its own, every other one a spare.
fn everybody(book: &mut Book) {
    const HOLDING: [u32; 3] = [0, 31, 63];
    let keys: Vec<u32> = (0..64).map(|s| CLOCK_LIMIT - (s << 12)).collect();
    book.open_running(8, &keys);
    book.fill_screen(1, 1);
    for x in HOLDING {
        book.set_clock(x, 5_000);
        for z in (0..64).filter(|&z| z != x) {
            let spare = (0..64).find(|s| ![x, z].contains(s)).filter(|_| z % 2 == 1).unwrap_or(64);
            book.hold(x, z, 1 + 64 * x + z, spare);
            book.candidate(x, z);
        }
    }
    let shown = book.screens();
    let others = |x: usize| if HOLDING.contains(&(x as u32)) { !(1 << x) } else { 0 };
    assert!((0..64).all(|x| shown.candidates[x] == others(x)));
    assert!(HOLDING.iter().all(|&x| shown.conductor.leafsets[x as usize].count_ones() == 16));
    let stamp = |at: usize| if others(at / 64) >> (at % 64) & 1 == 1 { 1 + at as u32 } else { 0 };
    assert!((0..4_096).all(|at| shown.stamps[at] == stamp(at)));
}

/// A ring of three with held nodes, candidates, spares and messages, and numbers on the screens before.
fn small(book: &mut Book) {
    book.open((3, 4), &[10, 20, 30], 0);
    book.play(on(0), 0);
    book.play(on(1), 0);
    book.hold(0, 1, 1, 2);
    book.hold(1, 0, 1, 64);
    book.candidate(1, 2);
    book.send(Message::new(3, 1, 0));
    book.send(Message::new(5, 0, 2));
}

/// 1, on a ring and on words that are none.
fn wrong_length(book: &mut Book) {
    small(book);
    let head = book.words()[0];
    for (number, word) in [(1, head), (2, 0), (3, u32::MAX)] {
        book.set_word(0, word);
        for length in [0, 1, 2, 129, 8_321, 8_331, LENGTH - 1, LENGTH + 1] {
            book.fill_screen(number, 64);
            book.lend(length);
            book.screens_refused(1);
            book.lend(LENGTH);
        }
    }
    book.set_word(0, head);
    book.screens();
    // Also where the word past a ring is 0.
    book.set_word(LENGTH, 0);
    book.lend(LENGTH + 1);
    book.screens_refused(1);
    book.lend(LENGTH);
    book.screens();
}

/// 6, by words of each region; mended, the screens are shown.
fn not_a_ring(book: &mut Book) {
    small(book);
    for (number, (at, value)) in (0..).zip(DAMAGES) {
        let word = book.words()[at];
        book.fill_screen(!number, 200 + number);
        book.set_word(at, value);
        book.screens_refused(6);
        book.set_word(at, word);
        book.screens();
    }
    // A node that is off and holds, a stamp above the clock, a spare that is the node itself, a view with its receiver.
    let wrongs = [
        (pair(2, 0), 3 << 28 | 1 << 24 | 1),
        (pair(0, 1), 3 << 28 | 1 << 24 | 2),
        (pair(0, 1) + 1, 4 << 28),
        (pair(0, 2) + 1, 4 << 28 | 1),
        (pair(0, 3) + 1, 4 << 28 | 64),
        (8_323, 8 << 28 | 1),
        (8_331, 6 << 28),
    ];
    for (at, value) in wrongs {
        let word = book.words()[at];
        book.set_word(at, value);
        book.screens_refused(6);
        book.set_word(at, word);
        book.screens();
    }
    // Neither zeros nor ones are a ring.
    for value in [0, u32::MAX] {
        book.fill_words(0, LENGTH as u32, value);
        book.fill_screen(3, 3);
        book.screens_refused(6);
    }
}

/// A small ring after a large one, and the other way round, with refused calls between them and without.
fn in_a_row(book: &mut Book) {
    let keys: Vec<u32> = (0..64).map(|s| 1_000 * s).collect();
    for refused in [false, true] {
        book.open_running(8, &keys);
        (1..64).for_each(|z| book.hold(0, z, 1, if z == 9 { 8 } else { 9 }));
        (0..63).for_each(|x| book.candidate(x, 63));
        book.screens();
        book.screens();
        if refused {
            book.lend(LENGTH - 1);
            book.screens_refused(1);
            book.lend(LENGTH);
        }
        small(book);
        book.screens();
        if refused {
            book.set_word(0, 0);
            book.screens_refused(6);
        }
        book.open(1, &[5], 0);
        let shown = book.screens();
        assert!(shown.stamps == [0; 4_096] && shown.spares == [0; 4_096] && shown.candidates == [0; 64]);
    }
}

/// The screens between the events of a short script, from the opening on.
fn after_events(book: &mut Book) {
    book.open((2, 1), &[10, 20, 30, 40], 0);
    let switched = (0..4).map(on).chain([contact(0, 1), contact(2, 1), contact(3, 2)]);
    let delivered = std::iter::repeat_n(deliver(0), 6);
    let timed = [timer(0, 0), timer(1, 0), echo(0), deliver(0), deliver(0), timer(1, 2), timer(1, 3), timer(2, 4)];
    for word in switched.chain(delivered).chain(timed) {
        book.play_any(word);
        book.screens();
    }
    while look::messages(book.words()) > 0 && look::clock(book.words(), 1) < 30 {
        book.play_any(deliver(0));
        book.screens();
    }
    [notice(1, 0), leave(2), off(0)].into_iter().for_each(|word| {
        book.play_any(word);
        book.screens();
    });
}
