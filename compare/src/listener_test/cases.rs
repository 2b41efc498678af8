//! Each sentence of the note, its refusals, its edges, and records that no list of calls gives.

use super::book::Book;
use crate::random::Random;

/// The first and the last node, and those beside the middle.
const NODES: [u32; 6] = [0, 1, 31, 32, 62, 63];

pub fn write(book: &mut Book) {
    NODES.into_iter().for_each(|s| once_per_silence(book, s));
    [0, 17, 63].into_iter().for_each(|s| heard_in_time(book, s));
    watching_again(book);
    not_watched_yet(book);
    refusals(book);
    all_at_once(book);
    one_after_another(book);
    growing(book);
    up_to_255(book);
    NODES.into_iter().for_each(|s| noticed_by_hand(book, s));
    not_watched_by_hand(book);
    (0..8).for_each(|number| any_record(book, number));
    any_calls(book);
}

/// "A watched stand not heard for its full window is noticed on exactly that tick, once per silence."
fn once_per_silence(book: &mut Book, s: u32) {
    book.empty();
    book.ticks(2);
    book.watch(s, 0);
    for window in 4..8 {
        book.ticks(window - 1);
        book.tick(1 << s);
        book.ticks(window);
        book.hear(s, 0);
    }
}

/// Never noticed as long as it is heard one tick before; the window stays.
fn heard_in_time(book: &mut Book, s: u32) {
    book.empty();
    book.watch(s, 0);
    for _ in 0..5 {
        book.hear(s, 0);
        book.hear(s, 0);
        book.ticks(3);
    }
    book.tick(1 << s);
    for _ in 0..3 {
        book.hear(s, 0);
        book.ticks(4);
    }
    book.tick(1 << s);
    book.hear(s, 0);
    (1..6).for_each(|ticks| {
        book.ticks(ticks);
        book.hear(s, 0);
    });
    book.ticks(5);
    book.tick(1 << s);
}

/// "Watching it again changes nothing": before the notice, after it, and with a window that has grown.
fn watching_again(book: &mut Book) {
    book.empty();
    book.watch(9, 0);
    book.watch(9, 0);
    book.ticks(3);
    book.watch(9, 0);
    book.tick(1 << 9);
    book.watch(9, 0);
    book.ticks(4);
    book.hear(9, 0);
    book.watch(9, 0);
    book.ticks(2);
    book.watch(9, 0);
    book.ticks(2);
    book.tick(1 << 9);
}

/// A hearing before the first watching is none.
fn not_watched_yet(book: &mut Book) {
    book.empty();
    book.hear(40, 18);
    book.ticks(1);
    book.hear(40, 18);
    book.watch(40, 0);
    book.hear(41, 18);
    book.ticks(3);
    book.hear(41, 18);
    book.tick(1 << 40);
    book.watch(41, 0);
    book.ticks(3);
    book.tick(1 << 41);
}

/// Numbers above 63, some of which have a watched node in their lowest bits.
const ABOVE: [u32; 9] = [64, 65, 81, 127, 128, 145, 192, 254, 255];

fn refusals(book: &mut Book) {
    book.empty();
    ABOVE.into_iter().for_each(|node| book.hear(node, 7));
    ABOVE.into_iter().for_each(|node| book.watch(node, 7));
    (0..64).for_each(|s| book.hear(s, 18));
    [0, 1, 17, 63].into_iter().for_each(|s| book.watch(s, 0));
    book.ticks(2);
    (0..64).filter(|s| ![0, 1, 17, 63].contains(s)).for_each(|s| book.hear(s, 18));
    ABOVE.into_iter().for_each(|node| book.hear(node, 7));
    ABOVE.into_iter().for_each(|node| book.watch(node, 7));
    book.ticks(1);
    book.tick(1 << 0 | 1 << 1 | 1 << 17 | 1 << 63);
    ABOVE.into_iter().for_each(|node| book.hear(node, 7));
    (0..64).for_each(|s| book.watch(s, 0));
    ABOVE.into_iter().for_each(|node| book.watch(node, 7));
    ABOVE.into_iter().for_each(|node| book.hear(node, 7));
}

/// All nodes noticed by one tick, and again after each was heard.
fn all_at_once(book: &mut Book) {
    book.empty();
    (0..64).for_each(|s| book.watch(s, 0));
    book.ticks(3);
    book.tick(u64::MAX);
    book.ticks(2);
    (0..64).for_each(|s| book.hear(s, 0));
    book.ticks(4);
    book.tick(u64::MAX);
    book.ticks(1);
}

/// A node more at each tick, then one of them heard at each.
fn one_after_another(book: &mut Book) {
    book.empty();
    for s in 0..68 {
        if s < 64 {
            book.watch(s, 0);
        }
        book.tick(if s < 3 { 0 } else { 1u64.checked_shl(s - 3).unwrap_or(0) });
    }
    for s in 0..69 {
        if s < 64 {
            book.hear(s, 0);
        }
        book.tick(if s < 4 { 0 } else { 1u64.checked_shl(s - 4).unwrap_or(0) });
    }
}

/// The window of one node grows, that of another stays.
fn growing(book: &mut Book) {
    book.empty();
    book.watch(30, 0);
    book.watch(33, 0);
    for window in 4..30 {
        for tick in 1..=window {
            book.hear(33, 0);
            book.tick(if tick == window { 1 << 30 } else { 0 });
        }
        book.hear(30, 0);
    }
    book.ticks(2);
    book.tick(1 << 33);
}

/// "up to 255": the last windows, from a record that calls could have left.
fn up_to_255(book: &mut Book) {
    book.empty();
    book.watched(1 << 50 | 1 << 2);
    book.values(50, 0, 252);
    book.values(2, 252, 253);
    book.tick(1 << 2);
    book.hear(2, 0);
    book.watched(1 << 50);
    for window in [252, 253, 254, 255, 255, 255] {
        book.values(50, window - 2, window);
        book.tick(0);
        book.tick(1 << 50);
        book.ticks(1);
        book.hear(50, 0);
        book.ticks(1);
    }
    assert_eq!(book.record().windows[50], 255);
    book.ticks(253);
    book.tick(1 << 50);
    book.ticks(2);
    book.hear(50, 0);
    book.ticks(1);
}

/// A silence at or above its window counts as noticed, at a window of 0, too.
fn noticed_by_hand(book: &mut Book, s: u32) {
    book.empty();
    book.watched(1 << s);
    let noticed = [(4, 4), (5, 4), (255, 4), (0, 0), (1, 0), (255, 0), (255, 254), (255, 255), (1, 1), (9, 8)];
    for (silence, window) in noticed {
        book.values(s, silence, window);
        book.ticks(2);
        book.watch(s, 0);
        book.hear(s, 0);
        assert_eq!(book.record().windows[s as usize], window.saturating_add(1));
        book.any_tick();
    }
    for (silence, window) in [(3, 4), (0, 1), (253, 254), (254, 255)] {
        book.values(s, silence, window);
        book.hear(s, 0);
        book.values(s, silence, window);
        book.tick(1 << s);
        book.ticks(1);
    }
}

/// The values of a node that isn't watched stay until it is.
fn not_watched_by_hand(book: &mut Book) {
    book.empty();
    for (s, silence, window) in [(0, 0, 1), (5, 3, 4), (31, 254, 255), (32, 7, 7), (62, 9, 8), (63, 255, 0)] {
        book.values(s, silence, window);
        book.ticks(2);
        book.hear(s, 18);
        book.watched(!(1 << s));
        book.hear(s, 18);
        book.watched(0);
        book.ticks(1);
    }
    for s in NODES.into_iter().chain([5]) {
        book.watch(s, 0);
    }
    book.ticks(3);
    book.tick(NODES.into_iter().fold(1 << 5, |set, s| set | 1 << s));
}

/// Any bytes, any watched set: a few ticks, every node heard, ticks, every node watched, ticks.
fn any_record(book: &mut Book, number: u64) {
    let mut random = Random::new(13, number);
    book.empty();
    let any = random.next();
    book.watched(random.pick(&[any, any, u64::MAX]));
    for s in 0..64 {
        let (byte, other) = (random.word() as u8, random.word() as u8);
        let window = random.pick(&[0, 1, 4, 254, 255, byte]);
        let silence = random.pick(&[window, window.saturating_sub(1), window.saturating_add(1), other]);
        book.values(s, silence, window);
    }
    (0..3).for_each(|_| book.any_tick());
    (0..64).for_each(|s| book.any_hear(s));
    (0..2).for_each(|_| book.any_tick());
    (0..64).for_each(|s| book.any_watch(s));
    (0..5).for_each(|_| book.any_tick());
}

/// Any calls, mostly of a few nodes.
fn any_calls(book: &mut Book) {
    let mut random = Random::new(13, 99);
    book.empty();
    for _ in 0..1_200 {
        let (few, any) = (random.pick(&[0, 8, 44, 63]), random.below(70) as u32);
        let node = random.pick(&[few, few, few, any]);
        match random.below(10) {
            0 => book.any_watch(node),
            1..=3 => book.any_hear(node),
            _ => book.any_tick(),
        }
    }
}
