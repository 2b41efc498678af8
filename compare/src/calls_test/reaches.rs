//! Reaches to the owner of a key: where each ends, after how many hops, and the refusals in their order.

use super::book::{Book, Message};
use crate::events::*;
use crate::reaches::steep;
use crate::LENGTH;

const LIMIT: u32 = 16_777_215;

pub fn write(book: &mut Book) {
    book.section("reaches");
    alone(book);
    two(book);
    round_zero(book);
    strictly_between(book);
    at_the_place(book);
    beside(book);
    running_only(book);
    held_or_not(book);
    most_hops(book);
    each_span(book);
    among_others(book);
    rows(book);
    circle(book);
    wrong_length(book);
    not_a_ring(book);
    in_order(book);
}

/// One node owns every key.
fn alone(book: &mut Book) {
    book.open(1, &[5], 0);
    book.reach_refused(0, 5, 8);
    book.reach_refused(1, 5, 7);
    book.play(on(0), 0);
    [5, 0, 4, 6, 5 + (1 << 23), LIMIT].into_iter().for_each(|key| book.reach(0, key, 0, 0));
    book.reach_refused(1, 5, 7);
    book.reach_refused(0, LIMIT + 1, 12);
}

/// Node 1 owns the keys 11 to 20, node 0 all others; with node 1 off, it owns none.
fn two(book: &mut Book) {
    book.open_running(1, &[10, 20]);
    for (key, owner) in [(0, 0), (9, 0), (10, 0), (11, 1), (19, 1), (20, 1), (21, 0), (1 << 23, 0), (LIMIT, 0)] {
        (0..2).for_each(|start| book.reach(start, key, owner, (start != owner) as u32));
    }
    book.play(off(1), 0);
    for key in [0, 10, 11, 20, 21, LIMIT] {
        book.reach(0, key, 0, 0);
        book.reach_refused(1, key, 8);
    }
}

/// Keys 0 and 16,777,215, and keys beside them.
fn round_zero(book: &mut Book) {
    book.open_running(1, &[0, LIMIT]);
    for (key, owner) in [(0, 0), (1, 1), (2, 1), (1 << 23, 1), (LIMIT - 1, 1), (LIMIT, 1)] {
        (0..2).for_each(|start| book.reach(start, key, owner, (start != owner) as u32));
    }
    // From node 2, node 3 is a span of 2 away, node 0 a span of 4, node 1 one of 8.
    book.open_running(1, &[2, 6, LIMIT - 1, 0]);
    for (key, end, hops) in [(LIMIT, 3, 1), (0, 3, 1), (1, 0, 2), (2, 0, 2), (3, 1, 2), (6, 1, 2), (7, 2, 0)] {
        book.reach(2, key, end, hops);
    }
    for (key, end, hops) in [(LIMIT - 1, 2, 1), (LIMIT, 3, 2), (0, 3, 2), (2, 0, 3), (5, 1, 0), (7, 2, 1)] {
        book.reach(1, key, end, hops);
    }
}

/// A finger at the key is not between.
fn strictly_between(book: &mut Book) {
    book.open_running(1, &[0, 4, 8]);
    for (key, end, hops) in [(0, 0, 0), (1, 1, 1), (3, 1, 1), (4, 1, 1), (5, 2, 2), (7, 2, 2), (8, 2, 2), (9, 0, 0)] {
        book.reach(0, key, end, hops);
    }
    for (key, end, hops) in [(4, 1, 0), (5, 2, 1), (8, 2, 1), (9, 0, 2), (LIMIT, 0, 2), (0, 0, 2), (1, 1, 0)] {
        book.reach(1, key, end, hops);
    }
    for (key, end, hops) in [(8, 2, 0), (5, 2, 0), (9, 0, 1), (0, 0, 1), (1, 1, 2), (4, 1, 2)] {
        book.reach(2, key, end, hops);
    }
}

/// "A stand at that very place counts as met": from node 0 the finger of span 8 is node 1, not node 2.
fn at_the_place(book: &mut Book) {
    book.open_running(1, &[0, 8, 9, 20]);
    book.reach(0, 15, 3, 3);
    book.reach(0, 9, 2, 2);
    book.open_running(1, &[0, 7, 9, 20]);
    book.reach(0, 15, 3, 2);
}

/// Nodes one place from each other.
fn beside(book: &mut Book) {
    book.open_running(1, &[100, 101, 102, 200]);
    for (key, end, hops) in [(100, 0, 0), (101, 1, 1), (102, 2, 2), (103, 3, 2), (200, 3, 2), (201, 0, 0)] {
        book.reach(0, key, end, hops);
    }
    for (key, end, hops) in [(99, 0, 1), (100, 0, 1), (101, 1, 2), (102, 2, 3), (103, 3, 0)] {
        book.reach(3, key, end, hops);
    }
}

/// Nodes that are off are no fingers and own nothing.
fn running_only(book: &mut Book) {
    let keys: Vec<u32> = (0..8).map(|s| 10 * s).collect();
    book.open_running(1, &keys);
    book.reach(0, 70, 7, 3);
    book.play(off(6), 0);
    book.reach(0, 70, 7, 3);
    book.play(off(4), 0);
    book.reach(0, 70, 7, 2);
    book.reach(0, 35, 5, 3);
    book.play(off(7), 0);
    book.reach(0, 70, 0, 0);
    book.reach(1, 70, 0, 2);
    book.reach_refused(7, 70, 8);
    book.play(on(7), 0);
    book.reach(1, 70, 7, 2);
}

/// Fingers are among all running nodes, whoever holds whom; candidates, spares and messages are of no account.
fn held_or_not(book: &mut Book) {
    book.open_running((1, 2), &[0, 4, 8, 12]);
    book.reach(0, 12, 3, 2);
    book.hold(0, 1, 1, 3);
    book.reach(0, 12, 3, 2);
    book.hold(0, 3, 1, 64);
    book.candidate(2, 3);
    book.send(Message::new(3, 1, 0));
    book.reach(0, 12, 3, 2);
    book.reach(3, 8, 2, 3);
}

/// The most hops that occur: each but the last goes half of what is left. One node off makes one fewer.
fn most_hops(book: &mut Book) {
    for offset in [0, 1, 5_000_000, 1 << 23, LIMIT] {
        let keys: Vec<u32> = (0..25).map(|i| (offset + (1 << 24) - (1 << (24 - i))) & LIMIT).collect();
        let key = (offset + LIMIT) & LIMIT;
        book.open_running(8, &keys);
        (0..25).for_each(|start| book.reach(start, key, 24, 24 - start));
        book.reach(0, (key + 1) & LIMIT, 0, 0);
        book.reach(1, (key + 1) & LIMIT, 0, 24);
        for gone in [1, 12, 23] {
            book.play(off(gone), 0);
            book.reach(0, key, 24, 23);
            book.play(on(gone), 0);
        }
        // Then node 0 is the owner.
        book.play(off(24), 0);
        book.reach(0, key, 0, 0);
        book.reach(1, key, 0, 23);
    }
}

/// 24 hops with each of the spans left out, which is one place longer than the way to the last node.
fn each_span(book: &mut Book) {
    for left_out in 0..24 {
        let room = (1 << left_out) - 1;
        for (key, before, behind) in [(LIMIT - 9, 0, room), (7_000_000, room, 0)] {
            book.open_running(2, &steep(key, left_out, before, behind));
            book.reach(0, key, 24, 24);
        }
    }
}

/// 24 hops among 64 nodes, of which the others run or not.
fn among_others(book: &mut Book) {
    let others = (0..39).map(|s| 12_345 + 400_000 * s);
    let keys: Vec<u32> = others.chain(steep(LIMIT, 0, 0, 0)).collect();
    book.open_running(8, &keys);
    book.reach(39, LIMIT, 63, 24);
    book.reach(50, LIMIT, 63, 13);
    book.reach(0, 12_345, 0, 0);
    (0..39).step_by(3).for_each(|s| book.play(off(s), 0));
    book.reach(39, LIMIT, 63, 24);
    book.reach_refused(0, LIMIT, 8);
}

/// The hops to the next node are one, and one more for each span in what is left to the node before it.
fn hops(steps: u32) -> u32 {
    (steps - 1).count_ones() + 1
}

/// 64 nodes so far from each other that their fingers have six spans each, from the shortest to the longest.
fn rows(book: &mut Book) {
    for (first, apart) in [(0, 1), (LIMIT - 20, 1), (123, 64), (LIMIT - 70_000, 4_096)] {
        let keys: Vec<u32> = (0..64).map(|s| (first + apart * s) & LIMIT).collect();
        book.open_running(1, &keys);
        for start in [0, 1, 31, 32, 40] {
            for end in start + 1..64 {
                book.reach(start, keys[end as usize], end, hops(end - start));
            }
        }
        book.reach(0, (keys[63] + 1) & LIMIT, 0, 0);
    }
}

/// 64 nodes spread evenly, then every second of them, to each key and to the one behind it.
fn circle(book: &mut Book) {
    for (first, nodes) in [(0, 64), (LIMIT, 64), (77, 32)] {
        let apart = 64 / nodes;
        let keys: Vec<u32> = (0..64).map(|s| (first + (s << 18)) & LIMIT).collect();
        book.open_running(1, &keys);
        (0..64).filter(|s| s % apart != 0).for_each(|s| book.play(off(s), 0));
        for start in [0, 20, 62] {
            for steps in 1..nodes {
                let end = (start + apart * steps) % 64;
                book.reach(start, keys[end as usize], end, hops(steps));
                let behind = (start + apart * (steps + 1)) % 64;
                let more = if behind == start { 0 } else { hops(steps + 1) };
                book.reach(start, (keys[end as usize] + 1) & LIMIT, behind, more);
            }
        }
    }
}

/// Three nodes, of which 0 and 1 run.
fn three(book: &mut Book) {
    book.open(2, &[10, 20, 30], 0);
    book.play(on(0), 0);
    book.play(on(1), 0);
}

/// Reaches on the ring of three where each of 7, 8 and 12 applies or not, with the lowest that does.
fn faults() -> impl Iterator<Item = (u32, u32, u32)> {
    let starts = [(0, 0), (3, 7), (63, 7), (64, 7), (255, 7), (2, 8)];
    let keys = [(20, 0), (LIMIT, 0), (LIMIT + 1, 12), (LIMIT + 21, 12), (u32::MAX, 12)];
    starts.into_iter().flat_map(move |(start, first)| {
        keys.into_iter().map(move |(key, second)| (start, key, if first == 0 { second } else { first }))
    })
}

/// 7, 8 and 12, alone and together.
fn in_order(book: &mut Book) {
    three(book);
    for (start, key, answer) in faults() {
        match answer {
            0 if key == 20 => book.reach(start, key, 1, 1),
            0 => book.reach(start, key, 0, 0),
            _ => book.reach_refused(start, key, answer),
        }
    }
}

/// 1, also where any other applies too.
fn wrong_length(book: &mut Book) {
    three(book);
    for word in [book.words()[0], u32::MAX] {
        book.set_word(0, word);
        for length in [0, 1, LENGTH - 1, LENGTH + 1] {
            book.lend(length);
            for (start, key, _) in faults().step_by(4) {
                book.reach_refused(start, key, 1);
            }
            book.lend(LENGTH);
        }
    }
}

/// 6, by a word of each region, also where a higher one applies too; mended, the reach is made.
fn not_a_ring(book: &mut Book) {
    three(book);
    book.send(Message::new(3, 1, 0));
    for (at, value) in [(0, u32::MAX), (2, 0), (129, 1), (8_321, 0), (LENGTH - 1, 1)] {
        let word = book.words()[at];
        book.set_word(at, value);
        for (start, key, _) in faults().step_by(4) {
            book.reach_refused(start, key, 6);
        }
        book.set_word(at, word);
        book.reach(0, 20, 1, 1);
    }
}
