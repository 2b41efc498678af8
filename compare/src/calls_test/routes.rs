//! Routes towards a key: where each hop goes, where a route ends, and the refusals in their order.

use super::book::{Book, Message};
use crate::events::*;
use crate::{look, LENGTH};

const LIMIT: u32 = 16_777_215;
const HALF: u32 = 8_388_608;

/// All places of the machine.
const PLACES: usize = 1_040;

pub fn write(book: &mut Book) {
    book.section("routes");
    // Every place holds the number of a node that few of the routes have.
    book.open(1, &[10], 0);
    book.fill_list(0, 1_200, 0);
    book.play_all(0, &[4; 1_200], PLACES, 0);
    alone(book);
    two(book);
    ties(book);
    held_only(book);
    round_zero(book);
    lists(book);
    wrong_length(book);
    not_a_ring(book);
    in_order(book);
    row(book);
    circle(book);
    everybody(book);
}

/// Opens with all nodes on, and these pairs held.
fn holding(book: &mut Book, keys: &[u32], pairs: &[(u32, u32)]) {
    book.open_running(1, keys);
    pairs.iter().for_each(|&(x, z)| book.hold(x, z, 1, 64));
}

/// One node is the end of every route.
fn alone(book: &mut Book) {
    book.open(1, &[5], 0);
    book.route_refused(0, 5, 64, 8);
    book.route_refused(1, 5, 64, 7);
    book.play(on(0), 0);
    [5, 0, 4, 6, 5 + HALF, LIMIT].into_iter().for_each(|key| book.route(key, &[0], 64));
    book.route_refused(1, 5, 64, 7);
    book.route_refused(0, LIMIT + 1, 64, 12);
    [0, 1, 63].into_iter().for_each(|places| book.route_refused(0, 5, places, 13));
}

/// Two nodes: neither holds, one does, both do. Halfway between them lie the keys 15 and 15 + 8,388,608.
fn two(book: &mut Book) {
    let keys = [10, 20];
    let near = [0, 10, 14, 15, 16, 20, LIMIT, 14 + HALF, 15 + HALF, 16 + HALF];
    holding(book, &keys, &[]);
    for key in near {
        book.route(key, &[0], 64);
        book.route(key, &[1], 64);
    }
    // Node 1 is the clockwise one from 15, node 0 from 15 + 8,388,608.
    let ends = [0, 0, 0, 1, 1, 1, 0, 1, 0, 0];
    holding(book, &keys, &[(0, 1)]);
    for (key, end) in near.into_iter().zip(ends) {
        book.route(key, if end == 0 { &[0] } else { &[0, 1] }, 64);
        book.route(key, &[1], 64);
    }
    holding(book, &keys, &[(0, 1), (1, 0)]);
    for (key, end) in near.into_iter().zip(ends) {
        book.route(key, if end == 0 { &[0] } else { &[0, 1] }, 64);
        book.route(key, if end == 0 { &[1, 0] } else { &[1] }, 64);
    }
}

/// Equal distances: between two held nodes, and between the present one and a held one, either way round.
fn ties(book: &mut Book) {
    // From key 120, node 1 lies 10 clockwise and node 3 as far the other way.
    let keys = [100, 130, 90, 110, 140, 5_000_000];
    holding(book, &keys, &[(0, 1), (0, 3)]);
    book.route(120, &[0, 1], 64);
    book.route(119, &[0, 3], 64);
    book.route(121, &[0, 1], 64);
    holding(book, &keys, &[(3, 1), (1, 3)]);
    book.route(120, &[3, 1], 64);
    book.route(120, &[1], 64);
    // The tie is the first of two hops, and the second.
    holding(book, &keys, &[(0, 4), (4, 1)]);
    book.route(120, &[0, 4, 1], 64);
    holding(book, &keys, &[(2, 3), (3, 1), (1, 3)]);
    book.route(120, &[2, 3, 1], 64);
    // Both at the key's other end: 8,388,608 is one distance, to one place.
    holding(book, &[100, 101, 99], &[(0, 1), (0, 2)]);
    book.route(100 + HALF, &[0, 2], 64);
    book.route(99 + HALF, &[0, 1], 64);
    book.route(101 + HALF, &[0, 2], 64);
}

/// Of the whole held set, those that run; no candidates, and no nodes that others hold.
fn held_only(book: &mut Book) {
    // At A = B = 1 the leafset of node 0 is nodes 3 and 2.
    let keys = [100, 130, 90, 110, 16_777_200, 5_000_000];
    let held = [(0, 1), (0, 2), (0, 3), (0, 4), (0, 5)];
    holding(book, &keys, &held);
    assert_eq!(book.leafset(0, 0), 0b1100);
    book.route(5_000_001, &[0, 5], 64);
    book.route(131, &[0, 1], 64);
    book.route(16_777_199, &[0, 4], 64);
    // The nearest is off, then the next one, too.
    book.play(off(5), 0);
    book.route(5_000_001, &[0, 1], 64);
    book.play(off(1), 0);
    book.route(5_000_001, &[0, 3], 64);
    book.route_refused(5, 5_000_001, 64, 8);
    // On again, it holds nobody, and is held still.
    book.play(on(5), 0);
    book.route(5_000_001, &[0, 5], 64);
    book.route(100, &[5], 64);
    // A candidate is nearest, or the only one.
    holding(book, &keys, &[(0, 3)]);
    book.candidate(0, 5);
    book.candidate(0, 1);
    book.route(5_000_001, &[0, 3], 64);
    book.candidate(2, 5);
    book.route(5_000_001, &[2], 64);
    // Held and a candidate.
    book.candidate(0, 3);
    book.route(111, &[0, 3], 64);
    // Held by others, and held at the start but not where the route has come to.
    holding(book, &keys, &[(5, 0), (1, 0), (0, 3), (3, 1), (1, 3), (1, 2)]);
    book.route(5_000_001, &[0, 3, 1], 64);
    book.route(90, &[5, 0], 64);
    book.route(90, &[1, 2], 64);
    // Messages in flight and spares are of no account.
    book.hold(0, 3, 1, 5);
    book.send(Message::new(2, 5, 0));
    book.route(5_000_001, &[0, 3, 1], 64);
}

/// Keys 0 and 16,777,215, and nodes on either side of them.
fn round_zero(book: &mut Book) {
    let keys = [HALF, 100, LIMIT - 50, LIMIT, 0];
    holding(book, &keys, &[(0, 1), (0, 2), (1, 2), (1, 3), (2, 1), (2, 4), (3, 4), (4, 3)]);
    // From node 0, nodes 1 and 2 are 100 and 51 away from key 0.
    book.route(0, &[0, 2, 4], 64);
    book.route(LIMIT, &[0, 2, 4, 3], 64);
    book.route(0, &[1, 3, 4], 64);
    book.route(LIMIT, &[1, 3], 64);
    book.route(0, &[3, 4], 64);
    book.route(LIMIT, &[3], 64);
    book.route(LIMIT, &[4, 3], 64);
    // Halfway between nodes 1 and 2, across zero.
    holding(book, &[100, LIMIT - 99, HALF], &[(0, 1), (1, 0), (2, 0), (2, 1)]);
    book.route(0, &[0], 64);
    book.route(0, &[1, 0], 64);
    book.route(0, &[2, 0], 64);
    book.route(HALF, &[0, 1], 64);
    book.route(HALF, &[1], 64);
    book.route(HALF, &[2], 64);
}

/// Three nodes, of which 0 and 1 run and hold each other.
fn three(book: &mut Book) {
    book.open(2, &[10, 20, 30], 0);
    book.play(on(0), 0);
    book.play(on(1), 0);
    book.hold(0, 1, 1, 64);
    book.hold(1, 0, 1, 64);
}

/// "The list is shorter than 64", however few nodes there are; longer ones will do.
fn lists(book: &mut Book) {
    three(book);
    for key in [10, 20] {
        for places in [0, 1, 2, 3, 4, 62, 63] {
            book.route_refused(0, key, places, 13);
            book.route_refused(1, key, places, 13);
        }
        for places in [64, 65, 66, 128, PLACES] {
            book.route(key, if key == 10 { &[0] } else { &[0, 1] }, places);
            book.route(key, if key == 10 { &[1, 0] } else { &[1] }, places);
        }
    }
}

/// Routes on the ring of three where each of 7, 8, 12 and 13 applies or not, with the lowest that does.
fn faults() -> impl Iterator<Item = (u32, u32, usize, u32)> {
    let starts = [(0, 0), (3, 7), (63, 7), (64, 7), (255, 7), (2, 8)];
    let keys = [(20, 0), (LIMIT, 0), (LIMIT + 1, 12), (LIMIT + 21, 12), (u32::MAX, 12)];
    let lists = [(64, 0), (63, 13), (0, 13)];
    starts.into_iter().flat_map(move |(start, first)| {
        keys.into_iter().flat_map(move |(key, second)| {
            lists.into_iter().map(move |(places, third)| {
                let lowest = [first, second, third].into_iter().find(|&refusal| refusal != 0);
                (start, key, places, lowest.unwrap_or(0))
            })
        })
    })
}

/// 7, 8, 12 and 13, alone and together.
fn in_order(book: &mut Book) {
    three(book);
    for (start, key, places, answer) in faults() {
        match answer {
            0 if key == 20 => book.route(key, &[0, 1], places),
            0 => book.route(key, &[0], places),
            _ => book.route_refused(start, key, places, answer),
        }
    }
}

/// 1, also where any other applies too.
fn wrong_length(book: &mut Book) {
    three(book);
    for word in [book.words()[0], u32::MAX] {
        book.set_word(0, word);
        for length in [0, 1, LENGTH - 1, LENGTH + 1] {
            book.lend(length);
            for (start, key, places, _) in faults().step_by(7) {
                book.route_refused(start, key, places, 1);
            }
            book.lend(LENGTH);
        }
    }
}

/// 6, by a word of each region, also where a higher one applies too; mended, the route is made.
fn not_a_ring(book: &mut Book) {
    three(book);
    book.send(Message::new(3, 1, 0));
    for (at, value) in [(0, u32::MAX), (2, 0), (129, 1), (8_321, 0), (LENGTH - 1, 1)] {
        let word = book.words()[at];
        book.set_word(at, value);
        for (start, key, places, _) in faults().step_by(7) {
            book.route_refused(start, key, places, 6);
        }
        book.set_word(at, word);
        book.route(20, &[0, 1], 64);
    }
}

/// 64 nodes in a row, each of which holds the next: "Hops are at most n − 1".
fn row(book: &mut Book) {
    let keys: Vec<u32> = (0..64).map(|s| 1_000 * s).collect();
    let nodes: Vec<u8> = (0..64).collect();
    holding(book, &keys, &(0..63).map(|x| (x, x + 1)).collect::<Vec<_>>());
    book.route(63_000, &nodes, 64);
    book.route(63_001, &nodes, 65);
    book.route(40_500, &nodes[..=41], 64);
    book.route(40_499, &nodes[..=40], 64);
    book.route(62_900, &nodes[20..], 64);
    book.route(0, &[63], 64);
    book.play(off(30), 0);
    book.route(63_000, &nodes[..30], 64);
}

/// 64 nodes spread evenly, each of which holds the two beside it: halfway round, the first hop is a tie between them.
fn circle(book: &mut Book) {
    let keys: Vec<u32> = (0..64).map(|s| s << 18).collect();
    holding(book, &keys, &(0..64).flat_map(|x| [(x, (x + 1) % 64), (x, (x + 63) % 64)]).collect::<Vec<_>>());
    let down: Vec<u8> = [0].into_iter().chain((32..64).rev()).collect();
    let up: Vec<u8> = (0..=32).collect();
    book.route(32 << 18, &down, 64);
    book.route((32 << 18) - 1, &up, 64);
    book.route((32 << 18) + 1, &down, 64);
    // Between two nodes, then nearer to one of them.
    book.route(5 << 17, &[0, 1, 2, 3], 64);
    book.route((5 << 17) - 1, &[0, 1, 2], 64);
    book.route(0, &[63, 0], 64);
    book.route(LIMIT, &[1, 0], 64);
    book.route(LIMIT, &[62, 63, 0], 64);
}

/// 64 nodes that hold everybody: one hop to any.
fn everybody(book: &mut Book) {
    let keys: Vec<u32> = (0..64).map(|s| LIMIT - (s << 18)).collect();
    book.open_running(8, &keys);
    (1..64).for_each(|z| book.hold(0, z, 1, 64));
    for end in [1, 9, 32, 55, 63] {
        let key = look::key(book.words(), end as usize);
        [key - 1, key, key + 1].into_iter().for_each(|key| book.route(key, &[0, end], 64));
    }
    book.route(LIMIT, &[0], 64);
}
