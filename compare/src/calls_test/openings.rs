//! Openings: refusals 1 to 3, and old words of any sort.

use super::book::Book;
use crate::LENGTH;

const TOO_LARGE: u32 = 16_777_216;

pub fn write(book: &mut Book) {
    book.section("openings");
    accepted(book);
    lengths(book);
    ranges(book);
    keys(book);
}

/// The smallest and the largest tables, over old words that are no ring.
fn accepted(book: &mut Book) {
    book.fill_words(0, LENGTH as u32 + 1, u32::MAX);
    book.open(1, &[0], 0);
    book.groups(0);
    book.fill_words(0, LENGTH as u32, 0x3100_0001);
    book.open(8, &spread(64), 0);
    book.groups(0);
    book.open((3, 5), &[10, 20, 30], 0);
    book.open(2, &[TOO_LARGE - 1, 0], 0);
}

/// "A ring buffer isn't 13,441 words", also where 2 or 3 apply too.
fn lengths(book: &mut Book) {
    for length in [0, 1, LENGTH - 1, LENGTH + 1] {
        book.lend(length);
        book.open(1, &[5, 6], 1);
        book.open(0, &[5, 6], 1);
        book.open(1, &[6, 6], 1);
        book.open(9, &[TOO_LARGE], 1);
        book.lend(LENGTH);
    }
}

/// "n or L out of range", "Refusal 2 covers both numbers", also where 3 applies too.
fn ranges(book: &mut Book) {
    for side in [0, 9, 16, u32::MAX] {
        for sides in [(side, side), (side, 1), (8, side)] {
            book.open(sides, &[5, 6], 2);
            book.open(sides, &[6, 6], 2);
        }
    }
    for clockwise in 1..=8 {
        (1..=8).for_each(|counter_clockwise| book.open((clockwise, counter_clockwise), &[5, 6], 0));
    }
    book.open(1, &[], 2);
    book.open(0, &[], 2);
    book.open(1, &spread(65), 2);
    book.open(1, &[&spread(64)[..], &[TOO_LARGE]].concat(), 2);
    book.open(9, &spread(66), 2);
}

/// "a key above 16,777,215, or two equal"
fn keys(book: &mut Book) {
    for key in [TOO_LARGE, TOO_LARGE + 1, u32::MAX] {
        book.open(1, &[key], 3);
        book.open(1, &[1, 2, key], 3);
        book.open(1, &[key, 1, 2], 3);
    }
    book.open(1, &[7, 7], 3);
    book.open(1, &[7, 8, 9, 7], 3);
    book.open(1, &[8, 7, 9, 7], 3);
    book.open(1, &[0, TOO_LARGE], 3);
    book.open(1, &[TOO_LARGE, TOO_LARGE], 3);
    let mut all = spread(64);
    all[63] = all[0];
    book.open(8, &all, 3);
    all[63] = all[62];
    book.open(8, &all, 3);
}

/// As many keys that differ, spread over the ring, in no order.
pub fn spread(count: u32) -> Vec<u32> {
    (0..count).map(|s| (s * 7_340_033 + 5) % TOO_LARGE).collect()
}
