//! "Words read as a ring when all this fits": one pass over the words, without branches on their contents where the
//! words are many, so that the compiler makes vector code of the loops.

use super::layout::*;
use super::messages::{messages_fit, senders_fit};
use super::row::Row;

/// The header, where the words read as a ring.
pub fn reads_as_ring(words: &Words) -> Option<Header> {
    let header = Header::read(words[0])?;
    let n = header.nodes;
    let end = message_at(header.messages);
    let fits = nodes_fit(words, n)
        && pairs_fit(words, n)
        && messages_fit(&words[MESSAGES..end], n)
        && senders_fit(&words[MESSAGES..end])
        && all_zero(&words[end..]);
    fits.then_some(header)
}

fn all_zero(words: &[u32]) -> bool {
    words.iter().fold(0, |all, word| all | word) == 0
}

fn nodes_fit(words: &Words, n: usize) -> bool {
    let (used, unused) = words[1..PAIRS].split_at(2 * n);
    let mut unfit = 0;
    for node in used.chunks_exact(2) {
        unfit |= (node[0] ^ KIND_KEY) & !(LOW24 | RUNNING) | (node[1] ^ KIND_CLOCK) & !LOW24;
    }
    unfit == 0 && all_zero(unused) && keys_differ(used)
}

/// Each key beside each later one, `lanes` at a time: past the last key stand numbers that are no keys and differ.
fn keys_differ(nodes: &[u32]) -> bool {
    const LANES: usize = 16;
    let n = nodes.len() / 2;
    let mut keys = [0; 2 * NODES + LANES];
    for (place, key) in keys.iter_mut().enumerate() {
        *key = LOW24 + 1 + place as u32;
    }
    for (key, node) in keys.iter_mut().zip(nodes.chunks_exact(2)) {
        *key = node[0] & LOW24;
    }
    let mut equal = [0u32; LANES];
    for ahead in 1..n {
        for from in (0..n - ahead).step_by(LANES) {
            let one: &[u32; LANES] = keys[from..from + LANES].try_into().unwrap();
            let other: &[u32; LANES] = keys[from + ahead..from + ahead + LANES].try_into().unwrap();
            for lane in 0..LANES {
                equal[lane] |= if one[lane] == other[lane] { !0 } else { 0 };
            }
        }
    }
    equal == [0; LANES]
}

fn pairs_fit(words: &Words, n: usize) -> bool {
    let mut outside = 0;
    for x in 0..n {
        let row: &[u32; ROW] = words[pair_at(x, 0)..][..ROW].try_into().unwrap();
        if !Row::new(words, row, x).fits(n) {
            return false;
        }
        outside |= row[2 * x] | row[2 * x + 1];
        outside |= row[2 * n..].iter().fold(0, |all, word| all | word);
    }
    outside == 0 && all_zero(&words[pair_at(n, 0)..MESSAGES])
}
