//! Long reaches, by how far each running node lies before the key.
//!
//! A span not longer than the way to the last node before the key leads to a finger before the key, a longer one to a
//! finger at the key or past it. So the next node is the finger of the longest span that is not longer than that way, and
//! from the last node it is the owner.

use super::layout::*;
use super::questions::{all_running, ring};
use super::sets::clockwise;
use crate::ring::Routed;

/// A node below how far it lies before the key, from 1 place to a whole round, which is for one at the key. 0 for none.
/// The owner, the first one clockwise from the key, is the farthest before it.
type Before = i32;

pub fn reach(words: &[u32], start: u32, key: u32) -> Result<Routed, u32> {
    let (words, header) = ring(words)?;
    all_running(words, header, &[start])?;
    if key > LOW24 {
        return Err(12);
    }
    let nodes = running_before(words, header, key);
    let owner = greatest_below(&nodes, i32::MAX);
    let here = nodes[start as usize];
    let hops = if here == owner { 0 } else { hops_to_last(&nodes, here) + 1 };
    Ok(Routed { answer: 0, end: owner as u32 & 63, hops })
}

fn running_before(words: &Words, header: Header, key: u32) -> [Before; NODES] {
    let mut nodes = [0; NODES];
    for (x, node) in words[1..PAIRS].chunks_exact(2).take(header.nodes).enumerate() {
        let far = clockwise(node[0] + 1, key) + 1;
        let before = (far << 6 | x as u32) as Before;
        nodes[x] = if node[0] & RUNNING != 0 { before } else { 0 };
    }
    nodes
}

fn greatest_below(nodes: &[Before; NODES], limit: Before) -> Before {
    nodes.iter().fold(0, |greatest, &node| greatest.max(if node < limit { node } else { 0 }))
}

fn hops_to_last(nodes: &[Before; NODES], start: Before) -> u32 {
    let last = nodes.iter().fold(start, |last, &node| last.min(if node == 0 { start } else { node }));
    let (mut here, mut hops) = (start, 0);
    while here != last {
        let span = 1 << ((here >> 6) - (last >> 6)).ilog2();
        here = greatest_below(nodes, ((here >> 6) - span + 1) << 6);
        hops += 1;
    }
    hops
}
