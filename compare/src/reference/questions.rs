//! The questions, the number of groups, and routes.

use super::layout::*;
use super::place::{is_running, marked, table};
use super::sets::{contains, members, Ranked};
use super::validity::reads_as_ring;
use crate::ring::Routed;

/// The words as a ring, or refusal 1 or 6.
pub fn ring(words: &[u32]) -> Result<(&Words, Header), u32> {
    let words: &Words = words.try_into().map_err(|_| 1u32)?;
    Ok((words, reads_as_ring(words).ok_or(6u32)?))
}

/// Refusal 7 or 8 for a question about these nodes.
pub fn all_running(words: &Words, header: Header, nodes: &[u32]) -> Result<(), u32> {
    if nodes.iter().any(|&x| x as usize >= header.nodes) {
        return Err(7);
    }
    if nodes.iter().any(|&x| !is_running(words, x as usize)) {
        return Err(8);
    }
    Ok(())
}

pub fn leafset_of(words: &[u32], x: u32) -> Result<u64, u32> {
    let (words, header) = ring(words)?;
    all_running(words, header, &[x])?;
    let x = x as usize;
    Ok(table(words, header).leafset(x, marked(words, x, HELD)))
}

pub fn connected(words: &[u32], a: u32, b: u32) -> Result<bool, u32> {
    let (words, header) = ring(words)?;
    all_running(words, header, &[a, b])?;
    let links = Links::read(words, header);
    Ok(contains(links.group(a as usize), b as usize))
}

/// "The number of connected groups of running stands."
pub fn groups(words: &[u32]) -> Result<u32, u32> {
    let (words, header) = ring(words)?;
    let links = Links::read(words, header);
    let mut left = links.running;
    let mut count = 0;
    while left != 0 {
        left &= !links.group(left.trailing_zeros() as usize);
        count += 1;
    }
    Ok(count)
}

/// Goes on to the nearest of the held nodes that run, as long as that one is nearer.
pub fn route(words: &[u32], start: u32, key: u32, list: &mut [u8]) -> Result<Routed, u32> {
    let (words, header) = ring(words)?;
    all_running(words, header, &[start])?;
    if key > LOW24 {
        return Err(12);
    }
    let list: &mut [u8; NODES] = list.first_chunk_mut().ok_or(13u32)?;
    let (table, running) = (table(words, header), running(words, header));
    let nearest_held = |here: Ranked| table.nearest(marked(words, here.node(), HELD) & running, key);
    let mut here = table.ranked(start as usize, key);
    let mut hops = 0;
    list[0] = start as u8;
    while let Some(next) = nearest_held(here).filter(|&next| next < here) {
        here = next;
        hops += 1;
        list[hops] = next.node() as u8;
    }
    Ok(Routed { answer: 0, end: here.node() as u32, hops: hops as u32 })
}

pub fn running(words: &Words, header: Header) -> u64 {
    (0..header.nodes).filter(|&x| is_running(words, x)).fold(0, |set, x| set | 1 << x)
}

/// The running nodes, and for each the running nodes that it holds or that hold it.
struct Links {
    running: u64,
    beside: [u64; NODES],
}

impl Links {
    fn read(words: &Words, header: Header) -> Links {
        let running = running(words, header);
        let mut beside = [0; NODES];
        for x in members(running) {
            let held = marked(words, x, HELD) & running;
            beside[x] |= held;
            members(held).for_each(|z| beside[z] |= 1 << x);
        }
        Links { running, beside }
    }

    /// The nodes connected to `start`, which runs.
    fn group(&self, start: usize) -> u64 {
        let mut group = 1 << start;
        let mut new = group;
        while new != 0 {
            let reached = members(new).fold(0, |set, x| set | self.beside[x]);
            new = reached & !group;
            group |= new;
        }
        group
    }
}
