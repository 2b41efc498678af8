//! Two rings joined: each source read once, the third buffer written once.

use super::layout::*;
use super::questions::ring;

/// A row of pairs that are neither held nor candidate.
static NOBODY: [u32; ROW] = nobody();

const fn nobody() -> [u32; ROW] {
    let mut row = [IDLE; ROW];
    let mut z = 0;
    while z < NODES {
        row[2 * z + 1] = NO_SPARE;
        z += 1;
    }
    row
}

pub fn join(first: &[u32], second: &[u32], joined: &mut [u32]) -> Result<(), u32> {
    if second.len() != WORDS {
        return Err(1);
    }
    let joined: &mut Words = joined.try_into().map_err(|_| 1u32)?;
    let (first, ours) = ring(first)?;
    let (second, theirs) = ring(second)?;
    let header = joined_header(first, ours, second, theirs)?;
    joined[0] = header.word();
    join_nodes(first, second, ours.nodes, header.nodes, joined);
    join_pairs(first, second, ours.nodes, header.nodes, joined);
    join_messages(first, second, ours, header.messages, joined);
    Ok(())
}

/// 14, 15 and 16.
fn joined_header(first: &Words, ours: Header, second: &Words, theirs: Header) -> Result<Header, u32> {
    if ours.sides != theirs.sides {
        return Err(14);
    }
    let (nodes, messages) = (ours.nodes + theirs.nodes, ours.messages + theirs.messages);
    if nodes > NODES || share_key(&first[1..][..2 * ours.nodes], &second[1..][..2 * theirs.nodes]) {
        return Err(15);
    }
    if messages > POOL {
        return Err(16);
    }
    Ok(Header { sides: ours.sides, nodes, messages })
}

/// Each key of one beside all of the other: a mark of who runs is none of a key's bits.
fn share_key(one: &[u32], other: &[u32]) -> bool {
    let shared = |key: u32| other.chunks_exact(2).fold(false, |shared, node| shared | ((node[0] ^ key) & LOW24 == 0));
    one.chunks_exact(2).fold(false, |any, node| any | shared(node[0]))
}

/// Keys, marks and clocks as they are.
fn join_nodes(first: &Words, second: &Words, n: usize, nodes: usize, joined: &mut Words) {
    joined[1..node_at(n)].copy_from_slice(&first[1..node_at(n)]);
    joined[node_at(n)..node_at(nodes)].copy_from_slice(&second[1..node_at(nodes - n)]);
    joined[node_at(nodes)..PAIRS].fill(0);
}

fn join_pairs(first: &Words, second: &Words, n: usize, nodes: usize, joined: &mut Words) {
    for x in 0..nodes {
        let row: &mut [u32; ROW] = (&mut joined[pair_at(x, 0)..][..ROW]).try_into().unwrap();
        let (ours, others) = row.split_at_mut(2 * n);
        let (theirs, unused) = others.split_at_mut(2 * (nodes - n));
        unused.fill(0);
        if x < n {
            ours.copy_from_slice(&first[pair_at(x, 0)..][..ours.len()]);
            theirs.copy_from_slice(&NOBODY[..theirs.len()]);
        } else {
            ours.copy_from_slice(&NOBODY[..ours.len()]);
            raise_pairs(&second[pair_at(x - n, 0)..][..theirs.len()], n as u32, theirs);
        }
    }
    joined[pair_at(nodes, 0)..MESSAGES].fill(0);
}

/// Of a pair's words only the spare's kind has bit 30, and of the spares only none has bit 6: no branch is needed. The
/// words of a node with itself are 0.
fn raise_pairs(pairs: &[u32], by: u32, raised: &mut [u32]) {
    for (&word, place) in pairs.iter().zip(raised) {
        let names_node = word >> 30 & !word >> 6 & 1;
        *place = word + names_node * by;
    }
}

fn join_messages(first: &Words, second: &Words, ours: Header, messages: usize, joined: &mut Words) {
    let (start, end) = (message_at(ours.messages), message_at(messages));
    joined[MESSAGES..start].copy_from_slice(&first[MESSAGES..start]);
    let theirs = second[MESSAGES..].chunks_exact(MESSAGE);
    for (message, place) in theirs.zip(joined[start..end].chunks_exact_mut(MESSAGE)) {
        raise_message(message, ours.nodes as u32, place);
    }
    joined[end..].fill(0);
}

/// Sender and receiver rise; the subject does where it is below 64, which has bit 22.
fn raise_message(message: &[u32], by: u32, place: &mut [u32]) {
    let subject = (!message[0] >> 22 & 1) * by;
    place[0] = message[0] + (by << 4) + (by << 10) + (subject << 16);
    place[1] = message[1];
    let part = |k: usize| (message[2 + k] & LOW24) as u64;
    let view = (part(0) | part(1) << 24 | part(2) << 48) << by;
    for k in 0..3 {
        place[2 + k] = KIND_VIEW | (view >> (24 * k)) as u32 & LOW24;
    }
}
