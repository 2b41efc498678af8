//! Between the editions of a ring: runs of words that lie together in both are copied.

use super::layout::*;
use super::questions::ring;
use super::validity::reads_as_ring;
use std::iter::once;
use std::ops::Range;

/// Where the runs lie in the long edition. In the short one each begins where the one before ends.
fn runs(n: usize, m: usize) -> impl Iterator<Item = Range<usize>> {
    let rows = (0..n).flat_map(move |x| [pair_at(x, 0)..pair_at(x, x), pair_at(x, x + 1)..pair_at(x, n)]);
    once(0..node_at(n)).chain(rows).chain(once(MESSAGES..message_at(m)))
}

fn length(header: Header) -> usize {
    1 + 2 * header.nodes * header.nodes + MESSAGE * header.messages
}

/// The number of words written.
pub fn shorten(words: &[u32], place: &mut [u32]) -> Result<u32, u32> {
    let (words, header) = ring(words)?;
    let length = length(header);
    let mut rest = place.get_mut(..length).ok_or(20u32)?;
    for run in runs(header.nodes, header.messages) {
        let (here, after) = rest.split_at_mut(run.len());
        here.copy_from_slice(&words[run]);
        rest = after;
    }
    Ok(length as u32)
}

pub fn lengthen(short: &[u32], words: &mut [u32]) -> Result<(), u32> {
    let words: &mut Words = words.try_into().map_err(|_| 1u32)?;
    let mut long = [0; WORDS];
    expand(short, &mut long).ok_or(19u32)?;
    words.copy_from_slice(&long);
    Ok(())
}

/// Over zeros. None where no ring comes of it.
fn expand(short: &[u32], words: &mut Words) -> Option<Header> {
    let header = Header::read(*short.first()?)?;
    if short.len() != length(header) {
        return None;
    }
    let mut rest = short;
    for run in runs(header.nodes, header.messages) {
        let (here, after) = rest.split_at(run.len());
        words[run].copy_from_slice(here);
        rest = after;
    }
    reads_as_ring(words)
}
