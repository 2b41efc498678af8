//! Sets of nodes as 64 bits, distances, and the choices by distance ("Keys and leafsets").

use super::layout::{LOW24, NODES};
use crate::ring::Sides;

/// The keys of the nodes, A and B.
pub struct Table {
    pub keys: [u32; NODES],
    pub sides: Sides,
}

/// A node with its rank by nearness to a key in the higher bits: twice the distance, and 1 more where it lies
/// counter-clockwise from the key.
#[derive(Clone, Copy, PartialEq, Eq, PartialOrd, Ord)]
pub struct Ranked(u32);

impl Ranked {
    pub fn node(self) -> usize {
        (self.0 & 63) as usize
    }
}

/// The members of a set, in rising order.
pub fn members(mut set: u64) -> impl Iterator<Item = usize> {
    std::iter::from_fn(move || {
        if set == 0 {
            return None;
        }
        let lowest = set.trailing_zeros() as usize;
        set &= set - 1;
        Some(lowest)
    })
}

pub fn contains(set: u64, node: usize) -> bool {
    set >> node & 1 != 0
}

/// "Clockwise distance from a to b is (b − a) modulo 16,777,216."
pub fn clockwise(a: u32, b: u32) -> u32 {
    b.wrapping_sub(a) & LOW24
}

/// "Distance is the smaller of the two."
pub fn distance(a: u32, b: u32) -> u32 {
    clockwise(a, b).min(clockwise(b, a))
}

impl Table {
    /// The leafset of `x` in `set`.
    pub fn leafset(&self, x: usize, set: u64) -> u64 {
        let others = set & !(1 << x);
        let count = others.count_ones() as usize;
        if count < self.sides.both() {
            return others;
        }
        // Clockwise distances with the node below them: they differ, so that their ranks do. The ranks below A are
        // the nearest clockwise, the last B ranks the nearest counter-clockwise.
        let mut far = [u32::MAX; NODES];
        for (entry, z) in far.iter_mut().zip(members(others)) {
            *entry = clockwise(self.keys[x], self.keys[z]) << 6 | z as u32;
        }
        let padded = &far[..count.next_multiple_of(8)];
        let last = (count - self.sides.counter_clockwise as usize) as u32;
        let mut leafset = 0;
        for &entry in &far[..count] {
            let rank: u32 = padded.iter().map(|&other| (other < entry) as u32).sum();
            let near = rank < self.sides.clockwise || rank >= last;
            leafset |= (near as u64) << (entry & 63);
        }
        leafset
    }

    /// Type 7's choice at `me` for the asker: "the member of my leafset, other than a, nearest to a and strictly nearer
    /// to a than I am; of two equally near, the clockwise one from a".
    pub fn nearer(&self, me: usize, asker: usize, leafset: u64) -> Option<usize> {
        let from = self.keys[asker];
        let by_distance = |z: &usize| (distance(from, self.keys[*z]), clockwise(from, self.keys[*z]));
        let nearest = members(leafset & !(1 << asker)).min_by_key(by_distance)?;
        (distance(from, self.keys[nearest]) < distance(from, self.keys[me])).then_some(nearest)
    }

    pub fn ranked(&self, x: usize, key: u32) -> Ranked {
        let ahead = clockwise(key, self.keys[x]);
        let rank = (2 * ahead).min(2 * (LOW24 + 1 - ahead) + 1);
        Ranked(rank << 6 | x as u32)
    }

    /// The member of the set nearest to a key.
    pub fn nearest(&self, set: u64, key: u32) -> Option<Ranked> {
        members(set).map(|z| self.ranked(z, key)).min()
    }

    /// "A stand's successor is its held stand nearest clockwise."
    pub fn successor(&self, x: usize, held: u64) -> Option<usize> {
        members(held).min_by_key(|&z| clockwise(self.keys[x], self.keys[z]))
    }

    /// "It passes zero when the stand's clockwise distance to key 0 is below that to the successor."
    pub fn passes_zero(&self, x: usize, successor: usize) -> bool {
        clockwise(self.keys[x], 0) < clockwise(self.keys[x], self.keys[successor])
    }
}
