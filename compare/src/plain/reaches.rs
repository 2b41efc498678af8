//! Document 02's note 11: long reaches, by fingers.

use super::{Plain, Slip, State, PLACES};
use crate::ring::Routed;

/// "spans 1, 2, 4 up to 8,388,608, kept as a table of 24 numbers"
const SPANS: [u32; 24] = [
    1, 2, 4, 8, 16, 32, 64, 128, 256, 512, 1_024, 2_048, 4_096, 8_192, 16_384, 32_768, 65_536, 131_072, 262_144,
    524_288, 1_048_576, 2_097_152, 4_194_304, 8_388_608,
];

/// Hops after which a wrong program gives up.
const PATIENCE: u32 = 64;

impl State {
    fn spans(&self) -> [u32; 24] {
        let mut spans = SPANS;
        match self.slip {
            Some(Slip::ReachSpanMiddle) => spans[12] = 4_095,
            Some(Slip::ReachSpanLast) => spans[23] = 8_388_609,
            _ => {}
        }
        spans
    }

    /// Of these nodes "the running stand first met clockwise from" a place, "round the ring. A stand at that very place
    /// counts as met."
    fn first_met(&self, place: u32, nodes: impl Iterator<Item = usize>) -> usize {
        let ahead = |&s: &usize| (PLACES + self.nodes[s].key - place % PLACES) % PLACES;
        let met = nodes.filter(|&s| self.nodes[s].running || self.has(Slip::ReachMeetsOff));
        met.min_by_key(ahead).unwrap()
    }

    /// "The owner of a key is the running stand first met clockwise from it, one at the key included."
    fn owner(&self, key: u32) -> usize {
        self.first_met(key + self.has(Slip::ReachOwnerAfter) as u32, 0..self.nodes.len())
    }

    /// "a stand's finger is the running stand first met clockwise from its key plus the span"
    fn finger(&self, x: usize, span: u32) -> usize {
        let place = self.nodes[x].key + span;
        let all = 0..self.nodes.len();
        match self.slip {
            Some(Slip::ReachSkipsPlace) => self.first_met(place + 1, all),
            Some(Slip::ReachFromZero) => self.first_met(place.min(PLACES), all),
            Some(Slip::ReachHeld) => self.first_met(place, self.held(x).into_iter().chain([x])),
            _ => self.first_met(place, all),
        }
    }

    /// "it goes to the farthest finger strictly between the present stand and the key, going clockwise, and if there is
    /// none, to the finger of span 1"
    fn next_on_reach(&self, x: usize, key: u32) -> usize {
        let end = (PLACES + key - self.nodes[x].key) % PLACES + self.has(Slip::ReachAtKey) as u32;
        let ahead = |&y: &usize| self.clockwise(x, y);
        let fingers = self.spans().into_iter().map(|span| self.finger(x, span));
        let between = fingers.filter(|y| 0 < ahead(y) && ahead(y) < end);
        let chosen = if self.has(Slip::ReachNearest) { between.min_by_key(ahead) } else { between.max_by_key(ahead) };
        chosen.unwrap_or_else(|| self.finger(x, if self.has(Slip::ReachSpan2) { 2 } else { 1 }))
    }

    /// Where a reach ends, and its hops. "A reach stops at the owner."
    fn reach(&self, start: usize, key: u32) -> (usize, u32) {
        let (mut x, mut hops) = (start, 0);
        while x != self.owner(key) && hops < PATIENCE {
            x = self.next_on_reach(x, key);
            hops += 1;
        }
        (x, hops + self.has(Slip::ReachHopsOne) as u32)
    }
}

impl Plain {
    /// "Refusals 1, 6, 7, 8 and 12 apply."
    fn try_reach(&self, words: &[u32], start: u32, key: u32) -> Result<(usize, u32), u32> {
        let state = self.read(words)?;
        let above = key > 16_777_215 + state.has(Slip::ReachKeyAbove) as u32;
        let start = match state.ask(start) {
            Err(8) if above && state.has(Slip::ReachKeyFirst) => return Err(12),
            asked => asked?,
        };
        if above {
            return Err(12);
        }
        Ok(state.reach(start, key))
    }

    /// "A refused reach answers 0 hops and stand 64."
    pub(super) fn reach_owner(&self, words: &[u32], start: u32, key: u32) -> Routed {
        match self.try_reach(words, start, key) {
            Ok((end, hops)) => Routed { answer: 0, end: end as u32, hops },
            Err(answer) if self.slip == Some(Slip::ReachRefused0) => Routed { answer, end: 0, hops: 0 },
            Err(answer) => Routed { answer, end: 64, hops: 0 },
        }
    }
}
