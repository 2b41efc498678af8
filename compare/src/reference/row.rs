//! One node's row of pairs, sixteen at a time: SSE2, which every x86-64 processor has.

use super::lanes::*;
use super::layout::*;
use std::arch::x86_64::*;

/// The row of a node.
pub struct Row<'a> {
    words: &'a [u32; ROW],
    node: usize,
    /// The bits of a pair's first word to look at: all but the candidate mark where the node runs.
    mask: u32,
    /// Commit stamps of held nodes are from 1 to this: 0 where the node is off and may hold nothing.
    clock: u32,
}

impl Row<'_> {
    pub fn new<'a>(words: &Words, row: &'a [u32; ROW], x: usize) -> Row<'a> {
        let running = words[node_at(x)] & RUNNING != 0;
        let clock = words[node_at(x) + 1] & LOW24;
        let (mask, clock) = if running { (!CANDIDATE, clock) } else { (!0, 0) };
        Row { words: row, node: x, mask, clock }
    }

    /// Whether the pairs with the other nodes below n fit. Words that are 0 never do.
    pub fn fits(&self, n: usize) -> bool {
        let mut fit = 0;
        for part in 0..4 {
            if 16 * part < n {
                // SAFETY: the processor has SSE2.
                fit |= unsafe { self.fit(&self.words[32 * part..][..32], 16 * part as i8, n) } << (16 * part);
            }
        }
        fit == u64::MAX >> (64 - n) & !(1 << self.node)
    }

    /// A bit for each of sixteen pairs that fits; `first` is the node of the first one.
    #[target_feature(enable = "sse2")]
    fn fit(&self, words: &[u32], first: i8, n: usize) -> u64 {
        let (mut held, mut idle, mut spare) = ([each(0); 4], [each(0); 4], [each(0); 4]);
        for (four, words) in words.chunks_exact(8).enumerate() {
            let (links, spares) = split(words);
            let links = _mm_and_si128(links, each(self.mask));
            held[four] = below(links, IDLE | HELD | 1, self.clock);
            idle[four] = _mm_cmpeq_epi32(links, each(IDLE));
            spare[four] = _mm_xor_si128(spares, each(KIND_SPARE));
        }
        let (held, idle, spare) = (to_bytes(held), to_bytes(idle), to_bytes(spare));
        let none = _mm_cmpeq_epi8(spare, bytes(NONE as i8));
        let named = self.named(spare, first, n);
        let without_spare = _mm_and_si128(none, _mm_or_si128(idle, held));
        _mm_movemask_epi8(_mm_or_si128(without_spare, _mm_and_si128(held, named))) as u64
    }

    /// Which spares name a node below n that is neither of the pair.
    #[target_feature(enable = "sse2")]
    fn named(&self, spare: __m128i, first: i8, n: usize) -> __m128i {
        let places = _mm_setr_epi8(0, 1, 2, 3, 4, 5, 6, 7, 8, 9, 10, 11, 12, 13, 14, 15);
        let other = _mm_cmpeq_epi8(spare, _mm_add_epi8(places, bytes(first)));
        let own = _mm_cmpeq_epi8(spare, bytes(self.node as i8));
        _mm_andnot_si128(_mm_or_si128(other, own), up_to(spare, n as i8 - 1))
    }
}

/// The first words of four pairs, and their spare words.
#[target_feature(enable = "sse2")]
fn split(words: &[u32]) -> (__m128i, __m128i) {
    let (front, back) = words.split_at(4);
    let (front, back) = (_mm_castsi128_ps(load(front)), _mm_castsi128_ps(load(back)));
    let firsts = _mm_shuffle_ps(front, back, 0b10_00_10_00);
    let seconds = _mm_shuffle_ps(front, back, 0b11_01_11_01);
    (_mm_castps_si128(firsts), _mm_castps_si128(seconds))
}

/// A byte for each word: words from 0 to 126 and all ones stay, and every other becomes 127 or more.
#[target_feature(enable = "sse2")]
fn to_bytes(words: [__m128i; 4]) -> __m128i {
    let [a, b, c, d] = words;
    _mm_packs_epi16(_mm_packs_epi32(a, b), _mm_packs_epi32(c, d))
}
