//! Listener records, sixteen nodes at a time.

use super::lanes::bytes;
use super::Reference;
use crate::listener::{Listener, Record};
use std::arch::x86_64::*;

impl Listener for Reference {
    fn name(&self) -> &'static str {
        "reference"
    }

    fn watch(&self, record: &mut Record, node: u32) -> u32 {
        if node > 63 {
            return 7;
        }
        let (s, bit) = (node as usize, 1 << node);
        if record.watched & bit == 0 {
            record.watched |= bit;
            (record.silences[s], record.windows[s]) = (0, 4);
        }
        0
    }

    fn tick(&self, record: &mut Record) -> u64 {
        let Record { watched, silences, windows } = record;
        let mut notices = 0;
        for part in 0..4 {
            let at = 16 * part;
            let silences: &mut [u8; 16] = (&mut silences[at..at + 16]).try_into().unwrap();
            let windows: &[u8; 16] = (&windows[at..at + 16]).try_into().unwrap();
            // SAFETY: the processor has SSE2.
            notices |= unsafe { tick_part((*watched >> at) as u16, silences, windows) } << at;
        }
        notices
    }

    fn hear(&self, record: &mut Record, node: u32) -> u32 {
        if node > 63 {
            return 7;
        }
        let s = node as usize;
        if record.watched >> node & 1 == 0 {
            return 18;
        }
        let window = record.windows[s];
        let grows = record.silences[s] >= window && window != u8::MAX;
        record.windows[s] = window + grows as u8;
        record.silences[s] = 0;
        0
    }
}

/// The notices of sixteen nodes. A lane of ones is a byte of -1.
#[target_feature(enable = "sse2")]
fn tick_part(watched: u16, silences: &mut [u8; 16], windows: &[u8; 16]) -> u64 {
    // SAFETY: the sixteen bytes may be read and written.
    let (before, limit) =
        unsafe { (_mm_loadu_si128(silences.as_ptr().cast()), _mm_loadu_si128(windows.as_ptr().cast())) };
    let room = _mm_subs_epu8(limit, before);
    let counts = _mm_andnot_si128(_mm_cmpeq_epi8(room, bytes(0)), spread(watched));
    let reached = _mm_and_si128(counts, _mm_cmpeq_epi8(room, bytes(1)));
    // SAFETY: as above.
    unsafe { _mm_storeu_si128(silences.as_mut_ptr().cast(), _mm_sub_epi8(before, counts)) };
    _mm_movemask_epi8(reached) as u64
}

/// A lane of ones for each bit that is set.
#[target_feature(enable = "sse2")]
fn spread(set: u16) -> __m128i {
    const EACH: i64 = 0x0101_0101_0101_0101;
    const BITS: i64 = 0x8040_2010_0804_0201u64 as i64;
    let [low, high] = set.to_le_bytes().map(|byte| (byte as i64).wrapping_mul(EACH));
    let bit = _mm_set1_epi64x(BITS);
    _mm_cmpeq_epi8(_mm_and_si128(_mm_set_epi64x(high, low), bit), bit)
}
