//! Four words or sixteen bytes in one SSE2 register.

use std::arch::x86_64::*;

/// The same word in every lane.
#[target_feature(enable = "sse2")]
pub fn each(word: u32) -> __m128i {
    _mm_set1_epi32(word as i32)
}

/// Four words.
#[target_feature(enable = "sse2")]
pub fn load(words: &[u32]) -> __m128i {
    let words: &[u32; 4] = words.try_into().unwrap();
    // SAFETY: the four words may be read.
    unsafe { _mm_loadu_si128(words.as_ptr().cast()) }
}

/// Lanes whose word is from `low` on, fewer than `count` above it: the comparison is a signed one, so both sides move.
#[target_feature(enable = "sse2")]
pub fn below(words: __m128i, low: u32, count: u32) -> __m128i {
    const SIGN: u32 = 1 << 31;
    _mm_cmpgt_epi32(each(count ^ SIGN), _mm_sub_epi32(words, each(low ^ SIGN)))
}

/// The same byte in every lane.
#[target_feature(enable = "sse2")]
pub fn bytes(byte: i8) -> __m128i {
    _mm_set1_epi8(byte)
}

/// Lanes whose byte, read without sign, is not above `last`.
#[target_feature(enable = "sse2")]
pub fn up_to(values: __m128i, last: i8) -> __m128i {
    _mm_cmpeq_epi8(_mm_max_epu8(values, bytes(last)), bytes(last))
}
