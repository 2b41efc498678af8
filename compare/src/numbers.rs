//! An event as three numbers, as C's names have it: its kind; its node or position; the other node, the timer, 1 of an
//! off that is polite, 1 of a deliver that is an echo, else 0.

use crate::events::*;
use crate::plain::event_fault;

/// The three numbers of a word, or refusal 4 or 5.
pub fn read(word: u32) -> Result<[u32; 3], u32> {
    if let Some(refusal) = event_fault(word) {
        return Err(refusal);
    }
    let (node, other, position) = (word & 63, word >> 6 & 63, word & 1_023);
    let kind = word >> 28;
    let (first, second) = match kind {
        9 => (node, 0),
        10 => (node, word >> 12 & 1),
        11 | 12 => (node, other),
        13 => (node, word >> 12 & 7),
        14 => (position, word >> 10 & 1),
        _ => (position, 0),
    };
    Ok([kind, first, second])
}

/// The word of three numbers, or refusal 4 or 5. "When writing, a part too big" is 4; so is a third number of a kind
/// that has none.
pub fn write([kind, first, second]: [u32; 3]) -> Result<u32, u32> {
    let (node, position) = (first < 64, first < 1_024);
    match kind {
        9 if node && second == 0 => Ok(on(first)),
        10 if node && second == 0 => Ok(off(first)),
        10 if node && second == 1 => Ok(leave(first)),
        11 | 12 if node && first == second => Err(5),
        11 if node && second < 64 => Ok(notice(first, second)),
        12 if node && second < 64 => Ok(contact(first, second)),
        13 if node && TIMERS.contains(&second) => Ok(timer(first, second)),
        14 if position && second == 0 => Ok(deliver(first)),
        14 if position && second == 1 => Ok(echo(first)),
        15 if position && second == 0 => Ok(lose(first)),
        _ => Err(4),
    }
}

/// Numbers in and out of range, also such as are in range once cut to 6, 8, 10 or 16 bits.
const FIRSTS: [u32; 15] =
    [0, 1, 2, 5, 62, 63, 64, 65, 256, 1_023, 1_024, 1_025, 65_536, 65_537, u32::MAX];
const SECONDS: [u32; 19] =
    [0, 1, 2, 3, 4, 5, 6, 7, 8, 62, 63, 64, 65, 256, 257, 1_024, 65_536, 65_537, u32::MAX];

/// Three numbers of each kind, and of kinds that are none.
pub fn every_three() -> impl Iterator<Item = [u32; 3]> {
    let kinds = (0..=16).chain([9 + 256, 14 + 65_536, u32::MAX]);
    let of_kind = |kind| FIRSTS.into_iter().flat_map(move |first| SECONDS.map(|second| [kind, first, second]));
    kinds.flat_map(of_kind)
}

/// Words of each kind with up to two of the other bits.
pub fn every_word() -> impl Iterator<Item = u32> {
    let bits = || (0..28).map(|bit| 1 << bit).chain([0]);
    let of_kind = move |kind: u32| bits().flat_map(move |one| bits().map(move |other| kind << 28 | one | other));
    (0..16).flat_map(of_kind)
}

/// How many cases there are, and a line for each in which the library gives something else.
#[cfg(feature = "library")]
pub fn differences() -> (usize, Vec<String>) {
    use crate::library::{read_event, write_event};
    let given = |word| read(word).map_or_else(|refusal| (refusal, [0; 3]), |numbers| (0, numbers));
    let written = |numbers| write(numbers).map_or_else(|refusal| (refusal, 0), |word| (0, word));
    let reads = every_word().filter(|&word| read_event(word) != given(word));
    let writes = every_three().filter(|&[a, b, c]| write_event(a, b, c) != written([a, b, c]));
    let reads = reads.map(|word| format!("{word:08X} is read as {:?}, not {:?}", read_event(word), given(word)));
    let writes = writes.map(|[a, b, c]| {
        format!("{:?} is written as {:X?}, not {:X?}", [a, b, c], write_event(a, b, c), written([a, b, c]))
    });
    (every_word().count() + every_three().count(), reads.chain(writes).collect())
}
