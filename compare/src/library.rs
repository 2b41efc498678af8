//! The proved library, linked: the only file that knows its C interface. A slice goes as pointer and length.

use crate::listener::{Listener, Record};
use crate::ring::{Conductor, Ring, Routed, Shortened, Sides, Technician};

#[link(name = "mekvalgs", kind = "static")]
extern "C" {
    fn mekvalgs_open(
        words: *mut u32, len: u64, clockwise: u32, counter_clockwise: u32, keys: *const u32, n: u64,
    ) -> u32;
    fn mekvalgs_play(words: *mut u32, len: u64, word: u32) -> u32;
    fn mekvalgs_preview(words: *const u32, len: u64, word: u32, preview: *mut u32, preview_len: u64) -> u32;
    fn mekvalgs_join(
        first: *const u32, first_len: u64, second: *const u32, second_len: u64, joined: *mut u32, joined_len: u64,
    ) -> u32;
    fn mekvalgs_shorten(
        words: *const u32, len: u64, edition: *mut u32, places: u64, written: *mut u32,
    ) -> u32;
    fn mekvalgs_lengthen(edition: *const u32, edition_len: u64, words: *mut u32, len: u64) -> u32;
    fn mekvalgs_play_all(
        words: *mut u32, len: u64, script: *const u32, script_len: u64, answers: *mut u8, places: u64,
    ) -> u32;
    fn mekvalgs_leafset(words: *const u32, len: u64, node: u32, set: *mut u64) -> u32;
    fn mekvalgs_connected(words: *const u32, len: u64, a: u32, b: u32, yes: *mut u32) -> u32;
    fn mekvalgs_groups(words: *const u32, len: u64, number: *mut u32) -> u32;
    fn mekvalgs_route(
        words: *const u32, len: u64, start: u32, key: u32, route: *mut u8, places: u64, end: *mut u32,
        hops: *mut u32,
    ) -> u32;
    fn mekvalgs_reach(
        words: *const u32, len: u64, start: u32, key: u32, end: *mut u32, hops: *mut u32,
    ) -> u32;
    fn mekvalgs_replay(
        words: *mut u32, len: u64, clockwise: u32, counter_clockwise: u32, keys: *const u32, n: u64,
        script: *const u32, script_len: u64, answers: *mut u8, places: u64,
    ) -> u32;
    fn mekvalgs_conductor(
        words: *const u32, len: u64, clockwise: *mut u32, counter_clockwise: *mut u32, nodes: *mut u32,
        running: *mut u64, keys: *mut u32, leafsets: *mut u64,
    ) -> u32;
    fn mekvalgs_technician(
        words: *const u32, len: u64, clockwise: *mut u32, counter_clockwise: *mut u32, nodes: *mut u32,
        running: *mut u64, keys: *mut u32, leafsets: *mut u64, candidates: *mut u64, stamps: *mut u32,
        spares: *mut u8,
    ) -> u32;
    fn mekvalgs_messages(words: *const u32, len: u64) -> u64;
    fn mekvalgs_watch(watched: *mut u64, silences: *mut u8, windows: *mut u8, node: u32) -> u32;
    fn mekvalgs_tick(watched: u64, silences: *mut u8, windows: *const u8) -> u64;
    fn mekvalgs_hear(watched: u64, silences: *mut u8, windows: *mut u8, node: u32) -> u32;
    fn mekvalgs_read_event(word: u32, kind: *mut u32, first: *mut u32, second: *mut u32) -> u32;
    fn mekvalgs_write_event(kind: u32, first: u32, second: u32, word: *mut u32) -> u32;
}

pub struct Library;

// SAFETY of each call: pointer and length are those of a slice lent for the call, and what the library writes beside
// the words is a local of its type.
impl Ring for Library {
    fn name(&self) -> &'static str {
        "library"
    }

    fn open(&self, words: &mut [u32], sides: Sides, keys: &[u32]) -> u32 {
        let Sides { clockwise, counter_clockwise } = sides;
        unsafe {
            mekvalgs_open(
                words.as_mut_ptr(), words.len() as u64, clockwise, counter_clockwise, keys.as_ptr(), keys.len() as u64,
            )
        }
    }

    fn play(&self, words: &mut [u32], word: u32) -> u32 {
        unsafe { mekvalgs_play(words.as_mut_ptr(), words.len() as u64, word) }
    }

    fn preview(&self, words: &mut [u32], word: u32, second: &mut [u32]) -> u32 {
        unsafe {
            mekvalgs_preview(
                words.as_mut_ptr(), words.len() as u64, word, second.as_mut_ptr(), second.len() as u64,
            )
        }
    }

    fn join(&self, first: &[u32], second: &[u32], joined: &mut [u32]) -> u32 {
        unsafe {
            mekvalgs_join(
                first.as_ptr(), first.len() as u64, second.as_ptr(), second.len() as u64, joined.as_mut_ptr(),
                joined.len() as u64,
            )
        }
    }

    fn shorten(&self, words: &[u32], place: &mut [u32]) -> Shortened {
        let mut written = u32::MAX;
        let answer = unsafe {
            mekvalgs_shorten(
                words.as_ptr(), words.len() as u64, place.as_mut_ptr(), place.len() as u64, &mut written,
            )
        };
        Shortened { answer, written }
    }

    fn lengthen(&self, short: &[u32], words: &mut [u32]) -> u32 {
        unsafe { mekvalgs_lengthen(short.as_ptr(), short.len() as u64, words.as_mut_ptr(), words.len() as u64) }
    }

    fn play_all(&self, words: &mut [u32], list: &[u32], answers: &mut [u8]) -> u32 {
        unsafe {
            mekvalgs_play_all(
                words.as_mut_ptr(), words.len() as u64, list.as_ptr(), list.len() as u64, answers.as_mut_ptr(),
                answers.len() as u64,
            )
        }
    }

    // A refused question has to write its empty value, too: the locals start with another.

    fn leafset_of(&self, words: &[u32], node: u32) -> (u32, u64) {
        let mut set = u64::MAX;
        (unsafe { mekvalgs_leafset(words.as_ptr(), words.len() as u64, node, &mut set) }, set)
    }

    fn connected(&self, words: &[u32], a: u32, b: u32) -> (u32, bool) {
        let mut yes = u32::MAX;
        (unsafe { mekvalgs_connected(words.as_ptr(), words.len() as u64, a, b, &mut yes) }, yes != 0)
    }

    fn groups(&self, words: &[u32]) -> (u32, u32) {
        let mut number = u32::MAX;
        (unsafe { mekvalgs_groups(words.as_ptr(), words.len() as u64, &mut number) }, number)
    }

    fn route(&self, words: &[u32], start: u32, key: u32, list: &mut [u8]) -> Routed {
        let (mut end, mut hops) = (u32::MAX, u32::MAX);
        let answer = unsafe {
            mekvalgs_route(
                words.as_ptr(), words.len() as u64, start, key, list.as_mut_ptr(), list.len() as u64, &mut end,
                &mut hops,
            )
        };
        Routed { answer, end, hops }
    }

    fn reach(&self, words: &[u32], start: u32, key: u32) -> Routed {
        let (mut end, mut hops) = (u32::MAX, u32::MAX);
        let answer = unsafe {
            mekvalgs_reach(words.as_ptr(), words.len() as u64, start, key, &mut end, &mut hops)
        };
        Routed { answer, end, hops }
    }

    fn conductor(&self, words: &[u32], screen: &mut Conductor) -> u32 {
        let Conductor { sides, nodes, running, keys, leafsets } = screen;
        unsafe {
            mekvalgs_conductor(
                words.as_ptr(), words.len() as u64, &mut sides.clockwise, &mut sides.counter_clockwise, nodes, running,
                keys.as_mut_ptr(), leafsets.as_mut_ptr(),
            )
        }
    }

    fn technician(&self, words: &[u32], screen: &mut Technician) -> u32 {
        let Technician { conductor, candidates, stamps, spares } = screen;
        let Conductor { sides, nodes, running, keys, leafsets } = conductor;
        unsafe {
            mekvalgs_technician(
                words.as_ptr(), words.len() as u64, &mut sides.clockwise, &mut sides.counter_clockwise, nodes, running,
                keys.as_mut_ptr(), leafsets.as_mut_ptr(), candidates.as_mut_ptr(), stamps.as_mut_ptr(),
                spares.as_mut_ptr(),
            )
        }
    }

    /// C's name gives the part's length; it begins at the first message.
    fn messages<'a>(&self, words: &'a [u32]) -> &'a [u32] {
        let length = unsafe { mekvalgs_messages(words.as_ptr(), words.len() as u64) } as usize;
        words.get(8_321..).map_or(&[], |messages| &messages[..length])
    }
}

// SAFETY of each call: the pointers are those of a record's own 64 bytes each.
impl Listener for Library {
    fn name(&self) -> &'static str {
        "library"
    }

    fn watch(&self, record: &mut Record, node: u32) -> u32 {
        let Record { watched, silences, windows } = record;
        unsafe { mekvalgs_watch(watched, silences.as_mut_ptr(), windows.as_mut_ptr(), node) }
    }

    fn tick(&self, record: &mut Record) -> u64 {
        unsafe { mekvalgs_tick(record.watched, record.silences.as_mut_ptr(), record.windows.as_ptr()) }
    }

    fn hear(&self, record: &mut Record, node: u32) -> u32 {
        let Record { watched, silences, windows } = record;
        unsafe { mekvalgs_hear(*watched, silences.as_mut_ptr(), windows.as_mut_ptr(), node) }
    }
}

// The calls that are no ring's and no listener's, or of which only the stack is measured.

pub fn replay(words: &mut [u32], sides: Sides, keys: &[u32], script: &[u32]) {
    let Sides { clockwise, counter_clockwise } = sides;
    let mut answers = vec![0; script.len()];
    unsafe {
        mekvalgs_replay(
            words.as_mut_ptr(), words.len() as u64, clockwise, counter_clockwise, keys.as_ptr(), keys.len() as u64,
            script.as_ptr(), script.len() as u64, answers.as_mut_ptr(), answers.len() as u64,
        )
    };
}

/// The answer and the three numbers.
pub fn read_event(word: u32) -> (u32, [u32; 3]) {
    let [mut kind, mut first, mut second] = [u32::MAX; 3];
    let answer = unsafe { mekvalgs_read_event(word, &mut kind, &mut first, &mut second) };
    (answer, [kind, first, second])
}

/// The answer and the word.
pub fn write_event(kind: u32, first: u32, second: u32) -> (u32, u32) {
    let mut word = u32::MAX;
    (unsafe { mekvalgs_write_event(kind, first, second, &mut word) }, word)
}
