//! How much stack a call of the library takes: the stack below the caller is painted, and what the call has written is looked for.

use crate::library;
use crate::listener::{Listener, Record};
use crate::random::Random;
use crate::reaches;
use crate::ring::{Conductor, Ring, Sides, Technician};
use crate::routes;
use crate::script::{Mix, Script};
use crate::LENGTH;

const PAINTED: usize = 256 * 1024;
const PAINT: u8 = 0xA5;

/// Bytes from this function's frame down to the lowest byte that the call changed.
#[inline(never)]
fn depth(call: &mut dyn FnMut()) -> usize {
    let here = 0u8;
    let top = std::hint::black_box(&raw const here) as usize - 512;
    for place in top - PAINTED..top {
        // SAFETY: unused stack of this thread, which has far more; nothing is called meanwhile.
        unsafe { (place as *mut u8).write_volatile(PAINT) };
    }
    call();
    // SAFETY: as above.
    let changed = (top - PAINTED..top).find(|&place| unsafe { (place as *const u8).read_volatile() } != PAINT);
    top + 512 - changed.unwrap_or(top)
}

/// The deepest of many calls of each name.
pub fn report() {
    std::thread::Builder::new().stack_size(8 << 20).spawn(measure).unwrap().join().unwrap();
}

fn measure() {
    let ring = library::Library;
    let mut script = Script::new(Random::new(1, 2), Mix::Gentle, 64);
    let (sides, keys) = script.opening();
    let mut words = vec![0; LENGTH];
    line("open", depth(&mut || _ = ring.open(&mut words, sides, &keys)));
    let events: Vec<u32> = (0..20_000)
        .map(|_| {
            let word = script.next(&words);
            ring.play(&mut words, word);
            word
        })
        .collect();
    ring.open(&mut words, sides, &keys);
    line("play", events.iter().map(|&word| depth(&mut || _ = ring.play(&mut words, word))).max().unwrap());
    line("preview", preview_depth(sides, &keys, &events));
    line("join", join_depth());
    ["shorten", "lengthen"].into_iter().zip(short_depths(&words)).for_each(|(name, bytes)| line(name, bytes));
    line("leafset", (0..64).map(|s| depth(&mut || _ = ring.leafset_of(&words, s))).max().unwrap());
    line("connected", (0..64).map(|s| depth(&mut || _ = ring.connected(&words, s, 63 - s))).max().unwrap());
    line("groups", depth(&mut || _ = ring.groups(&words)));
    line("route", route_depth());
    line("reach", reach_depth());
    let (mut conductor, mut technician) = (Conductor::EMPTY, Box::new(Technician::EMPTY));
    line("conductor", depth(&mut || _ = ring.conductor(&words, &mut conductor)));
    line("technician", depth(&mut || _ = ring.technician(&words, &mut technician)));
    line("messages", depth(&mut || _ = ring.messages(&words)));
    let mut record = Record::EMPTY;
    line("watch", (0..65).map(|s| depth(&mut || _ = ring.watch(&mut record, s))).max().unwrap());
    line("tick", (0..9).map(|_| depth(&mut || _ = ring.tick(&mut record))).max().unwrap());
    line("hear", (0..65).map(|s| depth(&mut || _ = ring.hear(&mut record, s))).max().unwrap());
    line("replay", depth(&mut || library::replay(&mut words, sides, &keys, &events)));
    ring.open(&mut words, sides, &keys);
    let mut answers = vec![0; events.len()];
    line("play_all", depth(&mut || _ = ring.play_all(&mut words, &events, &mut answers)));
    line("read_event", events.iter().map(|&word| depth(&mut || _ = library::read_event(word))).max().unwrap());
    line("write_event", (0..7).map(|kind| depth(&mut || _ = library::write_event(9 + kind, 1, 2))).max().unwrap());
}

/// The deepest preview, each before its event is played.
fn preview_depth(sides: Sides, keys: &[u32], events: &[u32]) -> usize {
    let ring = library::Library;
    let (mut words, mut second) = (vec![0; LENGTH], vec![0; LENGTH]);
    ring.open(&mut words, sides, keys);
    let depths = events.iter().map(|&word| {
        let depth = depth(&mut || _ = ring.preview(&mut words, word, &mut second));
        ring.play(&mut words, word);
        depth
    });
    depths.max().unwrap()
}

/// Two rings of 32 nodes, with no messages.
fn join_depth() -> usize {
    let keys: Vec<u32> = (0..64).collect();
    let rings = [&keys[..32], &keys[32..]].map(|keys| routes::converged(Sides::from(2), keys, &[true; 32]));
    let mut joined = vec![0; LENGTH];
    let mut answer = 1;
    let depth = depth(&mut || answer = library::Library.join(&rings[0], &rings[1], &mut joined));
    assert!(answer == 0, "accepted");
    depth
}

/// The ring turned short, and made long again.
fn short_depths(words: &[u32]) -> [usize; 2] {
    let ring = library::Library;
    let (mut place, mut long) = (vec![0; LENGTH], vec![0; LENGTH]);
    let mut written = 0;
    let shorten = depth(&mut || written = ring.shorten(words, &mut place).written as usize);
    let lengthen = depth(&mut || _ = ring.lengthen(&place[..written], &mut long));
    assert!(long == words, "there and back");
    [shorten, lengthen]
}

/// The route with the most hops: 64 nodes in a row, each of which holds the next, from the first to the last.
fn route_depth() -> usize {
    let keys: Vec<u32> = (0..64).collect();
    let words = routes::ring(Sides::from(1), &keys, &[true; 64], |x| (x + 1..64).take(1).collect());
    let mut list = [0; 64];
    let depth = depth(&mut || _ = library::Library.route(&words, 0, 63, &mut list));
    assert!(list[63] == 63, "63 hops");
    depth
}

/// The reach with the most hops, among 64 nodes.
fn reach_depth() -> usize {
    let keys: Vec<u32> = reaches::steep(0xFF_FFFF, 0, 0, 0).into_iter().chain((1..40).map(|s| s * 1_000)).collect();
    let words = routes::ring(Sides::from(1), &keys, &[true; 64], |_| Vec::new());
    let mut hops = 0;
    let depth = depth(&mut || hops = library::Library.reach(&words, 0, 0xFF_FFFF).hops);
    assert!(hops == 24, "24 hops");
    depth
}

fn line(name: &str, bytes: usize) {
    println!("{name:>12} {bytes:>6} bytes");
}
