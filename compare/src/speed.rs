//! How long an event takes: each implementation and one plain pass over the words, in turns in one run, medians.

use crate::listener::{Listener, Record};
use crate::look;
use crate::random::Random;
use crate::reaches;
use crate::reference::Reference;
use crate::ring::{Conductor, Ring, Sides, Technician};
use crate::routes;
use crate::LENGTH;
use std::hint::black_box;
use std::ops::Range;
use std::time::Instant;

const ROUNDS: usize = 301;
const EVENTS: usize = 60;
const LISTED: usize = 100;

/// The messages of the rings that are read, and whether each node has a spare for each.
const READ: [(usize, bool); 7] =
    [(1_024, false), (415, false), (257, false), (256, false), (1_024, true), (0, false), (0, true)];

/// A ring to start from and the events that are timed on it.
pub struct Load {
    pub words: Vec<u32>,
    pub events: Vec<u32>,
}

impl Load {
    /// `n` running nodes, links made by contacts and timers, about `messages` in flight, and events that keep it so.
    pub fn new(ring: &dyn Ring, n: usize, leaves: u32, messages: usize, count: usize) -> Load {
        let mut random = Random::new(1, (n * 10_000 + messages) as u64);
        let keys: Vec<u32> = (0..n as u32).map(|s| s << 18 | random.word() & 0x3_FFFF).collect();
        let mut words = vec![0; LENGTH];
        ring.open(&mut words, Sides::from(leaves), &keys);
        (0..n as u32).for_each(|x| _ = ring.play(&mut words, 9 << 28 | x));
        for _ in 0..100 * n {
            let word = steady(&mut random, &words, messages);
            ring.play(&mut words, word);
        }
        let start = words.clone();
        let mut events = Vec::new();
        while events.len() < count {
            let word = steady(&mut random, &words, messages);
            if ring.play(&mut words, word) == 0 {
                events.push(word);
            }
        }
        Load { words: start, events }
    }
}

/// A contact or timer while there are fewer messages than wanted, else a delivery.
fn steady(random: &mut Random, words: &[u32], wanted: usize) -> u32 {
    let (n, messages) = (look::nodes(words), look::messages(words));
    let x = random.below(n) as u32;
    if messages > 0 && (messages >= wanted || random.percent(50)) {
        return 14 << 28 | random.below(messages) as u32;
    }
    if n > 1 && random.percent(60) {
        let y = (x + 1 + random.below(n - 1) as u32) % n as u32;
        return 12 << 28 | y << 6 | x;
    }
    13 << 28 | random.pick(&[0, 2, 3, 4]) << 12 | x
}

/// Nanoseconds an event of each ring, and of a plain pass, medians of rounds in turns.
pub fn measure(load: &Load, rings: &[&dyn Ring]) -> (Vec<f64>, f64) {
    let mut times = vec![Vec::new(); rings.len()];
    let mut passes = Vec::new();
    let mut words = vec![0; LENGTH];
    for _ in 0..ROUNDS {
        for (ring, times) in rings.iter().zip(&mut times) {
            words.copy_from_slice(&load.words);
            times.push(each(&load.events, |word| ring.play(&mut words, word)));
        }
        passes.push(each(&load.events, |_| plain_pass(black_box(&words))));
    }
    (times.into_iter().map(median).collect(), median(passes))
}

/// Nanoseconds a call.
fn each(events: &[u32], mut call: impl FnMut(u32) -> u32) -> f64 {
    let start = Instant::now();
    for &word in events {
        black_box(call(black_box(word)));
    }
    start.elapsed().as_nanos() as f64 / events.len() as f64
}

fn median(mut times: Vec<f64>) -> f64 {
    times.sort_by(f64::total_cmp);
    times[times.len() / 2]
}

/// One plain pass: the OR of all words.
#[inline(never)]
fn plain_pass(words: &[u32]) -> u32 {
    words.iter().fold(0, |all, word| all | word)
}

fn spares_of(words: &[u32]) -> usize {
    words[129..8_321].iter().filter(|&&word| word >> 28 == 4 && word & 127 != 64).count()
}

fn held(words: &[u32]) -> usize {
    words[129..8_321].iter().filter(|&&word| word >> 28 == 3 && word >> 24 & 1 == 1).count()
}

/// 64 running nodes that hold each other, all with a spare or none, and `messages` of every type, of the nodes in turn.
fn full(messages: usize, spares: bool) -> Vec<u32> {
    full_of(0..64, messages, spares)
}

/// So for the nodes of a part of the circle's 64 places.
fn full_of(places: Range<u32>, messages: usize, spares: bool) -> Vec<u32> {
    let mut random = Random::new(1, messages as u64);
    let n = places.len();
    let keys: Vec<u32> = places.map(|s| s << 18 | random.word() & 0x3_FFFF).collect();
    let mut words = vec![0; LENGTH];
    Reference.open(&mut words, Sides::from(8), &keys);
    words[0] |= (messages as u32) << 11;
    let not = |random: &mut Random, taken: &[usize]| loop {
        let s = random.below(n);
        if !taken.contains(&s) {
            return s;
        }
    };
    for x in 0..n {
        words[1 + 2 * x] |= 1 << 24;
        words[2 + 2 * x] |= 1_000;
        for z in (0..n).filter(|&z| z != x) {
            let at = 129 + 2 * (64 * x + z);
            words[at] |= 1 << 24 | (1 + random.below(1_000)) as u32;
            if spares {
                words[at + 1] = 4 << 28 | not(&mut random, &[x, z]) as u32;
            }
        }
    }
    for k in 0..messages {
        let kind = 1 + random.below(12);
        let sender = k % n;
        let receiver = not(&mut random, &[sender]);
        let subject = if (8..12).contains(&kind) { not(&mut random, &[sender, receiver]) } else { 64 };
        let message = &mut words[8_321 + 5 * k..][..5];
        message[0] = 6 << 28 | (subject << 16 | receiver << 10 | sender << 4 | kind) as u32;
        message[1] = 7 << 28 | if kind == 9 || kind == 10 { random.below(1_000) as u32 } else { 0 };
        message[2..].fill(8 << 28);
        for _ in 0..if kind == 4 { 16 } else { 0 } {
            let member = not(&mut random, &[receiver]);
            message[2 + member / 24] |= 1 << (member % 24);
        }
    }
    words
}

/// Whether the words read as a ring, by a question about node 64, which is answered by 7 as soon as that is known; the shortest of
/// rounds in turns with a plain pass.
pub fn reads(rings: &[&dyn Ring]) {
    print!("{:<48}", "nanoseconds a reading, the shortest");
    rings.iter().for_each(|ring| print!("{:>12}", ring.name()));
    println!("{:>12}  and over the plain pass", "plain pass");
    for (messages, spares) in READ {
        let words = full(messages, spares);
        let mut shortest = vec![f64::MAX; rings.len() + 1];
        for _ in 0..10 * ROUNDS {
            for (place, ring) in rings.iter().enumerate() {
                let time = each(&[64; 5], |node| ring.leafset_of(black_box(&words), node).0);
                shortest[place] = shortest[place].min(time);
            }
            let time = each(&[0; 5], |_| plain_pass(black_box(&words)));
            shortest[rings.len()] = shortest[rings.len()].min(time);
        }
        assert!(rings.iter().all(|ring| ring.leafset_of(&words, 64).0 == 7));
        let head = format!("  n 64, m {messages}, all held, {} spares", spares_of(&words));
        print!("{head:<48}");
        shortest.iter().for_each(|time| print!("{time:>12.0}"));
        shortest.iter().take(rings.len()).for_each(|time| print!("{:>8.2}", time / shortest[rings.len()]));
        println!();
    }
}

/// The tables: two usual loads, growth with n, growth with m.
pub fn report(rings: &[&dyn Ring]) {
    let names: Vec<&str> = rings.iter().map(|ring| ring.name()).chain(["plain pass"]).collect();
    print!("{:<48}", "nanoseconds an event");
    names.iter().for_each(|name| print!("{name:>12}"));
    for (place, name) in names.iter().enumerate() {
        names[place + 1..].iter().for_each(|other| print!("  {:>20}", format!("{name}/{other}")));
    }
    println!();
    let builder = rings[rings.len() - 1];
    for (n, leaves, messages) in [(64, 8, 700), (64, 2, 700), (16, 2, 200)] {
        line(rings, &Load::new(builder, n, leaves, messages, EVENTS));
    }
    println!("with n");
    for n in [1, 2, 4, 8, 16, 32, 64] {
        line(rings, &Load::new(builder, n, 2, 100, EVENTS));
    }
    println!("with m");
    for messages in [0, 100, 300, 500, 700, 1_000] {
        line(rings, &Load::new(builder, 64, 2, messages, EVENTS));
    }
}

/// The events one by one, and the same as lists for one call each, in turns, medians.
pub fn lists(ring: &dyn Ring, builder: &dyn Ring) {
    println!("{:<48}{:>12}{:>12}", format!("nanoseconds an event, lists of {LISTED}"), "play", "play_all");
    for (n, leaves, messages) in [(64, 8, 700), (64, 2, 700), (16, 2, 200), (1, 2, 0)] {
        let load = Load::new(builder, n, leaves, messages, LISTED);
        let (mut plays, mut lists) = (Vec::new(), Vec::new());
        let mut words = vec![0; LENGTH];
        let mut answers = [0; LISTED];
        for _ in 0..ROUNDS {
            words.copy_from_slice(&load.words);
            plays.push(each(&load.events, |word| ring.play(&mut words, word)));
            words.copy_from_slice(&load.words);
            let list = each(&[0], |_| ring.play_all(&mut words, black_box(&load.events), &mut answers));
            lists.push(list / LISTED as f64);
        }
        assert!(answers == [0; LISTED]);
        println!("{:<48}{:>12.0}{:>12.0}", head(&load), median(plays), median(lists));
    }
}

/// Full routes on 64 running nodes that hold their leafset, halfway round the ring, beside contacts on the same words.
pub fn routes(rings: &[&dyn Ring]) {
    print!("{:<48}", "nanoseconds a full route on 64 nodes, an event");
    rings.iter().for_each(|ring| print!("{:>18}{:>12}", format!("{} route", ring.name()), "play"));
    println!();
    let keys: Vec<u32> = (0..64).map(|s| s << 18).collect();
    for leaves in [1, 8] {
        let words = routes::converged(Sides::from(leaves), &keys, &[true; 64]);
        let hops = rings[0].route(&words, 0, keys[32], &mut [0; 64]).hops;
        print!("{:<48}", format!("  A = B = {leaves}, {hops} hops"));
        for (route, play) in route_times(&words, keys[32], rings) {
            print!("{route:>18.0}{play:>12.0}");
        }
        println!();
    }
}

/// Nanoseconds a route from node 0, and nanoseconds a contact, of each ring, medians of rounds in turns.
fn route_times(start: &[u32], key: u32, rings: &[&dyn Ring]) -> Vec<(f64, f64)> {
    let contacts: Vec<u32> = (0..EVENTS as u32).map(|x| 12 << 28 | (x + 1) << 6 | x).collect();
    let mut times = vec![(Vec::new(), Vec::new()); rings.len()];
    let (mut words, mut list) = (start.to_vec(), [0; 64]);
    for _ in 0..ROUNDS {
        for (ring, (routes, plays)) in rings.iter().zip(&mut times) {
            words.copy_from_slice(start);
            routes.push(each(&[key; EVENTS], |key| ring.route(black_box(&words), 0, key, &mut list).hops));
            plays.push(each(&contacts, |word| ring.play(&mut words, word)));
        }
    }
    times.into_iter().map(|(routes, plays)| (median(routes), median(plays))).collect()
}

/// Reaches of 24 hops, and halfway round 64 nodes spread evenly, beside routes of the same start and key and contacts
/// on the same words: all nodes run and hold their leafset at A = B = 8.
pub fn reaches(rings: &[&dyn Ring]) {
    print!("{:<48}", "nanoseconds a reach, a route, an event");
    for ring in rings {
        print!("{:>18}{:>12}{:>12}{:>14}", format!("{} reach", ring.name()), "route", "play", "reach/route");
    }
    println!();
    let even: Vec<u32> = (0..64).map(|s| s << 18).collect();
    let steep = reaches::steep(0xFF_FFFF, 0, 0, 0);
    let among: Vec<u32> = steep.iter().copied().chain((0..39).map(|s| s * 400_000 + 12_345)).collect();
    for (keys, key) in [(&steep, 0xFF_FFFF), (&among, 0xFF_FFFF), (&even, even[32])] {
        let n = keys.len();
        let words = routes::converged(Sides::from(8), keys, &vec![true; n]);
        let (hops, routed) = (rings[0].reach(&words, 0, key).hops, rings[0].route(&words, 0, key, &mut [0; 64]).hops);
        print!("{:<48}", format!("  n {n}, {hops} hops, the route {routed}"));
        for [reach, route, play] in reach_times(&words, key, rings) {
            print!("{reach:>18.0}{route:>12.0}{play:>12.0}{:>14.2}", reach / route);
        }
        println!();
    }
}

/// Nanoseconds a reach and a route from node 0, and nanoseconds a contact, of each ring, medians of rounds in turns.
fn reach_times(start: &[u32], key: u32, rings: &[&dyn Ring]) -> Vec<[f64; 3]> {
    let n = look::nodes(start) as u32;
    let contacts: Vec<u32> = (0..EVENTS as u32).map(|x| 12 << 28 | (x + 1) % n << 6 | x % n).collect();
    let mut times = vec![[const { Vec::new() }; 3]; rings.len()];
    let (mut words, mut list) = (start.to_vec(), [0; 64]);
    for _ in 0..ROUNDS {
        for (ring, [reaches, routes, plays]) in rings.iter().zip(&mut times) {
            words.copy_from_slice(start);
            reaches.push(each(&[key; EVENTS], |key| ring.reach(black_box(&words), 0, key).hops));
            routes.push(each(&[key; EVENTS], |key| ring.route(black_box(&words), 0, key, &mut list).hops));
            plays.push(each(&contacts, |word| ring.play(&mut words, word)));
        }
    }
    times.into_iter().map(|times| times.map(median)).collect()
}

/// Previews, plays of the same events on a copy of the same words, and one copy; the shortest of rounds in turns.
pub fn previews(rings: &[&dyn Ring]) {
    print!("{:<48}{:>12}", "nanoseconds a preview, the shortest", "copy");
    rings.iter().for_each(|ring| print!("{:>18}{:>12}{:>8}", format!("{} preview", ring.name()), "play", ""));
    println!("  and over play and copy");
    let (contact, notice) = (12 << 28 | 1 << 6, 11 << 28 | 1 << 6);
    let (deliver, echo) = (14 << 28, 14 << 28 | 1 << 10);
    let events = [("contact", contact), ("notice", notice), ("deliver", deliver), ("echo", echo), ("on", 9 << 28)];
    for messages in [0, 415, 1_024] {
        let words = full(messages, false);
        for (name, word) in events {
            let answer = rings[0].play(&mut words.clone(), word);
            let (times, copy) = preview_times(&words, word, rings);
            print!("{:<48}{copy:>12.0}", format!("  n 64, m {messages}, {name}, answer {answer}"));
            for (preview, play) in times {
                print!("{preview:>18.0}{play:>12.0}{:>8.2}", preview / (play + copy));
            }
            println!();
        }
    }
}

/// Nanoseconds a preview and a play of each ring, and of a copy.
fn preview_times(start: &[u32], word: u32, rings: &[&dyn Ring]) -> (Vec<(f64, f64)>, f64) {
    let mut shortest = vec![(f64::MAX, f64::MAX); rings.len()];
    let mut copy = f64::MAX;
    let (mut words, mut second) = (start.to_vec(), start.to_vec());
    for _ in 0..10 * ROUNDS {
        for (ring, (preview, play)) in rings.iter().zip(&mut shortest) {
            *preview = preview.min(each(&[word], |word| ring.preview(&mut words, word, &mut second)));
            copy = copy.min(each(&[0], |_| {
                second.copy_from_slice(black_box(&words));
                0
            }));
            *play = play.min(each(&[word], |word| ring.play(&mut second, word)));
        }
    }
    (shortest, copy)
}

/// The screens and the part beside a play, on 64 running nodes; the shortest of rounds in turns, and over the play.
pub fn screens(rings: &[&dyn Ring]) {
    print!("{:<48}", "nanoseconds a screen, the shortest, over a play");
    for ring in rings {
        print!("{:>18}", format!("{} play", ring.name()));
        ["conductor", "technician", "part"].iter().for_each(|name| print!("{name:>12}{:>6}", ""));
    }
    println!();
    let keys: Vec<u32> = (0..64).map(|s| s << 18).collect();
    let settled = routes::converged(Sides::from(8), &keys, &[true; 64]);
    let all_held = [0, 415, 1_024].map(|messages| (format!("  n 64, m {messages}, all held"), full(messages, false)));
    for (name, words) in all_held.into_iter().chain([("  n 64, m 0, A = B = 8, leafsets held".into(), settled)]) {
        print!("{name:<48}");
        for [play, screens @ ..] in screen_times(&words, rings) {
            print!("{play:>18.0}");
            screens.iter().for_each(|time| print!("{time:>12.0}{:>6.2}", time / play));
        }
        println!();
    }
}

/// Nanoseconds a play, the conductor's screen, the technician's and the part, of each ring. The event is a notice.
fn screen_times(start: &[u32], rings: &[&dyn Ring]) -> Vec<[f64; 4]> {
    let mut shortest = vec![[f64::MAX; 4]; rings.len()];
    let (mut words, mut conductor, mut technician) = (start.to_vec(), Conductor::EMPTY, Box::new(Technician::EMPTY));
    for _ in 0..10 * ROUNDS {
        for (ring, shortest) in rings.iter().zip(&mut shortest) {
            words.copy_from_slice(start);
            let times = [
                each(&[11 << 28 | 1 << 6], |word| ring.play(&mut words, word)),
                each(&[0], |_| ring.conductor(black_box(start), &mut conductor)),
                each(&[0], |_| ring.technician(black_box(start), &mut technician)),
                each(&[0], |_| ring.messages(black_box(start)).len() as u32),
            ];
            shortest.iter_mut().zip(times).for_each(|(shortest, time)| *shortest = shortest.min(time));
        }
    }
    shortest
}

/// Joins to 64 nodes that hold those of their ring, beside two readings and one copy; the shortest of rounds in turns.
pub fn joins(rings: &[&dyn Ring]) {
    print!("{:<48}{:>12}", "nanoseconds a join, the shortest", "copy");
    rings.iter().for_each(|ring| print!("{:>18}{:>12}{:>8}", format!("{} join", ring.name()), "readings", ""));
    println!("  and over two readings and copy");
    let sorts = [(32, 0, 0), (32, 512, 512), (1, 0, 0), (1, 0, 1_024)];
    for (n, ours, theirs, spares) in sorts.into_iter().flat_map(|(n, m, k)| [(n, m, k, false), (n, m, k, true)]) {
        let [first, second] = [full_of(0..n, ours, spares), full_of(n..64, theirs, spares)];
        let (times, copy) = join_times(&first, &second, rings);
        let count = spares_of(&first) + spares_of(&second);
        print!("{:<48}{copy:>12.0}", format!("  n {n} + {}, m {ours} + {theirs}, {count} spares", 64 - n));
        for [join, readings] in times {
            print!("{join:>18.0}{readings:>12.0}{:>8.2}", join / (readings + copy));
        }
        println!();
    }
}

/// Nanoseconds a join and a reading of both sources of each ring, and of a copy.
fn join_times(first: &[u32], second: &[u32], rings: &[&dyn Ring]) -> (Vec<[f64; 2]>, f64) {
    let mut shortest = vec![[f64::MAX; 2]; rings.len()];
    let mut copy = f64::MAX;
    let mut joined = vec![0; LENGTH];
    for _ in 0..10 * ROUNDS {
        for (ring, [join, readings]) in rings.iter().zip(&mut shortest) {
            *join = join.min(each(&[0], |_| ring.join(black_box(first), black_box(second), &mut joined)));
            let reading = |node| ring.leafset_of(black_box(first), node).0 + ring.leafset_of(black_box(second), node).0;
            *readings = readings.min(each(&[64], reading));
            copy = copy.min(each(&[0], |_| {
                joined.copy_from_slice(black_box(first));
                0
            }));
        }
    }
    assert!(rings.iter().all(|ring| ring.join(first, second, &mut joined) == 0));
    (shortest, copy)
}

/// Conversions between the editions of a ring whose nodes hold each other, beside one reading and what they write: a
/// copy of the short edition, and one pass over a ring's words; the shortest of rounds in turns.
pub fn shorts(rings: &[&dyn Ring]) {
    print!("{:<40}{:>8}{:>8}", "nanoseconds a conversion, the shortest", "copy", "pass");
    for ring in rings {
        print!("{:>20}{:>8}{:>10}{:>8}{:>10}", format!("{} shorten", ring.name()), "", "lengthen", "", "reading");
    }
    println!("  and over reading and writing");
    for (n, messages) in [(64, 0), (64, 415), (64, 1_024), (8, 0), (8, 415)] {
        let words = full_of(0..n, messages, false);
        let (times, [copy, pass]) = short_times(&words, rings);
        let length = look::short_length(words[0]);
        print!("{:<40}{copy:>8.0}{pass:>8.0}", format!("  n {n}, m {messages}, {length} words"));
        for [shorten, lengthen, reading] in times {
            let over = [shorten / (reading + copy), lengthen / (reading + pass)];
            print!("{shorten:>20.0}{:>8.2}{lengthen:>10.0}{:>8.2}{reading:>10.0}", over[0], over[1]);
        }
        println!();
    }
}

/// Nanoseconds of each conversion and of a reading of each ring; of a copy of the short edition and of a pass.
fn short_times(long: &[u32], rings: &[&dyn Ring]) -> (Vec<[f64; 3]>, [f64; 2]) {
    let mut shortest = vec![[f64::MAX; 3]; rings.len()];
    let mut writing = [f64::MAX; 2];
    let short = look::short(long);
    let (mut place, mut words) = (short.clone(), vec![0; LENGTH]);
    for _ in 0..10 * ROUNDS {
        for (ring, shortest) in rings.iter().zip(&mut shortest) {
            let times = [
                each(&[0], |_| ring.shorten(black_box(long), &mut place).written),
                each(&[0], |_| ring.lengthen(black_box(&short), &mut words)),
                each(&[64], |node| ring.leafset_of(black_box(long), node).0),
            ];
            shortest.iter_mut().zip(times).for_each(|(shortest, time)| *shortest = shortest.min(time));
            let times = [
                each(&[0], |_| {
                    place.copy_from_slice(black_box(&short));
                    0
                }),
                each(&[0], |word| {
                    black_box(&mut words).fill(word);
                    0
                }),
            ];
            writing.iter_mut().zip(times).for_each(|(shortest, time)| *shortest = shortest.min(time));
        }
    }
    assert!(rings.iter().all(|ring| ring.lengthen(&short, &mut words) == 0 && words == long));
    (shortest, writing)
}

/// Calls on a record of 64 watched nodes beside an event on a ring of as many, of the usual load; the shortest of
/// rounds in turns, and a tick over an event.
pub fn listeners(rings: &[&dyn Ring], listeners: &[&dyn Listener]) {
    print!("{:<48}", "nanoseconds a call on 64 watched nodes, an event");
    for ring in rings {
        print!("{:>18}{:>8}{:>8}{:>10}{:>11}", format!("{} watch", ring.name()), "hear", "tick", "play", "tick/play");
    }
    println!();
    let load = Load::new(rings[rings.len() - 1], 64, 8, 700, EVENTS);
    let counting = Record { watched: u64::MAX, silences: [0; 64], windows: [255; 64] };
    let noticing = Record { windows: std::array::from_fn(|s| 1 + s as u8), ..counting };
    for (name, record) in [("no notice", counting), ("a notice a tick", noticing)] {
        print!("{:<48}", format!("  {name}"));
        for [watch, hear, tick, play] in listener_times(&load, &record, rings, listeners) {
            print!("{watch:>18.1}{hear:>8.1}{tick:>8.1}{play:>10.0}{:>11.4}", tick / play);
        }
        println!();
    }
}

/// Nanoseconds of watching each node again, of hearing each, of a tick, and of an event.
fn listener_times(load: &Load, start: &Record, rings: &[&dyn Ring], listeners: &[&dyn Listener]) -> Vec<[f64; 4]> {
    let nodes: Vec<u32> = (0..64).collect();
    let mut shortest = vec![[f64::MAX; 4]; rings.len()];
    let mut words = load.words.clone();
    for _ in 0..ROUNDS {
        for ((ring, listener), shortest) in rings.iter().zip(listeners).zip(&mut shortest) {
            words.copy_from_slice(&load.words);
            let (mut record, mut heard) = (*start, *start);
            let times = [
                each(&nodes, |node| listener.watch(&mut heard, node)),
                each(&nodes, |node| listener.hear(&mut heard, node)),
                each(&[0; EVENTS], |_| listener.tick(black_box(&mut record)).count_ones()),
                each(&load.events, |word| ring.play(&mut words, word)),
            ];
            shortest.iter_mut().zip(times).for_each(|(shortest, time)| *shortest = shortest.min(time));
        }
    }
    shortest
}

fn head(load: &Load) -> String {
    let (n, sides, messages) = (look::nodes(&load.words), look::sides(&load.words), look::messages(&load.words));
    format!("  n {n}, A = B = {}, m {messages}, {} held, {} spares", sides.clockwise, held(&load.words), spares_of(&load.words))
}

fn line(rings: &[&dyn Ring], load: &Load) {
    print!("{:<48}", head(load));
    let (mut times, pass) = measure(load, rings);
    times.push(pass);
    times.iter().for_each(|time| print!("{time:>12.0}"));
    for (place, time) in times.iter().enumerate() {
        times[place + 1..].iter().for_each(|other| print!("  {:>20.2}", time / other));
    }
    println!();
}
