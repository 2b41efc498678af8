//! The drawing of the ring that a script leaves, or of a short ring from a log, as an SVG, over any implementation.
//!
//! All numbers are whole, and a division rounds down. A line of the SVG ends with a newline; the texts are below.
//!
//! **Directions.** A turn has 65,536 parts, from the top, clockwise. Key k stands at angle k / 256. The point at
//! angle a and radius r is (1050 + r sin a, 1110 - r cos a). A sine is interpolated between 65 entries a quarter
//! turn, which are 32,768 times the sine, rounded to the nearest: at angle 256 i + f of the quarter it is ((256 - f)
//! entry i + f entry (i + 1)) / 256. r times it is divided by 32,768 and rounded to the nearest, then added to the
//! centre's number or taken off.
//!
//! **Places.** Each node has a tick at its key's angle and a disc, which stands there too where it has room. Discs
//! are 32768 / n or more apart, in the order of the keys. Pushed ahead, a node stands at the greatest of its own
//! angle and, for each node with a lower key, that node's angle and one distance for each step from that node on to
//! it; but at most a turn after the angle of the lowest key, less one distance for itself and each node after it.
//! Pushed back, it stands where it would be pushed ahead on the ring seen from behind, key 16777215 - k for k and
//! angle 65535 - a for a. The disc stands at half the sum of the two angles, which are taken as they are, above a
//! turn or below 0; two turns are added before it is halved.
//!
//! **Discs** lie at radius 800. Their own radius is 44 up to 16 nodes, 28 up to 32, else 17; the font size is five
//! quarters of it, and the number is put 7/16 of it below the centre.
//!
//! **Leads.** From the disc's centre out to radius 870, round to the key's angle the shorter way, out to radius 920.
//! The flag is 1, clockwise, where the key's angle is less than half a turn after the disc's.
//!
//! **Links.** Between the discs of x and z, which are d parts of a turn apart the shorter way, goes a cubic curve
//! whose control points lie at the angles of the discs and radius 740 - 875 d / (d + 8192). It is drawn in halves.
//! With p and q for x's disc and control point, t and s for z's, each number by itself, x's half is from p by (p + q)
//! / 2 and (p + 2 q + s) / 4 to (p + 3 q + 3 s + t) / 8. Where x holds z, x's half is thick, in the colour of x's
//! group, and dashed if z lies outside x's leafset of the nodes that it holds; where z does not hold x, z's half is
//! thin. x in rising order, and z for each of them.
//!
//! **Groups** of connected running nodes are numbered from 0 in the order of their lowest nodes; colours repeat after
//! eight.
//!
//! **Order**: the head, the circle of the keys, the leads, the links, the discs, each with its number, the title, how
//! to read the drawing, a line of text for each node, the end.

use crate::ring::Ring;
use crate::{bench, look};
use std::fmt::Write;

const HEAD: &str = "\
<svg xmlns='http://www.w3.org/2000/svg' viewBox='0 0 2560 2100' font-family='sans-serif' font-size='24'>
<style>
rect{fill:#fff}
path,circle{fill:none}
.k{stroke:#bbb;stroke-width:2}
.h{stroke:currentColor;stroke-width:5}
.o{stroke-dasharray:14 9}
.i{stroke:#999;stroke-width:2}
.r{fill:currentColor}
.f{fill:#fff;stroke:#999;stroke-width:3;stroke-dasharray:6 4}
.n{fill:#fff;text-anchor:middle}
.m{fill:#777;text-anchor:middle}
.l{fill:currentColor}
.t{font-size:44px}
.g0{color:#1b6ca8}
.g1{color:#c8401e}
.g2{color:#2e8b3d}
.g3{color:#7b3fa0}
.g4{color:#a8760b}
.g5{color:#0f8f8f}
.g6{color:#c2317f}
.g7{color:#5a4a3a}
</style>
<rect width='2560' height='2100'/>
";

const KEYS: &str = "<circle class='k' cx='1050' cy='1110' r='920'/>
<text class='m' x='1050' y='180'>key 0</text>
";

const READING: &str = "<text x='40' y='110'>filled: runs; hollow: off; colour: group</text>
<text x='40' y='142'>thick half of a link: its node holds the other</text>
<text x='40' y='174'>dashed: outside the leafset of its node</text>
";

const END: &str = "</svg>\n";

/// The drawing of the ring that these bytes leave, or of the refusal.
pub fn run(ring: &dyn Ring, input: &[u8]) -> String {
    let mut words = vec![0; crate::LENGTH];
    match bench::open(ring, &mut words, input) {
        Ok(events) => {
            for event in events.chunks_exact(4) {
                ring.play(&mut words, bench::little_endian(event));
            }
            Drawing::new(ring, &words).text()
        }
        Err(refusal) => refused(refusal, bench::fault(refusal)),
    }
}

/// The drawing of a short ring, or of the refusal. A tail under 4 bytes makes it another length than its word 0 says.
pub fn show(ring: &dyn Ring, input: &[u8]) -> String {
    let mut words = vec![0; crate::LENGTH];
    let (whole, tail) = input.split_at(input.len() / 4 * 4);
    let short: Vec<u32> = whole.chunks_exact(4).map(bench::little_endian).collect();
    match ring.lengthen(&short, &mut words) {
        0 if tail.is_empty() => Drawing::new(ring, &words).text(),
        _ => refused(19, "the words are no short ring"),
    }
}

/// The short ring that a script leaves; a refused script leaves none.
pub fn log(ring: &dyn Ring, input: &[u8]) -> Vec<u8> {
    let (mut words, mut short) = (vec![0; crate::LENGTH], vec![0; crate::LENGTH]);
    if let Ok(events) = bench::open(ring, &mut words, input) {
        events.chunks_exact(4).for_each(|event| _ = ring.play(&mut words, bench::little_endian(event)));
    }
    let written = ring.shorten(&words, &mut short).written as usize;
    short[..written].iter().flat_map(|word| word.to_le_bytes()).collect()
}

fn refused(refusal: u32, fault: &str) -> String {
    format!("{HEAD}<text class='t' x='40' y='66'>no ring, refusal {refusal}: {fault}</text>\n{END}")
}

#[derive(Clone, Copy)]
struct Point {
    x: u32,
    y: u32,
}

/// 32,768 times the sine of an angle of the first quarter, its end included.
fn quarter_sine(angle: u32) -> u32 {
    let entry = |i: u32| (32_768.0 * (f64::from(i) * std::f64::consts::PI / 128.0).sin()).round() as u32;
    let (i, f) = (angle / 256, angle % 256);
    if f == 0 { entry(i) } else { ((256 - f) * entry(i) + f * entry(i + 1)) / 256 }
}

/// The sine of any angle from 0 up: how far, and whether it is below 0.
fn sine(angle: u32) -> (u32, bool) {
    let half = angle % 32_768;
    (quarter_sine(half.min(32_768 - half)), angle % 65_536 >= 32_768)
}

fn moved(centre: u32, radius: u32, (sine, is_negative): (u32, bool)) -> u32 {
    let by = (radius * sine + 16_384) / 32_768;
    if is_negative { centre - by } else { centre + by }
}

fn point(angle: u32, radius: u32) -> Point {
    // -cos a is the sine three quarters of a turn on.
    Point { x: moved(1_050, radius, sine(angle)), y: moved(1_110, radius, sine(angle + 49_152)) }
}

/// The angle of each node's disc when the discs are pushed ahead.
fn pushed_ahead(keys: &[u32]) -> Vec<u32> {
    let n = keys.len() as u32;
    let apart = 32_768 / n;
    let mut order: Vec<usize> = (0..keys.len()).collect();
    order.sort_by_key(|&x| keys[x]);
    let most = keys[order[0]] / 256 + 65_536;
    let mut angles = vec![0; keys.len()];
    let mut least = 0;
    for (i, &x) in order.iter().enumerate() {
        angles[x] = (keys[x] / 256).max(least).min(most - apart * (n - i as u32));
        least = angles[x] + apart;
    }
    angles
}

fn disc_angles(keys: &[u32]) -> Vec<u32> {
    let behind: Vec<u32> = keys.iter().map(|key| 16_777_215 - key).collect();
    let both = pushed_ahead(keys).into_iter().zip(pushed_ahead(&behind));
    both.map(|(ahead, back)| (ahead + 65_535 + 131_072 - back) / 2 % 65_536).collect()
}

/// The half of the curve between two discs that is nearer to the first.
fn half(x: u32, z: u32) -> String {
    let d = x.abs_diff(z).min(65_536 - x.abs_diff(z));
    let depth = 740 - 875 * d / (d + 8_192);
    let (p, q, s, t) = (point(x, 800), point(x, depth), point(z, depth), point(z, 800));
    let mean = |p: u32, q: u32, s: u32, t: u32| [(p + q) / 2, (p + 2 * q + s) / 4, (p + 3 * q + 3 * s + t) / 8];
    let (a, b) = (mean(p.x, q.x, s.x, t.x), mean(p.y, q.y, s.y, t.y));
    format!("M{} {}C{} {} {} {} {} {}", p.x, p.y, a[0], b[0], a[1], b[1], a[2], b[2])
}

struct Drawing<'a> {
    ring: &'a dyn Ring,
    words: &'a [u32],
    keys: Vec<u32>,
    discs: Vec<u32>,
    /// The lowest node of each group.
    firsts: Vec<usize>,
}

impl<'a> Drawing<'a> {
    fn new(ring: &'a dyn Ring, words: &'a [u32]) -> Drawing<'a> {
        let keys: Vec<u32> = (0..look::nodes(words)).map(|x| look::key(words, x)).collect();
        let discs = disc_angles(&keys);
        let mut drawing = Drawing { ring, words, keys, discs, firsts: Vec::new() };
        for x in drawing.running() {
            if drawing.group(x).is_none() {
                drawing.firsts.push(x);
            }
        }
        drawing
    }

    fn running(&self) -> Vec<usize> {
        (0..self.keys.len()).filter(|&x| look::is_running(self.words, x)).collect()
    }

    fn held(&self, x: usize) -> Vec<usize> {
        (0..self.keys.len()).filter(|&z| look::holds(self.words, x, z)).collect()
    }

    fn group(&self, x: usize) -> Option<usize> {
        self.firsts.iter().position(|&first| self.ring.connected(self.words, first as u32, x as u32).1)
    }

    fn text(&self) -> String {
        let mut out = HEAD.to_string() + KEYS;
        (0..self.keys.len()).for_each(|x| self.lead(x, &mut out));
        (0..self.keys.len()).for_each(|x| self.links(x, &mut out));
        self.discs(&mut out);
        self.title(&mut out);
        out += READING;
        (0..self.keys.len()).for_each(|x| self.line(x, &mut out));
        out + END
    }

    fn lead(&self, x: usize, out: &mut String) {
        let (disc, key) = (self.discs[x], self.keys[x] / 256);
        let (a, b, c, d) = (point(disc, 800), point(disc, 870), point(key, 870), point(key, 920));
        let flag = ((key + 65_536 - disc) % 65_536 < 32_768) as u32;
        write!(out, "<path class='k' d='M{} {}L{} {}", a.x, a.y, b.x, b.y).unwrap();
        writeln!(out, "A870 870 0 0 {flag} {} {}L{} {}'/>", c.x, c.y, d.x, d.y).unwrap();
    }

    fn links(&self, x: usize, out: &mut String) {
        let leafset = self.ring.leafset_of(self.words, x as u32).1;
        for z in self.held(x) {
            let dashed = if leafset >> z & 1 == 0 { " o" } else { "" };
            let colour = self.group(x).unwrap() % 8;
            let curve = half(self.discs[x], self.discs[z]);
            writeln!(out, "<path class='h{dashed} g{colour}' d='{curve}'/>").unwrap();
            if !look::holds(self.words, z, x) {
                let curve = half(self.discs[z], self.discs[x]);
                writeln!(out, "<path class='i' d='{curve}'/>").unwrap();
            }
        }
    }

    fn discs(&self, out: &mut String) {
        let radius = match self.keys.len() {
            ..=16 => 44,
            ..=32 => 28,
            _ => 17,
        };
        writeln!(out, "<g font-size='{}'>", radius + radius / 4).unwrap();
        for (x, &angle) in self.discs.iter().enumerate() {
            let Point { x: cx, y: cy } = point(angle, 800);
            let (disc, number) = match self.group(x) {
                Some(group) => (format!("r g{}", group % 8), "n"),
                None => ("f".to_string(), "m"),
            };
            writeln!(out, "<circle class='{disc}' cx='{cx}' cy='{cy}' r='{radius}'/>").unwrap();
            writeln!(out, "<text class='{number}' x='{cx}' y='{}'>{x}</text>", cy + radius * 7 / 16).unwrap();
        }
        out.push_str("</g>\n");
    }

    fn title(&self, out: &mut String) {
        let (nodes, running, groups) = (self.keys.len(), self.running().len(), self.firsts.len());
        let messages = look::messages(self.words);
        write!(out, "<text class='t' x='40' y='66'>nodes: {nodes}, running: {running}, groups: {groups}").unwrap();
        writeln!(out, ", messages in flight: {messages}</text>").unwrap();
    }

    fn line(&self, x: usize, out: &mut String) {
        let (y, key) = (150 + 30 * x, self.keys[x]);
        match self.group(x) {
            Some(group) => {
                let (colour, held) = (group % 8, self.held(x).len());
                write!(out, "<text class='l g{colour}' x='2040' y='{y}'>{x}: key {key}").unwrap();
                writeln!(out, ", group {group}, holds {held}</text>").unwrap();
            }
            None => writeln!(out, "<text fill='#777' x='2040' y='{y}'>{x}: key {key}, off</text>").unwrap(),
        }
    }
}
