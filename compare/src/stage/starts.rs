//! Rings to start from: every node on, and who holds whom.

use crate::events::{contact, deliver, on};
use crate::look;
use crate::random::Random;
use crate::ring::{Ring, Sides};
use crate::{routes, LENGTH};

#[derive(Clone, Copy, Debug)]
pub enum Start {
    /// Each node holds one of those before it, any.
    Tree,
    /// Each node holds the one before it.
    Line,
    /// Each node holds node 0.
    Star,
    /// So many rings, in each of which every node holds its leafset of that ring; one node of each holds one of the
    /// first ring's.
    Rings(usize),
    /// One ring that goes round twice: every other node by rising key, then those left out.
    TwiceRound,
    /// Each node holds its leafset.
    Settled,
}

impl Start {
    /// Those in which nodes do not hold their leafset.
    pub const UNSETTLED: [Start; 6] =
        [Start::Tree, Start::Line, Start::Star, Start::Rings(2), Start::Rings(4), Start::TwiceRound];

    pub fn name(self) -> &'static str {
        match self {
            Start::Tree => "tree",
            Start::Line => "line",
            Start::Star => "star",
            Start::Rings(2) => "two rings",
            Start::Rings(_) => "four rings",
            Start::TwiceRound => "twice round",
            Start::Settled => "settled",
        }
    }

    /// A ring of n nodes with random keys, so that a node's number says nothing of its place.
    pub fn words(self, ring: &dyn Ring, random: &mut Random, n: usize, sides: Sides) -> Vec<u32> {
        let keys = random.keys(n, Random::word);
        let mut words = vec![0; LENGTH];
        ring.open(&mut words, sides, &keys);
        (0..n as u32).for_each(|x| accepted(ring, &mut words, on(x)));
        let links = self.links(random, sides, &by_key(&words));
        link(ring, &mut words, links);
        words
    }

    /// The pairs (x, y) of which x is to hold y.
    fn links(self, random: &mut Random, sides: Sides, by_key: &[usize]) -> Vec<(usize, usize)> {
        let others = 1..by_key.len();
        match self {
            Start::Tree => others.map(|x| (x, random.below(x))).collect(),
            Start::Line => others.map(|x| (x, x - 1)).collect(),
            Start::Star => others.map(|x| (x, 0)).collect(),
            Start::Rings(count) => rings(random, sides, by_key, count),
            Start::TwiceRound => {
                let (first, second) = (by_key.iter().step_by(2), by_key.iter().skip(1).step_by(2));
                circle(sides, &first.chain(second).copied().collect::<Vec<_>>())
            }
            Start::Settled => circle(sides, by_key),
        }
    }
}

/// The nodes whose numbers leave the same remainder are a ring.
fn rings(random: &mut Random, sides: Sides, by_key: &[usize], count: usize) -> Vec<(usize, usize)> {
    let members = |ring: usize| by_key.iter().copied().filter(|x| x % count == ring).collect::<Vec<_>>();
    let mut links: Vec<_> = (0..count).flat_map(|ring| circle(sides, &members(ring))).collect();
    links.extend((1..count).map(|ring| (random.pick(&members(ring)), random.pick(&members(0)))));
    links
}

/// Each of the nodes holds the A after it and the B before it.
fn circle(sides: Sides, nodes: &[usize]) -> Vec<(usize, usize)> {
    let n = nodes.len();
    let after = (1..n).take(sides.clockwise as usize);
    let before = (1..n).rev().take(sides.counter_clockwise as usize);
    let steps: Vec<usize> = after.chain(before).collect();
    let links = |place: usize| steps.iter().map(move |step| (nodes[place], nodes[(place + step) % n]));
    (0..n).flat_map(links).collect()
}

/// Each running node and the next running one clockwise.
pub fn each_and_next(words: &[u32]) -> Vec<(usize, usize)> {
    circle(Sides::from((1, 0)), &by_key(words))
}

/// Each node contacts the next one clockwise.
pub fn contact_next(ring: &dyn Ring, words: &mut [u32]) {
    let next = each_and_next(words);
    link(ring, words, next);
}

/// The leafset of each running node in all of them, bit s for node s: that of a ring in which each holds all others. Of
/// a node that is off, none.
pub fn leafsets(ring: &dyn Ring, words: &[u32]) -> Vec<u64> {
    let n = look::nodes(words);
    let keys: Vec<u32> = (0..n).map(|x| look::key(words, x)).collect();
    let running: Vec<bool> = (0..n).map(|x| look::is_running(words, x)).collect();
    let others = |x| (0..n).filter(|&z| z != x && running[z]).collect();
    let all = routes::ring(look::sides(words), &keys, &running, others);
    (0..n as u32).map(|x| ring.leafset_of(&all, x).1).collect()
}

/// The running nodes by rising key.
pub fn by_key(words: &[u32]) -> Vec<usize> {
    let mut nodes: Vec<usize> = (0..look::nodes(words)).filter(|&x| look::is_running(words, x)).collect();
    nodes.sort_by_key(|&x| look::key(words, x));
    nodes
}

/// x contacts y for each pair, and both messages are delivered at once.
fn link(ring: &dyn Ring, words: &mut [u32], links: Vec<(usize, usize)>) {
    for (x, y) in links {
        accepted(ring, words, contact(x as u32, y as u32));
        (0..2).for_each(|_| accepted(ring, words, deliver(0)));
    }
}

fn accepted(ring: &dyn Ring, words: &mut [u32], word: u32) {
    assert_eq!(ring.play(words, word), 0, "{word:08X} is accepted");
}
