//! Demand 3, judged in a run: from a point with no acknowledgement (type 10) and no type 13 from a running node in flight,
//! as long as no on or off is accepted and each accepted notice names a node that is off, connected nodes stay connected.
//! "With echoes among the deliveries, any number of times each": an echoed message is in flight all the while.

use crate::look;

const ACKNOWLEDGEMENT: u32 = 10;
const LEAVE: u32 = 13;

/// For each node the lowest one of its group; for a node that is off, itself.
type Groups = [u8; 64];

/// For each running node the running nodes that it holds.
type Links = [u64; 64];

/// What was really tested.
#[derive(Clone, Copy, Default)]
pub struct Tested {
    /// Points that may be chosen at which two or more nodes were connected.
    pub starts: u64,
    /// Later points that were compared with such a point.
    pub points: u64,
    /// Pairs of both.
    pub spans: u64,
    /// Of the later points, those with an acknowledgement in flight.
    pub acknowledged: u64,
    /// Of the later points, those just after an acknowledgement's echo.
    pub echoed: u64,
    /// Running nodes released by running ones while such a span lasted, and those of them by an acknowledgement's echo.
    pub released: u64,
    pub released_by_echo: u64,
    /// Points that may not be chosen only because a running node's type 13 is in flight.
    pub leaving: u64,
}

impl Tested {
    pub fn add(&mut self, other: Tested) {
        self.starts += other.starts;
        self.points += other.points;
        self.spans += other.spans;
        self.acknowledged += other.acknowledged;
        self.echoed += other.echoed;
        self.released += other.released;
        self.released_by_echo += other.released_by_echo;
        self.leaving += other.leaving;
    }
}

pub struct Unbroken {
    pub tested: Tested,
    /// The links between running nodes at the last point.
    links: Links,
    /// Points in the present stretch that may be chosen, and the groups at the last of them. Groups only grow together
    /// as long as none is parted, so that the last point's are those of all earlier ones joined.
    chosen: u64,
    groups: Option<Groups>,
}

impl Default for Unbroken {
    fn default() -> Unbroken {
        Unbroken { tested: Tested::default(), links: [0; 64], chosen: 0, groups: None }
    }
}

impl Unbroken {
    /// The supposition no longer holds for points so far.
    pub fn restart(&mut self) {
        self.chosen = 0;
        self.groups = None;
    }

    /// After an accepted event: two nodes that it parted, against demand 3.
    pub fn accepted(&mut self, word: u32, named_is_off: bool, words: &[u32]) -> Option<(usize, usize)> {
        let keeps = match word >> 28 {
            9 | 10 => false,
            11 => named_is_off,
            _ => true,
        };
        if !keeps {
            self.restart();
        }
        let links = links(words);
        let groups = groups(&links);
        let acknowledged =
            (0..look::messages(words)).any(|position| look::message_type(words, position) == ACKNOWLEDGEMENT);
        if let Some(before) = self.groups {
            if let Some(a) = (0..64).find(|&a| groups[a] != groups[before[a] as usize]) {
                return Some((before[a] as usize, a));
            }
            self.tested.points += 1;
            self.tested.spans += self.chosen;
            self.tested.acknowledged += acknowledged as u64;
            let released = (0..64).map(|x| (self.links[x] & !links[x]).count_ones() as u64).sum::<u64>();
            self.tested.released += released;
            if echoes_acknowledgement(word, words) {
                self.tested.echoed += 1;
                self.tested.released_by_echo += released;
            }
        }
        self.links = links;
        let connects = (0..64).any(|a| groups[a] as usize != a);
        let leaving = !acknowledged && leaves(words);
        self.tested.leaving += leaving as u64;
        if !acknowledged && !leaving && connects {
            self.tested.starts += 1;
            self.chosen += 1;
            self.groups = Some(groups);
        }
        None
    }
}

/// Whether the word, which was accepted, is an echo of an acknowledgement, which is in its position still.
fn echoes_acknowledgement(word: u32, words: &[u32]) -> bool {
    word >> 28 == 14 && word >> 10 & 1 == 1 && look::message_type(words, word as usize & 1_023) == ACKNOWLEDGEMENT
}

/// Whether a type 13 from a running node is in flight.
fn leaves(words: &[u32]) -> bool {
    let of_running = |&position: &usize| look::is_running(words, look::sender(words, position));
    (0..look::messages(words)).filter(of_running).any(|position| look::message_type(words, position) == LEAVE)
}

fn links(words: &[u32]) -> Links {
    let n = look::nodes(words);
    let running = (0..n).fold(0u64, |set, x| set | (look::is_running(words, x) as u64) << x);
    std::array::from_fn(|x| if running >> x & 1 == 1 { look::held(words, x) & running } else { 0 })
}

fn groups(links: &Links) -> Groups {
    let mut beside = *links;
    for x in 0..64 {
        members(links[x]).for_each(|z| beside[z] |= 1 << x);
    }
    let mut groups: Groups = std::array::from_fn(|a| a as u8);
    let mut left = u64::MAX;
    while left != 0 {
        let lowest = left.trailing_zeros();
        let (mut group, mut new) = (1u64 << lowest, 1u64 << lowest);
        while new != 0 {
            new = members(new).fold(0, |set, x| set | beside[x]) & !group;
            group |= new;
        }
        members(group).for_each(|x| groups[x] = lowest as u8);
        left &= !group;
    }
    groups
}

fn members(set: u64) -> impl Iterator<Item = usize> {
    std::iter::successors(Some(set), |&left| Some(left & left.wrapping_sub(1)))
        .take_while(|&left| left != 0)
        .map(|left| left.trailing_zeros() as usize)
}
