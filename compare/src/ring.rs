//! The calls that every implementation has. An answer is 0, accepted, or the refusal's number of documents 01 and 02.

/// How many nodes a leafset has: A clockwise, B counter-clockwise.
#[derive(Clone, Copy, Debug, PartialEq, Eq)]
pub struct Sides {
    pub clockwise: u32,
    pub counter_clockwise: u32,
}

impl Sides {
    /// As word 0 has them: A in bits 0-3, B in bits 22-25.
    pub fn of_word(word: u32) -> Sides {
        Sides { clockwise: word & 15, counter_clockwise: word >> 22 & 15 }
    }

    pub fn bits(self) -> u32 {
        self.clockwise | self.counter_clockwise << 22
    }

    /// "each 1 to 8"
    pub fn fit(self) -> bool {
        (1..=8).contains(&self.clockwise) && (1..=8).contains(&self.counter_clockwise)
    }

    pub fn both(self) -> usize {
        (self.clockwise + self.counter_clockwise) as usize
    }
}

/// The same on both sides.
impl From<u32> for Sides {
    fn from(each: u32) -> Sides {
        Sides { clockwise: each, counter_clockwise: each }
    }
}

/// A, then B.
impl From<(u32, u32)> for Sides {
    fn from((clockwise, counter_clockwise): (u32, u32)) -> Sides {
        Sides { clockwise, counter_clockwise }
    }
}

/// What a route gives beside the nodes in its list, and what a reach gives.
#[derive(Clone, Copy, Debug, PartialEq, Eq)]
pub struct Routed {
    pub answer: u32,
    pub end: u32,
    pub hops: u32,
}

impl Routed {
    /// "A refused route answers 0 hops and stand 64", and so does a refused reach.
    pub fn refused(answer: u32) -> Routed {
        Routed { answer, end: 64, hops: 0 }
    }
}

/// What a ring turned short gives beside the words in its place.
#[derive(Clone, Copy, Debug, PartialEq, Eq)]
pub struct Shortened {
    pub answer: u32,
    /// "the length written, 0 if refused"
    pub written: u32,
}

/// What the conductor's screen shows, bit s of a set for node s.
#[derive(Clone, Debug, PartialEq, Eq)]
pub struct Conductor {
    pub sides: Sides,
    pub nodes: u32,
    pub running: u64,
    pub keys: [u32; 64],
    /// Of each running node, in its held set.
    pub leafsets: [u64; 64],
}

/// What the technician's shows. Of the pair (x, z) the stamp and the spare are at 64 x + z.
#[derive(Clone, Debug, PartialEq, Eq)]
pub struct Technician {
    pub conductor: Conductor,
    pub candidates: [u64; 64],
    pub stamps: [u32; 4_096],
    pub spares: [u8; 4_096],
}

impl Conductor {
    /// "A refused screen call gives an empty answer: each number 0, each set empty."
    pub const EMPTY: Conductor = Conductor {
        sides: Sides { clockwise: 0, counter_clockwise: 0 },
        nodes: 0,
        running: 0,
        keys: [0; 64],
        leafsets: [0; 64],
    };
}

impl Technician {
    pub const EMPTY: Technician =
        Technician { conductor: Conductor::EMPTY, candidates: [0; 64], stamps: [0; 4_096], spares: [0; 4_096] };
}

/// Plays words one by one, and writes the answer of each to its place, if there is one.
pub fn play_each(list: &[u32], answers: &mut [u8], mut play: impl FnMut(u32) -> u32) {
    for (place, &word) in list.iter().enumerate() {
        let answer = play(word) as u8;
        answers.get_mut(place).into_iter().for_each(|place| *place = answer);
    }
}

pub trait Ring: Sync {
    fn name(&self) -> &'static str;

    /// Writes the initial ring of A, B and the keys over the words.
    fn open(&self, words: &mut [u32], sides: Sides, keys: &[u32]) -> u32;

    /// Plays an event word on the ring.
    fn play(&self, words: &mut [u32], word: u32) -> u32;

    /// Plays an event word on a copy of the ring, which the second buffer becomes where it is accepted. The ring is lent as
    /// one that can be written, so that an implementation that does so is found.
    fn preview(&self, words: &mut [u32], word: u32, second: &mut [u32]) -> u32;

    /// Writes the join of two rings over a third buffer: the first's nodes keep their numbers.
    fn join(&self, first: &[u32], second: &[u32], joined: &mut [u32]) -> u32;

    /// Writes the short edition of the ring over the first words of a place.
    fn shorten(&self, words: &[u32], place: &mut [u32]) -> Shortened;

    /// Writes the ring of a short edition over the words.
    fn lengthen(&self, short: &[u32], words: &mut [u32]) -> u32;

    /// Plays the words of a list, and writes the answer of each to its place, if there is one. Answers for the buffer
    /// alone: by 1 or 6 nothing is played. Where an implementation has no such call they are played one by one.
    fn play_all(&self, words: &mut [u32], list: &[u32], answers: &mut [u8]) -> u32 {
        let (answer, _) = self.groups(words);
        if answer == 0 {
            play_each(list, answers, |word| self.play(words, word));
        }
        answer
    }

    /// The leafset of a node in its held set, bit s for node s.
    fn leafset_of(&self, words: &[u32], node: u32) -> (u32, u64);

    fn connected(&self, words: &[u32], a: u32, b: u32) -> (u32, bool);

    /// The number of connected groups of running nodes: 0 where refused, by 1 or 6.
    fn groups(&self, words: &[u32]) -> (u32, u32);

    /// The route from a node towards a key: its nodes, the start first and the end last, go to the list's first places.
    fn route(&self, words: &[u32], start: u32, key: u32, list: &mut [u8]) -> Routed;

    /// The reach from a node to the owner of a key.
    fn reach(&self, words: &[u32], start: u32, key: u32) -> Routed;

    /// The conductor's screen. Each place is written at every call, so that what was shown before doesn't matter.
    fn conductor(&self, words: &[u32], screen: &mut Conductor) -> u32;

    /// The technician's screen but for the messages, likewise.
    fn technician(&self, words: &[u32], screen: &mut Technician) -> u32;

    /// The messages in flight as a part of the words, which is empty where the technician's screen is refused.
    fn messages<'a>(&self, words: &'a [u32]) -> &'a [u32];
}
