//! The two screens of document 02's note 9: asked for on words of any length, over old values of any sort, and what came
//! of them.

use crate::look;
use crate::random::Random;
use crate::ring::{Conductor, Ring, Sides, Technician};
use crate::LENGTH;
use std::fmt;

/// Both screens and the part to ask for: how many words are lent, and a number that determines what the places have
/// before.
#[derive(Clone, Copy)]
pub struct Screens {
    pub lent: usize,
    pub old: u32,
}

/// What an implementation shows.
#[derive(PartialEq)]
pub struct Seen {
    pub conductor_answer: u32,
    pub conductor: Conductor,
    pub answer: u32,
    pub technician: Box<Technician>,
    /// The words of the part, and where it begins if it has any.
    pub part: Vec<u32>,
    start: Option<usize>,
}

impl Screens {
    pub fn any(random: &mut Random) -> Screens {
        let wrong = random.pick(&[0, 1, 129, 8_321, LENGTH - 1, LENGTH - 1, LENGTH + 1, LENGTH + 1]);
        Screens { lent: if random.percent(90) { LENGTH } else { wrong }, old: random.word() }
    }

    /// On the words, or on fewer, or on one more.
    pub fn ask(&self, ring: &dyn Ring, words: &[u32]) -> Seen {
        let more = [words, &[self.old]].concat();
        let words = &more[..self.lent];
        let mut conductor = old_conductor(&mut Random::new(self.old as u64, 0));
        let mut technician = old_technician(&mut Random::new(self.old as u64, 1));
        let conductor_answer = ring.conductor(words, &mut conductor);
        let answer = ring.technician(words, &mut technician);
        let part = ring.messages(words);
        let start = (!part.is_empty()).then(|| (part.as_ptr() as usize - words.as_ptr() as usize) / 4);
        Seen { conductor_answer, conductor, answer, technician, part: part.to_vec(), start }
    }
}

/// Numbers of every sort, so that a place that is not written shows.
fn old_conductor(old: &mut Random) -> Conductor {
    let sides = Sides { clockwise: old.word(), counter_clockwise: old.word() };
    let (nodes, running) = (old.word(), old.next());
    Conductor { sides, nodes, running, keys: [(); 64].map(|_| old.word()), leafsets: [(); 64].map(|_| old.next()) }
}

fn old_technician(old: &mut Random) -> Box<Technician> {
    let mut technician = Box::new(Technician { conductor: old_conductor(old), ..Technician::EMPTY });
    technician.candidates.iter_mut().for_each(|set| *set = old.next());
    technician.stamps.iter_mut().for_each(|stamp| *stamp = old.word());
    technician.spares.iter_mut().for_each(|spare| *spare = old.word() as u8);
    technician
}

impl Seen {
    /// Names of what two show otherwise.
    pub fn differing(&self, other: &Seen) -> Vec<&'static str> {
        let (one, two) = (&self.technician, &other.technician);
        let answers = (self.conductor_answer, self.answer) != (other.conductor_answer, other.answer);
        let more = [
            ("answers", answers),
            ("candidates", one.candidates != two.candidates),
            ("stamps", one.stamps != two.stamps),
            ("spares", one.spares != two.spares),
            ("messages", (self.start, &self.part) != (other.start, &other.part)),
        ];
        let mut names = conductors_differ(&self.conductor, &other.conductor);
        let of_technician = conductors_differ(&one.conductor, &two.conductor);
        names.extend(of_technician.into_iter().filter(|_| self.conductor == other.conductor));
        names.extend(more.into_iter().filter(|(_, differ)| *differ).map(|(name, _)| name));
        names
    }
}

fn conductors_differ(one: &Conductor, other: &Conductor) -> Vec<&'static str> {
    let parts = [
        ("A and B", one.sides != other.sides),
        ("n", one.nodes != other.nodes),
        ("running", one.running != other.running),
        ("keys", one.keys != other.keys),
        ("leafsets", one.leafsets != other.leafsets),
    ];
    parts.into_iter().filter(|(_, differ)| *differ).map(|(name, _)| name).collect()
}

impl fmt::Display for Screens {
    fn fmt(&self, f: &mut fmt::Formatter) -> fmt::Result {
        write!(f, "screens({} words, old {:X})", self.lent, self.old)
    }
}

/// What came of them.
#[derive(Clone, Copy, Default)]
pub struct Tally {
    /// By the technician's answer.
    answers: [u64; 7],
    /// Accepted ones that show no message, and the words of all parts.
    without_messages: u64,
    part_words: u64,
    /// Nodes that are off, leafsets that are smaller than the held set, and spares on accepted screens.
    off: u64,
    chosen: u64,
    spares: u64,
}

impl Tally {
    pub fn count(&self) -> u64 {
        self.answers.iter().sum()
    }

    pub fn add(&mut self, other: &Tally) {
        self.answers.iter_mut().zip(other.answers).for_each(|(sum, count)| *sum += count);
        self.without_messages += other.without_messages;
        self.part_words += other.part_words;
        self.off += other.off;
        self.chosen += other.chosen;
        self.spares += other.spares;
    }

    /// Counts screens of the words.
    pub fn note(&mut self, words: &[u32], seen: &Seen) {
        self.answers[seen.answer as usize] += 1;
        if seen.answer != 0 {
            return;
        }
        let Conductor { running, nodes, leafsets, .. } = &seen.conductor;
        let n = *nodes as usize;
        self.without_messages += seen.part.is_empty() as u64;
        self.part_words += seen.part.len() as u64;
        self.off += (0..n).filter(|x| running >> x & 1 == 0).count() as u64;
        self.chosen += (0..n).filter(|&x| leafsets[x] != look::held(words, x)).count() as u64;
        self.spares += (0..64 * n).filter(|at| at % 64 < n && at / 64 != at % 64)
            .filter(|&at| seen.technician.spares[at] != 64).count() as u64;
    }
}

impl fmt::Display for Tally {
    fn fmt(&self, f: &mut fmt::Formatter) -> fmt::Result {
        let Tally { answers, without_messages, part_words, off, chosen, spares } = self;
        writeln!(f, "{} times both screens and the part; answers 0 to 6: {answers:?}", self.count())?;
        write!(f, "  {part_words} words of messages, {without_messages} times none; {off} nodes off, ")?;
        write!(f, "{chosen} leafsets smaller than the held set, {spares} spares")
    }
}
