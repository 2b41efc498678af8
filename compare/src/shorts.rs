//! Conversions of document 02's note 14, each way: rings turned short and short inputs made long, many of them damaged.

mod inputs;

use crate::look;
use crate::random::Random;
use crate::ring::{Ring, Shortened};
use crate::LENGTH;
use std::collections::BTreeMap;
use std::sync::atomic::{AtomicBool, Ordering};
use std::{fmt, thread};

/// Conversions each way of every ring.
const TURNS: u64 = 20;

#[derive(Clone, Copy, PartialEq, Debug)]
enum Way {
    ToShort,
    ToLong,
}

/// A conversion to ask for.
struct Conversion {
    way: Way,
    source: Vec<u32>,
    /// What the lent buffer has before, of one word more than a ring, and how many words of it are lent.
    old: Vec<u32>,
    lent: usize,
}

/// What it gives: the answer, the length, 0 where it isn't told, and the buffer after it.
#[derive(PartialEq)]
struct Given {
    answer: u32,
    written: usize,
    buffer: Vec<u32>,
}

impl Conversion {
    /// What an implementation gives, or what is wrong without another's.
    fn ask(&self, ring: &dyn Ring) -> Result<Given, String> {
        let (source, mut buffer) = (self.source.clone(), self.old.clone());
        let place = &mut buffer[..self.lent];
        let Shortened { answer, written } = match self.way {
            Way::ToShort => ring.shorten(&source, place),
            Way::ToLong => Shortened { answer: ring.lengthen(&source, place), written: 0 },
        };
        if std::hint::black_box(source) != self.source {
            return Err("the source is written".into());
        }
        let given = Given { answer, written: written as usize, buffer };
        let end = if answer == 0 { self.result(&given).len() } else { 0 };
        if given.buffer[end..] != self.old[end..] || answer != 0 && written != 0 {
            return Err(format!("answer {answer}, length {written}, and the buffer is written where it may not be"));
        }
        Ok(given)
    }

    /// The words that an accepted conversion writes.
    fn result<'a>(&self, given: &'a Given) -> &'a [u32] {
        match self.way {
            Way::ToShort => &given.buffer[..given.written.min(self.lent)],
            Way::ToLong => &given.buffer[..LENGTH],
        }
    }

    /// "A ring turned short and back is itself, and so is a short ring made long and short again."
    fn and_back(&self, ring: &dyn Ring, given: &Given) -> Result<(), String> {
        let (length, written) = (look::short_length(self.source[0]), given.written);
        if self.way == Way::ToShort && written != length {
            return Err(format!("{written} words where the short edition has {length}"));
        }
        let (way, lent) = match self.way {
            Way::ToShort => (Way::ToLong, LENGTH),
            Way::ToLong => (Way::ToShort, LENGTH + 1),
        };
        let back = Conversion { way, source: self.result(given).to_vec(), old: self.old.clone(), lent };
        let again = back.ask(ring)?;
        if again.answer != 0 || back.result(&again) != self.source {
            return Err(format!("there and back is another, answer {}", again.answer));
        }
        Ok(())
    }

    /// On every implementation; accepted, also back.
    fn run(&self, rings: &[&dyn Ring], tally: &mut Tally) -> Result<(), String> {
        let named = |ring: &dyn Ring, line: String| format!("{}: {line}", ring.name());
        let first = self.ask(rings[0]).map_err(|line| named(rings[0], line))?;
        for &ring in &rings[1..] {
            let given = self.ask(ring).map_err(|line| named(ring, line))?;
            if given != first {
                let differ = given.buffer.iter().zip(&first.buffer).filter(|(one, other)| one != other).count();
                let replies = [(ring, given), (rings[0], first)];
                let replies = replies.map(|(ring, given)| {
                    format!("{} answers {}, length {}", ring.name(), given.answer, given.written)
                });
                return Err(format!("{}; {differ} words differ", replies.join(", ")));
            }
        }
        tally.note(self, &first);
        if first.answer != 0 {
            return Ok(());
        }
        rings.iter().try_for_each(|&ring| self.and_back(ring, &first).map_err(|line| named(ring, line)))
    }
}

/// The words of the source that say something, with their places.
impl fmt::Display for Conversion {
    fn fmt(&self, f: &mut fmt::Formatter) -> fmt::Result {
        write!(f, "{:?}, {} words, {} lent:", self.way, self.source.len(), self.lent)?;
        let says = |word: u32| word != 0 && word != 3 << 28 && word != 4 << 28 | 64;
        let mut words = self.source.iter().enumerate().filter(|(_, &word)| says(word));
        words.try_for_each(|(at, word)| write!(f, " @{at}={word:08X}"))
    }
}

/// Accepted conversions of rings with so many nodes, and with so many messages, are counted.
const NODES: [usize; 5] = [1, 2, 3, 63, 64];
const MESSAGES: [usize; 3] = [0, 1, 1_024];

/// What came of them.
#[derive(Clone, Default)]
pub struct Tally {
    /// By answer, each way.
    answers: [BTreeMap<u32, u64>; 2],
    nodes: [u64; NODES.len()],
    messages: [u64; MESSAGES.len()],
    /// Places lent for rings, of 0 words, one too few, just enough, one more, and 13,441.
    places: [u64; 5],
    /// Short inputs, by their length.
    few: [u64; 21],
}

impl Tally {
    fn add(&mut self, other: &Tally) {
        for (sums, counts) in self.answers.iter_mut().zip(&other.answers) {
            counts.iter().for_each(|(&answer, count)| *sums.entry(answer).or_default() += count);
        }
        let add = |sums: &mut [u64], counts: &[u64]| sums.iter_mut().zip(counts).for_each(|(sum, count)| *sum += count);
        add(&mut self.nodes, &other.nodes);
        add(&mut self.messages, &other.messages);
        add(&mut self.places, &other.places);
        add(&mut self.few, &other.few);
    }

    fn note(&mut self, conversion: &Conversion, given: &Given) {
        let Conversion { way, source, lent, .. } = conversion;
        *self.answers[*way as usize].entry(given.answer).or_default() += 1;
        if *way == Way::ToLong {
            self.few.get_mut(source.len()).into_iter().for_each(|count| *count += 1);
        } else if given.answer == 0 || given.answer == 20 {
            let length = look::short_length(source[0]);
            note(&mut self.places, &[0, length - 1, length, length + 1, LENGTH], *lent);
        }
        if given.answer == 0 {
            note(&mut self.nodes, &NODES, look::nodes(source));
            note(&mut self.messages, &MESSAGES, look::messages(source));
        }
    }
}

/// Counts what the value is one of.
fn note(counts: &mut [u64], values: &[usize], value: usize) {
    values.iter().position(|&known| known == value).into_iter().for_each(|place| counts[place] += 1);
}

impl fmt::Display for Tally {
    fn fmt(&self, f: &mut fmt::Formatter) -> fmt::Result {
        let Tally { answers: [to_short, to_long], nodes, messages, places, few } = self;
        let count: u64 = to_short.values().sum();
        writeln!(f, "{count} conversions each way; rings turned short, by answer: {to_short:?}")?;
        writeln!(f, "  short inputs made long, by answer: {to_long:?}")?;
        writeln!(f, "  accepted, with {NODES:?} nodes: {nodes:?}, with {MESSAGES:?} messages: {messages:?}")?;
        writeln!(f, "  places of 0 words, one too few, just enough, one more, 13441: {places:?}")?;
        write!(f, "  short inputs of 0 to 20 words: {few:?}")
    }
}

/// What came of so many conversions each way, and a line for each thread that found something.
#[derive(Default)]
pub struct Made {
    pub tally: Tally,
    pub found: Vec<String>,
}

impl Made {
    pub fn run(seed: u64, count: u64, threads: u64, rings: &[&dyn Ring]) -> Made {
        let (share, stop) = (count.div_ceil(threads), AtomicBool::new(false));
        let parts: Vec<Made> = thread::scope(|scope| {
            let start = |number| {
                let (random, stop) = (Random::new(seed, u64::MAX / 32 - number), &stop);
                scope.spawn(move || Made::run_thread(random, share, rings, stop))
            };
            let threads: Vec<_> = (0..threads).map(start).collect();
            threads.into_iter().map(|thread| thread.join().unwrap()).collect()
        });
        let mut made = Made::default();
        for part in parts {
            made.tally.add(&part.tally);
            made.found.extend(part.found);
        }
        made
    }

    fn run_thread(mut random: Random, count: u64, rings: &[&dyn Ring], stop: &AtomicBool) -> Made {
        let mut made = Made::default();
        let (mut other, mut words) = (Vec::new(), inputs::ring(&mut random, rings[0]));
        for number in 0..count {
            if stop.load(Ordering::Relaxed) {
                break;
            }
            if number % TURNS == 0 {
                other = std::mem::replace(&mut words, inputs::ring(&mut random, rings[0]));
            }
            for to in [inputs::to_short, inputs::to_long] {
                let conversion = to(&mut random, &words, &other);
                if let Err(line) = conversion.run(rings, &mut made.tally) {
                    stop.store(true, Ordering::Relaxed);
                    made.found.push(format!("conversion {number}: {line}\n{conversion}"));
                }
            }
        }
        made
    }
}
