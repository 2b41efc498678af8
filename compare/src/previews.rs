//! Previews of document 02's note 6: random ones, and what came of them.

use crate::random::Random;
use crate::ring::Ring;
use crate::{ANSWERS, LENGTH};
use std::fmt;

/// A preview to ask for: the event word, and how many words of the second buffer are lent.
#[derive(Clone, Copy)]
pub struct Preview {
    pub word: u32,
    pub lent: usize,
    pub old: Old,
}

/// What the second buffer has before, in one word more than a ring.
#[derive(Clone, Copy)]
pub enum Old {
    /// Words that the number determines, all different.
    Pattern(u32),
    /// The ring as it was opened.
    Opening,
    /// What a preview of this word leaves.
    Preview(u32),
}

impl Preview {
    /// A preview of the word that is played next, or of any.
    pub fn any(random: &mut Random, next: u32, any: u32) -> Preview {
        let word = match random.below(100) {
            0..=59 => next,
            60..=94 => any,
            95..=97 => next ^ 1 << random.below(32),
            _ => random.word(),
        };
        Preview { word, lent: lent(random), old: Old::any(random, any) }
    }

    /// The answer of an implementation, and the second buffer after it.
    pub fn ask(&self, ring: &dyn Ring, words: &mut [u32], opening: &[u32]) -> (u32, Vec<u32>) {
        let mut second = self.old.words(ring, words, opening);
        let answer = ring.preview(words, self.word, &mut second[..self.lent]);
        (answer, second)
    }
}

fn lent(random: &mut Random) -> usize {
    if random.percent(85) {
        LENGTH
    } else {
        random.pick(&[0, 1, LENGTH - 1, LENGTH + 1, LENGTH + 1])
    }
}

impl Old {
    fn any(random: &mut Random, word: u32) -> Old {
        match random.below(100) {
            0..=59 => Old::Pattern(random.word()),
            60..=79 => Old::Opening,
            _ => Old::Preview(word),
        }
    }

    fn words(self, ring: &dyn Ring, words: &mut [u32], opening: &[u32]) -> Vec<u32> {
        let number = if let Old::Pattern(number) = self { number } else { 0 };
        let mut old: Vec<u32> = (0..=LENGTH as u32).map(|place| number ^ place.wrapping_mul(0x9E37_79B1)).collect();
        match self {
            Old::Pattern(_) => {}
            Old::Opening => old[..LENGTH].copy_from_slice(opening),
            Old::Preview(word) => _ = ring.preview(words, word, &mut old[..LENGTH]),
        }
        old
    }
}

impl fmt::Display for Preview {
    fn fmt(&self, f: &mut fmt::Formatter) -> fmt::Result {
        let Preview { word, lent, old } = self;
        write!(f, "preview({word:08X} in {lent} words, old {old})")
    }
}

impl fmt::Display for Old {
    fn fmt(&self, f: &mut fmt::Formatter) -> fmt::Result {
        match self {
            Old::Pattern(number) => write!(f, "{number:X}"),
            Old::Opening => write!(f, "opening"),
            Old::Preview(word) => write!(f, "preview of {word:08X}"),
        }
    }
}

/// What came of them.
#[derive(Clone, Copy, Default)]
pub struct Tally {
    /// By answer.
    answers: [u64; ANSWERS],
}

impl Tally {
    pub fn count(&self) -> u64 {
        self.answers.iter().sum()
    }

    pub fn add(&mut self, other: &Tally) {
        self.answers.iter_mut().zip(other.answers).for_each(|(sum, count)| *sum += count);
    }

    pub fn note(&mut self, answer: u32) {
        self.answers[answer as usize] += 1;
    }
}

impl fmt::Display for Tally {
    fn fmt(&self, f: &mut fmt::Formatter) -> fmt::Result {
        write!(f, "{} previews; answers 0 to 17: {:?}", self.count(), self.answers)
    }
}
