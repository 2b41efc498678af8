//! A stage that is played until every node holds exactly its leafset.

use super::simulated::{Conditions, Stage};
use super::starts::{contact_next, leafsets, Start};
use super::{in_threads, Plan};
use crate::look;
use crate::random::Random;
use crate::ring::{Ring, Sides};
use std::fmt::Debug;

#[derive(Clone, Copy, Debug)]
pub struct Case {
    pub start: Start,
    pub n: usize,
    pub leaves: u32,
    pub conditions: Conditions,
    /// Each node has contacted the next one clockwise.
    pub next_contacted: bool,
    /// The case is given up after so many seconds.
    pub limit: usize,
}

impl Case {
    pub fn new(start: Start, n: usize, leaves: u32, conditions: Conditions) -> Case {
        Case { start, n, leaves, conditions, next_contacted: false, limit: 500 }
    }

    fn run(&self, ring: &dyn Ring, mut random: Random) -> Settling {
        let mut words = self.start.words(ring, &mut random, self.n, Sides::from(self.leaves));
        if self.next_contacted {
            contact_next(ring, &mut words);
        }
        let leafsets = leafsets(ring, &words);
        let mut stage = Stage::new(ring, random, words, self.conditions);
        Settling::of(&mut stage, &leafsets, self.limit)
    }
}

/// Each run of each case has random numbers of its own.
pub fn random_of(case: &impl Debug, seed: u64, run: usize) -> Random {
    let text = format!("{case:?} {run}");
    Random::new(seed, text.bytes().fold(0, |sum: u64, byte| sum.wrapping_mul(31).wrapping_add(byte as u64)))
}

/// After how many seconds every node holds at least, and exactly, its leafset.
pub struct Settling {
    pub covered: Option<usize>,
    pub exact: Option<usize>,
}

impl Settling {
    /// Plays the stage until every node holds exactly its leafset, or for so many seconds.
    pub fn of(stage: &mut Stage, leafsets: &[u64], limit: usize) -> Settling {
        let mut settling = Settling { covered: None, exact: None };
        for second in 0..=limit {
            settling.look(second, &stage.words, leafsets);
            if settling.exact.is_some() {
                break;
            }
            stage.second();
        }
        settling
    }

    fn look(&mut self, second: usize, words: &[u32], leafsets: &[u64]) {
        if covers(words, leafsets) {
            self.covered.get_or_insert(second);
        }
        if (0..leafsets.len()).all(|x| look::held(words, x) == leafsets[x]) {
            self.exact.get_or_insert(second);
        }
    }
}

/// Whether every node holds at least its leafset.
pub fn covers(words: &[u32], leafsets: &[u64]) -> bool {
    (0..leafsets.len()).all(|x| look::held(words, x) & leafsets[x] == leafsets[x])
}

/// Each case as often as the plan says.
pub fn run_all(ring: &dyn Ring, plan: &Plan, cases: &[Case]) -> Vec<Vec<Settling>> {
    let seeds = plan.seeds;
    let run = |number: usize| {
        let case = &cases[number / seeds];
        case.run(ring, random_of(case, plan.seed, number % seeds))
    };
    let mut runs = in_threads(plan.threads, cases.len() * seeds, run).into_iter();
    cases.iter().map(|_| runs.by_ref().take(seeds).collect()).collect()
}

/// The median and the most of seconds, none of which is over the limit where it is known.
pub fn median_and_most(seconds: impl Iterator<Item = Option<usize>>, limit: usize) -> String {
    let mut seconds: Vec<usize> = seconds.map(|second| second.unwrap_or(usize::MAX)).collect();
    seconds.sort();
    let shown = |second: usize| if second > limit { format!(">{limit}") } else { second.to_string() };
    format!("{} {}", shown(seconds[seconds.len() / 2]), shown(seconds[seconds.len() - 1]))
}
